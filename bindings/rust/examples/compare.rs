//! Answers the cases that bindings/compare writes: compare FILE
//!
//! A case has certificates, statements, fingerprints, a moment and a purpose. Its answer is a line with the verdict, and behind a tab a line
//! of each question: the fingerprint and the four lengths.

use std::{env, fs, process};
use x509check::{Error, Fingerprints, Profile, Query};

/// What is left of a file.
struct Left<'a>(&'a [u8]);

impl<'a> Left<'a> {
    fn take(&mut self, length: usize) -> &'a [u8] {
        let (taken, left) = self.0.split_at(length);
        self.0 = left;
        taken
    }

    fn length(&mut self) -> usize {
        u32::from_be_bytes(self.take(4).try_into().unwrap()) as usize
    }

    fn values(&mut self) -> Vec<&'a [u8]> {
        (0..self.length())
            .map(|_| {
                let length = self.length();
                self.take(length)
            })
            .collect()
    }
}

fn main() {
    let Some(path) = env::args().nth(1) else {
        eprintln!("usage: compare FILE");
        process::exit(2);
    };
    let octets = fs::read(path).expect("the file can be read");
    let mut left = Left(&octets);
    while !left.0.is_empty() {
        let (certificates, statements, prints) = (left.values(), left.values(), left.values());
        let moment = i64::from_be_bytes(left.take(8).try_into().unwrap());
        let purpose = left.values()[0];
        let prints: Vec<[u8; 32]> = prints
            .iter()
            .map(|print| (*print).try_into().unwrap())
            .collect();
        let query = Query {
            anchor: certificates[0],
            path: &certificates[1..],
            statements: &statements,
            moment,
            purpose: (!purpose.is_empty()).then_some(purpose),
            profile: Profile::Stated,
        };
        match query.answer(&Fingerprints(&prints)) {
            Ok(answer) => println!("{}", answer.verdict),
            // The library says so, as the others that are compared: the first of statements that contradict each other counts.
            Err(Error::Contradicted { .. }) => println!("valid"),
            Err(error) => println!("refused {error}"),
        }
        let Ok(questions) = query.signature_questions() else {
            continue;
        };
        for question in questions.iter() {
            let print: String = question
                .fingerprint
                .iter()
                .map(|octet| format!("{octet:02x}"))
                .collect();
            let parts = [
                question.algorithm,
                question.key_info,
                question.message,
                question.signature,
            ];
            let lengths: String = parts
                .iter()
                .map(|part| format!(" {}", part.len()))
                .collect();
            println!("\t{print}{lengths}");
        }
    }
}
