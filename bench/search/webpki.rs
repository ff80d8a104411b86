//! Times webpki's check of servers' certificates on bags, signatures included: webpki FILE...
//!
//! A file has the anchors, the target and the others (bags.py). Prints, for each file, its name, the least time of a call in microseconds,
//! and what is said of the target. The anchors and the target are read before; webpki reads the others in each call.

use std::time::{Duration, Instant};
use std::{env, fs};

use webpki::{EndEntityCert, Time, TlsServerTrustAnchors, TrustAnchor, ECDSA_P256_SHA256};

/// 2026-07-01T00:00:00Z
const MOMENT: u64 = 1_782_864_000;
const ROUNDS: usize = 20;
/// Behind a call that takes so long there is no other.
const LONG: Duration = Duration::from_secs(2);

/// What is left of a file.
struct Left<'a>(&'a [u8]);

impl<'a> Left<'a> {
    fn take(&mut self, length: usize) -> &'a [u8] {
        let (taken, left) = self.0.split_at(length);
        self.0 = left;
        taken
    }

    fn number(&mut self) -> usize {
        u32::from_le_bytes(self.take(4).try_into().expect("four octets")) as usize
    }

    fn list(&mut self) -> Vec<&'a [u8]> {
        (0..self.number()).map(|_| {
            let length = self.number();
            self.take(length)
        }).collect()
    }
}

/// The least time of some calls, and what the last one answers.
fn least_time(anchors: &[&[u8]], target: &[u8], others: &[&[u8]]) -> Result<(Duration, String), webpki::Error> {
    let anchors: Result<Vec<TrustAnchor>, webpki::Error> = anchors.iter().map(|it| TrustAnchor::try_from_cert_der(it)).collect();
    let anchors = anchors?;
    let target = EndEntityCert::try_from(target)?;
    let (mut least, mut said) = (Duration::MAX, String::new());
    for _ in 0..ROUNDS {
        let moment = Time::from_seconds_since_unix_epoch(MOMENT);
        let start = Instant::now();
        let answer = target.verify_is_valid_tls_server_cert(&[&ECDSA_P256_SHA256], &TlsServerTrustAnchors(&anchors), others, moment);
        least = least.min(start.elapsed());
        said = answer.map_or_else(|error| error.to_string(), |()| "valid".into());
        if least > LONG {
            break;
        }
    }
    Ok((least, said))
}

fn main() {
    for file in env::args().skip(1) {
        let octets = fs::read(&file).expect("a file");
        let mut left = Left(&octets);
        let (anchors, target, others) = (left.list(), left.list(), left.list());
        let name = file.rsplit('/').next().unwrap_or(&file);
        match least_time(&anchors, target[0], &others) {
            Ok((least, said)) => println!("{name}\t{}\t{said}", least.as_micros()),
            Err(error) => println!("{name}\t-\trefused: {error}"),
        }
    }
}
