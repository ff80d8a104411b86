//! The lines that answer requests (docs/REFERENCE.md, "session"). What has no form of an answer to its request is none.

use crate::library::{Refusal, VerdictAnswer, INVALID, REVOKED, UNKNOWN, VALID};
use crate::search::Finding;
use crate::verdict::Verdict;

/// The line that greets whoever answers: it is no request, so it changes nothing, and has one answer.
pub(crate) const GREETING: &str = "greeting";

/// What a request asks for, which says how it is answered.
#[derive(Clone, Copy, Debug, PartialEq, Eq)]
pub(crate) enum Form {
    Greeting,
    Believe([u8; 32]),
    Forget,
    Deliver,
    Check,
    Prints,
    Find,
}

/// An answer: the status and the text of its first line, and the lines that it counts.
#[derive(Clone, Debug, PartialEq, Eq)]
pub(crate) struct Reply {
    pub status: u8,
    pub text: String,
    pub lines: Vec<String>,
}

/// How a delivery was counted: facts stored, kept out, and kept out because they contradict what is held.
#[derive(Clone, Copy, Debug, PartialEq, Eq)]
pub(crate) struct Counts {
    pub stored: u64,
    pub kept: u64,
    pub contradicted: u64,
}

/// A number as the program prints it.
fn number(text: &str) -> Option<u64> {
    let value: u64 = text.parse().ok()?;
    (value.to_string() == text).then_some(value)
}

fn index(text: &str) -> Option<usize> {
    usize::try_from(number(text)?).ok()
}

/// How many lines follow; no answer counts a million.
fn line_count(text: &str) -> Option<usize> {
    index(text).filter(|count| *count < 1_000_000)
}

pub(crate) fn counts_in(text: &str) -> Option<Counts> {
    let words: Vec<&str> = text.split(' ').collect();
    let ["stored", stored, "kept", kept, "contradicted", contradicted] = words[..] else {
        return None;
    };
    Some(Counts {
        stored: number(stored)?,
        kept: number(kept)?,
        contradicted: number(contradicted)?,
    })
}

/// The verdict on a path of so many certificates, which a line says beside its status.
pub(crate) fn verdict_in(status: u8, text: &str, certificates: usize) -> Option<Verdict> {
    let words: Vec<&str> = text.split(' ').collect();
    let (verdict, certificate, reason) = match (status, &words[..]) {
        (0, ["valid"]) => (VALID, 0, 0),
        (1, ["invalid", certificate, rank, _]) => (INVALID, index(certificate)?, number(rank)?),
        (2, ["revoked", certificate, reason]) => (REVOKED, index(certificate)?, number(reason)?),
        (3, ["unknown", certificate]) => (UNKNOWN, index(certificate)?, 0),
        _ => return None,
    };
    let answer = VerdictAnswer {
        verdict,
        reason: u32::try_from(reason).ok()?,
        certificate,
        refusal: Refusal::default(),
    };
    let verdict = Verdict::of(&answer, certificates).ok()?;
    // The name of the reason has to be that of its rank.
    let named = match verdict {
        Verdict::Invalid { reason, .. } => format!("{verdict} {reason:?}"),
        _ => verdict.to_string(),
    };
    (named == text).then_some(verdict)
}

/// The words of a request for a path: the operands that an answer names certificates by.
#[derive(Clone, Copy, Debug)]
pub(crate) struct SearchWords<'w> {
    pub anchors: &'w str,
    pub among: Option<&'w str>,
    pub target: &'w str,
}

/// Which certificate of this operand, from 0 on, the line says to have this number on the path.
fn step_in(line: &str, number_on_path: usize, operand: &str) -> Option<usize> {
    let words: Vec<&str> = line.split(' ').collect();
    let [number, named, place] = words[..] else {
        return None;
    };
    let is_step = index(number)? == number_on_path && named == operand;
    index(place)?.checked_sub(1).filter(|_| is_step)
}

/// Which certificates the lines of a path name, each of its operand: an anchor first, the target last, and between them the others.
fn path_in(lines: &[String], words: &SearchWords<'_>) -> Option<Vec<usize>> {
    let last = lines.len().checked_sub(1).filter(|last| *last > 0)?;
    let places: Option<Vec<usize>> = lines
        .iter()
        .enumerate()
        .map(|(number, line)| match number {
            0 => step_in(line, number, words.anchors),
            _ if number == last => step_in(line, number, words.target).filter(|place| *place == 0),
            _ => step_in(line, number, words.among?),
        })
        .collect();
    places
}

/// What the lines of `find` say, if they belong to the status: the finding, and which certificates its path has, each of its operand.
pub(crate) fn finding_in(reply: &Reply, words: &SearchWords<'_>) -> Option<(Finding, Vec<usize>)> {
    let (last, steps) = reply.lines.split_last()?;
    match (reply.status, &last[..], steps.len()) {
        (1, "not found", 0) => Some((Finding::NotFound, Vec::new())),
        (3, "gave up", 0) => Some((Finding::GaveUp, Vec::new())),
        (status, verdict, 2..) => Some((
            Finding::Found(verdict_in(status, verdict, steps.len() - 1)?),
            path_in(steps, words)?,
        )),
        _ => None,
    }
}

/// The fingerprint in a line of `prints`, if it is about what these words say.
pub(crate) fn fingerprint_in(line: &str, words: &str) -> Option<[u8; 32]> {
    let (digits, behind) = line.split_once(' ')?;
    if digits.len() != 64 || behind != words {
        return None;
    }
    let mut print = [0; 32];
    for (octet, pair) in print.iter_mut().zip(digits.as_bytes().chunks_exact(2)) {
        let (high, low) = (digit(pair[0])?, digit(pair[1])?);
        *octet = high << 4 | low;
    }
    Some(print)
}

fn digit(octet: u8) -> Option<u8> {
    match octet {
        b'0'..=b'9' => Some(octet - b'0'),
        b'a'..=b'f' => Some(octet - b'a' + 10),
        _ => None,
    }
}

impl Form {
    /// The status and the text of a first line that answers such a request, and how many lines follow it.
    pub(crate) fn head<'l>(&self, line: &'l str) -> Option<(u8, &'l str, usize)> {
        let (status, text) = line.split_once(' ')?;
        let status = number(status).and_then(|it| u8::try_from(it).ok())?;
        if *self == Form::Greeting {
            return (line == "5 bad line").then_some((status, text, 0));
        }
        if matches!(status, 4..=6) && !text.is_empty() {
            return Some((status, text, 0));
        }
        let (answers, more) = match self {
            Form::Greeting => (false, 0),
            Form::Believe(_) => (status == 0 && text == "believed", 0),
            Form::Forget => (status == 0 && text == "forgotten", 0),
            Form::Deliver => (status == 0 && counts_in(text).is_some(), 0),
            Form::Check => (verdict_in(status, text, usize::MAX).is_some(), 0),
            Form::Prints => (status == 0, line_count(text)?),
            Form::Find => (status <= 3, line_count(text)?),
        };
        answers.then_some((status, text, more))
    }
}

#[cfg(test)]
mod tests {
    use super::*;
    use crate::verdict::Reason;

    fn invalid(certificate: usize, reason: Reason) -> Option<Verdict> {
        Some(Verdict::Invalid {
            certificate,
            reason,
        })
    }

    #[test]
    fn verdicts_as_the_reference_has_them() {
        assert_eq!(verdict_in(0, "valid", 2), Some(Verdict::Valid));
        assert_eq!(
            verdict_in(1, "invalid 1 2 Signature", 2),
            invalid(1, Reason::Signature)
        );
        assert_eq!(
            verdict_in(1, "invalid 0 16 TooLong", 129),
            invalid(0, Reason::TooLong)
        );
        let (certificate, reason) = (2, 1);
        assert_eq!(
            verdict_in(2, "revoked 2 1", 2),
            Some(Verdict::Revoked {
                certificate,
                reason
            })
        );
        assert_eq!(
            verdict_in(3, "unknown 2", 2),
            Some(Verdict::Unknown { certificate })
        );
    }

    #[test]
    fn lines_that_are_no_verdicts() {
        for (status, text) in [
            (0, ""),
            (0, "valid "),
            (0, " valid"),
            (0, "VALID"),
            (1, "valid"),
            (2, "valid"),
            (3, "valid"),
            (4, "valid"),
            (0, "unknown 1"),
            (1, "invalid 1 2"),
            (1, "invalid 1 2 Expired"),
            (1, "invalid 1 2 Signature "),
            (1, "invalid 01 2 Signature"),
            (1, "invalid 3 2 Signature"),
            (1, "invalid 0 2 Signature"),
            (1, "invalid 1 17 Signature"),
            (2, "revoked 2 7"),
            (2, "revoked 0 1"),
            (2, "revoked 3 1"),
            (2, "revoked 2 +1"),
            (2, "revoked 2 4294967297"),
            (3, "unknown 3"),
            (3, "unknown 0"),
            (3, "unknown -1"),
            (3, "unknown 99999999999999999999"),
        ] {
            assert_eq!(verdict_in(status, text, 2), None, "{status} {text}");
        }
    }

    fn found(status: u8, lines: &[&str]) -> Option<(Finding, Vec<usize>)> {
        let words = SearchWords {
            anchors: "roots",
            among: Some("bag"),
            target: "leaf",
        };
        let reply = Reply {
            status,
            text: lines.len().to_string(),
            lines: lines.iter().map(|line| line.to_string()).collect(),
        };
        finding_in(&reply, &words)
    }

    #[test]
    fn findings_as_the_reference_has_them() {
        let path = vec![16, 1, 0];
        let lines = ["0 roots 17", "1 bag 2", "2 leaf 1", "valid"];
        assert_eq!(
            found(0, &lines),
            Some((Finding::Found(Verdict::Valid), path))
        );
        assert_eq!(found(1, &["not found"]), Some((Finding::NotFound, vec![])));
        assert_eq!(found(3, &["gave up"]), Some((Finding::GaveUp, vec![])));
    }

    #[test]
    fn lines_that_are_no_findings() {
        for (status, lines) in [
            (0, &[][..]),
            (0, &["valid"]),
            (0, &["not found"]),
            (3, &["not found"]),
            (1, &["gave up"]),
            (1, &["0 roots 17", "1 leaf 1", "valid"]),
            (0, &["0 roots 17", "2 leaf 1", "valid"]),
            (0, &["0 roots 0", "1 leaf 1", "valid"]),
            (0, &["0 other 1", "1 leaf 1", "valid"]),
            (0, &["0 leaf 1", "valid"]),
            (0, &["0 roots 17", "1 bag 1", "valid"]),
            (0, &["0 bag 1", "1 leaf 1", "valid"]),
            (0, &["0 roots 17", "1 leaf 2", "valid"]),
            (0, &["0 roots 17 ", "1 leaf 1", "valid"]),
            (0, &["0 roots 17", "1 leaf 1"]),
            (3, &["0 roots 17", "1 leaf 1", "unknown 2"]),
            // (no name is asked for, so there is no other)
            (1, &["0 roots 17", "1 leaf 1", "other name"]),
        ] {
            assert_eq!(found(status, lines), None, "{status} {lines:?}");
        }
    }

    #[test]
    fn heads_belong_to_their_requests() {
        let print = [7; 32];
        assert_eq!(Form::Greeting.head("5 bad line"), Some((5, "bad line", 0)));
        assert_eq!(
            Form::Believe(print).head("0 believed"),
            Some((0, "believed", 0))
        );
        assert_eq!(Form::Prints.head("0 3"), Some((0, "3", 3)));
        assert_eq!(Form::Find.head("3 1"), Some((3, "1", 1)));
        assert_eq!(
            Form::Check.head("4 a: refused 22 Layout at 2"),
            Some((4, "a: refused 22 Layout at 2", 0))
        );
        for (form, line) in [
            (Form::Greeting, "0 believed"),
            (Form::Greeting, "5 bad line "),
            (Form::Believe(print), "0 forgotten"),
            (Form::Believe(print), "1 believed"),
            (Form::Forget, "0 believed"),
            (Form::Deliver, "0 valid"),
            (Form::Deliver, "0 stored 1 kept 0"),
            (Form::Deliver, "0 stored 1 kept 0 contradicted -1"),
            (Form::Check, "0"),
            (Form::Check, ""),
            (Form::Check, "0 believed"),
            (Form::Check, "4 "),
            (Form::Check, "7 differ"),
            (Form::Prints, "1 3"),
            (Form::Prints, "0 1000000"),
            (Form::Prints, "0 x"),
            (Form::Find, "4"),
            (Form::Find, "7 1"),
        ] {
            assert_eq!(form.head(line), None, "{form:?} {line}");
        }
    }

    #[test]
    fn fingerprints() {
        let digits = "00ff".repeat(16);
        let line = format!("{digits} crl issuer");
        assert_eq!(
            fingerprint_in(&line, "crl issuer").map(|it| it[..2].to_vec()),
            Some(vec![0, 255])
        );
        for line in [
            &line[..64],
            &line[1..],
            &line.to_uppercase(),
            &format!("{digits} crl issuer "),
        ] {
            assert_eq!(fingerprint_in(line, "crl issuer"), None, "{line}");
        }
    }
}
