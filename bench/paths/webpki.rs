//! Times webpki's check of paths: webpki FILE...
//!
//! The crate is built without its check of signatures and without its limit of six authorities (`peers.py`). The lowest certificate and the anchor
//! are read before; webpki reads those between in each call. Prints, for each file, its name and the least time of 2,000 calls, in microseconds.

use std::time::Instant;
use std::{env, fs};
use webpki::{EndEntityCert, Time, TlsServerTrustAnchors, TrustAnchor, ECDSA_P256_SHA256};

/// 2026-01-01T00:00:00Z
const MOMENT: u64 = 1_767_225_600;

/// The texts of a file, each behind its length in 4 octets.
fn texts(mut octets: &[u8]) -> Vec<&[u8]> {
    let mut all = Vec::new();
    while let Some((size, behind)) = octets.split_first_chunk::<4>() {
        let (text, others) = behind.split_at(u32::from_le_bytes(*size) as usize);
        all.push(text);
        octets = others;
    }
    all
}

/// The least time of 2,000 calls, in microseconds, or what webpki says against the path.
fn least_time(anchor: &[u8], between: &[&[u8]], target: &[u8]) -> Result<f64, webpki::Error> {
    let anchors = [TrustAnchor::try_from_cert_der(anchor)?];
    let anchors = TlsServerTrustAnchors(&anchors);
    let target = EndEntityCert::try_from(target)?;
    let mut least = f64::MAX;
    for _ in 0..2000 {
        let moment = Time::from_seconds_since_unix_epoch(MOMENT);
        let start = Instant::now();
        target.verify_is_valid_tls_server_cert(&[&ECDSA_P256_SHA256], &anchors, between, moment)?;
        least = least.min(start.elapsed().as_nanos() as f64 / 1000.0);
    }
    Ok(least)
}

fn main() {
    for file in env::args().skip(1) {
        let octets = fs::read(&file).expect("a file");
        let all = texts(&octets);
        let [anchor, between @ .., target] = all.as_slice() else {
            panic!("too few certificates");
        };
        // (webpki looks for an issuer from the first on)
        let between: Vec<&[u8]> = between.iter().rev().copied().collect();
        let name = file.rsplit('/').next().unwrap_or(&file);
        match least_time(anchor, &between, target) {
            Ok(least) => println!("{name} {least:.2}"),
            Err(error) => println!("{name} refused: {error}"),
        }
    }
}
