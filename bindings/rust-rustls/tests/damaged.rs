//! What a server sends and staples, with an octet changed: none is believed, and none stops the verifier.

mod support;

use std::time::SystemTime;

use rustls::client::ServerCertVerifier;
use rustls::{Certificate, ServerName};
use support::Authority;
use x509check_openssl::OpenSslJudge;
use x509check_rustls::PeerVerifier;

const ROUNDS: usize = 1_500;

/// A generator of numbers that repeat in each run (xorshift).
struct Numbers(u64);

impl Numbers {
    fn below(&mut self, bound: usize) -> usize {
        self.0 ^= self.0 << 13;
        self.0 ^= self.0 >> 7;
        self.0 ^= self.0 << 17;
        usize::try_from(self.0 >> 33).unwrap() % bound
    }

    /// The octets with one changed, cut off or added.
    fn damaged(&mut self, octets: &[u8]) -> Vec<u8> {
        let (mut damaged, at) = (octets.to_vec(), self.below(octets.len()));
        match self.below(4) {
            0 => damaged.truncate(at),
            1 => damaged.insert(at, damaged[at] ^ 1),
            _ => damaged[at] ^= 1 << self.below(8),
        }
        damaged
    }
}

/// Whether a server is believed that sends and staples these.
fn is_believed(verifier: &impl ServerCertVerifier, sent: &[Vec<u8>; 3]) -> bool {
    let [leaf, middle, stapled] = sent;
    let name = ServerName::try_from("www.example").unwrap();
    verifier
        .verify_server_cert(
            &Certificate(leaf.clone()),
            &[Certificate(middle.clone())],
            &name,
            &mut std::iter::empty(),
            stapled,
            SystemTime::now(),
        )
        .is_ok()
}

#[test]
fn one_octet_is_enough() {
    let authority = Authority::new();
    authority.issue("www", "middle", "server", "");
    let anchors = vec![authority.certificate("root")];
    let verifier = PeerVerifier::new(anchors, OpenSslJudge::default()).unwrap();
    verifier
        .set_statements(vec![authority.list("root")])
        .unwrap();
    let whole = [
        authority.certificate("www"),
        authority.certificate("middle"),
        authority.response("www", "middle"),
    ];
    assert!(is_believed(&verifier, &whole));
    let mut numbers = Numbers(0x9E37_79B9_7F4A_7C15);
    for _ in 0..ROUNDS {
        let (mut sent, which) = (whole.clone(), numbers.below(3));
        sent[which] = numbers.damaged(&whole[which]);
        assert!(
            !is_believed(&verifier, &sent),
            "{which}: {:02x?}",
            sent[which]
        );
    }
    // (a staple that is missing is as bad, since nothing else speaks of the certificate)
    let [leaf, middle, _] = whole;
    assert!(!is_believed(&verifier, &[leaf, middle, Vec::new()]));
}
