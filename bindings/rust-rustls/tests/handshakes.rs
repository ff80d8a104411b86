//! Handshakes over certificates, lists and responses that the command `openssl` signs; what each side says is asserted, the alert too.

mod support;

use std::io::Read;
use std::process::Command;
use std::sync::atomic::{AtomicUsize, Ordering};
use std::sync::Arc;
use std::thread;
use std::time::Duration;

use rustls::internal::msgs::enums::AlertDescription;
use rustls::{Certificate, ContentType, Error, ServerConnection};
use support::{client, handshake, server, Authority, Sides, VERSIONS};
use x509check::{Judge, Judgement, Party, SignatureQuestion};
use x509check_openssl::OpenSslJudge;
use x509check_rustls::{PartyVerifier, PeerVerifier};

const PROGRAM: &str = concat!(env!("CARGO_MANIFEST_DIR"), "/../../x509check");
const PAST: &str = " -startdate 20200101000000Z -enddate 20210101000000Z";

/// A verifier under the root, by these lists and responses.
fn verifier(authority: &Authority, statements: Vec<Vec<u8>>) -> Arc<PeerVerifier<OpenSslJudge>> {
    let anchors = vec![authority.certificate("root")];
    let verifier = PeerVerifier::new(anchors, OpenSslJudge::default()).unwrap();
    verifier.set_statements(statements).unwrap();
    Arc::new(verifier)
}

/// The same by the store of a party.
fn party_verifier(
    authority: &Authority,
    lists: &[(&str, Vec<u8>)],
) -> Arc<PartyVerifier<OpenSslJudge>> {
    let party = Party::start(Command::new(PROGRAM), authority.store()).unwrap();
    for (issuer, list) in lists {
        let delivery = party.deliver(
            &authority.certificate(issuer),
            list,
            &OpenSslJudge::default(),
        );
        assert_eq!(delivery.unwrap().contradicted, 0);
    }
    let anchors = vec![authority.certificate("root")];
    Arc::new(PartyVerifier::new(anchors, OpenSslJudge::default(), Arc::new(party)).unwrap())
}

/// A server's certificate, with what it sends behind it, and staples.
struct Served<'a> {
    chain: &'a [&'a str],
    stapled: Vec<u8>,
    name: &'a str,
}

/// Handshakes with each protocol: what was said by each.
fn shake(
    authority: &Authority,
    verifier: &Arc<impl rustls::client::ServerCertVerifier + 'static>,
    served: &Served<'_>,
) -> Vec<Sides> {
    let key = authority.private_key(served.chain[0]);
    let each = VERSIONS.map(|version| {
        let chain = authority.chain(served.chain);
        let server = server(version, chain, key.clone(), served.stapled.clone(), None);
        handshake(client(verifier.clone(), served.name, None), server)
    });
    each.to_vec()
}

fn assert_good(sides: &[Sides]) {
    assert_eq!(sides, [(Ok(()), Ok(())), (Ok(()), Ok(()))]);
}

/// Both sides end: the client as it does not believe the server, for a reason that begins so, and the server by the alert.
fn assert_not_believed(sides: &[Sides], begin: &str) {
    for (at_client, at_server) in sides {
        match at_client {
            Err(Error::InvalidCertificateData(why)) => assert!(why.starts_with(begin), "{why}"),
            other => panic!("{other:?}"),
        }
        let alert = Error::AlertReceived(AlertDescription::BadCertificate);
        assert_eq!(at_server, &Err(alert), "{begin}");
    }
}

const WWW: &str = "www.example";

/// A server with this chain, and nothing stapled.
fn serves<'a>(chain: &'a [&'a str], name: &'a str) -> Served<'a> {
    let stapled = Vec::new();
    Served {
        chain,
        stapled,
        name,
    }
}

/// The server `www`, with this response.
fn staples(octets: &[u8]) -> Served<'_> {
    Served {
        chain: &["www", "middle"],
        stapled: octets.to_vec(),
        name: WWW,
    }
}

#[test]
fn servers_and_their_names() {
    let authority = Authority::new();
    authority.issue("www", "middle", "server", "");
    authority.issue("old", "middle", "server", PAST);
    authority.issue("user", "middle", "client", "");
    let lists = vec![authority.list("root"), authority.list("middle")];
    let by_lists = verifier(&authority, lists);
    let shake_for = |chain: &[&str], name| shake(&authority, &by_lists, &serves(chain, name));
    assert_good(&shake_for(&["www", "middle"], WWW));
    assert_good(&shake_for(&["www", "middle"], "192.0.2.1"));
    // The order is of no account, and the root may be sent too.
    assert_good(&shake_for(&["www", "root", "old", "middle"], WWW));
    for name in ["mail.example", "192.0.2.2"] {
        let sides = shake_for(&["www", "middle"], name);
        assert_not_believed(&sides, "other name; target serial ");
    }
    for chain in [&["old", "middle"][..], &["user", "middle"], &["www"]] {
        let sides = shake_for(chain, WWW);
        assert_not_believed(&sides, "not found; target serial ");
    }
}

#[test]
fn servers_that_are_revoked() {
    let authority = Authority::new();
    authority.issue("www", "middle", "server", "");
    let lists = vec![authority.list("root"), authority.list("middle")];
    let served = serves(&["www", "middle"], WWW);
    let verifier = verifier(&authority, Vec::new());
    let sides = shake(&authority, &verifier, &served);
    assert_not_believed(&sides, "unknown 1; target serial ");
    verifier.set_statements(lists.clone()).unwrap();
    assert_good(&shake(&authority, &verifier, &served));
    authority.revoke("www", "middle");
    let newer = [lists, vec![authority.list("middle")]].concat();
    verifier.set_statements(newer).unwrap();
    let sides = shake(&authority, &verifier, &served);
    assert_not_believed(&sides, "revoked 2 1; target serial ");
    let refused = verifier.set_statements(vec![vec![0x30, 0]]);
    let is_refused = matches!(refused, Err(x509check::Error::Refused(_)));
    assert!(is_refused, "{refused:?}");
    // (what was set before stays)
    let sides = shake(&authority, &verifier, &served);
    assert_not_believed(&sides, "revoked 2 1; target serial ");
}

/// Responses of the issuer: that `www` is good, that another is, and then that `www` is revoked.
fn responses(authority: &Authority) -> [Vec<u8>; 3] {
    authority.issue("www", "middle", "server", "");
    authority.issue("other", "middle", "server", "");
    let good = authority.response("www", "middle");
    let of_other = authority.response("other", "middle");
    authority.revoke("www", "middle");
    // (two responses of one second contradict each other)
    thread::sleep(Duration::from_millis(1_100));
    [good, of_other, authority.response("www", "middle")]
}

/// The response with another signature, which ends it.
fn forged(response: &[u8]) -> Vec<u8> {
    let mut forged = response.to_vec();
    *forged.last_mut().unwrap() ^= 1;
    forged
}

const GARBAGE: &str = "the stapled response cannot be read: ";

/// Responses that cannot be read: no DER, cut short, something behind them, and one that says tryLater (RFC 6960, 4.2.1).
fn garbage(response: &[u8]) -> [Vec<u8>; 5] {
    let shorter = response[..response.len() - 1].to_vec();
    let longer = [response, &[0]].concat();
    let try_later = vec![0x30, 3, 0x0A, 1, 3];
    [vec![0], b"garbage".to_vec(), shorter, longer, try_later]
}

#[test]
fn stapled_responses_beside_statements_at_hand() {
    let authority = Authority::new();
    let [good, of_other, revoked] = responses(&authority);
    let verifier = verifier(&authority, vec![authority.list("root")]);
    let shake_with = |stapled: &[u8]| shake(&authority, &verifier, &staples(stapled));
    assert_good(&shake_with(&good));
    for useless in [&[][..], &of_other, &forged(&good)] {
        assert_not_believed(&shake_with(useless), "unknown 2; target serial ");
    }
    assert_not_believed(&shake_with(&revoked), "revoked 2 1; target serial ");
    for stapled in garbage(&good) {
        assert_not_believed(&shake_with(&stapled), GARBAGE);
    }
}

#[test]
fn stapled_responses_for_the_store_of_a_party() {
    let authority = Authority::new();
    let [good, of_other, revoked] = responses(&authority);
    let verifier = party_verifier(&authority, &[("root", authority.list("root"))]);
    let shake_with = |stapled: &[u8]| shake(&authority, &verifier, &staples(stapled));
    for useless in [&[][..], &of_other, &forged(&good)] {
        assert_not_believed(&shake_with(useless), "unknown 2; target serial ");
    }
    assert_good(&shake_with(&good));
    for stapled in garbage(&good) {
        assert_not_believed(&shake_with(&stapled), GARBAGE);
    }
    assert_not_believed(&shake_with(&revoked), "revoked 2 1; target serial ");
    // What the store took it keeps: the good response is older.
    assert_not_believed(&shake_with(&good), "revoked 2 1; target serial ");
}

#[test]
fn servers_by_the_store_of_a_party() {
    let authority = Authority::new();
    authority.issue("www", "middle", "server", "");
    let lists = [
        ("root", authority.list("root")),
        ("middle", authority.list("middle")),
    ];
    let by_store = party_verifier(&authority, &lists);
    let served = |name| serves(&["www", "middle"], name);
    assert_good(&shake(&authority, &by_store, &served(WWW)));
    assert_not_believed(
        &shake(&authority, &by_store, &served("mail.example")),
        "other name; target serial ",
    );
}

/// A party that says nothing, and one whose process ends whenever it is asked.
#[test]
fn parties_that_do_not_answer() {
    let authority = Authority::new();
    authority.issue("www", "middle", "server", "");
    for answers in ["exec sleep 1000", "exit 6"] {
        let greeting = "read -r line; echo '5 bad line'; read -r line";
        let mut program = Command::new("sh");
        program.args(["-c", &format!("{greeting}; {answers}")]);
        let party = Party::start(program, authority.store()).unwrap();
        let party = Arc::new(party.with_limit(Duration::from_millis(200)));
        let anchors = vec![authority.certificate("root")];
        let verifier = PartyVerifier::new(anchors, OpenSslJudge::default(), party).unwrap();
        let served = serves(&["www", "middle"], WWW);
        for (at_client, at_server) in shake(&authority, &Arc::new(verifier), &served) {
            assert!(matches!(at_client, Err(Error::General(_))), "{at_client:?}");
            let alert = Error::AlertReceived(AlertDescription::BadCertificate);
            assert_eq!(at_server, Err(alert), "{answers}");
        }
    }
}

/// The root once signed by another one, and both long expired, as servers still send them.
#[test]
fn a_root_that_was_cross_signed_by_an_expired_one() {
    let authority = Authority::new();
    authority.root("ancient", "Ancient", PAST);
    authority.certify("cross", "root", "Root", "ancient", "ca_extensions", PAST);
    authority.issue("www", "middle", "server", "");
    let by_lists = verifier(
        &authority,
        vec![authority.list("root"), authority.list("middle")],
    );
    for chain in [
        ["www", "middle", "cross", "ancient"],
        ["www", "cross", "ancient", "middle"],
    ] {
        assert_good(&shake(&authority, &by_lists, &serves(&chain, WWW)));
    }
}

#[test]
fn unknown_authorities() {
    let (authority, stranger) = (Authority::new(), Authority::new());
    stranger.issue("www", "middle", "server", "");
    let by_lists = verifier(
        &authority,
        vec![authority.list("root"), authority.list("middle")],
    );
    let served = serves(&["www", "middle", "root"], WWW);
    assert_not_believed(
        &shake(&stranger, &by_lists, &served),
        "not found; target serial ",
    );
}

#[test]
fn a_certificate_that_cannot_be_read() {
    let authority = Authority::new();
    authority.issue("www", "middle", "server", "");
    let by_lists = verifier(
        &authority,
        vec![authority.list("root"), authority.list("middle")],
    );
    for version in VERSIONS {
        let mut chain = authority.chain(&["www", "middle"]);
        chain.push(Certificate(vec![0x30, 0]));
        let server = server(
            version,
            chain,
            authority.private_key("www"),
            Vec::new(),
            None,
        );
        let (at_client, at_server) = handshake(client(by_lists.clone(), WWW, None), server);
        assert_eq!(at_client, Err(Error::InvalidCertificateEncoding));
        assert_eq!(
            at_server,
            Err(Error::AlertReceived(AlertDescription::DecodeError))
        );
    }
}

/// What a client with this certificate is told, with each protocol, and what the server says of it.
fn shake_as_client(
    authority: &Authority,
    clients: Arc<PeerVerifier<OpenSslJudge>>,
    name: Option<&str>,
) -> Vec<Sides> {
    let servers = verifier(
        authority,
        vec![authority.list("root"), authority.list("middle")],
    );
    let each = VERSIONS.map(|version| {
        let own = name.map(|name| {
            (
                authority.chain(&[name, "middle"]),
                authority.private_key(name),
            )
        });
        let chain = authority.chain(&["www", "middle"]);
        let server = server(
            version,
            chain,
            authority.private_key("www"),
            Vec::new(),
            Some(clients.clone()),
        );
        handshake(client(servers.clone(), WWW, own), server)
    });
    each.to_vec()
}

#[test]
fn certificates_of_clients() {
    let authority = Authority::new();
    authority.issue("www", "middle", "server", "");
    authority.issue("user", "middle", "client", "");
    let lists = vec![authority.list("root"), authority.list("middle")];
    let clients = verifier(&authority, lists);
    assert_good(&shake_as_client(&authority, clients.clone(), Some("user")));
    let assert_refused = |name: Option<&str>, begin: &str, alert| {
        for (at_client, at_server) in shake_as_client(&authority, clients.clone(), name) {
            match at_server {
                Err(Error::InvalidCertificateData(why)) => assert!(why.starts_with(begin), "{why}"),
                Err(Error::NoCertificatesPresented) => assert_eq!(name, None),
                other => panic!("{other:?}"),
            }
            assert_eq!(at_client, Err(Error::AlertReceived(alert)), "{begin}");
        }
    };
    // A server's certificate is for no client.
    assert_refused(
        Some("www"),
        "not found; target serial ",
        AlertDescription::HandshakeFailure,
    );
    assert_refused(None, "", AlertDescription::CertificateRequired);
    authority.revoke("user", "middle");
    clients
        .set_statements(vec![authority.list("root"), authority.list("middle")])
        .unwrap();
    assert_refused(
        Some("user"),
        "revoked 2 1; target serial ",
        AlertDescription::HandshakeFailure,
    );
}

#[test]
fn certificates_whose_key_is_there_for_something_else() {
    let authority = Authority::new();
    authority.issue("www", "middle", "only_signs", "");
    let lists = vec![authority.list("root"), authority.list("middle")];
    let named = [("root", lists[0].clone()), ("middle", lists[1].clone())];
    let served = serves(&["www", "middle"], WWW);
    let sides = shake(&authority, &verifier(&authority, lists), &served);
    assert_not_believed(&sides, "not found; target serial ");
    let sides = shake(&authority, &party_verifier(&authority, &named), &served);
    assert_not_believed(&sides, "not found; target serial ");
}

/// The newest list is signed by SHA-1, which the judge's policy refuses, beside one that is good; and then it contradicts that.
#[test]
fn lists_that_nobody_judges_and_lists_that_contradict_each_other() {
    let authority = Authority::new();
    authority.issue("www", "middle", "server", "");
    let [root, older] = ["root", "middle"].map(|issuer| authority.list(issuer));
    authority.revoke("www", "middle");
    authority.repeat_number("middle");
    let contradicting = authority.list("middle");
    let refused = authority.list_by("middle", "sha1");
    let served = serves(&["www", "middle"], WWW);
    let verifier = verifier(&authority, vec![root.clone(), older.clone()]);
    assert_good(&shake(&authority, &verifier, &served));
    for (list, end) in [
        (
            refused,
            "statements[2]: nobody could judge its signature (refused by policy), and it may revoke",
        ),
        (
            contradicting,
            "statements[2]: it revokes, and contradicts another one of its issuer",
        ),
    ] {
        let lists = vec![root.clone(), older.clone(), list];
        verifier.set_statements(lists).unwrap();
        for (at_client, at_server) in shake(&authority, &verifier, &served) {
            assert_eq!(at_client, Err(Error::General(end.into())));
            let alert = Error::AlertReceived(AlertDescription::BadCertificate);
            assert_eq!(at_server, Err(alert));
        }
    }
}

/// The store of a party holds what is good; a response by SHA-1, and one of the same second, say that the server is revoked.
#[test]
fn stapled_responses_that_a_party_cannot_take() {
    let authority = Authority::new();
    let [good, contradicting, refused] = responses_of_one_second(&authority);
    let verifier = party_verifier(&authority, &[("root", authority.list("root"))]);
    assert_good(&shake(&authority, &verifier, &staples(&good)));
    for (stapled, begin) in [
        (refused, "the stapled response: statement: refused 57 NoSigner; signature refused by policy"),
        (contradicting, "the stapled response: contradicts what the store holds: stored 0 kept 0 contradicted 1"),
    ] {
        assert_not_believed(&shake(&authority, &verifier, &staples(&stapled)), begin);
    }
}

/// Responses that `www` is good, that it is revoked, in the same second, and that it is revoked, by SHA-1.
fn responses_of_one_second(authority: &Authority) -> [Vec<u8>; 3] {
    for name in ["www1", "www2", "www3", "www4", "www5"] {
        authority.certify("www", "www", name, "middle", "server", "");
        let good = authority.response("www", "middle");
        authority.revoke("www", "middle");
        let contradicting = authority.response("www", "middle");
        // producedAt is the first time in a response.
        let produced = |octets: &[u8]| {
            let at = octets
                .windows(2)
                .position(|head| head == [0x18, 15])
                .unwrap();
            octets[at..at + 17].to_vec()
        };
        if produced(&good) == produced(&contradicting) {
            let refused = authority.response_by("www", "middle", "sha1");
            return [good, contradicting, refused];
        }
    }
    panic!("each time a second ended between two responses");
}

/// Nobody reads them or is asked about them.
#[test]
fn more_certificates_than_a_peer_may_send() {
    let authority = Authority::new();
    authority.issue("www", "middle", "server", "");
    let lists = vec![authority.list("root"), authority.list("middle")];
    let counting = Counting::default();
    let anchors = vec![authority.certificate("root")];
    let refusing = Arc::new(PeerVerifier::new(anchors.clone(), counting.clone()).unwrap());
    let chain = [&["www", "middle"][..], &["middle"; 15]].concat();
    let sides = shake(&authority, &refusing, &serves(&chain, WWW));
    assert_not_believed(&sides, "17 certificates were sent, more than 16");
    assert_eq!(counting.0.load(Ordering::Relaxed), 0);
    let sides = shake(
        &authority,
        &party_verifier(&authority, &[]),
        &serves(&chain, WWW),
    );
    assert_not_believed(&sides, "17 certificates were sent, more than 16");
    let verifier = PeerVerifier::new(anchors, OpenSslJudge::default()).unwrap();
    verifier.set_statements(lists).unwrap();
    let verifier = Arc::new(verifier);
    assert_good(&shake(&authority, &verifier, &serves(&chain[..16], WWW)));
    let verifier = Arc::into_inner(verifier).unwrap();
    let verifier = Arc::new(verifier.with_certificate_limit(17));
    assert_good(&shake(&authority, &verifier, &serves(&chain, WWW)));
}

/// A judge that fails is not one that finds a signature wrong.
#[test]
fn judges_that_cannot_tell() {
    let authority = Authority::new();
    authority.issue("www", "middle", "server", "");
    let anchors = vec![authority.certificate("root")];
    let judge = |_: &SignatureQuestion<'_>| Judgement::CouldNotTell;
    let verifier = Arc::new(PeerVerifier::new(anchors, judge).unwrap());
    for (at_client, _) in shake(&authority, &verifier, &serves(&["www", "middle"], WWW)) {
        let begin = "the judge could not tell whether the signature is good: ";
        assert!(
            matches!(&at_client, Err(Error::General(why)) if why.starts_with(begin)),
            "{at_client:?}"
        );
    }
}

/// Counts how often it is asked, and finds nothing good.
#[derive(Clone, Default)]
struct Counting(Arc<AtomicUsize>);

impl Judge for Counting {
    fn judge(&self, _question: &SignatureQuestion<'_>) -> Judgement {
        self.0.fetch_add(1, Ordering::Relaxed);
        Judgement::NotServed
    }
}

/// A chain of a megabyte, and then a hundred megabytes more: rustls cuts a handshake message off at 64 kilobytes, before it has read more
/// and before anyone is asked.
#[test]
fn a_chain_that_is_too_long() {
    let authority = Authority::new();
    authority.issue("www", "middle", "server", "");
    let chain = authority.chain(&["www", "middle"]);
    let counting = Counting::default();
    for version in VERSIONS {
        let long: Vec<Certificate> = chain.iter().cycle().take(4096).cloned().collect();
        assert!(long.iter().map(|it| it.0.len()).sum::<usize>() > 1 << 20);
        let anchors = vec![authority.certificate("root")];
        let verifier = PeerVerifier::new(anchors, counting.clone()).unwrap();
        let mut client = client(Arc::new(verifier), WWW, None);
        let mut server = server(
            version,
            long,
            authority.private_key("www"),
            Vec::new(),
            None,
        );
        let mut octets = Vec::new();
        client.write_tls(&mut octets).unwrap();
        server.read_tls(&mut &octets[..]).unwrap();
        server.process_new_packets().unwrap();
        let (read, error) = read_until_error(&mut client, &mut server);
        assert_eq!(error, Error::CorruptMessagePayload(ContentType::Handshake));
        assert!(read < 64 << 10, "{read} octets were read");
    }
    assert_eq!(counting.0.load(Ordering::Relaxed), 0);
}

/// How many octets of the server, and of zeros behind them, a client takes until it ends, and why it ends.
fn read_until_error(
    client: &mut rustls::ClientConnection,
    server: &mut ServerConnection,
) -> (usize, Error) {
    let mut octets = Vec::new();
    while server.wants_write() {
        server.write_tls(&mut octets).unwrap();
    }
    let endless = std::io::repeat(0).take(100 << 20);
    let mut all = octets.as_slice().chain(endless);
    let mut read = 0;
    loop {
        read += client.read_tls(&mut all).unwrap();
        if let Err(error) = client.process_new_packets() {
            return (read, error);
        }
    }
}
