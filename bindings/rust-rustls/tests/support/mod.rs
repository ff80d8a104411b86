//! An authority that the command `openssl` plays, and handshakes in memory. No test uses all of it.
#![allow(dead_code)]

use std::fs;
use std::path::PathBuf;
use std::process::Command;
use std::sync::atomic::{AtomicU64, Ordering};
use std::sync::Arc;

use rustls::{Certificate, ClientConnection, Connection, Error, PrivateKey, ServerConnection};

const CONFIGURATION: &str = "[ca]
default_ca = authority
[authority]
database = $ENV::NAME.index
serial = $ENV::NAME.serial
crlnumber = $ENV::NAME.number
new_certs_dir = .
default_md = sha256
default_days = 30
default_crl_days = 30
unique_subject = no
policy = any
[any]
commonName = supplied
[ca_extensions]
basicConstraints = critical, CA:true
keyUsage = critical, keyCertSign, cRLSign
[server]
subjectAltName = DNS:www.example, IP:192.0.2.1
extendedKeyUsage = serverAuth
[client]
extendedKeyUsage = clientAuth
[only_signs]
subjectAltName = DNS:www.example
keyUsage = critical, keyCertSign
extendedKeyUsage = serverAuth
";

/// A root and an issuer below it, in a folder that is removed in the end.
pub struct Authority {
    folder: PathBuf,
    /// How `openssl genpkey` makes its keys.
    keys: String,
}

impl Authority {
    pub fn new() -> Authority {
        Authority::by("-algorithm EC -pkeyopt ec_paramgen_curve:P-256")
    }

    pub fn by(keys: &str) -> Authority {
        static FOLDERS: AtomicU64 = AtomicU64::new(0);
        let number = FOLDERS.fetch_add(1, Ordering::Relaxed);
        let folder =
            std::env::temp_dir().join(format!("x509check-tls-{}-{number}", std::process::id()));
        fs::create_dir(&folder).unwrap();
        let keys = keys.to_string();
        let authority = Authority { folder, keys };
        fs::write(authority.path("ca.cnf"), CONFIGURATION).unwrap();
        authority.root("root", "Root", "");
        authority.issue("middle", "root", "ca_extensions", "");
        authority.books("middle");
        authority
    }

    fn path(&self, name: &str) -> PathBuf {
        self.folder.join(name)
    }

    /// Runs a command, whose words have spaces between them, in the folder; `name` is the authority that the configuration speaks of.
    fn openssl(&self, name: &str, words: &str) {
        let mut command = Command::new("openssl");
        command.args(words.split(' ')).current_dir(&self.folder);
        let done = command.env("NAME", name).output().unwrap();
        let said = String::from_utf8_lossy(&done.stderr);
        assert!(done.status.success(), "openssl {words}: {said}");
    }

    /// What an authority writes down: its certificates, and the next numbers.
    fn books(&self, name: &str) {
        for (book, begin) in [("index", ""), ("serial", "1000\n"), ("number", "01\n")] {
            fs::write(self.path(&format!("{name}.{book}")), begin).unwrap();
        }
    }

    /// A key, unless there is one of that name, and a request for a certificate about it.
    fn request(&self, file: &str, name: &str, subject: &str) {
        if !self.path(&format!("{name}.key")).exists() {
            self.openssl(name, &format!("genpkey {} -out {name}.key", self.keys));
            let form = "-topk8 -nocrypt -outform DER";
            self.openssl(
                name,
                &format!("pkcs8 {form} -in {name}.key -out {name}.pkcs8"),
            );
        }
        self.openssl(
            name,
            &format!("req -new -key {name}.key -subj /CN={subject} -out {file}.csr"),
        );
    }

    /// Signs a request; `dates` are options of `openssl ca`.
    fn sign(&self, file: &str, issuer: &str, signer: &str, section: &str, dates: &str) {
        let files = format!("-in {file}.csr -out {file}.pem");
        let words = format!("ca -batch -notext -config ca.cnf -keyfile {issuer}.key {signer}");
        self.openssl(
            issuer,
            &format!("{words} {files} -extensions {section}{dates}"),
        );
        self.openssl(
            issuer,
            &format!("x509 -in {file}.pem -outform DER -out {file}.der"),
        );
    }

    /// A root that signs itself.
    pub fn root(&self, name: &str, subject: &str, dates: &str) {
        self.books(name);
        self.request(name, name, subject);
        self.sign(name, name, "-selfsign", "ca_extensions", dates);
    }

    /// A certificate by an issuer, with the extensions of a section.
    pub fn issue(&self, name: &str, issuer: &str, section: &str, dates: &str) {
        self.certify(name, name, name, issuer, section, dates);
    }

    /// The same under another file name, about the key of `name`.
    pub fn certify(
        &self,
        file: &str,
        name: &str,
        subject: &str,
        issuer: &str,
        section: &str,
        dates: &str,
    ) {
        self.request(file, name, subject);
        let signer = format!("-cert {issuer}.pem");
        self.sign(file, issuer, &signer, section, dates);
    }

    pub fn revoke(&self, name: &str, issuer: &str) {
        let words = format!("ca -config ca.cnf -keyfile {issuer}.key -cert {issuer}.pem");
        self.openssl(
            issuer,
            &format!("{words} -revoke {name}.pem -crl_reason keyCompromise"),
        );
    }

    /// The next list of an issuer.
    pub fn list(&self, issuer: &str) -> Vec<u8> {
        self.list_by(issuer, "sha256")
    }

    /// The same by another digest.
    pub fn list_by(&self, issuer: &str, digest: &str) -> Vec<u8> {
        let words = format!("ca -config ca.cnf -keyfile {issuer}.key -cert {issuer}.pem");
        self.openssl(
            issuer,
            &format!("{words} -md {digest} -gencrl -out {issuer}.crl"),
        );
        self.openssl(
            issuer,
            &format!("crl -in {issuer}.crl -outform DER -out list"),
        );
        fs::read(self.path("list")).unwrap()
    }

    /// The next list has the number of the last one.
    pub fn repeat_number(&self, issuer: &str) {
        let last = self.path(&format!("{issuer}.number.old"));
        fs::copy(last, self.path(&format!("{issuer}.number"))).unwrap();
    }

    /// What the issuer itself says of a certificate, from this second on.
    pub fn response(&self, name: &str, issuer: &str) -> Vec<u8> {
        self.response_by(name, issuer, "sha256")
    }

    /// The same by another digest.
    pub fn response_by(&self, name: &str, issuer: &str, digest: &str) -> Vec<u8> {
        let about = format!("-issuer {issuer}.pem -cert {name}.pem -no_nonce");
        self.openssl(issuer, &format!("ocsp {about} -reqout request"));
        let signer = format!("-CA {issuer}.pem -rsigner {issuer}.pem -rkey {issuer}.key");
        let files = format!("-index {issuer}.index -reqin request -respout response");
        self.openssl(
            issuer,
            &format!("ocsp {signer} {files} -ndays 30 -resp_no_certs -rmd {digest}"),
        );
        fs::read(self.path("response")).unwrap()
    }

    pub fn certificate(&self, name: &str) -> Vec<u8> {
        fs::read(self.path(&format!("{name}.der"))).unwrap()
    }

    pub fn chain(&self, names: &[&str]) -> Vec<Certificate> {
        names
            .iter()
            .map(|name| Certificate(self.certificate(name)))
            .collect()
    }

    pub fn private_key(&self, name: &str) -> PrivateKey {
        PrivateKey(fs::read(self.path(&format!("{name}.pkcs8"))).unwrap())
    }

    pub fn store(&self) -> PathBuf {
        self.path("store")
    }
}

impl Drop for Authority {
    fn drop(&mut self) {
        let _ = fs::remove_dir_all(&self.folder);
    }
}

/// What each side of a handshake has said in the end: nothing is wrong, or its first error.
pub type Sides = (Result<(), Error>, Result<(), Error>);

/// Moves what one side has written to the other, and what that says of it. An alert is sent, too, once there was an error.
fn moved(from: &mut Connection, to: &mut Connection, said: &mut Result<(), Error>) {
    let mut octets = Vec::new();
    while from.wants_write() {
        from.write_tls(&mut octets).unwrap();
    }
    let mut left = &octets[..];
    while !left.is_empty() && said.is_ok() {
        to.read_tls(&mut left).unwrap();
        *said = to.process_new_packets().map(drop);
    }
}

/// A handshake; the answer is that of the client, and that of the server.
pub fn handshake(client: ClientConnection, server: ServerConnection) -> Sides {
    let (mut client, mut server) = (Connection::from(client), Connection::from(server));
    let (mut at_client, mut at_server) = (Ok(()), Ok(()));
    for _ in 0..6 {
        moved(&mut client, &mut server, &mut at_server);
        moved(&mut server, &mut client, &mut at_client);
    }
    let is_done = !client.is_handshaking() && !server.is_handshaking();
    assert_eq!(
        is_done,
        at_client.is_ok() && at_server.is_ok(),
        "{at_client:?} {at_server:?}"
    );
    (at_client, at_server)
}

/// The protocols that rustls has.
pub const VERSIONS: [&rustls::SupportedProtocolVersion; 2] =
    [&rustls::version::TLS12, &rustls::version::TLS13];

/// A server with a chain, a key and a stapled response, which may be empty, and perhaps a verifier of clients.
pub fn server(
    version: &'static rustls::SupportedProtocolVersion,
    chain: Vec<Certificate>,
    key: PrivateKey,
    stapled: Vec<u8>,
    clients: Option<Arc<dyn rustls::server::ClientCertVerifier>>,
) -> ServerConnection {
    let builder = rustls::ServerConfig::builder()
        .with_safe_default_cipher_suites()
        .with_safe_default_kx_groups()
        .with_protocol_versions(&[version])
        .unwrap();
    let builder = match clients {
        Some(verifier) => builder.with_client_cert_verifier(verifier),
        None => builder.with_no_client_auth(),
    };
    let config = builder
        .with_single_cert_with_ocsp_and_sct(chain, key, stapled, Vec::new())
        .unwrap();
    ServerConnection::new(Arc::new(config)).unwrap()
}

/// A client that asks for a name, and perhaps has a certificate.
pub fn client(
    verifier: Arc<dyn rustls::client::ServerCertVerifier>,
    name: &str,
    own: Option<(Vec<Certificate>, PrivateKey)>,
) -> ClientConnection {
    let builder = rustls::ClientConfig::builder()
        .with_safe_defaults()
        .with_custom_certificate_verifier(verifier);
    let config = match own {
        Some((chain, key)) => builder.with_single_cert(chain, key).unwrap(),
        None => builder.with_no_client_auth(),
    };
    ClientConnection::new(Arc::new(config), name.try_into().unwrap()).unwrap()
}
