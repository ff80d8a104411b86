"""An authority that OpenSSL's command line signs for, and a web server on the loopback that has what its certificates name."""

import http.server
import os
import subprocess
import threading
import time

from x509check import _der

CONFIG = """
[ca]
default_ca = it
[it]
database = {name}.index
crlnumber = {name}.number
default_md = sha256
default_crl_days = 7
"""
# The list of a point (RFC 5280, 5.2.5).
AT_POINT = """crl_extensions = of_list
[of_list]
issuingDistributionPoint = critical, fullname:URI:{point}
"""
FOR_AUTHORITY = "basicConstraints=critical,CA:TRUE\nkeyUsage=critical,keyCertSign,cRLSign\n"
FOR_SERVER = "subjectAltName=DNS:www.example.org\nextendedKeyUsage=serverAuth\n"


class Authority:
    """Keys, certificates, lists and responses, in a folder. Those of a name are made once."""

    def __init__(self, folder):
        self.folder, self.serial = folder, 0x1000

    def path(self, name):
        return os.path.join(self.folder, name)

    def openssl(self, *words):
        done = subprocess.run(["openssl", *words], cwd=self.folder, stdout=subprocess.PIPE, stderr=subprocess.PIPE, check=False)
        if done.returncode:
            raise RuntimeError(f"openssl {' '.join(words)}: {done.stderr.decode(errors='replace')}")
        return done.stdout

    def write(self, name, text):
        with open(self.path(name), "w", encoding="ascii") as file:
            file.write(text)
        return name

    def key(self, name):
        if not os.path.exists(self.path(f"{name}.key")):
            self.openssl("genpkey", "-algorithm", "EC", "-pkeyopt", "ec_paramgen_curve:P-256", "-out", f"{name}.key")
        return f"{name}.key"

    def root(self, name="Root"):
        self.openssl("req", "-x509", "-new", "-key", self.key(name), "-subj", f"/CN={name}", "-days", "30", "-addext",
                     "keyUsage=critical,keyCertSign,cRLSign", "-out", f"{name}.pem")
        return self.der(name)

    def der(self, name):
        return self.openssl("x509", "-in", f"{name}.pem", "-outform", "DER")

    def certificate(self, name, issuer, extensions):
        """The DER of a certificate; those of names that begin alike are kept apart by their serial numbers."""
        self.serial += 1
        self.openssl("req", "-new", "-key", self.key(name), "-subj", f"/CN={name}", "-out", "request")
        self.openssl("x509", "-req", "-in", "request", "-CA", f"{issuer}.pem", "-CAkey", self.key(issuer), "-set_serial", str(self.serial),
                     "-days", "20", "-extfile", self.write("extensions", extensions), "-out", f"{name}.pem")
        return self.der(name)

    def revocation_list(self, name, number=1, revoked=(), point=None, digest="sha256"):
        """The DER of a list of the authority, with the serial numbers of certificates in it; of its whole list, or of that of a point."""
        self.write(f"{name}.conf", CONFIG.format(name=name) + ("" if point is None else AT_POINT.format(point=point)))
        self.write(f"{name}.number", f"{number:04X}\n")
        self.write(f"{name}.index",
                   "".join(f"R\t301231000000Z\t261101000000Z,keyCompromise\t{serial:04X}\tunknown\t/CN=x\n" for serial in revoked))
        self.openssl("ca", "-gencrl", "-config", f"{name}.conf", "-cert", f"{name}.pem", "-keyfile", self.key(name), "-md", digest, "-out",
                     f"{name}.crl")
        return self.openssl("crl", "-in", f"{name}.crl", "-outform", "DER")

    def response(self, request, issuer, index, delegate=None, digest="sha256"):
        """The DER of the response to a request, by an index of certificates; with the certificate of a delegate, if it signs."""
        signer = delegate or issuer
        with open(self.path("request.ocsp"), "wb") as file:
            file.write(request)
        self.write("responder.index", index)
        self.openssl("ocsp", "-index", "responder.index", "-rsigner", f"{signer}.pem", "-rkey", self.key(signer), "-CA", f"{issuer}.pem",
                     "-reqin", "request.ocsp", "-respout", "response.ocsp", "-ndays", "2", "-rmd", digest,
                     *(["-resp_no_certs"] if delegate is None else []))
        with open(self.path("response.ocsp"), "rb") as file:
            return file.read()

    def joined(self, first, second, issuer):
        """The DER of a response that has the single responses of two, of which the second is of the first one's time."""
        data, algorithm, *_ = (_der.value(basic_of(first)).members())
        others = _der.value(basic_of(second)).members()[0].members()
        parts = [_der.encoded(_der.SEQUENCE, bytes(one.contents), bytes(other.contents)) if one.identifier == _der.SEQUENCE else bytes(one.whole)
                 for one, other in zip(data.members(), others)]
        signed = _der.encoded(_der.SEQUENCE, *parts)
        with open(self.path("signed"), "wb") as file:
            file.write(signed)
        signature = self.openssl("dgst", "-sha256", "-sign", self.key(issuer), "signed")
        basic = _der.encoded(_der.SEQUENCE, signed, bytes(algorithm.whole), _der.encoded(_der.BIT_STRING, b"\0" + signature))
        kind = _der.encoded(_der.OBJECT_IDENTIFIER, _der.contents_of("1.3.6.1.5.5.7.48.1.1"))
        return _der.encoded(_der.SEQUENCE, b"\x0a\x01\0", _der.encoded(0xA0, _der.encoded(_der.SEQUENCE, kind, _der.encoded(0x04, basic))))


def basic_of(response):
    """The DER of the BasicOCSPResponse in a response."""
    return bytes(_der.value(response).members()[1].only_member().members()[1].contents)


class Handler(http.server.BaseHTTPRequestHandler):
    protocol_version = "HTTP/1.1"

    def deed(self):
        length = int(self.headers.get("Content-Length", 0))
        self.server.asked.append((self.command, self.path, dict(self.headers), self.rfile.read(length)))
        self.close_connection = True
        deeds = self.server.deeds
        found = deeds.get(self.path) or next((deeds[begin] for begin in deeds if begin.endswith("*") and self.path.startswith(begin[:-1])),
                                             None)
        try:
            if found is None:
                self.answer(404, b"no")
            else:
                found(self)
        except OSError:
            pass    # whoever asked is gone

    do_GET = do_POST = deed

    def answer(self, status, body=b"", **headers):
        self.send_response(status)
        for name, text in {"Content_Length": str(len(body)), **headers}.items():
            if text is not None:
                self.send_header(name.replace("_", "-"), text)
        self.end_headers()
        self.wfile.write(body)

    def log_message(self, *_):
        pass


class Web:
    """A server on the loopback. `deeds` say what each path does with a request; `asked` are the requests that came."""

    def __init__(self):
        self.server = http.server.ThreadingHTTPServer(("127.0.0.1", 0), Handler)
        self.server.daemon_threads = True
        self.server.deeds, self.server.asked = {}, []
        self.deeds, self.asked = self.server.deeds, self.server.asked
        self.url = f"http://127.0.0.1:{self.server.server_port}"
        self.thread = threading.Thread(target=self.server.serve_forever, args=(0.02,))
        self.thread.start()

    def close(self):
        self.server.shutdown()
        self.thread.join()
        self.server.server_close()

    def has(self, path, body, **headers):
        """A path that has octets; asked with the ETag that it was told, it says that they have not changed."""
        def deed(handler):
            etag = headers.get("ETag")
            if etag is not None and handler.headers.get("If-None-Match") == etag:
                handler.answer(304, Content_Length=None, **headers)
            else:
                handler.answer(200, body, **headers)
        self.deeds[path] = deed

    def paths(self):
        return [path for _, path, _, _ in self.asked]


def slowly(handler):
    """A body of which an octet comes each fifth of a second."""
    handler.answer(200, b"", Content_Length="1000")
    for _ in range(100):
        handler.wfile.write(b"0")
        time.sleep(0.2)


def slow_head(handler):
    """A head of which an octet comes each fifth of a second."""
    for octet in b"HTTP/1.1 200 OK\r\nX: " + b"x" * 100:
        handler.wfile.write(bytes([octet]))
        time.sleep(0.2)


def endless(handler):
    handler.answer(200, b"", Content_Length=None)
    while True:
        handler.wfile.write(b"\x30" * 65536)


def endless_chunks(handler):
    handler.answer(200, b"", Content_Length=None, Transfer_Encoding="chunked")
    while True:
        handler.wfile.write(b"10000\r\n" + b"\x30" * 65536 + b"\r\n")


def longer_than_it_says(handler):
    handler.answer(200, b"0123456789", Content_Length="5")


def shorter_than_it_says(handler):
    handler.answer(200, b"01234", Content_Length="10")


def cut_chunk(handler):
    handler.answer(200, b"a\r\n01234", Content_Length=None, Transfer_Encoding="chunked")


def garbage(handler):
    handler.wfile.write(b"\x00\xff garbage\r\n\r\n")


def nothing(handler):
    handler.connection.close()


def endless_head(handler):
    handler.wfile.write(b"HTTP/1.1 200 OK\r\n")
    while True:
        handler.wfile.write(b"X: " + b"x" * 1000 + b"\r\n")
