/* Shakes hands with a server over TLS, and prints what x509check says of it:
 *
 *     make
 *     cc -O2 -Icrates/capi -Ibindings/openssl examples/openssl_client.c bindings/openssl/x509check_openssl*.c \
 *         bindings/out/libx509check.a -lssl -lcrypto -o openssl_client
 *     ./openssl_client ADDRESS:PORT HOST ANCHOR [STATEMENT..]
 *
 * ANCHOR is a certificate, and each STATEMENT a list or an OCSP response, in files of DER. The exit status is 0 if the server is
 * accepted, 1 if it is not, and 2 if there was no handshake.
 */
#include <stdio.h>
#include <stdlib.h>

#include "x509check_openssl.h"

/* The octets of a file. */
static struct x509check_text text_of(const char *path)
{
    BIO *file = BIO_new_file(path, "rb"), *memory = BIO_new(BIO_s_mem());
    char block[4096], *octets;
    int length;

    while (file != NULL && (length = BIO_read(file, block, sizeof block)) > 0)
        BIO_write(memory, block, length);
    if (file == NULL || BIO_get_mem_data(memory, &octets) <= 0) {
        perror(path);
        exit(2);
    }
    BIO_free(file);
    return (struct x509check_text){(const uint8_t *)octets, (size_t)BIO_get_mem_data(memory, &octets)};
}

int main(int argc, char **argv)
{
    struct x509check_text texts[64];
    int count = 0;

    if (argc < 4 || argc > 3 + 64) {
        fputs("usage: openssl_client ADDRESS:PORT HOST ANCHOR [STATEMENT..]\n", stderr);
        return 2;
    }
    for (; count < argc - 3; count++)
        texts[count] = text_of(argv[3 + count]);

    struct x509check_openssl_settings settings = {
        .anchors = texts, .anchor_count = 1, .statements = texts + 1, .statement_count = (size_t)count - 1};
    SSL_CTX *tls = SSL_CTX_new(TLS_client_method());
    if (x509check_openssl_use_in_client(tls, &settings, NULL) != 1)
        return fputs("the anchor or a statement cannot be read\n", stderr), 2;

    SSL *ssl;
    BIO *connection = BIO_new_ssl_connect(tls);
    BIO_set_conn_hostname(connection, argv[1]); /* where it is, */
    BIO_get_ssl(connection, &ssl);
    SSL_set_tlsext_host_name(ssl, argv[2]);     /* what it is asked for, */
    SSL_set1_host(ssl, argv[2]);                /* and for whom its certificate has to speak */
    int is_done = BIO_do_handshake(connection) == 1;

    const struct x509check_openssl_outcome *outcome = x509check_openssl_outcome(ssl);
    puts(outcome == NULL ? "no certificate came to be checked" : outcome->words);
    return outcome == NULL ? 2 : is_done && outcome->state == X509CHECK_OPENSSL_ACCEPTED ? 0 : 1;
}
