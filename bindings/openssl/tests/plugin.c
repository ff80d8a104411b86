/* A plugin for try_plugin.c that uses the check and is unloaded again. */
#include "x509check_openssl.h"

/* Whether an SSL of the plugin's own was made, used and freed. */
int use_check(const struct x509check_text *anchor)
{
    struct x509check_openssl_settings settings = {.anchors = anchor, .anchor_count = 1};
    SSL_CTX *tls = SSL_CTX_new(TLS_client_method());
    SSL *ssl = NULL;
    int is_used = x509check_openssl_use_in_client(tls, &settings, NULL);

    if (is_used == 1)
        ssl = SSL_new(tls);
    is_used = ssl != NULL && x509check_openssl_outcome(ssl) == NULL;
    SSL_free(ssl);
    SSL_CTX_free(tls);
    return is_used;
}
