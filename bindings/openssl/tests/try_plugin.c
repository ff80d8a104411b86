/* Loads a plugin with the check (plugin.c, as a shared object that is named), has it used, unloads it, and frees an SSL that has nothing
 * to do with it. The status is 1 if that cannot be tried; the process ends by a signal if OpenSSL calls what is no longer there. */
#include <dlfcn.h>
#include <string.h>

#include "testdata.h"

int main(int argc, char **argv)
{
    void *plugin = argc == 2 ? dlopen(argv[1], RTLD_NOW | RTLD_LOCAL) : NULL;
    void *found = plugin == NULL ? NULL : dlsym(plugin, "use_check");
    int (*use_check)(const struct x509check_text *anchor);
    struct x509check_text root = text_of("root.der");
    SSL_CTX *tls = SSL_CTX_new(TLS_client_method());
    SSL *ssl = SSL_new(tls);

    memcpy(&use_check, &found, sizeof use_check);
    if (found == NULL || use_check(&root) != 1 || dlclose(plugin) != 0)
        return fprintf(stderr, "try_plugin: %s\n", found == NULL ? dlerror() : "not used, or not unloaded"), 1;
    SSL_free(ssl);
    ssl = SSL_new(tls);
    SSL_free(ssl);
    SSL_CTX_free(tls);
    puts("an SSL was freed behind the plugin");
    return 0;
}
