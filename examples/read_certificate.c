/* Prints what a certificate says, with the library for C:
 *
 *     make
 *     cc -O2 -Icrates/capi examples/read_certificate.c bindings/out/libx509check.a -o read_certificate
 *     ./read_certificate FILE.der
 */
#include <stdio.h>
#include <stdlib.h>

#include "x509check.h"

static void print_part(const char *title, const uint8_t *octets, struct x509check_part part)
{
    printf("%s ", title);
    for (size_t i = 0; i < part.length; i++)
        printf("%02x", octets[part.offset + i]);
    putchar('\n');
}

static void print_certificate(const uint8_t *octets, const struct x509check_fields *fields)
{
    const struct x509check_extensions *told = &fields->extensions;

    printf("version %u\n", (unsigned)fields->version);
    print_part("serial", octets, fields->serial);
    print_part("issuer", octets, fields->issuer);
    print_part("subject", octets, fields->subject);
    printf("from %lld\nuntil %lld\n", (long long)fields->not_before, (long long)fields->not_after);
    print_part("key", octets, fields->key);
    if (told->is_authority && told->has_path_length)
        printf("authority, path length %u\n", (unsigned)told->path_length);
    else if (told->is_authority)
        puts("authority");
    if (told->key_usage & X509CHECK_KEY_CERT_SIGN)
        puts("signs certificates");
    printf("%zu alternative names\n", told->alternative_names);
}

static void print_fingerprint(const uint8_t *octets, const struct x509check_fields *fields)
{
    uint8_t fingerprint[X509CHECK_FINGERPRINT_LENGTH];
    struct x509check_part whole = {0, sizeof fingerprint};

    x509check_fingerprint(octets + fields->algorithm.offset, fields->algorithm.length,
                          octets + fields->subject_public_key_info.offset, fields->subject_public_key_info.length,
                          octets + fields->tbs.offset, fields->tbs.length, octets + fields->signature.offset,
                          fields->signature.length, fingerprint);
    print_part("fingerprint of the signature, as one under the certificate's own key", fingerprint, whole);
}

/* What `openssl x509 -fingerprint -sha256` prints, without colons. */
static void print_sha256(const uint8_t *octets, size_t length)
{
    uint8_t digest[X509CHECK_SHA256_LENGTH];
    struct x509check_part whole = {0, sizeof digest};

    x509check_sha256(octets, length, digest);
    print_part("sha256", digest, whole);
}

/* The octets of a file, to be freed, or a null pointer with the line on standard error. */
static uint8_t *octets_of(const char *path, size_t *length)
{
    FILE *file = fopen(path, "rb");
    size_t room = 1 << 12;
    uint8_t *octets = file == NULL ? NULL : malloc(room);

    *length = 0;
    while (octets != NULL) {
        size_t read = fread(octets + *length, 1, room - *length, file);
        uint8_t *more;

        *length += read;
        if (read == 0)
            break;
        if (*length < room)
            continue;
        more = realloc(octets, room *= 2);
        if (more == NULL)
            free(octets);
        octets = more;
    }
    if (octets == NULL || ferror(file)) {
        perror(path);
        free(octets);
        octets = NULL;
    }
    if (file != NULL)
        fclose(file);
    return octets;
}

static int print_answer(const uint8_t *octets, size_t length)
{
    struct x509check_certificate answer = x509check_read_certificate(octets, length);

    if (answer.fault != 0) {
        printf("refused: fault %u", (unsigned)answer.fault);
        if (answer.fault == X509CHECK_FAULT_DER)
            printf(" (DER %u)", (unsigned)answer.der_fault);
        printf(" at %zu\n", answer.offset);
        return 1;
    }
    print_certificate(octets, &answer.fields);
    print_sha256(octets, length);
    print_fingerprint(octets, &answer.fields);
    return 0;
}

int main(int argc, char **argv)
{
    uint8_t *octets;
    size_t length;
    int status;

    if (argc != 2) {
        fputs("usage: read_certificate FILE.der\n", stderr);
        return 2;
    }
    octets = octets_of(argv[1], &length);
    if (octets == NULL)
        return 2;
    status = print_answer(octets, length);
    free(octets);
    return status;
}
