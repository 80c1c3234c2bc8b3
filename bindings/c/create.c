/*
 * Makes a signed message: libcalmizsed says what is to be signed, and OpenSSL signs it.
 *
 *     cc -o create create.c -lcalmizsed -lcrypto
 *     ./create publication|provisioning MOMENT ISSUING-KEY.pem < TEXT.xml > MESSAGE.der
 *
 * MOMENT is in seconds since 1970, or `now`. ISSUING-KEY is a private RSA key; the key that signs the attributes is drawn for this one
 * message. The exit status is that of the library, or 1 where a file can't be read, memory runs out, or OpenSSL fails.
 */
#include <calmizsed.h>
#include <openssl/evp.h>
#include <openssl/pem.h>
#include <openssl/rand.h>
#include <openssl/rsa.h>
#include <openssl/x509.h>
#include <stdio.h>
#include <stdlib.h>
#include <string.h>
#include <time.h>

struct octets {
    uint8_t *at;
    size_t length;
};

static void stop(const char *why) {
    fprintf(stderr, "create: %s\n", why);
    exit(1);
}

static uint8_t *resized(uint8_t *octets, size_t length) {
    uint8_t *room = realloc(octets, length ? length : 1);
    if (!room) {
        stop("out of memory");
    }
    return room;
}

static struct octets read_all(FILE *file) {
    size_t room = 1 << 16;
    struct octets all = {resized(NULL, room), 0};
    for (; (all.length += fread(all.at + all.length, 1, room - all.length, file)) == room; room *= 2) {
        all.at = resized(all.at, 2 * room);
    }
    return all;
}

static EVP_PKEY *read_key(const char *name) {
    FILE *file = fopen(name, "r");
    EVP_PKEY *key = file ? PEM_read_PrivateKey(file, NULL, NULL, NULL) : NULL;
    if (!key) {
        stop(name);
    }
    fclose(file);
    return key;
}

/* The public key in DER. */
static struct octets public_key(EVP_PKEY *key) {
    struct octets found = {NULL, 0};
    int count = i2d_PUBKEY(key, &found.at);
    if (count <= 0) {
        stop("no public key");
    }
    found.length = (size_t)count;
    return found;
}

/* The signature of RSA with SHA-256 of these octets, in PKCS #1 v1.5. */
static struct octets signature_of(EVP_PKEY *key, const struct calmizsed_record *part) {
    struct octets made = {NULL, 0};
    EVP_MD_CTX *context = EVP_MD_CTX_new();
    if (!context || EVP_DigestSignInit(context, NULL, EVP_sha256(), NULL, key) != 1 ||
        EVP_DigestSign(context, NULL, &made.length, part->octets, part->length) != 1) {
        stop("OpenSSL can't sign");
    }
    made.at = resized(NULL, made.length);
    if (EVP_DigestSign(context, made.at, &made.length, part->octets, part->length) != 1) {
        stop("OpenSSL can't sign");
    }
    EVP_MD_CTX_free(context);
    return made;
}

int main(int count, char **words) {
    struct calmizsed_outcome outcome;
    struct calmizsed_record part;
    struct octets text, issuing, one_off, signatures[CALMIZSED_CRL + 1] = {{NULL, 0}, {NULL, 0}, {NULL, 0}, {NULL, 0}};
    EVP_PKEY *issuing_key, *one_off_key = EVP_RSA_gen(2048);
    uint8_t serial[20], *out;
    size_t room = 1 << 12, place = 0;
    int32_t kind;
    int64_t when;
    if (count != 4) {
        stop("publication|provisioning MOMENT ISSUING-KEY.pem < TEXT.xml > MESSAGE.der");
    }
    if (!one_off_key || RAND_bytes(serial, sizeof serial) != 1) {
        stop("OpenSSL can't draw a key");
    }
    serial[0] &= 0x7f;
    kind = strcmp(words[1], "publication") ? CALMIZSED_PROVISIONING : CALMIZSED_PUBLICATION;
    when = strcmp(words[2], "now") ? strtoll(words[2], NULL, 10) : (int64_t)time(NULL);
    issuing_key = read_key(words[3]);
    issuing = public_key(issuing_key);
    one_off = public_key(one_off_key);
    text = read_all(stdin);

    out = resized(NULL, room);
    while (calmizsed_message_prepare(kind, text.at, text.length, when, serial, sizeof serial, issuing.at, issuing.length, one_off.at,
                                     one_off.length, out, room, &outcome) == CALMIZSED_NO_ROOM) {
        out = resized(out, room = outcome.written);
    }
    while (calmizsed_next_record(out, outcome.written, &place, &part)) {
        signatures[part.tag] = signature_of(part.tag == CALMIZSED_ATTRIBUTES ? one_off_key : issuing_key, &part);
    }
    if (outcome.status == CALMIZSED_OK) {
        const struct octets attributes = signatures[CALMIZSED_ATTRIBUTES], crl = signatures[CALMIZSED_CRL];
        const struct octets certificate = signatures[CALMIZSED_CERTIFICATE];
        while (calmizsed_message_finish(kind, text.at, text.length, when, serial, sizeof serial, issuing.at, issuing.length, one_off.at,
                                        one_off.length, attributes.at, attributes.length, crl.at, crl.length, certificate.at,
                                        certificate.length, out, room, &outcome) == CALMIZSED_NO_ROOM) {
            out = resized(out, room = outcome.written);
        }
    }
    if (outcome.status == CALMIZSED_OK) {
        fwrite(out, 1, outcome.written, stdout);
    } else {
        fprintf(stderr, "create: %s\n", outcome.name);
    }
    for (place = 0; place <= CALMIZSED_CRL; place++) {
        free(signatures[place].at);
    }
    free(out);
    free(text.at);
    OPENSSL_free(issuing.at);
    OPENSSL_free(one_off.at);
    EVP_PKEY_free(issuing_key);
    EVP_PKEY_free(one_off_key);
    return outcome.status;
}
