/*
 * Makes one call of the library again and again, and beside it one of OpenSSL, on the same message. bench/library.py builds and runs it.
 *
 *     library MESSAGE KEY MOMENT WAY THREADS SECONDS
 *
 * MESSAGE is the file of a signed message of the publication protocol, KEY that of its issuer's key, both in DER. WAY is one of
 *     receive     the library, with libcrypto for the signatures; the issuer's key is decoded once, and the message's own in each call
 *     answers     the library, with each answer yes: without the signatures' arithmetic
 *     cms         CMS_verify, which looks at the signature of the attributes
 *     all         CMS_verify, and libcrypto's X509_verify and X509_CRL_verify for certificate and CRL
 * Written are how many calls all threads made, in how many seconds, and the seconds of a call in the quickest batch. A batch has so many
 * calls as fill a millisecond, which other work of the machine seldom interrupts.
 */
#define _POSIX_C_SOURCE 200809L
#include <calmizsed.h>
#include <openssl/cms.h>
#include <openssl/evp.h>
#include <openssl/x509.h>
#include <pthread.h>
#include <stdio.h>
#include <stdlib.h>
#include <string.h>
#include <time.h>

enum { MOST_THREADS = 64, MOST_PARTS = 16 };

struct octets {
    uint8_t *at;
    size_t length;
};

static const double BATCH = 1e-3;

/* What a thread does: the way, until when, how often it was done, and what a call took in the quickest batch. */
struct work {
    void (*way)(struct work *);
    double until, least;
    long calls;
    struct octets questions, text;
};

static struct octets message, key;
static EVP_PKEY *issuing;
static int64_t moment;

static void stop(const char *why) {
    fprintf(stderr, "library: %s\n", why);
    exit(1);
}

static double now(void) {
    struct timespec time;
    clock_gettime(CLOCK_MONOTONIC, &time);
    return (double)time.tv_sec + (double)time.tv_nsec / 1e9;
}

static struct octets room_of(size_t length) {
    struct octets room = {malloc(length), length};
    if (!room.at) {
        stop("out of memory");
    }
    return room;
}

static struct octets read_file(const char *name) {
    FILE *file = fopen(name, "rb");
    struct octets found;
    long length;
    if (!file || fseek(file, 0, SEEK_END) || (length = ftell(file)) <= 0) {
        stop(name);
    }
    found = room_of((size_t)length);
    rewind(file);
    if (fread(found.at, 1, found.length, file) != found.length) {
        stop(name);
    }
    fclose(file);
    return found;
}

/* ---- the library */

/* The key in DER. */
static EVP_PKEY *decoded(const uint8_t *octets, size_t length) {
    EVP_PKEY *found = d2i_PUBKEY(NULL, &octets, (long)length);
    if (!found) {
        stop("a key is none");
    }
    return found;
}

/* Whether it is a signature of RSA with SHA-256 of these octets, in PKCS #1 v1.5. */
static uint8_t holds(EVP_PKEY *under, const struct calmizsed_record *part, const struct calmizsed_record *signature) {
    EVP_MD_CTX *context = EVP_MD_CTX_new();
    int answer = context && EVP_DigestVerifyInit(context, NULL, EVP_sha256(), NULL, under) == 1 &&
                 EVP_DigestVerify(context, signature->octets, signature->length, part->octets, part->length) == 1;
    EVP_MD_CTX_free(context);
    return (uint8_t)answer;
}

/* Receives the message under the one key. Its questions have one part with a key of its own, then those that are asked under the key. */
static void received(struct work *work, int with_signatures) {
    struct calmizsed_outcome outcome;
    struct calmizsed_record record = {0, 0, NULL}, part = record, digest = record;
    EVP_PKEY *own = NULL;
    uint8_t answers[MOST_PARTS];
    size_t place = 0, count = 0;
    calmizsed_message_questions(message.at, message.length, key.at, key.length, work->questions.at, work->questions.length, &outcome);
    while (calmizsed_next_record(work->questions.at, outcome.written, &place, &record)) {
        if (record.tag == CALMIZSED_OWN_KEY) {
            own = with_signatures ? decoded(record.octets, record.length) : NULL;
        } else if (record.tag == CALMIZSED_SIGNATURE && count < MOST_PARTS) {
            answers[count++] = with_signatures ? holds(part.tag == CALMIZSED_ATTRIBUTES ? own : issuing, &part, &record) : 1;
        } else if (record.tag == CALMIZSED_DIGEST) {
            digest = record;
        } else {
            part = record;
        }
    }
    EVP_PKEY_free(own);
    if (calmizsed_message_receive(CALMIZSED_PUBLICATION, message.at, message.length, key.at, key.length, moment, 0, 0, digest.octets,
                                  digest.length, answers, count, work->text.at, work->text.length, &outcome) != CALMIZSED_OK) {
        stop(outcome.name);
    }
}

static void receive(struct work *work) {
    received(work, 1);
}

static void answers(struct work *work) {
    received(work, 0);
}

/* ---- OpenSSL */

/* Whether the key's signatures of the message's certificate and of each of its CRLs hold. */
static int are_issued(CMS_ContentInfo *held) {
    STACK_OF(X509) *certificates = CMS_get1_certs(held);
    STACK_OF(X509_CRL) *crls = CMS_get1_crls(held);
    int i, holds = certificates && crls && sk_X509_num(certificates) == 1;
    holds = holds && X509_verify(sk_X509_value(certificates, 0), issuing) == 1;
    for (i = 0; holds && i < sk_X509_CRL_num(crls); i++) {
        holds = X509_CRL_verify(sk_X509_CRL_value(crls, i), issuing) == 1;
    }
    sk_X509_pop_free(certificates, X509_free);
    sk_X509_CRL_pop_free(crls, X509_CRL_free);
    return holds;
}

static void verified(int with_issuer) {
    const uint8_t *at = message.at;
    CMS_ContentInfo *held = d2i_CMS_ContentInfo(NULL, &at, (long)message.length);
    BIO *content = BIO_new(BIO_s_mem());
    if (!held || !content || CMS_verify(held, NULL, NULL, NULL, content, CMS_NO_SIGNER_CERT_VERIFY | CMS_BINARY) != 1 ||
        (with_issuer && !are_issued(held))) {
        stop("OpenSSL refuses the message");
    }
    BIO_free(content);
    CMS_ContentInfo_free(held);
}

static void cms(struct work *work) {
    (void)work;
    verified(0);
}

static void all(struct work *work) {
    (void)work;
    verified(1);
}

/* ---- threads */

static void *working(void *given) {
    struct work *work = given;
    double begun = now(), ended = begun;
    long batch = 0;
    while (ended < work->until || work->calls == 0) {
        work->way(work);
        work->calls++;
        batch++;
        ended = now();
        if (ended - begun >= BATCH || work->least == 0) {
            const double each = (ended - begun) / (double)batch;
            work->least = work->least == 0 || each < work->least ? each : work->least;
            begun = ended;
            batch = 0;
        }
    }
    return NULL;
}

static void measure(void (*way)(struct work *), int count, double seconds) {
    static struct work works[MOST_THREADS];
    static pthread_t threads[MOST_THREADS];
    const double begun = now();
    double least = 0;
    long calls = 0;
    int i;
    for (i = 0; i < count; i++) {
        works[i].way = way;
        works[i].until = begun + seconds;
        works[i].questions = room_of(2 * message.length + 4096);
        works[i].text = room_of(message.length + 4096);
        if (pthread_create(&threads[i], NULL, working, &works[i])) {
            stop("a thread does not start");
        }
    }
    for (i = 0; i < count; i++) {
        pthread_join(threads[i], NULL);
        calls += works[i].calls;
        least = least == 0 || works[i].least < least ? works[i].least : least;
        free(works[i].questions.at);
        free(works[i].text.at);
    }
    printf("%ld %.6f %.9f\n", calls, now() - begun, least);
}

int main(int count, char **words) {
    static const struct {
        const char *name;
        void (*way)(struct work *);
    } ways[] = {{"receive", receive}, {"answers", answers}, {"cms", cms}, {"all", all}};
    size_t i;
    int threads = count == 7 ? atoi(words[5]) : 0;
    if (threads < 1 || threads > MOST_THREADS) {
        stop("MESSAGE KEY MOMENT receive|answers|cms|all THREADS SECONDS");
    }
    message = read_file(words[1]);
    key = read_file(words[2]);
    issuing = decoded(key.at, key.length);
    moment = strtoll(words[3], NULL, 10);
    for (i = 0; i < sizeof ways / sizeof ways[0]; i++) {
        if (strcmp(words[4], ways[i].name) == 0) {
            measure(ways[i].way, threads, atof(words[6]));
            return 0;
        }
    }
    stop(words[4]);
}
