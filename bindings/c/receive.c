/*
 * Receives a signed message under public RSA keys of its sender: libcalmizsed decides, and OpenSSL says which signatures hold.
 *
 *     cc -o receive receive.c -lcalmizsed -lcrypto
 *     ./receive publication|provisioning MOMENT KEY.pem .. < MESSAGE.der
 *
 * MOMENT is in seconds since 1970, or `now`. The message of the protocol is written in XML, and under which key it was accepted and when
 * it was signed to standard error. The exit status is that of the library, or 1 where a file can't be read or memory runs out.
 */
#include <calmizsed.h>
#include <openssl/evp.h>
#include <openssl/pem.h>
#include <openssl/x509.h>
#include <stdio.h>
#include <stdlib.h>
#include <string.h>
#include <time.h>

enum { MOST_KEYS = 8, LEAST_BITS = 2048 };

static void stop(const char *why) {
    fprintf(stderr, "receive: %s\n", why);
    exit(1);
}

static uint8_t *resized(uint8_t *octets, size_t length) {
    uint8_t *room = realloc(octets, length ? length : 1);
    if (!room) {
        stop("out of memory");
    }
    return room;
}

static uint8_t *read_all(FILE *file, size_t *length) {
    size_t room = 1 << 16;
    uint8_t *octets = resized(NULL, room);
    for (*length = 0; (*length += fread(octets + *length, 1, room - *length, file)) == room; room *= 2) {
        octets = resized(octets, 2 * room);
    }
    return octets;
}

/* Appends the key of a file in PEM, in DER. */
static uint8_t *append_key(uint8_t *keys, size_t *length, const char *name) {
    FILE *file = fopen(name, "r");
    EVP_PKEY *key = file ? PEM_read_PUBKEY(file, NULL, NULL, NULL) : NULL;
    int count = key ? i2d_PUBKEY(key, NULL) : 0;
    uint8_t *end;
    if (count <= 0) {
        stop(name);
    }
    keys = resized(keys, *length + (size_t)count);
    end = keys + *length;
    i2d_PUBKEY(key, &end);
    *length += (size_t)count;
    EVP_PKEY_free(key);
    fclose(file);
    return keys;
}

/* Whether it is a signature of RSA with SHA-256 of these octets, in PKCS #1 v1.5; not so of another or a shorter key (RFC 7935, 3). */
static uint8_t holds(const struct calmizsed_record *key, const struct calmizsed_record *part, const struct calmizsed_record *signature) {
    const uint8_t *at = key->octets;
    EVP_PKEY *held = d2i_PUBKEY(NULL, &at, (long)key->length);
    EVP_MD_CTX *context = EVP_MD_CTX_new();
    int answer = held && context && EVP_PKEY_is_a(held, "RSA") && EVP_PKEY_get_bits(held) >= LEAST_BITS &&
                 EVP_DigestVerifyInit(context, NULL, EVP_sha256(), NULL, held) == 1 &&
                 EVP_DigestVerify(context, signature->octets, signature->length, part->octets, part->length) == 1;
    EVP_MD_CTX_free(context);
    EVP_PKEY_free(held);
    return (uint8_t)answer;
}

/* Answers what is asked under one of the keys, or, where `own` is set, the question with a key of its own. */
static size_t answer_under(const struct calmizsed_record *key, int own, const uint8_t *questions, size_t length, uint8_t *answers) {
    struct calmizsed_record first, part, signature;
    size_t count = 0, place = 0;
    while (calmizsed_next_record(questions, length, &place, &first) && first.tag != CALMIZSED_KEY && first.tag != CALMIZSED_DIGEST) {
        part = first;
        if ((first.tag == CALMIZSED_OWN_KEY && !calmizsed_next_record(questions, length, &place, &part)) ||
            !calmizsed_next_record(questions, length, &place, &signature)) {
            stop("questions without a signature");
        }
        if (own == (first.tag == CALMIZSED_OWN_KEY)) {
            answers[count++] = holds(own ? &first : key, &part, &signature);
        }
    }
    return count;
}

/* An answer for each question, in their order. Records of no octets have none. */
static uint8_t *answers_to(const uint8_t *questions, size_t length, size_t *count, struct calmizsed_record *digest) {
    uint8_t *answers = resized(NULL, MOST_KEYS * (length + 1));
    struct calmizsed_record record;
    size_t place = 0;
    *count = answer_under(NULL, 1, questions, length, answers);
    while (calmizsed_next_record(questions, length, &place, &record)) {
        if (record.tag == CALMIZSED_KEY) {
            *count += answer_under(&record, 0, questions, length, answers + *count);
        }
        *digest = record;
    }
    return answers;
}

int main(int count, char **words) {
    struct calmizsed_outcome outcome;
    struct calmizsed_record digest = {0, 0, NULL};
    size_t message_length, keys_length = 0, room = 1 << 12, text_room = 1 << 12, answered;
    uint8_t *message, *keys = NULL, *questions, *answers, *text;
    int32_t kind;
    int64_t when;
    if (count < 4 || count > 3 + MOST_KEYS) {
        stop("publication|provisioning MOMENT KEY.pem .. < MESSAGE.der");
    }
    kind = strcmp(words[1], "publication") ? CALMIZSED_PROVISIONING : CALMIZSED_PUBLICATION;
    when = strcmp(words[2], "now") ? strtoll(words[2], NULL, 10) : (int64_t)time(NULL);
    for (int i = 3; i < count; i++) {
        keys = append_key(keys, &keys_length, words[i]);
    }
    message = read_all(stdin, &message_length);
    text = resized(NULL, text_room);
    questions = resized(NULL, room);
    while (calmizsed_message_questions(message, message_length, keys, keys_length, questions, room, &outcome) == CALMIZSED_NO_ROOM) {
        questions = resized(questions, room = outcome.written);
    }
    answers = answers_to(questions, outcome.written, &answered, &digest);
    if (outcome.status == CALMIZSED_OK) {
        while (calmizsed_message_receive(kind, message, message_length, keys, keys_length, when, 0, 0, digest.octets, digest.length,
                                         answers, answered, text, text_room, &outcome) == CALMIZSED_NO_ROOM) {
            text = resized(text, text_room = outcome.written);
        }
    }
    if (outcome.status == CALMIZSED_OK) {
        fwrite(text, 1, outcome.written, stdout);
        putchar('\n');
        fprintf(stderr, "receive: %s: signed at %lld\n", words[3 + outcome.place], (long long)outcome.signing_time);
    } else {
        fprintf(stderr, "receive: %s\n", outcome.name);
    }
    free(text);
    free(answers);
    free(questions);
    free(message);
    free(keys);
    return outcome.status;
}
