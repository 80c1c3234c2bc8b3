/*
 * Runs the examples of calls that include/calmizsed.h has. bindings/check takes them out of it, into examples.inc:
 *
 *     cc -I FOLDER-OF-EXAMPLES.INC -o test_examples test_examples.c libcalmizsed.a
 *     ./test_examples EXAMPLES
 *
 * EXAMPLES is the folder examples/ of the repository. Each call has to end with status 0. It is C and C++ alike.
 */
#include <calmizsed.h>
#include <stdio.h>
#include <stdlib.h>
#include <string.h>

enum { ROOM = 16384, MOST_ANSWERS = 16 };
static const int64_t SIGNED_AT = 1795927350, SETUP_AT = 1800000000;

static uint8_t out[ROOM], message[ROOM], key[ROOM], text[ROOM], setup[ROOM], request[ROOM], issue[ROOM], anchor[ROOM];
static size_t message_length, key_length, text_length, setup_length, request_length, issue_length, anchor_length, answers_length;
static uint8_t digest[32], answers[MOST_ANSWERS];
static struct calmizsed_outcome outcome;
static int64_t when;

/* What isn't checked: signatures, and an RSA key for one use, whose bits are a few octets. */
static const uint8_t attributes[256] = {1}, crl[256] = {2}, certificate[256] = {3}, signature[256] = {4}, serial[20] = {5};
static const uint8_t one_off_key[] = {0x30, 0x1a, 0x30, 0x0d, 0x06, 0x09, 0x2a, 0x86, 0x48, 0x86, 0xf7, 0x0d, 0x01, 0x01,
                                      0x01, 0x05, 0x00, 0x03, 0x09, 0x00, 1,    2,    3,    4,    5,    6,    7,    8};
static const size_t one_off_key_length = sizeof one_off_key;
static const uint8_t repository[] = "rsync://localhost/ca/", manifest[] = "rsync://localhost/ca/ca.mft", notify[] = "https://localhost/n.xml";
static const size_t repository_length = sizeof repository - 1, manifest_length = sizeof manifest - 1, notify_length = sizeof notify - 1;
static const uint8_t base[] = "rsync://localhost/ca/";
static const size_t base_length = sizeof base - 1;
static uint8_t query[ROOM], known[ROOM];
static size_t query_length, known_length;

static void stop(const char *what, const char *why) {
    printf("%s: %s\n", what, why);
    exit(1);
}

static size_t read_file(const char *folder, const char *name, uint8_t *octets) {
    char path[4096];
    FILE *file;
    size_t length;
    snprintf(path, sizeof path, "%s/%s", folder, name);
    file = fopen(path, "rb");
    if (!file) {
        stop(path, "it can't be read");
    }
    length = fread(octets, 1, ROOM, file);
    fclose(file);
    return length;
}

static size_t read_hexadecimal(const char *folder, const char *name, uint8_t *octets) {
    const size_t length = read_file(folder, name, octets);
    unsigned octet;
    size_t count = 0;
    while (2 * count + 1 < length && sscanf((const char *)octets + 2 * count, "%2x", &octet) == 1) {
        octets[count++] = (uint8_t)octet;
    }
    return count;
}

/* The call ended well. */
static void ended(const char *call) {
    if (outcome.status != CALMIZSED_OK) {
        stop(call, outcome.name);
    }
}

/* Keeps the digest of the questions that the last call gave, and answers each by yes: there is one key. */
static void answer(void) {
    struct calmizsed_record record;
    size_t place = 0;
    answers_length = 0;
    while (calmizsed_next_record(out, outcome.written, &place, &record)) {
        if (record.tag == CALMIZSED_SIGNATURE && answers_length < MOST_ANSWERS) {
            answers[answers_length++] = 1;
        } else if (record.tag == CALMIZSED_DIGEST && record.length == sizeof digest) {
            memcpy(digest, record.octets, sizeof digest);
        }
    }
}

int main(int count, char **words) {
    if (count != 2) {
        stop("test_examples", "EXAMPLES");
    }
    message_length = read_file(words[1], "rsa-query.der", message);
    text_length = read_file(words[1], "query-list.xml", text);
    query_length = read_file(words[1], "query-list.xml", query);
    if (!calmizsed_add_known(known, sizeof known, &known_length, manifest, manifest_length, attributes)) {
        stop("known", "there is no room");
    }
    setup_length = read_file(words[1], "rsa-child-request.xml", setup);
    issue_length = read_file(words[1], "rsa-issue.xml", issue);
    key_length = read_hexadecimal(words[1], "rsa-key.hex", key);
    request_length = read_hexadecimal(words[1], "rsa-request.hex", request);
    calmizsed_setup_anchor(CALMIZSED_CHILD_REQUEST, setup, setup_length, anchor, sizeof anchor, &outcome);
    ended("anchor");
    anchor_length = outcome.written;
#include "examples.inc"
    return 0;
}
