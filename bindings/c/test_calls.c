/*
 * Makes each call of the library with ample room, with just enough, with one octet too few and with none; with each kind of bad
 * argument; with memory that runs out at each growth in turn; and from several threads at once.
 *
 *     cc -o test_calls test_calls.c libcalmizsed.a -pthread -Wl,--wrap=malloc,--wrap=realloc,--wrap=free
 *     ./test_calls EXAMPLES rooms|bad|memory
 *     ./test_calls EXAMPLES threads THREADS CALLS
 *
 * EXAMPLES is the folder examples/ of the repository. What is wrong is written, and the exit status is then 1.
 */
#include <calmizsed.h>
#include <pthread.h>
#include <stdio.h>
#include <stdlib.h>
#include <string.h>

enum { AMPLE = 1 << 13, BEFORE = 0xa5, SIGNED_AT = 1795927350, SETUP_AT = 1800000000, MADE_AT = 1700000000, MOST_TEXT = 1 << 17 };

struct octets {
    uint8_t *at;
    size_t length;
};

/* A call with arguments that are as they should be. */
struct call {
    const char *name;
    int32_t (*make)(uint8_t *out, size_t room, struct calmizsed_outcome *outcome);
};

static int wrong;
static struct octets message, key, text, setup, request, issue, certificate;
static struct octets asked, setup_asked, request_asked, issue_asked; /* the digests of their questions */
static uint8_t one_off[] = {0x30, 0x22, 0x30, 0x0d, 0x06, 0x09, 0x2a, 0x86, 0x48, 0x86, 0xf7, 0x0d, 0x01, 0x01, 0x01, 0x05, 0x00, 0x03,
                            0x11, 0x00, 0,    0,    0,    0,    0,    0,    0,    1,    0,    0,    0,    0,    0,    0,    0,    1};
static const uint8_t yes[4] = {1, 1, 1, 1}, serial[20] = {1, 2, 3};
static const char repository[] = "rsync://localhost/ca/", manifest[] = "rsync://localhost/ca/ca.mft", notify[] = "https://localhost/n.xml";
static const char changes[] =
    "<msg xmlns=\"http://www.hactrn.net/uris/rpki/publication-spec/\" version=\"4\" type=\"query\">"
    "<withdraw uri=\"rsync://localhost/ca/ca.mft\" hash=\"0101010101010101010101010101010101010101010101010101010101010101\"/>"
    "<publish uri=\"rsync://localhost/ca/ca.mft\">YQ==</publish><publish uri=\"rsync://localhost/ca/ca.mft\">Yg==</publish></msg>";
static uint8_t known[256];
static size_t known_length, known_no_more;

/* ---- memory, which a growth may be refused of */

void *__real_malloc(size_t size);
void *__real_realloc(void *old, size_t size);
void __real_free(void *block);
void *__wrap_malloc(size_t size);
void *__wrap_realloc(void *old, size_t size);
void __wrap_free(void *block);

static int is_counted;
static long grown, refused, held;

static int is_refused(void) {
    return is_counted && ++grown == refused;
}

void *__wrap_malloc(size_t size) {
    void *block = is_refused() ? NULL : __real_malloc(size);
    held += is_counted && block;
    return block;
}

void *__wrap_realloc(void *old, size_t size) {
    void *block = is_refused() ? NULL : __real_realloc(old, size);
    held += is_counted && block && !old;
    return block;
}

void __wrap_free(void *block) {
    held -= is_counted && block;
    __real_free(block);
}

/* ---- what is looked at */

static void complain(const char *name, const char *what) {
    printf("%s: %s\n", name, what);
    wrong = 1;
}

/* Octets of the heap, so that a tool sees where one past their end is touched. */
static struct octets copied(const void *at, size_t length) {
    struct octets copy = {malloc(length ? length : 1), length};
    if (!copy.at) {
        exit(2);
    }
    if (length) {
        memcpy(copy.at, at, length);
    }
    return copy;
}

static struct octets filled(size_t length, int octet) {
    struct octets all = copied("", 0);
    all.at = realloc(all.at, length ? length : 1);
    if (!all.at) {
        exit(2);
    }
    memset(all.at, octet, length);
    all.length = length;
    return all;
}

static struct octets read_file(const char *folder, const char *name) {
    struct octets found = filled(MOST_TEXT, 0);
    char path[4096];
    FILE *file;
    snprintf(path, sizeof path, "%s/%s", folder, name);
    file = fopen(path, "rb");
    if (!file) {
        perror(path);
        exit(2);
    }
    found.length = fread(found.at, 1, found.length, file);
    fclose(file);
    return found;
}

static struct octets read_hexadecimal(const char *folder, const char *name) {
    struct octets digits = read_file(folder, name);
    unsigned octet;
    size_t count = 0;
    while (2 * count + 1 < digits.length && sscanf((char *)digits.at + 2 * count, "%2x", &octet) == 1) {
        digits.at[count++] = (uint8_t)octet;
    }
    digits.length = count;
    return digits;
}

static int is_filled(const uint8_t *at, size_t length) {
    size_t place;
    for (place = 0; place < length && at[place] == BEFORE; place++) {
    }
    return place == length;
}

/* Whether the name stands in the outcome with zeros behind it. */
static int is_named(const struct calmizsed_outcome *outcome, const char *name) {
    char whole[sizeof outcome->name] = {0};
    memcpy(whole, name, strlen(name));
    return memcmp(whole, outcome->name, sizeof whole) == 0;
}

/* What is told of a call that gave no receipt and no last time. */
static int is_plain(const struct calmizsed_outcome *o, int32_t status, int32_t check, size_t written) {
    return o->status == status && o->check == check && o->written == written && o->place == 0 && o->last_time == 0 &&
           (o->has_signing_time ? o->signing_time == SIGNED_AT : o->signing_time == 0);
}

/* Field by field, since what stands between them says nothing. */
static int are_same(const struct calmizsed_outcome *one, const struct calmizsed_outcome *other) {
    return one->status == other->status && one->check == other->check && one->written == other->written && one->place == other->place &&
           one->has_signing_time == other->has_signing_time && one->signing_time == other->signing_time &&
           one->last_time == other->last_time && memcmp(one->name, other->name, sizeof one->name) == 0;
}

/* ---- the calls */

#define OCTETS(x) (x).at, (x).length
#define TEXT(x) (const uint8_t *)(x), sizeof(x) - 1

static int32_t version(uint8_t *out, size_t room, struct calmizsed_outcome *outcome) {
    return calmizsed_version(out, room, outcome);
}

static int32_t message_questions(uint8_t *out, size_t room, struct calmizsed_outcome *outcome) {
    return calmizsed_message_questions(OCTETS(message), OCTETS(key), out, room, outcome);
}

static int32_t message_receive(uint8_t *out, size_t room, struct calmizsed_outcome *outcome) {
    return calmizsed_message_receive(CALMIZSED_PUBLICATION, OCTETS(message), OCTETS(key), SIGNED_AT, 1, SIGNED_AT - 1, OCTETS(asked), yes,
                                     3, out, room, outcome);
}

static int32_t message_explain(uint8_t *out, size_t room, struct calmizsed_outcome *outcome) {
    return calmizsed_message_explain(OCTETS(message), OCTETS(key), SIGNED_AT, OCTETS(asked), yes, 3, out, room, outcome);
}

static int32_t message_inspect(uint8_t *out, size_t room, struct calmizsed_outcome *outcome) {
    return calmizsed_message_inspect(OCTETS(message), out, room, outcome);
}

static int32_t message_content(uint8_t *out, size_t room, struct calmizsed_outcome *outcome) {
    return calmizsed_message_content(OCTETS(message), out, room, outcome);
}

static int32_t message_prepare(uint8_t *out, size_t room, struct calmizsed_outcome *outcome) {
    return calmizsed_message_prepare(CALMIZSED_PUBLICATION, OCTETS(text), MADE_AT, serial, sizeof serial, OCTETS(key), one_off,
                                     sizeof one_off, out, room, outcome);
}

static int32_t message_finish(uint8_t *out, size_t room, struct calmizsed_outcome *outcome) {
    return calmizsed_message_finish(CALMIZSED_PUBLICATION, OCTETS(text), MADE_AT, serial, sizeof serial, OCTETS(key), one_off,
                                    sizeof one_off, yes, 1, yes, 2, yes, 0, out, room, outcome);
}

static int32_t setup_questions(uint8_t *out, size_t room, struct calmizsed_outcome *outcome) {
    return calmizsed_setup_questions(CALMIZSED_CHILD_REQUEST, OCTETS(setup), out, room, outcome);
}

static int32_t setup_receive(uint8_t *out, size_t room, struct calmizsed_outcome *outcome) {
    return calmizsed_setup_receive(CALMIZSED_CHILD_REQUEST, OCTETS(setup), SETUP_AT, OCTETS(setup_asked), yes, 1, out, room, outcome);
}

static int32_t setup_read(uint8_t *out, size_t room, struct calmizsed_outcome *outcome) {
    return calmizsed_setup_read(CALMIZSED_CHILD_REQUEST, OCTETS(setup), out, room, outcome);
}

static int32_t setup_anchor(uint8_t *out, size_t room, struct calmizsed_outcome *outcome) {
    return calmizsed_setup_anchor(CALMIZSED_CHILD_REQUEST, OCTETS(setup), out, room, outcome);
}

static int32_t anchor_key(uint8_t *out, size_t room, struct calmizsed_outcome *outcome) {
    return calmizsed_anchor_key(OCTETS(certificate), out, room, outcome);
}

static int32_t anchor_prepare(uint8_t *out, size_t room, struct calmizsed_outcome *outcome) {
    return calmizsed_anchor_prepare(MADE_AT, SETUP_AT, OCTETS(key), out, room, outcome);
}

static int32_t anchor_finish(uint8_t *out, size_t room, struct calmizsed_outcome *outcome) {
    return calmizsed_anchor_finish(MADE_AT, SETUP_AT, OCTETS(key), yes, 4, out, room, outcome);
}

static int32_t request_questions(uint8_t *out, size_t room, struct calmizsed_outcome *outcome) {
    return calmizsed_request_questions(OCTETS(request), out, room, outcome);
}

static int32_t request_verify(uint8_t *out, size_t room, struct calmizsed_outcome *outcome) {
    return calmizsed_request_verify(OCTETS(request), OCTETS(request_asked), yes, 1, out, room, outcome);
}

static int32_t issue_questions(uint8_t *out, size_t room, struct calmizsed_outcome *outcome) {
    return calmizsed_issue_questions(OCTETS(issue), out, room, outcome);
}

static int32_t issue_verify(uint8_t *out, size_t room, struct calmizsed_outcome *outcome) {
    return calmizsed_issue_verify(OCTETS(issue), OCTETS(issue_asked), yes, 1, out, room, outcome);
}

static int32_t request_prepare(uint8_t *out, size_t room, struct calmizsed_outcome *outcome) {
    return calmizsed_request_prepare(OCTETS(key), TEXT(repository), TEXT(manifest), TEXT(notify), out, room, outcome);
}

static int32_t request_finish(uint8_t *out, size_t room, struct calmizsed_outcome *outcome) {
    return calmizsed_request_finish(OCTETS(key), TEXT(repository), TEXT(manifest), TEXT(""), yes, 4, out, room, outcome);
}

static int32_t text_read(uint8_t *out, size_t room, struct calmizsed_outcome *outcome) {
    return calmizsed_text_read(CALMIZSED_PROVISIONING, OCTETS(issue), out, room, outcome);
}

static int32_t key_identifier(uint8_t *out, size_t room, struct calmizsed_outcome *outcome) {
    return calmizsed_key_identifier(OCTETS(key), out, room, outcome);
}

static int32_t publication_decide(uint8_t *out, size_t room, struct calmizsed_outcome *outcome) {
    return calmizsed_publication_decide(TEXT(repository), OCTETS(text), known, known_length, out, room, outcome);
}

static int32_t publication_decide_changes(uint8_t *out, size_t room, struct calmizsed_outcome *outcome) {
    return calmizsed_publication_decide(TEXT(repository), TEXT(changes), known, known_length, out, room, outcome);
}

static int32_t publication_refuse(uint8_t *out, size_t room, struct calmizsed_outcome *outcome) {
    return calmizsed_publication_refuse(CALMIZSED_NO_FORM, out, room, outcome);
}

static const struct call calls[] = {
    {"version", version},
    {"message_questions", message_questions},
    {"message_receive", message_receive},
    {"message_explain", message_explain},
    {"message_inspect", message_inspect},
    {"message_content", message_content},
    {"message_prepare", message_prepare},
    {"message_finish", message_finish},
    {"setup_questions", setup_questions},
    {"setup_receive", setup_receive},
    {"setup_read", setup_read},
    {"setup_anchor", setup_anchor},
    {"anchor_key", anchor_key},
    {"anchor_prepare", anchor_prepare},
    {"anchor_finish", anchor_finish},
    {"request_questions", request_questions},
    {"request_verify", request_verify},
    {"issue_questions", issue_questions},
    {"issue_verify", issue_verify},
    {"request_prepare", request_prepare},
    {"request_finish", request_finish},
    {"text_read", text_read},
    {"key_identifier", key_identifier},
    {"publication_decide", publication_decide},
    {"publication_decide_changes", publication_decide_changes},
    {"publication_refuse", publication_refuse},
};
enum { CALLS = sizeof calls / sizeof calls[0] };

/* ---- rooms */

/* Makes a call with a buffer of this length, and gives the buffer. */
static struct octets made(const struct call *call, size_t room, struct calmizsed_outcome *outcome) {
    struct octets out = filled(room, BEFORE);
    memset(outcome, BEFORE, sizeof *outcome);
    if (call->make(OCTETS(out), outcome) != outcome->status) {
        complain(call->name, "returned another status than it told");
    }
    return out;
}

static void try_room(const struct call *call, const struct octets *result, size_t room) {
    struct calmizsed_outcome outcome;
    struct octets out = made(call, room, &outcome);
    if (room < result->length) {
        if (!is_plain(&outcome, CALMIZSED_NO_ROOM, 0, result->length) || outcome.has_signing_time || !is_named(&outcome, "NoRoom")) {
            complain(call->name, "with too little room told something else");
        }
        if (!is_filled(OCTETS(out))) {
            complain(call->name, "with too little room changed the buffer");
        }
    } else {
        if (!is_plain(&outcome, CALMIZSED_OK, 0, result->length) || !is_named(&outcome, "Ok")) {
            complain(call->name, "with room told something else");
        }
        if (memcmp(out.at, result->at, result->length) || !is_filled(out.at + result->length, room - result->length)) {
            complain(call->name, "with room gave something else, or changed what is behind it");
        }
    }
    free(out.at);
}

static void try_rooms(const struct call *call) {
    struct calmizsed_outcome outcome;
    struct octets result = made(call, AMPLE, &outcome);
    size_t rooms[5] = {AMPLE, outcome.written, outcome.written - 1, 1, 0};
    int i;
    if (outcome.status != CALMIZSED_OK || outcome.written < 2 || outcome.written >= AMPLE) {
        complain(call->name, outcome.name);
        free(result.at);
        return;
    }
    result.length = outcome.written;
    for (i = 0; i < 5; i++) {
        try_room(call, &result, rooms[i]);
    }
    free(result.at);
}

/* ---- memory */

/* One growth is refused: there is no result and nothing is changed, or, where the call could do without it, there is the same result. */
static int does_without(const struct call *call, const struct octets *result) {
    struct calmizsed_outcome outcome;
    struct octets all = filled(AMPLE, BEFORE);
    int is_out = 0;
    grown = held = 0;
    is_counted = 1;
    call->make(OCTETS(all), &outcome);
    is_counted = 0;
    if (held) {
        complain(call->name, "lost memory");
    }
    if (outcome.status == CALMIZSED_OUT_OF_MEMORY) {
        is_out = is_plain(&outcome, CALMIZSED_OUT_OF_MEMORY, 0, 0) && is_named(&outcome, "OutOfMemory") && is_filled(OCTETS(all));
    }
    if (!is_out && (outcome.status != CALMIZSED_OK || outcome.written != result->length ||
                    memcmp(all.at, result->at, result->length) != 0)) {
        complain(call->name, "with a growth refused told something else, or changed the buffer");
    }
    free(all.at);
    return !is_out;
}

static void try_memory(const struct call *call) {
    struct calmizsed_outcome outcome;
    struct octets result = made(call, AMPLE, &outcome);
    long without = 0;
    result.length = outcome.written;
    for (refused = 1; refused < 100000; refused++) {
        int does = does_without(call, &result);
        if (grown < refused) {
            break;
        }
        without += does;
    }
    printf("%s: %ld growths refused in turn, %ld of which it could do without\n", call->name, refused - 1, without);
    free(result.at);
}

/* ---- threads */

struct work {
    long calls;
    int at, is_wrong;
};

static void *work(void *given) {
    struct work *own = given;
    struct calmizsed_outcome outcome, first[CALLS];
    static const int cheap[] = {1, 2, 3, 9, 21};
    uint8_t out[AMPLE], result[5][AMPLE];
    long i;
    for (i = 0; i < own->calls + 5; i++) {
        int which = (int)((i + (i < 5 ? 0 : own->at)) % 5);
        const struct call *call = &calls[cheap[which]];
        call->make(out, sizeof out, &outcome);
        if (i < 5) {
            memcpy(result[which], out, sizeof out);
            first[which] = outcome;
        }
        own->is_wrong |= outcome.status != CALMIZSED_OK || !are_same(&outcome, &first[which]) ||
                         memcmp(out, result[which], outcome.written);
    }
    return NULL;
}

static void try_threads(int count, long each) {
    pthread_t *threads = calloc((size_t)count, sizeof *threads);
    struct work *works = calloc((size_t)count, sizeof *works);
    int i;
    for (i = 0; threads && works && i < count; i++) {
        works[i].calls = each;
        works[i].at = i;
        if (pthread_create(&threads[i], NULL, work, &works[i])) {
            complain("threads", "one does not start");
            exit(2);
        }
    }
    for (i = 0; threads && works && i < count; i++) {
        pthread_join(threads[i], NULL);
        if (works[i].is_wrong) {
            complain("threads", "one got something else");
        }
    }
    printf("%d threads, %ld calls each\n", count, each);
    free(threads);
    free(works);
}

/* ---- bad arguments */

static struct calmizsed_outcome o;
static uint8_t out[AMPLE];

/* Before a call whose end `expect` looks at. */
static size_t room(void) {
    memset(out, BEFORE, sizeof out);
    memset(&o, BEFORE, sizeof o);
    return sizeof out;
}

/* The call ended with this status and name, and the buffer is as it was. */
static void expect(const char *call, int32_t returned, int32_t status, const char *name) {
    char said[200];
    int32_t check = 0;
    sscanf(name, "Validation %d", &check);
    if (returned != status || !is_plain(&o, status, check, 0) || !is_named(&o, name) || !is_filled(out, sizeof out)) {
        snprintf(said, sizeof said, "%s was wanted, and %.64s with status %d came", name, o.name, (int)returned);
        complain(call, said);
    }
}

static struct octets joined(const struct octets *one, const void *other, size_t length) {
    struct octets both = filled(one->length + length, 0);
    memcpy(both.at, one->at, one->length);
    memcpy(both.at + one->length, other, length);
    return both;
}

/* The text with the first place of this in it written over. */
static struct octets changed(const struct octets *whole, const char *from, const char *to) {
    struct octets other = copied(OCTETS(*whole));
    size_t at;
    for (at = 0; at + strlen(from) <= other.length; at++) {
        if (memcmp(other.at + at, from, strlen(from)) == 0) {
            memcpy(other.at + at, to, strlen(to));
            return other;
        }
    }
    complain(from, "stands in no example");
    return other;
}

/* An RSA key whose bits have so many octets, from 65536 to 2^24. */
static struct octets long_key(size_t count) {
    const size_t bits = count + 1, inner = 15 + 5 + bits;
    const uint8_t head[] = {0x30, 0x83, (uint8_t)(inner >> 16), (uint8_t)(inner >> 8), (uint8_t)inner};
    const uint8_t string[] = {0x03, 0x83, (uint8_t)(bits >> 16), (uint8_t)(bits >> 8), (uint8_t)bits};
    struct octets made_key = filled(sizeof head + inner, 0);
    memcpy(made_key.at, head, sizeof head);
    memcpy(made_key.at + sizeof head, one_off + 2, 15);
    memcpy(made_key.at + sizeof head + 15, string, sizeof string);
    return made_key;
}

static const uint8_t ecdsa_head[] = {0x30, 0x59, 0x30, 0x13, 0x06, 0x07, 0x2a, 0x86, 0x48, 0xce, 0x3d, 0x02, 0x01, 0x06,
                                     0x08, 0x2a, 0x86, 0x48, 0xce, 0x3d, 0x03, 0x01, 0x07, 0x03, 0x42, 0x00, 0x04};
static const int64_t no_moments[] = {INT64_MIN, -62167219201, 253402300800, INT64_MAX};
static const int32_t no_kinds[] = {INT32_MIN, -1, 0, 5, INT32_MAX};
static struct octets ecdsa, nothing, garbage, zeros, other_digest;

static void bad_keys(const struct octets *keys) {
    const char *name = "keys";
    struct calmizsed_outcome kept;
    expect(name, calmizsed_message_questions(OCTETS(message), OCTETS(*keys), out, room(), &o), CALMIZSED_USAGE, "Usage");
    kept = o;
    expect(name, calmizsed_message_receive(1, OCTETS(message), OCTETS(*keys), SIGNED_AT, 0, 0, OCTETS(asked), yes, 3, out, room(), &o),
           CALMIZSED_USAGE, "Usage");
    expect(name, calmizsed_message_explain(OCTETS(message), OCTETS(*keys), SIGNED_AT, OCTETS(asked), yes, 3, out, room(), &o),
           CALMIZSED_USAGE, "Usage");
    expect(name, calmizsed_message_prepare(1, OCTETS(text), MADE_AT, serial, 20, OCTETS(*keys), one_off, sizeof one_off, out, room(), &o),
           CALMIZSED_USAGE, "Usage");
    expect(name, calmizsed_message_prepare(1, OCTETS(text), MADE_AT, serial, 20, OCTETS(key), OCTETS(*keys), out, room(), &o),
           CALMIZSED_USAGE, "Usage");
    expect(name, calmizsed_anchor_prepare(MADE_AT, SETUP_AT, OCTETS(*keys), out, room(), &o), CALMIZSED_USAGE, "Usage");
    expect(name, calmizsed_anchor_finish(MADE_AT, SETUP_AT, OCTETS(*keys), yes, 4, out, room(), &o), CALMIZSED_USAGE, "Usage");
    expect(name, calmizsed_request_prepare(OCTETS(*keys), TEXT(repository), TEXT(manifest), TEXT(""), out, room(), &o), CALMIZSED_USAGE,
           "Usage");
    expect(name, calmizsed_request_finish(OCTETS(*keys), TEXT(repository), TEXT(manifest), TEXT(""), yes, 4, out, room(), &o),
           CALMIZSED_USAGE, "Usage");
    expect(name, calmizsed_key_identifier(OCTETS(*keys), out, room(), &o), CALMIZSED_USAGE, "Usage");
    if (!are_same(&kept, &o)) {
        complain(name, "the same refusal was told in another way");
    }
}

/* Answers to the questions of a message that don't count, or say something else. */
static void bad_answers(const struct octets *digest, const uint8_t *answers, size_t count, int32_t status, const char *name, int of_all) {
    expect("message_receive",
           calmizsed_message_receive(1, OCTETS(message), OCTETS(key), SIGNED_AT, 0, 0, OCTETS(*digest), answers, count, out, room(), &o),
           status, name);
    if (of_all) {
        expect("message_explain",
               calmizsed_message_explain(OCTETS(message), OCTETS(key), SIGNED_AT, OCTETS(*digest), answers, count, out, room(), &o), status,
               name);
    }
}

static void bad_digests(const struct octets *digest, int32_t status, const char *name) {
    bad_answers(digest, yes, 3, status, name, 1);
    expect("setup_receive", calmizsed_setup_receive(1, OCTETS(setup), SETUP_AT, OCTETS(*digest), yes, 1, out, room(), &o), status, name);
    expect("request_verify", calmizsed_request_verify(OCTETS(request), OCTETS(*digest), yes, 1, out, room(), &o), status, name);
    expect("issue_verify", calmizsed_issue_verify(OCTETS(issue), OCTETS(*digest), yes, 1, out, room(), &o), status, name);
}

static void bad_numbers(void) {
    int i;
    for (i = 0; i < 5; i++) {
        int32_t kind = no_kinds[i];
        expect("kind", calmizsed_message_receive(kind, OCTETS(message), OCTETS(key), SIGNED_AT, 0, 0, OCTETS(asked), yes, 3, out, room(),
                                                 &o),
               CALMIZSED_USAGE, "Usage");
        expect("kind", calmizsed_message_prepare(kind, OCTETS(text), MADE_AT, serial, 20, OCTETS(key), one_off, sizeof one_off, out, room(),
                                                 &o),
               CALMIZSED_USAGE, "Usage");
        expect("kind", calmizsed_text_read(kind, OCTETS(text), out, room(), &o), CALMIZSED_USAGE, "Usage");
        expect("kind", calmizsed_setup_questions(kind, OCTETS(setup), out, room(), &o), CALMIZSED_USAGE, "Usage");
        expect("kind", calmizsed_setup_receive(kind, OCTETS(setup), SETUP_AT, OCTETS(setup_asked), yes, 1, out, room(), &o),
               CALMIZSED_USAGE, "Usage");
        expect("kind", calmizsed_setup_read(kind, OCTETS(setup), out, room(), &o), CALMIZSED_USAGE, "Usage");
        expect("kind", calmizsed_setup_anchor(kind, OCTETS(setup), out, room(), &o), CALMIZSED_USAGE, "Usage");
    }
    for (i = 0; i < 4; i++) {
        int64_t when = no_moments[i];
        expect("moment", calmizsed_message_receive(1, OCTETS(message), OCTETS(key), when, 0, 0, OCTETS(asked), yes, 3, out, room(), &o),
               CALMIZSED_USAGE, "Usage");
        expect("last", calmizsed_message_receive(1, OCTETS(message), OCTETS(key), SIGNED_AT, 1, when, OCTETS(asked), yes, 3, out, room(),
                                                 &o),
               CALMIZSED_USAGE, "Usage");
        expect("moment", calmizsed_message_explain(OCTETS(message), OCTETS(key), when, OCTETS(asked), yes, 3, out, room(), &o),
               CALMIZSED_USAGE, "Usage");
        expect("moment", calmizsed_setup_receive(1, OCTETS(setup), when, OCTETS(setup_asked), yes, 1, out, room(), &o), CALMIZSED_USAGE,
               "Usage");
        expect("moment", calmizsed_message_prepare(1, OCTETS(text), when, serial, 20, OCTETS(key), one_off, sizeof one_off, out, room(),
                                                   &o),
               CALMIZSED_USAGE, "Usage");
        expect("moment", calmizsed_anchor_prepare(when, SETUP_AT, OCTETS(key), out, room(), &o), CALMIZSED_USAGE, "Usage");
        expect("moment", calmizsed_anchor_finish(MADE_AT, when, OCTETS(key), yes, 4, out, room(), &o), CALMIZSED_USAGE, "Usage");
    }
    expect("last", calmizsed_message_receive(1, OCTETS(message), OCTETS(key), SIGNED_AT, 2, 0, OCTETS(asked), yes, 3, out, room(), &o),
           CALMIZSED_USAGE, "Usage");
    expect("window", calmizsed_message_prepare(1, OCTETS(text), 299, serial, 20, OCTETS(key), one_off, sizeof one_off, out, room(), &o),
           CALMIZSED_NO_WINDOW, "Moment");
}

static void bad_received(void) {
    struct octets other = changed(&message, "<list/>", "<lisp/>"), setup_other = changed(&setup, "MIID", "AAAA");
    struct octets issue_other = changed(&issue, "MIID", "AAAA"), no_end = changed(&setup, "</child_bpki_ta>", "</child_bpki_tb>");
    struct octets half = copied(message.at, message.length / 2);
    const uint8_t no[4] = {0, 1, 1, 1}, not_second[3] = {1, 0, 1}, not_third[3] = {1, 1, 0}, two[3] = {1, 1, 2};
    const struct octets *none[3] = {&nothing, &garbage, &half};
    int i;
    for (i = 0; i < 3; i++) {
        expect("message", calmizsed_message_questions(OCTETS(*none[i]), OCTETS(key), out, room(), &o), 4, "CmsDecode");
        expect("message", calmizsed_message_receive(1, OCTETS(*none[i]), OCTETS(key), SIGNED_AT, 0, 0, OCTETS(asked), yes, 3, out, room(),
                                                    &o),
               4, "CmsDecode");
        expect("message", calmizsed_message_explain(OCTETS(*none[i]), OCTETS(key), SIGNED_AT, OCTETS(asked), yes, 3, out, room(), &o), 4,
               "CmsDecode");
        expect("message", calmizsed_message_inspect(OCTETS(*none[i]), out, room(), &o), 4, "CmsDecode");
        expect("message", calmizsed_message_content(OCTETS(*none[i]), out, room(), &o), 4, "CmsDecode");
        expect("request", calmizsed_request_questions(OCTETS(*none[i]), out, room(), &o), 5, "InvalidCsrSyntax");
        expect("request", calmizsed_request_verify(OCTETS(*none[i]), OCTETS(request_asked), yes, 1, out, room(), &o), 5,
                                                   "InvalidCsrSyntax");
        expect("text", calmizsed_text_read(1, OCTETS(*none[i]), out, room(), &o), 5, "XmlError");
        expect("text", calmizsed_message_prepare(1, OCTETS(*none[i]), MADE_AT, serial, 20, OCTETS(key), one_off, sizeof one_off, out,
                                                 room(),
                                                 &o),
               5, "XmlError");
        expect("issue", calmizsed_issue_questions(OCTETS(*none[i]), out, room(), &o), 5, "XmlError");
        expect("issue", calmizsed_issue_verify(OCTETS(*none[i]), OCTETS(issue_asked), yes, 1, out, room(), &o), 5, "XmlError");
        expect("setup", calmizsed_setup_questions(1, OCTETS(*none[i]), out, room(), &o), 5, "XmlError");
        expect("setup", calmizsed_setup_receive(1, OCTETS(*none[i]), SETUP_AT, OCTETS(setup_asked), yes, 1, out, room(), &o), 5,
                                                "XmlError");
        expect("setup", calmizsed_setup_read(1, OCTETS(*none[i]), out, room(), &o), 5, "XmlError");
        expect("setup", calmizsed_setup_anchor(1, OCTETS(*none[i]), out, room(), &o), 5, "XmlError");
        expect("anchor", calmizsed_anchor_key(OCTETS(*none[i]), out, room(), &o), 5, "InvalidTaCertEncoding");
    }
    bad_answers(&asked, yes, 2, 2, "Usage", 1);
    bad_answers(&asked, yes, 4, 2, "Usage", 1);
    bad_answers(&asked, yes, 0, 2, "Usage", 1);
    bad_answers(&asked, two, 3, 2, "Usage", 1);
    bad_answers(&asked, no, 3, 6, "Validation 3", 0);
    bad_answers(&asked, not_second, 3, 6, "Validation 8", 0);
    bad_answers(&asked, not_third, 3, 6, "Validation 10", 0);
    expect("content", calmizsed_message_content(OCTETS(other), out, room(), &o), 6, "Validation 2");
    expect("kind", calmizsed_message_receive(2, OCTETS(message), OCTETS(key), SIGNED_AT, 0, 0, OCTETS(asked), yes, 3, out, room(), &o), 5,
           "XmlError");
    expect("late", calmizsed_message_receive(1, OCTETS(message), OCTETS(key), SETUP_AT, 0, 0, OCTETS(asked), yes, 3, out, room(), &o), 6,
           "Validation 5");
    expect("setup", calmizsed_setup_questions(1, OCTETS(setup_other), out, room(), &o), 5, "InvalidTaCertEncoding");
    expect("setup", calmizsed_setup_anchor(1, OCTETS(setup_other), out, room(), &o), 5, "InvalidTaCertEncoding");
    expect("setup", calmizsed_setup_read(1, OCTETS(no_end), out, room(), &o), 5, "XmlError");
    expect("setup", calmizsed_setup_receive(1, OCTETS(setup), SETUP_AT, OCTETS(setup_asked), no, 1, out, room(), &o), 5, "InvalidTaCert");
    expect("setup", calmizsed_setup_receive(1, OCTETS(setup), 0, OCTETS(setup_asked), yes, 1, out, room(), &o), 5, "InvalidTaCert");
    expect("request", calmizsed_request_verify(OCTETS(request), OCTETS(request_asked), no, 1, out, room(), &o), 6, "Signature");
    expect("issue", calmizsed_issue_verify(OCTETS(issue), OCTETS(issue_asked), no, 1, out, room(), &o), 6, "Signature");
    expect("issue", calmizsed_issue_questions(OCTETS(text), out, room(), &o), 5, "XmlError");
    expect("issue", calmizsed_issue_questions(OCTETS(issue_other), out, room(), &o), 5, "InvalidCsrSyntax");
    expect("issue", calmizsed_text_read(2, OCTETS(issue_other), out, room(), &o), 5, "InvalidCsrSyntax");
    for (i = 0; i < 2; i++) {
        char name[64];
        int64_t last = SIGNED_AT + i;
        snprintf(name, sizeof name, "Replayed %lld %d", (long long)last, SIGNED_AT);
        calmizsed_message_receive(1, OCTETS(message), OCTETS(key), SIGNED_AT, 1, last, OCTETS(asked), yes, 3, out, room(), &o);
        if (o.last_time != last || o.has_signing_time != 1) {
            complain("replayed", "other times were told");
        }
        o.last_time = 0;
        expect("replayed", o.status, 15, name);
    }
    free(other.at);
    free(setup_other.at);
    free(issue_other.at);
    free(no_end.at);
    free(half.at);
}

static void bad_made(void) {
    struct octets too_long = long_key(65537), signature = filled(65537, 1);
    uint8_t negative[20] = {0x80};
    static const char *const no_uris[] = {"", "rsync://", "http://localhost/", "https://localhost", "rsync://local host/ca/",
"rsync://h/m/\xff"};
    int i;
    expect("serial", calmizsed_message_prepare(1, OCTETS(text), MADE_AT, serial, 19, OCTETS(key), one_off, sizeof one_off, out, room(),
                                               &o), 2,
           "Usage");
    expect("serial", calmizsed_message_prepare(1, OCTETS(text), MADE_AT, serial, 0, OCTETS(key), one_off, sizeof one_off, out, room(),
                                               &o), 2,
           "Usage");
    expect("serial", calmizsed_message_prepare(1, OCTETS(text), MADE_AT, negative, 20, OCTETS(key), one_off, sizeof one_off, out, room(),
                                               &o),
           2, "Usage");
    expect("one-off", calmizsed_message_prepare(1, OCTETS(text), MADE_AT, serial, 20, OCTETS(key), OCTETS(key), out, room(), &o), 7,
           "KeyReused");
    expect("issuing", calmizsed_message_prepare(1, OCTETS(text), MADE_AT, serial, 20, OCTETS(ecdsa), OCTETS(key), out, room(), &o), 7,
           "IncompatibleKey");
    expect("long", calmizsed_message_prepare(1, OCTETS(text), MADE_AT, serial, 20, OCTETS(too_long), OCTETS(key), out, room(), &o), 9,
           "TooLong");
    expect("anchor", calmizsed_anchor_prepare(MADE_AT, SETUP_AT, OCTETS(ecdsa), out, room(), &o), 7, "IncompatibleKey");
    expect("anchor", calmizsed_anchor_prepare(MADE_AT, SETUP_AT, OCTETS(too_long), out, room(), &o), 9, "TooLong");
    expect("anchor", calmizsed_anchor_finish(MADE_AT, SETUP_AT, OCTETS(key), OCTETS(signature), out, room(), &o), 9, "TooLong");
    expect("request", calmizsed_request_prepare(OCTETS(ecdsa), TEXT(repository), TEXT(manifest), TEXT(""), out, room(), &o), 7,
           "IncompatibleKey");
    expect("request", calmizsed_request_finish(OCTETS(key), TEXT(repository), TEXT(manifest), TEXT(""), OCTETS(signature), out, room(), &o),
           9, "TooLong");
    for (i = 0; i < 3; i++) {
        const uint8_t *at[3] = {yes, yes, yes};
        size_t count[3] = {4, 4, 4};
        at[i] = signature.at;
        count[i] = signature.length;
        expect("signature", calmizsed_message_finish(1, OCTETS(text), MADE_AT, serial, 20, OCTETS(key), one_off, sizeof one_off, at[0],
                                                     count[0], at[1], count[1], at[2], count[2], out, room(), &o),
               9, "TooLong");
    }
    for (i = 0; i < 6; i++) {
        const uint8_t *uri = (const uint8_t *)no_uris[i];
        size_t count = strlen(no_uris[i]);
        expect("repository", calmizsed_request_prepare(OCTETS(key), uri, count, TEXT(manifest), TEXT(""), out, room(), &o), 2, "Usage");
        expect("manifest", calmizsed_request_finish(OCTETS(key), TEXT(repository), uri, count, TEXT(""), yes, 4, out, room(), &o), 2,
                                                    "Usage");
        if (i != 0 && i != 3) {
            expect("notify", calmizsed_request_prepare(OCTETS(key), TEXT(repository), TEXT(manifest), uri, count, out, room(), &o), 2,
                   "Usage");
        }
    }
    free(too_long.at);
    free(signature.at);
}

static void bad_decided(void) {
    struct octets cut = copied(known, known_length - 1), no_known = copied("", 0);
    const struct octets *none[2] = {&nothing, &garbage};
    int32_t status;
    int i;
    for (i = 0; i < 2; i++) {
        expect("base", calmizsed_publication_decide(OCTETS(*none[i]), OCTETS(text), known, known_length, out, room(), &o), 2, "Usage");
        expect("query", calmizsed_publication_decide(TEXT(repository), OCTETS(*none[i]), known, known_length, out, room(), &o), 5,
               "XmlError");
    }
    expect("known", calmizsed_publication_decide(TEXT(repository), OCTETS(text), OCTETS(garbage), out, room(), &o), 2, "Usage");
    expect("known", calmizsed_publication_decide(TEXT(repository), OCTETS(text), OCTETS(cut), out, room(), &o), 2, "Usage");
    expect("known", calmizsed_publication_decide(TEXT(repository), TEXT(changes), OCTETS(no_known), out, room(), &o), 17, "UnknownObject");
    expect("known", calmizsed_publication_decide(TEXT(repository), TEXT(changes), known, known_no_more, out, room(), &o), 17,
           "UnknownObject");
    for (status = -1; status <= 18; status++) {
        if (status < 4 || status > 6) {
            expect("status", calmizsed_publication_refuse(status, out, room(), &o), 2, "Usage");
        }
    }
    free(cut.at);
    free(no_known.at);
}

static void try_bad(void) {
    struct octets all = copied(OCTETS(key)), behind = joined(&key, "", 1), cut = copied(key.at, key.length - 1), next;
    const struct octets digests[3] = {nothing, {zeros.at, 31}, zeros};
    int i;
    for (i = 2; i <= 9; i++) {
        next = joined(&all, OCTETS(key));
        free(all.at);
        all = next;
        if (i == 8 && calmizsed_message_questions(OCTETS(message), OCTETS(all), out, room(), &o) != CALMIZSED_OK) {
            complain("keys", "eight keys are refused");
        }
    }
    bad_keys(&nothing);
    bad_keys(&garbage);
    bad_keys(&behind);
    bad_keys(&cut);
    bad_keys(&all);
    for (i = 0; i < 3; i++) {
        bad_digests(&digests[i], CALMIZSED_USAGE, "Usage");
    }
    bad_digests(&other_digest, CALMIZSED_OTHER_QUESTIONS, "OtherQuestions");
    bad_numbers();
    bad_received();
    bad_made();
    bad_decided();
    free(all.at);
    free(behind.at);
    free(cut.at);
}

/* ---- all */

/* The digest at the end of questions. */
static struct octets digest_of(const struct call *call) {
    struct calmizsed_outcome outcome;
    struct calmizsed_record record = {0, 0, NULL};
    struct octets records = made(call, AMPLE, &outcome), digest;
    size_t place = 0;
    while (calmizsed_next_record(records.at, outcome.written, &place, &record)) {
    }
    if (outcome.status != CALMIZSED_OK || place != outcome.written || record.tag != CALMIZSED_DIGEST || record.length != 32) {
        complain(call->name, "gave no digest at the end");
        exit(1);
    }
    digest = copied(record.octets, record.length);
    free(records.at);
    return digest;
}

static void read_all(const char *folder) {
    struct calmizsed_outcome outcome;
    message = read_file(folder, "rsa-query.der");
    text = read_file(folder, "query-list.xml");
    setup = read_file(folder, "rsa-child-request.xml");
    issue = read_file(folder, "rsa-issue.xml");
    key = read_hexadecimal(folder, "rsa-key.hex");
    request = read_hexadecimal(folder, "rsa-request.hex");
    nothing = copied("", 0);
    garbage = copied("\x30\x03\x02\x01", 4);
    zeros = filled(33, 0);
    other_digest = filled(32, 1);
    ecdsa = filled(sizeof ecdsa_head + 64, 7);
    memcpy(ecdsa.at, ecdsa_head, sizeof ecdsa_head);
    calmizsed_add_known(known, sizeof known, &known_length, TEXT(repository), NULL);
    known_no_more = known_length;
    calmizsed_add_known(known, sizeof known, &known_length, TEXT(manifest), other_digest.at);
    certificate = made(&calls[11], AMPLE, &outcome);
    certificate.length = outcome.written;
    asked = digest_of(&calls[1]);
    setup_asked = digest_of(&calls[8]);
    request_asked = digest_of(&calls[15]);
    issue_asked = digest_of(&calls[17]);
}

int main(int count, char **words) {
    struct octets *kept[] = {&message, &key,         &text,          &setup,       &request, &issue, &certificate, &asked,
                             &setup_asked, &request_asked, &issue_asked, &ecdsa, &nothing, &garbage,     &zeros, &other_digest};
    size_t i;
    if (count < 3) {
        fprintf(stderr, "test_calls EXAMPLES rooms|bad|memory, or threads THREADS CALLS\n");
        return 2;
    }
    read_all(words[1]);
    if (strcmp(words[2], "rooms") == 0) {
        for (i = 0; i < CALLS; i++) {
            try_rooms(&calls[i]);
        }
        printf("%d calls\n", (int)CALLS);
    } else if (strcmp(words[2], "memory") == 0) {
        for (i = 0; i < CALLS; i++) {
            try_memory(&calls[i]);
        }
    } else if (strcmp(words[2], "bad") == 0) {
        try_bad();
    } else if (count == 5) {
        try_threads(atoi(words[3]), atol(words[4]));
    }
    for (i = 0; i < sizeof kept / sizeof kept[0]; i++) {
        free(kept[i]->at);
    }
    return wrong;
}
