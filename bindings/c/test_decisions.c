/*
 * What a publication server is told to reply to queries, by what is known of objects, and which error there is for a refused message.
 *
 *     cc -o test_decisions test_decisions.c libcalmizsed.a
 *     ./test_decisions
 *
 * What is wrong is written, and the exit status is then 1. It is C and C++ alike.
 */
#include <calmizsed.h>
#include <stdio.h>
#include <string.h>

enum { ROOM = 8192, BEFORE = 0xa5 };

#define BASE "rsync://localhost/ca/"
#define HASH_OF_A "ca978112ca1bbdcafac231b39a23dc4da786eff8147c4e72b9807785afee48bb"
#define HASH_OF_B "3e23e8160039594a33894f6564e1b1348bbd7a0088d42c4acb73eeaed59c009d"
#define PUBLISH_A "<publish tag=\"p\" uri=\"" BASE "f1\">YQ==</publish>"
#define UPDATE_B "<publish tag=\"u\" uri=\"" BASE "f1\" hash=\"" HASH_OF_A "\">Yg==</publish>"
#define WITHDRAW_B "<withdraw tag=\"w\" uri=\"" BASE "f1\" hash=\"" HASH_OF_B "\"/>"
#define PUBLISH_ELSEWHERE "<publish tag=\"e\" uri=\"rsync://localhost/cax/f1\">YQ==</publish>"
#define ERROR(code, tag, text, failed) \
    "<report_error error_code=\"" code "\" tag=\"" tag "\"><error_text>" text "</error_text><failed_pdu>" failed \
    "</failed_pdu></report_error>"
#define ERROR_ALONE(code, text) "<report_error error_code=\"" code "\"><error_text>" text "</error_text></report_error>"
#define THERE "An object is already present at this URI, yet a \"hash\" attribute was not specified."
#define NOT_THERE "There is no object present at this URI, yet a \"hash\" attribute was specified."
#define NOT_MATCHING "The \"hash\" attribute supplied does not match the \"hash\" attribute of the object at this URI."
#define NOT_PERMITTED "Client does not have permission to update this URI."
#define WRONG_XML "Encountered an XML problem."
#define WRONG_CMS "Encountered bad CMS signature."

static int wrong, count;
static uint8_t out[ROOM], known[ROOM];
static size_t known_length;
static struct calmizsed_outcome outcome;
static char query[ROOM], reply[ROOM];

static void complain(const char *name, const char *what) {
    printf("%s: %s\n", name, what);
    wrong = 1;
}

/* ---- what is known */

static void know_nothing(void) {
    known_length = 0;
}

/* The SHA-256 in hexadecimal, or null. */
static void know(const char *uri, const char *digits) {
    uint8_t digest[32];
    unsigned octet;
    int i;
    for (i = 0; digits && i < 32; i++) {
        if (sscanf(digits + 2 * i, "%2x", &octet) != 1) {
            complain(digits, "is no digest");
        }
        digest[i] = (uint8_t)octet;
    }
    if (!calmizsed_add_known(known, sizeof known, &known_length, (const uint8_t *)uri, strlen(uri), digits ? digest : NULL)) {
        complain(uri, "has no room");
    }
}

static void know_only(const char *uri, const char *digits) {
    know_nothing();
    know(uri, digits);
}

/* ---- calls */

/* The message of this type with these elements. */
static const char *message_of(char *text, const char *type, const char *elements) {
    snprintf(text, ROOM, "<msg xmlns=\"http://www.hactrn.net/uris/rpki/publication-spec/\" version=\"4\" type=\"%s\"%s%s%s", type,
             *elements ? ">" : "", elements, *elements ? "</msg>" : "/>");
    return text;
}

static int32_t decide(const char *base, const char *text) {
    count++;
    memset(out, BEFORE, sizeof out);
    return calmizsed_publication_decide((const uint8_t *)base, strlen(base), (const uint8_t *)text, strlen(text), known, known_length, out,
                                        sizeof out, &outcome);
}

static int is_unchanged(void) {
    size_t place;
    for (place = 0; place < sizeof out && out[place] == BEFORE; place++) {
    }
    return place == sizeof out;
}

/* What was decided is one record with this tag and this reply. */
static void decides_message(const char *name, const char *type, const char *elements, uint8_t tag, const char *replied) {
    struct calmizsed_record record = {0, 0, NULL};
    size_t place = 0;
    message_of(reply, "reply", replied);
    if (decide(BASE, message_of(query, type, elements)) != CALMIZSED_OK || outcome.status != CALMIZSED_OK) {
        complain(name, outcome.name);
    } else if (!calmizsed_next_record(out, outcome.written, &place, &record) || place != outcome.written) {
        complain(name, "the result is not one record");
    } else if (record.tag != tag) {
        complain(name, "another tag came");
    } else if (record.length != strlen(reply) || memcmp(record.octets, reply, record.length)) {
        printf("%s: %s was wanted, and this came: %.*s\n", name, reply, (int)record.length, (const char *)record.octets);
        wrong = 1;
    }
}

static void makes(const char *name, const char *elements) {
    decides_message(name, "query", elements, CALMIZSED_REPLY_AND_CHANGES, "<success/>");
}

static void keeps(const char *name, const char *elements, const char *replied) {
    decides_message(name, "query", elements, CALMIZSED_REPLY, replied);
}

/* There was no result, with this status and name. */
static void ended(const char *name, int32_t returned, int32_t status, const char *of_status) {
    if (returned != status || outcome.status != status || strcmp(outcome.name, of_status) || outcome.written || outcome.check ||
        outcome.place || outcome.has_signing_time || outcome.signing_time || outcome.last_time || !is_unchanged()) {
        printf("%s: %s was wanted, and %s with status %d came\n", name, of_status, outcome.name, (int)returned);
        wrong = 1;
    }
}

static void refuses(const char *name, const char *elements, int32_t status, const char *of_status) {
    ended(name, decide(BASE, message_of(query, "query", elements)), status, of_status);
}

/* ---- tests */

static void changes(void) {
    know_only(BASE "f1", NULL);
    makes("publish", PUBLISH_A);
    makes("one behind the other", PUBLISH_A UPDATE_B WITHDRAW_B PUBLISH_A);
    keeps("publish twice", PUBLISH_A PUBLISH_A, ERROR("object_already_present", "p", THERE, PUBLISH_A));
    keeps("update of none", UPDATE_B, ERROR("no_object_present", "u", NOT_THERE, UPDATE_B));
    keeps("withdraw of none", WITHDRAW_B, ERROR("no_object_present", "w", NOT_THERE, WITHDRAW_B));
    know_only(BASE "f1", HASH_OF_A);
    makes("update", UPDATE_B);
    makes("update and withdraw", UPDATE_B WITHDRAW_B);
    keeps("publish where one is", PUBLISH_A, ERROR("object_already_present", "p", THERE, PUBLISH_A));
    keeps("wrong hash", WITHDRAW_B, ERROR("no_object_matching_hash", "w", NOT_MATCHING, WITHDRAW_B));
    know_only(BASE "f1", HASH_OF_B);
    makes("withdraw", WITHDRAW_B);
    keeps("old hash", UPDATE_B, ERROR("no_object_matching_hash", "u", NOT_MATCHING, UPDATE_B));
    know_nothing();
    makes("no changes", "");
    know(BASE "f1", NULL);
    know(BASE "f1", HASH_OF_A);
    makes("the first counts", PUBLISH_A);
    keeps("the second doesn't", UPDATE_B, ERROR("no_object_present", "u", NOT_THERE, UPDATE_B));
    know("rsync://localhost/cax/f1", NULL);
    keeps("outside", PUBLISH_ELSEWHERE, ERROR("permission_failure", "e", NOT_PERMITTED, PUBLISH_ELSEWHERE));
    keeps("outside behind another", PUBLISH_A PUBLISH_ELSEWHERE, ERROR("permission_failure", "e", NOT_PERMITTED, PUBLISH_ELSEWHERE));
}

static void lists(void) {
    know_nothing();
    keeps("an empty list", "<list/>", "");
    know(BASE "f2", HASH_OF_B);
    know(BASE "f0", NULL);
    know(BASE "f1", HASH_OF_A);
    keeps("a list", "<list/>", "<list uri=\"" BASE "f2\" hash=\"" HASH_OF_B "\"/><list uri=\"" BASE "f1\" hash=\"" HASH_OF_A "\"/>");
    decides_message("a reply", "reply", "<success/>", CALMIZSED_REPLY, ERROR_ALONE("xml_error", WRONG_XML));
}

static void unknown(void) {
    know_nothing();
    refuses("nothing is known", PUBLISH_A, CALMIZSED_UNKNOWN_OBJECT, "UnknownObject");
    know(BASE "f", NULL);
    know(BASE "f11", HASH_OF_A);
    refuses("another is known", PUBLISH_A, CALMIZSED_UNKNOWN_OBJECT, "UnknownObject");
    refuses("nothing outside is known", PUBLISH_ELSEWHERE, CALMIZSED_UNKNOWN_OBJECT, "UnknownObject");
    know_only(BASE "f1", HASH_OF_A);
    refuses("behind a refused one", PUBLISH_A PUBLISH_ELSEWHERE, CALMIZSED_UNKNOWN_OBJECT, "UnknownObject");
    refuses("of several", UPDATE_B "<publish tag=\"n\" uri=\"" BASE "f2\">YQ==</publish>", CALMIZSED_UNKNOWN_OBJECT, "UnknownObject");
}

static void wrong_queries(void) {
    static const char *const texts[] = {"", "<a/>", "<msg", "<list/>"};
    size_t i;
    know_only(BASE "f1", NULL);
    for (i = 0; i < sizeof texts / sizeof texts[0]; i++) {
        ended(texts[i], decide(BASE, texts[i]), CALMIZSED_NO_FORM, "XmlError");
    }
    refuses("a URI of another scheme", "<publish tag=\"h\" uri=\"https://localhost/ca/f1\">YQ==</publish>", CALMIZSED_NO_FORM, "XmlError");
    refuses("a list and a change", "<list/>" PUBLISH_A, CALMIZSED_NO_FORM, "XmlError");
}

static void wrong_bases(void) {
    static const char *const bases[] = {"", "rsync://", "https://localhost/ca/", "rsync://localhost", "rsync://local host/ca/"};
    size_t i;
    know_only(BASE "f1", NULL);
    message_of(query, "query", PUBLISH_A);
    for (i = 0; i < sizeof bases / sizeof bases[0]; i++) {
        ended(bases[i], decide(bases[i], query), CALMIZSED_USAGE, "Usage");
    }
}

/* What is known with its octet at a place changed. */
static void changed(const char *name, size_t place, uint8_t octet) {
    know_only(BASE "f1", HASH_OF_A);
    know(BASE "f2", NULL);
    known[place] = octet;
    ended(name, decide(BASE, query), CALMIZSED_USAGE, "Usage");
}

static void wrong_known(void) {
    size_t whole, first, cut;
    message_of(query, "query", UPDATE_B);
    know_only(BASE "f1", HASH_OF_A);
    first = known_length;
    know(BASE "f2", NULL);
    whole = known_length;
    for (cut = 1; cut < whole; cut++) {
        known_length = cut;
        if (cut != first) {
            ended("records that are cut off", decide(BASE, query), CALMIZSED_USAGE, "Usage");
        }
    }
    known[whole] = 0;
    known_length = whole + 1;
    ended("an octet behind the records", decide(BASE, query), CALMIZSED_USAGE, "Usage");
    changed("another tag", 0, CALMIZSED_REPLY);
    changed("the tag of a key", first, CALMIZSED_KEY);
    changed("an object with the tag of none", 0, CALMIZSED_NO_OBJECT);
    changed("none with the tag of an object", first, CALMIZSED_OBJECT);
    changed("a very long record", 1, 0xff);
    changed("a record of more than 2^32", 4, 1);
    changed("a shorter record", 8, 31);
    changed("a space in a URI", 9 + 32 + sizeof BASE, ' ');
    know_only("https://localhost/ca/f1", NULL);
    ended("a URI of another scheme", decide(BASE, query), CALMIZSED_USAGE, "Usage");
    know_only("", HASH_OF_A);
    ended("no URI", decide(BASE, query), CALMIZSED_USAGE, "Usage");
}

static void refused_messages(void) {
    static const struct {
        int32_t status;
        const char *replied;
    } rows[] = {
        {CALMIZSED_NO_MESSAGE, ERROR_ALONE("bad_cms_signature", WRONG_CMS)},
        {CALMIZSED_CHECK_FAILS, ERROR_ALONE("bad_cms_signature", WRONG_CMS)},
        {CALMIZSED_NO_FORM, ERROR_ALONE("xml_error", WRONG_XML)},
    };
    static const int32_t others[] = {INT32_MIN, -1, 0, 1, 2, 3, 7, 8, 9, 12, 14, 15, 16, 17, 18, INT32_MAX};
    size_t i;
    for (i = 0; i < sizeof rows / sizeof rows[0]; i++) {
        message_of(reply, "reply", rows[i].replied);
        count++;
        if (calmizsed_publication_refuse(rows[i].status, out, sizeof out, &outcome) != CALMIZSED_OK ||
            outcome.written != strlen(reply) || memcmp(out, reply, outcome.written)) {
            complain("refuse", reply);
        }
    }
    for (i = 0; i < sizeof others / sizeof others[0]; i++) {
        count++;
        memset(out, BEFORE, sizeof out);
        ended("refuse", calmizsed_publication_refuse(others[i], out, sizeof out, &outcome), CALMIZSED_USAGE, "Usage");
    }
}

/* Records are added where there is room for them, and read again. */
static void rooms(void) {
    static const uint8_t uri[] = {'u', 'r', 'i'}, digest[32] = {1, 2, 3};
    uint8_t records[128];
    struct calmizsed_record record = {0, 0, NULL};
    size_t room, end, place;
    for (room = 0; room < 80; room++) {
        memset(records, BEFORE, sizeof records);
        end = 0;
        if (calmizsed_add_known(records, room, &end, uri, sizeof uri, digest) != (room >= 44) || end != (room >= 44 ? 44u : 0u)) {
            complain("room", "an object is added wrongly");
        }
        if (end && (calmizsed_add_known(records, room, &end, uri, sizeof uri, NULL) != (room >= 56) || end != (room >= 56 ? 56u : 44u))) {
            complain("room", "no object is added wrongly");
        }
        for (place = end; place < sizeof records; place++) {
            if (records[place] != BEFORE) {
                complain("room", "something is written behind the records");
            }
        }
    }
    place = 0;
    if (!calmizsed_next_record(records, end, &place, &record) || record.tag != CALMIZSED_OBJECT || record.length != 35 ||
        memcmp(record.octets, digest, 32) || memcmp(record.octets + 32, uri, 3) || records[7] != 0 || records[8] != 35) {
        complain("room", "an object is read as something else");
    }
    if (!calmizsed_next_record(records, end, &place, &record) || record.tag != CALMIZSED_NO_OBJECT || record.length != 3 ||
        memcmp(record.octets, uri, 3) || place != end || calmizsed_next_record(records, end, &place, &record)) {
        complain("room", "no object is read as something else");
    }
    for (room = 0; room < end; room++) {
        place = 0;
        if (calmizsed_next_record(records, room, &place, &record) != (room >= 44)) {
            complain("room", "a record is read that is cut off");
        }
    }
    memset(records, 0xff, 9);
    place = 0;
    if (calmizsed_next_record(records, sizeof records, &place, &record) || place) {
        complain("room", "a record is read that is longer than all memory");
    }
}

int main(void) {
    changes();
    lists();
    unknown();
    wrong_queries();
    wrong_bases();
    wrong_known();
    refused_messages();
    rooms();
    printf("%d decisions\n", count);
    return wrong;
}
