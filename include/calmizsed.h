/*
 * Calmizsed: signed messages of the RPKI's publication and provisioning protocols (RFC 8181, RFC 6492), their setup messages (RFC 8183),
 * and certificate requests (RFC 6487), under keys that are held elsewhere.
 *
 * The library knows no signature scheme and holds no key. It asks which signatures hold, and takes the answers; it says what is to be
 * signed, and takes the signatures. OpenSSL can stand behind it, or a device: bindings/c has whole programs that receive and make messages.
 *
 * RECEIVE a message of a partner whose public key you know:
 *   1. calmizsed_message_questions gives the questions, as records (below).
 *   2. Answer each of them: is this a signature of RSA with SHA-256, in PKCS #1 v1.5 (RFC 8017, 8.2), of these octets under this key?
 *   3. calmizsed_message_receive takes the answers, makes all checks, and gives the message of the protocol, in XML.
 * MAKE a message:
 *   1. calmizsed_message_prepare gives three texts that are to be signed, as records.
 *   2. Sign each of them.
 *   3. calmizsed_message_finish takes the same arguments and the signatures, and gives the signed message.
 * Setup messages and certificate requests go the same two ways.
 * ANSWER a query, as a publication server: calmizsed_publication_decide takes what is known of the objects that the query names, and gives
 * the reply, which is then made a signed message, and says whether the changes are to be made. The objects are yours to keep.
 *
 * CALLS. All calls have one shape:
 *   - Octets that go in are a pointer and a length. They are only read.
 *   - `out` and `out_length` are a buffer of yours, for the result. `outcome` is a struct of yours, of which each call sets each field.
 *   - What a call returns is a status, which outcome->status has too: 0, or why there is no result. outcome->name is its name.
 *   - With status 0 the result is in the first outcome->written octets of `out`. The rest of `out` is as it was.
 *   - With status 16, `NoRoom`, `out` is too small: it is as it was, and outcome->written says how many octets are needed. The same call
 *     with that many gives the result. So a first call may have an `out_length` of 0, to ask for the length; a result of no octets, as
 *     the content of a message can be, comes with status 0 even then.
 *   - With each other status `out` is as it was, and outcome->written is 0.
 *
 * YOU MUST
 *   - hand in pointers that are valid for their lengths, which are below 2^63. None may be null, also where its length is 0: then give
 *     any other address.
 *   - not let `out` or `outcome` overlap each other or anything else that you hand in, and write to nothing that you handed in until the
 *     call returns. What is only read may overlap.
 *   - not call from a signal handler, nor in the child of a fork of a process with threads.
 *
 * THREADS. Any number of threads may be in calls at once, and no lock is needed: no call keeps anything, and nothing is shared between
 * calls. A call doesn't block, starts no thread, and opens no file.
 *
 * MEMORY is taken by malloc and realloc alone, and is free again when the call returns. Where there is none the status is 12,
 * `OutOfMemory`, and the call can be made again.
 *
 * MOMENTS are whole seconds since 1970, without leap seconds, from -62167219200 (the year 0) to 253402300799 (the end of the year 9999).
 * KEYS are SubjectPublicKeyInfos in DER (RFC 5280, 4.1.2.7), as `openssl pkey -pubout -outform DER` writes them. Several keys are handed
 * in one behind the other, with nothing behind the last; there may be one to eight.
 * TEXTS are documents of XML, with no zero behind them. LENGTHS are in octets.
 */
#ifndef CALMIZSED_H
#define CALMIZSED_H

#include <stddef.h>
#include <stdint.h>

#ifdef __cplusplus
extern "C" {
#endif

/* What a call returns. Each call lists the names of its own; `Usage` and `OutOfMemory` may come of each that can have them. */
enum calmizsed_status {
    /* Ok: there is a result. */
    CALMIZSED_OK = 0,
    /* Usage: an argument is none of those that are allowed, or there are more or fewer answers than questions. */
    CALMIZSED_USAGE = 2,
    /* CmsDecode: the octets begin with no signed message. */
    CALMIZSED_NO_MESSAGE = 4,
    /* XmlError: the text, or the content of the signed message, has not the form that is asked for.
     * CertSyntax, InvalidCsrSyntax: it has, and a certificate or the certificate request in it is none.
     * InvalidCsrSyntax: also, the octets begin with no certificate request.
     * InvalidTaCertEncoding: the octets in the place of the trust anchor begin with no identity certificate.
     * InvalidTaCert: a check of the trust anchor's certificate fails. */
    CALMIZSED_NO_FORM = 5,
    /* Validation N: check N of a signed message fails, which outcome->check has too.
     * Signature: a certificate request isn't signed under its own key. */
    CALMIZSED_CHECK_FAILS = 6,
    /* IncompatibleKey: a key that is to sign is no RSA key.
     * KeyReused: the one-off key is the issuing key. */
    CALMIZSED_WRONG_KEY = 7,
    /* Moment: the 300 seconds before or after the moment leave the years 1970 to 9999. */
    CALMIZSED_NO_WINDOW = 8,
    /* TooLong: a key or a signature of more than 2^16 octets, or a message's text of more than 2^31. */
    CALMIZSED_TOO_LONG = 9,
    /* OutOfMemory: memory ran out. */
    CALMIZSED_OUT_OF_MEMORY = 12,
    /* OtherQuestions: the digest is not that of the questions, so the answers are to other ones. */
    CALMIZSED_OTHER_QUESTIONS = 14,
    /* NoTime: a last time was handed in, and the message doesn't say when it was signed.
     * Replayed LAST TIME: the message was signed at outcome->signing_time, not later than outcome->last_time. */
    CALMIZSED_REPLAYED = 15,
    /* NoRoom: `out` is too small. */
    CALMIZSED_NO_ROOM = 16,
    /* UnknownObject: the query names a URI of which nothing is known. */
    CALMIZSED_UNKNOWN_OBJECT = 17
};

/* The protocol of a message: RFC 8181, RFC 6492. */
enum calmizsed_kind {
    CALMIZSED_PUBLICATION = 1,
    CALMIZSED_PROVISIONING = 2
};

/* A setup message: RFC 8183, 5.2.1 to 5.2.4. */
enum calmizsed_setup_kind {
    CALMIZSED_CHILD_REQUEST = 1,
    CALMIZSED_PARENT_RESPONSE = 2,
    CALMIZSED_PUBLISHER_REQUEST = 3,
    CALMIZSED_REPOSITORY_RESPONSE = 4
};

/* How a call ended. */
struct calmizsed_outcome {
    /* What the call returned. */
    int32_t status;
    /* With `Validation`, the number of the check that fails, from 1 to 14; else 0. */
    int32_t check;
    /* How many octets the result has: with status 0 they are in `out`, with 16 they would not fit; else 0. */
    size_t written;
    /* Of calmizsed_message_receive with status 0, the place of the key that issued the message's certificate, from 0; else 0. */
    size_t place;
    /* 1 where there is a signing time, else 0. */
    int32_t has_signing_time;
    /* Of calmizsed_message_receive with status 0, and with `Replayed`, when the message says that it was signed; else 0. */
    int64_t signing_time;
    /* With `Replayed`, the last time that was handed in; else 0. */
    int64_t last_time;
    /* The name of the status, as `Ok`, `Validation 5` or `Replayed 1700000000 1600000000`, and zeros behind it, one at least. */
    char name[64];
};

/*
 * RECORDS. A result with several parts is records, one behind the other: a tag octet, a length of eight octets (the most significant
 * first), and so many octets.
 *
 * Questions are
 *   - at most one question under a key of its own: the records 17 (the key), the part, and 16 (its signature);
 *   - then parts that are asked under each of the keys that were handed in: the part and 16, for each;
 *   - then 18 for each of these keys, in their order;
 *   - then 19, the digest of the questions, to which the answers are bound: the 32 octets of the SHA-256 of all records before it, with
 *     their tags and lengths.
 * The part's tag says what it is, and its octets are exactly those that are signed: no digest was made of them.
 *
 * Answers are one octet for each question, 1 where the signature holds and 0 where it doesn't: first for the question with a key of its
 * own; then, for one key after the other, for each part. So a message with one CRL has 3 answers under one key, and 5 under two.
 *
 * What is known of objects is handed in as records, each of one URI: 22 for an object that is there, with the 32 octets of its SHA-256 and
 * then its URI; 23 where there is none, with the URI. Of a URI the first record counts.
 */
enum calmizsed_tag {
    CALMIZSED_ATTRIBUTES = 1,
    CALMIZSED_CERTIFICATE = 2,
    CALMIZSED_CRL = 3,
    CALMIZSED_ANCHOR = 4,
    CALMIZSED_REQUEST = 5,
    CALMIZSED_SIGNATURE = 16,
    CALMIZSED_OWN_KEY = 17,
    CALMIZSED_KEY = 18,
    CALMIZSED_DIGEST = 19,
    CALMIZSED_REPLY = 20,
    CALMIZSED_REPLY_AND_CHANGES = 21,
    CALMIZSED_OBJECT = 22,
    CALMIZSED_NO_OBJECT = 23
};

struct calmizsed_record {
    uint8_t tag;
    size_t length;
    const uint8_t *octets;
};

/*
 * The record at `*place` of records of so many octets, and `*place` behind it: then 1. At their end, and where they are none, 0, and
 * nothing is changed. `*place` is 0 before the first call. The record points into the records.
 */
static inline int calmizsed_next_record(const uint8_t *records, size_t length, size_t *place, struct calmizsed_record *record) {
    const uint8_t *head;
    uint64_t count = 0;
    int i;
    if (*place > length || length - *place < 9) {
        return 0;
    }
    head = records + *place;
    for (i = 1; i < 9; i++) {
        count = (count << 8) | head[i];
    }
    if (length - *place - 9 < count) {
        return 0;
    }
    record->tag = head[0];
    record->length = (size_t)count;
    record->octets = head + 9;
    *place += 9 + record->length;
    return 1;
}

/*
 * Adds what is known of a URI to records, whose buffer has so many octets: the SHA-256 of the object that is there, or, where `sha256` is
 * null, that there is none. `*place` is where the records end, and is moved behind the new one: then 1. Where there is too little room, 0,
 * and nothing is changed.
 */
static inline int calmizsed_add_known(
    uint8_t *known, size_t room, size_t *place, const uint8_t *uri, size_t uri_length, const uint8_t *sha256) {
    const size_t of_digest = sha256 ? 32 : 0;
    uint64_t count;
    uint8_t *head;
    size_t i;
    if (*place > room || room - *place < 9 + of_digest || room - *place - 9 - of_digest < uri_length) {
        return 0;
    }
    head = known + *place;
    count = (uint64_t)uri_length + of_digest;
    head[0] = (uint8_t)(sha256 ? CALMIZSED_OBJECT : CALMIZSED_NO_OBJECT);
    for (i = 8; i > 0; i--) {
        head[i] = (uint8_t)count;
        count >>= 8;
    }
    for (i = 0; i < of_digest; i++) {
        head[9 + i] = sha256[i];
    }
    for (i = 0; i < uri_length; i++) {
        head[9 + of_digest + i] = uri[i];
    }
    *place += 9 + of_digest + uri_length;
    return 1;
}

/*
 * EXAMPLES below are one call each, with these variables:
 *
 *     uint8_t out[16384];                    the result
 *     struct calmizsed_outcome outcome;      how the call ended
 *     int64_t when = (int64_t)time(NULL);    now
 *     digest, answers, answers_length        what the call of the questions gave, and one octet for each question
 *     known, known_length                    what is known of objects
 *
 * Behind them stands what to do with outcome.status, as in the example at the end.
 */

/* ---- signed messages ---- */

/*
 * The questions of a signed message.
 *
 * message   the signed message, in BER or DER. What stands behind it isn't read.
 * keys      one to eight keys of whom it should come from, one behind the other.
 * Result    records. The question of the attributes has a key of its own, that of the message's certificate. The certificate and each CRL
 *           are asked under each of the keys.
 * Statuses  Usage (no key, more than eight, or one that is none), CmsDecode, OutOfMemory, NoRoom.
 *
 * Example:
 *     calmizsed_message_questions(message, message_length, key, key_length, out, sizeof out, &outcome);
 */
int32_t calmizsed_message_questions(
    const uint8_t *message, size_t message_length, const uint8_t *keys, size_t keys_length,
    uint8_t *out, size_t out_length, struct calmizsed_outcome *outcome);

/*
 * The message of the protocol that a signed message holds, if all fourteen checks hold under one of the keys (RFC 6492, 3.1; RFC 8181, 2).
 *
 * kind      the protocol, of `enum calmizsed_kind`.
 * message, keys    as calmizsed_message_questions had them, octet by octet.
 * when      the moment at which it is judged, in seconds since 1970.
 * has_last, last   with 1, the message has to be signed later than the moment `last`. Who keeps outcome->signing_time of each message of
 *           a partner, and hands it in the next time, admits none twice. With 0 nothing is asked, and `last` isn't looked at.
 * digest    32 octets: the record 19 of the questions.
 * answers   one octet for each question: 1 where the signature holds, and 0 where it doesn't.
 * Result    the message, in XML, written anew. outcome->place is the place of the first key under which it is accepted, from 0, and
 *           outcome->signing_time when it was signed, where outcome->has_signing_time is 1.
 * Statuses  of these the first decides: Usage, CmsDecode, OtherQuestions, Usage (for the number of answers), XmlError, CertSyntax,
 *           InvalidCsrSyntax, Validation, NoTime, Replayed. OutOfMemory and NoRoom may come besides.
 *
 * Validation says the first of these checks that fails, and under several keys the greatest of the first that fail, one under each:
 *    1  the signer's key identifier is the certificate's subject key identifier
 *    2  the SHA-256 of the content is the signed digest
 *    3  the signature of the attributes holds under the certificate's key
 *    4  the certificate's subject key identifier is the SHA-1 of its key
 *    5  the moment is in the certificate's validity
 *    6  the certificate's authority key identifier, if there is one, is that of the key
 *    7  the certificate is no authority's
 *    8  the certificate's signature holds under the key
 *    9  both algorithm identifiers of each CRL are the same
 *   10  each CRL's signature holds under the key
 *   11  each CRL is of no later time than the moment
 *   12  each CRL is not out of date
 *   13  each CRL's authority key identifier, if there is one, is that of the key
 *   14  no CRL revokes the certificate
 *
 * Example:
 *     calmizsed_message_receive(CALMIZSED_PUBLICATION, message, message_length, key, key_length, when, 0, 0, digest, 32,
 *                               answers, answers_length, out, sizeof out, &outcome);
 */
int32_t calmizsed_message_receive(
    int32_t kind, const uint8_t *message, size_t message_length, const uint8_t *keys, size_t keys_length,
    int64_t when, int32_t has_last, int64_t last,
    const uint8_t *digest, size_t digest_length, const uint8_t *answers, size_t answers_length,
    uint8_t *out, size_t out_length, struct calmizsed_outcome *outcome);

/*
 * Which of the fourteen checks of a signed message hold under one key.
 *
 * message, when    as for calmizsed_message_receive.
 * key       one key.
 * digest, answers  to the questions of this message under this key alone.
 * Result    fourteen octets, one for each check in their order: 1 where it holds, and 0 where it fails, whether or not one before it does.
 * Statuses  Usage, CmsDecode, OtherQuestions, OutOfMemory, NoRoom.
 *
 * Example:
 *     calmizsed_message_explain(message, message_length, key, key_length, when, digest, 32, answers, answers_length,
 *                               out, sizeof out, &outcome);
 */
int32_t calmizsed_message_explain(
    const uint8_t *message, size_t message_length, const uint8_t *key, size_t key_length, int64_t when,
    const uint8_t *digest, size_t digest_length, const uint8_t *answers, size_t answers_length,
    uint8_t *out, size_t out_length, struct calmizsed_outcome *outcome);

/*
 * What is in a signed message. NOTHING OF IT IS CHECKED.
 *
 * message   the signed message, in BER or DER. What stands behind it isn't read.
 * Result    a JSON text.
 * Statuses  CmsDecode, OutOfMemory, NoRoom.
 *
 * Example:
 *     calmizsed_message_inspect(message, message_length, out, sizeof out, &outcome);
 */
int32_t calmizsed_message_inspect(
    const uint8_t *message, size_t message_length, uint8_t *out, size_t out_length, struct calmizsed_outcome *outcome);

/*
 * The content of a signed message. NO SIGNATURE IS CHECKED: anyone can have made it. It is for looking at, and not for acting on.
 *
 * message   the signed message, in BER or DER. What stands behind it isn't read.
 * Result    the content's octets, if they have the digest that was signed.
 * Statuses  CmsDecode, Validation (of check 2), OutOfMemory, NoRoom.
 *
 * Example:
 *     calmizsed_message_content(message, message_length, out, sizeof out, &outcome);
 */
int32_t calmizsed_message_content(
    const uint8_t *message, size_t message_length, uint8_t *out, size_t out_length, struct calmizsed_outcome *outcome);

/*
 * What is to be signed of a signed message.
 *
 * kind      the protocol, of `enum calmizsed_kind`.
 * text      a message of that protocol, in XML.
 * when      the moment that it says it was signed at. What is made is valid from 300 seconds before it to 300 seconds after it.
 * serial    the certificate's serial number: 20 octets, drawn at random, of which the first is below 128.
 * issuing_key      the key that the partner knows. Its holder signs the CRL and the certificate.
 * one_off_key      a key that is drawn for this message alone, and then thrown away. Its holder signs the attributes.
 * Result    the records 1 (attributes), 3 (CRL) and 2 (certificate).
 * Statuses  Usage, XmlError, CertSyntax, InvalidCsrSyntax, Moment, TooLong, IncompatibleKey, KeyReused, OutOfMemory, NoRoom.
 *
 * Example:
 *     calmizsed_message_prepare(CALMIZSED_PUBLICATION, text, text_length, when, serial, 20, key, key_length,
 *                               one_off_key, one_off_key_length, out, sizeof out, &outcome);
 */
int32_t calmizsed_message_prepare(
    int32_t kind, const uint8_t *text, size_t text_length, int64_t when, const uint8_t *serial, size_t serial_length,
    const uint8_t *issuing_key, size_t issuing_key_length, const uint8_t *one_off_key, size_t one_off_key_length,
    uint8_t *out, size_t out_length, struct calmizsed_outcome *outcome);

/*
 * A signed message.
 *
 * kind, text, when, serial, issuing_key, one_off_key    as calmizsed_message_prepare had them, octet by octet.
 * attributes, crl, certificate    the signatures of what that call gave, of at most 2^16 octets each. THEY AREN'T CHECKED.
 * Result    the signed message, in DER.
 * Statuses  Usage, XmlError, CertSyntax, InvalidCsrSyntax, Moment, TooLong, IncompatibleKey, KeyReused, OutOfMemory, NoRoom.
 *
 * Example:
 *     calmizsed_message_finish(CALMIZSED_PUBLICATION, text, text_length, when, serial, 20, key, key_length,
 *                              one_off_key, one_off_key_length, attributes, 256, crl, 256, certificate, 256,
 *                              out, sizeof out, &outcome);
 */
int32_t calmizsed_message_finish(
    int32_t kind, const uint8_t *text, size_t text_length, int64_t when, const uint8_t *serial, size_t serial_length,
    const uint8_t *issuing_key, size_t issuing_key_length, const uint8_t *one_off_key, size_t one_off_key_length,
    const uint8_t *attributes, size_t attributes_length, const uint8_t *crl, size_t crl_length,
    const uint8_t *certificate, size_t certificate_length,
    uint8_t *out, size_t out_length, struct calmizsed_outcome *outcome);

/* ---- setup messages, and the trust anchors in them (RFC 8183, 5) ---- */

/*
 * The questions of the trust anchor's certificate in a setup message.
 *
 * kind      which setup message, of `enum calmizsed_setup_kind`.
 * text      the setup message, in XML.
 * Result    records. The certificate is asked under its own key, where it names that as its issuer's. Else there is no question and no
 *           answer, and its signature isn't looked at.
 * Statuses  Usage, XmlError, InvalidTaCertEncoding, OutOfMemory, NoRoom.
 *
 * Example:
 *     calmizsed_setup_questions(CALMIZSED_CHILD_REQUEST, setup, setup_length, out, sizeof out, &outcome);
 */
int32_t calmizsed_setup_questions(
    int32_t kind, const uint8_t *text, size_t text_length, uint8_t *out, size_t out_length, struct calmizsed_outcome *outcome);

/*
 * A setup message, if the five checks of its trust anchor's certificate hold: of its times, its key identifiers, its cA, and its own
 * signature. That says only that the certificate came whole: whom it is from has to be known some other way (RFC 8183, 8).
 *
 * kind, text       as calmizsed_setup_questions had them.
 * when      the moment at which it is judged.
 * digest, answers  to its questions.
 * Result    the setup message, in XML, written anew.
 * Statuses  Usage, XmlError, InvalidTaCertEncoding, OtherQuestions, InvalidTaCert, OutOfMemory, NoRoom.
 *
 * Example:
 *     calmizsed_setup_receive(CALMIZSED_CHILD_REQUEST, setup, setup_length, when, digest, 32, answers, answers_length,
 *                             out, sizeof out, &outcome);
 */
int32_t calmizsed_setup_receive(
    int32_t kind, const uint8_t *text, size_t text_length, int64_t when,
    const uint8_t *digest, size_t digest_length, const uint8_t *answers, size_t answers_length,
    uint8_t *out, size_t out_length, struct calmizsed_outcome *outcome);

/*
 * A setup message as it would be written. ITS CERTIFICATE ISN'T CHECKED.
 *
 * kind      which setup message, of `enum calmizsed_setup_kind`.
 * text      the setup message, in XML.
 * Result    the setup message, in XML, written anew.
 * Statuses  Usage, XmlError, OutOfMemory, NoRoom.
 *
 * Example:
 *     calmizsed_setup_read(CALMIZSED_CHILD_REQUEST, setup, setup_length, out, sizeof out, &outcome);
 */
int32_t calmizsed_setup_read(
    int32_t kind, const uint8_t *text, size_t text_length, uint8_t *out, size_t out_length, struct calmizsed_outcome *outcome);

/*
 * The trust anchor's certificate in a setup message. IT ISN'T CHECKED.
 *
 * kind      which setup message, of `enum calmizsed_setup_kind`.
 * text      the setup message, in XML.
 * Result    the certificate, in DER.
 * Statuses  Usage, XmlError, InvalidTaCertEncoding, OutOfMemory, NoRoom.
 *
 * Example:
 *     calmizsed_setup_anchor(CALMIZSED_CHILD_REQUEST, setup, setup_length, out, sizeof out, &outcome);
 */
int32_t calmizsed_setup_anchor(
    int32_t kind, const uint8_t *text, size_t text_length, uint8_t *out, size_t out_length, struct calmizsed_outcome *outcome);

/*
 * The key of an identity certificate. That of a setup message is the key under which its sender's messages are received. THE CERTIFICATE
 * ISN'T CHECKED.
 *
 * certificate      the certificate, in DER. What stands behind it isn't read.
 * Result    its key, as keys are handed in.
 * Statuses  InvalidTaCertEncoding, OutOfMemory, NoRoom.
 *
 * Example:
 *     calmizsed_anchor_key(anchor, anchor_length, out, sizeof out, &outcome);
 */
int32_t calmizsed_anchor_key(
    const uint8_t *certificate, size_t certificate_length, uint8_t *out, size_t out_length, struct calmizsed_outcome *outcome);

/*
 * What is to be signed of a key's own certificate, as a setup message holds it.
 *
 * not_before, not_after    the first and the last moment at which it is valid.
 * key       the key, whose holder signs.
 * Result    the record 4 (anchor).
 * Statuses  Usage, TooLong, IncompatibleKey, OutOfMemory, NoRoom.
 *
 * Example:
 *     calmizsed_anchor_prepare(when, when + 365 * 86400, key, key_length, out, sizeof out, &outcome);
 */
int32_t calmizsed_anchor_prepare(
    int64_t not_before, int64_t not_after, const uint8_t *key, size_t key_length,
    uint8_t *out, size_t out_length, struct calmizsed_outcome *outcome);

/*
 * A key's own certificate.
 *
 * not_before, not_after, key    as calmizsed_anchor_prepare had them.
 * signature        the signature of what that call gave, of at most 2^16 octets. IT ISN'T CHECKED.
 * Result    the certificate, in DER.
 * Statuses  Usage, TooLong, IncompatibleKey, OutOfMemory, NoRoom.
 *
 * Example:
 *     calmizsed_anchor_finish(when, when + 365 * 86400, key, key_length, signature, 256, out, sizeof out, &outcome);
 */
int32_t calmizsed_anchor_finish(
    int64_t not_before, int64_t not_after, const uint8_t *key, size_t key_length, const uint8_t *signature, size_t signature_length,
    uint8_t *out, size_t out_length, struct calmizsed_outcome *outcome);

/* ---- certificate requests (RFC 6487, 6) ---- */

/*
 * The question of a certificate request.
 *
 * request   the certificate request, in DER. What stands behind it isn't read.
 * Result    records: it is asked under its own key.
 * Statuses  InvalidCsrSyntax, OutOfMemory, NoRoom.
 *
 * Example:
 *     calmizsed_request_questions(request, request_length, out, sizeof out, &outcome);
 */
int32_t calmizsed_request_questions(
    const uint8_t *request, size_t request_length, uint8_t *out, size_t out_length, struct calmizsed_outcome *outcome);

/*
 * The key of a certificate request, if it is signed under it.
 *
 * request   as calmizsed_request_questions had it.
 * digest, answers  to its question.
 * Result    the key, as keys are handed in.
 * Statuses  Usage, InvalidCsrSyntax, OtherQuestions, Signature, OutOfMemory, NoRoom.
 *
 * Example:
 *     calmizsed_request_verify(request, request_length, digest, 32, answers, answers_length, out, sizeof out, &outcome);
 */
int32_t calmizsed_request_verify(
    const uint8_t *request, size_t request_length,
    const uint8_t *digest, size_t digest_length, const uint8_t *answers, size_t answers_length,
    uint8_t *out, size_t out_length, struct calmizsed_outcome *outcome);

/*
 * As calmizsed_request_questions, of the certificate request in an issue request of the provisioning protocol.
 *
 * text      the issue request (RFC 6492, 3.4.1), in XML.
 * Result    records.
 * Statuses  XmlError, CertSyntax, InvalidCsrSyntax, OutOfMemory, NoRoom.
 *
 * Example:
 *     calmizsed_issue_questions(issue, issue_length, out, sizeof out, &outcome);
 */
int32_t calmizsed_issue_questions(
    const uint8_t *text, size_t text_length, uint8_t *out, size_t out_length, struct calmizsed_outcome *outcome);

/*
 * As calmizsed_request_verify, of the certificate request in an issue request.
 *
 * text      as calmizsed_issue_questions had it.
 * digest, answers  to its question.
 * Result    the key of the certificate request.
 * Statuses  Usage, XmlError, CertSyntax, InvalidCsrSyntax, OtherQuestions, Signature, OutOfMemory, NoRoom.
 *
 * Example:
 *     calmizsed_issue_verify(issue, issue_length, digest, 32, answers, answers_length, out, sizeof out, &outcome);
 */
int32_t calmizsed_issue_verify(
    const uint8_t *text, size_t text_length,
    const uint8_t *digest, size_t digest_length, const uint8_t *answers, size_t answers_length,
    uint8_t *out, size_t out_length, struct calmizsed_outcome *outcome);

/*
 * What is to be signed of a certificate request.
 *
 * key       the key, whose holder signs.
 * repository       where its objects are published: an rsync URI, to which a slash is added where it ends with none. Its module has to
 *           end with a slash, as in rsync://localhost/ca/.
 * manifest  where its manifest is: an rsync URI.
 * notify    where RRDP's notification file is: an https URI, or of length 0 for none.
 * Result    the record 5 (request).
 * Statuses  Usage, TooLong, IncompatibleKey, OutOfMemory, NoRoom.
 *
 * Example:
 *     calmizsed_request_prepare(key, key_length, repository, repository_length, manifest, manifest_length,
 *                               notify, notify_length, out, sizeof out, &outcome);
 */
int32_t calmizsed_request_prepare(
    const uint8_t *key, size_t key_length, const uint8_t *repository, size_t repository_length,
    const uint8_t *manifest, size_t manifest_length, const uint8_t *notify, size_t notify_length,
    uint8_t *out, size_t out_length, struct calmizsed_outcome *outcome);

/*
 * A certificate request.
 *
 * key, repository, manifest, notify    as calmizsed_request_prepare had them.
 * signature        the signature of what that call gave, of at most 2^16 octets. IT ISN'T CHECKED.
 * Result    the certificate request, in DER.
 * Statuses  Usage, TooLong, IncompatibleKey, OutOfMemory, NoRoom.
 *
 * Example:
 *     calmizsed_request_finish(key, key_length, repository, repository_length, manifest, manifest_length,
 *                              notify, notify_length, signature, 256, out, sizeof out, &outcome);
 */
int32_t calmizsed_request_finish(
    const uint8_t *key, size_t key_length, const uint8_t *repository, size_t repository_length,
    const uint8_t *manifest, size_t manifest_length, const uint8_t *notify, size_t notify_length,
    const uint8_t *signature, size_t signature_length,
    uint8_t *out, size_t out_length, struct calmizsed_outcome *outcome);

/* ---- what a publication server replies (RFC 8181, 2) ---- */

/*
 * What a publication server replies to a message, and whether it makes the changes that are asked for: all of them, or none.
 *
 * It takes no more than what is known of the URIs that the message's changes name, or, where it asks for the list, of all objects of its
 * sender. So the objects can be kept in any database, and a query costs as much as it names.
 *
 * base      the directory in which the sender may publish: an rsync URI. A URI is in it where its octets begin with those of the base, so
 *           the base should end with a slash. Another URI gets the error permission_failure.
 * query     the message, in XML. That it is of this sender isn't looked at here: hand in what calmizsed_message_receive gave.
 * known     what is known, as the records 22 (object) and 23 (no object), which calmizsed_add_known writes. There may be none. A list has
 *           the objects in their order.
 * Result    one record: 21 where the changes are to be made, one behind the other, and 20 where nothing is to be changed. Its octets are
 *           the reply, in XML: with 21 the success; with 20 the list, or the error of the first change that can't be made, behind those
 *           before it. To a message that is no query it is the error xml_error.
 * Statuses  of these the first decides: Usage (the base is no rsync URI, or what is known is none of these records), XmlError,
 *           UnknownObject (a change names a URI of which nothing is known). OutOfMemory and NoRoom may come besides.
 *
 * The reply says what is so as long as what is known is so: look the objects up, make the changes and keep them in one transaction.
 *
 * Example:
 *     calmizsed_publication_decide(base, base_length, query, query_length, known, known_length, out, sizeof out, &outcome);
 */
int32_t calmizsed_publication_decide(
    const uint8_t *base, size_t base_length, const uint8_t *query, size_t query_length, const uint8_t *known, size_t known_length,
    uint8_t *out, size_t out_length, struct calmizsed_outcome *outcome);

/*
 * What a publication server replies to a message that calmizsed_message_receive refused: an error, of no change.
 *
 * status    with what it was refused: 4 (no message) and 6 (a check fails) give the error bad_cms_signature, and 5 (no query) xml_error.
 * Result    the reply, in XML.
 * Statuses  Usage (another status), OutOfMemory, NoRoom.
 *
 * Example:
 *     calmizsed_publication_refuse(CALMIZSED_CHECK_FAILS, out, sizeof out, &outcome);
 */
int32_t calmizsed_publication_refuse(int32_t status, uint8_t *out, size_t out_length, struct calmizsed_outcome *outcome);

/* ---- others ---- */

/*
 * A message of a protocol as it would be signed.
 *
 * kind      the protocol, of `enum calmizsed_kind`.
 * text      a message of that protocol, in XML.
 * Result    the message, in XML, written anew, as calmizsed_message_prepare has it signed.
 * Statuses  Usage, XmlError, CertSyntax, InvalidCsrSyntax, OutOfMemory, NoRoom.
 *
 * Example:
 *     calmizsed_text_read(CALMIZSED_PUBLICATION, text, text_length, out, sizeof out, &outcome);
 */
int32_t calmizsed_text_read(
    int32_t kind, const uint8_t *text, size_t text_length, uint8_t *out, size_t out_length, struct calmizsed_outcome *outcome);

/*
 * A key's identifier (RFC 5280, 4.2.1.2).
 *
 * key       one key.
 * Result    20 octets: the SHA-1 of its bits.
 * Statuses  Usage, OutOfMemory, NoRoom.
 *
 * Example:
 *     calmizsed_key_identifier(key, key_length, out, sizeof out, &outcome);
 */
int32_t calmizsed_key_identifier(
    const uint8_t *key, size_t key_length, uint8_t *out, size_t out_length, struct calmizsed_outcome *outcome);

/*
 * The version of the library. It takes no memory.
 *
 * Result    digits and dots, with no zero behind them.
 * Statuses  NoRoom.
 *
 * Example:
 *     calmizsed_version(out, sizeof out, &outcome);
 */
int32_t calmizsed_version(uint8_t *out, size_t out_length, struct calmizsed_outcome *outcome);

/*
 * EXAMPLE: receive a query of a publisher whose key is known. `signature_holds` is yours: it asks OpenSSL, say. bindings/c/receive.c is
 * the whole program.
 *
 *     struct calmizsed_outcome outcome;
 *     struct calmizsed_record record, part = {0, 0, NULL}, parts[16], keys[8], own = {0, 0, NULL}, digest = {0, 0, NULL};
 *     ...
 *     calmizsed_message_questions(message, message_length, key, key_length, questions, sizeof questions, &outcome);
 *     if (outcome.status != CALMIZSED_OK) {
 *         fprintf(stderr, "%s\n", outcome.name);
 *         return outcome.status;
 *     }
 *     for (place = 0; calmizsed_next_record(questions, outcome.written, &place, &record);) {
 *         if (record.tag == CALMIZSED_OWN_KEY) {
 *             own = record;
 *         } else if (record.tag == CALMIZSED_SIGNATURE && part.tag == CALMIZSED_ATTRIBUTES) {
 *             answers[count++] = signature_holds(&own, &part, &record);
 *         } else if (record.tag == CALMIZSED_SIGNATURE) {
 *             parts[of_parts] = part, signatures[of_parts++] = record;
 *         } else if (record.tag == CALMIZSED_KEY) {
 *             for (i = 0; i < of_parts; i++) {
 *                 answers[count++] = signature_holds(&record, &parts[i], &signatures[i]);
 *             }
 *         } else if (record.tag == CALMIZSED_DIGEST) {
 *             digest = record;
 *         } else {
 *             part = record;
 *         }
 *     }
 *     calmizsed_message_receive(CALMIZSED_PUBLICATION, message, message_length, key, key_length, time(NULL), 0, 0,
 *                               digest.octets, digest.length, answers, count, text, sizeof text, &outcome);
 */

#ifdef __cplusplus
}
#endif

#endif
