#!/usr/bin/env python3
"""Writes signed messages of the publication protocol and what their calls answer: crates/test_publication/data/cases.txt, and the stdout
beside it.

The envelopes are those of tools/cases/signed_messages.py, the texts those of RFC 8181; no expected answer comes from the program under
test.

A line is `NAME ber OCTETS STEP..`, with the steps of tools/cases/stored_cases.py. What the calls answer, or `refused` and the printed
error:

    decoded                           the content, and the message as it is written
    signed                            the digest, whether it holds, and the message as it is written
    message                           the message as it is written
    rewritten                         the signed message as it is written again
    checked,'MOMENT                   ok under key 0 of seed 1
    text                              the message as which the octets read as a text, as it is written
    query reply                       the query or the reply that this message is, as it is written
    lent                              its parts: of changes how many they are, whether there is none, and of each its kind, tag, URI, octets
                                      and digest; of objects `list`, `-`, URI and digest; of errors code, tag, text and what failed, and
                                      what is printed of all; a `-` stands for what is absent
    handed                            of changes and objects the same without the first two
    copied                            a copy of the query or the reply as it is written; behind it copies of the changes, as by lent, or of
                                      what failed, and what is printed of all errors
    created,'MOMENT                   the signed message that the toy signer makes of the message, whether it is decoded as that, and as
                                      which text
    list_query success                these messages as they are written, whatever the octets are
    made_delta made_twice made_list made_withdrawals made_no_errors made_errors made_three made_denial made_failure
                                      messages that calls put together, as each call writes them: four times the same
    created_three,'MOMENT             what `created` says of made_three
    code,'TEXT                        the code as it is printed, and its words
    errors                            InvalidVersion, Read, Write, TooLong and OutOfMemory as they are printed
    copies                            whether copies of the elements of replies are equal
    received,'MOMENT/NUMBER           the message as it is written, received under the key with this number of seed 1
    received_any,'MOMENT/NUMBER..     the same under one of these keys, and its place
    believed,.. signed_believed,..    the place of the key under which the message is believed, and the signed message
"""

import base64
import hashlib

from signed_messages import (
    BREAKS, CONTENT_A, FIRST, LAST, NOW, OUTER_TWO, QUERY, QUERY_MESSAGE, broken, created, indefinite, message,
    overlong, printable, segmented,
)
from stored_cases import DONE, NOTHING, SIZES, ber_line as line, repeated, step, within, write

REPLY = b'<msg xmlns="http://www.hactrn.net/uris/rpki/publication-spec/" version="4" type="reply"><success/></msg>'

# Texts that read as the message, otherwise spelled.
SPELLED = {
    QUERY: [
        b"<msg version='4' type='query'><list/></msg>", b"<msg type='query'><list></list></msg>",
        b"<?xml version='1.0'?><!-- a --><msg version='4' type='query'><!-- b --><list/></msg>",
        b"\n<msg version='4' type='query'>\n\t<list> </list>\r\n</msg>\n",
        b"<p:msg xmlns:p='urn:p' version='4' type='query'><p:list/></p:msg>"],
    REPLY: [b"<msg type='reply' version='4'>\n  <success />\n</msg>"],
}
# Texts by themselves, besides.
MORE_QUERIES = [
    b"<msg xmlns='urn:other' type='query' version='4'><list/></msg>", b"<msg version='4' type='query'><list tag='a'/></msg>",
    b"<msg version='4' type='query'><list uri='rsync://h/m/' hash='%s'/></msg>" % (b"aB" * 32)]
NO_TEXTS = [
    b"<msg version='' type='query'><list/></msg>",
    b"<msg version='4'><list/></msg>",
    b"<msg version='4' type='error'><list/></msg>",
    b"<message version='4' type='query'><list/></message>",
    b"<msg version='4' type='query' tag='a'><list/></msg>",
    b"<msg version='4' p:version='4' type='query'><list/></msg>",
    b"<msg version='4' type='query'>list</msg>",
    b"<msg version='4' type='query'><list/></msg>.",
    b"<msg version='4' type='query'><list/><list/></msg>",
    b"<msg version='4' type='query'><list/><withdraw/></msg>",
    b"<msg version='4' type='query'><list tag='a' hash='b'/></msg>",
    b"<msg version='4' type='reply'><success/><success/></msg>",
    b"<msg version='4' type='reply'><success/><list uri='rsync://h/m/' hash='%s'/></msg>" % (b"aB" * 32),
    b"<msg version='4' type='reply'><report_error error_code='other'/></msg>",
    b"<msg version='4' type='query'><list>a</list></msg>",
    b"<msg version='4' type='query'><list><a/></list></msg>",
    b"<msg version='4' type='reply'><list/></msg>",
]
NO_MESSAGES = [b"", b"a", b"<msg version='4' type='query'><success/></msg>", b"<msg version='5' type='query'><list/></msg>",
    QUERY + b"."]
NO_XML, NO_CMS = ("refused", "malformed XML"), ("refused", "Could not decode CMS")


def read(label, octets, content, written):
    """A line of a signed message that is read and checked."""
    digest = hashlib.sha256(content).digest()
    return line(
        label, octets, step("decoded", content, written), step("signed", digest, True, written), step("message", written),
        step("checked", DONE, argument=NOW))


def root(kind, *elements):
    """The element of a message of this kind."""
    head = b'<msg xmlns="http://www.hactrn.net/uris/rpki/publication-spec/" version="4" type="%s"' % kind
    return head + (b">" + b"".join(elements) + b"</msg>" if elements else b"/>")


URI = b"rsync://localhost/ca/f.cer"


def digest(octets):
    """The SHA-256 of octets, in hexadecimal."""
    return hashlib.sha256(octets).hexdigest().encode()


def element(name, text=b"", **attributes):
    """An element with these attributes."""
    start = b"<" + name + b"".join(b' %s="%s"' % (key.encode(), value) for key, value in attributes.items())
    return start + (b">" + text + b"</" + name + b">" if text else b"/>")


def report(code, *parts, **attributes):
    """An error, with a text and the element of the query that failed."""
    inside = [element(name, text) for name, text in zip((b"error_text", b"failed_pdu"), parts)]
    return element(b"report_error", b"".join(inside), error_code=code, **attributes)


def laid_out(name, text=b"", depth=1, **attributes):
    """An element with an attribute a line, in the order of their names, and its text or its elements in lines of their own."""
    space = b"\n" + b"  " * depth
    start = space + b"<" + name + b"".join(space + b'    %s="%s"' % (key.encode(), attributes[key]) for key in sorted(attributes))
    end = space + b"</" + name + b">"
    return start + (b">" + (text if text.startswith(b"\n") else space + b"  " + text) + end if text else b"/>")


def laid_out_root(kind, *elements):
    """A message with a declaration, and with comments between the elements."""
    start = b'<?xml version="1.0" encoding="us-ascii"?>\n<!-- a -->\n<msg\n    type="%s"\n    version="4"\n' % kind
    namespace = b'    xmlns="http://www.hactrn.net/uris/rpki/publication-spec/">\n'
    return start + namespace + b"\n  <!-- b -->".join((b"  <!-- none or more -->", *elements)) + b"\n</msg>\n<!-- c -->\n"


OLD, NEW, MORE = digest(b"an older object"), digest(b"an object"), URI.replace(b"f.cer", b"g.mft")
OBJECT, WORDS = base64.b64encode(b"an object"), b"There is none &amp; was none."


def shaped_queries():
    """Queries of the kinds that RFC 8181, section 3, shows: label, the elements as they are laid out there, and as they are written."""
    yield ("publish", [laid_out(b"publish", OBJECT, tag=b"", uri=URI)],
        [element(b"publish", OBJECT, tag=b"", uri=URI)])
    yield ("update", [laid_out(b"publish", OBJECT, hash=OLD, tag=b"a", uri=URI)],
        [element(b"publish", OBJECT, tag=b"a", uri=URI, hash=OLD)])
    yield ("withdraw", [laid_out(b"withdraw", hash=NEW, tag=b"a", uri=URI)],
        [element(b"withdraw", tag=b"a", uri=URI, hash=NEW)])
    yield ("changes",
        [laid_out(b"publish", OBJECT, tag=b"a", uri=URI), laid_out(b"withdraw", hash=OLD.upper(), tag=b"b", uri=MORE),
            laid_out(b"publish", OBJECT, uri=MORE)],
        [element(b"publish", OBJECT, tag=b"a", uri=URI), element(b"withdraw", tag=b"b", uri=MORE, hash=OLD),
            element(b"publish", OBJECT, tag=b"", uri=MORE)])
    yield "list", [laid_out(b"list")], [element(b"list")]


def shaped_replies():
    """The same of replies. An error without a text is written with that of its code."""
    yield "success", [laid_out(b"success")], [element(b"success")]
    failed = laid_out(b"failed_pdu", laid_out(b"publish", OBJECT, depth=3, hash=OLD, tag=b"a", uri=URI), depth=2)
    words = laid_out(b"error_text", WORDS, depth=2)
    yield ("error", [laid_out(b"report_error", words + failed, error_code=b"no_object_present", tag=b"a")],
        [report(b"no_object_present", WORDS, element(b"publish", OBJECT, tag=b"a", uri=URI, hash=OLD), tag=b"a")])
    yield ("bare-error", [laid_out(b"report_error", error_code=b"permission_failure", tag=b"a")],
        [report(b"permission_failure", b"Client does not have permission to update this URI.", tag=b"a")])
    yield ("errors",
        [laid_out(b"report_error", error_code=b"other_error", tag=b"a"), laid_out(b"report_error", words, error_code=b"xml_error")],
        [report(b"other_error", b"Found some other issue.", tag=b"a"), report(b"xml_error", WORDS)])
    yield ("objects", [laid_out(b"list", hash=OLD, uri=MORE), laid_out(b"list", hash=NEW, uri=URI)],
        [element(b"list", uri=MORE, hash=OLD), element(b"list", uri=URI, hash=NEW)])


def shaped():
    """Messages as RFC 8181, section 3, lays them out, and as they are written, each with a label."""
    for kind, shapes in (b"query", shaped_queries()), (b"reply", shaped_replies()):
        for label, spelled, written in shapes:
            yield f"{kind.decode()}-of-{label}", laid_out_root(kind, *spelled), root(kind, *written)


def mixed():
    """Elements, each lawful, that make no message together, and the message's kind."""
    change, listed, success = element(b"publish", uri=URI), element(b"list", uri=URI, hash=digest(b"")), element(b"success")
    error, query = report(b"other_error", b"a"), element(b"list")
    yield "a-list-and-a-publish", b"query", (query, change)
    yield "a-publish-and-a-list", b"query", (change, query)
    yield "a-success-and-a-list", b"reply", (success, listed)
    yield "a-list-and-a-success", b"reply", (listed, success)
    yield "a-success-twice", b"reply", (success, success)
    yield "an-error-and-a-success", b"reply", (error, success)
    yield "a-success-and-an-error", b"reply", (success, error)
    yield "a-list-and-an-error", b"reply", (listed, error)
    yield "an-error-and-a-list", b"reply", (error, listed)


def made_lines():
    """Messages that calls put together, of the octets `abc` and `abcd`."""
    first, second = digest(b"abc"), digest(b"abcd")
    changes = (
        element(b"publish", base64.b64encode(b"abc"), tag=first, uri=URI),
        element(b"publish", base64.b64encode(b"abcd"), tag=second, uri=URI, hash=first),
        element(b"withdraw", tag=second, uri=URI, hash=second))
    error = b"<report_error error_code=\"%s\"><error_text>%s</error_text></report_error>"
    for label, text in (
            ("delta", root(b"query", *changes)), ("twice", root(b"query", *changes, *changes)),
            ("list", root(b"reply", *(element(b"list", uri=URI, hash=hash_) for hash_ in (first, second)))),
            ("withdrawals", root(b"query", *(element(b"withdraw", tag=hash_, uri=URI, hash=hash_) for hash_ in (first, second)))),
            ("no_errors", root(b"reply")),
            ("errors", root(b"reply", error % (b"permission_failure", b"Client does not have permission to update this URI."),
                error % (b"other_error", b"Found some other issue.")))):
        yield line(f"made-{label}", b"", step(f"made_{label}", text, text, text, text))


def three_lines():
    """Changes of three objects of one octet, put together, created, decoded and taken to pieces."""
    uris = [b"rsync://localhost/ca/f%d.txt" % number for number in (1, 2, 3)]
    first, second, third = digest(b"a"), digest(b"b"), digest(b"d")
    text = root(b"query",
        element(b"publish", b"YQ==", tag=first, uri=uris[0]), element(b"publish", b"Yg==", tag=second, uri=uris[1], hash=digest(b"c")),
        element(b"withdraw", tag=third, uri=uris[2], hash=third))
    held = [b"publish", first, uris[0], b"a", b"update", second, uris[1], b"b", bytes.fromhex(digest(b"c").decode()), b"withdraw", third,
        uris[2], bytes.fromhex(third.decode())]
    signed = created(text, NOW)
    yield line("made-three", text, step("made_three", text, text, text, text), step("created_three", signed, True, text, argument=NOW),
        step("created", signed, True, text, argument=NOW), step("lent", 3, False, *held), step("handed", *held), step("query", text),
        step("copied", text, *held))
    yield received("received-three", signed, text)


ALL_CODES = (
    ("xml_error", "Encountered an XML problem."),
    ("permission_failure", "Client does not have permission to update this URI."),
    ("bad_cms_signature", "Encountered bad CMS signature."),
    ("object_already_present", 'An object is already present at this URI, yet a "hash" attribute was not specified.'),
    ("no_object_present", 'There is no object present at this URI, yet a "hash" attribute was specified.'),
    ("no_object_matching_hash", 'The "hash" attribute supplied does not match the "hash" attribute of the object at this URI.'),
    ("consistency_problem", "Server detected an update that looks like it will cause a consistency problem (e.g., an object was "
        "deleted, but the manifest was not updated)."),
    ("other_error", "Found some other issue."))


def code_lines():
    """Codes and errors, as they are printed; and errors of which each code is written with its words."""
    yield line("codes", b"", *[step("code", code, words, argument=code) for code, words in ALL_CODES],
        *[step("code", "refused", f"Invalid error code: {text}", argument=text) for text in ("foo", "XML_ERROR", "xml_error_")])
    yield line("errors", b"", step("errors", "Invalid version", "reading failed", "writing failed", "too long", "out of memory"),
        step("copies", True, True, True))
    errors = root(b"reply", *(report(code.encode(), words.encode()) for code, words in ALL_CODES))
    yield line("errors-of-all-codes", root(b"reply", *(element(b"report_error", error_code=code.encode()) for code, _ in ALL_CODES)),
        step("text", errors))
    denial = root(b"reply", report(b"permission_failure", b"Client does not have permission to update this URI."))
    yield line("made-denial", denial, step("made_denial", *[denial] * 4), step("lent", "permission_failure", "-",
        "Client does not have permission to update this URI.", "-",
        "error reply including: error code: permission_failure, text: Client does not have permission to update this URI. "))
    hash_ = digest(b"abcd")
    withdraw = element(b"withdraw", tag=hash_, uri=URI, hash=hash_)
    failure = root(b"reply", report(b"no_object_present", b"a &lt; b", withdraw, tag=b"a"))
    yield line("made-failure", failure, step("made_failure", *[failure] * 4), step("lent", "no_object_present", "a", "a < b", "withdraw",
        hash_, URI, bytes.fromhex(hash_.decode()), "error reply including: error code: no_object_present, text: a < b "))


def part_lines():
    """What messages are taken to, and the other kind refused."""
    listed = root(b"reply", *(element(b"list", uri=uri, hash=hash_) for uri, hash_ in ((MORE, OLD), (URI, NEW))))
    held = ["list", "-", MORE, bytes.fromhex(OLD.decode()), "list", "-", URI, bytes.fromhex(NEW.decode())]
    yield line("parts-of-objects", listed, step("lent", *held), step("handed", *held), step("reply", listed), step("copied", listed),
        step("query", "refused", "was not a query message"))
    yield line("parts-of-list", QUERY, step("lent", "list"), step("copied", QUERY), step("query", QUERY),
        step("reply", "refused", "was not a reply message"))
    yield line("parts-of-success", REPLY, step("lent", "success"), step("copied", REPLY), step("reply", REPLY),
        step("query", "refused", "was not a query message"))
    bare = element(b"publish", uri=URI)
    empty_tag = element(b"publish", tag=b"", uri=URI)
    yield line("parts-without-tag", root(b"query", bare), step("lent", 1, False, "publish", "-", URI, b""),
        step("handed", "publish", "-", URI, b""), step("text", root(b"query", empty_tag)))
    yield line("parts-of-no-change", root(b"query"), step("lent", 0, True), step("handed", NOTHING), step("query", root(b"query")),
        step("copied", root(b"query")))
    yield line("parts-of-no-object", root(b"reply"), step("lent", NOTHING), step("handed", NOTHING), step("reply", root(b"reply")),
        step("copied", root(b"reply")))
    code, words = b"other_error", "error reply including: error code: other_error error code: xml_error "
    errors = root(b"reply", element(b"report_error", element(b"failed_pdu", element(b"list")), error_code=code),
        element(b"report_error", error_code=b"xml_error", tag=b"b"))
    meant = root(b"reply", report(code, b"Found some other issue.", element(b"list")),
        report(b"xml_error", b"Encountered an XML problem.", tag=b"b"))
    yield line("parts-of-errors", errors, step("lent", "other_error", "-", "-", "list", "xml_error", "b", "-", "-", words),
        step("copied", meant, "list", "-", words))
    for number, text in enumerate((b"", b"<msg/>")):
        yield line(f"parts-of-none-{number}", text,
            *[step(call, *NO_XML) for call in ("lent", "handed", "query", "reply", "copied")])


def created_lines():
    """Signed messages that the toy signer makes, with contents of the sizes."""
    for n in SIZES:
        text = root(b"query", element(b"publish", base64.b64encode(b"c" * n), tag=b"", uri=URI))
        yield line(f"created-with-content-of-{n}", text, step("created", created(text, NOW), True, text, argument=NOW))


def size_lines():
    """Parts of the sizes where a length or a count takes one octet more."""
    for kind in b"query", b"reply":
        yield line(f"text-of-empty-{kind.decode()}", root(kind), step("text", root(kind)))
    for n in SIZES:
        tag, content = b"t" * n, base64.b64encode(b"c" * n)
        withdraw, hash_ = element(b"withdraw", tag=tag, uri=URI, hash=digest(b"")), bytes.fromhex(digest(b"").decode())
        withdrawn = "withdraw", tag, URI, hash_
        printed = b"error reply including: error code: other_error, text: %s "
        for label, kind, part, copied in (
                ("tag", b"query", withdraw, withdrawn),
                ("content", b"query", element(b"publish", content, tag=b"", uri=URI), ("publish", b"", URI, b"c" * n)),
                ("update", b"query", element(b"publish", content, tag=tag, uri=URI, hash=digest(b"")),
                    ("update", tag, URI, b"c" * n, hash_)),
                ("uri", b"reply", element(b"list", uri=(URI + b"u" * n)[:min(n, 65535)], hash=digest(b"")), ()),
                ("error-text", b"reply", report(b"other_error", tag), ("-", printed % tag)),
                ("failed-tag", b"reply", report(b"other_error", b"a", withdraw), (*withdrawn, printed % b"a"))):
            yield line(f"text-with-{label}-of-{n}", root(kind, part), step("text", root(kind, part)),
                step("copied", root(kind, part), *copied))
        yield from count_lines(n)


def count_lines(n):
    """So many objects, changes and errors."""
    hash_ = digest(b"")
    for label, kind, part, calls in (
            ("objects", b"reply", element(b"list", uri=URI, hash=hash_), ("text", "copied")),
            ("changes", b"query", element(b"withdraw", tag=b"", uri=URI, hash=hash_), ("text",)),
            ("errors", b"reply", report(b"other_error", b"a"), ("text",))):
        word = within(root(kind, part), part, repeated(part, n))
        yield " ".join((f"text-of-{n}-{label} ber {word}", *(f"{call}={word}" for call in calls)))


def text_lines():
    """Texts that are messages, and texts that are none."""
    yield line("written", b"", step("list_query", QUERY), step("success", REPLY))
    for written, texts in (QUERY, [*SPELLED[QUERY], *MORE_QUERIES, QUERY]), (REPLY, [*SPELLED[REPLY], REPLY]):
        kind = "reply" if written == REPLY else "query"
        for number, text in enumerate(texts):
            yield line(f"text-of-{kind}-{number}", text, step("text", written))
    for number, text in enumerate([*NO_MESSAGES, *NO_TEXTS]):
        yield line(f"no-text-{number}", text, step("text", *NO_XML))


def under(call, *fields, moment=NOW, keys):
    """The step of a call at a moment under keys."""
    return step(call, *fields, argument="/".join(map(str, (moment, *keys))))


def received(label, octets, *answer, moment=NOW, key=0):
    """Received under the one key, and under it and another."""
    placed = (*answer, 1) if len(answer) == 1 else answer
    return line(label, octets, under("received", *answer, moment=moment, keys=[key]),
        under("received_any", *placed, moment=moment, keys=[9, key]))


def received_lines():
    """What is received, at moments, under keys, and with checks broken."""
    query = bytes.fromhex(QUERY_MESSAGE)
    failing = lambda check: ("refused", f"CMS is not valid: check {check} failed")
    for moment, *answer in ((FIRST - 1, *failing(5)), (FIRST, QUERY), (NOW, QUERY), (LAST, QUERY), (LAST + 1, *failing(5))):
        yield received(f"received-at-{moment}", query, *answer, moment=moment)
    yield received("received-under-another", query, *failing(6), key=9)
    yield received("received-reply", message(content=REPLY), REPLY)
    yield received("received-cut", query[:-1], *NO_CMS)
    yield received("received-content-a", bytes.fromhex(CONTENT_A), "refused", "malformed XML")
    yield received("received-listed", message(entries=(1,)), *failing(14))
    for call in "believed", "signed_believed":
        yield line(f"{call}-under-two", query, under(call, 1, keys=[9, 0]), under(call, 0, keys=[0, 9]),
            under(call, *failing(5), moment=LAST + 1, keys=[9, 0]), under(call, *failing(6), keys=[9, 9]),
            under(call, 7, keys=[9] * 7 + [0]))


def rewritten_lines():
    """What is written again of a message: the content in one string, the envelope in DER, what was signed as it was; it is received."""
    in_ber = lambda octets: indefinite(0x33, printable(octets[:7]) + indefinite(0x33, printable(octets[7:])))
    loose = lambda xs: [indefinite(0x30, x[2:]) for x in xs]
    spelled = dict(outer=indefinite, content_string=segmented, attributes_tag=indefinite)
    for label, held in (
            ("in-der", {}), ("with-attributes-in-ber", dict(attributes=loose)), ("with-a-certificate-in-ber", dict(tbs_length=overlong)),
            ("with-a-name-in-ber", dict(subject_text=in_ber))):
        again = message(**held)
        yield line(f"rewritten-{label}", message(**held, **spelled), step("rewritten", again), step("decoded", QUERY, QUERY))
        yield line(f"rewritten-again-{label}", again + b"\0", step("rewritten", again))
        yield received(f"received-rewritten-{label}", again, QUERY)
    again, behind = created(QUERY, NOW), b"\xff\xff"
    loose_query = created(QUERY, NOW, **OUTER_TWO)
    for label, left in ("with-two-outer-lengths", b""), ("with-two-outer-lengths-and-octets-behind", behind):
        yield line(f"rewritten-{label}", loose_query + left, step("rewritten", again), step("decoded", QUERY, QUERY))
        yield line(f"rewritten-again-{label}", again + left, step("rewritten", again), step("decoded", QUERY, QUERY))
        yield received(f"received-rewritten-{label}", again + left, QUERY)
    yield line("rewritten-none", QUERY, step("rewritten", *NO_CMS))


def lines():
    """All lines."""
    for written, others in SPELLED.items():
        for number, content in enumerate([written, *others]):
            kind = "reply" if written == REPLY else "query"
            yield read(f"{kind}-{number}", message(content=content), content, written)
    yield read("in-segments", message(outer=indefinite, content_string=segmented), QUERY, QUERY)
    yield read("made-elsewhere", bytes.fromhex(QUERY_MESSAGE), QUERY, QUERY)
    yield read("behind", message() + b"\0\xff", QUERY, QUERY)
    for number, content in enumerate(NO_MESSAGES):
        yield line(f"no-message-{number}", message(content=content),
            *[step(call, *NO_XML) for call in ("decoded", "signed", "message")])
    yield line("content-a", bytes.fromhex(CONTENT_A), step("decoded", *NO_XML), step("checked", *NO_XML, argument=NOW))
    for label, octets in (("text", QUERY), ("empty", b""), ("cut", message()[:-1]),
            ("two-signers", message(signers=lambda x: x + x))):
        yield line(f"no-envelope-{label}", octets, *[step(call, *NO_CMS) for call in ("decoded", "signed", "message")],
            step("checked", *NO_CMS, argument=NOW))
    failing = lambda check: ("refused", f"CMS is not valid: check {check} failed")
    for moment, *answer in ((FIRST - 1, *failing(5)), (FIRST, DONE), (LAST, DONE), (LAST + 1, *failing(5))):
        yield line(f"at-{moment}", message(), step("checked", *answer, argument=moment))
    for check in BREAKS:
        yield line(f"check-{check}", broken(check), step("checked", *failing(check), argument=NOW))
    yield from text_lines()
    yield from received_lines()
    yield from rewritten_lines()
    for part in (made_lines, three_lines, code_lines, part_lines, created_lines, size_lines):
        yield from part()


if __name__ == "__main__":
    write("test_publication", lines())
