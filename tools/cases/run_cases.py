#!/usr/bin/env python3
"""Writes the cases on which crates/test_run runs `rpki_ca::run`: its data/cases.txt, and the stdout beside it.

    tools/cases/run_cases.py               writes the rows of this script, and keeps the sets of cases that the file has
    tools/cases/run_cases.py SET FOLDER    takes a set anew from a folder of cases

The cases of a set are named SET-N. There are six: `ber`, messages with one CRL under one key in all spellings, and commands; `two`,
messages with one or two CRLs under one to eight keys; `made`, messages that `create` makes; `set`, setup messages; `pub`, all messages
of the publication protocol, created and received; and `prov`, messages of both protocols. A case of a folder is case-N.words (one word a
line), case-N.in (the input) and case-N.expected (the status in decimal, a line feed, then what is written); they come from a model that was
written apart. The model of the other five had no command with the word `provisioning`: its cases of that word, two of `ber`, are left out.
The rows of this script are made of examples/query-list.hex, of examples/content.hex and of what stands here. No expected answer comes from
the program under test.

A line is `NAME STATUS LINE INPUT WORD..`: the status in decimal, what is written and the input in terms of hexadecimal, and the
words as they are, or behind a `#` in hexadecimal. A `-` stands for an empty field.

Or a line is `NAME CALL ANSWER WORD..`: what words say by themselves.

    words       how many they are, whether there is none, and each
    moment      the seconds that the word at 1 names, or `none`
    key         the format and the bits of the key that the word at 0 spells, or `none`
    command     `content`, or kind, seconds and keys, or `create` or `setup`, kind and seconds, or `make`, how many and the seed, or `none`

Or with parts that programs share, which read and write lines; octets are in hexadecimal, and a refusal is its name.

    line_of         the line of the word
    input_octets    the octets that the word spells as an input
    spelled_key     the format and the bits of the key that the word spells, or `none`
    read_input      what is read of the second word: the first is as READ below
    finish_lines    status, what is written, and how many calls of the sink failed. The first word says what came of the lines: `done`,
                    `write` where the output failed, or the name of a refusal; the second how many octets the sink has room for
    message_in      the message of the kind of the first word that the second is, as it is written

Or it is `NAME faults ANSWER READ WRITE ROOM INPUT WORD..`: READ and WRITE say how many octets a call gives or takes, and behind a `/`
which call fails, from 0; ROOM is how many octets the sink has room for. ANSWER is the status, what is written in hexadecimal, and
how many calls of the source and of the sink failed, with `/` between.

Or it is `NAME signed ANSWER SIGNER KEY,MOMENT.. INPUT WORD..`, with words of `create` or `make`. SIGNER is `rsa` for one with an RSA key,
`ec` for one with a key of an elliptic curve, `reused` for one that gives its RSA key for one use too, `missing` where no key has the
identifier, or a number: the call that fails, of which the first, 0, makes the key. ANSWER is the status, how often the signer failed,
and what is written in hexadecimal; or where the status is 0 the status and the line, in hexadecimal, of `receive` of what was written,
under the key at each of the moments. Behind it stands `left`, where some of the input was not read. All with `/` between.
"""

import base64
import pathlib
import sys

from certificate_cases import certificate, own_anchor
from publication_cases import digest, element, mixed, root, shaped
from request_cases import options_of, request
from resource_certificates import certificate_of
from signed_messages import (
    CONTENT_A, NOW, NULL, OUTER_TWO, QUERY, RSA, bits, built, created, indefinite, key_bits, message, overlong, own_crl,
    segmented, seq, value,
)
from stored_cases import SIZES, terms

ROOT = pathlib.Path(__file__).resolve().parents[2]
CRATE = ROOT / "crates" / "test_run"
INPUT = (ROOT / "examples" / "query-list.hex").read_bytes()
CONTENT_INPUT = (ROOT / "examples" / "content.hex").read_bytes()
SETS = "ber", "two", "made", "set", "pub", "prov"

SETUP_MESSAGES = "child_request", "parent_response", "publisher_request", "repository_response"
MOMENT = "1700000000"
KEY = "3022300d06092a864886f70d010101050003110000000000000000010000000000000000"
OTHER_KEY = KEY[:-2] + "09"
REPLY = b'<msg xmlns="http://www.hactrn.net/uris/rpki/publication-spec/" version="4" type="reply"><success/></msg>'
RECEIVED = 0, QUERY
USAGE, HEX, CMS_DECODE, XML_ERROR = (2, b"Usage"), (3, b"Hex"), (4, b"CmsDecode"), (5, b"XmlError")
CERT_SYNTAX, REQUEST_SYNTAX = (5, b"CertSyntax"), (5, b"InvalidCsrSyntax")


def validation(check):
    """The status and the line where this check fails."""
    return 6, b"Validation %d" % check


def receive(*keys, moment=MOMENT, kind="publication"):
    """The words of `receive`."""
    return "receive", kind, moment, *(keys or (KEY,))


def create(moment=MOMENT, kind="publication"):
    """The words of `create`."""
    return "create", kind, moment


# ---- DER: values with identifiers of one octet


def head_length(octets):
    """How many octets are the identifier and the length."""
    return 2 + (octets[1] & 127 if octets[1] > 127 else 0)


def contents(octets):
    """What stands in the value that the octets are."""
    return octets[head_length(octets):]


def values(octets):
    """The values that the octets are, one behind the other."""
    while octets:
        head = head_length(octets)
        size = int.from_bytes(octets[2:head], "big") if head > 2 else octets[1]
        yield octets[:head + size]
        octets = octets[head + size:]


def parts(octets):
    """The values in a value."""
    return list(values(contents(octets)))


def changed(octets, path, change):
    """The value with the part at the path of indices changed, and the lengths round it mended."""
    if not path:
        return change(octets)
    own = parts(octets)
    own[path[0]] = changed(own[path[0]], path[1:], change)
    return value(octets[0], b"".join(own))


# Where the signed data, the content, the certificate's serial number and the CRLs stand in a message, and in a CRL its entries.
DATA = (1, 0)
CONTENT = DATA + (2, 1, 0)
SERIAL = DATA + (3, 0, 0, 1)
CRLS = DATA + (4,)
ENTRIES = (0, 5)


def with_loose_lengths(octets):
    """The message with its content in nested segments, and indefinite lengths of the envelope, the field and the signed data."""
    octets = changed(octets, CONTENT, lambda content: segmented(contents(content)))
    octets = changed(octets, DATA, lambda data: indefinite(data[0], contents(data)))
    octets = changed(octets, DATA[:1], lambda field: indefinite(field[0], contents(field)))
    return indefinite(octets[0], contents(octets))


def part(octets, path):
    """The part at the path of indices."""
    return part(parts(octets)[path[0]], path[1:]) if path else octets


def with_crls(octets, change):
    """The message with what the change makes of its one CRL in the place of that."""
    return changed(octets, CRLS, lambda crls: value(crls[0], change(contents(crls))))


def in_ber(crl):
    """The CRL with an overlong length."""
    return changed(crl, ENTRIES, lambda entries: value(entries[0], contents(entries), overlong))


def listing_crl(octets):
    """A CRL of the same issuer that lists the message's certificate, rightly signed."""
    return own_crl(entries=(int.from_bytes(contents(part(octets, SERIAL)), "big"),))


# ---- the rows: name, words, input, status and text


def moment_rows():
    """The example at moments."""
    for moment in ("1699999700", "1700000000", "1700000300"):
        yield f"at-{moment}", receive(moment=moment), INPUT, RECEIVED
    for moment in ("0", "1699999699", "1700000301", "253402300799"):
        yield f"at-{moment}", receive(moment=moment), INPUT, validation(5)
    for moment in ("01700000000", "+1700000000", "-1", "253402300800", ""):
        yield f"moment-{moment or 'empty'}", receive(moment=moment), INPUT, USAGE


def key_rows():
    """The example under keys, and words that are no key."""
    yield "another-key", receive(OTHER_KEY), INPUT, validation(6)
    yield "key-in-upper-case", receive(KEY.upper()), INPUT, RECEIVED
    yield "key-without-a-digit", receive(KEY[:-1]), INPUT, USAGE
    yield "key-with-an-octet-behind", receive(KEY + "00"), INPUT, USAGE
    yield "key-empty", receive(""), INPUT, USAGE
    yield "key-of-no-digits", receive("zz"), INPUT, USAGE
    yield "key-with-an-overlong-length", receive(KEY.replace("3022", "308122", 1)), INPUT, USAGE


def list_rows():
    """Lists of keys."""
    seven = (OTHER_KEY,) * 7
    yield "keys-the-second-right", receive(OTHER_KEY, KEY), INPUT, RECEIVED
    yield "keys-the-first-right", receive(KEY, OTHER_KEY), INPUT, RECEIVED
    yield "keys-none-right", receive(OTHER_KEY, OTHER_KEY), INPUT, validation(6)
    yield "keys-late", receive(OTHER_KEY, KEY, moment="1700000301"), INPUT, validation(5)
    yield "keys-one-twice", receive(KEY, KEY), INPUT, RECEIVED
    yield "keys-eight", receive(*seven, KEY), INPUT, RECEIVED
    yield "keys-eight-none-right", receive(*seven, OTHER_KEY), INPUT, validation(6)
    yield "keys-nine", receive(*seven, KEY, KEY), INPUT, USAGE
    for place, keys in ("first", ("zz", KEY, KEY)), ("middle", (KEY, KEY[:-2], KEY)), ("last", (KEY, KEY, "")):
        yield f"keys-the-{place}-is-none", receive(*keys), INPUT, USAGE


def word_rows():
    """Words that are no command."""
    yield "receive-alone", receive()[:1], INPUT, USAGE
    yield "receive-without-moment", receive()[:2], INPUT, USAGE
    yield "receive-without-key", receive()[:3], INPUT, USAGE
    yield "receive-of-another-kind", receive(kind="provision"), INPUT, USAGE
    yield "receive-of-a-kind-with-a-capital", receive(kind="Provisioning"), INPUT, USAGE
    yield "receive-provisioning-without-key", receive(kind="provisioning")[:3], INPUT, USAGE
    yield "receive-publication-as-provisioning", receive(kind="provisioning"), INPUT, XML_ERROR
    yield "content-of-two-words", ("content", "content"), INPUT, USAGE


def input_rows():
    """The example otherwise spelled, cut, and with octets behind."""
    octets = bytes.fromhex(INPUT.decode())
    line = lambda message: message.hex().encode() + b"\n"
    yield "without-the-last-octet", receive(), line(octets[:-1]), CMS_DECODE
    yield "octets-behind", receive(), line(octets + b"\xff\xff"), RECEIVED
    yield "content-with-gttp", receive(), line(octets.replace(b"http", b"gttp", 1)), validation(2)
    yield "content-with-another-space", receive(), line(octets.replace(b" type", b"\ntype", 1)), validation(2)
    yield "in-upper-case", receive(), INPUT.upper(), RECEIVED
    yield "without-line-feed", receive(), INPUT.rstrip(b"\n"), RECEIVED
    yield "with-two-line-feeds", receive(), INPUT + b"\n", HEX
    yield "with-loose-lengths", receive(), line(with_loose_lengths(octets)), RECEIVED
    yield "with-two-outer-lengths-indefinite", receive(), line(created(QUERY, NOW, **OUTER_TWO)), RECEIVED
    yield "with-another-content", receive(), CONTENT_INPUT, XML_ERROR
    yield "with-an-overlong-length-in-the-crl", receive(), line(with_crls(octets, in_ber)), CMS_DECODE
    for label, given, answer in (("no-input", b"", CMS_DECODE), ("another-value", b"3003020100", CMS_DECODE),
                                 ("half-a-value", b"30030201", CMS_DECODE), ("half-an-octet", b"3", HEX)):
        yield f"receive-{label}", receive(), given, answer


def crl_rows():
    """The example with other CRLs."""
    octets = bytes.fromhex(INPUT.decode())
    line = lambda change: with_crls(octets, change).hex().encode() + b"\n"
    listing = listing_crl(octets)
    yield "no-crl", receive(), line(lambda crl: b""), CMS_DECODE
    yield "crl-twice", receive(), line(lambda crl: crl + crl), RECEIVED
    yield "crl-three-times", receive(), line(lambda crl: crl + crl + crl), CMS_DECODE
    yield "second-crl-in-ber", receive(), line(lambda crl: crl + in_ber(crl)), CMS_DECODE
    yield "second-crl-lists-the-certificate", receive(), line(lambda crl: crl + listing), validation(14)
    yield "first-crl-lists-the-certificate", receive(), line(lambda crl: listing + crl), validation(14)
    yield "crl-twice-under-keys", receive(OTHER_KEY, KEY), line(lambda crl: crl + crl), RECEIVED
    yield "second-crl-lists-under-keys", receive(KEY, OTHER_KEY), line(lambda crl: crl + listing), validation(14)


def create_rows():
    """The query of examples/query-list.hex, made again of its text, and words and texts that are refused."""
    text = QUERY.replace(b'xmlns="http://www.hactrn.net/uris/rpki/publication-spec/" ', b"")
    for label, given in ("with-namespace", QUERY), ("without-namespace", text), ("with-white-space", b" " + text + b"\n"):
        yield f"create-{label}", create(), given, (0, INPUT.removesuffix(b"\n"))
    yield "create-of-no-message", create(), b"<msg/>", XML_ERROR
    yield "create-of-nothing", create(), b"", XML_ERROR
    yield "create-of-a-signed-message", create(), INPUT, XML_ERROR
    for moment in "0", "299", "253402300500", "253402300799":
        yield f"create-at-{moment}", create(moment), QUERY, (8, b"Moment")
    yield "create-of-no-message-at-299", create("299"), b"<msg/>", XML_ERROR
    for label, words in (("alone", create()[:1]), ("without-moment", create()[:2]), ("with-a-key", (*create(), KEY)),
                         ("another-kind", create(kind="updown")), ("at-no-moment", create("01"))):
        yield f"create-{label}", words, QUERY, USAGE


# ---- messages of the provisioning protocol


def updown(kind, *elements, sender=b"Carol", recipient=b"Bob"):
    """A message as it is written (RFC 6492, 3.2)."""
    head = b'<message xmlns="http://www.apnic.net/specs/rescerts/up-down/" version="1" sender="%s" recipient="%s" type="%s"' % (
        sender, recipient, kind)
    return head + (b">" + b"".join(elements) + b"</message>" if elements else b"/>")


CERTIFICATE = base64.b64encode(certificate_of())
REQUEST = base64.b64encode(request(options_of()))
NO_VALUE = b"AA=="


def issued(text=CERTIFICATE, attributes=b""):
    """The element of a certificate that was issued."""
    return b'<certificate cert_url="rsync://localhost/repo/c.cer"%s>%s</certificate>' % (attributes, text)


def issuer(text=CERTIFICATE):
    """The element of an issuer's certificate."""
    return b"<issuer>" + text + b"</issuer>"


def resource_class(*elements):
    """The element of a class."""
    return (b'<class class_name="0" cert_url="rsync://localhost/repo/i.cer" resource_set_as="1-10" resource_set_ipv4="10.0.0.0/8" '
            b'resource_set_ipv6="" resource_set_notafter="2023-11-14T22:13:20Z">' + b"".join(elements) + b"</class>")


def asked(text=REQUEST, attributes=b""):
    """The element of a request for a certificate."""
    return b'<request class_name="0"%s>%s</request>' % (attributes, text)


def key(tail=b"/>", ski=b"A" * 27):
    """The element of a key, with this end."""
    return b'<key class_name="0" ski="%s"%s' % (ski, tail)


def status(number, *behind):
    """The elements of a refusal."""
    return b"<status>%s</status>" % number + b"".join(behind)


def updown_texts():
    """Texts of messages, and what is written of each."""
    plain = updown(b"list")
    declared = b"<?xml version='1.0' encoding='us-ascii'?>\n<message version=\"1\"\n"
    declared += b" " * 9 + b'sender="Carol" recipient="Bob" type="list"/>'
    yield "list", plain, plain
    yield "list-with-a-declaration", declared, plain
    yield "list-of-another-version", plain.replace(b'version="1"', b'version="2"'), None
    for form in b"revoke", b"revoke_response":
        label = form.decode()
        yield label, updown(form, key()), updown(form, key())
        yield f"{label}-with-an-end-tag", updown(form, key(b"></key>", b"A" * 27 + b"=")), updown(form, key())
        yield f"{label}-of-19-octets", updown(form, key(ski=b"A" * 26)), None
        yield f"{label}-of-two-keys", updown(form, key(), key()), None
        yield f"{label}-of-nothing", updown(form), None
    refused = lambda *elements: updown(b"error_response", *elements)
    yield "refused", refused(status(b"1204")), refused(status(b"1204"))
    yield "refused-with-a-sign", refused(status(b"+1201")), refused(status(b"1201"))
    yield "refused-with-two-signs", refused(status(b"++1201")), None
    yield "refused-below-zero", refused(status(b"-1")), None
    yield "refused-at-most", refused(status(b"18446744073709551615")), refused(status(b"18446744073709551615"))
    yield "refused-beyond", refused(status(b"18446744073709551616")), None
    described = refused(status(b"1101", b"<description>a &lt;b&gt;</description>"))
    yield "refused-and-described", described, described
    yield "refused-and-described-twice", refused(status(b"1101", b"<description/>" * 2)), None
    yield "refused-and-described-by-an-element", refused(status(b"1101", b"<description><a/></description>")), None
    yield "described-alone", refused(b"<description>a</description>"), None


def certified_texts():
    """The same with certificates and requests, and where there is none of these, the answer."""
    answer = lambda *classes: updown(b"list_response", *classes)
    full = resource_class(issued(attributes=b' req_resource_set_as=""'), issued(), issuer())
    yield "classes-none", answer(), answer()
    yield "classes", answer(full, full), answer(full, full)
    yield "classes-issuer-in-front", answer(resource_class(issuer(), issued())), answer(resource_class(issued(), issuer()))
    yield "classes-of-two-issuers", answer(resource_class(issuer(), issuer())), XML_ERROR
    yield "classes-without-issuer", answer(resource_class(issued())), XML_ERROR
    for label, parts in (
            ("the-issuer-none", (issued(), issuer(NO_VALUE))), ("a-certificate-none", (issued(), issued(NO_VALUE), issuer())),
            ("a-request-for-one", (issued(REQUEST), issuer())), ("nothing-for-one", (issued(b""), issuer()))):
        yield f"classes-with-{label}", answer(full, resource_class(*parts)), CERT_SYNTAX
        yield f"classes-with-{label}-and-no-form", answer(resource_class(*parts), resource_class()), XML_ERROR
    whole = updown(b"issue_response", resource_class(issued(), issuer()))
    yield "issued", whole, whole
    with_octets_behind = issued(base64.b64encode(certificate_of() + b"\0"))
    yield "issued-octets-behind", updown(b"issue_response", resource_class(with_octets_behind, issuer())), whole
    yield "issued-twice", updown(b"issue_response", resource_class(issued(), issued(), issuer())), XML_ERROR
    yield "issued-none", updown(b"issue_response", resource_class(issuer())), XML_ERROR
    yield "issued-no-certificate", updown(b"issue_response", resource_class(issued(NO_VALUE), issuer())), CERT_SYNTAX
    issue = lambda *elements: updown(b"issue", *elements)
    limited = issue(asked(attributes=b' req_resource_set_as="1-4,7" req_resource_set_ipv4="" req_resource_set_ipv6="2001:db8::/32"'))
    yield "asked", issue(asked()), issue(asked())
    yield "asked-with-limits", limited, limited
    yield "asked-for-nothing", issue(asked(NO_VALUE)), REQUEST_SYNTAX
    yield "asked-with-a-certificate", issue(asked(CERTIFICATE)), REQUEST_SYNTAX
    yield "asked-for-nothing-with-x", issue(asked(NO_VALUE, b' x="1"')), XML_ERROR


def updown_rows():
    """Messages of the provisioning protocol, created and received; and the order of what is refused."""
    for label, text, written in (*updown_texts(), *certified_texts()):
        answer = written if isinstance(written, tuple) else (0, written) if written else XML_ERROR
        made = (0, created(written, NOW).hex().encode()) if answer[0] == 0 else answer
        yield f"create-updown-{label}", create(kind="provisioning"), text, made
        yield f"receive-updown-{label}", receive(kind="provisioning"), message(content=text).hex().encode(), answer
        yield f"receive-updown-{label}-under-another-key", receive(OTHER_KEY, kind="provisioning"), message(content=text).hex().encode(), (
            validation(6) if answer[0] == 0 else answer)
    yield "create-updown-of-publication", create(kind="provisioning"), QUERY, XML_ERROR
    yield "create-publication-of-updown", create(), updown(b"list"), XML_ERROR
    for moment, text, answer in (
            ("299", updown(b"list"), (8, b"Moment")), ("299", updown(b"issue", asked(NO_VALUE)), REQUEST_SYNTAX),
            ("253402300500", updown(b"list_response", resource_class(issuer(NO_VALUE))), CERT_SYNTAX)):
        yield f"create-updown-at-{moment}-{answer[1].decode()}", create(moment, "provisioning"), text, answer


def shape_rows():
    """Messages that are laid out as those of RFC 8181, section 3, created and received; and elements that make none together."""
    for label, spelled, written in shaped():
        yield f"create-{label}", create(), spelled, (0, created(written, NOW).hex().encode())
        yield f"receive-{label}", receive(), message(content=spelled).hex().encode(), (0, written)
    for kind in b"query", b"reply":
        text = b'<msg type="%s"/>' % kind
        yield f"create-{kind.decode()}-of-nothing", create(), text, (0, created(root(kind), NOW).hex().encode())
        yield f"receive-{kind.decode()}-of-nothing", receive(), message(content=text).hex().encode(), (0, root(kind))
    for label, kind, elements in mixed():
        text = root(kind, *elements)
        yield f"create-{label}", create(), text, XML_ERROR
        yield f"receive-{label}", receive(), message(content=text).hex().encode(), XML_ERROR


def change_at(seed, place):
    """The change at a place of the query that `make` makes: a new object, one in another's place and one less, in turn."""
    content = seed.to_bytes(8, "big") + place.to_bytes(8, "big")
    attributes = {"tag": digest(content), "uri": b"rsync://localhost/ca/f%d.txt" % place}
    if place % 3 == 0:
        return element(b"publish", base64.b64encode(content), **attributes)
    if place % 3 == 1:
        return element(b"publish", base64.b64encode(content), **attributes, hash=digest(content + b"\0"))
    return element(b"withdraw", **attributes, hash=digest(content))


def summary(count, seed):
    """What `make` writes: of so many changes, and of their query as the toy signer of seed 1 signs it."""
    octets = created(root(b"query", *(change_at(seed, place) for place in range(count))), NOW)
    return b"elements %d publish %d update %d withdraw %d envelope %s" % (
        count, (count + 2) // 3, (count + 1) // 3, count // 3, digest(octets))


def make_rows():
    """Queries that `make` makes, of few and of many changes, and words of `make` that are none. The input isn't read."""
    assert summary(10, 7).startswith(b"elements 10 publish 4 update 3 withdraw 3 envelope 4596f0fb")
    for count, seed in (0, 0), (1, 0), (2, 1), (3, 2), (10, 7), (127, 3), (128, 4), (256, 4294967295), (1000, 5), (10000, 6):
        yield f"make-{count}-{seed}", ("make", str(count), str(seed)), QUERY, (0, summary(count, seed))
    for number, words in enumerate((
            (), ("10",), ("10", "7", "0"), ("10001", "0"), ("4294967296", "0"), ("0", "4294967296"), ("99999999999999999999", "0"),
            ("010", "7"),
            ("10", "07"), ("+10", "7"), ("10", "-7"), ("", "7"), ("10", ""), ("ten", "7"), ("publication", "10"))):
        yield f"make-of-other-words-{number}", ("make", *words), QUERY, USAGE
    yield "make-with-a-capital", ("Make", "0", "0"), QUERY, USAGE


def setup_rows():
    """Words of `setup` that are none, and inputs that are no setup message."""
    for label, words in (("alone", ("setup",)), ("without-moment", ("setup", "child_request")),
            ("at-no-moment", ("setup", "child_request", "01")),
                         ("of-no-message", ("setup", "child", MOMENT)), ("of-four-words", ("setup", "child_request", MOMENT, KEY))):
        yield f"setup-{label}", words, QUERY, USAGE
    for kind in SETUP_MESSAGES:
        yield f"no-{kind}", ("setup", kind, MOMENT), QUERY, XML_ERROR


ROOTS = (
    (b"child_request", b'child_handle="Carol"', b"child_bpki_ta"),
    (b"parent_response", b'parent_handle="Bob" child_handle="Carol" service_uri="https://h/"', b"parent_bpki_ta"),
    (b"publisher_request", b'publisher_handle="Carol"', b"publisher_bpki_ta"),
    (b"repository_response", b'publisher_handle="Carol" service_uri="https://h/" sia_base="rsync://h/m/"', b"repository_bpki_ta"))


def setup_message(root, attributes, child, text, namespace=b"http://www.hactrn.net/uris/rpki/rpki-setup/", space=b""):
    """A setup message."""
    return b'%s<%s xmlns="%s" version="1" %s>%s<%s>%s</%s>%s</%s>%s' % (
        space, root, namespace, attributes, space, child, text, child, space, root, space)


def anchor_rows():
    """Setup messages with a certificate that is valid for 61 seconds, written as servers do, in lines of base64."""
    octets = certificate(own_anchor(NOW, NOW + 60))
    written, lines = base64.b64encode(octets), base64.encodebytes(octets).splitlines()
    commented = b"\n    " + lines[0] + b"<!-- a comment within -->\r\n\t" + b"\n    ".join(lines[1:]) + b"\n"
    for parts in ROOTS:
        kind = parts[0].decode()
        given, loose = (0, setup_message(*parts, written)), setup_message(*parts, commented, space=b"\n<!-- -->\n  ")
        declared = b'<?xml version="1.0"?>\n' + loose.replace(b'" ', b'"\n    ')
        yield f"{kind}-with-a-declaration", ("setup", kind, MOMENT), declared, given
        for moment in NOW, NOW + 60:
            yield f"{kind}-at-{moment}", ("setup", kind, str(moment)), loose, given
        for moment in NOW - 1, NOW + 61:
            yield f"{kind}-at-{moment}", ("setup", kind, str(moment)), loose, (5, b"InvalidTaCert")
        for label, namespace, answer in (
                ("of-urn-x", b"urn:x", XML_ERROR), ("of-a-bare-namespace", b"http://www.hactrn.net/uris/rpki/rpki-setup", given)):
            yield f"{kind}-{label}", ("setup", kind, str(NOW)), setup_message(*parts, written, namespace=namespace), answer
        cut = setup_message(*parts, base64.b64encode(octets[:-1]))
        yield f"{kind}-with-a-cut-certificate", ("setup", kind, str(NOW)), cut, (5, b"InvalidTaCertEncoding")
        behind = setup_message(*parts, base64.b64encode(octets + b"\0"))
        yield f"{kind}-with-an-octet-behind", ("setup", kind, str(NOW)), behind, (0, behind)


def content_rows():
    """What `content` writes."""
    digits = CONTENT_A.encode()
    changed_digits = digits.replace(b"03040161", b"03040162")
    for label, given, answer in (
            ("content-a", digits, (0, b"a")), ("content-a-in-upper-case", digits.upper(), (0, b"a")),
            ("content-a-with-line-feed", digits + b"\n", (0, b"a")), ("content-a-with-two-line-feeds", digits + b"\n\n", HEX),
            ("content-a-changed", changed_digits, validation(2)), ("content-of-nothing", b"", CMS_DECODE),
            ("content-of-a-line-feed", b"\n", CMS_DECODE), ("content-of-another-value", b"3003020100", CMS_DECODE),
            ("content-of-half-a-value", b"30030201", CMS_DECODE), ("content-of-half-an-octet", b"3", HEX),
            ("content-of-no-digit", b"3g", HEX), ("content-with-a-space", b"30 03", HEX),
            ("content-behind-a-line-feed", b"\n3003020100", HEX), ("content-of-100000-levels", b"3080" * 100000, CMS_DECODE)):
        yield label, ("content",), given, answer
    for label, words in ("no-words", ()), ("content-with-a-capital", ("Content",)), ("content-twice", ("content", "content")):
        yield label, words, b"", USAGE


def key_word(seed):
    """The word of the toy key 0 of this seed."""
    return KEY[:-32] + key_bits(seed, 0).hex()


def built_rows():
    """Messages that `build` of crates/rpki_vectors makes, too."""
    for label, content, revoked, seed, answer in (
            ("query", QUERY, (), 1, (0, QUERY)), ("query-with-another-listed", QUERY, (2,), 1, (0, QUERY)),
            ("reply", REPLY, (), 1, (0, REPLY)), ("query-listed", QUERY, (1,), 1, validation(14)),
            ("query-under-another-seed", QUERY, (), 2, validation(6)), ("another-content", b"<msg/>", (), 1, XML_ERROR)):
        message = built(content, NOW, 1, revoked)
        yield f"built-{label}", receive(key_word(seed)), message.hex().encode(), answer
    octets = built(QUERY, NOW, 1, ())
    for moment in NOW - 301, NOW - 300, NOW, NOW + 300, NOW + 301:
        answer = RECEIVED if abs(moment - NOW) <= 300 else validation(5)
        yield f"built-at-{moment}", receive(moment=str(moment)), octets.hex().encode(), answer
    yield "built-under-another-key", receive(OTHER_KEY), octets.hex().encode(), validation(6)
    yield "built-under-keys", receive(OTHER_KEY, KEY), octets.hex().encode(), RECEIVED
    for label, given, answer in (
            ("without-the-last-octet", octets[:-1], CMS_DECODE), ("and-octets-behind", octets + b"\xff\xff", RECEIVED),
            ("with-content-in-segments", changed(octets, CONTENT, lambda content: segmented(contents(content))), RECEIVED),
            ("with-loose-lengths", with_loose_lengths(octets), RECEIVED),
            ("with-an-overlong-length-in-the-crl", with_crls(octets, in_ber), CMS_DECODE),
            ("with-gttp-in-the-content", octets.replace(b"http", b"gttp", 1), validation(2))):
        yield f"built-{label}", receive(), given.hex().encode(), answer


# ---- what words say by themselves: name, call, words, answer


def moments():
    """Words that name moments, and words that name none."""
    last = "253402300799"
    for word in "0", MOMENT, last:
        yield f"moment-of-{word}", "moment", ("receive", word), word
    for number, word in enumerate(("253402300800", "99999999999999999999", "00", "01", "+1", "-1", "-0", "1 ", "")):
        yield f"no-moment-{number}", "moment", ("receive", word), "none"
    yield "no-moment-behind-the-words", "moment", ("0",), "none"


def bits_of(number):
    """What is said of the toy key with this number."""
    return "rsa:" + key_bits(1, number).hex()


def keys():
    """Words that spell keys, and words that spell none."""
    yield "key", "key", (KEY,), bits_of(0)
    yield "key-of-upper-case", "key", (OTHER_KEY.upper(),), bits_of(9)
    yield "key-without-null", "key", ("3020300b06092a864886f70d01010103110000000000000000010000000000000000",), bits_of(0)
    for label, word in (
            ("with-an-octet-behind", KEY + "00"), ("with-a-digit-behind", KEY + "0"),
            ("with-an-overlong-length", KEY.replace("3022", "308122", 1)), ("of-no-digits", "zz"), ("of-nothing", "")):
        yield f"no-key-{label}", "key", (word,), "none"
    yield "no-key-behind-the-words", "key", (), "none"


def commands():
    """What commands words ask for."""
    yield "command-of-one-key", "command", receive(moment="1"), f"publication/1/{bits_of(0)}"
    yield "command-of-two-keys", "command", receive(KEY, KEY, moment="1"), f"publication/1/{bits_of(0)}/{bits_of(0)}"
    yield "command-content", "command", ("content",), "content"
    yield "command-create", "command", create("7"), "create/publication/7"
    yield "command-create-provisioning", "command", create("7", "provisioning"), "create/provisioning/7"
    yield "command-of-provisioning", "command", receive(moment="1", kind="provisioning"), f"provisioning/1/{bits_of(0)}"
    for kind in SETUP_MESSAGES:
        yield f"command-setup-{kind}", "command", ("setup", kind, "7"), f"setup/{kind}/7"
    yield "command-make", "command", ("make", "10000", "4294967295"), "make/10000/4294967295"
    yield "no-command", "command", ("contents",), "none"


def orders():
    """What words say of themselves."""
    yield "words-two", "words", ("receive", ""), "2/false/receive/"
    yield "words-none", "words", (), "0/true"


# ---- parts that programs share: name, call, words, answer


REFUSED = {
    "Usage": 2, "Hex": 3, "CmsDecode": 4, "XmlError": 5, "CertSyntax": 5, "InvalidCsrSyntax": 5, "InvalidTaCertEncoding": 5,
    "InvalidTaCert": 5, "Validation": 6, "KeyNotFound": 7, "IncompatibleKey": 7, "KeyReused": 7, "Signer": 7, "Moment": 8, "TooLong": 9,
    "ReadFault": 10, "OutOfMemory": 12}
PARTS = 0, *SIZES


def line_parts():
    """Lines, what inputs spell, and keys, with parts of sizes where a length or a count takes one octet more."""
    for n in PARTS:
        yield f"line-of-{n}", "line_of", ("a" * n,), (b"a" * n + b"\n").hex()
        octets = b"\xab" * n
        for label, digits in ("", octets.hex()), ("-in-upper-case", octets.hex().upper()), ("-with-a-line-feed", octets.hex() + "\n"):
            if n < 1000 or not label:
                yield f"octets-of-{n}{label}", "input_octets", (digits,), octets.hex()
        spelled = seq(seq(RSA, NULL), bits(octets)).hex()
        yield f"spelled-key-of-{n}", "spelled_key", (spelled,), "rsa:" + octets.hex()
        yield f"spelled-key-of-{n}-cut", "spelled_key", (spelled[:-2],), "none"
    for number, digits in enumerate(("0", "0g", "00\n\n", " 00", "\n00", "00 ")):
        yield f"no-octets-{number}", "input_octets", (digits,), "Hex"
    for name, _, words, answer in keys():
        if words:
            yield f"spelled-{name}", "spelled_key", words, answer


def stream_parts():
    """Inputs that are read, or whose calls fail; and ends of programs that answer line by line."""
    for n in PARTS:
        for piece in ("1", "100") if n < 1000 else ("1000",):
            yield f"read-{n}-by-{piece}", "read_input", (piece, "a" * n), (b"a" * n).hex()
    for call in range(4):
        yield f"read-input-{call}-fails", "read_input", (f"100/{call}", "a" * 300), "ReadFault"
    yield "read-input-4-fails", "read_input", ("100/4", "a" * 300), (b"a" * 300).hex()
    for room in 0, 1000:
        yield f"finish-done-{room}", "finish_lines", ("done", str(room)), "0//0"
        yield f"finish-failed-{room}", "finish_lines", ("write", str(room)), "11//0"
    for name, status in REFUSED.items():
        said = f"{name} 14\n" if name == "Validation" else f"{name}\n"
        yield f"finish-{name}", "finish_lines", (name, "1000"), f"{status}/{said.encode().hex()}/0"
        yield f"finish-{name}-cut", "finish_lines", (name, str(len(said) - 1)), f"11/{said[:-1].encode().hex()}/1"


def message_parts():
    """Texts that are messages of a protocol, and that are none."""
    for label, text, written in (*updown_texts(), *certified_texts()):
        answer = written[1].decode() if isinstance(written, tuple) else written.hex() if written else "XmlError"
        yield f"message-updown-{label}", "message_in", ("provisioning", text.decode()), answer
    for label, spelled, written in shaped():
        yield f"message-{label}", "message_in", ("publication", spelled.decode()), written.hex()
    for label, kind, elements in mixed():
        yield f"message-{label}", "message_in", ("publication", root(kind, *elements).decode()), "XmlError"
    for n in PARTS:
        text = root(b"query", element(b"publish", base64.b64encode(b"c" * n), tag=b"t" * n, uri=b"rsync://localhost/ca/f"))
        yield f"message-of-{n}", "message_in", ("publication", text.decode()), text.hex()
        text = updown(b"error_response", status(b"1101", b"<description>%s</description>" % (b"d" * n) if n else b"<description/>"))
        yield f"message-updown-of-{n}", "message_in", ("provisioning", text.decode()), text.hex()
    yield "message-of-the-other-kind", "message_in", ("provisioning", QUERY.decode()), "XmlError"
    yield "message-updown-of-the-other-kind", "message_in", ("publication", updown(b"list").decode()), "XmlError"


def part_rows():
    """Parts that programs share, by themselves."""
    for name, call, words, answer in (*line_parts(), *stream_parts(), *message_parts()):
        yield " ".join((f"part-{name}", call, answer or "-", *map(sized_word, words)))


def sized_word(text):
    """A word as the cases have it; a long one in terms."""
    return word_of(text) if len(text) < 1000 else "#" + terms(text.encode())


# ---- streams of which calls fail: name, answer, calls of the source and of the sink, room, input, words


def fault_rows():
    """Commands over sources and sinks of which a call fails."""
    digits, words = CONTENT_A.encode(), ("content",)
    assert 4 * 200 < len(digits) <= 5 * 200
    for call in range(6):
        yield f"read-{call}-fails", (10, b"ReadFault\n", 1, 0), f"200/{call}", "1000", 1000, digits.hex(), words
    refused = b"CmsDecode\n"
    for piece, calls in (1, 10), (5, 2), (1000, 1):
        for call in range(calls):
            answer = 11, refused[:call * piece], 0, 1
            yield f"write-{call}-of-{piece}-fails", answer, "1", f"{piece}/{call}", 1000, b"00".hex(), words
    yield "no-room-for-the-line-feed", (11, refused[:9], 0, 1), "1", "1000", 9, b"00".hex(), words
    yield "no-word-no-read", (2, b"Usage\n", 0, 0), "1/0", "1000", 1000, b"00".hex(), ("receive",)


# ---- signers: name, answer, signer, key and moments, words


def signer_rows():
    """Commands with signers that fail, that lack the key, or have another."""
    received = 0, QUERY
    for moment in 300, 1700000000, 2524607900, 253402300499:
        moments = [moment - 300, moment, moment + 300, *(m for m in (moment + 301,) if m <= 253402300799)]
        answers = [received if m <= moment + 300 else validation(5) for m in moments]
        yield f"signs-at-{moment}", (0, 0, answers), "rsa", KEY, moments, create(str(moment))
    for signer, word in ("reused", b"KeyReused"), ("ec", b"IncompatibleKey"), ("missing", b"KeyNotFound"):
        yield f"signer-{signer}", (7, 0, word), signer, KEY, (), create()
    for call in range(1, 7):
        yield f"signer-call-{call}-fails", (7, 1, b"Signer"), str(call), KEY, (), create()
    yield "signer-is-asked-six-times", (0, 0, [received]), "7", KEY, (1700000000,), create()
    yield "signs-under-another-key", (0, 0, [validation(6)]), "rsa", OTHER_KEY, (1700000000,), create()
    make = "make", "10", "7"
    for signer, word in ("reused", b"KeyReused"), ("ec", b"IncompatibleKey"), ("missing", b"KeyNotFound"):
        yield f"maker-{signer}", (7, 0, word), signer, KEY, (), make
    for call in range(1, 8):
        yield f"maker-call-{call}-fails", (7, 1, b"Signer"), str(call), KEY, (), make
    yield "maker-is-asked-seven-times", (0, 0, []), "8", KEY, (), make


def signed_case(name, answer, signer, key, moments, words):
    """A line of a command with a signer."""
    status, faults, said = answer
    ends = [line_of(said)] if isinstance(said, bytes) else [f"{end}/{line_of(text)}" for end, text in said]
    left = ("left",) if words[0] == "make" else ()
    answer = "/".join((str(status), str(faults), *ends, *left))
    return " ".join((name, "signed", answer, signer, ",".join((key, *map(str, moments))), QUERY.hex(), *map(word_of, words)))


def line_of(text):
    """The line of a text, in hexadecimal."""
    return (text + b"\n").hex()


def fault_case(name, answer, read, written, room, given, words):
    """A line of a command over a source and a sink of which calls fail."""
    status, octets, *faults = answer
    said = "/".join((str(status), octets.hex(), *map(str, faults)))
    return " ".join((name, "faults", said, read, written, str(room), given, *map(word_of, words)))


def word_of(text):
    """A word as the cases have it."""
    plain = text not in ("", "-") and text.split() == [text] and not text.startswith("#")
    return text if plain else "#" + text.encode().hex() if text else "-"


def case(name, words, given, status, written):
    """A line of a command."""
    octets = given.hex() if len(given) < 65536 else terms(given)
    fields = [name, str(status), written.hex(), octets, *map(word_of, words)]
    return " ".join(field or "-" for field in fields)


def rows():
    """All rows of this script."""
    for row in (*moment_rows(), *key_rows(), *list_rows(), *word_rows(), *input_rows(), *crl_rows(), *create_rows(), *shape_rows(),
                *updown_rows(), *setup_rows(), *make_rows(), *anchor_rows(), *content_rows(), *built_rows()):
        name, words, given, (status, text) = row
        yield case(name, words, given, status, text + b"\n")
    for name, call, words, answer in (*moments(), *keys(), *commands(), *orders()):
        yield " ".join((name, call, answer, *map(word_of, words)))
    yield from part_rows()
    for row in fault_rows():
        yield fault_case(*row)
    for row in signer_rows():
        yield signed_case(*row)


def cases_of(name, folder):
    """The cases of a set, from a folder."""
    for path in sorted(folder.glob("case-*.words")):
        words = path.read_text().removesuffix("\n").split("\n") if path.stat().st_size else []
        if name != "prov" and words[1:2] == ["provisioning"] and path.with_suffix(".expected").read_bytes() == b"2\nUsage\n":
            continue
        status, written = path.with_suffix(".expected").read_bytes().split(b"\n", 1)
        number = int(path.stem.removeprefix("case-"))
        yield case(f"{name}-{number}", words, path.with_suffix(".in").read_bytes(), int(status), written)


def main():
    """Writes the rows and the sets that are kept, or takes a set anew from a folder."""
    file = CRATE / "data" / "cases.txt"
    kept = file.read_text().splitlines()
    sets = {name: [line for line in kept if line.startswith(f"{name}-")] for name in SETS}
    if len(sys.argv) > 1:
        name, folder = sys.argv[1:]
        assert name in SETS
        sets[name] = list(cases_of(name, pathlib.Path(folder)))
    lines = [line for name in SETS for line in sets[name]] + list(rows())
    names = [line.split(" ")[0] for line in lines]
    assert len(names) == len(set(names))
    file.write_text("".join(line + "\n" for line in lines))
    (CRATE / "stdout").write_text(f"{len(lines)} cases, 0 differ\n")


if __name__ == "__main__":
    main()
