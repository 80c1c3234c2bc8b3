#!/usr/bin/env python3
"""Writes messages of the provisioning protocol and what their calls answer: crates/test_provisioning/data/cases.txt, and the stdout
beside it.

The messages are laid out by RFC 6492, 3, the certificates are those of tools/cases/resource_certificates.py, the requests those of
tools/cases/request_cases.py, the signed messages those of tools/cases/signed_messages.py; no expected answer comes from the program under
test.

A line is `NAME ber OCTETS STEP..`, with the steps of tools/cases/stored_cases.py. What the calls answer, or `refused` and the printed
error, or its name where no standard says what it prints:

    text                              the message as which the octets read, as it is written; a source of the octets is read alike, each
                                      call writes the same, and so of a copy, which is equal
    source,'CALL                      the same of a source of 100 octets a call, whose call with this number fails
    sink,'CALL                        what a sink that takes 100 octets a call has got, whose call with this number fails; behind the
                                      refusal where it failed
    equal,TEXT                        whether both messages are equal; whether what they say is; of two requests for a certificate whether
                                      these are
    lent                              sender, recipient, kind, whether it is the answer with the classes, and what it says: of a class name,
                                      sets, seconds, of each certificate place, limit and octets, of the issuer's place and octets; of a
                                      request name, limit and octets; of a key name, octets and print, and of a request to revoke whether
                                      its own parts are the same; of a refusal status, description or `-`, and print
    handed                            sender and recipient, and what a request, a certificate that was issued and a request to revoke are
                                      taken to, as by lent
    copies                            of what the message says, and of each part in turn, whether a copy is equal
    issued,'NUMBER                    the answer, as it is written, that the first class gives to a request for this key of seed 1; or none
    granted                           the answer, as it is written, that grants the request to revoke
    decoded                           of a signed message the content, and the message as it is written
    signed                            the digest, whether it holds, and the message as it is written
    message rewritten                 the message as it is written; the signed message as it is written again
    checked,'MOMENT/NUMBER            ok under this key of seed 1
    believed,'MOMENT/NUMBER..         the place of the key under which the message is believed
    created,'MOMENT/NUMBER            of what the toy signer of seed 1 makes of the message under this key: whether it is decoded as that,
                                      or why not, and its octets
    made_list made_list_response,ISSUER made_issue made_issue_response,ISSUER made_revoke made_revoke_response made_error
                                      of the message that calls put together of these octets and the issuer's certificate: whether its text
                                      is read as it, or why not, and the text
    made_classes,'NUMBER              the same of so many classes, each with the one certificate
    made_spaced created_spaced,..     the same, and what `created` says, of a question for the classes from the sender `a b`
    class_name,TEXT class_number,'N what the name prints, whether a copy is equal, whether the other name is, and in what order they are;
                                      of a number beside the name of none
    kind,'TEXT                        the kind that the text is, and what it prints; behind a refusal what its cause prints
    status,'NUMBER                    what the constructor gives, as by lent, and whether a copy is equal
    limit,TEXT                        of a limit what is stated of each kind or `-`, its print, whether it is none, and whether a copy and
                                      another are equal
    applied,TEXT                      what a limit leaves of a set
    content_type                      the media type
    errors                            InvalidVersion, XmlError, InvalidCsrSyntax, CertSyntax and CmsDecode as they are printed
"""

import base64
import hashlib
import itertools

import certificate_cases as certificates
from request_cases import options_of, request, signature_of
from resource_certificates import certificate_of, loose
from resource_sets import printed, singles
from signed_messages import (
    BREAKS, CONTENT_A, FIRST, LAST, NOW, NULL, bits, created, indefinite, key_bits, key_identifier, message,
    name, overlong, printable, segmented, seq, value,
)
from stored_cases import DONE, NOTHING, SIZES, ber_line as line, repeated, step, terms, within, write

NO_XML, NO_REQUEST, NO_CERTIFICATE, NO_CMS = (("refused", text) for text in (
    "malformed XML", "Could not decode CSR", "Could not decode certificate", "Could not decode CMS"))
NAMESPACE = b"http://www.apnic.net/specs/rescerts/up-down/"
UNTIL, MOMENT = b"2023-11-14T22:18:20Z", 1700000300
HERE, THERE = b"rsync://localhost/repo/ca.cer", b"rsync://localhost/repo/ta.cer"
ISSUER, FIRST_CERT, SECOND_CERT = certificate_of(key=0, subject=name(1, 0)), certificate_of(), certificate_of(key=2)
BARE_CERT = certificate_of(issuer=seq(), subject=seq(), key=("rsa", b""), spelled_bits=bits(b""))
ANCHOR = certificates.certificate(certificates.own_anchor(NOW, NOW + 60))
REQUEST, OTHER_REQUEST = request(options_of()), request(options_of(key=1))
ROUTER_REQUEST = request(options_of(True))
KEY = key_identifier(1, 1)


# ---- texts, as they are written


def element(tag, *inside, **attributes):
    """An element with these attributes, of which one that is None isn't there."""
    start = b"<" + tag + b"".join(b' %s="%s"' % (key.encode(), text) for key, text in attributes.items() if text is not None)
    inside = b"".join(inside)
    return start + (b">" + inside + b"</" + tag + b">" if inside else b"/>")


def root(kind, *inside, sender=b"Carol", recipient=b"Bob"):
    """The element of a message of this kind."""
    return element(b"message", *inside, xmlns=NAMESPACE, version=b"1", sender=sender, recipient=recipient, type=kind)


def limits(asn=None, ipv4=None, ipv6=None):
    """The attributes that limit a request."""
    return dict(req_resource_set_as=asn, req_resource_set_ipv4=ipv4, req_resource_set_ipv6=ipv6)


def certificate(octets, url=HERE, **limit):
    """The element of a certificate that was issued."""
    return element(b"certificate", base64.b64encode(octets), cert_url=url, **limits(**limit))


def issuer(octets=ISSUER):
    """The element of an issuer's certificate."""
    return element(b"issuer", base64.b64encode(octets))


def class_of(*inside, class_name=b"0", url=THERE, asn=b"64496-64511", ipv4=b"10.0.0.0/8", ipv6=b"2001:db8::/32", until=UNTIL, **more):
    """A class; where nothing is to stand in it, the issuer does."""
    return element(b"class", *(inside or [issuer()]), class_name=class_name, cert_url=url, resource_set_as=asn, resource_set_ipv4=ipv4,
        resource_set_ipv6=ipv6, resource_set_notafter=until, **more)


def asked(octets=REQUEST, class_name=b"0", **limit):
    """The element of a request for a certificate."""
    return element(b"request", base64.b64encode(octets), class_name=class_name, **limits(**limit))


def ski(octets=KEY):
    """A key identifier as the protocol spells it."""
    return base64.urlsafe_b64encode(octets).rstrip(b"=")


def key(octets=KEY, class_name=b"0"):
    """The element of a key."""
    return element(b"key", class_name=class_name, ski=ski(octets))


def status(number, description=None):
    """The elements of a refusal."""
    return element(b"status", number) + (b"" if description is None else element(b"description", description))


CERTIFICATES = [certificate(FIRST_CERT, ipv4=b"10.0.0.0/9"), certificate(SECOND_CERT, HERE + b"2", asn=b"", ipv6=b"2001:db8::/33")]
KINDS = {
    b"list": [], b"list_response": [class_of(*CERTIFICATES, issuer()), class_of(class_name=b"a b", asn=b"", ipv4=b"", ipv6=b"")],
    b"issue": [asked(asn=b"64496", ipv6=b"")], b"issue_response": [class_of(CERTIFICATES[0], issuer())], b"revoke": [key()],
    b"revoke_response": [key()], b"error_response": [status(b"1201", b"no &lt; such class")]}
MESSAGES = {kind: root(kind, *inside) for kind, inside in KINDS.items()}
LIST = MESSAGES[b"list"]


# ---- lines


def read(label, text, written=None):
    """The text reads, and is written as the other one, or as it stands."""
    return line(label, text, step("text", text if written is None else written))


def unread(label, text, why=NO_XML):
    """A text that is no message, and why."""
    return line(label, text, step("text", *why))


def numbered(label, make, texts, *more):
    """Lines that `make` makes of texts, with numbers behind the label."""
    for number, text in enumerate(texts):
        yield make(f"{label}-{number}", text, *more)


# ---- roots


def root_lines():
    """Roots that are spelled otherwise, and roots that are none."""
    front = b'<message xmlns="%s" version="1" sender="Carol" recipient="Bob" type="list"' % NAMESPACE
    broken_line = b"<message version=\"1\"\n         sender=\"Carol\" recipient=\"Bob\" type=\"list\""
    declaration = b"<?xml version='1.0' encoding='UTF-8'?>\n"
    yield from numbered("root", read, [
        declaration + broken_line + b"/>", declaration + broken_line.replace(b"version", b'xmlns="%s" version' % NAMESPACE, 1) + b" />",
        front + b"></message>", front + b">\r\n\t </message >", front.replace(b' version="1"', b"") + b"/>",
        front.replace(NAMESPACE, b"urn:other") + b"/>", front.replace(NAMESPACE, b"") + b"/>",
        b"<p:message p:version='1' xmlns:p='urn:p' p:type='list' p:recipient='Bob' sender='Carol'/>",
        b"<!-- a --> <?b ?>" + front + b"><!-- c --><?d?></message><!-- e -->\n", front.replace(b'"', b"'") + b"/>",
        b"<message\ttype = 'list'\nrecipient\r=\n'Bob' sender='Carol'/>",
    ], LIST)
    changed = lambda old, new: front.replace(old, new) + b"/>"
    yield from numbered("no-root", unread, [
        b"", b" ", b"a", b"\xff", front, front + b">", front + b"></messages>", LIST + b".", LIST + LIST, front + b">a</message>",
        front + b"><a/></message>", front + b"><message/></message>", changed(b'version="1"', b'version="2"'),
        changed(b'version="1"', b'version=""'), changed(b'version="1"', b'version="1" p:version="1"'),
        changed(b'version="1"', b'version="1" x="1"'),
        changed(b'version="1"', b'version="1" version="1"'), changed(b' sender="Carol"', b""), changed(b' recipient="Bob"', b""),
        changed(b' type="list"', b""), changed(b"list", b"List"), changed(b"list", b"foo"), changed(b"list", b""),
        changed(b"list", b" list"),
        changed(b"Carol", b""), changed(b"Carol", b"a b"), changed(b"Bob", b"a.b"), changed(b"Bob", b" Bob"),
        changed(b'sender="Carol"', b'sender="Carol" p:sender="Carol"'), changed(b'type="list"', b'type="list" p:type="list"'),
        b"<!DOCTYPE message>" + LIST, changed(b"<message", b"<messages"), changed(b"<message", b"<msg"), changed(b"Bob", b"&bob;")])
    for n in SIZES[:3]:
        yield read(f"handles-of-{n}", root(b"list", sender=b"s" * n, recipient=b"/-_Z9"[:5] + b"r" * (n - 5)))
    for part in "sender", "recipient":
        yield unread(f"{part}-of-256", root(b"list", **{part: b"h" * 256}))
    for kind, text in MESSAGES.items():
        yield read(f"kind-{kind.decode()}", text)
        for other, inside in KINDS.items():
            fits = kind == other or {kind, other} == {b"revoke", b"revoke_response"} or (kind, other) == (b"list_response", b"list") or (
                kind, other) == (b"list_response", b"issue_response")
            if not fits:
                yield unread(f"{kind.decode()}-of-{other.decode()}", root(kind, *inside))


def attribute_lines(label, kind, tag, written, required, listed):
    """The message with an attribute less, with one that stands twice, and with one that isn't listed."""
    whole = root(kind, written)
    for attribute in required:
        yield unread(f"{label}-without-{attribute}", whole.replace(b" " + attribute.encode() + b"=", b" xmlns:x="))
    for attribute in listed:
        front = b"<" + tag + b" "
        twice = whole.replace(front, front + b'a:%s="" b:%s="" ' % (attribute.encode(), attribute.encode()), 1)
        yield unread(f"{label}-with-{attribute}-twice", twice)
    yield unread(f"{label}-with-another", whole.replace(b"<" + tag + b" ", b'<' + tag + b' x="1" ', 1))
    yield read(f"{label}-in-another-namespace", whole.replace(b"<" + tag + b" ", b"<" + tag + b' xmlns="urn:other" xmlns:a="b" ', 1), whole)


# ---- classes


SETS = "resource_set_as", "resource_set_ipv4", "resource_set_ipv6"
LIMITS = tuple("req_" + kind for kind in SETS)


def class_lines():
    """Lists of classes, and texts that are none."""
    yield from attribute_lines("class", b"list_response", b"class", class_of(), ("class_name", "cert_url", "resource_set_notafter"),
        ("class_name", "cert_url", *SETS, "resource_set_notafter", "suggested_sia_head"))
    empty = class_of(asn=b"", ipv4=b"", ipv6=b"")
    listed = lambda *classes: root(b"list_response", *classes)
    yield read("no-class", listed())
    yield read("class-without-sets", listed(class_of(asn=None, ipv4=None, ipv6=None)), listed(empty))
    yield read("class-with-empty-sets", listed(class_of(asn=b"", ipv4=b" ", ipv6=b"  ")), listed(empty))
    for part in "asn", "ipv4", "ipv6":
        yield read(f"class-without-{part}", listed(class_of(**{part: None})), listed(class_of(**{part: b""})))
    yield read("class-with-a-place", listed(class_of(suggested_sia_head=b"rsync://localhost/repo/")), listed(class_of()))
    yield read("class-with-any-place", listed(class_of(suggested_sia_head=b"a b")), listed(class_of()))
    for number, text in enumerate((b"", b"a b", b"&lt;&gt;&amp;&quot;&apos;", b"0" * 1000)):
        yield read(f"class-named-{number}", listed(class_of(class_name=text)))
    spelled = root(b"list_response", class_of()).replace(b"<class ", b"<class\n   ").replace(b"><issuer>", b">\n  <!-- a -->\n<issuer>\n ")
    yield read("class-laid-out", spelled.replace(b"</issuer>", b"\n</issuer><?b?>\n"), listed(class_of()))
    first, second = CERTIFICATES
    for number, inside in enumerate(([first], [first, second], [second, first], [first, first])):
        yield read(f"class-with-certificates-{number}", listed(class_of(*inside, issuer())))
        yield read(f"class-with-the-issuer-first-{number}", listed(class_of(issuer(), *inside)), listed(class_of(*inside, issuer())))
    yield read("class-with-the-issuer-between", listed(class_of(first, issuer(), second)), listed(class_of(first, second, issuer())))
    yield read("classes", listed(class_of(), class_of(class_name=b"1"), class_of()))
    yield from numbered("no-class", unread, [listed(text) for text in (
        class_of(issuer(), issuer()), class_of(first), class_of(first, issuer(), issuer(), second), class_of(b"a", issuer()),
        class_of(issuer(), b"a"), class_of(issuer(), b"<a/>"), class_of(b"<class/>", issuer()), class_of().replace(b"class", b"klass"),
        class_of() + b"a", class_of() + b"<a/>", class_of(url=b"https://localhost/a"), class_of(url=b""),
        class_of(url=b"rsync://localhost/"),
        class_of(asn=b"3-1"), class_of(asn=b"4294967296"), class_of(ipv4=b"10.0.0.0/33"), class_of(ipv4=b"::/0"),
        class_of(ipv6=b"10.0.0.0/8"),
        class_of(ipv6=b"1,"))])


def set_lines():
    """Sets that are spelled otherwise."""
    listed = lambda **sets: root(b"list_response", class_of(**sets))
    for number, (given, written) in enumerate((
            (dict(asn=b" AS3 ,as1, 2,7-9,8"), dict(asn=b"1-3,7-9")), (dict(asn=b"0-4294967295"), dict(asn=b"0-4294967295")),
            (dict(ipv4=b"10.0.0.1/8"), dict(ipv4=b"10.0.0.0/8")), (dict(ipv4=b"10.0.0.0/9,10.128.0.0/9"), dict(ipv4=b"10.0.0.0/8")),
            (dict(ipv4=b"10.0.0.2,10.0.0.1"), dict(ipv4=b"10.0.0.1-10.0.0.2")), (dict(ipv4=b"0.0.0.0/0"), dict(ipv4=b"0.0.0.0/0")),
            (dict(ipv6=b"2001:DB8:0::/33, 2001:db8:8000::/33"), dict(ipv6=b"2001:db8::/32")), (dict(ipv6=b"::/0"), dict(ipv6=b"::/0")),
            (dict(ipv6=b"::1-::3"), dict(ipv6=b"::1-::3")))):
        yield read(f"set-{number}", listed(**given), listed(**written))
        limit, kept = ({part: text for part, text in sets.items()} for sets in (given, written))
        yield read(f"limit-{number}", root(b"issue", asked(**limit)), root(b"issue", asked(**kept)))
        given_class, kept_class = (class_of(certificate(FIRST_CERT, **sets), issuer()) for sets in (limit, kept))
        yield read(f"certified-limit-{number}", root(b"list_response", given_class), root(b"list_response", kept_class))


def time_lines():
    """Classes with times in many spellings."""
    listed = lambda until: root(b"list_response", class_of(until=until))
    for number, (text, written) in enumerate((
            (UNTIL, UNTIL), (b"2023-11-14T22:18:20.9Z", UNTIL), (b"2023-11-14T22:18:20.000000001Z", UNTIL),
            (b"2023-11-14T22:18:20+00:00", UNTIL),
            (b"2023-11-15T00:18:20+02:00", UNTIL), (b"2023-11-14T16:48:20-05:30", UNTIL),
            (b"2024-02-29T00:00:00Z", b"2024-02-29T00:00:00Z"),
            (b"9999-12-31T23:59:59Z", b"9999-12-31T23:59:59Z"), (b"0001-01-01T00:00:00Z", b"0001-01-01T00:00:00Z"),
            (b"1969-12-31T23:59:59Z", b"1969-12-31T23:59:59Z"))):
        yield read(f"until-{number}", listed(text), listed(written))
    yield from numbered("no-until", unread, map(listed, (
        b"", b"2023-11-14", b"2023-11-14T22:18:20", b"2023-11-14t22:18:20Z", b"2023-11-14T22:18:20z", b"2023-11-14 22:18:20Z",
        b"2023-02-29T00:00:00Z", b"2023-11-14T24:00:00Z", b"2023-11-14T22:60:00Z", b"2023-11-14T22:18:60Z", b"2023-11-14T22:18:20.Z",
        b"2023-11-14T22:18:20+24:00", b"2023-11-14T22:18:20+0000", b" 2023-11-14T22:18:20Z", b"2023-11-14T22:18:20Z ",
        b"10000-01-01T00:00:00Z", b"9999-12-31T23:59:59-00:01", b"0000-01-01T00:00:00+00:01", b"20231114T221820Z", b"231114221820Z")))


def certificate_lines():
    """Certificates, of a class and of its issuer."""
    listed = lambda *inside: root(b"list_response", class_of(*inside))
    yield from attribute_lines("certificate", b"issue_response", b"certificate", class_of(CERTIFICATES[0], issuer()), (),
        ("cert_url", *LIMITS))
    for number, limit in enumerate((
            dict(), dict(asn=b""), dict(ipv4=b""), dict(ipv6=b""), dict(asn=b"", ipv4=b"", ipv6=b""),
            dict(asn=b"1", ipv4=b"10.0.0.0/8", ipv6=b"::/0"))):
        yield read(f"certificate-for-{number}", listed(certificate(FIRST_CERT, **limit), issuer()))
    yield unread("certificate-without-cert-url", listed(certificate(FIRST_CERT, None), issuer()))
    yield unread("certificate-at-no-place", listed(certificate(FIRST_CERT, b"http://h/m/"), issuer()))
    yield unread("certificate-for-no-set", listed(certificate(FIRST_CERT, asn=b"a"), issuer()))
    behind = [loose(FIRST_CERT), FIRST_CERT[:-1], b"", b"\0", REQUEST, ISSUER.replace(b"\x30", b"\x31", 1), b"\0" + FIRST_CERT]
    for number, octets in enumerate(behind):
        yield unread(f"certificate-of-none-{number}", listed(certificate(octets), issuer()), NO_CERTIFICATE)
        yield unread(f"issuer-of-none-{number}", listed(issuer(octets)), NO_CERTIFICATE)
        yield unread(f"last-certificate-of-none-{number}", root(b"list_response", class_of(), class_of(
            *CERTIFICATES, certificate(octets), issuer())), NO_CERTIFICATE)
        yield unread(f"issued-of-none-{number}", root(b"issue_response", class_of(certificate(octets), issuer())), NO_CERTIFICATE)
    for label, octets in ("null", NULL), ("another", FIRST_CERT), ("anything", b"\xff"):
        yield read(f"certificate-before-{label}", listed(certificate(FIRST_CERT + octets), issuer(ISSUER + octets)),
            listed(certificate(FIRST_CERT), issuer()))
    none = certificate(b"")
    yield from numbered("no-certificate-and-no-form", unread, [
        root(b"list_response", class_of(none, issuer()), b"<a/>"), listed(none), listed(none, issuer(b""), issuer()),
        root(b"issue_response", class_of(none, none, issuer())), root(b"list_response", class_of(none, issuer()), class_of(until=b""))])
    yield from base64_lines()
    yield from issuance_lines()


def base64_lines():
    """Texts of base64, of certificates, of the issuer and of a request."""
    for label, tag, kind, octets, whole in (
            ("certificate", b"certificate", b"list_response", FIRST_CERT,
            root(b"list_response", class_of(certificate(FIRST_CERT), issuer()))),
            ("issuer", b"issuer", b"list_response", ISSUER, root(b"list_response", class_of())),
            ("request", b"request", b"issue", REQUEST, root(b"issue", asked()))):
        text = base64.b64encode(octets)
        instead = lambda new: whole.replace(text, new)
        yield read(f"{label}-in-lines", instead(b"\n" + b"\r\n".join(text[at:at + 64] for at in range(0, len(text), 64)) + b"\t "), whole)
        yield read(f"{label}-commented", instead(text[:9] + b"<!-- a -->" + text[9:]), whole)
        yield read(f"{label}-beside-an-instruction", instead(b"<?a b?>" + text), whole)
        for number, new in enumerate((
                b"A", b"A===", b"AA", b"AA=", b"AB==", b"AA==A", b"AAB=", b"=", b"AA==AA==", b"&lt;", b"AA-_", b"*", text[:-1] + b"!",
                text + b"<a/>",
                b"<a/>", b"<a>" + text + b"</a>")):
            yield unread(f"{label}-in-no-base64-{number}", instead(new))
    yield read("issuer-with-attributes", root(b"list_response", class_of(issuer().replace(b">", b' a="b" c:a="d">', 1))),
        root(b"list_response", class_of()))


def issuance_lines():
    """Answers with a certificate that was issued, and texts that are none."""
    issued = lambda *inside: root(b"issue_response", *inside)
    first, second = CERTIFICATES
    yield read("issued", issued(class_of(first, issuer())))
    yield read("issued-after-the-issuer", issued(class_of(issuer(), second)), issued(class_of(second, issuer())))
    yield from numbered("not-issued", unread, [issued(*inside) for inside in (
        [], [class_of()], [class_of(first, second, issuer())], [class_of(first, issuer())] * 2, [class_of(first, issuer()), b"<a/>"],
        [class_of(first, issuer(), issuer())], [class_of(first)], [first], [b"a", class_of(first, issuer())])])


# ---- requests, keys, refusals


def request_lines():
    """Requests for a certificate, and texts that are none."""
    asking = lambda *inside: root(b"issue", *inside)
    yield from attribute_lines("request", b"issue", b"request", asked(), ("class_name",), ("class_name", *LIMITS))
    yield unread("request-of-0", asking(element(b"request", b"AA==", class_name=b"0")), NO_REQUEST)
    yield unread("request-of-0-with-x", asking(element(b"request", b"AA==", class_name=b"0", x=b"1")))
    for number, limit in enumerate((
            dict(), dict(asn=b""), dict(ipv4=b""), dict(ipv6=b""), dict(asn=b"", ipv4=b"", ipv6=b""),
            dict(asn=b"1", ipv4=b"10.0.0.0/8", ipv6=b"::/0"))):
        yield read(f"request-for-{number}", asking(asked(**limit)))
    for number, text in enumerate((b"", b"a b", b"&lt;&gt;&amp;&quot;&apos;")):
        yield read(f"request-named-{number}", asking(asked(class_name=text)))
    for number, octets in enumerate((
            b"", b"\0", REQUEST[:-1], ROUTER_REQUEST, FIRST_CERT, loose(REQUEST), b"\0" + REQUEST, request(options_of(whole=loose)))):
        yield unread(f"request-of-none-{number}", asking(asked(octets)), NO_REQUEST)
    for label, octets in ("null", NULL), ("another", REQUEST), ("anything", b"\xff"):
        yield read(f"request-before-{label}", asking(asked(REQUEST + octets)), asking(asked()))
    o = options_of()
    unused = request(options_of(spelled_bits=value(3, b"\5" + signature_of(o))))
    yield line("request-with-unused-bits", asking(asked(unused)), step("text", asking(asked())),
        step("equal", True, True, True, argument=asking(asked())))
    yield from numbered("no-request", unread, [asking(*inside) for inside in (
        [], [asked(), asked()], [asked(), b"<a/>"], [b"a", asked()], [asked().replace(b"request", b"requests")], [asked(asn=b"a")],
        [asked(ipv4=b"a")], [asked(ipv6=b"a")], [asked(b""), b"<a/>"])])


def key_lines():
    """Requests to revoke and their answers, and texts that are none."""
    zeros = root(b"revoke", element(b"key", class_name=b"0", ski=b"A" * 27))
    padded = b'<key class_name="0" ski="AAAAAAAAAAAAAAAAAAAAAAAAAAA="></key>'
    assert zeros == root(b"revoke", b'<key class_name="0" ski="AAAAAAAAAAAAAAAAAAAAAAAAAAA"/>')
    yield read("key-padded", root(b"revoke", padded), zeros)
    for kind in b"revoke", b"revoke_response":
        label = kind.decode()
        yield from attribute_lines(label, kind, b"key", key(), ("class_name", "ski"), ("class_name", "ski"))
        for number, octets in enumerate((b"\xff" * 20, b"\xfb\xef\xbe" * 6 + b"\xfb\xef", bytes(range(20)))):
            yield read(f"{label}-{number}", root(kind, key(octets)))
            yield read(f"{label}-padded-{number}", root(kind, key(octets).replace(ski(octets), ski(octets) + b"=")),
                root(kind, key(octets)))
        for number, text in enumerate((b"", b"a b", b"&lt;&gt;&amp;&quot;&apos;")):
            yield read(f"{label}-named-{number}", root(kind, key(class_name=text)))
        for number, text in enumerate((
                b"", b"A" * 26, b"A" * 28, b"A" * 27 + b"==", b"A" * 26 + b"B", b"A" * 26 + b"B=", b" " + b"A" * 27, b"A" * 27 + b" ",
                b"/" * 26 + b"8",
                b"+" * 26 + b"8", b"A" * 13 + b"=" + b"A" * 13, b"A" * 29, KEY.hex().encode())):
            yield unread(f"{label}-no-key-{number}", root(kind, element(b"key", class_name=b"0", ski=text)))
        yield from numbered(f"no-{label}", unread, [root(kind, *inside) for inside in (
            [], [key(), key()], [key(), b"<a/>"], [b"a", key()], [key().replace(b"/>", b">a</key>")],
            [key().replace(b"/>", b"><a/></key>")],
            [key().replace(b"key", b"keys", 1)])])


def status_lines():
    """Refusals, and texts that are none."""
    refusing = lambda *inside: root(b"error_response", *inside)
    for number, (text, written) in enumerate((
            (b"1201", b"1201"), (b"+1201", b"1201"), (b"001201", b"1201"), (b"+0", b"0"), (b"0", b"0"), (b" \n1201\t", b"1201"),
            (b"7", b"7"),
            (b"18446744073709551615", b"18446744073709551615"), (b"12<!-- a -->01", b"1201"))):
        yield read(f"status-{number}", refusing(status(text)), refusing(status(written)))
    yield from numbered("no-status", unread, [refusing(status(text)) for text in (
        b"", b" ", b"+", b"-0", b"-1", b"++1", b"1 2", b"1.0", b"0x1", b"a", b"1a", b"18446744073709551616", b"99999999999999999999",
        b"<a/>", b"1<a/>")])
    for number, (text, written) in enumerate((
            (b"", b""), (b" \n", b""), (b"a", b"a"), (b" a b ", b"a b"), (b"&lt;&gt;&amp;", b"&lt;&gt;&amp;"), (b"&quot;&apos;", b"\"'"),
            (b"\"'", b"\"'"),
            (b"a\nb", b"a\nb"), (b"a<!-- b -->c", b"ac"))):
        yield read(f"description-{number}", refusing(status(b"1", text)), refusing(status(b"1", written)))
    attributes = refusing(b'<status a="b">1</status><description xml:lang="en-US" a="b">c</description>')
    yield read("status-with-attributes", attributes, refusing(status(b"1", b"c")))
    words = element(b"description", b"a")
    yield from numbered("no-refusal", unread, [refusing(*inside) for inside in (
        [], [words], [words, status(b"1")], [status(b"1"), status(b"2")], [status(b"1", b"a"), words], [status(b"1"), b"a"],
        [b"a", status(b"1")],
        [status(b"1"), b"<a/>"], [status(b"1", b"a"), b"<a/>"], [status(b"1", b"<a/>")], [status(b"1").replace(b"status", b"state")],
        [status(b"1", b"a").replace(b"description", b"descriptions")])])


# ---- what is compared, lent, handed out and copied


def class_variants(kind, first):
    """A message with a class, and others that differ from it in one part each."""
    made = lambda certificates=CERTIFICATES[:1], signing=None, **parts: root(kind,
        class_of(*certificates, issuer(*(signing or [])), **parts))
    yield made()
    for part in dict(class_name=b"1"), dict(url=THERE + b"2"), dict(asn=b"1"), dict(ipv4=b"11.0.0.0/8"), dict(ipv6=b"::/0"), dict(
            until=b"2023-11-14T22:18:21Z"), dict(signing=[FIRST_CERT]):
        yield made(**part)
    for other in (certificate(FIRST_CERT, HERE + b"2", ipv4=b"10.0.0.0/9"), certificate(SECOND_CERT, ipv4=b"10.0.0.0/9"),
        certificate(FIRST_CERT),
            certificate(FIRST_CERT, ipv4=b""), certificate(FIRST_CERT, ipv4=b"10.0.0.0/10"),
            certificate(FIRST_CERT, asn=b"", ipv4=b"10.0.0.0/9"),
            certificate(FIRST_CERT, ipv4=b"10.0.0.0/9", ipv6=b"")):
        yield made([other])
    if first:
        yield from (made(CERTIFICATES[:0]), made(CERTIFICATES), made(CERTIFICATES[::-1]), root(kind),
            root(kind, class_of(CERTIFICATES[0], issuer()), class_of(CERTIFICATES[0], issuer())))


def variants():
    """Of each kind a message, and others that differ from it in one part each."""
    yield b"list", [LIST]
    yield b"list_response", list(class_variants(b"list_response", True))
    yield b"issue", [root(b"issue", inside) for inside in (
        asked(ipv4=b"10.0.0.0/9"), asked(ipv4=b"10.0.0.0/9", class_name=b"1"), asked(), asked(ipv4=b""), asked(asn=b"", ipv4=b"10.0.0.0/9"),
        asked(ipv4=b"10.0.0.0/9", ipv6=b""), asked(OTHER_REQUEST, ipv4=b"10.0.0.0/9"),
        asked(request(options_of(spoilt=True)), ipv4=b"10.0.0.0/9"))]
    yield b"issue_response", list(class_variants(b"issue_response", False))
    for kind in b"revoke", b"revoke_response":
        yield kind, [root(kind, inside) for inside in (key(), key(class_name=b"1"), key(key_identifier(1, 2)), key(KEY[:-1] + b"\0"))]
    yield b"error_response", [root(b"error_response", inside) for inside in (
        status(b"1201", b"a"), status(b"1202", b"a"), status(b"1201", b"b"), status(b"1201", b""), status(b"1201"))]


def equality_lines():
    """Which messages are equal."""
    whole = dict(variants())
    for kind, texts in whole.items():
        label, is_asked = kind.decode(), kind == b"issue"
        same = lambda messages, said: (messages, said, *([said] if is_asked else []))
        first = texts[0]
        others = [step("equal", *same(False, False), argument=text) for text in texts[1:]]
        back = [line(f"equal-{label}-{number}", text, step("equal", *same(False, False), argument=first),
            step("equal", *same(True, True), argument=text))
            for number, text in enumerate(texts[1:])]
        parties = [first.replace(b"Carol", b"Dave"), first.replace(b"Bob", b"Dave"), first.replace(b"Carol", b"Carol2")]
        kinds = [step("equal", False, False, argument=other[0]) for name_, other in whole.items() if name_ != kind]
        yield line(f"equal-{label}", first, step("equal", *same(True, True), argument=first), *others,
            *[step("equal", *same(False, True), argument=text) for text in parties], *kinds)
        yield from back


PRINTED = {"asn": "asn: ", "ipv4": "ipv4: ", "ipv6": "ipv6: "}


def printed_limit(**limit):
    """A limit, as it is printed."""
    return " ".join(PRINTED[part] + text for part, text in limit.items()) or "none"


def key_fields(octets, class_name):
    """What is said of a key: name, octets and print."""
    return class_name, octets, f"class name '{class_name}' key '{octets.hex().upper()}'"


def part_lines():
    """The parts of messages by themselves."""
    first = HERE, printed_limit(ipv4="10.0.0.0/9"), FIRST_CERT
    second = HERE + b"2", printed_limit(asn="", ipv6="2001:db8::/33"), SECOND_CERT
    start, signing = ("0", "64496-64511", "10.0.0.0/8", "2001:db8::/32", MOMENT), (THERE, ISSUER)
    revoked = key_fields(KEY, "0")
    asking = "0", printed_limit(asn="64496", ipv6=""), REQUEST
    parts = {
        b"list": ([], [], []),
        b"list_response": ([*start, *first, *second, *signing, "a b", "", "", "", MOMENT, *signing], [], [True] * 9),
        b"issue": (asking, asking, [True] * 2), b"issue_response": ([*start, *first, *signing], first, [True] * 4),
        b"revoke": ([*revoked, True], revoked, [True] * 3), b"revoke_response": (revoked, [], [True] * 3),
        b"error_response": ([1201, "no < such class", "1201 - no < such class"], [], [True])}
    for kind, (lent, handed, copies) in parts.items():
        yield line(f"parts-of-{kind.decode()}", MESSAGES[kind], step("lent", "Carol", "Bob", kind, kind == b"list_response", *lent),
            step("handed", "Carol", "Bob", *handed), step("copies", True, *copies))
    yield line("parts-of-a-bare-error", root(b"error_response", status(b"7")),
        step("lent", "Carol", "Bob", "error_response", False, 7, "-", "7"),
        step("copies", True, True))
    yield line("parts-of-an-empty-description", root(b"error_response", status(b"7", b"")),
        step("lent", "Carol", "Bob", "error_response", False, 7, "", "7 - "))
    yield line("parts-of-no-class", root(b"list_response"), step("lent", "Carol", "Bob", "list_response", True), step("copies", True, True))
    none = [step(call, *NO_XML) for call in ("lent", "handed", "copies", "granted")]
    yield line("parts-of-none", b"<message/>", *none, step("issued", *NO_XML, argument="1"))
    yield line("parts-of-no-certificate", root(b"list_response", class_of(issuer(b""))), *[
        step(call, *NO_CERTIFICATE) for call in ("lent", "handed", "copies")])


def answer_lines():
    """What a class answers to a request for a key, and what grants a request to revoke."""
    first, second = CERTIFICATES
    again = certificate(FIRST_CERT, HERE + b"3")
    on_a_curve = certificate(certificate_of(key=("ec", key_bits(1, 1))))
    answered = lambda inside: root(b"issue_response", class_of(inside, issuer()))
    for number, (inside, answers) in enumerate((
            ([first], {1: first, 9: None, 2: None}), ([first, second], {1: first, 2: second, 9: None, 0: None}),
            ([second, first, again], {1: first, 2: second}), ([again, first], {1: again}), ([], {1: None, 0: None}),
            ([on_a_curve], {1: None}), ([on_a_curve, first], {1: first}))):
        yield line(f"issued-of-{number}", root(b"list_response", class_of(*inside, issuer()), class_of(class_name=b"1")), *[
            step("issued", NOTHING if answer is None else answered(answer), argument=str(key_)) for key_, answer in answers.items()])
    text, answer = (root(kind, class_of(certificate(ANCHOR), issuer(ANCHOR))) for kind in (b"list_response", b"issue_response"))
    yield line("issued-of-an-anchor", text, step("text", text), step("equal", True, True, argument=text),
        step("issued", answer, argument="0"), step("issued", NOTHING, argument="9"))
    for number, inside in enumerate((key(), key(bytes(20), b"a b"))):
        yield line(f"granted-{number}", root(b"revoke", inside), step("granted", root(b"revoke_response", inside)))


def fault_lines():
    """Sources and sinks that fail at each of their calls, and behind the last."""
    for label, text in ("list", LIST), ("issue", MESSAGES[b"issue"]):
        calls = -(-len(text) // 100)
        yield line(f"source-of-{label}", text, *[step("source", "refused", "Read", argument=str(call)) for call in range(calls + 1)],
            step("source", text, argument=str(calls + 1)))
        yield line(f"sink-of-{label}", text, *[step("sink", "refused", "Write", text[:100 * call],
            argument=str(call)) for call in range(calls)],
            step("sink", text, argument=str(calls)))
    yield line("source-of-none", b"", step("source", "refused", "Read", argument="0"), step("source", *NO_XML, argument="1"))


# ---- messages that calls put together


def made_lines():
    """Messages that calls put together."""
    first = certificate(FIRST_CERT, ipv4=b"10.0.0.0/9")
    whole = class_of(first, issuer())
    for label, octets, text, argument in (
            ("list", b"", LIST, None), ("list_response", FIRST_CERT, root(b"list_response", whole), ISSUER),
            ("issue", REQUEST, root(b"issue", asked(ipv4=b"10.0.0.0/9")), None),
            ("issue_response", FIRST_CERT, root(b"issue_response", whole), ISSUER),
            ("revoke", KEY, root(b"revoke", key()), None), ("revoke_response", KEY, root(b"revoke_response", key()), None),
            ("error", b"a < b", root(b"error_response", status(b"1204", b"a &lt; b")), None)):
        yield line(f"made-{label}", octets, step(f"made_{label}", True, text, argument=argument))
    answer = root(b"list_response", class_of(certificate(ANCHOR, ipv4=b"10.0.0.0/9"), issuer(ANCHOR)))
    yield line("made-list_response-of-an-anchor", ANCHOR, step("made_list_response", True, answer, argument=ANCHOR))
    yield line("made-error-without-words", b"\xff", step("made_error", True, root(b"error_response", status(b"18446744073709551615"))))
    yield line("made-error-with-spaces", b" a ", step("made_error", False, root(b"error_response", status(b"1204", b" a "))))
    yield line("made-error-in-letters", "é".encode(), step("made_error", *NO_XML, root(b"error_response", status(b"1204", "é".encode()))))
    spaced = root(b"list", sender=b"a b")
    yield line("made-spaced", b"", step("made_spaced", *NO_XML, spaced),
        step("created_spaced", *NO_XML, created(spaced, NOW), argument=f"{NOW}/0"))
    for n in 0, 1, 2:
        classes = [class_of(certificate(BARE_CERT, ipv4=b"10.0.0.0/9"), issuer(BARE_CERT))] * n
        yield line(f"made-of-{n}-classes", BARE_CERT, step("made_classes", True, root(b"list_response", *classes), argument=str(n)))


STATUSES = {
    1101: "already processing request", 1102: "version number error", 1103: "unrecognized request type",
    1104: "request scheduled for processing",
    1201: "request - no such resource class", 1202: "request - no resources allocated in resource class",
    1203: "request - badly formed certificate request", 1204: "request - already used key in request",
    1301: "revoke - no such resource class",
    1302: "revoke - no such key", 2001: "Internal Server Error - Request not performed"}


def word_lines():
    """Names, kinds, statuses and errors by themselves."""
    yield line("statuses", b"", *[step("status", number, text, f"{number} - {text}", True, argument=str(number)) for number,
        text in STATUSES.items()])
    yield line("kinds", b"", *[step("kind", kind, kind, argument=kind) for kind in KINDS],
        *[step("kind", "refused", *[f"Invalid payload type: {text}"] * 2, argument=text) for text in ("foo", "", "List", "list ",
        "issue-response", *("t" * n for n in SIZES))])
    yield line("content-type", b"", step("content_type", "application/rpki-updown"))
    yield line("errors", b"", step("errors", "Invalid protocol version, MUST be 1",
        *(why[1] for why in (NO_XML, NO_REQUEST, NO_CERTIFICATE, NO_CMS))))
    order = lambda a, b: "less" if a < b else "greater" if b < a else "equal"
    for a, b in itertools.product(("", "0", "00", "a b", "é", "z" * 300), repeat=2):
        a, b = a.encode(), b.encode()
        yield line(f"class-name-{a[:3].hex()}-{b[:3].hex()}", a, step("class_name", a, True, a == b, order(a, b), argument=b))
    yield line("class-numbers", b"", *[step("class_number", str(n), True, n == 0, order(str(n), "0"), argument=str(n)) for n in (
        0, 1, 9, 10, 127, 128, 255, 256, 65535, 65536, 4294967295)])


def limit_lines():
    """Limits, as they are printed and compared."""
    three = lambda *texts: "\n".join("-" if text is None else text for text in texts)
    limits_ = [(None, None, None), ("", None, None), ("64496", None, None), (None, "", None), (None, "10.0.0.0/9", None), (None, None, ""),
        (None, None, "2001:db8::/33"), ("", "", ""), ("64496-64500", "10.0.0.0/8", ""), ("64496", "10.0.0.0/9", "2001:db8::/33")]
    for number, limit in enumerate(limits_):
        stated = dict(zip(PRINTED, limit))
        shown = [*("-" if text is None else text for text in limit),
            printed_limit(**{part: text for part, text in stated.items() if text is not None}),
            limit == (None,) * 3, True]
        yield line(f"limit-by-itself-{number}", three(*limit).encode(), *[
            step("limit", *shown, limit == other, argument=three(*other)) for other in limits_])
    held = "64496-64511", "10.0.0.0/8", "2001:db8::/32"
    left = lambda limit, set_: tuple(own if stated is None else stated for stated, own in zip(limit, set_))
    for number, limit in enumerate(limits_):
        yield line(f"applied-{number}", three(*limit).encode(), step("applied", *left(limit, held), argument=three(*held)))
    for number, (limit, set_) in enumerate((
            ((None, "10.0.0.0/8", None), ("", "10.0.0.0/9", "")), (("1", None, None), ("", "10.0.0.0/8", "")),
            (("64495-64496", None, None), held), ((None, "11.0.0.0/32", None), held), ((None, None, "2001:db9::/32"), held),
            ((None, "0.0.0.0/0", None), held), (("64496", "10.0.0.0/8", "::/0"), held), (("64512", "10.0.0.0/8", "2001:db8::/32"), held))):
        stated = printed_limit(**{part: text for part, text in zip(PRINTED, limit) if text is not None})
        of_set = ", ".join(f"{part}: '{text}'" for part, text in zip(PRINTED, set_))
        yield line(f"not-applied-{number}", three(*limit).encode(),
            step("applied", "refused", f"Limit '{stated}' contains resources not held in set '{of_set}'",
                argument=three(*set_)))


# ---- signed messages


def failing(check):
    """What is answered where this check fails."""
    return "refused", f"CMS is not valid: check {check} failed"


def under(call, *fields, moment=NOW, keys=(0,)):
    """The step of a call at a moment under keys."""
    return step(call, *fields, argument="/".join(map(str, (moment, *keys))))


def whole(label, octets, content, written):
    """A line of a signed message that is read, checked and believed."""
    digest = hashlib.sha256(content).digest()
    return line(label, octets, step("decoded", content, written), step("signed", digest, True, written), step("message", written),
        under("checked", DONE), under("believed", 1, keys=(9, 0)))


def signed_lines():
    """Signed messages, and octets that are none."""
    for kind, text in MESSAGES.items():
        yield whole(f"signed-{kind.decode()}", message(content=text), text, text)
    spelled = b"<?xml version='1.0'?>\n<message type='list' sender='Carol' recipient='Bob' version='1'>\n</message>\n"
    yield whole("signed-otherwise", message(content=spelled), spelled, LIST)
    yield whole("signed-in-segments", message(content=LIST, outer=indefinite, content_string=segmented), LIST, LIST)
    yield whole("signed-before-others", message(content=LIST) + b"\0\xff", LIST, LIST)
    calls = "decoded", "signed", "message", "rewritten"
    for label, content, why in (
            ("nothing", b"", NO_XML), ("a-letter", b"a", NO_XML), ("a-query", b"<msg version='4' type='query'><list/></msg>", NO_XML),
            ("two", LIST + LIST, NO_XML), ("no-certificate", root(b"list_response", class_of(issuer(b""))), NO_CERTIFICATE),
            ("no-request", root(b"issue", asked(b"")), NO_REQUEST)):
        yield line(f"signed-{label}", message(content=content), *[step(call, *why) for call in calls], under("checked", *why),
            under("believed", *why),
            under("created", *NO_XML))
    yield line("signed-elsewhere", bytes.fromhex(CONTENT_A), step("decoded", *NO_XML))
    good = message(content=LIST)
    for label, octets in (
            ("text", LIST), ("empty", b""), ("cut", good[:-1]), ("two-signers", message(content=LIST, signers=lambda x: x + x)),
            ("broken", b"\x31" + good[1:])):
        yield line(f"no-envelope-{label}", octets, *[step(call, *NO_CMS) for call in calls], under("checked", *NO_CMS),
            under("believed", *NO_CMS))
    yield from checked_lines(good)
    yield from rewritten_lines()


def checked_lines(good):
    """Signed messages at moments, under keys, and with each check broken."""
    for moment, *answer in ((FIRST - 1, *failing(5)), (FIRST, DONE), (LAST, DONE), (LAST + 1, *failing(5))):
        yield line(f"at-{moment}", good, under("checked", *answer, moment=moment),
            under("believed", *([1] if answer == [DONE] else answer), moment=moment, keys=(9, 0)))
    for check, options in BREAKS.items():
        octets = message(**{"content": LIST, **options})
        yield line(f"check-{check}", octets, under("checked", *failing(check)), under("believed", *failing(check)))
    yield line("under-keys", good, under("checked", *failing(6), keys=(9,)), under("believed", 0, keys=(0, 9)),
        under("believed", *failing(6), keys=(9, 8)),
        under("believed", 7, keys=[9] * 7 + [0]), under("believed", 1, keys=(9, 0, 0)),
        under("believed", *failing(5), moment=LAST + 1, keys=(9, 0)))


def rewritten_lines():
    """What is written again of a signed message: the content in one string, the envelope in DER, what was signed as it was."""
    in_ber = lambda octets: indefinite(0x33, printable(octets[:7]) + indefinite(0x33, printable(octets[7:])))
    many = lambda xs: [indefinite(0x30, x[2:]) for x in xs]
    spelled = dict(outer=indefinite, content_string=segmented, attributes_tag=indefinite)
    for label, held in (
            ("in-der", {}), ("with-attributes-in-ber", dict(attributes=many)), ("with-a-certificate-in-ber", dict(tbs_length=overlong)),
            ("with-a-name-in-ber", dict(subject_text=in_ber))):
        for kind in b"list", b"issue":
            text = MESSAGES[kind]
            again = message(content=text, **held)
            yield line(f"rewritten-{kind.decode()}-{label}", message(content=text, **held, **spelled), step("rewritten", again),
                step("decoded", text, text))
            yield line(f"rewritten-again-{kind.decode()}-{label}", again + b"\0", step("rewritten", again), under("checked", DONE))


def created_lines():
    """Signed messages that the toy signer makes."""
    for kind, text in MESSAGES.items():
        yield line(f"created-{kind.decode()}", text, under("created", True, created(text, NOW)))
    for moment in 300, 2524607900, 253402300499:
        yield line(f"created-at-{moment}", LIST, under("created", True, created(LIST, moment), moment=moment))
    for moment in -1, 0, 299, 253402300500:
        yield line(f"not-created-at-{moment}", LIST, under("created", "refused", "Moment", moment=moment))
    yield line("not-created-under-no-key", LIST, under("created", "refused", "key not found", keys=(1,)))


# ---- sizes


def of_length(n):
    """A message whose text has n octets."""
    if n < 300:
        return root(b"list", sender=b"s" * (n - len(root(b"list", sender=b""))))
    return root(b"error_response", status(b"1", b"d" * (n - len(root(b"error_response",
        status(b"1", b""))) - len("<description></description>") + len(
        "<description/>"))))


def spelled_line(label, given, written=None):
    """A text that is written as the other one, or as it stands, both in terms of tools/cases/stored_cases.py."""
    return f"{label} ber {given} text={written or given}"


def size_lines():
    """Parts of the sizes where a length or a count takes one octet more."""
    for n in SIZES:
        text = of_length(n)
        assert len(text) == n
        yield line(f"content-of-{n}", text, step("text", text), under("created", True, created(text, NOW)))
        yield whole(f"signed-content-of-{n}", message(content=text), text, text)
        words = b"w" * n
        yield read(f"description-of-{n}", root(b"error_response", status(b"1", words)))
        yield read(f"spaced-description-of-{n}", root(b"error_response", status(b"1", b" " * n + b"a" + b"\n" * n)), root(b"error_response",
            status(b"1", b"a")))
        for kind, inside in (
                (b"list_response", class_of(class_name=words)), (b"issue", asked(class_name=words)), (b"revoke", key(class_name=words))):
            yield read(f"{kind.decode()}-named-by-{n}", root(kind, inside))
        octets = certificate_of(key=("rsa", b"k" * n))
        yield read(f"certificate-with-a-key-of-{n}", root(b"list_response", class_of(certificate(octets), issuer(octets))))
        octets = request(options_of(key=("rsa", b"k" * n)))
        yield line(f"request-with-a-key-of-{n}", root(b"issue", asked(octets)), step("text", root(b"issue", asked(octets))))
        place = b"rsync://localhost/repo/".ljust(n, b"u")
        found = root(b"list_response", class_of(certificate(BARE_CERT, place), issuer(BARE_CERT), url=place))
        yield read(f"certificates-at-{n}", found) if n <= 65535 else unread(f"certificates-at-{n}", found)
        yield from count_lines(n)


def count_lines(n):
    """So many classes, certificates and runs in sets; items that make one run. Many classes take seconds, so that there are not 65535. Runs
    have to differ, so that the texts of the longest sets are long: two are of AS numbers, one of IPv4 addresses."""
    bare_class = class_of(issuer(BARE_CERT), class_name=b"", url=b"rsync://h/m/", asn=b"", ipv4=b"", ipv6=b"")
    if n != 65535:
        yield spelled_line(f"{n}-classes", within(root(b"list_response", bare_class), bare_class, repeated(bare_class, n)))
    bare = certificate(BARE_CERT, b"rsync://h/m/")
    yield spelled_line(f"{n}-certificates", within(root(b"list_response", class_of(bare, issuer(BARE_CERT))), bare, repeated(bare, n)))
    numbers = ",".join(singles("as", n))
    for label, whole_ in (("set", root(b"list_response", class_of(asn=b"#"))), ("limit", root(b"issue", asked(asn=b"#")))):
        if label == "set" or n < 1000:
            yield spelled_line(f"{n}-runs-in-a-{label}", within(whole_, b"#", "'" + numbers))
        one = within(whole_, b"#", terms(b"7"))
        yield spelled_line(f"{n}-items-in-a-{label}", within(whole_, b"#", repeated(b"7,", n - 1), terms(b"7")), one)
    if n < 1000:
        for kind, texts in ("ipv4", [f"10.0.{2 * i // 256}.{2 * i % 256}/32" for i in range(n)]), ("ipv6", [
                f"2001:db8:{2 * i + 1:x}::/48" for i in range(n)]):
            yield read(f"{n}-runs-of-{kind}", root(b"list_response", class_of(**{kind: ",".join(texts).encode()})))
    elif n == 65536:
        whole_, addresses = root(b"list_response", class_of(ipv4=b"#")), ",".join(singles("ipv4", n))
        yield spelled_line(f"{n}-runs-of-ipv4", within(whole_, b"#", "'" + addresses),
            within(whole_, b"#", "'" + printed("ipv4", addresses)))


def lines():
    """All lines."""
    for part in (root_lines, class_lines, set_lines, time_lines, certificate_lines, request_lines, key_lines, status_lines,
        equality_lines, part_lines,
            answer_lines, fault_lines, made_lines, word_lines, limit_lines, signed_lines, created_lines, size_lines):
        yield from part()


if __name__ == "__main__":
    write("test_provisioning", lines())
