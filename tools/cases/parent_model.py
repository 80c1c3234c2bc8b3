"""A model of a parent with a toy issuer, for tools/cases/line_cases.py: what it answers to messages of its child, by the tables of RFC
6492, 3.3 to 3.6, and by the toy scheme. It shares nothing with the programs under test.
"""

import base64
import hashlib

from certificate_cases import TRUE, authority_key, constraints, key_of, spelled_key, subject_key
from provisioning_cases import element, limits, root, ski, status
from request_cases import info, options_of, request
from signed_messages import (
    ALGORITHM, COMMON_NAME, bits, drawn_serial, integer, key_bits, key_identifier, message, name, printable, seq, sign,
    time, value,
)

CAROL, BOB = b"Carol", b"Bob"
UNTIL, LAST_SECOND = b"2049-12-31T23:59:59Z", 2524607999
BASE = b"rsync://localhost/repo/"
ISSUER_SEED = 3
REASONS = {
    1103: b"unrecognized request type", 1201: b"request - no such resource class",
    1202: b"request - no resources allocated in resource class", 1203: b"request - badly formed certificate request",
    1204: b"request - already used key in request", 1301: b"revoke - no such resource class", 1302: b"revoke - no such key",
    2001: b"Internal Server Error - Request not performed"}


# ---- signers


class Fault(Exception):
    """A call of the signer that failed."""

    pass


class Signer:
    """A toy signer: its calls are counted from 0, of which the failing ones fail; it draws numbers in turn."""

    def __init__(self, seed, failing=()):
        self.seed, self.failing, self.calls, self.next = seed, failing, 0, 0
        self.draw()

    def call(self):
        """Counts a call, which fails if it is one of those."""
        self.calls += 1
        if self.calls - 1 in self.failing:
            raise Fault

    def draw(self):
        """The number that is drawn next."""
        self.call()
        self.next += 1
        return self.next - 1

    def serial(self):
        """A serial number that is drawn."""
        return drawn_serial(self.seed, self.draw())


def signed(content, moment, signer):
    """A message with this content: signed under a key for one use, then certified."""
    once = signer.draw()
    signer.call()
    signer.call()
    serial = signer.serial()
    signer.call()
    signer.call()
    window = moment - 300, moment + 300
    return message(content=content, seed=signer.seed, ee=once, serial=serial, signed_at=moment, validity=window, updates=window,
        crl_number=moment * 1000)


def own_certificate(issuer, key, subject, serial, validity, extensions):
    """A certificate that the toy key 0 of this seed signs."""
    tbs = seq(value(0xA0, integer(2)), integer(serial), ALGORITHM, name(issuer, 0), seq(*map(time, validity)), subject, key,
        value(0xA3, seq(*extensions)))
    return seq(tbs, ALGORITHM, bits(sign(issuer, 0, tbs)))


def certified(signer, key):
    """The certificate for a key of an issuer with this signer, which is asked three times."""
    serial = signer.serial()
    signer.call()
    signer.call()
    identifier = hashlib.sha1(key_of(key)[1]).digest()
    subject = seq(value(0x31, seq(COMMON_NAME, printable(identifier.hex().upper().encode()))))
    return own_certificate(signer.seed, spelled_key(key), subject, serial, (0, LAST_SECOND),
        [subject_key(identifier), authority_key(value(0x80, key_identifier(signer.seed, 0)))])


# ---- requests


def request_of(key=0, **options):
    """The request of an authority for the key with this number of seed 1, signed under it unless options say otherwise."""
    o = options_of(key=key, subject=name(1, key), **options)
    if o.signature is None:
        o.signature = sign(1, key, info(o), o.spoilt)
    return request(o)


# ---- the parent


class Class:
    """A class: its resources, as the attributes say them, and as sets of pairs of first and last numbers."""

    def __init__(self, label, texts, sets):
        self.label, self.texts, self.sets, self.issued, self.revoked = label, texts, sets, {}, []

    def left(self, limit):
        """What a limit leaves of the resources, as it is printed."""
        texts = {**self.texts, **limit}
        return ", ".join(f"{kind}: '{texts[kind].decode()}'" for kind in ("asn", "ipv4", "ipv6"))

    def has(self, limit):
        """Whether the class has all that a limit names."""
        return all(any(first <= a and b <= last for first, last in self.sets[kind])
            for kind, runs in limit.items() for a, b in runs)


def octets_of(address):
    """The first and the last address of a prefix of IPv4, as numbers."""
    first, _, size = address.partition("/")
    number = int.from_bytes(bytes(map(int, first.split("."))), "big")
    return number, number + (1 << 32 - int(size)) - 1


def standard_class(label=b"0"):
    """The class with which the program begins, under this name."""
    return Class(label, dict(asn=b"1-10", ipv4=b"10.0.0.0/8", ipv6=b"2001:db8::/32"), dict(
        asn=[(1, 10)], ipv4=[octets_of("10.0.0.0/8")], ipv6=[(0x20010DB8 << 96, (0x20010DB9 << 96) - 1)]))


class Parent:
    """A parent of Carol, whose messages are checked before they come here, with an issuer of seed 3."""

    def __init__(self, classes=None, failing=(), failing_issuer=(), moment=1700000000):
        self.classes = [standard_class()] if classes is None else classes
        self.replies, self.issuer = Signer(1, failing), Signer(ISSUER_SEED, failing_issuer)
        self.moment, self.made, self.gone, self.faults = moment, [], [], 0
        self.issuer.call()
        self.issuer.call()
        self.anchor = own_certificate(ISSUER_SEED, spelled_key(("rsa", key_bits(ISSUER_SEED, 0))), name(ISSUER_SEED, 0), 1,
            (0, 253402300799), [anchor_constraints(), subject_key(key_identifier(ISSUER_SEED, 0))])

    def class_element(self, c, issued):
        """The element of a class, with what was issued in it."""
        texts = {f"resource_set_{ {'asn': 'as'}.get(kind, kind) }": text for kind, text in c.texts.items()}
        certificates = [element(b"certificate", base64.b64encode(octets), cert_url=url, **limit)
            for url, limit, octets in issued]
        return element(b"class", *certificates, element(b"issuer", base64.b64encode(self.anchor)), class_name=c.label,
            cert_url=BASE + b"ta.cer", **texts, resource_set_notafter=UNTIL)

    def named(self, label):
        """The class of this name, if there is one."""
        return next((c for c in self.classes if c.label == label), None)

    # What is answered: the kind of the reply and what stands in it.

    def refused(self, number):
        """The answer that refuses, with the reason of this number."""
        return b"error_response", status(str(number).encode(), REASONS[number])

    def answer_list(self):
        """The answer to a question for the classes."""
        return b"list_response", *(self.class_element(c, c.issued.values()) for c in self.classes)

    def told(self):
        """The classes, each alone in the list that says what the child is told of it."""
        return [root(b"list_response", self.class_element(c, c.issued.values()), sender=BOB, recipient=CAROL) for c in self.classes]

    # What the issuer does: None where it fails.

    def issue(self, label, key, resources):
        """Has the issuer make a certificate; None where it fails."""
        try:
            octets = certified(self.issuer, key)
        except Fault:
            self.faults += 1
            return None
        self.made.append((label, hashlib.sha1(key_of(key)[1]).digest(), resources))
        return octets

    def revoke(self, label, identifier):
        """Has the issuer revoke a key; None where it fails."""
        try:
            self.issuer.call()
        except Fault:
            self.faults += 1
            return None
        self.gone.append((label, identifier))
        return identifier

    def answer_issue(self, label, key, limit, limit_sets, holds):
        """The answer to a request for a certificate."""
        c = self.named(label)
        identifier = key_identifier(1, key)
        if c is None:
            return self.refused(1201)
        if not any(c.sets.values()):
            return self.refused(1202)
        if not holds:
            return self.refused(1203)
        if any(identifier in other.revoked for other in self.classes):
            return self.refused(1204)
        if any(identifier in other.issued for other in self.classes if other is not c):
            return self.refused(1204)
        if not c.has(limit_sets):
            return self.refused(1202)
        octets = self.issue(label, key, c.left(limit))
        if octets is None:
            return self.refused(2001)
        c.issued[identifier] = BASE + identifier.hex().upper().encode() + b".cer", limits(**limit), octets
        return b"issue_response", self.class_element(c, [c.issued[identifier]])

    def answer_revoke(self, label, identifier):
        """The answer to a request to revoke."""
        c = self.named(label)
        if c is None:
            return self.refused(1301)
        if identifier not in c.issued:
            return self.refused(1302)
        if self.revoke(label, identifier) is None:
            return self.refused(2001)
        del c.issued[identifier]
        c.revoked.append(identifier)
        return b"revoke_response", element(b"key", class_name=label, ski=ski(identifier))

    def reply(self, kind, *inside):
        """The signed reply, in hexadecimal; or that it couldn't be made."""
        text = root(kind, *inside, sender=BOB, recipient=CAROL)
        try:
            return signed(text, self.moment, self.replies).hex()
        except Fault:
            return "Unsent toy fault"


def anchor_constraints():
    """The basic constraints of an authority."""
    return constraints(TRUE)


# ---- messages of the child


class Child:
    """Carol, who signs with seed 1 as each signer does that is new."""

    def __init__(self, moment=1700000000):
        self.moment = moment

    def send(self, kind, *inside, sender=CAROL, recipient=BOB):
        """A signed message of the child, in hexadecimal."""
        text = root(kind, *inside, sender=sender, recipient=recipient)
        return signed(text, self.moment, Signer(1)).hex()
