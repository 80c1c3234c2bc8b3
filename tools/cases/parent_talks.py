"""Messages of the child and what a parent answers to them by its model, for tools/cases/line_cases.py: each row of the tables and what
stays behind it, calls of the signers that fail, and several classes. A row is its name, what stands behind the program's name, the lines
and the answers to them, and the status.
"""

import hashlib

from certificate_cases import key_of
from parent_model import BASE, BOB, CAROL, Child, Class, Parent, request_of, standard_class
from provisioning_cases import asked, key as key_element, status as status_element
from request_cases import options_of, request
from signed_messages import CALLS, key_identifier
from stored_cases import SIZES

RUNS = {
    b"10.0.0.0/9": (0x0A000000, 0x0A7FFFFF), b"11.0.0.0/8": (0x0B000000, 0x0BFFFFFF), b"10.0.0.0/7": (0x0A000000, 0x0BFFFFFF),
    b"1-10": (1, 10), b"0-10": (0, 10), b"5": (5, 5), b"2001:db8::/33": (0x20010DB8 << 96, (0x20010DB8 << 96 | 1 << 95) - 1),
    b"2001:db9::/32": (0x20010DB9 << 96, (0x20010DBA << 96) - 1)}


class Talk:
    """A talk of a child with a parent."""

    def __init__(self, **options):
        self.child, self.parent, self.sent, self.answers = Child(), Parent(**options), [], []

    def ask(self, kind, *inside, decide, **parties):
        """Sends a message, and notes what the parent decides to answer."""
        self.sent.append(self.child.send(kind, *inside, **parties))
        decided = self.parent.refused(2001) if parties else decide()
        self.answers.append(self.parent.reply(*decided))
        return self

    def list(self, **parties):
        """Asks for the classes."""
        return self.ask(b"list", decide=self.parent.answer_list, **parties)

    def issue(self, label=b"0", key=0, spoilt=False, **limit):
        """Asks for a certificate."""
        sets = {kind: [RUNS[text]] if text else [] for kind, text in limit.items()}
        return self.ask(b"issue", asked(request_of(key, spoilt=spoilt), class_name=label, **limit),
            decide=lambda: self.parent.answer_issue(label, key, limit, sets, not spoilt))

    def revoke(self, label=b"0", key=0):
        """Asks to revoke a key."""
        identifier = key_identifier(1, key)
        return self.ask(b"revoke", key_element(identifier, label), decide=lambda: self.parent.answer_revoke(label, identifier))

    def other(self, kind, *inside):
        """Sends a message of a kind that no child sends."""
        return self.ask(kind, *inside, decide=lambda: self.parent.refused(1103))


def talks():
    """With the program's parent."""
    yield "list", Talk().list()
    for name, parties in (("sender", dict(sender=BOB)), ("recipient", dict(recipient=CAROL)),
            ("sender-in-lower-case", dict(sender=b"carol"))):
        yield f"another-{name}", Talk().list(**parties).list()
    yield "issue-limit-and-revoke-twice", Talk().issue(ipv4=b"10.0.0.0/9").issue(ipv4=b"11.0.0.0/8").revoke().revoke()
    yield "another-class", Talk().issue(b"1").revoke(b"1")
    yield "request-of-another-key", Talk().issue(spoilt=True).issue(spoilt=True, ipv4=b"11.0.0.0/8").list()
    yield "certificates-in-their-places", (Talk().issue(asn=b"5").issue(key=1).issue(ipv6=b"2001:db8::/33").list()
        .revoke(key=1).issue(key=1).list())
    yield "limits", (Talk().issue(asn=b"0-10").issue(ipv4=b"10.0.0.0/7").issue(ipv6=b"2001:db9::/32")
        .issue(asn=b"5", ipv4=b"10.0.0.0/9", ipv6=b"2001:db8::/33").issue(asn=b"", ipv4=b"", ipv6=b""))
    yield "answers-in-place-of-questions", (Talk().other(b"list_response")
        .other(b"revoke_response", key_element(key_identifier(1, 0), b"0")).other(b"error_response", status_element(b"1201")))


def classes():
    """Two classes as the program's, and an empty one."""
    return [standard_class(b"0"), standard_class(b"1"), Class(b"2", dict(asn=b"", ipv4=b"", ipv6=b""), dict(asn=[], ipv4=[], ipv6=[]))]


def of_classes(**options):
    """A talk with a parent of several classes."""
    return Talk(classes=classes(), **options)


def talks_of_classes():
    """With a parent of several classes."""
    yield "classes-in-order", of_classes().list()
    yield "no-resources", of_classes().issue(b"2").issue(b"2", spoilt=True)
    yield "keys-of-other-classes", (of_classes().issue(b"0", ipv4=b"10.0.0.0/9").issue(b"1", ipv4=b"11.0.0.0/8").issue(b"1", key=1)
        .revoke(b"1").revoke(b"0").issue(b"1").issue(b"0", ipv4=b"11.0.0.0/8").list())


def program_rows():
    """Rows of the program: each talk, and replies with each call of the signer failing."""
    for name, talk in talks():
        yield name, "", talk.sent, talk.answers, 0
    # The calls behind the first one, of each reply: sign_one_off, get_key_info, sign, rand, get_key_info, sign.
    for call in range(1, CALLS + 2):
        talk = Talk().issue().list() if call > CALLS else Talk().issue()
        yield f"replies-call-{call}-failing", f",s{call}", talk.sent, [*talk.answers[:(call - 1) // CALLS], "Signer"], 7
    # Behind those for its own certificate, of an issuer: rand, get_key_info and sign for a certificate, and get_key_info to revoke.
    for call in 3, 6:
        talk = Talk(failing_issuer=(call,)).issue(ipv4=b"10.0.0.0/9").revoke().list()
        yield f"issuer-call-{call}-failing", f",i{call}", talk.sent, talk.answers, 0


def done(parent):
    """What the issuer did."""
    for label, identifier, resources in parent.made:
        yield f"made {label.decode()} {identifier.hex().upper()} {resources} 2524607999"
    for label, identifier in parent.gone:
        yield f"gone {label.decode()} {identifier.hex().upper()}"
    yield f"faults {parent.faults}"


def rows_of_classes():
    """The answers, then what the issuer did, and then what the child is told of each class."""
    def row(name, behind, talk):
        told = [text.decode() for text in talk.parent.told()]
        return name, behind, talk.sent, [*talk.answers, *done(talk.parent), *told], 0

    for name, talk in talks_of_classes():
        yield row(name, "", talk)
    # A reply that couldn't be made was decided: what it was to say is done.
    for call in 1, 4, 6:
        yield row(f"replies-call-{call}-failing", f",s{call}", of_classes(failing=(call,)).issue().list())
    yield row("revocation-unsent", f",s{CALLS + 1}", of_classes(failing=(CALLS + 1,)).issue().revoke().revoke())
    for call in 3, 4, 5:
        yield row(f"issuer-call-{call}-failing", f",i{call}", of_classes(failing_issuer=(call,)).issue(b"1").list())
    yield row("revocation-failing", ",i6", of_classes(failing_issuer=(6,)).issue(b"1").revoke(b"1").list())


# ---- an issuer and a class by themselves


def issuer_row(name, *asked_for, failing=()):
    """What an issuer answers, and what it did; a number is a key of seed 1, and other keys are a format and bits."""
    parent, behind = Parent(failing_issuer=failing), "".join(f",i{call}" for call in failing)
    sent, answers = [], []
    for call, label, key in asked_for:
        identifier = hashlib.sha1(key_of(key)[1]).digest()
        if call == "issue":
            sent.append(f"issue {label} {request(options_of(key=key)).hex()}")
            octets = parent.issue(label.encode(), key, standard_class().left({}))
            answers.append("Failed" if octets is None else octets.hex())
        else:
            sent.append(f"revoke {label} {identifier.hex()}")
            answers.append("Failed" if parent.revoke(label.encode(), identifier) is None else "revoked")
    return name, behind, sent, [*answers, *done(parent)], 0


def issuer_rows():
    """It keeps no table: it revokes what it never issued, and issues again."""
    yield issuer_row("issues", ("issue", "0", 0), ("issue", "0", 0), ("issue", "1", 7))
    yield issuer_row("revokes", ("revoke", "0", 3), ("issue", "0", 3), ("revoke", "1", 3))
    yield issuer_row("does-nothing")
    for call in range(3, 8):
        yield issuer_row(f"call-{call}-failing", ("issue", "0", 0), ("revoke", "0", 0), ("issue", "0", 1), failing=(call,))
    for n in SIZES:
        yield issuer_row(f"key-of-{n}", ("issue", "0", ("rsa", b"k" * n)), ("revoke", "0", ("rsa", b"k" * n)))
        yield issuer_row(f"class-name-of-{n}", ("issue", "n" * n, 0), ("revoke", "n" * n, 0))


def class_row(name, label, base, key=0, asn="1-10"):
    """Where a key's certificate is published, and what is told of a new class."""
    identifier, held = key_identifier(1, key), standard_class(label.encode())
    held.texts["asn"] = asn.encode()
    answers = [base + identifier.hex().upper() + ".cer", *(text.decode() for text in Parent(classes=[held]).told())]
    return name, (label, base, asn), identifier.hex(), answers


def rows_of_class():
    """Rows of what a child is told of one class."""
    here = BASE.decode()
    yield class_row("new", "0", here)
    yield class_row("of-another-key", "a b", "rsync://h/m/", 9)
    for n in SIZES:
        yield class_row(f"name-of-{n}", "n" * n, here)
    for n in (127, 128, 255, 256, 65000):
        yield class_row(f"directory-of-{n}", "0", here + "b" * (n - len(here) - 1) + "/")
    for n in 127, 128, 255, 256, 10000:
        yield class_row(f"{n}-numbers", "0", here, asn=",".join(str(2 * number) for number in range(n)))
