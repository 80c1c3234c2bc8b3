"""Cases of crates/test_external: errors, parts and refusals, as they are printed and shown, and what they are passed on as.

tools/cases/answer_cases.py writes them with its own.
"""

from answer_lines import of_call

# The lists of which the program under test prints a table: as thiserror prints them, and as Rust's derived Debug shows them.
SHOWN_CHECK = b"ValidationError { kind: Verification, check: 8 }"
APART, NUMBER, MEMORY = b"the answers are to other questions", b"not as many answers as questions", b"out of memory"
PRINTED = {
    "parts": (b"attributes Attributes", b"certificate Certificate", b"crl Crl", b"anchor Anchor", b"request Request"),
    "answers": (APART + b" OtherQuestions", NUMBER + b" Number", MEMORY + b" OutOfMemory"),
    "answered": (
        APART + b" OtherQuestions", NUMBER + b" Number", b"Could not decode CMS Receive(CmsDecode)",
        b"CMS is not valid: check 8 failed Receive(Validation(" + SHOWN_CHECK + b"))", MEMORY + b" Receive(OutOfMemory)",
        b"the message has no signing time NoTime",
        b"the message is not signed later than the last one Replayed { last: Time { seconds: 1700000000 }, seen: Time { seconds: 0 } }"),
    "prepare": (
        b"the moment has no window Moment", b"content, key or signature too long TooLong", b"a key is no RSA key IncompatibleKey",
        b"the one-off key is the issuing key KeyReused", b"the URI with its slash is unlawful Uri(TooLong)", MEMORY + b" OutOfMemory"),
    "verify": (
        APART + b" OtherQuestions", NUMBER + b" Number", b"check 8 failed Validation(" + SHOWN_CHECK + b")",
        b"the signature does not hold Signature", MEMORY + b" OutOfMemory"),
    "setup": (
        b"malformed XML XmlError", b"the certificate is malformed InvalidTaCertEncoding", NUMBER + b" Verify(Number)",
        MEMORY + b" OutOfMemory")}

# What errors are passed on as: want of memory; errors of URIs and of decoding; those of answers, of receipt and of verification; those of
# verification, of setup messages.
PASSED_ON = b" ".join((
    b"OutOfMemory", b"Uri(TooLong) OutOfMemory", b"Receive(CmsDecode) Receive(OutOfMemory)",
    b"OtherQuestions OtherQuestions Number Number Receive(OutOfMemory) OutOfMemory",
    b"Verify(OtherQuestions) Verify(Number) Verify(Validation(" + SHOWN_CHECK + b")) Verify(Signature) OutOfMemory"))
PASSED_ON_ALONE = b"OutOfMemory Receive(OutOfMemory) OutOfMemory Validation(" + SHOWN_CHECK + b") Signature OutOfMemory"

# The refusals of docs/PROGRAMS.md, with their statuses; and those that the errors of the lists above are.
REFUSALS = (
    (b"Hex", 3), (b"OutOfMemory", 12), (b"OtherQuestions", 14), (b"Signature", 6), (b"NoTime", 15),
    (b"Replayed 253402300799 0", 15))
REFUSED_AS = (
    b"Moment", b"TooLong", b"IncompatibleKey", b"KeyReused", b"Usage", b"OutOfMemory",
    b"OtherQuestions", b"Usage", b"CmsDecode", b"Validation 8", b"OutOfMemory", b"NoTime", b"Replayed 1700000000 0",
    b"OtherQuestions", b"Usage", b"InvalidTaCert", b"Signature", b"OutOfMemory",
    b"XmlError", b"InvalidTaCertEncoding", b"Usage", b"OutOfMemory")


def rows():
    """All rows of this script."""
    yield of_call("printed", "passed-on", ("passed-on",), b"", PASSED_ON)
    yield of_call("printed", "passed-on-alone", ("passed-on-alone",), b"", PASSED_ON_ALONE)
    yield of_call("printed", "refused-as", ("refused-as",), b"", *REFUSED_AS)
    yield of_call("printed", "refusals", ("refusals",), b"", *(b"%b %d %b\n" % (name, status, name) for name, status in REFUSALS))
    for label, listed_texts in PRINTED.items():
        yield of_call("printed", label, (label,), b"", *listed_texts)
    for label, listed_texts in *PRINTED.items(), ("refusals", REFUSALS):
        count = len(listed_texts)
        alone = ("0" * place + "1" + "0" * (count - place - 1) for place in range(count))
        yield of_call("printed", f"equal-{label}", (f"equal-{label}",), b"", *(digits.encode() for digits in alone))
