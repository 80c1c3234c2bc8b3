"""What is asked of signed messages, certificates and requests, read from their octets; its text, its octets, its digest, and answers.

tools/cases/answer_cases.py and tools/cases/anchor_cases.py write cases with it. Questions are a question under a key of its own or None,
parts that are asked under each of the keys, and the keys, in hexadecimal: each question and part begins with its name.
"""

import datetime
import hashlib
import pathlib
import subprocess
import tempfile

import signed_messages as messages
from rsa_messages import values

# ---- the parts of a message of definite lengths, in the places in which RFC 5652, 5.1 has them


def inner(octets_of_value):
    """The contents of the one value that octets are."""
    (_, contents), = values(octets_of_value)
    return contents


def header_of(tag, contents):
    """A value put together again."""
    return messages.value(tag, contents)


def signed_parts(octets_of_value):
    """What is signed of a certificate, a CRL or a request, and the signature."""
    (tag, tbs), _, (_, signature) = values(inner(octets_of_value))
    return header_of(tag, tbs), signature[1:]


def parts_of(message):
    """What the signatures cover, and these: of the attributes, with the certificate's key; of the certificate; of each CRL."""
    (_, _), (_, held) = values(inner(message))
    _, _, _, (_, certificate), (_, lists), (_, signers) = values(inner(held))
    fields = values(inner(signers))
    attributes = key_of(certificate), header_of(0x31, fields[3][1]), fields[5][1]
    return attributes, signed_parts(certificate), [signed_parts(header_of(*crl)) for crl in values(lists)]


def key_of(certificate):
    """The key of a certificate (RFC 5280, 4.1)."""
    return header_of(*values(values(inner(certificate))[0][1])[6])


def moment_of(tag, text):
    """The seconds since 1970 of a UTCTime, whose years are from 1950 to 2049, or a GeneralizedTime."""
    century = {0x17: b"20" if text < b"50" else b"19", 0x18: b""}[tag]
    said = datetime.datetime.strptime((century + text).decode(), "%Y%m%d%H%M%SZ")
    return (said - messages.EPOCH) // datetime.timedelta(seconds=1)


def behind_header(octets, at):
    """Where the contents of the value at a place begin, and how long they are; of an indefinite length 0."""
    count = octets[at + 1] & 0x7F if octets[at + 1] & 0x80 else 0
    begin = at + 2 + count
    return begin, int.from_bytes(octets[at + 2:begin], "big") if count or octets[at + 1] == 0x80 else octets[at + 1]


def end_of(octets, at):
    """Where the value at a place ends, in BER; past the end of the octets where it is none."""
    if at + 2 > len(octets):
        return len(octets) + 1
    begin, size = behind_header(octets, at)
    while octets[at + 1] == 0x80 and octets[begin:begin + 2] != b"\0\0" and begin <= len(octets):
        begin = end_of(octets, begin)
    return begin + (2 if octets[at + 1] == 0x80 else size)


def values_in(octets):
    """Tag and contents octets of each value, in BER."""
    at = 0
    while at < len(octets):
        begin, _ = behind_header(octets, at)
        end = end_of(octets, at)
        yield octets[at], octets[begin:end - 2 if octets[at + 1] == 0x80 else end]
        at = end


def within(octets, *tags):
    """The contents of the last value with the first tag, and in it of the last with the next, and so on."""
    for tag in tags:
        octets = [contents for found, contents in values_in(octets) if found == tag][-1]
    return octets


def signing_time(message):
    """The seconds since 1970 of the attribute signingTime, or None (RFC 5652, 11.3), of a message in BER with anything behind it."""
    whole = message[:end_of(message, 0)]
    # ContentInfo, content, SignedData, signerInfos, SignerInfo, signedAttrs: RFC 5652, 3, 5.1 and 5.3.
    for _, attribute in values_in(within(whole, 0x30, 0xA0, 0x30, 0x31, 0x30, 0xA0)):
        (_, identifier), *held = values_in(attribute)
        if identifier == messages.SIGNING_TIME[2:]:
            (tag, text), = values_in(held[0][1])
            return moment_of(tag, text)
    return None


# ---- questions


def of_message(message, *keys):
    """The questions of a message under these keys."""
    (key, signed, signature), certificate, lists = parts_of(message)
    parts = [("certificate", *certificate), *(("crl", *crl) for crl in lists)]
    return ("attributes", key, signed, signature), parts, keys


def of_anchor(certificate, names_itself):
    """Its own signature, where its authority key identifier is there and its subject's."""
    own = ("anchor", key_of(certificate), *signed_parts(certificate)) if names_itself else None
    return own, [], ()


def of_request(request):
    """Its signature under the key that it names (RFC 2986, 4.1)."""
    key = header_of(*values(values(inner(request))[0][1])[2])
    return ("request", key, *signed_parts(request)), [], ()


def listed(questions):
    """Name, key, octets and signature of each question."""
    own, parts, keys = questions
    yield from [own] if own else []
    for key in keys:
        for name, octets, signature in parts:
            yield name, bytes.fromhex(key), octets, signature


def text_of(questions):
    """A line each: of the own question name, key, octets and signature; of a part the same with a hyphen for the key; of a key."""
    own, parts, keys = questions
    lines = [(own[0], *(field.hex() for field in own[1:]))] if own else []
    lines += [(name, "-", octets.hex(), signature.hex()) for name, octets, signature in parts]
    lines += [("key", key) for key in keys]
    return "".join(" ".join(line) + "\n" for line in lines).encode()


TAGS = {"attributes": 1, "certificate": 2, "crl": 3, "anchor": 4, "request": 5}
SIGNATURE, OWN_KEY, KEY = 16, 17, 18


def record(tag, octets):
    """A tag octet, the number of octets behind it, in eight octets with the most significant first, and these."""
    return bytes([tag]) + len(octets).to_bytes(8, "big") + octets


def octets_of(questions):
    """Records: of the own question key, octets and signature; of each part octets and signature; of each key itself."""
    own, parts, keys = questions
    records = []
    if own:
        name, key, octets, signature = own
        records += [(OWN_KEY, key), (TAGS[name], octets), (SIGNATURE, signature)]
    for name, octets, signature in parts:
        records += [(TAGS[name], octets), (SIGNATURE, signature)]
    records += [(KEY, bytes.fromhex(key)) for key in keys]
    return b"".join(record(tag, octets) for tag, octets in records)


def digest_of(questions):
    """The digest of questions."""
    return hashlib.sha256(octets_of(questions)).hexdigest()


def asked_lines(questions):
    """What the program writes of them, without the last line feed."""
    return text_of(questions) + f"digest {digest_of(questions)}".encode()


# ---- answers


def openssl_says(questions):
    """A digit for each question, as OpenSSL answers it."""
    digits = ""
    with tempfile.TemporaryDirectory() as folder:
        for _, key, signed, signature in listed(questions):
            pathlib.Path(folder, "key").write_bytes(key)
            pathlib.Path(folder, "signature").write_bytes(signature)
            words = ["openssl", "dgst", "-sha256", "-keyform", "DER", "-verify", "key", "-signature", "signature"]
            ended = subprocess.run(words, cwd=folder, input=signed, capture_output=True)
            assert ended.stdout in (b"Verified OK\n", b"Verification failure\n") or b"error" in ended.stderr, ended
            digits += "1" if ended.returncode == 0 else "0"
    return digits


def toy_says(questions):
    """A digit for each question, as the toy scheme answers it."""
    bits = ((values(inner(key))[1][1][1:], octets, signature) for _, key, octets, signature in listed(questions))
    return "".join("1" if hashlib.sha256(held + octets).digest() == signature else "0" for held, octets, signature in bits)


def shown(questions, digits):
    """The text and its digest; and of each question its name, and what answers say of it: those to the first question that asks the same,
    where there are so many, and no signature of another algorithm."""
    asked = list(listed(questions))
    said = []
    for name, *rest in asked:
        place = next(place for place, (_, *other) in enumerate(asked) if other == rest)
        said += [name.encode(), b"10" if digits[place:place + 1] == "1" and is_rsa(rest[0]) else b"00"]
    return text_of(questions), bytes.fromhex(digest_of(questions)), *said


def is_rsa(key):
    """Whether a key is an RSA key."""
    return values(values(inner(key))[0][1])[0] == (6, messages.RSA[2:])
