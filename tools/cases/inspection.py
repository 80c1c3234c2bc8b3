"""What is in a signed message of definite lengths, as a JSON text: read from its octets here (RFC 5280, 4.1 and 5.1; RFC 5652, 5.1 and
5.3).

tools/cases/answer_cases.py writes cases with it.
"""

import hashlib
import json

import signed_messages as messages
from questions import header_of, inner, moment_of
from rsa_messages import values

NAMES = {messages.RSA: "rsaEncryption", messages.RSA_SHA256: "sha256WithRSAEncryption"}
FORMATS = {messages.RSA: "RSA", messages.oid("1.2.840.10045.2.1"): "ECDSA P-256"}


def number_of(tag, contents):
    """An INTEGER's contents in hexadecimal, without zeros in front."""
    digits = f"{int.from_bytes(contents, 'big'):x}"
    return digits.zfill(len(digits) + len(digits) % 2)


def algorithm_of(tag, contents):
    """The name of an algorithm, and whether it has NULL."""
    name, *parameters = values(contents)
    assert parameters in ([], [(5, b"")]), parameters
    return {"algorithm": NAMES[header_of(*name)], "parameters": "NULL" if parameters else "absent"}


def extensions_of(tag, contents):
    """What each extension holds, by its object identifier."""
    parts = (values(extension) for _, extension in values(inner(contents)))
    return {header_of(*name): held[-1][1] for name, *held in parts}


def authority_of(extensions):
    """The first of the fields of authorityKeyIdentifier."""
    held = extensions.get(messages.AUTHORITY_KEY)
    return held and values(inner(held))[0][1].hex()


def authority_flag(extensions):
    """What the basic constraints say of cA; None where there are none."""
    held = extensions.get(messages.BASIC_CONSTRAINTS)
    return held and (1, b"\xff") in values(inner(held))


def modulus_length(key):
    """How many octets the modulus of an RSA key has, if the octets are a SEQUENCE of two INTEGERs."""
    try:
        (tag, inside), = values(key)
        (first, modulus), (second, _) = values(inside)
    except (AssertionError, IndexError, ValueError):
        return None
    return len(modulus.lstrip(b"\0")) if (tag, first, second) == (0x30, 2, 2) else None


def certificate_inspected(certificate):
    """What is shown of a certificate."""
    _, number, _, _, (_, validity), _, (_, key), extensions = values(values(inner(certificate))[0][1])
    extensions = extensions_of(*extensions)
    algorithm, (_, bit_string) = values(key)
    return {
        "authority_key_identifier": authority_of(extensions), "ca": authority_flag(extensions),
        "key_algorithm": FORMATS[header_of(*values(algorithm[1])[0])], "length": len(certificate),
        "modulus_length": modulus_length(bit_string[1:]),
        "not_before": moment_of(*values(validity)[0]), "not_after": moment_of(*values(validity)[1]),
        "serial_number": number_of(*number), "sha256": hashlib.sha256(certificate).hexdigest(),
        "subject_key_identifier": inner(extensions[messages.SUBJECT_KEY]).hex(), "subject_public_key_length": len(bit_string) - 1}


def crl_inspected(tag, crl):
    """What is shown of a CRL."""
    (_, tbs), algorithm, _ = values(crl)
    _, inside, _, this_update, next_update, *entries, extensions = values(tbs)
    extensions = extensions_of(*extensions)
    number = extensions.get(messages.CRL_NUMBER)
    return {
        "authority_key_identifier": authority_of(extensions), "crl_number": number and number_of(*values(number)[0]),
        "entries": len(values(entries[0][1])) if entries else 0, "signature_algorithm": algorithm_of(*algorithm),
        "tbs_algorithm": algorithm_of(*inside), "this_update": moment_of(*this_update), "next_update": moment_of(*next_update)}


def inspected(message):
    """The JSON text of what is in a message of definite lengths, read from its octets here."""
    (_, _), (_, held) = values(inner(message))
    _, _, (_, content), (_, certificate), (_, lists), (_, signers) = values(inner(held))
    content_type, (_, string) = values(content)
    assert header_of(*content_type) == messages.XML
    _, (_, signer), _, (_, attributes), algorithm, (_, signature) = values(inner(signers))
    said = {header_of(*values(held)[0]): values(values(held)[1][1])[0] for _, held in values(attributes)}
    signed_at = said.get(messages.SIGNING_TIME)
    text = {
        "certificate": certificate_inspected(certificate), "content_length": len(inner(string)),
        "content_sha256": hashlib.sha256(inner(string)).hexdigest(), "content_type": "1.2.840.113549.1.9.16.1.28",
        "crls": [crl_inspected(*crl) for crl in values(lists)], "message_digest": said[messages.MESSAGE_DIGEST][1].hex(),
        "signature_algorithm": algorithm_of(*algorithm), "signature_length": len(signature),
        "signer_identifier": signer.hex(), "signing_time": signed_at and moment_of(*signed_at)}
    return json.dumps(text, sort_keys=True, separators=(",", ":")).encode()
