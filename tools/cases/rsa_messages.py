#!/usr/bin/env python3
"""Makes signed messages with RSA keys of 2048 bits by the `openssl` command, and writes them and their keys:
crates/test_external/data/messages.txt, and examples/rsa-query.der, rsa-query.hex, rsa-issuer-public.pem and rsa-key.hex. Of a key of its
own it makes examples/rsa-child-request.xml, with the certificate of a trust anchor, rsa-request.hex, a certificate request, and
rsa-issue.xml, an issue request with that.

    tools/cases/rsa_messages.py

It shows how the stored messages were made, with OpenSSL 3.0.19, and isn't part of the gate: keys are drawn anew each time, and so
are the messages. Certificates and CRLs are those of `openssl ca`, messages those of `openssl cms -sign`. That has no word for CRLs,
and names the signature's algorithm rsaEncryption; neither is signed, so the script puts in the CRLs, and the other name. The trust
anchor's certificate is that of `openssl req -x509`, which has ten years and names its own key as its issuer's; the request is that of
`openssl req -new`.

A line of messages.txt is `NAME KIND MOMENT KEY OTHER-KEY MESSAGE`: the protocol; a moment in seconds since 1970, at which certificate
and CRLs are valid; the issuer's key and another in DER; and the message; the last three in hexadecimal. Behind it stands the text.
"""

import base64
import pathlib
import subprocess
import tempfile
import time

from signed_messages import RSA, RSA_SHA256, seq, value

ROOT = pathlib.Path(__file__).resolve().parents[2]
FOLDER = ROOT / "crates" / "test_external" / "data"
EXAMPLES = ROOT / "examples"
CONTENT_TYPE = "1.2.840.113549.1.9.16.1.28"

PUBLICATION = 'xmlns="http://www.hactrn.net/uris/rpki/publication-spec/" version="4"'
PROVISIONING = 'xmlns="http://www.apnic.net/specs/rescerts/up-down/" version="1"'
LIST = f'<msg {PUBLICATION} type="query"><list/></msg>'
DELTA = (
    f'<msg {PUBLICATION} type="query"><publish tag="first" uri="rsync://localhost/ca/f1.txt">YQ==</publish>'
    '<withdraw tag="second" uri="rsync://localhost/ca/f2.txt"'
    ' hash="3e23e8160039594a33894f6564e1b1348bbd7a0088d42c4acb73eeaed59c009d"/></msg>')
CLASSES = f'<message {PROVISIONING} sender="child" recipient="parent" type="list"/>'

CHILD_REQUEST = (
    '<child_request xmlns="http://www.hactrn.net/uris/rpki/rpki-setup/" version="1" child_handle="Carol"><child_bpki_ta>\n'
    "{}</child_bpki_ta></child_request>\n")
ISSUE = f'<message {PROVISIONING} sender="child" recipient="parent" type="issue"><request class_name="all">\n{{}}</request></message>\n'

CONFIG = """
[ca]
default_ca = bpki
[bpki]
database = index.txt
serial = serial
crlnumber = crlnumber
new_certs_dir = .
certificate = anchor.crt
private_key = anchor.pem
default_md = sha256
policy = any
x509_extensions = entity
crl_extensions = list
[any]
commonName = supplied
[entity]
subjectKeyIdentifier = hash
authorityKeyIdentifier = keyid:always
[list]
authorityKeyIdentifier = keyid:always
[req]
distinguished_name = none
x509_extensions = anchor
[none]
[anchor]
basicConstraints = critical, CA:TRUE
subjectKeyIdentifier = hash
"""

OF_CHILD = """
[req]
distinguished_name = none
x509_extensions = anchor
req_extensions = authority
[none]
[anchor]
subjectKeyIdentifier = hash
authorityKeyIdentifier = keyid:always
basicConstraints = critical, CA:TRUE
[authority]
basicConstraints = critical, CA:TRUE
keyUsage = critical, keyCertSign, cRLSign
subjectInfoAccess = caRepository;URI:rsync://localhost/repo/carol/, \\
    1.3.6.1.5.5.7.48.10;URI:rsync://localhost/repo/carol/ca.mft, 1.3.6.1.5.5.7.48.13;URI:https://localhost/notify.xml
"""


def openssl(folder, *words, data=None):
    """What the command writes, run in a folder."""
    return subprocess.run(["openssl", *words], cwd=folder, input=data, capture_output=True, check=True).stdout


def spelled(moment):
    """A moment as OpenSSL's options spell it."""
    return time.strftime("%Y%m%d%H%M%SZ", time.gmtime(moment))


def key_of(folder, name):
    """A new key: its public part in DER."""
    openssl(folder, "genpkey", "-algorithm", "RSA", "-pkeyopt", "rsa_keygen_bits:2048", "-out", f"{name}.pem")
    return openssl(folder, "pkey", "-in", f"{name}.pem", "-pubout", "-outform", "DER")


def authority(folder, moment):
    """An authority, and an entity's certificate for the time around the moment: the authority's key."""
    (folder / "ca.cnf").write_text(CONFIG)
    (folder / "index.txt").write_text("")
    (folder / "serial").write_text("1f2e3d4c5b6a79880123456789abcdef\n")
    (folder / "crlnumber").write_text("0a\n")
    key = key_of(folder, "anchor")
    key_of(folder, "entity")
    openssl(folder, "req", "-x509", "-new", "-config", "ca.cnf", "-key", "anchor.pem", "-subj", "/CN=anchor", "-out", "anchor.crt")
    for name in "entity", "revoked":
        openssl(folder, "req", "-new", "-config", "ca.cnf", "-key", "entity.pem", "-subj", f"/CN={name}", "-out", f"{name}.csr")
        openssl(folder, "ca", "-batch", "-config", "ca.cnf", "-notext", "-in", f"{name}.csr", "-out", f"{name}.crt",
                "-startdate", spelled(moment - 300), "-enddate", spelled(moment + 300))
    return key


def list_of(folder, moment):
    """A CRL of the authority, in DER."""
    made = openssl(folder, "ca", "-gencrl", "-config", "ca.cnf",
                   "-crl_lastupdate", spelled(moment - 300), "-crl_nextupdate", spelled(moment + 300))
    return openssl(folder, "crl", "-outform", "DER", data=made)


def values(octets):
    """The values that stand in octets one behind the other, of definite length: header and contents of each."""
    at, found = 0, []
    while at < len(octets):
        count = octets[at + 1] & 0x7F if octets[at + 1] & 0x80 else 0
        size = int.from_bytes(octets[at + 2:at + 2 + count], "big") if count else octets[at + 1]
        begin = at + 2 + count
        found.append((octets[at], octets[begin:begin + size]))
        at = begin + size
    assert at == len(octets)
    return found


def joined(parts):
    """Values put together again, one behind the other."""
    return b"".join(value(tag, contents) for tag, contents in parts)


def with_lists(message, lists, named):
    """The message with CRLs behind its certificate, and with another name of the signature's algorithm."""
    (_, envelope), = values(message)
    kind, (_, held) = values(envelope)
    (_, data), = values(held)
    version, digests, content, certificates, (_, signers) = values(data)
    (_, signer), = values(signers)
    fields = values(signer)
    assert fields[4] == (0x30, RSA + b"\5\0")
    fields[4] = 0x30, named + b"\5\0"
    data = joined([version, digests, content, certificates, (0xA1, b"".join(lists)), (0x31, value(0x30, joined(fields)))])
    return value(0x30, joined([kind, (0xA0, seq(data))]))


def signed(folder, text):
    """The text in a message, without CRLs."""
    (folder / "content").write_text(text)
    return openssl(folder, "cms", "-sign", "-binary", "-nodetach", "-in", "content", "-signer", "entity.crt", "-inkey", "entity.pem",
                   "-md", "sha256", "-keyid", "-nosmimecap", "-econtent_type", CONTENT_TYPE, "-outform", "DER")


def made(folder, name, kind, text, named=RSA, second=False):
    """A message that OpenSSL signs: the line of data/messages.txt."""
    moment = int(time.time())
    key = authority(folder, moment)
    other = key_of(folder, "other")
    lists = [list_of(folder, moment)]
    if second:
        openssl(folder, "ca", "-config", "ca.cnf", "-revoke", "revoked.crt")
        lists.append(list_of(folder, moment))
    return name, kind, moment, key, other, with_lists(signed(folder, text), lists, named), text


def examples(moment, key, message):
    """The first message and its key, which README shows."""
    (EXAMPLES / "rsa-query.der").write_bytes(message)
    (EXAMPLES / "rsa-query.hex").write_text(message.hex() + "\n")
    (EXAMPLES / "rsa-key.hex").write_text(key.hex() + "\n")
    lines = base64.encodebytes(key).decode().replace("\n", "")
    lines = "\n".join(lines[at:at + 64] for at in range(0, len(lines), 64))
    (EXAMPLES / "rsa-issuer-public.pem").write_text(f"-----BEGIN PUBLIC KEY-----\n{lines}\n-----END PUBLIC KEY-----\n")
    print(f"examples/rsa-query.der is valid at {moment}")


def child(folder):
    """A child's setup message, request and issue request, which the help of rpkikeys shows."""
    (folder / "child.cnf").write_text(OF_CHILD)
    key_of(folder, "child")
    words = "-new", "-config", "child.cnf", "-key", "child.pem", "-subj", "/CN=Carol", "-outform", "DER"
    anchor = openssl(folder, "req", "-x509", *words, "-days", "3650")
    request = openssl(folder, "req", *words)
    (EXAMPLES / "rsa-child-request.xml").write_text(CHILD_REQUEST.format(base64.encodebytes(anchor).decode()))
    (EXAMPLES / "rsa-request.hex").write_text(request.hex() + "\n")
    (EXAMPLES / "rsa-issue.xml").write_text(ISSUE.format(base64.encodebytes(request).decode()))


def main():
    """Makes all messages, and writes them and the examples."""
    with tempfile.TemporaryDirectory() as folder:
        child(pathlib.Path(folder))
    wanted = (
        ("list", "publication", LIST, RSA, False),
        ("delta", "publication", DELTA, RSA_SHA256, True),
        ("classes", "provisioning", CLASSES, RSA, False))
    lines = []
    for place, row in enumerate(wanted):
        with tempfile.TemporaryDirectory() as folder:
            name, kind, moment, key, other, message, text = made(pathlib.Path(folder), *row[:3], *row[3:])
        if place == 0:
            examples(moment, key, message)
        lines.append(f"{name} {kind} {moment} {key.hex()} {other.hex()} {message.hex()} {text}\n")
    FOLDER.mkdir(exist_ok=True)
    (FOLDER / "messages.txt").write_text("".join(lines))


if __name__ == "__main__":
    main()
