"""A device that holds the key: SoftHSM, through pkcs11-tool (Debian: softhsm2, opensc). Skipped where they aren't there."""

from __future__ import annotations

import pathlib
import shlex
import shutil
import subprocess

import pytest
from launcher import LIST, run
from support import EXAMPLES, openssl, request_shown

import calmizsed
from calmizsed import Kind, anchor, files, publication, request
from calmizsed.errors import SigningError
from calmizsed.keys import CommandKey

PIN = "1234"
MODULES = [path for path in map(pathlib.Path, (
    "/usr/lib/softhsm/libsofthsm2.so", "/usr/lib/x86_64-linux-gnu/softhsm/libsofthsm2.so", "/usr/lib64/pkcs11/libsofthsm2.so"))
    if path.exists()]
IS_THERE = bool(MODULES and shutil.which("softhsm2-util") and shutil.which("pkcs11-tool"))


@pytest.fixture
def device(tmp_path: pathlib.Path, monkeypatch: pytest.MonkeyPatch) -> CommandKey:
    """A key that a new token draws; the PIN is in the environment, and in no word of the command."""
    if not IS_THERE:
        pytest.skip("there is no softhsm2 or no opensc")
    (tmp_path / "tokens").mkdir()
    (tmp_path / "softhsm2.conf").write_text(f"directories.tokendir = {tmp_path}/tokens\nobjectstore.backend = file\n")
    monkeypatch.setenv("SOFTHSM2_CONF", str(tmp_path / "softhsm2.conf"))
    monkeypatch.setenv("PIN", PIN)
    tool = ["pkcs11-tool", "--module", str(MODULES[0]), "--token-label", "test", "--login", "--pin", "env:PIN"]
    public = tmp_path / "public.der"
    for words in (
            ["softhsm2-util", "--init-token", "--free", "--label", "test", "--so-pin", PIN, "--pin", PIN],
            [*tool, "--keypairgen", "--key-type", "rsa:2048", "--id", "01"],
            [*tool, "--read-object", "--type", "pubkey", "--id", "01", "-o", str(public)]):
        subprocess.run(words, check=True, stdout=subprocess.DEVNULL, stderr=subprocess.DEVNULL)
    command = " ".join([*tool, "--sign", "--mechanism", "SHA256-RSA-PKCS", "--id", "01"])
    return CommandKey.of(files.load_public_key(public.read_bytes()), command)


def test_a_device_signs(device: CommandKey) -> None:
    """A message, an anchor and a request, which OpenSSL reads."""
    now, query = calmizsed.now(), publication.ListQuery().to_xml()
    message = calmizsed.create(Kind.PUBLICATION, query, device, now)
    assert openssl("cms", "-verify", "-noverify", "-inform", "DER", data=message).decode() == query
    assert calmizsed.receive(Kind.PUBLICATION, message, [device.public_key], now).text == query
    assert anchor.public_key(anchor.create(device, now, now)) == device.public_key
    made = request.create(device, "rsync://localhost/ca/", "rsync://localhost/ca/ca.mft")
    assert "rsync://localhost/ca/ca.mft" in request_shown(made)
    assert request.verify(made) == device.public_key


def test_the_command_has_a_device_sign(device: CommandKey, tmp_path: pathlib.Path) -> None:
    """Its words are those of the help, with a module and a token."""
    (tmp_path / "key").write_bytes(device.public_key)
    signer = "--public-key", tmp_path / "key", "--sign-command", shlex.join(device.command)
    made = run("create", "publication", EXAMPLES / "query-list.xml", *signer)
    assert (made.status, made.said) == (0, "")
    assert run("receive", "publication", "-", "--key", tmp_path / "key", "-q", data=made.out) == (0, LIST, "")
    certificate = run("anchor", "new", *signer, "--form", "pem").out
    pem = openssl("x509", "-noout", "-pubkey", data=certificate)
    assert openssl("pkey", "-pubin", "-outform", "DER", data=pem) == device.public_key


def test_a_device_by_another_mechanism(device: CommandKey) -> None:
    """What it signs so doesn't hold, and isn't used."""
    other = CommandKey(device.public_key, [word.replace("SHA256-RSA-PKCS", "SHA256-RSA-PKCS-PSS") for word in device.command])
    assert len(other.sign(b"octets")) == 256
    with pytest.raises(SigningError) as raised:
        calmizsed.create(Kind.PUBLICATION, publication.ListQuery().to_xml(), other, calmizsed.now())
    assert raised.value.name == "WrongSignature"
