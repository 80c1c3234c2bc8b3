"""The command, run as an operator runs it: by the launcher at the top, through pipes and with files."""

from __future__ import annotations

import base64
import datetime
import json
import os
import pathlib
import re
import shutil
import subprocess
import sys

import pytest
from launcher import AT_SIGNED, CHILD_REQUEST, KEY, LAUNCHER, LIST, PLACES, QUERY, Ended, Word, run
from support import EXAMPLES, SIGNED_AT, TREE, Keys, openssl, request_shown

import calmizsed
from calmizsed import _library, provisioning


def test_receive_writes_the_text() -> None:
    """And says under which key, and when it was signed."""
    ended = run("receive", "publication", QUERY, "--key", KEY, "--at", AT_SIGNED)
    assert (ended.status, ended.out) == (0, LIST)
    assert ended.said == f"calmizsed: accepted under {KEY}; signed at {AT_SIGNED}\n"
    assert run("receive", "publication", QUERY, "--key", KEY, "--at", SIGNED_AT, "-q") == (0, LIST, "")


@pytest.mark.parametrize("form", ["der", "hexadecimal", "base64", "pem", "lines", "colons"])
def test_forms_of_a_message_on_standard_input(form: str) -> None:
    """Told apart by their first octets."""
    der = QUERY.read_bytes()
    spelled = {
        "der": der,
        "hexadecimal": (EXAMPLES / "rsa-query.hex").read_bytes(),
        "base64": base64.encodebytes(der),
        "pem": openssl("cms", "-cmsout", "-inform", "DER", "-outform", "PEM", data=der),
        "lines": b"\n".join(der.hex().upper()[at:at + 64].encode() for at in range(0, 2 * len(der), 64)),
        "colons": der.hex(":").encode(),
    }
    assert run("receive", "publication", "-", "--key", KEY, "--at", SIGNED_AT, "-q", data=spelled[form]) == (0, LIST, "")


@pytest.mark.parametrize("form", ["pem", "der", "hexadecimal", "base64", "certificate", "certificate in PEM", "setup message", "PKCS #1"])
def test_forms_of_a_key(keys: Keys, tmp_path: pathlib.Path, form: str) -> None:
    """A key, a certificate of OpenSSL's, or a setup message with it."""
    made = run("create", "publication", EXAMPLES / "query-list.xml", "--key", keys.private("2048"))
    der = keys.der("2048")
    certificate = openssl("req", "-x509", "-key", keys.private("2048"), "-subj", "/CN=Carol", "-days", "2", "-outform", "DER")
    (tmp_path / "anchor.der").write_bytes(certificate)
    spelled = {
        "pem": keys.public("2048").read_bytes(),
        "der": der,
        "hexadecimal": der.hex().encode(),
        "base64": base64.b64encode(der),
        "certificate": certificate,
        "certificate in PEM": openssl("x509", "-inform", "DER", data=certificate),
        "setup message": run("setup", "child-request", "--handle", "Carol", "--anchor", tmp_path / "anchor.der").out,
        "PKCS #1": openssl("rsa", "-pubin", "-in", keys.public("2048"), "-RSAPublicKey_out"),
    }
    (tmp_path / "key").write_bytes(spelled[form])
    (tmp_path / "message").write_bytes(made.out)
    assert run("receive", "publication", tmp_path / "message", "--key", tmp_path / "key", "-q") == (0, LIST, "")


def test_times_of_other_zones() -> None:
    """RFC 3339."""
    for word in ("2026-11-29T06:42:30.75+02:00", "2026-11-29 04:42:30z", "2026-11-28t23:42:30-05:00"):
        assert run("receive", "publication", QUERY, "--key", KEY, "--at", word, "-q").status == 0
    for word in ("2026-11-29T04:42:30", "2026-13-29T04:42:30Z", "yesterday", "253402300800", "0001-01-01T00:00:00+23:00"):
        ended = run("receive", "publication", QUERY, "--key", KEY, "--at", word)
        assert (ended.status, ended.out) == (2, b"") and "no time as" in ended.said


def test_refusals_are_in_words_with_the_status(keys: Keys) -> None:
    """On standard error; and as JSON, where it is asked for."""
    common = "receive", "publication", QUERY, "--key", KEY
    ended = run(*common, "--at", SIGNED_AT + 10**6)
    said = "calmizsed: Validation 5: the moment is outside of the certificate's validity\n"
    assert ended == (6, b"", said)
    ended = run(*common, "--at", SIGNED_AT + 10**6, "--json")
    assert (ended.status, ended.said) == (6, said)
    assert json.loads(ended.out)["check"] == 5 and json.loads(ended.out)["name"] == "Validation 5"
    ended = run(*common, "--at", SIGNED_AT, "--after", AT_SIGNED)
    assert ended.status == 15 and f"Replayed {SIGNED_AT} {SIGNED_AT}" in ended.said
    assert run("receive", "provisioning", QUERY, "--key", KEY, "--at", SIGNED_AT).status == 5
    assert run("receive", "publication", QUERY, "--key", keys.public("2048"), "--at", SIGNED_AT).status == 6
    assert run("receive", "publication", "-", "--key", KEY, data=b"\x30\x80").status == 4


def test_what_can_not_be_is_refused_clearly(keys: Keys, tmp_path: pathlib.Path) -> None:
    """Files that aren't there, or hold something else."""
    (tmp_path / "empty").write_bytes(b"")
    (tmp_path / "folder").mkdir()
    receive: tuple[Word, ...] = "receive", "publication"
    create: tuple[Word, ...] = "create", "publication", EXAMPLES / "query-list.xml"
    refused: list[tuple[tuple[Word, ...], str]] = [
            ((*receive, tmp_path / "none", "--key", KEY), "NoFile"),
            ((*receive, tmp_path / "empty", "--key", KEY), "EmptyFile"),
            ((*receive, tmp_path / "folder", "--key", KEY), "EmptyFile"),
            ((*receive, QUERY, "--key", tmp_path / "folder"), "NoFile"),
            (("inspect", tmp_path / "folder"), "NoFile"),
            ((*receive, QUERY, "--key", QUERY), "NoKey"),
            ((*receive, QUERY, "--key", keys.private("2048")), "NoKey"),
            ((*create, "--key", keys.public("2048")), "NoKey"),
            ((*create, "--key", keys.private("encrypted")), "EncryptedKey"),
            ((*create, "--public-key", keys.public("2048"), "--sign-command", "'"), "SignCommand")]
    for words, name in refused:
        ended = run(*words)
        assert (ended.status, ended.out) == (2, b"") and ended.said.startswith(f"calmizsed: {name}: "), ended
    wrong: list[tuple[Word, ...]] = [
        create, (*create, "--key", KEY, "--public-key", KEY), (*create, "--public-key", KEY), (*create, "--sign-command", "true"),
        (*create, "--public-key", KEY, "--sign-command", "true", "--passphrase-file", KEY), ("none",), (),
        ("anchor", "new", "--key", KEY, "--days", "0"), ("anchor", "new", "--key", KEY, "--days", "9999999")]
    for words in wrong:
        ended = run(*words)
        assert (ended.status, ended.out) == (2, b"") and "usage: calmizsed" in ended.said
    ended = run("inspect", tmp_path / "folder")
    assert ended.said == f"calmizsed: NoFile: {tmp_path}/folder: a folder, where a file is wanted\n"
    ended = run(*create, "--key", keys.private("curve"))
    assert (ended.status, ended.out) == (7, b"") and ended.said.startswith("calmizsed: IncompatibleKey: ")
    ended = run(*receive, QUERY, "--key", KEY, CALMIZSED_LIBRARY=str(tmp_path / "none"))
    assert ended.status == 1 and ended.said.startswith("calmizsed: NoLibrary: ")


@pytest.mark.skipif(shutil.which("cc") is None, reason="there is no cc")
def test_libraries_that_can_not_be_used(tmp_path: pathlib.Path) -> None:
    """One of another version, one that lacks a call, a file that is none."""
    version = (
        '#include <calmizsed.h>\n#include <string.h>\n'
        'int32_t calmizsed_version(uint8_t *out, size_t length, struct calmizsed_outcome *outcome) {\n'
        '    memset(outcome, 0, sizeof *outcome);\n    outcome->written = 5;\n    memcpy(out, "7.5.0", length < 5 ? length : 5);\n'
        '    return 0;\n}\n')
    others = "".join(f"int calmizsed_{name}(void) {{ return 2; }}\n" for name in _library.CALLS if name != "version")
    (tmp_path / "version.c").write_text(version)
    (tmp_path / "others.c").write_text(others)
    (tmp_path / "text.so").write_text("no library")
    build = ["cc", "-shared", "-fPIC", f"-I{TREE / 'include'}", "-o"]
    for name, sources in (("other.so", ["version.c", "others.c"]), ("part.so", ["version.c"])):
        subprocess.run([*build, name, *sources], cwd=tmp_path, check=True)
    for name, refused, said in (
            ("other.so", "OtherLibrary", f"has version 7.5.0, and this package is for {calmizsed.__version__}"),
            ("part.so", "OtherLibrary", "has no call calmizsed_"), ("text.so", "NoLibrary", "can't be loaded")):
        ended = run("inspect", QUERY, CALMIZSED_LIBRARY=str(tmp_path / name))
        assert (ended.status, ended.out) == (1, b"") and ended.said.startswith(f"calmizsed: {refused}: ") and said in ended.said


def test_create(keys: Keys, tmp_path: pathlib.Path) -> None:
    """By a key's file, encrypted or not, or by a command, in each form; OpenSSL reads it."""
    text, made = EXAMPLES / "query-list.xml", tmp_path / "made"
    (tmp_path / "passphrase").write_text("open sesame\n")
    signers: list[tuple[Word, ...]] = [
            ("--key", keys.private("2048")), ("--key", keys.private("encrypted"), "--passphrase-file", tmp_path / "passphrase"),
            ("--public-key", keys.public("2048"), "--sign-command", f"openssl dgst -sha256 -sign '{keys.private('2048')}'")]
    for words in signers:
        assert run("create", "publication", text, *words, "-o", made) == (0, b"", "")
        assert openssl("cms", "-verify", "-noverify", "-inform", "DER", data=made.read_bytes()) == LIST.rstrip(b"\n")
    for form in ("pem", "base64", "hexadecimal"):
        message = run("create", "publication", "-", "--key", keys.private("4096"), "--form", form, data=LIST).out
        assert run("receive", "publication", "-", "--key", keys.public("4096"), "-q", data=message) == (0, LIST, "")
    assert run("create", "provisioning", text, "--key", keys.private("2048")).status == 5
    assert run("create", "publication", text, "--key", keys.private("2048"), "--at", "299").status == 8
    assert run("create", "publication", text, "--key", keys.private("1024")).status == 7
    message = run("create", "publication", text, "--key", keys.private("1024"), "--short-keys").out
    under_short = "receive", "publication", "-", "--key", keys.public("1024"), "-q"
    assert (run(*under_short, data=message).status, run(*under_short, "--short-keys", data=message)) == (6, (0, LIST, ""))
    assert run("create", "publication", text, "--key", keys.private("curve")).said.startswith("calmizsed: IncompatibleKey")


def test_inspect() -> None:
    """The values are those that OpenSSL finds."""
    found = json.loads(run("inspect", QUERY, "--json").out)
    assert found["content"] == {"protocol": "publication", "type": "query", "elements": {"list": 1}}
    assert found["signing_time"] == SIGNED_AT and found["certificate"]["serial_number"] == "1f2e3d4c5b6a79880123456789abcdef"
    shown = run("inspect", QUERY).out.decode()
    assert "publication query, 101 octets" in shown and AT_SIGNED in shown


def test_inspect_counts_the_elements_of_each_level(keys: Keys, tmp_path: pathlib.Path) -> None:
    """Of two classes with three certificates; a content that isn't the one that was signed is said to be another."""
    certificate = openssl("req", "-x509", "-key", keys.private("2048"), "-subj", "/CN=a", "-days", "2", "-outform", "DER")
    issued = tuple(provisioning.IssuedCertificate("rsync://localhost/ca/b.cer", certificate) for _ in range(3))
    classes = tuple(provisioning.ResourceClass(
        name, "rsync://localhost/ca/a.cer", "64496", "10.0.0.0/8", "", calmizsed.now(), held, certificate)
        for name, held in (("one", issued), ("two", ())))
    text = provisioning.ResourceClassListResponse("parent", "child", classes).to_xml()
    (tmp_path / "text").write_text(text)
    message = run("create", "provisioning", tmp_path / "text", "--key", keys.private("2048")).out
    found = json.loads(run("inspect", "-", "--json", data=message).out)["content"]
    assert found == {
        "protocol": "provisioning", "type": "list_response", "elements": {"class": 2, "certificate": 3, "issuer": 2}}
    changed = message.replace(b'class_name="one"', b'class_name="owe"')
    found = json.loads(run("inspect", "-", "--json", data=changed).out)["content"]
    assert found["protocol"] is None and "Validation 2" in found["why"]


def test_explain(keys: Keys) -> None:
    """Fourteen checks: ok, FAILED, or not reached; no colour through a pipe."""
    ended = run("explain", QUERY, "--key", KEY, "--at", SIGNED_AT)
    assert ended.status == 0 and b"\x1b" not in ended.out
    assert [line[:15] for line in ended.out.decode().splitlines()] == [f"{number:>2} ok          " for number in range(1, 15)]
    ended = run("explain", QUERY, "--key", KEY, "--at", SIGNED_AT + 10**6)
    lines = ended.out.decode().splitlines()
    assert ended.status == 6 and [line[3:14].strip() for line in lines] == ["ok"] * 4 + ["FAILED"] + ["not reached"] * 9
    assert "2026-11-29T04:37:21Z to 2026-11-29T04:47:21Z, at 2026-12-10T18:29:10Z; look at: your clock" in lines[4]
    ended = run("explain", QUERY, "--key", keys.public("2048"), "--at", "signed", "--json")
    found = json.loads(ended.out)
    assert ended.status == 6 and [one["check"] for one in found if not one["holds"]] == [6, 8, 10, 13]
    assert [one["check"] for one in found if one["reached"]] == [1, 2, 3, 4, 5, 6]


def test_a_folder_of_messages(tmp_path: pathlib.Path) -> None:
    """A line each, a summary, and on a terminal a bar; the status is that of the first that is refused."""
    folder = tmp_path / "captured"
    folder.mkdir()
    shutil.copy(QUERY, folder / "a.der")
    shutil.copy(EXAMPLES / "rsa-query.hex", folder / "b.hex")
    common = "receive", "publication", folder, "--key", KEY, "--at", "signed"
    ended = run(*common)
    assert ended.status == 0 and ended.said == "calmizsed: 2 messages: 2 Ok\n"
    (folder / "c.der").write_bytes(QUERY.read_bytes()[:100])
    ended = run(*common)
    lines = ended.out.decode().splitlines()
    assert ended.status == 4 and ended.said == "calmizsed: 3 messages: 1 CmsDecode, 2 Ok\n"
    assert [line.split(": ")[1] for line in lines] == ["Ok", "Ok", "CmsDecode"]
    found = json.loads(run(*common, "--json").out)
    assert found["summary"] == {"Ok": 2, "CmsDecode": 1} and [one["status"] for one in found["messages"]] == [0, 0, 4]


def test_setup_messages(keys: Keys, tmp_path: pathlib.Path) -> None:
    """Read, with what OpenSSL finds in the certificate; and written from an own anchor."""
    found = json.loads(run("setup", "read", CHILD_REQUEST, "--at", "2026-12-01T07:46:05Z", "--json").out)
    assert (found["kind"], found["child_handle"], found["anchor_key_bits"]) == ("child_request", "Carol", 2048)
    assert (found["anchor_not_before"], found["anchor_not_after"]) == ("2026-12-01T07:46:05Z", "2036-11-28T07:46:05Z")
    assert found["signature_looked_at"] is True
    ended = run("setup", "read", CHILD_REQUEST, "--at", "2026-12-01T07:46:04Z")
    assert (ended.status, ended.out) == (5, b"") and "InvalidTaCert" in ended.said
    anchor, text = tmp_path / "anchor.der", tmp_path / "request.xml"
    at = datetime.datetime.now(datetime.timezone.utc).replace(microsecond=0)
    assert run("anchor", "new", "--key", keys.private("2048"), "--days", 30, "--at", at.isoformat(), "-o", anchor) == (0, b"", "")
    dates = openssl("x509", "-inform", "DER", "-in", anchor, "-noout", "-enddate", "-dateopt", "iso_8601").decode()
    assert dates == "notAfter=" + (at + datetime.timedelta(days=30)).strftime("%Y-%m-%d %H:%M:%SZ\n")
    words = "--handle", "Bob", "--anchor", anchor, "--tag", "a & b"
    assert run("setup", "publisher-request", *words, "-o", text) == (0, b"", "")
    found = json.loads(run("setup", "read", text, "--json").out)
    assert (found["kind"], found["publisher_handle"], found["tag"]) == ("publisher_request", "Bob", "a & b")
    fingerprint = openssl("x509", "-inform", "DER", "-in", anchor, "-noout", "-fingerprint", "-sha256").decode()
    assert found["anchor_sha256"] == fingerprint.strip().partition("=")[2].replace(":", "").lower()
    assert run("setup", "child-request", "--handle", "a b", "--anchor", anchor).status == 5
    assert run("setup", "child-request", "--handle", "a", "--anchor", KEY).status == 5


def test_requests(keys: Keys) -> None:
    """OpenSSL verifies what is made; the key of OpenSSL's own is found."""
    made = run("request", "new", "--key", keys.private("2048"), *PLACES, "--notify", "https://localhost/notify.xml")
    assert made.status == 0 and "notify.xml" in request_shown(made.out)
    assert run("request", "verify", "-", data=made.out) == (0, keys.public("2048").read_bytes(), "")
    pem = openssl("req", "-inform", "DER", "-noout", "-pubkey", data=bytes.fromhex((EXAMPLES / "rsa-request.hex").read_text()))
    for name in ("rsa-request.hex", "rsa-issue.xml"):
        assert run("request", "verify", EXAMPLES / name) == (0, pem, "")
    ended = run("request", "verify", "-", data=made.out[:-1] + bytes([made.out[-1] ^ 1]))
    assert (ended.status, ended.out) == (6, b"") and "Signature" in ended.said
    assert run("request", "new", "--key", keys.private("2048"), "--repository", "a", "--manifest", "b").status == 2


def test_no_word_of_a_private_key_is_written(keys: Keys) -> None:
    """Neither where it serves nor where it is refused."""
    pem = keys.private("2048").read_text().splitlines()[1:-1]
    for words in (("--key", keys.private("2048"), "--form", "pem"), ("--public-key", keys.private("2048"), "--sign-command", "true")):
        ended = run("create", "publication", EXAMPLES / "query-list.xml", *words)
        assert ended.out or ended.said
        assert not any(line in ended.said or line.encode() in ended.out for line in pem)


def test_the_launcher_by_a_link(tmp_path: pathlib.Path) -> None:
    """From elsewhere, and by a link to it."""
    (tmp_path / "calmizsed").symlink_to(LAUNCHER)
    ended = subprocess.run(
        ["./calmizsed", "--version"], cwd=tmp_path, stdout=subprocess.PIPE, check=False, env={**os.environ, "PYTHON": sys.executable})
    assert (ended.returncode, ended.stdout) == (0, b"calmizsed 0.1.0\n")


def test_no_module_comes_from_the_folder_in_which_it_is_called(tmp_path: pathlib.Path) -> None:
    """What stands there may be another's."""
    for name in ("json", "calmizsed", "cryptography", "argparse"):
        (tmp_path / f"{name}.py").write_text("raise SystemExit('another module')\n")
    assert run("receive", "publication", QUERY, "--key", KEY, "--at", SIGNED_AT, "-q", folder=tmp_path) == (0, LIST, "")


def test_a_python_that_lacks_a_package() -> None:
    """It is said which, and how to name another."""
    blocked = "import sys; sys.modules['cryptography'] = None; sys.argv = sys.argv[1:]; import runpy; runpy.run_path(sys.argv[0])"
    start = TREE / "bindings" / "python" / "start.py"
    ended = subprocess.run([sys.executable, "-c", blocked, str(start)], stderr=subprocess.PIPE, check=False)
    assert ended.returncode == 1 and b"has no package cryptography (Debian: python3-cryptography); PYTHON names" in ended.stderr


def test_a_closed_pipe() -> None:
    """Ends it without a trace."""
    shell = f"'{LAUNCHER}' inspect '{QUERY}' -q | true; true"
    ended = subprocess.run(["sh", "-c", shell], stderr=subprocess.PIPE, check=False, env={**os.environ, "PYTHON": sys.executable})
    assert (ended.returncode, ended.stderr) == (0, b"")


def test_a_file_is_there_whole_or_not_at_all(tmp_path: pathlib.Path) -> None:
    """A new one takes the place of the old, with its mode; what is refused leaves it; nothing else stays in the folder."""
    made = tmp_path / "made"
    words = "receive", "publication", QUERY, "--key", KEY, "-q", "-o", made, "--at"
    assert run(*words, SIGNED_AT + 10**6).status == 6 and not made.exists()
    assert run(*words, SIGNED_AT) == (0, b"", "") and made.read_bytes() == LIST
    made.write_bytes(b"old")
    made.chmod(0o600)
    assert run(*words, SIGNED_AT + 10**6).status == 6 and made.read_bytes() == b"old"
    assert run(*words, SIGNED_AT).status == 0 and made.read_bytes() == LIST and made.stat().st_mode & 0o777 == 0o600
    assert [path.name for path in tmp_path.iterdir()] == ["made"]


def test_a_file_that_can_not_be_written(tmp_path: pathlib.Path) -> None:
    """A folder, one in no folder, a full device; a link stays one, and a device is written to."""
    words = "receive", "publication", QUERY, "--key", KEY, "-q", "--at", SIGNED_AT, "-o"
    (tmp_path / "link").symlink_to(tmp_path / "made")
    assert run(*words, tmp_path / "link").status == 0
    assert (tmp_path / "link").is_symlink() and (tmp_path / "made").read_bytes() == LIST
    refused = [tmp_path, tmp_path / "none" / "made"] + [path for path in [pathlib.Path("/dev/full")] if path.exists()]
    for name in refused:
        ended = run(*words, name)
        assert (ended.status, ended.out) == (11, b"") and ended.said.startswith("calmizsed: WriteFault: "), ended
    assert run(*words, "/dev/stdout") == (0, LIST, "")


def started(words: str) -> Ended:
    """A run by the shell, which says where its streams lead."""
    ended = subprocess.run(
        ["sh", "-c", f"'{LAUNCHER}' {words}"], stdout=subprocess.PIPE, stderr=subprocess.PIPE, check=False, cwd=EXAMPLES,
        env={**os.environ, "PYTHON": sys.executable})
    return Ended(ended.returncode, ended.stdout, ended.stderr.decode("utf-8"))


RECEIVE = f"receive publication rsa-query.der --key rsa-issuer-public.pem --at {SIGNED_AT}"


def test_standard_input_that_can_not_be_read() -> None:
    """A folder, with which Python wouldn't begin, and a closed one; who reads a file needs none."""
    folder = "calmizsed: NoFile: standard input: a folder, where a file is wanted\n"
    assert started("inspect - < .") == (2, b"", folder)
    assert started("inspect - <&-") == (2, b"", "calmizsed: NoFile: standard input: it is closed\n")
    assert started(f"{RECEIVE} -q <&-") == (0, LIST, "")


@pytest.mark.skipif(not os.path.exists("/dev/full"), reason="there is no full device")
def test_standard_output_that_can_not_be_written() -> None:
    """A full device, and a closed one: each command says so."""
    words = [RECEIVE, "inspect rsa-query.der", f"explain rsa-query.der --key rsa-issuer-public.pem --at {SIGNED_AT}",
             "setup read rsa-child-request.xml --at 1800000000", "request verify rsa-request.hex"]
    for one in words:
        for where, why in (("> /dev/full", "No space left on device"), (">&-", "it is closed")):
            ended = started(f"{one} -q {where}")
            assert ended == (11, b"", f"calmizsed: WriteFault: standard output: {why}\n")
    ended = started(f"{RECEIVE.replace(str(SIGNED_AT), '5')} --json > /dev/full")
    assert (ended.status, ended.said.count("calmizsed: "), ended.said.count("\n")) == (6, 2, 2)


@pytest.mark.parametrize("where", ["2> /dev/full", "2>&-"])
def test_standard_error_that_can_not_be_written(where: str) -> None:
    """The result is written, and the status tells."""
    if "full" in where and not os.path.exists("/dev/full"):
        pytest.skip("there is no full device")
    assert started(f"{RECEIVE} {where}") == (0, LIST, "")
    assert started(f"{RECEIVE.replace(str(SIGNED_AT), '5')} {where}") == (6, b"", "")


def test_a_certificate_that_is_none(keys: Keys, tmp_path: pathlib.Path) -> None:
    """In a text of the provisioning protocol that has its form else."""
    der = openssl("req", "-x509", "-key", keys.private("2048"), "-subj", "/CN=a", "-days", "2", "-outform", "DER")
    held = provisioning.ResourceClass("one", "rsync://localhost/ca/a.cer", "", "10.0.0.0/8", "", calmizsed.now(), (), der)
    text, spelled = provisioning.ResourceClassListResponse("parent", "child", (held,)).to_xml(), base64.b64encode(der).decode()
    assert text.count(spelled) == 1
    for certificate, status in ((der, 0), (der[:-1], 5), (b"none", 5)):
        (tmp_path / "text").write_text(text.replace(spelled, base64.b64encode(certificate).decode()))
        ended = run("create", "provisioning", tmp_path / "text", "--key", keys.private("2048"))
        assert ended.status == status, ended
        assert status == 0 or (ended.out == b"" and ended.said.startswith("calmizsed: CertSyntax: "))


def test_an_input_that_is_longer_than_the_programs_take(tmp_path: pathlib.Path) -> None:
    """The library has no limit of 2^26 octets: what stands behind a message is no part of it."""
    octets = QUERY.read_bytes()
    (tmp_path / "long").write_bytes(octets + bytes((1 << 26) + 1 - len(octets)))
    assert run("receive", "publication", tmp_path / "long", "--key", KEY, "--at", SIGNED_AT, "-q") == (0, LIST, "")


def test_the_protocol_as_an_option() -> None:
    """`--kind KIND` says the same, wherever it stands."""
    rest = "--key", KEY, "--at", SIGNED_AT, "-q"
    ways: list[tuple[Word, ...]] = [
        ("--kind", "publication", QUERY, *rest), (QUERY, "--kind=publication", *rest), (*rest, QUERY, "--kind", "publication")]
    for words in ways:
        assert run("receive", *words) == (0, LIST, "")


def test_standard_input_is_read_once(keys: Keys) -> None:
    """Each of these would have what the other takes."""
    for words in (("receive", "publication", "-", "--key", "-"), ("create", "publication", "-", "--key", "-")):
        ended = run(*words, data=LIST)
        assert (ended.status, ended.out) == (2, b"") and "standard input can be read once" in ended.said
    message = run("create", "publication", EXAMPLES / "query-list.xml", "--key", "-", data=keys.private("2048").read_bytes()).out
    assert run("receive", "publication", "-", "--key", keys.public("2048"), "-q", data=message) == (0, LIST, "")


@pytest.mark.parametrize("form", ["der", "base64", "hexadecimal"])
def test_forms_of_a_private_key_and_of_a_text(keys: Keys, tmp_path: pathlib.Path, form: str) -> None:
    """As those of a message."""
    def spell(octets: bytes) -> bytes:
        return {"der": octets, "base64": base64.b64encode(octets), "hexadecimal": octets.hex().encode()}[form]

    (tmp_path / "key").write_bytes(spell(openssl("pkey", "-in", keys.private("2048"), "-outform", "DER")))
    message = run("create", "publication", "-", "--key", tmp_path / "key", data=spell(LIST))
    assert message.status == 0
    assert openssl("cms", "-verify", "-noverify", "-inform", "DER", data=message.out) == LIST.rstrip(b"\n")


@pytest.mark.skipif(subprocess.run([sys.executable, "-c", "import shtab"], check=False, stderr=subprocess.DEVNULL).returncode != 0,
                    reason="there is no shtab")
def test_pages(tmp_path: pathlib.Path) -> None:
    """man reads the page, with the examples of each command, and bash the completions."""
    subprocess.run([sys.executable, str(TREE / "bindings" / "python" / "pages"), str(tmp_path)], check=True)
    page = (tmp_path / "calmizsed.1").read_text()
    for example in ("receive publication query.der", "create publication", "setup read", "anchor new", "request new"):
        assert re.search(rf"^\\&calmizsed {example}", page, re.M), example
    if shutil.which("man"):
        ended = subprocess.run(["man", "--warnings", "-l", str(tmp_path / "calmizsed.1")], check=True, capture_output=True)
        assert ended.stderr == b"" and b"EXAMPLES OF CALMIZSED RECEIVE" in ended.stdout
    if shutil.which("zsh"):
        subprocess.run(["zsh", "-n", str(tmp_path / "_calmizsed")], check=True)
    script = f". '{tmp_path}/calmizsed.bash' && COMP_WORDS=(calmizsed rec) COMP_CWORD=1 && _shtab_calmizsed && echo \"${{COMPREPLY[@]}}\""
    ended = subprocess.run(["bash", "-c", script], check=True, capture_output=True)
    assert ended.stdout == b"receive\n"


@pytest.mark.parametrize(("words", "of_openssl"), [
    (("anchor", "new", "--at", str(SIGNED_AT)), "x509"), (("request", "new", *PLACES), "req")], ids=["anchor", "request"])
def test_anchors_and_requests_by_a_command_and_in_each_form(keys: Keys, words: tuple[str, ...], of_openssl: str) -> None:
    """A signature draws nothing, so what a command signs is what the key's file signs; forms are those of OpenSSL."""
    der = run(*words, "--key", keys.private("2048")).out
    sign = f"openssl dgst -sha256 -sign '{keys.private('2048')}'"
    assert run(*words, "--public-key", keys.public("2048"), "--sign-command", sign) == (0, der, "")
    spelled = {form: run(*words, "--key", keys.private("2048"), "--form", form).out for form in ("pem", "base64", "hexadecimal")}
    assert (base64.b64decode(spelled["base64"]), bytes.fromhex(spelled["hexadecimal"].decode())) == (der, der)
    assert spelled["pem"] == openssl(of_openssl, "-inform", "DER", data=der)


def test_the_year_9999_is_the_last(keys: Keys) -> None:
    """An anchor's time can't go on behind it."""
    ended = run("anchor", "new", "--key", keys.private("2048"), "--at", "9999-12-31T00:00:00Z", "--days", 2)
    assert (ended.status, ended.out) == (2, b"") and ended.said.startswith("calmizsed: Moment: ")


def test_nine_keys() -> None:
    """There may be eight."""
    key: list[Word] = ["--key", KEY]
    assert run("receive", "publication", QUERY, *key * 8, "--at", SIGNED_AT, "-q") == (0, LIST, "")
    ended = run("receive", "publication", QUERY, *key * 9, "--at", SIGNED_AT)
    assert (ended.status, ended.out) == (2, b"") and ended.said.startswith("calmizsed: Usage: ")
