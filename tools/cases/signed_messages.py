"""Signed messages, put together from the formats (RFC 5652, RFC 5280, RFC 6492) and by the rules of the toy scheme, with nothing of the
crates: values in DER and in BER, keys and signatures, certificates, CRLs, messages, and what breaks each of the fourteen checks alone.

The scripts that write stored cases make their messages here.

The toy scheme: a key's bits are its seed and its number, eight octets each, the most significant first. A signature is the SHA-256
of the key's bits and what is signed behind them. A key identifier is the SHA-1 of the bits.
"""

import datetime
import hashlib
from types import SimpleNamespace

NOW = 1700000000
FIRST, LAST = NOW - 300, NOW + 300

# ---- DER


def length(n):
    """A length in its shortest form."""
    if n < 128:
        return bytes([n])
    octets = n.to_bytes((n.bit_length() + 7) // 8, "big")
    return bytes([0x80 | len(octets)]) + octets


def overlong(n):
    """A length with a count of four octets, whatever it is."""
    return b"\x84" + n.to_bytes(4, "big")


def value(tag, contents, spell=length):
    """A value under a tag of one octet."""
    return bytes([tag]) + spell(len(contents)) + contents


def indefinite(tag, contents):
    """A value of an indefinite length."""
    return bytes([tag, 0x80]) + contents + b"\0\0"


def seq(*parts):
    """A SEQUENCE of these parts."""
    return value(0x30, b"".join(parts))


def integer(n):
    """An INTEGER that isn't negative."""
    return value(2, n.to_bytes(n.bit_length() // 8 + 1, "big"))


def octet_string(octets):
    """An OCTET STRING."""
    return value(4, octets)


def bits(octets):
    """A BIT STRING of whole octets."""
    return value(3, b"\0" + octets)


def printable(octets):
    """A PrintableString."""
    return value(0x13, octets)


def oid(text):
    """An OBJECT IDENTIFIER, by its numbers with dots."""
    first, second, *rest = map(int, text.split("."))
    octets = bytearray()
    for arc in [40 * first + second, *rest]:
        groups = [arc & 127]
        while arc > 127:
            arc >>= 7
            groups.insert(0, arc & 127 | 128)
        octets += bytes(groups)
    return value(6, bytes(octets))


def time(seconds):
    """UTCTime from 1950 to 2049, else GeneralizedTime; 400 years later the calendar is the same, and Python has that year."""
    moment = EPOCH + datetime.timedelta(days=146097 * (seconds < 0), seconds=seconds)
    year = moment.year - 400 * (seconds < 0)
    digits = f"{year:04}{moment:%m%d%H%M%S}Z".encode()
    return value(0x17, digits[2:]) if 1950 <= year < 2050 else value(0x18, digits)


EPOCH = datetime.datetime(1970, 1, 1)
NULL = b"\5\0"
SIGNED_DATA = oid("1.2.840.113549.1.7.2")
XML = oid("1.2.840.113549.1.9.16.1.28")
CONTENT_TYPE, MESSAGE_DIGEST, SIGNING_TIME = (oid(f"1.2.840.113549.1.9.{n}") for n in (3, 4, 5))
BINARY_SIGNING_TIME = oid("1.2.840.113549.1.9.16.2.46")
SHA256 = oid("2.16.840.1.101.3.4.2.1")
RSA = oid("1.2.840.113549.1.1.1")
RSA_SHA256 = oid("1.2.840.113549.1.1.11")
SUBJECT_KEY, BASIC_CONSTRAINTS, CRL_NUMBER, AUTHORITY_KEY = (oid(f"2.5.29.{n}") for n in (14, 19, 20, 35))
COMMON_NAME = oid("2.5.4.3")
ALGORITHM = seq(RSA_SHA256, NULL)

# ---- the toy scheme


def key_bits(seed, number):
    """The bits of a toy key."""
    return seed.to_bytes(8, "big") + number.to_bytes(8, "big")


def key_identifier(seed, number):
    """The identifier of a toy key."""
    return hashlib.sha1(key_bits(seed, number)).digest()


def sign(seed, number, octets, spoilt=False):
    """The signature; spoilt, with its last bit turned."""
    signature = bytearray(hashlib.sha256(key_bits(seed, number) + octets).digest())
    signature[-1] ^= spoilt
    return bytes(signature)


# ---- the message

OTHER = bytes(range(20))
QUERY = b'<msg xmlns="http://www.hactrn.net/uris/rpki/publication-spec/" version="4" type="query"><list/></msg>'

# What a message is made of. A None leaves a part out or has it follow from the others; a function turns what it is given.
GOOD = dict(
    seed=1, ee=1, serial=1, content=QUERY,
    # the signer
    signer_id=None, digested=None, attributes=lambda xs: xs, spoilt_attributes=False, signed_at=NOW,
    signer_version=3, signer_algorithm=seq(RSA, NULL), signers=lambda x: x, attributes_tag=value, signature=lambda x: x,
    # the certificate
    subject_key=None, validity=(FIRST, LAST), authority_key="issuer", constraints=None, spoilt_certificate=False,
    certificate_extensions=lambda xs: xs, tbs_length=length, subject_text=printable,
    # the certificate and the CRL
    issuer_text=printable,
    # the CRL
    crl_seed=None, crl_inner=ALGORITHM, crl_outer=ALGORITHM, spoilt_crl=False, updates=(FIRST, LAST), crl_authority="issuer",
    entries=(), revoked_at=FIRST, crl_number=NOW * 1000, crl_extensions=lambda xs: xs, crl_entries_length=length,
    entry_extensions=b"",
    # all three
    sign=sign,
    # the envelope
    outer=value, content_string=octet_string, digest=SHA256, digest_parameters=(), behind=None, envelope_type=SIGNED_DATA,
    data_version=3, data_content_type=XML, certificates=lambda x: value(0xA0, x), crls=lambda x: value(0xA1, x),
)


def held(o, place, *parts):
    """A SEQUENCE, with a NULL behind its last element if that is the place."""
    return b"".join(parts) + (NULL if o.behind == place else b"")


def name(seed, number, text=printable):
    """The name of a toy key: its identifier as a common name."""
    return seq(value(0x31, seq(COMMON_NAME, text(key_identifier(seed, number).hex().upper().encode()))))


def authority(identifier, issuer_seed):
    """The extension of the authority's key identifier, in a list; an empty one where there is none."""
    if identifier is None:
        return []
    identifier = key_identifier(issuer_seed, 0) if identifier == "issuer" else identifier
    return [seq(AUTHORITY_KEY, octet_string(seq(value(0x80, identifier))))]


def subject_key(o):
    """The subject's key identifier that the certificate states."""
    return o.subject_key or key_identifier(o.seed, o.ee)


def certificate(o):
    """The certificate of a message."""
    key = seq(seq(RSA, NULL), bits(key_bits(o.seed, o.ee)))
    extensions = [seq(SUBJECT_KEY, octet_string(octet_string(subject_key(o))))]
    extensions += authority(o.authority_key, o.seed)
    if o.constraints is not None:
        flag = b"\1\1\xff"
        extensions.append(seq(BASIC_CONSTRAINTS, flag, octet_string(seq(flag if o.constraints else b""))))
    tbs = value(0x30, held(
        o, "tbs", value(0xA0, integer(2)), integer(o.serial), ALGORITHM, name(o.seed, 0, o.issuer_text),
        seq(*map(time, o.validity)), name(o.seed, o.ee, o.subject_text), key,
        value(0xA3, seq(*o.certificate_extensions(extensions)))), o.tbs_length)
    signature = o.sign(o.seed, 0, tbs, o.spoilt_certificate)
    return value(0x30, held(o, "certificate", tbs, ALGORITHM, bits(signature)))


def crl(o):
    """The CRL of a message."""
    seed = o.crl_seed or o.seed
    entries = b"".join(seq(integer(n), time(o.revoked_at), o.entry_extensions) for n in o.entries or ())
    entries = b"" if o.entries is None else value(0x30, entries, o.crl_entries_length)
    extensions = authority(o.crl_authority, seed) + [seq(CRL_NUMBER, octet_string(integer(o.crl_number)))]
    tbs = value(0x30, held(
        o, "crl-tbs", integer(1), o.crl_inner, name(seed, 0, o.issuer_text), *map(time, o.updates), entries,
        value(0xA0, seq(*o.crl_extensions(extensions)))))
    signature = o.sign(seed, 0, tbs, o.spoilt_crl)
    return value(0x30, held(o, "crl", tbs, o.crl_outer, bits(signature)))


def attribute(kind, *values):
    """An attribute with its values."""
    return seq(kind, value(0x31, b"".join(values)))


def digest_of(o):
    """The digest that the attributes state."""
    return hashlib.sha256(o.content if o.digested is None else o.digested).digest()


def attributes_of(o):
    """The signed attributes, one behind the other."""
    return b"".join(o.attributes([
        attribute(CONTENT_TYPE, XML), attribute(SIGNING_TIME, time(o.signed_at)),
        attribute(MESSAGE_DIGEST, octet_string(digest_of(o)))]))


def signature_of(o):
    """The signature of the attributes."""
    return o.signature(o.sign(o.seed, o.ee, value(0x31, attributes_of(o)), o.spoilt_attributes))


def signer(o):
    """The signer's part of a message."""
    return value(0x30, held(
        o, "signer", integer(o.signer_version), value(0x80, o.signer_id or subject_key(o)), seq(SHA256, *o.digest_parameters),
        o.attributes_tag(0xA0, attributes_of(o)), o.signer_algorithm, octet_string(signature_of(o))))


def message(**options):
    """The octets of a message that is good but for the options: `certificate` is another certificate's octets, `lists` the octets of
    other CRLs, one behind the other."""
    own = options.pop("certificate", None)
    lists = options.pop("lists", None)
    o = SimpleNamespace(**{**GOOD, **options})
    content = value(0x30, held(o, "content", o.data_content_type, value(0xA0, o.content_string(o.content))))
    digests = value(0x31, seq(o.digest, *o.digest_parameters))
    data = held(
        o, "data", integer(o.data_version), digests, content, o.certificates(own or certificate(o)), o.crls(lists or crl(o)),
        value(0x31, o.signers(signer(o))))
    return o.outer(0x30, held(o, "envelope", o.envelope_type, o.outer(0xA0, o.outer(0x30, data))))


def own_certificate(**options):
    """The certificate of a message that is good but for these options."""
    return certificate(SimpleNamespace(**{**GOOD, **options}))


def own_crl(**options):
    """The CRL of a message that is good but for these options."""
    return crl(SimpleNamespace(**{**GOOD, **options}))


# ---- what breaks each check alone, the others being mended

BREAKS = {
    1: dict(signer_id=OTHER),
    2: dict(digested=b"another content"),
    3: dict(spoilt_attributes=True),
    4: dict(subject_key=OTHER[::-1]),
    5: dict(validity=(FIRST, NOW - 1)),
    6: dict(authority_key=OTHER),
    7: dict(constraints=True),
    8: dict(spoilt_certificate=True),
    9: dict(crl_outer=seq(RSA_SHA256)),
    10: dict(spoilt_crl=True),
    11: dict(updates=(NOW + 1, LAST)),
    12: dict(updates=(FIRST, NOW - 1)),
    13: dict(crl_authority=OTHER),
    14: dict(entries=(1,)),
}


def broken(*checks):
    """A message of which these checks are broken."""
    options = {}
    for check in checks:
        options.update(BREAKS[check])
    if {11, 12} <= set(checks):
        options["updates"] = (NOW + 1, NOW - 1)
    return message(**options)


OF_CRLS = range(9, 15)


def two_crls(first, second, **options):
    """A message with two CRLs, each of which is good but for its own options."""
    return message(lists=own_crl(**first) + own_crl(**second), **options)


def failing(check):
    """The name of a check that fails."""
    return f"{'inspection' if check in (1, 4) else 'verification'}-{check}"


# ---- what parts of a message are turned into, and other spellings

def behind_last(new):
    """What adds a value behind the others."""
    return lambda xs: [*xs, new]


def without(kind):
    """What leaves out the values that have this in them."""
    return lambda xs: [x for x in xs if kind not in x]


def instead(kind, new):
    """What puts a value in the place of those that have this in them."""
    return lambda xs: [new if kind in x else x for x in xs]


def segmented(octets):
    """An OCTET STRING of three segments, the last of which is itself made of one, all of indefinite lengths."""
    third = len(octets) // 3
    parts = octets[:third], octets[third:2 * third], octets[2 * third:]
    nested = indefinite(0x24, octet_string(parts[1]) + indefinite(0x24, octet_string(parts[2])))
    return indefinite(0x24, octet_string(parts[0]) + nested)


def outer_two(tag, contents):
    """Indefinite, but for the signed data, which begin with their version."""
    return (value if contents[:1] == b"\2" else indefinite)(tag, contents)


# How a message is spelled with its two outer lengths indefinite and its content in three segments.
OUTER_TWO = dict(outer=outer_two, content_string=segmented)


# ---- messages that `SignedMessage::create` makes with a toy signer of seed 1, whose first call makes key 0

# The calls behind it: sign_one_off, get_key_info, sign, rand, get_key_info, sign.
CALLS = 6


def drawn_serial(seed, number):
    """Twenty octets that the toy signer draws with this number, without the first bit."""
    octets = hashlib.sha256(key_bits(seed, number) + bytes(8)).digest()[:20]
    return int.from_bytes(octets, "big") & ~(1 << 159)


def numbered(content, moment, serial, **options):
    """A message at a moment, whose certificate has this serial number."""
    window = moment - 300, moment + 300
    return message(
        content=content, serial=serial, signed_at=moment, validity=window, updates=window, crl_number=moment * 1000, **options)


def created(content, moment, **options):
    """What `create` makes at a moment."""
    return numbered(content, moment, drawn_serial(1, 2), **options)


# The most octets that a signature may have.
MOST = 1 << 16


def zeros(count):
    """A scheme whose signatures are so many zeros."""
    return lambda seed, number, octets, spoilt=False: bytes(count)


# ---- messages with their labels, for several programs

def malformed_cases():
    """Octets that are no message in either mode, with their labels."""
    twice = lambda kind: lambda xs: [y for x in xs for y in ([x, x] if kind in x else [x])]
    binary = attribute(BINARY_SIGNING_TIME, integer(NOW))
    yield "signing-time-twice", message(attributes=twice(SIGNING_TIME))
    yield "signing-time-of-two-values", message(attributes=instead(SIGNING_TIME, attribute(SIGNING_TIME, time(NOW), time(NOW))))
    yield "binary-signing-time-twice", message(attributes=lambda xs: [*xs, binary, binary])
    yield "content-type-missing", message(attributes=without(CONTENT_TYPE))
    yield "content-type-twice", message(attributes=twice(CONTENT_TYPE))
    yield "content-type-of-another-kind", message(attributes=instead(CONTENT_TYPE, attribute(CONTENT_TYPE, SIGNED_DATA)))
    yield "digest-twice", message(attributes=twice(MESSAGE_DIGEST))
    yield "digest-missing", message(attributes=without(MESSAGE_DIGEST))
    yield "crl-with-two-authorities", message(crl_extensions=twice(AUTHORITY_KEY))
    yield "crl-with-two-numbers", message(crl_extensions=twice(CRL_NUMBER))
    yield "certificate-with-two-subjects", message(certificate_extensions=twice(SUBJECT_KEY))
    yield "certificate-without-subject", message(certificate_extensions=without(SUBJECT_KEY))
    yield "overlong-length-in-the-crl", message(crl_entries_length=overlong)
    yield "signer-version-1", message(signer_version=1)
    yield "two-signers", message(signers=lambda x: x + x)
    yield "no-signer", message(signers=lambda x: b"")
    yield "no-certificate", message(certificates=lambda x: b"")
    yield "two-certificates", message(certificates=lambda x: value(0xA0, x + x))
    yield "no-crl", message(crls=lambda x: b"")
    yield "three-crls", message(crls=lambda x: value(0xA1, x + x + x))
    yield "overlong-length-in-the-second-crl", two_crls({}, dict(crl_entries_length=overlong))
    yield "behind-the-second-crl", message(crls=lambda x: value(0xA1, x + x + NULL))
    yield "data-version-1", message(data_version=1)
    yield "envelope-of-another-kind", message(envelope_type=XML)
    yield "content-of-another-kind", message(data_content_type=SIGNED_DATA)
    yield "digest-of-another-kind", message(digest=RSA)
    yield "truncated", message()[:-1]
    yield "empty", message()[:0] + b"\x30\0"
    for place in ("envelope", "data", "content", "tbs", "certificate", "crl-tbs", "crl", "signer"):
        yield f"behind-the-last-of-{place}", message(behind=place)


def broken_ber_cases():
    """Messages that are none in BER either, since a CRL is read in DER."""
    loose = dict(outer=indefinite, content_string=segmented)
    overlong_entries = dict(crl_entries_length=overlong)
    yield "first-of-two-crls-in-ber-in-indefinite-envelope", two_crls(overlong_entries, {}, **loose)
    yield "second-crl-in-ber-in-indefinite-envelope", two_crls({}, overlong_entries, **loose)


def failing_cases():
    """Messages whose parts come from other messages, and other ways to break a check."""
    yield "certificate-of-another-message", message(certificate=own_certificate(ee=2)), "inspection-1"
    yield "crl-of-another-issuer", message(crl_seed=2), "verification-10"
    yield "message-of-another-issuer", message(seed=2), "verification-6"
    yield "message-of-another-issuer-unnamed", message(seed=2, authority_key=None), "verification-8"
    yield "validity-not-begun", message(validity=(NOW + 1, LAST)), "verification-5"
    yield "crl-inner-without-null", message(crl_inner=seq(RSA_SHA256)), "verification-9"
    yield "serial-listed-among-others", message(entries=(2, 1, 3)), "verification-14"
    yield "long-serial-listed", message(serial=(1 << 159) - 1, entries=(1, (1 << 159) - 1)), "verification-14"


def built(content, moment, seed, revoked):
    """The message that `build` of crates/rpki_vectors makes of these parts."""
    window = moment - 300, moment + 300
    return message(
        content=content, seed=seed, signed_at=moment, validity=window, updates=window, entries=revoked, revoked_at=moment,
        crl_number=max(moment, 0) * 1000)


# ---- messages that were made elsewhere

# Two messages that were made elsewhere; content-a's signatures are zeros.
QUERY_MESSAGE = (
    "3082039906092a864886f70d010702a082038a30820386020103310d300b06096086480165030402013076060b2a864886f70d010910011ca067"
    "04653c6d736720786d6c6e733d22687474703a2f2f7777772e68616374726e2e6e65742f757269732f72706b692f7075626c69636174696f6e2d"
    "737065632f222076657273696f6e3d22342220747970653d227175657279223e3c6c6973742f3e3c2f6d73673ea0820156308201523082011ca0"
    "03020102021460eb9b2e645831bbbde56a8e1b9fada76e08d55e300d06092a864886f70d01010b050030333131302f0603550403132830344431"
    "343637413444354634384631373331354133354339304134463741374443334334413130301e170d3233313131343232303832305a170d323331"
    "3131343232313832305a30333131302f060355040313283134353430314534333442434432344545313432323232363431454443413841313541"
    "44344437323022300d06092a864886f70d010101050003110000000000000000010000000000000001a3423040301d0603551d0e041604141454"
    "01e434bcd24ee142222641edca8a15ad4d72301f0603551d2304183016801404d1467a4d5f48f17315a35c90a4f7a7dc3c4a10300d06092a8648"
    "86f70d01010b050003210027c165d936dedfbd3641d23f86a34edbcdc07b18df1ce7624cb0bfffc3b90b6da181d53081d230819d020101300d06"
    "092a864886f70d01010b050030333131302f06035504031328303444313436374134443546343846313733313541333543393041344637413744"
    "43334334413130170d3233313131343232303832305a170d3233313131343232313832305a3000a0343032301f0603551d2304183016801404d1"
    "467a4d5f48f17315a35c90a4f7a7dc3c4a10300f0603551d1404080206018bcfe56800300d06092a864886f70d01010b0500032100e9aea3c996"
    "6b17e3166e87134cfe30499fdb5ad19c2ab35279fb87df7400393f3181c73081c40201038014145401e434bcd24ee142222641edca8a15ad4d72"
    "300b0609608648016503040201a06b301a06092a864886f70d010903310d060b2a864886f70d010910011c301c06092a864886f70d010905310f"
    "170d3233313131343232313332305a302f06092a864886f70d01090431220420516a8581b2f8c63c7dcd04f072fc9b6307d32b911bb49de486ef"
    "ae423fd3db80300d06092a864886f70d01010105000420f38bb9e3ce558a61ab8b5a0f288b3e3b4042a65b15bbcaf67bce22ba6b3f7d51"
)
CONTENT_A = (
    "308201b306092a864886f70d010702a08201a4308201a0020103310d300b06096086480165030402013012060b2a864886f70d010910011ca003"
    "040161a0819b308198308182a003020102020101300d06092a864886f70d01010b05003000301e170d3233313131343232303832305a170d3233"
    "313131343232313832305a30003022300d06092a864886f70d010101050003110000000000000000010000000000000000a321301f301d060355"
    "1d0e041604140000000000000000000000000000000000000000300d06092a864886f70d01010b050003020000a14d304b3036020101300d0609"
    "2a864886f70d01010b05003000170d3233313131343232303832305a170d3233313131343232313832305aa0023000300d06092a864886f70d01"
    "010b05000302000031818a30818702010380140000000000000000000000000000000000000000300b0609608648016503040201a04d301a0609"
    "2a864886f70d010903310d060b2a864886f70d010910011c302f06092a864886f70d01090431220420ca978112ca1bbdcafac231b39a23dc4da7"
    "86eff8147c4e72b9807785afee48bb300d06092a864886f70d0101010500040100"
)
