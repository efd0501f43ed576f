"""Authenticode signatures: what they say. Nothing here is verified: that the digest is the image's and that a signer signed it is for
others to check."""
from __future__ import annotations

import unicodedata
import typing
from typing import TYPE_CHECKING, Any, TypeVar

from . import _core
from ._core import DerElement, NameAttribute, ObjectIdentifier, Range, SignedData, SignerInfo, X509Row
from ._kinds import Kind, KnownOid
from ._part import Error, Part, error_of
from ._reader import BYTES, Reader

if TYPE_CHECKING:
    import _typeshed

S = TypeVar("S")
T = TypeVar("T")
# How many signatures stand in each other.
MOST_NESTED = 16
# Names of attributes of names, by RFC 4514 and its registry.
DESCRIPTORS = {
    KnownOid.COMMON_NAME: "CN", KnownOid.SERIAL_NUMBER: "serialNumber", KnownOid.COUNTRY: "C", KnownOid.LOCALITY: "L",
    KnownOid.STATE: "ST", KnownOid.STREET: "STREET", KnownOid.ORGANIZATION: "O", KnownOid.ORGANIZATIONAL_UNIT: "OU",
    KnownOid.BUSINESS_CATEGORY: "businessCategory", KnownOid.POSTAL_CODE: "postalCode", KnownOid.DOMAIN_COMPONENT: "DC",
    KnownOid.USER_ID: "UID", KnownOid.EMAIL_ADDRESS: "emailAddress"}
# Tags of texts: UTF-8 and what of it is ASCII, Latin-1 as it mostly is, UTF-16.
ENCODINGS = {0x0C: "utf-8", 0x12: "utf-8", 0x13: "utf-8", 0x16: "utf-8", 0x1A: "utf-8", 0x14: "latin-1", 0x1E: "utf-16-be"}


def dotted(octets: bytes) -> str:
    """An object identifier by its numbers. `?` stands for one that has more than 64 bits or is truncated."""
    arcs: list[int | None] = []
    number, is_read = 0, False
    for it in octets:
        # What has more bits does not grow, so that long identifiers cost no more than their octets.
        number = number if number >> 64 else number << 7 | it & 0x7F
        is_read = it >= 0x80
        if not is_read:
            arcs.append(None if number >> 64 else number)
            number = 0
    if is_read:
        arcs.append(None)
    return ".".join("?" if arc is None else str(arc) if i else f"{min(arc // 40, 2)}.{arc - 40 * min(arc // 40, 2)}"
                    for i, arc in enumerate(arcs))


def algorithm_of(oid: ObjectIdentifier) -> str:
    """The name of an algorithm: of a digest as hashlib has it, else as KnownOid has it, else the identifier by its numbers."""
    known = KnownOid(oid.id)
    if known in (KnownOid.MD5, KnownOid.SHA1, KnownOid.SHA256, KnownOid.SHA384, KnownOid.SHA512):
        return known.name.lower()
    return dotted(oid.octets) if known == KnownOid.OTHER else known.name


def text_of(tag: int, value: bytes) -> str | None:
    if tag not in ENCODINGS:
        return None
    return value[:len(value) & ~1 if tag == 0x1E else None].decode(ENCODINGS[tag], "replace")


def escaped(text: str) -> str:
    """A value of an attribute as RFC 4514 has it."""
    def one(i: int, it: str) -> str:
        if it == " " and i in (0, len(text) - 1) or it == "#" and i == 0 or it in '"+,;<>\\':
            return "\\" + it
        return "".join(f"\\{octet:02X}" for octet in it.encode()) if unicodedata.category(it) == "Cc" else it
    return "".join(one(i, it) for i, it in enumerate(text))


class Name:
    """The name of an issuer or a subject. str() writes it as RFC 4514 has it: the last of its parts first."""

    def __init__(self, attributes: Part[NameAttribute]) -> None:
        self.attributes = attributes

    def get(self, kind: KnownOid) -> str | None:
        """The last value of a kind, such as KnownOid.COMMON_NAME."""
        return next((text_of(it.tag, it.value) for it in reversed(self.attributes) if it.type.id == kind), None)

    def __str__(self) -> str:
        parts: list[list[str]] = []
        for it in self.attributes:
            if it.starts_rdn or not parts:
                parts.append([])
            parts[-1].append(self._of(it))
        damaged = ["<damaged>"] if self.attributes.error else []
        return ",".join(damaged + ["+".join(it) for it in reversed(parts)])

    def __repr__(self) -> str:
        return f"Name({str(self)!r})"

    @staticmethod
    def _of(it: NameAttribute) -> str:
        known, text = DESCRIPTORS.get(KnownOid(it.type.id)), text_of(it.tag, it.value)
        if known and text is not None:
            return f"{known}={escaped(text)}"
        length, size = len(it.value), (len(it.value).bit_length() + 7) // 8
        head = f"{length:02X}" if length < 128 else f"{128 + size:02X}{length.to_bytes(size, 'big').hex().upper()}"
        return f"{known or dotted(it.type.octets)}=#{it.tag:02X}{head}{it.value.hex().upper()}"


class _Inside:
    """A part of a signature, with the reader that has its bytes."""

    def __init__(self, reader: Signature) -> None:
        self._reader = reader

    def _name(self, at: Range) -> Name:
        return Name(self._reader._part_of(self._reader._read("name_attributes", at.offset, at.length), "name"))

    def _time(self, at: Range) -> str | None:
        """A time as RFC 3339 has it; None where it is none."""
        found, _, _ = self._reader._read("utc_time", at.offset, at.length)
        return found and "{:04}-{:02}-{:02}T{:02}:{:02}:{:02}Z".format(*found)


class X509(_Inside):
    """A certificate of X.509 in a signature."""

    def __init__(self, reader: Signature, at: Range) -> None:
        super().__init__(reader)
        self.row: X509Row = reader._asked("certificate", "x509", at.offset, at.length)
        self.der = bytes(reader._bytes(at))

    @property
    def subject(self) -> Name:
        return self._name(self.row.subject)

    @property
    def issuer(self) -> Name:
        return self._name(self.row.issuer)

    @property
    def serial(self) -> str:
        """The serial number in hexadecimal digits."""
        return self.row.serial.hex()

    @property
    def not_before(self) -> str | None:
        """The first time when it is valid; a fraction of a second, which RFC 5280 does not allow, is left out."""
        return self._time(self.row.not_before)

    @property
    def not_after(self) -> str | None:
        return self._time(self.row.not_after)

    @property
    def key_usage(self) -> int | None:
        """What the key is for: 0x80 signatures, 4 certificates, .. as pe_c_key_usage has it; None where it does not say. Raises Error."""
        extensions = self._reader._elements(self.row.extensions)
        for it in extensions:
            extension = self._reader._asked("extension", "extension", it.whole.offset, it.whole.length)
            if extension.type.id == KnownOid.KEY_USAGE:
                usage: int | None = self._reader._asked("key usage", "key_usage", it.whole.offset, it.whole.length)
                return usage
        extensions.check()
        return None

    def __repr__(self) -> str:
        return f"<pe_c.X509 {self.subject}>"


class TimeStamp(_Inside):
    """A time-stamp token of RFC 3161: when somebody had seen the signature."""

    def __init__(self, signature: Signature) -> None:
        super().__init__(signature)
        at = signature.row.content or Range((0, 0))
        row = signature._asked("time stamp", "time_stamp", at.offset, at.length)
        self.signature = signature
        self.time = self._time(row.time)
        self.digest_algorithm = algorithm_of(row.digest_algorithm.oid)
        self.digest: bytes = row.digest
        """of the signature of the signer"""

    def __repr__(self) -> str:
        return f"<pe_c.TimeStamp {self.time}>"


class Signer(_Inside):
    """A signer of a signature."""

    def __init__(self, reader: Signature, at: Range) -> None:
        super().__init__(reader)
        self.row: SignerInfo = reader._asked("signer", "signer", at.offset, at.length)
        self.digest_algorithm = algorithm_of(self.row.digest_algorithm.oid)
        self.signature_algorithm = algorithm_of(self.row.signature_algorithm.oid)
        self._kept: dict[KnownOid, Part[Any]] = {}

    @property
    def issuer(self) -> Name:
        """Who issued the certificate of the signer."""
        return self._name(self.row.issuer)

    @property
    def serial(self) -> str:
        """The serial number of the certificate in hexadecimal digits."""
        return self.row.serial.hex()

    @property
    def signature(self) -> bytes:
        return self.row.signature

    @property
    def certificate(self) -> X509 | None:
        """That of the signer, if the signature has it."""
        return self._reader._certificate_of(self.row)

    def _values(self, kind: KnownOid) -> Part[Range]:
        """The values of the attributes of a kind: those of the signed ones, then of the others, each up to the first that is refused."""
        walks = [it for it in (self.row.signed_attributes, self.row.unsigned_attributes) if it is not None]
        found = [self._reader._part_of(self._reader._read("attributes", at.offset, at.length, kind), "attributes") for at in walks]
        values = [self._reader._elements(it.values) for part in found for it in part]
        part: Part[Range] = Part(one.whole for it in values for one in it)
        part.error = next((it.error for it in (*found, *values) if it.error), None)
        return part

    def _first(self, kind: KnownOid) -> Range | None:
        """The first value; None where there is none. Raises Error where what comes before it is refused."""
        values = self._values(kind)
        return next(iter(values or values.check()), None)

    @property
    def signing_time(self) -> str | None:
        """When the signer says to have signed."""
        at = self._first(KnownOid.SIGNING_TIME)
        return None if at is None else self._time(at)

    @property
    def message_digest(self) -> bytes | None:
        """The digest of what is signed, as a signed attribute."""
        at = self._first(KnownOid.MESSAGE_DIGEST)
        found = None if at is None else self._reader._elements(at).check()[0].content
        return None if found is None else bytes(self._reader._bytes(found))

    @property
    def _program(self) -> Any:
        at = self._first(KnownOid.SPC_SP_OPUS_INFO)
        return self._reader._asked("program", "opus_info", at.offset, at.length) if at else None

    @property
    def program_name(self) -> str | None:
        it = self._program
        return text_of({0x80: 0x1E, 0x81: 0x16}.get(it.program_name_tag, 0), it.program_name) if it else None

    @property
    def program_url(self) -> str | None:
        it = self._program
        return text_of(0x16, it.more_info) if it and it.more_info_tag == 0x80 else None

    def _made(self, kind: KnownOid, make: typing.Callable[[Range], T]) -> Part[T]:
        """What is made of the values of a kind, once."""
        if kind not in self._kept:
            values = self._values(kind)
            self._kept[kind] = all_of(enumerate(values), make, values.error)
        kept: Part[T] = self._kept[kind]
        return kept

    @property
    def counter_signatures(self) -> Part[Signer]:
        return self._made(KnownOid.COUNTER_SIGNATURE, lambda it: Signer(self._reader, it))

    @property
    def time_stamps(self) -> Part[TimeStamp]:
        """Those of RFC 3161."""
        return self._made(KnownOid.TIME_STAMP_TOKEN, lambda it: TimeStamp(self._reader._inner(it)))

    @property
    def nested(self) -> Part[Signature]:
        """More signatures of the same image, by other digests."""
        return self._made(KnownOid.NESTED_SIGNATURE, self._reader._inner)

    def __repr__(self) -> str:
        return f"<pe_c.Signer {self.certificate.subject if self.certificate else self.serial}>"


def all_of(items: typing.Iterable[tuple[int, S]], make: typing.Callable[[S], T], ended: Error | None) -> Part[T]:
    """What is made of each item, with those that are refused by their indices; the first of these is the error, or what ended the items."""
    found, refused = [], []
    for index, it in items:
        try:
            found.append(make(it))
        except Error as error:
            # Its traceback would keep what was read of each.
            refused.append((index, error.with_traceback(None)))
    part: Part[T] = Part(found)
    part.refused = tuple(refused)
    part.error = refused[0][1] if refused else ended
    return part


class Signature(Reader):
    """A signature: the body of a certificate of an image. Raises Error where it is refused; what it has then never raises but Error.
    It is no verifier: see `digest`."""

    def __init__(self, data: _typeshed.ReadableBuffer, *, path: str | None = None, depth: int = 0) -> None:
        super().__init__(data, BYTES, "signature", path=path)
        if depth > MOST_NESTED:
            raise error_of(Kind.SIGNATURE_CONTENT_TYPE, "nested signature", path)
        self._depth = depth
        self.row: SignedData = self._asked("signature", "signature", 0, len(self.memory))

    def _bytes(self, at: Range) -> memoryview:
        return self.memory[at.offset:at.offset + at.length]

    def _elements(self, at: Range) -> Part[DerElement]:
        return self._part_of(self._read("elements", at.offset, at.length), "elements")

    def _inner(self, at: Range) -> Signature:
        return Signature(self._bytes(at), path=self.path, depth=self._depth + 1)

    @property
    def content_type(self) -> str:
        """What is signed: "SPC_INDIRECT_DATA" of an image."""
        return algorithm_of(self.row.content_type)

    @property
    def _indirect(self) -> _core.SpcIndirectData | None:
        def read() -> _core.SpcIndirectData:
            at = self.row.content or Range((0, 0))
            row: _core.SpcIndirectData = self._asked("indirect data", "indirect_data", at.offset, at.length)
            return row
        return self._once("indirect", read) if self.row.content_type.id == KnownOid.SPC_INDIRECT_DATA else None

    @property
    def digest_algorithm(self) -> str | None:
        """That of `digest`, for hashlib; None where no image is signed."""
        return algorithm_of(self._indirect.digest_algorithm.oid) if self._indirect else None

    @property
    def digest(self) -> bytes | None:
        """The digest of the image that is signed: it is that of this image where Image.digest(digest_algorithm) has it."""
        return self._indirect.digest if self._indirect else None

    def _members(self, name: str, walk: Range, make: typing.Callable[[Range], T]) -> Part[T]:
        def read() -> Part[T]:
            elements = self._elements(walk)
            return all_of(enumerate(it.whole for it in elements), make, elements.error)
        return self._once(name, read)

    @property
    def certificates(self) -> Part[X509]:
        """The certificates in the signature. Of damaged ones the first is the error."""
        return self._members("certificates", self.row.certificates, lambda it: X509(self, it))

    def _certificate_of(self, signer: SignerInfo) -> X509 | None:
        """The first with the issuer and the serial number of a signer; None of one that is named by its key."""
        def read() -> dict[tuple[bytes, bytes], X509]:
            found: dict[tuple[bytes, bytes], X509] = {}
            for it in self.certificates:
                found.setdefault((bytes(self._bytes(it.row.issuer)), it.row.serial), it)
            return found
        known = self._once("certificates by their names", read)
        return known.get((bytes(self._bytes(signer.issuer)), signer.serial)) if signer.issuer.length else None

    @property
    def signers(self) -> Part[Signer]:
        """Who signed; of an image it is one."""
        return self._members("signers", self.row.signers, lambda it: Signer(self, it))

    def __repr__(self) -> str:
        return f"<pe_c.Signature {self.content_type} {list(self.signers)}>"
