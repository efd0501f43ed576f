"""By whom a signature is, as it says: what `pe --json` has of a certificate. Nothing is verified."""
from __future__ import annotations

from typing import Any

from . import _core
from ._core import ObjectIdentifier, Range
from ._kinds import KnownOid
from ._part import Error, error_of
from ._signature import Name, Signature, dotted

WIN_CERT_TYPE_PKCS_SIGNED_DATA = 2
# How many bytes of a name are told.
NAME = 4096
DIGESTS = {KnownOid.MD5: "MD5", KnownOid.SHA1: "SHA-1", KnownOid.SHA256: "SHA-256", KnownOid.SHA384: "SHA-384",
           KnownOid.SHA512: "SHA-512"}


def signer_of(certificate: _core.Certificate) -> tuple[dict[str, Any] | None, int]:
    """The first signer of a certificate that is a signature, None of what is none; and the number of the error by which it is refused."""
    if certificate.type != WIN_CERT_TYPE_PKCS_SIGNED_DATA:
        return None, 0
    try:
        signature = Signature(certificate.body)
        at = _first(signature, signature.row.signers)
        return None if at is None else _told(signature, signature._asked("signer", "signer", at.offset, at.length)), 0
    except Error as error:
        return None, error.number


def _told(signature: Signature, signer: _core.SignerInfo) -> dict[str, Any]:
    own = signature._certificate_of(signer)
    try:
        stamp = _stamp(signature, signer)
    except Error:
        stamp = None
    return {"subject": None if own is None else _name(signature, own.row.subject), "issuer": _name(signature, signer.issuer),
            "serial_hex": signer.serial.hex(), "digest_algorithm": _algorithm(signer.digest_algorithm.oid), "time_stamp": stamp}


def _name(signature: Signature, at: Range) -> str:
    if at.length > NAME:
        return f"a name of {at.length} bytes"
    rows = signature._read("name_attributes", at.offset, at.length) if at.length else ((), 0, False)
    return str(Name(signature._part_of(rows, "name")))


def _algorithm(oid: ObjectIdentifier) -> str:
    known = KnownOid(oid.id)
    return dotted(oid.octets) if known == KnownOid.OTHER else DIGESTS.get(known, known.name.replace("_", " "))


def _first(signature: Signature, walk: Range) -> Range | None:
    """The first element; None where there is none. Raises Error where it is refused."""
    found, number, _ = signature._read("elements", walk.offset, walk.length)
    if number and not found:
        raise error_of(number, "signature", signature.path)
    return found[0].whole if found else None


def _value(signature: Signature, walk: Range | None, kind: KnownOid) -> Range | None:
    """The first value of the attributes of a kind; None without one. Raises Error where what comes before it is refused."""
    found, number, _ = signature._read("attributes", walk.offset, walk.length, kind) if walk is not None else ((), 0, False)
    for attribute in found or ():
        at = _first(signature, attribute.values)
        if at is not None:
            return at
    if number:
        raise error_of(number, "signature", signature.path)
    return None


def _time(signature: Signature, at: Range) -> str:
    time = signature._asked("time", "utc_time", at.offset, at.length)
    return "{:04}-{:02}-{:02}T{:02}:{:02}:{:02}Z".format(*time)


def _stamp(signature: Signature, signer: _core.SignerInfo) -> str | None:
    """What the first time stamp of a signer says. A counter-signature comes first."""
    at = _value(signature, signer.unsigned_attributes, KnownOid.COUNTER_SIGNATURE)
    if at is not None:
        older = signature._asked("signer", "signer", at.offset, at.length)
        time = _value(signature, older.signed_attributes, KnownOid.SIGNING_TIME)
        return None if time is None else _time(signature, time)
    at = _value(signature, signer.unsigned_attributes, KnownOid.TIME_STAMP_TOKEN)
    token = None if at is None else signature._asked("signature", "signature", at.offset, at.length)
    if token is None or token.content_type.id != KnownOid.TST_INFO or token.content is None:
        return None
    return _time(signature, signature._asked("time stamp", "time_stamp", token.content.offset, token.content.length).time)
