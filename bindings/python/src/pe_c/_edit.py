"""Resources that are changed, and version information that is written."""
from __future__ import annotations

import struct
import typing

from . import _core
from ._image import Image
from ._kinds import Kind
from ._part import error_of
from ._reader import IMAGE

Key = int | str
Place = tuple[Key, Key, int]
# VS_FIXEDFILEINFO: its signature and the version of its structure; the number of a Windows file, an application.
FIXED = struct.Struct("<13I")
SIGNATURE, VOS_NT_WINDOWS32, VFT_APP, UNICODE = 0xFEEF04BD, 0x40004, 1, 1200


def _units(text: str) -> bytes:
    return text.encode("utf-16-le", "surrogatepass")


def _order(key: Key) -> tuple[bool, bytes, int]:
    """Names before ids, names by their code units."""
    if isinstance(key, int):
        return True, b"", key
    units = _units(key)
    return False, struct.pack(f">{len(units) // 2}H", *struct.unpack(f"<{len(units) // 2}H", units)), 0


class ResourceEditor:
    """The resources of an image, by type, name and language, to be changed and written.

        editor = pe_c.ResourceEditor(image)
        editor.set("CONFIG", 1, 0x409, b"..")
        data = editor.write()
    """

    def __init__(self, image: Image) -> None:
        """Raises Error where not all resources can be read: those that are left out would be lost. The image is that of a file: what is
        written of one as loaded is no file."""
        self._image = image
        core, number = _core.image(image.memory, image.headers.mode, False, IMAGE, True)
        if core is None:
            raise error_of(number, "headers", image.path)
        rows, number, is_limited = core.resources()
        self.resources: dict[Place, tuple[int, bytes]] = {}
        # In a hostile image many resources may share one content; so many bytes of them are not written.
        left = 16 * (len(image.memory) + (1 << 20))
        if number or is_limited:
            raise error_of(number or Kind.EDIT_TOO_MANY, "resources", image.path)
        for it in rows or ():
            if any(isinstance(key, str) and "\ufffd" in key for key in (it.type, it.name)):
                raise error_of(Kind.EDIT_NAME, "resources", image.path)
            if it.content is None or not isinstance(it.language, int):
                raise error_of(it.content_result or Kind.EDIT_RECORD, "resources", image.path)
            place = (it.type, it.name, it.language)
            if place in self.resources:
                raise error_of(Kind.EDIT_ORDER, "resources", image.path)
            left -= len(it.content)
            if left < 0:
                raise error_of(Kind.EDIT_CONTENTS, "resources", image.path)
            self.resources[place] = (it.code_page, bytes(it.content))

    def set(self, type: Key, name: Key, language: int, content: bytes) -> None:
        """Puts a resource in place of the one that is there, or beside the others. An id is RT_ of winuser.h; a name stands as it is given,
        and Windows finds names in upper case alone. Raises TypeError where the content is no bytes, and of a key that is neither."""
        if not isinstance(language, int) or not all(isinstance(it, (int, str)) for it in (type, name)):
            raise TypeError(f"types and names are ids or texts and languages are ids, and not {type!r}, {name!r}, {language!r}")
        code_page = self.resources.get((type, name, language), (0, b""))[0]
        # Of a number bytes() alone would make as many zeros.
        self.resources[type, name, language] = (code_page, bytes(memoryview(content)))

    def remove(self, type: Key, name: Key, language: int) -> None:
        """Raises KeyError where there is none."""
        del self.resources[type, name, language]

    def write(self) -> bytes:
        """The file with these resources. Raises Error, as where the image is signed."""
        data, records = bytearray(), bytearray()

        def ranged(part: bytes) -> tuple[int, int]:
            data.extend(part)
            return len(data) - len(part), len(part)

        def named(key: Key) -> tuple[int, int, int, int]:
            return (0, 0, key, 0) if isinstance(key, int) else (*ranged(_units(key)), 0, 1)
        try:
            for place in sorted(self.resources, key=lambda it: (_order(it[0]), _order(it[1]), it[2])):
                code_page, content = self.resources[place]
                records += struct.pack("<QQIIQQIIQQII", *named(place[0]), *named(place[1]), *ranged(content), place[2], code_page)
        except struct.error:
            raise error_of(Kind.EDIT_RECORD, "edit", self._image.path) from None
        written: bytes = self._image._asked("edit", "edited", bytes(records), bytes(data))
        return written


def _number(value: int) -> int:
    if not 0 <= value <= 0xFFFF:
        raise ValueError(f"{value} has more than 16 bits")
    return value


def version_info(*, file_version: tuple[int, int, int, int] = (0, 0, 0, 0), product_version: tuple[int, int, int, int] | None = None,
                 strings: typing.Mapping[str, str] | None = None, language: int = 0x409, file_type: int = VFT_APP) -> bytes:
    """Version information, the content of a resource of type 16 (RT_VERSION): the numbers, and strings in one language. Raises Error
    where a string can't be written, and where all have more than 65,535 bytes; ValueError of a number or a language of more than 16
    bits."""
    def halves(version: tuple[int, int, int, int]) -> tuple[int, int]:
        first, second, third, fourth = (_number(it) for it in version)
        return first << 16 | second, third << 16 | fourth
    numbers = (*halves(file_version), *halves(product_version or file_version))
    fixed = FIXED.pack(SIGNATURE, 0x10000, *numbers, 0x3F, 0, VOS_NT_WINDOWS32, file_type, 0, 0, 0)
    language = _number(language)
    texts, records = bytearray(), bytearray()

    def ranged(part: bytes) -> tuple[int, int]:
        texts.extend(part)
        return len(texts) - len(part), len(part)
    for name, text in (strings or {}).items():
        if "\0" in text:
            raise error_of(Kind.BLOCK_TEXT, "version")
        records += struct.pack("<4Q", *ranged(_units(name)), *ranged(_units(text + "\0")))
    pair = struct.pack("<HH", language, UNICODE)
    table = struct.pack("<II", 0, len(strings or {})) + pair
    found, number = _core.write_version(fixed, table, bytes(records), pair, bytes(texts))
    if number or found is None:
        raise error_of(number, "version")
    return found
