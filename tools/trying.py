"""What try_targets, try_js and try_page share: images that are made, damaged copies of images, and comparing what the JavaScript says of
an image with what the program pe says in JSON."""

import glob
import json
import os
import random
import re

from contents import bytes_of, text_of, write
from targets import BINDINGS, run


def made_images(room):
    """A folder of the images that the cargo crate's tests make, which have between them whatever a call reads."""
    program, folder = os.path.join(room, "made"), os.path.join(room, "images")
    os.mkdir(folder)
    run(["rustc", "--edition", "2021", "-o", program, os.path.join(BINDINGS, "rust", "examples", "made.rs")])
    run([program, folder])
    return folder


def contents_of(folder, kinds=("bin",)):
    """The contents of the images of a folder, or of other kinds of files."""
    found = []
    for path in sorted(path for kind in kinds for path in glob.glob(os.path.join(folder, f"*.{kind}"))):
        found.append(bytes_of(path))
    return found


def damaged_copies(folder, count, room):
    """The paths of so many damaged copies of the images, TE images and objects of a folder, the same each time, in ROOM/damaged."""
    bases, out = contents_of(folder, ("bin", "exe", "te", "obj")), os.path.join(room, "damaged")
    os.mkdir(out)
    for number in range(count):
        write(damaged(bases[number % len(bases)], number), out, f"{number:06}.bin")
    return [os.path.join(out, f"{number:06}.bin") for number in range(count)]


def damaged(content, number):
    """A copy with some bytes changed, half of them in the headers, or truncated. The same file has the same damage
    each time."""
    chance, changed = random.Random(number), bytearray(content)
    for _ in range(chance.choice([1, 2, 8, 40])):
        end = len(changed) if chance.random() < 0.5 else min(len(changed), 0x400)
        changed[chance.randrange(end)] = chance.choice([0, 1, 0x7F, 0x80, 0xFF, chance.randrange(256)])
    if chance.random() < 0.1:
        del changed[chance.randrange(len(changed)):]
    return bytes(changed)


# ---- facts


GOLDEN = os.path.join(BINDINGS, "pe", "tests", "golden")
# An image of two bytes that no other program makes, files that are none, and commands and a page that it has not.
NOT_MADE = {"short", "object", "te_image", "stack", "symbols", "verify", "dump_page"}


# What pe says and the package does not, each with its error and with whether there is more. docs/LIMITS.md names them.
LEFT_OUT = {
    ".json_version": "a record is no line of a stream of several versions", ".file_hex": "a name is a text there",
    ".file_kind": "of what is read, an image",
    ".hashes": "a caller asks for those that it wants", ".sections[].sha256_hex": "likewise", ".resources[].sha256_hex": "likewise",
    ".sections[].entropy": "likewise", ".headers.overlay": "image.call('pe_c_overlay') has it",
    ".headers.symbol_server_path": "a name that a caller makes", ".debug.pdb.symbol_server_path": "likewise",
    ".debug.pogo": "for who builds an image",
    ".debug.vc_features": "likewise", ".bound_imports": "image.boundImports() has them",
    ".functions": "image.functions() has them", ".symbols": "image.symbols() has them",
    ".resources[].error": "a content that is not there has no offset", ".resources[].version": "image.versions() has it",
}
# What the package's facts refuse by its first bytes: openObject and openTe read it.
OTHERS = "a COFF object", "a TE image"


def golden():
    """What pe prints in JSON of each image that the cargo crate's tests make, from the golden texts, which are read
    and compared."""
    found = {}
    for path in sorted(glob.glob(os.path.join(GOLDEN, "*.txt"))):
        name = os.path.basename(path).removesuffix(".txt")
        said = re.search(rf"^\$ pe {name}\.bin --json\n(\{{.*)$", text_of(path), re.M)
        if name not in NOT_MADE:
            found[name] = json.loads(said[1])
    return found


def differences(ours, theirs, at=""):
    """Where a value is not that of pe, which may have more fields."""
    if isinstance(ours, dict) and isinstance(theirs, dict):
        return [it for name, value in ours.items() if name != "texts"
                for it in (differences(value, theirs[name], f"{at}.{name}") if name in theirs else [f"{at}.{name} is not of pe"])]
    if isinstance(ours, list) and isinstance(theirs, list) and len(ours) == len(theirs):
        return [it for i, pair in enumerate(zip(ours, theirs)) for it in differences(*pair, f"{at}[{i}]")]
    # a number above 2^53 is a text
    return [] if ours == theirs or ours == str(theirs) else [f"{at}: {ours!r:.80}, there {theirs!r:.80}"]


def texts_differ(ours, theirs):
    """Where the strings of version information are of one language, those that have names of their own."""
    languages = (theirs.get("version") or {}).get("languages") or []
    strings = languages[0]["strings"] if len(languages) == 1 else None
    texts = (ours.get("version") or {}).get("texts")
    if strings is None or texts is None:
        return []
    return differences(texts, {name: strings.get(name) for name in texts}, ".version.texts")


def lacking(ours, theirs, at=""):
    """The fields that pe has and ours have not, without the indexes of lists."""
    if isinstance(ours, dict) and isinstance(theirs, dict):
        return {f"{at}.{name}" for name in theirs if name not in ours} | {
            it for name in ours if name in theirs for it in lacking(ours[name], theirs[name], f"{at}.{name}")}
    if isinstance(ours, list) and isinstance(theirs, list):
        return {it for pair in zip(ours, theirs) for it in lacking(*pair, f"{at}[]")}
    return set()


def unlike(ours, theirs):
    """Where the facts of an image are not those of pe, whose file may have another name, or lack what is not in LEFT_OUT."""
    if theirs["file_kind"] in OTHERS and theirs["error"] is None:
        return differences((ours["error"] or {}).get("name"), "BAD_MAGIC", ".error.name")
    left = {name: value for name, value in ours.items() if name not in ("file", "file_kind")}
    found = {re.sub("_(error|is_limited)$", "", it): it for it in lacking(ours, theirs)}
    more = sorted(found[it] for it in found.keys() - LEFT_OUT.keys())
    return differences(left, theirs) + texts_differ(ours, theirs) + [f"{it} is left out" for it in more]
