"""What the tools share: contents of files, a tool as a module, how each says its use and its counts."""

import importlib.machinery
import importlib.util
import os
import shutil
import sys

TOOLS = os.path.dirname(os.path.realpath(__file__))
TOP = os.path.dirname(TOOLS)


def bytes_of(*path):
    """The bytes of a file, whose path may be given in parts."""
    with open(os.path.join(*path), "rb") as file:
        return file.read()


def text_of(*path):
    with open(os.path.join(*path), encoding="utf-8") as file:
        return file.read()


def write(content, *path):
    """Writes a file of bytes or of a text, in a folder that is made for it. Returns its path."""
    name = os.path.join(*path)
    os.makedirs(os.path.dirname(name) or ".", exist_ok=True)
    with open(name, "wb") as file:
        file.write(content.encode() if isinstance(content, str) else content)
    return name


def copy(source, *path, mode=0o644):
    """Copies a file into a folder that is made for it."""
    name = os.path.join(*path)
    os.makedirs(os.path.dirname(name) or ".", exist_ok=True)
    shutil.copyfile(source, name)
    os.chmod(name, mode)


def files_below(folder):
    """The paths of all files below a folder, in order."""
    return sorted(os.path.join(place, it) for place, _, names in os.walk(folder) for it in names)


def tool(name, folder=TOOLS):
    """A tool, whose name has no ending, as a module."""
    loader = importlib.machinery.SourceFileLoader(os.path.basename(name), os.path.join(folder, name))
    made = importlib.util.module_from_spec(importlib.util.spec_from_loader(loader.name, loader))
    loader.exec_module(made)
    return made


def misused(about):
    """Says how a tool is called. Returns its status."""
    print(about.strip(), file=sys.stderr)
    return 2


def ended(passed, failed):
    """The last line of a tool. Returns its status."""
    print(f"{passed} passed, {failed} failed")
    return 1 if failed else 0


def written_or_checked(tool_name, words, texts, complaints=None):
    """What a tool does that writes files whole, by their paths from the top: it writes those that differ, or with --check says which do,
    and what else is wrong. Returns its status."""
    if words not in ([], ["--check"]):
        return misused(f"usage: tools/{tool_name} [--check]")
    unlike = [it for it in texts if not os.path.exists(os.path.join(TOP, it)) or text_of(TOP, it) != texts[it]]
    if not words:
        for it in unlike:
            write(texts[it], TOP, it)
        return 0
    wrong = [f"{it} is not what tools/{tool_name} writes" for it in unlike] + (complaints or [])
    print("".join(f"{it}\n" for it in wrong), end="")
    return ended(len(texts) - len(unlike) + (complaints == []), len(wrong))
