"""The LLVM code of the library compiled for another target than the one that it was made for.

The functions that pe.h declares take pointers and integers alone, allocate nothing and call nothing, so their code has nothing
of a target but four things, which are changed as text, and have to be there: the triple and the data layout, which are those
that the compiler has for the target; "target-cpu" and "target-features" of functions, which are left out: the target's least
processor; for Windows `uwtable` for each function, without which one that cannot throw has no unwind table there, and a
debugger or __except cannot find the caller of a call that faults; and for Windows "probe-stack", which elsewhere names a way to
probe the stack and there a function to call: it becomes pe_c_probe_stack, which bindings/targets/windows/chkstk.S is.
"""

import os
import re
import subprocess

from limits import Failed

NAME = re.compile(r'@("(?:[^"\\]|\\.)*"|[\w.$-]+)')
EXPORTED = re.compile(r"pe_c_\w+")


class Unlike(Failed):
    """What of the code is not as it has to be."""


class Compiler:
    """The kit's clang and the tools beside it."""

    def __init__(self, rt):
        self.kit = os.path.dirname(os.path.dirname(os.path.realpath(rt)))
        self.folder = os.path.join(self.kit, "toolchain", "bin")

    def tool(self, name):
        return os.path.join(self.folder, name)

    def layout(self, triple):
        """The target's triple and data layout, as the compiler has them."""
        made = subprocess.run([self.tool("clang"), f"--target={triple}", "-x", "c", "-S", "-emit-llvm", "-o", "-", "-"],
                              input="int one;\n", capture_output=True, text=True, check=True).stdout
        return {it: re.search(rf'^target {it} = "(.*)"$', made, re.M)[1] for it in ("triple", "datalayout")}

    def text(self, code):
        """The text of a file of code."""
        if code.endswith(".ll"):
            with open(code, encoding="utf-8", errors="surrogateescape") as file:
                return file.read()
        words = [self.tool("clang"), "-x", "ir", "-S", "-emit-llvm", "-O0", "-Xclang", "-disable-llvm-passes", "-o", "-", code]
        return subprocess.run(words, capture_output=True, check=True).stdout.decode("utf-8", "surrogateescape")


def reduced(text):
    """The same code without what no function of pe.h needs: beside the tests of pe_c they are a tenth of it."""
    blocks, rest, lines, at = {}, [], text.split("\n"), 0
    while at < len(lines):
        end = at
        if lines[at].startswith("define "):
            while lines[end] != "}":
                end += 1
        block = "\n".join(lines[at:end + 1])
        if block.startswith(("define ", "declare ", "@")):
            blocks[NAME.search(block)[1]] = block
        elif block.startswith(("target ", "source_filename", "attributes ", "!", "$", "%")):
            rest.append(block)
        at = end + 1
    reached = {it for it, block in blocks.items() if EXPORTED.fullmatch(it) and block.startswith("define")}
    left = list(reached)
    while left:
        for name in (set(NAME.findall(blocks[left.pop()])) & blocks.keys()) - reached:
            reached.add(name)
            left.append(name)
    head = [it for it in rest if it.startswith(("target ", "source_filename", "%", "$"))]
    kept = [block for name, block in blocks.items() if name in reached]
    return "\n".join(head + kept + [it for it in rest if it not in head]) + "\n"


def edited(text, pattern, change, least=1):
    """The text with a change at each place where a pattern stands, which are so many or more."""
    text, count = re.subn(pattern, change, text, flags=re.M)
    if count < least:
        raise Unlike(f"the code has no {pattern}")
    return text


def retargeted(text, layout):
    """The code for the target with this triple and data layout."""
    text = edited(text, r'^target triple = ".*"$', f'target triple = "{layout["triple"]}"')
    text = edited(text, r'^target datalayout = ".*"$', f'target datalayout = "{layout["datalayout"]}"')
    text = edited(text, r' ?"target-(?:cpu|features)"="[^"]*"', "", 0)
    text = edited(text, r"^(attributes #\d+ = \{ .*)sanitize_address ", r"\1", 0)
    if "-windows-" in layout["triple"]:
        text = edited(text, r' ?"stack-probe-size"="[^"]*"', "", 0)
        text = edited(text, r'"probe-stack"="[^"]*"', '"probe-stack"="pe_c_probe_stack"')
        used = set(re.findall(r"^define .*\) (?:unnamed_addr |local_unnamed_addr )?#(\d+)", text, re.M))
        plain = re.findall(r"^define (?!.*#\d+).*$", text, re.M)
        if plain or not used:
            raise Unlike(f"functions without attributes: {plain[:3]}")
        text = edited(text, rf"^(attributes #(?:{'|'.join(sorted(used))}) = \{{ )", r"\1uwtable ", len(used))
    return text


def compiled(compiler, text, triple, out, flags=()):
    """Writes the object of the code for the target."""
    layout = compiler.layout(triple)
    made = subprocess.run([compiler.tool("clang"), f"--target={triple}", "-x", "ir", "-c", "-ffunction-sections",
                           "-fdata-sections", *flags, "-o", out, "-"], input=retargeted(text, layout).encode("utf-8", "surrogateescape"),
                          capture_output=True)
    if made.returncode != 0 or made.stderr:
        raise Unlike(made.stderr.decode("utf-8", "replace")[-2000:])
