"""A crate of the repository, and a room: a copy of it in which a check proves some functions without the bodies of all others.

A check proves each function by itself, over the contracts of what it calls. So the bodies and proofs of the functions that are
not asked for are left out, as `unreachable!()` and one hole, since `rt ci` proves them.
"""

import collections
import functools
import os
import re
import shutil
import subprocess
import sys

from contents import text_of, write

PARTS = ("src", "specs", "proofs")
# The body and the proof of a function that is left out. The borrow checker follows no raw pointer, so a check makes no part
# of a proof for such a body. All such proofs cite one hole: of a hole in each, a check would print the goal, and offer a proof.
# It is one line, since a brace at the start of a line ends an impl for functions_of.
BODY_LEFT_OUT = "{ let mut place = 0u8; let _pointer = &raw mut place; unreachable!() }"
PROOF_LEFT_OUT = "pub left_out {ℓ} : {A : Type ℓ} → A\nleft_out = ?\n"
# The file of the hole. No type of a crate may have its name.
HOLE = "HoleOfWhatIsLeftOut"
ANSWERS = ("Answers.antt", "Invariants.antt")
# An answer that antt refuses. Of a function whose file has one, a check offers no answers for the goals that are open: to do so antt
# runs once more.
REFUSED_ANSWER = "is_no_answer"
# What a check says of the answers of a function that it states no proof of, as where the borrow checker does not cover it.
UNREAD = "rattle does not read"
HEAD = re.compile(r"^[ \t]*(?:pub(?:\([a-z ]+\))? )?(?:const )?(?:unsafe )?(?:extern \"C\" )?fn (\w+)", re.M)
IMPL = re.compile(r"^impl(?:<[^{]*?>)? (?:(?:\w+::)*(?P<trait>\w+)(?:<(?P<of>\w[^{]*?)>)? for )?(?P<ref>&'\w+ )?(?P<type>\w+)(?P<args><(?:[^<>{]|<[^<>{]*>)*>)?", re.M)
TYPE = re.compile(r"^(?:pub(?:\([a-z ]+\))? )?(?:struct|enum|trait) (\w+)", re.M)
OPENS_A_CLAUSE = re.compile(r"(?:requires|ensures|ghost)\*?(?:\s+\w+)?:?\s*\Z")
SAID = re.compile(r"^fn (\S+): (.*)$", re.M)
ERROR = re.compile(r"^(?:\./)?((?:src|specs|proofs)/[^\s:]+)(?::(\d+):\d+)?: error(.*)$", re.M)
GOAL = re.compile(r"`search` did not prove ([^;]*)")
# The same beside a stored answer that antt refuses: where the function stands, and the goal.
OPEN_GOAL = re.compile(r"^note: (src/[^\s:]+):(\d+):\d+: (?:it is not proved that [^\n]*?|`search` found no proof )\((`[^`\n]+`)\)", re.M)
# What a check prints as it ends with a function.
ENDED = re.compile(r"checked \w+?::(\S+), \d+ of \d+")
IS_UNPROVED = re.compile(r"not proved|no proof|could not tell")
ENDS_WELL = re.compile(r"^only=\d+ holes=\d+$", re.M)
ATTRIBUTES = re.compile(r"(?:[ \t]*(?:///|#\[)[^\n]*\n)*\Z")

Function = collections.namedtuple("Function", "name type trait start body end")


class Unusable(Exception):
    """Says why an edit, or all edits of a crate, cannot be tried."""


def trait_of(impl):
    """How a check names the trait of an impl: From<u16> is FromU16, Steps<Kept<'a, Range>, Import> is StepsKeptRangeImport; '' stands
    for none."""
    names = re.findall(r"\w+", re.sub(r"'\w+", "", impl["of"] or ""))
    return (impl["trait"] or "") + "".join(it[:1].upper() + it[1:] for it in names)


def type_of(impl):
    """How a check names the type of an impl: a type's own methods for Pair<'a, Result<E>> alone are in Pair+Result+E."""
    own = not impl["trait"] and "<" in (impl["args"] or "")[1:]
    return impl["type"] + "".join(f"+{it}" for it in re.findall(r"\b[A-Z]\w*", impl["args"] or "") if own)


@functools.lru_cache(maxsize=None)
def functions_of(text):
    """The functions with a body: their names, the impl that they stand in, and where head and body start and the body ends."""
    impls = [(m.start(), text.find("\n}", m.start()), type_of(m), trait_of(m)) for m in IMPL.finditer(text)]
    found = []
    for head in HEAD.finditer(text):
        body, braces, brackets, at = None, 0, 0, head.end()
        while at < len(text) and not (text[at] == ";" and braces == brackets == 0):
            if text[at] in "[(":
                brackets += 1
            elif text[at] in "])":
                brackets -= 1
            elif text[at] == "{":
                if braces == 0 and not OPENS_A_CLAUSE.search(text[max(head.start(), at - 60):at]):
                    body = at
                braces += 1
            elif text[at] == "}":
                braces -= 1
                if braces == 0 and body is not None:
                    break
            at += 1
        if body is not None:
            around = [(kind, trait) for start, end, kind, trait in impls if start < head.start() < end]
            kind, trait = around[-1] if around else (None, None)
            found.append(Function(head[1], kind, trait, head.start(), body, at))
    return found


def module_of(file):
    """The module of a source: src/debug/pogo.rt is debug::pogo, and the crate's root is ''."""
    return "::".join(it for it in file[len("src/"):-len(".rt")].split("/") if it not in ("lib", "main"))


def crates_below(name, lines):
    """The crates of the repository that a crate rests on, the lowest first."""
    found = [one for it in lines[name][1] if it in lines for one in (*crates_below(it, lines), it)]
    return [*dict.fromkeys(found)]


def edits_of(path):
    """The edits of a crate by their names, from its file: the source that each edits, and its lines, which stand below '[NAME] SOURCE'."""
    if not os.path.exists(path):
        return {}
    before, *parts = re.split(r"^\[(\w+)\] (src/\S+)\n", text_of(path), flags=re.M)
    if before or len({*parts[::3]}) < len(parts) / 3:
        raise Unusable(f"{path}: text before the first line '[NAME] src/..', or two edits of one name")
    return {name: (source, lines) for name, source, lines in zip(parts[::3], parts[1::3], parts[2::3])}


class Crate:
    """A crate of the repository, its functions by their paths, and its edits."""

    def __init__(self, top, name, lines):
        self.top, self.name, self.folder = top, name, f"{top}/crates/{name}"
        self.kind, self.uses = lines[name]
        self.below = crates_below(name, lines)
        self.texts = {}
        for at, _, files in os.walk(f"{self.folder}/src"):
            for path in (os.path.join(at, it) for it in files):
                self.texts[os.path.relpath(path, self.folder)] = text_of(path)
        # A method stands in the module of its type, wherever its impl does. Types of two modules may have one name.
        self.homes = collections.defaultdict(list)
        for file, text in self.texts.items():
            for m in TYPE.finditer(text):
                self.homes[m[1]].append(module_of(file))
        self.functions, self.files = {}, {}
        for file, text in self.texts.items():
            for it in functions_of(text):
                path = self.path_of(file, it)
                self.functions[path], self.files[path] = it, file
        self.edits = edits_of(f"{self.folder}/edits.txt")

    def path_of(self, file, function):
        """The function's path below the crate, as a check names it."""
        if not function.type:
            return "::".join(it for it in (module_of(file), function.name) if it)
        kind, own = function.type + (function.trait or ""), module_of(file)
        homes = self.homes.get(function.type.split("+")[0], [own])
        return "::".join(it for it in (own if own in homes else homes[0], kind, function.name) if it)

    def can_copy(self, path):
        """Whether the function may stand twice: a copy of it is proved as it is, and nobody else needs its name."""
        function, name = self.functions[path], path.rsplit("::", 1)[-1]
        text = self.texts[self.files[path]][function.start:function.end]
        calls_itself = self.is_cycle(path) or len(re.findall(rf"\b{name}\(", text)) > 1
        return not (function.trait or calls_itself or 'extern "C"' in text)

    def is_law(self, path):
        """Whether nothing else rests on what the function states."""
        calls = re.compile(rf"\b{path.rsplit('::', 1)[-1]}\(")
        return path.startswith("laws::") or sum(len(calls.findall(text)) for text in self.texts.values()) == 1

    def is_cycle(self, path):
        """Whether the function calls itself, or others that call it: these have one proof."""
        return os.path.isdir(self.answers_of(path)[1])

    def answers_of(self, path):
        """The folders of a function's stored answers: its own, and that of functions which call one another."""
        folder, name = os.path.split(f"{self.folder}/proofs/{path.replace('::', '/')}")
        return f"{folder}/{name}", f"{folder}/+{name}"

    def has_answers(self, path):
        """Whether a part of the function's proof is stored."""
        return any(os.path.isfile(f"{it}/{name}") for it in self.answers_of(path) for name in ANSWERS)

    def stays(self, path, function):
        """Whether the body and the proof of a function stay where it is not asked for."""
        file = self.files.get(path)
        head = self.texts[file][self.functions[path].start:self.functions[path].body] if file else ""
        return function.trait or path.startswith("laws::") or "const fn" in head

    def without_bodies(self, file, text, kept):
        """The text of a file in which the functions have no body, but for those that are kept."""
        found = functions_of(text)
        for it in sorted(found, key=lambda one: -one.body):
            path = self.path_of(file, it)
            inside = any(one.body < it.start and it.end < one.end for one in found)
            if not (inside or path in kept or self.stays(path, it)):
                text = f"{text[:it.body]}{BODY_LEFT_OUT}{text[it.end + 1:]}"
        return text

    def with_copy(self, path, edit, text, name):
        """The text of its file with a copy of the function after it, under another name and with an edit, if there is one."""
        file = self.files[path]
        own = edit.applied(self.texts[file]) if edit else self.texts[file]

        def stands(of):
            return next(it for it in functions_of(of) if self.path_of(file, it) == path)

        head, copied = stands(own), path.rsplit("::", 1)[-1]
        start = ATTRIBUTES.search(own[:head.start]).start()
        body = re.sub(rf"\bfn {copied}\b", f"fn {name}", own[start:head.end + 1], count=1)
        end = stands(text).end + 1
        return f"{text[:end]}\n\n{body}{text[end:]}"

    def words(self, kit):
        """The words of a check of this crate over the libraries below."""
        root = "main" if "src/main.rt" in self.texts else "lib"
        words = ["check", "--crate-name", self.name, f"src/{root}.rt"]
        for it in ["std", *self.uses]:
            where = f"{self.top}/crates/{it}/out/rlib" if it in self.below else f"{kit}/rlibs"
            words += ["--extern", f"{it}={where}/{it}.rlib"]
        for it in [f"{kit}/rlibs", *[f"{self.top}/crates/{it}/out/rlib" for it in self.below]]:
            words += ["-L", f"dependency={it}"]
        words += ["--antt-project", f"{kit}/rattle/logic/antt-project.json", "--logic-built", f"{kit}/logic_built"]
        return words + ["--links", f"{self.name}="] + ["--crate-type", "staticlib"] * (self.kind == "staticlib")


class Room:
    """A folder in which a crate is checked without the bodies and proofs of what is not asked for."""

    def __init__(self, crate, name, kit, room, logs):
        self.crate, self.name, self.kit, self.logs = crate, name, kit, logs
        self.room, self.kept = f"{room}/{name}/{crate.name}", f"{room}/{name}/kept"
        os.makedirs(f"{room}/{name}")
        # What functions took, what checks took before the first of them ended, and what they took in all, in seconds of a processor.
        self.checks, self.took, self.starts, self.processor = 0, collections.Counter(), 0.0, 0.0

    def fill(self, texts, asked):
        """Writes the crate with these texts, without the bodies and proofs that are not asked for. Returns what it wrote."""
        shutil.rmtree(self.room, ignore_errors=True)
        for part in PARTS:
            if os.path.isdir(f"{self.crate.folder}/{part}"):
                shutil.copytree(f"{self.crate.folder}/{part}", f"{self.room}/{part}")
        texts = {file: self.crate.without_bodies(file, text, asked) for file, text in texts.items()}
        for file, text in texts.items():
            write(text, f"{self.room}/{file}")
        os.makedirs(f"{self.room}/proofs", exist_ok=True)
        write(PROOF_LEFT_OUT, f"{self.room}/proofs/{HOLE}.antt")
        with open(f"{self.room}/proofs/Lib.antt", "a", encoding="utf-8") as file:
            file.write(f"\nmod {HOLE}\n")
        for path, function in self.crate.functions.items():
            if not (path in asked or self.crate.stays(path, function)):
                self.leave_out(path)
        return texts

    def copy_proofs(self, path, name):
        """Copies the files of a function's proof for a copy of it under another name."""
        part, copied = f"proofs/{path.replace('::', '/')}", path.rsplit("::", 1)[-1]
        # In the room a hole may stand in place of them.
        folder, to = f"{self.crate.folder}/{part}", f"{self.room}/{os.path.dirname(part)}/{name}"
        if not os.path.isdir(folder):
            return
        shutil.copytree(folder, to, dirs_exist_ok=True)
        old = re.compile(rf"(Rattle\.{self.crate.name}\.\w+(?:\.contracts)?\.{re.escape(path.replace('::', '.'))})(?!\w)")
        for at, _, files in os.walk(to):
            for file in (os.path.join(at, it) for it in files):
                text = text_of(file)
                write(old.sub(lambda found: found[1][:-len(copied)] + name, text), file)

    def leave_out(self, path):
        """Puts the one hole in place of a function's proof. Without its body one that calls itself is as any other."""
        folder, cycle = self.own_answers_of(path)
        proofs = f"Rattle.{self.crate.name}.proofs"
        for it in (folder, cycle):
            shutil.rmtree(it, ignore_errors=True)
        os.makedirs(folder)
        name = path.split("::")[-1]
        with open(f"{folder}/Proof.antt", "w", encoding="utf-8") as file:
            file.write(f"use {proofs}.{path.replace('::', '.')}.Statement.{{statement}}\nuse {proofs}.{HOLE}.{{left_out}}\n\n")
            file.write(f"pub {name}_spec : {{M : Type 1}} → statement M\n{name}_spec = left_out\n")

    def own_answers_of(self, path):
        """The folders of a function's stored answers in the room."""
        return [it.replace(self.crate.folder, self.room, 1) for it in self.crate.answers_of(path)]

    def refuse_an_answer(self, path):
        """Adds the answer that antt refuses to a function's file, but where its whole proof is written by hand."""
        folder, cycle = self.own_answers_of(path)
        if not (os.path.isdir(cycle) or os.path.exists(f"{folder}/Proof.antt")):
            os.makedirs(folder, exist_ok=True)
            with open(f"{folder}/Answers.antt", "a", encoding="utf-8") as file:
                file.write(f"\n\npub {REFUSED_ANSWER} : {REFUSED_ANSWER}\n{REFUSED_ANSWER} = {REFUSED_ANSWER}\n")

    def check(self, asked, jobs):
        """What a check of the room prints about the functions that are asked for."""
        words = [f"{self.kit}/bin/rattle", *self.crate.words(self.kit), "--allow-holes"]
        words += ["--jobs", str(jobs), "--incremental", self.kept, "--margin"]
        for path in sorted(asked):
            words += ["--only", path]
        how = {"cwd": self.room, "stdin": subprocess.DEVNULL, "stdout": subprocess.PIPE, "stderr": subprocess.STDOUT}
        lines, last, is_first = [], 0.0, True
        with subprocess.Popen([*words, "--progress"], errors="replace", **how) as ran:
            for line in ran.stdout:
                ended = ENDED.match(line)
                if ended or not line.strip():
                    now = processor_time(ran.pid)
                    if ended and is_first:
                        self.starts, is_first = self.starts + now, False
                    elif ended:
                        self.took[ended[1]] += now - last
                    last = now
                lines.append(line)
            self.processor += processor_time(ran.pid)
        said = "".join(lines)
        self.checks += 1
        if self.logs:
            with open(f"{self.logs}/{self.name}.{self.checks}", "w", encoding="utf-8") as file:
                file.write(said + "".join(f"took {path}: {took:.1f} s\n" for path, took in self.took.most_common()))
        return said

    def own_words(self, said, path):
        """What a check says of a function itself and of the closures in it."""
        head, name = f"{self.crate.name}::{path}".rsplit("::", 1)
        own = re.compile(rf"{re.escape(head)}::(?:{name}|fn::{name}::\S+|\+\S*)\Z")
        return [it[2] for it in SAID.finditer(said) if own.match(it[1]) and IS_UNPROVED.match(it[2])]

    def refusal(self, said, path):
        """What of the function was not proved, where it fails for itself."""
        goals = [goal for words in self.own_words(said, path) for goal in GOAL.findall(words)]
        return goals[0].strip() if goals else None

    def stored_faults(self, said, path):
        """The errors in the function's stored answers, as the goal and the rest, where the function is not proved."""
        head, _, name = f"proofs/{path.replace('::', '/')}".rpartition("/")
        # Functions that call one another, or one that calls itself, have one proof, +NAME.
        folders = (f"{head}/{name}/", f"{head}/+{name}/")
        found = [it[3].strip(" :") for it in ERROR.finditer(said)
                 if it[1].startswith(folders) and REFUSED_ANSWER not in it[3] and UNREAD not in it[3]]
        return found if self.own_words(said, path) else []


def processor_time(process):
    """The seconds of a processor that a process took so far, with those of the processes that it waited for."""
    fields = text_of(f"/proc/{process}/stat").rpartition(")")[2].split()
    return sum(map(int, fields[11:15])) / os.sysconf("SC_CLK_TCK")


def read_lines(top):
    """The crates of crates.txt, lowest first: what kind each is, and the libraries that it uses."""
    lines = {}
    with open(f"{top}/crates.txt", encoding="utf-8") as file:
        for line in file:
            head, _, uses = line.split("#")[0].partition(":")
            if head.strip():
                name, *kind = head.split()
                lines[name] = (" ".join(kind), uses.split())
    return lines


def find_kit():
    """The folder of the Rattle kit, found as tools/kit.sh does."""
    named = os.environ.get("RATTLE_KIT", "")
    rt = next((it for it in (f"{named}/bin/rt", f"{named}/rt") if named and os.access(it, os.X_OK)), shutil.which("rt"))
    if not rt:
        sys.exit("the Rattle kit is missing: put its command rt on PATH, or set RATTLE_KIT to its folder")
    return os.path.dirname(os.path.dirname(os.path.realpath(rt)))
