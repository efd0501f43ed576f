"""What the contract of a function fixes, and the function that shows it.

A contract has one answer if it fixes the result and what each `&mut` argument holds after the call. For such a function f this
module writes another one beside it: whatever meets the clauses of f is what f returns,

    fn f_again(number: u32, again: Result<usize>) -> Result<usize>
        requires again_0 { Returns again (half number) }
        ensures same_0 { seen (λ x. x) kind_of result ≡ seen (λ x. x) kind_of again }
    {
        f(number)
    }

and where f writes an argument, two calls with the same arguments agree:

    fn g_again(number: u32, out: &mut [u8], out_again: &mut [u8]) -> (u32, u32)
        requires again_0 { out_again.old ≡ out.old }
        ensures same_0 { result.0 ≡ result.1 }
        ensures same_1 { out.new ≡ out_again.new }
    {
        (g(number, out), g(number, out_again))
    }

A check knows of a call what the contract says, and nothing else. So it proves these only if that contract alone fixes what is
compared. What is compared is read off the clauses, which have to be of these forms:

- an equation whose one side is the result or a written argument, by itself, a field of it, or seen by a view, and whose other side
  has neither. tools/views.py holds each view to leave nothing out; views that do, by a row of views.toml that names another
  one beside it, count only together.
- a predicate that `[predicates]` of contracts.toml lists, with what it fixes.

A clause of another form fixes nothing here. All of the result and of each written argument has to be fixed: the whole, or each
field of a tuple or a struct.

Where all of these clauses are equations there is nothing to prove: what equals the same is equal. So a check proves those with a
predicate alone, and of the others a sample. Methods of traits have no such function beside them; of these only equations count.
"""

import collections
import functools
import os
import re
import tomllib

import views
from contents import text_of, write
from rooms import IMPL, functions_of

HERE = os.path.dirname(os.path.realpath(__file__))
CLAUSE = re.compile(r"\b(requires|ensures|ghost)(\*?)(?:\s+(\w+))?:?\s*\{")
RECEIVER = re.compile(r"(&(?:'\w+ )?)?(mut )?self")
PARAMETER = re.compile(r"(?:mut )?(\w+): (.*)", re.S)
WRITTEN = re.compile(r"&(?:'\w+ )?mut ")
# Types whose values may be used twice: those that a crate declares with Copy come to these.
COPIED = re.compile(r"&|Option<&|(?:[ui](?:8|16|32|64|128|size)|bool|char|Global)\Z")
DERIVES_COPY = re.compile(r"#\[derive\([^)]*\bCopy\b[^)]*\)\]\s*(?:#\[[^\n]*\]\s*)*(?:pub(?:\([a-z ]+\))? )?(?:struct|enum) (\w+)")
# A reference or a lifetime without a name.
ELIDED = re.compile(r"&(?!')|'_\b")
# A type with a lifetime, other than a reference without a name.
BORROWS = re.compile(r"'(?!static)|(?<=.)&(?!'static)")
STRUCT = re.compile(r"\bstruct (\w+)(?:<[^{(;]*?>)?\s*\{(.*?)^\}", re.S | re.M)
CONDITIONAL = re.compile(r"→|↔")
# What the sides of an equation consist of: terms, and none of the words that join statements.
TERM = re.compile(r'[\w\s.,;:(){}\[\]"\\λ≡∷+*/%^=<>&|-]*')
LAMBDA = re.compile(r"\([^()]*λ(?:[^()]|\([^()]*\))*\)")
PROJECTION = re.compile(r"(?:\.(?:now|items|entry))+\Z")
USE = re.compile(r"^([ \t]*)ghost use ([\w.«»]+)\.\{([^}]*)\}", re.M)
DEFINED = re.compile(r"^(?:abbrev |unfoldable )*pub (\S+) :", re.M)
# What a crate's root makes public.
EXPORT = re.compile(r"^pub (?:mod (\w+);|use [\w:]*?(\w+|\{[^}]*\})(?: as \w+)?;)", re.M)
HEAD_OF_FILE = re.compile(r"(?:(?://!|#!\[)[^\n]*\n|\s*\n)*")
SPECS = "OneAnswer"
COMPARED = """-- What two calls have in common.
use Rattle.std.specs.Prelude.{Result, Ok, Err}

-- the value of a result, seen by a view, or the kind of its error
abbrev pub seen : {X Y E R : Type 0} → (X → Y) → (E → R) → Result X E → Result Y R
seen view kind (Ok x) = Ok (view x)
seen view kind (Err e) = Err (kind e)

-- P holds, unless the result is an error of which `unless` asks nothing
abbrev pub But : {X E : Type 0} → (E → Type 0 → Type 0) → Result X E → Type 0 → Type 0
But unless (Ok x) P = P
But unless (Err e) P = unless e P
"""

Clause = collections.namedtuple("Clause", "kind name text")
# What a clause fixes: an expression, of which targets, and the predicate by which an error is left out of it, or ''.
Fixed = collections.namedtuple("Fixed", "text targets unless")
# A function that shows that another one's contract has one answer: its path, that of the other, its text, the words in its clauses,
# and whether equations show it by their form.
Shown = collections.namedtuple("Shown", "path of text words is_plain")


@functools.cache
def structs_of(crate):
    """Of each struct of a crate what stands in its braces, without comments."""
    return {it[1]: re.sub(r"//[^\n]*", "", it[2]) for text in crate.texts.values() for it in STRUCT.finditer(text)}


def read_table():
    """The rows of contracts.toml."""
    return tomllib.loads(text_of(HERE, "contracts.toml"))


def views_beside():
    """Of each view that leaves something, the views that have to stand beside it, as its rows say."""
    rows = [(view.split(".")[0], why) for part in views.read_table().values() for view, why in part.items()]
    beside = collections.defaultdict(set)
    for view, why in rows:
        if why.endswith("beside this one"):
            beside[view] |= {it for it in re.findall(r"\w+", why) if it != view and it in {name for name, _ in rows}}
    return {view: others for view, others in beside.items() if others}


def views_known(crates, words):
    """The functions that a law or a row of tools/views.py holds to show a value: what contracts compare by, and what is named so."""
    rows = {view.split(".")[0] for part in views.read_table().values() for view in part}
    used = {it.rsplit(".", 1)[-1] for crate in crates for it in views.compared_by(crate) if not it.startswith("Rattle.std.")}
    return rows | used | {it for it in words if views.NAMED.match(it)}


def split_outside(text, mark):
    """The parts of a text between marks that stand in no brackets."""
    parts, depth, last = [], 0, 0
    for at, it in enumerate(text):
        depth += it in "([{" or it == "<" and text[at + 1:at + 2] not in (" ", "=")
        depth -= it in ")]}" or it == ">" and text[at - 1:at] not in ("-", "=", " ")
        if depth == 0 and text.startswith(mark, at):
            parts.append(text[last:at])
            last = at + len(mark)
    return [it.strip() for it in [*parts, text[last:]]]


def end_of_bracket(text, at):
    """Where the bracket ends that starts there."""
    depth = 0
    for end in range(at, len(text)):
        depth += text[end] in "([{<"
        depth -= text[end] in ")]}" or text[end] == ">" and text[end - 1] not in "-="
        if depth == 0:
            return end + 1
    return len(text)


def clauses_of(head):
    """The clauses of a function's head."""
    found = []
    for it in CLAUSE.finditer(head):
        depth, at = 1, it.end()
        while depth and at < len(head):
            depth += (head[at] == "{") - (head[at] == "}")
            at += 1
        found.append(Clause(it[1], it[3] or "", " ".join(head[it.end():at - 1].split())))
    return found


def is_equation(clause):
    """Whether a clause is one equation of terms."""
    return len(split_outside(clause, " ≡ ")) == 2 and bool(TERM.fullmatch(re.sub(r"\{[^{}]*\}", "", clause)))


def words_of(text):
    """The words of an application; what stands in brackets is one word."""
    return [it for it in split_outside(text, " ") if it]


def named(text):
    """A type whose references have a lifetime with a name."""
    return ELIDED.sub(lambda it: "&'again " if it[0] == "&" else "'again", text)


class Contract:
    """A function's signature and clauses, and what they fix."""

    def __init__(self, crates, path, table, known):
        """Of a function of the first of these crates, which knows the structs of all."""
        self.crates, self.crate, self.path, self.function = crates, crates[0], path, crates[0].functions[path]
        crate = self.crate
        self.table, (self.views, self.beside) = table, known
        text = crate.texts[crate.files[path]]
        head = text[self.function.start:self.function.body]
        name = re.search(r"\bfn \w+", head)
        self.visible = re.match(r"\s*((?:pub(?:\([a-z ]+\))? )?)", head)[1]
        at = end_of_bracket(head, name.end()) if head[name.end()] == "<" else name.end()
        end = end_of_bracket(head, at)
        self.is_extern = 'extern "C"' in head[:name.start()]
        self.generic = head[name.end():at]
        self.parameters = [" ".join(it.split()) for it in split_outside(re.sub(r"//[^\n]*", "", head[at + 1:end - 1]), ",") if it]
        clause = CLAUSE.search(head, end)
        front = head[end:clause.start() if clause else len(head)]
        result = re.match(r"\s*->\s*(.*?)\s*(?=\bwhere\b|\Z)", front, re.S)
        where = re.search(r"\bwhere\b.*", front, re.S)
        self.result = " ".join(result[1].split()) if result else ""
        self.result = "" if self.result == "()" else self.result
        self.where = where[0].strip() if where else ""
        self.clauses = clauses_of(head)
        self.types = {"result": self.result}
        for it in self.parameters:
            named = PARAMETER.fullmatch(it)
            own = RECEIVER.fullmatch(it)
            if own and own[1] and own[2]:
                self.types["self.new"] = self.function.type
            elif named and WRITTEN.match(named[2]):
                self.types[f"{named[1]}.new"] = WRITTEN.sub("", named[2])
        if not self.result:
            del self.types["result"]
        fixed = [(clause.text, self.fixed_by(clause.text)) for clause in self.clauses if clause.kind == "ensures"]
        self.fixing = [text for text, found in fixed if found]
        self.fixed = [it for _, found in fixed for it in found]

    def is_public(self):
        return self.visible == "pub "

    def is_for_c(self):
        return self.is_extern

    def targets_in(self, text):
        return [it for it in self.types if re.search(rf"(?<![\w.]){re.escape(it)}(?!\w)", text)]

    def fixed_by(self, clause):
        """What a clause fixes."""
        if CONDITIONAL.search(LAMBDA.sub("", clause)):
            return []
        sides = split_outside(clause, " ≡ ")
        if len(sides) == 2:
            for one, other in (sides, sides[::-1]):
                if self.targets_in(one) and not self.targets_in(other):
                    # The type of a tuple would have to be named: its parts are compared.
                    parts = split_outside(one[1:-1], ",") if one[0] == "(" and "λ" not in one else [one]
                    return [Fixed(it, self.targets_in(it), "") for it in parts if self.targets_in(it) and not self.is_partial(it)]
            return []
        name, *words = words_of(clause)
        if any(it.startswith("{") for it in words):
            return []
        found = []
        for it in self.table["predicates"].get(name, []):
            unless, _, text = it.rpartition(": ")
            text = text.format(*words)
            if self.targets_in(text) and not self.is_partial(text):
                found.append(Fixed(text, self.targets_in(text), unless.removeprefix("unless ")))
        return found

    def is_partial(self, text):
        """Whether an expression may show less than what it speaks of: by an operator, or a function that no law or row holds to it."""
        for it in self.types:
            text = re.sub(rf"(?<![\w.]){re.escape(it)}(?:\.\w+)*", "", text)
        text = re.sub(r"\{[^}]*\}", "", text)
        bound = {*re.findall(r"λ (\w+)\.", text), "self", *self.arguments(), *self.table["seen"]["words"], *self.views}
        words = re.findall(r"(?<![\w.])([a-zA-Z_]\w*)(?!\w*\.[A-Z])", text)
        return bool(re.search(r"[%/*<>&|+-]|==", text)) or any(
            not (it in bound or it.endswith("kind_of") or re.match(r"[A-Z]", it)) for it in words)

    def missing(self):
        """What the clauses do not fix of the result and of the written arguments: the first of it, or ''."""
        if not self.types:
            return "it has no result, and writes nothing"
        if f"{self.crate.name}::{self.path}" in self.table["not_shown"]:
            return self.table["not_shown"][f"{self.crate.name}::{self.path}"]
        for target, of in self.types.items():
            fields = [path for it in self.fixed if target in it.targets for path in self.fields(it.text, target)]
            if not ("" in fields or self.has_all_fields(of, fields)):
                return f"no clause fixes {target}" if not fields else f"its clauses fix parts of {target}: {', '.join(fields)}"
        named = {word for it in self.fixed for word in re.findall(r"\w+", it.text)}
        said = {word for clause in self.clauses for word in re.findall(r"\w+", clause.text)}
        for view, more in self.table["beside"].items():
            if self.is_public() and view in named and more not in said:
                return f"{view} leaves what {more} says"
        alone = sorted(it for it in named if it in self.beside and not self.beside[it] <= named)
        return f"{alone[0]} leaves what {', '.join(self.beside[alone[0]])} has" if alone else ""

    def is_plain(self):
        """Whether all that fixes something is an equation."""
        return all(is_equation(it) for it in self.fixing)

    @staticmethod
    def fields(text, target):
        """The field of a target that an expression shows, '' for the whole, or none where it mixes several."""
        found = re.findall(rf"(?<![\w.]){re.escape(target)}((?:\.\w+)*)", text)
        shown = {PROJECTION.sub("", it).lstrip(".") for it in found}
        return shown if len(shown) == 1 else set()

    def has_all_fields(self, of, fields):
        """Whether these are all fields of a tuple or of a struct of the crates."""
        if of.startswith("("):
            return {str(it) for it in range(len(split_outside(of[1:-1], ",")))} <= {*fields}
        name = re.match(r"\w+", self.function.type if of == "Self" else of or "")
        inside = next((structs_of(it)[name[0]] for it in self.crates if name and name[0] in structs_of(it)), None)
        return inside is not None and {*re.findall(r"^\s*(?:pub(?:\([a-z ]+\))? )?(\w+):", inside, re.M)} <= {*fields}

    def shown(self, copied):
        """The function that shows that the contract has one answer, or None where a parameter is a pattern."""
        if any(not (RECEIVER.fullmatch(it) or PARAMETER.fullmatch(it)) for it in self.parameters):
            return None
        head, clauses, body, compared = self.twice(copied) if [*self.types] != ["result"] or self.is_generic() else self.once()
        lines = ["", "", f"{self.visible}fn {self.function.name}_again{head}", *[self.where] * bool(self.where)]
        lines += [f"    {it.kind} {it.name or f'held_{at}'} {{ {it.text} }}" for at, it in enumerate(self.clauses)
                  if it.kind != "ensures"]
        lines += [f"    requires again_{at} {{ {it} }}" for at, it in enumerate(clauses)]
        lines += [f"    ensures same_{at} {{ {it} }}" for at, it in enumerate(compared)]
        text = "\n".join([*lines, "{", *body, "}"])
        if self.function.type:
            text = re.sub(r"\n(?=.)", "\n    ", text)
        words = {"◌≡◌", *re.findall(r"[A-Za-z_]\w*", " ".join([*compared, *clauses]))}
        return Shown(f"{self.path}_again", self.path, text, words, self.is_plain())

    def impl(self):
        """What stands in brackets after `impl` and after the type of the impl around the function."""
        text = self.crate.texts[self.crate.files[self.path]]
        around = [it for it in IMPL.finditer(text) if it.start() < self.function.start] if self.function.type else []
        if not around:
            return "", ""
        front = text[around[-1].start() + len("impl"):]
        return front[:end_of_bracket(front, 0)] if front[0] == "<" else "", around[-1]["args"] or ""

    def is_generic(self):
        """Whether the result's type has a type parameter, whose values a function may not let go."""
        names = set(re.findall(r"\b([A-Z]\w*)\b\s*(?=[:,>])", f"{self.generic} {self.impl()[0]}"))
        return bool(names & {*re.findall(r"\w+", re.sub(r"\bSelf\b", self.impl()[1], self.result))})

    def own(self):
        """What stands before the name in a call."""
        is_method = any(RECEIVER.fullmatch(it) for it in self.parameters)
        return "self." if is_method else "Self::" if self.function.type else ""

    def arguments(self):
        return [PARAMETER.fullmatch(it)[1] for it in self.parameters if not RECEIVER.fullmatch(it)]

    def once(self):
        """The call, beside a value that meets the same clauses."""
        def other(text, name="again"):
            return re.sub(r"(?<![\w.])result(?!\w)", name, text)

        # In a `requires` all is as it is on entry. In an `ensures` a value that borrows as the result does has what it was then.
        names = "|".join(["self", *self.arguments()])
        clauses = [re.sub(rf"(?<![\w.])({names})\.entry\b", r"\1", other(it)) for it in self.fixing]
        generic, parameters, result = self.generic, self.parameters, self.result
        if ELIDED.search(result) and not any(it.startswith("&") for it in parameters):
            parameters, result = ([named(it) for it in parameters], named(result))
            generic = f"<'again, {generic[1:]}" if generic else "<'again>"
        name = "again.entry" if BORROWS.search(re.sub(r"\bSelf\b", self.impl()[1], result)) else "again"
        compared = [self.unless(it, "result", name, f"{it.text} ≡ {other(it.text, name)}") for it in self.fixed]
        given = ", ".join([*parameters, f"again: {result}"])
        call = f"    {self.own()}{self.function.name}({', '.join(self.arguments())})"
        return f"{generic}({given}) -> {result}", clauses, [call], compared

    def twice(self, copied):
        """Two calls with the same arguments. 'copied' are the types that derive Copy."""
        given, second, again = [], [], {}
        for it in self.parameters:
            receiver, named = RECEIVER.fullmatch(it), PARAMETER.fullmatch(it)
            name, of = ("self", it.replace("self", "Self", 1)) if receiver else (named[1], named[2])
            of = of if not receiver or receiver[1] else "Self"
            base = re.match(r"(?:\w+::)*(\w+)", self.function.type if of == "Self" else of)
            given.append(it if receiver and receiver[1] else name if receiver else f"{name}: {of}")
            if WRITTEN.match(of) or not (COPIED.match(of) or base and base[1] in copied):
                again[name] = "again" if receiver else f"{name}_again"
                given.append(f"{again[name]}: {of}")
            second += [] if receiver else [again.get(name, name)]
        same = [f"{new}.old ≡ {old}.old" if f"{old}.new" in self.types else f"{new} ≡ {old}" for old, new in again.items()]
        first = f"{self.own()}{self.function.name}({', '.join(self.arguments())})"
        own = f"{again['self']}." if "self" in again else self.own()
        calls = [first, f"{own}{self.function.name}({', '.join(second)})"]
        body = [f"    ({', '.join(calls)})"] if self.result else [f"    {it};" for it in calls]
        result = f" -> ({self.result}, {self.result})" if self.result else ""
        return f"{self.generic}({', '.join(given)}){result}", same, body, [self.compared(it, again) for it in self.fixed]

    @staticmethod
    def unless(fixed, first, second, same):
        """The same, unless one of two results is an error that the clause leaves open."""
        return f"But {fixed.unless} {first} (But {fixed.unless} {second} ({same}))" if fixed.unless else same

    @staticmethod
    def compared(fixed, again):
        """That what a clause fixes is the same after both calls."""
        def of_first(text):
            return re.sub(r"(?<![\w.])result(?!\w)", "result.0", text)

        def of_second(text):
            return re.sub(r"(?<![\w.«])\w+(?![\w»])", lambda it: again.get(it[0], "result.1" if it[0] == "result" else it[0]), text)

        same = f"{of_first(fixed.text)} ≡ {of_second(fixed.text)}"
        return Contract.unless(fixed, of_first(fixed.targets[0]), of_second(fixed.targets[0]), same)


class Contracts:
    """The contracts of a crate's functions, and where the words stand that their clauses name."""

    def __init__(self, crate, below):
        self.crate, self.copied, self.places = crate, set(), {}
        for it in [crate, *below]:
            for text in it.texts.values():
                self.copied.update(DERIVES_COPY.findall(text))
                for use in USE.finditer(text):
                    for word in use[3].split(","):
                        self.place(word.strip(), use[2])
            for at, _, files in os.walk(f"{it.folder}/specs"):
                for file in files:
                    module = os.path.relpath(f"{at}/{file}", f"{it.folder}/specs")[:-len(".antt")].replace("/", ".")
                    with open(f"{at}/{file}", encoding="utf-8") as spec:
                        for word in DEFINED.findall(spec.read()):
                            self.place(word, f"Rattle.{it.name}.specs.{module}")
        self.places.update({it: f"Rattle.{crate.name}.specs.{SPECS}" for it in ("seen", "But")})
        self.places["◌≡◌"] = "Rattle.std.specs.Prelude"
        table, known = read_table(), (views_known([*below, crate], self.places), views_beside())
        known = {path: Contract([crate, *below], path, table, known) for path in sorted(crate.functions) if not path.startswith("laws")}
        self.all = {path: it for path, it in known.items() if not it.function.trait}
        # Methods of traits whose own clauses, beside those of the trait, are equations that fix all.
        self.of_traits = {path: it for path, it in known.items() if it.function.trait and it.fixed and it.is_plain() and not it.missing()}

        root = re.sub(r"//[^\n]*", "", crate.texts.get("src/lib.rt", ""))
        self.exported = {name for it in EXPORT.finditer(root) for name in re.findall(r"\w+", it[1] or it[2])}

    def place(self, word, module):
        """Notes where a word stands, the first place that the crate can name: of its own, of std and of the libraries that it uses itself."""
        library = module.removeprefix("Rattle.").split(".")[0]
        if not module.startswith("Rattle.") or library in ("std", self.crate.name, *self.crate.uses):
            self.places.setdefault(word, module)

    def is_called_from_outside(self, path):
        """Whether other crates can call a function, of the library for C whether C can. Of a program nobody can call any, and of the
        rooms of the library for C that library alone."""
        contract, function = self.all[path], self.all[path].function
        if self.crate.name.startswith("calls_"):
            return False
        if self.crate.kind == "staticlib":
            return contract.is_for_c()
        own = function.type.split("+")[0] if function.type else function.name
        return contract.is_public() and bool({own, path.split("::")[0]} & self.exported)

    def shown(self):
        """The functions that show it, of those whose contract has one answer by its form."""
        found = [it.shown(self.copied) for it in self.all.values() if not it.missing()]
        return [it for it in found if it]

    def with_shown(self, texts, shown):
        """The texts of the crate with these functions, each beside the one that it calls, and the imports that they need."""
        texts = dict(texts)
        for file in sorted({self.crate.files[it.of] for it in shown}):
            here = [it for it in shown if self.crate.files[it.of] == file]
            own, text, needed = self.crate.texts[file], texts[file], collections.defaultdict(set)
            for it in here:
                end = next(one for one in functions_of(text) if self.crate.path_of(file, one) == it.of).end + 1
                text = text[:end] + it.text + text[end:]
                for word in it.words - names_in_scope(own, self.crate.functions[it.of]):
                    if word in self.places:
                        needed[self.places[word]].add(word)
            lines = "".join(f"ghost use {place}.{{{', '.join(sorted(words))}}};\n" for place, words in sorted(needed.items()))
            at = HEAD_OF_FILE.match(text).end()
            texts[file] = text[:at] + lines + text[at:]
        return texts


def names_in_scope(text, function):
    """The names that a file's `ghost use` lines bring into the scope of a function, and all of the file's own."""
    impls = [(it.start(), text.find("\n}", it.start())) for it in IMPL.finditer(text)]
    names = set()
    for it in USE.finditer(text):
        around = [one for one in impls if one[0] < it.start() < one[1]]
        if not around or around[0][0] < function.start < around[0][1]:
            names.update(word.strip().split(" as ")[-1] for word in it[3].split(","))
    return names


class Shows:
    """What a check of a crate has to prove beside its edits: that contracts have one answer, and that views leave nothing out."""

    def __init__(self, contracts, functions, laws):
        self.contracts, self.functions, self.laws = contracts, functions, laws

    def names(self):
        """What each function that is added shows, by its path."""
        found = {it.path: f"{it.of} has one answer" for it in self.functions}
        found.update({self.path_of(it): f"{it.view.name} leaves nothing out" for it in self.laws})
        return found

    @staticmethod
    def path_of(law):
        return f"{os.path.basename(law.file)[:-len('.rt')]}::leaves_nothing"

    def added_to(self, texts):
        """The texts of the crate with these functions."""
        texts = self.contracts.with_shown(texts, self.functions)
        for it in self.laws:
            texts[it.file] = views.HEAD + "".join(f"ghost use {use};\n" for use in it.uses) + f"\n/// The law.\n{it.text}"
        root = "src/main.rt" if "src/main.rt" in texts else "src/lib.rt"
        texts[root] += "".join(f"\nmod {os.path.basename(it.file)[:-len('.rt')]};\n" for it in self.laws)
        return texts

    def write_specs(self, room):
        """Writes the definitions that they cite into the room."""
        os.makedirs(f"{room}/specs", exist_ok=True)
        write(COMPARED, f"{room}/specs/{SPECS}.antt")
        with open(f"{room}/specs/Lib.antt", "a", encoding="utf-8") as file:
            file.write(f"\npub mod {SPECS}\n")

    def part(self, number, count):
        """One of so many parts of them."""
        return Shows(self.contracts, self.functions[number::count], self.laws[number::count])

    def without(self, paths):
        """The rest, without some."""
        return Shows(self.contracts, [it for it in self.functions if it.path not in paths],
                     [it for it in self.laws if self.path_of(it) not in paths])

    def count(self):
        return len(self.functions) + len(self.laws)

    def texts(self):
        """By the path of each function its text, and the functions that it speaks of."""
        found = {it.path: (it.text, {it.of}) for it in self.functions}
        found.update({self.path_of(it): (it.text, set()) for it in self.laws})
        return found
