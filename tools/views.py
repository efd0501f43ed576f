"""The views: functions by which contracts compare a result or a written value, and the laws that they leave nothing out.

A contract 'view result ≡ E' says nothing of a field that the view drops. So each view has a law: where two values have one
view, they have one of each field. A reference is compared by what it refers to, a Vec by its items, a field whose type has
a view by that view, which has a law of its own. What stays open is where bytes stand in memory, and capacities. A view that
leaves more has a row in tools/views.toml, which says what and why. The laws stand in no crate: the check of a copy has them.
"""

import collections
import functools
import glob
import os
import re
import tomllib

DEFINED = re.compile(r"^(?:abbrev |unfoldable )*pub (\w+) : (.*)$", re.M)
USED = re.compile(r"^ *(?:ghost )?use (Rattle\.(\w+)\.specs\.[\w.]+?)\.?\{([^}]*)\}", re.M)
TYPE = re.compile(r"^(?:pub(?:\([a-z ]+\))? )?(struct|enum) (\w+)(?:<[^{(;]*?>)?\s*([{(])", re.M)
ALIAS = re.compile(r"^(?:pub )?type (\w+)(?:<.*>)? =\s*([^;]*);", re.M)
MODEL = re.compile(r"^impl.* Model for (\w+)", re.M)
CLAUSE = re.compile(r"\bensures\*?(?:\s+\w+)?:?\s*\{")
# In a clause: a function right before what is compared, alone or lifted, or named as a view. And one without a name.
BEFORE = re.compile(r"\b([a-z]\w*)(?:\)|(?: \(\w+ [\w.]+\))?) (?:result|\w+(?:\.\w+)*\.new)\b|\b(\w+_views?)\b")
NAMELESS = re.compile(r"\b(?:[A-Z]\w*|option_map|answer_by|map) \((λ (?:[^()]|\((?:[^()]|\([^()]*\))*\))*)\) result\b")
LEAVES_NOTHING = re.compile(r"λ (\w+)\. (?:Some \(?)?(?:map )?(?:\w+_view |\(λ s\. s\.now\) )?\1(?:\.now|\.items)?\)?")
NAMED = re.compile(r"\w+_views?\Z")
BUILT_IN = {*"bool char str u8 u16 u32 u64 u128 usize i8 i16 i32 i64 AllocError ℕ Bool Unit Result".split()}
HEAD = """//! The law of a view.

ghost use Rattle.std.specs.Prelude.{◌≡◌, ◌≢◌, ℕ, List, Option, Result, Bool, map};
ghost use Rattle.std.specs.Borrow.{Bor};
ghost use Rattle.std.specs.Option.{option_map};
"""

View = collections.namedtuple("View", "name place implicit given")
Type = collections.namedtuple("Type", "kind members place")
# The text of a function, the imports that it needs, and the file of the crate, its own, in which both stand.
Law = collections.namedtuple("Law", "view text uses file")


def read_table():
    """The rows of views.toml."""
    with open(os.path.join(os.path.dirname(os.path.realpath(__file__)), "views.toml"), "rb") as file:
        return tomllib.load(file)


class Unseen(Exception):
    """Says why a view can have no law."""


@functools.lru_cache(maxsize=None)
def parts(text, mark=","):
    """The parts of a text between marks that stand in no brackets."""
    found, depth = [""], 0
    for it in text.replace("->", "\0"):
        depth += (it in "([{<") - (it in ")]}>")
        found = [*found, ""] if it == mark and depth == 0 else [*found[:-1], found[-1] + it]
    return [it.strip() for it in found if it.strip()]


def inside(text, at):
    """What stands in the bracket at an offset."""
    end, depth = at + 1, 1
    while depth:
        depth += (text[end] in "([{") - (text[end] in ")]}")
        end += 1
    return text[at + 1:end - 1]


@functools.lru_cache(maxsize=None)
def tree(text):
    """A type, as Rust or a definition writes it, as its head and what it is made of."""
    text = re.sub(r"'\w+ ?|\bmut |\b[a-z]\w*(?:::|\.)", "", text).strip()
    factors, words = parts(text, "×"), parts(text, " ")
    if len(factors) == 1 and text[0] == "(":
        factors = parts(text[1:-1])
    if len(factors) > 1:
        return ("×", *map(tree, factors))
    if text[0] in "([&":
        inner = tree(text[1:] if text[0] == "&" else text[1:-1].split(";")[0])
        return inner if text[0] == "(" else ("Bor" if text[0] == "&" else "List", inner)
    if len(words) > 1:
        return (words[0], *map(tree, words[1:]))
    head, _, rest = text.partition("<")
    return (head.strip(), *map(tree, parts(rest.rstrip()[:-1])))


class Views:
    """The types and views that a crate sees. `crates` has all crates by name, and `by` views named otherwise."""

    def __init__(self, crates, name, by):
        self.types, self.aliases, self.views, self.by, self.known = {}, {}, {}, by, {*BUILT_IN}
        for crate in [crates[it] for it in [*crates[name].below, name]]:
            for file, text in crate.texts.items():
                # What a Model is compared by is its value, and its impl has a row in the table.
                self.known.update(MODEL.findall(text))
                self.aliases.update({it: tree(of) for it, of in ALIAS.findall(text) if it not in BUILT_IN})
                module = ".".join(it for it in file[len("src/"):-len(".rt")].split("/") if it not in ("lib", "main"))
                for it in TYPE.finditer(text):
                    body = re.sub(r"//[^\n]*|#\[[^\n]*\]\n", "", inside(text, it.end() - 1))
                    members = [one for one in parts(body) if not one.startswith("ghost ")]
                    members = [re.sub(r"^pub(?:\([a-z ]+\))? ", "", one) for one in members]
                    if it[3] == "(":
                        members = [f"{at}: {one}" for at, one in enumerate(members)]
                    place = ".".join(filter(None, [f"Rattle.{crate.name}.specs.declared", module, it[2]]))
                    self.types[it[2]] = Type(it[1], members, place)
            for path in sorted(glob.glob(f"{crate.folder}/specs/**/*.antt", recursive=True)):
                place = f"Rattle.{crate.name}.specs." + path[len(f"{crate.folder}/specs/"):-len(".antt")].replace("/", ".")
                with open(path, encoding="utf-8") as file:
                    for it, said in DEFINED.findall(file.read()):
                        given = parts(said, "→")[:-1]
                        implicit = ", ".join(", ".join(one[1:-1].split(":")[0].split()) for one in given if one[0] == "{")
                        self.views[f"{place}.{it}"] = View(it, place, implicit, [one for one in given if one[0] != "{"])

    def view_of(self, name):
        """The view by which a field of a type is compared."""
        found = [it for it in self.views.values() if NAMED.match(it.name) and [tree(one)[0] for one in it.given] == [name]]
        return self.views.get(self.by.get(name), found[0] if found and name in self.types else None)

    def members(self, name):
        """The fields of a struct, or the variants of an enum, by their names, with the types of what they hold."""
        if self.types[name].kind == "struct":
            pairs = [it.split(":", 1) for it in self.types[name].members if "PhantomData" not in it]
            return [(field.strip(), tree(of)) for field, of in pairs]
        split = [re.split(r"(?=[({])", it.split("=")[0] + "()", maxsplit=1) for it in self.types[name].members]
        return [(it.strip(), [tree(one.split(":", 1)[-1]) for one in parts(inside(held, 0))]) for it, held in split]

    def seen(self, of, at, uses, deep=0):
        """What is compared of the value `at` of a type: itself, where nothing in it has a view or is a reference."""
        head, *inner = self.aliases.get(of[0], of)
        if head == "Bor":
            return self.seen(inner[0], f"{at}.now", uses, deep)
        if head in ("List", "Vec", "Option"):
            at, one = at + ".items" * (head == "Vec"), self.seen(inner[0], f"x{deep}", uses, deep + 1)
            return at if one == f"x{deep}" else f"{'option_map' if head == 'Option' else 'map'} (λ x{deep}. {one}) {at}"
        if view := self.view_of(head):
            uses.add(f"{view.place}.{{{view.name}}}")
            return f"{view.name} {at}"
        if head in self.known or len(head) == 1 and head != "×":
            held = [self.seen(it, at, uses) for it in inner]
        elif head not in self.types and head != "×":
            raise Unseen(f"of {head} nothing is known")
        elif head in self.types and self.types[head].kind == "enum":
            held = [self.seen(it, at, uses) for _, them in self.members(head) for it in them]
        else:
            fields = enumerate(inner) if head == "×" else self.members(head)
            shown = [(f"{at}.{field}", self.seen(it, f"{at}.{field}", uses, deep)) for field, it in fields]
            whole = shown[0][1] if len(shown) == 1 else f"({', '.join(it for _, it in shown)})"
            return at if all(one == it for one, it in shown) else whole
        if any(it != at for it in held):
            raise Unseen(f"{head} has no view, and holds a reference")
        return at

    def law(self, view, left):
        """The function whose contract is that a view leaves nothing out: a clause for each field, but for those `left`."""
        if len(view.given) != 1:
            raise Unseen("it is no function of one value")
        shown = re.sub(r"\b[a-z]\w*\.(?=[A-Z])", "", view.given[0])
        (head, *inner), uses, clauses = tree(shown), {f"{view.place}.{{{view.name}}}"}, []
        declared = self.types.get(head) if head not in self.known else None
        if declared and declared.kind == "enum":
            clauses = self.of_variants(self.members(head), view.name, uses, f"of_{head}")
            uses.add(f"{declared.place}.TheVariants as of_{head}")
        else:
            whole = enumerate(inner) if head == "×" else [("", (head, *inner))]
            for field, it in self.members(head) if declared else whole:
                same = " ≡ ".join(self.seen(it, f"{value}.{field}".rstrip("."), uses) for value in "ab")
                clauses.append((field, f"(a b : {shown}) → {view.name} a ≡ {view.name} b → {same}"))
        uses.update(f"{self.types[it].place}.{{{it}}}" for it in re.findall(r"\w+", shown) if it in self.types)
        kept = [(name, clause) for name, clause in clauses if str(name) not in left]
        lines = "".join(f"    ensures of_{'value' if name == '' else name} {{ {clause} }}\n" for name, clause in kept)
        generic = f"<{view.implicit}>" if view.implicit else ""
        where = f"src/view_{view.place.split('.specs.')[1].replace('.', '_').lower()}_{view.name}.rt"
        return Law(view, f"pub fn leaves_nothing{generic}()\n{lines}{{}}\n", sorted(uses), where)

    def of_variants(self, variants, call, uses, place):
        """The clauses of an enum: of each variant what it holds, and that no two variants have one view."""
        clauses = []

        def made(letter, name, held):
            names = [f"{letter}{k}" for k in range(len(held))]
            return "".join(f"({it} : _) " for it in names), f"({' '.join([f'{place}.{name}', *names])})"

        for at, (name, held) in enumerate(variants):
            (first, a), (second, b) = (made(it, name, held) for it in "ab")
            for k, it in enumerate(held):
                same = " ≡ ".join(self.seen(it, f"{value}{k}", uses) for value in "ab")
                clauses.append((f"{name}_{k}", f"{first}{second}→ {call} {a} ≡ {call} {b} → {same}"))
            for other, more in variants[:at]:
                second, b = made("b", other, more)
                given = f"{first}{second}→ " if first or second else ""
                clauses.append((f"{name}_{other}", f"{given}{call} {a} ≢ {call} {b}"))
        return clauses


@functools.cache
def compared_by(crate):
    """By what the contracts of a crate compare: the full names of functions, functions without a name, and each Model."""
    found = set()
    for text in crate.texts.values():
        names = {one.strip(): f"{it[1]}.{one.strip()}" for it in USED.finditer(text) for one in it[3].split(",")}
        found.update(f"Rattle.{crate.name}.specs.Model for {it}" for it in MODEL.findall(text))
        for it in CLAUSE.finditer(text):
            clause = re.sub(r"\s+", " ", re.sub(r"//[^\n]*", "", inside(text, it.end() - 1)))
            found.update(names[one] for pair in BEFORE.findall(clause) for one in pair if one in names)
            nameless = [one for one in NAMELESS.findall(clause) if not LEAVES_NOTHING.fullmatch(one)]
            found.update(f"Rattle.{crate.name}.specs.{one}" for one in nameless)
    return found


def laws(crates, name, table):
    """The laws of a crate's views, and what is wrong: a view without a law and a row, or a row without a view.

    A row 'VIEW' says what a view leaves, and a row 'VIEW.FIELD' that it leaves a field: then the others have the law."""
    seen, rows, own = Views(crates, name, table["by"]), table.get(name, {}), f"Rattle.{name}.specs."
    used = {it for one in crates.values() for it in compared_by(one) if it not in seen.views or seen.views[it].given}
    used = {it for it in used | {it for it in seen.views if NAMED.search(it)} if it.startswith(own)}
    found, faults, said = [], [], set()
    for it in sorted(used):
        whole = {it[len(own):], it.rsplit(".", 1)[-1]} & {*rows}
        fields = [one for one in rows if one.startswith(it.rsplit(".", 1)[-1] + ".")]
        said.update([*whole, *fields])
        try:
            if not whole and it not in seen.views:
                raise Unseen("it has no name")
            found += [] if whole else [seen.law(seen.views[it], [one.split(".", 1)[1] for one in fields])]
        except Unseen as why:
            faults.append(f"{it}: it has no law that it leaves nothing out, and no row in tools/views.toml: {why}")
    return found, faults + [f"tools/views.toml: no contract compares by {name}'s {it}" for it in {*rows} - said]
