"""What bindings/pe.h declares: its calls, its records with their layouts, its constants, each with its comment, its version and
the number of its ABI; and its own functions, which are defined there and are no calls of the library: those that make one call
have its parameters but for what they pass themselves, and those that make two pass what the first writes to the second.

The header is C11 of a few plain forms, and a form that is not known is an error. All targets of the library are little-endian, with
pointers of 64 bits, and a number is aligned to its width on each, so a record has one layout on all of them."""

import dataclasses
import os
import re

from contents import TOP, text_of

PE_H = os.path.join(TOP, "bindings", "pe.h")
# A comment right above something.
ABOUT = r"(?:/\*((?:(?!\*/).)*?)\*/\n)?"
WIDTHS = {"char": 1, "uint8_t": 1, "uint16_t": 2, "uint32_t": 4, "uint64_t": 8, "size_t": 8, "int16_t": 2}


@dataclasses.dataclass(frozen=True)
class Field:
    """A field of a record: its offset in bytes, and how many values an array has, or 0. A pointer is one to constant values; a
    record may have some inside. `about` is the comment after it, on one line."""
    name: str
    type: str
    offset: int
    count: int
    is_pointer: bool = False
    has_pointers: bool = False
    about: str = ""

    def kind(self):
        """Its type in C, but for const and the length of an array."""
        return f"{self.type} *" if self.is_pointer else self.type


@dataclasses.dataclass(frozen=True)
class Record:
    """A record. `about` is the comment above it, in its lines."""
    name: str
    size: int
    align: int
    fields: tuple
    about: str

    def has_pointers(self):
        return any(it.has_pointers for it in self.fields)


@dataclasses.dataclass(frozen=True)
class Parameter:
    """A parameter: a number, or a pointer to a type, which the call writes unless it is const."""
    name: str
    type: str
    is_pointer: bool
    is_const: bool

    def text(self):
        return f"{'const ' if self.is_const else ''}{self.type} {'*' if self.is_pointer else ''}{self.name}"


@dataclasses.dataclass(frozen=True)
class Call:
    """A call: `name` is its whole name, `about` the comment above it, in its lines; calls with no line between have the same."""
    name: str
    result: str
    parameters: tuple
    about: str

    def names(self):
        return tuple(it.name for it in self.parameters)

    def declaration(self, name=None, kind=""):
        """Its declaration in C, under another name if one is given."""
        words = ", ".join(it.text() for it in self.parameters) or "void"
        return f"{kind}{self.result} {name or self.name}({words})"


@dataclasses.dataclass(frozen=True)
class Function(Call):
    """A function that the header defines, by a call: `made` is its name, `passed` its arguments as they stand there, `none` what the
    function returns where the call is done and writes no entry, and "" where it returns what the call does. `walk` has the fields of a
    walk that it makes for the call, as they stand there. One that makes a call over a list of one entry, which the walk has too, has the
    record `found`. One that makes two calls has the record `found` that the first writes, and the second as `then` with `then_passed`;
    `most` is the parameter above whose largest number it returns PE_C_NOTHING, and that number. One that returns a field of the record
    `found` that the call writes has its name as `field`."""
    made: str
    passed: tuple
    none: str = ""
    walk: tuple = ()
    found: str = ""
    then: str = ""
    then_passed: tuple = ()
    most: tuple = ()
    field: str = ""
    set: tuple = ()


class Unknown(Exception):
    """What of the header is in no form that is known."""


def without_comments(text):
    return re.sub(r"/\*.*?\*/", "", text, flags=re.S)


def plain(comment):
    """The lines of a comment, without stars and the title of a section; "" without one."""
    return re.sub(r"^---- .*\n+", "", re.sub(r"\n *\*(?: |$)", "\n", comment or "", flags=re.M).strip())


def on_one_line(comment):
    return " ".join(plain(comment).split())


# The list of all calls near the top, and a title of a section or something that is called, with the comment above it.
CALL_LIST = re.compile(r"^/\* All calls, .*?\*/$", re.M | re.S)
NOT_NULL = r"(?:PE_C_(?:RESULT|NOT_NULL)\([\d, ]+\)\n)?"
# Functions of pe.h of other forms, which are small: other languages have them by hand.
BY_HAND = "pe_c_plan_from", "pe_c_dump_thread_context", "pe_c_dump_thread_context_arm64"
LISTED = re.compile(rf"^/\* ---- (?P<title>.*?)(?: \*/)?$|^{ABOUT}^{NOT_NULL}(?:static inline )?(?:const )?\w+ \*?(?P<name>pe_c_\w+)\(",
                    re.M | re.S)
WIDTH = 127


def listed_calls(whole):
    """The list of all calls: by the sections of the header, of each its name and the start of its comment."""
    lines, head = ["/* All calls, in the order of this header, each with the start of its comment. tools/check_docs --map writes the list."], ""
    rest = CALL_LIST.sub("", whole)
    found = [(it["title"] or "", it["name"], first_sentence(it[0])) for it in LISTED.finditer(rest)
             if not (it["name"] or "").startswith("pe_c_abi_")]
    wide = max(len(name) for _, name, _ in found if name)
    for title, name, said in found:
        if title:
            head = title
            continue
        if head:
            lines.append(f" * {head}")
            head = ""
        room = WIDTH - wide - 6
        said = said or "as the call above"
        short = said if len(said) <= room else said[:room - 3].rsplit(" ", 1)[0].rstrip(",;:") + " .."
        lines.append(f" *   {name:<{wide}} {short}")
    return "\n".join([*lines, " */"])


def first_sentence(text):
    """The first sentence of the comment that a text starts with, or ""."""
    comment = re.match(r"/\*(.*?)\*/", text, re.S)
    return re.split(r"(?<=[a-z0-9_)])[.:](?=\s|$)", on_one_line(comment[1]))[0] if comment else ""


class Header:
    """The header, read."""

    def __init__(self, path=PE_H):
        whole = text_of(path)
        text = without_comments(whole)
        texts, text = self.without_functions(text)
        self.version = re.search(r'^#define PE_C_VERSION "(.*)"$', text, re.M)[1]
        self.records = self.read_records(text, whole)
        kinds, comments = {*WIDTHS, *self.records}, self.comments_of_calls(whole)
        self.steps, text = self.read_steps(text, comments, kinds)
        self.functions = (*texts, *self.steps)
        self.calls = self.read_calls(text, comments, kinds)
        self.constants = self.read_constants(text)
        self.results = self.read_constants(re.search(r"\benum pe_c_result \{.*?\}", text, re.S)[0])
        # Of each constant that has one the comment after it, on one line.
        comments = re.findall(r"^    (PE_C_\w+) = \d+,?[ \t]*/\*(.*?)\*/", whole, re.M | re.S)
        self.about = {name: on_one_line(it) for name, it in comments}
        self.abi = next(int(name.removeprefix("pe_c_abi_")) for name in self.calls if name.startswith("pe_c_abi_"))

    @staticmethod
    def without_functions(text):
        """The names of the functions that the header defines, and the text without them. One of another form stays in the text, and
        is refused there."""
        form = (r"^static inline const char \*(pe_c_\w+)\(uint32_t \w+\)\n\{\n(?:    .*\n)*\}\n|"
                rf"^{NOT_NULL}static inline \w+ ({'|'.join(BY_HAND)})\([^)]*\)\n\{{\n(?:    .*\n)*\}}\n")
        return tuple(one or other for one, other in re.findall(form, text, re.M)), re.sub(form, "", text, flags=re.M)

    @staticmethod
    def read_records(text, whole):
        sizes = {name: int(size) for name, size in re.findall(r"^PE_C_SIZE\((\w+), (\d+)\);", text, re.M)}
        records = {}
        for about, body, name in re.findall(rf"{ABOUT}typedef struct \{{(.*?)\}}\s*(\w+);", whole, re.S):
            fields, end, most = [], 0, 1
            for declared, comment in re.findall(r"\s*([^;]*);(?:[ \t]*/\*(.*?)\*/)?", body, re.S):
                form = re.fullmatch(r"(const )?(\w+) (\*?)([^*]+)", declared)
                if not form or bool(form[1]) != bool(form[3]) or form[2] not in WIDTHS and form[2] not in records:
                    raise Unknown(f"{name}: the field {declared}")
                kind, star, names = form.groups()[1:]
                size, align = (8, 8) if star else (WIDTHS[kind],) * 2 if kind in WIDTHS else (records[kind].size, records[kind].align)
                for one in names.split(","):
                    field, count = re.fullmatch(r"\s*(\w+)(?:\[(\d+)\])?", one).groups()
                    offset = -(-end // align) * align
                    has_pointers = bool(star) or kind in records and records[kind].has_pointers()
                    fields.append(Field(field, kind, offset, int(count or 0), bool(star), has_pointers, on_one_line(comment)))
                    end, most = offset + size * int(count or 1), max(most, align)
            records[name] = Record(name, -(-end // most) * most, most, tuple(fields), plain(about))
        reckoned = {name: it.size for name, it in records.items()}
        if reckoned != sizes:
            raise Unknown(f"sizes of records: {sorted(set(reckoned.items()) ^ set(sizes.items()))}")
        return records

    @staticmethod
    def read_steps(text, comments, kinds):
        """The functions that make one call or two, by their names, and the text without them."""
        form = re.compile(r"^(?:PE_C_RESULT\([\d, ]+\)\n)?static inline (uint32_t) (pe_c_\w+)\(([^)]*)\)\n\{\n"
                          r"(?:(?:    pe_c_\w+ walk = \{(.*)\};\n)?    return (\w+)\((.*)\);\n"
                          r"|    (pe_c_\w+) found = PE_C_EMPTY;\n    uint64_t written = 0;\n    return (\w+)\((.*)\);\n"
                          r"|    uint64_t written = 0;\n    uint32_t result = (\w+)\((.*)\);\n"
                          r"    return result == PE_C_DONE && written == 0 \? \(uint32_t\)(PE_C_\w+) : result;\n)\}\n", re.M)
        def of(name, result, body, made, passed, **more):
            own = Header.parameters(name, body, kinds), comments.get(name, "")
            return Function(name, result, *own, made, tuple(passed.split(", ")), **more)

        steps = {}
        for result, name, body, walk, one, its, found, moved, all_its, listed, passed, none in form.findall(text):
            steps[name] = of(name, result, body, one or moved or listed, its or all_its or passed, none=none,
                             walk=tuple(filter(None, walk.split(", "))), found=found)
        two = re.compile(r"^(?:PE_C_RESULT\([\d, ]+\)\n)?static inline (uint32_t) (pe_c_\w+)\(([^)]*)\)\n\{\n"
                         r"(?:    if \((\w+) > (PE_C_\w+)\)\n        return PE_C_NOTHING;\n)?"
                         r"    (pe_c_\w+) found = PE_C_EMPTY;\n    uint32_t result = (\w+)\((.*)\);\n"
                         r"    return result == PE_C_DONE \? (\w+)\((.*)\) : result;\n\}\n", re.M)
        for result, name, body, own, most, found, made, passed, then, then_passed in two.findall(text):
            steps[name] = of(name, result, body, made, passed, found=found, then=then, then_passed=tuple(then_passed.split(", ")),
                             most=(own, most) if own else ())
        # Those that return a field of the record that a call writes.
        field_of = re.compile(r"^(?:PE_C_RESULT\([\d, ]+\)\n)?static inline (uint32_t) (pe_c_\w+)\(([^)]*)\)\n\{\n"
                              r"    (pe_c_\w+) found;\n    uint32_t result = (\w+)\((.*)\);\n"
                              r"    if \(result == PE_C_DONE\)\n        \*out = found\.(\w+);\n    return result;\n\}\n", re.M)
        for result, name, body, found, made, passed, field in field_of.findall(text):
            steps[name] = of(name, result, body, made, passed, found=found, field=field)
        # Those that make the record of an item for a call.
        item_of = re.compile(r"^PE_C_RESULT\([\d, ]+\)\nstatic inline (uint32_t) (pe_c_\w+)\(([^)]*)\)\n\{\n    (pe_c_\w+) item = PE_C_EMPTY;\n"
                             r"((?:    item\.\w+ = \*?[\w>-]+;\n)+)    return (\w+)\((.*)\);\n\}\n", re.M)
        for result, name, body, found, said, made, passed in item_of.findall(text):
            steps[name] = of(name, result, body, made, passed, found=found, set=tuple(re.findall(r"item\.(\w+) = (.*);", said)))
        return steps, item_of.sub("", field_of.sub("", two.sub("", form.sub("", text))))

    @staticmethod
    def parameters(name, body, kinds):
        parameters = []
        for it in re.split(r"\s*,\s*", body.strip()) if body.strip() != "void" else []:
            form = re.fullmatch(r"(const )?(\w+) (\*?)(\w+)", re.sub(r"\s+", " ", it))
            if not form or form[2] not in kinds:
                raise Unknown(f"{name}: the parameter {it}")
            is_const, kind, star, own = form.groups()
            parameters.append(Parameter(own, kind, bool(star), bool(is_const)))
        return tuple(parameters)

    @staticmethod
    def comments_of_calls(whole):
        comments, end, about = {}, None, ""
        for it in re.finditer(rf"^{ABOUT}^{NOT_NULL}(?:static inline )?\w+ (pe_c_\w+)\([^)]*\)[^;{{]*[;{{]", whole, re.M | re.S):
            about = plain(it[1]) or (about if end is not None and whole[end:it.start()] == "\n" else "")
            comments[it[2]], end = about, it.end()
        return comments

    @staticmethod
    def read_calls(text, comments, kinds):
        calls = {}
        for result, name, body in re.findall(r"^(\w+) (pe_c_\w+)\(([^)]*)\)(?:\s+PE_C_\w+\([\d, ]+\))?;", text, re.M):
            if result not in WIDTHS:
                raise Unknown(f"{name}: the result {result}")
            calls[name] = Call(name, result, Header.parameters(name, body, kinds), comments.get(name, ""))
        declared = set(re.findall(r"\b(pe_c_\w+)\(", text))
        if declared != set(calls):
            raise Unknown(f"the declarations of {sorted(declared ^ set(calls))}")
        if re.search(r"\binline\b|^\{", text, re.M):
            raise Unknown("a function that the header defines")
        return calls

    @staticmethod
    def read_constants(text):
        constants = {}
        for body in re.findall(r"\benum (?:\w+ )?\{(.*?)\}", text, re.S):
            for it in filter(None, map(str.strip, body.split(","))):
                form = re.fullmatch(r"(PE_C_\w+) = (\d+)", it)
                if not form:
                    raise Unknown(f"the constant {it}")
                constants[form[1]] = int(form[2])
        return constants
