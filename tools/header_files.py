"""The files that tools/make_targets makes of bindings/pe.h: a function each, from the header as it is read to the
file's text."""

import json
import os
import re

from contents import text_of, write
from facts_types import facts_d_ts
from header import TOP, WIDTHS, Unknown

MADE = "/* tools/make_targets makes this file of bindings/pe.h. */\n"
# Fields of 64 bits are BigInt in JavaScript, all others numbers.
BIGINT = ("uint64_t", "size_t")


def json_of(header):
    return {
        "version": header.version, "abi": header.abi,
        "calls": {name: {"result": it.result,
                         "parameters": [[p.name, p.type, "in" if p.is_const else "out"] if p.is_pointer else [p.name, p.type]
                                        for p in it.parameters]} for name, it in header.calls.items()},
        "records": {name: {"size": it.size, "align": it.align, "fields": fields_of(it)} for name, it in header.records.items()},
        "constants": header.constants,
    }


def fields_of(record):
    return [[it.name, it.kind(), it.offset, it.count] for it in record.fields]


def calls_h(header):
    numbers = "".join(f"    number_of_{name},\n" for name in header.calls)
    abi = f"#define PE_C_ABI pe_c_abi_{header.abi}\n#define NUMBER_OF_ABI number_of_pe_c_abi_{header.abi}\n"
    # A function of pe.h counts as the call that it makes.
    abi += "".join(f"#define number_of_{name} number_of_{it.made}\n" for name, it in header.steps.items())
    return (f"{MADE}#ifndef PE_C_CALLS_H\n#define PE_C_CALLS_H\n{abi}enum {{\n{numbers}    CALLS,\n    ABI = {header.abi}\n}};\n"
            "#endif\n")


def names_h(header):
    names = "".join(f'    "{name}",\n' for name in header.calls)
    return f"{MADE}static const char *const names[] = {{\n{names}}};\n"


def layouts_c(header):
    lines = [f"_Static_assert(sizeof({name}) == {it.size} && _Alignof({name}) == {it.align}, \"{name}\");"
             for name, it in header.records.items()]
    lines += [f"_Static_assert(offsetof({name}, {f.name}) == {f.offset}"
              f" && sizeof((({name} *)0)->{f.name}) == {width_of(f, header)}, \"{name}.{f.name}\");"
              for name, it in header.records.items() for f in it.fields]
    lines += ["_Static_assert(sizeof(size_t) == 8 && sizeof(void *) == 8, \"pointers and lengths have 64 bits\");"]
    return f'{MADE}#include "pe.h"\n' + "\n".join(lines) + "\n"


def width_of(field, header):
    one = 8 if field.is_pointer else WIDTHS[field.type] if field.type in WIDTHS else header.records[field.type].size
    return one * (field.count or 1)


def pe_c_def(header):
    return f"LIBRARY pe_c-{header.abi}.dll\nEXPORTS\n" + "".join(f"    {name}\n" for name in header.calls)


def thunks_c(header):
    parts = [f'{MADE}#include "pe.h"\n']
    for name, call in header.calls.items():
        parts.append(f"{call.declaration(f'sysv_{name}', '__attribute__((sysv_abi)) ')};\n"
                     f"{call.declaration()}\n{{\n    return sysv_{name}({', '.join(call.names())});\n}}\n")
    return "\n".join(parts)


def checked_h(header):
    lines = "".join(f"{call.declaration(f'checked_{name}')};\n" for name, call in header.calls.items())
    macros = "#define CHECKED_(call) checked_##call\n#define TARGET_CALL(call) CHECKED_(call)\n"
    macros += "".join(f"#define checked_{name} {name}\n" for name in header.steps)
    return f'{MADE}#include "pe.h"\n{macros}{lines}'


def checked_c(header):
    """Each argument is a number or a pointer, so all are passed as 64 bits each, also those of 32."""
    parts = [f'{MADE}#include "checked.h"\n#include "windows/checked_call.h"\n']
    for name, call in header.calls.items():
        words = ", ".join(f"(uint64_t)(uintptr_t){it}" if parameter.is_pointer else it
                          for it, parameter in zip(call.names(), call.parameters))
        room = max(4, len(call.parameters))
        parts.append(f"{call.declaration(f'checked_{name}')}\n{{\n    const uint64_t words[{room}] = {{{words or '0'}}};\n"
                     f"    return ({call.result})checked_call((void (*)(void)){name}, {len(call.parameters)}, words,"
                     f" \"{name}\");\n}}\n")
    return "\n".join(parts)


# ---- plain C

def length_of(call, parameter):
    """How many bytes an argument has that is a pointer: those of an array, if the parameter after it is its length, or of one
    record."""
    after = call.parameters[call.parameters.index(parameter) + 1:][:1]
    is_array = bool(after) and after[0].type == "size_t" and not after[0].is_pointer
    size = "" if parameter.type in ("uint8_t", "char") else f" * sizeof *{parameter.name}"
    return f"{after[0].name}{size}" if is_array else f"sizeof *{parameter.name}"


def put_text(call, it, header):
    """How an argument gets into the memory of the module, with what its pointers lead to."""
    length = length_of(call, it)
    if it.type == "pe_c_view":
        return f"put_view(&its, {it.name})"
    if it.type == "pe_c_module":
        return f"put_modules(&its, {it.name}, {length.split(' ')[0]})"
    if it.type in header.records and header.records[it.type].has_pointers():
        raise Unknown(f"{call.name}: the parameter {it.name}, a record with pointers that bindings/targets/portable does not copy")
    is_lent = it.type == "uint8_t" and it.is_const
    return f"{'put_bytes' if is_lent else 'put'}(&its, {it.name}, {length})"


def portable_c(header):
    """The calls of pe.h over the module that wasm2c translated to C."""
    parts = [f'{MADE}#include "room.h"\n']
    for name, call in header.calls.items():
        pointers = [it for it in call.parameters if it.is_pointer]
        lines = [f"uint64_t at_{it.name} = {put_text(call, it, header)};" for it in pointers]
        words = "".join(f", {'at_' if it.is_pointer else ''}{it.name}" for it in call.parameters)
        full = "0" if call.result == "size_t" else "PE_C_MEMORY"
        lines += [f"{call.result} result = its.is_full ? {full} : Z_pe_cZ_{name}(its.instance{words});"]
        lines += [f"take(&its, {it.name}, at_{it.name}, {length_of(call, it)});" for it in pointers if not it.is_const]
        body = "".join(f"    {it}\n" for it in ["struct room its = room_of_call();", *lines, "return result;"])
        parts.append(f"{call.declaration()}\n{{\n{body}}}\n")
    return "\n".join(parts)


# ---- JavaScript


# What the JavaScript passes itself: of a file, of an image, and of a process.
FILE, OF_IMAGE, OF_PROCESS = ("bytes", "length"), ("view",), ("modules", "module_count", "memory", "memory_length", "pieces",
                                                              "piece_count")
# Calls that it makes in ways of its own.
OWN_WAYS = re.compile(r"pe_c_(image|text|abi_\d+)")
# What a call reads and changes, of what it does not fill alone.
MOVED = {"walk", "frame"}
# What a call fills that refuses, which comes with the error.
REFUSAL = "failure"
# A number that a call reads and writes, and one that it writes too where it returns PE_C_NOTHING.
NEXT, COUNT = "next", "count"


def is_in_js(name):
    return not OWN_WAYS.fullmatch(name)


def own_parameters(call):
    """The names of the parameters that the JavaScript passes itself, none of which a call writes."""
    names = [it.name for it in call.parameters if it.is_const or not it.is_pointer]
    return {*FILE, *OF_IMAGE, *(OF_PROCESS if OF_PROCESS[0] in names else ())} & set(names)


def js_type(parameter):
    """The type of a parameter in the JavaScript, where characters are bytes too."""
    return "uint8_t" if parameter.type == "char" else parameter.type


def js_parameters(call):
    """The parameters of a call: of each its name, its type and its way: "own" for what the JavaScript passes itself, "in", "moved"
    or "out" for another pointer, "" for a number; "refusal" for what is filled where the call refuses, and "next" for a number
    that is read and written, and "count" for one that is written too where nothing follows. An array has true after that, and its length the way "length" and the array's name."""
    rows, own, special = [], own_parameters(call), {REFUSAL: "refusal", NEXT: "next", COUNT: "count"}
    for it in call.parameters:
        pointer = "in" if it.is_const else "moved" if it.name in MOVED else special.get(it.name, "out")
        way = "own" if it.name in own else pointer if it.is_pointer else ""
        if it.type == "size_t" and not way:
            rows[-1].append(True)
            rows.append([it.name, it.type, "length", rows[-1][0]])
        else:
            rows.append([it.name, js_type(it), way])
    return rows


# How a number of each type is read of a DataView.
READ = {"uint8_t": "v.getUint8({})", "uint16_t": "v.getUint16({}, true)", "int16_t": "v.getInt16({}, true)",
        "uint32_t": "v.getUint32({}, true)", "uint64_t": "v.getBigUint64({}, true)", "size_t": "v.getBigUint64({}, true)"}


def reader(record, header):
    """The function that reads a record: an object that has its fields from the first on, as engines make fast."""
    fields = []
    for name, kind, offset, count in fields_of(record):
        size = WIDTHS.get(kind) or (header.records[kind].size if kind in header.records else 8)
        read = READ.get(kind) or (f"read.{kind}(v, {{}})" if kind in header.records else READ["uint64_t"])
        at = f"at + {offset}" if offset else "at"
        one = read.format(f"{at} + {size} * i") if count else read.format(at)
        fields.append(f"{name}: Array.from({{ length: {count} }}, (_, i) => {one})" if count else f"{name}: {one}")
    return f"  {record.name}: (v, at) => ({{ {', '.join(fields)} }}),\n"


def handed(call, passed):
    """What a function of pe.h hands to one of its calls, by the names of its parameters, but for what the JavaScript passes itself and
    what the call writes."""
    own = own_parameters(call)
    return {it.name: word for it, word in zip(call.parameters, passed) if it.name not in own and it.name not in ("out", REFUSAL)}


def step_of(it, header):
    """A function of pe.h over calls: the call that it makes, and what it returns where that writes no entry; of two calls also the
    second, what each is handed, and the largest number of a parameter; of one over a list of one entry, which the walk has too, the
    name of that list; of one that makes a call with numbers of its own what that is handed, of one that returns a field of what the
    call writes that field, and of one that makes a record for the call its fields."""
    made = header.calls[it.made]
    if it.field or it.set or not (it.walk or it.none or it.found):
        return [it.made, it.none, "", "", it.field, handed(made, it.passed), *([dict(it.set)] if it.set else [])]
    if it.found and not it.then:
        return [it.made, it.none, "", made.names()[it.passed.index("&found")]]
    both = (handed(made, it.passed), handed(header.calls[it.then], it.then_passed)) if it.then else ()
    return [it.made, it.none, *([it.then, *both, it.most] if it.then else [])]


def layouts_mjs(header):
    records = {name: [it.size, fields_of(it)] for name, it in header.records.items()}
    calls = {name: js_parameters(it) for name, it in (header.calls | header.steps).items() if is_in_js(name)}
    steps = {name: step_of(it, header) for name, it in header.steps.items()}
    results = {str(number): name for name, number in header.results.items()}
    lines = [f"// tools/make_targets makes this file of bindings/pe.h.\nexport const version = {json.dumps(header.version)};",
             f"export const abi = {header.abi};"]
    for name, value in (("records", records), ("constants", header.constants), ("results", results), ("calls", calls), ("steps", steps)):
        rows = "".join(f"  {json.dumps(key)}: {json.dumps(it)},\n" for key, it in value.items())
        lines.append(f"export const {name} = {{\n{rows}}};")
    readers = "".join(reader(it, header) for it in header.records.values())
    return "\n".join([*lines, f"export const read = {{\n{readers}}};"]) + "\n"


def names_mjs(_header):
    """The names of winnt.h, of languages and of the Rich header's products, from those of the program pe."""
    text, tables = "", []
    for path in (("names.rs",), ("facts", "languages.rs"), ("facts", "products.rs")):
        text += text_of(TOP, "bindings", "pe", "src", *path)
    for name, body in re.findall(r"^(?:pub )?const (\w+): &(?:Names|\[\(u16, &str\)\]) =\s*&\[(.*?)\];", text, re.M | re.S):
        rows = re.findall(r'\((0x[0-9A-Fa-f_]+|\d+), "([^"]*)"\)', body)
        tables.append((name, {str(int(number.replace("_", ""), 0)): it for number, it in rows}))
    for name, body in re.findall(r"^pub const (\w+): \[&str; \d+\] = \[(.*?)\];", text, re.M | re.S):
        tables.append((name, re.findall(r'"([^"]*)"', body)))
    return "// tools/make_targets makes this file of names.rs, facts/languages.rs and facts/products.rs in bindings/pe/src.\n" + "".join(
        f"export const {name} = {json.dumps(table)};\n" for name, table in tables)


def type_name(record):
    """The name of a record's type: that of pe_c_image_info is PeImageInfo."""
    return "Pe" + "".join(it.capitalize() for it in record.removeprefix("pe_c_").split("_"))


def kind_of(parameter):
    """The type of a parameter or of what a call makes."""
    if not parameter.is_pointer:
        return "bigint | number" if parameter.type in BIGINT else "number"
    return {"uint64_t": "bigint", "uint32_t": "number", "uint8_t": "Uint8Array"}.get(js_type(parameter)) or type_name(parameter.type)


def call_type(call, header):
    """What a call of pe.h is given, and what it returns. Addresses are neither."""
    own = {it.name: it for it in call.parameters}
    given, made = [], []
    for name, _, way, *array in js_parameters(call):
        if way in ("own", "length", "refusal"):
            continue
        if own[name].type in header.records and header.records[own[name].type].has_pointers():
            raise Unknown(f"{call.name}: the parameter {name}, a record with pointers that bindings/js does not make itself")
        if way in ("out", "count", "next") and not array:
            made.append(own[name])
        if way in ("out", "count") and not array:
            continue
        kind = "bigint | number" if way == "next" else kind_of(own[name])
        kind = f"Given<{kind}>" if own[name].is_pointer and own[name].type not in WIDTHS else kind
        given.append(f"{name}{'?' if array else ''}: {kind}{'[]' if array and js_type(own[name]) != 'uint8_t' else ''}")
    several = f"{{ {'; '.join(f'{it.name}: {kind_of(it)}' for it in made)} }}"
    result = several if len(made) > 1 else kind_of(made[0]) if made else "true"
    return f"  {call.name}: {{ given: {{ {'; '.join(given)} }}; made: {result} }};\n"


# The types of calls by what they need, and what each has beside its own.
KINDS = {
    "PlainCalls": ("", "that take no file"),
    "FileCalls": ("PlainCalls", "on a file"),
    "Calls": ("FileCalls", "on an image"),
    "ProcessCalls": ("PlainCalls", "on a process"),
}


def kind_of_call(call):
    """Which of these types has a call."""
    own = own_parameters(call)
    for kind, names in (("ProcessCalls", OF_PROCESS[:1]), ("Calls", OF_IMAGE), ("FileCalls", FILE)):
        if own & set(names):
            return kind
    return "PlainCalls"


def calls_d_ts(header):
    """The types of all calls, and of the functions of pe.h that make one."""
    parts = []
    for kind, (above, about) in KINDS.items():
        lines = [call_type(it, header) for name, it in (header.calls | header.steps).items()
                 if is_in_js(name) and kind_of_call(it) == kind]
        parts.append(f"/** The calls of pe.h {about}: what each is given, and what it returns. */\nexport interface {kind}"
                     f"{f' extends {above}' if above else ''} {{\n{''.join(lines)}}}")
    return parts


def index_d_ts(header):
    parts = [text_of(TOP, "bindings", "js", "index.d.ts.in").rstrip("\n")]
    records = {name: it for name, it in header.records.items() if not it.has_pointers()}
    for name, record in records.items():
        fields = []
        for it in record.fields:
            kind = "bigint" if it.type in BIGINT else "number" if it.type in WIDTHS else type_name(it.type)
            fields.append(f"  {it.name}: {kind}{'[]' if it.count else ''};\n")
        parts.append(f"/** {name} of pe.h. */\nexport interface {type_name(name)} {{\n{''.join(fields)}}}")
    names = "".join(f"  {name}: {type_name(name)};\n" for name in records)
    parts.append(f"/** The records of pe.h by their names, but for those with addresses. */\nexport interface Records {{\n{names}}}")
    numbers = "".join(f"  readonly {name}: {number};\n" for name, number in header.constants.items())
    parts.append(f"/** The constants of pe.h. */\nexport declare const constants: {{\n{numbers}}};")
    return "\n\n".join(parts + calls_d_ts(header)) + "\n"


FILES = {"calls.h": calls_h, "names.h": names_h, "layouts.c": layouts_c, "pe_c.def": pe_c_def, "thunks.c": thunks_c,
         "pe_portable.c": portable_c, "checked.h": checked_h, "checked.c": checked_c,
         "renames": lambda header: "".join(f"{name} sysv_{name}\n" for name in header.calls),
         "pe.json": lambda header: json.dumps(json_of(header), indent=1) + "\n",
         "layouts.mjs": layouts_mjs, "names.mjs": names_mjs, "index.d.ts": index_d_ts, "facts.d.ts": facts_d_ts}


def make(folder, header, names=tuple(FILES)):
    """Writes files of these names into a folder."""
    os.makedirs(folder, exist_ok=True)
    for name in names:
        write(FILES[name](header), folder, name)
