"""The types of what `facts` of the npm package returns, from the schema docs/pe.schema.json of the JSON of the program pe."""

import json
import os

from contents import text_of
from header import TOP

SCHEMA = os.path.join(TOP, "docs", "pe.schema.json")
ABOVE_DOUBLES = 1 << 53
# What the JavaScript does not say, by the definitions of the schema; of an image whole parts that it has not.
LACKING = {
    "image": ["json_version", "file_hex", "file_kind", "hashes", "functions", "functions_error", "functions_is_limited",
              "bound_imports", "bound_imports_error", "bound_imports_is_limited", "symbols", "symbols_error",
              "symbols_is_limited"],
    "refused_file": ["json_version", "file_hex"], "headers": ["overlay", "symbol_server_path"],
    "section": ["entropy", "sha256_hex"],
    "debug": ["pogo", "pogo_error", "vc_features", "vc_features_error"], "pdb": ["symbol_server_path"],
    "resource": ["sha256_hex", "version", "error"],
}
# What it says besides.
OWN = {"version": {"texts": "Record<string, string>"}}
PLAIN = {"string": "string", "boolean": "boolean", "null": "null"}


def type_name(name):
    """That of a definition: of the image itself Facts."""
    return "Facts" + ("" if name == "image" else "".join(it.capitalize() for it in name.split("_")))


class Types:
    """The types of a definition and of those to which it leads."""

    def __init__(self, definitions):
        self.definitions, self.wanted = definitions, ["image", "refused_file"]

    def of(self, schema):
        """A schema as a type."""
        if "$ref" in schema:
            name = schema["$ref"].rpartition("/")[2]
            return self.named(name)
        if "oneOf" in schema:
            fields, needed = schema.get("properties", {}), schema.get("required", [])
            each = [{**it, "type": "object", "required": needed, "properties": {**fields, **it["properties"]}} if fields else it
                    for it in schema["oneOf"]]
            return " | ".join(dict.fromkeys(self.of(it) for it in each))
        if "const" in schema or "enum" in schema:
            return " | ".join(json.dumps(it) for it in schema.get("enum", [schema.get("const")]))
        kinds = schema["type"] if isinstance(schema["type"], list) else [schema["type"]]
        return " | ".join(self.of_kind(it, schema) for it in kinds)

    def named(self, name):
        """A definition: those of numbers and texts are not worth a name."""
        schema = self.definitions[name]
        if schema.get("type") != "object":
            return self.of(schema)
        if name not in self.wanted:
            self.wanted.append(name)
        return type_name(name)

    def of_kind(self, kind, schema):
        if kind in ("integer", "number"):
            return "number | bigint" if schema.get("maximum", 0) >= ABOVE_DOUBLES else "number"
        if kind == "array":
            item = self.of(schema["items"])
            return f"({item})[]" if " " in item else f"{item}[]"
        return PLAIN[kind] if kind in PLAIN else self.of_object(schema)

    def of_object(self, schema):
        """An object, by its fields, or by the one type of all."""
        if "properties" in schema:
            return f"{{ {'; '.join(self.fields(schema, (), {}, schema.get('required', ())))} }}"
        return f"Record<string, {self.of(schema['additionalProperties'])}>"

    def fields(self, schema, lacking, own, needed):
        """The fields of an object with their types, without those that it lacks and with others."""
        found = {name: self.of(it) for name, it in schema.get("properties", {}).items() if name not in lacking}
        key = lambda name: name if name.isidentifier() else json.dumps(name)
        return [f"{key(name)}{'' if name in needed or name in own else '?'}: {kind}" for name, kind in {**found, **own}.items()]

    def interfaces(self):
        """An interface a definition."""
        parts, at = [], 0
        while at < len(self.wanted):
            name = self.wanted[at]
            schema, at = self.definitions[name], at + 1
            needed = schema["properties"] if name == "image" else schema.get("required", ())
            about = f"/** {schema['description']} */\n" if "description" in schema else ""
            if "oneOf" in schema:
                parts.append(f"{about}export type {type_name(name)} = {self.of(schema)};")
                continue
            fields = self.fields(schema, LACKING.get(name, ()), OWN.get(name, {}), needed)
            fields = fields or [f"[name: string]: {self.of(schema['additionalProperties'])}"]
            lines = "".join(f"  {it};\n" for it in fields)
            parts.append(f"{about}export interface {type_name(name)} {{\n{lines}}}")
        return parts


def facts_d_ts(_header):
    definitions = json.loads(text_of(SCHEMA))["$defs"]
    return "\n\n".join([text_of(TOP, "bindings", "js", "facts.d.ts.in").rstrip("\n"), *Types(definitions).interfaces()]) + "\n"
