"""Readers of a JSON schema: jsonschema where it is installed, and one of the part of JSON Schema that docs/rows.schema.json uses."""
import functools
import json
import re

try:
    import jsonschema
except ImportError:
    jsonschema = None

TYPES = {"object": dict, "array": list, "string": str, "boolean": bool, "null": type(None), "number": (int, float), "integer": int}
KNOWN = {"$schema", "$id", "title", "description", "$defs", "$ref", "oneOf", "type", "const", "enum", "pattern", "minimum", "maximum",
         "properties", "required", "additionalProperties", "items"}
# Objects that no line of the program has, each with one mistake.
BROKEN = (
    {"line": "peak", "count": 0},
    {"line": "peak", "count": 0, "packet": None, "more": 1},
    {"line": "peak", "count": -1, "packet": None},
    {"line": "peak", "count": "0", "packet": None},
    {"line": "peak", "count": True, "packet": None},
    {"line": "peak", "count": 0, "packet": 0},
    {"line": "peaks", "count": 0, "packet": None},
    ["peak", 0, None],
)


def readers_of(path):
    """The readers of the schema in a file by their names, the one to use first. Each returns what is wrong with a value."""
    schema = json.loads(path.read_text())
    own = {"tests/rows/schema.py": functools.partial(problems, schema)}
    if jsonschema is None:
        return own
    validator = jsonschema.Draft202012Validator(schema)
    return {"jsonschema": lambda value: [error.message for error in validator.iter_errors(value)], **own}


def schema_problems(path):
    """What is wrong with the schema in a file: it is none, or a reader accepts a broken object."""
    if jsonschema is not None:
        jsonschema.Draft202012Validator.check_schema(json.loads(path.read_text()))
    return [f"{name} accepts {value}" for name, reader in readers_of(path).items() for value in BROKEN if not reader(value)]


def is_of(value, name):
    """Whether a value is of a type; a boolean is no number."""
    if isinstance(value, bool):
        return name == "boolean"
    return isinstance(value, TYPES[name])


def problems(root, value, shape=None):
    """What is wrong with a value by a schema."""
    shape = root if shape is None else shape
    if set(shape) - KNOWN:
        return [f"the schema has {set(shape) - KNOWN}"]
    if "$ref" in shape:
        return problems(root, value, root["$defs"][shape["$ref"].rsplit("/", 1)[1]])
    if "oneOf" in shape:
        fitting = [part for part in shape["oneOf"] if not problems(root, value, part)]
        return [] if len(fitting) == 1 else [f"{len(fitting)} of {len(shape['oneOf'])} forms fit"]
    return plain_problems(shape, value) + parts_problems(root, shape, value)


def plain_problems(shape, value):
    """What is wrong with a value itself."""
    names = shape.get("type", [])
    names = [names] if isinstance(names, str) else names
    wrong = []
    if names and not any(is_of(value, name) for name in names):
        wrong.append(f"{value!r} is no {' or '.join(names)}")
    if "const" in shape and value != shape["const"]:
        wrong.append(f"{value!r} is not {shape['const']!r}")
    if "enum" in shape and value not in shape["enum"]:
        wrong.append(f"{value!r} is none of {shape['enum']}")
    if "pattern" in shape and isinstance(value, str) and not re.search(shape["pattern"], value):
        wrong.append(f"{value!r} does not fit {shape['pattern']}")
    if is_of(value, "number") and not shape.get("minimum", value) <= value <= shape.get("maximum", value):
        wrong.append(f"{value!r} is out of range")
    return wrong


def parts_problems(root, shape, value):
    """What is wrong with the members or the elements of a value."""
    wrong = []
    if isinstance(value, list) and "items" in shape:
        for element in value:
            wrong += problems(root, element, shape["items"])
    if isinstance(value, dict):
        members = shape.get("properties", {})
        wrong += [f"{name} is missing" for name in shape.get("required", []) if name not in value]
        if shape.get("additionalProperties") is False:
            wrong += [f"{name} is unknown" for name in value if name not in members]
        for name in members.keys() & value.keys():
            wrong += problems(root, value[name], members[name])
    return wrong
