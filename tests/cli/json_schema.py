"""A document checked by a JSON schema: the part of the language that ours is written in."""

import re

KINDS = {"object": dict, "array": list, "string": str, "boolean": bool, "null": type(None)}


def faults_of(value, schema, whole=None, path="$"):
    """What is wrong, a line each; none where the document is as the schema says."""
    whole = whole or schema
    unknown = (
        set(schema)
        - set(RULES)
        - {"$schema", "$defs", "title", "description", "then", "minItems", "maxItems"}
    )
    if unknown:
        raise ValueError(f"{path}: the schema has {sorted(unknown)}, which is not read here")
    return [
        line
        for rule, read in RULES.items()
        if rule in schema
        for line in read(value, schema, whole, path)
    ]


def holds(value, schema, whole, path):
    """Is a value as a part of the schema says?"""
    return not faults_of(value, schema, whole, path)


def is_kind(value, kind):
    """Is a value of a kind? A truth is no number, and a number without a fraction is an integer."""
    if kind in ("integer", "number"):
        return isinstance(value, (int,) if kind == "integer" else (int, float)) and not isinstance(
            value, bool
        )
    return isinstance(value, KINDS[kind])


def read_ref(value, schema, whole, path):
    """A definition of the same schema."""
    return faults_of(value, whole["$defs"][schema["$ref"].removeprefix("#/$defs/")], whole, path)


def read_type(value, schema, _, path):
    """Kinds."""
    kinds = schema["type"] if isinstance(schema["type"], list) else [schema["type"]]
    return (
        [] if any(is_kind(value, kind) for kind in kinds) else [f"{path}: {value!r} is no {kinds}"]
    )


def read_properties(value, schema, whole, path):
    """The members that are there."""
    inside = value.items() if isinstance(value, dict) else ()
    return [
        line
        for name, each in inside
        if name in schema["properties"]
        for line in faults_of(each, schema["properties"][name], whole, f"{path}.{name}")
    ]


def read_additional(value, schema, _, path):
    """No member that is not named."""
    names = value if isinstance(value, dict) else ()
    return [f"{path}: {name} is not known" for name in names if name not in schema["properties"]]


def read_items(value, schema, whole, path):
    """Each element, and how many there are."""
    if not isinstance(value, list):
        return []
    wrong = (
        []
        if schema.get("minItems", 0) <= len(value) <= schema.get("maxItems", len(value))
        else [f"{path}: {len(value)} elements"]
    )
    return wrong + [
        line
        for at, each in enumerate(value)
        for line in faults_of(each, schema["items"], whole, f"{path}[{at}]")
    ]


def read_if(value, schema, whole, path):
    """What holds where something else does."""
    return (
        faults_of(value, schema["then"], whole, path)
        if holds(value, schema["if"], whole, path)
        else []
    )


def counted(least, most):
    """So many of several parts must hold."""

    def read(value, schema, whole, path):
        parts = schema.get("oneOf") or schema["anyOf"]
        wrong = [faults_of(value, part, whole, path) for part in parts]
        return (
            []
            if least <= wrong.count([]) <= most
            else [f"{path}: {wrong.count([])} of {len(parts)} hold: {wrong}"]
        )

    return read


RULES = {
    "$ref": read_ref,
    "type": read_type,
    "properties": read_properties,
    "items": read_items,
    "if": read_if,
    "additionalProperties": read_additional,
    "oneOf": counted(1, 1),
    "anyOf": counted(1, 99),
    "allOf": lambda value, schema, whole, path: [
        line for part in schema["allOf"] for line in faults_of(value, part, whole, path)
    ],
    "not": lambda value, schema, whole, path: [f"{path}: what must not hold does"]
    if holds(value, schema["not"], whole, path)
    else [],
    "const": lambda value, schema, _, path: []
    if value == schema["const"]
    else [f"{path}: {value!r}"],
    "enum": lambda value, schema, _, path: []
    if value in schema["enum"]
    else [f"{path}: {value!r}"],
    "required": lambda value, schema, _, path: [
        f"{path}: {name} is missing"
        for name in schema["required"]
        if isinstance(value, dict) and name not in value
    ],
    "minimum": lambda value, schema, _, path: [f"{path}: {value}"]
    if is_kind(value, "number") and value < schema["minimum"]
    else [],
    "pattern": lambda value, schema, _, path: []
    if re.search(schema["pattern"], str(value))
    else [f"{path}: {value!r}"],
}
