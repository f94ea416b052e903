"""Validates JSON documents by a schema of draft 07, with the keywords of cbfscheck.schema.json."""

import json
import re

from tests.programs import TOP

TYPES = {"object": dict, "array": list, "string": str, "integer": int}
# Keywords that state nothing of a document.
NOTES = {"$schema", "title", "description", "definitions"}


def is_of_type(value, name):
    """Returns whether a value has a type; a truth value is no integer."""
    return isinstance(value, TYPES[name]) and not isinstance(value, bool)


def is_same(one, other):
    """Returns whether two values are equal and of one type."""
    return one == other and type(one) is type(other)


def is_match(value, pattern):
    """Returns whether a text has the form of a pattern, which begins with `^` and ends with `$`."""
    # (`$` of Python's patterns also matches before a line feed at the end)
    return re.fullmatch(pattern, value) is not None


# For each keyword of a single value, whether the value satisfies the rule.
SIMPLE = {
    "type": is_of_type,
    "const": is_same,
    "enum": lambda value, rule: any(is_same(value, one) for one in rule),
    "minimum": lambda value, rule: not is_of_type(value, "integer") or value >= rule,
    "maximum": lambda value, rule: not is_of_type(value, "integer") or value <= rule,
    "minLength": lambda value, rule: not isinstance(value, str) or len(value) >= rule,
    "pattern": lambda value, rule: not isinstance(value, str) or is_match(value, rule),
    "minItems": lambda value, rule: not isinstance(value, list) or len(value) >= rule,
    "required": lambda value, rule: not isinstance(value, dict) or set(rule) <= set(value),
}


class Schema:
    """A schema, with the definitions of its document."""

    def __init__(self, schema, root=None):
        self.schema = schema
        self.root = schema if root is None else root

    def part(self, schema):
        """Returns a part of the schema."""
        return Schema(schema, self.root)

    def referred(self, path):
        """Returns the part to which a reference like `#/definitions/row` points."""
        found = self.root
        for name in path.removeprefix("#/").split("/"):
            found = found[name]
        return self.part(found)

    def accepts(self, value):
        """Returns whether a value satisfies the schema."""
        return all(self.satisfies(value, word, rule) for word, rule in self.schema.items()
                   if word not in NOTES)

    def satisfies(self, value, word, rule):
        """Returns whether a value satisfies a keyword. An unknown keyword is an error."""
        if word in SIMPLE:
            return SIMPLE[word](value, rule)
        if word == "$ref":
            return self.referred(rule).accepts(value)
        if word == "not":
            return not self.part(rule).accepts(value)
        if word == "oneOf":
            return sum(self.part(one).accepts(value) for one in rule) == 1
        if word == "items":
            return not isinstance(value, list) or all(map(self.part(rule).accepts, value))
        if word == "properties":
            return not isinstance(value, dict) or all(
                self.part(rule[name]).accepts(value[name]) for name in rule if name in value)
        if word == "additionalProperties" and rule is False:
            return not isinstance(value, dict) or set(value) <= set(self.schema["properties"])
        raise ValueError(f"an unknown keyword of a schema: {word}")


# The schema of the documents of cbfscheck.
REPORTS = Schema(json.loads((TOP / "docs" / "cbfscheck.schema.json").read_text(encoding="utf-8")))
