"""A small reader of JSON Schema (draft 2020-12): those keywords that docs/tree.schema.json uses, and no other.

A value is what Python's json makes of a text. A keyword that isn't known is an error, and not passed over, as it might
refuse.
"""
import re
import sys

# A tree of 128 rows, each in a list, takes some thousands of calls inside each other.
sys.setrecursionlimit(20000)

# Keywords that say nothing about a value.
SILENT = {"$schema", "$id", "$defs", "$comment", "title", "description", "then"}
TYPES = {"object": dict, "array": list, "string": str, "integer": int, "null": type(None)}


def same(one, other):
    """Whether two values are the same in JSON, where true is not 1."""
    return type(one) is type(other) and one == other


class Schema:
    def __init__(self, document):
        self.document = document

    def refusal(self, value):
        """Why a value is refused, and where; None if it isn't."""
        return self.found(value, self.document, "")

    def found(self, value, schema, path):
        """Why a part of the schema refuses a value at a path; None if it doesn't."""
        for keyword, says in schema.items():
            if keyword in SILENT:
                continue
            check = getattr(self, "check_" + keyword.lstrip("$"), None)
            if check is None:
                raise ValueError(f"the keyword {keyword} isn't known")
            why = check(value, says, path, schema)
            if why:
                return why
        return None

    def first(self, pairs):
        """The first refusal among values with their schemas and paths."""
        return next(filter(None, (self.found(*pair) for pair in pairs)), None)

    def check_ref(self, value, says, path, _):
        schema = self.document
        for name in says.removeprefix("#/").split("/"):
            schema = schema[name]
        return self.found(value, schema, path)

    def check_type(self, value, says, path, _):
        is_right = isinstance(value, TYPES[says]) and not isinstance(value, bool)
        return None if is_right else f"{path}: no {says}"

    def check_const(self, value, says, path, _):
        return None if same(value, says) else f"{path}: not {says}"

    def check_enum(self, value, says, path, _):
        return None if any(same(value, one) for one in says) else f"{path}: none of {says}"

    def check_minimum(self, value, says, path, _):
        return f"{path}: below {says}" if isinstance(value, int) and value < says else None

    def check_maximum(self, value, says, path, _):
        return f"{path}: above {says}" if isinstance(value, int) and value > says else None

    def check_minLength(self, value, says, path, _):
        return f"{path}: shorter than {says}" if isinstance(value, str) and len(value) < says else None

    def check_maxLength(self, value, says, path, _):
        return f"{path}: longer than {says}" if isinstance(value, str) and len(value) > says else None

    def check_pattern(self, value, says, path, _):
        return f"{path}: not {says}" if isinstance(value, str) and not re.search(says, value) else None

    def check_minItems(self, value, says, path, _):
        return f"{path}: fewer than {says}" if isinstance(value, list) and len(value) < says else None

    def check_items(self, value, says, path, _):
        items = value if isinstance(value, list) else []
        return self.first((item, says, f"{path}/{index}") for index, item in enumerate(items))

    def check_properties(self, value, says, path, _):
        members = value if isinstance(value, dict) else {}
        return self.first((members[name], schema, f"{path}/{name}") for name, schema in says.items() if name in members)

    def check_required(self, value, says, path, _):
        missing = [name for name in says if isinstance(value, dict) and name not in value]
        return f"{path}: no member {missing[0]}" if missing else None

    def check_additionalProperties(self, value, says, path, schema):
        others = set(value) - set(schema["properties"]) if isinstance(value, dict) and says is False else None
        return f"{path}: no member {min(others)} is asked for" if others else None

    def check_allOf(self, value, says, path, _):
        return self.first((value, schema, path) for schema in says)

    def check_anyOf(self, value, says, path, _):
        whys = [self.found(value, schema, path) for schema in says]
        return None if None in whys else whys[-1]

    def check_if(self, value, says, path, schema):
        return None if self.found(value, says, path) else self.found(value, schema["then"], path)
