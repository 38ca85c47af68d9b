#!/usr/bin/env python3
"""Checks docs/receipt.schema.json against lines that are items and lines that are not.

Uses the validator of python's package jsonschema. Where it is not installed, nothing is checked,
and the script says so.
"""

import json

import checks
import wrong_lines

# A validator takes these for whole numbers.
WHOLE_BY_VALUE = ("1.0", "1e0", "1E3", "10e-1")


def beyond_schemas():
    """Lines that are no items, which a schema cannot tell."""
    broken_rules = {wrong_lines.compact(value) for _, value in wrong_lines.wrong_filings()}
    for _, text in wrong_lines.wrong_lines():
        no_such_day = any(day in text for day in wrong_lines.NO_DAYS)
        number = text.rsplit(":", 1)[-1].rstrip("}")
        if text in broken_rules or no_such_day or number in WHOLE_BY_VALUE:
            yield text


def main():
    look = checks.Checks()
    try:
        import jsonschema
    except ImportError:
        look.skip("schema", "python has no package jsonschema here")
        look.end()
    schema = json.loads((checks.ROOT / "docs" / "receipt.schema.json").read_text())
    jsonschema.Draft202012Validator.check_schema(schema)
    validator = jsonschema.Draft202012Validator(schema)
    refused = [text for text in wrong_lines.right_lines() if not validator.is_valid(json.loads(text))]
    look.same("schema takes each item", refused, [])
    beyond = set(beyond_schemas())
    taken = [text for _, text in wrong_lines.wrong_lines() if validator.is_valid(json.loads(text))]
    look.same("schema refuses what a schema can tell", [text for text in taken if text not in beyond], [])
    look.same("schema takes what no schema can tell", sorted(beyond - set(taken)), [])
    look.end()


if __name__ == "__main__":
    main()
