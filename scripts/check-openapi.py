#!/usr/bin/env python3
"""Checks that docs/formats/http.md has the routes of the program's table, and docs/http.yaml: that it
is an OpenAPI description, and that it has the routes of the page, each with its statuses, and no status
but those of the page's table.

Uses python's packages openapi_spec_validator and yaml. Where one is not installed, the page alone is
checked, and the script says so.
"""

import re

import checks

DESCRIPTION = checks.ROOT / "docs" / "http.yaml"
TABLE = checks.ROOT / "crates" / "registry_http" / "src" / "rows.rt"
METHODS = ("get", "put", "post", "delete", "options", "head", "patch", "trace")


def routes_of_program():
    """The method and path of each row of the program's table of routes."""
    table = TABLE.read_text()
    methods = dict(re.findall(r'^ +(?:Row::)?(\w+) => "([A-Z]+)",$', table, re.M))
    paths = re.findall(r'^ +Row::(\w+) => (?:f\.write_str\(|write!\(f, )"([^"]*)"\),$', table, re.M)
    return [f"{methods.get(row, methods.get('_'))} {path}" for row, path in paths]


def routes_of(description):
    """The method and path of each route, with the statuses that it may answer."""
    for path, item in description["paths"].items():
        for method in METHODS:
            if method in item:
                yield f"{method.upper()} {path}", sorted(item[method]["responses"])


def main():
    look = checks.Checks()
    rows = checks.routes_of_page()
    numbered = [re.sub(r"\{\w\}", "{number}", route) for route, _ in rows]
    look.same("the page has the routes of the program", sorted(numbered), sorted(routes_of_program()))
    try:
        import openapi_spec_validator
        import yaml
    except ImportError as missing:
        look.skip("openapi", f"python has no package {missing.name} here")
        look.end()
    description = yaml.safe_load(DESCRIPTION.read_text())
    try:
        openapi_spec_validator.validate(description)
        look.ok("openapi description is valid")
    except Exception as why:
        look.differs("openapi description is valid", why)
    page = checks.HTTP_PAGE.read_text()
    routes = dict(routes_of(description))
    look.same("openapi has the routes of the page", sorted(routes), sorted(route for route, _ in rows))
    for route, statuses in rows:
        look.same(f"openapi has the statuses of {route}", routes.get(route), statuses)
    said = {status for statuses in routes.values() for status in statuses}
    phrases = re.findall(r"^\| (\d{3}) \|", page, re.M)
    look.same("openapi has the statuses of the page", sorted(said), sorted(phrases))
    look.end()


if __name__ == "__main__":
    main()
