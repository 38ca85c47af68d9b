#!/usr/bin/env python3
"""Checks what documents say of the code's rooms: that the words of docs/glossary.md stand in the code,
that each must-fail edit can be applied and stands in a row of its crate, that docs/promises.md names those
that the gate tries, that there are not too many, that docs/TESTING.md names the journals of cases/, that
each test which a page names is a function, that crates.txt has the crates in order, with a user for each library
but those of tests, and that the recipe for a new item in CONTRIBUTING.md names the files that go over the items.

Needs no built program.
"""

import re

import checks
from crates import CRATES, MORE, OF_GATE, PARTS, edits, misfit, strays, uses

GLOSSARY = checks.ROOT / "docs" / "glossary.md"
PROMISES = checks.ROOT / "docs" / "promises.md"
TESTING = checks.ROOT / "docs" / "TESTING.md"
CASES = checks.ROOT / "cases"
CONTRIBUTING = checks.ROOT / "CONTRIBUTING.md"
SUBJECTS = CRATES / "act_model" / "specs" / "Subjects.antt"

# The columns of the recipe for a new item.
EVERY_ITEM, OF_FILING, OF_SALE = "every item", "about a filing", "of a forced sale"

# No crate has more edits, nor have all of them together.
MOST_OF_A_CRATE = 12
MOST_OF_ALL = 270

# The gate tries no more, nor edits of more crates.
MOST_OF_GATE = 90
MOST_CRATES_OF_GATE = 18

# Libraries that are there before the crates that will use them.
NOT_USED_YET = []

# What tests are made of. No code outside tests uses it.
MADE_FOR_TESTS = ["test_items", "test_runs"]

# A name in backticks, and the crate or type that it is said to be of.
NAME = re.compile(r"`([^`]+)`(?: of `?(\w+)`?)?")

# A word of the code, or of the command line.
WORD = re.compile(r"--\w+|\w+")

# The tests that a page names, one or several; their names have several words.
TESTS = re.compile(r"\b[Tt]ests? (`\w+_\w+`(?:(?:, | and )`\w+_\w+`)*)")

FUNCTION = re.compile(r"\bfn (\w+)")

# An item of code or of a definition, or the word for one; and what an item is about.
ITEM = re.compile(r"\b(?:item|Item|item_word|ItemWord)(?:\.|::)(\w+)")
ABOUT = re.compile(r"^subject_of \(item\.(\w+)[^)]*\) = about\.(\w+)", re.M)


def names_of_crates():
    return sorted(folder.parent.name for folder in CRATES.glob("*/src"))


def cells(line):
    return [cell.strip() for cell in line.strip().strip("|").split("|")]


def rows(page, title):
    """Of each row of a page's tables that have a column of this title, the first cell and that of the column."""
    column = None
    for line in page.read_text().splitlines():
        if not line.startswith("|"):
            column = None
        elif column is None:
            titles = cells(line)
            column = titles.index(title) if title in titles else -1
        elif column >= 0 and not line.startswith("|---"):
            yield cells(line)[0], cells(line)[column]


def without_comments(file):
    return re.sub(r"//.*" if file.suffix == ".rt" else r"--.*", "", file.read_text())


def words_of(crate):
    """The words of a crate's code and definitions, without those of comments."""
    files = [*(CRATES / crate / "src").glob("**/*.rt"), *(CRATES / crate / "specs").glob("**/*.antt")]
    return {word for file in files for word in WORD.findall(without_comments(file))}


def stands(words, name, of):
    """Whether a name of the glossary stands in the code: in that of a crate, where one is named."""
    if name.endswith(".antt"):
        return any(CRATES.glob(f"*/{name}"))
    path = WORD.findall(name)
    if path[0] in words:
        return all(word in words[path[0]] for word in path[1:])
    if of in words:
        return all(word in words[of] for word in path)
    return all(any(word in some for some in words.values()) for word in [*path, *filter(None, [of])])


def check_glossary(look, crates):
    words = {crate: words_of(crate) for crate in crates}
    said = list(rows(GLOSSARY, "name in code"))
    look.same("docs/glossary.md has names in code", bool(said), True)
    for term, cell in said:
        missing = [name for name, of in NAME.findall(cell) if not stands(words, name, of)]
        look.same(f"names in code of {term} that are not there", missing, [])


def names_of_edits(crate, *places):
    return sorted(file.stem for file in edits(crate, *places))


def named(page, crate=""):
    """The edits that the rows of a page name, each with the crate that it is said to be of."""
    return {(of or crate, edit) for _, cell in rows(page, "edits") for edit, of in NAME.findall(cell)}


def check_rows(look, crates):
    """That the rows of a crate name its edits, and those of docs/promises.md the ones that the gate tries."""
    there = {(crate, edit) for crate in crates for edit in names_of_edits(crate, OF_GATE, MORE)}
    for crate in crates:
        page, own = CRATES / crate / "README.md", {(crate, edit) for edit in names_of_edits(crate, OF_GATE, MORE)}
        said = named(page, crate) if page.exists() else set()
        look.same(f"edits that the rows of {crate} name and no crate has", sorted(said - there), [])
        look.same(f"edits of {crate} that its rows do not name", sorted(own - said), [])
    tried = {(crate, edit) for crate in crates for edit in names_of_edits(crate, OF_GATE)}
    look.same("edits that docs/promises.md names and the gate does not try", sorted(named(PROMISES) - tried), [])
    look.same("edits that the gate tries and docs/promises.md does not name", sorted(tried - named(PROMISES)), [])


def check_edits(look, crates):
    """That each edit can be applied, so that one which a change made stale is found without a proof."""
    for crate in crates:
        found = [(file.stem, misfit(crate, file)) for file in edits(crate, OF_GATE, MORE)]
        look.same(f"edits of {crate} that cannot be applied", [(name, why) for name, why in found if why], [])
        look.same(f"files of {crate} beside its edits", strays(crate), [])


def check_counts(look, crates):
    of_gate = {crate: names_of_edits(crate, OF_GATE) for crate in crates}
    both = {crate: names_of_edits(crate, OF_GATE, MORE) for crate in crates}
    for crate, names in both.items():
        look.at_most(f"edits of {crate}", len(names), MOST_OF_A_CRATE)
        look.same(f"edits of {crate} that stand twice", len(names) - len(set(names)), 0)
    look.at_most("edits of all crates", sum(map(len, both.values())), MOST_OF_ALL)
    look.at_most("edits that the gate tries", sum(map(len, of_gate.values())), MOST_OF_GATE)
    look.at_most("crates whose edits the gate tries", sum(map(bool, of_gate.values())), MOST_CRATES_OF_GATE)


def check_cases(look):
    """That the rows of docs/TESTING.md that say what files show name the journals of cases/."""
    said = {name for _, cell in rows(TESTING, "file") for name, _ in NAME.findall(cell)}
    there = {case.stem for case in CASES.glob("*.jsonl")}
    look.same("cases that docs/TESTING.md names and that are not there", sorted(said - there), [])
    look.same("cases that docs/TESTING.md does not name", sorted(there - said), [])


def check_tests(look):
    """That each test which a page names is a function of the crates."""
    functions = {name for file in CRATES.glob("*/src/**/*.rt") for name in FUNCTION.findall(file.read_text())}
    pages = [page for place in ("*.md", "docs/**/*.md", "bench/*.md", "cases/*.md", "crates/*/README.md") for page in sorted(checks.ROOT.glob(place))]
    named = [(page.name, name) for page in pages for names in TESTS.findall(page.read_text()) for name in WORD.findall(names.replace(" and ", " "))]
    look.same("pages name tests", bool(named), True)
    look.same("tests that a page names and no crate has", [(page, name) for page, name in named if name not in functions], [])


def goes_over(named, of_filing, of_sale):
    """The column of the recipe for a file that names these items; none where it goes over neither kind."""
    if named >= of_filing | of_sale:
        return EVERY_ITEM
    if named >= of_filing:
        return OF_FILING
    return OF_SALE if named >= of_sale else None


def check_recipe(look, crates):
    """That the recipe for a new item names the files that go over the items, and no other."""
    about = dict(ABOUT.findall(SUBJECTS.read_text()))
    of_filing = {item for item, subject in about.items() if subject in ("Itself", "Filing")}
    of_sale = set(about) - of_filing
    look.same("items are about filings and of forced sales", bool(of_filing) and bool(of_sale), True)
    there = {EVERY_ITEM: [], OF_FILING: [], OF_SALE: []}
    for crate in crates:
        files = [file for part in PARTS for file in (CRATES / crate / part).rglob("*.*") if file.suffix in (".rt", ".antt")]
        for file in files:
            column = goes_over(set(ITEM.findall(without_comments(file))), of_filing, of_sale)
            if column:
                there[column].append(file.relative_to(CRATES).as_posix())
    for column, found in there.items():
        said = [f"{crate.strip('`')}/{file}" for crate, cell in rows(CONTRIBUTING, column) for file, _ in NAME.findall(cell)]
        look.same(f"files that the recipe names for {column}", sorted(said), sorted(found))


def is_program(crate):
    files = (CRATES / crate / "src").glob("*.rt")
    return any(re.search(r"^\s*(pub )?fn main\b", file.read_text(), re.M) for file in files)


def is_of_tests(crate):
    """Whether each module of the crate is for tests alone."""
    root = CRATES / crate / "src" / "lib.rt"
    lines = root.read_text().splitlines() if root.exists() else []
    before = [lines[n - 1] for n, line in enumerate(lines) if re.match(r"(pub )?mod \w+;", line)]
    return bool(before) and all(line == "#[cfg(test)]" for line in before)


def check_crates(look, crates):
    listed = uses()
    look.same("the crates of crates.txt", sorted(listed), crates)
    above = set()
    for crate, used in listed.items():
        look.same(f"crates below {crate} that it uses", sorted(set(used) & set(listed) - above), [])
        above.add(crate)
    of_tests = [crate for crate in crates if is_of_tests(crate)]
    used_elsewhere = {crate for user, used in listed.items() if user not in of_tests for crate in used}
    wanted = [crate for crate in crates if not is_program(crate) and crate not in [*MADE_FOR_TESTS, *of_tests]]
    look.same("libraries that tests alone use", [crate for crate in wanted if crate not in used_elsewhere], NOT_USED_YET)
    for made in MADE_FOR_TESTS:
        users = [crate for crate, used in listed.items() if made in used and crate not in [*MADE_FOR_TESTS, *of_tests]]
        look.same(f"crates that use {made} and have other code than tests", users, [])


def main():
    look = checks.Checks()
    crates = names_of_crates()
    check_glossary(look, crates)
    check_rows(look, crates)
    check_edits(look, crates)
    check_counts(look, crates)
    check_cases(look)
    check_tests(look)
    check_crates(look, crates)
    check_recipe(look, crates)
    look.end()


if __name__ == "__main__":
    main()
