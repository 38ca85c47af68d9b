"""The texts of a report, by the paths at which `serve` gives them (docs/formats/replies-and-report.md)."""

from sample_lines import cents

CSV_HEADER = "part,right,person,claim,paid,remains"


def texts_of(report):
    """Each text of a report, with the path that it is asked for by; the whole report too."""
    path, texts = "", {"/report": report}
    for line in report.splitlines(keepends=True):
        words = line.split()
        if words[0] in ("receipt", "folio", "ranks", "plan"):
            path = {
                "receipt": f"/receipts/{words[1]}", "folio": f"/folios/{words[1]}",
                "ranks": f"/folios/{words[1]}/ranks", "plan": f"/plans/{words[-1]}",
            }[words[0]]
        if words[0] != "end" or words[1] == "plan":
            texts[path] = texts.get(path, "") + line
    return texts


def row_of(line):
    """The fields of the row that stands for a line of a plan; of a claim that the line does not tell None."""
    words = line.split()
    late = words[0] == "late"
    of = dict(zip(words[late::2], words[late + 1 :: 2]))
    if "class" not in of:
        paid = cents(of["costs"] if "costs" in of else of["paid"])
        return ["owner" if "owner" in of else "costs", "", of.get("owner", ""), paid, paid, 0]
    part = ("late " if late else "") + f"class {of['class']}"
    if "interest" in of:
        paid, remains = cents(of["interest"]) + cents(of["capital"]), cents(of["remains"]) if of["class"] == "4" else 0
        return [part, of["right"], of["person"], None, paid, remains]
    return [part, of.get("right", ""), of["person"], cents(of["claim"]), cents(of["paid"]), 0]


def is_csv_of(text, plan):
    """Whether a text is the table of this plan, as far as the plan tells it."""
    header, *rows = text.split("\n")
    wanted = [row_of(line) for line in plan.splitlines()[2:-1]]
    if header != CSV_HEADER or len(rows) != len(wanted) + 1 or rows[-1]:
        return False
    for row, fields in zip(rows, wanted):
        got = row.split(",")
        if len(got) != len(fields) or any(field is not None and one != str(field) for one, field in zip(got, fields)):
            return False
    return True
