"""The tables of docs/reference/Figures.md, which tools/measure writes and tools/draw draws."""
FIGURES = "docs/reference/Figures.md"


def part_of(text, name):
    """What stands between two marks."""
    return text[text.index(f"<!-- {name} -->") :].partition("<!-- end -->")[0]


def table_below(text, head):
    """The cells of a table: by the column, for each row. Empty if it isn't there."""
    if f"|{head}|" not in text:
        return {}
    lines = text[text.index(f"|{head}|") :].partition("\n\n")[0].splitlines()
    rows = [it.strip("|").split("|") for it in lines if it.startswith("|")]
    return {name: {row[0]: row[at] for row in rows[2:]} for at, name in enumerate(rows[0])}
