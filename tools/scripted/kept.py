"""The scripts that are stored, and those that docs/SCRIPTS.md quotes: where they stand, and what is printed of them."""
import re
from pathlib import Path

TOP = Path(__file__).resolve().parent.parent.parent
EXAMPLES, CASES, VIEWS = TOP / "examples", TOP / "tests/cases", TOP / "tests/views"
BY_RULE, MALFORMED = TOP / "tests/rules.txt", TOP / "tests/malformed.txt"
QUOTING = TOP / "docs/SCRIPTS.md"
RULES = re.compile(r"^\| (\d): [^|]*\| (?:`([^`]*)`|none[^|]*) \| `([^`]*)` \(line (\d+)\) \|$", re.M)
LINES = "| Line | Right | Rule 2 | Rule 3 | Another rule |\n"


def rules_of(page):
    """The right and the wrong scripts of the tables of rules, whose lines are parted by ' / ', each with what check prints."""
    configurations = page.index("## Rules of configurations")
    for row in RULES.finditer(page):
        rule = 5 if row.start() > configurations else row[1]
        if row[2]:
            yield row[2], "script ok"
        yield row[3], f"bad line {row[4]} rule {rule}"


def lines_of(page):
    """The same of the table of lines: each stands behind a first line, or behind those that L stands for."""
    before = re.search(r"\(L stands for the lines before it, `([^`]*)`\)", page)[1]

    def script(behind, line):
        whole = f"{before if behind else 'storage 10'} / {line.removeprefix('/ ')}"
        return whole, whole.count(" / ") + 1

    for row in page.split(LINES)[1].split("\n\n")[0].splitlines()[1:]:
        _, right, second, third, other = row.strip("| ").split(" | ")
        for cell, rule in ((right, 0), (second, 2), (third, 3)):
            for behind, line in re.findall(r"(L )?`([^`]*)`", cell) if cell.startswith(("`", "L `")) else ():
                whole, last = script(behind, line)
                yield whole, f"bad line {last} rule {rule}" if rule else "script ok"
        for behind, line, alone, rule in re.findall(r"(L )?`([^`]*)`( first of all)?: (\d)", other):
            whole, last = (line, 1) if alone else script(behind, line)
            yield whole, f"bad line {last} rule {rule}"


def quoted():
    """The scripts that the tables of docs/SCRIPTS.md quote, as a list has them: each in a row, with what check prints."""
    page = QUOTING.read_text("utf-8")
    return [f"{script} -> {printed}" for script, printed in (*rules_of(page), *lines_of(page))]


def rows_of(file):
    """The rows of a list."""
    return file.read_bytes().decode("utf-8").removesuffix("\n").split("\n")


def unfolded(row):
    """The script of a row, and what check prints of it."""
    script, _, printed = row.partition(" -> ")
    return "".join(f"{line}\n" for line in script.split(" / ")).encode("utf-8"), printed


def script_of(view):
    """The script whose view a text is; none where none is there."""
    files = (folder / f"{view.stem}.chs" for folder in (VIEWS, EXAMPLES))
    return next(filter(Path.is_file, files), None)


def place(file):
    """How a file is named, from the top."""
    return file.relative_to(TOP).as_posix()
