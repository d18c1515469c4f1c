"""Manual pages for the programs and scripts, made of the documents.

A page is a list of sections of README.md and docs/*.md, converted from Markdown to the form of man(7). One section is
the manual of a script. So the keys, the ranges and the statuses are written once, in the documents. `pages` returns the
text of each page by its name. Names of commands are those of the package: `./ept build` becomes `ept_tool build`, and
`tools/view` becomes `ept-view`.
"""

import ast
import re
from pathlib import Path

TOP = Path(__file__).resolve().parent.parent
USE, FORMATS, README = "docs/USE.md", "docs/FORMATS.md", "README.md"
# name and section; what it is; its sections: a title, a file and the heading there
PAGES = {
    "ept_tool.1": ("builds and queries Entwine Point Tile datasets", [
        ("COMMANDS", USE, "The commands"), ("PROGRESS", USE, "Progress"),
        ("RESUMING AND ADDING FLIGHTS", USE, "Resuming and adding flights"), ("PARTS OF A BUILD", USE, "Parts of a build"),
        ("DATASETS OF AN EARLIER VERSION", USE, "Datasets of an earlier version"), ("MEMORY AND THREADS", USE, "Memory and threads"),
        ("QUERIES", USE, "Queries"), ("CHECKING A DATASET", USE, "Checking a dataset"), ("TRIALS", USE, "Trials"), ("EXIT STATUS", README, "Exit statuses"), ("OUTPUT", FORMATS, "The lines")]),
    "ept-configuration.5": ("the configuration of a build of ept_tool", [
        ("KEYS", USE, "The configuration"), ("VALUES", FORMATS, "The configuration")]),
    "ept_server.8": ("serves an Entwine Point Tile dataset over HTTP", [
        ("USAGE", USE, "Serving"), ("REQUESTS AND RESPONSES", FORMATS, "Requests and responses")]),
    "ept-configure.1": ("writes a configuration for ept_tool from the headers of LAS files", [("USAGE", USE, "A configuration from headers")]),
    "ept-view.1": ("writes a page that shows a dataset in a browser", [("USAGE", USE, "Viewing a dataset")]),
    "ept-points.1": ("converts the points of a query to LAS, CSV or a picture", [("USAGE", USE, "Points for other programs")]),
    "ept-alias.1": ("makes a folder of links to a dataset for a program that misreads it", [("USAGE", "tools/alias", None)]),
}
SYNOPSES = {
    "ept-configure.1": "ept-configure [--scale K] [--bounds MARGIN] [--srs SYSTEM] [--memory MEGABYTES] [--first-classes CLASSES]\n"
                       "    [--withheld-last] FLIGHT.las..\n"
                       "ept-configure --check CONFIG\nept-configure --add CONFIG NEW.las..",
    "ept-view.1": "ept-view OUT PAGE [FROM]", "ept-points.1": "ept-points OUT las|csv|svg < POINTS > FILE",
    "ept-alias.1": "ept-alias OUT NEW --for pdal-2|qgis",
}
NAMES = [(r"\./ept (?=[a-z])", "ept_tool "), (r"\btools/(configure|view|points|alias)\b", r"ept-\1"),
         (r"\(cd crates/ept_server && rt run -- (.*?)\)", r"ept_server \1"), (r"\bcrates/ept_\w+/out/(?=ept_)", "")]


def renamed(text):
    """A text with the names that the commands have in the package."""
    for form, name in NAMES:
        text = re.sub(form, name, text)
    return text


def section(file, heading):
    """The lines of a section of a page, with its subsections and without its heading; of a script, those of its manual."""
    if heading is None:
        manual = ast.get_docstring(ast.parse((TOP / file).read_text())).split("\n\n", 2)[2]
        return ["```", *manual.splitlines(), "```"]
    lines, is_in, is_code, level = [], False, False, 0
    for line in (TOP / file).read_text().splitlines():
        is_code ^= line.startswith("```")
        found = None if is_code else re.match(r"(#+) (.*)", line)
        if found and is_in and len(found[1]) <= level:
            break
        if found and not is_in and found[2] == heading:
            is_in, level = True, len(found[1])
        elif is_in:
            lines.append(line)
    if not is_in:
        raise ValueError(f"{file} has no heading {heading!r}")
    return lines


def rows_of(lines):
    """The cells of each row of a table, the heads first."""
    cells = [[cell.strip().replace("\\|", "|") for cell in re.split(r"(?<!\\)\|", line.strip().strip("|"))] for line in lines]
    return [row for row in cells if not all(re.fullmatch(r":?-*:?", cell) for cell in row) or not any(row)]


def table_of(file, heading, head):
    """The rows of the table in a section whose first head is this, without the heads."""
    lines, found = section(file, heading), []
    for line in lines:
        if line.startswith("|"):
            found.append(line)
        elif found:
            rows = rows_of(found)
            if rows[0][0] == head:
                return rows[1:]
            found = []
    return rows_of(found)[1:] if found else []


# ---- roff

def escaped(text):
    """A text without what roff would read as its own."""
    return text.replace("\\", "\\e").replace("-", "\\-")


def inline(text):
    """A paragraph in roff: code and bold text in bold, links by their text."""
    text = re.sub(r"!\[[^\]]*\]\([^)]*\)", "", renamed(text))
    text = re.sub(r"\[([^\]]*)\]\([^)]*\)", r"\1", text)
    pieces = re.split(r"(`[^`]*`|\*\*)", text)
    out, is_bold = [], False
    for piece in pieces:
        if piece == "**":
            is_bold = not is_bold
        elif piece.startswith("`") and len(piece) > 1:
            out.append(f"\\fB{escaped(piece[1:-1])}\\fR")
        elif piece:
            out.append(f"\\fB{escaped(piece)}\\fR" if is_bold else escaped(piece))
    line = "".join(out).strip()
    return "\\&" + line if line.startswith((".", "'")) else line


def table(lines):
    """A table as a list: the first column is the tag, and each further one after the second begins with its head."""
    rows = rows_of(lines)
    heads = rows[0]
    is_named = len(heads) > 1 and not any("`" in row[0] for row in rows[1:]) and heads[0]
    out = [".PP", inline(f"{heads[0]}: {heads[1]}")] if is_named else []
    for row in rows[1:]:
        rest = [row[1]] if len(row) > 1 else []
        rest += [f"{head}: {cell}." for head, cell in zip(heads[2:], row[2:]) if cell]
        text = " ".join(piece if piece.endswith((".", ":")) or place == len(rest) - 1 else piece + "." for place, piece in enumerate(rest))
        out += [".TP", inline(f"**{row[0]}**" if "`" not in row[0] else row[0]) or "\\&", inline(text) or "\\&"]
    return out


def blocks(lines):
    """The lines of a section as paragraphs, tables, code, items and headings, each with a word for its kind."""
    kind, run = None, []
    for line in [*lines, ""]:
        if kind == "code":
            if line.startswith("```"):
                yield kind, run
                kind, run = None, []
            else:
                run.append(line)
            continue
        found = "code" if line.startswith("```") else "table" if line.startswith("|") else "heading" if line.startswith("#") \
            else "item" if re.match(r"\s*([-*]|\d+\.) ", line) else "text" if line.strip() else None
        found = "item" if found == "text" and kind == "item" else found
        if found != kind or found in ("item", "heading") and re.match(r"\s*([-*]|\d+\.) |#", line):
            if run:
                yield kind, run
            run = []
        kind = found
        run += [] if found in (None, "code") else [line]


def roff(lines):
    """The lines of a section in roff."""
    out = []
    for kind, run in blocks(lines):
        if kind == "code":
            out += [".PP", ".EX", *("\\&" + escaped(renamed(line)) if line.startswith((".", "'")) else escaped(renamed(line)) for line in run), ".EE"]
        elif kind == "table":
            out += table(run)
        elif kind == "heading":
            out += [f".SS {inline(run[0].lstrip('# '))}"]
        elif kind == "item":
            out += [".IP \\(bu 2", inline(re.sub(r"^\s*([-*]|\d+\.) ", "", " ".join(map(str.strip, run))))]
        else:
            out += [".PP", inline(" ".join(map(str.strip, run)))]
    return out


def synopsis(name):
    """The synopsis of a page: its own, or the first code of its first section."""
    title, file, heading = PAGES[name][1][0]
    code = next((run for kind, run in blocks(section(file, heading)) if kind == "code"), [])
    return SYNOPSES[name].splitlines() if name in SYNOPSES else code


def without_synopsis(lines, name):
    """The lines of a section without the code that is the synopsis of its page."""
    text, code = "\n".join(lines), "\n".join(synopsis(name))
    return text.replace(f"```\n{code}\n```\n", "", 1).splitlines() if code else lines


def page(name, date, version):
    """The text of a manual page."""
    what, sections = PAGES[name]
    program, number = name.rsplit(".", 1)
    out = [f'.TH {escaped(program.upper())} {number} "{date}" "{version}" "Entwine Point Tiles"', ".SH NAME", f"{escaped(program)} \\- {what}"]
    if not name.endswith(".5"):
        out += [".SH SYNOPSIS", ".EX", *map(escaped, synopsis(name)), ".EE"]
    for title, file, heading in sections:
        lines = section(file, heading)
        out += [f".SH {title}", *roff(without_synopsis(lines, name) if (title, file, heading) == sections[0] else lines)]
    others = [other.rsplit(".", 1) for other in PAGES if other != name]
    out += [".SH SEE ALSO", ",\n".join(f"\\fB{escaped(other)}\\fR({place})" for other, place in others), ".PP",
            "The documents are in /usr/share/doc/ept\\-tool."]
    return "\n".join(out) + "\n"


def pages(date, version):
    """The text of each page, by its name."""
    return {name: page(name, date, version) for name in PAGES}
