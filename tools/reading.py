#!/usr/bin/env python3
"""Writes into docs/READING.md and README.md what follows from the tree; with --check it writes nothing and fails where one of them is stale. The
gate runs it so.

The parts stand each between <!-- NAME --> and <!-- end -->. In docs/READING.md:
- crates: the graph of crates.txt. Written: the levels, whether there is code, and what a crate rests on, without what follows from the rest.
  The text of each row is kept.
- hour, full: reading lists. Written: the lines to be read, a sum at the end. A row names files in backquotes, `a/{B,C}.antt` for two;
  names in backquotes behind a file mean these alone. Blank lines and imports are not counted; of code (.rt) only the public types and
  contracts with their comments; of a name in proofs/ its statement, with the line of the module that binds its parameters.
- inner: the definition files that only serve proofs.
In README.md:
- cut: the picture of a run and its cut, as docs/RULES.md has it.
- page: what `cut_page` prints for its stored journal, which rt holds to be so.
- storeys: kept, and held to crates.txt.

It is an error if a file that is named does not exist or has no such name; if a definition file stands neither in `full` nor in `inner`, or
in both; if one in `full` uses one in `inner`; if a crate does not stand in just one storey, or rests on one of a higher storey.
"""
import itertools
import pathlib
import re
import sys

ROOT = pathlib.Path(__file__).resolve().parent.parent
README = ROOT / "README.md"
READING = ROOT / "docs" / "READING.md"
RULES = ROOT / "docs" / "RULES.md"
QUOTED = re.compile(r"`([^`]*)`")
# No contract says what the programs write, so what they do is read whole.
PROGRAMS = "programs"
PUBLIC = re.compile(r'^( *)pub (?:extern "C" )?(fn|struct|enum|const) (\w+)')


def part(text, name):
    """The part of a document of a name: what stands before it, its lines, what stands behind it."""
    before, mark, rest = text.partition(f"<!-- {name} -->\n")
    inside, end, behind = rest.partition("<!-- end -->\n")
    if not mark or not end:
        sys.exit(f"there is no part {name}")
    return before + mark, inside.splitlines(), end + behind


def cells(row):
    return [c.strip() for c in row.strip().strip("|").split("|")]


def line(row):
    return "| " + " | ".join(row) + " |"


def paths(token):
    """The files of a token `a/{B,C}.antt`."""
    pieces = [p[1:-1].split(",") if p.startswith("{") else [p] for p in re.split(r"(\{[^}]*\})", token)]
    for path in map("".join, itertools.product(*pieces)):
        found = sorted(ROOT.glob(path))
        if not found:
            sys.exit(f"docs/READING.md: there is no {path}")
        yield from found


def without_imports(text):
    """The text without imports, which may take several lines."""
    return re.sub(r"^(?:ghost )?use [^;{\n]*(?:\{[^}]*\})?[^\n]*\n", "", text, flags=re.M)


def above(lines, at):
    """Where the comments and attributes above a line begin."""
    while at and re.match(r" *(//|--|#\[)", lines[at - 1]):
        at -= 1
    return at


def public(lines, names):
    """The lines of the public types and contracts, of these names or all."""
    found, kept = set(), set() if names else set(range(next((i for i, l in enumerate(lines) if not l.startswith("//")), 0)))
    for at, text in enumerate(lines):
        item = PUBLIC.match(text)
        if item and (not names or item[3] in names):
            found.add(item[3])
            close = item[1] + ("{" if item[2] == "fn" else "}")
            end = at if item[2] == "const" or text.endswith(" {") and item[2] == "fn" else lines.index(close, at)
            kept.update(range(above(lines, at), end + (item[2] != "fn")))
    return found, kept


def stated(lines, names):
    """The lines of these names: a definition with its equations, of a theorem the statement."""
    found, kept = set(), set()
    for at, text in enumerate(lines):
        item = re.match(r"( *)(?:(?:abbrev|unfoldable|pub|record|data) )*([^\s:(){}]+) (?:.* )?: ", text + " ")
        if item and item[2] in names and not text.lstrip().startswith(("--", "use ")):
            found.add(item[2])
            whole, end = re.match(r" *(abbrev|unfoldable|(pub )?(record|data)) ", text), at + 1
            while end < len(lines) and (lines[end].strip() if whole else lines[end].startswith(item[1] + "    ")):
                end += 1
            kept.update(range(above(lines, at), end))
            if item[1]:
                kept.add(max(i for i in range(at) if lines[i].startswith("module ")))
    return found, kept


def count(path, names):
    """The lines to be read of a file: all, or those of some names."""
    lines = without_imports(path.read_text(encoding="utf-8")).splitlines()
    if path.name == "lib.rt" and path.parts[-3] != PROGRAMS:
        found, kept = public(lines, names)
    elif names:
        found, kept = stated(lines, names)
    else:
        found, kept = set(), set(range(len(lines)))
    for name in set(names) - found:
        sys.exit(f"docs/READING.md: {path.relative_to(ROOT)} has no {name}")
    return sum(1 for i in kept if lines[i].strip())


def listed(rows):
    """The files that rows name, each with the names behind it."""
    for row in rows:
        token, names = None, []
        for quoted in QUOTED.findall(row) + ["/"]:
            if "/" not in quoted:
                names.append(quoted)
                continue
            for path in paths(token) if token else ():
                yield row, path, names
            token, names = quoted, []


def reading(rows):
    """A reading list with its counts."""
    sums = {}
    for row, path, names in listed(rows[2:-1]):
        sums[row] = sums.get(row, 0) + count(path, names)
    head, rule, *body, last = rows
    return [head, rule] + [line(cells(r)[:-1] + [f"{sums[r]:,}"]) for r in body] + [line(cells(last)[:-1] + [f"{sum(sums.values()):,}"])]


def crates():
    """By crate: the crates of crates.txt that it rests on."""
    uses = dict(re.findall(r"^(\w+)(?: [^:\n]*)?: *(.*)$", (ROOT / "crates.txt").read_text(encoding="utf-8"), re.M))
    return {c: [d for d in ds.split() if d in uses] for c, ds in uses.items()}


def graph(rows):
    """The table of the crates."""
    text, uses = {cells(r)[1]: cells(r)[2] for r in rows[2:]}, crates()
    for crate in sorted(set(uses) ^ set(text)):
        sys.exit(f"docs/READING.md and crates.txt do not both have the crate {crate}")
    below, level = {}, {}
    for c in [c for _ in uses for c in uses]:
        if c not in level and all(d in level for d in uses[c]):
            below[c] = set(uses[c]).union(*(below[d] for d in uses[c]))
            level[c] = 1 + max((level[d] for d in uses[c]), default=0)
    made = rows[:2]
    for c in sorted(uses, key=level.get):
        code = "".join(p.read_text(encoding="utf-8") for p in (ROOT / "crates" / c / "src").glob("*.rt"))
        rests = [d for d in uses[c] if not any(d in below[e] for e in uses[c])]
        holds = "functions" if re.search(r"^ *(?:pub )?(?:extern \"C\" )?fn ", code, re.M) else "types" if re.search(r"^pub (?:struct|enum) ", code, re.M) else "-"
        made.append(line([str(level[c]), c, text[c], holds, ", ".join(rests) or "-"]))
    return made


def definitions(full, inner):
    """Says where the definition files are not told apart."""
    full = {p for _, p, _ in listed(full) if p.parent.name == "specs"}
    inner = {p for _, p, _ in listed(inner)}
    every = {p for p in ROOT.glob("crates/*/specs/*.antt") if p.name != "Lib.antt"}
    for path in sorted((every - full - inner) | (full & inner)):
        yield f"{path.relative_to(ROOT)} is not in just one of the parts full and inner"
    for path in sorted(full):
        for crate, module in re.findall(r"^use Rattle\.(\w+)\.specs\.(\w+)", path.read_text(encoding="utf-8"), re.M):
            if ROOT / "crates" / crate / "specs" / f"{module}.antt" in inner:
                yield f"{path.relative_to(ROOT)} uses {crate}'s {module}, which only serves proofs"


def storeys(rows):
    """Says where the storeys, of which the highest stands first, and crates.txt do not agree."""
    named = [(crate, height) for height, row in enumerate(reversed(rows[2:])) for crate in QUOTED.findall(row)]
    heights, uses = dict(named), crates()
    for crate in sorted(set(heights) ^ set(uses)) + [c for c in heights if [n for n, _ in named].count(c) > 1]:
        yield f"README.md: the crate {crate} does not stand in just one storey"
    for crate, below in sorted(uses.items()):
        for other in below:
            if heights.get(other, 0) > heights.get(crate, 0):
                yield f"README.md: {crate} rests on {other}, which stands in a higher storey"


def picture(_):
    """The picture of a run and its cut, with its fence."""
    section = RULES.read_text(encoding="utf-8").partition("\n### A run and its cut\n")[2]
    return re.search(r"```\n.*?```", section, re.S).group(0).splitlines()


def printed(_):
    """What `cut_page` prints, as text of its own."""
    lines = (ROOT / "crates" / "cut_page" / "stdout").read_text(encoding="utf-8").splitlines()
    return [""] + ["    " + text for text in lines] + [""]


def main():
    wrong = []
    written = {READING: (("crates", graph), ("hour", reading), ("full", reading)), README: (("cut", picture), ("page", printed))}
    for document, parts in written.items():
        text = new = document.read_text(encoding="utf-8")
        for name, write in parts:
            before, rows, behind = part(new, name)
            new = before + "\n".join(write(rows)) + "\n" + behind
        if document == READING:
            wrong += definitions(part(new, "full")[1], part(new, "inner")[1])
        else:
            wrong += storeys(part(new, "storeys")[1])
        if new != text and "--check" in sys.argv:
            wrong.append(f"{document.relative_to(ROOT)} is stale: run python3 tools/reading.py")
        elif new != text:
            document.write_text(new, encoding="utf-8")
    if wrong:
        sys.exit("\n".join(wrong))


if __name__ == "__main__":
    main()
