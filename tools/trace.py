#!/usr/bin/env python3
"""Checks docs/TRACE.md against the tree; run by the gate, from any folder.

An edit is named there in full and in backquotes, `crate/label`, and stands in crates/CRATE/must-fail/LABEL.edit. It is an error if
- a named edit does not exist, or an edit of the tree is not named;
- a cell under "Shut out" names an edit in any other way: without backquotes, or by its label alone;
- a path of the form crates/... that the document names does not exist;
- an edit has a line that rt passes over without a word, so that it would do less than it says: a second line of a text, or an old text that
  no new one follows.

What else is in backquotes, but for the first cell of a row, is a name: `name`, `crate::function`, `Type::method` or `Record.field`. It is
an error if its crate does not declare it. The crate of a bare name is the one named last before it in its cell: by `crate::function`, or by
`crate: ` at the cell's start or behind a semicolon. Where there is none, and outside tables, any crate will do.
"""
import pathlib
import re
import sys

ROOT = pathlib.Path(__file__).resolve().parent.parent
TRACE = ROOT / "docs" / "TRACE.md"
HEADING = "Shut out"
QUOTED = re.compile(r"`([^`]*)`")
EDIT = re.compile(r"[a-z_]+/[a-z0-9_]+")
PATH = re.compile(r"crates(?:/[\w.+«»-]*\w»?)+")
# The folders of a crate that have text of ours: what rt makes stands beside them.
PARTS = ("src", "specs", "proofs")
ANTT = re.compile(r"^ *(?:(?:abbrev|unfoldable|pub|record|data) )*«?([^\s(){}:;,.=«»]+)»?(?: [^=\n]*)?: ", re.M)
RATTLE = re.compile(r"\b(?:fn|struct|enum|const) (\w+)|^ +(?:pub )?(\w+)[:(,]", re.M)


def cells(line):
    """The cells of a table's line; none of another line."""
    return [c.strip() for c in line.strip().strip("|").split("|")] if line.startswith("|") else []


def declared():
    """The names that each crate declares, and the crate of each type."""
    names, types = {}, {}
    for folder in (ROOT / "crates").iterdir():
        found = names[folder.name] = {folder.name}
        for path in (p for part in PARTS for p in (folder / part).rglob("*.*t")):
            text = path.read_text(encoding="utf-8")
            if path.suffix == ".antt":
                found.update(ANTT.findall(text))
            elif path.suffix == ".rt":
                found.update(a or b for a, b in RATTLE.findall(text))
                types.update((t, folder.name) for t in re.findall(r"^impl (\w+)", text, re.M))
    return names, types


def unknown(text, names, types):
    """The names in backquotes that no crate declares, or not the crate that the text says."""
    crate = None
    for prefix, quoted in re.findall(r"(?:^|; )([a-z_]+): |`([^`]*)`", text):
        if prefix in names:
            crate = prefix
        if not quoted or EDIT.fullmatch(quoted) or PATH.fullmatch(quoted) or quoted in names:
            continue
        owner, _, rest = quoted.rpartition("::")
        if owner:
            crate = types.get(owner, owner)
        where = [crate] if crate else list(names)
        for part in rest.split("."):
            if not any(part in names.get(c, ()) for c in where):
                yield f"{quoted} is not declared in {crate or 'any crate'}"


def cut_edits():
    """What rt would pass over or refuse in an edit: a line that is neither empty nor a comment, file, old or new text; an old text that is not
    followed at once by its new one; one that does not stand just once in its file, as the pairs before have left it."""
    for path in sorted(ROOT.glob("crates/*/must-fail/*.edit")):
        old, file, texts = None, None, {}
        for number, line in enumerate(path.read_text(encoding="utf-8").split("\n") + [""], 1):
            at = f"{path.relative_to(ROOT)}:{number}"
            if old is not None and not line.startswith("new:"):
                yield f"{at}: an old text without its new one"
            elif line and not line.startswith(("#", "file: ", "old: ", "new:")):
                yield f"{at}: rt passes over this line"
            elif line.startswith("file: "):
                file = path.parent.parent / line[len("file: "):]
                if not file.is_file():
                    yield f"{at}: there is no {file.relative_to(ROOT)}"
                texts.setdefault(file, file.read_text(encoding="utf-8") if file.is_file() else "")
            elif line.startswith("old: ") and texts[file].count(line[len("old: "):]) != 1:
                yield f"{at}: this text does not stand just once in {file.relative_to(ROOT)}"
            elif line.startswith("new:"):
                texts[file] = texts[file].replace(old, line[len("new: "):])
            old = line[len("old: "):] if line.startswith("old: ") else None


def main():
    edits = {f"{p.parts[-3]}/{p.stem}" for p in ROOT.glob("crates/*/must-fail/*.edit")}
    labels = {e.split("/")[1] for e in edits}
    names, types = declared()
    named, wrong, column, tables = set(), [], None, 0
    for number, line in enumerate(TRACE.read_text(encoding="utf-8").splitlines(), 1):

        def say(what):
            wrong.append(f"docs/TRACE.md:{number}: {what}")

        for path in PATH.findall(line):
            if not (ROOT / path).exists():
                say(f"there is no {path}")
        for edit in filter(EDIT.fullmatch, QUOTED.findall(line)):
            named.add(edit)
            if edit not in edits:
                say(f"there is no edit {edit}")
        row = cells(line)
        for text in row[1:] if row else [line]:
            for what in unknown(text, names, types):
                say(what)
        if not row:
            column = None
        elif HEADING in row:
            column, tables = row.index(HEADING), tables + 1
        elif column is not None:
            if column >= len(row):
                say(f'the row has no cell under "{HEADING}"')
                continue
            for label in labels.intersection(QUOTED.findall(row[column])):
                say(f"{label} is named without its crate")
            bare = QUOTED.sub(" ", row[column])
            for word in re.findall(r"[\w/]*[_/][\w/]*", bare):
                say(f"{word} is not in backquotes")
    if not tables:
        wrong.append(f'docs/TRACE.md: no table has a column "{HEADING}"')
    wrong += [f"docs/TRACE.md does not name the edit {e}" for e in sorted(edits - named)]
    wrong += cut_edits()
    if wrong:
        sys.exit("\n".join(wrong))
    print(f"docs/TRACE.md names each of the {len(edits)} must-fail edits, and what else it names is declared.")


if __name__ == "__main__":
    main()
