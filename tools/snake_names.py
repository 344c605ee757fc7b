#!/usr/bin/env python3
"""Brings the repository's own definitions and lemmas to the spelling of today's Rattle; run once, at the top, behind the kit's port.py.

A word in camel case, `isZoneSound`, is written in snake case, `is_zone_sound`, also where it is a part of a name with dashes. A lemma that
would then have the name of a function that it is about gets `_lem` (LEMMAS). What is renamed: names in .antt and .rt files and in must-fail
edits, and in documents what stands in backquotes. Types, modules, Rust's own names, C names, strings and numbers keep their spelling.
"""
import pathlib
import re
import sys

ROOT = pathlib.Path(sys.argv[1] if len(sys.argv) > 1 else ".").resolve()
WORD = re.compile(r"(?<![\w'])[^\W\d][\w'-]*")
CAMEL = re.compile(r"[a-z][a-z0-9]*(?:[A-Z][a-z0-9]*)+'*")
QUOTED = re.compile(r"`[^`\n]*`")
LITERAL = re.compile(r"""b?"(?:\\.|[^"\\\n])*"|b?'(?:\\.|[^'\\\n])'""")

# Lemmas that would have a function's name, by the crates whose files cite them.
LEMMAS = {
    "all_words": ["converter"],
    "opened_with": ["journal"],
    "start_plain": ["zone_c", "site_c"],
    "taken_in": ["network"],
    "items_at": ["pager"],
    "held_after": ["reader"],
    "header_of": ["reader"],
    "first_run": ["reader"],
    "count_at": ["items"],
    "plain_step": ["rules"],
    "passed_on": ["controller"],
}


def snake(part):
    return re.sub(r"([a-z0-9])([A-Z])", r"\1_\2", part).lower() if CAMEL.fullmatch(part) else part


def renamed(text):
    return WORD.sub(lambda m: "-".join(map(snake, m[0].split("-"))), text)


def lemmas(text, crate):
    for name, crates in LEMMAS.items():
        if crate in crates:
            text = re.sub(rf"(?<![\w'.-]){name}(?![\w'-])", f"{name}_lem", text)
    return text


def source(text):
    """Rust's strings and characters keep their spelling."""
    out, at = [], 0
    for m in LITERAL.finditer(text):
        out += [renamed(text[at : m.start()]), m[0]]
        at = m.end()
    return "".join(out) + renamed(text[at:])


def main():
    for path in sorted((ROOT / "crates").rglob("*")):
        if "out" in path.parts or not path.is_file():
            continue
        crate = path.relative_to(ROOT / "crates").parts[0]
        text = path.read_text(encoding="utf-8") if path.suffix in (".antt", ".rt", ".edit") else None
        if text is None:
            continue
        if path.suffix == ".antt":
            new = renamed(lemmas(text, crate))
        elif path.suffix == ".rt":
            new = source(text)
        else:
            new = re.sub(r"(?m)^(?:old|new):.*", lambda m: renamed(m[0]), text)
        if new != text:
            path.write_text(new, encoding="utf-8")
    for path in [*ROOT.glob("*.md"), *sorted((ROOT / "docs").rglob("*.md"))]:
        text = path.read_text(encoding="utf-8")
        new = QUOTED.sub(lambda m: renamed(m[0]), text)
        if new != text:
            path.write_text(new, encoding="utf-8")


if __name__ == "__main__":
    main()
