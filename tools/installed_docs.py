#!/usr/bin/env python3
"""Holds what `make install` installs for a reader to itself: no document, example or header names a file that was not installed.

    python3 tools/installed_docs.py PREFIX

Looked at are PREFIX/share/doc/cut and PREFIX/include/cut. A name there is that of a file or folder of the sources: README.md and other documents at
their top, and what stands below docs/, c/, tests/, tools/ and crates/. Documents and examples lie flat in share/doc/cut, so docs/RULES.md is looked
for as RULES.md and c/desk.c as desk.c; c/cut/zone.h is looked for in include/cut. What stands below tests/, tools/ and crates/ is never
installed: a document may name it where its front, up to the first heading of the second level, says that such names are "of the sources".

A link leads from where its document lies.

Prints a line for each file and name that is not there; exits 1 if there is one.
"""
import pathlib
import re
import sys

NAME = re.compile(r"(?<![\w./-])(?:(?:docs|c|tests|tools|crates)/[\w*-]+(?:[./][\w*-]+)*|[A-Z]+\.md)(?![\w/])")
LINK = re.compile(r"\]\((?!https?:)([^)#\s]+)[^)]*\)")
OF_THE_SOURCES = ("tests/", "tools/", "crates/")


def front(text):
    """What a document says before its first heading of the second level; of any other file its first comment."""
    return re.split(r"^## |\*/", text, maxsplit=1, flags=re.M)[0]


def is_installed(name, docs, headers):
    if name.startswith("c/cut/"):
        return any(headers.glob(name.removeprefix("c/cut/")))
    if name.startswith(OF_THE_SOURCES):
        return False
    return any(docs.glob(pathlib.PurePosixPath(name).name))


def missing(prefix):
    docs, headers = prefix / "share" / "doc" / "cut", prefix / "include" / "cut"
    files = sorted(docs.iterdir()) + sorted(headers.iterdir())
    for file in files:
        text = file.read_text(encoding="utf-8")
        says = "of the sources" in " ".join(front(text).split())
        for name in sorted(set(NAME.findall(text))):
            if not is_installed(name, docs, headers) and not (says and name.startswith(OF_THE_SOURCES)):
                yield f"{file.relative_to(prefix)}: {name}"
        for link in LINK.findall(text) if file.suffix == ".md" else ():
            if not (file.parent / link).exists():
                yield f"{file.relative_to(prefix)}: the link to {link}"


if __name__ == "__main__":
    if len(sys.argv) != 2:
        sys.exit("usage: tools/installed_docs.py PREFIX")
    found = list(missing(pathlib.Path(sys.argv[1])))
    if found:
        sys.exit("\n".join(found))
