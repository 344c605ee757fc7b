#!/usr/bin/env python3
"""Writes the words of the refusals into c/cut/refusal.h, from the table of docs/RULES.md, "What a refusal means"; with --check it writes nothing and
fails where the header is stale. The gate runs it so.

Written are the cases of `cut_refusal_words`: "accepted", then for each enumerator the table's words under "It means". It is an error if
- the table's numbers are not 1, 2, 3 and so on;
- the enumerators of the header are not CUT_ACCEPTED for 0 and then one CUT_REFUSED_.. for each number of the table, in its order;
- docs/RULES.md has no part "Question N" for a number, or one more.
"""
import pathlib
import re
import sys

ROOT = pathlib.Path(__file__).resolve().parent.parent
RULES = ROOT / "docs" / "RULES.md"
HEADER = ROOT / "c" / "cut" / "refusal.h"


def table(text):
    """The numbers of the table, each with its words."""
    part = text.partition("\n### What a refusal means\n")[2].partition("\n### ")[0]
    return {int(n): words for n, words in re.findall(r"^\| (\d+) \| ([^|]*) \|", part, re.M)}


def wrong(rules, header, words):
    """What is wrong with the numbers."""
    if list(words) != list(range(1, len(words) + 1)) or not words:
        yield "docs/RULES.md: the numbers under \"What a refusal means\" are not 1, 2, 3 and so on"
    if [int(n) for n in re.findall(r"^### Question (\d+)$", rules, re.M)] != list(words):
        yield "docs/RULES.md: there is not one part \"Question N\" for each number under \"What a refusal means\""
    enumerators = named(header)
    if [n for _, n in enumerators] != [0, *words] or enumerators[0][0] != "CUT_ACCEPTED":
        yield "c/cut/refusal.h: the enumerators are not CUT_ACCEPTED and one for each number of docs/RULES.md's table"


def named(header):
    """The enumerators with their numbers."""
    return [(name, int(n)) for name, n in re.findall(r"^ *(CUT_(?:ACCEPTED|REFUSED_\w+)) = (\d+)", header, re.M)]


def written(header, words):
    """The header with the cases of the table."""
    cases = "".join(f'    case {name}:\n        return "{words.get(n, "accepted")}";\n' for name, n in named(header))
    before, mark, rest = header.partition("    switch (refusal) {\n")
    end = rest.find("    default:\n")
    if not mark or end < 0:
        sys.exit("c/cut/refusal.h has no switch over the refusals")
    return before + mark + cases + rest[end:]


def main():
    rules, header = RULES.read_text(encoding="utf-8"), HEADER.read_text(encoding="utf-8")
    words = table(rules)
    found = list(wrong(rules, header, words))
    new = written(header, words)
    if new != header and "--check" in sys.argv:
        found.append("c/cut/refusal.h is stale: run python3 tools/refusals.py")
    elif new != header and not found:
        HEADER.write_text(new, encoding="utf-8")
    if found:
        sys.exit("\n".join(found))


if __name__ == "__main__":
    main()
