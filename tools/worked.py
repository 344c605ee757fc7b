#!/usr/bin/env python3
"""Holds the worked journals of docs/RULES.md, section 8, to the second implementation; run by the gate, from any folder, once that is built.

It is an error if
- the program's line for a journal there is not the recording or the refusal that stands beside it (a position is not printed, so not held);
- the page of a journal there is not the one that stands below it;
- a conversion there does not answer the journal or the refusal that stands beside it (a position is not held either);
- the bits of a word there are not those of its bytes;
- fewer than 4 journals with a recording and 15 with a refusal, fewer than 4 pages, or fewer than 4 conversions with a journal and 8 with a refusal
  are found, so that a table in another form is not passed over.
"""
import pathlib
import re
import subprocess
import sys

ROOT = pathlib.Path(__file__).resolve().parent.parent
RULES = ROOT / "docs" / "RULES.md"
SECOND = ROOT / "tests" / "second" / "target" / "release" / "record"
BYTES = r"`([0-9A-F]{2}(?: [0-9A-F]{2})*)`"


def journals(text):
    """Each worked journal, in hexadecimal, with the line that the program prints for it."""
    cases = re.findall(rf"^{BYTES}$", text, re.M) + re.findall(rf"^\| (?:journal|recording) \| {BYTES} \|$", text, re.M)
    yield from zip(cases[::2], cases[1::2])
    for journal, answer in re.findall(rf"^\| (?:no byte, or )?{BYTES}(?: alone)? \| ([^|]*) \|", text, re.M):
        yield journal, printed_for(answer)


def printed_for(answer):
    """What is printed where a cell has bytes, or a refusal and perhaps the record's position."""
    number = re.match(r"(\d+)(?:, position \d+)?$", answer)
    return f"refused {number[1]}" if number else answer.strip("`")


def pages(text):
    """Each journal with a worked page, in hexadecimal, and the page."""
    for journal, page in re.findall(rf"^Journal {BYTES}[^\n]*:\n\n((?:    [^\n]*\n)+)", text, re.M):
        yield journal, page.replace("    ", "", 1).replace("\n    ", "\n").rstrip("\n")


def conversions(text):
    """Each worked conversion: the journal, in hexadecimal, the word and where it is said the bytes lent, and the line of its answer."""
    for word, lent, journal, answer in re.findall(rf"^\| (upgrade|downgrade)(?:, (\d+) bytes lent)? \| {BYTES} \| ([^|]*) \|", text, re.M):
        yield journal, [word, lent] if lent else [word], printed_for(answer)


def printed(journal, *words):
    run = subprocess.run([SECOND, *words], input=bytes.fromhex(journal), stdout=subprocess.PIPE, check=True)
    return run.stdout.decode().rstrip("\n")


def wrong_conversions(text):
    """What is wrong with the worked conversions."""
    turned = list(conversions(text))
    refused = sum(line.startswith("refused") for _, _, line in turned)
    if len(turned) - refused < 4 or refused < 8:
        yield f"docs/RULES.md: only {len(turned)} worked conversions were found, {refused} of them refused"
    for journal, words, line in turned:
        if printed(journal, *words) != line:
            answer, asked = printed(journal, *words), " ".join(words)
            yield f"docs/RULES.md: the second implementation answers {answer!r} to {asked} of {journal}, and the document has {line!r}"


def wrong():
    text = RULES.read_text(encoding="utf-8").partition("\n### Case A\n")[2].partition("\n### Edges\n")[0]
    found = list(journals(text))
    refused = sum(line.startswith("refused") for _, line in found)
    if len(found) - refused < 4 or refused < 15:
        yield f"docs/RULES.md: only {len(found)} worked journals were found, {refused} of them refused"
    for journal, line in found:
        if printed(journal) != line:
            yield f"docs/RULES.md: the second implementation prints {printed(journal)!r} for {journal}, and the document has {line!r}"
    drawn = list(pages(text))
    if len(drawn) < 4:
        yield f"docs/RULES.md: only {len(drawn)} worked pages were found"
    for journal, page in drawn:
        if printed(journal, "page") != page:
            yield f"docs/RULES.md: the second implementation draws {printed(journal, 'page')!r} for {journal}, and the document has {page!r}"
    yield from wrong_conversions(text)
    for word, bits in re.findall(rf"^\| \d+ \| {BYTES} \| ([01 ]+) \|", text, re.M):
        if bits.replace(" ", "") != f"{int(word.replace(' ', ''), 16):016b}":
            yield f"docs/RULES.md: {bits} are not the bits of {word}"


if __name__ == "__main__":
    found = list(wrong())
    if found:
        sys.exit("\n".join(found))
