#!/usr/bin/env python3
"""Checks where the documents lead; from any folder. It is an error if
- a relative link of a document, [text](path) or [text](path#heading), names no file or folder, or no heading of that document. A heading is
  linked to as GitHub does it: in lower case, a dash for each space, without other punctuation; the second of a name has -1 behind it;
- a text of the repository names a file of docs/ that is not there;
- the numbers of docs/DECISIONS.md, `### 1 Title`, are not 1, 2, 3 and so on, or a text says `docs/DECISIONS.md, 36` of a number that it has not.

What stands in fenced code is no link and no heading; what stands in backquotes is no link.
"""
import pathlib
import re
import sys

ROOT = pathlib.Path(__file__).resolve().parent.parent
DECISIONS = ROOT / "docs" / "DECISIONS.md"
ELSEWHERE = {".git", "target"}
TEXTS = {".md", ".py", ".sh", ".h", ".c", ".cpp", ".rs", ".rt", ".antt", ".edit", ".txt"}
NAMED = {"Makefile", "run"}
LINK = re.compile(r"\[[^\]]*\]\(([^()\s]*)\)")
OUTSIDE = re.compile(r"[a-z]+:")
MENTION = re.compile(r"(?<![\w/.-])docs/[\w./-]*\w")
NUMBERED = re.compile(re.escape("docs/DECISIONS.md") + r", (\d+)")


def texts(folder=ROOT):
    """Every text of the repository, without what was built."""
    for path in sorted(folder.iterdir()):
        if path.is_dir() and path.name not in ELSEWHERE:
            yield from texts(path)
        elif path.is_file() and (path.suffix in TEXTS or path.name in NAMED):
            yield path


def unfenced(text):
    """The lines outside fenced code, each with its number."""
    inside = False
    for number, line in enumerate(text.splitlines(), 1):
        if line.lstrip().startswith("```"):
            inside = not inside
        elif not inside:
            yield number, line


def anchors(text):
    """What each heading is linked to by."""
    found = {}
    for _, line in unfenced(text):
        heading = re.match(r"#{1,6} +(.*?) *$", line)
        if heading:
            shown = LINK.sub(lambda link: link[0][1:link[0].index("]")], heading[1])
            name = re.sub(r"[^\w\- ]", "", shown.lower()).replace(" ", "-")
            times = found[name] = found.get(name, -1) + 1
            if times:
                found[f"{name}-{times}"] = 0
    return found


def broken(path, text, documents):
    """The links of a document that lead nowhere."""
    for number, line in unfenced(text):
        for link in LINK.findall(re.sub(r"`[^`]*`", "", line)):
            target, _, heading = link.partition("#")
            to = (path.parent / target).resolve() if target else path
            if OUTSIDE.match(link):
                continue
            if not to.exists() or ROOT not in (to, *to.parents):
                yield number, f"there is no {target}"
            elif heading and heading not in documents.get(to, ()):
                yield number, f"{to.relative_to(ROOT)} has no heading #{heading}"


def unknown(text, last):
    """The files of docs/ and the decisions that a text names and that are not there."""
    for number, line in enumerate(text.splitlines(), 1):
        for mention in MENTION.findall(line):
            if not (ROOT / mention).exists():
                yield number, f"there is no {mention}"
        for decision in NUMBERED.findall(line):
            if not 1 <= int(decision) <= last:
                yield number, f"docs/DECISIONS.md has no {decision}"


def main():
    every = {path: path.read_text(encoding="utf-8") for path in texts()}
    documents = {path: anchors(text) for path, text in every.items() if path.suffix == ".md"}
    decisions = [int(n) for n in re.findall(r"^### (\d+) ", every[DECISIONS], re.M)]
    wrong = []
    if decisions != list(range(1, len(decisions) + 1)):
        wrong.append("docs/DECISIONS.md: its numbers are not 1, 2, 3 and so on")
    for path, text in every.items():
        found = list(unknown(text, len(decisions))) + (list(broken(path, text, documents)) if path in documents else [])
        wrong += [f"{path.relative_to(ROOT)}:{number}: {what}" for number, what in sorted(found)]
    if wrong:
        sys.exit("\n".join(wrong))
    print(f"The links of {len(documents)} documents lead somewhere, and the {len(decisions)} decisions stand in their order.")


if __name__ == "__main__":
    main()
