#!/usr/bin/env python3
"""The proved code beside the peer written for speed (tests/speed), in one run.

Writes docs/performance/peer.tsv, a row a case, and from it the parts of docs/PERFORMANCE.md, each between <!-- NAME --> and <!-- end -->: means,
cases, growth. Prints what has changed since the data file that was there, or with `--before FILE` since that one. With `--tables` nothing is
measured and the parts are written from the data file; with `--check` it fails where the document has others.

Run in the repository after .ci/run, or after `make`; needs valgrind, cargo, git and rt.
"""
import os
import pathlib
import re
import shutil
import statistics
import subprocess
import sys
import tempfile
import textwrap
import typing

ROOT = pathlib.Path(__file__).resolve().parent.parent
DOCUMENT = ROOT / "docs" / "PERFORMANCE.md"
DATA = ROOT / "docs" / "performance"
PEER = DATA / "peer.tsv"
SPEED = "tests/speed/target/release/speed"
ROUNDS = 51
# What works on whole runs; pages and conversions are measured on the longest runs alone.
RUNS = ["read", "record", "read-record", "write", "page", "read-page"]
CONVERSIONS = ["upgrade", "downgrade"]
# The cases that the document shows, with the functions that take most of each.
SHOWN = [("read", "ring", "8", "1000"), ("record", "ring", "2", "10"), ("record", "full", "8", "1000"), ("read-record", "full", "8", "1000"),
         ("page", "full", "8", "1000"), ("upgrade", "full", "8", "1000"), ("write", "ring", "8", "1000"), ("send", "empty", "8", "99"),
         ("send", "full", "8", "854"), ("enter", "empty", "8", "99")]
# Calls and lines of which the document says what a record more and a zone more add.
GROWING = [("read", "ring"), ("read", "gates"), ("record", "ring"), ("write", "ring"), ("send", "empty"), ("send", "full")]
# Nanoseconds below which the time of a call cannot be told from that of measuring, so that a ratio would mean nothing.
LEAST_NS = 5
KEY = ["call", "lines", "zones", "records"]
COLUMNS = KEY + ["instructions proved", "instructions peer", "ns proved", "ns peer", "functions"]
# glibc's memcpy and memset have one instruction for long copies, which callgrind would count byte by byte: kept out, for both alike.
# The rest of the environment is left out, since its size moves the stack.
ENVIRONMENT = {"GLIBC_TUNABLES": "glibc.cpu.x86_rep_movsb_threshold=1000000:glibc.cpu.x86_rep_stosb_threshold=1000000"}


class Case(typing.NamedTuple):
    """What one call takes, of the proved code and of the peer; the functions of the proved code that take most, with their own instructions."""
    proved: int
    peer: int
    ns: float
    peer_ns: float
    functions: str

    def ratio_ns(self):
        """The ratio of times, where it means something."""
        return self.ns / self.peer_ns if self.peer_ns >= LEAST_NS else None


# Data files and the parts of the document, for tools/figures.py too.

def output(*command):
    return subprocess.run(command, cwd=ROOT, capture_output=True, check=True, text=True).stdout.strip()


def save(path, columns, rows):
    """Writes a data file: which code and toolchain it is of, the columns' names, the rows."""
    changed = " with changes" if output("git", "status", "--porcelain", "crates", "c", "tests") else ""
    head = f"# The code of {output('git', 'rev-parse', '--short=7', 'HEAD')}{changed}, {output('rt', 'version')}."
    path.write_text("\n".join([head, "\t".join(columns)] + ["\t".join(map(str, row)) for row in rows]) + "\n", encoding="utf-8")


def load(path):
    """The rows of a data file."""
    lines = [line for line in pathlib.Path(path).read_text(encoding="utf-8").splitlines() if not line.startswith("#")]
    return [line.split("\t") for line in lines[1:]]


def table(head, rows):
    return ["| " + " | ".join(head) + " |", "|" + "---|" * len(head)] + ["| " + " | ".join(row) + " |" for row in rows]


def placed(parts, check=False):
    """Writes the parts of the document, or fails where it has others."""
    text = new = DOCUMENT.read_text(encoding="utf-8")
    for name, lines in parts.items():
        before, mark, rest = new.partition(f"<!-- {name} -->\n")
        _, end, behind = rest.partition("<!-- end -->\n")
        if not mark or not end:
            sys.exit(f"docs/PERFORMANCE.md has no part {name}")
        new = before + mark + "\n".join(lines) + "\n" + end + behind
    if check and new != text:
        sys.exit("docs/PERFORMANCE.md does not show what docs/performance has: run tools/speed.py and tools/figures.py with --tables")
    DOCUMENT.write_text(new, encoding="utf-8")


# Measuring.

def own(text):
    """By function: its own instructions in a file of callgrind's, without those of what it calls."""
    names, counts, function, called = {}, {}, None, False
    for line in text.splitlines():
        named = re.match(r"(c?fn)=\((\d+)\)(?: (.*))?", line)
        if named:
            if named.group(3):
                names[named.group(2)] = named.group(3)
            if named.group(1) == "fn":
                function = named.group(2)
        elif line.startswith("calls="):
            called = True
        elif re.match(r"[-+*\d]\S* \d+$", line):
            if not called:
                counts[function] = counts.get(function, 0) + int(line.split()[1])
            called = False
    return {names[function]: n for function, n in counts.items()}


def instructions():
    """By label and by who: the instructions of one call; and those of the proved code by function. Callgrind writes a file after each
    call inside `speed_once`."""
    counts, functions = {}, {}
    with tempfile.TemporaryDirectory() as folder:
        out = os.path.join(folder, "out")
        callgrind = ["valgrind", "-q", "--tool=callgrind", "--collect-atstart=no", "--toggle-collect=speed_once", "--dump-after=speed_once"]
        ran = subprocess.run(callgrind + [f"--callgrind-out-file={out}", SPEED, "count"], env={**ENVIRONMENT, "PATH": os.environ["PATH"]},
                             cwd=ROOT, capture_output=True, check=True, text=True)
        for number, line in enumerate(ran.stdout.splitlines(), 1):
            *label, who = line.split("\t")
            with open(f"{out}.{number}") as f:
                text = f.read()
            counts[tuple(label), who] = int(re.search(r"^totals: (\d+)", text, re.M).group(1))
            if who == "proved":
                functions[tuple(label)] = own(text)
    return {(label, who): n - counts[label, "nothing"] for (label, who), n in counts.items() if who != "nothing"}, functions


def times():
    """By label and by who: the nanoseconds of one call, the least median of ten passes."""
    split = [line.split("\t") for line in output(SPEED, "time", str(ROUNDS)).splitlines()]
    return {(tuple(label), who): float(ns) for *label, who, ns in split}


def places(ns):
    """The places behind the point that a time beside a peer's of so many nanoseconds has."""
    return 0 if ns >= 100 else 1


def kind(label):
    """Whole runs first, then conversions, calls of the site and steps of the zone part."""
    call = label[0].split(",")[0]
    return 0 if call in RUNS else 1 if call in CONVERSIONS else 3 if call.startswith("zone ") else 2


def measured():
    """The cases, each with its label."""
    subprocess.run(["cargo", "build", "--offline", "--release", "--quiet"], cwd=ROOT / "tests" / "speed", check=True)
    (counts, functions), spent = instructions(), times()
    cases = {}
    for label in sorted(dict.fromkeys(label for label, _ in spent), key=kind):
        most = sorted(functions[label].items(), key=lambda item: -item[1])[:4]
        ns = [round(spent[label, who], places(spent[label, "peer"])) for who in ("proved", "peer")]
        cases[label] = Case(counts[label, "proved"], counts[label, "peer"], *ns, ", ".join(f"{name} {n}" for name, n in most))
    return cases


def row(label, case):
    """The row of a case in the data file."""
    spent = [f"{ns:.{places(case.peer_ns)}f}" for ns in (case.ns, case.peer_ns)]
    return [*label, case.proved, case.peer, *spent, case.functions]


def stored(path):
    """The cases of a data file."""
    return {tuple(row[:4]): Case(int(row[4]), int(row[5]), float(row[6]), float(row[7]), row[8]) for row in load(path)}


# The tables.

def named(label):
    """What a case counts to: its call, apart from that the same on a run with gates, so that the mean over editions 1 and 2 stays that of the same
    cases; the steps of the zone part are one."""
    return "zone part" if kind(label) == 3 else f"{label[0]}, gates" if label[1] == "gates" else label[0]


def mean(ratios):
    """The geometric mean, where all are there."""
    return "-" if None in ratios else f"{statistics.geometric_mean(ratios):.2f}"


def means(cases):
    """By name: how many cases there are, and the means of the ratios of instructions and of times."""
    groups = {}
    for label, case in cases.items():
        groups.setdefault(named(label), []).append(case)
    return {name: [str(len(group)), mean([case.proved / case.peer for case in group]), mean([case.ratio_ns() for case in group])]
            for name, group in groups.items()}


def shown(label, case):
    functions = re.sub(r"([^,\s][^,]*) (\d+)(?=,|$)", lambda found: f"`{found[1]}` {int(found[2]):,}", case.functions)
    counts = [f"{n:,}" for n in (int(label[3]), case.proved, case.peer)]
    spent = [f"{ns:,.{places(case.peer_ns)}f}" for ns in (case.ns, case.peer_ns)]
    return list(label[:3]) + counts + [f"{case.proved / case.peer:.1f}"] + spent + [f"{case.ratio_ns():.1f}", functions]


def added(cases, labels, steps):
    """The instructions that a step from the first case to the second adds, those of the peer in parentheses."""
    first, last = (cases[label] for label in labels)
    proved, peer = ((getattr(last, who) - getattr(first, who)) / steps for who in ("proved", "peer"))
    return f"{labels[0][0]}, {labels[0][1]}: {proved:,.1f} ({peer:,.1f})"


def growth(cases):
    """What a record more and a zone more add, in lines of text."""
    records = [added(cases, [(call, lines, "8", count) for count in ("100", "1000")], 900) for call, lines in GROWING if call in RUNS]
    zones = [added(cases, [next(label for label in cases if label[:3] == (call, lines, count) and (call not in RUNS or label[3] == "1000"))
                           for count in ("2", "8")], 6) for call, lines in GROWING]
    text = (f"Instructions that a record more adds, from 100 to 1,000 with 8 zones, those of the peer in parentheses: {'; '.join(records)}. "
            f"A zone more, from 2 to 8, whole runs with 1,000 records: {'; '.join(zones)}.")
    return textwrap.wrap(text, 148)


def tables(cases):
    """The parts of the document."""
    found = means(cases)
    rows = [[name, *row, *found.get(f"{name}, gates", "---")] for name, row in found.items() if int(row[0]) > 1 and not name.endswith(", gates")]
    return {
        "means": table(["Call", "Cases", "Instructions, proved / peer", "ns, proved / peer", "Cases with gates", "Instructions", "ns"], rows),
        "cases": table(["Call", "Lines", "Zones", "Records", "Instructions, proved", "Instructions, peer", "Ratio", "ns, proved", "ns, peer",
                        "Ratio of ns", "Own instructions of the functions that take most"], [shown(label, cases[label]) for label in SHOWN]),
        "growth": growth(cases)}


def differences(before, now):
    """What has changed, in lines: the cases that take other instructions, and the means."""
    both = [label for label in now if label in before]
    moved = [label for label in both if now[label].proved != before[label].proved]
    yield f"{len(both) - len(moved)} cases take just the instructions that they took, {len(moved)} others:"
    for label in moved:
        yield f"- {' '.join(label)}: {before[label].proved:,} before, {now[label].proved:,} now"
    for text, these, those in (("new", now, before), ("gone", before, now)):
        yield f"{text}: " + ("; ".join(" ".join(label) for label in these if label not in those) or "none")
    old = means(before)
    rows = [[name, row[0]] + [value for pair in zip(old.get(name, ["-"] * 3)[1:], row[1:]) for value in pair] for name, row in means(now).items()]
    yield from table(["Call", "Cases", "Instructions before / peer", "Instructions / peer", "ns before / peer", "ns / peer"], rows)


def have_valgrind():
    """Ends with what installs it where it is missing."""
    if not shutil.which("valgrind"):
        sys.exit("This needs valgrind, on Debian: apt-get install -y valgrind")


def main():
    arguments = sys.argv[1:]
    if arguments in (["--tables"], ["--check"]):
        placed(tables(stored(PEER)), check=arguments == ["--check"])
        return
    if arguments and (len(arguments) != 2 or arguments[0] != "--before"):
        sys.exit("usage: speed.py [--before FILE | --tables | --check]")
    have_valgrind()
    before, now = stored(arguments[1] if arguments else PEER), measured()
    save(PEER, COLUMNS, [row(label, case) for label, case in now.items()])
    placed(tables(now))
    print("\n".join(differences(before, now)))


if __name__ == "__main__":
    main()
