#!/usr/bin/env python3
"""The other figures of docs/PERFORMANCE.md. With

- no argument: the proved code beside the second implementation. Writes docs/performance/second.tsv, a row a case, and the part `second` of the
  document;
- `--sizes`: what the programs and libraries take. Writes the part `sizes`;
- `--gate LOG`: seconds of each crate's proof and of its edits, from the gate's log. Writes docs/performance/gate.tsv and the part `gate`;
- `--tables`: nothing is measured, and the parts `second` and `gate` are written from the data files; `--check` fails where the document has others.

Run in the repository after .ci/run, whose programs it uses; needs valgrind and size.
"""
import os
import re
import subprocess
import sys
import tempfile
import textwrap
import time

sys.dont_write_bytecode = True  # no folder beside the scripts
from speed import DATA, ENVIRONMENT, KEY, have_valgrind, load, placed, save, table

PROVED = "crates/cut_recorder/out/cut_recorder"
SECOND = "tests/second/target/release/record"
CALLS = "tests/differential/target/release/calls"
SITE = ["open", "send", "receive", "start", "write"]
ZONE = ["zone-open", "zone-send", "zone-receive", "zone-request", "zone-start"]
# Calls of an edition that has gates.
GATES = ["enter", "leave", "zone-enter", "zone-leave"]
# The cases that the document shows.
SHOWN = [("program", "ring", 8, 10), ("program", "full", 8, 1000), ("read-record", "full", 8, 1000), ("send", "-", 8, 100),
         ("zone-send", "-", 8, 100)]


def record(kind, a, b=0, cars=0):
    return kind << 14 | a << 11 | b << 8 | cars


def in_bytes(zones, stock, words, edition=1):
    header = edition << 13 | (zones - 1) << 10 | len(words)
    return b"".join(w.to_bytes(2, "big") for w in [header] + [stock] * zones + words)


def ring(zones, records, complete=True, edition=1):
    """Traffic round a ring; then, complete, a start by zone 1 and the receipts of its requests, else one hand-over from 1 to 2."""
    words = []
    whole = complete and records >= 3 * zones
    left = zones if whole else 2 if complete else 1
    k = 0
    while len(words) < records - left:
        a, b = k % zones, (k + 1) % zones
        words += [record(0, a, b, 1), record(1, a, b)]
        k += 1
    if complete:
        words.append(record(2, 0))
    if whole:
        sender = 0
        for receiver in range(zones - 1, 0, -1):
            words.append(record(1, sender, receiver))
            sender = receiver
    else:
        words.append(record(0, 0, 1))
    return in_bytes(zones, 1000, words, edition)


def full(zones, records):
    """Zone 1 hears all others, whose lines are then kept full; then a start by zone 1 and the receipts of its requests."""
    others = range(1, zones)
    words = [w for a in others for w in (record(0, a, 0, 1), record(1, a, 0))]
    lines = [(a, b) for a in others for b in range(zones) if a != b]
    items = dict.fromkeys(lines, 0)
    k = 0
    while len(words) < records - zones:
        a, b = lines[k % len(lines)]
        sends = items[a, b] < 16
        words.append(record(0, a, b, k % 20) if sends else record(1, a, b))
        items[a, b] += 1 if sends else -1
        k += 1
    words.append(record(2, 0))
    words += [record(1, 0, b) for b in others]
    return in_bytes(zones, 8000, words)


# Lines, zones, records and the journal. Full lines need some records.
JOURNALS = ([("ring", zones, records, ring(zones, records)) for zones in (2, 8) for records in (10, 100, 1000)]
            + [("full", zones, records, full(zones, records)) for zones in (2, 8) for records in (100, 1000)])


def callgrind(command, path=os.devnull):
    """The instructions of a command, and what it prints."""
    out = subprocess.run(
        ["valgrind", "--tool=callgrind", "--callgrind-out-file=/dev/null"] + command, env={**ENVIRONMENT, "PATH": os.environ["PATH"]},
        stdin=open(path, "rb"), capture_output=True, check=True)
    return int(re.search(rb"Collected : (\d+)", out.stderr).group(1)), out.stdout


def seconds(program, path, times=200):
    """The time of the best of so many processes."""
    spent = []
    for _ in range(times):
        start = time.perf_counter()
        subprocess.run([program], stdin=open(path, "rb"), stdout=subprocess.DEVNULL, check=True)
        spent.append(time.perf_counter() - start)
    return min(spent)


def call(who, name, path, times=100):
    """Instructions and nanoseconds of one call: what `times` calls more take, and the best of 1,000 batches. The answer must be 0."""
    few, answer = callgrind([CALLS, who, name, path, "5"])
    many, _ = callgrind([CALLS, who, name, path, str(5 + times)])
    assert answer == b"0\n", (who, name, answer)
    spent = subprocess.run([CALLS, who, name, path, "1000", "--time"], capture_output=True, check=True)
    return (many - few) // times, int(spent.stdout)


def written(folder, journal):
    path = os.path.join(folder, "journal")
    with open(path, "wb") as f:
        f.write(journal)
    return path


def programs(folder):
    for lines, zones, records, journal in JOURNALS:
        path = written(folder, journal)
        a, first = callgrind([PROVED], path)
        b, other = callgrind([SECOND], path)
        assert first == other and not first.startswith(b"refused"), (first, other)
        spent = [round(1e6 * seconds(program, path)) * 1000 for program in (PROVED, SECOND)]
        yield ["program", lines, zones, records, a, b, *spent]


def journals(folder):
    for name in ("read", "record", "read-record"):
        for lines, zones, records, journal in JOURNALS:
            path = written(folder, journal)
            a, b = call("proved", name, path, 10), call("second", name, path, 10)
            yield [name, lines, zones, records, a[0], b[0], a[1], b[1]]


def single(folder):
    """Instructions alone: the time of a call less that of a copy would be a difference of two times that other work moves."""
    for zones in (2, 8):
        for edition, names in ((1, SITE + ZONE), (3, GATES)):
            path = written(folder, ring(zones, 100, complete=False, edition=edition))
            copies = {who: call(who, "copy", path)[0] for who in ("proved", "second")}
            for name in names:
                taken = copies if name in ("send", "receive", "start", "enter", "leave") else dict.fromkeys(copies, 0)
                yield [name, "-", zones, 100] + [call(who, name, path)[0] - taken[who] for who in copies] + ["-", "-"]


def second(rows):
    """The part of the document on the second implementation."""
    head = ["Call", "Lines", "Zones", "Records", "Instructions, proved", "Instructions, second", "ns, proved", "ns, second"]
    return table(head, [row[:2] + [f"{n:,}" if n != "-" else n for n in row[2:]] for row in rows if tuple(row[:4]) in SHOWN])


def size(path):
    out = subprocess.run(["size", path], capture_output=True, check=True, text=True).stdout
    return sum(int(line.split()[0]) for line in out.splitlines()[1:])


def stack(folder):
    """The most stack that the program uses on a journal of 1,000 records, by massif."""
    path, out = written(folder, full(8, 1000)), os.path.join(folder, "massif")
    subprocess.run(["valgrind", "--tool=massif", "--stacks=yes", f"--massif-out-file={out}", PROVED],
                   stdin=open(path, "rb"), capture_output=True, check=True)
    return max(int(n) for n in re.findall(r"mem_stacks_B=(\d+)", open(out).read()))


def sizes(folder):
    """The part of the document on sizes."""
    shared = os.path.realpath("target/lib/libcut.so")
    code = [("`cut_recorder`", PROVED), ("`cut_page`", "crates/cut_page/out/cut_page"), ("`cut_convert`", "crates/cut_convert/out/cut_convert"),
            ("the zone part for C", "crates/zone_exports/out/libzone_exports.a"),
            ("the site engine, journal, converter, recording and page for C", "crates/site_exports/out/libsite_exports.a")]
    text = ("Bytes of code: " + ", ".join(f"{name} {size(path):,}" for name, path in code)
            + f". `libcut.a` has {os.path.getsize('target/lib/libcut.a'):,} bytes, `{os.path.basename(shared)}` {os.path.getsize(shared):,}. "
            + f"On 1,000 records `cut_recorder` uses at most {stack(folder):,} bytes of stack.")
    return textwrap.wrap(text, 148)


def gate(log):
    """A row a crate: the seconds of its proof, its edits and their seconds, from the gate's log."""
    text = open(log, encoding="utf-8").read()
    edits = {}
    for name, spent in re.findall(r"rt: must-fail (\w+)/\w+: refused.*; (\d+) s\)", text):
        edits.setdefault(name, []).append(int(spent))
    proofs = {name: int(spent) for name, spent in re.findall(r"rt: (\w+) proved \((\d+) s\)", text)}
    return [[name, spent, len(edits.get(name, [])), sum(edits.get(name, []))] for name, spent in proofs.items()]


def said(rows):
    """The part of the document on the gate's times."""
    proofs, count, edits = (sum(column) for column in list(zip(*rows))[1:])
    most = sorted(rows, key=lambda row: -row[1] - row[3])[:6]
    text = (f"Of that run the proofs of {len(rows)} crates add up to {proofs:,} s and their {count} must-fail edits to {edits:,} s; most, proof and "
            f"edits together, take " + ", ".join(f"{name} {proof + all_edits} s" for name, proof, _, all_edits in most) + ".")
    return textwrap.wrap(text, 148)


def stored(name):
    """The rows of a data file, numbers as such."""
    return [[int(cell) if cell.isdigit() else cell for cell in row] for row in load(DATA / name)]


def main():
    arguments = sys.argv[1:]
    if arguments in (["--tables"], ["--check"]):
        placed({"second": second(stored("second.tsv")), "gate": said(stored("gate.tsv"))}, check=arguments == ["--check"])
        return
    if len(arguments) == 2 and arguments[0] == "--gate":
        rows = gate(arguments[1])
        save(DATA / "gate.tsv", ["crate", "proof", "edits", "all edits"], rows)
        placed({"gate": said(rows)})
        return
    if arguments not in ([], ["--sizes"]):
        sys.exit("usage: figures.py [--sizes | --gate LOG | --tables | --check]")
    have_valgrind()
    with tempfile.TemporaryDirectory() as folder:
        if arguments:
            placed({"sizes": sizes(folder)})
            return
        rows = [*programs(folder), *journals(folder), *single(folder)]
    save(DATA / "second.tsv", KEY + ["instructions proved", "instructions second", "ns proved", "ns second"], rows)
    placed({"second": second(rows)})


if __name__ == "__main__":
    main()
