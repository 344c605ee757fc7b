#!/usr/bin/env python3
"""Checks that every entry point has its promise in crates/promises; run by the gate, from any folder.

The parts are the crates of crates.txt whose proofs a module of crates/promises imports. It names them, and their contracts, by two lines:

    use Rattle.CRATE.specs.contracts as CONTRACTS
    use Rattle.CRATE.proofs as PROOFS

The entry points are their public functions, in every file of src. Each has a theorem, at the start of a line and outside comments; what follows
may stand on further lines, which are indented:

    NAME : Keeps CONTRACTS.FUNCTION.ended PROOFS.FUNCTION.Symbol.name PROOFS.FUNCTION.Symbol.code (λ LIFETIMES PARAMETERS ANSWER. FACT)

The checker sees that it is true; by `Keeps` it then also says that the function asks nothing of its caller. The functions for C are exports: each
stands in a static library and does what the entry point of its name does. It is an error if
- an entry point has no such theorem, or has a `requires`;
- its FACT does not name the answer, or, of a parameter that is lent by `&mut`, what is left there: `PARAMETER.exit.now`; or says that something
  is itself;
- an entry point, or an impl of a part, is generic in a type, which could hold a `&mut` that no parameter shows;
- an impl of a trait in a part has no ghost clause: its functions, which have no `pub` and so no promise, are told by that alone;
- another crate has a public function and INNER does not name it;
- INNER or INNER_FUNCTIONS name a crate or a function that has no need of it: it is not there, or it is promised;
- a function for C stands in no static library; a static library has anything but imports and exports; its exports are not of one part, or not all
  that is promised of it; an export is not one call of the entry point of its name, or its parameters, its answer and its clauses are not, word by
  word, that function's; or it imports a name from elsewhere than that part does, so that these words could mean something else;
- a source or a module has a block comment, a part passes a function on by `pub use`, or a type holds a `&mut`: what is public, lent or
  promised could then not be read from the text so simply.
"""
import pathlib
import re
import sys
from typing import NamedTuple

ROOT = pathlib.Path(__file__).resolve().parent.parent
MODULES = ROOT / "crates" / "promises" / "proofs"

# Crates whose public functions no buyer calls (docs/DECISIONS.md, 33), and why they are public.
INNER = {
    "channel": "the channels of a run, which the site engine, the reader and the recorder share",
    "console": "standard input and output of the programs: C promises numbers alone (docs/DECISIONS.md, 92)",
    "edition": "what an edition has, which every part asks",
    "items": "the items of a recording, which the recorder counts and writes",
    "local": "a zone's own rules, which the zone part and the site engine share",
    "opening": "a run from its terms, which the site engine and the reader share",
    "programs": "what the programs do, each of which is one call of it",
    "questions": "questions that the zone part and the site engine ask alike. `Refusal::number` a buyer may call: it says what `number_of` says",
    "run": "a run's head and its calls, which every crate of the site engine shares",
    "same": "the comparison of two runs, which the writer makes",
    "scan": "the questions on a whole run, which the site engine, the reader and the writer ask",
    "steps": "the steps of a run, which the site engine and the reader take",
    "text": "digits and columns, of which the page and the programs' texts are made",
    "words": "words in bytes, which the reader, the writer and the recorder share",
}

# Public functions of parts that no buyer calls, and why they are public.
INNER_FUNCTIONS = {
    "reader::read_in": "reads with ordinals that writer, recorder and site_c lend it",
    "writer::is_replayed": "asks for the ordinals that recorder lends it",
    "zone_c::kind_of": "site_c's structs have the same checkpoint as zone_c's",
    "zone_c::mark_of": "the same, from a struct",
    "zone_c::saved_of": "the same, to a struct",
}

LENT = re.compile(r"&\s*(?:'\w+\s+)?mut\b")
LITERAL = re.compile(r'"(?:\\.|[^"\\\n])*"|b\'(?:\\.[^\']*|[^\'\\])\'|//[^\n]*')
FUNCTION = re.compile(r'\bpub\b\s*(?:\([^)]*\)\s*)?((?:(?:const|unsafe|extern|"\w*")\s+)*)fn\s+(\w+)')
SCOPE = re.compile(r"\b(?:impl\b(?:\s*<[^>]*>)?|mod)\s+(\w+)[^;{]*\{")
IMPL = re.compile(r"^impl\b([^{;]*)\{", re.M)
TYPE = re.compile(r"\b(?:struct|enum|type)\s+(\w+)[^;{]*(?:\{[^}]*\}|;)")
ANSWER = re.compile(r"\s*->.*?(?=\brequires\b|\bensures\b|\bghost\b|\{)", re.S)
CLAUSE = re.compile(r"\s*(\w+)\*?(?:\s+\w+:?)?\s*\{")
USE = re.compile(r"(?<!\S)((?:ghost\s+)?use)\s+([^;]*);")
TACTICS = re.compile(r"#!?\[tactic\([^\]]*\)\]")
EXPORT = f'#[unsafe(no_mangle)] pub extern "{b"C".hex()}" fn '
IMPORT = re.compile(r"^use Rattle\.(\w+)\.(specs\.contracts|proofs) as (\S+)$", re.M)
NAMES = re.compile(r"^use ([\w.]+)\.\{([^}]*)\}$", re.M)
# What a sign of a promise must mean: its name, and the modules that have it.
NEEDED = {
    " : Keeps ": ("Keeps", {"Rattle.promises.specs.Promise"}),
    " ≡ ": ("◌≡◌", {"mathlib.Core.Path", "Rattle.std.specs.Prelude", "Rattle.std.proofs.Common"}),
}
PROMISE = re.compile(
    r"(?:pub )?(\S+) : Keeps ([^\s.]+)\.(\S+)\.ended ([^\s.]+)\.\3\.Symbol\.name \4\.\3\.Symbol\.code (\(λ ([^.()]*)\. (.*)\))"
)
CLOSING = {"(": ")", "[": "]", "{": "}", "<": ">"}


class Function(NamedTuple):
    """A public function, by its text."""

    for_c: bool
    parameters: list
    answers: bool
    clauses: list  # their names
    head: str  # from the parameters to the clauses


def is_arrow(text, i):
    """Whether this character is the `>` of a `->`, which closes nothing."""
    return text[i] == ">" and text[i - 1 : i] == "-"


def closed(text, at):
    """The place behind the bracket that closes the one at this place."""
    depth = 0
    for i in range(at, len(text)):
        depth += (text[i] == text[at]) - (text[i] == CLOSING[text[at]] and not is_arrow(text, i))
        if depth == 0:
            return i + 1
    return len(text)


def split(text):
    """The parameters of a list: what stands between the commas outside brackets."""
    parts, depth = [""], 0
    for i, c in enumerate(text):
        depth += (c in CLOSING) - (c in CLOSING.values() and not is_arrow(text, i))
        if c == "," and depth == 0:
            parts.append("")
        else:
            parts[-1] += c
    return [p.strip() for p in parts if p.strip()]


def outside(text, sign):
    """What stands between a sign that is not inside brackets; brackets around the whole are taken off."""
    while text.startswith("(") and closed(text, 0) == len(text):
        text = text[1:-1].strip()
    parts, depth = [""], 0
    for c in text:
        depth += (c in "([{") - (c in ")]}")
        parts[-1] += c
        if depth == 0 and parts[-1].endswith(sign):
            parts[-1] = parts[-1][: -len(sign)]
            parts.append("")
    return parts


def signature(for_c, text, begin):
    """The function whose name ends at this place."""
    at = closed(text, begin) if text[begin] == "<" else begin
    end = closed(text, at)
    parameters = split(text[at + 1 : end - 1])
    answer = ANSWER.match(text, end)
    at, clauses = answer.end() if answer else end, []
    while clause := CLAUSE.match(text, at):
        clauses.append(clause[1])
        at = closed(text, clause.end() - 1)
    return Function(for_c, parameters, bool(answer), clauses, text[begin:at])


def sources(crate):
    """The sources of a crate: of each its file, and its text without comments, in which a literal is one word."""
    for path in sorted((ROOT / "crates" / crate / "src").rglob("*.rt")):
        text = path.read_text(encoding="utf-8")
        yield path, LITERAL.sub(lambda m: "" if m[0].startswith("//") else f'"{m[0].strip(chr(34)).encode().hex()}"', text)


def public(crate, wrong):
    """The public functions of a crate, by their paths."""
    found = {}
    for path, text in sources(crate):
        if "/*" in text:
            wrong.append(f"{path.relative_to(ROOT)}: a block comment, which is not told from code here: write line comments")
        for item in TYPE.finditer(text):
            if LENT.search(item[0]):
                wrong.append(f"{path.relative_to(ROOT)}: the type {item[1]} holds a `&mut`, which no parameter of it shows")
        if re.search(r"\bpub\b\s*(?:\([^)]*\)\s*)?use\b", text):
            wrong.append(f"{path.relative_to(ROOT)}: a `pub use`, which could pass on a function without a promise")
        scopes = [(m.start(), closed(text, m.end() - 1), m[1]) for m in SCOPE.finditer(text)]
        file = path.relative_to(ROOT / "crates" / crate / "src").with_suffix("").parts
        file = () if file in (("lib",), ("main",)) else file
        for m in FUNCTION.finditer(text):
            name = "::".join([crate, *file, *(s for a, b, s in scopes if a < m.start() < b), m[2]])
            if name in found:
                wrong.append(f"{path.relative_to(ROOT)}: two functions are {name}")
            found[name] = signature("extern" in m[1], text, m.end())
    return found


def words(text):
    """A text on one line, whatever its layout."""
    return re.sub(r",? ?([)\]])", r"\1", re.sub(r"([(\[]) ", r"\1", " ".join(text.split())))


def imports(crate):
    """What the sources of a crate import: how, from where, and the name."""
    found = set()
    for _, text in sources(crate):
        for how, what in USE.findall(text):
            where, names = re.fullmatch(r"(?:(.*?)(?:::|\.))??([^:.{]+|\{.*\})", words(what)).groups(default="")
            found.update((words(how), where, name) for name in split(names.strip("{}")))
    return found


def unlike(exports, points, promises):
    """How the exports of a static library are unlike the entry points of their names."""
    code = words(" ".join(TACTICS.sub("", USE.sub("", text)) for _, text in sources(exports)))
    other, *found = code.split(EXPORT)
    if other.strip():
        yield f"{exports} has other code than imports and exports: {other.strip()}"
    called = {crate for text in found for crate in re.findall(r"\{ (\w+)::\w+\(", text)}
    if len(called) != 1 or not any(name.startswith(f"{crate}::") for crate in called for name in promises):
        yield f"{exports}: its exports are not of one part: they call {', '.join(sorted(called)) or 'nothing'}"
        return
    part = called.pop()
    missing = {name for name in promises if name.startswith(f"{part}::")}
    for text in map(str.strip, found):
        name = f"{part}::{text.partition('(')[0]}"
        point = points.get(name)
        if name not in missing or not point:
            yield f"{exports}: {text.partition('(')[0]} is not promised of {part}, or is there twice"
        else:
            given = ", ".join(p.partition(":")[0] for p in point.parameters)
            if text != words(f"{name.rpartition('::')[2]}{point.head} {{ {name}({given}) }}"):
                yield f"{exports}: the export of {name} is not one call of it under its own words"
        missing.discard(name)
    for name in sorted(missing):
        yield f"{exports} has no export of {name}"
    for how, where, name in sorted(imports(exports) - imports(part)):
        if (how, where) != ("use", part) or not name.isidentifier():
            yield f"{exports}: {name} is from {where}, and not where {part} has it from"


def promised(wrong):
    """The parts, and the promises: of each function its theorem's name, what the λ binds and the fact."""
    parts, found = set(), {}
    for path in sorted(MODULES.rglob("*.antt")):
        text, where = path.read_text(encoding="utf-8"), path.relative_to(ROOT)
        if "{-" in text:
            wrong.append(f"{where}: a block comment, which is not told from code here: write line comments")
        text = re.sub(r" *--.*", "", text)
        aliases = {alias: (crate, module) for crate, module, alias in IMPORT.findall(text)}
        crates = {crate for crate, module in aliases.values() if module == "proofs"}
        parts.update(crates)
        brought = {(name.strip(), module) for module, names in NAMES.findall(text) for name in names.split(",")}
        for sign, (name, modules) in NEEDED.items():
            if crates and sign in text and not any((name, module) in brought for module in modules):
                wrong.append(f"{where}: no `use` line brings {name} from {' or '.join(sorted(modules))}")
        for line in filter(None, map(PROMISE.fullmatch, re.sub(r"\n +", " ", text).split("\n"))):
            name, contracts, function, proofs, whole, binders, fact = line.groups()
            crate, module = aliases.get(proofs, ("", ""))
            named = module == "proofs" and aliases.get(contracts) == (crate, "specs.contracts")
            if named and closed(whole, 0) == len(whole):
                path = [crate, *re.sub("[«»]", "", function).split(".")]
                found["::".join(path)] = (f"{where}: {name}", binders.split(), fact)
    return parts, found


def has_types(text):
    """Whether the <> at the start of a text has a name that is no lifetime."""
    return text.startswith("<") and any(not n.startswith("'") for n in split(text[1 : closed(text, 0) - 1]))


def is_generic(function):
    """Whether a function is generic in a type: by a name in <>, or by a parameter's `impl`."""
    return has_types(function.head) or any(re.search(r"\bimpl\b", p) for p in function.parameters)


def untold(crate):
    """The impls of a part that are generic in a type, and those of a trait that do not say what they give."""
    for path, text in sources(crate):
        for m in IMPL.finditer(text):
            head = " ".join(m[0].rstrip("{").split())
            if has_types(m[1].lstrip()):
                yield f"{path.relative_to(ROOT)}: {head} is generic in a type, which could hold a `&mut` that no parameter shows"
            if re.search(r"\bfor\b", m[1]) and not re.search(r"\bghost\s+\w+\s*=", text[m.end() : closed(text, m.end() - 1)]):
                yield f"{path.relative_to(ROOT)}: {head} has no ghost clause"


def unnamed(name, function, promise):
    """What the promise of a function leaves out."""
    where, names, fact = promise
    if len(names) != len(function.parameters) + 2:
        yield f"{where} does not bind the lifetimes, the {len(function.parameters)} parameters and the answer of {name}"
        return
    if function.answers and names[-1] not in re.split(r'[\s(){}.;,@"«»]+', fact):
        yield f"{where} does not name the answer of {name}, {names[-1]}"
    for equation in outside(fact, " × "):
        sides = outside(equation, " ≡ ")
        if len(set(sides)) < len(sides):
            yield f"{where} says of {name} that {sides[0]} is itself"
    for bound, parameter in zip(names[1:], function.parameters):
        if LENT.search(parameter) and f"{bound}.exit.now" not in re.split(r'[\s(){};,@"«»]+', fact):
            yield f"{where} does not name what {name} leaves of `{parameter}`: {bound}.exit.now"


def misnamed(functions, parts, points, promises):
    """What INNER and INNER_FUNCTIONS say wrong, and the public functions of crates that are neither parts nor in INNER."""
    for name in INNER:
        if not functions.get(name) or name in parts:
            yield f"tools/promised.py: INNER names {name}, which has no public function or is a part"
    for name in INNER_FUNCTIONS:
        if name not in points or name in promises:
            yield f"tools/promised.py: INNER_FUNCTIONS names {name}, which is no public function of a part or is promised"
    for crate in functions:
        for name, function in functions[crate].items():
            if function.for_c:
                yield f"{name} is for C, and {crate} is no static library"
            elif crate not in parts and crate not in INNER:
                yield f"{name} is public: {crate} is neither imported by a module of crates/promises nor named in INNER"


def main():
    wrong = []
    lines = [line.split("#")[0] for line in (ROOT / "crates.txt").read_text(encoding="utf-8").splitlines()]
    heads = [line.split(":")[0].split() for line in lines if line.strip()]
    crates = [name for name, *kind in heads if "staticlib" not in kind]
    parts, promises = promised(wrong)
    functions = {crate: public(crate, wrong) for crate in crates}
    points = {name: f for crate in crates if crate in parts for name, f in functions[crate].items()}
    wrong += misnamed(functions, parts, points, promises)
    wrong += [what for crate in crates if crate in parts for what in untold(crate)]
    for name in [p for p in points if p not in INNER_FUNCTIONS]:
        if "requires" in points[name].clauses:
            wrong.append(f"{name} has a `requires`")
        if is_generic(points[name]):
            wrong.append(f"{name} is generic in a type, which could hold a `&mut` that no parameter shows")
        wrong += unnamed(name, points[name], promises[name]) if name in promises else [f"{name} has no promise"]
    for exports in [name for name, *kind in heads if "staticlib" in kind]:
        public(exports, wrong)
        wrong += unlike(exports, points, promises)
    if wrong:
        sys.exit("\n".join(wrong))
    print(f"crates/promises has a promise for each of the {len(points) - len(INNER_FUNCTIONS)} entry points of {len(parts)} parts.")


if __name__ == "__main__":
    main()
