#!/usr/bin/env python3
"""Holds the documents to the repository: what they name is there, and what they are to name they do.

docs/PROMISES.md is held to the letter. What it has in backticks is one of these:
- a file or folder of a crate, without its ending: `axis/specs/Codes`. Where a colon follows, then up to the next such file, the end of
  the cell or the end of the sentence, each name has to be defined in that very file, and each expression to have a word that is
- an edit: `axis/must-fail/n_512`. Every edit of the repository is named, and every law that no other proof uses
- a public item: `tracing::calls::trace`, `axis::Axis::check`, `axis::raised`; a C function by its name alone
- a crate; a path of the repository; a command or an expression, which have spaces
"""
from __future__ import annotations

import re
from pathlib import Path
from typing import Callable, Iterable, Iterator, NamedTuple

import machine
from source import Item, Source, expanded, items, paths_in, unused
from tally import Tally

PROMISES, DECISIONS, RULES, EQUATIONS = "docs/PROMISES.md", "docs/DECISIONS.md", "docs/RULES.md", "docs/EQUATIONS.md"
SPARE = "Laws that no answer cites"  # their section of the promises
DOCUMENTS = ("README.md", PROMISES, DECISIONS, "docs/PROVING.md", "docs/SPEED.md", RULES, EQUATIONS)
CUSTOMER = ("axis", "ray", "tracing", "place", "ilvoresta", "ilvoresta_c")  # the crates that a customer calls, beside job::whole

TOKEN = re.compile(r"`([^`]+)`(:(?!:))?|\||[.!?](?=[\s)]|$)")
BLOCK = re.compile(r"\s*(?:[-*] |\d+\. |[|#])")  # begins a line that goes on from no line above
FILE = re.compile(r"\w+/(?:specs|proofs|src)(?:/[\w+/-]+)?")
ITEM = re.compile(r"\w+(?:::\w+)*::(?:\w+|\{[\w, ]+\})")
WORD = re.compile(r"[^\W\d][\w'-]*")
COMPOUND = re.compile(r"\w[-_]\w|[a-z][A-Z]")  # in a word of an expression: it is no English
ENDS = (".md", ".py", ".rt", ".antt", ".h", ".c", ".job", ".txt")
BUILT = re.compile(r"target/|crates/\w+/out(?:/|$)")  # begins a path that only a build makes
ANY = re.compile(r"(?<!\w)(?:CRATE|NAME|FILE|F)(?!\w)|…")  # in a path
COMMANDS = ("rt", "python3", "gcc", "cargo", "./trace", ".ci/run", "machine/archive", "machine/x86", "bench/run")
PLAIN = {"requires", "ensures", "CRATE", "NAME", "bool", "u8", "u16", "u32", "u64", "usize", "i32", "i64", "f64", *COMMANDS}
KIT = ("std", "io", "libc", "os", "check", "bytes")
NUMBER = r"\d+(?:\.\d+)?"
GAP = r"(?:\s|--|//|#)+"  # a comment's next line, too
CITED = re.compile(rf"\bRULES{GAP}({NUMBER}(?:{GAP}and{GAP}{NUMBER})*)")
SCOPE = re.compile(rf"\bdocument{GAP}0" + r"1\b", re.I)  # the rules are told in docs/RULES.md, so that is what is cited


class Span(NamedTuple):
    at: int  # where it begins in the document
    words: str
    file: str  # the file behind whose colon it stands


class Found(NamedTuple):
    """Something that was looked up: whether it is there, where it is named, its name, and what is wrong otherwise."""
    good: bool
    at: int
    name: str
    wrong: str


# ---- reading Markdown


def blocks(text: str) -> Iterator[tuple[int, str]]:
    """Paragraphs, rows and items, with where they begin; what stands between fences is left out."""
    fenced, start, at = False, 0, 0
    for line in text.splitlines(keepends=True):
        fence = line.startswith("```")
        if fence or fenced or not line.strip() or BLOCK.match(line):
            if not fenced:
                yield start, text[start:at]
            start = at + len(line) if fence or fenced else at
            fenced ^= fence
        at += len(line)
    yield start, text[start:]


def spans(text: str) -> Iterator[Span]:
    """What stands in backticks; a call without what it is given."""
    for start, block in blocks(text):
        file = ""
        for token in TOKEN.finditer(block):
            words = " ".join((token[1] or "").split())
            if not words or FILE.fullmatch(words):
                file = ""
            if words:
                yield Span(start + token.start(1), re.sub(r"^([\w:]+)\(.*\)$", r"\1", words), file)
            if FILE.fullmatch(words) and token[2]:
                file = words


def section(text: str, title: str) -> tuple[int, str]:
    """What stands under the heading that begins so, and where."""
    heading = re.search(rf"^(#+) {title}.*$", text, re.M)
    if not heading:
        return 0, ""
    after = re.compile(rf"^#{{1,{len(heading[1])}}} ", re.M).search(text, heading.end())
    return heading.end(), text[heading.end() : after.start() if after else len(text)]


def rows(text: str) -> Iterator[tuple[int, list[str]]]:
    for row in re.finditer(r"^\|(.*?)\|?\s*$", text, re.M):
        yield row.start(), re.split(r"\|(?=(?:[^`]*`[^`]*`)*[^`]*$)", row[1])


# ---- what is named is there


def is_path(words: str) -> bool:
    return bool(re.fullmatch(r"[\w.*…/+-]+", words)) and ("/" in words or words.endswith(ENDS)) and words not in ENDS


def path_there(source: Source, words: str) -> bool:
    return bool(source.at(ANY.sub("*", words)))


def word_wrong(source: Source, span: Span) -> str:
    """What is wrong with a single word of the promises."""
    if any(item.c and item.name == span.words for item in source.functions):
        return ""
    if span.file:
        there = any(span.words in source.defined(name) for name in source.at(span.file))
        return "" if there else f"is not defined in {span.file}"
    return "" if span.words in PLAIN or span.words in source.crates else "stands behind no file that could define it"


def expression_wrong(source: Source, span: Span) -> str:
    words = WORD.findall(span.words)
    unknown = [word for word in words if COMPOUND.search(word) and word not in source.known]
    if unknown:
        return f"has {', '.join(unknown)}, which nothing defines"
    there = any(word in source.defined(name) for name in source.at(span.file) for word in words) if span.file else True
    return "" if there else f"has nothing that {span.file} defines"


def named(source: Source, promises: str) -> Iterator[Found]:
    """Every span of the promises."""
    for span in spans(promises):
        words = span.words
        if BUILT.match(words) or " " in words and words.split()[0] in COMMANDS:
            continue
        if is_path(words):
            wrong = "" if path_there(source, words) else "is not in the repository"
        elif ITEM.fullmatch(words):
            there = all(path in source.public_paths or source.is_module(path) for path in expanded(words))
            wrong = "" if there else "is no public item of a crate"
        else:
            wrong = word_wrong(source, span) if WORD.fullmatch(words) else expression_wrong(source, span)
        yield Found(not wrong, span.at, words, wrong)


def pathed(source: Source, text: str) -> Iterator[Found]:
    """The paths of a document, and the items that it names with their crate or type."""
    for span in spans(text):
        words = span.words
        if is_path(words) and not BUILT.match(words):
            yield Found(path_there(source, words), span.at, words, "is not in the repository")
        elif ITEM.fullmatch(words) and words.split("::")[0] not in KIT:
            there = all(path in source.short_paths or source.is_module(path) for path in expanded(words))
            yield Found(there, span.at, words, "is no item of a crate")


def linked(source: Source, name: str, text: str) -> Iterator[Found]:
    for link in re.finditer(r"\]\(([^)#\s]+)[^)]*\)", text):
        if "://" not in link[1]:
            there = (source.root / Path(name).parent / link[1]).exists()
            yield Found(there, link.start(1), link[1], "is a link that leads nowhere")


def shapes(source: Source, decisions: str) -> Iterator[Found]:
    """In the table of shapes, what the second cell names is an item of a file in the third, or stands there to the letter."""
    start, text = section(decisions, "Which shape goes where")
    if not text:
        yield Found(False, 0, "Which shape goes where", "is no heading here")
    for at, cells in rows(text):
        files = files_in(source, cells[-1])
        for span in spans(cells[1]) if len(cells) > 2 else ():
            if re.fullmatch(r"\w+(::\w+)*", span.words):
                there = any(set(span.words.split("::")) <= declared(source, name) for name in files)
            else:
                there = any(span.words in " ".join(source.text(name).split()) for name in files)
            yield Found(there, start + at, span.words, f"is not in {cells[-1].strip()}")


def files_in(source: Source, cell: str) -> list[str]:
    """The Rattle files of a cell; a file with no folder stands in that of the one before it."""
    found: list[str] = []
    folder = Path()
    for path in re.findall(r"[\w./*-]*/[\w./*-]+|\w+\.rt", cell):
        whole = path if "/" in path else str(folder / path)
        folder = Path(whole).parent
        found += [name for name in source.at(whole) if name.endswith(".rt")]
    return found


def declared(source: Source, name: str) -> set[str]:
    return {item.name for item in items(source.text(name), "", "", True) if item.kind != "part"}


# ---- what is to be named is


def functions_in(source: Source, text: str) -> set[Item]:
    paths = {path for span in spans(text) for path in expanded(span.words)}
    return {item for item in source.functions if {item.path, item.full} & paths}


def calls(source: Source, promises: str) -> Iterator[Found]:
    """Each call that a customer uses begins a row under "The calls"."""
    start, text = section(promises, "The calls")
    told = functions_in(source, "\n\n".join(cells[0] for _, cells in rows(text)))
    for item in source.functions:
        if not item.requires and (item.crate in CUSTOMER or (item.crate, item.module) == ("job", "whole")):
            yield Found(item in told, start, item.path, 'has no row under "The calls"')


def called(source: Source, promises: str, decisions: str) -> Iterator[Found]:
    """Each public function that another crate calls is a promise, or an exception with its grounds."""
    told = functions_in(source, promises) | functions_in(source, section(decisions, "Exceptions")[1])
    wrong = f'is called from another crate, and is named neither here nor under "Exceptions" in {DECISIONS}'
    for item in source.called:
        yield Found(item in told, 0, item.path, wrong)


def edits(source: Source, promises: str) -> Iterator[Found]:
    told = {span.words for span in spans(promises)}
    for name in source.matching("crates/*/must-fail/*.edit"):
        edit = name.removeprefix("crates/").removesuffix(".edit")
        yield Found(edit in told, 0, edit, "is an edit that is not named here")


def named_at(source: Source, text: str) -> set[tuple[str, str]]:
    """The names that stand behind a file's colon, each with each such file."""
    return {(span.words, name) for span in spans(text) if span.file for name in source.at(span.file)}


def laws(source: Source, promises: str) -> Iterator[Found]:
    """A law that no proof uses is a promise, or told to be none."""
    told = named_at(source, promises)
    for law, name in source.unused:
        yield Found((law, name) in told, 0, law, f"of {name} is used by no proof, and is not named here")


def spare(source: Source, promises: str) -> Iterator[Found]:
    """What is told to be used by no proof is so."""
    start, text = section(promises, SPARE)
    for law, name in named_at(source, text):
        yield Found((law, name) in source.unused, start, law, f"of {name} is told to be used by no proof, and is used")


def counted(promises: str) -> Found:
    """So many names, as the promises tell themselves: none is lost unseen, nor one that other proofs use."""
    found = list(spans(promises))
    laws = {(span.file, span.words) for span in found if span.file}
    named_edits = {span.words for span in found if "/must-fail/" in span.words and "CRATE" not in span.words}
    functions = {path for span in found if ITEM.fullmatch(span.words) for path in expanded(span.words)}
    right = f"{len(laws)} laws and definitions, {len(named_edits)} edits and {len(functions)} functions"
    told = re.search(r"\d+ laws and definitions, \d+ edits and \d+ functions", promises)
    return Found(bool(told) and told[0] == right, told.start() if told else 0, told[0] if told else right, f"are told, and {right} are named")


# ---- the rules


def cited(text: str, rules: str) -> Iterator[Found]:
    """Each section that a file cites is a heading of the rules, and no file cites what they stand for."""
    headings = set(re.findall(rf"^##+ ({NUMBER})\.? ", rules, re.M))
    for cite in CITED.finditer(text):
        for number in re.findall(NUMBER, cite[1]):
            yield Found(number in headings, cite.start(), f"RULES {number}", f"is no section of {RULES}")
    for cite in SCOPE.finditer(text):
        yield Found(False, cite.start(), cite[0], f"stands there, where {RULES} is to be cited")


def numbered(source: Source, equations: str) -> Iterator[Found]:
    """Each equation of the table has its number in a comment of every file in its third cell."""
    for at, cells in rows(equations):
        if number := re.fullmatch(r"\s*(\(\d+\))\s*", cells[0]):
            files = [name for span in spans(cells[2]) for name in source.at(span.words)]
            for name in files or ("none",):
                good = bool(files) and re.search(rf"(?://|--).*{re.escape(number[1])}", source.text(name)) is not None
                yield Found(good, at, f"{number[1]} {name}", "has no comment with that number")


# ---- the check itself


def silent(part: Callable[[str], Iterable[Found]], text: str, change: Callable[[str, str], tuple[str, str]]) -> str:
    """The names that a part finds, and does not tell where they are changed so."""
    missed = []
    for name in sorted({one.name for one in part(text) if one.good and " " not in one.name}):
        changed, told = change(text, name)
        if told not in {one.name for one in part(changed) if not one.good}:
            missed.append(name)
    return ", ".join(missed)


def altered(text: str, name: str) -> tuple[str, str]:
    return text.replace(f"`{name}", f"`zz{name}"), f"zz{name}"


def taken_out(text: str, name: str) -> tuple[str, str]:
    word = re.split("::|/", name)[-1]
    return re.sub(rf"(?<![\w-]){word}(?![\w-])", "", text), name


def self_test(source: Source, tally: Tally, promises: str, decisions: str) -> None:
    """Each name is told where it is changed."""
    for told, missed in {
        "altered in the promises": silent(lambda text: named(source, text), promises, altered),
        "altered in the decisions": silent(lambda text: [*pathed(source, text), *shapes(source, text)], decisions, altered),
        "taken out of the promises": silent(lambda text: [*calls(source, text), *edits(source, text), *laws(source, text)], promises, taken_out),
        "taken out of both": silent(lambda text: called(source, text, text), f"{promises}\n\n{decisions}", taken_out),
    }.items():
        tally.check(not missed, f"{told}, and not told: {missed}")
    for words in {span.words for span in spans(promises) if span.file}:
        tally.check(not counted(promises.replace(f"`{words}`", "")).good, f"{words} is taken out of the promises, and the count is told to be right")
    laws_of = {
        "crates/a/proofs/One.antt": "pub own : N\nown zero = 0\nown (suc n) =\n    own n\n\npub idle : N\nidle = 0\n\npub step {ℓ} : N\nstep = 0\n",
        "crates/a/proofs/Two.antt": "use One.{\n  idle,\n  step,\n}\npub use One.{idle}\npub end : N\nend = step\n\npub lent : N\nlent = 0\n\npub told : N\ntold = 0\n",
        "crates/a/proofs/f/Answers.antt": "use One.{idle}\npub returns : goal.returns\nreturns c = 0\n",
        "crates/a/src/lib.rt": "#[tactic(auto, using(crate::proofs::Two::lent,\n    std::proofs::A::b), unfolding(crate::proofs::Two::told))]\nfn idle() {}\n// #[tactic(auto, using(crate::proofs::One::own))]\n",
    }
    dead = [law for law, _ in unused(laws_of)]
    right = ["own", "idle", "end", "told"]
    tally.check(dead == right, f"of laws that use themselves, are imported, are handed to the check and are used are told as unused {dead}")
    heads = "pub fn a()\n    requires low { x }\n{\n}\n\npub fn b() {\n    c(requires {})\n}\n\npub fn c()\n    ensures {\n        x\n    }\n    requires* { y }\n{\n}\n"
    asking = [item.name for item in items(heads, "", "", True) if item.requires]
    tally.check(asking == ["a", "c"], f"of {heads!r} is told to ask something {asking}")
    nested = paths_in("use a::{self, b::{c, d as e}, f};\nuse g::{\n    h,\n};\ni::j::k(l)")
    right = {"a", "a::b::c", "a::b::d", "a::f", "g::h", "i::j::k"}
    tally.check(right <= nested, f"of paths in braces are told {sorted(nested)}")
    table = "".join(f"| ({number}) | | `crates/line/src/quotient.rt` |\n" for number in (12, 14))
    wrong = [found.name for found in numbered(source, table) if not found.good]
    tally.check(wrong == ["(14) crates/line/src/quotient.rt"], f"of {table!r} is told {wrong}")
    old = "document 0" + "1"
    sample = f"RULES {2} and {3.4}, RULES\n-- {5}. By {old} [a file](none.md)"
    told_of = [*cited(sample, "## 2. Two\n### 3.4 Four\n"), *linked(source, PROMISES, sample)]
    wrong = [found.name for found in told_of if not found.good]
    tally.check(wrong == [f"RULES {5}", old, "none.md"], f"of {sample!r} is told {wrong}")


def main() -> None:
    source = Source(machine.ROOT)
    tally = Tally()
    tally.SHOWN = 10000  # each is told by its name

    def look(name: str, parts: Iterable[Found]) -> None:
        for found in parts:
            line = source.text(name).count("\n", 0, found.at) + 1
            tally.check(found.good, f"{name}:{line}: `{found.name}` {found.wrong}")

    for name in DOCUMENTS:
        if tally.check(name in source.files, f"{name} is not there"):
            look(name, linked(source, name, source.text(name)))
            look(name, pathed(source, source.text(name)) if name != PROMISES else ())
    promises, decisions = source.text(PROMISES), source.text(DECISIONS)
    for part in (named, calls, edits, laws, spare):
        look(PROMISES, part(source, promises))
    look(PROMISES, called(source, promises, decisions))
    look(PROMISES, [counted(promises)])
    look(DECISIONS, shapes(source, decisions))
    look(EQUATIONS, numbered(source, source.text(EQUATIONS)))
    rules = source.text(RULES) if RULES in source.files else ""
    for name in source.files:
        look(name, cited(source.text(name), rules))
    self_test(source, tally, promises, decisions)
    print(f"documents: {len(source.functions)} public functions, {len(source.called)} of them called from another crate")
    tally.close()


if __name__ == "__main__":
    main()
