"""What a document of the repository can name: its files, the definitions of a proof file, the items of a Rattle file."""
from __future__ import annotations

import re
import shutil
import subprocess
from fnmatch import fnmatchcase
from functools import cache, cached_property
from pathlib import Path
from typing import Iterator, NamedTuple

ENDINGS = ("", ".antt", ".rt", ".edit")  # what a document may leave out

# `name : type` at the start of a line, or a record, a data type or a module by its keyword
MARKS = r"^ *(?:(?:pub|abbrev|unfoldable|pattern|axiom) )*"
SIGNED = r"([^\s(){}:;,.]+)(?: \{[^{}]*\})? :(?=\s|$)"
DEFINED = re.compile(rf"{MARKS}(?:(?:record|data|module) ([^\s(){{}}:;,.]+)|{SIGNED})", re.M)

# a law of a proof file, the words of a proof, and its imports, of which only a new name is a use
LAW = re.compile(MARKS + SIGNED, re.M)
RECORD = re.compile(r"^( *)(?:pub )?record .*\n(?:\1 +.*\n)*", re.M)
TERM = re.compile(r"[^\s(){}\[\];,.]+")
IMPORT = re.compile(r"^ *(?:(?:pub|unfoldable|ghost) )*use (?:[^{}\n]*\{[^{}]*\}.*|.*)$", re.M)
RENAMED = re.compile(r"\S+ as \S+")
ANSWERS = ("Proof.antt", "Invariants.antt", "Answers.antt")  # what a function's folder has; the names in them are no laws

# the laws that a function's attribute hands to the check, each by its path
ATTRIBUTE = re.compile(r"#!?\[tactic\((?:[^()]|\([^()]*\))*\)\]")
USING = re.compile(r"\busing\(([^()]*)\)")

MODULE = re.compile(r"^pub mod (\w+);$", re.M)
OWNER = re.compile(r"^(?:pub )?(?:impl(?:<[^>]*>)? (?:\S+ for )?|struct |enum |trait )(\w+)")
CLAUSE = re.compile(r"\s*(?:requires|ensures)\*?(?: \w+)? \{")  # of a function, with a name or without
REQUIRES = re.compile(r"^\s*requires\*?(?: \w+)? \{", re.M)
ITEM = re.compile(r'^(?P<inner>    )?(?P<pub>pub )?(?P<c>extern "C" )?(?P<kind>fn|struct|enum|const) (?P<name>\w+)')
PART = re.compile(r"^    (?:pub )?(\w+)(?:: .*|\(.*\)| \{.*)?,$")  # a field or a variant
PATH = re.compile(r"\b\w+(?:::\w+)*(?:::\{|::\w+)")  # up to a brace, where it has one


class Item(NamedTuple):
    crate: str
    module: str  # empty at the crate's root
    owner: str  # the type of a method, a field or a variant
    name: str
    kind: str
    public: bool  # for every crate: the item, and the way to it
    c: bool
    requires: bool

    @property
    def path(self) -> str:
        """What the documents call it."""
        return self.name if self.c else "::".join(filter(None, (self.crate, self.owner or self.module, self.name)))

    @property
    def full(self) -> str:
        return "::".join(filter(None, (self.crate, self.module, self.owner, self.name)))


def expanded(path: str) -> list[str]:
    """a::{b, c} is a::b and a::c."""
    front, _, rest = path.partition("{")
    return [front + name.strip() for name in rest.rstrip("}").split(",")]


def paths_in(text: str) -> set[str]:
    """The paths of a Rattle text, those in braces written out, braces within braces too."""
    found: set[str] = set()
    for path in PATH.finditer(text):
        if not path[0].endswith("{"):
            found.add(path[0])
            continue
        fronts, word, at = [path[0][:-1]], "", path.end()
        while fronts and at < len(text):
            sign = text[at]
            if sign == "{":
                fronts.append(fronts[-1] + word.strip())
            elif sign in ",}":
                name = word.split(" as ")[0].strip()
                if name:
                    found.add(fronts[-1].removesuffix("::") if name == "self" else fronts[-1] + name)
                if sign == "}":
                    fronts.pop()
            word = "" if sign in "{,}" else word + sign
            at += 1
    return found


def header(lines: list[str], at: int) -> str:
    """A function's lines up to its body."""

    def begins_body(line: str) -> bool:
        return line.strip() == "{" or line.endswith(" {") and not CLAUSE.match(line)

    end = next(i for i in range(at, len(lines)) if begins_body(lines[i]))
    return "\n".join(lines[at:end])


def items(text: str, crate: str, module: str, way: bool) -> Iterator[Item]:
    """The items of a file and their parts; `way` says whether other crates can reach its module."""
    owner = ""
    lines = text.splitlines()
    for at, line in enumerate(lines):
        if line[:1] not in ("", " "):
            owner = (OWNER.match(line) or ["", ""])[1]
        item, part = ITEM.match(line), PART.match(line)
        if item:
            inner = owner if item["inner"] else ""
            requires = item["kind"] == "fn" and bool(REQUIRES.search(header(lines, at)))
            yield Item(crate, module, inner, item["name"], item["kind"], way and bool(item["pub"]), bool(item["c"]), requires)
        elif owner and part:
            yield Item(crate, module, owner, part[1], "part", way, False, False)


def without(text: str, law: str) -> str:
    """A file less a law's own statement and equations, and all that stands deeper: a law's recursion is no use of it."""
    word = re.escape(law)
    return re.sub(rf"^( *)(?:(?:pub|abbrev|unfoldable|pattern|axiom) )*{word}(?: \{{[^{{}}]*\}})? :.*\n(?:\1(?: .*|{word} .*|unfolding .*|[\])}}].*)\n| *\n)*", "", text, flags=re.M)


def used(name: str, text: str) -> str:
    """What a file has of proofs: a proof file less its comments and imports; of a Rattle file the laws that its attributes name."""
    if name.endswith(".rt"):
        given = [path for one in ATTRIBUTE.findall(re.sub(r"//.*", "", text)) for path in USING.findall(one)]
        return " ".join(path.strip().split("::")[-1] for paths in given for path in paths.split(","))
    return IMPORT.sub(lambda line: " ".join(RENAMED.findall(line[0])), re.sub(r"--.*", "", text))


def unused(texts: dict[str, str]) -> list[tuple[str, str]]:
    """The laws in these files that no other proof of them uses, each with its file."""
    told = {name: used(name, text) for name, text in texts.items()}
    words = {name: set(TERM.findall(text)) for name, text in told.items()}
    found = []
    for name in (name for name in told if "/proofs/" in name and not name.endswith(ANSWERS)):
        for law in dict.fromkeys(LAW.findall(RECORD.sub("", told[name]))):
            if not any(law in words[other] for other in words if other != name) and law not in TERM.findall(without(told[name], law)):
                found.append((law, name))
    return found


def listed(root: Path) -> list[str]:
    """The repository's files: what git lists, or, in a copy that is no clone, all but what is built."""
    words = ["git", "-C", str(root), "ls-files", "-z", "--cached", "--others", "--exclude-standard"]
    if shutil.which("git") and (told := subprocess.run(words, capture_output=True, text=True)).returncode == 0:
        return told.stdout.split("\0")
    names = [name.relative_to(root) for name in root.rglob("*")]
    return [str(name) for name in names if not {"target", "out", ".git", "__pycache__"} & set(name.parts)]


class Source:
    def __init__(self, root: Path) -> None:
        self.root = root
        self.files = sorted({name for name in listed(root) if name and (root / name).is_file()})
        self.crates = sorted({name.split("/")[1] for name in self.files if name.startswith("crates/")})

    @cache
    def text(self, name: str) -> str:
        return (self.root / name).read_text(encoding="utf-8", errors="replace")

    def matching(self, *patterns: str) -> list[str]:
        return [name for name in self.files if any(fnmatchcase(name, one) for one in patterns)]

    @cache
    def at(self, path: str) -> list[str]:
        """The files of a document's path, which is whole or the end of a longer one; of a folder all that it holds."""
        path = path.removeprefix("./").rstrip("/")
        for ending in ENDINGS:
            ends = (path + ending, f"*/{path}{ending}") + (() if ending else (f"{path}/*", f"*/{path}/*"))
            if found := self.matching(*ends):
                return found
        return []

    # ---- names

    @cache
    def defined(self, name: str) -> set[str]:
        """What a file of a crate defines."""
        if name.endswith(".antt"):
            return {one or other for one, other in DEFINED.findall(self.text(name))}
        return {item.name for item in items(self.text(name), "", "", True)}

    @cached_property
    def unused(self) -> list[tuple[str, str]]:
        return unused({name: self.text(name) for name in self.matching("crates/*.antt", "crates/*.rt")})

    @cached_property
    def known(self) -> set[str]:
        """What any file of the crates defines."""
        return set().union(*map(self.defined, self.matching("crates/*.antt", "crates/*.rt")))

    @cached_property
    def items(self) -> list[Item]:
        found: list[Item] = []
        for name in self.matching("crates/*/src/*.rt"):
            _, crate, _, *inner = Path(name).with_suffix("").parts
            module = "" if inner in (["lib"], ["main"]) else "::".join(inner)
            lib = f"crates/{crate}/src/lib.rt"
            way = lib in self.files and module in ("", *MODULE.findall(self.text(lib)))
            found += items(self.text(name), crate, module, way)
        return found

    @cached_property
    def public_paths(self) -> set[str]:
        return {path for item in self.items if item.public for path in (item.path, item.full)}

    @cached_property
    def short_paths(self) -> set[str]:
        """Every item with some of the words before it left out."""
        whole = [path.split("::") for item in self.items for path in (item.path, item.full)]
        return {"::".join(words[i:]) for words in whole for i in range(len(words))}

    def is_module(self, path: str) -> bool:
        return f"crates/{path.replace('::', '/src/', 1).replace('::', '/')}.rt" in self.files

    # ---- functions

    @cached_property
    def functions(self) -> list[Item]:
        """The public ones."""
        return [item for item in self.items if item.kind == "fn" and item.public]

    @cached_property
    def called(self) -> list[Item]:
        """Those with a caller in another crate."""
        found: set[Item] = set()
        for name in self.matching("crates/*/src/*.rt"):
            text = re.sub(r"//.*", "", self.text(name))
            paths = paths_in(text)
            found.update(item for item in self.functions if item.crate != name.split("/")[1] and calls(text, paths, item))
        return sorted(found)


def calls(text: str, paths: set[str], item: Item) -> bool:
    """Whether a file of another crate calls a function: by its path, or a method by its type's name or on a value."""
    owner = item.full.rpartition("::")[0]
    by_type = owner in paths and f"{item.owner}::{item.name}" in paths
    on_value = f".{item.name}(" in text and f"fn {item.name}(" not in text
    return item.full in paths or bool(item.owner) and (by_type or on_value)
