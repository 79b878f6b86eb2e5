#!/usr/bin/env python3
"""Brings the repository's own definitions and lemmas to the spelling of today's Rattle.

usage: python3 tools/respell.py [--list]     at the top of the repository; --list only prints old and new names

It follows port.py of the kit, and is run once: words of specs/ and proofs/ are in snake case (`planesOut`, `code-once` become
`planes_out`, `code_once`), types, facts and modules begin with a capital and keep theirs. Fields of records are words too. What a function of src/, an
exported C function, a string, an input or an output is called stays. Names that fall together with another of the repository are refused.
"""

import glob
import re
import sys

WORD = re.compile(r"[^\s(){}\[\],;.:=`\"|→×λ↦]+")
DEFINES = re.compile(r"^\s*(?:\|\s*)?(?:(?:abbrev|unfoldable|pub)\s+)*(?:record\s+|data\s+|ruleset\s+)?([^\s:(){}\[\]λ,;=.|]+)\s*:\s*(.*)$")
IMPORT = re.compile(r"^(?:ghost )?use ([\w.+'-]+)\.\{([^}]*)\}", re.M)
ANSWER = re.compile(r"^tie\.|^goal\.")
# facts and relations in lower case
TYPES = {"standing": "Standing", "alike": "Alike", "kept": "Kept", "cutInto": "CutInto", "plain": "Plain"}
# names that mean a thing of their own elsewhere
CHOSEN = {
    "getD-member": "get_or_member",
    # a lemma on the definition of the same name
    "and-then": "and_then_lem",
    "at-end": "at_end_lem",
    "at_first": "at_first_lem",
    "back-by": "back_by_lem",
    "beyond-by": "beyond_by_lem",
    "crossed-by": "crossed_by_lem",
    "crossed-on": "crossed_on_lem",
    "enter-by": "enter_by_lem",
    "factor-by": "factor_by_lem",
    "grid-read": "grid_read_lem",
    "leave-by": "leave_by_lem",
    "leaves_at": "leaves_at_lem",
    "or-zero": "or_zero_lem",
    "run-by": "run_by_lem",
    "share_in": "share_in_lem",
    "step_is": "step_is_lem",
    "sum-list": "sum_list_lem",
}


def read(path):
    with open(path, encoding="utf-8") as f:
        return f.read()


def sources(*endings):
    found = []
    for ending in endings:
        found += glob.glob(f"crates/**/*.{ending}", recursive=True)
    return sorted(p for p in found if "/out/" not in p)


def snake(name):
    name = re.sub(r"(?<=[a-z0-9α-ω₁₂])([A-Z])", lambda m: "_" + m.group(1).lower(), name)
    return name.replace("-", "_").replace("′", "'")


def own_names():
    """Each name that a file of specs/ or proofs/ defines, with the files; the names of answers to goals are the kit's."""
    names = {}
    for path in sources("antt"):
        for line in read(path).splitlines():
            if line.lstrip().startswith("--") or "↦" in line:
                continue
            m = DEFINES.match(line)
            if m and not ANSWER.match(m.group(2)) and m.group(1) not in ("let", "in"):
                names.setdefault(m.group(1), set()).add(path)
    return names


def respelled(names):
    new = {}
    for name in names:
        if re.fullmatch(r"returns-\d+|.*-requires(-\d+)?", name):
            continue
        if name in TYPES:
            continue
        if name in CHOSEN:
            new[name] = CHOSEN[name]
        elif not name[0].isupper() and snake(name) != name:
            new[name] = snake(name)
    return new


def words_of_src():
    """Functions of src/ that proof files name with dashes: steps and fields that the check makes."""
    found = set()
    for path in sources("rt"):
        found |= set(re.findall(r"\b[a-z][a-z0-9]*(?:_[a-z0-9]+)+\b", read(path)))
    return {w.replace("_", "-"): w for w in found}


def clashes(names, new):
    seen = {n: n for n in names if n not in new}
    bad = []
    for old in sorted(new):
        other = seen.setdefault(new[old], old)
        if other != old:
            bad.append(f"{other} and {old} are both {new[old]}: {sorted(names[other])[:3]} {sorted(names[old])[:3]}")
    return bad


def foreign(text):
    """Names that a file imports from elsewhere: they are not ours in it."""
    taken = set()
    for path, items in IMPORT.findall(text):
        if not re.match(r"Rattle\.(axis|ray|line|walk|tracing|place|text|load|job|trace|ilvoresta|outside|figures_\w+)\.", path):
            for item in items.split(","):
                taken.add(item.split(" as ")[-1].strip())
    return taken


def turned(text, new, steps, also=True):
    taken = foreign(text)

    def one(m):
        word = m.group(0)
        if word in new and word not in taken:
            return new[word]
        if also and m.start() and text[m.start() - 1] == "." and word in steps:
            return steps[word]
        return word

    return WORD.sub(one, text)


def in_ticks(text, new):
    return re.sub(r"`[^`\n]+`", lambda m: turned(m.group(0), new, {}, False), text)


def typed(text):
    """Facts of lower case, in a file that defines or imports one: not a field, a label or the variable of a clause."""
    for old, new in TYPES.items():
        defines = re.search(rf"^abbrev pub {old} :.*Type 0$", text, re.M)
        imports = re.search(rf"^(?:ghost )?use Rattle\.\w+\.(?:specs|proofs)\.\w+\.\{{[^}}]*\b{old}\b[^}}]*\}}", text, re.M)
        if not defines and not imports:
            continue
        lines = []
        for line in text.split("\n"):
            if re.match(rf"^(?:abbrev pub )?{old}\b", line):
                line = re.sub(rf"^((?:abbrev pub )?){old}\b", rf"\1{new}", line)
            elif not line.lstrip().startswith("--"):
                line = re.sub(rf"(?<![.\w'-])(?<!ensures ){old}(?![\w'-])(?! *[=:])", new, line)
            lines.append(line)
        text = "\n".join(lines)
    return text


def write(path, text, before):
    if text != before:
        with open(path, "w", encoding="utf-8") as f:
            f.write(text)


def main():
    names = own_names()
    new = respelled(names)
    if "--list" in sys.argv:
        for old in sorted(new):
            print(old, new[old])
        return 0
    bad = clashes(names, new)
    if bad:
        print("\n".join(bad))
        return 1
    steps = words_of_src()
    for path in sources("antt", "rt", "edit"):
        text = read(path)
        write(path, typed(turned(text, new, steps)), text)
    for path in ["README.md"] + sorted(glob.glob("docs/**/*.md", recursive=True)):
        text = read(path)
        write(path, in_ticks(text, new), text)
    return 0


if __name__ == "__main__":
    raise SystemExit(main())
