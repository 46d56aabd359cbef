#!/usr/bin/env python3
"""Brings the repository's own definitions and lemmas to snake case, once, after port.py: `python3 tools/respell.py` at the top.

A name is the repository's own if a file of specs/ or proofs/ declares it, at its head or as a field of a record.
Names of the library, of the generated modules and of src/ keep their spelling. `--list` prints old and new names, and which fall together."""
import collections
import glob
import re
import sys

WORD = r"[A-Za-zμ≤<][A-Za-z0-9_'≤<μ]*(?:-[A-Za-z0-9_'≤<*+]+)*"
TOKEN = re.compile(r"(?<![A-Za-z0-9_'\-◌])" + WORD + r"(?![A-Za-z0-9_'\-◌])")
PREFIX = re.compile(r"^\s*(?:abbrev |unfoldable )?(?:pub )?(?:abbrev |unfoldable )?")
NAME = re.compile(r"^[A-Za-zμ][A-Za-z0-9_'≤<μ*+-]*$")

# local names of proofs
LOCALS = "fromArrival fromEnd fromJump fromElse nowOfArrival jumpOfSpans elseOfSpans coreOfFinish doneOfFinish elseOfArrival".split()

# names that port.py made alike with a definition of the same file: the lemma gives way there
TWINS = {
    "crates/demands/proofs/Demand2.antt": ["in_order"],
    "crates/task_state/proofs/Oldest.antt": ["moved_up"],
    "crates/task_state/proofs/State/without_run/Proof.antt": ["moved_up"],
    "crates/run_lengths/proofs/Work/without_run/Proof.antt": ["moved_up"],
    "crates/fronts/proofs/Ahead.antt": ["next_up"],
    "crates/admission/proofs/InWords.antt": ["no_table"],
    "crates/host/proofs/Held.antt": ["no_table"],
    "crates/demands/proofs/Beneath/Bounds.antt": ["two_past"],
}


def files():
    return sorted(glob.glob("crates/*/specs/**/*.antt", recursive=True) + glob.glob("crates/*/proofs/**/*.antt", recursive=True))


def is_due(name):
    return name[0].isalpha() and not name[0].isupper() and ("-" in name or re.search(r"[a-z0-9][A-Z]", name) is not None)


def snake(name):
    name = name.replace("getD", "get_or")
    name = re.sub(r"(?<=[a-z0-9])A(?=[A-Z])", "_a", name)
    name = re.sub(r"(?<=[a-z0-9])([A-Z])", lambda m: "_" + m.group(1).lower(), name)
    return name.replace("-", "_")


def declared():
    found = collections.defaultdict(set)
    for path in files() + sorted(glob.glob("crates/*/src/**/*.rt", recursive=True)):
        for line in open(path):
            head = line[PREFIX.match(line).end():].split(" : ")[0].rstrip("\n").removesuffix(" :")
            names = head.split() if path.endswith(".antt") else []
            if " : tie." in line or names and names[0].startswith(("invariant-", "decreases-")):
                continue
            alias = re.match(r"^(?:ghost )?use \S+\.\{(.*)\};?$", line.strip())
            for part in alias.group(1).split(",") if alias else []:
                if " as " in part:
                    found[part.split(" as ")[1].strip()].add(path)
            if head != line.rstrip("\n") and names and all(NAME.match(n) for n in names):
                for name in names:
                    found[name].add(path)
    return found


def imported():
    """The names that a file takes from the library, by file."""
    found = collections.defaultdict(set)
    for path in files() + sorted(glob.glob("crates/*/src/**/*.rt", recursive=True)):
        for line in open(path):
            m = re.match(r"^(?:ghost )?use (\S+?)\.\{(.*)\};?$", line.strip())
            if m and not re.match(r"Rattle\.(?!std\.|core\.)", m.group(1)):
                for part in m.group(2).split(","):
                    found[path].add(part.split(" as ")[-1].strip())
                    found[path].add(part.split(" as ")[0].strip())
    return found


def functions():
    """The names of src/, which stay."""
    found = set()
    for path in glob.glob("crates/*/src/**/*.rt", recursive=True):
        found |= set(re.findall(r"\bfn ([a-z0-9_]+)", open(path).read()))
    return found


def table():
    heads = declared()
    taken = functions() | {n for n in heads if "-" not in n and not is_due(n)} | {snake(n) for n in heads if is_due(n) and "-" not in n}
    new = {n: snake(n) for n in LOCALS}
    for n in heads:
        if is_due(n):
            new[n] = snake(n) + ("_lem" if "-" in n and snake(n) in taken else "")
    return new


def respell(text, new, keep):
    text = re.sub("◌[a-z]+[A-Z][A-Za-z]*◌", lambda m: snake(m.group(0)), text)
    return TOKEN.sub(lambda m: m.group(0) if m.group(0) in keep else new.get(m.group(0), m.group(0)), text)


def code(line):
    """The line's code and its comment."""
    at = line.find("--") if line.lstrip().startswith("--") else line.find(" -- ")
    return (line, "") if at < 0 else (line[:at], line[at:])


def turn_antt(path, new, keep):
    new = {**new, **{n: n + "_lem" for n in TWINS.get(path, [])}}
    lines = open(path).read().split("\n")
    for k, line in enumerate(lines):
        head, tail = code(line)
        lines[k] = respell(head, new, keep) + tail
    open(path, "w").write("\n".join(lines))


def turn_rt(path, new, keep):
    lines = open(path).read().split("\n")
    lines = [s if s.lstrip().startswith("//") else respell(s, new, keep) for s in lines]
    open(path, "w").write("\n".join(lines))


def turn_page(path, new):
    text = open(path).read()
    text = re.sub(r"`[^`\n]*`", lambda m: respell(m.group(0), new, set()), text)
    open(path, "w").write(text)


def main():
    new = table()
    if "--list" in sys.argv:
        heads = declared()
        back = collections.defaultdict(set)
        for n in heads:
            back[new.get(n, n)].add(n)
        for v, olds in sorted(back.items()):
            if len(olds) > 1:
                print(v, {o: sorted(heads[o])[:3] for o in olds})
        return
    keep = imported()
    for path in files():
        turn_antt(path, new, keep[path])
    for path in sorted(glob.glob("crates/*/src/**/*.rt", recursive=True)):
        turn_rt(path, new, keep[path])
    for path in sorted(glob.glob("crates/*/must-fail/*.edit")):
        lines = open(path).read().split("\n")
        lines = [respell(s, new, set()) if s.startswith(("old:", "new:")) else s for s in lines]
        open(path, "w").write("\n".join(lines))
    for path in ["README.md"] + sorted(glob.glob("docs/**/*.md", recursive=True)) + sorted(glob.glob("checks/**/*.md", recursive=True)):
        turn_page(path, new)


main()
