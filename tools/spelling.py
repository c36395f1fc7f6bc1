#!/usr/bin/env python3
"""Spells the repository's own definitions and lemmas as today's Rattle does: words in snake case.

usage: tools/spelling.py          in the top folder, once, after /opt/rattle/port/port.py: rewrites the files in place
       tools/spelling.py --list   says what it would rename, and which names fall together

    limitsOk -> limits_ok      every-octet-once -> every_octet_once

It takes the names that specs/ and the lemma files of proofs/ define (definitions, lemmas, fields, cases), and the lemmas that a
function's own Proof.antt makes for itself; it leaves names of types and facts (which begin with a capital letter) but for their
dashes, names that the code of src/ has, names that Rattle makes (a goal, a step), and names that a file takes from the library.
"""

import collections
import glob
import os
import re
import subprocess
import sys

W = r"[^\s(){}.;,@\"«»\[\]\\]+"
DEF = re.compile(r"^\s*((?:abbrev|unfoldable|pub|opaque|infix[lr]? \d+) )*(" + W + r")(?: *\{[^}]*\}| *\([^)]*\))* *:\s")
OWN_FILES = ("Proof.antt", "Answers.antt", "Invariants.antt")
CAMEL = re.compile(r"^[a-z][A-Za-z0-9′']*[A-Z]")
TOKEN = re.compile(W)
# What a proof file of a function answers: Rattle gives these names.
MADE = re.compile(r"^(returns|loop|invariant|decreases|Inv|μ)(-.*)?$|-(requires|spec|2|3|4|5|6|7|8|9)$|^(add|sub|mul|cast|shl|shr|part|element|shared|array|slice|copy)-")


# A field that would have the name of the definition which it speaks of.
BY_HAND = {"set-to": "is_set_to"}


def files(pattern):
    return sorted(f for f in glob.glob("crates/" + pattern, recursive=True) if "/out/" not in f)


def read(path):
    with open(path, encoding="utf-8", newline="") as f:
        return f.read()


def snake(name):
    name = name.replace("′", "'")
    if CAMEL.match(name):
        name = re.sub(r"(?<=[a-z0-9])([A-Z])", lambda m: "_" + m.group(1).lower(), name)
        name = re.sub(r"^([a-z_0-9]*)([A-Z])", lambda m: m.group(1) + "_" + m.group(2).lower(), name)
    return re.sub(r"(?<=[^\s-])-(?=[^\s-])", "_", name)


def from_library(text):
    """The names that a file's use lines take from elsewhere than this repository."""
    out = set()
    for path, names in re.findall(r"^(?:ghost |pub )*use ([^\s{]+)\{([^}]*)\}", text, flags=re.M):
        crate = re.match(r"Rattle\.(\w+)\.", path)
        if not (crate and os.path.isdir("crates/" + crate.group(1))):
            out |= {n.split(" as ")[0].strip() for n in names.split(",")}
    return out


def defined_in(f):
    return {m.group(2) for m in map(DEF.match, read(f).splitlines()) if m}


def defined():
    names = collections.defaultdict(set)
    for f in files("*/specs/**/*.antt") + files("*/proofs/**/*.antt"):
        own = os.path.basename(f) in OWN_FILES
        for line in read(f).splitlines():
            m = DEF.match(line)
            if m and not (own and (MADE.search(m.group(2)) or re.search(r": tie\.Need-", line))):
                names[m.group(2)].add(f)
            for it in re.findall(r"^\s*(?:pub )?data .*? where|^\s*\| (" + W + r")", line):
                if it:
                    names[it].add(f)
    return names


def renames():
    """Old names and new ones. A lemma that would have the name of a definition gets `_lem`."""
    taken = set()
    for f in files("**/*.antt") + files("*/src/**/*.rt"):
        taken |= from_library(read(f))
    names = defined()
    out = dict(BY_HAND)
    for name in names:
        new = snake(name)
        if new != name and name not in taken and not name.startswith("-") and name not in out:
            out[name] = new
    camel = {new for old, new in out.items() if CAMEL.match(old)}
    for old, new in out.items():
        if "-" in old and not CAMEL.match(old) and old not in BY_HAND and (new in camel or new in names):
            out[old] = new + "_lem"
    return out


def lemmas(of):
    """Lemmas in snake case already that would have the name of a definition, in a file that has both."""
    out = set()
    back = {new: old for old, new in of.items() if CAMEL.match(old)}
    for f in files("*/proofs/*.antt") + files("*/proofs/[A-Z]*/**/*.antt"):
        words = set(TOKEN.findall(read(f)))
        for new in defined_in(f):
            if back.get(new) in words:
                out.add(new)
    return out


def said(of):
    """Where two names fall together in a file."""
    olds = collections.defaultdict(set)
    for old, new in of.items():
        olds[new].add(old)
    for new, them in sorted(olds.items()):
        if len(them) > 1:
            print("two names are one:", new, sorted(them))
    for f in files("**/*.antt") + files("*/src/**/*.rt"):
        words = set(TOKEN.findall(read(f)))
        for old, new in of.items():
            if old in words and new in words:
                print("both stand in", f + ":", old, new)


def turn(text, of, own=False, lem=()):
    def one(m):
        name, before, after = m.group(), text[m.start() - 1 : m.start()], text[m.end() : m.end() + 1]
        if name in lem and before != "." and after != ".":
            return name + "_lem"
        new = of.get(name, name)
        # After a dot a function's own proof names a step, after the function that is called.
        return snake(name) if own and before == "." and new.endswith("_lem") else new

    return TOKEN.sub(one, text)


def in_code(text, of):
    """In .rt files and in pages only camel case and dashes that no code has; strings stay."""
    out = []
    for part in re.split(r'("(?:[^"\\\n]|\\.)*")', text):
        out.append(part if part.startswith('"') and not part.startswith('"`') else turn(part, of))
    return "".join(out)


def main():
    os.chdir(subprocess.run(["git", "rev-parse", "--show-toplevel"], capture_output=True, text=True, check=True).stdout.strip())
    of = renames()
    lem = lemmas(of)
    if "--list" in sys.argv:
        for old, new in sorted(of.items()):
            print(old, new)
        print("lemmas that get _lem:", sorted(lem))
        said(of)
        return
    with open("tools/spelling.tsv", "w", encoding="utf-8") as f:
        f.writelines(f"{old}\t{new}\n" for old, new in sorted(of.items()))
    for f in files("**/*.antt"):
        old = read(f)
        new = turn(old, of, os.path.basename(f) in OWN_FILES, lem)
        if new != old:
            with open(f, "w", encoding="utf-8", newline="") as it:
                it.write(new)
    for f in files("*/src/**/*.rt") + files("*/must-fail/*.edit"):
        old = read(f)
        new = in_code(old, of)
        if new != old:
            with open(f, "w", encoding="utf-8", newline="") as it:
                it.write(new)
    for f in ["README.md", *sorted(glob.glob("docs/*.md"))]:
        old = read(f)
        new = re.sub(r"`[^`]*`", lambda m: turn(m.group(), of), old)
        if new != old:
            with open(f, "w", encoding="utf-8", newline="") as it:
                it.write(new)


main()
