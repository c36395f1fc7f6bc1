#!/usr/bin/env python3
"""Gives the names that the pages and the comments cite between backticks their new spelling (tools/spelling.tsv; see tools/spelling.py)."""

import glob
import os
import re
import subprocess

os.chdir(subprocess.run(["git", "rev-parse", "--show-toplevel"], capture_output=True, text=True, check=True).stdout.strip())
with open("tools/spelling.tsv", encoding="utf-8") as f:
    of = dict(line.rstrip("\n").split("\t") for line in f)
TOKEN = re.compile(r"[^\s(){}.;,@\"«»\[\]\\`]+")
LOW = re.compile(r"-[a-z]|[a-z][A-Z]")


def words(text):
    return TOKEN.sub(lambda m: of.get(m.group(), m.group()) if LOW.search(m.group()) else m.group(), text)


pages = ["README.md", *glob.glob("docs/*.md")]
for path in pages + glob.glob("crates/*/src/**/*.rt", recursive=True) + glob.glob("crates/*/specs/**/*.antt", recursive=True) + glob.glob("crates/*/proofs/**/*.antt", recursive=True):
    if path == "docs/PORT.md":
        continue
    with open(path, encoding="utf-8", newline="") as f:
        old = f.read()
    if path in pages:
        new = re.sub(r"`[^`]*`", lambda m: words(m.group()), old)
    else:
        new = re.sub(r"(?m)^ *(?://|--).*$", lambda m: re.sub(r"`[^`]*`", lambda n: words(n.group()), m.group()), old)
    if new != old:
        with open(path, "w", encoding="utf-8", newline="") as f:
            f.write(new)
