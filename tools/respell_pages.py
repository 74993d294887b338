#!/usr/bin/env python3
"""Respells the words of specs/ and proofs/ in the pages and in comments, after port.py and respell.py, at the top.

    python3 tools/respell_pages.py LANDED SCRIPTED [FILE...]

LANDED and SCRIPTED are the commits before and after those two. The declarations of a file of antt stand in the same
order in both, so that each old word has one new one. In comments of the sources, and in the pages, an old word that
stands alone, or between backticks, is turned; code is left as it is.
"""
import collections
import glob
import re
import subprocess
import sys

TOKEN = re.compile(r"(?<![\w'◌./-])([A-Za-z][\w'′-]*)(?!-)")
DECLARED = re.compile(
    r"\s*(?:(?:pub|abbrev|unfoldable|record|data|ruleset)\s+)*([A-Za-z][^\s(){}:=]*)\s*(?:\([^=]*\)\s*)?:\s"
)


def git(*words):
    return subprocess.run(["git", *words], capture_output=True, check=True, text=True).stdout


def declared(text):
    lines = (re.sub(r"(^|\s)--( .*)?$", "", line) for line in text.split("\n"))
    return [found.group(1) for found in map(DECLARED.match, lines) if found]


def words(landed, scripted):
    turned = collections.defaultdict(set)
    for name in git("ls-tree", "-r", "--name-only", landed, "crates").split("\n"):
        if not name.endswith(".antt") or name.endswith("/Proof.antt"):
            continue
        old, new = declared(git("show", f"{landed}:{name}")), declared(git("show", f"{scripted}:{name}"))
        if len(old) != len(new):
            sys.exit(f"{name}: {len(old)} declarations became {len(new)}")
        for one, other in zip(old, new):
            turned[one].add(other)
    unclear = {one: others for one, others in turned.items() if len(others) > 1}
    if unclear:
        sys.exit(f"not one new word: {unclear}")
    return {one: others.pop() for one, others in turned.items() if one not in others}


def respell(text, turned):
    return TOKEN.sub(lambda found: turned.get(found.group(1), found.group(1)), text)


def commented(line, mark):
    start = re.search(rf"(^|\s){mark}(\s|$)", line)
    return len(line) if start is None else start.start()


turned = words(sys.argv[1], sys.argv[2])
names = sys.argv[3:] or [
    *glob.glob("crates/*/specs/**/*.antt", recursive=True),
    *glob.glob("crates/*/proofs/**/*.antt", recursive=True),
    *glob.glob("crates/*/src/*.rt"),
    "README.md",
    *glob.glob("docs/**/*.md", recursive=True),
]
for name in names:
    text = open(name).read()
    if name.endswith(".md"):
        new = respell(text, turned)
    else:
        mark = "--" if name.endswith(".antt") else "//"
        cuts = [(line, commented(line, mark)) for line in text.split("\n")]
        new = "\n".join(line[:cut] + respell(line[cut:], turned) for line, cut in cuts)
    if new != text:
        open(name, "w").write(new)
