#!/usr/bin/env python3
"""Respells the repository's own words of specs/ and proofs/, once, at the top, after port.py.

Types and modules stay in camel case; every other word of the repository's own (definitions, lemmas, fields and
variables of antt) goes to snake case, and a prime to an apostrophe. Names of src/, of the toolchain's library and of
what the checker makes keep their spelling. It refuses to write where two names of one file fall together.
"""
import collections
import glob
import re
import sys

TOKEN = re.compile(r"(?<![\w'◌-])([A-Za-z][\w'-]*)")
LOGIC = [f for part in ("specs", "proofs") for f in glob.glob(f"crates/*/{part}/**/*.antt", recursive=True)]
WALKS = [f for f in LOGIC if f.endswith("/Proof.antt")]
TEXTS = [f for f in LOGIC if f not in WALKS]
SOURCES = glob.glob("crates/*/src/*.rt")
EDITS = glob.glob("crates/*/must-fail/*.edit")
# a name that the checker makes of the code, or that its library has; in Proof.antt it is no word of ours
MADE = re.compile(r":\s*(tie\.|\{M : Type 1\} → statement)")


def bare(line):
    return re.sub(r"(^|\s)--( .*)?$", "", line)


def imported(lines):
    """The words that a file takes from the library."""
    words = set()
    for line in lines:
        found = re.match(r"use (\S+)\.\{(.*)\}", line)
        if found and not re.match(r"Rattle\.(%s)\." % "|".join(CRATES), found.group(1)):
            words |= set(re.split(r",\s*", found.group(2)))
    return words


def declared(line):
    """The words that a line of antt declares: a definition, fields, parameters, what let, λ and a clause bind."""
    words = set()
    found = re.match(r"\s*(?:(?:pub|abbrev|unfoldable|record|ruleset)\s+)*([A-Za-z][\w'-]*)[^:=]*?\s:\s", line)
    if found:
        words.add(found.group(1))
    for group in re.findall(r"[({]\s*([A-Za-z][^:(){}=]*?)\s*:\s", line):
        words |= set(group.split())
    for group in re.findall(r"(?:let|λ)\s+([^.=:]*?)\s*[.=:]", line):
        words |= set(TOKEN.findall(group))
    left = re.match(r"\s*[a-z][\w'-]*\s+([^:]*?)\s=\s", line)
    if left:
        words |= set(TOKEN.findall(left.group(1)))
    return words


def spelled(word):
    word = re.sub(r"([a-z0-9'])([A-Z])", lambda m: m.group(1) + "_" + m.group(2).lower(), word)
    return word.replace("-", "_")


CRATES = [line.split(":")[0] for line in open("crates.txt") if ":" in line and not line.startswith("#")]
own, library = set(), set()
for name in LOGIC:
    lines = open(name).read().split("\n")
    library |= imported(lines)
    for line in map(bare, lines):
        if name in WALKS and MADE.search(line):
            continue
        own |= declared(line)
# three fields that would fall together with a definition of their file
turned = {"by-voltage": "under_voltage", "both-carry": "carried_by_both", "said_each": "each_said"}
# bare words that stand already in snake case, and would fall together with a definition
bare_words = {}
alike = collections.defaultdict(set)
for word in own - library:
    if re.match(r"[a-z]", word) and word not in turned:
        alike[spelled(word)].add(word)
for word, old in alike.items():
    # a definition keeps the plain name; a lemma that would have its function's name gets _lem
    plain = [w for w in old if re.search(r"[a-z0-9][A-Z]", w)] or [w for w in old if "-" not in w] or sorted(old)
    for w in sorted(old):
        if w == plain[0]:
            turned[w] = word
        elif "-" in w or len(plain) > 1:
            turned[w] = word + "_lem"
        else:
            bare_words[w] = word + "_lem"
turned = {w: new for w, new in turned.items() if new != w}


def respell(text, comment=False):
    def one(found):
        word = found.group(1)
        if word in bare_words and text[found.start() - 1:found.start()] != ".":
            return word if comment else bare_words[word]
        if comment and "-" in word:
            return word
        return turned.get(word, word)
    return TOKEN.sub(one, text)


def antt(name, text):
    out = []
    made = set()
    if name in WALKS:
        for line in text.split("\n"):
            if MADE.search(line):
                made.add(line.split(":")[0].replace("pub", "").replace("abbrev", "").strip())
    for line in text.split("\n"):
        code = bare(line)
        rest = line[len(code):]
        if name in WALKS:
            # a path into what the checker made keeps its names; so do the answers that are named after a goal
            code = re.sub(r"(?<![\w'◌.-])([A-Za-z][\w'-]*)", lambda m: m.group(1) if m.group(1) in made else turned.get(m.group(1), bare_words.get(m.group(1), m.group(1))), code)
            code = re.sub(r"(?<=\.)([a-z]\w*[a-z0-9][A-Z]\w*)", lambda m: turned.get(m.group(1), m.group(1)), code)
        else:
            code = respell(code)
        out.append(code + re.sub(r"`[^`]*`", lambda m: respell(m.group(0)), respell(rest, comment=True)))
    return "\n".join(out)


def source(text):
    # the words with a dash stand in no source; a minus stands between spaces
    return respell(text, comment=True)


clashes = 0
wrote = 0
for name in LOGIC + SOURCES:
    text = open(name).read()
    new = antt(name, text) if name in LOGIC else source(text)
    was = collections.defaultdict(set)
    code = "\n".join(map(bare, text.split("\n")))
    for word in re.findall(r"(?<![.\w'◌-])([A-Za-z][\w'-]*)", code):
        was[turned.get(word, bare_words.get(word, word))].add(word)
    for word, old in was.items():
        if len(old) > 1:
            clashes += 1
            print(f"fall together in {name}: {' '.join(sorted(old))}")
    if new != text:
        wrote += 1
        if "--write" in sys.argv:
            open(name, "w").write(new)
print(f"{len(turned)} words, {wrote} files, {clashes} clashes")
if "--list" in sys.argv:
    for word, new in sorted(list(turned.items()) + list(bare_words.items())):
        print(word, new)
