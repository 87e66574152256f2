#!/usr/bin/env python3
"""Brings the repository's own definitions and lemmas to one spelling: words in snake case; types and facts keep theirs.

usage: python3 tools/respell.py [--names]    at the top of the repository, once, right after port.py. Says which names came to differ;
with --names it writes nothing.

A name is the repository's own if a file of specs/ or proofs/ declares it (a definition, a lemma, a field of a record) or a `use` line
brings it in under a word of ours. Names of Rattle source, of the library and of what Rattle makes are left alone, and so are names that
begin with a capital: types, facts, and the cases of a data type, which are spelled as the variants of the code that they mirror. Where a
lemma would get the name of a definition it gets `_lem` behind it. Edits and documents aren't touched.
"""
import os
import re
import sys

NAME = r"[^\s(){}\[\];,.|\"`«»]+"
TOKEN = re.compile(NAME)
DECLARED = re.compile(r"^(\s*)(?:(?:abbrev|unfoldable|pub)\s+)*(" + NAME + r")\s+:(?:\s|$)")
ALIAS = re.compile(r"(?<=\sas\s)(" + NAME + r")(?=\s*[,}])")
PLACED = ("Proof.antt", "Answers.antt", "Invariants.antt")
# What port.py spelled as a type though it is a word; and what a file calls another's word, which would get the name of a definition.
MENDED = {"Frees-of": "frees_of", "ahead_of_lem": "ahead_of", "run_of": "the_run", "blank_of": "the_blank"}
# Fields of records in specs/ that would get the name of a definition.
FIELDS = {"sends-after": "sends_left", "as-set": "as_a_set"}


def files(root):
    for folder, dirs, names in os.walk(os.path.join(root, "crates")):
        dirs[:] = sorted(d for d in dirs if d not in ("out", "must-fail"))
        for name in sorted(names):
            if name.endswith((".antt", ".rt")):
                yield os.path.join(folder, name)


def snake(name):
    if not re.match(r"[a-z]", name) or "◌" in name or any(re.match(r"[A-Z]", p) for p in name.split("-")):
        return name
    return re.sub(r"(?<=[a-z0-9])([A-Z])", lambda m: "_" + m.group(1).lower(), name.replace("-", "_"))


def declared(text):
    """Names at the margin, fields below a record, both of these within a module, and dashed ones that stand under another."""
    found, inside = set(), False
    for line in text.split("\n"):
        if re.match(r"\S", line):
            inside = bool(re.match(r"(pub\s+)?(record|module)\b", line))
        m = DECLARED.match(line)
        if m and (m.group(1) == "" or inside or "-" in m.group(2)):
            found.add(m.group(2))
    return found


def table(texts):
    own = set()
    for path, text in texts.items():
        # A file of this name in a folder of proofs/ declares what Rattle names.
        made = re.search(r"/proofs/.+/", path) is not None and os.path.basename(path) in PLACED
        if path.endswith(".antt") and not made:
            own |= declared(text)
        own |= set(ALIAS.findall(text))
    turned = dict(MENDED)
    for name in own - set(MENDED):
        if snake(name) != name:
            turned[name] = snake(name)
    by_new = {}
    for old, new in turned.items():
        by_new.setdefault(new, set()).add(old)
    for new, olds in sorted(by_new.items()):
        there = {new} if new in own and new not in MENDED else set()
        if len(olds | there) < 2:
            continue
        # The definition has a capital within, or else is the name that stood so already; the others are lemmas or words for a while.
        humps = {o for o in olds if re.search(r"[a-z][A-Z]", o)}
        keeps = sorted(humps or there or olds)[0]
        for old in sorted((olds | there) - {keeps}):
            turned[old] = new + "_lem"
    turned.update(FIELDS)
    return {old: new for old, new in turned.items() if old != new}


def respelled(text, names, clauses_only):
    """The text with its names turned; a part of a module's path is no name."""
    out, at = [], 0
    for m in TOKEN.finditer(text):
        word = m.group(0)
        start = text.rfind("\n", 0, m.start()) + 1
        line = text[start:m.start()]
        is_use = re.match(r"\s*(ghost use|use|pub use)\s", line) is not None
        path = is_use and "{" not in line
        if path or word not in names:
            continue
        if clauses_only and "//" in line:
            continue
        out.append(text[at:m.start()])
        out.append(names[word])
        at = m.end()
    out.append(text[at:])
    return "".join(out)


def bound(text):
    """What a file's `use` lines bring in, and what it declares: each should stand once."""
    names = []
    for m in re.finditer(r"^(?:pub )?use [^\n{]*\{([^}]*)\}", text, re.M):
        for item in m.group(1).split(","):
            words = item.split()
            if words:
                names.append(words[-1])
    for line in text.split("\n"):
        m = DECLARED.match(line)
        if m and m.group(1) == "":
            names.append(m.group(2))
    return names


def main(args):
    texts = {}
    for path in files("."):
        with open(path, encoding="utf-8") as f:
            texts[path] = f.read()
    names = table(texts)
    for text in [t for p, t in texts.items() if p.endswith(".antt")]:
        # A lemma whose new name the file has already from the library.
        before, after = bound(text), bound(respelled(text, names, False))
        if len(set(before)) == len(before):
            for old in set(before):
                if old in names and after.count(names[old]) > 1:
                    names[old] += "_lem"
    for old in sorted(names):
        print(f"{old} {names[old]}")
    clash = 0
    for path, text in texts.items():
        new = respelled(text, names, path.endswith(".rt"))
        if path.endswith(".antt"):
            before, after = bound(text), bound(new)
            twice = {n for n in after if after.count(n) > 1}
            if len(set(before)) == len(before) and twice:
                clash += 1
                print(f"together in {path}: {' '.join(sorted(twice))}")
        if "--names" not in args and new != text:
            with open(path, "w", encoding="utf-8") as f:
                f.write(new)
    return 1 if clash else 0


if __name__ == "__main__":
    sys.exit(main(sys.argv[1:]))
