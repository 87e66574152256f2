#!/usr/bin/env python3
"""Where the sources could be written in today's Rattle: the places of the points 1 to 7 of docs/DESIGN-PASS.md.

    python3 tools/places.py [FOLDER]     prints, for the tree in FOLDER (here: .), each point's count and its places
"""
import collections, os, re, sys

top = sys.argv[1] if len(sys.argv) > 1 else "."


def sources():
    for folder, folders, files in os.walk(os.path.join(top, "crates")):
        folders[:] = sorted(f for f in folders if f not in ("out", "target"))
        for name in sorted(files):
            if name.endswith(".rt") and "/src" in folder:
                path = os.path.join(folder, name)
                yield os.path.relpath(path, top), open(path, encoding="utf-8").read()


def bare(text):
    """The text without comments."""
    return re.sub(r"//[^\n]*", "", text)


def enums(text):
    for found in re.finditer(r"\benum (\w+)[^{]*\{(.*?)\n\}", text, re.S):
        cases = re.findall(r"^\s*(\w+)(\([^)]*\))?\s*(?:=\s*\d+)?,", found.group(2), re.M)
        yield found.group(1), cases


def functions(text):
    """Name, parameters, result, clauses and body of each function."""
    for found in re.finditer(r"\bfn (\w+)(?:<.*?>)?\((?=[^)]*:|\)|&|self|mut )", text):
        at, depth = found.end(), 1
        while depth:
            depth += {"(": 1, ")": -1}.get(text[at], 0)
            at += 1
        parameters = " ".join(text[found.end():at - 1].split())
        body = re.compile(r"^\s*\{\s*$|\) *(?:-> [^{\n]*)?\{\s*$", re.M).search(text, at - 1)
        if not body or re.search(r"\bfn \w", text[at:body.start()]):
            continue
        head = text[at:body.start()]
        begin, depth, end = body.end(), 1, body.end()
        while depth and end < len(text):
            depth += {"{": 1, "}": -1}.get(text[end], 0)
            end += 1
        yield found.group(1), parameters, head, text[begin:end - 1]


NOTHING = re.compile(r"^(No[A-Z]\w*|Nothing|Not|Bad|Strange|End|Fine|Between|Accepted|Broken)$")
NUMBERED = re.compile(r"\b(kind|number|code): (?:u64|usize)\b")


def one():
    for path, text in sources():
        for name, cases in enums(bare(text)):
            refusing = [c for c, held in cases if re.search(r"Refusal|Error|Flaw", held or "") and c in ("Refused", "Failed", "Interrupted", "IsNot", "Wrong")]
            none = [c for c, held in cases if NOTHING.match(c) and (len(cases) <= 3 or c == "Nothing")]
            pair = len(cases) == 2 and any(held for c, held in cases)
            if refusing or none or pair or name == "Compared":
                yield path, "enum %s { %s }" % (name, ", ".join(c + (h or "") for c, h in cases))
        for found in NUMBERED.finditer(bare(text)):
            yield path, "a number for a kind or a refusal: " + found.group(0)


def shape(body):
    """A body with its names replaced in the order in which they come: equal for twins."""
    seen = {}
    keep = {"if", "let", "mut", "return", "while", "for", "in", "match", "loop", "true", "false", "else"}

    def name(found):
        word = found.group(0)
        return word if word in keep else seen.setdefault(word, "n%d" % len(seen))
    return re.sub(r"\"[^\"]*\"|[A-Za-z_]\w*(?:::\w+)*|\d[\d_]*", name, " ".join(bare(body).split()))


def two():
    twins = collections.defaultdict(list)
    for path, text in sources():
        for name, parameters, head, body in functions(text):
            if len(bare(body).split()) >= 8:
                twins[shape(body)].append((path, name))
    for group in twins.values():
        if len(group) > 1:
            yield group[0][0], "twins: " + ", ".join("%s (%s)" % (n, p.split("/")[1]) for p, n in group)


def three():
    for path, text in sources():
        for name, parameters, head, body in functions(text):
            for found in re.finditer(r"\b(while [^{]*|loop )\{", bare(body)):
                yield path, "%s: %s" % (name, found.group(1).strip())


HANDS = re.compile(r"^(same|compare|kind_of|kind_number|code|verdict_code|told_as|why|wide|so_far|named)$")


def four():
    for path, text in sources():
        for name, parameters, head, body in functions(text):
            if HANDS.match(name):
                yield path, "%s(%s)" % (name, parameters)
            elif re.search(r"\bmatch\b", body) and len(re.findall(r"=>\s*(?:\w+\.)?(?:bytes|text|print!)\(|=>\s*b?\"", body)) >= 3:
                yield path, "%s: words printed by hand" % name


def five():
    facts, together = collections.Counter(), collections.Counter()
    for path, text in sources():
        for name, parameters, head, body in functions(text):
            for clause in re.findall(r"requires(?: \w+)? \{(.*?)\}\s*\n", head + "\n", re.S):
                for fact in re.split(r" × ", clause):
                    facts[fact.strip().strip("()")] += 1
            listed = [" ".join(p.split()) for p in parameters.split(",") if p.strip()]
            for size in (2, 3, 4, 5, 6):
                for k in range(len(listed) - size + 1):
                    together[", ".join(listed[k:k + size])] += 1
    for fact, n in facts.most_common():
        if n >= 3:
            yield "", "%d times required: %s" % (n, fact)
    found = [(g, n) for g, n in together.items() if n >= 3]
    for group, n in sorted(found, key=lambda x: -x[1]):
        if not any(group in other and n == m and other != group for other, m in found):
            yield "", "%d times together: %s" % (n, group)


def six():
    for path, text in sources():
        for name, parameters, head, body in functions(text):
            if re.search(r"&(?:mut )?\[\w+\], (?:at|sent|count|from|done|steps): usize", parameters):
                yield path, "%s: a buffer with a place beside it" % name
        for found in re.finditer(r"^const \w+: \[.*?\]", bare(text), re.M):
            yield path, found.group(0)


def seven():
    for path, text in sources():
        for name, parameters, head, body in functions(text):
            arms = re.findall(r"=> (\w+)\(", bare(body))
            if re.search(r"\bmatch\b", body) and len(set(arms) - {"bytes", "text", "Some", "Ok", "Err"}) >= 3:
                yield path, "%s: a switch over %s" % (name, ", ".join(sorted(set(arms))))
            elif len(re.findall(r"if s\.kind == ", body)) >= 2:
                yield path, "%s: a switch over the kind of a step" % name


for number, point in enumerate((one, two, three, four, five, six, seven), 1):
    places = list(point())
    print("%d. %d" % (number, len(places)))
    for path, what in places:
        print("   %s: %s" % (path, what) if path else "   " + what)
