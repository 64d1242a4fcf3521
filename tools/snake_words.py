#!/usr/bin/env python3
"""Brings the repository's own words of specs/ and proofs/ to the library's spelling: definitions and lemmas in snake case,
types in camel case. Functions of src/ and names that the checker makes keep theirs. Run once, at the top of the repository."""

import glob
import re
import sys

WORD = r"[A-Za-z][A-Za-z0-9_']*(?:-[A-Za-z0-9_'₀-₉]+)+"
TOKEN = re.compile(r"(?<![A-Za-z0-9_'«-])(" + WORD + r")(?![A-Za-z0-9_'»])")
DECLARED = re.compile(r"^\s*(?:let |where )?(?:pub |abbrev |unfoldable |opaque |private |data |record |lemma )*(" + WORD + r")((?: +[({\[].*?)?)\s*:(.*)$")
HEADED = re.compile(r"^\s*(?:pub )?(?:data|record) (" + WORD + r")")
IMPORT = re.compile(r"(?:ghost )?use ([^;\n]+?)\.\{([^}]*)\}")
# A word that would fall together with another one, and what it is called in its place.
OTHERWISE = {
    "bit-or": "bit_of_or",
    "decides-leZ": "decides_int_le",
    "getD-packed": "get_or_packed",
    "getD-pixels": "get_or_pixels",
    "getD-zeros": "get_or_zeros",
    "natAbs-neg": "unsigned_abs_neg",
    "natAbs-product": "unsigned_abs_product",
}


def files(*ends):
    return [p for e in ends for p in sorted(glob.glob("crates/**/" + e, recursive=True)) if "/out/" not in p]


def own_crates():
    with open("crates.txt", encoding="utf-8") as f:
        return {line.split(":")[0].split()[0] for line in f if line.strip() and not line.startswith("#")}


def signature(lines, i, rest):
    """The type that a declaration gives, over the lines that go on with it."""
    text, j = rest, i + 1
    depth = len(lines[i]) - len(lines[i].lstrip())
    while j < len(lines) and lines[j].strip() and len(lines[j]) - len(lines[j].lstrip()) > depth:
        text += " " + lines[j].strip()
        j += 1
    return text


def is_type(text):
    return re.search(r"(?:^|→|:)\s*Type(?: 0)?\s*(?:where)?\s*$", text.split(" -- ")[0].strip()) is not None


def respelt(word, a_type):
    if word in OTHERWISE:
        return OTHERWISE[word]
    parts = word.split("-")
    if a_type:
        return "".join(p[:1].upper() + p[1:] for q in parts for p in q.split("_"))
    return "_".join(parts).lower()


def declared():
    """Each own word with a hyphen, and its new spelling."""
    types, terms = set(), set()
    for path in files("specs/**/*.antt", "proofs/**/*.antt"):
        lines = open(path, encoding="utf-8").read().split("\n")
        for i, line in enumerate(lines):
            if m := HEADED.match(line):
                types.add(m[1])
            elif m := DECLARED.match(line):
                if re.match(r"\s*goal\.", m[3]) or m[1] in types:
                    continue
                (types if m[1][0].isupper() and is_type(signature(lines, i, m[3])) else terms).add(m[1])
    return {w: respelt(w, True) for w in types} | {w: respelt(w, False) for w in terms - types}


def made():
    """Words that the checker makes: goals that are answered."""
    found = set()
    for path in files("proofs/**/*.antt"):
        found |= set(re.findall(r":\s*goal\.(" + WORD + r")", open(path, encoding="utf-8").read()))
    return found


def foreign(text, own):
    """Words that a file takes from elsewhere."""
    found = set()
    for m in IMPORT.finditer(text):
        head = m[1].strip().split(".")
        if len(head) > 1 and head[0] == "Rattle" and head[1] in own:
            continue
        for item in m[2].split(","):
            found |= set(item.replace(" as ", " ").split())
    return found


def main():
    own, names, goals = own_crates(), declared(), made()
    for w in sorted(set(names) & goals):
        print("a goal has this name too, left:", w)
        del names[w]
    back = {}
    for w, n in names.items():
        back.setdefault(n, []).append(w)
    for n, ws in sorted(back.items()):
        if len(ws) > 1:
            print("fall together:", n, ws)
    paths = files("*.antt", "src/**/*.rt", "*.edit") + sorted(glob.glob("docs/*.md")) + ["README.md"]
    for path in paths:
        text = open(path, encoding="utf-8").read()
        theirs = foreign(text, own)
        words = set(re.findall(r"[A-Za-z][A-Za-z0-9_']*", re.sub(r"--[^\n]*|//[^\n]*", "", text)))
        for w in {m[1] for m in TOKEN.finditer(text)}:
            if w in names and w not in theirs and names[w] in words and path.endswith((".antt", ".rt")):
                print("stands there already:", path, w, "->", names[w])
        if "--list" in sys.argv:
            continue
        # in an answer, what follows `c.` or `l.` is a name that the checker makes
        answers = path.endswith(("Answers.antt", "Invariants.antt")) and path.count("/") > 3
        kept = lambda m: m[1] in theirs or (answers and re.search(r"(?<![\w.])[cl]\.$", text[: m.start()]))
        new = TOKEN.sub(lambda m: m[1] if kept(m) else names.get(m[1], m[1]), text)
        if new != text:
            open(path, "w", encoding="utf-8").write(new)


main()
