#!/usr/bin/env python3
"""The library's word AllByRecursion under its own name, where it stood as All. Run once, at the top of the repository."""

import glob
import re

ALIAS = "AllByRecursion as All"
WORD = re.compile(r"(?<![\w'«-])All(?![\w'»-])")


def respelt(line, comment):
    code, mark, said = line.partition(comment)
    return WORD.sub("AllByRecursion", code.replace(ALIAS, "AllByRecursion")) + mark + said


for path in sorted(glob.glob("crates/**/*.antt", recursive=True) + glob.glob("crates/*/src/**/*.rt", recursive=True)):
    with open(path, encoding="utf-8") as f:
        text = f.read()
    if "/out/" in path or ALIAS not in text:
        continue
    comment = "--" if path.endswith(".antt") else "//"
    with open(path, "w", encoding="utf-8") as f:
        f.write("\n".join(respelt(line, comment) for line in text.split("\n")))
