#!/usr/bin/env python3
"""Lists functions whose bodies are alike once names, numbers and literals are blanked: candidates
for one generic function. Run at the top of the repository."""

import glob
import re
from collections import defaultdict

KEPT = {"match", "if", "else", "return", "let", "for", "in", "while", "Ok", "Err", "Some", "None"}


def functions(text):
    """The name and the body of each function."""
    text = re.sub(r"//.*", "", text)
    for found in re.finditer(r"\bfn (\w+)", text):
        opening = re.search(r"(\{|\n\s*\{)\n", text[found.start():])
        if not opening:
            continue
        start = end = found.start() + opening.end()
        depth = 1
        while depth and end < len(text):
            depth += {"{": 1, "}": -1}.get(text[end], 0)
            end += 1
        yield found.group(1), text[start:end]


def shape(body):
    """The body's tokens with everything but keywords and punctuation blanked."""
    tokens = re.findall(r"\w+|[^\s\w]", body)
    return tuple(t if t in KEPT or not re.match(r"\w", t) else "x" for t in tokens)


alike = defaultdict(list)
for path in sorted(glob.glob("crates/*/src/**/*.rt", recursive=True)):
    for name, body in functions(open(path).read()):
        alike[shape(body)].append(path.split("/")[1] + ":" + name)
for tokens, names in alike.items():
    if len(names) > 1 and len(tokens) > 6:
        print(len(tokens), *names)
