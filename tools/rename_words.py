#!/usr/bin/env python3
"""Spells the repository's own definitions and lemmas as the library does: words in snake case, types in camel case.

usage: python3 tools/rename_words.py   at the top of the repository, once, after the kit's port.py

A name with dashes becomes one with underscores, or, where it begins with a capital, one in camel case. Left as they are: names that
a file brings in from the library or the prover, names that the prover makes (of goals and of the facts of a call), Rust code,
comments, strings, and everything that is no .rt or .antt file. It prints names that fall together. In the answers of a function a
name that the prover makes keeps the spelling of the source inside, as in returns-in_err-check_sound.
"""

import os
import re
import sys

WORD = r"[A-Za-z_\u0370-\u03ff\u2080-\u2089][\w'\u2080-\u2089]*"
DASHED = re.compile(rf"(?<![\w'\u00b7-]){WORD}(?:-[\w'\u2080-\u2089≢≡]+)+(?![\w'-])")
USE = re.compile(r"^(?:ghost )?(?:pub )?use ([\w.+'·-]+?)\.\{([^}]*)\}", re.M)
MADE = re.compile(r"^(returns|loop|invariant|decreases|if|in_\w+|then|else|overflow\w*|in|from|\w+-requires|\w+-fits|underflow\w*|index|slice)-")


def new_name(name):
    if name[0].isupper():
        return "".join(p[0].upper() + p[1:] for p in name.split("-"))
    return name.replace("-", "_")


def files():
    for folder, dirs, names in os.walk("crates"):
        dirs[:] = sorted(d for d in dirs if d != "out")
        for n in sorted(names):
            if n.endswith((".antt", ".rt")):
                yield os.path.join(folder, n)


def read(path):
    with open(path, encoding="utf-8") as f:
        return f.read()


def foreign(text):
    """The dashed names that a file brings in from outside the repository."""
    out = set()
    for path, names in USE.findall(text):
        head = path.split(".")
        if head[0] == "Rattle" and head[1] not in OWN:
            out |= set(DASHED.findall(names))
        if head[0] != "Rattle":
            out |= set(DASHED.findall(names))
    return out


def brought(text):
    """The dashed names that a file brings in from the repository's own files."""
    out = set()
    for path, names in USE.findall(text):
        head = path.split(".")
        if head[0] == "Rattle" and head[1] in OWN:
            out |= set(DASHED.findall(names))
    return out


def of_function(path):
    """Whether the file answers the goals of one function: names that the prover makes stand there."""
    return os.path.basename(path) in ("Answers.antt", "Invariants.antt", "Choices.antt", "Proof.antt")


def split_comment(line, mark):
    i = line.find(mark)
    return (line, "") if i < 0 else (line[:i], line[i:])


OWN = sorted(d for d in os.listdir("crates") if os.path.isdir(os.path.join("crates", d, "src")))
texts = {p: read(p) for p in files()}

# The names that the repository declares: every dashed name in a file of definitions or lemmas that is not brought in.
declared = set()
for path, text in texts.items():
    if path.endswith(".antt") and not of_function(path):
        keep = foreign(text)
        for line in text.split("\n"):
            declared |= set(DASHED.findall(split_comment(line, "--")[0])) - keep
# In the answers of a function: what they bind themselves.
BOUND = re.compile(rf"(?:let |λ |\(|^)((?:{WORD})(?:-[\w']+)+)(?= [:=]|\.|$)")


def renamed(code, keep, own):
    def one(m):
        name = m.group(0)
        if name in keep or name not in own:
            return name
        before = code[: m.start()]
        if before.endswith("goal.") or before.endswith("given."):
            return name
        return new_name(name)

    return DASHED.sub(one, code)


# ---- names that the prover makes

SNAKE = re.compile(r"(?<![A-Za-z0-9_])[A-Za-z0-9]+(?:_[A-Za-z0-9]+)+(?![A-Za-z0-9_])")
PARTS = {"in_ok", "in_err", "in_default", "type_inv", "slice_bounds", "offset_bounds", "nonzero_div", "nonzero_rem", "from_residual"}
PARTS |= {"overflow_" + s for s in ("add", "sub", "mul", "shl", "shr", "cast", "step")}
for path, text in texts.items():
    if path.endswith(".rt"):
        PARTS |= set(SNAKE.findall(text))
BY_DASH = {n.replace("_", "-"): n for n in PARTS}
MOST = max(n.count("-") for n in BY_DASH) + 1


def made_name(name):
    """The same with each run of its parts that is a name of the source, or a word of the prover's, in one part."""
    parts, out, i = name.split("-"), [], 0
    while i < len(parts):
        for n in range(min(MOST, len(parts) - i), 0, -1):
            run = "-".join(parts[i : i + n])
            if n == 1 or run in BY_DASH:
                out.append(BY_DASH.get(run, run))
                i += n
                break
    return "-".join(out)


STRING = re.compile(r'"(?:[^"\\]|\\.)*"')
changed = 0
for path, text in texts.items():
    keep = foreign(text)
    lines = []
    if path.endswith(".antt"):
        own = set(declared)
        if of_function(path):
            made = set(re.findall(r"goal\.([\w-]+)", text)) | set(re.findall(r"given\.([\w-]+)", text)) | set(re.findall(r"^(?:abbrev )?(?:pub )?([\w-]+) :", text, re.M))
            own = {n for n in own if n not in made and not MADE.match(n)}
            for line in text.split("\n"):
                own |= {n for n in BOUND.findall(split_comment(line, "--")[0]) if n not in made and not MADE.match(n)}
            own |= brought(text)
        for line in text.split("\n"):
            code, comment = split_comment(line, "--")
            code = renamed(code, keep, own)
            if of_function(path):
                code = DASHED.sub(lambda m: m.group(0) if m.group(0) in keep else made_name(m.group(0)), code)
            lines.append(code + comment)
    else:
        for line in text.split("\n"):
            code, comment = split_comment(line, "//")
            parts, at = [], 0
            for m in STRING.finditer(code):
                parts += [renamed(code[at : m.start()], keep, declared), m.group(0)]
                at = m.end()
            lines.append("".join(parts) + renamed(code[at:], keep, declared) + comment)
    new = "\n".join(lines)
    if new != text:
        changed += 1
        with open(path, "w", encoding="utf-8") as f:
            f.write(new)

# Names that fall together: two old names of one new one, or a new name that stood there already.
by_new = {}
for n in declared:
    by_new.setdefault(new_name(n), set()).add(n)
plain = set()
for path, text in texts.items():
    if path.endswith(".antt"):
        plain |= set(re.findall(rf"(?<![\w'.-])({WORD})(?![\w'-])", text))
for new, olds in sorted(by_new.items()):
    if len(olds) > 1 or new in plain:
        print("look:", new, "from", ", ".join(sorted(olds)), "(stood already)" if new in plain else "")
print(f"{len(declared)} names, {changed} files")
