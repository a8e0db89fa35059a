#!/usr/bin/env python3
"""Spells the repository's own definitions, lemmas, fields and constructors in snake case, and types in camel case.

usage: python3 tools/respell.py            at the top of the repository, once, after the kit's port.py

A name is one that a file of specs/ or proofs/ declares, with a dash in it. The dash becomes an underscore, but for one beside an operator
(as in `flat-&`). Names that the kit makes (of goals, steps and loops) keep theirs; so do functions of src/, strings, and comments but for their
code spans. Prints each name that would fall together with another, and changes nothing then.
"""
import os
import re
import sys

WORD = re.compile(r'[^\s(){}.;,@"«»]+')
DECLARED = re.compile(r"^(\s*)((?:abbrev |unfoldable |pub |data |record )*)([^\s(){}.;,@\"«»:]+)((?: [({].*?[)}])*) :(?: (.*))?$")
WHERE = re.compile(r"^\s*where ([^\s(){}.;,@\"«»:]+) : ")
# Types of proofs/ that were spelled as functions: the module that declares each, the old name and the new one.
TYPES = [
    ("Walks", "is_none", "IsNone"),
    ("Figures", "is_row", "IsRow"),
    ("Runs", "is_open", "IsOpen"),
    ("Toy", "is_open", "IsOpen"),
    ("Turns", "is-refused", "IsRefused"),
    ("Ones", "past-1", "IsPast1"),
    ("Ends", "is-nil", "IsNil"),
]


def files(root, *endings):
    for folder, dirs, names in os.walk(root):
        dirs[:] = sorted(d for d in dirs if d not in ("out", ".git"))
        for n in sorted(names):
            if n.endswith(endings):
                yield os.path.join(folder, n)


def is_answers(path):
    """Is the file part of one function's proof?"""
    return "/proofs/" in path and os.path.dirname(path).split("/proofs")[-1] != ""


def read(path):
    with open(path, encoding="utf-8") as f:
        return f.read()


def code_of(line):
    at = re.search(r"(?<!\S)--", line)
    return (line, "") if not at else (line[: at.start()], line[at.start() :])


def snake(name):
    parts = re.split(r"(-)", name)
    out = ""
    for i, p in enumerate(parts):
        if p == "-":
            beside = (parts[i - 1], parts[i + 1] if i + 1 < len(parts) else "")
            out += "_" if all(re.search(r"[\w₀-₉]", b) for b in beside) else "-"
        else:
            out += p
    return out


def declared(path, text):
    yield from re.findall(r"[{,] *[^\s{},]+ as ([^\s{},]+)(?=[},])", text)
    for line in text.split("\n"):
        code = code_of(line)[0]
        m = DECLARED.match(code)
        if m and not (is_answers(path) and (m[5] or "").startswith("goal.")):
            yield m[3]
        m = WHERE.match(code)
        if m:
            yield m[1]


def made(text):
    """The names of goals that a proof file answers."""
    return set(re.findall(r"^(?:abbrev )?(?:pub )?(\S+) : goal\.", text, re.M))


def turn_code(code, table, keep, answers):
    out, at = "", 0
    for m in WORD.finditer(code):
        out += code[at : m.start()]
        word, at = m[0], m.end()
        dotted = m.start() > 0 and code[m.start() - 1] == "."
        if dotted and answers:
            head = re.search(r"(?<![\w.'-])([\w'-]+)(?:\.[^\s(){};,]*)?$", code[: m.start() - 1])
            path = code[: m.start()].rsplit(" ", 1)[-1].strip("({[")
            first = path.split(".")[0]
            depth = path.count(".")
            if first == "goal" or (first in ("c", "l", "w", "h") and depth <= 2):
                out += word
                continue
        out += word if word in keep else table.get(word, word)
    return out + code[at:]


def spans(comment, table):
    return re.sub(r"`([^`]*)`", lambda m: "`" + WORD.sub(lambda w: table.get(w[0], w[0]), m[1]) + "`", comment)


def turn_antt(path, text, table):
    keep = made(text)
    out = []
    for line in text.split("\n"):
        code, comment = code_of(line)
        out.append(turn_code(code, table, keep, is_answers(path)) + spans(comment, table))
    return "\n".join(out)


def turn_rt(text, table):
    """Clauses and ghost items alone: no Rust word has a dash without spaces beside it, but in strings and comments."""
    out = []
    for line in text.split("\n"):
        if line.lstrip().startswith("//"):
            out.append(spans(line, table))
        elif re.match(r"\s*(pub )?(ghost|requires|ensures)\b", line) or ("{" not in line and '"' not in line):
            out.append(turn_code(line, table, set(), False))
        else:
            out.append(line)
    return "\n".join(out)


def types_of(path, text):
    """The rows of TYPES that a file declares or imports."""
    rows = {}
    for module, old, new in TYPES:
        here = path.endswith(f"/proofs/{module}.antt") and re.search(rf"^(?:abbrev )?(?:pub )?{re.escape(old)} :", text, re.M)
        brought = re.search(rf"proofs\.{module}\.\{{[^}}]*(?<![\w-]){re.escape(old)}(?![\w-])", text)
        if here or brought:
            rows[old] = new
    return rows


def main():
    table = {}
    antt = {p: read(p) for p in files("crates", ".antt")}
    for p, t in antt.items():
        for n in declared(p, t):
            if "-" in n and snake(n) != n:
                table[n] = snake(n)
    for p in files("crates", ".rt"):
        for n in re.findall(r"[{,] *[^\s{},]+ as ([^\s{},]+)(?=[},])", read(p)):
            if "-" in n:
                table[n] = snake(n)
    shared = set()
    crates = set(os.listdir("crates"))
    for t in antt.values():
        for m in re.finditer(r"^use ([^\s{]+)\.\{([^}]*)\}", t, re.M):
            path = m[1].split(".")
            if not (path[0] == "Rattle" and path[1] in crates):
                for w in WORD.findall(m[2]):
                    if table.pop(w, None):
                        shared.add(w)
    if shared:
        print("turned only where declared, since the library has them too: " + ", ".join(sorted(shared)))
    bad = 0
    for p, t in antt.items():
        lines = [code_of(line)[0] for line in t.split("\n") if not re.search(r"\.(Goals|Given)( as goal$|\.\{)", line)]
        words = {w for line in lines for w in WORD.findall(line)}
        for w in sorted(words):
            if w in table and table[w] in words:
                print(f"{p}: '{w}' falls together with '{table[w]}'")
                bad += 1
    if bad:
        return 1
    for p, t in antt.items():
        own = {n: snake(n) for n in declared(p, t) if n in shared}
        new = turn_antt(p, t, {**table, **types_of(p, t), **own})
        if new != t:
            with open(p, "w", encoding="utf-8") as f:
                f.write(new)
    for p in files("crates", ".rt"):
        t = read(p)
        new = turn_rt(t, table)
        if new != t:
            with open(p, "w", encoding="utf-8") as f:
                f.write(new)
    for p in [*files("docs", ".md"), "README.md"]:
        t = read(p)
        new = spans(t, table)
        if new != t:
            with open(p, "w", encoding="utf-8") as f:
                f.write(new)
    print(f"{len(table)} names")
    return 0


sys.exit(main())
