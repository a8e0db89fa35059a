#!/usr/bin/env python3
"""Counts the places of older forms in crates/*/src, and lists them.

usage: python3 tools/places.py [COMMIT] [-v]      at the top of the repository; without COMMIT, the working tree; -v names each place

The patterns are of text, so a row is a number of places to look at. Tests (`mod tests`) are passed over. What each row counts:
  1a  own enums
  1b  constants of 8 bits, as numbers for kinds or rules are
  1c  kinds and rules as bare numbers: `kind(..) == 4`, a match arm `3 =>`
  1d  errors that are bare numbers, and fields where 0 says that there is none
  1e  an error or a none passed on by hand: `let .. else { return ..`, `Err(e) => Err(..)`, `None => return ..`, `Ok(x) => Ok(x)`
  2   functions of one shape: those that differ from another only in names, types and numbers
  3a  loops that are no `for` over items: `while`, `loop`, `for i in 0..n`
  3b  numbers counted by hand in a loop: `x += 1`
  4a  traits of the library written by hand
  4b  conversions that are plain functions: a name of `number`, `read`, `pack`, `to_..`, `from_..`, `as_..` or `refused`
  4c  functions that print, but for `main`
  5a  clauses `requires` that stand, to the letter, in three functions or more
  5b  parameters that travel together: the largest groups of two or more, by name and type, of three functions or more
  6a  pairs of a start and an end, and positions beside a slice: fields and parameters `start`, `end`, `at`, `to`, `height`
  6b  buffers of fixed length
  7   a match on which step to run, and function pointers
  8   answers in proofs/, and lines of proofs/
"""
import itertools
import os
import re
import subprocess
import sys
from collections import defaultdict


def sources(commit):
    if commit:
        names = subprocess.run(["git", "ls-tree", "-r", "--name-only", commit, "crates"], capture_output=True, text=True, check=True).stdout.split("\n")
        read = lambda n: subprocess.run(["git", "show", commit + ":" + n], capture_output=True, text=True, check=True).stdout
    else:
        names = [os.path.join(d, f) for d, ds, fs in os.walk("crates") for f in fs if "/out" not in d]
        read = lambda n: open(n, encoding="utf-8").read()
    return sorted(names), read


KEYWORDS = set("fn let mut if else match return for in while loop pub struct enum impl self Self Some None Ok Err true false as usize u8 u16 u32 u64 bool move".split())


def functions(text):
    """Each function: its line, its name, its head, its clauses and its body."""
    for m in re.finditer(r"^( *)(?:pub(?:\(crate\))? )?(?:extern \"C\" )?fn (\w+)", text, re.M):
        indent = m[1]
        end = text.find("\n" + indent + "}", m.start())
        part = text[m.start() : end if end > 0 else len(text)]
        brace = re.search(r"^" + indent + r"\{\n", part, re.M) or re.search(r"\{\n", part)
        if not brace:
            continue
        head, body = part[: brace.start()], part[brace.end() :]
        yield text.count("\n", 0, m.start()) + 1, m[2], head, body


def shape(body):
    body = re.sub(r"//.*", "", body)
    words = re.findall(r"[A-Za-z_]\w*|\d[\w]*|[^\s\w]", body)
    return " ".join(w if w in KEYWORDS or not re.match(r"\w", w) else "x" for w in words)


def parameters(head):
    """The parameters of a function, each with its type."""
    start = head.find("(", re.search(r"fn \w+", head).end())
    depth, parts, last = 0, [], start + 1
    for i in range(start, len(head)):
        c = head[i]
        if c in "([{<":
            depth += 1
        elif c in ")]}" or c == ">" and head[i - 1] != "-":
            depth -= 1
        if depth == 0 or depth == 1 and c == ",":
            parts.append(head[last:i])
            last = i + 1
        if depth == 0:
            break
    clean = [re.sub(r"\s+", " ", p.strip()).replace("'s ", "").replace("'c ", "") for p in parts]
    return [p for p in clean if ":" in p]


def main():
    verbose = "-v" in sys.argv[1:]
    commit = next((a for a in sys.argv[1:] if not a.startswith("-")), None)
    names, read = sources(commit)
    rows = defaultdict(list)
    shapes, asked, groups = defaultdict(list), defaultdict(list), defaultdict(set)
    for n in (n for n in names if n.endswith(".rt")):
        text = re.split(r"^#\[cfg\(test\)\]", read(n), maxsplit=1, flags=re.M)[0]
        where = n.replace("crates/", "").replace("/src", "")
        for i, line in enumerate(text.split("\n"), 1):
            code = re.sub(r"//.*", "", line)
            at = "%s:%d %s" % (where, i, code.strip()[:90])
            for row, pattern in (
                ("1a", r"^\s*(pub(\(crate\))? )?enum "),
                ("1b", r"const [A-Z_]+: u8 ="),
                ("1c", r"kind\([^()]*(\([^()]*\))?[^()]*\) (==|!=|<|>|<=|>=) \d|^\s+\d+ =>|\b(rule|calculus) (==|!=|>) \d"),
                ("1d", r"Result<.*, (usize|u8|u16|u32|u64)>|\bcalculus: (u8|0)\b"),
                ("1e", r"else \{$|\bErr\((\w+)\) => (return )?Err\(|None => return |None => (return )?Err|Ok\((\w+)\) => Ok\(|Some\((\w+)\) => Some\(|else \{ return"),
                ("3a", r"^\s*(while |loop \{|for \w+ in \(?\S*\.\.)"),
                ("3b", r"^\s+\w+ (\+|-)= 1;|\w+ = \w+\.saturating_add\(1\)"),
                ("4a", r"^impl.* (PartialEq|Eq|PartialOrd|Ord|Clone|Copy|Hash|Debug|Default|Display|From|TryFrom|FromStr|Iterator)\b.* for |^impl.*fmt::Display for"),
                ("4b", r"fn (number|place|read|pack|refused|to_\w+|from_\w+|as_\w+)\((self|no|c)\b"),
                ("6a", r"\b(start|end|at|to|height): usize\b"),
                ("6b", r"= \[[^\];]+; \w+\];"),
                ("7", r"match \(?(rule|way|how|event|call)\b|: fn\("),
            ):
                if row == "1e" and re.search(pattern, code) and code.rstrip().endswith("else {") and "let " not in code:
                    continue
                if re.search(pattern, code):
                    rows[row].append(at)
        for i, name, head, body in functions(text):
            here = "%s:%d %s" % (where, i, name)
            s = shape(body)
            if len(s.split()) >= 10:
                shapes[s].append(here)
            for q in re.findall(r"requires\s+(?:\w+ )?\{(.*)\}", head):
                asked[re.sub(r"\.(old|now|entry)\b", "", q.strip())].append(here)
            ps = parameters(head)
            for k in range(2, min(len(ps), 5) + 1):
                for g in itertools.combinations(ps, k):
                    groups[g].add(here)
            if name != "main" and re.search(r"\b(print|println)!\(", body):
                rows["4c"].append(here)
    for s, hs in shapes.items():
        if len(hs) > 1:
            rows["2"] += ["%s ~ %s" % (h, hs[0]) for h in hs[1:]]
    for q, hs in asked.items():
        if len(hs) > 2:
            rows["5a"].append("%d of %s: %s" % (len(hs), q, ", ".join(h.split(" ")[1] for h in hs)))
    kept = {g: hs for g, hs in groups.items() if len(hs) > 2}
    for g, hs in sorted(kept.items(), key=lambda e: (-len(e[0]), -len(e[1]))):
        if not any(set(g) < set(b) and len(kept[b]) >= len(hs) for b in kept):
            rows["5b"].append("%d of (%s): %s" % (len(hs), "; ".join(g), ", ".join(sorted(h.split(" ")[1] for h in hs))))
    answers = lines = 0
    for n in (n for n in names if n.endswith(".antt") and "/proofs/" in n):
        text = read(n)
        lines += text.count("\n")
        answers += len(re.findall(r"^(?:abbrev )?(?:pub )?\S+ : goal\.", text, re.M)) if n.endswith("Answers.antt") else 0
    for row in "1a 1b 1c 1d 1e 2 3a 3b 4a 4b 4c 5a 5b 6a 6b 7".split():
        print("%-3s %d" % (row, len(rows[row])))
        if verbose:
            for r in rows[row]:
                print("      " + r)
    print("8   %d answers, %d lines" % (answers, lines))


main()
