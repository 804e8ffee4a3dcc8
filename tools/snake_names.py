#!/usr/bin/env python3
"""Spells the names that this repository's .antt files declare in snake case, as `halfOf` and `no-nan` to `half_of` and `no_nan`.

usage: tools/snake_names.py [--anyway]      at the top of the repository, once, right after port.py

Turned: definitions, laws, fields, constructors, local names and names of imports, in .antt files, in the clauses and `ghost use` items of .rt files, and in
code spans of comments and documents. A name that a file imports from a library keeps its spelling in that file. Where two declared names would fall together,
the one with a dash, mostly a law, gets `_lem`; APART lists other laws that would meet a name, and LOCAL names of one file, with what they are called.
It stops, and writes nothing, where two names of one file would still fall together, unless --anyway is given; a name that is also a function's is not looked at.
At the end it lays out each crate by `rt fmt`, and writes the table of names to a file in the system's folder for temporary files.
"""
import collections
import os
import re
import subprocess
import sys
import tempfile

WORD = r'[^\s(){}.;,@"«»]+'
QUIET = re.compile(r'"(?:[^"\\\n]|\\.)*"|(?<![^\s(){}.;,@"«»])--[^\n]*|//[^\n]*')
SPAN = re.compile(r"`[^`\n]+`")
KEYWORDS = {"abbrev", "pub", "unfoldable", "data", "record", "mod", "module", "where", "|", "instance", "=", ":", "constructor"}
# laws that would meet a definition or another law, and what they are called
APART = {n: snake_lem for n, snake_lem in (line.split() for line in """
is-some is_some_lem
not-fit not_fit
is-zero is_zero_lem
kind-of kind_of_lem
last-of last_of_lem
name-at name_at_lem
no-rows no_rows_lem
number-of number_of_lem
row-of row_of_lem
rows-of rows_of_lem
value-at value_at_lem
word-at word_at_lem
lent_rows lent_rows_lem
read_off read_off_lem
row_word row_word_lem
with_params with_params_lem
""".strip().splitlines())}
LOCAL = {
    ("crates/law_collected_rows/specs/Lawful.antt", "param_rows"): "param_rows_lem",
    ("crates/tree_expr/proofs/Cursor/+binary_expr_field_list/Proof.antt", "list_at"): "list_here",
}


def is_old(name):
    return bool(re.fullmatch(r"[a-z][A-Za-z0-9_'₀-₉-]*", name)) and bool("-" in name or re.search(r"[a-z0-9][A-Z]", name))


def snake(name):
    name = re.sub(r"(?<=[a-z0-9])([A-Z]+)", lambda m: "_" + m[1].lower(), name)
    return name.replace("-", "_")


def texts():
    for folder, dirs, files in os.walk("crates"):
        dirs[:] = sorted(d for d in dirs if d != "out")
        for f in sorted(files):
            if f.endswith((".antt", ".rt")):
                yield os.path.join(folder, f)


def bare(text):
    return QUIET.sub("", text)


def imports(text, crates):
    """the names that the text imports from a library"""
    found = set()
    for m in re.finditer(r"\buse\s+([^\s;{]+)\{([^}]*)\}", text):
        steps = m[1].split(".")
        if steps[0] == "Rattle" and steps[1] in crates:
            continue
        for it in m[2].split(","):
            found.add(it.split(" as ")[0].strip())
    return found


def named(text, crates):
    """the names that the text imports from this repository, and what it calls an import"""
    found = set(re.findall(rf" as ({WORD})", text))
    for m in re.finditer(r"\buse\s+Rattle\.(\w+)[^\s;{]*\{([^}]*)\}", text):
        if m[1] in crates:
            found |= {it.split(" as ")[0].strip() for it in m[2].split(",")}
    return found


def declared(text):
    found = set()
    for line in text.split("\n"):
        head, colon, _ = line.partition(" : ") if " : " in line else (line[:-2], line[-2:], "") if line.endswith(" :") else ("", "", "")
        words = head.split()
        if colon and "(" not in head and "{" not in head and len(words) <= 80:
            found |= set(words)
        for m in re.finditer(r"[({]([^(){}:]+) : ", line):
            found |= set(m[1].split())
        for m in re.finditer(r"\blet ([^\s:=]+) |λ ([^\s.]+)\.|λ \(([^\s:]+) :", line):
            found.add(m[1] or m[2] or m[3])
    found -= KEYWORDS
    return found


def main():
    crates = set(os.listdir("crates"))
    read = {p: open(p, encoding="utf-8").read() for p in texts()}
    lib = {p: imports(bare(t), crates) for p, t in read.items()}
    names = set()
    for p, t in read.items():
        names |= {n for n in named(bare(t), crates) if is_old(n)}
        if p.endswith(".antt"):
            names |= {n for n in declared(bare(t)) if is_old(n)}
    tokens = {p: set(re.findall(WORD, bare(t))) for p, t in read.items()}
    new = {n: snake(n) for n in names} | APART
    # a law that would have a definition's name
    by_new = collections.defaultdict(set)
    for n in names:
        by_new[new[n]].add(n)
    for each in by_new.values():
        if len(each) > 1:
            for n in each:
                if "-" in n and n not in APART:
                    new[n] += "_lem"
    functions = {f for p, t in read.items() if p.endswith(".rt") for f in re.findall(r"\bfn (\w+)", t)}
    met = collections.defaultdict(set)
    for p, toks in tokens.items():
        there = collections.defaultdict(set)
        for w in toks:
            there[LOCAL.get((p, w), new[w] if w in new and w not in lib[p] else w)].add(w)
        for k, v in there.items():
            # a function may have its definition's name
            if len(v) > 1 and not (k in functions and all(w == k or is_old(w) for w in v) and not (p.endswith(".rt") and re.search(rf"\b{k} *:", bare(read[p])))):
                met[k, tuple(sorted(v))].add(p)
    if met:
        for (k, v), ps in sorted(met.items()):
            print("meet:", k, v, sorted(ps)[:6])
        if "--anyway" not in sys.argv:
            return 1

    def turned(text, skip, path=""):
        """the text with its names turned; one that is snake case already is turned where it is no step of a path and no function's"""

        def one(m):
            w = m[0]
            if (path, w) in LOCAL:
                return LOCAL[path, w]
            if w not in new or w in skip:
                return w
            if not is_old(w) and (path.endswith(".rt") or text[m.start() - 1 : m.start()] == "." or text[m.end() : m.end() + 1] == "."):
                return w
            return new[w]

        return re.sub(WORD, one, text)

    def spans(text):
        return SPAN.sub(lambda m: "`" + turned(m[0][1:-1], set()) + "`", text)

    count = 0
    for p, t in read.items():
        out, at = [], 0
        for m in QUIET.finditer(t):
            out.append(turned(t[at : m.start()], lib[p], p))
            if m[0][0] == '"':
                out.append(m[0])
            else:
                out.append(spans(m[0]))
            at = m.end()
        out.append(turned(t[at:], lib[p], p))
        text = "".join(out)
        if text != t:
            count += 1
            open(p, "w", encoding="utf-8").write(text)
    for folder, _, files in [(".", [], ["README.md"]), *os.walk("docs")]:
        for f in files:
            if f.endswith(".md"):
                p = os.path.join(folder, f)
                t = open(p, encoding="utf-8").read()
                text = spans(t)
                if text != t:
                    open(p, "w", encoding="utf-8").write(text)
    with open(os.path.join(tempfile.gettempdir(), "snake_names.tsv"), "w") as f:
        f.writelines(f"{a}\t{b}\n" for a, b in sorted(new.items()))
    for c in sorted(crates):
        if os.path.isdir(os.path.join("crates", c, "src")):
            subprocess.run(["rt", "fmt"], cwd=os.path.join("crates", c), stdout=subprocess.DEVNULL, stderr=subprocess.DEVNULL)
    print(f"{len(new)} names, {count} files")
    return 0


if __name__ == "__main__":
    sys.exit(main())
