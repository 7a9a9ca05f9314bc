#!/usr/bin/env python3
"""Brings this repository's own definitions and lemmas to snake case. Run once, at the top, behind port.py.

A name is one that a file of specs/ or one right in proofs/ declares. `isChain` becomes `is_chain` and `chain-more`
`chain_more`; types keep their camel case. Where a lemma or a row falls together with a definition, it gets `_holds`.
Names of Rattle's library and names that Rattle makes are left alone. Turned are the files of specs/ and proofs/, the
clauses of src/, the must-fail edits, and names between backticks in README.md and docs/. What falls together
in a file all the same is printed.
"""

import collections
import os
import re
import sys

IDENT = r"[A-Za-z_][\w'₀-₉-]*"
TOKEN = re.compile(r"«[^»]*»|" + IDENT)
DECLARED = re.compile(r"\s*(?:abbrev )?(?:unfoldable )?(?:pub )?(?:abbrev |unfoldable )?(?:ruleset |record )?(" + IDENT + r") [:=] ")
IMPORT = re.compile(r"^\s*(?:pub )?(?:ghost )?use ([^{;\n]*?)\.\{([^}]*)\}", re.M)
NOT_OURS = re.compile(r"^(Rattle\.(std|core|io|libc|os|std_\w+)\b|mathlib|Prim|native|lib\b|borrow|meta)")

# Names that would fall together, each with what it becomes and the folder in which it is meant.
CLASHES = [
    ("crcTables", "right_crc_tables", "crates/"),
    ("is_framed", "is_framed_holds", "crates/read_check/proofs/StepLaws.antt"),
    ("row_last", "row_last_holds", "crates/build/proofs/"),
    ("same_version", "same_version_holds", "crates/sections/proofs/"),
    ("version_of", "version_of_holds", "crates/sections/"),
    ("version_of", "version_of_holds", "crates/schedule/"),
]


def folders(root):
    for crate in sorted(os.listdir(os.path.join(root, "crates"))):
        yield crate, os.path.join(root, "crates", crate)


def read(path):
    with open(path, encoding="utf-8") as f:
        return f.read()


def snake(name):
    name = name.replace("-", "_")
    return name if name[0].isupper() else re.sub(r"([a-z0-9])([A-Z])", lambda m: m.group(1) + "_" + m.group(2).lower(), name)


def declared(root):
    """Each own name, with the files that declare it."""
    names = collections.defaultdict(set)
    for crate, folder in folders(root):
        for part in ("specs", "proofs"):
            inner = os.path.join(folder, part)
            for f in sorted(os.listdir(inner)) if os.path.isdir(inner) else []:
                if f.endswith(".antt"):
                    for line in read(os.path.join(inner, f)).split("\n"):
                        m = DECLARED.match(line + " ")
                        if m and not line.lstrip().startswith("--"):
                            names[m.group(1)].add(f"{crate}/{part}/{f}")
    return names


def renaming(names):
    by = collections.defaultdict(list)
    for n in names:
        by[snake(n)].append(n)
    to = {}
    for new, olds in by.items():
        for n in olds:
            to[n] = new + "_holds" if "-" in n and len(olds) > 1 else new
    return {n: t for n, t in to.items() if n != t}


def turn(text, to, keep=()):
    def one(m):
        w = m.group(0)
        return w if w in keep else to.get(w, w)

    return TOKEN.sub(one, text)


def theirs(text):
    """Names that a file imports from the library."""
    got = set()
    for m in IMPORT.finditer(text):
        if NOT_OURS.match(m.group(1).strip()):
            got |= {w.split(" as ")[-1].strip() for w in m.group(2).split(",")}
    return got


def code_parts(text):
    """The parts of a .rt file that are antt: ghost lines and clauses; and comments."""
    out, at = [], 0
    for m in re.finditer(r"^ghost use [^;]*;|//[^\n]*|\b(?:requires|ensures)\b[^{;]*\{|ghost [^{;]*\{", text, re.M):
        if m.start() < at:
            continue
        end = m.end()
        if text[end - 1] == "{" and not m.group(0).startswith("//"):
            depth = 1
            while depth:
                depth += {"{": 1, "}": -1}.get(text[end], 0)
                end += 1
        out.append((m.start(), end))
        at = end
    return out


def together(path, text, to, keep, say):
    back = collections.defaultdict(set)
    for m in TOKEN.finditer(re.sub(r"--[^\n]*", "", text) if path.endswith(".antt") else text):
        w = m.group(0)
        back[w if w in keep else to.get(w, w)].add(w)
    for new, olds in sorted(back.items()):
        if len(olds) > 1:
            say(f"together: {path}: {new} from {', '.join(sorted(olds))}")


def main(root, write):
    names = declared(root)
    everywhere = renaming(names)
    say = print
    for crate, folder in folders(root):
        for where, dirs, files in os.walk(folder):
            dirs[:] = [d for d in dirs if d != "out"]
            for f in sorted(files):
                path = os.path.join(where, f)
                short = os.path.relpath(path, root)
                to = everywhere | {old: new for old, new, inside in CLASHES if short.startswith(inside)}
                if f.endswith(".antt"):
                    text = read(path)
                    keep = theirs(text)
                    together(short, text, to, keep, say)
                    new = turn(text, to, keep)
                elif f.endswith(".rt"):
                    text = read(path)
                    keep = theirs(text)
                    parts = code_parts(text)
                    together(short, "\n".join(text[a:b] for a, b in parts if not text[a:b].startswith("//")), to, keep, say)
                    new, at = "", 0
                    for a, b in parts:
                        piece = text[a:b]
                        if piece.startswith("//"):
                            piece = re.sub(r"`[^`]*`", lambda m: turn(m.group(0), to), piece)
                        else:
                            piece = turn(piece, to, keep)
                        new += text[at:a] + piece
                        at = b
                    new += text[at:]
                elif f.endswith(".edit"):
                    text = read(path)
                    new = "\n".join(line if line.startswith("file:") else turn(line, to) for line in text.split("\n"))
                else:
                    continue
                if write and new != text:
                    with open(path, "w", encoding="utf-8") as g:
                        g.write(new)
    to = everywhere | {old: new for old, new, inside in CLASHES if inside == "crates/"}
    pages = ["README.md"] + [os.path.join("docs", f) for f in sorted(os.listdir(os.path.join(root, "docs"))) if f.endswith(".md")]
    for page in pages:
        text = read(os.path.join(root, page))
        new = re.sub(r"`[^`\n]*`", lambda m: m.group(0) if "/" in m.group(0) else turn(m.group(0), to), text)
        if write and new != text:
            with open(os.path.join(root, page), "w", encoding="utf-8") as g:
                g.write(new)
    print(f"{len(everywhere)} names")


if __name__ == "__main__":
    main(".", "--look" not in sys.argv[1:])
