#!/usr/bin/env python3
"""Brings the repository's own definitions and lemmas to the library's spelling: words in snake case, joined by underscores.

usage: python3 tools/respell.py      at the top of the repository, once, after the kit's port.py

A name that specs/ or proofs/ declare, and every word in lower camel case there, in clauses, in must-fail edits and in docs/, is written in
snake case: `leafBody` as `leaf_body`, `left-turn` as `left_turn`. Types, modules, functions of src/ and the library's names stay. Names that
would fall together, or on a name of src/ in whose clauses they stand, get another one from TAKEN.
"""

import glob
import re
import sys

WORD = r"[A-Za-z_0-9'\u2080-\u2089-]"
NAME = re.compile(r"(?<![\w'\u2080-\u2089.\u00ab/-])([A-Za-z_\u03bc+][\w'\u2080-\u2089-]*)")
DECLARED = re.compile(r"^\s*(?:abbrev |unfoldable |pub )*([^\s(){}\[\],:;.\u00ab\u00bb\u03bb\u2192]+) :(?=\s)", re.M)
CAMEL = re.compile(r"[a-z][a-z0-9]*[A-Z]")
# Names whose snake case is taken, by a name of src/ in whose clauses they stand or by another name.
TAKEN = {
    "headerOf": "header_from", "length-headerOf": "length_header_from", "recordOf": "record_seen", "levelAbove": "next_level",
    "oneRecord": "with_record", "oneLeaf": "with_leaf", "oneInternal": "with_internal", "oneInternalRecord": "with_internal_record",
    "putRecords": "records_put", "finalLine": "final_line_of", "mixLine": "mix_line_of",
    "look_bytes": "look_bytes_lem",
}
# Names of an older library, which are not the repository's.
FOREIGN = set()


def snake(name):
    name = name.replace("getD", "get_or")
    name = re.sub(r"([a-z0-9])([A-Z])", r"\1_\2", name).lower() if CAMEL.match(name) else name
    parts = [re.sub(r"([a-z0-9])([A-Z])", r"\1_\2", p).lower() if CAMEL.match(p) else p for p in name.split("-")]
    return "_".join(parts)


def files(*patterns):
    return sorted(p for q in patterns for p in glob.glob(q, recursive=True) if "/out/" not in p)


def read(path):
    with open(path, encoding="utf-8") as f:
        return f.read()


def main():
    antt = files("crates/*/specs/**/*.antt", "crates/*/proofs/**/*.antt")
    texts = {p: read(p) for p in antt}
    own = {n for t in texts.values() for n in DECLARED.findall(t)}
    imported = set()
    for t in texts.values():
        for path, names in re.findall(r"^\s*(?:pub |ghost )?use ([^\s{]+)\.\{([^}]*)\}", t, re.M):
            crate = path.split(".")[1] if path.startswith("Rattle.") else ""
            if not glob.glob(f"crates/{crate}/specs") or not crate:
                imported |= {n.strip().split(" as ")[0] for n in names.split(",")}
    table = {}
    for n in own:
        # a name that begins like one that Rattle makes is the next step's
        if n in imported or n in FOREIGN or n[0] in "+\u03bc" or n[0].isupper():
            continue
        if "-" in n or CAMEL.match(n) or n in TAKEN:
            table[n] = TAKEN.get(n, snake(n))
    rt = files("crates/*/src/**/*.rt")
    edits = files("crates/*/must-fail/*.edit")
    for p in antt + rt + edits:
        for n in NAME.findall(texts.get(p) or read(p)):
            if n not in table and n not in imported and n not in FOREIGN and CAMEL.match(n):
                table[n] = TAKEN.get(n, snake(n))
    # A lemma that would have its function's name gets `_lem`.
    functions = {m for n, m in table.items() if "-" not in n} | {n for n in own if "-" not in n}
    for n, m in table.items():
        if "-" in n and m in functions:
            table[n] = m + "_lem"
    made = {}
    for n, m in sorted(table.items()):
        made.setdefault(m, []).append(n)
    bad = 0
    for m, ns in sorted(made.items()):
        if len(ns) > 1 or (m in own and m not in table and m != "at_most") or m in imported:
            print("falls together:", m, "from", ", ".join(ns), "(declared too)" if m in own else "", "(imported)" if m in imported else "")
            bad += 1
    for p in rt:
        t = read(p)
        code = set(re.findall(r"(?:\bfn |\blet (?:mut )?|[(,]\s*(?:mut )?)([a-z_]\w*)(?=\s*[:(=<])", t)) | set(re.findall(r"^\s*([a-z_]\w*): ", t, re.M))
        for n in sorted(set(NAME.findall(t))):
            if n in table and table[n] in code:
                print("name of src/:", table[n], "from", n, "in", p)
                bad += 1
    if "--list" in sys.argv:
        for n in sorted(table):
            print(n, table[n])
    if "--dry" in sys.argv:
        return
    for p in antt + rt + edits + files("docs/*.md", "README.md"):
        t = read(p)
        if p.endswith(".md"):
            u = re.sub(r"`[^`\n]*`", lambda m: NAME.sub(lambda k: table.get(k.group(1), k.group(1)), m.group(0)), t)
        else:
            u = NAME.sub(lambda k: table.get(k.group(1), k.group(1)), t)
            u = re.sub("\u00ab([^\u00bb]*)\u00bb", lambda k: "\u00ab" + table.get(k.group(1), k.group(1)) + "\u00bb", u)
        # a field after a dot
        if not p.endswith(".md"):
            u = re.sub(r"(?<=[\w)\u2080-\u2089'])\.([a-z][\w'-]*)", lambda k: "." + table.get(k.group(1), k.group(1)), u)
        if u != t:
            with open(p, "w", encoding="utf-8") as f:
                f.write(u)


main()
