#!/usr/bin/env python3
"""Spells the names that this repository's own texts declare in today's way: words in snake case.

usage: python3 tools/respell.py SNAKE        at the top of the repository, after the kit's port script

SNAKE is the kit's script that turns names by a table. A name that begins with a small letter and has capitals within or
dashes, and is declared in specs/ or in a lemma file of proofs/, gets plain underscores. Names of Rust, labels that
Rattle makes, types and modules keep theirs. It prints the names that would fall together with another; those stay.
"""
import collections
import os
import re
import subprocess
import sys
import tempfile

WORD = re.compile(r'[^\s(){}.;,@"«»⌜⌝]+')
MARKS = r"(?:(?:unfoldable|abbrev|pub|private|opaque|instance|record|data)\s+)*"
DECLARED = re.compile(rf"(?m)^\s*(?:where\s+|record\s*\{{\s*)?{MARKS}([a-z][^\s(){{}}.;,@\"«»⌜⌝:]*)(?:\s+[^:=↦\n]*)?\s:(?:\s|$)")
FIELD = re.compile(r"[{;]\s*([a-z][^\s(){}.;,@\"«»⌜⌝:]*) :\s")
# Lemmas that have, in today's spelling, the name of what they are about: a lemma gets `_lem` there.
LEMMAS = {
    "at_first": ["layout/proofs/Placing.antt", "entries/proofs/refusal/Proof.antt"],
    "given_back": ["values/proofs/Bits.antt", "evaluation/proofs"],
    "left_by": ["pairs/proofs/Sweeps.antt"],
    "level_in": ["lattice/proofs/Theorems.antt", "language/proofs/RequiredRanges.antt"],
    "record_of": ["theorems/proofs"],
    "node_at": ["flow/proofs"],
}


def texts(kind):
    for folder, dirs, files in os.walk("crates"):
        dirs[:] = sorted(d for d in dirs if d != "out")
        for name in sorted(files):
            if os.path.join(folder, name).endswith(kind):
                yield os.path.join(folder, name)


def code(path):
    with open(path, encoding="utf-8") as file:
        text = file.read()
    return re.sub(r"--[^\n]*" if path.endswith(".antt") else r"//[^\n]*", "", text)


def respelled(name):
    name = re.sub(r"(?<=[a-z0-9'])[A-Z]", lambda m: "_" + m[0].lower(), name)
    return name.replace("-", "_").replace("′", "'")


def is_old(name):
    return re.match(r"[a-z]", name) and ("-" in name or "′" in name or re.search(r"[a-z0-9'][A-Z]", name))


def main(snake):
    declared, used = set(), collections.defaultdict(set)
    for path in texts(".antt"):
        text = code(path)
        for word in WORD.findall(text):
            used[word].add(path)
        if os.path.basename(path) not in ("Proof.antt", "Answers.antt", "Invariants.antt"):
            declared |= set(DECLARED.findall(text)) | set(FIELD.findall(text))
    # a constructor or a definition in camel case is the repository's own: the library has none
    declared |= {word for word in used if re.match(r"[a-z]+[0-9]*[A-Z][A-Za-z0-9]*$", word)}
    # what a library of the kit exports stays
    imported = set()
    for path in texts(".antt"):
        for module, names in re.findall(r"(?m)^\s*use (\S+?)\.\{([^}]*)\}", code(path)):
            if not re.match(r"Rattle\.(?!std|core)", module):
                imported |= {n.split(" as ")[0].strip() for n in names.split(",")}
    for name, places in LEMMAS.items():
        for path in texts(".antt"):
            if any(place in path for place in places):
                with open(path, encoding="utf-8") as file:
                    text = file.read()
                turned = re.sub(rf"(?<![\w.'-]){name}(?![\w'-])", name + "_lem", text)
                if turned != text and snake != "-":
                    with open(path, "w", encoding="utf-8") as file:
                        file.write(turned)
    rows, met = {}, collections.defaultdict(list)
    for name in sorted(declared):
        if is_old(name) and name not in imported:
            met[respelled(name)].append(name)
    for new, old in sorted(met.items()):
        for name in old:
            meets = "-" in name and (len(old) > 1 or new in used)
            rows[name] = new + "_lem" if meets else new
            if meets:
                print("lemma:", name, rows[name])
    with tempfile.NamedTemporaryFile("w", suffix=".tsv", delete=False, encoding="utf-8") as table:
        table.write("".join(f"{old}\t{new}\n" for old, new in sorted(rows.items())))
    print(len(rows), "names,", table.name)
    if snake == "-":
        return 0
    turned = subprocess.run([sys.executable, snake, "--table", table.name, "--only", "antt,rt,md", "crates", "docs", "README.md"])
    if turned.returncode == 0:
        rename_contracts()
        turn_edits(rows)
    return turned.returncode


def rename_contracts():
    """Rattle makes a module specs.contracts: the files of that name are called Promises."""
    for path in list(texts("specs/Contracts.antt")):
        os.rename(path, path.replace("Contracts.antt", "Promises.antt"))
    pages = ["README.md"] + [os.path.join("docs", name) for name in sorted(os.listdir("docs"))]
    for path in [*texts(".antt"), *texts(".rt"), *texts(".edit"), *pages]:
        rewrite(path, lambda text: re.sub(r"(?<=specs\.)Contracts\b|(?<=mod )Contracts$|\bContracts(?=\.antt)", "Promises", text, flags=re.M))


def turn_edits(rows):
    """Must-fail edits: the same names, in whole words, and paths in today's form."""
    for path in texts(".edit"):
        rewrite(path, lambda text: WORD.sub(lambda m: rows.get(m[0], m[0]), text).replace("·", ".").replace(".specs.specs.", ".specs."))


def rewrite(path, turn):
    with open(path, encoding="utf-8") as file:
        text = file.read()
    turned = turn(text)
    if turned != text:
        with open(path, "w", encoding="utf-8") as file:
            file.write(turned)


if __name__ == "__main__":
    sys.exit(main(sys.argv[1]))
