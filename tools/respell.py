#!/usr/bin/env python3
"""Spells the names of this repository's definitions and lemmas as today's Rattle does: words in snake case, types and modules in camel case.

usage: tools/respell.py, once, at the top of a checkout on which the toolchain's port.py has just run.

It takes the names that specs/ and proofs/ declare, and turns each whole word that is one of them: in .antt and .rt files, must-fail edits,
the printer of the tables of examples, and the code spans of pages; then it lays out every crate. A name that a proof by hand gives its own steps turns in its file alone.
TYPES, words of capitals (FORMS, SPENT) and names that Rattle makes stay. Two names that would fall together are told apart by APART.
"""

import collections
import glob
import os
import re
import subprocess

WORD = r"[^\s(){}.;,@\"«»]+"
DECLARED = re.compile(r"(?m)^( *)((?:(?:pub|abbrev|unfoldable|data|record|opaque) )*)(" + WORD + r")((?: (?:\{[^{}\n]*\}|\([^()\n]*\)|" + WORD + r"))*) :(?=\s)(.*)")
QUIET = re.compile(r'"(?:[^"\\\n]|\\.)*"|(?<![^\s(){}.;,@"«»])--[^\n]*|\{-.*?-\}', re.S)
TOKEN = re.compile(QUIET.pattern + "|" + WORD, re.S)
TYPES = re.compile(r"[A-Z][A-Za-z0-9]*'*|[A-Z]₀")

# Names that would fall together with another name of the repository or of the library.
APART = {
    "add-in": "added_in",
    "add-out": "added_out",
    "adds-test": "rows_add_test",
    "at-roots": "lists_at_roots",
    "check-word": "check_word_parts",
    "class-child": "class_is_child",
    "constant-at": "constant_read_at",
    "constraints-in": "constraints_within",
    "constraints-in'": "constraints_within'",
    "denied-word": "denied_word_is",
    "divided-word": "divided_word_is",
    "forced-word": "forced_word_is",
    "entries-in": "entries_within",
    "firstPlace": "first_place_of",
    "gather-Each": "gather_of_each",
    "literal-known": "literal_is_known",
    "model-values": "model_values_are",
    "next-is": "next_is_so",
    "of-kind": "of_its_kind",
    "propagation-rows": "propagation_rows_of",
    "record-length": "record_is_long",
    "refused-by": "refused_by_call",
    "restrict-next": "restrict_next_of",
    "bit-and": "bit_of_and",
    "bit-or": "bit_of_or",
    "bytes-at": "bytes_of_value",
    "Each-all": "each_is_all",
    "row-of": "row_of_relation",
}

# Lemmas that port.py spelled, and that a definition's name would meet.
LEMMAS = {"crates/calculus/": {"split_rows": "split_rows_of", "root_in": "root_below"}}


def read(path):
    with open(path, encoding="utf-8") as f:
        return f.read()


def write(path, text):
    with open(path, "w", encoding="utf-8") as f:
        f.write(text)


def turned(name):
    return APART.get(name) or re.sub(r"(?<=[a-z0-9])(?=[A-Z])", "_", name).replace("-", "_").lower()


def turns(name):
    return bool(re.match(r"[A-Za-z]", name)) and not TYPES.fullmatch(name) and bool(re.search(r"[A-Z]|.-.", name))


def bare(text):
    return QUIET.sub(" ", text)


def declared(text):
    return [(m[3], m[5]) for m in DECLARED.finditer(bare(text)) if turns(m[3])]


def antt(text, table, behind_dot):
    def one(m):
        word = m[0]
        if word.startswith("--") or word.startswith("{-"):
            return re.sub(WORD, lambda w: table.get(w[0], w[0]) if re.search("[a-z][A-Z]", w[0]) else w[0], word)
        if word.startswith('"'):
            return word
        if not behind_dot and m.start() and text[m.start() - 1] == ".":
            return word
        return table.get(word, word)

    return TOKEN.sub(one, text)


def main():
    shared = glob.glob("crates/*/specs/*.antt") + glob.glob("crates/*/proofs/*.antt")
    table, words = {}, collections.defaultdict(set)
    for path in shared:
        for name, _ in declared(read(path)):
            table[name] = turned(name)
        for word in re.findall(WORD, bare(read(path))):
            words[word].add(path)
    meets = collections.defaultdict(set)
    for old, new in table.items():
        meets[new].add(old)
        if new in words and words[new] & words[old]:
            meets[new].add(new)
    for new, olds in sorted(meets.items()):
        if len(olds) > 1:
            print("falls together:", new, "of", ", ".join(sorted(olds)))
    for path in shared:
        lemmas = [names for crate, names in LEMMAS.items() if path.startswith(crate)]
        write(path, antt(read(path), {**table, **(lemmas[0] if lemmas else {})}, True))
    for path in glob.glob("crates/*/proofs/*/**/*.antt", recursive=True):
        text = read(path)
        own = {n: turned(n) for n, is_of in declared(text) if n not in table and not re.match(r"\s*tie\.", is_of)}
        own = {a: b for a, b in own.items() if b not in words and not re.search(r"(?<![\w'-])" + re.escape(b) + r"(?![\w'-])", text)}
        write(path, antt(antt(text, own, False), table, True))
    camel = {a: b for a, b in table.items() if re.search("[a-z][A-Z]", a) or a in ("row-of",)}
    whole = re.compile(r"(?<![\w'-])(" + "|".join(sorted(map(re.escape, camel), key=len, reverse=True)) + r")(?![\w'-])")
    for path in glob.glob("crates/*/src/**/*.rt", recursive=True) + glob.glob("tests/src/bin/print_cases.rs") + glob.glob("crates/*/rows/*.rows"):
        write(path, whole.sub(lambda m: camel[m[1]], read(path)))
    for path in glob.glob("crates/*/must-fail/*.edit"):
        lines = read(path).split("\n")
        write(path, "\n".join(antt(line, table, True) if re.match("(old|new):", line) else line for line in lines))
    for path in ["README.md"] + glob.glob("docs/**/*.md", recursive=True) + glob.glob("tests/*.md") + glob.glob("examples/*.md"):
        write(path, re.sub(r"`[^`\n]+`", lambda m: re.sub(r"[^\s(){}.;,@\"«»`]+", lambda w: table.get(w[0], w[0]), m[0]), read(path)))
    for crate in sorted(glob.glob("crates/*")):
        if os.path.isdir(crate + "/src"):
            subprocess.run(["rt", "fmt"], cwd=crate, stdout=subprocess.DEVNULL, stderr=subprocess.DEVNULL)
    print(len(table), "names")


if __name__ == "__main__":
    main()
