#!/usr/bin/env python3
"""Brings the repository's own definitions and lemmas to snake case, once, after port.py.

    python3 tools/own_names.py [ROOT]

An own name is one that specs/ or the lemma files of proofs/ define. Functions of src/ keep their names; where a
definition's new name is that of an item or a variable in a file of src/, the file imports it as NAME_of. What falls together
is printed, and nothing is written then.
"""
import collections
import glob
import os
import re
import sys

ROOT = os.path.abspath(sys.argv[1] if len(sys.argv) > 1 else ".")

# Names that would fall together with another one of the repository.
BY_HAND = {
    "word-bytes": "word_of_bytes",
    "in-range": "is_in_range",
    "G-back": "big_g_back",
    "sBox-below": "s_box_below",
    "invSBox-below": "inv_s_box_below",
    "invSBox-sBox": "inv_s_box_s_box",
    "xTimes-below": "x_times_below",
    "xTimes-xor": "x_times_xor",
    "tooLarge": "is_too_large",
    "theModel": "the_model",
    "of-move": "of_move",
    "no-memory": "no_memory",
}
DEFINED = re.compile(r"\s*(?:(?:abbrev|unfoldable|opaque|record|data|pub|const)\s+)*([^\s:(){}]+)\s*(?:\([^)]*\)\s*|\{[^}]*\}\s*)*:(?: |$)")
ALIAS = re.compile(r"[\w◌≡'-]+ as ([a-z][\w-]*)")
WORD = re.compile(r"[A-Za-z][A-Za-z0-9_'-]*")


def snake(name):
    if name in BY_HAND:
        return BY_HAND[name]
    name = name.replace("-", "_")
    if re.match(r"[a-z]", name):
        name = re.sub(r"(?<=[a-z0-9])([A-Z])", r"_\1", name)
        name = re.sub(r"(?<=[A-Z])([A-Z][a-z])", r"_\1", name).lower()
    return name


def read(path):
    with open(path, encoding="utf-8") as f:
        return f.read()


def main():
    os.chdir(ROOT)
    lemmas = sorted(glob.glob("crates/*/specs/*.antt") + glob.glob("crates/*/proofs/*.antt"))
    proofs = sorted(p for p in glob.glob("crates/*/proofs/**/*.antt", recursive=True) if p not in lemmas)
    sources = sorted(glob.glob("crates/*/src/**/*.rt", recursive=True))
    names = set()
    for path in lemmas:
        for line in read(path).splitlines():
            found = DEFINED.match(line)
            if found and not line.strip().startswith("--"):
                names.add(found.group(1))
    for path in sources:
        for line in read(path).splitlines():
            found = re.match(r"\s*(?:pub )?ghost ([\w-]+): ", line)
            if found:
                names.add(found.group(1))
    for path in lemmas + proofs + sources:
        for line in read(path).splitlines():
            if re.match(r"\s*(ghost )?use ", line):
                names.update(ALIAS.findall(line))
    turned = {n: snake(n) for n in names if WORD.fullmatch(n) and snake(n) != n}

    # A name that a file takes from elsewhere is not ours there.
    foreign = collections.defaultdict(set)
    for path in lemmas + proofs:
        for line in read(path).splitlines():
            found = re.match(r"use (\S+)\.\{(.*)\}", line)
            if found and not re.match(r"Rattle\.(%s)\." % "|".join(os.listdir("crates")), found.group(1)):
                for n in found.group(2).split(","):
                    n = n.strip().split(" as ")[0]
                    if n in turned:
                        foreign[path].add(n)

    bad = []
    texts = {}
    for path in lemmas + proofs:
        text = read(path)
        words = set(WORD.findall(text))
        for n in sorted(words & set(turned)):
            if turned[n] in words and not re.search(r"[.]%s\b" % re.escape(turned[n]), text):
                bad.append(f"{path}: {n} and {turned[n]} fall together")

        def put(m, path=path):
            n = m.group(0)
            return turned[n] if n in turned and n not in foreign[path] else n

        texts[path] = WORD.sub(put, text)
        for n in foreign[path]:
            print(f"{path}: {n} is not ours here")
    for path in sources:
        text = read(path)
        words = set(WORD.findall(text))
        aliases = {}

        def put(m, words=words, aliases=aliases):
            n = m.group(0)
            if n not in turned or not (re.search(r"[a-z][A-Z]", n) or "-" in n):
                return n
            to = turned[n]
            if to in words:
                aliases[to] = to + "_of"
                return "\0" + to
            return to

        text = WORD.sub(put, text)
        for to, alias in aliases.items():
            def use(m, to=to, alias=alias):
                line = m.group(0)
                return re.sub(r"\0%s(?![\w ]*as )(?=[,}])" % re.escape(to), f"{to} as {alias}", line)

            text = re.sub(r"(?m)^ *ghost use .*$", use, text)
            text = text.replace("\0" + to, "\0\0" + to)
            text = re.sub(r"\0\0%s(?!\w)(?= as )" % re.escape(to), to, text)
            text = re.sub(r"\0\0%s(?!\w)" % re.escape(to), alias, text)
            print(f"{path}: {to} as {alias}")
        if "\0" in text:
            bad.append(f"{path}: a name was lost")
        texts[path] = text
    inverse = collections.defaultdict(set)
    for n, to in turned.items():
        inverse[to].add(n)
        if to in names:
            print(f"another own name is {to}: {n}")
    for to, ns in inverse.items():
        if len(ns) > 1:
            print(f"{to} stands for {sorted(ns)}")
    if bad:
        print("\n".join(bad))
        return 1
    for path, text in texts.items():
        with open(path, "w", encoding="utf-8") as f:
            f.write(text)
    print(f"{len(turned)} names")
    return 0


if __name__ == "__main__":
    raise SystemExit(main())
