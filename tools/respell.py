#!/usr/bin/env python3
"""Brings the repository's own names to the spelling of today's Rattle: words in snake case, types and modules in camel case.

usage: respell.py [FOLDER]

FOLDER is the top of a checkout that the kit's port.py has turned. `isDigit` becomes `is_digit`, `NoLF` becomes `NoLf`; `LF` and `CR`, the
source's constants, keep theirs. A dash in a name of a lemma stays where it joins the names of two definitions (`digits_of-append`), and is `_` where it joins words
(`walk_owner`). Source names, strings, inputs and outputs keep theirs. A name that stands in an import from the kit is left alone in that file.
Generated proofs (`proofs/F/Proof.antt`) are renamed in what they cite. It prints names that would fall together and then writes nothing.
"""
import os
import re
import sys

TOP = sys.argv[1] if len(sys.argv) > 1 else "."
NAME = r"[A-Za-z_ℕ][\w₀-₉]*(?:[-·][\w₀-₉ℕ]+)*'*"
TOKEN = re.compile(r"--[^\n]*|//[^\n]*|b?\"(?:[^\"\\]|\\.)*\"|«[^»]*»|" + NAME)
TOKEN_IN_NOTE = re.compile(NAME)
FIXED = {"LF": "lf", "CR": "cr", "NoLF": "NoLf", "EndsWithLF": "EndsWithLf", "kWh": "kwh"}
# definitions of std that a lemma may be named after
STD = set("length take drop append cons nil map replicate zero suc get_or set mul add put".split())
DEFINED = re.compile(
    r"^( *)(?:(?:abbrev|unfoldable|data|record|pub|private) )*(" + NAME + r"|◌[^ ]*◌)(?: [({][^:]*)? :(?: |$)", re.M
)
FIELD = re.compile(r"^ +(?:pub )?((?:" + NAME + r")(?:, " + NAME + r")*) :", re.M)
IMPORT = re.compile(r"^(?:pub |ghost )?use (\S+?)\.?(?:\{([^}]*)\})?;?$", re.M)


def files(*ends):
    for folder, dirs, names in os.walk(os.path.join(TOP, "crates")):
        dirs[:] = [d for d in dirs if d != "out"]
        for name in sorted(names):
            if name.endswith(ends):
                yield os.path.join(folder, name)


def read(path):
    with open(path, encoding="utf-8") as f:
        return f.read()


def is_own(module, crates):
    return module.startswith("Rattle.") and module.split(".")[1] in crates


def snake(name):
    if name in FIXED:
        return FIXED[name]
    s = re.sub(r"([a-z0-9])([A-Z]+)(?=$|[^A-Za-z])", lambda m: m[1] + "_" + m[2].lower(), name)  # dropCR
    s = re.sub(r"([A-Z]+)([A-Z][a-z])", lambda m: m[1].lower() + "_" + m[2], s)
    return re.sub(r"([a-z0-9])([A-Z])", lambda m: m[1] + "_" + m[2].lower(), s)


def main():
    crates = set(os.listdir(os.path.join(TOP, "crates")))
    texts = {p: read(p) for p in files(".antt", ".rt")}
    defined, lemmas, foreign = set(), set(), {}
    for path, text in texts.items():
        for module, names in IMPORT.findall(text):
            if not is_own(module, crates):
                foreign.setdefault(path, set()).update(n.strip().split(" as ")[0] for n in (names or "").split(","))
        if not path.endswith(".antt") or path.endswith("/Proof.antt"):
            continue
        for _, name in DEFINED.findall(text):
            (lemmas if "-" in name else defined).add(name)
        for names in FIELD.findall(text):
            for name in names.split(", "):
                (lemmas if "-" in name else defined).add(name)
    foreign_all = set().union(*foreign.values()) if foreign else set()

    def camel(name):
        return re.match(r"[a-z]", name) and re.search(r"[A-Z]", name) and name not in foreign_all

    def known_lemma(parts):
        return parts[-1] in STD or parts[-1] in defined

    def joined(name):
        """a lemma's name: each part in snake case, a dash only between the names of definitions"""
        parts = [FIXED.get(p, snake(p) if re.match(r"[a-z]", p) else p) for p in name.split("-")]
        old = name.split("-")
        known = lambda p: p in defined or p in STD or bool(re.match(r"[A-Z]", p))
        if re.match(r"[A-Z]", name) and not known_lemma(old):
            return "".join(p[0].upper() + p[1:] for p in old)
        out, left = parts[0], known(old[0])
        for k in range(1, len(parts)):
            right = known(old[k])
            out += ("-" if left and right else "_") + parts[k]
            left = right
        return out

    turned = {}
    for name in sorted(defined | lemmas):
        if name in foreign_all:
            continue
        if name in FIXED or camel(name) or "-" in name:
            new = joined(name) if "-" in name else snake(name)
            if new != name:
                turned[name] = new
    for text in texts.values():  # variables and constructors too
        for m in TOKEN.finditer(text):
            t = m[0]
            if t[0] in '-/"«' or t.startswith('b"'):
                continue
            if "-" not in t and camel(t) and t not in turned:
                turned[t] = snake(t)
    # names that fall together: two old names with one new one, or a new one that is there already
    back = {}
    for old, new in turned.items():
        back.setdefault(new, set()).add(old)
    all_names = defined | lemmas
    for new, olds in sorted(back.items()):  # a lemma that would have its function's name gets `_lem`
        there = new in all_names - set(turned)
        if len(olds) == 1 and not there:
            continue
        mine = [o for o in olds if "-" not in o]
        if len(mine) > 1 or (there and len(olds) > 1):
            sys.exit("falls together: %s <- %s" % (new, " ".join(sorted(olds))))
        for old in olds:
            if "-" in old:
                turned[old] = new + "_lem"
        if there and mine:
            turned[new] = new + "_lem"
        print("one name for two:", new, "<-", *sorted(olds), "and", new if there else "", "; lemmas get _lem")

    def word(path, m, text):
        t = m[0]
        if t.startswith(("--", "//")):
            return t[:2] + TOKEN_IN_NOTE.sub(lambda n: turned.get(n[0], n[0]) if n[0] in turned and ("-" not in n[0] or n[0] in lemmas) else n[0], t[2:])
        if t[0] in '"«' or t.startswith('b"') or t in foreign.get(path, ()):
            return t
        if turned.get(t, "").endswith("_lem") and "-" not in t:  # a lemma that gives its name up: no source name, no module of a path
            if path.endswith(".rt") or re.search(r"Rattle\.[\w.+]*$", text[max(0, m.start() - 200) : m.start()]):
                return t
        if path.endswith("/Proof.antt") and "-" in t and m.start() and text[m.start() - 1] == ".":
            return t
        if path.endswith(".rt") and t in ("LF", "CR") and not in_ghost(text, m.start()):
            return t
        return turned.get(t, t)

    def in_ghost(text, at):
        start = text.rfind("\n", 0, at) + 1
        line = text[start : text.find("\n", at)]
        return bool(re.match(r"\s*(ghost |requires|ensures)", line))

    if "--dry" in sys.argv:
        for old, new in sorted(turned.items()):
            print(old, "->", new)
        return
    for path, text in texts.items():
        new = TOKEN.sub(lambda m: word(path, m, text), text)
        if new != text:
            with open(path, "w", encoding="utf-8") as f:
                f.write(new)
    for path in files(".edit"):
        text = read(path)
        of_source = re.search(r"^file: src/", text)
        new = "\n".join(
            TOKEN_IN_NOTE.sub(lambda n: n[0] if of_source and n[0] in ("LF", "CR") else turned.get(n[0], n[0]), line)
            if line.startswith(("old: ", "new: ")) and not (of_source and not re.match(r"(old|new): +(ghost|requires|ensures)", line))
            else line
            for line in text.split("\n")
        )
        if new != text:
            with open(path, "w", encoding="utf-8") as f:
                f.write(new)
    docs = [os.path.join(TOP, p) for p in ("README.md",)] + [
        os.path.join(TOP, "docs", p) for p in os.listdir(os.path.join(TOP, "docs")) if p.endswith(".md")
    ]
    for path in docs:
        text = read(path)
        new = re.sub(
            r"`[^`\n]*`", lambda q: TOKEN_IN_NOTE.sub(lambda n: n[0] if n[0] in ("LF", "CR") else turned.get(n[0], n[0]), q[0]), text
        )
        if new != text:
            with open(path, "w", encoding="utf-8") as f:
                f.write(new)


main()
