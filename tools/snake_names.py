#!/usr/bin/env python3
"""Respells the repository's own definitions and lemmas: words in snake case, a dash only between two names.

usage: python3 tools/snake_names.py [--list]        at the top of the repository; --list says the names and changes nothing

It reads what the files of specs/ and proofs/ declare (definitions, lemmas, fields, constructors) and respells each name wherever
it stands as a whole name: in specs/, proofs/, the clauses and comments of src/, the edits, README.md and docs/. Types and facts
keep their capitals, strings keep their text, and so do the names of src/, of the library and of what the check makes.
"""

import glob
import re
import sys

WORD = r"[^\W]|['\-₀-₉]"
TOKEN = re.compile(r"(?:%s)+" % WORD)
SIGNATURE = re.compile(r"^( *)((?:unfoldable |abbrev |pub )*)([^\s:{}()\[\]|,.;\"]+)(?: \{[^}]*\})* :(?: |$)")
HEAD = re.compile(r"^ *(?:pub |unfoldable )*(data|record) (\S+)")
# Definitions whose name in snake case is that of a field or a constructor beside them.
CHOSEN = {"noLine": "empty_row", "oneLine": "line_alone"}
STRING = re.compile(r'"(?:[^"\\\n]|\\.)*"')


def sources(pattern):
    return sorted(p for p in glob.glob(pattern, recursive=True) if "/out/" not in p)


def declared(path):
    """What an antt file declares, as (kind, name)."""
    kind, base = None, 0
    for line in open(path, encoding="utf-8"):
        if not line.strip() or line.lstrip().startswith("--"):
            continue
        indent = len(line) - len(line.lstrip())
        head = HEAD.match(line)
        if head:
            kind, base = head.group(1), indent
            yield "type", head.group(2)
            continue
        if indent <= base:
            kind = None
        m = SIGNATURE.match(line)
        if not m:
            continue
        if kind and indent > base:
            yield ("constructor" if kind == "data" else "field"), m.group(3)
        elif indent == 0 or (indent == 2 and "pub" in m.group(2)):
            kind = None
            yield "definition", m.group(3)


def imported(path):
    """The names that an antt file takes from the library."""
    text = open(path, encoding="utf-8").read()
    for m in re.finditer(r"^(?:pub |ghost )*use (\S+?)\.\{([^}]*)\}", text, re.M):
        if not m.group(1).startswith("Rattle.") or m.group(1).startswith("Rattle.std"):
            for n in m.group(2).split(","):
                yield n.strip().split(" as ")[0]


def snake(part):
    """One word of a name: a part that begins with a capital is a type and stays."""
    if not part or part[0].isupper():
        return part
    return re.sub(r"(?<=[a-z0-9'])([A-Z])", lambda m: "_" + m.group(1).lower(), part)


def main():
    antt = [p for d in ("specs", "proofs") for p in sources("crates/*/%s/**/*.antt" % d)]
    laws = [p for p in antt if not p.endswith("/Proof.antt")]
    own, types, specified = set(), set(), set()
    for p in laws:
        for kind, name in declared(p):
            (types if kind == "type" else own).add(name)
            if "/specs/" in p:
                specified.add(name)
    library = {n for p in antt for n in imported(p)}
    kept = library | {n for p in antt if p.endswith("/Proof.antt") for _, n in declared(p)}
    functions = set()
    for p in sources("crates/*/src/**/*.rt"):
        functions |= set(re.findall(r"\bfn (\w+)", open(p, encoding="utf-8").read()))
    heads = own | types | library | functions
    known = {n for n in heads if "-" not in n} | {snake(n) for n in heads if "-" not in n}

    new = {}
    for name in sorted(own):
        if name in kept or not re.match(r"^[a-z]", name) or "μ" in name:
            continue
        parts = [snake(x) for x in name.split("-")]
        told = parts[0]
        for left, right in zip(parts, parts[1:]):
            told += ("-" if left in known and right in known else "_") + right
        told = CHOSEN.get(name, told)
        if told != name:
            new[name] = told
    # Variables, and what is declared inside another declaration.
    for p in antt:
        for line in open(p, encoding="utf-8"):
            for token in TOKEN.findall(STRING.sub("", line).split("--")[0]):
                parts = [snake(x) for x in token.split("-")]
                if re.match(r"^[a-z]", token) and "_" not in token and token not in kept and parts != token.split("-"):
                    new.setdefault(token, "-".join(parts))
    # Names that fall together: where a file has two of them, the definition takes the name and the lemma gets `_lem`.
    tokens = {p: set(TOKEN.findall(open(p, encoding="utf-8").read())) for p in antt + sources("crates/*/src/**/*.rt")}
    taken = {}
    for name, told in sorted(new.items()):
        taken.setdefault(told, {name}).add(name)
    for told, names in sorted(taken.items()):
        if told in own or told in library:
            names.add(told)
        if len(names) == 1 or not any(len(names & t) > 1 for t in tokens.values()):
            continue
        heads = [n for n in names if n in specified or n in library] or sorted(names)[1:]
        if len(heads) > 1:
            print("falls together, left:", told, sorted(names))
            for n in names:
                new.pop(n, None)
            continue
        for n in names:
            if n not in heads:
                new[n] = told + "_lem"
        print("falls together:", ", ".join("%s -> %s" % (n, new.get(n, n)) for n in sorted(names)))
    if "--list" in sys.argv:
        for name, told in sorted(new.items()):
            print(name, told)
        return

    def respelled(text):
        return TOKEN.sub(lambda m: new.get(m.group(0), m.group(0)), text)

    def outside_strings(text):
        told, at = [], 0
        for m in STRING.finditer(text):
            told += [respelled(text[at : m.start()]), m.group(0)]
            at = m.end()
        return "".join(told) + respelled(text[at:])

    changed = 0
    pages = sources("docs/*.md") + ["README.md"]
    edits = sources("crates/*/must-fail/*.edit") + sources("edits/*/*.edit")
    for p in antt + sources("crates/*/src/**/*.rt") + edits + pages:
        text = open(p, encoding="utf-8").read()
        if p in pages:
            told = re.sub(r"`[^`\n]*`", lambda m: respelled(m.group(0)), text)
        else:
            told = outside_strings(text)
        if told != text:
            open(p, "w", encoding="utf-8").write(told)
            changed += 1
    print(len(new), "names,", changed, "files")


main()
