#!/usr/bin/env python3
"""Brings the repository's own definitions, lemmas and fields to snake case, and its facts to camel case.

usage: python3 tools/respell.py    once, at the top of the repository, right after port.py

A name of the kit, a name that the prover makes for a goal, and all that Rust sees keep their spelling. It tells of names that it brings
together in one file, and then ends with status 1, the files rewritten all the same. A name that had an underscore already is not looked
at: that one of these meets a respelt one, the check says.
"""

import os
import re
import sys

DASHED = re.compile(r"(?<![\w'◌≡≢≤<-])[A-Za-z][\w']*(?:-[A-Za-z0-9'][\w']*)+(?![\w'◌≡≢≤<*ℕ-])")
LOWER_CAMEL = re.compile(r"(?<![\w'-])[a-z][a-z]*(?:[A-Z][a-z]+)+(?![\w'-])")
GENERATED = re.compile(r"^(?:c|w|goal|need|l)$")
DEFINED = re.compile(r"^ *(?:abbrev )?(?:unfoldable )?(?:pub )?([A-Za-z][\w'-]*) *(?:\([^=]*\) *)?:(?! *goal\.)", re.M)


# A lemma that would take the name of the definition it is about.
APART = {"shortfall-letter": "shortfall_letter_shown"}


def respelled(name):
    if name in APART:
        return APART[name]
    if name.startswith("getD"):
        name = "get_or" + name[4:]
    if "-" in name and name[0].isupper():
        return "".join(part[0].upper() + part[1:] for part in name.split("-"))
    name = name.replace("-", "_")
    return re.sub(r"(?<=[a-z])([A-Z])", lambda m: "_" + m.group(1).lower(), name) if name[0].islower() else name


def files(root, endings):
    for folder, dirs, names in os.walk(os.path.join(root, "crates")):
        dirs[:] = sorted(d for d in dirs if d != "out")
        for n in sorted(names):
            if n.endswith(endings):
                yield os.path.join(folder, n)


def is_answer(path):
    return os.path.basename(path) in ("Answers.antt", "Invariants.antt", "Choices.antt", "Proof.antt")


def read(path):
    with open(path, encoding="utf-8") as f:
        return f.read()


def imports(text):
    """(module path, imported name) of each use line."""
    for m in re.finditer(r"^(?:ghost |pub )?use ([\w.·'-]+?)\.\{([^}]*)\};?|^(?:ghost |pub )?use ([\w.·'-]+)\.([\w'-]+)(?: as [\w'-]+)?;?$", text, re.M):
        if m.group(1):
            for item in m.group(2).split(","):
                yield m.group(1), item.split(" as ")[0].strip()
        else:
            yield m.group(3), m.group(4)


def main():
    root = os.getcwd()
    own = set(os.listdir(os.path.join(root, "crates")))
    antt = list(files(root, ".antt"))
    texts = {p: read(p) for p in antt + list(files(root, ".rt"))}
    fields, camel = set(), set()
    for p in antt:
        for m in DEFINED.finditer(texts[p]):
            name = m.group(1)
            if LOWER_CAMEL.fullmatch(name) or name.startswith("getD"):
                camel.add(name)
        if not is_answer(p):
            for m in re.finditer(r"^  +(?:pub )?([a-z][\w'-]*-[\w'-]*) :", texts[p], re.M):
                fields.add(m.group(1))
    for p in texts:
        if p.endswith(".rt"):
            camel |= set(re.findall(r"ghost ([a-z]+[A-Z]\w*)[:= ]", texts[p]))
    failed = False
    for p, text in texts.items():
        foreign, generated, imported = set(), set(), set()
        for module, name in imports(text):
            mine = re.match(r"Rattle\.(\w+)\.", module + ".")
            if not (mine and mine.group(1) in own):
                foreign.add(name)
            elif module.endswith((".Goals", ".Given")):
                generated.add(name)
            else:
                imported.add(name)
        if is_answer(p):
            generated |= set(re.findall(r"^(?:abbrev )?(?:pub )?([\w'-]+) *: *goal\.", text, re.M))
        taken = {}

        def swap(m, line, start):
            name = m.group(0)
            before = line[:start]
            if name in foreign or name in generated:
                return name
            if before.endswith("."):
                holder = re.search(r"([\w'·-]+)\.$", before)
                head = re.search(r"([A-Za-z][\w']*)(?:\.[\w'-]+)*\.$", before)
                if line.lstrip().startswith(("use ", "ghost use ", "pub use ")):
                    pass
                elif LOWER_CAMEL.fullmatch(name):
                    if name not in camel:
                        return name
                elif is_answer(p):
                    if name not in fields or (holder and GENERATED.match(holder.group(1))):
                        return name
            elif LOWER_CAMEL.fullmatch(name) and name not in camel:
                return name
            elif is_answer(p) and name not in imported and re.match(r"(?:then|else|in|loop|returns|if|overflow|invariant|decreases)-", name):
                return name
            new = respelled(name)
            taken.setdefault(new, set()).add(name)
            return new

        out = []
        for line in text.split("\n"):
            comment = re.match(r"^\s*(?:--|//)", line)
            if not comment and not re.match(r"\s*(?:pub )?(?:mod|use) \w[\w.]*;$", line):
                line = re.sub(LOWER_CAMEL, lambda m: swap(m, line, m.start()), line)
                if p.endswith(".antt") or re.search(r"ghost|requires|ensures|^\s+[^;]*$", line):
                    line = re.sub(DASHED, lambda m: swap(m, line, m.start()), line)
            out.append(line)
        new_text = "\n".join(out)
        for new, old in taken.items():
            if len(old) > 1 or new in foreign:
                print(f"{p}: {sorted(old)} and {new} fall together", file=sys.stderr)
                failed = True
        if new_text != text:
            texts[p] = new_text
            with open(p, "w", encoding="utf-8") as f:
                f.write(new_text)
    return 1 if failed else 0


if __name__ == "__main__":
    raise SystemExit(main())
