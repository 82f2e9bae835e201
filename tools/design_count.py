#!/usr/bin/env python3
"""Counts the places of older forms in crates/*/src: python3 tools/design_count.py [COMMIT] [--show POINT]

Without a commit the files as they stand are read. A count is of lines that match, or of functions, and every line it
counts can be printed with --show; what a place is, and whether it is one at all, is said in docs/DESIGN-PASS.md.
"""
import collections
import re
import subprocess
import sys


def sources(commit):
    """The source files as (path, text)."""
    names = ["git", "ls-files"] if commit is None else ["git", "ls-tree", "-r", "--name-only", commit]
    for path in subprocess.run(names, capture_output=True, text=True, check=True).stdout.split():
        if re.fullmatch(r"crates/\w+/(src|proofs|specs)/.*\.(rt|antt)", path):
            if commit is None:
                yield path, open(path, encoding="utf-8").read()
            else:
                show = ["git", "show", f"{commit}:{path}"]
                yield path, subprocess.run(show, capture_output=True, text=True, check=True).stdout


def lines_like(files, pattern):
    """The lines of code that match, with their places."""
    found = []
    for path, text in files:
        for at, line in enumerate(text.splitlines(), 1):
            if re.search(pattern, line) and not line.lstrip().startswith("//"):
                found.append(f"{path}:{at}: {line.strip()}")
    return found


def parameters(head):
    """How many parameters stand in the first pair of parentheses behind the name."""
    at = re.search(r"fn \w+(<.*?>)?\(", head, re.S).end() - 1
    depth, count, last = 0, 0, ""
    for char in head[at:]:
        depth += (char in "([{<") - (char in ")]}>")
        if depth == 0:
            return count + bool(last.strip())
        if char == "," and depth == 1:
            count += bool(last.strip())
            last = ""
        elif (char, depth) != ("(", 1):
            last += char
    return count


def functions(files):
    """Each function as (path, name, how many parameters, clauses)."""
    for path, text in files:
        for match in re.finditer(r"^[ ]*(?:pub(?:\(\w+\))? )?(?:const )?fn (\w+)", text, re.M):
            head = text[match.start():]
            end = re.search(r"\{\n|;\n", head)
            head = head[: end.start()] if end else head
            clauses = [line.strip() for line in head.splitlines() if re.match(r"\s*(requires|ensures)\b", line)]
            yield path, match.group(1), parameters(head), clauses


def many_parameters(files):
    return [f"{path}: {name}: {count} parameters" for path, name, count, _ in functions(files) if count >= 7]


def repeated_clauses(files):
    seen = collections.defaultdict(set)
    for path, name, _, clauses in functions(files):
        for clause in clauses:
            body = clause[clause.find("{"):]
            seen[(path.split("/")[1], body)].add(f"{path}:{name}")
    return [f"{crate}: {len(where)}: {body}" for (crate, body), where in sorted(seen.items()) if len(where) >= 3]


def counts(files):
    rust = [(path, text) for path, text in files if path.endswith(".rt")]
    code = [(path, text) for path, text in rust if not path.endswith("tests.rt")]
    proofs = [(path, text) for path, text in files if "/proofs/" in path]
    lines = lambda pattern: lines_like(code, pattern)
    return {
        "1a numbers for kinds and refusals": lines(
            r"\b(number|code|kind|method|shortfall|letter|tag): u8\b|-> u8\b|Result<u8,|Result<\(u8,|-> \(u8,"),
        "1b flags in a struct": lines(r"^\s*(pub(\(crate\))? )?\w+: bool,"),
        "1c own enums": lines(r"^\s*(pub(\(crate\))? )?enum \w+"),
        "1d answers taken apart and put together by hand": lines(
            r"\bOk\((\w+)\) => Ok\(\1\)|\bErr\((\w+)\) => Err\(|\bErr\(_\) => (false|None)|\bSome\((\w+)\) => \*?\w+,$"),
        "3 loops over a range, while, loop": lines_like(rust, r"\bfor \w+ in .*\.\.|\bwhile |\bloop \{"),
        "4a impls of conversion, comparison and printing": lines(
            r"^impl.* (From|TryFrom|FromStr|PartialEq|Eq|PartialOrd|Ord|Clone|Default|Debug|Display|fmt::Display)\b.* for "),
        "4b functions that convert or name": lines(
            r"\bfn (from_\w+|named|letter|word|number|\w+_of)\((self|&self|letter|number|word|terms|buyers|call)\b"),
        "4c constants that fill": lines(r"^\s*(pub(\(crate\))? )?(const|static) (NO\w*|NOTHING|NOBODY|UNUSED)\b"),
        "5a functions of seven parameters or more": many_parameters(rust),
        "5b clauses in three or more contracts of a crate": repeated_clauses(code),
        "6a buffers of a fixed length": lines(r"\[[^\]]+; (\d+|[A-Z]+)\]"),
        "6b counts beside them": lines(r"^\s*(pub(\(crate\))? )?(count|len|standing): usize"),
        "7 boxed closures, dyn, tables of functions": lines(r"\bdyn\b|\bfn\(|impl Fn|: Fn(Once|Mut)?\("),
        "8 files of answers and invariants": [path for path, _ in proofs if path.endswith(("Answers.antt", "Invariants.antt"))],
        "8 lines of proofs": [f"{path}:{at}" for path, text in proofs for at, _ in enumerate(text.splitlines(), 1)],
    }


def main():
    arguments = sys.argv[1:]
    show = arguments[arguments.index("--show") + 1] if "--show" in arguments else None
    if show is not None:
        arguments = arguments[: arguments.index("--show")]
    for name, found in counts(list(sources(arguments[0] if arguments else None))).items():
        print(f"{len(found):6}  {name}")
        if show is not None and name.startswith(show):
            print("\n".join(found))


main()
