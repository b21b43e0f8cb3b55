#!/usr/bin/env python3
"""Counts the repository's lines, crate by crate in the order of crates.txt: python3 bench/lines.py.

Blank lines and comments count nowhere. Code is what src/ has besides clauses, ghost lines and tests. A clause is one
requires or ensures, however many lines it takes. Definitions are the lines of specs/, proof those of proofs/, and
tests those of each module under #[cfg(test)], in a file of its own or not.
"""
import os
import re
import sys

TOP = os.path.join(os.path.dirname(os.path.realpath(__file__)), "..")
COLUMNS = ["Code", "Clauses", "Definitions", "Proof", "Tests", "Must-fail edits"]
# What may hold a brace or a word that is none of the text's own.
QUOTED = re.compile(r'"(?:\\.|[^"\\])*"|\'(?:\\.|[^\'\\])\'')
CLAUSE = re.compile(r"\b(?:requires|ensures)\b\*?(?:\s+\w+)?\s*\{")
GHOST = re.compile(r"(?:pub(?:\([^)]*\))? )?(?:requires|ensures|ghost)\b")


def crates():
    with open(f"{TOP}/crates.txt", encoding="utf-8") as file:
        rows = [line.partition("#")[0].partition(":")[0].split() for line in file]
    return [words[0] for words in rows if words]


def files(folder, ending):
    for at, below, names in os.walk(folder):
        below.sort()
        yield from (f"{at}/{name}" for name in sorted(names) if name.endswith(ending))


def text_of(file):
    with open(file, encoding="utf-8") as it:
        return it.read()


def plain_lines(file, comment):
    """The lines of a file that are neither blank nor comments, with their indents."""
    text = re.sub(r"\{-.*?-\}", "", text_of(file), flags=re.S) if comment == "--" else text_of(file)
    return [it for it in text.split("\n") if it.strip() and not it.lstrip().startswith(comment)]


def without_tests(lines):
    """The lines outside test modules, which rt fmt ends by a brace under their first word, and the number of the others."""
    kept, number = [], 0
    while number < len(lines):
        line = lines[number]
        if line.strip() != "#[cfg(test)]":
            kept.append(line)
        elif not lines[number + 1].rstrip().endswith(";"):
            number = lines.index(line[: len(line) - len(line.lstrip())] + "}", number)
        else:
            number += 1
        number += 1
    return kept, len(lines) - len(kept)


def code_and_clauses(lines):
    """The lines of code, and the clauses."""
    code = clauses = depth = 0
    in_ghost = False
    for line in lines:
        line = QUOTED.sub("0", line).partition("//")[0].strip()
        clauses += len(CLAUSE.findall(line))
        in_ghost = in_ghost or bool(GHOST.match(line))
        code += not in_ghost
        if in_ghost:
            depth += line.count("{") - line.count("}")
            in_ghost = depth > 0 or not line.endswith(("}", ";", ","))
    return code, clauses


def test_modules(folder):
    """The names of the modules under #[cfg(test)]; a module of one of them lies in a folder of its name."""
    names = set()
    for file in files(f"{folder}/src", ".rt"):
        names.update(re.findall(r"#\[cfg\(test\)\]\s*(?:pub )?mod (\w+);", text_of(file)))
    return names


def counts(crate):
    folder = f"{TOP}/crates/{crate}"
    code = clauses = tests = 0
    for_tests = test_modules(folder)
    for file in files(f"{folder}/src", ".rt"):
        lines = plain_lines(file, "//")
        modules = os.path.relpath(file, f"{folder}/src").removesuffix(".rt").split("/")
        if for_tests.intersection(modules):
            tests += len(lines)
            continue
        lines, of_tests = without_tests(lines)
        found = code_and_clauses(lines)
        code, clauses, tests = code + found[0], clauses + found[1], tests + of_tests
    definitions = sum(len(plain_lines(it, "--")) for it in files(f"{folder}/specs", ".antt"))
    proof = sum(len(plain_lines(it, "--")) for it in files(f"{folder}/proofs", ".antt"))
    edits = sum(1 for _ in files(f"{folder}/must-fail", ".edit"))
    return [code, clauses, definitions, proof, tests, edits]


def main():
    rows = {crate: counts(crate) for crate in crates()}
    rows["Total"] = [sum(column) for column in zip(*rows.values())] or [0] * len(COLUMNS)
    print("| " + " | ".join(["Crate", *COLUMNS]) + " |")
    print("|---" * (len(COLUMNS) + 1) + "|")
    for name, numbers in rows.items():
        print("| " + " | ".join([name, *(f"{it:,}" for it in numbers)]) + " |")


if __name__ == "__main__":
    sys.exit(main())
