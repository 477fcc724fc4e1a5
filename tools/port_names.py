#!/usr/bin/env python3
"""Brings the names of this repository's own definitions and lemmas to snake case, once, right after the kit's port.py.

usage: python3 tools/port_names.py [--check]      at the top of the repository

A name that a file of specs/ or proofs/ declares and that has a dash or a capital inside (`markStart`, `first-case`) gets underscores
(`mark_start`, `first_case`), wherever it stands: in the .antt files, in the clauses of the .rt files, and between backquotes in comments.
Where a lemma would then have the name of a definition it gets `_lem` behind it. Functions of src/, names of types, modules and crates,
strings, and names that a file takes from a library keep their spelling. With --check nothing is written. The list of what was renamed is
printed, old and new.
"""
import collections
import os
import re
import sys

TOKEN = re.compile(r"[^\s(){}\[\].;,@\"«»:`]+")
DECLARED = re.compile(r"(?m)^[ ]*(?:(?:pub|abbrev|unfoldable|instance|opaque)\s+)*([^\s(){}\[\].;,]+)(?: \{[^{}\n]*\})* :(?=\s|$)")
# The proof of one function: its own labels are the kit's.
OF_A_FUNCTION = re.compile(r"/proofs/.*(Proof|Answers|Invariants)\.antt$")
USE = re.compile(r"\buse ([^\s;{]+?)\.?\{([^}]*)\}")
STRING = re.compile(r'"[^"\n]*"')
# Lemmas that have, in snake case already, the name that a definition of the same file comes to.
BEFORE = {
    "crates/buchi/proofs/RuleRuns.antt": {"is_state": "is_state_lem"},
    "crates/minimality/proofs/Blocks.antt": {"kept_test": "kept_test_lem", "same_test": "same_test_lem"},
}
# Fields and definitions, which would be misnamed by `_lem`.
GIVEN = {
    "by-letter": "by_letters",
    "first-letter": "of_first_letter",
    "first-table": "first_is_table",
    "in-set": "is_in_set",
    "is-final": "ends_final",
    "is-mark": "is_of_marks",
    "is-marked": "has_mark",
    "is-product": "is_of_product",
    "is-value": "has_value",
    "mark-cycle": "marked_cycle",
    "mark-start": "marked_start",
    "no-grade": "without_grade",
    "scratch-left": "scratch_at_exit",
    "second-base": "second_in_base",
    "second-table": "second_is_table",
    "start-element": "element_of_start",
    "weak-until": "weak_until_law",
    "with-since": "has_since",
    "value-at": "value_coded",
}
# Labels that the kit makes, in files where they stand beside names that are spelled like them.
LABELS = {"loop-test"}


def is_odd(name):
    return bool("-" in name and re.search(r"[A-Za-z]", name) or re.match(r"[a-z]\w*[a-z0-9][A-Z]", name))


def in_snake_case(name):
    return re.sub(r"(?<=[a-z0-9])[A-Z]", lambda m: "_" + m[0].lower(), name).replace("-", "_")


def files():
    for folder, folders, names in os.walk("crates"):
        folders[:] = sorted(f for f in folders if f != "out")
        for name in sorted(names):
            if name.endswith((".antt", ".rt")):
                yield os.path.join(folder, name)


def comment_at(line, path):
    """Where the comment of a line begins, or its end."""
    mark = r"(^|\s)--\s" if path.endswith(".antt") else r"(^|\s)//"
    found = re.search(mark, line + " ")
    return found.start() if found else len(line)


def code_of(text, path):
    return "\n".join(line[: comment_at(line, path)] for line in text.split("\n"))


def main():
    texts = {path: open(path, encoding="utf-8").read() for path in files()}
    declared = set()
    local = collections.defaultdict(set)
    for path, text in texts.items():
        if path.endswith(".antt"):
            found = set(DECLARED.findall(code_of(text, path)))
            if OF_A_FUNCTION.search(path):
                signed = re.findall(r"(?m)^(?:(?:pub|abbrev|unfoldable)\s+)*(\S+) : (?!tie\.|statement)", code_of(text, path))
                local[path] = {it for it in signed if is_odd(it)}
            else:
                declared |= found
    odd = {it for it in declared if is_odd(it)} - LABELS
    table = {it: in_snake_case(it) for it in odd}
    # A lemma gives way to a definition: dashes to capitals, and to what is in snake case already.
    together = collections.Counter(table.values())
    for old, new in list(table.items()):
        if "-" in old and (together[new] > 1 or new in declared):
            table[old] = GIVEN.get(old, new + "_lem")
    clash = [it for it, n in collections.Counter(table.values()).items() if n > 1]
    if clash:
        print("names that fall together:", clash)
    changed = 0
    for path, text in texts.items():
        own = dict(table)
        own.update({it: in_snake_case(it) for it in local[path] if it not in own})
        # What a file takes from a library of the kit keeps its name there.
        for module, names in USE.findall(code_of(text, path)):
            parts = module.split(".")
            if not (parts[0] == "Rattle" and len(parts) > 1 and os.path.isdir(os.path.join("crates", parts[1]))):
                for name in TOKEN.findall(names):
                    own.pop(name, None)
        before = BEFORE.get(path, {})

        def turned(found):
            name = found[0]
            name = before.get(name, name)
            return own.get(name, name)

        lines = []
        for line in text.split("\n"):
            at = comment_at(line, path)
            code, comment = line[:at], line[at:]
            if path.endswith(".rt"):
                pieces, end = [], 0
                for string in STRING.finditer(code):
                    pieces += [TOKEN.sub(turned, code[end : string.start()]), string[0]]
                    end = string.end()
                code = "".join(pieces) + TOKEN.sub(turned, code[end:])
            else:
                code = TOKEN.sub(turned, code)
            comment = re.sub(r"`([^`]+)`", lambda m: "`" + TOKEN.sub(turned, m[1]) + "`", comment)
            lines.append(code + comment)
        new = "\n".join(lines)
        if new != text:
            changed += 1
            if "--check" not in sys.argv:
                with open(path, "w", encoding="utf-8") as f:
                    f.write(new)
    for old in sorted(table):
        print(f"{old}\t{table[old]}")
    print(f"port_names: {len(table)} names, {changed} files", file=sys.stderr)


main()
