#!/usr/bin/env python3
"""Respells the repository's own definitions and lemmas: functions, fields and lemmas in snake case, facts and records in
camel case. It looks at what specs/ and proofs/ declare, and leaves what Rattle names after the code (goals, steps) alone.

usage: python3 tools/spell_names.py [--list]      at the top, once, after port.py
"""

import os
import re
import sys

# Names that would fall together with another one, and what they are called instead.
CHOSEN = {
    "all_held": "all_held_found",
    "any_held": "any_held_found",
    "seen_of": "seen_of_stood",
    "is-at": "is_at_tells",
    "next-versions": "next_versions_kept",
    "seat-at": "seat_at_tool",
    "with-one": "with_one_field",
    "settles-all": "settles_all_made",
    "certifies-all": "certifies_all_made",
    "youngest-only": "youngest_only_breaks",
    "lowered-tread": "lowered_tread_breaks",
    "late-write": "late_write_breaks",
    "equal-values": "equal_values_break",
}

DECLARED = re.compile(
    r"^( *)((?:(?:pub|abbrev|unfoldable|record|data|mutual) +)*)([^\s:(){}λ.,;\[]+(?: +[^\s:(){}λ.,;\[]+)*?)"
    r"((?: +[({].*[)}])*) +:(?: +(.*))?$"
)
STD = re.compile(r"^(?:ghost )?use Rattle\.std\.[^{\n]*\{([^}]*)\}", re.M)
LEMMAS = re.compile(r"crates/\w+/proofs/\w+\.antt")


def texts(kinds):
    for folder, dirs, files in os.walk("crates"):
        dirs[:] = sorted(d for d in dirs if d != "out")
        for name in sorted(files):
            if name.endswith(kinds):
                yield os.path.join(folder, name)


def declared():
    names = {}
    for path in texts(".antt"):
        with open(path, encoding="utf-8") as file:
            for line in file:
                found = DECLARED.match(line)
                if not found or line.lstrip().startswith("--"):
                    continue
                words = found[3].split()
                if (found[5] or "").startswith("goal.") or words[0] in ("let", "use", "in", "module"):
                    continue
                for word in words:
                    names.setdefault(word, set()).add(path)
    return names


def is_old(name):
    """Whether no function of src/ can have this name."""
    return "-" in name or name.lower() != name


def snake(name):
    name = re.sub(r"(?<=[a-z0-9])([A-Z])", lambda m: "_" + m[1].lower(), name)
    return name.replace("-", "_")


def respelled(name):
    if name in CHOSEN:
        return CHOSEN[name]
    if name[0].isupper():
        return "".join(part[0].upper() + part[1:] for part in name.split("-"))
    return snake(name)


def main():
    names = declared()
    turned = {n: respelled(n) for n in names if respelled(n) != n}
    taken = {}
    for name in names:
        taken.setdefault(turned.get(name, name), []).append(name)
    fallen = {new: olds for new, olds in taken.items() if len(olds) > 1}
    if "--list" in sys.argv:
        for old in sorted(turned):
            print(old, turned[old])
        for new in sorted(fallen):
            print("together:", new, fallen[new], [sorted(names[o]) for o in fallen[new]])
        return
    if fallen:
        sys.exit("names fall together: " + ", ".join(sorted(fallen)))
    # A step of a proof, as c.find-item, is named after the code.
    word = re.compile(r"(?<![\w'·-])(?<!\bc\.)(" + "|".join(re.escape(n) for n in sorted(turned, key=len, reverse=True)) + r")(?![\w'·-])")
    for path in texts((".antt", ".rt", ".edit")):
        lemmas = LEMMAS.fullmatch(path)
        with open(path, encoding="utf-8") as file:
            text = file.read()
        std = {n.strip() for line in STD.findall(text) for n in line.split(",")}
        new = word.sub(lambda m: turned[m[1]] if (lemmas or is_old(m[1])) and m[1] not in std else m[1], text)
        if new != text:
            with open(path, "w", encoding="utf-8") as file:
                file.write(new)
    for path in ["README.md"] + [os.path.join("docs", n) for n in sorted(os.listdir("docs"))]:
        with open(path, encoding="utf-8") as file:
            text = file.read()
        new = re.sub(r"`[^`\n]+`", lambda m: word.sub(lambda w: turned[w[1]] if is_old(w[1]) else w[1], m[0]), text)
        if new != text:
            with open(path, "w", encoding="utf-8") as file:
                file.write(new)


main()
