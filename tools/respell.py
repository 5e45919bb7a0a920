#!/usr/bin/env python3
"""Brings the repository's own names to the spelling of Rattle's library: words in snake case, types in camel case, no dash in a lemma's name.

usage: python3 tools/respell.py            at the top of the checkout, once, right after the kit's own port.py

What it turns: definitions, lemmas, record fields and constructors of crates/*/specs/*.antt and crates/*/proofs/*.antt, where they stand, where
they are imported, and in the clauses, comments and must-fail edits that cite them; the pages' names in backticks; and the crate hex, which is
intel_hex from now on, since the kit has a library hex. Functions, types and constants of src/, strings, inputs and outputs keep their names.
A lemma that would get its function's name ends in _lem. D0, D1, Q0, Q1, N and C stay: the rules' names of the fields of a call's words.
"""

import glob
import os
import re
import subprocess
from collections import defaultdict

WORD = re.compile(r"(?<![\w'₀-₉-])([A-Za-z_][\w'₀-₉-]*)")
SIGNATURE = re.compile(r"^\s*(?:pub |abbrev |unfoldable |mutual )*(?:record |data |module )?([A-Za-z_][\w'₀-₉-]*)((?:\s+[({].*?)?)(?:\s+:\s|\s*$)")
# Names of no signature on one line, and those whose case does not show their kind.
FURTHER = {
    "object-cases": "object_cases",
    "directoryAt": "directory_at",
    "M-clear": "m_clear",
    "M-parts": "m_parts",
    "in-it": "in_it",
    "one-root": "single_root",
    "Kept-rights": "KeptRights",
    "getD-zeros": "get_or_zeros",
}
# A name of one file, and of those that import it from there.
OF_A_FILE = {
    "crates/audit/proofs/Order.antt": {"Asked": "asked_in_order"},
    "crates/intel_hex/proofs/Filling.antt": {"Upto": "given_up_to"},
    "crates/apart/proofs/Example.antt": {"Left": "left_at"},
    # these have their function's name as it is written from now on
    "crates/intel_hex/proofs/LineLaws.antt": {"line_step": "line_step_lem"},
    "crates/judging/proofs/Numbered.antt": {"no_call": "no_call_lem"},
    "crates/passed/proofs/Arguments.antt": {"is_free": "is_free_lem"},
}
TIGHT = "proofs/Tight.antt"


def snake(name):
    return re.sub(r"(?<=[a-z0-9])(?=[A-Z])", "_", name.replace("-", "_")).lower()


def to_turn(name):
    if name[0].isupper() or name[0] == "_":
        return False
    return "-" in name or re.search(r"[a-z0-9][A-Z]", name) is not None


def read(path):
    with open(path, encoding="utf-8") as f:
        return f.read()


def write(path, text):
    with open(path, "w", encoding="utf-8") as f:
        f.write(text)


def shared():
    return sorted(glob.glob("crates/*/specs/*.antt") + glob.glob("crates/*/proofs/*.antt"))


def code_of(text):
    return "\n".join(it for it in text.split("\n") if not it.lstrip().startswith("--"))


def defined(path):
    return {m[1] for it in code_of(read(path)).split("\n") for m in [SIGNATURE.match(it)] if m}


def imports(text):
    """Each module from which a file imports by names, with these names."""
    for m in re.finditer(r"(?m)^\s*(?:ghost |pub )*use ([^\s{;]+?)\.\{([^}]*)\}", text):
        yield m[1], [it.strip().split(" as ")[0].strip() for it in m[2].split(",")]


def module_of(path):
    parts = path.split("/")
    return "Rattle." + ".".join([parts[1], parts[2], parts[3][: -len(".antt")]])


def maps():
    """The new name of each old one; that in a file Tight.antt; and the names of one file, by its module."""
    where = defaultdict(set)
    for path in shared():
        for name in defined(path):
            where[name].add(path)
    names = {it: snake(it) for it in where if to_turn(it)}
    by_new = defaultdict(set)
    for old, new in names.items():
        by_new[new].add(old)
    tight = dict(names)
    for new, olds in by_new.items():
        if len(olds) > 1:
            for old in olds:
                if "-" in old and any(not it.endswith(TIGHT) for it in where[old]):
                    names[old] = new + "_lem"
    for old, new in FURTHER.items():
        names[old] = tight[old] = new
    return names, tight, {module_of(path): turned for path, turned in OF_A_FILE.items()}


def outside(text, own):
    """The names that a file imports from elsewhere: they stay."""
    found = set()
    for module, names in imports(text):
        parts = module.split(".")
        if not (parts[0] == "Rattle" and len(parts) > 1 and parts[1] in own):
            found |= set(names)
    return found


def turned(text, names):
    return WORD.sub(lambda m: names.get(m[1], m[1]), text)


def in_comment(text, names):
    """In prose only names in backticks, and words that no prose has."""
    text = re.sub(r"`[^`\n]*`", lambda m: turned(m[0], names), text)
    return WORD.sub(lambda m: names.get(m[1], m[1]) if "-" not in m[1] and re.search(r"[a-z0-9][A-Z]", m[1]) else m[1], text)


def antt_line(line, names):
    bare = line.lstrip()
    if bare.startswith("-- "):
        return in_comment(line, names)
    code, dash, comment = line.partition(" -- ")
    return turned(code, names) + dash + in_comment(comment, names)


def rust_line(line, names):
    """The code of a line, with its strings and its comment as they are."""
    parts = re.split(r'("(?:\\.|[^"\\])*"|//.*$)', line)
    for i, part in enumerate(parts):
        if i % 2 == 0:
            parts[i] = turned(part, names)
        elif part.startswith("//"):
            parts[i] = in_comment(part, names)
    return "".join(parts)


def in_scope(path, text, own, names, tight, of_a_file):
    """The names to turn in an .antt or .rt file."""
    here = dict(tight if path.endswith(TIGHT) else names)
    for it in outside(text, own):
        here.pop(it, None)
    module = module_of(path) if path in set(shared()) else ""
    here.update(of_a_file.get(module, {}))
    for at, imported in imports(text):
        here.update({old: new for old, new in of_a_file.get(at, {}).items() if old in imported})
    if path.endswith("/Proof.antt"):
        # its own names are those of the goals; what it imports, and what follows a dot, is turned
        imported = {it for at, them in imports(text) for it in them}
        local = defined(path) - imported
        return {old: new for old, new in here.items() if old in imported}, {old: new for old, new in here.items() if old not in local or old in imported}
    return here, here


def turn_file(path, own, names, tight, of_a_file):
    text = read(path)
    bare, dotted = in_scope(path, text, own, names, tight, of_a_file)
    if path.endswith(".rt"):
        new = "\n".join(rust_line(it, bare) for it in text.split("\n"))
    elif bare is dotted:
        new = "\n".join(antt_line(it, bare) for it in text.split("\n"))
    else:
        new = "\n".join(
            re.sub(r"(\.?)" + WORD.pattern, lambda m: m[1] + (dotted if m[1] else bare).get(m[2], m[2]), it) for it in text.split("\n")
        )
    if path.endswith(TIGHT):
        new = ended_in_contracts(new)
    if new != text:
        write(path, new)


def ended_in_contracts(text):
    """What a contract says of the end stands with the contract: Rattle.NAME.specs.contracts."""
    m = re.search(r"(?m)^use Rattle\.(\w+)\.proofs as (\w+)$", text)
    if not m:
        return text
    text = re.sub(rf"(?<![\w.]){m[2]}\.([a-z_0-9.]+)\.ended\b", r"contracts.\1.ended", text)
    return text.replace(m[0], f"{m[0]}\nuse Rattle.{m[1]}.specs.contracts as contracts")


def with_known(text, names, known):
    """The names of a text that the kit's port.py did not read: those that it respelled elsewhere are turned here too."""
    here = dict(names)
    for m in WORD.finditer(text):
        if m[1] not in here and to_turn(m[1]) and snake(m[1]) in known:
            here[m[1]] = snake(m[1])
    return here


def turn_edit(path, own, names, tight, of_a_file, known):
    text = read(path)
    file = re.search(r"(?m)^file: (\S+)", text)
    target = os.path.join(os.path.dirname(os.path.dirname(path)), file[1]) if file else ""
    here = dict(tight if target.endswith(TIGHT) else names)
    if target in set(shared()):
        here.update(of_a_file.get(module_of(target), {}))
    here = with_known(text, here, known)
    lines = []
    for line in text.split("\n"):
        head = re.match(r"(old|new): ", line)
        if head:
            rest = line[len(head[0]) :]
            line = head[0] + (rust_line(rest, here) if target.endswith(".rt") else antt_line(rest, here))
        lines.append(line)
    write(path, "\n".join(lines))


def turn_page(path, names, known):
    text = read(path)
    here = with_known(text, names, known)
    write(path, re.sub(r"`[^`\n]*`", lambda m: turned(m[0], here), text))


def rename_hex():
    subprocess.run(["git", "mv", "crates/hex", "crates/intel_hex"], check=True)
    for path in sorted(glob.glob("crates/**/*", recursive=True)) + ["crates.txt"]:
        if not path.endswith((".rt", ".antt", ".edit", "crates.txt")) or "/out/" in path:
            continue
        text = read(path)
        if path == "crates.txt":
            new = re.sub(r"(?m)(?<=[ \n:])hex(?=[ \n:])", "intel_hex", text)
        else:
            new = re.sub(r"Rattle([.·])hex(?=[.·])", r"Rattle\1intel_hex", text)
            new = re.sub(r"\b(use |crate )hex(?=::|$)", r"\1intel_hex", new)
        if new != text:
            write(path, new)


def auto_tactic():
    for root in sorted(glob.glob("crates/*/src/lib.rt") + glob.glob("crates/*/src/main.rt")):
        text = read(root)
        if "#![tactic(auto)]" in text:
            continue
        lines = text.split("\n")
        k = 0
        while lines[k].startswith("//"):
            k += 1
        write(root, "\n".join(lines[:k] + ["#![tactic(auto)]", ""] + lines[k:]))


def main():
    rename_hex()
    auto_tactic()
    own = {os.path.basename(it) for it in glob.glob("crates/*")}
    names, tight, of_a_file = maps()
    files = sorted(it for it in glob.glob("crates/**/*", recursive=True) if it.endswith((".rt", ".antt")) and "/out/" not in it)
    for path in files:
        turn_file(path, own, names, tight, of_a_file)
    known = {name for path in shared() for name in defined(path)}
    for path in sorted(glob.glob("crates/*/must-fail/*.edit")):
        turn_edit(path, own, names, tight, of_a_file, known)
    for path in ["README.md"] + sorted(glob.glob("docs/**/*.md", recursive=True)):
        turn_page(path, names, known)
    print(f"respell: {len(names)} names")


main()
