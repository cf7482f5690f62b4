#!/usr/bin/env python3
"""Brings the repository's own definitions and lemmas to Rattle's spelling, once, after the toolchain's port.py: run at the top.

Facts and types keep their capitals; every other definition, lemma, record field and ghost member of specs/ and proofs/ is in snake case,
and a dash is left to the names that Rattle makes. A lemma that would have its definition's name ends in `_lem`. What src/ names, and
strings, stay. Running it again changes nothing.
"""
import collections
import glob
import os
import re
import sys

# What makes up one word of antt: a path's parts are words of their own.
WORD = re.compile(r"[^\s(){}\[\],;:.«»`\"]+")
SIGNATURE = re.compile(r"^\s*(?:(?:abbrev|unfoldable|pub)\s+)*([^\s(){}\[\],;.:=|]+)\s+:\s+(.*)")
GOAL = re.compile(r"^goal\.")
RECORD = re.compile(r"^\s*(?:(?:abbrev|unfoldable|pub)\s+)*(?:record|data|ruleset)\s+(?:pub\s+)?([^\s(){}\[\],;.:=|]+)")
FIELD = re.compile(r"^\s+(?:pub\s+)?([^\s(){}\[\],;.:=|]+)\s+:\s")
IMPORT = re.compile(r"\buse\s+Rattle\.([A-Za-z0-9_]+)\.(specs|proofs)\.([^{\s;]*?)\.?\{([^}]*)\}")
GHOST = re.compile(r"^\s*(?:pub\s+)?ghost\s+([A-Za-z_][A-Za-z0-9_-]*)\s*[:=]\s*\{")
# A name behind the whole path of one of the repository's own modules.
QUALIFIED = re.compile(r"Rattle\.[a-z_]+\.(?:specs|proofs)\.(?:\w+\.)*$")

# A fact with a dash.
BY_HAND = {"If-found": "IfFound"}
# A lemma that port.py gave the name that its definition has now.
LEMMAS_OF = {
    "crates/sheet/proofs/Keyed.antt": {"has_one": "has_one_lem"},
    "crates/agenda/proofs/SumLaws.antt": {"count_fits": "count_fits_lem"},
    "crates/fields/proofs/Verdicts.antt": {"good_length": "good_length_lem"},
}


def is_camel(name):
    return name[0].islower() and re.search(r"[a-z0-9][A-Z]", name) is not None


def snake(name):
    if is_camel(name):
        name = re.sub(r"(?<=[a-z0-9])(?=[A-Z])", "_", name).lower()
    return name.replace("-", "_")


def antt_files():
    return sorted(f for part in ("specs", "proofs") for f in glob.glob(f"crates/*/{part}/**/*.antt", recursive=True))


def declared(path):
    """The names that a file declares, goals aside; and its records' fields."""
    names, fields, goals, in_record = set(), set(), set(), False
    for line in open(path, encoding="utf-8"):
        if line.lstrip().startswith("--"):
            continue
        record = RECORD.match(line)
        if record:
            names.add(record.group(1))
            in_record = re.match(r"^\s*(?:(?:abbrev|unfoldable|pub)\s+)*record\b", line) is not None
            continue
        if in_record and (line.strip() == "" or not line.startswith(" ")):
            in_record = False
        if in_record and FIELD.match(line):
            fields.add(FIELD.match(line).group(1))
            continue
        signature = SIGNATURE.match(line)
        if signature:
            (goals if GOAL.match(signature.group(2)) else names).add(signature.group(1))
    return names - goals, fields


def new_names(crates):
    names, fields = set(), set()
    for path in antt_files():
        own, of_records = declared(path)
        names |= own
        fields |= of_records
    members = set()
    for path in glob.glob("crates/*/src/**/*.rt", recursive=True):
        for line in open(path, encoding="utf-8"):
            member = GHOST.match(line)
            if member:
                members.add(member.group(1))
    everywhere = {n: snake(n) for n in fields | members if is_camel(n) or "-" in n}
    spelled = {n: snake(n) for n in names if n[0].islower() and (is_camel(n) or "-" in n)}
    spelled.update({n: BY_HAND[n] for n in names if n in BY_HAND})
    together = collections.defaultdict(list)
    for old, new in spelled.items():
        together[new].append(old)
    for new, olds in together.items():
        lemmas = [o for o in olds if "-" in o]
        if len(olds) > 1 and len(lemmas) == len(olds) - 1:
            for old in lemmas:
                spelled[old] = new + "_lem"
        elif len(olds) > 1:
            sys.exit(f"error: {olds} fall together as {new}: name them apart by hand")
        elif "-" in olds[0] and new in names:
            spelled[olds[0]] = new + "_lem"
    return spelled, everywhere


def in_scope(path, text, crates, spelled, everywhere):
    own = declared(path)[0] if path.endswith(".antt") else set()
    scope = {n for n in own if n in spelled}
    for crate, _, _, listed in IMPORT.findall(text):
        if crate in crates:
            for item in listed.split(","):
                name = item.split(" as ")[0].strip()
                if name in spelled:
                    scope.add(name)
    renames = {n: spelled[n] for n in scope}
    if renames:
        renames.update(LEMMAS_OF.get(path, {}))
    return renames


def respell(text, renames, everywhere, spelled):
    text = text.replace("bytes_eq as sameBytes", "bytes_eq")
    text = re.sub(r"(?<![^\s(\[{,])sameBytes\b", "bytes_eq", text)
    out, last = [], 0
    for word in WORD.finditer(text):
        name = word.group(0)
        before = text[word.start() - 1] if word.start() else " "
        after_space = before in " \t\n({[,;«`:"
        if name in everywhere:
            new = everywhere[name]
        elif name in renames and after_space:
            new = renames[name]
        elif before == "." and name in spelled and QUALIFIED.search(text[: word.start()]):
            new = spelled[name]
        else:
            continue
        out.append(text[last : word.start()])
        out.append(new)
        last = word.end()
    out.append(text[last:])
    return "".join(out)


def main():
    os.chdir(os.path.join(os.path.dirname(os.path.abspath(__file__)), "..") if len(sys.argv) < 2 else sys.argv[1])
    crates = {os.path.basename(os.path.dirname(p)) for p in glob.glob("crates/*/")}
    spelled, everywhere = new_names(crates)
    changed = 0
    for path in antt_files() + sorted(glob.glob("crates/*/src/**/*.rt", recursive=True)):
        text = open(path, encoding="utf-8").read()
        new = respell(text, in_scope(path, text, crates, spelled, everywhere), everywhere, spelled)
        if new != text:
            open(path, "w", encoding="utf-8").write(new)
            changed += 1
    # The pages name definitions in backticks.
    for path in sorted(glob.glob("docs/*.md")) + ["README.md"]:
        text = open(path, encoding="utf-8").read()
        known = {**{o: n for o, n in spelled.items() if is_camel(o)}, **everywhere}
        new = re.sub(r"`([^`\s]+)`", lambda m: f"`{known.get(m.group(1), m.group(1))}`", text)
        if new != text:
            open(path, "w", encoding="utf-8").write(new)
            changed += 1
    print(f"respelled {len(spelled) + len(everywhere)} names in {changed} files")


main()
