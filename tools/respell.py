#!/usr/bin/env python3
"""Brings the names that this repository declares in specs/ and proofs/ to one spelling: words in snake case.

    tools/respell.py        once, after the kit's port.py

A definition, lemma, field or constructor whose name begins with a small letter had capitals or dashes within it, as `placeOf` and
`sought-hit`; it becomes `place_of` and `sought_hit`. Types and modules stay, and so do Rattle's own names, functions of src/, and
strings. Names are read off the files, and where two would fall together the script stops and names them."""
import collections, pathlib, re, sys

ROOT = pathlib.Path(__file__).resolve().parent.parent
# lemmas whose names would fall together with a definition's: as in the library, the lemma gets `_lem`
LEMMAS = """same-list is-end bytes_back first_absent new_line held_in one_each all_new opened_in way-of write-entry desk-at place-good
list-good line-cells eight-back desk-good in-hall at-bench read-fields on-paper line-good good-list used-up sold-line""".split()
# a name that a definition binds for itself
BOUND = ["benchView"]
# a case of a record by kinds, and a definition of that kind elsewhere
SHARED = "join_customer join_bench open_line bench_authenticates desk_authenticates top_up slip_sound".split()
DECLARED = re.compile(
    r"^\s*(?:(?:pub|abbrev|unfoldable|opaque|pattern|data|record|ruleset)\s+)*([^\s(){}:;,.@\"]+)"
    r"((?:\s+[^\s(){}:;,]+|\s*[({][^:]*:[^)}]*[)}])*)\s*:(?=\s|$)"
)
NAME = re.compile(r"[^\s(){}\[\],;.`\"@]+")
ALIAS = re.compile(r"^\s*use \S+ as (\S+)$", re.M)


def snake(name):
    """The name's spelling as a word; a fact or a type that begins it keeps its capital."""
    if name in LEMMAS:
        return name.replace("-", "_") + "_lem"
    word = re.sub(r"(?<=[a-z0-9])([A-Z])", lambda found: "_" + found[1].lower(), name)
    return word.replace("-", "_")


def texts(pattern):
    return sorted(path for path in ROOT.glob(pattern) if "out" not in path.relative_to(ROOT).parts)


def is_own_proof(path):
    return path.name in ("Proof.antt", "Answers.antt", "Invariants.antt")


def declared():
    """Every name that a file of specs/ or of lemmas declares."""
    found = set()
    for path in texts("crates/*/specs/**/*.antt") + texts("crates/*/proofs/**/*.antt"):
        if is_own_proof(path):
            continue
        for line in path.read_text().splitlines():
            it = None if line.lstrip().startswith("--") else DECLARED.match(line)
            if it:
                found.add(it[1])
                if not re.search(r"[({]", it[2]):
                    found |= set(it[2].split())
    return found


def is_word(name):
    return name in LEMMAS or name[0].islower() and (re.search(r"[a-z0-9][A-Z]", name) or "-" in name.strip("-"))


def table():
    names = declared()
    new = {}
    for name in [*names, *BOUND]:
        parts = [part for part in name.split("◌") if part]
        for part in parts:
            if re.fullmatch(r"[\w'-]+", part) and is_word(part):
                new[part] = snake(part)
    taken = collections.defaultdict(set)
    for name in names | set(new):
        taken[new.get(name, name)].add(name)
    clash = {to: sorted(of) for to, of in taken.items() if len(of) > 1 and to not in SHARED}
    if clash:
        sys.exit(f"respell: these would fall together: {clash}")
    return new


def turned(text, new):
    return NAME.sub(lambda found: new.get(found[0], found[0]), text)


def in_antt(text, new):
    lines = []
    local = dict(new)
    for alias in ALIAS.findall(text):
        if is_word(alias):
            local[alias] = snake(alias)
    for line in text.split("\n"):
        code, dashes, comment = line.partition("--") if line.lstrip().startswith("--") or " -- " in line else (line, "", "")
        lines.append(turned(code, local) + dashes + quoted(comment, local))
    return "\n".join(lines)


def quoted(text, new):
    return re.sub(r"`[^`\n]+`", lambda found: turned(found[0], new), text)


def in_rt(text, new):
    lines = []
    for line in text.split("\n"):
        code, slashes, comment = line.partition("//")
        lines.append(turned(code, new) + slashes + quoted(comment, new))
    return "\n".join(lines)


def in_edit(text, new):
    return "\n".join(line if line.startswith("file: ") else quoted(line, new) if line.startswith("#") else turned(line, new) for line in text.split("\n"))


def main():
    new = table()
    for pattern, turn in [
        ("crates/*/specs/**/*.antt", in_antt),
        ("crates/*/proofs/**/*.antt", in_antt),
        ("crates/*/src/**/*.rt", in_rt),
        ("crates/*/must-fail/*.edit", in_edit),
        ("docs/*.md", quoted),
        ("*.md", quoted),
    ]:
        for path in texts(pattern):
            if path.name.startswith("PORT"):
                continue
            before = path.read_text()
            # outcomes has a function of the name
            own = {old: to for old, to in new.items() if old != "bytes_back" or "outcomes" not in path.parts}
            after = turn(before, own)
            if after != before:
                path.write_text(after)
    print(f"respell: {len(new)} names")


if __name__ == "__main__":
    main()
