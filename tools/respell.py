#!/usr/bin/env python3
"""tools/respell.py: brings the repository's own definitions and lemmas to one spelling, snake case (types and modules stay in camel case).

usage: python3 tools/respell.py        at the top of the repository, once, after port.py

What it renames: in specs/ and proofs/ every name of the repository's own that has a dash or an inner capital; in src/ the same names in clauses and comments; in
README and docs/ and in the comments of edits the same names where they stand between backquotes. Names of libraries (those that a file imports from
them), names that the check makes (`tie.X`, `invariant-X`, `decreases-X`), functions of src/, exported names and strings stay.

Names that would fall together in one file get another name first: APART says which, where, and PLACED says it of one file.
"""

import glob
import os
import re
import sys

ID = re.compile(r"[^\W\d][\w'′₀-₉]*(?:-[\w'′₀-₉]+)*")

# Both spellings stand in one file: the definition takes the plain name, the lemma, field or local beside it another. And a fact, in camel case.
APART = {
    "all-of": "all_of_lem",
    "e-most": "e_limit",
    "b-most": "b_limit",
    "n-most": "n_limit",
    "s-most": "s_limit",
    "rise-most": "rise_limit",
    "key-room": "room_for_keys",
    "segment-room": "room_for_segments",
    "notAbove": "is_not_above",
    "notBelow": "is_not_below",
    "past-run": "past_run_at",
    "put-slots": "put_slots_lem",
    "rows-of": "rows_of_lem",
    "buffers-by": "buffers_by_lem",
    "keys-by": "keys_by_lem",
    "table-by": "table_by_lem",
    "windowIn": "WindowIn",
}

# The same where the name had its plain spelling already. Below: a name that is also a tactic's (first_of), and two rulesets that are no types.
PLACED = {
    "crates/scan/proofs/Eight.antt": {"none_of": "none_found"},
    "crates/theory_shown/proofs/Found.antt": {"run_in": "run_in_lem"},
    "crates/theory_kept/proofs/Outcome.antt": {"run_in": "run_in_lem"},
    "crates/theory_shown/proofs/Views.antt": {"first_of": "first_of_seg"},
    "crates/theory_kept/proofs/Kept.antt": {"first_of": "first_of_seg"},
}
EVERYWHERE = {"first_of": "first_passing", "Above-cases": "above_cases", "List-cases": "list_cases"}


def listed():
    with open("crates.txt", encoding="utf-8") as f:
        return {l.split(":")[0].split()[0] for l in f if ":" in l and not l.startswith("#")}


def antt_files():
    return sorted(f for part in ("specs", "proofs") for f in glob.glob(f"crates/*/{part}/**/*.antt", recursive=True) if "/out/" not in f)


def wants(name):
    return "-" in name or (name[0].islower() and re.search("[A-Z]", name))


def snake(name):
    if name in APART:
        return APART[name]
    if name[0].islower():
        name = re.sub(r"(?<=[a-z0-9])([A-Z])", r"_\1", name).lower()
    return name.replace("-", "_")


def imports(text, crates):
    """The names that a file imports from libraries."""
    names = set()
    for m in re.finditer(r"^use (\S+?)\.\{([^}]*)\}", text, re.M):
        own = re.match(r"Rattle\.(\w+)\.", m.group(1) + ".")
        if not (own and own.group(1) in crates):
            names |= {n.strip().split(" as ")[-1] for n in m.group(2).split(",")}
            names |= {n.strip().split(" as ")[0] for n in m.group(2).split(",")}
    return names


def made(name):
    return re.match(r"(invariant|decreases)-loop", name)


def halves(line, mark):
    """A line's code and its comment."""
    at = line.find(mark)
    return (line, "") if at < 0 else (line[:at], line[at:])


def renamed(path, name, before, kept, own):
    if name in kept or before.endswith("tie.") or made(name) or (name not in own and not (wants(name) and snake(name) in own)):
        return name
    return PLACED.get(path, {}).get(name) or EVERYWHERE.get(name) or (snake(name) if wants(name) else name)


def turn(path, text, kept, own, mark, clauses):
    out = []
    for line in text.split("\n"):
        code, comment = halves(line, mark)
        if not (clauses and re.search(r'"', code)):
            code = ID.sub(lambda m: renamed(path, m.group(0), code[: m.start()], kept, own), code)
        comment = ID.sub(lambda m: renamed(path, m.group(0), "", kept, own) if re.search("[A-Z]", m.group(0)) and m.group(0)[0].islower() else m.group(0), comment)
        comment = re.sub(r"`([^`]*)`", lambda m: "`" + ID.sub(lambda n: renamed(path, n.group(0), "", kept, own), m.group(1)) + "`", comment)
        out.append(code + comment)
    return "\n".join(out)


def main():
    crates = listed()
    texts = {}
    own = set(EVERYWHERE)
    for f in antt_files():
        with open(f, encoding="utf-8") as it:
            texts[f] = it.read()
        kept = imports(texts[f], crates)
        code = re.sub(r"--.*", "", texts[f])
        own |= {m.group(0) for m in ID.finditer(code) if m.group(0) not in kept}
    for f, t in texts.items():
        write(f, t, turn(f, t, imports(t, crates), own, "--", False))
    for f in sorted(glob.glob("crates/*/src/**/*.rt", recursive=True)):
        with open(f, encoding="utf-8") as it:
            t = it.read()
        write(f, t, turn(f, t, set(), own, "//", True))
    for f in ["README.md", *sorted(glob.glob("docs/*.md")), *sorted(glob.glob("crates/*/must-fail/*.edit"))]:
        with open(f, encoding="utf-8") as it:
            t = it.read()
        write(f, t, re.sub(r"`([^`\n]*)`", lambda m: "`" + ID.sub(lambda n: renamed(f, n.group(0), "", set(), own), m.group(1)) + "`", t))
    return 0


def write(path, old, new):
    if new != old:
        with open(path, "w", encoding="utf-8") as f:
            f.write(new)
        print(path)


if __name__ == "__main__":
    os.chdir(os.path.join(os.path.dirname(os.path.abspath(__file__)), ".."))
    sys.exit(main())
