#!/usr/bin/env python3
"""Brings the names that this repository declares in specs/ and in its lemma files to the spelling of the kit.

usage: python3 tools/rename.py      at the top of the repository, once, right after the kit's port.py

Words are in snake case: `unitsOf` becomes `units_of`, `LINE-FEED` becomes `line_feed` and `low-end` becomes `low_end`.
A dash stays where it joins two names, as in `fill_to-length`, that is where a part has an underscore or a capital, and
where the name without it is another definition's. Types, facts and modules keep their capitals. Functions of src/, names
that Rattle makes, strings and names of other libraries are left alone; of a comment only what stands in backticks turns.
"""
import collections
import os
import re

WORD = re.compile(r"[^\s(){}\[\],;.\"`@⌜⌝⟦⟧←]+")
DECL = re.compile(
    r"^\s*(?:(?:abbrev|unfoldable|mutual)\s+)*(?:pub\s+)?(?:(data|record|ruleset)\s+)?(?:pub\s+)?"
    r"([^\s:(){}.,;=\"]+)(?=\s*(?:[({:]|$))"
)

# A value that has the name of a field of the records beside it.
CHOSEN = {"leftOut": "left_out_pivot"}

# Lemmas that have the name that a definition gets: `_lem` is the kit's ending for such a lemma.
LEMMAS = {
    "run/proofs/ProposalLaws.antt": ["chosen_at"],
    "run/proofs/StepLaws.antt": ["free_step", "kept_by"],
    "sheet/proofs/ReadBackLaws.antt": ["is_digit"],
    "run/proofs/demand3/Iterate.antt": ["left_after"],
    "run/proofs/demand3/Demand.antt": ["none_open"],
    "yadzvego/proofs/CStateLaws.antt": ["numbers_fit"],
    "run/proofs/CallLaws.antt": ["point_at"],
}


def files(root, ends):
    for folder, dirs, names in os.walk(os.path.join(root, "crates")):
        dirs[:] = sorted(d for d in dirs if d not in ("out", "target", ".git"))
        for n in sorted(names):
            if n.endswith(ends):
                yield os.path.join(folder, n)


def of_a_function(path):
    """Whether the file is a function's proof, whose own names are the file's alone."""
    return os.path.basename(path) in ("Proof.antt", "Answers.antt", "Invariants.antt")


def snake(word):
    return re.sub(r"(?<=[a-z0-9])([A-Z])", lambda m: "_" + m.group(1).lower(), word)


def respell(name):
    if name in CHOSEN:
        return CHOSEN[name]
    if re.fullmatch(r"[A-Z][A-Z0-9]*(-[A-Z0-9]+)+", name):
        return name.replace("-", "_").lower()
    out = [p if p[:1].isupper() else snake(p) for p in name.split("-")]
    joins = len(out) > 1 and any("_" in p or p[:1].isupper() for p in out)
    return ("-" if joins else "_").join(out)


def code_of(line):
    """The line without its comment."""
    return re.split(r"(?:^|(?<=\s))--(?=\s|-|$)", line, maxsplit=1)[0]


def declared(root):
    names = collections.defaultdict(set)
    for path in files(root, ".antt"):
        if of_a_function(path):
            continue
        for line in open(path, encoding="utf-8"):
            line = code_of(line)
            if re.match(r"\s*(use |pub use |pub mod |mod |open |module |record \{)", line):
                continue
            m = DECL.match(line)
            if not m:
                continue
            head = re.split(r"(?:^|(?<=[\s)}])):(?=\s|$)", line, maxsplit=1)
            if len(head) < 2:
                # a signature whose arguments go on below, or a record's literal
                if "=" in line or m.group(2).startswith("record") or not re.match(r"\s*(abbrev|unfoldable|pub)\b", line):
                    continue
            elif "=" in head[0]:
                continue
            names[m.group(2)].add(path)
    return names


def table(root):
    names = declared(root)
    turn = {n: respell(n) for n in names if respell(n) != n}
    plain = {to for n, to in turn.items() if "-" not in n or n.isupper()}
    for n in [n for n in turn if "-" in n and not n.isupper()]:
        if turn[n] in plain or (turn[n] in names and n.replace("-", "_") == turn[n]):
            print(f"rename: `{n}` keeps its dash beside `{turn[n]}`")
            del turn[n]
    return turn


def imported(text):
    """The names that a file takes from libraries that are not the repository's."""
    out = set()
    for m in re.finditer(r"(?m)^\s*(?:pub |ghost )?use\s+([^\s{;]+)\.\{([^}]*)\}", text):
        own = m.group(1).startswith("Rattle.") and not re.match(r"Rattle\.(std|core|io|libc|os)\b", m.group(1))
        if not own:
            out |= {w.split(" as ")[0].strip() for w in m.group(2).split(",")}
    return out


def turned(text, turn, mark):
    theirs = imported(text)

    def word(m):
        w = m.group(0)
        before = m.string[max(0, m.start() - 4):m.start()]
        if w in theirs or before == "tie." or before.endswith("#"):
            return w
        return turn.get(w, w)

    lines = []
    for line in text.split("\n"):
        parts = re.split(r'("(?:[^"\\]|\\.)*")', line)
        cut = re.search(r"(?:^|(?<=\s))" + mark + r"(?=\s|-|$)", line)
        if cut:
            code, note = line[:cut.start()], line[cut.start():]
            note = re.sub(r"`([^`]*)`", lambda m: "`" + WORD.sub(word, m.group(1)) + "`", note)
        else:
            code, note = line, ""
        parts = re.split(r'("(?:[^"\\]|\\.)*")', code)
        lines.append("".join(p if p.startswith('"') else WORD.sub(word, p) for p in parts) + note)
    return "\n".join(lines)


def main(root):
    for end, names in LEMMAS.items():
        own = os.path.join(root, "crates", end)
        module = "Rattle." + end[: -len(".antt")].replace("/", ".")
        for path in files(root, ".antt"):
            text = open(path, encoding="utf-8").read()
            there = set(names)
            if path != own:
                uses = re.findall(re.escape(module) + r"\.\{([^}]*)\}", text)
                there &= {w.strip() for u in uses for w in u.split(",")}
            now = text
            for n in sorted(there):
                now = re.sub(r"(?<![\w.'-])" + n + r"(?![\w'-])", n + "_lem", now)
            if now != text:
                open(path, "w", encoding="utf-8").write(now)
    turn = table(root)
    changed = 0
    for path in files(root, (".antt", ".rt")):
        text = open(path, encoding="utf-8").read()
        now = turned(text, turn, "--" if path.endswith(".antt") else "//")
        if now != text:
            open(path, "w", encoding="utf-8").write(now)
            changed += 1
    print(f"rename: {len(turn)} names, {changed} files")
    return turn


if __name__ == "__main__":
    import json
    import sys

    turn = main(".")
    if len(sys.argv) > 1:
        with open(sys.argv[1], "w", encoding="utf-8") as f:
            json.dump(turn, f, indent=1, ensure_ascii=False)
