#!/usr/bin/env python3
"""Adds the clauses that a check asks for ("write the clauses") to the files that it names.

usage: python3 tools/clauses.py LOG     in the crate's folder, over the log of its check
"""
import re
import sys


def main(log):
    lines = open(log, encoding="utf-8").read().split("\n")
    asked = {}
    i = 0
    while i < len(lines):
        m = re.match(r"(?:so far: )?(\./[^:]+\.antt):(\d+):(\d+): error: `([^`]+)`: write the clause", lines[i])
        i += 1
        if not m:
            continue
        path, at, name = m.group(1), int(m.group(2)), m.group(4)
        new = []
        one = re.search(r"write the clause `(.*)`\s*$", lines[i - 1])
        if one:
            new.append(one.group(1))
        while i < len(lines) and re.match(r"(?:so far: )?  ", lines[i]):
            l = re.sub(r"^so far: ", "", lines[i])
            w = l.strip()
            if re.match(r"[^\s(]+ .* = .*elim|" + re.escape(name.split(".")[-1]) + r"\s.*=", w):
                new.append(w)
            i += 1
        if new:
            asked.setdefault(path, {})[(at, name)] = new
        else:
            print(f"left: {path}:{at}: {name}: no clauses read")
    for path, them in asked.items():
        text = open(path, encoding="utf-8").read().split("\n")
        for (at, name), new in sorted(them.items(), reverse=True):
            short = new[0].split()[0]
            # the clauses of the name begin at the line that the check names or below it
            k = at - 1
            last = None
            indent = None
            j = k
            while j < len(text):
                m = re.match(r"(\s*)(?:(?:pub|abbrev|unfoldable)\s+)*" + re.escape(short) + r"(?=[\s:])", text[j])
                if m and (indent is None or len(m.group(1)) == indent):
                    indent = len(m.group(1))
                    last = j
                elif last is not None:
                    l = text[j]
                    if re.match(r"\s*[\])}]", l):
                        last = j
                        j += 1
                        continue
                    if l.strip() and len(l) - len(l.lstrip()) <= indent and not re.match(r"\s*(--|unfolding\b|where\b)", l):
                        break
                    if l.strip():
                        if len(l) - len(l.lstrip()) > indent or re.match(r"\s*unfolding\b", l):
                            last = j
                    elif j + 1 < len(text) and text[j + 1].strip() and len(text[j + 1]) - len(text[j + 1].lstrip()) <= indent:
                        if not re.match(r"\s*" + re.escape(short) + r"\s", text[j + 1]):
                            break
                j += 1
            if last is None:
                print(f"left: {path}:{at}: {name}: not found")
                continue
            text[last + 1 : last + 1] = [" " * indent + c for c in new]
        open(path, "w", encoding="utf-8").write("\n".join(text))
    print(f"clauses: {sum(len(n) for t in asked.values() for n in t.values())} in {len(asked)} files")


if __name__ == "__main__":
    main(sys.argv[1])
