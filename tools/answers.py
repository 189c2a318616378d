#!/usr/bin/env python3
"""Turns the proofs that name the steps of a function by their order into answers that name them by the code.

usage: python3 tools/answers.py NAMES CRATE..    at the top of the repository

NAMES/CRATE/names.json is what `rattle check --generated NAMES/CRATE --old-names` wrote of the crate. Each
proofs/F/Proof.antt of the crate that hands its parts to the kit becomes F/Invariants.antt and F/Answers.antt. What the
script can't place is said on a line that begins `left:`.
"""
import json
import os
import re
import sys

NAME = r"[A-Za-z0-9_'\u2080-\u209c\u0370-\u03ff\u2100-\u214f\-]+"


def norm(n):
    n = n.replace("_", "-").lower()
    n = re.sub(r"^(overflow|nonzero|in-bounds|no-overflow)-", "", n)
    return n


class Function:
    def __init__(self, crate, folder, names):
        self.crate, self.folder, self.names = crate, folder, names
        # place -> (parent, old step, new step), by the places' old names
        self.places = {}
        self.new_place = {}
        # place -> what the steps of the arm that it is in are called there: (old step, old fields) -> new fields
        self.arms = {}
        for entry, arm in zip(names["places"], names["arms"]):
            if arm:
                label, _, fields = arm
                self.arms[entry[0]] = [(f[1], f[2], [label, f[0]]) for f in fields]
        for entry, new in zip(names["places"], names["places_by_name"]):
            place, parent, step = entry[0], entry[1], entry[2]
            self.places[place] = (parent, step[0], step[1])
            self.new_place[place] = new
        self.callee = {e[0]: e[3] for e in names["places"]}
        self.params = names["params"]
        # with a slice among what it works on, a function's places have no names that a file can write
        self.is_view = any("slice_known" in p for p in self.places)
        self.needs = [tuple(n) for n in names["needs"]]
        self.asked = [tuple(n)[0] for n in names["asked_at"]]
        self.said = []

    def left(self, what):
        self.said.append("left: " + what)

    def look(self, what):
        self.said.append("look: " + what)

    def need(self, old):
        """The goal's new name and the old name of its place."""
        hits = [i for i, n in enumerate(self.needs) if n[0] == old]
        if not hits:
            hits = [i for i, n in enumerate(self.needs) if norm(n[0]) == norm(old)]
        if not hits:
            hits = [i for i, n in enumerate(self.needs) if norm(n[0]) == norm(old.replace("_lem", ""))]
        if len(hits) != 1:
            self.left(f"goal {old}: {len(hits)} fit")
            if not hits:
                return None, None
        return self.needs[hits[0]][1], self.asked[hits[0]]

    def place(self, old):
        for p in self.places:
            if p == old or norm(p) == norm(old):
                return p
        self.left(f"place {old}")
        return None

    def above(self, place):
        """The place and those before it, nearest first."""
        out = []
        while place is not None:
            out.append(place)
            place = self.places[place][0]
        return out

    def path(self, place, fields, base=None):
        """The fields after the variable, and the place where they end if that is a place."""
        ups = 0
        f = list(fields)
        while f and f[0] == "before":
            ups += 1
            f.pop(0)
        line = self.above(place)
        at = min(ups, len(line) - 1)
        if not f:
            if ups > at:
                self.look(f"{ups} steps back of {at} from {place}")
            return None, line[at]
        head = f[0]
        if head in ("args", "ranges", "lifetimes", "fresh"):
            return f, None
        if head in ("well-formed", "well_formed", "good"):
            return ["well_formed"] + f[1:], None
        if head in ("requires", "pre"):
            return ["requires"] + f[1:], None
        h = norm(head[:-4] if head.endswith("_lem") else head)
        if ups <= at and norm(self.places[line[at]][1]) == h:
            return self.at_step(line[at], f), None
        # the steps between may be others than they were: the nearest step of that name
        whole = self.above(base) if base is not None else line
        start = whole.index(line[0]) if line[0] in whole else 0
        want = start + ups
        hits = [i for i, p in enumerate(whole) if norm(self.places[p][1]) == h]
        if not hits:
            bare = re.sub(r"(?<=\D)\d+$", "", h)
            hits = [i for i, p in enumerate(whole) if re.sub(r"(?<=\D)\d+$", "", norm(self.places[p][1])) == bare]
        if not hits:
            return None, None
        best = min(hits, key=lambda i: (abs(i - want), i))
        if len(hits) > 1:
            self.look(f"{head}, {ups} back from {place}: one of {[self.places[whole[i]][2] for i in hits]}")
        return self.at_step(whole[best], f), None

    def at_step(self, place, f):
        """The fields of a place's own step by their new names."""
        for old, fields, new in self.arms.get(place, []):
            if norm(old) == norm(self.places[place][1]) and fields == f[1 : 1 + len(fields)] and not new[1].endswith("-own"):
                return new + f[1 + len(fields):]
        return [self.places[place][2]] + self.left_of(place, f[1:])

    def left_of(self, place, rest):
        """What a call at the place left of an argument, by the argument's name."""
        own = self.params.get(self.callee.get(place) or "", [])
        if rest and rest[0] in ("new", "auto", "last", "kept") and len(rest) > 1 and rest[1] in ("0", "1"):
            k = 0
            tail = rest[1:]
            while tail and tail[0] == "1":
                tail.pop(0)
                k += 1
            if tail and tail[0] == "0" and k < len(own):
                rest = [{"last": "new", "kept": "auto"}.get(rest[0], rest[0]), own[k]] + tail[1:]
            else:
                self.left(f"{'.'.join(rest)} of {own}")
        return rest

    def called(self, place, fields, base):
        """The place of the call whose step the path names, if it ends there."""
        new, at = self.path(place, fields, base)
        if new is None or at is not None or len(new) != 1:
            return None
        hits = [p for p in self.above(base if base is not None else place) if self.places[p][2] == new[0] and self.callee.get(p)]
        return hits[0] if hits else None


def code_and_note(line):
    m = re.search(r"(?:^|(?<=\s))--(?=\s|-|$)", line)
    return (line[: m.start()], line[m.start():]) if m else (line, "")


def turn_paths(fn, text, contexts):
    """Rewrites the paths of the variables in `contexts`, which maps a name to (base name, place)."""
    contexts = dict(contexts)
    calls = {}
    out = []
    pos = 0
    token = re.compile(
        r"(?P<lam>λ\s+(?P<vs>(?:" + NAME + r"\s*)+)\.(?=\s))"
        r"|(?P<let>let\s+(?P<v>" + NAME + r")\s*=\s*(?P<p>" + NAME + r"(?:\.before)*)\s+in(?=\s))"
        r"|(?P<path>(?<![\w.'\-])(?P<b>" + NAME + r")(?P<f>(?:\." + NAME + r")+))"
        r"|(?P<bare>(?<![\w.'\-\u2080-\u209c])" + NAME + r"(?![\w'\-]))"
    )
    while True:
        m = token.search(text, pos)
        if not m:
            out.append(text[pos:])
            break
        out.append(text[pos : m.start()])
        pos = m.end()
        if m.group("lam"):
            out.append(m.group(0))
            for w in m.group("vs").split():
                if w in contexts and contexts[w][0] != w:
                    del contexts[w]
            continue
        if m.group("let"):
            p = m.group("p").split(".")
            if p[0] in contexts:
                base, place = contexts[p[0]]
                fields, at = fn.path(place, p[1:], root_of(contexts, base))
                if at is not None:
                    contexts[m.group("v")] = (base, at)
                    while text[pos : pos + 1].isspace():
                        pos += 1
                    continue
            out.append(text[m.start() : m.start() + 3])
            pos = m.start() + 3
            continue
        if m.group("path"):
            b = m.group("b")
            fields = m.group("f")[1:].split(".")
            before = re.search(r"let\s+(" + NAME + r")\s*=\s*$", text[: m.start()])
            if before and b in contexts and re.match(r"\s+in\s", text[m.end():]):
                call = fn.called(contexts[b][1], fields, root_of(contexts, contexts[b][0]))
                if call:
                    calls[before.group(1)] = call
            if b in calls:
                out.append(b + "." + ".".join(fn.left_of(calls[b], fields)))
                continue
            if b not in contexts:
                out.append(m.group(0))
                continue
            base, place = contexts[b]
            new, at = fn.path(place, fields, root_of(contexts, base))
            if at is not None:
                out.append(base + "".join("." + x for x in chain(fn, base, at, contexts)))
            elif new is None:
                fn.left(f"path {m.group(0)} at {place}")
                out.append(m.group(0))
            else:
                out.append(base + "." + ".".join(new))
            continue
        w = m.group("bare")
        if w in contexts and contexts[w][0] != w:
            # a place that a `let` named, handed on whole
            base, place = contexts[w]
            out.append(base + "".join("." + x for x in chain(fn, base, place, contexts)))
        else:
            out.append(w)
    return "".join(out)


def root_of(contexts, base):
    return contexts[base][1] if base in contexts else None


def chain(fn, base, place, contexts):
    """As many `before` as lead from the base variable's place to the place."""
    line = fn.above(contexts[base][1])
    return ["before"] * line.index(place) if place in line else []


ATOM = r"(?:" + NAME + r"(?:\." + NAME + r")*|\((?:[^()]|\([^()]*\))*\))"


def inlined(fn, inline, answer):
    """A helper over a place that has no name is written out where it is cited, over the place there."""
    kind, new, text = answer
    for _ in range(4):
        turned = False
        for name, (params, body, unf, ctx, sig) in inline.items():
            pattern = r"(?<![\w.'\-])" + re.escape(name) + r"((?:\s+" + ATOM + r"){" + str(len(params)) + r"})(?!\s*[:=])"
            m = re.search(pattern, text)
            if not m:
                continue
            args = re.findall(ATOM, m.group(1))
            value, type_ = body, sig
            rest, over = [], []
            for p, a in zip(params, args):
                if p in ctx:
                    a = re.match(r"\(?(" + NAME + r")", a).group(1)
                    word = r"(?<![\w.'\-])" + re.escape(p) + r"(?![\w'\-])"
                    value = re.sub(word, lambda mm: a, value)
                    type_ = re.sub(word, lambda mm: a, type_)
                else:
                    rest.append(p)
                    over.append(a)
            if rest:
                value = "λ " + " ".join(rest) + ". " + value
            if "\n" in value:
                value = "\n    " + value
            it = f"the-{name}"
            told = f"(let {it} : {type_} = {value} in {it}{''.join(' ' + a for a in over)})"
            text = text[: m.start()] + told + text[m.end():]
            if unf:
                had = re.search(r"(?m)^unfolding (.*)$", text)
                if had:
                    text = text.replace(had.group(0), "unfolding " + " ".join(dict.fromkeys((had.group(1) + " " + unf).split())), 1)
                else:
                    first, rest = text.split("\n" + new + " ", 1) if new and "\n" + new + " " in text else (text, None)
                    if rest is not None:
                        text = first + "\nunfolding " + unf + "\n" + new + " " + rest
            turned = True
        if not turned:
            break
    return kind, new, text


def blocks_of(text):
    """Top-level blocks: comments and what follows them, split at blank lines before a line that begins at the margin."""
    out, now = [], []
    for line in text.split("\n"):
        if now and not now[-1].strip() and line and not line[0].isspace():
            out.append("\n".join(now).rstrip())
            now = []
        now.append(line)
    out.append("\n".join(now).rstrip())
    return [b for b in out if b.strip()]


def first_code(block):
    for line in block.split("\n"):
        if line.strip() and not line.startswith("--"):
            return line
    return ""


def spec_args(block):
    m = re.search(r"tie\.spec\b", block)
    if not m:
        return []
    rest = block[m.end():]
    # the argument list ends where the parenthesis that opens before tie.spec closes
    args, depth, now = [], 0, ""
    for ch in rest:
        if ch == "(":
            depth += 1
        if ch == ")":
            if depth == 0:
                break
            depth -= 1
        if ch.isspace() and depth == 0:
            if now:
                args.append(now)
                now = ""
            continue
        now += ch
    if now:
        args.append(now)
    return args


def turn(crate, folder, text, names):
    fn = Function(crate, folder, names)
    module = f"Rattle.{crate}.proofs." + folder.replace("/", ".")
    blocks = blocks_of(text)
    head = blocks[0]
    lines = head.split("\n")
    notes = [l for l in lines if l.startswith("--")]
    uses, now = [], None
    for l in lines:
        if l.startswith("use ") or l.startswith("open "):
            uses.append(l)
        elif l[:1].isspace() and uses:
            uses[-1] += "\n" + l
    uses = [u for u in uses if not re.search(r"\.(Statement\.\{statement\}|Tie as tie)$", u)]
    loops = []
    for (old, new), live in [tuple(x) for x in names["loops"]]:
        loops.append((old, new, live))
    invariants, answers, helpers = [], [], []
    given = set()
    labels = {}
    inline = {}
    for b in blocks[1:]:
        first = first_code(b)
        note = [l for l in b.split("\n") if l.startswith("--")]
        m = re.match(r"(?:pub\s+)?(?:abbrev\s+)?(?:pub\s+)?(invariant|decreases)-(loop[\w-]*|\S+)\s*:\s*tie\.", first)
        if m:
            kind, old = m.group(1), m.group(2)
            i = [k for k, l in enumerate(loops) if l[0] == old or norm(l[0]) == norm(old)]
            if not i:
                if kind == "decreases" and old in ("rec", "recursion", "self"):
                    fn.left(f"measure {old}")
                fn.left(f"loop {old}")
                continue
            k = i[0]
            code = [l for l in b.split("\n") if not l.startswith("--")]
            body = "\n".join(code)
            body = body[body.index("\n") + 1 :] if "\n" in body else ""
            pre = ""
            if body.startswith("unfolding"):
                pre, body = body.split("\n", 1)
                pre += "\n"
            eq = re.match(r"(\S+)\s*((?:\s*(?:" + NAME + r"|_|\{[^}]*\}))*)\s*=\s*", body)
            if not eq:
                fn.left(f"clause of {kind}-{old}")
                continue
            params = eq.group(2).split()
            value = body[eq.end():]
            changed = names["changed"][k] if k < len(names["changed"]) else [False] * len(loops[k][2])
            # first every variable as the loop began, then those that a turn changes
            want = [f"l.initial.{v}" if ch else f"l.{v}" for v, ch in zip(loops[k][2], changed)]
            want += [f"l.{v}" for v, ch in zip(loops[k][2], changed) if ch]
            if len(want) != len(params):
                fn.left(f"{kind}-{old}: {len(params)} parameters for {want}")
            to = {p: w for p, w in zip(params, want) if p != "_"}
            value = re.sub(
                r"(?<![\w.'\-\u2080-\u209c])(" + NAME + r")(?![\w'\-])",
                lambda mm: to.get(mm.group(1), mm.group(1)) if not mm.group(1)[0].isdigit() else mm.group(1),
                value,
            )
            # a path p.f has its head turned by the same rule, since the head stands before the dot
            new = f"{kind}-{loops[k][1]}"
            sep = "\n    " if value.startswith("\n") else ""
            invariants.append("\n".join(note + [f"abbrev pub {new} : goal.{new}", pre + f"{new} l = {value}"]).rstrip())
            continue
        m = re.match(r"(?:pub\s+)?(\S+)\s*:\s*tie\.Need-(\S+)", first)
        if m:
            label, old = m.group(1), m.group(2)
            new, place = fn.need(old)
            if new is None:
                continue
            code = "\n".join(l for l in b.split("\n") if not l.startswith("--") or True)
            labels[label] = new
            rest = b.split("\n")
            i = next(j for j, l in enumerate(rest) if l == first)
            body = rest[i + 1 :]
            # a signature may go on over further lines
            while body and not re.match(r"(unfolding\b|" + re.escape(label) + r"(?![\w'-]))", body[0]):
                body.pop(0)
            unf = []
            while body and body[0].startswith("unfolding"):
                unf.append(body.pop(0))
                while body and body[0][:1].isspace():
                    unf[-1] += "\n" + body.pop(0)
            text_ = "\n".join(body)
            mm = re.match(re.escape(label) + r"\s+(" + NAME + r")(?:\s+κs)?((?:\s+(?:" + NAME + r"|\([^)=]*\)))*)\s*=", text_)
            if not mm:
                fn.left(f"clause of {label}")
                continue
            var = mm.group(1)
            more = " ".join(mm.group(2).split())
            more = " " + more if more else ""
            value = text_[mm.end():]
            if "κs" in value:
                fn.left(f"κs in {label}")
            value = turn_paths(fn, value, {var: (var, place)})
            answers.append(("need", new, "\n".join(note + [f"pub {new} : goal.{new}"] + unf + [f"{new} {var}{more} ={value}"])))
            given.add(new)
            continue
        if re.match(r"pub\s+\S+[-_]spec\s*:", first) or re.match(r"\S+[-_]spec\s*:\s*\{M", first):
            args = spec_args(b)
            take = args[len(args) - len(fn.needs):] if len(args) >= len(fn.needs) else []
            if len(take) != len(fn.needs):
                fn.left(f"tie.spec has {len(args)} arguments for {len(fn.needs)} goals and {len(loops)} loops")
            else:
                for a, (old, new), place in zip(take, fn.needs, fn.asked):
                    lam = re.match(r"\(λ\s+(" + NAME + r"|_)(?:\s+(?:κs|_))?\.\s*(.*)\)$", a, re.S)
                    if lam:
                        if re.sub(r"\s+", " ", lam.group(2)).strip() in ("search rules", "search needs"):
                            continue
                        if new in given:
                            continue
                        v = lam.group(1)
                        value = turn_paths(fn, lam.group(2), {v: (v, place)})
                        answers.append(("need", new, f"pub {new} : goal.{new}\n{new} {v} = {value}"))
                        given.add(new)
                    elif a in labels and labels[a] != new and new not in given:
                        answers.append(("need", new, f"pub {new} : goal.{new}\n{new} = {labels[a]}"))
                        given.add(new)
            continue
        # a helper: its contexts are the parameters whose types are places
        ctx = {}
        for mm in re.finditer(r"\((" + NAME + r")\s*:\s*tie\.(" + NAME + r")((?:\s+(?:invariant|decreases)-" + NAME + r")*)\)", b):
            p = fn.place(mm.group(2))
            if p:
                ctx[mm.group(1)] = (mm.group(1), p)

        mm = re.match(r"(?:abbrev\s+|pub\s+)*(\S+)\s*:\s*tie\.(" + NAME + r")((?:\s+(?:invariant|decreases)-" + NAME + r")*)\s*→", first)
        if mm:
            clause = re.search(r"(?m)^" + re.escape(mm.group(1)) + r"\s+(" + NAME + r")", b)
            p = fn.place(mm.group(2))
            if clause and p:
                ctx[clause.group(1)] = (clause.group(1), p)

        def place_type(mm):
            p = fn.place(mm.group(1))
            return f"goal.{fn.new_place[p]}" if p else mm.group(0)

        b2 = turn_paths(fn, b, ctx)
        b2 = re.sub(r"tie\.(" + NAME + r")((?:\s+(?:invariant|decreases)-" + NAME + r")*)", place_type, b2)
        named = re.search(r"(?m)^(?:abbrev\s+|pub\s+)*(\S+)\s*:", b2)
        if fn.is_view and ctx and named:
            name = named.group(1)
            clause = re.search(r"(?m)^" + re.escape(name) + r"((?:\s+(?:" + NAME + r"|\([^)=]*\)))+)\s*=", b2)
            count = len(re.findall(r"(?m)^" + re.escape(name) + r"\s", b2))
            if clause and count == 2:
                unf = re.findall(r"(?m)^unfolding\s+(.*)$", b2)
                sig = b2[named.end(): clause.start()]
                sig = re.sub(r"(?m)^unfolding .*$", "", sig)
                sig = re.sub(r"\(" + NAME + r"\s*:\s*goal\." + NAME + r"\)\s*(→\s*)?", "", sig, count=len(ctx))
                sig = re.sub(r"(?<![\w(])goal\." + NAME + r"\s*→\s*", "", sig)
                inline[name] = (clause.group(1).split(), b2[clause.end():].strip(), " ".join(unf), set(ctx), " ".join(sig.split()))
                continue
            fn.left(f"helper {name} names a place")
        answers.append(("helper", None, b2))
    answers = [inlined(fn, inline, a) for a in answers] if inline else answers
    goal = f"use {module}.Goals as goal"
    given_use = f"use {module}.Given as goal"
    files = {}
    if invariants:
        files["Invariants.antt"] = "\n".join(notes + uses + [given_use]) + "\n\n" + "\n\n".join(invariants) + "\n"
    if any(k == "need" for k, _, _ in answers):
        # an answer may cite another answer by its old name
        cites = {label: new for label, new in labels.items() if label != new}
        cite = re.compile(r"(?<![\w.'\-])(" + "|".join(map(re.escape, sorted(cites, key=len, reverse=True))) + r")(?![\w'\-])(?=\s+\(?c\b)")
        out = []
        for kind, new, t in answers:
            if cites and kind == "helper":
                t = cite.sub(lambda mm: cites[mm.group(1)], t)
            elif cites:
                head = re.search(r"(?m)^" + re.escape(new) + r"(?:\s+" + NAME + r")?[^=\n]*=", t)
                at = head.end() if head else len(t)
                t = t[:at] + cite.sub(lambda mm: cites[mm.group(1)], t[at:])
            out.append(t)
        joined = "\n\n".join(out)
        files["Answers.antt"] = "\n".join(notes + uses + [goal]) + "\n\n" + joined + "\n"
    return files, fn.said


def main(argv):
    where, crates = argv[0], argv[1:]
    for crate in crates:
        with open(os.path.join(where, crate, "names.json"), encoding="utf-8") as f:
            names = json.load(f)
        base = os.path.join("crates", crate, "proofs")
        for folder, dirs, fs in sorted(os.walk(base)):
            if "Proof.antt" not in fs:
                continue
            path = os.path.join(folder, "Proof.antt")
            text = open(path, encoding="utf-8").read()
            rel = os.path.relpath(folder, base)
            key = f"Rattle-{crate}-proofs." + rel.replace("/", ".") + ".Lts"
            if "Tie as tie" not in text:
                print(f"left: {path}: walks the code by hand")
                continue
            if key not in names:
                print(f"left: {path}: no names for it")
                continue
            files, said = turn(crate, rel, text, names[key])
            for s in said:
                print(f"{s[:5]} {path}: {s[6:]}")
            os.remove(path)
            for n, t in files.items():
                with open(os.path.join(folder, n), "w", encoding="utf-8") as f:
                    f.write(t)
            if not files:
                os.rmdir(folder) if not os.listdir(folder) else None


if __name__ == "__main__":
    main(sys.argv[1:])
