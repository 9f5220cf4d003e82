#!/usr/bin/env python3
"""Turns the names that the prover makes, in the proofs that walk the code: goals, places, steps and their fields, as today's Rattle names them.

usage: python3 tools/turn_proofs.py CRATE LANDED [NAMES]      at the top of the repository; LANDED is a checkout of the commit before the move

The table of names is made by `rt check --generated NAMES --old-names` in the crate's folder. A goal is turned by its place in the file, since the files of LANDED
have the goals in the same order. A step can be named from any place behind it now, so that a walk back to it (`.before.before`) goes; where a helper takes a
place, the walk to that place stays.
"""
import json
import os
import re
import subprocess
import sys
import tempfile

NEED = re.compile(r"tie\.Need-([^\s)(]+)")
WORD = r"[A-Za-z_µμκ«»][\w'₀-₉«»-]*"
GENERAL = {"args": "args", "requires": "requires", "pre": "requires", "well-formed": "well_formed", "ranges": "ranges", "lifetimes": "lifetimes", "blocks": "blocks", "opens": "opens", "good": "well_formed"}


def norm(name):
    return name.replace("_", "-")


def table(crate, folder):
    subprocess.run(["rt", "check", "--generated", folder, "--old-names"], cwd=os.path.join("crates", crate), stdout=subprocess.DEVNULL, stderr=subprocess.DEVNULL)
    with open(os.path.join(folder, "names.json"), encoding="utf-8") as f:
        return json.load(f)


class Tree:
    def __init__(self, t):
        self.t = t
        self.parent, self.step, self.fields, self.arm, self.new, self.callee = {}, {}, {}, {}, {}, {}
        arms = t.get("arms") or [None] * len(t["places"])
        for p, new, arm in zip(t["places"], t["places_by_name"], arms):
            n = norm(p[0])
            self.parent[n] = norm(p[1]) if p[1] else None
            self.step[n] = (norm(p[2][0]), p[2][1])
            self.fields[n] = dict(p[4])
            self.arm[n] = arm
            self.new[n] = new
            self.callee[n] = t["params"].get(p[3]) if p[3] else None
        # a place behind an arm of a `match` may stand for several of the older ones
        self.up = dict(self.parent)
        for n, arm in self.arm.items():
            if arm:
                above = n
                for _ in range(arm[1]):
                    above = self.parent.get(above) if above else None
                self.up[n] = above

    def line(self, place):
        seen = 0
        while place is not None and place in self.parent and seen < 500:
            yield place
            place = self.parent[place]
            seen += 1

    def final(self, place):
        """The last of the places that an arm was: the others cannot be reached any more."""
        arm = self.arm.get(place)
        if arm:
            for n, p in self.parent.items():
                if p == place and self.arm.get(n) and self.arm[n][0] == arm[0] and self.arm[n][1] == arm[1] + 1:
                    return self.final(n)
        return place

    def distance(self, below, above):
        k, place = 0, below
        while place is not None and k < 500:
            if place == above:
                return k
            place = self.up.get(place)
            k += 1
        return None

    @staticmethod
    def by_name(rest, names):
        """A parameter that was named by its place, as `new.1.1.0`, by its name."""
        if not names or not rest or rest[0] not in ("new", "auto", "kept", "last"):
            return rest
        n = 1
        while n < len(rest) and rest[n] == "1":
            n += 1
        if n < len(rest) and rest[n] == "0" and n - 1 < len(names):
            word = {"kept": "auto", "last": "new"}.get(rest[0], rest[0])
            return [word, names[n - 1]] + rest[n + 1 :]
        return rest

    def found(self, place, step):
        for p in self.line(place):
            if self.step[p][0] == norm(step):
                return self.callee[p]
        return None

    def turned(self, place, comps):
        """The components behind the walk back: a step, its fields; or None."""
        s = norm(comps[0])
        if s in GENERAL:
            return [GENERAL[s]] + comps[1:]
        if s.startswith("told-"):
            return comps
        line = list(self.line(place))
        for p in line:
            arm = self.arm.get(p)
            if arm:
                for field, step, path in arm[2]:
                    if norm(step) == s and path and [norm(x) for x in comps[1 : 1 + len(path)]] == [norm(x) for x in path]:
                        return [arm[0], field] + comps[1 + len(path) :]
                for field, step, path in arm[2]:
                    if norm(step) == s and not path and len(comps) > 1:
                        return [arm[0], field] + comps[1:]
            if self.step[p][0] == s:
                new = self.step[p][1]
                rest = comps[1:]
                if rest and rest[0] in self.fields[p]:
                    rest = [self.fields[p][rest[0]]] + rest[1:]
                return [new] + self.by_name(rest, self.callee[p])
        return None


def declarations(text):
    """The text cut before each line that begins a declaration or a `use`, a comment or an empty line."""
    parts, now = [], []
    for line in text.split("\n"):
        if line and not line[0].isspace() and not line.startswith((")", "unfolding")):
            head = re.match(r"(?:abbrev |pub |unfoldable )*(" + WORD + r")\s*:", line)
            if head or line.startswith(("use ", "--", "module ")):
                parts.append(now)
                now = []
        now.append(line)
    parts.append(now)
    return ["\n".join(p) for p in parts if p]


class Turner:
    def __init__(self, t, name):
        self.tree = Tree(t)
        self.t = t
        self.name = name
        self.said = []
        self.helpers = {}  # name -> (parameters' places, result's place)
        self.places = {}  # abbrevs of places
        self.needs = {norm(old): (new, norm(at[0])) for (old, new), at in zip(t["needs"], t["asked_at"])}

    def place_of(self, text):
        m = re.search(r"tie\.((?:After|At|In|Then|Else|Case|Start|Untold|Join|Joined|Arm)[^\s)(]*)", text)
        if m and norm(m.group(1)) in self.tree.parent:
            return self.tree.final(norm(m.group(1)))
        w = text.strip().split(" ")[0].strip("()")
        return self.places.get(w)

    def types(self, text):
        def place(m):
            w = norm(m.group(1))
            return "tie." + self.tree.new[self.tree.final(w)] if w in self.tree.new else m.group(0)

        text = re.sub(r"tie\.((?:After|At|In|Then|Else|Case|Start|Untold|Join|Joined|Arm)[^\s)(]*)", place, text)
        for (old, new), _ in self.t["loops"]:
            for kind in ("invariant", "decreases"):
                text = re.sub(r"tie\." + kind + "-" + re.escape(old) + r"(?![\w'-])", f"tie.{kind}-{new}", text)
            text = re.sub(r"tie\.Left-" + re.escape(old) + r"(?![\w'-])", f"tie.Left-{new}", text)
        return text

    def signature(self, decl):
        """Of a helper: the names and places of its parameters, and its result's place."""
        m = re.match(r"(?:abbrev |pub |unfoldable )*(" + WORD + r")\s*:(.*?)(?=\n(?:unfolding|" + WORD + r"(?:\s|$)))", decl, re.S)
        if not m:
            return None
        name, sig = m.group(1), m.group(2)
        parts, depth, cur = [], 0, ""
        for ch in sig:
            if ch in "([{":
                depth += 1
            if ch in ")]}":
                depth -= 1
            if ch == "→" and depth == 0:
                parts.append(cur)
                cur = ""
            else:
                cur += ch
        parts.append(cur)
        ins = []
        for p in parts[:-1]:
            bound = re.findall(r"\(([^()]*(?:\([^()]*\)[^()]*)*)\)", p)
            if bound and all(":" in b for b in bound):
                for b in bound:
                    names, ty = b.split(":", 1)
                    ins += [self.place_of(ty)] * len(names.split())
            else:
                ins.append(self.place_of(p))
        return name, ins, self.place_of(parts[-1])

    def body(self, decl, places):
        """Chains in a declaration whose variables of places are known."""
        at = dict(places)
        tree = self.tree
        # aliases: `let v = c.before.before in`, `let s = start w in`, `let v = (start w).before in`
        steps = {}
        out, i = [], 0

        def app(text):
            """helper applied to a walk: (helper, var, befores) and the place of the result."""
            m = re.fullmatch(r"\(?(" + WORD + r")\s+\(?(" + WORD + r")((?:\.before)*)\)?\)?", text)
            if m and m.group(1) in self.helpers and m.group(2) in at:
                return m
            return None

        def walk(var, wanted):
            """`var` walked back to the place that is wanted."""
            k = tree.distance(at[var], wanted) if wanted else 0
            if k is None:
                return None
            return var + ".before" * k

        lines = decl
        # helper applications first: the argument's walk
        names = [h for h, (ins, _) in self.helpers.items() if ins and ins[0]]

        def reach(m):
            h, var = m.group(1), m.group(3)
            if var not in at:
                return m.group(0)
            new = walk(var, self.helpers[h][0][0])
            if new is None:
                # a join's branch or another line: as it was
                return m.group(0)
            if "." in new and not m.group(2):
                pass
            return f"{h} {m.group(2)}{new}{m.group(5)}"

        def alias(text):
            pattern = re.compile(r"let (" + WORD + r") = ([^\n]*?) in(?=\s|$)")
            while True:
                changed = False
                for m in pattern.finditer(text):
                    v, e = m.group(1), m.group(2).strip()
                    p = re.fullmatch(r"(" + WORD + r")((?:\.before)*)", e)
                    if p and p.group(1) in at and v not in at:
                        at[v] = at[p.group(1)]
                        if p.group(2):
                            text = text[: m.start()] + f"let {v} = {p.group(1)} in" + text[m.end() :]
                            changed = True
                            break
                        continue
                    a = re.fullmatch(r"(" + WORD + r")\s+\(?(" + WORD + r")(?:\.before)*\)?", e)
                    if a and a.group(1) in self.helpers and self.helpers[a.group(1)][1] and v not in at:
                        at[v] = self.helpers[a.group(1)][1]
                        continue
                    a = re.fullmatch(r"\((" + WORD + r")\s+\(?(" + WORD + r")(?:\.before)*\)?\)((?:\.before)+)", e)
                    if a and a.group(1) in self.helpers and self.helpers[a.group(1)][1] and v not in at:
                        at[v] = self.helpers[a.group(1)][1]
                        text = text[: m.start(2)] + re.sub(r"(\.before)+$", "", e) + text[m.end(2) :]
                        changed = True
                        break
                if not changed:
                    return text

        text = alias(lines)
        if names and at:
            heads = "|".join(re.escape(n) for n in sorted(names, key=len, reverse=True))
            vars_ = "|".join(re.escape(n) for n in sorted(at, key=len, reverse=True))
            text = re.sub(r"(?<![\w.'-])(" + heads + r") (\(?)(" + vars_ + r")((?:\.before)*)(\)?)(?![\w'.-])", reach, text)

        def chain(m):
            base, comps = m.group(1), m.group(2)[1:].split(".")
            if base in steps and comps[0] in ("new", "auto", "kept", "last"):
                return base + "." + ".".join(tree.by_name(comps, steps[base]))
            if base not in at:
                return m.group(0)
            n = 0
            while n < len(comps) and comps[n] == "before":
                n += 1
            if n == len(comps):
                return m.group(0)
            new = tree.turned(at[base], comps[n:])
            if new is not None and len(comps) == n + 1:
                last = tree.found(at[base], comps[n])
                before = m.string[: m.start()].rsplit("\n", 1)[-1]
                let = re.search(r"let (" + WORD + r") = $", before)
                if let and last:
                    steps[let.group(1)] = last
            if new is None:
                if comps[n] not in ("0", "1"):
                    self.said.append("no step " + m.group(0))
                return m.group(0)
            return base + "." + ".".join(new)

        text = re.sub(r"(?<![\w.'-])(" + WORD + r")((?:\.[A-Za-z0-9«_][\w'«»-]*)+)", chain, text)

        def applied(m):
            h, comps = m.group(1), m.group(3)[1:].split(".")
            place = self.helpers[h][1]
            n = 0
            while n < len(comps) and comps[n] == "before":
                n += 1
            if n == len(comps):
                return m.group(0)
            new = tree.turned(place, comps[n:])
            if new is None:
                self.said.append("no step " + m.group(0))
                return m.group(0)
            return f"({h} {m.group(2)})." + ".".join(new)

        made = [h for h, (_, out_) in self.helpers.items() if out_]
        if made:
            text = re.sub(r"\((" + "|".join(re.escape(n) for n in sorted(made, key=len, reverse=True)) + r") ([^()\s]+|\([^()]*\))\)((?:\.[A-Za-z0-9«_][\w'«»-]*)+)", applied, text)
        return text

    def turn(self, text, landed):
        was = NEED.findall(landed)
        if len(was) != len(NEED.findall(text)):
            self.said.append("the goals are not those of LANDED")
            was = NEED.findall(text)
        turned = iter(was)
        answers, out = {}, []
        for decl in declarations(text):
            need = NEED.search(decl.split("\n", 1)[0])
            if need:
                w, now = norm(next(turned)), norm(need.group(1))
                tries = [w, now, re.sub("^overflow-", "", now)]
                for a, b in (("-holds", "-init"), ("-less", "-smaller"), ("-again", "-preserved")):
                    tries += [re.sub(a + r"(?=-\d+$|$)", b, w)]
                hit = next((x for x in tries if x in self.needs), None)
                local = re.match(r"(?:abbrev |pub )*(" + WORD + ")", decl).group(1)
                if hit is None:
                    if "search rules" not in decl:
                        self.said.append(f"goal {w} is gone, which had an answer")
                        out.append("-- GONE " + decl.replace("\n", "\n-- "))
                    continue
                new, place = self.needs[hit]
                answers[new] = local
                self.helpers[local] = ([place], None)
                head, rest = decl.split("\n", 1)
                head = NEED.sub("tie.Need-" + new, head)
                rest = self.body(rest, {"c": place})
                out.append(head + "\n" + rest)
                continue
            if decl.startswith("module "):
                out.append(self.module(decl))
                continue
            if decl.startswith(("use ", "--")):
                out.append(decl)
                continue
            if re.match(r"(?:abbrev )?(?:pub )?" + WORD + r"\s*:\s*Type 0\n", decl) and self.place_of(decl.split("\n", 1)[1].split("=", 1)[-1]):
                name = re.match(r"(?:abbrev )?(?:pub )?(" + WORD + ")", decl).group(1)
                self.places[name] = self.place_of(decl.split("=", 1)[1])
                out.append(self.types(decl))
                continue
            if "tie.spec" in decl or re.search(r"statement M", decl):
                out.append(self.closing(decl, answers))
                continue
            sig = self.signature(decl)
            if sig and any(sig[1]):
                name, ins, result = sig
                self.helpers[name] = (ins, result)
                m = re.search(r"^" + re.escape(name) + r"((?:\s+" + WORD + r")*)\s*=", decl, re.M)
                places = {}
                if m:
                    for v, p in zip(m.group(1).split(), ins):
                        if p:
                            places[v] = p
                    walk = re.search(r"=\s*(" + WORD + r")((?:\.before)+)(?=\s*$)", decl)
                    if walk and result and walk.group(1) in places:
                        k = self.tree.distance(places[walk.group(1)], result)
                        if k is not None:
                            decl = decl[: walk.start()] + "= " + walk.group(1) + ".before" * k + decl[walk.end() :]
                            out.append(self.types(decl))
                            continue
                cut = m.start() if m else 0
                bound = {}
                for vs, ty in re.findall(r"\(([^():]*) : ([^()]*(?:\([^()]*\)[^()]*)*)\)", decl[:cut]):
                    for v in vs.split():
                        if self.place_of(ty):
                            bound[v] = self.place_of(ty)
                out.append(self.types(self.body(decl[:cut], bound)) + self.body(decl[cut:], places))
                continue
            out.append(self.types(decl))
        return "\n".join(out), self.said

    def module(self, decl):
        """A module over a place: what it defines is a helper that takes the place first, and within it stands by itself."""
        head, rest = decl.split("\n", 1)
        at = {}
        for vs, ty in re.findall(r"\(([^():]*) : ([^()]*(?:\([^()]*\)[^()]*)*)\)", head):
            for v in vs.split():
                if self.place_of(ty):
                    at[v] = self.place_of(ty)
        out = [self.types(head)]
        inner = re.split(r"(?m)^(?=  (?:abbrev |pub )*" + WORD + r"\s*:)", rest)
        for d in inner:
            m = re.match(r"  (?:abbrev |pub )*(" + WORD + r")\s*:\s*(.*)", d)
            if m and at:
                result = self.place_of(m.group(2)) if re.match(r"tie\.|" + WORD + r"$", m.group(2)) else None
                walk = re.search(r"=\s*(" + WORD + r")((?:\.before)+)(?=\s*$)", d)
                if result and walk and walk.group(1) in at:
                    k = self.tree.distance(at[walk.group(1)], result)
                    if k is not None:
                        d = d[: walk.start()] + "= " + walk.group(1) + ".before" * k + d[walk.end() :]
                        d = self.types(d)
                        out.append(d)
                        self.helpers[m.group(1)] = (list(at.values()), result)
                        at[m.group(1)] = result
                        continue
                d = self.types(self.body(d, at))
                self.helpers[m.group(1)] = (list(at.values()), result)
                if result:
                    at[m.group(1)] = result
            else:
                d = self.types(self.body(d, at))
            out.append(d)
        return out[0] + "\n" + "".join(out[1:])

    def closing(self, decl, answers):
        f = self.name
        first = [w for (old, new), _ in self.t["loops"] for w in (f"invariant-{old}", f"decreases-{old}")]
        m = re.search(r"\(tie\.spec\s*(.*?)\)\s*$", decl, re.S)
        args = m.group(1).split() if m else []
        lead = []
        for a in args:
            if a in answers.values() or a.startswith(("returns",)):
                break
            lead.append(a)
        lead = [a for a in args if re.match(r"(invariant|decreases|Inv|μ)", a)]
        todo, extra = list(lead), []
        for old, new in self.t["needs"]:
            if new in answers:
                todo.append(answers[new])
            else:
                self.said.append(f"goal {new} is new")
                local = "new-" + new
                args = " ".join(lead)
                k = " κs" if "requires" in new else ""
                extra.append(f"{local} : tie.Need-{new} {args}".rstrip() + f"\n{local} c{k} = search rules\n")
                todo.append(local)
        tail = "pub " + f + "_spec : {M : Type 1} → statement M\n" + f + "_spec =\n    tie.close\n    (tie.spec" + "".join("\n    " + a for a in todo) + ")\n"
        return "\n".join(extra) + ("\n" if extra else "") + tail


def main():
    crate, landed = sys.argv[1], sys.argv[2]
    names = sys.argv[3] if len(sys.argv) > 3 else tempfile.mkdtemp()
    tables = table(crate, names)
    head = f"Rattle-{crate}-proofs."
    for key, t in sorted(tables.items()):
        if not key.startswith(head) or not key.endswith(".Lts"):
            continue
        path = key[len(head) : -len(".Lts")].split(".")
        here = os.path.join("crates", crate, "proofs", *path, "Proof.antt")
        before = os.path.join(landed, here)
        if not os.path.exists(here):
            continue
        with open(here, encoding="utf-8") as f:
            text = f.read()
        with open(before, encoding="utf-8") as f:
            old = f.read()
        text = re.sub(r"\.well-formed", ".well_formed", text)
        text = re.sub(r"(?<=\w)\.pre(?![\w'-])", ".requires", text)
        text = re.sub(r"((?:-test|\bif\d+))\.taken(?![\w'-])", r"\1.true", text)
        text = re.sub(r"((?:-test|\bif\d+))\.left(?![\w'-])", r"\1.false", text)
        text = re.sub(r"\.(\w+)_lem(?![\w'-])", lambda m: "." + m.group(1).replace("_", "-"), text)
        text = re.sub(r"(\.args\.)([a-z]+)-([a-z]+)(?![\w'-])", r"\1\2_\3", text)
        text = re.sub(r"(?<=\w)\.inv(?![\w'-])", ".invariant", text)
        fresh, said = Turner(t, path[-1]).turn(text, old)
        for s in said:
            print(f"{here}: {s}")
        if fresh != text:
            with open(here, "w", encoding="utf-8") as f:
                f.write(fresh)


if __name__ == "__main__":
    main()
