#!/usr/bin/env python3
"""Turns walks of the older kit, proofs/F/Proof.antt over a Tie, into Invariants.antt and Answers.antt.

usage: tools/convert.py ROOT NAMES [CRATE ..]

NAMES is the folder that `rt names` wrote: old and new names of goals, places and steps. What it cannot turn it lists as 'left:'.
"""
import json
import os
import re
import sys

IDENT = r"[^\s(){}.;,@\"«»`\[\]λ]+"
INV = r"(?:invariant|decreases)-[\w-]+"


def norm(name):
    return name.replace("-", "_")


def split_args(text):
    """The arguments of an application, at depth 0."""
    args, depth, cur = [], 0, ""
    for ch in text:
        if ch in "([{":
            depth += 1
        if ch in ")]}":
            depth -= 1
        if ch.isspace() and depth == 0:
            if cur:
                args.append(cur)
            cur = ""
        else:
            cur += ch
    if cur:
        args.append(cur)
    return args


def matching(text, i):
    """The place of the bracket that closes the one at i."""
    depth = 0
    for k in range(i, len(text)):
        if text[k] in "([{":
            depth += 1
        elif text[k] in ")]}":
            depth -= 1
            if depth == 0:
                return k
    return -1


def split_commas(text):
    parts, depth, cur = [], 0, ""
    for ch in text:
        if ch in "([{":
            depth += 1
        if ch in ")]}":
            depth -= 1
        if ch == "," and depth == 0:
            parts.append(cur)
            cur = ""
        else:
            cur += ch
    parts.append(cur)
    return parts


def blocks(text):
    """Top-level blocks: a declaration or module with what is indented below it, comments before it included."""
    out, cur, comment = [], [], []
    for line in text.split("\n"):
        if line.strip() == "":
            cur.append(line) if cur else comment.append(line)
            continue
        if not line[0].isspace():
            if line.startswith("--"):
                if cur:
                    out.append("\n".join(cur))
                    cur = []
                comment.append(line)
                continue
            head = line.split()
            name = head[0]
            if cur:
                prev = cur_name
                same = name == prev and " : " not in line.split("=")[0]
                goes_on = line.startswith((")", "unfolding", "where")) or same or name == prev
                if goes_on:
                    cur.append(line)
                    continue
                out.append("\n".join(cur))
            cur = comment + [line]
            comment = []
            words = [w for w in head if w not in ("pub", "abbrev", "unfoldable")]
            cur_name = words[0] if words else ""
        else:
            cur.append(line)
    if cur:
        out.append("\n".join(cur))
    if comment:
        out.append("\n".join(comment))
    return out


class Walk:
    def __init__(self, root, crate, path, names):
        self.crate, self.path = crate, path  # path: proofs/a/b
        self.root = root
        self.dotted = ".".join(path.split("/")[1:])
        self.v = names.get(f"Rattle-{crate}-proofs.{self.dotted}.Lts")
        self.said = []

    def left(self, what):
        self.said.append(f"left: {self.crate}/{self.path}: {what}")

    def place(self, old):
        v = self.v
        for p, n in zip(v["places"], v["places_by_name"]):
            if p[0] == old:
                return n
        for p, n in zip(v["places"], v["places_by_name"]):
            if norm(p[0]) == norm(old):
                return n
        self.left(f"no place {old}")
        return old

    def steps(self):
        """old step (normed) -> (new internal step, arm paths)"""
        out = {}
        for p, arm in zip(self.v["places"], self.v["arms"]):
            old, new = p[2]
            if old:
                out.setdefault(norm(old), (new, p[3], p[0], arm))
        arms = {}
        for arm in self.v["arms"]:
            if arm:
                for field, step, where in arm[2]:
                    if where:
                        arms.setdefault(norm(step), {})[".".join(where)] = f"{arm[0]}.{field}"
        return out, arms

    def turn_paths(self, text, contexts):
        steps, arms = self.steps()
        params = self.v["params"]
        pre = self.v["pre"]
        v = self.v
        clauses = {}

        def fix_tail(step_new, callee, rest):
            # rest begins with '.' or is empty
            m = re.match(r"\.(new|auto)((?:\.1)*)\.0(?![\w])", rest)
            if m and callee and callee in params:
                k = m[2].count(".1")
                if k < len(params[callee]):
                    rest = f".{m[1]}.{params[callee][k]}" + rest[m.end():]
            return rest

        def requires(rest):
            # rest after .requires
            if not pre or not pre.get("fields") or len(pre["fields"]) < 2:
                return rest
            fields = pre["fields"]
            m = re.match(r"((?:\.1)*)(\.0)?(?![\w])", rest)
            ones = m[1].count(".1")
            n = len(fields)
            if m[2] and ones < n - 1:
                return f".{fields[ones]}" + rest[m.end():]
            if ones >= n - 1:
                tail = rest[len(".1" * (n - 1)):]
                return f".{fields[n - 1]}" + tail
            self.left(f"requires{rest[:20]}")
            return rest

        PATH = re.compile(rf"(?<![\w.'-])({IDENT})((?:\.[A-Za-z0-9_+'-]+)+)")

        def sub(m):
            root, tail = m[1], m[2]
            if root not in contexts:
                return m[0]
            comps = tail[1:].split(".")
            k = 0
            while k < len(comps) and comps[k] == "before":
                k += 1
            if k == len(comps):
                return m[0]
            head = comps[k]
            rest = "".join("." + c for c in comps[k + 1:])
            head = {"good": "well_formed", "well-formed": "well_formed", "pre": "requires"}.get(head, head)
            if head == "requires":
                return f"{root}.requires{requires(rest)}"
            if head in ("args", "ranges", "lifetimes", "well_formed"):
                return f"{root}.{head}{rest}"
            h = norm(head)
            if h not in steps and h.lower() in steps:
                h = h.lower()
            if h not in steps and h.endswith("_lem") and h[:-4] in steps:
                h = h[:-4]
            if h in arms:
                for where in sorted(arms[h], key=len, reverse=True):
                    if rest == "." + where or rest.startswith("." + where + "."):
                        return f"{root}.{arms[h][where]}{rest[len(where) + 1:]}"
            if h in steps:
                new, callee, _, _ = steps[h]
                rest = fix_tail(new, callee, rest)
                rest = re.sub(r"^\.inv(?!\w)", ".invariant", rest)
                rest = re.sub(r"^\.pre(?!\w)", ".requires", rest)
                rest = re.sub(r"^\.taken$", ".true", rest)
                rest = re.sub(r"^\.left$", ".false", rest)
                rest = re.sub(r"^\.type-inv", ".type_inv", rest)
                return f"{root}.{new}{rest}"
            if head.startswith("keys"):
                self.left(f"path {m[0]}")
            return m[0]

        return PATH.sub(sub, text)

    def calls_of(self, text, contexts):
        """aliases of a call's step: let p = c.before.put_after in .. p.new.1.0"""
        steps, _ = self.steps()
        out = {}
        for m in re.finditer(rf"let ({IDENT}) = ({IDENT})((?:\.before)*)\.([\w-]+) in", text):
            if m[2] in contexts and norm(m[4]) in steps:
                out[m[1]] = steps[norm(m[4])][1]
        return out

    def contexts(self, text):
        found = set()
        for m in re.finditer(rf"\(({IDENT}) : tie\.(?!Need)", text):
            found.add(m[1])
        for m in re.finditer(rf"(?m)^\s*(?:abbrev )?({IDENT}) : tie\.(?!Need|invariant|decreases)", text):
            found.add(m[1])
        heads = set()
        for m in re.finditer(rf"(?m)^(?:pub )?({IDENT}) : (?:\({IDENT} : [^)]*\) → )*tie\.Need", text):
            heads.add(m[1])
        for m in re.finditer(rf"(?m)^({IDENT}) ({IDENT})", text):
            if m[1] in heads:
                found.add(m[2])
        found.add("c")
        for _ in range(4):
            for m in re.finditer(rf"let ({IDENT}) = ({IDENT})((?:\.before)+) in", text):
                if m[2] in found:
                    found.add(m[1])
            for m in re.finditer(rf"let ({IDENT}) = ({IDENT}) in", text):
                if m[2] in found:
                    found.add(m[1])
        return found

    def run(self):
        folder = os.path.join(self.root, "crates", self.crate, self.path)
        file = os.path.join(folder, "Proof.antt")
        text = open(file, encoding="utf-8").read()
        text = text.replace(".type-inv", ".type_inv").replace(".well-formed", ".well_formed")
        if self.v is None:
            self.left("no names")
            return False
        if "tie.close" not in text:
            self.left("no tie.close")
            return False
        v = self.v
        i = re.search(r"(?m)^pub \S+-?_?spec\b.*$", text)
        m = re.search(r"(?m)^pub (\S*spec) :", text)
        if not m:
            self.left("no spec")
            return False
        spec = text[m.start():]
        body = text[:m.start()]
        j = spec.index("tie.spec")
        # the bracket around tie.spec
        k = spec.rfind("(", 0, j)
        end = matching(spec, k)
        args = split_args(spec[j + len("tie.spec"):end])
        after = spec[end + 1:].strip()
        if after:
            self.left(f"text after the spec: {after[:60]}")
        loops = v["loops"]
        own = [a for a in args if re.fullmatch(INV, a)]
        args = [a for a in args if not re.fullmatch(INV, a)]
        needs = v["needs"]
        if len(args) != len(needs):
            self.left(f"{len(args)} answers, {len(needs)} goals")
        contexts = self.contexts(body)
        # aliases of calls
        calls = self.calls_of(body, contexts)
        inv_blocks, out_blocks = [], []
        imports = []
        lines = body.split("\n")
        head = []
        n = 0
        while n < len(lines) and (lines[n].startswith("--") or lines[n].startswith("use ") or not lines[n].strip()):
            if lines[n].startswith("use "):
                imports.append(lines[n])
            elif lines[n].startswith("--") and not imports:
                head.append(lines[n])
            elif lines[n].startswith("--"):
                break
            n += 1
        rest = "\n".join(lines[n:]).strip("\n")
        imports = [l for l in imports if not re.search(r"\.Statement\.\{statement\}|\.Tie as tie", l)]
        parts = blocks(rest)
        # goals by position, else by name
        goal_of = {}
        inline = []
        by_name = {norm(o): g for o, g in needs}
        if len(args) == len(needs):
            pairs = list(zip(args, [g for o, g in needs]))
        else:
            pairs = []
            for a in args:
                mm = re.search(rf"(?m)^{re.escape(a)} : tie\.Need-([\w-]+)", body) if re.fullmatch(IDENT, a) else None
                if mm:
                    o = norm(mm[1])
                    g = by_name.get(o) or by_name.get(re.sub(r"^overflow_", "", o))
                    if g:
                        pairs.append((a, g))
                    else:
                        self.left(f"no goal for {a} : {mm[1]}")
        declared = set(re.findall(rf"(?m)^({IDENT}) : tie\.Need", body))
        for a, g in pairs:
            if re.fullmatch(r"\(λ (\w+\.? ?κs|\w+)\. search rules\)", re.sub(r"\s+", " ", a)):
                continue
            if a in declared and a not in goal_of:
                goal_of[a] = g
            else:
                inline.append((a, g))
        asked = {g: v["asked"].get(o) for o, g in needs if v["asked"].get(o)}
        for o, g in needs:
            if g in v["asked"]:
                asked[g] = v["asked"][g]
        done = []
        for b in parts:
            bb = re.sub(r"(?m)^--.*\n", "", b).strip("\n")
            mi = re.match(rf"abbrev (?:pub )?((?:invariant|decreases)-[\w-]+) : ", bb)
            if mi:
                inv_blocks.append(self.turn_invariant(b, mi[1]))
                continue
            done.append(b)
        text2 = "\n\n".join(b.strip("\n") for b in done)
        # definitions of goals
        for a, g in goal_of.items():
            fields = asked.get(g)
            if fields and len(fields) > 1:
                text2 = self.as_record(text2, a, fields)
        text2 = re.sub(rf"(?m)^({IDENT}) : tie\.Need-[\w-]+(?: {INV})*", lambda m: f"pub {m[1]} : goal.{goal_of.get(m[1], m[1])}", text2)
        # heads: drop κs
        for a in declared:
            text2 = re.sub(rf"(?m)^({re.escape(a)} {IDENT}) κs =", r"\1 =", text2)
        text2 = self.inline(text2, contexts)
        text2 = self.without_starts(text2)
        text2 = self.inline(text2, contexts)
        text2 = self.turn_paths(text2, contexts)
        # tuples of a call's alias
        params = v["params"]
        for alias, callee in calls.items():
            if callee in params:
                def fix(m, callee=callee):
                    k = m[3].count(".1")
                    if k < len(params[callee]):
                        return f"{m[1]}.{m[2]}.{params[callee][k]}"
                    return m[0]
                text2 = re.sub(rf"(?<![\w.'-])({re.escape(alias)})\.(new|auto)((?:\.1)*)\.0(?![\w])", fix, text2)
        # types of places
        used = []

        def at_place(m):
            used.append(self.place(m[1]))
            return used[-1]

        text2 = re.sub(rf"tie\.([A-Z][\w-]*)((?: {INV})*)", at_place, text2)
        for a, g in goal_of.items():
            if a != g:
                text2 = re.sub(rf"(?<![^\s(){{}};,]){re.escape(a)}(?![^\s(){{}};,])", g, text2)
        text2 = self.depths(text2, goal_of)
        for a, g in inline:
            b = a
            mm = re.fullmatch(r"\(λ (\w+)( κs)?\.\s*(.*)\)", b, re.S)
            if mm:
                e = self.turn_paths(mm[3], contexts | {mm[1]})
                text2 += f"\n\npub {g} : goal.{g}\n{g} {mm[1]} = {e}"
            else:
                target = goal_of.get(b, b)
                text2 += f"\n\npub {g} : goal.{g}\n{g} c = {target} c"
        if re.search(r"\btie\.", text2):
            self.left("tie. stays: " + re.search(r"\btie\.[\w-]*", text2)[0])
        mod = f"Rattle.{self.crate}.proofs.{self.dotted}"
        comment = "\n".join(head)
        places = [f"use {mod}.Goals.{{{', '.join(dict.fromkeys(used))}}}"] if used else []
        text2 = re.sub(r"\n{3,}", "\n\n", text2).strip("\n")
        if text2:
            with open(os.path.join(folder, "Answers.antt"), "w", encoding="utf-8") as f:
                f.write((comment + "\n" if comment else "") + "\n".join(imports + [f"use {mod}.Goals as goal"] + places) + "\n\n" + text2 + "\n")
        if inv_blocks:
            with open(os.path.join(folder, "Invariants.antt"), "w", encoding="utf-8") as f:
                f.write("\n".join(imports + [f"use {mod}.Given as goal"]) + "\n\n" + "\n\n".join(inv_blocks) + "\n")
        elif loops:
            self.left("no invariant")
        os.remove(file)
        return True

    def inline(self, text, contexts):
        """Writes out each let that names a context, or what an arm gives."""
        steps, arms = self.steps()
        at = 0
        LET = re.compile(rf"let ({IDENT}) = ({IDENT})((?:\.[A-Za-z0-9_+'-]+)*) in[ \t]*\n?[ \t]*")
        while True:
            m = LET.search(text, at)
            if not m:
                return text
            name, root, tail = m[1], m[2], m[3]
            comps = tail[1:].split(".") if tail else []
            k = 0
            while k < len(comps) and comps[k] == "before":
                k += 1
            whole = k == len(comps)
            step = norm(comps[k]) if not whole else ""
            if step not in arms and step.lower() in arms:
                step = step.lower()
            given = not whole and len(comps) == k + 2 and comps[k + 1] == "given" and step in arms
            if root not in contexts or not (whole or given):
                at = m.end()
                continue
            stop = text.find("\n\n", m.end())
            stop = len(text) if stop < 0 else stop
            scope = text[m.end():stop]
            again = re.search(rf"let {re.escape(name)} = ", scope)
            rest = ""
            if again:
                rest, scope = scope[again.start():], scope[:again.start()]
            if given:
                bare = re.search(rf"(?<![\w.'-]){re.escape(name)}(?![\w'.-])", scope)
                if bare:
                    at = m.end()
                    continue
            scope = re.sub(rf"(?<![\w.'-]){re.escape(name)}(?![\w'-])", root + tail, scope)
            text = text[:m.start()] + scope + rest + text[stop:]

    def without_starts(self, text):
        """Takes out names for an earlier context: its fields are those of the later one."""
        while True:
            m = re.search(rf"(?m)^([ ]*)abbrev ({IDENT}) : tie\.[A-Z][\w-]*(?: {INV})*\n[ ]*\2 = ({IDENT})((?:\.before)*)\n\n?", text)
            if not m:
                return text
            name, root = m[2], m[3]
            text = text[:m.start()] + text[m.end():]
            # (name x). outside, name. inside
            text = re.sub(rf"\({re.escape(name)} ({IDENT}(?:\.before)*)\)(?=\.)", r"\1", text)
            text = re.sub(rf"(?<![\w.'-]){re.escape(name)}(?=\.[a-z])", root, text)
            text = re.sub(rf"(let {IDENT} = ){re.escape(name)} ({IDENT}(?:\.before)* in)", r"\1\2", text)
            text = re.sub(rf"(let {IDENT} = ){re.escape(name)}( in)", rf"\1{root}\2", text)
            if re.search(rf"(?<![^\s(){{}};,\[\]]){re.escape(name)}(?![^\s(){{}};,\[\]])", text):
                self.left(f"{name} is still named")

    def parents(self):
        v = self.v
        new = {}
        for p, n in zip(v["places"], v["places_by_name"]):
            new.setdefault(p[0], n)
        return {n: new.get(p[1]) for p, n in zip(v["places"], v["places_by_name"])}

    def distance(self, parents, a, b):
        n = 0
        while a is not None and a != b:
            a = parents.get(a)
            n += 1
        return n if a == b else None

    def earlier(self, var, here, there, steps_back):
        """In a lemma, the context of an earlier place: what a place says of types stands in a record around it."""
        typed = {n: {x: s for x, s in ty} for n, ty in zip(self.v["places_by_name"], self.v["typed"])}
        path = var + ".before" * (steps_back + bool(typed[here]))
        if not typed[there]:
            return path
        steps, _ = self.steps()
        facts = [
            f"{x} = {var}.type_inv.{x}" if typed[here].get(x) == s else f"{x} = {var}.{steps[norm(s)][0]}.given"
            for x, s in typed[there].items()
        ]
        return f"(record {{ before = {path}; type_inv = record {{ {'; '.join(facts)} }} }})"

    def depths(self, text, goal_of):
        """Gives each context that is passed on as many steps back as its type wants."""
        v = self.v
        parents = self.parents()
        places = set(parents)
        asked = {g: a[1] for (o, g), a in zip(v["needs"], v["asked_at"])}
        lines = text.split("\n")
        takes = {}   # function -> (index of its context, place)
        gives = {}   # definition -> place
        stack = []   # (indent, explicit params, place or None, context name)
        goals = [None] * len(lines)
        goal = None
        owner = [None] * len(lines)  # the context variables of each line: {name: place}
        scope = {}
        current = None
        for k, line in enumerate(lines):
            if not line.strip():
                continue
            indent = len(line) - len(line.lstrip())
            while stack and indent <= stack[-1][0]:
                stack.pop()
            m = re.match(r"\s*module _ (.*) where", line)
            if m:
                params = re.findall(r"\(([^():]+) : ((?:[^()]|\([^()]*\))*)\)", m[1])
                explicit = [(n, ty) for ns, ty in params for n in ns.split()]
                stack.append((indent, explicit))
                continue
            explicit = [p for _, ps in stack for p in ps]
            ctx = {n: ty.strip() for n, ty in explicit if ty.strip() in places}
            m = re.match(rf"\s*(?:pub |abbrev |unfoldable )*({IDENT}) : (.*)$", line)
            if m and (not stack or indent <= stack[-1][0] + 2):
                name, ty = m[1], m[2]
                idx = next((i for i, (n, t2) in enumerate(explicit) if t2.strip() in places), None)
                mm = re.match(rf"\(({IDENT}) : ({IDENT})\)", ty)
                own = None
                if idx is not None:
                    takes[name] = (idx, explicit[idx][1].strip())
                elif mm and mm[2] in places:
                    takes[name] = (len(explicit), mm[2])
                    own = mm[2]
                last = ty.strip().split("→")[-1].strip()
                if last in places:
                    gives[name] = last
                current = (name, own, ctx)
                goal = goal_of.get(name, name) if ty.startswith("goal.") else None
                if ty.startswith("goal."):
                    g = goal_of.get(name, name)
                    current = (name, asked.get(g), ctx)
            if current and indent <= (stack[-1][0] + 2 if stack else 0):
                m = re.match(rf"\s*{re.escape(current[0])} ({IDENT})", line)
                if m and current[1] and not line.strip().startswith(current[0] + " :"):
                    scope = dict(current[2])
                    scope[m[1]] = current[1]
                else:
                    scope = dict(current[2])
            owner[k] = dict(scope) if scope else {}
            goals[k] = goal
        for k, line in enumerate(lines):
            ctx = owner[k]
            if not ctx:
                continue
            for var, place in ctx.items():
                # the body of a definition that gives a place
                m = re.match(rf"(\s*({IDENT}) = ){re.escape(var)}((?:\.before)*)$", line)
                if m and m[2] in gives:
                    d = self.distance(parents, place, gives[m[2]])
                    if d is not None:
                        line = m[1] + var + ".before" * d
                    else:
                        self.left(f"depth of {m[2]}")

                def sub(m, var=var, place=place):
                    name = m[1]
                    if name not in takes:
                        return m[0]
                    idx, want = takes[name]
                    args = m[2]
                    # the arguments, one by one
                    out, pos, n = "", 0, 0
                    while pos < len(args):
                        if args[pos] == " ":
                            out += " "
                            pos += 1
                            continue
                        if args[pos] in "([{":
                            e = matching(args, pos)
                            if e < 0:
                                return m[0]
                            e += 1
                        else:
                            e = pos
                            while e < len(args) and args[e] not in " ()[]{};,":
                                e += 1
                        if e == pos:
                            break
                        word = args[pos:e]
                        if n == idx:
                            mm = re.fullmatch(rf"\(?{re.escape(var)}((?:\.before)*)\)?", word)
                            if mm:
                                d = self.distance(parents, place, want)
                                if d is None:
                                    self.left(f"no way from {place} to {want} at {name}")
                                elif d == 0:
                                    word = var
                                elif goals[k]:
                                    word = f"(goal.at.{goals[k]} {var}).{want}"
                                else:
                                    word = self.earlier(var, place, want, d)
                            return name + out + word + args[e:]
                        out += word
                        pos = e
                        n += 1
                    return m[0]

                for name in sorted(takes, key=len, reverse=True):
                    parts = []
                    at = 0
                    while True:
                        m = re.search(rf"(?<![^\s(){{}};,\[\]])({re.escape(name)})( [^\n]*)", line[at:])
                        if not m:
                            break
                        new = sub(m)
                        line = line[:at] + line[at:][:m.start()] + new + line[at:][m.end():]
                        at = at + m.start() + len(name)
            lines[k] = line
        return "\n".join(lines)

    def turn_invariant(self, block, name):
        kind, loop = name.split("-", 1)
        for (old_new, variables), changed in zip(self.v["loops"], self.v["changed"]):
            if norm(old_new[0]) == norm(loop):
                new = old_new[1]
                break
        else:
            self.left(f"no loop {loop}")
            return block
        lines = block.strip("\n").split("\n")
        comments = [l for l in lines if l.startswith("--")]
        lines = [l for l in lines if not l.startswith("--")]
        extra = [l for l in lines[1:] if l.startswith("unfolding")]
        text = "\n".join(l for l in lines[1:] if not l.startswith("unfolding"))
        m = re.match(rf"{re.escape(name)}((?: [^\s=]+)*) =\s*(.*)$", text, re.S)
        if not m:
            self.left(f"form of {name}")
            return block
        args = m[1].split()
        body = m[2]
        want = list(variables) + [x for x, c in zip(variables, changed) if c]
        if len(args) != len(want):
            self.left(f"{name}: {len(args)} arguments, {len(want)} variables")
        to = {}
        for k, a in enumerate(args[:len(want)]):
            if k < len(variables):
                to[a] = f"l.initial.{variables[k]}" if changed[k] else f"l.{variables[k]}"
            else:
                to[a] = f"l.{want[k]}"
        body = re.sub(rf"(?<![^\s(){{}};,\[\]]){IDENT}", lambda m: to.get(m[0], m[0]), body)
        out = comments + [f"abbrev pub {kind}-{new} : goal.{kind}-{new}"] + extra + [f"{kind}-{new} l = {body}"]
        return "\n".join(out)

    def as_record(self, text, name, fields):
        m = re.search(rf"(?m)^{re.escape(name)} [^=\n]*=", text)
        if not m:
            return text
        # the body up to the next top-level line
        e = re.search(r"\n(?=\S)", text[m.end():])
        stop = m.end() + (e.start() if e else len(text[m.end():]))
        body = text[m.end():stop]
        stripped = body.rstrip()
        # the last bracketed tuple
        if not stripped.endswith(")"):
            if "search rules" not in stripped:
                self.left(f"{name} wants a record of {fields}")
            return text
        depth = 0
        for k in range(len(stripped) - 1, -1, -1):
            if stripped[k] in ")]}":
                depth += 1
            elif stripped[k] in "([{":
                depth -= 1
                if depth == 0:
                    break
        before = stripped[:k].rstrip()
        if before and not before.endswith((" in", "\nin", "=")) and not re.search(r"\bin$", before):
            if not re.search(r"\brw \([^()]*\)$|\brw \S+$", before):
                self.left(f"{name} wants a record of {fields}")
                return text
        parts = self.flat(stripped[k:], len(fields))
        if len(parts) != len(fields):
            self.left(f"{name} wants a record of {fields}")
            return text
        rec = "record { " + "; ".join(f"{f} = {p.strip()}" for f, p in zip(fields, parts)) + " }"
        if before and re.search(r"\brw ", before.split("\n")[-1]):
            rec = f"({rec})"
        return text[:m.end()] + stripped[:k] + rec + body[len(stripped):] + text[stop:]

    def flat(self, tup, n):
        """(a, (b, c)) as n parts"""
        parts = split_commas(tup[1:-1])
        while len(parts) < n:
            last = parts[-1].strip()
            if last.startswith("(") and matching(last, 0) == len(last) - 1 and len(split_commas(last[1:-1])) > 1:
                parts = parts[:-1] + split_commas(last[1:-1])
            else:
                break
        if len(parts) > n:
            parts = parts[:n - 1] + ["(" + ", ".join(p.strip() for p in parts[n - 1:]) + ")"]
        return parts


def main():
    root, names = sys.argv[1:3]
    only = sys.argv[3:]
    done = 0
    said = []
    for crate in sorted(os.listdir(os.path.join(root, "crates"))):
        if only and crate not in only:
            continue
        listed = os.path.join(names, "crates", crate, "names.json")
        if not os.path.exists(listed):
            continue
        table = json.load(open(listed))
        top = os.path.join(root, "crates", crate)
        for folder, dirs, files in os.walk(os.path.join(top, "proofs")):
            if "Proof.antt" in files:
                w = Walk(root, crate, os.path.relpath(folder, top), table)
                try:
                    done += w.run()
                except Exception as e:
                    w.left(f"failed: {e!r}")
                said += w.said
    print("\n".join(said))
    print(f"convert: {done} walks turned, {len(said)} lines left")


if __name__ == "__main__":
    main()
