#!/usr/bin/env python3
"""Turns proofs/**/Proof.antt that close a function by `tie.close (tie.spec ..)` into Invariants.antt and Answers.antt.

usage: python3 tools/answers.py [--keep] CRATE..     at the repository's top; the crates below CRATE must prove

It asks `rt check --generated DIR --old-names` for the old and new names of goals and places, and rewrites each file:
goals by their new names, `c.before.before.x` as `c.x`, invariants over `l`. Prints `left: FILE:LINE: ..` for what it could not turn.
--keep leaves Proof.antt beside the new files, as Proof.antt.old.
"""

import json
import os
import re
import subprocess
import sys

W = r"[^\s(){}.;,@\"«»\[\]\\]+"
PATH = re.compile(r"(?<![^\s(){};,\[|←])(" + W + r")((?:\.(?:" + W + r"|«[^»]*»))+)(?![\w])|(?<![^\s(){};,\[|←])(" + W + r")")
START = {"args", "requires", "ranges", "lifetimes", "well_formed", "utf8", "captures"}
norm = lambda s: re.sub(r"[-_]+", "_", s)
LEFT = []


def left(path, line, text):
    LEFT.append(f"left: {path}:{line}: {text}")


# ---------------------------------------------------------------- contracts of the sources

class Contracts:
    """The clauses of each function by its path `crate::mod::f`, in order, and its parameters."""

    def __init__(self, root):
        self.by = {}
        for c in sorted(os.listdir(os.path.join(root, "crates"))):
            src = os.path.join(root, "crates", c, "src")
            for folder, _, files in os.walk(src):
                for f in files:
                    if f.endswith(".rt"):
                        mod = os.path.relpath(os.path.join(folder, f), src)[:-3].split(os.sep)
                        if mod[-1] in ("lib", "main", "mod"):
                            mod.pop()
                        self.read(os.path.join(folder, f), [c] + mod)

    def read(self, path, mod):
        with open(path, encoding="utf-8") as it:
            text = re.sub(r"//[^\n]*", lambda m: " " * len(m[0]), it.read())
        heads = [(m.start(), re.sub(r"<.*", "", m[2] or m[1])) for m in re.finditer(r"(?m)^impl(?:<[^{]*?>)?\s+(?:[\w:<>', ]+?\s+for\s+)?()([\w]+)", text)]
        for m in re.finditer(r"\bfn\s+(\w+)", text):
            head, at, depth = [], m.end(), 0
            # up to the body: the first '{' that is no clause's
            i = m.end()
            clauses = {"requires": [], "ensures": []}
            end = None
            while i < len(text):
                k = re.compile(r"\b(requires|ensures)(\*?)\s*(\w*)\s*\{").match(text, i)
                if k:
                    clauses[k[1]].append(k[3] or None)
                    d, i = 1, k.end()
                    while d and i < len(text):
                        d += (text[i] == "{") - (text[i] == "}")
                        i += 1
                    continue
                if text[i] in "{;" and depth == 0:
                    break
                depth += (text[i] in "([") - (text[i] in ")]")
                i += 1
            params = []
            p = text.find("(", m.end())
            if p >= 0:
                d, j = 0, p
                while j < len(text):
                    d += (text[j] == "(") - (text[j] == ")")
                    j += 1
                    if not d:
                        break
                for one in split_commas(text[p + 1 : j - 1]):
                    one = one.strip()
                    q = re.match(r"(?:mut\s+)?(\w+)\s*:\s*(.*)", one, re.S)
                    if q:
                        params.append((q[1], q[2]))
                    elif re.fullmatch(r"&?\s*(?:'\w+\s+)?(?:mut\s+)?self", one):
                        params.append(("self", one))
            near = re.match(r"[ \t]+", text[text.rfind("\n", 0, m.start()) + 1 :])
            own = [n for s, n in heads if s < m.start()][-1:] if near else []
            self.by["::".join(mod + own + [m[1]])] = (clauses, params)

    def of(self, name):
        if name in self.by:
            return self.by[name]
        last = name.split("::")
        found = [v for k, v in self.by.items() if k.split("::")[-1] == last[-1] and k.split("::")[0] == last[0]]
        return found[0] if len(found) == 1 else None


def split_commas(text):
    out, depth, at = [], 0, 0
    for i, ch in enumerate(text):
        depth += (ch in "([{<") - (ch in ")]}" or (ch == ">" and text[i - 1] != "-"))
        if ch == "," and depth == 0:
            out.append(text[at:i])
            at = i + 1
    if text[at:].strip():
        out.append(text[at:])
    return out


# ---------------------------------------------------------------- files

class Decl:
    def __init__(self, name, text, comment, line):
        self.name, self.text, self.comment, self.line = name, text, comment, line


def name_of(first):
    w = first.split()
    while w and w[0] in ("pub", "abbrev", "unfoldable", "instance", "opaque"):
        w.pop(0)
    return w[0] if w else ""


def parse(text):
    """Header comment, `use` lines, declarations."""
    lines = text.split("\n")
    chunks, i = [], 0
    while i < len(lines):
        l = lines[i]
        if not l.strip():
            chunks.append(("blank", l, i + 1))
            i += 1
        elif l.startswith("--"):
            chunks.append(("comment", l, i + 1))
            i += 1
        else:
            j = i + 1
            while j < len(lines):
                if lines[j].startswith((" ", "\t", ")", "]", "}")):
                    j += 1
                elif not lines[j].strip():
                    k = j
                    while k < len(lines) and not lines[k].strip():
                        k += 1
                    if k < len(lines) and lines[k].startswith((" ", "\t")):
                        j = k
                    else:
                        break
                else:
                    break
            chunks.append(("code", "\n".join(lines[i:j]), i + 1))
            i = j
    header, uses, decls, comment = [], [], [], []
    for kind, t, n in chunks:
        if kind == "blank":
            if comment and not uses and not decls:
                header += comment
                comment = []
        elif kind == "comment":
            comment.append(t)
        elif re.match(r"(pub )?use ", t):
            if not uses and comment:
                header += comment
                comment = []
            uses.append(t)
        else:
            name = name_of(t)
            glue = name == "unfolding" or (decls and (decls[-1].name == name))
            if glue and decls and not comment:
                decls[-1].text += "\n" + t
            else:
                decls.append(Decl(name, t, comment, n))
                comment = []
    return header, uses, decls


def args_of_spec(text):
    """The arguments of tie.spec in `f-spec = tie.close (tie.spec ..)`."""
    m = re.search(r"\(\s*(?:tie|lts)\.spec", text)
    if not m:
        m2 = re.search(r"(?:tie|lts)\.spec\b", text)
        if not m2:
            return None
        i = m2.end()
    else:
        i = m.end()
    out = []
    while i < len(text):
        if text[i].isspace():
            i += 1
        elif text[i] == ")":
            break
        elif text[i] in "({[":
            d, j = 0, i
            while j < len(text):
                d += (text[j] in "({[") - (text[j] in ")}]")
                j += 1
                if not d:
                    break
            out.append(text[i:j])
            i = j
        else:
            j = i
            while j < len(text) and not text[j].isspace() and text[j] not in "()":
                j += 1
            out.append(text[i:j])
            i = j
    return out


def words(text):
    text = re.sub(r"--[^\n]*", "", text)
    return set(re.findall(W, text))


def uses_name(name, text, wordset):
    if " as " in name:
        name = name.split(" as ")[1].strip()
    if "◌" in name:
        parts = [p for p in re.split("◌", name) if p.strip()]
        return all(p.strip() in wordset or p.strip() in text for p in parts) if parts else True
    return name in wordset


def strip_comments(text):
    return re.sub(r"(?<![^\s])--[^\n]*", "", text)


def used(uses, body):
    """The `use` lines of which body names something."""
    body = strip_comments(body)
    ws = set(re.findall(W, body)) | set(w for t in re.findall(r"[^\s(){};,\"]+", body) for w in t.split("."))
    out = []
    for u in uses:
        m = re.match(r"((?:pub )?use )(.*?)\.\{(.*)\}\s*\Z", u, re.S)
        if m:
            names = [n.strip() for n in m[3].replace("\n", " ").split(",") if n.strip()]
            keep = [n for n in names if uses_name(n, body, ws)]
            if keep:
                out.append(f"{m[1]}{m[2]}.{{{', '.join(keep)}}}")
            continue
        m = re.match(r"(?:pub )?use \S+ as (\S+)", u)
        if m:
            if re.search(r"(?<![^\s(){};,\[])" + re.escape(m[1]) + r"\.", body):
                out.append(u)
            continue
        last = u.split(".")[-1].strip()
        if re.search(r"(?<![^\s(){};,\[])" + re.escape(last) + r"\.", body) or last in ws:
            out.append(u)
    return out


# ---------------------------------------------------------------- places

class Names:
    def __init__(self, of, fn, contracts):
        self.fn, self.contracts = fn, contracts
        self.places, self.clauses, self.arms = {}, {}, {}
        self.by_norm = {}
        self.new_place = {}
        for i, p in enumerate(of["places"]):
            name, parent, (old, new), callee = p[0], p[1], p[2], p[3]
            self.places[name] = (parent, old, new, callee)
            self.by_norm[norm(name)] = name
            self.new_place[name] = of["places_by_name"][i]
            it = (of.get("clauses") or [None] * (i + 1))[i]
            self.clauses[name] = (it or {}).get("fields") or None
            self.arms[name] = (of.get("arms") or [None] * (i + 1))[i]
        self.needs = of["needs"]
        self.asked_at = of["asked_at"]
        self.loops = of["loops"]
        self.changed = of["changed"]
        self.params = of["params"]
        self.of = of

    def place(self, old):
        return self.by_norm.get(norm(old))

    def in_arm(self, goal_at, rest):
        """A field of an arm, which is one step now: its step, field and the rest; else None."""
        p, best = goal_at, None
        while p is not None:
            if self.arms[p]:
                step, _, fields = self.arms[p]
                for new, old, path in fields:
                    n = 1 + len(path)
                    if norm(old) == norm(rest[0]) and rest[1:n] == path and not new.endswith("-own") and (best is None or n > best[0]):
                        best = (n, step, new)
                if best:
                    return best
            p = self.up(p)
        return None

    def of_source(self, place):
        """The nearest place at or above that is named after the source."""
        while "_known" in self.new_place[place] and self.up(place) is not None:
            place = self.up(place)
        return place

    def up(self, place):
        return self.places[place][0]

    def step(self, at, goal_at, field):
        """The step that holds the old field, seen from the place `at`; else from the goal's own place."""
        for start in (at, goal_at):
            p = start
            while p is not None:
                if norm(self.places[p][1]) == norm(field) and self.places[p][1]:
                    return p
                p = self.up(p)
        return None


class Text:
    """Translates a term with `c` and its aliases."""

    def __init__(self, names, path, line, env, here, var, goal, file):
        # env: name -> place; here: the place of the declaration's own c; var: how c is called; goal: new name of the goal or None
        self.n, self.path, self.line, self.env, self.here, self.var, self.goal, self.f = names, path, line, dict(env), here, var, goal, file
        self.passed = {}

    def fields(self, rest, step):
        """The fields after a step, in today's spelling."""
        out, callee = list(rest), None
        if step and self.n.places.get(step):
            callee = self.n.places[step][3]
        if not out:
            return out
        out[0] = {"type-inv": "type_inv", "well-formed": "well_formed"}.get(out[0], out[0])
        named = self.n.clauses.get(step) if step and out[0] == "ensures" else None
        if named:
            if len(named) == 1:
                if len(out) == 1 or out[1] != named[0]:
                    out.insert(1, named[0])
            elif len(out) == 1:
                left(self.path, self.line, f"`{self.n.places[step][2]}.ensures` is a record of {', '.join(named)}")
            elif out[1].isdigit() and int(out[1]) < len(named):
                out[1] = named[int(out[1])]
        elif out[0] in ("ensures", "requires") and len(out) > 1 and out[1].isdigit():
            who = callee if step else self.n.fn
            of = self.n.contracts.of(who) if who else None
            clauses = of[0][out[0]] if of else []
            if len(clauses) > 1 and int(out[1]) < len(clauses) and clauses[int(out[1])]:
                out[1] = clauses[int(out[1])]
            elif of is None and who:
                left(self.path, self.line, f"clause {'.'.join(out)} of {who}: its contract was not found")
        if out[0] == "auto" and len(out) > 1 and out[1].isdigit() and callee:
            of = self.n.contracts.of(callee)
            muts = [p for p, t in (of[1] if of else []) if re.match(r"&\s*(?:'\w+\s+)?mut\s*\[", t)]
            k = 1
            while k < len(out) and out[k] == "1":
                k += 1
            if k < len(out) and out[k] == "0" and k - 1 < len(muts):
                out[1 : k + 1] = [muts[k - 1]]
            else:
                left(self.path, self.line, f"{'.'.join(out)} of {callee}: whose length?")
        if out[0] == "new" and len(out) > 1 and "-" in out[1]:
            out[1] = out[1].replace("-", "_")
        return out

    def at_place(self, place):
        """The context at an earlier place, as a term."""
        if place == self.here:
            return self.var
        new = self.n.new_place[place]
        if self.goal:
            self.f.places.add(new)
            return f"(goal.at.{self.goal} {self.var}).{new}"
        if self.here:
            self.f.places.update((new, self.n.new_place[self.here]))
            return f"(goal.at.{self.n.new_place[self.here]} {self.var}).{new}"
        return None

    def walk(self, head, rest):
        """-> (kind, text or place)"""
        at = self.env[head]
        rest = list(rest)
        over = False
        while rest and rest[0] == "before":
            rest.pop(0)
            up = self.n.up(at)
            if up is None:
                over = True
                continue
            at = up
        if not rest:
            return "place", at
        f = rest[0]
        if norm(f) in START:
            if norm(f) == "requires" or norm(f) == "args" or norm(f) == "ranges":
                if norm(f) == "requires":
                    tail = self.fields(["requires"] + rest[1:], None)
                else:
                    tail = [f] + ([rest[1].replace("-", "_")] if len(rest) > 1 else []) + rest[2:]
                return "text", ".".join([self.var] + tail)
            return "text", ".".join([self.var, norm(f)] + rest[1:])
        arm = self.n.in_arm(self.here, rest)
        if arm:
            n, step, new = arm
            tail = rest[n:]
            if new == "ensures":
                old = self.n.step(at, self.here, f)
                tail = self.fields(["ensures"] + tail, old)[1:] if old else tail
            return "text", ".".join([self.var, step, new] + tail)
        step = self.n.step(at, self.here, f)
        if step is None:
            if norm(f) == "type_inv":
                return "text", ".".join([self.var, "type_inv"] + rest[1:])
            left(self.path, self.line, f"no step `{f}` at or above `{at}`: {head}.{'.'.join(rest)}")
            return "text", ".".join([self.var] + rest)
        tail = self.fields(rest[1:], step)
        if tail and re.match(r"loop", self.n.places[step][1]) and tail[0] not in ("true", "false"):
            tail[0] = self.of_loop(tail[0])
        return "text", ".".join([self.var, self.n.places[step][2]] + tail)

    def aliases(self, text):
        """Takes out `let x = PATH in` where PATH is a place, and remembers x."""
        while True:
            found = None
            for m in re.finditer(r"\blet (" + W + r") = (" + W + r")((?:\.before)*) in\b[ \t]*(\n[ \t]*)?", text):
                if m[2] in self.env and m[1] != self.var:
                    found = m
                    break
            if not found:
                return text
            m = found
            kind, place = self.walk(m[2], ["before"] * m[3].count(".before"))
            self.env[m[1]] = place
            before, after = text[: m.start()], text[m.end() :]
            if self.here and place != self.here and len(re.findall(r"(?<!let )(?<![^\s(){};,\[|])" + re.escape(m[1]) + r"(?![^\s(){};,\]|])", after)) > 1:
                # it is passed on: it stays, as the context of that place
                self.passed[m[1]] = place
                text = before + f"let {m[1]} = \x00{place}\x00 in" + m[0][m[0].rindex(" in") + 3 :] + after
                continue
            if m[4] is not None and not re.search(r"\n[ \t]*\Z", before):
                # text stood before the let on its line: keep the line break
                after = m[4] + after
            text = before + after

    def of_loop(self, name):
        """A variable's name, where a loop or a parameter has it by another dash."""
        every = {norm(v): v for _, vs in self.n.loops for v in vs}
        return every.get(norm(name), name)

    def turn(self, text):
        if self.var in self.env:
            text = self.aliases(text)
        holders = {}
        for m in re.finditer(r"\blet (" + W + r") = (?:" + W + r"\.)*(args|loop\d*|loop-" + W + r"|new) in\b", text):
            holders[m[1]] = m[2]
        out, at = [], 0
        base = self.line
        for m in PATH.finditer(text):
            if m.start() < at:
                continue
            head = m[1] or m[3]
            rest = re.findall(r"\.(«[^»]*»|" + W + r")", m[2]) if m[2] else []
            out.append(text[at : m.start()])
            at = m.end()
            self.line = base + text.count("\n", 0, m.start())
            before = text[max(0, m.start() - 40) : m.start()]
            if head in self.f.place_names:
                self.f.places.add(self.f.rename[head])
            if head in self.f.rename and not re.search(r"(?:\blet|λ(?: " + W + r")*) \Z", before) and not (head in self.env):
                out.append(".".join([self.f.rename[head]] + rest))
                continue
            if head in holders and head not in self.env and rest and "-" in rest[0]:
                rest[0] = rest[0].replace("-", "_") if holders[head] in ("args", "new") else self.of_loop(rest[0])
                out.append(".".join([head] + rest))
                continue
            if head in self.env:
                if text.startswith(".", m.end()) and re.search(r"λ[^.]*\Z", before):
                    out.append(m[0])
                    left(self.path, self.line, f"`{head}` is bound again by a λ")
                    continue
                kind, it = self.walk(head, rest)
                if kind == "text":
                    out.append(it)
                elif head in self.passed and not rest:
                    out.append(head)
                else:
                    seg = re.split(r"[(,=\[;→|∙]|\bin\b|\blet\b", text[: m.start()])[-1].split()
                    to = self.f.takers.get(seg[0]) if seg else None
                    if to:
                        # the lemma may take an earlier place than the one that is passed, of those with no name in the source
                        it = to if self.n.of_source(it) == to else it
                    term = self.at_place(it)
                    if term is None:
                        left(self.path, self.line, f"{m[0]}: an earlier place `{self.n.new_place[it]}` in a lemma that is no answer")
                        out.append(m[0])
                    else:
                        if term != self.var and re.search(r"(?:tie|lts)\.", before):
                            left(self.path, self.line, m[0])
                        out.append(term)
                continue
            # types of places and goals
            t = re.fullmatch(r"(?:tie|lts)\.(" + W + r")", m[0])
            if t:
                need = re.match(r"Need-(.*)", t[1])
                if need:
                    new = self.f.need_by_old(need[1])
                    out.append("goal." + new if new else m[0])
                    if not new:
                        left(self.path, self.line, m[0])
                else:
                    p = self.n.place(t[1])
                    if p:
                        p = self.n.of_source(p)
                        self.f.places.add(self.n.new_place[p])
                        out.append(self.n.new_place[p])
                    else:
                        out.append(m[0])
                        left(self.path, self.line, m[0])
                # its arguments: invariants and measures
                more = re.match(r"(?:\s+(?:(?:invariant|decreases)-loop\w*|reads\.(?:Pre|Post)|\([^()]*\.Asked[^()]*\)))+", text[at:])
                if more:
                    at += more.end()
                continue
            if head in ("tie", "lts", "reads") or head in self.f.inv_names:
                left(self.path, self.line, m[0])
            out.append(m[0])
        out.append(text[at:])
        text = re.sub("\x00([^\x00]*)\x00", lambda m: self.at_place(m[1]), "".join(out))
        # the test of `!x` says now what that of x says
        a_test = r"not-(?:true|false) _ (" + W + r"\.if-not-" + W + r"\.(?:true|false))(?![^\s(){};,\]|])"
        text = re.sub(r"\(" + a_test + r"\)", r"\1", text)
        text = re.sub(r"(?<![^\s(){};,\[|])" + a_test, r"\1", text)
        return self.branches(text)

    def branches(self, text):
        """⊎_elim (λ w. A) (λ w. B) c.if-x.branch  ->  elim c.if-x.branch [ then-x w ↦ A | else-x w ↦ B ]"""
        for m in reversed(list(re.finditer(r"⊎_elim\s+", text))):
            i, args = m.end(), []
            while len(args) < 2 and i < len(text) and text[i] == "(":
                d, j = 0, i
                while j < len(text):
                    d += (text[j] == "(") - (text[j] == ")")
                    j += 1
                    if not d:
                        break
                args.append(text[i + 1 : j - 1].strip())
                i = re.compile(r"\s*").match(text, j).end()
            k = re.compile(r"(" + W + r")\.((?:if|match)-" + W + r")\.branch(?![^\s(){};,\]|])").match(text, i)
            lams = [re.match(r"λ (" + W + r")\. (.*)", a, re.S) for a in args]
            if not k or len(args) < 2:
                continue
            if k[2].startswith("match") or None in lams:
                left(self.path, self.line, f"by hand: elim {k[0]} [ .. ], with the arms' names and fields that the check prints")
                continue
            of = k[2][3:]
            self.f.places.update((f"then-{of}", f"else-{of}"))
            text = text[: m.start()] + f"elim {k[0]} [ then-{of} {lams[0][1]} ↦ {lams[0][2].strip()} | else-{of} {lams[1][1]} ↦ {lams[1][2].strip()} ]" + text[k.end() :]
        return text


# ---------------------------------------------------------------- one file

def top_eq(text):
    """Index of the `=` that ends an equation's left side."""
    d = 0
    for m in re.finditer(r"[(\[{]|[)\]}]|(?<=\s)=(?=\s)", text):
        if m[0] in "([{":
            d += 1
        elif m[0] in ")]}":
            d -= 1
        elif d == 0:
            return m.start()
    return -1


def split_decl(d):
    """-> signature (name : type), unfolding lines, equations [(lhs, body)]"""
    sig, unf, eqs = None, [], []
    lines = d.text.split("\n")
    parts, cur = [], []
    for l in lines:
        if cur and l and not l.startswith((" ", "\t", ")", "]", "}")):
            parts.append("\n".join(cur))
            cur = []
        cur.append(l)
    parts.append("\n".join(cur))
    for p in parts:
        if p.startswith("unfolding"):
            unf.append(p)
        elif re.match(r"(?:(?:pub|abbrev|unfoldable|opaque) )*" + re.escape(d.name) + r"\s+:", p):
            sig = p
        else:
            e = top_eq(p)
            eqs.append((p[:e].rstrip(), p[e + 1 :]) if e >= 0 else (p, None))
    return sig, unf, eqs


TRIVIAL = re.compile(r"\s*(?:λ c(?: κs)?\.)?\s*(?:search rules|tt|omega arith|search|omega)\s*")


def inner(arg):
    arg = arg.strip()
    while arg.startswith("(") and arg.endswith(")"):
        d = 0
        for i, ch in enumerate(arg):
            d += (ch == "(") - (ch == ")")
            if d == 0:
                break
        if i != len(arg) - 1:
            break
        arg = arg[1:-1].strip()
    return arg


def tuple_parts(body):
    """The components of a body that is one parenthesised tuple, after its lets; with where it stands."""
    at = 0
    while True:
        m = re.compile(r"\s*let\b").match(body, at)
        if not m:
            break
        d, i, lets = 0, m.end(), 1
        for k in re.compile(r"[(\[{]|[)\]}]|\blet\b|\bin\b").finditer(body, i):
            if k[0] in "([{":
                d += 1
            elif k[0] in ")]}":
                d -= 1
            elif d == 0 and k[0] == "let":
                lets += 1
            elif d == 0 and k[0] == "in":
                lets -= 1
                if not lets:
                    at = k.end()
                    break
        else:
            return None
    rest = body[at:]
    if not rest.strip().startswith("("):
        return None
    s = at + rest.index("(")
    d = 0
    cuts = [s + 1]
    for i in range(s, len(body)):
        d += (body[i] in "([{") - (body[i] in ")]}")
        if body[i] == "," and d == 1:
            cuts.append(i + 1)
        if d == 0:
            break
    e = i
    where = body[e + 1 :]
    if where.strip() and not re.match(r"\s*\n\s*where\b", where):
        return None
    if len(cuts) == 1:
        return None
    parts = [body[a : b - 1] for a, b in zip(cuts, cuts[1:] + [e + 1])]
    if not parts[-1].strip():
        parts.pop()
    return s, e, parts


def same_need(typed, old):
    """Need-overflow-mul-q of the old files is mul-q in the list."""
    plain = lambda s: re.sub(r"^(overflow|nonzero|bounds|offset_bounds|slice_bounds|part)_", "", norm(s))
    return plain(typed) == plain(old)


class File:
    def __init__(self, crate, path, names, fn, module, contracts):
        self.crate, self.path, self.n, self.fn, self.module, self.contracts = crate, path, names, fn, module, contracts
        self.places, self.rename, self.inv_names = set(), {}, set()

    def need_by_old(self, old):
        for o, n in self.n.needs:
            if same_need(old, o):
                return n
        return None

    def place_of_type(self, t):
        """The place that a type `tie.In-loop invariant-loop decreases-loop` names."""
        t = t.strip()
        m = re.match(r"\(?(?:tie|lts)\.(" + W + r")", t)
        if m:
            return self.n.place(m[1]) if not m[1].startswith("Need-") else None
        return self.place_names.get(t.split()[0]) if t.split() else None

    def binders(self, sig):
        """The explicit binders of a signature in order: (name, type)."""
        t = sig.split(":", 1)[1]
        out, i = [], 0
        while True:
            m = re.compile(r"\s*").match(t, i)
            i = m.end()
            if i >= len(t):
                break
            if t[i] in "({":
                d, j = 0, i
                while j < len(t):
                    d += (t[j] in "({[") - (t[j] in ")}]")
                    j += 1
                    if not d:
                        break
                group = t[i + 1 : j - 1]
                after = re.compile(r"\s*(→)?\s*").match(t, j)
                q = re.match(r"((?:" + W + r"\s+)+):\s(.*)", group, re.S)
                if q:
                    for nm in q[1].split():
                        out.append((nm, q[2], t[i] == "("))
                    i = after.end()
                    continue
                if not after[1]:
                    break
                out.append((None, group, True))
                i = after.end()
                continue
            # an unnamed domain up to a top-level arrow
            d, j = 0, i
            while j < len(t):
                if t[j] in "([{":
                    d += 1
                elif t[j] in ")]}":
                    d -= 1
                elif t[j] == "→" and d == 0:
                    break
                j += 1
            if j >= len(t):
                break
            out.append((None, t[i:j], True))
            i = j + 1
        return out

    def helper(self, d, env0, here0, var0):
        """A lemma or an abbreviation of the file's own."""
        sig, unf, eqs = split_decl(d)
        if d.name == "module" or sig is None:
            return self.section(d) if d.name == "module" else Text(self.n, self.path, d.line, env0, here0, var0, None, self).turn(d.text)
        bs = self.binders(sig)
        placed = [(nm, self.place_of_type(t)) for nm, t, ex in bs]
        placed = [(nm, p and self.n.of_source(p)) for nm, p in placed]
        env, here, var = dict(env0), here0, var0
        seen = [(nm, p) for nm, p in placed if p]
        if len(seen) > 1 or (seen and here0):
            left(self.path, d.line, f"`{d.name}` takes several contexts")
        out = []
        for nm, p in seen[:1]:
            here, var = p, nm or var0
            if nm:
                env[nm] = p
        if seen:
            self.takers[d.name] = seen[0][1]
        out.append(Text(self.n, self.path, d.line, env, here, var, None, self).turn(sig))
        out += unf
        line = d.line + sig.count("\n") + 1 + len(unf)
        for lhs, body in eqs:
            env, here, var = dict(env0), here0, var0
            if seen:
                ws = re.findall(r"\([^()]*\)|\{[^{}]*\}|" + W, lhs)
                ws = ws[1:] if ws and ws[0] in (d.name,) else ws[2:]
                ex = [w for w in ws if not w.startswith("{")]
                exb = [p for (nm, p), (_, _, e) in zip(placed, bs) if e]
                for w, p in zip(ex, exb):
                    if p:
                        env[w], here, var = p, p, w
            t = Text(self.n, self.path, line, env, here, var, None, self)
            out.append(lhs + (" =" + t.turn(body) if body is not None else ""))
            line += (lhs + (body or "")).count("\n") + 1
        return "\n".join(out)

    def section(self, d):
        head, _, rest = d.text.partition("\n")
        m = re.findall(r"\(((?:" + W + r"\s+)+):\s([^()]*(?:\([^()]*\))?[^()]*)\)", head)
        env, here, var = {}, None, "c"
        for ns, t in m:
            p = self.place_of_type(t)
            if p:
                p = self.n.of_source(p)
                var = ns.split()[0]
                env[var], here = p, p
        if not here:
            return Text(self.n, self.path, d.line, {}, None, "c", None, self).turn(d.text)
        for nm in re.findall(r"(?m)^  (" + W + r")\s+:", rest):
            self.takers[nm] = here
        t = Text(self.n, self.path, d.line, env, here, var, None, self)
        return t.turn(d.text)

    def answer(self, d, i):
        old, new = self.n.needs[i]
        at = self.n.place(self.n.asked_at[i][0])
        sig, unf, eqs = split_decl(d)
        out = [f"pub {new} : goal.{new}"] + unf
        line = d.line + 1 + len(unf)
        for lhs, body in eqs:
            ps = lhs.split()[1:]
            env, var = {}, "c"
            if body is not None and not ps and inner(body).startswith("λ"):
                m = re.match(r"λ ((?:" + W + r" )*" + W + r")\.\s", inner(body))
                if m:
                    ps = m[1].split()
                    body = " " + inner(body)[m.end() :]
            if len(ps) > 1 and (ps[1] == "κs" or "-requires" in new and ps[1] == "_"):
                if body is not None and ps[1] != "_":
                    # another answer takes no lifetimes any more either
                    other = r"(?<![^\s(){};,\[])((?:" + "|".join(map(re.escape, self.need_names)) + r")(?: [^\s()]+| \([^()]*\)))\s+" + ps[1] + r"(?![^\s(){};,\]|])"
                    body = re.sub(other, r"\1", body) if self.need_names else body
                if body is not None and ps[1] in words(body) and ps[1] != "_":
                    left(self.path, line, f"`{new}`: {ps[1]} is used: c.lifetimes?")
                    body = re.sub(r"(?<![^\s(){};,\[])" + ps[1] + r"(?![^\s(){};,\]|.])", "c.lifetimes", body)
                ps = ps[:1] + ps[2:]
            if ps:
                var = "c"
                env[ps[0]] = at
                if ps[0] != "c" and re.search(r"(?<![\w.])c(?![\w])", body or ""):
                    var = ps[0]
            t = Text(self.n, self.path, line, env, at, var, new, self)
            if body is None:
                out.append(lhs)
                continue
            if var != (ps[0] if ps else var):
                t.env[var] = at
            now = t.turn(body)
            now = self.clauses(now, old, at, i)
            out.append(" ".join([new] + ([var] + ps[1:] if ps else [])) + " =" + now)
            line += (lhs + body).count("\n") + 1
        return "\n".join(out)

    def clauses(self, body, old, at, i):
        """A tuple of several clauses becomes a record by their names."""
        it = tuple_parts(body)
        if not it:
            return body
        s, e, parts = it
        kind, who = None, None
        new = self.n.needs[i][1]
        if re.match(r"returns", old):
            kind, who = "ensures", self.fn
        elif "-requires" in norm(old).replace("_requires", "-requires"):
            kind = "requires"
            base = re.sub(r"-requires.*", "", old.replace("_requires", "-requires"))
            base = re.sub(r"\d+$", "", base) if not any(norm(p.split("::")[-1]) == norm(base) for p in self.n.params) else base
            hit = [p for p in self.n.params if norm(p.split("::")[-1]) == norm(base)]
            if len(hit) != 1:
                hit = [p for p in self.n.params if norm(base).startswith(norm(p.split("::")[-1])) or norm(base) == norm("_".join(p.split("::")[-2:]))]
            who = hit[0] if len(hit) == 1 else None
        if not kind:
            return body
        of = self.contracts.of(who) if who else None
        if not of:
            left(self.path, 0, f"`{new}` is a tuple: the contract of {who} was not found")
            return body
        cl = of[0][kind]
        if len(cl) < 2 or None in cl:
            return body
        if len(parts) < len(cl):
            left(self.path, 0, f"`{new}`: {len(parts)} parts for {len(cl)} clauses")
            return body
        if len(parts) > len(cl):
            last = "(" + ",".join(parts[len(cl) - 1 :]).strip() + ")"
            parts = parts[: len(cl) - 1] + [last]
        # trivially searched parts stay, since a record wants each field
        fields = [f"{n} = {p.strip()};" for n, p in zip(cl, parts)]
        one = "record { " + " ".join(fields).rstrip(";") + " }"
        if len(one) > 100 or "\n" in one:
            pad = re.search(r"(?:\A|\n)([ \t]*)[^\n]*\Z", body[:s])
            ind = pad[1] if pad and "\n" in body[:s] else "    "
            one = "record {\n" + "".join(f"{ind}  {f}\n" for f in fields) + ind + "}"
        return body[:s] + one + body[e + 1 :]

    def invariant(self, d):
        """invariant-loop or decreases-loop over l."""
        sig, unf, eqs = split_decl(d)
        m = re.search(r"(?:tie|lts)\.(invariant|decreases)-(" + W + r")", sig)
        kind, loop = m[1], m[2]
        at = next((i for i, (nm, _) in enumerate(self.n.loops) if norm(nm[0]) == norm(loop)), None)
        if at is None:
            left(self.path, d.line, f"no loop `{loop}`")
            return None
        (old, new), vs = self.n.loops[at]
        ch = self.n.changed[at]
        order = [f"l.initial.{v}" if c else f"l.{v}" for v, c in zip(vs, ch)] + [f"l.{v}" for v, c in zip(vs, ch) if c]
        if len(eqs) != 1:
            left(self.path, d.line, f"`{d.name}` has {len(eqs)} equations")
            return None
        lhs, body = eqs[0]
        ps = lhs.split()[1:]
        sub = {}
        if len(ps) == len(order):
            sub = dict(zip(ps, order))
        elif len(ps) == 0:
            lam = re.match(r"\s*λ ((?:" + W + r" )*" + W + r")\.\s", body)
            if lam and len(lam[1].split()) == len(order):
                sub = dict(zip(lam[1].split(), order))
                body = " " + body[lam.end() :]
        if not sub:
            left(self.path, d.line, f"`{d.name}` takes {len(ps)} values, and the loop has {len(order)}: {' '.join(ps)} / {' '.join(order)}")
            for p in ps:
                v = p.rstrip("₀")
                if v in vs:
                    sub[p] = f"l.initial.{v}" if p != v else f"l.{v}"
        body = substitute(body, sub, self.path, d.line)
        out = [f"abbrev pub {kind}-{new} : goal.{kind}-{new}"] + unf + [f"{kind}-{new} l ={body}"]
        return "\n".join(out)

    def convert(self):
        with open(self.path, encoding="utf-8") as it:
            text = it.read()
        header, uses, decls = parse(text)
        close = next((d for d in decls if re.search(r"(?:tie|lts)\.spec\b", d.text) and "close" in d.text), None)
        if close is None:
            left(self.path, 1, "no `tie.close (tie.spec ..)`")
            return False
        args = args_of_spec(close.text)
        invs = [d for d in decls if re.search(r"\s:\s*(?:tie|lts)\.(?:invariant|decreases)-", split_decl(d)[0] or "")]
        self.inv_names = {d.name for d in invs}
        goals = [a for a in args if a not in self.inv_names]
        by_name = {d.name: d for d in decls}
        typed = {}
        for d in decls:
            m = re.search(r"\s:\s*\(?(?:tie|lts)\.Need-(" + W + r")", split_decl(d)[0] or "")
            if m:
                typed[d.name] = m[1]
        self.need_names = sorted(typed, key=len, reverse=True)
        todo = {}  # need index -> ('decl', d) or ('lambda', text)
        if len(goals) == len(self.n.needs):
            for i, a in enumerate(goals):
                a = inner(a)
                if a in by_name and a in typed and not same_need(typed[a], self.n.needs[i][0]):
                    left(self.path, by_name[a].line, f"`{a}` answers need {i}, {self.n.needs[i]}, and says Need-{typed[a]}")
                todo[i] = ("decl", by_name[a]) if a in by_name else ("term", a)
        else:
            left(self.path, close.line, f"tie.spec has {len(goals)} goals, and there are {len(self.n.needs)} needs: {[o for o, _ in self.n.needs]}; goals go by their types")
            for d in decls:
                if d.name in typed:
                    i = next((i for i, (o, _) in enumerate(self.n.needs) if same_need(typed[d.name], o)), None)
                    if i is None:
                        left(self.path, d.line, f"`{d.name}`: no need `{typed[d.name]}` today")
                    else:
                        todo[i] = ("decl", d)
            for a in goals:
                if inner(a) not in by_name and not TRIVIAL.fullmatch(inner(a)):
                    left(self.path, close.line, f"which goal has the answer {a}?")
        # names
        first = {}
        for i, (k, d) in sorted(todo.items()):
            if k == "decl" and d.name in typed and d.name not in first:
                first[d.name] = i
        for nm, old in typed.items():
            if nm not in first:
                i = next((i for i, (o, _) in enumerate(self.n.needs) if same_need(old, o)), None)
                if i is not None:
                    first[nm] = i
        self.rename = {nm: self.n.needs[i][1] for nm, i in first.items() if nm != self.n.needs[i][1]}
        # names for places
        self.place_names, self.takers = {}, {}
        gone = set()
        for d in decls:
            m = re.search(r"=\s*\(?(?:tie|lts)\.(" + W + r")", d.text)
            if m and re.search(r":\s*Type 0\s*\n", d.text) and not m[1].startswith("Need-") and len(d.text) < 400 and self.n.place(m[1]) and "→" not in d.text:
                self.place_names[d.name] = self.n.of_source(self.n.place(m[1]))
                gone.add(d.name)
        for nm, p in self.place_names.items():
            self.rename[nm] = self.n.new_place[p]
        for d in decls:
            if d.name == "module":
                head, _, rest = d.text.partition("\n")
                at = [self.place_of_type(x) for _, x in re.findall(r"\(((?:" + W + r"\s+)+):\s([^()]*(?:\([^()]*\))?[^()]*)\)", head)]
                at = [self.n.of_source(p) for p in at if p]
                for nm in re.findall(r"(?m)^  (?:abbrev )?(" + W + r")\s+:", rest):
                    if at:
                        self.takers[nm] = at[0]
            elif d.name not in typed and split_decl(d)[0]:
                at = [self.n.of_source(p) for p in (self.place_of_type(x) for _, x, _ in self.binders(split_decl(d)[0])) if p]
                if at:
                    self.takers[d.name] = at[0]
        # invariants and what they stand on
        inv_text, inv_decls = [], []
        local = {d.name: d for d in decls if d.name not in typed and d is not close and d.name not in self.inv_names and d.name not in gone}
        need = set()
        todo_names = [w for d in invs for w in words(d.text)]
        while todo_names:
            w = todo_names.pop()
            if w in local and w not in need:
                need.add(w)
                todo_names += words(local[w].text)
        for d in decls:
            if d.name in need and d.name in local:
                t = d.text
                if not re.match(r"(abbrev )?pub ", t):
                    t = re.sub(r"\A(abbrev )?", lambda m: (m[1] or "") + "pub ", t, count=1)
                inv_decls.append(("\n".join(d.comment + [t])))
            elif d in invs:
                t = self.invariant(d)
                if t is None:
                    return False
                inv_decls.append("\n".join(d.comment + [t]))
        # answers
        out = []
        extra = {}
        for i, (k, it) in sorted(todo.items()):
            if k == "decl" and (it.name not in typed or first.get(it.name) != i):
                extra.setdefault(it.name, []).append(i)
        cited = {}
        for d in decls:
            if d is not close:
                for w in words("\n".join(b or "" for _, b in split_decl(d)[2])):
                    if w != d.name:
                        cited.setdefault(w, set()).add(d.name)
        for i, (k, it) in todo.items():
            if k == "term":
                for w in words(it):
                    cited.setdefault(w, set()).add("tie.spec")
        for d in decls:
            if d is close or d in invs or d.name in gone or d.name in need:
                continue
            com = "\n".join(d.comment) + ("\n" if d.comment else "")
            if d.name in typed:
                i = first.get(d.name)
                eqs = split_decl(d)[2]
                if i is None:
                    left(self.path, d.line, f"`{d.name}`: no such need")
                    out.append(com + d.text)
                    continue
                trivial = len(eqs) == 1 and eqs[0][1] is not None and TRIVIAL.fullmatch(eqs[0][1].strip()) and not split_decl(d)[1]
                if not (trivial and d.name not in cited):
                    out.append(com + self.answer(d, i))
                    for j in extra.get(d.name, []):
                        out.append(self.answer(d, j))
                elif extra.get(d.name):
                    pass
            else:
                out.append(com + self.helper(d, {}, None, "c"))
                for j in extra.get(d.name, []):
                    old, new = self.n.needs[j]
                    out.append(f"pub {new} : goal.{new}\n{new} = {d.name}")
                    left(self.path, d.line, f"`{new}` is answered by the lemma `{d.name}`")
        for i, (k, it) in sorted(todo.items()):
            if k == "term" and not TRIVIAL.fullmatch(it):
                new = self.n.needs[i][1]
                body = it if it.startswith("λ") else it
                d = Decl(new, f"{new} : goal.{new}\n{new} = {body}", [], close.line)
                if not it.startswith("λ"):
                    # a name or a partial application: give it c
                    d.text = f"{new} : goal.{new}\n{new} c = {body} c"
                out.append(self.answer(d, i))
        pre = f"Rattle.{self.crate}.proofs.{self.module}."
        uses = [u for u in uses if not re.match(r"use " + re.escape(pre) + r"(Statement|Tie|Lts[^.\s]*|Reads)\b", u)]
        body = "\n\n".join(out)
        used_inv = sorted(w for w in need if w in words(body))
        a_uses = used(uses, body)
        if used_inv:
            a_uses.append(f"use {pre}Invariants.{{{', '.join(used_inv)}}}")
        folder = os.path.dirname(self.path)
        done = []
        if out:
            a_uses.append(f"use {pre}Goals as goal")
            if self.places:
                a_uses.append(f"use {pre}Goals.{{{', '.join(sorted(self.places))}}}")
            write(os.path.join(folder, "Answers.antt"), "\n".join(header + a_uses) + "\n\n" + body.rstrip() + "\n")
            done.append("Answers")
        if inv_decls:
            ib = "\n\n".join(inv_decls)
            write(os.path.join(folder, "Invariants.antt"), "\n".join((header if not out else []) + used(uses, ib) + [f"use {pre}Given as goal"]) + "\n\n" + ib.rstrip() + "\n")
            done.append("Invariants")
        print(f"{os.path.relpath(self.path)}: {' + '.join(done) or 'nothing is left of it'}: {sum(1 for k, it in todo.values() if k == 'term' and TRIVIAL.fullmatch(it))} of {len(self.n.needs)} goals to the search")
        return True


def substitute(body, sub, path, line):
    """Puts paths for variables, but not where a variable is bound again."""
    out, at, depth, shadow = [], 0, 0, []
    tok = re.compile(r"--[^\n]*|[(\[{]|[)\]}]|" + W)
    prev_end = 0
    for m in tok.finditer(body):
        w = m[0]
        if w in ("(", "[", "{"):
            depth += 1
            continue
        if w in (")", "]", "}"):
            depth -= 1
            shadow = [(n, d) for n, d in shadow if d <= depth]
            continue
        if w not in sub:
            continue
        if body[: m.start()].endswith("."):
            if not body[: m.start()].endswith(" .") and re.search(r"[\w)₀'\]]\.\Z", body[: m.start()]):
                continue
        lam = re.search(r"λ[^.()]*\Z|λ[^.]*\([^()]*\Z", body[: m.start()])
        bind = lam and not re.search(r":[^)]*\Z", lam[0]) or re.search(r"\blet \Z", body[: m.start()]) or (re.match(r"[^():]*\s:\s", body[m.end() :]) and re.search(r"\((?:" + W + r"\s)*\Z", body[: m.start()]))
        if bind:
            shadow.append((w, depth if lam or "let" in body[max(0, m.start() - 5) : m.start()] else depth - 1))
            continue
        if any(n == w for n, _ in shadow):
            continue
        out.append((m.start(), m.end(), sub[w]))
    for s, e, t in reversed(out):
        body = body[:s] + t + body[e:]
    return body


def write(path, text):
    with open(path, "w", encoding="utf-8") as it:
        it.write(text)


# ---------------------------------------------------------------- crates

def names_of(root, crate):
    out = f"/tmp/answers-names-{os.getuid()}{root.replace(os.sep, '-')}/{crate}"
    os.makedirs(out, exist_ok=True)
    at = os.path.join(out, "names.json")
    if os.path.exists(at):
        os.remove(at)
    r = subprocess.run(["rt", "check", "--generated", out, "--old-names"], cwd=os.path.join(root, "crates", crate), capture_output=True, text=True)
    if not os.path.isfile(at):
        print(r.stdout[-3000:] + r.stderr[-1000:])
        raise SystemExit(f"answers: {crate}: rt wrote no names.json; do the crates below it prove?")
    with open(at, encoding="utf-8") as it:
        return json.load(it)


def main(argv):
    keep = "--keep" in argv
    argv = [a for a in argv if not a.startswith("--")]
    if not argv:
        raise SystemExit(__doc__)
    root = os.getcwd()
    contracts = Contracts(root)
    for crate in argv:
        names = names_of(root, crate)
        base = os.path.join("crates", crate, "proofs")
        files = sorted(os.path.join(f, "Proof.antt") for f, _, fs in os.walk(base) if "Proof.antt" in fs)
        for path in files:
            folder = os.path.relpath(os.path.dirname(path), base)
            module = folder.replace(os.sep, ".")
            key = next((k for k in names if norm(k) == norm(f"Rattle-{crate}-proofs.{module}.Lts")), None)
            if key is None:
                left(path, 1, "no names for this function: is it still there? a cycle?")
                continue
            fn = "::".join([crate] + folder.split(os.sep))
            f = File(crate, path, Names(names[key], fn, contracts), fn, module, contracts)
            try:
                ok = f.convert()
            except Exception as e:  # noqa: BLE001
                import traceback
                left(path, 1, f"the script failed: {e!r} {traceback.format_exc().splitlines()[-3].strip()}")
                ok = False
            if ok:
                if keep:
                    os.replace(path, path + ".old")
                else:
                    os.remove(path)
    print("\n".join(LEFT))
    print(f"answers: {len(LEFT)} places left")


if __name__ == "__main__":
    main(sys.argv[1:])
