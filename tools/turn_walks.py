#!/usr/bin/env python3
"""Turns old walks, proofs/F/Proof.antt, into Invariants.antt and Answers.antt. docs/order-2.patch still has such walks.

usage: turn_walks.py --inv NAMES CRATE OLD [F..]       writes the invariants and measures
       turn_walks.py --ans LOG NAMES CRATE OLD [F..]   writes answers to the goals that the check's output LOG calls open
       turn_walks.py NAMES CRATE OLD [F..]             writes both, for all goals that are not found by arithmetic or search alone

Run it in the crate's folder. OLD is a copy of proofs/ with the walks, CRATE (mostly .) the crate from which they were taken away, and NAMES
the file names.json that `rt check --generated OUT --old-names` wrote there. So: copy proofs/ away, delete each Proof.antt, ask for the names,
--inv, `rt check >LOG`, --ans, `rt check`. A walk's answers stand by position: they are matched with the goals by the steps that they cite.
What fits nothing is printed, and the check says the rest: mostly a `_` to be written out, or `x ≡ false` for `not x ≡ true` at `if !x`.
"""
import json, os, re, sys

PATH = re.compile(r"(?<![\w.'+*₀-₉-])([A-Za-zμλκ_][\w'₀-₉-]*)((?:\.[A-Za-z0-9_][\w'₀-₉-]*)*)")
DROP = re.compile(r"^(search rules|omega arith|tt|\(tt, tt\)|refl|search \(rules\))$")


BACK = {}
try:
    for line in open(os.path.join(os.path.dirname(os.path.abspath(__file__)), "respelled.tsv"), encoding="utf-8"):
        a, b = line.rstrip("\n").split("\t")
        BACK.setdefault(b, set()).add(a.replace("-", "_"))
except OSError:
    pass


def norm(s):
    return s.replace("-", "_").lower()


def close(t, i):
    """Index after the group that opens at i."""
    pairs = {"(": ")", "[": "]", "{": "}"}
    stack = []
    while i < len(t):
        ch = t[i]
        if t.startswith("--", i) and (i == 0 or t[i - 1] in " \n(") and i + 2 < len(t) and t[i + 2] in " -\n":
            i = t.find("\n", i)
            if i < 0:
                return len(t)
            continue
        if ch in pairs:
            stack.append(pairs[ch])
        elif stack and ch == stack[-1]:
            stack.pop()
            if not stack:
                return i + 1
        i += 1
    raise ValueError("unclosed")


def args_of(t):
    """The arguments of an application, as texts."""
    out, i = [], 0
    while i < len(t):
        if t[i].isspace():
            i += 1
            continue
        if t.startswith("-- ", i):
            i = t.find("\n", i)
            if i < 0:
                break
            continue
        j = i
        while j < len(t) and not t[j].isspace():
            if t[j] in "([{":
                j = close(t, j)
            elif t[j] in ")]}":
                return out
            else:
                j += 1
        out.append(t[i:j])
        i = j
    return out


def split_top(t, sep=","):
    out, i, last = [], 0, 0
    while i < len(t):
        if t[i] in "([{":
            i = close(t, i)
            continue
        if t[i] == sep:
            out.append(t[last:i])
            last = i + 1
        i += 1
    out.append(t[last:])
    out = [x.strip() for x in out]
    if out and out[-1] == "":
        out.pop()
    return out


class Fail(Exception):
    pass


class Place:
    def __init__(self, i, up=0):
        self.i, self.up = i, up


class Step:
    def __init__(self, i, new):
        self.i, self.new = i, new


class Clauses:
    """Clauses in nested pairs, from field k on."""
    def __init__(self, base, fields, k):
        self.base, self.fields, self.k = base, fields, k


class Both:
    """In a cycle: the measure's fact, then the clauses."""


class Given:
    def __init__(self, i, comps):
        self.i, self.comps = i, comps


class Table:
    def __init__(self, e, cycle, known):
        self.e, self.cycle, self.known, self.loose = e, cycle, known, 0
        self.places = e["places"]
        self.index = {}
        for i, p in enumerate(self.places):
            self.index.setdefault(p[0], i)

    def parent(self, i):
        p = self.places[i][1]
        return None if p is None else self.index[p]

    def chain(self, i):
        while i is not None:
            yield i
            i = self.parent(i)

    def step(self, i, comp):
        old, new = self.places[i][2]
        return old and (norm(old) == norm(comp) or norm(old) in BACK.get(comp, ()) or norm(old) == norm(re.sub(r"_lem(\d*)$", r"\1", comp)))

    def whole(self, st):
        """A state used as a term."""
        if isinstance(st, str):
            return st
        if isinstance(st, Clauses):
            left = st.fields[st.k:]
            t = f"{st.base}.{left[-1]}"
            for f in reversed(left[:-1]):
                t = f"({st.base}.{f}, {t})"
            return t
        if isinstance(st, Step):
            return f"c.{st.new}"
        if isinstance(st, Auto) and st.k == 0:
            return f"c.{st.step.new}.{st.word}"
        raise Fail(f"a whole {type(st).__name__}")

    def walk(self, st, comps):
        comps = list(comps)
        while comps:
            if isinstance(st, str):
                return ".".join([st] + comps)
            x = comps.pop(0)
            if isinstance(st, Place):
                if x == "before":
                    st = Place(st.i, st.up + 1)
                elif x in ("requires", "pre"):
                    pre = self.e["pre"]
                    if self.cycle:
                        st = Both()
                    elif pre:
                        st = Clauses("c.requires", pre["fields"], 0)
                    else:
                        st = "c.requires"
                elif x in ("args", "ranges", "lifetimes", "well_formed", "decreases"):
                    st = "c." + x
                else:
                    line = list(self.chain(st.i))
                    if st.up < len(line) and self.step(line[st.up], x):
                        i = line[st.up]
                    else:
                        fit = [k for k, i in enumerate(line) if self.step(i, x)]
                        fit = fit or [k for k, i in enumerate(line) if self.step(i, re.sub(r"\d+$", "", x))]
                        if not fit:
                            raise Fail(f"{x}, {st.up} before {self.places[st.i][0]}")
                        k = min(fit, key=lambda k: abs(k - st.up))
                        self.loose += 1
                        i = line[k]
                    st = Step(i, self.places[i][2][1])
            elif isinstance(st, Both):
                pre = self.e["pre"]
                if x == "0":
                    st = "c.decreases"
                elif x == "1":
                    st = Clauses("c.requires", pre["fields"], 0) if pre else "c.requires"
                else:
                    raise Fail("measure " + x)
            elif isinstance(st, Clauses):
                n = len(st.fields)
                if x == "0":
                    st = f"{st.base}.{st.fields[st.k]}"
                elif x == "1":
                    k = st.k + 1
                    st = f"{st.base}.{st.fields[k]}" if k == n - 1 else Clauses(st.base, st.fields, k)
                else:
                    raise Fail(f"clause {x}")
            elif isinstance(st, Step) and x == "given" and re.match(r"(shared_)?slice_known", norm(self.places[st.i][2][0])):
                var = next((v for v, o in self.e["typed"][st.i] if norm(o) == norm(self.places[st.i][2][0])), None)
                if var is None:
                    raise Fail("no variable of " + self.places[st.i][2][0])
                st = f"c.type_inv.{var}"
            elif isinstance(st, Step):
                arm = self.arm(st.i)
                if x in ("given", "ensures") and arm:
                    st = Given(st.i, [x])
                elif x == "given":
                    st = Given(st.i, [x])
                elif x == "ensures":
                    cl = self.e["clauses"][st.i]
                    if cl and cl.get("fields"):
                        st = Clauses(f"c.{st.new}.ensures", cl["fields"], 0)
                    else:
                        st = f"c.{st.new}.ensures"
                elif x in ("auto", "after", "new"):
                    st = Auto(st, "auto" if x == "auto" else "new", 0)
                elif x in ("same_long", "same-long"):
                    st = f"c.{st.new}.auto"
                else:
                    st = f"c.{st.new}.{x}"
            elif isinstance(st, Auto):
                callee = self.places[st.step.i][3]
                params = self.e["params"].get(callee, [])
                if x == "0":
                    if st.k >= len(params):
                        raise Fail("auto past parameters")
                    st = f"c.{st.step.new}.{st.word}.{params[st.k]}"
                elif x == "1":
                    st = Auto(st.step, st.word, st.k + 1)
                else:
                    st = f"c.{st.step.new}.{st.word}.{x}"
            elif isinstance(st, Given):
                st = Given(st.i, st.comps + [x])
            else:
                raise Fail(str(st))
            if isinstance(st, Given):
                got = self.arm_field(st)
                if got is not None:
                    st = got
        if isinstance(st, Given):
            got = self.arm_field(st, True)
            if got is None:
                raise Fail("given " + ".".join(st.comps))
            st = got
        return st

    def arm(self, i):
        for a in self.e["arms"]:
            if a and any(len(f) == 3 and f[1] == self.places[i][2][0] for f in a[2]):
                return a
        return None

    def arm_field(self, st, last=False):
        """The arm's name for a part of a step, where there is one."""
        own = self.places[st.i][2][0]
        best = None
        for a in self.e["arms"]:
            if not a:
                continue
            for f in a[2]:
                if len(f) == 3 and f[1] == own and f[2] and f[2] == st.comps:
                    best = (a, f)
        if best:
            a, f = best
            if f[0] == "ensures":
                cl = None
                for j, b in enumerate(self.e["arms"]):
                    if b and b[0] == a[0] and self.e["clauses"][j] and self.e["clauses"][j].get("fields"):
                        cl = self.e["clauses"][j]
                if cl:
                    return Clauses(f"c.{a[0]}.ensures", cl["fields"], 0)
            return f"c.{a[0]}.{f[0]}"
        return None


class Auto:
    def __init__(self, step, word, k):
        self.step, self.word, self.k = step, word, k


def rewrite(body, table, place, problems):
    """The body with its paths turned."""
    env = {"c": Place(place)}
    out, i = [], 0
    bad = 0
    LET = re.compile(r"let\s+([A-Za-z_][\w'₀-₉-]*)\s*=\s*([A-Za-z_][\w'₀-₉-]*(?:\.[\w'₀-₉-]+)*)\s+in\b")
    while i < len(body):
        if body.startswith("-- ", i):
            j = body.find("\n", i)
            j = len(body) if j < 0 else j
            out.append(body[i:j])
            i = j
            continue
        m = LET.match(body, i) if (i == 0 or not re.match(r"[\w.'-]", body[i - 1])) else None
        if m:
            parts = m[2].split(".")
            if parts[0] in env:
                try:
                    st = table.walk(env[parts[0]], parts[1:])
                except Fail as f:
                    problems.append(f"{m[0]}: {f}")
                    bad += 1
                    out.append(m[0])
                    i = m.end()
                    env.pop(m[1], None)
                    continue
                if isinstance(st, str):
                    env.pop(m[1], None)
                    out.append(f"let {m[1]} = {st} in")
                else:
                    env[m[1]] = st
                    # the let goes
                    i = m.end()
                    while i < len(body) and body[i] in " \n":
                        i += 1
                    continue
                i = m.end()
                continue
        m = PATH.match(body, i)
        if m and (i == 0 or not re.match(r"[\w.'₀-₉-]", body[i - 1])):
            head = m[1]
            comps = m[2].split(".")[1:] if m[2] else []
            if head in env:
                # a binder of that name shadows
                before = body[max(0, i - 40):i]
                if not comps and re.search(r"(λ|let)\s+(?:[\w'-]+\s+)*$", before):
                    env.pop(head)
                    out.append(head)
                    i = m.end()
                    continue
                try:
                    st = table.walk(env[head], comps)
                    out.append(table.whole(st) if comps or not isinstance(st, Place) else head)
                    if isinstance(st, Place) and not comps:
                        problems.append(f"whole {head}")
                        bad += 1
                except Fail as f:
                    problems.append(f"{m[0]}: {f}")
                    bad += 1
                    out.append(m[0])
                i = m.end()
                continue
            out.append(m[0])
            i = m.end()
            continue
        out.append(body[i])
        i += 1
    return "".join(out), bad


def unnot(t2):
    t2 = re.sub(r"\((?:not[-_]true|not[-_]false) _\s+(c\.[\w-]*if-not-[\w-]+\.(?:true|false))\)", r"\1", t2)
    t2 = re.sub(r"(?:not[-_]true|not[-_]false) _\s+(c\.[\w-]*if-not-[\w-]+\.(?:true|false))", r"\1", t2)
    return re.sub(r"\b(?:told|untold)(?: _)?\s+(c\.[\w-]*if-not-[\w-]+\.(?:true|false))", r"\1", t2)


def flat(t2):
    """Clauses that a list of facts has as a pair stand there one by one."""
    old = None
    while old != t2:
        old = t2
        t2 = re.sub(r"(omega \((?:[^()]|\([^()]*\))*?[,(]\s*)\((c\.requires\.[\w-]+(?:, c\.requires\.[\w-]+)*)\)", r"\1\2", t2)
    return t2


def as_record(body, fields, some=None):
    """The tuple that a body ends in, as a record of the fields."""
    t = body.rstrip()
    if some is not None and not t.endswith(")"):
        return None
    if not t.endswith(")"):
        if re.fullmatch(r"[\w.'-]+", t):
            n = len(fields)
            parts = [t + ".1" * k + (".0" if k < n - 1 else "") for k in range(n)]
            return "record { " + "; ".join(f"{f} = {p}" for f, p in zip(fields, parts)) + " }"
        return None
    # where the last group opens
    k, opened = 0, None
    while k < len(t):
        if t[k] in "([{":
            e = close(t, k)
            if e == len(t):
                opened = k
                break
            k = e
            continue
        k += 1
    if opened is None:
        return None
    inner = t[opened + 1:-1]
    parts = split_top(inner)
    if len(parts) < 2:
        if some is not None:
            return None
        got = as_record(inner, fields)
        return t[:opened] + "(" + got + ")" if got else None
    while len(parts) < len(fields):
        last = parts[-1]
        if last.startswith("(") and close(last, 0) == len(last):
            more = split_top(last[1:-1])
            if len(more) < 2:
                return None
            parts = parts[:-1] + more
        elif re.fullmatch(r"[\w.'-]+", last):
            parts = parts[:-1] + [last + ".0", last + ".1"]
        else:
            return None
    if len(parts) > len(fields):
        # the last clause is itself a tuple
        n = len(fields)
        parts = parts[: n - 1] + ["(" + ", ".join(parts[n - 1:]) + ")"]
    pre = t[:opened]
    if some is not None:
        if pre.strip() and not re.search(r"\bin\s*$", pre):
            return None
        return [(f, pre + p) for f, p in zip(fields, parts) if f in some]
    rec = "record { " + "; ".join(f"{f} = {p}" for f, p in zip(fields, parts)) + " }"
    if pre.strip() and not re.search(r"(\bin|=|\.)\s*$", pre):
        rec = "(" + rec + ")"
    return pre + rec


def decls(t):
    """Top-level pieces: (comment, text)."""
    out, note, cur = [], [], None
    for line in t.split("\n"):
        if line.startswith("--"):
            if cur is not None and cur.strip():
                out.append((note, cur))
                note, cur = [], None
            if cur is None:
                note.append(line)
            continue
        if line and line[0] in ")]}" and cur is not None:
            cur += "\n" + line
        elif line.startswith(("use ", "pub use ")):
            if cur is not None:
                out.append((note, cur))
                note = []
            cur = line
        elif line and not line[0].isspace():
            first = line.split()[0]
            if cur is not None and (cur.split("\n")[0].split(":")[0].split()[-1:] != [] ):
                names = set(re.findall(r"^(?:(?:abbrev|unfoldable|pub)\s+)*([^\s:]+)", cur))
                if first in names or first == "unfolding":
                    cur += "\n" + line
                    continue
                out.append((note, cur))
                note = []
            cur = line
        else:
            if cur is None:
                cur = line
            else:
                cur += "\n" + line
    if cur is not None and cur.strip():
        out.append((note, cur))
    return [(n, c.rstrip()) for n, c in out if c.strip()]


def substitute(text, table):
    def one(m):
        if m[1] in table:
            return table[m[1]] + m[2]
        return m[0]
    return PATH.sub(one, text)


def convert(names, crate, crate_dir, old_root, folder, said, mode="all", opened=None):
    p = os.path.join(old_root, folder, "Proof.antt")
    text = open(p, encoding="utf-8").read()
    prefix = f"Rattle-{crate}-proofs." + folder.replace("/", ".") + "."
    keys = [k for k in names if k.startswith(prefix)]
    if not keys:
        said.append("no names")
        return
    cyclic = os.path.basename(folder).startswith("+")
    pieces = decls(text)
    head = pieces[0][0] if pieces else []
    uses = [c for _, c in pieces if c.startswith(("use ", "pub use "))]
    rest = [(n, c) for n, c in pieces if not c.startswith(("use ", "pub use "))]
    skip = re.compile(r"\.proofs\.[\w.+]+\.(Statement|Tie|Reads|Kinds|Lts[\w-]*|Goals|Given)\b|^use borrow\.Fn\.")
    def generated(u):
        return bool(skip.search(u)) or ("{statement}" in u) or ("{close}" in u)
    uses = [u for u in uses if not generated(u)]
    main, invs, mus, helpers, named = None, {}, {}, [], {}
    for n, c in rest:
        first = re.match(r"(?:(?:abbrev|unfoldable|pub)\s+)*([^\s:]+)", c)[1]
        if re.search(r"\bstatement M\b", c):
            main = c
        elif re.search(r":\s*Measures\b", c):
            mus[first] = c
        elif re.search(r":\s*ℕ → In\b", c):
            pass
        elif re.search(r"^(?:pub )?[\w'+-]+ :\s*(?:\([^)]*\) → )*[\w+-]+\.[Nn]eed[-_]", c):
            lines = c.split("\n")
            k = next(i for i, l in enumerate(lines) if i and l.startswith(first + " "))
            eq = "\n".join(lines[k:])
            bs, rhs = eq.split("=", 1)
            u = next((l for l in lines[1:k] if l.startswith("unfolding")), None)
            named[first] = ("(λ " + " ".join(bs.split()[1:]) + ". " + rhs.strip() + ")", u)
        elif re.search(r":\s*[\w+-]+\.(invariant|decreases|InvT|MeasureT|inv_t|measure_t)[-_]", c):
            invs[first] = c
        else:
            helpers.append((n, c))
    if main is None:
        said.append("no main")
        return
    unf = re.search(r"^unfolding (.*)$", main, re.M)
    body = main.split("=", 1)[1]
    # the blocks of arguments: one for each function
    blocks = []
    for m in re.finditer(r"\(?\btie\.spec\b|([\w-]+)\.spec\b", body):
        start = m.end()
        if m[0].startswith("("):
            end = close(body, m.start()) - 1
        else:
            # to the end of the group that holds it
            depth, k, end = 0, start, len(body)
            while k < len(body):
                if body[k] in "([{":
                    k = close(body, k)
                    continue
                if body[k] in ")]}":
                    end = k
                    break
                k += 1
        blocks.append(((m[1] or "tie"), args_of(body[start:end])))
    # an alias of a generated module to its function
    alias = dict(re.findall(r"^use Rattle\.\w+\.proofs\.[\w.+]+\.Lts-([\w]+) as ([\w-]+)$", text, re.M))
    alias = {v: k for k, v in alias.items()}
    answers, invariants = [], []
    cycle_functions = [k[len(prefix):][4:] for k in keys if k[len(prefix):].startswith("Lts-")]
    for name, args in blocks:
        if cyclic:
            fn = alias.get(name) or (cycle_functions[0] if len(cycle_functions) == 1 else None)
            key = prefix + "Lts-" + fn if fn else None
            args = args[3:] if args and args[0].startswith("(") else args[2:]
        else:
            key = prefix + "Lts"
            if args and not args[0].startswith("(λ") and args[0] not in invs and args[0].startswith("("):
                args = args[1:]
        if key not in names:
            said.append(f"no names for {name}")
            continue
        e = names[key]
        tb = Table(e, cyclic, None)
        lam, other, own_unf = [], [], {}
        for a in args:
            if a.startswith("(λ"):
                lam.append(a)
            elif a in named:
                own_unf[len(lam)] = named[a][1]
                lam.append(named[a][0])
            else:
                other.append(a)
        for a in other:
            if a not in invs and a.strip("()") not in invs:
                said.append(f"an argument that is no answer: {a[:60]}")
        # invariants and measures of loops
        for a in other:
            if a not in invs:
                continue
            d = invs[a]
            kind, loop = re.search(r":\s*[\w+-]+\.(invariant|decreases|InvT|MeasureT)[-_]([\w-]+)", d).groups()
            kind = {"InvT": "invariant", "MeasureT": "decreases"}.get(kind, kind)
            at = next((k for k, l in enumerate(e["loops"]) if norm(l[0][0]) == norm(loop)), None)
            if at is None:
                said.append(f"no loop {loop}: {[l[0] for l in e['loops']]}")
                continue
            new = e["loops"][at][0][1]
            vars_, changed = e["loops"][at][1], e["changed"][at]
            lines = d.split("\n")
            k = next(i for i, l in enumerate(lines) if l.startswith(a + " ") or l.startswith(a + "\n") and "=" in l)
            eq = "\n".join(lines[k:])
            binders, rhs = eq.split("=", 1)
            binders = binders.split()[1:]
            sub = {}
            want = len(vars_) + sum(changed)
            if len(binders) != want:
                said.append(f"{a}: {len(binders)} binders, {want} wanted: {binders} {vars_} {changed}")
            cur = [v for v, ch in zip(vars_, changed) if ch]
            for b, (v, ch) in zip(binders, zip(vars_, changed)):
                if b != "_":
                    sub[b] = f"l.initial.{v}" if ch else f"l.{v}"
            for b, v in zip(binders[len(vars_):], cur):
                if b != "_":
                    sub[b] = f"l.{v}"
            unfl = [l for l in lines[1:k] if l.startswith("unfolding")]
            stem = f"{kind}-{new}"
            invariants.append((stem, substitute(rhs, sub), unfl))
        # answers
        needs, asked_at = list(e["needs"]), list(e["asked_at"])
        # that a slice keeps its length was asked right before the return
        for x in e["settled"]:
            m = re.match(r"shape_of-(\w+?)(-(?:then|else|in|in_default|in_ok|in_err)-.*)?$", x)
            if not m:
                continue
            want = "returns" + (m[2] or "")
            at = next((k for k, n2 in enumerate(needs) if n2[1] and (n2[1] == want or n2[1].startswith(want + "-clause"))), None)
            if at is not None:
                needs.insert(at, ["shape", None])
                asked_at.insert(at, asked_at[at])
        def parts_of(a):
            t = a[1:-1].strip()
            m = re.match(r"λ\s+([^.]*)\.\s*", t)
            b, t = m[1].split(), t[m.end():]
            return b, t
        def attempt(a, j):
            b, t = parts_of(a)
            pr = []
            place = tb.index.get(asked_at[j][0])
            if place is None:
                return None, 9, [f"no place {asked_at[j][0]}"], b
            t2, bad = rewrite(t, tb, place, pr)
            return t2, bad, pr, b
        na, nn = len(lam), len(needs)
        pairs = {}
        # longest alignment, from the end; a pair counts by how well the paths fit
        import functools
        sc = {}
        def score(i, j):
            if (i, j) not in sc:
                tb.loose = 0
                t2, bad, pr, b = attempt(lam[i], j)
                loose = tb.loose
                has = len(re.findall(r"\bc\.[a-z0-9]", lam[i]))
                s = 1 + min(has, 8) / 2 - 0.25 * loose if not bad else -4 * bad
                old = needs[j][0]
                kap = "κs" in b
                req = bool(re.search(r"-requires(-\d+)?$", old)) or old.startswith(("slice_aggregate", "slice_range"))
                if kap != req:
                    s -= 1
                if needs[j][1] is None:
                    trivial = bool(re.fullmatch(r"\(λ [^.]*\. (search rules|omega arith|refl)\)", lam[i]))
                    sc[(i, j)] = (s if not bad else s) + (0.5 if trivial or ".auto" in lam[i] else 0)
                    if len(b) > 1:
                        sc[(i, j)] -= 1.5
                    return sc[(i, j)]
                plain = bool(re.match(r"(overflow|offset_bounds|nonzero|shift)", needs[j][1]) or needs[j][1].endswith("-smaller"))
                if plain and not re.search(r"omega|search|\.less|\.falls", lam[i]):
                    s -= 1.5
                if i == na - 1 and j == nn - 1:
                    s += 2
                sc[(i, j)] = s
            return sc[(i, j)]
        best = [[0] * (nn + 1) for _ in range(na + 1)]
        move = [[None] * (nn + 1) for _ in range(na + 1)]
        for i in range(na + 1):
            for j in range(nn + 1):
                if i == 0 and j == 0:
                    continue
                opts = []
                if i and j and abs((na - i) - (nn - j)) <= abs(na - nn) + 8:
                    opts.append((best[i - 1][j - 1] + score(i - 1, j - 1), "m"))
                if i:
                    opts.append((best[i - 1][j] - 1.5, "a"))
                if j:
                    opts.append((best[i][j - 1] - (1.2 if needs[j - 1][1] is None else 2.5), "n"))
                best[i][j], move[i][j] = max(opts, key=lambda o: (o[0], o[1] == "m"))
        i, j = na, nn
        lost = []
        while i or j:
            mv = move[i][j]
            if mv == "m":
                pairs[j - 1] = i - 1
                i, j = i - 1, j - 1
            elif mv == "a":
                lost.append(i - 1)
                i -= 1
            else:
                j -= 1
        for j in range(nn):
            if needs[j][1] is None:
                continue
            new = (e.get("stem") or "") + needs[j][1]
            if opened is not None and new not in opened and not any(o.startswith(new + "-clause-") for o in opened):
                continue
            if j not in pairs:
                said.append(f"{new}: nothing fits")
                continue
            a = lam[pairs[j]]
            t2, bad, pr, b = attempt(a, j)
            for x in pr:
                said.append(f"{new}: {x}")
            b = [x for x in b if x not in ("c", "κs", "κ")]
            fields = e["asked"].get(new) or e["asked"].get(needs[j][0])
            if opened is not None:
                if new not in opened and not any(o.startswith(new + "-clause-") for o in opened):
                    continue
            elif DROP.match(re.sub(r"\s+", " ", t2.strip())) and not b:
                continue
            t2 = t2.strip()
            some = [f for f in fields or [] if opened is not None and f"{new}-clause-{f}" in opened]
            if fields and not b and some and new not in opened and len(some) < len(fields):
                parts = as_record(t2, fields, some)
                if parts is not None:
                    for f, part in parts:
                        answers.append((f"{new}-clause-{f}", "t c" if cyclic else "c", unnot(flat(part)), own_unf.get(pairs[j]) or (unf[0] if unf else None)))
                    continue
            if fields and not b:
                got = as_record(t2, fields)
                if got is None:
                    said.append(f"{new}: not a record of {fields}")
                else:
                    t2 = got
            if b:
                t2 = "λ " + " ".join(b) + ". " + t2
            t2 = re.sub(r"λ ([\w' ]+)\. λ ", r"λ \1 ", t2) if t2.startswith("λ") else t2
            t2 = unnot(flat(t2))
            c_arg = "t c" if cyclic else "c"
            answers.append((new, c_arg, t2, own_unf.get(pairs[j]) or (unf[0] if unf else None)))
        if lost:
            said.append(f"left out {len(lost)} (settled {e['settled']}): " + " | ".join(re.sub(r"\s+", " ", lam[i])[:60] for i in reversed(lost)))
        # the measure of a cycle
        for mname, d in mus.items():
            fn = key.split("Lts-")[-1]
            if len(mus) > 1 and norm(mname.replace("μ-", "").replace("μ_", "")) != norm(fn):
                continue
            rhs = d.split("\n", 1)[1].split("=", 1)[1]
            params = next((n2["params"][x] for n2 in names.values() if isinstance(n2, dict) and "params" in n2 for x in n2["params"] if x.endswith("::" + fn)), [])
            def one(m):
                k = m[0].count(".1")
                if k < len(params):
                    return f"l.{params[k]}"
                return m[0]
            rhs = re.sub(r"\ba((?:\.1)*)\.0\b", one, rhs)
            invariants.insert(0, (f"decreases-{fn}", rhs, []))
    out = os.path.join(crate_dir, "proofs", folder)
    os.makedirs(out, exist_ok=True)
    old = os.path.join(out, "Proof.antt")
    if os.path.exists(old):
        os.remove(old)
    module = f"Rattle.{crate}.proofs." + folder.replace("/", ".")
    note = "\n".join(head) + "\n" if head else ""
    body_of = lambda n, c: ("\n".join(n) + "\n" if n else "") + c
    def called(c):
        return re.match(r"(?:(?:abbrev|unfoldable|pub|record|data)\s+)*([^\s:]+)", c)[1]
    def mentions(text, name):
        return re.search(r"(?<![\w.'-])" + re.escape(name) + r"(?![\w'-])", text)
    inv_text = "\n".join(r for _, r, _ in invariants)
    shared, again = [], True
    while again:
        again = False
        for k, (n, c) in enumerate(helpers):
            if k not in shared and (mentions(inv_text, called(c)) or any(mentions(helpers[j][1], called(c)) for j in shared)):
                shared.append(k)
                again = True
    def public(c):
        return c if re.match(r"(abbrev |unfoldable )?pub ", c) else re.sub(r"^(abbrev |unfoldable )?", lambda m: (m[1] or "") + "pub ", c, count=1)
    shared.sort()
    helper_text = "\n\n".join(body_of(*h) for k, h in enumerate(helpers) if k not in shared)
    taken = [called(helpers[k][1]) for k in shared]
    if invariants and mode in ("all", "inv"):
        need = []
        for k in shared:
            n, c = helpers[k]
            c = public(c)
            if c.startswith("pub record"):
                c = re.sub(r"(?m)^  (?!pub )([\w'-]+ :)", r"  pub \1", c)
            need.append(body_of(n, c))
        with open(os.path.join(out, "Invariants.antt"), "w", encoding="utf-8") as f:
            f.write(note + "\n".join(uses) + ("\n" if uses else "") + f"use {module}.Given as goal\n\n")
            if need:
                f.write("\n\n".join(need) + "\n\n")
            for stem, rhs, unfl in invariants:
                f.write(f"abbrev pub {stem} : goal.{stem}\n")
                for u in unfl:
                    f.write(u + "\n")
                f.write(f"{stem} l ={rhs.rstrip()}\n\n")
    if answers and mode in ("all", "ans"):
        with open(os.path.join(out, "Answers.antt"), "w", encoding="utf-8") as f:
            f.write((note if not invariants else "") + "\n".join(uses) + ("\n" if uses else "") + (f"use {module}.Invariants.{{{', '.join(taken)}}}\n" if taken else "") + f"use {module}.Goals as goal\n\n")
            if helper_text:
                f.write(helper_text + "\n\n")
            for new, c_arg, t2, opens in answers:
                f.write(f"pub {new} : goal.{new}\n")
                if opens:
                    f.write(opens + "\n")
                f.write(f"{new} {c_arg} =\n    {t2}\n\n")


def main(argv):
    mode, log = "all", None
    if argv[0] == "--inv":
        mode, argv = "inv", argv[1:]
    elif argv[0] == "--ans":
        mode, log, argv = "ans", argv[1], argv[2:]
    names = json.load(open(argv[0]))
    crate_dir, old_root = argv[1], argv[2]
    crate = os.path.basename(os.path.abspath(crate_dir))
    folders = argv[3:]
    if not folders:
        for d, _, fs in sorted(os.walk(old_root)):
            if "Proof.antt" in fs:
                folders.append(os.path.relpath(d, old_root))
    opened = None
    if log:
        opened, done = {}, set()
        for line in open(log, encoding="utf-8"):
            m = re.match(r"fn [\w:]+: (.*)", line)
            if not m:
                continue
            for p, names_ in re.findall(r"expected answers in \./proofs/(\S+)/Answers\.antt; `search` did not prove ((?:`[^`]+`(?:, )?)+)", m[1]):
                opened.setdefault(p, set()).update(re.findall(r"`([^`]+)`", names_))
            if "is not made yet" in m[1]:
                opened.setdefault("/".join(line.split(":")[2:2]), set())
        # a function whose proof could not be looked at gets all its answers
        unmade = set(re.findall(r"(?m)^fn ([\w:]+): no proof: the borrow checker's part", open(log, encoding="utf-8").read()))
        unmade = {u.split("::", 1)[1].replace("::", "/") for u in unmade}
    for f in folders:
        said = []
        try:
            if log:
                if f in unmade:
                    convert(names, crate, crate_dir, old_root, f, said, mode, None)
                elif f in opened:
                    convert(names, crate, crate_dir, old_root, f, said, mode, opened[f])
                else:
                    continue
            else:
                convert(names, crate, crate_dir, old_root, f, said, mode)
        except Exception as ex:
            import traceback
            said.append("FAILED " + repr(ex) + traceback.format_exc()[-300:])
        for s in said:
            print(f"{f}: {s}")


main(sys.argv[1:])
