#!/usr/bin/env python3
"""Respells the repository's own definitions and lemmas after port.py: words in snake case, types in camel case.

usage: respell.py [--check] [ROOT]     in the repository, once, after port.py

A name of specs/ or proofs/ that has a dash or a capital inside, as plan-at or planAt, becomes plan_at. A type, which begins with a
capital, keeps it and loses its dash, as Within-lists; a lemma on a type keeps the dash behind the type, as All-first_occurrences; a
middle dot goes, as in Transformed·yes. Functions of src/, strings, inputs, outputs and names that Rattle makes stay. Where two names
would fall together in a file, the one with a dash gets _lem: each such name is printed as 'kept:'. The table of all names goes to
tools/respelled.tsv; the same table is applied to the must-fail edits and, between backticks, to the pages.
"""
import collections
import os
import re
import sys

TOKEN = re.compile(r"[^\s(){}\[\].;,@\"«»`\\]+")
DEFINED = re.compile(r"^( *)((?:(?:abbrev|unfoldable|pub|mutual)\s+)*)((?:[^\s:(){}.,\"`]+\s+)*?[^\s:(){}.,\"`]+)\s+:(?:\s|$)")
HEAD = re.compile(r"^( *)(?:(?:pub|abbrev|unfoldable)\s+)*(data|record|ruleset)\s+([^\s:(){}]+)")
USE = re.compile(r"^\s*(?:ghost )?(?:pub )?use ([^\s{;]+?)(?:\.\{([^}]*)\})?(?: as ([^\s;]+))?;?\s*$")
KEYWORDS = set("use module where open let in elim do record data pub mod as abbrev unfolding unfold mutual infix infixl infixr ruleset λ Σ Π → × ≡ = | ← at".split())
# Words of antt and of the library that stand where no line imports them.
TAKEN = {"first_of", "by_compare"}
# Definitions that would fall together with another.
NAMED = {
    "either-and": "either_and_option",
    "is-leafward": "is_leafward_expr",
    "is-volatile": "is_volatile_expr",
    "madeBy": "schema_made_by",
    "sorts-before": "sorts_before_row",
    "type-of": "type_of_expr",
    "words-ok": "words_ok_plan",
}


def files(root, *ends):
    for folder, dirs, names in os.walk(root):
        dirs[:] = sorted(d for d in dirs if d not in ("out", ".git", "target", "node_modules"))
        for n in sorted(names):
            if n.endswith(ends):
                yield os.path.join(folder, n)


def read(p):
    with open(p, encoding="utf-8") as f:
        return f.read()


def snake(part):
    part = re.sub(r"(?<=[a-z0-9₀-₉'])([A-Z]+)", lambda m: "_" + m[1].lower(), part)
    return part


def respelled(name):
    if "·" in name:
        return "_".join(p[0].lower() + p[1:] for p in name.split("·"))
    if name.startswith("+") or not re.search(r"[A-Za-z]", name):
        return name
    parts = name.split("-")
    if any(p == "" for p in parts):
        return name
    if re.match(r"[A-Z]", name):
        if len(parts) == 1:
            return name
        return parts[0] + "-" + "_".join(snake(p) if not re.match(r"[A-Z]", p) else p for p in parts[1:])
    out = snake(parts[0])
    for p in parts[1:]:
        if re.match(r"[A-Z]", p) and len(p) > 1:
            out += "-" + p
        elif re.match(r"[^A-Za-z0-9_]", p):
            out += "-" + p
        else:
            out += "_" + snake(p[0].lower() + p[1:])
    return out


def uncommented(line):
    i = line.find("--")
    while i >= 0:
        if (i == 0 or line[i - 1] in " (") and (i + 2 >= len(line) or line[i + 2] in " -\n"):
            return line[:i], line[i:]
        i = line.find("--", i + 2)
    return line, ""


def own_names(root):
    """Names that .antt files define: by file, and whether the name heads a type."""
    by_file, types = collections.defaultdict(set), set()
    for p in files(os.path.join(root, "crates"), ".antt"):
        inside = None
        for line in read(p).split("\n"):
            code = uncommented(line)[0]
            m = HEAD.match(code)
            if m:
                by_file[p].add(m[3])
                types.add(m[3])
                continue
            m = DEFINED.match(code)
            if m and len(m[1]) <= 12:
                for n in m[3].split():
                    if n in KEYWORDS or n.startswith(("(", "[", "λ")) or not re.match(r"[A-Za-z₀-₉_'?!+*∷≡-]+", n):
                        break
                    by_file[p].add(n)
    return by_file, types


def main(argv):
    check = "--check" in argv
    words = [a for a in argv if a != "--check"]
    root = words[0] if words else "."
    by_file, types = own_names(root)
    own = set().union(*by_file.values())
    want = {n: respelled(n) for n in own}
    for n in types:
        if "-" in n:
            want[n] = "".join(p[0].upper() + p[1:] for p in n.split("-"))
    want.update((n, m) for n, m in NAMED.items() if n in own)
    want = {n: m for n, m in want.items() if n != m}
    # where each token stands
    where = collections.defaultdict(set)
    foreign = collections.defaultdict(set)  # names that a file brings in from elsewhere
    texts = {}
    for p in list(files(os.path.join(root, "crates"), ".antt", ".rt")):
        texts[p] = read(p)
        clause = 0
        for line in texts[p].split("\n"):
            code = uncommented(line)[0] if p.endswith(".antt") else line.split("//")[0]
            seen = re.sub(r"(?<=[\w'\])])\.[^\s(){}\[\].;,@\"]+", " ", code)
            if USE.match(code):
                m = USE.match(code)
                seen = (m[2] or "") + " " + (m[3] or "")
            elif p.endswith(".rt"):
                # names of clauses alone: functions of src/ may have the name of their definition
                seen = ""
                m = re.match(r"\s*(requires|ensures|ghost)\b[^{]*\{(.*)$", code)
                if m or clause:
                    seen = m[2] if m else code
                    clause += code.count("{") - code.count("}")
            for t in TOKEN.findall(seen):
                where[t].add(p)
            m = USE.match(code)
            if m and m[2] is not None and not m[1].startswith("Rattle."):
                foreign[p].update(x.strip().split(" as ")[0] for x in m[2].split(","))
            elif m and m[2] is not None and re.match(r"Rattle\.(std\w*|core|check)\.", m[1]):
                foreign[p].update(x.strip().split(" as ")[0] for x in m[2].split(","))
    back = collections.defaultdict(set)
    for n, m in want.items():
        back[m].add(n)
    kept = {}
    for m, olds in sorted(back.items()):
        everyone = sorted(olds | ({m} if m in where else set()))
        if m in TAKEN or re.match(r"(the|in|if|loop)_", m) and m in where:
            for n in olds:
                kept[n] = "a word of antt"
            continue
        for i, a in enumerate(everyone):
            for b in everyone[i + 1:]:
                both = where[a] & where[b]
                if both:
                    loser = next((x for x in (a, b) if x in want and "-" in x and x not in kept), None)
                    loser = loser or next((x for x in (a, b) if x in want and x not in kept), None)
                    if loser:
                        kept[loser] = f"{a} and {b} stand together in {sorted(both)[0]}"
    for n in kept:
        # a lemma that would have its function's name
        m = want[n] + "_lem"
        if m in where or m in want.values():
            del want[n]
        else:
            want[n] = m
    for n, why in sorted(kept.items()):
        print(f"kept: {n}{' as ' + want[n] if n in want else ''}: {why}")

    def turn(p, t, after):
        if t in want and t not in foreign.get(p, ()):
            return want[t]
        return t

    changed = 0
    for p, text in texts.items():
        out = []
        rt = p.endswith(".rt")
        for line in text.split("\n"):
            if rt:
                i = line.find("//")
                code, note = (line[:i], line[i:]) if i >= 0 else (line, "")
                pieces = re.split(r'(b?"(?:[^"\\]|\\.)*")', code)
            else:
                code, note = uncommented(line)
                pieces = [code]
            code = "".join(x if k % 2 else TOKEN.sub(lambda m: turn(p, m[0], None), x) for k, x in enumerate(pieces))

            def said(m):
                t = m[0]
                if t in want and t not in foreign.get(p, ()) and (re.search(r"[a-z][A-Z]", t) or note.startswith("--     ")):
                    return want[t]
                return t

            note = re.sub(r"`([^`]*)`", lambda m: "`" + TOKEN.sub(lambda k: turn(p, k[0], None), m[1]) + "`", note)
            note = TOKEN.sub(said, note)
            out.append(code + note)
        new = "\n".join(out)
        if new != text:
            changed += 1
            if not check:
                with open(p, "w", encoding="utf-8") as f:
                    f.write(new)
    others = 0
    for p in list(files(os.path.join(root, "crates"), ".edit")):
        text = read(p)
        new = "\n".join(
            line if line.startswith("file:") else line.split(":", 1)[0] + ":" + TOKEN.sub(lambda m: turn("", m[0], None), line.split(":", 1)[1]) if ":" in line else line
            for line in text.split("\n")
        )
        if new != text:
            others += 1
            if not check:
                with open(p, "w", encoding="utf-8") as f:
                    f.write(new)
    pages = [p for p in files(root, ".md") if "/landings/" not in p and "/docs/src/" not in p and "/harness/source/" not in p]
    for p in pages:
        text = read(p)
        new = re.sub(r"`([^`\n]*)`", lambda m: "`" + TOKEN.sub(lambda k: turn("", k[0], None), m[1]) + "`", text)
        if new != text:
            others += 1
            if not check:
                with open(p, "w", encoding="utf-8") as f:
                    f.write(new)
    print(f"{len(want)} names respelled in {changed} files; {others} edits and pages; {len(kept)} kept")
    if not check:
        os.makedirs(os.path.join(root, "tools"), exist_ok=True)
        with open(os.path.join(root, "tools", "respelled.tsv"), "w", encoding="utf-8") as f:
            f.writelines(f"{n}\t{m}\n" for n, m in sorted(want.items()))


if __name__ == "__main__":
    main(sys.argv[1:])
