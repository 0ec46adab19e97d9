#!/usr/bin/env python3
"""Spells the repository's own names as today's Rattle does, after port.py: functions, lemmas, fields and variables of .antt files and of clauses
in snake case, types in camel case.

usage: python3 tools/snake_names.py         once, at the top, on what port.py left

Names fall together in 145 places, for the words-level name was in camel case (`putStream`) and the model's had dashes (`put-stream`). There
the words-level one gets `_words` behind it; a lemma named like a function gets `_lem`, and a model's function that meets a word of the same
name gets `model_` before it. tools/snake_names.tsv is the table that was used: old, a tab, new.
"""
import collections
import os
import re

ROOT = os.getcwd()
CRATES = os.path.join(ROOT, "crates")
QUIET = re.compile(r'"(?:[^"\\\n]|\\.)*"|(?<![^\s(){};,@"«»])--[^\n]*|\{-.*?-\}', re.S)
WORD = re.compile(r'[^\s(){}.;,@"«»`⟨⟩]+')
NAME = re.compile(r"[A-Za-z_][A-Za-z0-9_'-]*")
OPEN = re.compile(r"(?:requires|ensures)\s*\*?\s*(?:\w+\s*)?\{|ghost\s*(?:\w+\s*(?::\s*)?|=\s*)?\{")
USE = re.compile(r"^[ \t]*(?:ghost )?(?:pub )?use ([^{;\n]*)(\{[^}]*\})?", re.M)
DECLARED = re.compile(r"(?m)^[ \t]*(?:(?:abbrev|unfoldable|opaque|pub|let|mutual|where) )*([A-Za-z_][A-Za-z0-9_'-]*)(?: (?:\{[^{}\n]*\}|\([^()\n]*\)))* :(?= |$)")
BOUND = re.compile(r"[({λ] ?((?:[a-z_][A-Za-z0-9_'-]* )+):")
TYPES = re.compile(r"(?m)^[ \t]*(?:(?:abbrev|unfoldable|opaque|pub|data|record) )+([A-Z][A-Za-z0-9]*-[A-Za-z0-9_-]+)[^\n]*Type 0")
# Names of fields, which stand behind a dot and so meet nobody.
FIELDS = {"response-number"}
# Chosen by hand: InTurn stands beside it.
CHOSEN = {"In-turn": "IsInTurn"}
# Names that Rattle makes of goals.
MADE = re.compile(r"returns-\d+|invariant-loop\d*|decreases-.*|loop\d*-.*")
OURS = set(os.listdir(CRATES))


def snake(n):
    n = re.sub(r"(?<=[a-z0-9])([A-Z])", lambda m: "_" + m[1].lower(), n)
    return n.replace("-", "_")


def camel(n):
    return "".join(w[:1].upper() + w[1:] for w in re.split("[-_]", n))


def texts():
    for folder, dirs, files in os.walk(CRATES):
        dirs[:] = sorted(d for d in dirs if d != "out")
        for f in sorted(files):
            if f.endswith((".antt", ".rt")):
                yield os.path.join(folder, f)


def read(p):
    with open(p, encoding="utf-8") as f:
        return f.read()


def blank(m):
    return re.sub(r"[^\n]", " ", m[0])


def clause_spans(t):
    """Where the clauses, ghost items and imports of a .rt file stand."""
    bare = re.sub(r'"(?:[^"\\\n]|\\.)*"|//[^\n]*', blank, t)
    spans = [m.span() for m in re.finditer(r"ghost use[^;]*;", bare)]
    i = 0
    while True:
        m = OPEN.search(bare, i)
        if not m:
            return sorted(spans)
        d, j = 1, m.end()
        while d and j < len(bare):
            d += (bare[j] == "{") - (bare[j] == "}")
            j += 1
        spans.append((m.end(), j - 1))
        i = j


def code(p, t):
    """The text with all blanked that is no antt."""
    if p.endswith(".antt"):
        return QUIET.sub(blank, t)
    out, at = [], 0
    for a, b in clause_spans(t):
        out.append(re.sub(r"[^\n]", " ", t[at:a]))
        out.append(t[a:b])
        at = b
    out.append(re.sub(r"[^\n]", " ", t[at:]))
    return "".join(out)


def of_library(c):
    """Names that a file imports from a library."""
    out = set()
    for m in USE.finditer(c):
        head = m[1].strip().split(".")
        ours = head[0] == "Rattle" and len(head) > 1 and head[1] in OURS
        if not ours and m[2]:
            out.update(w.split(" as ")[-1].strip() for w in m[2][1:-1].split(","))
    return out


def table():
    free, declared, model, types, top, library, imported = collections.defaultdict(set), set(), set(), set(), collections.Counter(), {}, set()
    labels = set()
    for p in texts():
        c = code(p, read(p))
        library[p] = of_library(c)
        imported |= library[p]
        if p.endswith(".antt"):
            names = set(DECLARED.findall(c))
            for m in BOUND.finditer(c):
                names.update(m[1].split())
            declared |= names
            types |= set(TYPES.findall(c))
            if re.search(r"crates/(queue|receiver|reset)_model/specs/", p):
                model |= set(re.findall(r"(?m)^(?:(?:abbrev|unfoldable|pub|opaque) )+([a-z][A-Za-z0-9_'-]*)[^\n]* :", c))
        u = USE.sub(lambda m: " " * (m.end(1) - m.start()) + (m[2] or ""), c)
        for m in WORD.finditer(u):
            w = m[0]
            if not NAME.fullmatch(w) or not re.match("[a-z_]", w):
                continue
            if m.start() and u[m.start() - 1] == ".":
                if snake(w) != w:
                    labels.add(w)
                continue
            if u[m.end() : m.end() + 3] == " = " and re.search(r"record (?:[^{}\s]+ )?\{[^{}]*$", u[max(0, m.start() - 900) : m.start()]):
                continue
            free[w].add(p)
    new = {}
    for w in set(free) | declared:
        if re.match("[a-z_]", w) and snake(w) != w and (w in declared or w not in imported):
            new[w] = snake(w)
    groups = collections.defaultdict(set)
    for w in free:
        groups[snake(w)].add(w)
    taken = {snake(w) for w in free}
    for k, ws in sorted(groups.items()):
        if not any(free[a] & free[b] for a in ws for b in ws if a < b):
            continue
        for w in sorted(ws):
            if w not in new:
                continue
            if re.search("[a-z0-9][A-Z]", w):
                if not (ws - {w}) & model and all("-" in v for v in ws - {w}):
                    continue
                to = k + "_words"
                new[w] = to if to not in taken else k + "_in_words"
            elif w in FIELDS:
                continue
            elif w in model:
                if k in ws:
                    new[w] = "model_" + k
            elif k in ws or any(re.search("[a-z0-9][A-Z]", v) and not (ws - {v}) & model for v in ws):
                new[w] = k + "_lem"
    for w in types:
        new[w] = CHOSEN.get(w, camel(w))
    # What stands behind dots alone are labels that Rattle made of the source's names.
    for w in labels - set(free) - declared - imported:
        new[w] = snake(w)
    for w in list(new):
        if MADE.fullmatch(w):
            del new[w]
    return new, library


def turned(c, t, new, skip):
    """t with each name of new turned where c, of the same length, is not blank."""
    out, at = [], 0
    for m in WORD.finditer(c):
        w = m[0]
        if w in new and w not in skip:
            out.append(t[at : m.start()])
            out.append(new[w])
            at = m.end()
    out.append(t[at:])
    return "".join(out)


class Prose(dict):
    """The table, and the names that port.py turned: those whose new spelling the crates have."""

    def __init__(self, new, words):
        super().__init__(new)
        self.words = words

    def __contains__(self, w):
        return super().__contains__(w) or bool(re.fullmatch("[a-z][A-Za-z0-9_'-]*", w)) and snake(w) != w and snake(w) in self.words

    def __missing__(self, w):
        return snake(w)


def spans_turned(t, new):
    """Names in code spans of prose."""
    return re.sub(r"`[^`\n]+`", lambda m: turned(m[0], m[0], new, ()), t)


def main():
    new, library = table()
    with open(os.path.join(ROOT, "tools", "snake_names.tsv"), "w", encoding="utf-8") as f:
        f.writelines(f"{a}\t{b}\n" for a, b in sorted(new.items()))
    for p in texts():
        t = read(p)
        s = turned(code(p, t), t, new, library[p])
        mark = "--" if p.endswith(".antt") else "//"
        s = re.sub(rf"(?m)^[ \t]*{mark}[^\n]*", lambda m: spans_turned(m[0], new), s)
        if s != t:
            with open(p, "w", encoding="utf-8") as f:
                f.write(s)
    words = set()
    for p in texts():
        words.update(WORD.findall(code(p, read(p))))
    said = Prose(new, words)
    prose = [os.path.join(ROOT, f) for f in ("README.md", "CHANGELOG.md", "rust/README.md", "tests/README.md")]
    prose += [os.path.join(ROOT, "docs", f) for f in sorted(os.listdir(os.path.join(ROOT, "docs"))) if f.endswith(".md")]
    for p in prose:
        if os.path.exists(p):
            t = read(p)
            s = spans_turned(t, said)
            if s != t:
                with open(p, "w", encoding="utf-8") as f:
                    f.write(s)
    for folder, dirs, files in os.walk(CRATES):
        for f in files:
            if f.endswith(".edit"):
                p = os.path.join(folder, f)
                t = read(p)
                s = re.sub(r"(?m)^(?:old|new):[^\n]*", lambda m: turned(m[0], m[0], said, ()), t)
                if s != t:
                    with open(p, "w", encoding="utf-8") as f2:
                        f2.write(s)


main()
