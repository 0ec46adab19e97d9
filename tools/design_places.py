#!/usr/bin/env python3
"""The places of src/ that docs/DESIGN-PASS.md counts: tools/design_places.py [--list] [POINT ..], at the top of the repository.

Each point has its own patterns; what a pattern finds is a place, whether it stays or not."""
import collections
import glob
import re
import sys

FILES = sorted(f for f in glob.glob("crates/*/src/**/*.rt", recursive=True) if "/out/" not in f)
TEXT = {f: open(f).read() for f in FILES}
CODE = {f: re.sub(r"//[^\n]*", "", s) for f, s in TEXT.items()}


def line(f, at):
    return TEXT[f].count("\n", 0, at) + 1 if at else 1


def found(pattern, flags=re.M):
    for f in FILES:
        for m in re.finditer(pattern, CODE[f], flags):
            yield f, CODE[f].count("\n", 0, m.start()) + 1, m.group(0).split("\n")[0].strip()


def enums():
    for f in FILES:
        for m in re.finditer(r"\benum (\w+) \{\n(.*?)\n\}", CODE[f], re.S):
            cases = [c.strip() for c in m.group(2).split("\n") if c.strip()]
            yield f, CODE[f].count("\n", 0, m.start()) + 1, m.group(1), cases


ERRORS = r"(Refused|Broken|Bad|Full|Malformed|EventsShort|TooManyStreams|TimeOutside|ImageShort|OutputShort|Underway|ResponseWrong)\b"


def result_shaped():
    """Own enums that say a value or why there is none."""
    for f, n, name, cases in enums():
        if any(re.match(ERRORS, c) for c in cases) and any(not re.match(ERRORS, c) for c in cases):
            if not all("(" not in c for c in cases) or any(c.startswith("Refused(") for c in cases) or "Done" in "".join(cases):
                yield f, n, "enum " + name


def option_shaped():
    """Own enums of two cases, one of them without a value."""
    for f, n, name, cases in enums():
        if len(cases) == 2 and sum("(" in c for c in cases) == 1 and not any(re.match(ERRORS, c) for c in cases):
            yield f, n, "enum " + name


def number_kinds():
    """Functions that give the number of a refusal, a kind or a state."""
    for f, n, t in found(r"fn (\w*_code|create|put_payload|drop_payload|\w*refused_place)\([^{]*?\) -> u8"):
        yield f, n, t


def loops():
    for f, n, t in found(r"^\s*while .*$"):
        yield f, n, t


def counted_loops():
    """`while` over an index or a count that the body steps itself."""
    for f in FILES:
        for m in re.finditer(r"^( *)while ([^{]*)\{\n(.*?)\n\1\}", CODE[f], re.S | re.M):
            for v in re.findall(r"\b(\w+)\b", m.group(2)):
                if re.search(r"\b%s (\+|-)= \d+;" % v, m.group(3)) or re.search(r"\b%s (\+|-)= \w+;" % v, m.group(3)):
                    yield f, CODE[f].count("\n", 0, m.start()) + 1, "while " + m.group(2).strip()
                    break


def by_hand():
    """Equality, copies and conversions written by hand."""
    for f in FILES:
        for m in re.finditer(r"fn (is_\w+|\w+_of|\w+_word|\w+_number|handed_on|with_\w+)\([^)]*\) -> [^{]*?\{(?:\s*let [^;]*;)*\s*match (\w+) \{(.*?)\n    \}", CODE[f], re.S):
            arms = re.findall(r"=> ([^,{]+),", m.group(3))
            if arms and all(re.fullmatch(r"(true|false|[A-Z_0-9]+|\w+::\w+(\([^)]*\))?|\d+|\w+ as u\d+|\w+(\.0)?( as u\d+)?)", a.strip()) for a in arms):
                yield f, CODE[f].count("\n", 0, m.start()) + 1, "fn " + m.group(1)
        for m in re.finditer(r"\b(\w+) \{\n((?: +\w+: (\w+)\.\w+(?:\.0)?,\n| +\w+: [^\n]*,\n)+?) +\}", CODE[f]):
            copied = re.findall(r"^ +(\w+): (?:\w+\()?(\w+)\.(\w+)(?:\.0\))?,$", m.group(2), re.M)
            same = [c for c in copied if c[0] == c[2]]
            if len(same) >= 4:
                yield f, CODE[f].count("\n", 0, m.start()) + 1, f"{m.group(1)} {{ {len(same)} fields copied }}"


def repeated_clauses():
    """Facts that stand in the `requires` of three or more functions."""
    count = collections.Counter()
    where = {}
    for f in FILES:
        for m in re.finditer(r"requires \{ (.*?) \}\n", CODE[f]):
            for part in re.split(r" × ", m.group(1)):
                part = part.strip().strip("()")
                count[part] += 1
                where.setdefault(part, (f, CODE[f].count("\n", 0, m.start()) + 1))
    for part, n in count.most_common():
        if n >= 3:
            yield where[part][0], where[part][1], f"{n} x {part}"


def travellers():
    """Four parameters that stand together, in this order, in three or more functions."""
    count = collections.Counter()
    where = {}
    for f in FILES:
        for m in re.finditer(r"fn \w+(?:<[^>]*>)?\(([^)]*)\)", CODE[f]):
            names = [p.strip().split(":")[0] for p in m.group(1).split(",") if p.strip()]
            for i in range(len(names) - 3):
                k = " ".join(names[i : i + 4])
                count[k] += 1
                where.setdefault(k, (f, CODE[f].count("\n", 0, m.start()) + 1))
    for k, n in count.most_common():
        if n >= 3:
            yield where[k][0], where[k][1], f"{n} x {k}"


KEPT = "let mut if else for in while return match as self true false Some None Ok Err".split()


def functions():
    """Each function: its file, line, name and body."""
    for f in FILES:
        rows = CODE[f].split("\n")
        for n, row in enumerate(rows):
            m = re.match(r"( *)(?:pub(?:\([a-z]+\))? )?fn (\w+)", row)
            if not m:
                continue
            pad = m.group(1)
            opens = (k for k in range(n, len(rows)) if rows[k] in (pad + "{", pad + "{}") or (k == n and row.endswith("{")) or (rows[k].startswith(pad + ")") and rows[k].endswith("{")))
            at = next(opens, None)
            if at is None:
                continue
            close = next((k for k in range(at + 1, len(rows)) if rows[k] == pad + "}"), at)
            yield f, n + 1, m.group(2), "\n".join(rows[at + 1 : close])


def twins():
    """Functions whose bodies are one text but for names, numbers and types (six words or more)."""
    groups = collections.defaultdict(list)
    for f, n, name, text in functions():
        body = re.sub(r"\b(u8|u16|u32|u64|usize)\b", "T", text)
        body = re.sub(r"\b[A-Z]\w*\b", lambda x: x.group(0) if x.group(0) in KEPT else "C", body)
        body = re.sub(r"\b\d+\b", "0", body)
        names = {}
        body = re.sub(r"\b[a-z_]\w*\b", lambda x: x.group(0) if x.group(0) in KEPT else names.setdefault(x.group(0), f"v{len(names)}"), body)
        body = " ".join(body.split())
        if len(re.findall(r"\w+", body)) >= 6:
            groups[body].append((f, n, name))
    for g in groups.values():
        if len(g) > 1:
            for f, n, name in g:
                yield f, n, f"fn {name} (1 of {len(g)})"


def buffers():
    """Arrays of a fixed size, and a length or a count that travels with one."""
    for f, n, t in found(r"\[u(8|64); \w+\]"):
        yield f, n, t


def steps():
    """A number or an enum that says which step to run; tables of functions."""
    for f, n, t in found(r"\bdyn \w+|\bfn\(|\bimpl Fn|\bF: Fn"):
        yield f, n, t


POINTS = [
    ("1a own enums of the shape of Result", result_shaped),
    ("1b own enums of the shape of Option", option_shaped),
    ("1c numbers for refusals", number_kinds),
    ("2 twins", twins),
    ("3 loops that count by hand", counted_loops),
    ("3 (all `while`)", loops),
    ("4 equality, copies, conversions by hand", by_hand),
    ("5a facts in three or more clauses", repeated_clauses),
    ("5b parameters that travel together", travellers),
    ("6 arrays of a fixed size", buffers),
    ("7 closures, dyn, tables of functions", steps),
]


def main():
    args = [a for a in sys.argv[1:] if a != "--list"]
    for name, places in POINTS:
        if args and not any(name.startswith(a) for a in args):
            continue
        got = list(places())
        print(f"{len(got):5}  {name}")
        if "--list" in sys.argv:
            for f, n, t in got:
                print(f"       {f}:{n}: {t}")


main()
