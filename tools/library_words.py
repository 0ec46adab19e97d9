#!/usr/bin/env python3
"""Takes `if◌then◌else◌` from the library, which has it now with the same two cases, in every file that imports the one of queue_model.

usage: python3 tools/library_words.py     at the top; a second run changes nothing
"""
import os
import re

OWN = re.compile(r"(?m)^((?:ghost )?(?:pub )?use )(Rattle\.\w+\.specs\.Logic)\.\{([^}]*\bif◌then◌else◌[^}]*)\}(;?)\n")


def turned(text):
    def taken(m):
        names = [w.strip() for w in m[3].split(",") if w.strip()]
        left = [w for w in names if w != "if◌then◌else◌"]
        out = f"{m[1]}Rattle.std.specs.Prelude.{{if◌then◌else◌}}{m[4]}\n"
        if left:
            out += f"{m[1]}{m[2]}.{{{', '.join(left)}}}{m[4]}\n"
        return out

    return OWN.sub(taken, text)


for folder, dirs, files in os.walk("crates"):
    dirs[:] = [d for d in dirs if d != "out"]
    for f in files:
        if f.endswith((".antt", ".rt")):
            p = os.path.join(folder, f)
            with open(p, encoding="utf-8") as g:
                t = g.read()
            s = turned(t)
            if s != t:
                with open(p, "w", encoding="utf-8") as g:
                    g.write(s)
