#!/usr/bin/env python3
"""Brings the names of definitions and lemmas to today's spelling: words in snake case, types and facts in camel case.

usage: python3 tools/spell.py [--list]      at the top of the repository, once, after the kit's port.py

A name that is defined in crates/*/specs or crates/*/proofs, or bound inside a proof there, and that has a dash, gets
underscores in its place, or, if it begins with a capital letter, no dash and a capital for each word. It is turned wherever
it stands as a whole word in .rt and .antt files, head comments too; behind a dot, where a bound name can't stand, only a
defined one is turned. Names of goals, which the toolchain makes, and names of the library stay.
--list prints what would be turned, and names that would fall together, and writes nothing.
"""
import glob
import re
import sys

WORD = r"[^\s(){}\[\].,;:«»`⟦⟧@\"]+"
DEFINED = re.compile(r"^\s*(?:(?:abbrev|unfoldable|pub|data|record)\s+)*(" + WORD + r")(?:\s+[({].*[)}])?\s*:(?![=:])")
GOAL = re.compile(r"^\s*(?:(?:abbrev|pub)\s+)*(" + WORD + r")\s*:\s*(?:goal|need|given)\.")
LET = re.compile(r"\blet (" + WORD + r")\s*(?=[:=])")
PARAMS = re.compile(r"[({]((?:" + WORD + r" )+): ")
HEAD = re.compile(r"^\s*(" + WORD + r")((?: " + WORD + r")+) =(?: |$)")


def files():
    return sorted(p for p in glob.glob("crates/*/s*/**/*.*", recursive=True) + glob.glob("crates/*/proofs/**/*.antt", recursive=True) if p.endswith((".rt", ".antt")))


def turned(name):
    if name[0].isupper():
        return "".join(part[:1].upper() + part[1:] for part in name.split("-"))
    return name.replace("-", "_")


def main(argv):
    texts = {}
    for p in files():
        with open(p, encoding="utf-8") as f:
            texts[p] = f.read()
    defined, goals, imported, local = {}, set(), set(), set()
    for p, text in texts.items():
        if not p.endswith(".antt"):
            continue
        for line in text.splitlines():
            use = re.match(r"\s*(?:ghost )?use (\S+?)\.\{(.*)\}", line)
            if use:
                if not re.match(r"Rattle\.(\w+)\.", use.group(1)) or use.group(1).split(".")[1] in ("std", "core"):
                    imported |= {n.strip().split(" as ")[0] for n in use.group(2).split(",")}
                continue
            g = GOAL.match(line)
            if g:
                goals.add(g.group(1))
                continue
            d = DEFINED.match(line)
            if d and not line.lstrip().startswith("--"):
                defined.setdefault(d.group(1), set()).add(p)
            local |= {m.group(1) for m in LET.finditer(line)}
            local |= {n for m in PARAMS.finditer(line) for n in m.group(1).split()}
            head = HEAD.match(line)
            if head and head.group(1) != "let":
                local |= set(head.group(2).split())
    known = set(defined) | local
    names = {n: turned(n) for n in known if re.search(r"\w-\w", n) and n not in goals and n not in imported}
    for n in sorted(names):
        if names[n] in known or names[n] in imported:
            print(f"falls together: {n} and {names[n]}")
    if "--list" in argv:
        print("\n".join(f"{n} -> {names[n]}" for n in sorted(names)))
        print("left, of goals:", " ".join(sorted(n for n in defined if "-" in n and n not in names)))
        return
    word = re.compile(r"(?<![^\s(){}\[\].,;:«»`⟦⟧@\"])(" + WORD + r")")
    for p, text in texts.items():
        new = word.sub(lambda m: names.get(m.group(1), m.group(1)) if m.group(1) in defined or text[m.start() - 1] != "." else m.group(1), text)
        if new != text:
            with open(p, "w", encoding="utf-8") as f:
                f.write(new)


main(sys.argv[1:])
