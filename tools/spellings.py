#!/usr/bin/env python3
"""Brings the names of this repository's definitions and lemmas to the spelling of today's Rattle: words in snake case, types in camel case.

usage: tools/spellings.py table    prints the rows, old and new, of the names that are declared in specs/ and proofs/
       tools/spellings.py turn     turns them in every .rt and .antt file, by the kit's own snake.py

A dash stays between two parts that are names of definitions, and is a low line otherwise. A new name that stands somewhere already
is no row: it is told on standard error as 'kept:'. Names of the library and of what the checker generates are left alone.
"""
import glob
import os
import re
import subprocess
import sys
import tempfile

WORD = re.compile(r'[^\s(){}.;,@"«»]+')
DECLARED = re.compile(r'^(\s*)((?:abbrev |unfoldable |pub |record |data )*)([^\s(){}.;,@"«»:]+)(?: ?[:(]| \{)')
KEYWORDS = {"use", "let", "in", "module", "record", "unfolding", "where", "infixl", "infixr", "pub", "mod", "λ", "--", "elim", "case"}
# a name in a path or of a field hides nothing
FREE = re.compile(r'(?<![^\s(){};,@"«»])([^\s(){}.;,@"«»]+)(?![^\s(){};,@"«».])(?! *=(?!=))(?!\.)')
BEGUN = re.compile(r"\buse [^\s{;]*\.([^\s{;.]+)(?: as [^\s;]+)?$", re.M)
OPERATOR = re.compile(r"[^\x00-\x7f]|[+*/<>=|&]")


def files(*ends):
    for folder, dirs, names in os.walk("crates"):
        dirs[:] = [d for d in dirs if d != "out"]
        for n in sorted(names):
            if n.endswith(ends):
                yield os.path.join(folder, n)


def text(p):
    with open(p, encoding="utf-8") as f:
        return f.read()


def bare(t):
    return "\n".join(l for l in t.splitlines() if not l.lstrip().startswith("--"))


def declared():
    """Names of specs/ and of the lemma files of proofs/; the folders of functions have names that follow the checker's."""
    names = {}
    for p in glob.glob("crates/*/specs/**/*.antt", recursive=True) + glob.glob("crates/*/proofs/*.antt"):
        for l in bare(text(p)).splitlines():
            m = DECLARED.match(l)
            if m and m.group(3) not in KEYWORDS:
                names.setdefault(m.group(3), set()).add("defined" if "/specs/" in p else "lemma")
    return names


def foreign():
    """Names that files take from elsewhere: the library's and the checker's."""
    out = set()
    for p in files(".antt", ".rt"):
        for m in re.finditer(r"(?:ghost )?use ([^;\n{]*?)\{([^}]*)\}", text(p)):
            root = m.group(1).strip()
            own = re.match(r"Rattle\.(\w+)\.(specs|proofs)\.", root)
            std = re.match(r"Rattle\.(std|core)\b", root)
            made = re.search(r"\.(TheVariants|Statement|Tie|Reads|declared)\b", root)
            if not own or std or made:
                out |= {w.split(" as ")[0].strip() for w in m.group(2).split(",")}
    return out


def snake(w):
    if not re.match(r"[a-z]", w):
        return w
    return re.sub(r"(?<=[a-z0-9'])([A-Z])", lambda m: "_" + m.group(1).lower(), w)


def respelled(n, words):
    if re.fullmatch(r"[A-Z0-9]+(-[A-Z0-9]+)+", n):
        return n.replace("-", "_")
    parts = [p if re.match(r"[A-Z]", p) else snake(p) for p in n.split("-")]
    out = parts[0]
    for a, b in zip(parts, parts[1:]):
        out += ("-" if a in words and b in words else "_") + b
    return out


def table():
    """Rows of names with a capital or a dash, and rows of lemmas that make room for a definition's name."""
    names = declared()
    other = foreign()
    words = {snake(n) for n in names if "-" not in n} | {n for n in other if "-" not in n}
    words |= {"length", "get_or", "set", "take", "drop", "cond", "map", "append", "min", "max", "sum"}
    used = set()
    for p in files(".antt"):
        t = bare(text(p))
        used |= {m.group(1) for m in FREE.finditer(t)} - {m.group(1) for m in BEGUN.finditer(t)}
    rows, room, taken = [], [], {}
    # definitions first: they get the plain name, and a lemma of it "_lem"
    for n in sorted(names, key=lambda n: ("defined" not in names[n], n)):
        if n in other or OPERATOR.search(n) or n.startswith("_"):
            continue
        new = respelled(n, words)
        if new == n:
            continue
        if "defined" not in names[n] and (new in used or new in taken):
            new += "_lem"
        elif new in used and new not in taken:
            if new + "_lem" in used or "defined" in names.get(new, ()):
                print(f"kept: {n} would be {new}, which stands already", file=sys.stderr)
                continue
            room.append((new, new + "_lem"))
        if new in taken:
            print(f"kept: {n} would be {new}, which stands for {taken[new]}", file=sys.stderr)
            continue
        taken[new] = n
        rows.append((n, new))
    return rows, room


def make_room(rows):
    """A lemma's name moves away, but not the name of a function of the code in a path."""
    for p in files(".antt"):
        t = old = text(p)
        for a, b in rows:
            t = re.sub(r'(?<![^\s(){};,])' + re.escape(a) + r'(?=[\s(){};,])(?! *=(?!=) *[^=]*;)', b, t) if a in t else t
        if t != old:
            with open(p, "w", encoding="utf-8") as f:
                f.write(t)


def turn(rows):
    doc = subprocess.run(["rt", "doc"], capture_output=True, text=True, check=True).stdout.strip()
    tool = os.path.join(os.path.dirname(doc), "port", "notes", "2026-11-18-names-are-in-snake-case", "snake.py")
    with tempfile.NamedTemporaryFile("w", suffix=".tsv", delete=False) as f:
        f.write("".join(f"{a}\t{b}\n" for a, b in rows))
    r = subprocess.run([sys.executable, tool, "--table", f.name, "--only", "antt,rt", "crates"])
    os.unlink(f.name)
    return r.returncode


if __name__ == "__main__":
    os.chdir(os.path.join(os.path.dirname(os.path.abspath(__file__)), ".."))
    if sys.argv[1:] == ["table"]:
        for a, b in sum(table(), []):
            print(f"{a}\t{b}")
    elif sys.argv[1:] == ["turn"]:
        rows, room = table()
        make_room(room)
        raise SystemExit(turn(rows))
    else:
        print(__doc__)
        raise SystemExit(2)
