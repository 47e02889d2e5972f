#!/usr/bin/env python3
"""Brings the names of this repository's definitions and lemmas to the spelling of today's Rattle; run once, at the top, right after port.py.

Words are in snake case: a lower-case word with capitals inside (bookOf, map-isIn) becomes book_of, map-is_in. In a name that a file of specs/ or a
lemma file of proofs/ defines, a dash that doesn't stand between two names of definitions becomes an underscore (count-is, count_is). Types, modules,
constructors, Rust's names and the names that Rattle makes from source (in-Some, returns-else-self) stay. It says which names fall together."""
import os, re, subprocess

# words of the library that the left or the right side of a dash can be, besides the repository's own definitions
LIBRARY = {"length", "map", "take", "drop", "set", "get_or", "reverse", "sum", "+", "++", "[]", "∷"}
TOKEN = re.compile(r"[^\s(){}\[\];,.\"@\\λ:=|«»`]+")
CAMEL = re.compile(r"^[a-z][a-z0-9_']*[A-Z]")
DEFINED = re.compile(r"^(?:abbrev |unfoldable |opaque )?(?:pub )?([a-z][^\s:({]*)\s*:(?!:)")
DEFINED_ALL = re.compile(r"^(?:abbrev |unfoldable |opaque )?(?:pub )?([a-z][^\s:({]*)\s*:(?!:)", re.M)
FIELD = re.compile(r"^  (?:pub )?([a-z][^\s:({]*)\s*:(?!:)")


def files():
    for folder, dirs, names in os.walk("crates"):
        dirs[:] = sorted(d for d in dirs if d != "out")
        for n in sorted(names):
            if n.endswith((".antt", ".rt")):
                yield os.path.join(folder, n)


def own(path):
    """Whether the file defines the repository's words: a file of specs/, or one that lies right in proofs/."""
    parts = path.split("/")
    return parts[2] == "specs" or (parts[2] == "proofs" and len(parts) == 4)


def snake(part):
    # a capital after an underscore is a type's or a fact's, as in not_T
    if not CAMEL.match(part):
        return part
    part = re.sub(r"([a-z0-9])([A-Z])", r"\1_\2", part)
    part = re.sub(r"([A-Z])([A-Z][a-z])", r"\1_\2", part)
    return part.lower()


def words(token):
    """The token with each of its parts in snake case, the dashes as they are."""
    return "-".join(p if re.search(r"(^|_)[A-Z]", p) else snake(p) for p in token.split("-"))


def undashed(token, known):
    parts = token.split("-")
    name = parts[0]
    for i, p in enumerate(parts[1:], 1):
        left = name.rsplit("-", 1)[-1]
        rest = "-".join(parts[i:])
        keeps = f"{left}_{p}" not in known and left in known and (p in known or rest in known or p == "" or not re.match(r"[a-z0-9]", p))
        name += ("-" if keeps else "_") + p
    return name


def main():
    texts = {p: open(p, encoding="utf-8").read() for p in files()}
    defined, fields, specs = set(), set(), set(LIBRARY)
    for p, t in texts.items():
        if not p.endswith(".antt") or not own(p):
            continue
        for line in t.split("\n"):
            for kind, into in ((DEFINED, defined), (FIELD, fields)):
                m = kind.match(line)
                if m:
                    into.add(m.group(1))
                    if p.split("/")[2] == "specs" and kind is DEFINED:
                        specs.add(words(m.group(1)))
    turned = {}
    for n in defined | fields:
        new = undashed(words(n), specs)
        if new != n:
            turned[n] = new
    # a lemma that would have a definition's name in one crate gets _lem, one that already has that name too
    words_of_crate = {}
    for p, t in texts.items():
        if p.endswith(".antt"):
            words_of_crate.setdefault(p.split("/")[1], set()).update(TOKEN.findall(t))
    in_specs = {n for p, t in texts.items() if p.endswith(".antt") and p.split("/")[2] == "specs" for n in DEFINED_ALL.findall(t)}
    for new in sorted({words(n) for n in in_specs}):
        olds = {n for n in defined | fields if turned.get(n, n) == new and n not in in_specs}
        for old in olds:
            spec = {n for n in in_specs if turned.get(n, n) == new}
            if any(old in w and spec & w for w in words_of_crate.values()):
                turned[old] = new + "_lem"
    said = []
    for p, t in texts.items():
        before = set(TOKEN.findall(t))
        made = {}
        code = not own(p) and p.endswith(".antt")

        def turn(m, line, comment):
            token = m.group()
            ahead = line[: m.start()]
            new = words(token)
            if token in turned and not comment:
                made_by_rattle = code and (re.search(r"(goal|given)\.$", ahead) or (ahead == "" or ahead in ("pub ", "abbrev pub ")) or (ahead.endswith(".") and token not in fields))
                if made_by_rattle:
                    said.append(f"stays: {p}: {line.strip()[:100]}: {token}")
                else:
                    new = turned[token]
            if new != token:
                made.setdefault(new, token)
            return new

        lines = []
        for line in t.split("\n"):
            if p.endswith(".rt") and re.match(r"\s*//", line):
                head, tail = "", line
            elif "-- " in line and p.endswith(".antt"):
                i = line.index("-- ")
                head, tail = line[:i], line[i:]
            else:
                head, tail = line, ""
            head = TOKEN.sub(lambda m: turn(m, head, False), head)
            tail = TOKEN.sub(lambda m: turn(m, tail, True) if CAMEL.match(m.group()) else m.group(), tail)
            lines.append(head + tail)
        for new, old in made.items():
            if new in before:
                said.append(f"falls together: {p}: {old} and {new}")
        text = "\n".join(lines)
        if text != t:
            with open(p, "w", encoding="utf-8") as f:
                f.write(text)
            if p.endswith(".rt"):
                for a, b in zip(t.split("\n"), lines):
                    if a != b and not re.search(r"ghost|requires|ensures|^\s+(\||,|\(|elim)", a):
                        said.append(f"rust line: {p}: {a.strip()[:110]}")
    both = {}
    for old, new in turned.items():
        both.setdefault(new, []).append(old)
    said += [f"one name: {' '.join(sorted(olds))} -> {new}" for new, olds in sorted(both.items()) if len(olds) > 1 or new in defined | fields]
    for crate in sorted(os.listdir("crates")):
        subprocess.run(["rt", "fmt"], cwd=os.path.join("crates", crate), stdout=subprocess.DEVNULL)
    print("\n".join(said))
    print(f"{len(turned)} names respelled")


main()
