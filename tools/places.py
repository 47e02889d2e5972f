#!/usr/bin/env python3
"""Counts, in the sources of a checkout, the places that docs/DESIGN-PASS.md speaks of, point by point.

usage: tools/places.py [-l] [POINT..]      -l lists each place; with no POINT, all points

It goes by text. A place that it counts is a candidate: the page says which of them are such and which only look like it.
"""

import collections
import glob
import re
import sys


def sources():
    """The lines of every source file, and its whole text; comments are blanked, so that nothing in them counts."""
    for path in sorted(glob.glob("crates/*/src/**/*.rt", recursive=True)):
        text = open(path, encoding="utf-8").read()
        yield path, re.sub(r"//[^\n]*", "", text)


def spots(pattern, flags=re.M):
    """Where a pattern stands: file, line, and the first line of what it matched."""
    for path, text in sources():
        for m in re.finditer(pattern, text, flags):
            start = m.start() + (len(m.group(0)) - len(m.group(0).lstrip()))
            yield path, text.count("\n", 0, start) + 1, text[start:].split("\n", 1)[0].strip()


def functions():
    """Each function: file, line, name, its parameters, and all that stands between them and its body."""
    for path, text in sources():
        for m in re.finditer(r"\bfn (\w+)[^(\n]*\((.*?)\)(?=\s*(?:->|\{|;|requires|ensures))", text, re.S):
            rest = text[m.end() :]
            body = re.search(r"^ *\{\}?$|\{\n|;\n", rest, re.M)
            yield path, text.count("\n", 0, m.start()) + 1, m.group(1), m.group(2), rest[: body.start() if body else 0]


def point1():
    yield "own enums", list(spots(r"^ *(?:pub )?enum \w+[^\n]*"))
    yield "bool fields of structs", [s for s in spots(r"^ {4}(?:pub(?:\(crate\))? )?\w+: bool,$")]
    yield "functions that answer bool, not named as a question", [
        s for s in spots(r"^ *(?:pub(?:\(crate\))? )?fn (?!is_|has_|are_|contains|may_|all_|parents_|builds_|votes_|voted_|same|equal|check|is\b)\w+[^;{]*?-> (?:io::)?(?:Result<)?bool", re.M | re.S)
    ]
    yield "early returns that `?` writes (let .. else, to None or an Err)", list(
        spots(r"^ *let (?:Some|Ok)\([^)]*\) = [^;{}]*?else \{\s*return (?:None|Err\([^;]*\));\s*\};", re.M | re.S)
    )
    yield "arms that wrap again what they unwrapped", list(
        spots(r"^ *(?:None => None|None => Err\(.*\)|Err\(_\) => Err\(.*\)|Some\((\w+)\) => (?:Ok\()?Some\(\1\).*|\w+::(?:MayNot|NoRoom) => None),$")
    )


def point2():
    where = collections.defaultdict(set)
    line = {}
    for path, n, name, _, _ in functions():
        where[name].add(path)
        line[path, name] = n
    common = {"new", "fmt", "main", "len", "is_empty", "push", "empty", "insert", "placeholder"}
    twice = sorted(n for n in where if len(where[n]) > 1 and n not in common)
    yield "names of functions that stand in two files", [(sorted(where[n])[0], line[sorted(where[n])[0], n], n + ": " + ", ".join(sorted(where[n]))) for n in twice]
    stems = collections.defaultdict(list)
    for path, n, name, _, _ in functions():
        stem = re.sub(r"\d+", "#", name)
        if "#" in stem:
            stems[stem].append((path, n, name))
    yield "names that differ in a number alone", [v[0][:2] + (" ".join(x[2] for x in v),) for v in stems.values() if len({x[2] for x in v}) > 1]


def point3():
    loops = list(spots(r"^ *(?:for|while|loop)\b[^\n]*\{$"))
    yield "loops", loops
    yield "of them over a range or by a condition", [s for s in loops if re.search(r"\.\.|^while (?!let)|^loop", s[2])]


def point4():
    yield "impls of traits that derives or conversions give", list(spots(r"^impl[^\n]* (?:PartialEq|Eq|PartialOrd|Ord|Clone|Copy|Default|From<[^\n]*|TryFrom<[^\n]*|(?:fmt::)?(?:Display|Debug)) for [^\n]*"))
    yield "functions named as such a thing", [
        (p, n, name) for p, n, name, _, _ in functions() if re.fullmatch(r"same|equal|is|eq|cmp|copy\w*|print|\w+_of|\w+_value|to_\w+|as_\w+|parse|number|value|character|answer", name)
    ]


def point5():
    facts = collections.defaultdict(list)
    for path, n, name, _, clauses in functions():
        for fact in set(re.findall(r"(\w[\w.]* [<≤] \w[\w.^ ]*\w|\w[\w.]* [<≤] \w)", clauses)):
            facts[re.sub(r"\.(?:now|old|new)", "", fact)].append((path, n, name))
    yield "bounds that stand in the contracts of three functions or more", [
        v[0][:2] + (f"{fact}: " + ", ".join(x[2] for x in v),) for fact, v in sorted(facts.items()) if len(v) >= 3
    ]
    pairs = collections.defaultdict(list)
    for path, n, name, params, _ in functions():
        kinds = sorted({re.sub(r"^mut ", "", p.split(":")[0].strip()) for p in re.split(r",(?![^<(\[]*[>)\]])", params) if ":" in p})
        for i, a in enumerate(kinds):
            for b in kinds[i + 1 :]:
                pairs[a, b].append((path, n, name))
    yield "pairs of parameters in four functions or more", [
        v[0][:2] + (f"{a}, {b}: " + ", ".join(x[2] for x in v),) for (a, b), v in sorted(pairs.items()) if len(v) >= 4
    ]


def point6():
    yield "arrays and lent slices in fields and locals", list(spots(r"^ *(?:pub(?:\(crate\))? )?(?:let mut )?\w+(?:: (?:\[[^\n]*;|&'a (?:mut )?\[)| = \[0; )[^\n]*"))
    yield "fields that count or point into them", list(spots(r"^ {4}(?:pub(?:\(crate\))? )?(?:at|from|filled|count|used|\w+_used|\w+_from|len|done): (?:usize|u32),$"))
    yield "parameters that are a place for a result, with a count as the answer", [(p, n, name) for p, n, name, params, _ in functions() if re.search(r"out: &mut \[", params)]


def point7():
    yield "function pointers and tables of them", list(spots(r"(?<![\w])(?:fn\(|dyn |\[fn)[^\n]*"))
    yield "matches on a step or a kind", list(spots(r"^ *match (?:act|step|kind|command|event|\w*keyword\w*)[^\n]*"))


def point8():
    n = files = 0
    for path in glob.glob("crates/*/proofs/**/*.antt", recursive=True):
        files += 1
        n += open(path, encoding="utf-8").read().count("\n")
    answers = glob.glob("crates/*/proofs/**/Answers.antt", recursive=True)
    walks = glob.glob("crates/*/proofs/**/Proof.antt", recursive=True)
    return n, files, len(answers), len(walks)


def main():
    args = sys.argv[1:]
    listing = "-l" in args
    wanted = [a for a in args if a != "-l"] or list("12345678")
    for p in wanted:
        if p == "8":
            print("point 8: %d lines of proofs in %d files; %d files of answers, %d proofs walked by hand" % point8())
            continue
        for what, found in globals()["point" + p]():
            print(f"point {p}: {len(found):3d}  {what}")
            if listing:
                for path, line, text in found:
                    print(f"    {path}:{line}: {text[:170]}")


main()
