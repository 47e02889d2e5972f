#!/usr/bin/env python3
"""Types whose names had dashes, in upper camel case as today's Rattle has them; run once, at the top, after tools/respell.py."""
import os, re

NAMES = {
    "Way-out": "WayOut",
    "Found-all": "FoundAll",
    "Tables-stand": "TablesStand",
    "Examples-stand": "ExamplesStand",
    "Any-pieces": "AnyPieces",
    "Unforged-stays": "UnforgedStays",
    "Unforged-joins": "UnforgedJoins",
    "Reads-back-unended": "ReadsBackUnended",
    "Reads-back": "ReadsBack",
    "Only-written": "OnlyWritten",
    "Ideal-can-be-met": "IdealCanBeMet",
}

for folder, dirs, files in os.walk("crates"):
    dirs[:] = [d for d in dirs if d != "out"]
    for name in files:
        if name.endswith((".antt", ".rt")):
            path = os.path.join(folder, name)
            text = open(path, encoding="utf-8").read()
            turned = text
            for old, new in NAMES.items():
                turned = re.sub(rf"(?<![\w-]){old}(?![\w-])", new, turned)
            if turned != text:
                open(path, "w", encoding="utf-8").write(turned)
