#!/usr/bin/env python3
"""Moves the theorems of some crates from specs/ to proofs/: a wrong definition is refused today only by what stands in proofs/.
It ran once, after respell.py (docs/PORT.md). Run it at the top of the repository."""
import os
import re

MOVED = {
    "model": ["Laws", "Main"],
    "syntax": ["Laws", "Main", "Demand2", "Demand3"],
    "heap": ["Laws", "Main"],
    "calendar": ["Laws", "Main"],
    "instants": ["Laws", "Main"],
}


def texts():
    for folder, dirs, files in os.walk("crates"):
        dirs[:] = [d for d in dirs if d != "out"]
        for name in files:
            if name.endswith((".antt", ".rt")):
                yield os.path.join(folder, name)


def main():
    for crate, names in MOVED.items():
        specs, proofs = f"crates/{crate}/specs", f"crates/{crate}/proofs"
        os.makedirs(proofs, exist_ok=True)
        head, kept = [], []
        for line in open(f"{specs}/Lib.antt", encoding="utf-8"):
            (head if line.strip() in [f"pub mod {n}" for n in names] else kept).append(line)
        open(f"{specs}/Lib.antt", "w", encoding="utf-8").writelines(kept)
        if head:
            new = not os.path.exists(f"{proofs}/Lib.antt")
            with open(f"{proofs}/Lib.antt", "a", encoding="utf-8") as lib:
                if new:
                    lib.write("-- The theorems: Main and the demands restate what matters most, Laws prove all.\n")
                lib.writelines(head)
        for name in names:
            for end in ("", ".antt"):
                if os.path.exists(f"{specs}/{name}{end}"):
                    os.rename(f"{specs}/{name}{end}", f"{proofs}/{name}{end}")
    for path in texts():
        text = new = open(path, encoding="utf-8").read()
        for crate, names in MOVED.items():
            new = re.sub(rf"\bRattle\.{crate}\.specs\.({'|'.join(names)})\b", rf"Rattle.{crate}.proofs.\1", new)
        if new != text:
            open(path, "w", encoding="utf-8").write(new)


main()
