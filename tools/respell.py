#!/usr/bin/env python3
"""Spells the repository's own definitions and lemmas in snake case, as today's Rattle does: nodeOf and first-item become node_of and
first_item. It ran once, after the toolchain's own script (docs/PORT.md). Run it at the top of the repository.

usage: respell.py [--check]     --check changes nothing and lists the names that would fall together
"""
import os
import re
import sys

TOKEN = re.compile(r"[^\s(){}\[\],;.@\"«»]+")
DECLARED = re.compile(r"^\s*(?:\|\s*)?(?:abbrev |unfoldable )?(?:pub )?([^\s:(){}\[\],;.@\"«»]+) :(?:\s|$)")

# Names that would fall together with another of their file, and what they are called.
BY_HAND = {name: name + "_lem" for name in ("first_cell", "left_after", "row_seen", "stands_at", "value_written")}
# Crates that are called as a library of the toolchain, and what they are called.
CRATES = {"bytes": "octets", "json": "json_reader"}
# Words that look like names of this repository and are not.
KEEP = set()


def antt_files():
    for crate in sorted(os.listdir("crates")):
        for part in ("specs", "proofs"):
            for folder, _, files in os.walk(os.path.join("crates", crate, part)):
                for name in sorted(files):
                    if name.endswith(".antt"):
                        yield os.path.join(folder, name)


def is_function_proof(path):
    return os.path.basename(path) in ("Proof.antt", "Answers.antt", "Invariants.antt")


def sources():
    for crate in sorted(os.listdir("crates")):
        for folder, _, files in os.walk(os.path.join("crates", crate, "src")):
            for name in sorted(files):
                if name.endswith(".rt"):
                    yield os.path.join(folder, name)


def edits():
    for crate in sorted(os.listdir("crates")):
        folder = os.path.join("crates", crate, "must-fail")
        if os.path.isdir(folder):
            for name in sorted(os.listdir(folder)):
                if name.endswith(".edit"):
                    yield os.path.join(folder, name)


def snake(name):
    name = name.replace("-", "_")
    name = re.sub(r"([a-z0-9'])([A-Z])", r"\1_\2", name)
    return name.lower() if name[0].islower() else name


def code_of(line):
    at = line.find("--")
    return line if at < 0 or (at and line[at - 1] not in " \t") else line[:at]


def declared():
    found = {}
    for path in antt_files():
        if is_function_proof(path):
            continue
        for line in open(path, encoding="utf-8"):
            m = DECLARED.match(code_of(line))
            if m and m.group(1)[0].isalpha() and m.group(1)[0].islower():
                found.setdefault(m.group(1), path)
    return found


def words():
    """Each word of the repository's own texts."""
    found = set()
    for path in list(antt_files()) + list(sources()):
        found.update(TOKEN.findall(open(path, encoding="utf-8").read()))
    return found


def table():
    """Old names and new. A lemma that would have the name of a definition or a function gets _lem."""
    all_declared = declared()
    camel = {snake(name) for name in all_declared if "-" not in name}
    plain = {word for word in words() if "-" not in word}
    names = {}
    for name in all_declared:
        if name in KEEP:
            continue
        new = BY_HAND.get(name, snake(name))
        if "-" in name and (new in camel or new in plain) and name not in BY_HAND:
            new += "_lem"
        if new != name:
            names[name] = new
    return names


USE = re.compile(r"(?m)^\s*(?:pub |ghost )?use ([\w.'-]+)\.\{([^}]*)\}")


def foreign(text):
    """The names that a text imports from the toolchain's libraries: they stay."""
    own = {f"Rattle.{crate}" for crate in list(CRATES) + os.listdir("crates")}
    found = set()
    for path, items in USE.findall(text):
        if ".".join(path.split(".")[:2]) not in own:
            for item in items.split(","):
                found.update(item.split()[:1])
    return found


def turned(text, names):
    stay = foreign(text)
    return outside_strings(text, lambda part: TOKEN.sub(lambda m: m.group(0) if m.group(0) in stay else names.get(m.group(0), m.group(0)), part))


def outside_strings(text, turn):
    """Turns all but what stands between double quotes on one line."""
    return "".join(part if at % 2 else turn(part) for at, part in enumerate(re.split(r'("(?:[^"\\\n]|\\.)*")', text)))


def with_crates(text, source):
    """Names the renamed crates in a text: paths of definitions, and in a source use lines and calls."""
    for old, new in CRATES.items():
        text = re.sub(rf"\bRattle\.{old}\.", f"Rattle.{new}.", text)
        if source:
            text = re.sub(rf"(?<![\w.:]){old}::", f"{new}::", text)
    return text


def rename_crates():
    for old, new in CRATES.items():
        if os.path.isdir(os.path.join("crates", old)):
            os.rename(os.path.join("crates", old), os.path.join("crates", new))
    text = open("crates.txt", encoding="utf-8").read()
    for old, new in CRATES.items():
        text = "\n".join(
            line if line.startswith("#") else re.sub(rf"(?<!\w){old}(?!\w)", new, line) for line in text.split("\n"))
    open("crates.txt", "w", encoding="utf-8").write(text)


def turned_source(text, names):
    """A source: the clauses, the ghost lines and the comments alone."""
    names = {old: new for old, new in names.items() if old not in foreign(text)}
    out, depth, inside = [], 0, False
    for line in text.split("\n"):
        stripped = line.lstrip()
        if inside:
            out.append(turned(line, names))
            depth += line.count("{") - line.count("}")
            inside = depth > 0
            continue
        if re.match(r"(ghost |requires\b|ensures\b)", stripped):
            out.append(turned(line, names))
            depth = line.count("{") - line.count("}")
            inside = depth > 0
            continue
        if stripped.startswith("//"):
            out.append(turned(line, names))
            continue
        out.append(line)
    return "\n".join(out)


def together(names):
    """The names that fall together in a file."""
    bad = {}
    for path in list(antt_files()) + list(sources()):
        text = open(path, encoding="utf-8").read()
        tokens = set(TOKEN.findall(text))
        seen = {}
        for t in tokens:
            new = names.get(t, t)
            seen.setdefault(new, set()).add(t)
        for new, olds in seen.items():
            if len(olds) > 1:
                bad.setdefault((new, tuple(sorted(olds))), []).append(path)
    return bad


def main():
    names = table()
    if "--check" in sys.argv:
        for (new, olds), paths in sorted(together(names).items()):
            print(new, olds, len(paths), paths[:3])
        print(len(names), "names")
        return
    for path in antt_files():
        text = open(path, encoding="utf-8").read()
        new = with_crates(turned(text, names), False)
        if new != text:
            open(path, "w", encoding="utf-8").write(new)
    for path in sources():
        text = open(path, encoding="utf-8").read()
        new = with_crates(turned_source(text, names), True)
        if new != text:
            open(path, "w", encoding="utf-8").write(new)
    rename_crates()


main()
