#!/usr/bin/env python3
"""Spells this repository's own definitions and lemmas in snake case: `eightAt` becomes `eight_at`, `pouredTo` `poured_to`, `row-set` `row_set`.

Run once at the top of the repository, after the port's own script. Functions of src/, types, modules, strings, inputs and outputs keep
their names. Where a lemma would get the name of a definition or of a word of a library, it gets `_lem` behind it.
"""
import glob
import re
import sys

DECLARED = re.compile(
    r"^(\s*)((?:abbrev |unfoldable |pub )*)([^\s:(){}.]+)((?:\s+\([^)]*\)|\s+\{[^}]*\})*)\s*:\s")
CONSTRUCTORS = re.compile(r"^  ((?:[^\s:(){}.]+ )+):\s")
TOKEN = re.compile(r"[^\s(){}.;,]+")
WORD = re.compile(r"[A-Za-z][\w'-]*")
KEYWORDS = {"use", "let", "in", "record", "data", "where", "module", "elim", "as"}


def snake(name):
    name = name.replace("′", "'").replace("-", "_")
    return re.sub(r"(?<=[a-z0-9'])([A-Z])", lambda m: "_" + m.group(1).lower(), name)


def antt_files():
    for folder in ("specs", "proofs"):
        for path in sorted(glob.glob(f"crates/*/{folder}/**/*.antt", recursive=True)):
            yield path


def own_crates():
    return {path.split("/")[1] for path in glob.glob("crates/*/src")}


def imported(text, crates):
    """The names that a file takes from libraries."""
    taken = set()
    for line in text.split("\n"):
        m = re.match(r"(?:ghost )?use ([^\s{;]+?)\.?\{([^}]*)\}", line.strip())
        if not m:
            continue
        parts = m.group(1).split(".")
        if parts[0] == "Rattle" and len(parts) > 1 and parts[1] in crates:
            continue
        for item in m.group(2).split(","):
            taken.add(item.strip().split(" as ")[-1].strip())
    return taken


def plan(texts, crates):
    declared, fields = set(), set()
    for path, text in texts.items():
        if path.endswith("/Proof.antt"):
            continue
        inside = False
        for line in text.split("\n"):
            if re.match(r"\s*(?:pub )?record \S", line):
                inside = True
            elif line and not line.startswith(" "):
                inside = False
            for name in (CONSTRUCTORS.match(line) or [None, ""])[1].split():
                if re.fullmatch(r"[a-z]\w*", name):
                    declared.add(name)
            m = DECLARED.match(line)
            if m and m.group(3) not in KEYWORDS:
                declared.add(m.group(3))
                if inside and m.group(1):
                    fields.add(m.group(3))
    library = set()
    for text in texts.values():
        library |= imported(text, crates)
    library -= {n for n in library if n in declared}
    names = {}
    camel = {n for n in declared if re.match(r"[a-z]\w*[A-Z]", n) and re.fullmatch(r"[\w']+", n) and n.isascii()}
    dashed = {n for n in declared if re.fullmatch(r"[a-z0-9][\w'-]*-[\w'-]*", n) and n.isascii()}
    for name in sorted(camel):
        new = snake(name)
        if new in declared:
            if new + "_lem" in declared:
                sys.exit(f"{new}_lem is taken")
            names[new] = new + "_lem"
        names[name] = new
    taken = {names.get(n, n) for n in declared - dashed} | library
    for name in sorted(dashed):
        new = snake(name)
        if new in taken:
            new += "_lem"
        if new in taken:
            sys.exit(f"{new} is taken, for {name}")
        taken.add(new)
        names[name] = new
    return names, fields


def turned(text, names, fields, kept, token=TOKEN, aliases=()):
    out, last = [], 0
    for m in token.finditer(text):
        word = m.group(0)
        new = names.get(word)
        if new is None or word in kept:
            continue
        before = text[:m.start()]
        if before.endswith(".") and word not in fields and not (
                re.search(r"(?<![\w.])Rattle\.\w+\.(?:specs|proofs)\.(?:\w+\.)+$", before) and text[m.end():m.end() + 1] != ".") and not (
                aliases and re.search(r"(?<![\w.])(?:" + "|".join(aliases) + r")\.$", before)):
            continue
        out.append(text[last:m.start()])
        out.append(new)
        last = m.end()
    out.append(text[last:])
    return "".join(out)


def source(text, names, fields, kept):
    """Of a .rt file, the imports and the clauses: lines that begin a clause or follow one up to the body, and `ghost use`."""
    lines, clause, listing = [], False, False
    for line in text.split("\n"):
        bare = line.strip()
        if listing or (bare.startswith("ghost use ") and bare.endswith("{")):
            listing = not bare.startswith("}")
            line = turned(line, names, fields, kept)
        elif re.match(r"ghost use |(requires|ensures)\b", bare):
            clause = not bare.startswith("ghost use")
            line = turned(line, names, fields, kept)
        elif bare.startswith("{") or bare.endswith("{"):
            clause = False
        elif clause:
            line = turned(line, names, fields, kept)
        lines.append(line)
    return "\n".join(lines)


def main():
    crates = own_crates()
    texts = {path: open(path, encoding="utf-8").read() for path in antt_files()}
    names, fields = plan(texts, crates)
    for path, text in texts.items():
        kept = imported(text, crates)
        aliases = re.findall(r"^use Rattle\.(?:" + "|".join(sorted(crates)) + r")\.\S+(?<!\.Tie)(?<!\.Goals)(?<!\.Given) as (\w+)$", text, re.M)
        code = [turned(line.split("-- ")[0], names, fields, kept, TOKEN, aliases)
                + ("-- " + turned(line.split("-- ", 1)[1], {n: w for n, w in names.items() if "-" not in n and n != snake(n)}, fields, kept, WORD)
                   if "-- " in line else "")
                for line in text.split("\n")]
        new = "\n".join(code)
        if new != text:
            open(path, "w", encoding="utf-8").write(new)
    for path in sorted(glob.glob("crates/*/src/*.rt")):
        text = open(path, encoding="utf-8").read()
        new = source(text, names, fields, imported(text, crates))
        if new != text:
            open(path, "w", encoding="utf-8").write(new)
    with open("tools/respelled.txt", "w", encoding="utf-8") as out:
        for name in sorted(names):
            out.write(f"{name} {names[name]}\n")
    print(f"respell: {len(names)} names, listed in tools/respelled.txt")


if __name__ == "__main__":
    main()
