#!/usr/bin/env python3
"""alike: functions of crates/*/src whose bodies are the same but for names and numbers.

  python3 tools/alike.py [COMMIT]

Reads the files as they are, or as they stand at COMMIT. Each body is taken as tokens, with every name
made I and every number N; bodies of 12 tokens or more that are then the same are listed together. A row is a
place to look at, not a verdict.
"""
import collections, pathlib, re, subprocess, sys

KEPT = set("let mut if else while for in return match fn as usize u8 u16 u32 u64 bool true false const Some None Ok Err".split())


def git(*args):
    return subprocess.run(["git", *args], capture_output=True, text=True).stdout


def sources(commit):
    if commit is None:
        for path in sorted(pathlib.Path(".").glob("crates/*/src/*.rt")):
            yield path.parts[1], path.read_text()
        return
    for name in git("ls-tree", "-r", "--name-only", commit).split():
        found = re.match(r"crates/(\w+)/src/.*\.rt$", name)
        if found:
            yield found.group(1), git("show", f"{commit}:{name}")


def body_from(text, at):
    depth = 0
    for end in range(at, len(text)):
        depth += {"{": 1, "}": -1}.get(text[end], 0)
        if depth == 0:
            return text[at : end + 1]
    return text[at:]


def functions(text):
    text = re.sub(r"//[^\n]*", "", text)
    for found in re.finditer(r"\bfn (\w+)", text):
        # a body opens on a line of its own, or at the end of the signature's line
        own = re.compile(r"\n\s*\{\n").search(text, found.end())
        same = re.compile(r"\{\n").search(text, found.end())
        if same is None:
            continue
        start = own.start() if own and own.start() < same.end() + 400 else same.start()
        yield found.group(1), body_from(text, text.index("{", start))


def shape(body):
    tokens = []
    for token in re.findall(r"\w+|[^\s\w]", body):
        if token in KEPT or not re.match(r"\w", token):
            tokens.append(token)
        else:
            tokens.append("N" if token[0].isdigit() else "I")
    return tokens


def main():
    commit = sys.argv[1] if len(sys.argv) > 1 else None
    groups = collections.defaultdict(list)
    count = 0
    for crate, text in sources(commit):
        for name, body in functions(text):
            count += 1
            groups[" ".join(shape(body))].append(f"{crate}::{name}")
    print(count, "functions")
    for tokens, names in sorted(groups.items(), key=lambda g: -len(g[0])):
        if len(names) > 1 and len(tokens.split()) >= 12:
            print(len(tokens.split()), ", ".join(names))


main()
