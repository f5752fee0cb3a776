#!/usr/bin/env python3
"""Brings this repository's own names to the spelling of today's Rattle, after its port.py: facts and other types in upper camel case,
every other definition and lemma in snake case. Names of goals, of invariants and of steps, strings and functions of src/ keep theirs.
Run once, at the top of the repository."""

import glob
import re

HEAD = re.compile(r"^\s*(?:(?:unfoldable|abbrev|pub|record|data) )+([^\s:{}()]+)\s*(?:[({].*)?:\s")
PRIVATE = re.compile(r"^([^\s:{}()]+)\s*:\s")
TOKEN = re.compile(r"[A-Za-z_][A-Za-z0-9_'-]*")
GOAL = re.compile(r":\s*(?:Goals\.|Given\.|goal\.)")


def camel(name):
    return "".join(part[0].upper() + part[1:] for part in name.split("-"))


def snake(name):
    return re.sub(r"(?<=[a-z])([A-Z])", lambda m: "_" + m[1].lower(), name).replace("-", "_")


def spelled(name):
    return camel(name) if name[0].isupper() else snake(name)


def declared():
    names, goals = set(), set()
    for path in glob.glob("crates/*/specs/**/*.antt", recursive=True) + glob.glob("crates/*/proofs/**/*.antt", recursive=True):
        for line in open(path, encoding="utf-8"):
            m = HEAD.match(line) or PRIVATE.match(line)
            if m:
                (goals if GOAL.search(line) else names).add(m[1])
    wanted = {n for n in names if spelled(n) != n}
    both = wanted & goals
    if both:
        raise SystemExit(f"names of goals and of lemmas: {sorted(both)}")
    return {n: spelled(n) for n in wanted}


def renamed(text, names):
    """Names in a piece of antt; behind a dot only at the end of a path of this repository."""

    def one(m):
        before = text[: m.start()]
        if before.endswith("."):
            path = re.search(r"[^\s(){}\[\],;]*$", before)[0]
            if not path.startswith(("Rattle.", "goal.", "use ")) or path.startswith("goal."):
                return m[0]
        return names.get(m[0], m[0])

    return TOKEN.sub(one, text)


def in_proof(line, names):
    code, dash, note = line.partition("--") if line.lstrip().startswith("--") else (line, "", "")
    note = re.sub(r"`[^`]*`", lambda m: renamed(m[0], names), note)
    return renamed(code, names) + dash + note


def in_source(line, names):
    """Code lines of src/: only names with a dash stand there, in clauses. Comments but for quoted names stay, and so do strings."""
    code, slashes, note = line, "", ""
    m = re.match(r"^([^\"]*?(?:\"[^\"]*\"[^\"]*?)*?)(//.*)$", line.rstrip("\n"))
    if m:
        code, note = m[1], m[2] + "\n"
        note = re.sub(r"`[^`]*`", lambda q: renamed(q[0], names), note)
    parts = re.split(r"(\"[^\"]*\")", code)
    return "".join(p if i % 2 else renamed(p, names) for i, p in enumerate(parts)) + slashes + note


def main():
    names = declared()
    taken = {}
    for old, new in sorted(names.items()):
        if new in taken:
            raise SystemExit(f"{old} and {taken[new]} fall together as {new}")
        taken[new] = old
    for path in glob.glob("crates/*/**/*.antt", recursive=True) + glob.glob("crates/*/src/**/*.rt", recursive=True):
        if "/out/" in path:
            continue
        with open(path, encoding="utf-8") as f:
            lines = f.readlines()
        turn = in_proof if path.endswith(".antt") else in_source
        new = [turn(line, names) for line in lines]
        if new != lines:
            with open(path, "w", encoding="utf-8") as f:
                f.writelines(new)
    print(f"{len(names)} names respelled")


if __name__ == "__main__":
    main()
