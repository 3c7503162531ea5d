#!/usr/bin/env python3
"""Brings the repository's own definitions and lemmas to one spelling: types in camel case, everything else in snake case.

usage: python3 tools/rename.py [--list]

Run once, at the top of the repository, after the toolchain's own script. What is renamed: names with a dash or an inner
capital that specs/ and proofs/ define, and names given by 'as' where a file imports them. Goals, strings and comments keep
their spelling, and so does the code, which has no such names. It writes nothing where two names would become one. With
--list it prints the old and new names and writes nothing.
"""

import glob
import re
import sys

WORD = r"[A-Za-z_][A-Za-z0-9_'₀-₉]*(?:-[A-Za-z0-9_'₀-₉]+)*"
HEAD = re.compile(r"\s*(?:let )?(?:abbrev |unfoldable )?(?:pub )?(" + WORD + r") : ")
KIND = re.compile(r"\s*(?:pub )?(record|data) (" + WORD + r")")
ALIAS = re.compile(r" as (" + WORD + r")")
# Names that the rule below would not give. Lemmas named after words of the library go as it names its own: the outer
# function, a dash, the inner one ('get_d_part' is what the toolchain's script made of 'getD-part'). 'unread-at' would fall
# together with 'unreadAt'.
SPECIAL = {
    "getD-cut": "get_or-cut",
    "get_d_part": "get_or-part",
    "getD-over-from": "get_or-over_from",
    "length-over-from": "length-over_from",
    "drop-over-from": "drop-over_from",
    "unread-at": "unread_there",
}


def files():
    for crate in sorted(glob.glob("crates/*")):
        yield from sorted(glob.glob(crate + "/src/**/*.rt", recursive=True))
        yield from sorted(glob.glob(crate + "/specs/**/*.antt", recursive=True))
        yield from sorted(glob.glob(crate + "/proofs/**/*.antt", recursive=True))


def camel(name):
    return "".join(w[:1].upper() + w[1:] for w in re.split(r"[-_]", name))


def snake(name):
    return re.sub(r"(?<=[a-z0-9])([A-Z])", r"_\1", name.replace("-", "_")).lower()


def signature(lines, i):
    text = lines[i]
    deep = len(text) - len(text.lstrip())
    while i + 1 < len(lines) and lines[i + 1].startswith(" " * (deep + 4)):
        i += 1
        text += lines[i]
    return text


def defined():
    """Each name that specs/ and proofs/ define or import under a name of their own, and whether it is a type."""
    found = {}
    for path in files():
        if not path.endswith(".antt"):
            lines = [l for l in open(path, encoding="utf-8").read().split("\n") if l.startswith("ghost use ")]
            for line in lines:
                for m in ALIAS.finditer(line):
                    found.setdefault(m[1], m[1][0].isupper())
            continue
        lines = open(path, encoding="utf-8").read().split("\n")
        for i, line in enumerate(lines):
            if line.startswith("use "):
                for m in ALIAS.finditer(line):
                    if m[1] not in ("goal",):
                        found.setdefault(m[1], m[1][0].isupper())
            elif m := KIND.match(line):
                found[m[2]] = True
            elif (m := HEAD.match(line)) and not re.search(r" : goal\.", line):
                found.setdefault(m[1], bool(re.search(r"Type \d+$", signature(lines, i).rstrip())))
    return found


def new_names():
    names = {}
    found = defined()
    for name, is_type in sorted(found.items()):
        if name not in SPECIAL and not ("-" in name or (is_type and "_" in name) or re.search(r"[a-z][A-Z]", name)):
            continue
        if name in SPECIAL.values():
            continue
        new = SPECIAL.get(name) or (camel(name) if is_type else snake(name))
        if new != name:
            names[name] = new
    kept = [name for name in found if name not in names]
    twice = sorted(n for n in names.values() if n in kept or list(names.values()).count(n) > 1)
    if twice:
        raise SystemExit("rename: two names would become " + ", ".join(twice))
    return names


def turned(path, names):
    out = []
    for line in open(path, encoding="utf-8").read().split("\n"):
        mark = "--" if path.endswith(".antt") else "//"
        code, note = line, ""
        m = re.search(r"(^|\s)" + mark, line)
        if m and '"' not in line[: m.start()]:
            code, note = line[: m.start()], line[m.start() :]
        parts = re.split(r'("(?:[^"\\]|\\.)*")', code)
        for k in range(0, len(parts), 2):
            parts[k] = re.sub(r"(?<![A-Za-z0-9_'₀-₉«-])" + WORD, lambda w: names.get(w[0], w[0]), parts[k])
        out.append("".join(parts) + note)
    return "\n".join(out)


def main(words):
    if words == ["--help"]:
        print(__doc__)
        return 0
    if words not in ([], ["--list"]):
        print("usage: python3 tools/rename.py [--list]", file=sys.stderr)
        return 2
    names = new_names()
    if words == ["--list"]:
        for old, new in names.items():
            print(old, new)
        return 0
    for path in files():
        text = turned(path, names)
        if text != open(path, encoding="utf-8").read():
            open(path, "w", encoding="utf-8").write(text)
    return 0


if __name__ == "__main__":
    raise SystemExit(main(sys.argv[1:]))
