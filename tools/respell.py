#!/usr/bin/env python3
"""Spells the names of the house's own definitions, lemmas and fields as today's Rattle does, once, at the top.

Words are in snake case and types in camel case: `deskAt` becomes `desk_at`, `desk-kept` `desk_kept`, `Core-says`
`CoreSays`. A name that would fall on another one gets `_lem`. Names that Rattle makes for goals, loops and steps stay,
and so does all code: functions, types and fields of src/, strings, inputs and outputs. It goes by the text, token by
token, over specs/, proofs/, clauses, must-fail edits, controls and pages.
"""

import collections
import pathlib
import re
import sys

TOP = pathlib.Path(".")
TOKEN = re.compile(r"[^\s(){}\[\];,.\"«»`λ]+")
DEFINED = re.compile(
    r"\s*(?:abbrev |unfoldable )?(?:pub )?(?:data |record |ruleset )?([^\s():{}.]+)"
    r"(?:\s*(?:\([^)]*\)|\{[^}]*\}))*\s*:(?:\s|$)"
)
HEADED = re.compile(r"\s*(?:pub )?(?:record|data|ruleset) ([^\s():{}.]+)")
ALIAS = re.compile(r"\bas ([^\s,}]+)")
OWN = [f.name for f in sorted((TOP / "crates").iterdir()) if f.is_dir()]


def code_of(line):
    """A line of antt without its comment."""
    at = re.search(r"(?:^|\s)--(?:\s|$)", line)
    return (line[: at.start()], line[at.start() :]) if at else (line, "")


def antt_files():
    for crate in OWN:
        for part in ("specs", "proofs"):
            yield from sorted((TOP / "crates" / crate / part).rglob("*.antt"))


def goal_file(path):
    return path.name in ("Invariants.antt", "Answers.antt")


def foreign(text):
    """The names that a file imports from elsewhere than the house."""
    names = set()
    for path, items in re.findall(r"use ([^\s{;]+?)\.?\{([^}]*)\}", text):
        if not any(path.startswith(f"Rattle.{crate}.") for crate in OWN):
            for item in items.split(","):
                names.add(item.strip().split(" as ")[0].strip())
    return names


def snake(name):
    name = name.replace("-", "_")
    return re.sub(r"(?<=[a-z0-9])([A-Z])", lambda m: "_" + m.group(1).lower(), name)


def camel(name):
    return "".join(part[:1].upper() + part[1:] for part in name.split("-"))


def wanted(name):
    if name.startswith("+") or not re.search(r"-|[a-z0-9][A-Z]", name):
        return None
    if not re.fullmatch(r"[A-Za-z0-9_\-₀-₉']+", name):
        return None
    new = camel(name) if name[0].isupper() else snake(name)
    return None if new == name else new


def main():
    texts = {path: path.read_text() for path in antt_files()}
    own = collections.Counter()
    for path, text in texts.items():
        for line in text.splitlines():
            code = code_of(line)[0]
            found = DEFINED.match(code) or HEADED.match(code)
            if found and not (goal_file(path) and "." in code.partition(":")[2].split("→")[-1]):
                own[found.group(1)] += 1
            if code.lstrip().startswith(("use ", "pub use ")):
                for alias in ALIAS.findall(code):
                    own[alias] += 1
    for crate in OWN:
        for path in sorted((TOP / "crates" / crate / "src").rglob("*.rt")):
            for line in path.read_text().splitlines():
                if line.lstrip().startswith("ghost use "):
                    for alias in ALIAS.findall(line):
                        own[alias] += 1
    # what Rattle asks for by name, in a file of goals or in a proof by hand
    goals = {name for name in own if name.startswith(("invariant-", "decreases-"))}
    for path, text in texts.items():
        for line in text.splitlines():
            found = re.match(r"\s*(?:abbrev )?(?:pub )?(\S+) : (?:goal|tie|needs|need)\.(\S+)", line)
            if found and found.group(1) == found.group(2):
                goals.add(found.group(1))
    respelt = {}
    for name in own:
        if name not in goals and wanted(name):
            respelt[name] = wanted(name)
    # Where each token stands, to see which new names would fall on another.
    stands = collections.defaultdict(set)
    for path, text in texts.items():
        for line in text.splitlines():
            for token in TOKEN.findall(code_of(line)[0]):
                stands[token].add(path)
    taken = collections.defaultdict(list)
    for old, new in respelt.items():
        taken[new].append(old)
    moved = {crate: {} for crate in OWN}
    for new, olds in sorted(taken.items()):
        # a definition, which is written in camel case, takes the word, and what has it in those crates gives it up
        olds.sort(key=lambda name: ("-" in name, name))
        if "-" not in olds[0]:
            for path in stands[new] & stands[olds[0]]:
                moved[path.parts[1]][new] = new + "_lem"
        free = "-" not in olds[0] or new not in own
        for old in olds:
            if old == olds[0] and "-" not in old:
                free = False
                continue
            clash = not free or bool(stands[new] & stands[old])
            if clash:
                respelt[old] = new + "_lem" if new[0].islower() else new + "Lem"
            free = False
    if len(set(respelt.values())) != len(respelt):
        for new, count in collections.Counter(respelt.values()).items():
            if count > 1:
                sys.exit(f"respell: two names become {new}")

    def turn(text, names, given_up={}):
        def put(found):
            name = found.group(0)
            if name in names:
                # a field keeps to its word; a name behind a module's is that module's
                field = text[found.start() - 1 : found.start()] == "." and not re.search(r"(?<![\w-])[A-Z]\.$", text[: found.start()][-3:])
                path = re.search(r"(?:^|\n) *(?:pub )?use [^\n{]*$", text[: found.start()])
                return wanted(name) if field and not path else names[name]
            apart = text[found.start() - 1 : found.start()] != "." and text[found.end() : found.end() + 1] != "."
            return given_up.get(name, name) if apart else name

        return TOKEN.sub(put, text)

    for path, text in texts.items():
        out = foreign(text)
        names = {old: new for old, new in respelt.items() if old not in out}
        lines = []
        for line in text.split("\n"):
            code, comment = code_of(line)
            lines.append(turn(code, names, moved[path.parts[1]]) + turn(comment, names))
        path.write_text("\n".join(lines))
    for crate in OWN:
        for path in sorted((TOP / "crates" / crate / "src").rglob("*.rt")):
            text = path.read_text()
            names = {old: new for old, new in respelt.items() if old not in foreign(text)}
            path.write_text(turn(text, names))
    for path in sorted(TOP.glob("crates/*/must-fail/*.edit")) + sorted(TOP.glob("controls/*/*.edit")):
        path.write_text(turn(path.read_text(), respelt))
    for path in [TOP / "README.md", *sorted((TOP / "docs").glob("*.md"))]:
        text = path.read_text()
        path.write_text(re.sub(r"`[^`\n]+`", lambda m: turn(m.group(0), respelt), text))
    for old, new in sorted(respelt.items()):
        print(f"{old} {new}")
    for crate, names in moved.items():
        for old, new in sorted(names.items()):
            print(f"{old} {new} in {crate}")


main()
