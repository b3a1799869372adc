#!/usr/bin/env python3
"""Brings the repository's own names in contracts, specs/, proofs/ and must-fail/ to snake case.

usage: python3 tools/respell.py      once, at the top of the repository, after the kit's port.py

Own names are what specs/ and proofs/ declare: definitions, lemmas, constructors and fields. Types and modules stand in camel case
already. Functions of src/ and the names that a check makes (goals, steps) keep their spelling: a goal's answer is no own name, and a
dashed name after a dot is renamed only where it is a field or stands behind a module. In comments and in docs/ names in camel case are
turned, and dashed ones between backquotes.
"""

import os
import re
import sys

TOKEN = re.compile(r"[A-Za-z_ℕℤ][\w'ℕℤ]*(?:[-+][\wℕℤ][\w'ℕℤ]*)*")
SPECIAL = {"word-of": "word_of_lem", "getD-digits": "get_or_digits", "getD-lifted": "get_or_lifted"}


def snake(name):
    if name in SPECIAL:
        return SPECIAL[name]
    return re.sub(r"(?<=[a-z0-9])([A-Z])", lambda m: "_" + m.group(1).lower(), name).replace("-", "_")


def files(top, *endings):
    for folder, dirs, names in os.walk(top):
        dirs[:] = sorted(d for d in dirs if d != "out")
        for name in sorted(names):
            if name.endswith(endings):
                yield os.path.join(folder, name)


def read(path):
    with open(path, encoding="utf-8") as f:
        return f.read()


def declared():
    """Own names, and which of them are fields."""
    names, fields = set(), set()
    head = re.compile(r"^(\s*)((?:(?:abbrev|unfoldable|pub|data|record)\s+)*)([^\s:(){}]+)\s*(?:[({][^:]*:.*)?:(?:\s(.*))?$")
    for path in files("crates", ".antt"):
        inside = False
        for line in read(path).splitlines():
            if re.match(r"\s*(pub )?record ", line):
                inside = True
            elif line and not line[0].isspace():
                inside = False
            if line.lstrip().startswith("--"):
                continue
            names.update(re.findall(r"(?<![\w'.-])[a-z]+(?:[A-Z][a-z]*)+(?![\w'-])", line))
            if line.lstrip().startswith(("use ", "let ", "|", "λ")):
                continue
            m = head.match(line)
            if not m or "goal." in (m.group(4) or ""):
                continue
            names.add(m.group(3))
            if inside and not m.group(2).strip().startswith(("record", "pub record", "abbrev")):
                fields.add(m.group(3))
    return {n for n in names if n[0].islower()}, fields


def turn_code(text, turned, fields, modules):
    """One stretch of antt, with no comment in it."""

    def one(m):
        token = m.group(0)
        new = turned.get(token)
        if new is None:
            return token
        before = text[: m.start()]
        if before.endswith(".") and "-" in token and token not in fields:
            owner = re.search(r"([\w'-]+)\.$", before)
            if not owner or owner.group(1) not in modules:
                return token
        return new

    return TOKEN.sub(one, text)


def turn_words(text, turned):
    """Prose: names in camel case, and dashed ones between backquotes."""
    text = TOKEN.sub(lambda m: turned.get(m.group(0), m.group(0)) if "-" not in m.group(0) else m.group(0), text)
    return re.sub(r"`([^`\n]*)`", lambda m: "`" + TOKEN.sub(lambda t: turned.get(t.group(0), t.group(0)), m.group(1)) + "`", text)


def aliases(text):
    found = set(re.findall(r"^(?:ghost )?use \S+ as (\w+);?$", text, re.M))
    return found | {m.split(".")[-1] for m in re.findall(r"^(?:ghost )?use ([\w.+'-]+)\.\{", text, re.M)}


def turn_antt(text, turned, fields):
    modules = aliases(text)
    out = []
    for line in text.split("\n"):
        code, mark, note = line.partition("--") if re.search(r"(^|\s)--(\s|$)", line) else (line, "", "")
        out.append(turn_code(code, turned, fields, modules) + mark + turn_words(note, turned))
    return "\n".join(out)


def turn_rt(text, turned, fields):
    """Ghost text alone: ghost use lines, clauses, ghost members and fields; comments as prose."""
    modules = aliases(text)
    out, depth = [], 0
    for line in text.split("\n"):
        code, mark, note = line.partition("//")
        ghost = depth > 0 or re.match(r"\s*(pub )?(ghost|requires|ensures)\b", code)
        if ghost:
            depth += code.count("{") - code.count("}")
            code = turn_code(code, turned, fields, modules)
        out.append(code + mark + turn_words(note, turned))
    return "\n".join(out)


def turn_edit(text, turned, fields):
    """The lines old: and new: of an edit, in the way of the file that they change."""
    rt = re.search(r"^file: \S+\.rt$", text, re.M)
    out = []
    for line in text.split("\n"):
        m = re.match(r"(old:|new:)(.*)$", line, re.S)
        if m:
            line = m.group(1) + (turn_rt if rt else turn_antt)(m.group(2), turned, fields)
        out.append(line)
    return "\n".join(out)


def main():
    names, fields = declared()
    turned = {n: snake(n) for n in names if snake(n) != n}
    together = {}
    for n in names:
        together.setdefault(snake(n), set()).add(n)
    for new, old in sorted(together.items()):
        if len(old) > 1:
            print(f"fall together: {new} from {' '.join(sorted(old))}")
    taken = {}
    for path in files("crates", ".antt", ".rt"):
        text = read(path)
        words = set(TOKEN.findall(text))
        for n in sorted(words & set(turned)):
            if turned[n] in words:
                taken.setdefault(path, []).append(f"{n} -> {turned[n]}")
    for path, pairs in taken.items():
        print(f"there already: {path}: {', '.join(pairs)}")
    # What the kit's script renamed in crates/ stands in edits and docs under its old name.
    older = dict(turned)
    for n in names:
        camel = re.sub(r"_([a-z])", lambda m: m.group(1).upper(), n)
        if camel != n:
            older.setdefault(camel, snake(n))
            older.setdefault(n.replace("_", "-"), snake(n))
    count = 0
    for path in list(files("crates", ".antt", ".rt", ".edit")) + list(files("docs", ".md")) + ["README.md"]:
        text = read(path)
        if path.endswith(".antt"):
            new = turn_antt(text, turned, fields)
        elif path.endswith(".rt"):
            new = turn_rt(text, turned, fields)
        elif path.endswith(".edit"):
            new = turn_edit(text, older, fields)
        else:
            new = turn_words(text, older)
        if new != text:
            count += 1
            with open(path, "w", encoding="utf-8") as f:
                f.write(new)
    print(f"{len(turned)} names turned in {count} files")
    return 0


if __name__ == "__main__":
    sys.exit(main())
