#!/usr/bin/env python3
"""Brings this repository's own names in specs/, proofs/, src/ and must-fail/ to today's spelling, once, after the toolchain's port.py.

Definitions, lemmas, fields and local names: words are joined by `_`. Records and other types: camel case. A prime is an apostrophe.
Kept as they are: what is brought in from the library or from what Rattle makes, Rust names, strings, and prose in comments, where only a
name between backticks is turned. It prints the names that fall together.

usage: python3 tools/port/spell_names.py [FOLDER]
"""
import collections
import os
import re
import sys

NAME = r"[A-Za-zΑ-ΚΜ-Ωα-κμ-ωℕℤ][\w'′₀-₉ℕℤ]*(?:-[\w'′₀-₉ℕℤ≡]+)*"
TOKEN = re.compile(r"(?<![\w'′◌-])" + NAME)
USE = re.compile(r"^\s*(?:pub )?(?:ghost )?use ([^\s;{]+?)(?:\.\{([^}]*)\}| as (\w+))?;?\s*$", re.M)
OWN_MODULE = re.compile(r"^Rattle\.(?!std\b|core\b)(\w+)\.(specs|proofs)\.(?!declared|contracts)")
MADE = re.compile(r"^Rattle\.\w+\.proofs\.[\w+]+\.(Statement|Tie|Goals|Given|List)\b")
RECORD = re.compile(r"^(?:pub )?(?:abbrev )?(?:pub )?record\b")
FIELD = re.compile(r"^  (?:pub )?(" + NAME + r"(?: " + NAME + r")*) : ")


# Names that would fall together with a Rust function of the same file.
OTHERWISE = {
    "half-count": "count_of_half",
    "clamped-entry": "entry_of_clamped",
    "developed-text": "text_of_developed",
    "planes-text": "text_of_planes",
}


def spelled(name):
    """The new spelling of an own name."""
    if name in OTHERWISE:
        return OTHERWISE[name]
    name = name.replace("′", "'")
    if "-" not in name:
        return name
    words = name.split("-")
    if name[0].isupper() and not re.match(r"[A-Z]\d*-", name):
        return words[0] + "".join(w[0].upper() + w[1:] for w in words[1:])
    return "_".join(words)


def texts(root):
    for folder, dirs, files in os.walk(os.path.join(root, "crates")):
        dirs[:] = sorted(d for d in dirs if d not in ("out", ".git"))
        for f in sorted(files):
            if f.endswith((".rt", ".antt", ".edit")):
                yield os.path.join(folder, f)


def is_own(module):
    return bool(OWN_MODULE.match(module)) and not MADE.match(module)


def imports(text):
    """Names brought in from elsewhere, and aliases of own modules."""
    foreign, aliases = set(), set()
    for m in USE.finditer(text):
        module, names, alias = m.group(1), m.group(2), m.group(3)
        if is_own(module):
            aliases.add(alias or module.split(".")[-1])
        elif names:
            for n in names.split(","):
                foreign.update(n.split())
    return foreign, aliases


def fields(text):
    """Names of the fields of own records."""
    found, inside = set(), False
    for line in text.split("\n"):
        if line and not line.startswith(" ") and not line.startswith("--"):
            inside = bool(RECORD.match(line))
        elif inside:
            m = FIELD.match(line)
            if m:
                found.update(m.group(1).split())
    return found


def turned(text, foreign, aliases, own_fields, comment):
    """The text with own names in the new spelling."""

    def line_turned(line):
        at = re.search(r"(^|\s)" + re.escape(comment) + r"( |$)", line)
        code, prose = (line[: at.start()], line[at.start() :]) if at else (line, "")
        return code_turned(code) + re.sub(r"`([^`]*)`", lambda m: "`" + code_turned(m.group(1)) + "`", prose)

    def code_turned(code):
        if re.match(r"\s*(pub )?(ghost )?use ", code):
            m = re.match(r"(\s*(?:pub )?(?:ghost )?use )([^\s;{]+?)(\.\{[^}]*\}| as \w+|)(;?\s*)$", code)
            if not m or not is_own(m.group(2)):
                return code
            return m.group(1) + m.group(2) + words_turned(m.group(3)) + m.group(4)
        return words_turned(code)

    def words_turned(code):
        def one(m):
            name, before = m.group(), code[: m.start()]
            if '"' in before and before.count('"') % 2:
                return name
            if before.endswith("."):
                head = re.search(r"([\w'′-]+)\.$", before)
                head = head.group(1) if head else ""
                of_type = head[:1].isupper() and head not in foreign
                return spelled(name) if name in own_fields or head in aliases or of_type else name
            return name if name in foreign else spelled(name)

        return TOKEN.sub(one, code)

    return "\n".join(line_turned(l) for l in text.split("\n"))


def main(root):
    files = {p: open(p, encoding="utf-8").read() for p in texts(root)}
    own_fields = set()
    for p, t in files.items():
        if p.endswith(".antt"):
            own_fields |= fields(t)
    seen = collections.defaultdict(set)
    for p, t in files.items():
        foreign, aliases = imports(t)
        if p.endswith(".edit"):
            m = re.search(r"^file: (.*)$", t, re.M)
            of = os.path.join(os.path.dirname(os.path.dirname(p)), m.group(1))
            if os.path.exists(of):
                foreign, aliases = imports(files[of])
        for m in TOKEN.finditer(t):
            if p.endswith(".antt") and m.group() not in foreign:
                seen[spelled(m.group())].add(m.group())
        new = turned(t, foreign, aliases, own_fields, "//" if p.endswith(".rt") else "--")
        if new != t:
            with open(p, "w", encoding="utf-8") as f:
                f.write(new)
    for new, olds in sorted(seen.items()):
        if len(olds) > 1:
            print("fall together:", new, *sorted(olds))


if __name__ == "__main__":
    main(sys.argv[1] if len(sys.argv) > 1 else ".")
