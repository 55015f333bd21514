#!/usr/bin/env python3
"""Brings the names of this repository's definitions and lemmas to today's spelling, once, after port.py.

usage: python3 tools/port-names.py      at the top of the repository

Words are in snake case (`maxInput` is max_input, `first-here` is first_here), in specs/, in proofs/, in clauses and in pages. The
crates `core` and `hex`, whose names the kit now has, become `driver_core` and `hex_text`. Names of Rust functions, exported C names,
strings, inputs and outputs stay. Names that fall together are told, and nothing is written.
"""

import os
import re
import subprocess
import sys

TOP = os.path.dirname(os.path.dirname(os.path.abspath(__file__)))
CRATES = os.path.join(TOP, "crates")
RENAMED = {"core": "driver_core", "hex": "hex_text"}
OF_CORE = {"specs": {"Walk", "Answer", "Step", "Examples"}, "proofs": {"Laws", "Keeps", "Back", "Examples"}}
DECLARED_IN_CORE = {"Walk", "LineAhead", "Given"}
# port.py turned the lemma `is-open`, which then has the name of the definition `isOpen`
IS_OPEN = {"machine/proofs/Turns.antt", "promises/proofs/Caller.antt", "promises/proofs/Carry.antt", "promises/proofs/Soon.antt"}
NAME = r"[^\W\d][\w'₀-₉-]*"
HEAD = re.compile(r"^(?:abbrev |unfoldable |pub |ruleset )*(" + NAME + r")(?: (?:\(|\{).*)? :(?: |$)")
FIELD = re.compile(r"^ +(?:pub )?(" + NAME + r") :(?: |$)")
# a lemma of a section, `module _ (..) where`, or one below a `where`
INNER = re.compile(r"^ +(?:abbrev |unfoldable |pub )*(" + NAME + r") :(?: |$)")
TOKEN = re.compile(NAME)


def snake(name):
    s = re.sub(r"(?<=[a-z0-9₀-₉'])([A-Z]+)", lambda m: "_" + m.group(1).lower(), name)
    return s.replace("-", "_")


def files(ending, below=CRATES):
    for folder, dirs, names in os.walk(below):
        dirs[:] = sorted(d for d in dirs if d not in ("out", "must-fail", ".git"))
        for n in sorted(names):
            if n.endswith(ending):
                yield os.path.join(folder, n)


def read(path):
    with open(path, encoding="utf-8") as f:
        return f.read()


def write(path, text):
    with open(path, "w", encoding="utf-8") as f:
        f.write(text)


def own_names():
    """The names to turn: each definition, lemma and field of specs/ and of the lemma files of proofs/; and which are fields."""
    found, fields = {}, set()
    for p in files(".antt"):
        # a Proof.antt has the names that Rattle makes
        if os.path.basename(p) == "Proof.antt":
            continue
        inside = None
        for line in read(p).split("\n"):
            m = HEAD.match(line)
            if m:
                inside = "record" if re.match(r"(pub )?record ", line) else None
                found.setdefault(m.group(1), set()).add(p)
            elif re.match(r"(?:pub )?(record|data) ", line):
                inside = line.split()[1]
            elif inside and FIELD.match(line):
                found.setdefault(FIELD.match(line).group(1), set()).add(p)
                fields.add(FIELD.match(line).group(1))
            elif INNER.match(line) and snake(INNER.match(line).group(1)) != INNER.match(line).group(1):
                found.setdefault(INNER.match(line).group(1), set()).add(p)
            elif line and not line.startswith(" "):
                inside = None
    return found, fields


def library_names():
    """Names of the kit, which keep their spelling: those that the files import from outside this repository's crates."""
    names = set()
    for p in list(files(".antt")) + list(files(".rt")):
        for m in re.finditer(r"use ([\w.◌'-]+)\.\{([^}]*)\}", read(p)):
            crate = m.group(1).split(".")[1] if m.group(1).startswith("Rattle.") else None
            own = crate and os.path.isdir(os.path.join(CRATES, crate)) and not m.group(1).startswith("Rattle.core.specs.Prelude")
            module = m.group(1).split(".")
            if crate == "std" and len(module) > 3 and module[3] in OF_CORE.get(module[2], ()):
                own = True
            if not own:
                names.update(x.strip().split(" as ")[0] for x in m.group(2).split(","))
    return names


def turn_paths(text, crate):
    def of_core(m):
        kind, module = m.group(2), m.group(3)
        ours = module in OF_CORE[kind]
        return f"Rattle.{'driver_core' if ours else 'std'}.{kind}.{module}"

    text = re.sub(r"Rattle\.(core|std)\.(specs|proofs)\.(\w+)(?=[.\s])", lambda m: m.group(0) if m.group(3) == "declared" else of_core(m), text)
    text = re.sub(r"Rattle\.(?:core|std)\.specs\.declared\.(\w+)", lambda m: (
        f"Rattle.driver_core.specs.declared.{m.group(1)}" if m.group(1) in DECLARED_IN_CORE else m.group(0)), text)
    for old, new in RENAMED.items():
        text = re.sub(r"\bRattle\." + old + r"\.(?=specs|proofs)", f"Rattle.{new}.", text)
    return text


def turn_words(text, names):
    return TOKEN.sub(lambda m: names.get(m.group(0), m.group(0)), text)


def turn_source(text, names, crate):
    """Clauses and ghost lines; Rust code and strings stay."""
    text = turn_paths(text, crate)
    out, depth = [], 0
    for line in text.split("\n"):
        code = line.split("//")[0] if not line.lstrip().startswith("//") else ""
        if line.startswith("ghost use ") or re.match(r"\s*(requires|ensures|ghost)\b", line) or depth:
            depth += code.count("{") - code.count("}")
            line = turn_words(line, names)
        elif line.lstrip().startswith("//"):
            line = re.sub(r"`([^`]*)`", lambda m: "`" + turn_words(m.group(1), names) + "`", line)
        out.append(line)
    text = "\n".join(out)
    for old, new in RENAMED.items():
        text = re.sub(r"(?<![\w:])" + old + r"::", new + "::", text)
    return text


def turn_edit(text, names, crate):
    out = []
    for line in text.split("\n"):
        if line.startswith(("old:", "new:")):
            line = turn_words(turn_paths(line, crate), names)
        out.append(line)
    return "\n".join(out)


def turn_page(text, names):
    capital = {k: v for k, v in names.items() if re.search("[A-Z]", k)}
    text = re.sub(r"`([^`\n]+)`", lambda m: "`" + turn_words(m.group(1), names) + "`", text)
    return turn_words(text, capital)


def main():
    kit = library_names()
    found, fields = own_names()
    names = {n: snake(n) for n in found if snake(n) != n and n[0].islower() and n not in kit}
    # a lemma that would have its definition's name
    for n in names:
        if "-" in n and n not in fields and any(m != n and snake(m) == snake(n) for m in found):
            names[n] = snake(n) + "_lem"
    together = {}
    for n in found:
        for p in found[n]:
            together.setdefault((p, names.get(n, n)), set()).add(n)
    bad = {k: v for k, v in together.items() if len(v) > 1}
    for (p, n), v in sorted(bad.items()):
        print(f"falls together in {os.path.relpath(p, TOP)}: {', '.join(sorted(v))} as {n}", file=sys.stderr)
    across = {}
    for n in found:
        across.setdefault(names.get(n, n), set()).add(n)
    for n, v in sorted(across.items()):
        if len(v) > 1:
            print(f"same name in different files: {', '.join(sorted(v))} as {n}", file=sys.stderr)
    if bad:
        return 1
    for p in list(files(".antt")):
        crate = os.path.relpath(p, CRATES).split(os.sep)[0]
        own = dict(names)
        if os.path.relpath(p, CRATES) in IS_OPEN:
            own["is_open"] = "is_open_lem"
        write(p, turn_words(turn_paths(read(p), crate), own))
    for p in list(files(".rt")):
        crate = os.path.relpath(p, CRATES).split(os.sep)[0]
        write(p, turn_source(read(p), names, crate))
    for folder in sorted(os.listdir(CRATES)):
        edits = os.path.join(CRATES, folder, "must-fail")
        for n in sorted(os.listdir(edits)) if os.path.isdir(edits) else ():
            p = os.path.join(edits, n)
            write(p, turn_edit(read(p), names, folder))
    pages = [os.path.join(TOP, "README.md")] + [os.path.join(TOP, "docs", n) for n in os.listdir(os.path.join(TOP, "docs")) if n.endswith(".md")]
    for p in pages:
        if os.path.basename(p) != "PORT.md":
            write(p, turn_page(read(p), names))
    listed = os.path.join(TOP, "crates.txt")
    lines = []
    for line in read(listed).split("\n"):
        if not line.startswith("#"):
            line = re.sub(r"\b(core|hex)\b", lambda m: RENAMED[m.group(1)], line)
        lines.append(line)
    write(listed, "\n".join(lines))
    for old, new in RENAMED.items():
        subprocess.run(["git", "-C", TOP, "mv", f"crates/{old}", f"crates/{new}"], check=True)
    for a, b in sorted(names.items()):
        print(f"{a} is {b}")
    print(f"{len(names)} names turned")
    return 0


raise SystemExit(main())
