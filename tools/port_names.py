#!/usr/bin/env python3
"""Brings this repository's own names in specs/, proofs/ and clauses to snake case. Run once, after the port's first script.

usage: python3 tools/port_names.py [--list | --clash]

A name is this repository's where one of its .antt files declares it: a definition, a lemma, a field, a constructor, or a name that is
bound. `startsWith` and `starts-with` become `starts_with`; types, modules, generated names and the library's names stay as they are.
--list prints the table of old and new names, --clash the names that fall together and the files in which both stand.
"""

import os
import re
import sys
from collections import defaultdict

KIT = os.environ.get("RATTLE_KIT", "/opt/rattle")
BREAK = r"\s(){}\[\];,.\"|"
TOKEN = re.compile(rf"[^{BREAK}]+")
STRING = re.compile(r'"(?:[^"\\]|\\.)*"')
HEAD = re.compile(r"^\s*((?:(?:abbrev|unfoldable|pub|data|record|mutual)\s+)*)([^\s(){}\[\];,.\"]+)((?:\s+[^\s(){}\[\];,.\":=]+)*)\s:(?:\s|$)")
# a name alone on its line, with its type on the next ones
ALONE = re.compile(r"(?m)^\s*(?:(?:pub|abbrev|unfoldable) )*([a-z][\w'-]*)\n\s+[(:{]")
BOUND = re.compile(r"[({]((?:[^\s(){}\[\];,.\":]+\s+)+): ")
LAMBDA = re.compile(r"λ ((?:[^\s(){}\[\];,.\"]+ ?)+)\.")
LET = re.compile(r"\blet ([^\s(){}\[\];,.\"]+) [:=]")
EQUATION = re.compile(r"^\s*([^\s(){}\[\];,.\"]+)((?: [^\s=]+)*) =")
# what Rattle makes or reads by name in a proof of a function
MADE = re.compile(r"^(Need|Goal|invariant|decreases|After|Then|Else|In|At|Start|the|gave|in|loop|if|returns|overflow|bounds|slice_bounds|shape_of)-")


def files(root):
    for folder, dirs, names in os.walk(os.path.join(root, "crates")):
        dirs[:] = sorted(d for d in dirs if d != "out" and not (d == "data" and os.path.basename(os.path.dirname(folder)) == "crates"))
        for n in sorted(names):
            if n.endswith((".antt", ".rt")):
                yield os.path.join(folder, n)


def text_of(path):
    with open(path, encoding="utf-8") as f:
        return f.read()


def snake(name):
    if name[:1].isupper():
        return name
    parts = re.sub(r"([a-z0-9₀-₉])([A-Z])", lambda m: m[1] + "_" + m[2].lower(), name)
    return parts.replace("-", "_")


def is_word(name):
    return bool(re.fullmatch(r"[a-zα-ωσΣμκ_][\w'₀-₉-]*", name)) and not name.startswith("-") and not name.endswith("-")


def code(line):
    """The line without its strings and its comment, for finding what it declares."""
    line = STRING.sub('""', line)
    return re.sub(r"(^|\s)--(\s.*|$)", "", line)


def declared(root, part=None):
    own = set()
    for p in files(root):
        if not p.endswith(".antt") or part and f"/{part}/" not in p:
            continue
        if os.path.basename(p) != "Proof.antt":
            own.update(ALONE.findall(text_of(p)))
        walk = os.path.basename(p) == "Proof.antt"
        for line in text_of(p).splitlines():
            line = code(line)
            if line.startswith("use ") or line.startswith("pub use "):
                for new in re.findall(r" as ([^\s,}]+)", line):
                    own.add(new)
                continue
            m = HEAD.match(line)
            if m and not walk:
                own.add(m[2])
                own.update(m[3].split())
            if m and walk and "Need" not in line and not MADE.match(m[2]):
                own.add(m[2])
            for m in BOUND.finditer(line):
                own.update(m[1].split())
            for m in LAMBDA.finditer(line):
                own.update(m[1].split())
            for m in LET.finditer(line):
                own.add(m[1])
            m = EQUATION.match(line)
            if m and not walk:
                own.update(x for x in m[2].split())
    return {n for n in own if is_word(n)}


def library(root):
    """Names that the kit's own libraries declare: they keep their spelling."""
    names = set()
    for top in ("rattle/logic", "rattle/antt", "rattle/std", "rattle/core", "rattle/std_alloc", "rattle/std_collections", "rattle/std_io", "rattle/std_heap"):
        for folder, dirs, files_ in os.walk(os.path.join(KIT, top)):
            for n in files_:
                if n.endswith(".antt"):
                    for m in re.finditer(r"(?m)^\s*(?:(?:abbrev|unfoldable|pub|data|record)\s+)+([^\s(){}\[\];,.\":]+)", text_of(os.path.join(folder, n))):
                        names.add(m[1])
    return names


# Lemmas that the port's first script had brought to the very name that their definition now takes: they get `_lem` too.
# `size-text` is a field in specs/, and in one file a lemma on `sizeText`.
HERE = {"crates/exactness/proofs/ChunkLines.antt": {"size-text": "size_text_lem"}}
LEMMAS = ("answer_at", "decimal_digit", "entry_value", "one_more", "push_at", "ran_out", "same_bool", "skipped_at")


def table(root):
    """Old and new names. A lemma that would have its definition's name gets `_lem`."""
    own, theirs = declared(root), library(root)
    # a name like those that Rattle makes is this repository's where specs/ or a file of lemmas declares it
    ours = set()
    for p in files(root):
        if p.endswith(".antt") and os.path.basename(p) != "Proof.antt":
            heads = (HEAD.match(code(line)) for line in text_of(p).splitlines())
            ours.update(m[2] for m in heads if m)
    plain = {n for n in own if snake(n) == n}
    shown = declared(root, "specs")
    defined = {snake(n) for n in own if "-" not in n and snake(n) != n}
    names = {n: n + "_lem" for n in LEMMAS}
    for n in own:
        if snake(n) == n or n in theirs or MADE.match(n) and n not in ours:
            continue
        names[n] = snake(n) + ("_lem" if "-" in n and n not in shown and snake(n) in defined | plain else "")
    return names


def turn_code(piece, names):
    return TOKEN.sub(lambda m: names.get(m[0], m[0]), piece)


def turn_text(line, names, comment):
    """A line, its strings left as they are, and of its comment what stands between back quotes."""
    lead = re.match(r"(?:pub |ghost )?use [^{]*", line)
    if lead:
        path, rest = lead[0], line[lead.end():]
        path = re.sub(r"( as )(\S+)", lambda m: m[1] + names.get(m[2], m[2]), path)
        return path + (turn_text("{" + rest[1:], names, comment) if rest else "")
    out, at = [], 0
    cut = re.search(r"(^|\s)" + comment + r"(\s|$)", STRING.sub(lambda m: "x" * len(m[0]), line))
    end = cut.start() + len(cut[1]) if cut else len(line)
    head, tail = line[:end], line[end:]
    for m in STRING.finditer(head):
        out.append(turn_code(head[at:m.start()], names) + m[0])
        at = m.end()
    out.append(turn_code(head[at:], names))
    return "".join(out) + re.sub(r"`([^`]*)`", lambda m: "`" + turn_code(m[1], names) + "`", tail)


def turn_rt(text, names):
    """Imports of ghost names and the clauses; the code itself keeps its names."""
    out, inside, depth = [], False, 0
    for line in text.split("\n"):
        bare = line.strip()
        if bare.startswith("ghost use"):
            out.append(turn_text(line, names, "//"))
            continue
        if not inside and re.match(r"(requires|ensures|ghost|invariant)\b", bare):
            inside, depth = True, 0
        if inside:
            out.append(turn_text(line, names, "//"))
            plain = STRING.sub('""', line)
            depth += plain.count("{") - plain.count("}")
            inside = depth > 0 or "{" not in plain
            continue
        out.append(line)
    return "\n".join(out)


def clashes(root, names):
    to = defaultdict(set)
    for old, new in names.items():
        to[new].add(old)
    for p in files(root):
        text = text_of(p)
        here = set(TOKEN.findall(STRING.sub('""', text)))
        for new, olds in to.items():
            both = {o for o in olds | {new} if o in here}
            if len(both) > 1:
                yield new, both, p


def main(argv):
    root = os.path.dirname(os.path.dirname(os.path.realpath(__file__)))
    names = table(root)
    if argv == ["--list"]:
        print("\n".join(f"{o} {names[o]}" for o in sorted(names)))
        return 0
    if argv == ["--clash"]:
        for new, both, p in sorted(clashes(root, names)):
            print(new, sorted(both), os.path.relpath(p, root))
        return 0
    changed = 0
    for p in files(root):
        text = text_of(p)
        if p.endswith(".rt"):
            new = turn_rt(text, names)
        else:
            here = names | HERE.get(os.path.relpath(p, root), {})
            new = "\n".join(turn_text(l, here, "--") for l in text.split("\n"))
        if new != text:
            with open(p, "w", encoding="utf-8") as f:
                f.write(new)
            changed += 1
    print(f"{len(names)} names, {changed} files")
    return 0


if __name__ == "__main__":
    raise SystemExit(main(sys.argv[1:]))
