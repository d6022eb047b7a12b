#!/usr/bin/env python3
"""Brings the repository's own definitions and lemmas to today's spelling: words in snake case, types and modules in camel case.

usage: python3 tools/respell.py [--list]     at the top of the repository, once, after the toolchain's port.py

It reads which names specs/ and the files of proofs/ declare, bind or use as fields, and turns each of them that has a
dash or a capital inside, in every file of crates/*/specs, crates/*/proofs and in the clauses of crates/*/src. A name
that a file takes from a library, or from what Rattle makes of the code, keeps its spelling. Functions of src/ have
snake case already and are not touched. Where the new spelling is taken, a lemma gets '_lem' after it.
--list prints the names, old and new, and writes nothing.
"""
import os
import re
import sys

NAME = r"[^\W\d][\w'’]*(?:-[\w'’]+)*"
TOKEN = re.compile(r"(?<![\w'’-])" + NAME)
LIBRARY_WORDS = {"getD"}


def files(sub, ends):
    for crate in sorted(os.listdir("crates")):
        top = os.path.join("crates", crate, sub)
        for folder, dirs, names in os.walk(top):
            dirs[:] = sorted(d for d in dirs if d != "out")
            for n in sorted(names):
                if n.endswith(ends):
                    yield os.path.join(folder, n)


def is_lemma_file(path):
    parts = path.split(os.sep)
    return parts[2] == "proofs" and len(parts) == 4


def code_of(text):
    """The text with comments blanked out."""
    return re.sub(r"(?m)(^|\s)--.*$", lambda m: m.group(1) + " " * (len(m.group(0)) - len(m.group(1))), text)


def candidate(name):
    return name[0].islower() and (("-" in name and not re.fullmatch(r"\w+-\d+", name)) or bool(re.search(r"[a-z0-9][A-Z]", name)))


def snake(name):
    s = re.sub(r"([a-z0-9])([A-Z])", lambda m: m.group(1) + "_" + m.group(2).lower(), name)
    return s.replace("-", "_")


def own_crates():
    return [c for c in sorted(os.listdir("crates")) if os.path.isdir(os.path.join("crates", c, "src"))]


def uses(code, own):
    """The names a file takes by its use lines: those of the repository's own modules, and all others."""
    mine, theirs = set(), set()
    for m in re.finditer(r"(?:ghost )?\buse\s+([^\s;{]+?)\.?\{([^}]*)\}", code):
        path, items = m.group(1), re.findall(TOKEN, m.group(2))
        parts = path.split(".")
        ours = parts[0] == "Rattle" and len(parts) > 3 and parts[1] in own and parts[2] in ("specs", "proofs") and parts[3] not in ("declared", "contracts")
        made = len(parts) > 4 and any(p in ("Tie", "Lts", "Goals", "Given", "Statement", "Loops", "Code") for p in parts)
        (mine if ours and not made else theirs).update(items)
    return mine, theirs


def declared(code):
    """Names at the head of declarations, and fields and constructors, of a file of specs/ or of lemmas."""
    heads, fields = set(), set()
    for line in code.splitlines():
        m = re.match(r"(\s*)(?:(?:pattern|unfoldable|abbrev|pub|data|record|ruleset)\s+)*(" + NAME + r")\s*(?:\{[\w ℓκ,]*\}\s*)?(?::|\(|\s)", line)
        if not m:
            continue
        after = line[m.end(2):].lstrip()
        if re.match(r"(\{[^}:]*\}\s*)?:", after):
            (fields if m.group(1) else heads).add(m.group(2))
        elif re.match(r"\s*(?:pub\s+)?ruleset\s", line):
            heads.add(m.group(2))
    return heads, fields


def into_types(code):
    """Words of a file whose last result is a type: they are spelled as types."""
    found = set()
    for m in re.finditer(r"(?m)^(?:(?:pattern|unfoldable|abbrev|pub)\s+)*(" + NAME + r")\s*(?:\{[\w ℓκ,]*\}\s*)?:((?:.*)(?:\n[ \t]+.*)*)", code):
        if re.search(r"(?:→|:)?\s*Type(?:\s+\S+)?\s*$", m.group(2).rstrip()) and not re.search(r"\(\s*Type\s*\S*$", m.group(2)):
            found.add(m.group(1))
    return found


def parameters(text):
    """Names of parameters of the functions of a source file, which hide a word of their name."""
    found = set()
    for m in re.finditer(r"\bfn\s+\w+(?:<[^(]*>)?\(([^)]*)\)", text):
        found.update(re.findall(r"(\w+)\s*:", m.group(1)))
    return found


def binders(code):
    found = set()
    for m in re.finditer(r"λ\s*([^.]*)\.", code):
        found.update(TOKEN.findall(m.group(1)))
    for m in re.finditer(r"[({]\s*((?:" + NAME + r"|_)(?:\s+(?:" + NAME + r"|_))*)\s*:", code):
        found.update(TOKEN.findall(m.group(1)))
    for m in re.finditer(r"\blet\s+(" + NAME + r")\s*[:=]", code):
        found.add(m.group(1))
    for m in re.finditer(r"(?m)^\s*(" + NAME + r"(?:\s+[^=\n]*)?)=", code):
        if not m.group(0).strip().startswith(("use", "record")):
            found.update(TOKEN.findall(m.group(1)))
    return found


def main(argv):
    own = own_crates()
    sources = list(files("specs", ".antt")) + [p for p in files("proofs", ".antt") if is_lemma_file(p)]
    walked = [p for p in files("proofs", ".antt") if not is_lemma_file(p)]
    rust = list(files("src", ".rt"))
    text = {}
    for p in sources + walked + rust:
        with open(p, encoding="utf-8") as f:
            text[p] = f.read()
    heads, fields, local, of_libraries = set(), set(), {}, set()
    for p in sources:
        code = code_of(text[p])
        h, f = declared(code)
        heads |= h
        fields |= f
        mine, theirs = uses(code, own)
        of_libraries |= theirs
        local[p] = binders(code) - theirs
    for p in walked + rust:
        of_libraries |= uses(code_of(text[p]) if p.endswith(".antt") else text[p], own)[1]
    top = {n for n in heads | fields if candidate(n)}
    clash_with_library = sorted(n for n in top if n in of_libraries)
    taken, types, passed = set(LIBRARY_WORDS), set(), {}
    for p, t in text.items():
        if p.endswith(".rt"):
            passed[p] = parameters(t)
        elif p in local:
            code = code_of(t)
            taken.update(m.group(0) for m in TOKEN.finditer(code) if code[: m.start()][-1:] != ".")
            types |= into_types(code)
    hidden = {n for p, names in passed.items() for n in top if snake(n) in names and n in TOKEN.findall(text[p])}
    new, back = {}, {}
    every = set(top)
    for names in local.values():
        every |= {n for n in names if candidate(n)}
    for n in sorted(every, key=lambda n: ("-" in n, n)):
        s = n[0].upper() + n[1:] if n in types and n in top and "-" not in n else snake(n)
        if n in top and "-" not in n and s in heads and s not in back:
            # a lemma has the word's name already, from the toolchain's script: the word keeps it
            new[s] = s + "_lem"
            back[s + "_lem"] = s
            top.add(s)
        elif (s in taken and n in top) or s in back or n in hidden:
            s = s + ("_lem" if "-" in n else "_of")
            while s in taken or s in back:
                s += "_"
        new[n] = s
        back[s] = n
    if "--list" in argv:
        for n in sorted(new):
            print(n, new[n], "" if n in top else "(local)", "TAKEN" if new[n] != snake(n) else "")
        print("of a library too:", clash_with_library, file=sys.stderr)
        return 0
    for p in sources + walked + rust:
        whole = text[p]
        mine, theirs = uses(code_of(whole) if p.endswith(".antt") else whole, own)
        if p in local:
            here = (top | {n for n in local[p] if candidate(n) or n in new}) - theirs
        else:
            here = (top & (mine | fields)) if p.endswith(".antt") else top - theirs
        def turn(m):
            n = m.group(0)
            return new[n] if n in here and n in new else n
        out = TOKEN.sub(turn, whole)
        if out != whole:
            with open(p, "w", encoding="utf-8") as f:
                f.write(out)
    return 0


if __name__ == "__main__":
    raise SystemExit(main(sys.argv[1:]))
