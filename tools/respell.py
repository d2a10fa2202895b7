#!/usr/bin/env python3
"""Brings the repository's own words to the spelling of today's Rattle: usage: python3 tools/respell.py, at the top, once, after the kit's own scripts.

A definition, field or lemma in camel case gets snake case (areaLength: area_length), and so does what stands beside a dash in a lemma's name
(length-keptOf: length-kept_of); a definition of specs/ loses its dashes (next-held: next_held). Where the new word is one that a lemma of the
repository has, the lemma gets the dashes that join its words (kept_of: kept-of). Types, modules, names of the library and all names of src/ stay.
It goes through crates/*/{src,specs,proofs,must-fail} and, for words in camel case alone, through the pages that cite definitions.
"""
import os
import re
import sys

TOKEN = re.compile(r"[A-Za-z_Α-ωµ₀-₉ᵉℕ][\w'\-₀-₉ᵉ→<>≤]*")
DECLARED = re.compile(r"^( {0,8})((?:(?:pub|abbrev|unfoldable|opaque|private|instance)\s+)*)(record |data )?([^\s:(){}]+)\s*(.*)$")
IMPORT = re.compile(r"^(?:pub )?use ([\w.+\-]+)\.\{([^}]*)\}", re.M | re.S)
PAGES = ["README.md", "docs"]
KEPT_PAGES = {"CHANGES.md", "PORT.md"}


def walk(top, endings):
    for folder, dirs, files in os.walk(top):
        dirs[:] = sorted(d for d in dirs if d not in ("out", ".git"))
        for f in sorted(files):
            if f.endswith(endings):
                yield os.path.join(folder, f)


def read(path):
    with open(path, encoding="utf-8") as f:
        return f.read()


def names():
    """What the .antt files declare: name -> places (path, depth); the library's names that they import; the words of src/."""
    declared, library, rust = {}, set(), set()
    for path in walk("crates", ".antt"):
        text = read(path)
        for m in IMPORT.finditer(text):
            own = m[1].startswith("Rattle.") and os.path.isdir(os.path.join("crates", m[1].split(".")[1]))
            if not own:
                library.update(x.strip().split(" as ")[0].strip() for x in m[2].split(","))
        for line in text.split("\n"):
            m = DECLARED.match(line)
            if m and m[4] not in ("use", "open", "where", "--", "let", "in"):
                rest = m[5]
                if rest.startswith(":") or (re.match(r"^[({].*:\s", rest) and (m[3] or m[2])):
                    declared.setdefault(m[4], []).append((path, len(m[1])))
    for path in walk("crates", ".rt"):
        rust.update(re.findall(r"[A-Za-z_]\w*", read(path)))
    return declared, library, rust


def snake(name):
    return re.sub(r"(?<=[a-z0-9])([A-Z])", lambda m: "_" + m[1].lower(), name)


def main():
    declared, library, rust = names()
    turned = {}
    for name, places in declared.items():
        if "◌" in name or name[0].isupper() or name in library:
            continue
        new = snake(name) if re.search(r"[a-z0-9][A-Z]", name) else name
        if any("/specs/" in path and deep == 0 for path, deep in places):
            new = new.replace("-", "_")
        if new != name:
            turned[name] = new
    both = [n for n in set(turned.values()) if list(turned.values()).count(n) > 1]
    if both:
        sys.exit(f"respell: these would fall together: {' '.join(sorted(both))}")
    # a lemma that has the word already
    dashed = {new: new.replace("_", "-") for new in turned.values() if new in declared and new not in turned}
    for new in dashed.values():
        if new in declared or new in library:
            sys.exit(f"respell: {new} is taken")

    def antt(m):
        word, text = m[0], m.string
        if word in turned:
            return turned[word]
        if word in dashed:
            beside = text[m.start() - 1 : m.start()] == "." or text[m.end() : m.end() + 1] == "."
            return word if word in rust and beside else dashed[word]
        return word

    def other(m):
        return turned.get(m[0], m[0])

    def page(m):
        word = m[0]
        return turned[word] if word in turned and re.search(r"[a-z0-9][A-Z]", word) else word

    def edit(text):
        of_code = re.search(r"^file: .*\.rt$", text, re.M)
        return TOKEN.sub(other if of_code else antt, text)

    count = 0
    todo = [(p, lambda t: TOKEN.sub(antt, t)) for p in walk("crates", ".antt")]
    todo += [(p, lambda t: TOKEN.sub(other, t)) for p in walk("crates", ".rt")]
    todo += [(p, edit) for p in walk("crates", ".edit")]
    for top in PAGES:
        pages = [top] if os.path.isfile(top) else walk(top, ".md")
        todo += [(p, lambda t: TOKEN.sub(page, t)) for p in pages if os.path.basename(p) not in KEPT_PAGES]
    for path, turn in todo:
        old = read(path)
        new = turn(old)
        if new != old:
            count += 1
            with open(path, "w", encoding="utf-8") as f:
                f.write(new)
    print(f"respell: {len(turned)} words turned, {len(dashed)} lemmas joined by dashes, {count} files")


main()
