#!/usr/bin/env python3
"""Brings the repository's own names to today's spelling: python3 tools/port_names.py [ROOT] [--list]

Run once, after the toolchain's port.py. Definitions of specs/ and proofs/ in lower camel case, and lemmas whose words are joined by
dashes, are respelled in snake case; a dash stays where it joins the names of two functions, as in length-table. Functions of src/,
strings, exported names, inputs and outputs keep their names, and so do the names that a proof by hand gives its goals. A lemma
whose new name another item has gets `_lem`.
"""
import os
import re
import sys

NAME = re.compile(r"[^\s(){}\[\].,;⌜⌝\"`:]+")
DECLARED = re.compile(r"^( *)((?:(?:abbrev|opaque|unfoldable|pub|instance) )*)((?:record |data )?)([^\s(){},.=|:]+)\s*(?::|$|\()")
# what a dash may join: functions of the library and of the repository that equations are about
FUNCTIONS = set("length append take drop set map replicate get_or reverse sum table raster filled packed pixel".split())


# definitions whose plain new name a lemma or a constant has
OTHERS = {
    "allDigits": "digits_only",
    "cellSet": "set_of_cells",
    "getD-raster": "get_or-raster",
    "getD-table": "get_or-table",
    "noRecord": "empty_record",
    "packedByte": "byte_packed",
}

# names that share a line of their declaration, and names that a proof or a statement binds
MORE = """afterHeight afterWidth closingLevels dilationLevels erodedBy erosionLevels exactHeight exactWidth heightCount keptA keptB openedBy
    openingLevels widthCount at-end in-own in-points is-final is-high is-low is-off is-on levels-asked means-of of-levels one-thing own-else
    points-else to-element to-kind""".split()


def files(root, ends):
    for folder, dirs, names in os.walk(os.path.join(root, "crates")):
        dirs[:] = sorted(d for d in dirs if d != "out")
        for n in sorted(names):
            if n.endswith(ends):
                yield os.path.join(folder, n)


def plain(line):
    return re.sub(r"--.*", "", line)


def snake(word):
    word = re.sub(r"([a-z0-9])([A-Z])", r"\1_\2", word)
    word = re.sub(r"([A-Z])([A-Z][a-z])", r"\1_\2", word)
    return word.lower().replace("-", "_")


def declared(root):
    """The names that specs/ and the lemma files of proofs/ declare, fields and constructors too, with the files."""
    out = {}
    for p in files(root, ".antt"):
        if os.path.basename(p) == "Proof.antt" or os.path.basename(p) == "Lib.antt":
            continue
        lines = open(p, encoding="utf-8").read().split("\n")
        for i, line in enumerate(lines):
            m = DECLARED.match(plain(line))
            if not m or m[4] in ("use", "pub", "mod", "module", "unfolding", "where", "let", "record", "data", "in"):
                continue
            bare = plain(line).rstrip()
            # a signature ends its name by a colon on the line or on one of the next
            if ":" in bare or (i + 1 < len(lines) and lines[i + 1].lstrip().startswith((":", "("))):
                out.setdefault(m[4], set()).add(os.path.relpath(p, root))
    return out


def renames(root):
    """Old and new names, and the lemmas whose plain new name another item has."""
    own = declared(root)
    taken, library = {w for w in own if re.search(r"_", w)}, set()
    for p in files(root, (".antt", ".rt")):
        for m in re.finditer(r"\buse ([^\s{]+)\.\{([^}]*)\}", open(p, encoding="utf-8").read()):
            if not re.match(r"Rattle\.(?!std|core)", m[1]):
                library |= {w.strip().split(" as ")[0] for w in m[2].split(",")}
    taken |= library
    table, lemmas = {}, []
    # definitions first: a lemma makes way for them
    for camel in (True, False):
        for old in sorted(own):
            bare = old.rstrip("'′")
            if re.match(r"[A-Z]", old) or old in library or bool(re.search(r"[a-z0-9][A-Z]", bare) and "-" not in bare) != camel:
                continue
            if not camel:
                parts = bare.split("-")
                if len(parts) < 2 or re.search(r"[^\w'-]", bare) or (len(parts) == 2 and set(parts) <= FUNCTIONS):
                    continue
            new = OTHERS.get(old, snake(old))
            if new in taken:
                lemmas.append(old)
                new += "_lem"
            taken.add(new)
            table[old] = new
    table |= {old: snake(old) for old in MORE}
    return table, lemmas


def turned(text, table, by_hand):
    """A file's text respelled. In a proof by hand the names of goals and steps stay, and what it binds to a step."""
    bound = set(re.findall(r"\blet ([^\s=:]+)", text)) if by_hand else set()
    out = []
    for line in text.split("\n"):
        steps = by_hand and not line.startswith("use ")

        def one(m, line=line, steps=steps):
            name = m[0]
            if steps and "-" in name and (name in bound or line[: m.start()].endswith(".")):
                return name
            return table.get(name, name)

        out.append(NAME.sub(one, line))
    return "\n".join(out)


def main(argv):
    root = next((a for a in argv if not a.startswith("--")), ".")
    table, lemmas = renames(root)
    if "--list" in argv:
        print("\n".join(f"{old} {new}" for old, new in sorted(table.items())))
        return
    for p in files(root, (".antt", ".rt", ".edit")):
        text = open(p, encoding="utf-8").read()
        # code has no lemmas, so only definitions are respelled there
        words = {o: n for o, n in table.items() if "-" not in o} if p.endswith(".rt") else table
        out = turned(text, words, p.endswith("Proof.antt"))
        if out != text:
            with open(p, "w", encoding="utf-8") as f:
                f.write(out)
    print(f"{len(table)} names respelled; with _lem: {' '.join(lemmas)}")


if __name__ == "__main__":
    main(sys.argv[1:])
