#!/usr/bin/env python3
"""respell.py: brings this repository's own names in definitions and lemmas to today's spelling, once, after port.py.

A name that specs/ or a file of lemmas declares (a definition, lemma, constructor or field) is written in snake case: 'memberOf' becomes 'member_of', 'bad-step' 'bad_step'.
A dash stays where it joins two functions' names ('length-append'); elsewhere, and in all of the crate certificate, it becomes an underscore. A primed name has an apostrophe. A lemma that would have its
function's name ends in '_lem'.
The name of a proof of a function f is 'f_spec'. Names of src/, of types and of modules, strings and what Rattle makes keep theirs. It goes by whole words, in .antt files, in the
clauses, ghost items and comments of .rt files, in must-fail edits, and in the code spans of pages. It prints each name with its new one; where two fall together it stops.

usage: respell.py [--list], at the top of the repository
"""
import collections
import glob
import re
import sys

WORD = r"[^\s(){}.;,@\"«»\[\]\\:`'|]+"
# functions of the library that lemmas of this repository are about
LIBRARY = set("length append take drop map replicate set reverse filter ones bit_and bit_or bit_not shr shl plus minus".split())
# parts of the names that Rattle makes, and what a proof of a function is asked for
MADE = re.compile(r"^(Need|returns|invariant|decreases|loop|cast|add|sub|mul|shl|shr|shared|slice|array|μ|\+)(-|$)|^[A-Z]")
# where a constructor and a test would be one, the test; where a lemma would be the library's function, the lemma
ASIDE = {"notNow": "is_not_now", "notYet": "is_not_yet", "bit-and": "bit_of-bit_and", "bit-or": "bit_of-bit_or", "bit-not": "bit_of-bit_not", "zero-pair": "zero_pair_lem"}
# what specs/ declares has no dash
ASIDE.update({"bad-world": "bad_world", "bad-step": "bad_step", "bad-sheet": "bad_sheet", "badSheet": "is_bad_sheet", "BAD-SHEET": "BAD_SHEET", "start-kept": "start_kept"})
# names of the library, which keep their spelling though a file here declares one alike
KEPT = set("length-append".split())


def antt():
    return sorted(set(glob.glob("crates/*/specs/**/*.antt", recursive=True) + glob.glob("crates/*/proofs/**/*.antt", recursive=True)))


def of_a_function(path):
    """Whether a file stands in the folder of one function's proof."""
    return path.split("/")[2] == "proofs" and len(path.split("/")) > 4


def code_lines(path):
    for line in open(path, encoding="utf-8").read().split("\n"):
        if not re.match(r"\s*--|use |unfolding|infix", line):
            yield line


def declared():
    """Each name that a file declares, with the files."""
    names = collections.defaultdict(set)
    for path in antt():
        data = False
        for line in code_lines(path):
            top = re.match(r"((?:pattern |unfoldable |abbrev |pub |record |data )*)(" + WORD + r")(?: \{[^}]*\}| \([^)]*\))* ?(?::|where)", line)
            field = re.match(r"\s+(?:pub )?(" + WORD + r")(?: \{[^}]*\})? : ", line)
            if top:
                names[top.group(2)].add(path)
            elif field and not re.search(r"λ|\blet\b|=", line.split(" : ")[0]):
                names[field.group(1)].add(path)
    return names


def snake(name):
    name = name.replace("′", "'")
    name = re.sub(r"(?<=[a-z0-9])([A-Z])(?=[a-z0-9]|$|-|_)", lambda m: "_" + m.group(1).lower(), name)
    return name


def functions(names):
    """The functions that specs/ declares, in their new spelling."""
    return LIBRARY | {snake(n) for n, paths in names.items() if any("/specs/" in p for p in paths) and re.match(r"[a-z]", n)}


def respelled(name, paths, known):
    if name.endswith("-spec") and all(of_a_function(p) for p in paths):
        return name.lstrip("+").replace("-", "_")
    if MADE.match(name) and not (re.match(r"[a-z]", name) and any(not of_a_function(p) for p in paths)) or name in KEPT:
        return name
    if re.match(r"[A-Z]", name):
        return name
    parts = snake(name).split("-")
    dash_free = all(p.startswith("crates/certificate/") for p in paths)
    new = parts[0]
    for before, part in zip(parts, parts[1:]):
        new += ("-" if not dash_free and before in known and part in known and before != part else "_") + part
    return new


def table():
    names = declared()
    known = functions(names)
    rows = {}
    for name, paths in sorted(names.items()):
        new = ASIDE.get(name) or respelled(name, paths, known)
        if new != name:
            rows[name] = new
    back = collections.defaultdict(set)
    for old, new in rows.items():
        back[new].add(old)
    for name in names:
        if name not in rows:
            back[name].add(name)
    together = {}
    for new, olds in back.items():
        # a lemma that would have its function's name ends in _lem
        of_specs = [n for n in olds if "-" not in n and any("/specs/" in p for p in names[n])] or [n for n in olds if re.search("[A-Z]", n)]
        lemmas = [n for n in olds if n not in of_specs]
        if len(olds) == 2 and len(lemmas) == 1 and new + "_lem" not in names:
            rows[lemmas[0]] = new + "_lem"
        elif len(olds) > 1:
            together[new] = olds
    return rows, together


def turned(rows, text):
    def new(m):
        word = m.group(0)
        # a name that could be a function's of src/ stays in paths
        if "_" in word and "-" not in word and "." in text[max(0, m.start() - 1) : m.start()] + text[m.end() : m.end() + 1]:
            return word
        return rows.get(word, word)

    return re.sub(WORD, new, text)


def turn_antt(rows, text):
    return "".join(piece if piece.startswith('"') else turned(rows, piece) for piece in re.split(r'("[^"\n]*")', text))


def turn_rt(rows, text):
    """Only clauses, ghost items and comments."""
    out, ghost = [], 0
    for line in text.split("\n"):
        head = re.match(r"\s*(requires|ensures|ghost|invariant)\b", line)
        if ghost or head:
            out.append(turned(rows, line))
            ghost += line.count("{") - line.count("}")
            if head and line.rstrip().endswith(";"):
                ghost = 0
        elif re.match(r"\s*//", line):
            out.append(turned(rows, line))
        else:
            out.append(line)
    return "\n".join(out)


def turn_edit(rows, text):
    """An edit's lines in a file of definitions, or in a clause."""
    out, spec = [], False
    for line in text.split("\n"):
        if line.startswith("file:"):
            spec = line.endswith(".antt")
        if spec and re.match(r"(old|new):", line) or re.search(r"\b(requires|ensures)\b", line):
            line = turned(rows, line)
        out.append(line)
    return "\n".join(out)


def turn_page(rows, text):
    return re.sub(r"`[^`\n]*`", lambda m: turned(rows, m.group(0)), text)


def local(rows):
    """What only a 'where' or a 'let' binds."""
    for path in antt():
        for word in re.findall(WORD, open(path, encoding="utf-8").read()):
            if re.fullmatch(r"[a-z][a-z0-9]*([A-Z][a-z0-9]+)+", word) and word not in rows:
                rows[word] = snake(word)


def main():
    rows, together = table()
    local(rows)
    if together:
        for new, olds in sorted(together.items()):
            print("fall together:", new, "of", " ".join(sorted(olds)))
    for old, new in sorted(rows.items()):
        print(old, new)
    if "--list" in sys.argv or not rows:
        return
    if together:
        sys.exit("nothing was written")
    kinds = [(antt(), turn_antt), (glob.glob("crates/*/src/**/*.rt", recursive=True), turn_rt), (glob.glob("crates/*/must-fail/*.edit"), turn_edit), (glob.glob("*.md") + glob.glob("docs/**/*.md", recursive=True), turn_page)]
    for paths, turn in kinds:
        for path in paths:
            text = open(path, encoding="utf-8").read()
            new = turn(rows, text)
            if new != text:
                open(path, "w", encoding="utf-8").write(new)
    # a name of two dashes may join two functions' names only now
    main()


if __name__ == "__main__":
    main()
