"""Respells the definitions and lemmas of this repository, once, after the kit's own scripts have run.

Words get snake case, types get camel case (`first-place` becomes `first_place`, `For-ever` becomes `ForEver`). Names
that the kit makes (goals, steps) keep theirs, and so do the functions of src/, strings, inputs and outputs.

    python3 tools/respell.py [FOLDER]

changes the files of FOLDER (the folder above this one, if none is given), and lists names that fall together.
"""
import glob
import os
import re
import sys

# a name of antt: no spaces, brackets or punctuation of terms
NAME = r"[^\s(){}\[\].,;:λ\"«»@⌜⌝]+"
DECLARES = re.compile(
    r"^\s*(?:abbrev pub |unfoldable pub |pub abbrev |pub unfoldable |pub record |pub data |pub |abbrev |unfoldable |record |data )?"
    rf"({NAME})\s*(?:[({{][^:]*:[^=]*?[)}}]\s*)*:\s(.*)$"
)
TOKEN = re.compile(NAME)


def respelled(name):
    name = name.replace("′", "'")
    if name[0].isupper():
        return "".join(part[0].upper() + part[1:] for part in name.split("-"))
    return name.replace("-", "_")


def declared(root):
    names = {}
    for kind in ("specs", "proofs"):
        for path in sorted(glob.glob(f"{root}/crates/*/{kind}/**/*.antt", recursive=True)):
            for line in open(path, encoding="utf-8"):
                if line.lstrip().startswith("--"):
                    continue
                found = DECLARES.match(line)
                if not found:
                    continue
                name, rest = found.groups()
                # a goal, an invariant or a measure: the kit names it
                if re.match(rf"goal\.{re.escape(name)}$", rest.strip()):
                    continue
                if "-" in name and re.fullmatch(r"[A-Za-z][\w'-]*", name):
                    names.setdefault(name, path)
    return names


def turned(text, names):
    def turn(found):
        # `c.flow-count` is a step of the code, which the kit names
        step = re.search(r"(?:^|[^\w'-])[cw]\.$", text[max(0, found.start() - 3):found.start()])
        return found.group() if step else names.get(found.group(), found.group())

    return TOKEN.sub(turn, text)


def turned_code(text, names):
    """Only what is ghost, and comments; strings stay."""
    parts = re.split(r'("(?:\\.|[^"\\])*")', text)
    return "".join(part if k % 2 else turned(part, names) for k, part in enumerate(parts))


def main():
    root = sys.argv[1] if len(sys.argv) > 1 else os.path.join(os.path.dirname(__file__), "..")
    names = {name: respelled(name) for name in declared(root)}
    files = [p for p in glob.glob(f"{root}/crates/*/**/*", recursive=True)
             if p.endswith((".antt", ".rt")) and "/out/" not in p]
    files += glob.glob(f"{root}/docs/*.md") + [f"{root}/README.md"]
    seen = {}
    for path in files:
        for token in TOKEN.findall(open(path, encoding="utf-8").read()):
            seen.setdefault(token, set()).add(path)
    for name, new in sorted(names.items()):
        if new in seen:
            both = seen[new] & seen.get(name, set())
            where = ", ".join(sorted(os.path.relpath(p, root) for p in (both or seen[new]))[:4])
            print(f"falls together: {name} with {new} {'IN ONE FILE' if both else ''} ({where})")
    for path in files:
        text = open(path, encoding="utf-8").read()
        if path.endswith(".md"):
            new = re.sub(r"`[^`]*`", lambda found: turned(found.group(), names), text)
        elif path.endswith(".rt"):
            new = turned_code(text, names)
        else:
            new = turned(text, names)
        if new != text:
            open(path, "w", encoding="utf-8").write(new)
    print(f"{len(names)} names respelled")


if __name__ == "__main__":
    main()
