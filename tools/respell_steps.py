"""Respells the names that the kit makes of the code (goals, steps, fields) in the answers of proofs/FUNCTION/.

A name of the code keeps its underscores in them now: `c.slots-in` is `c.slots_in`, `returns-in-err-place` is
`returns-in_err-place`. Run once, after tools/respell.py.
"""
import glob
import os
import re
import sys

KIT = ["in_err", "in_ok", "in_default", "invariant_of", "write_str", "write_fmt", "from_residual", "range_from", "range_to",
       "offset_bounds", "as_ref", "as_mut", "is_some", "is_none", "is_ok", "is_err", "iter_mut", "saturating_add",
       "index_mut", "clone_from", "size_hint", "type_inv", "well_formed"]
KIT += [f"overflow_{word}" for word in ("add", "sub", "mul", "cast", "shl", "shr", "div", "rem", "neg")]


def idents(root):
    names = set(KIT)
    for path in glob.glob(f"{root}/crates/*/src/**/*.rt", recursive=True):
        for name in re.findall(r"\b[A-Za-z][A-Za-z0-9]*(?:_[A-Za-z0-9]+)+\b", open(path, encoding="utf-8").read()):
            names.add(name)
    return sorted(names, key=len, reverse=True)


def main():
    root = sys.argv[1] if len(sys.argv) > 1 else os.path.join(os.path.dirname(__file__), "..")
    names = idents(root)
    turns = [(re.compile(rf"(?<![A-Za-z0-9_]){re.escape(n.replace('_', '-'))}(?![A-Za-z0-9_])"), n) for n in names]

    def turned(token):
        for pattern, name in turns:
            token = pattern.sub(name, token)
        return token

    after_dot = re.compile(r"(?<=\.)[A-Za-z][\w'-]*")
    heads = re.compile(r"^((?:abbrev )?(?:pub )?)([A-Za-z][\w-]*)(?= )", re.M)
    branches = re.compile(r"\b(?:then|else|in|after|joined)-[\w-]+")
    for path in glob.glob(f"{root}/crates/*/proofs/**/*.antt", recursive=True):
        inside = path.split("/proofs/")[1]
        if "/" not in inside:
            continue
        text = open(path, encoding="utf-8").read()
        new = after_dot.sub(lambda f: turned(f.group()), text)
        new = heads.sub(lambda f: f.group(1) + turned(f.group(2)), new)
        new = branches.sub(lambda f: turned(f.group()), new)
        new = re.sub(r"(?<=Goals\.\{)[^}]*", lambda f: turned(f.group()), new)
        if new != text:
            open(path, "w", encoding="utf-8").write(new)


if __name__ == "__main__":
    main()
