#!/usr/bin/env python3
"""Respells the repository's own definitions and lemmas as today's Rattle spells names.

    tools/respell.py          # run once at the top, after port.py; prints what was renamed and what fell together

Words in snake case: `clocksSaid` is `clocks_said`. A dash stays where it joins two names, as in `length-join`, and becomes `_` between
plain words, as in `counted_act`. Types, modules, facts, names that Rattle makes (`returns-2`, `loop-i-preserved`, `f-requires`), names of
the kit, items of src/, strings, inputs and outputs keep their names. It goes through specs/, proofs/, clauses and comments of src/, and
the edits of must-fail/.
"""
import glob
import os
import re
import subprocess
import sys

TOP = os.getcwd()
KIT = os.path.dirname(subprocess.run(["rt", "doc"], capture_output=True, text=True, check=True).stdout.split()[-1])

# One name: what stands between blanks, brackets, dots and the like.
NAME = re.compile(r"[^\s(){}\[\].,;:=λ→×⌜⌝`\"|¬]+")
SIGNATURE = re.compile(r"^(\s*)((?:pub |abbrev |unfoldable )*)([^\s:(){}=;]+(?:, [^\s:(){}=;]+)*) : (.*)$")
MADE = re.compile(r"(-requires|-spec|_spec|-returns)(-\d+)?$|^(returns|loop|cast|mul|add|sub|div|shl|shr|element|enum-known|enum-told|slice|shared|array|same-length|overflow|invariant|decreases|sized)-")


def texts(*kinds):
    for kind in kinds:
        yield from sorted(glob.glob(os.path.join(TOP, kind), recursive=True))


def snake(word):
    """One part of a name between dashes: camel case to snake case, where it begins with a small letter."""
    if not re.match(r"[a-z]", word):
        return word
    word = word.replace("getD", "get_or")
    return re.sub(r"(?<=[a-z0-9'])([A-Z])", lambda m: "_" + m.group(1).lower(), word)


def kit_names():
    names = set()
    for path in glob.glob(KIT + "/rattle/**/*.antt", recursive=True):
        if "/examples/" in path or "/tests/" in path:
            continue
        for line in open(path, errors="replace"):
            m = SIGNATURE.match(line)
            if m:
                names.update(m.group(3).split(", "))
    return names


def kit_words():
    """What contracts and proofs cite of the kit: the words that a dash may join."""
    names = set()
    for path in ("std/specs/Prelude.antt", "std/proofs/Common.antt"):
        for group in re.findall(r"\{([^}]*)\}", open(os.path.join(KIT, "rattle", path)).read()):
            names.update(n for n in group.split(", ") if "-" not in n)
    return names


def own_names():
    """The names that specs/ and proofs/ declare: all of them, and those of specs/ alone."""
    declared, words = set(), set()
    for path in texts("crates/*/specs/**/*.antt", "crates/*/proofs/**/*.antt"):
        in_specs = "/specs/" in path
        answers = os.path.basename(path) in ("Proof.antt",)
        for line in open(path):
            m = SIGNATURE.match(line)
            if not m or line.lstrip().startswith("--"):
                continue
            if answers and (m.group(4).startswith(("tie.", "statement", "{M : Type 1} → statement"))):
                continue
            for name in m.group(3).split(", "):
                declared.add(name)
                if in_specs:
                    words.add(name)
        text = open(path).read()
        for name in re.findall(r"(?:data|record) ([^\s:({]+)", text):
            if in_specs:
                words.add(name)
    return declared, words


def renamed(declared, words, kit, joinable):
    new = {}
    for name in declared:
        if name in kit or MADE.search(name) or not re.search(r"[a-z]", name):
            continue
        parts = name.split("-")
        if any(p == "" for p in parts):
            continue
        turned = [snake(p) for p in parts]
        out = turned[0]
        for before, after, b, a in zip(parts, parts[1:], turned, turned[1:]):
            joins = all(p in words or p in joinable or t in joinable for p, t in ((before, b), (after, a)))
            out += ("-" if joins else "_") + a
        if out != name:
            new[name] = out
    return new


def camel_binders(kit):
    """Variables in camel case: bound by λ, by let or by a clause."""
    new = {}
    for path in texts("crates/*/specs/**/*.antt", "crates/*/proofs/**/*.antt"):
        for line in open(path):
            for name in NAME.findall(line.split("--")[0]):
                if re.fullmatch(r"[a-z][a-z0-9]+([A-Z][a-z0-9]*)+'?", name) and name not in kit:
                    new[name] = snake(name)
    return new


def main():
    kit = kit_names()
    declared, words = own_names()
    new = renamed(declared, words, kit, kit_words())
    for name, turned in camel_binders(kit).items():
        new.setdefault(name, turned)
    lemmas = {}
    for name in sorted(new, key=lambda n: (n not in words, n)):
        turned = new[name]
        if turned in declared and turned not in new:
            # A lemma that would have its definition's name gets `_lem`.
            late, first = (turned, name) if name in words else (name, turned)
        elif turned in lemmas.values():
            late, first = name, next(n for n, x in lemmas.items() if x == turned)
        else:
            lemmas[name] = turned
            continue
        print(f"falls together: {late} (now {turned}_lem) with {first}")
        lemmas[first] = turned
        lemmas[late] = turned + "_lem"
    new = {n: x for n, x in lemmas.items() if n != x}
    if "--dry" in sys.argv:
        for name in sorted(new):
            print(f"{name} -> {new[name]}")
        return

    def turn(text, ghost):
        def one(m):
            name = m.group(0)
            if not ghost and name not in words or text[: m.start()].endswith("proofs."):
                return name
            return new.get(name, name)

        return NAME.sub(one, text)

    changed = 0
    for path in texts("crates/*/specs/**/*.antt", "crates/*/proofs/**/*.antt", "crates/*/src/**/*.rt", "crates/*/must-fail/*.edit"):
        old = open(path).read()
        out = []
        for line in old.splitlines(keepends=True):
            ghost = not path.endswith(".rt") and not (path.endswith(".edit") and "file: src/" in old)
            code, sep, comment = line.partition("--" if ghost else "//")
            comment = re.sub(r"`[^`]*`", lambda m: turn(m.group(0), ghost), comment)
            comment = re.sub(r"\b[a-z][a-z0-9]*[A-Z]\w*", lambda m: new.get(m.group(0), m.group(0)), comment)
            out.append(turn(code, ghost) + sep + comment)
        text = "".join(out)
        if text != old:
            open(path, "w").write(text)
            changed += 1
    print(f"renamed: {len(new)} names, in {changed} files")


if __name__ == "__main__":
    main()
