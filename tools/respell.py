#!/usr/bin/env python3
"""Respells the project's own names, and its must-fail edits, after the toolchain's port.py has run.

usage: tools/respell.py LANDED     at the top of a tree that is that commit with port.py run on it

port.py turns code, definitions and proofs. This does what it leaves:
1. A must-fail edit is a change of a file of LANDED. Each is made there, port.py turns the file so changed, and the lines in which it
   then differs from the file turned without the change are the edit. Edits whose lines lie apart are turned together.
2. Definitions and lemmas are spelled in snake case, and tests end in _test: matrixRules, alike-unique and alike? become matrix_rules,
   alike_unique and alike_test. So they are in definitions, proofs, contracts, edits, and between backquotes in README.md and docs/.
It stops where two names would fall together.
"""

import difflib
import os
import re
import shutil
import subprocess
import sys
import tempfile
from concurrent.futures import ThreadPoolExecutor

APART = 12  # lines between two edits of one file that are turned together
# lemmas that would have their function's name
LEMMAS = {n: n.replace("-", "_") + "_lem" for n in ("cell-char", "digit-of", "matrix-room", "policy-room", "table-cell", "table-size")}
LEMMAS |= {"same_test": "same_test_lem"}
NAME = re.compile(r"[^\s(){}\[\].,;:\"`λ→×∷≡≢]+")


def run(*words, where="."):
    return subprocess.run(words, cwd=where, check=True, stdout=subprocess.PIPE, text=True).stdout


def read(path):
    with open(path, encoding="utf-8") as f:
        return f.read()


def write(path, text):
    with open(path, "w", encoding="utf-8") as f:
        f.write(text)


# ---- edits
def pairs(edit):
    """The file that an edit changes, its comment lines, and its pairs of texts."""
    file, notes, found, old = None, [], [], None
    for line in read(edit).splitlines():
        if line.startswith("file: "):
            file = line[6:]
        elif line.startswith("old: "):
            old = line[5:]
        elif line.startswith("new: "):
            found.append((old, line[5:]))
        else:
            notes.append(line)
    return file, notes, found


def changed(text, found):
    for old, new in found:
        if text.count(old) != 1:
            return None
        text = text.replace(old, new)
    return text


def spans(before, after):
    """The line ranges of `before` that differ."""
    match = difflib.SequenceMatcher(None, before.splitlines(), after.splitlines(), autojunk=False)
    return [(a, b) for tag, a, b, _, _ in match.get_opcodes() if tag != "equal"]


def rounds(landed, edits, apart):
    """Edits in rounds, so that in a round two edits of one file lie so many lines apart, and each finds its text."""
    out, texts = [], []
    for edit in edits:
        crate = edit.split("/must-fail/")[0]
        file, _, found = pairs(edit)
        path = f"{crate}/{file}"
        before = read(os.path.join(landed, path))
        mine = spans(before, changed(before, found))
        for it, text in zip(out, texts):
            near = [s for p, ss, _ in it if p == path for s in ss]
            both = changed(text.get(path, before), found)
            if both and all(b + apart < c or d + apart < a for a, b in mine for c, d in near):
                it.append((path, mine, edit))
                text[path] = both
                break
        else:
            out.append([(path, mine, edit)])
            texts.append({path: changed(before, found)})
    return out


def turned(landed, work, port, it):
    """The files of a round, turned with their edits."""
    tree = tempfile.mkdtemp(dir=work)
    shutil.copytree(landed, tree, dirs_exist_ok=True)
    for path, _, edit in it:
        at = os.path.join(tree, path)
        write(at, changed(read(at), pairs(edit)[2]))
    run("git", "init", "-q", where=tree)
    run("git", "add", "-A", where=tree)
    run("git", "-c", "user.name=x", "-c", "user.email=x@y", "commit", "-qm", "x", where=tree)
    code = "import sys; sys.path.insert(0, sys.argv[1]); import port; port.SAID = sys.argv[3]; sys.exit(port.turn(sys.argv[2]))"
    run(sys.executable, "-B", "-c", code, port, tree, tree + ".said")
    return tree


def lines(base, with_edits):
    """The lines in which two texts differ, hunk by hunk."""
    a, b = base.splitlines(), with_edits.splitlines()
    match = difflib.SequenceMatcher(None, a, b, autojunk=False)
    return [(a[i:j], b[k:l]) for tag, i, j, k, l in match.get_opcodes() if tag != "equal"]


def turn_edits(landed, base, edits, names, apart):
    """Turns the edits, and says which are left."""
    port = os.path.join(os.path.dirname(run("rt", "doc").strip()), "port")
    left = []
    with tempfile.TemporaryDirectory() as work:
        its = rounds(landed, edits, apart)
        print(f"{len(edits)} edits in {len(its)} rounds", flush=True)
        with ThreadPoolExecutor(os.cpu_count() or 1) as pool:
            trees = list(pool.map(lambda it: turned(landed, work, port, it), its))
        for it, tree in zip(its, trees):
            for path in sorted({p for p, _, _ in it}):
                own = sorted([(mine, edit) for p, mine, edit in it if p == path])
                text = read(os.path.join(base, path))
                hunks = lines(text, read(os.path.join(tree, path)))
                for n, (_, edit) in enumerate(own):
                    rows = rewritten(text, hunks if len(own) == 1 else hunks[n : n + 1] if len(hunks) == len(own) else [])
                    if rows is None:
                        left.append(edit)
                        continue
                    file, notes, _ = pairs(edit)
                    body = [l for l in notes if l] + [f"file: {file}"]
                    for old, new in rows:
                        body += [f"old: {old}", f"new: {new}"]
                    write(edit, respell("\n".join(body) + "\n", names))
    return left


def rewritten(text, hunks):
    """Pairs of lines for the hunks, the first of which stands once in the text; or None, where lines went."""
    rows = []
    for a, b in hunks:
        if len(a) == 1 and len(b) > 1:
            b = [" ".join([b[0]] + [l.strip() for l in b[1:]])]
        if len(a) != len(b):
            return None
        for old, new in zip(a, b):
            if old == new:
                continue
            if text.count(old.strip()) == 1:
                old, new = old.strip(), new.strip()
            if text.count(old) != 1:
                return None
            rows.append((old, new))
    return rows or None


# ---- names
def snake(name):
    if name in LEMMAS:
        return LEMMAS[name]
    if name.endswith("?"):
        return snake(name[:-1]) + "_test"
    parts = name.replace("getD", "get_or").split("-")
    return "_".join(re.sub(r"(?<=[a-z0-9])([A-Z])", lambda m: "_" + m.group(1).lower(), p) if p[:1].islower() else p for p in parts)


def camel(name):
    return re.sub("_([a-z])", lambda m: m.group(1).upper(), name)


def own_names(top):
    """The names that definitions and lemmas declare, outside the proofs of functions."""
    found = set()
    for folder, dirs, files in os.walk(os.path.join(top, "crates")):
        dirs[:] = [d for d in dirs if d != "out"]
        for file in files:
            if not file.endswith(".antt") or file in ("Proof.antt", "Invariants.antt", "Answers.antt"):
                continue
            for line in read(os.path.join(folder, file)).splitlines():
                m = re.match(r"^ *(?:(?:unfoldable|abbrev|pub|record|data) )*([^\s:(){}\[\],.λ→-][^\s:(){}\[\],.]*)(?: [({].*)? :(?: |$)", line)
                if m and not line.lstrip().startswith(("--", "use ", "let ", "in ")):
                    found.add(m.group(1))
    return found


def table(found):
    names = {n: snake(n) for n in found if not n[0].isupper() and snake(n) != n}
    if len(set(names.values())) != len(names):
        seen = {}
        for n, m in sorted(names.items()):
            if m in seen:
                raise SystemExit(f"{n} and {seen[m]} fall together")
            seen[m] = n
    together = sorted(n for n, m in names.items() if m in found and m not in names)
    if together:
        raise SystemExit("these fall together with a name that is there: " + " ".join(together))
    return names


def respell(text, names):
    def one(m):
        name = m.group(0)
        # c.cell-char is what a call of the function gave
        if name in LEMMAS and text[m.start() - 2 : m.start()] == "c.":
            return name.replace("-", "_")
        return names.get(name, name)

    return NAME.sub(one, text)


def main(argv):
    commit = argv[0]
    top = os.getcwd()
    names = table(own_names(top))
    edits = sorted(run("sh", "-c", "ls crates/*/must-fail/*.edit").split())
    with tempfile.TemporaryDirectory() as landed:
        run("sh", "-c", f"git archive {commit} | tar -x -C {landed}")
        for edit in edits:
            shutil.copy(os.path.join(landed, edit), edit)
        left = turn_edits(landed, top, edits, names, APART)
        left = turn_edits(landed, top, left, names, 10**6)
    for path in run("sh", "-c", "find crates -name out -prune -o -type f \\( -name '*.antt' -o -name '*.rt' \\) -print").split():
        write(path, respell(read(path), names))
    # the pages also have names that port.py respelled
    pages = {old: n for n in own_names(top) if "_" in n for old in (n.replace("_", "-"), camel(n))} | names
    for path in run("sh", "-c", "ls README.md docs/*.md").split():
        write(path, re.sub(r"`[^`\n]*`", lambda m: respell(m.group(0), pages), read(path)))
    for edit in left:
        print("by hand:", edit)
    print(f"{len(names)} names respelled, {len(edits) - len(left)} edits turned")


if __name__ == "__main__":
    main(sys.argv[1:])
