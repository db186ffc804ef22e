#!/usr/bin/env python3
"""respell.py: brings the repository's own definitions, fields and lemmas to today's spelling. Run once at the top, after port.py.

Words of a name are joined by `_`, of a field always; of a lemma a dash stays where it joins two names that are defined (`length-target`,
`distinct-consecutive`), and one that would have its definition's name ends in `_lem`. With --fields the fields alone are brought over.
Functions of src/, exported C names, strings, inputs and outputs keep their names. What a walk of the code calls its places keeps its name too:
those are Rattle's. Names that would fall together are printed; with --write the files are written.
"""
import glob
import os
import re
import sys

LETTER = r"[^\s(){}\[\];,.:`\"·◌⟨⟩«»]"
TOKEN = re.compile(r"(%s+)" % LETTER)
STD = "length take drop set append get_or suc zero add sub mul nil cons replicate map le lt eq ≈ ≃ ≋".split()
CAMEL = re.compile(r"[a-z]+[A-Z][A-Za-z]*")
PLACES = re.compile(r"^(returns|requires|column-requires|.*-requires|invariant-.*|decreases-.*|slice-.*|shared-slice.*|cast-put.*)(-\d+)?$")
SIGNED = re.compile(r"^ *(?:pub |abbrev |unfoldable )*([^\s(){}:;=,.]+(?: [^\s(){}:;=,.]+)*)(?: \{[^}]*\})? :(?: |$)")
NAMED = re.compile(r"^ *(?:pub )?(?:record|data|ruleset) ([^\s(){}:;=,.]+)")


def text(path):
    with open(path, encoding="utf-8") as file:
        return file.read()


def walks(path):
    """Whether the file walks the code of a function, with Rattle's names for its places."""
    return os.path.basename(path) == "Proof.antt"


def sources():
    return sorted(glob.glob("crates/*/specs/**/*.antt", recursive=True) + glob.glob("crates/*/proofs/**/*.antt", recursive=True))


def snake(name):
    """firstFault, quotient-H: first_fault, quotient-h."""
    name = re.sub(r"(?<=[a-z0-9])([A-Z])", lambda m: "_" + m.group(1).lower(), name)
    return re.sub(r"(?<=-)([A-Z])(?=\d?'*(-|$))", lambda m: m.group(1).lower(), name)


def declared():
    """Each name that a file of definitions, laws or proofs declares."""
    found = set()
    for path in sources():
        for line in text(path).split("\n"):
            if line.lstrip().startswith("--") or line.startswith("use "):
                continue
            start = NAMED.match(line) or SIGNED.match(line)
            if start and start.group(1).split()[0] not in ("module", "unfolding", "let", "λ", "in", "rw", "simp"):
                if not re.search(r": tie\.", line):
                    found.update((name, path) for name in start.group(1).split())
    return found


def joined(parts, known):
    """The parts of a name in groups that are names, with a dash between two names and `_` elsewhere."""
    groups, i = [], 0
    while i < len(parts):
        for j in range(len(parts), i, -1):
            word = "_".join(parts[i:j])
            if word in known or j == i + 1:
                groups.append((word, word in known))
                i = j
                break
    out = groups[0][0]
    for (_, before), (word, here) in zip(groups, groups[1:]):
        out += ("-" if before and here else "_") + word
    return out


def spelling():
    """Old name to new name."""
    names = declared()
    functions = set(re.findall(r"\bfn (\w+)", "\n".join(text(p) for p in glob.glob("crates/*/src/*.rt"))))
    known = set(STD) | {n for n in functions | {snake(n).lower() for n, _ in names if "-" not in n} if len(n) > 2}
    labels, out = fields(), {}
    for name, path in names:
        if name[0].isupper() or "◌" in name:
            continue
        if name in labels:
            out[name] = snake(name).replace("-", "_")
            continue
        if walks(path):
            if name.endswith("-spec"):
                out[name] = name.replace("-", "_")
                continue
            if PLACES.match(name):
                continue
        parts = snake(name).split("-")
        new = joined(parts, known) if len(parts) > 1 and all(parts) else snake(name)
        if "-" in name and any("-" not in other and snake(other) == new for other, _ in names):
            new += "_lem"
        if new != name:
            out[name] = new
    return out


def fields():
    """The fields of the records that are declared."""
    found = set()
    for path in sources():
        depth = None
        for line in text(path).split("\n"):
            record = re.match(r"( *)(?:pub )?record \S+", line)
            if record:
                depth = len(record.group(1))
            elif depth is not None:
                field = re.match(r"( +)(?:pub )?([^\s():]+) :", line)
                if field and len(field.group(1)) > depth:
                    found.add(field.group(2))
                elif not line.strip() or len(line) - len(line.lstrip()) <= depth:
                    depth = None
    return found


def respelled(body, names, fields, ghost):
    """A text with the names in it respelled; `ghost`: only names that a program cannot have."""
    out = []
    for line in body.split("\n"):
        code, dash, comment = line.partition("-- ") if not ghost else (line, "", "")
        parts = TOKEN.split(code)
        for i in range(1, len(parts), 2):
            word, before = parts[i], "".join(parts[:i])
            if word not in names:
                if CAMEL.fullmatch(word) and not before.endswith("."):
                    parts[i] = snake(word)
                continue
            if before.endswith(".") and word not in fields and not re.search(r"Rattle\.\w+\.(specs|proofs)(\.\w+)*\.$|\b[A-Z]\w+\.$", before):
                continue
            parts[i] = names[word]
        code = "".join(parts).replace("◌andThen◌", "◌and_then◌")
        comment = re.sub(r"`([^`]+)`", lambda m: "`" + names.get(m.group(1), m.group(1)) + "`", comment)
        out.append(code + dash + comment)
    return "\n".join(out)


def edit_line(line, names, fields):
    """A line of a must-fail edit, with projections tight as they are now."""
    line = re.sub(r"\(now (\w+)\)|\bnow (\w+)", lambda m: (m.group(1) or m.group(2)) + ".now", line.replace("getD", "get_or"))
    while True:
        tight = re.sub(r"\((\S+) \.([^\s()]+)\)", r"\1.\2", line)
        tight = re.sub(r"(?<=[^\s(λ.]) \.(?=[A-Za-z])", ".", tight)
        if tight == line:
            break
        line = tight
    return respelled(line, names, fields, True)


def main():
    names, known = spelling(), fields()
    if "--fields" in sys.argv:
        names = {name: new for name, new in ((f, f.replace("-", "_")) for f in known) if new != name}
    words = set()
    for path in sources():
        for line in text(path).split("\n"):
            words |= set(TOKEN.findall(line.partition("-- ")[0]))
    clash = sorted(f"{old} -> {new}" for old, new in names.items() if new in words)
    twice = sorted({new for new in names.values() if list(names.values()).count(new) > 1})
    print("\n".join(f"there already: {c}" for c in clash))
    print("\n".join(f"fall together: {t}: {[o for o in names if names[o] == t]}" for t in twice))
    if "--names" in sys.argv:
        print("\n".join(f"{o} -> {n}" for o, n in sorted(names.items())))
    if "--write" not in sys.argv:
        return
    for path in sources() + sorted(glob.glob("crates/*/src/*.rt")):
        body = text(path)
        new = respelled(body, names, known, path.endswith(".rt"))
        if new != body:
            with open(path, "w", encoding="utf-8") as file:
                file.write(new)
    for path in sorted(glob.glob("crates/*/must-fail/*.edit")):
        lines = [edit_line(line, names, known) if line[:4] in ("old:", "new:") else line for line in text(path).split("\n")]
        with open(path, "w", encoding="utf-8") as file:
            file.write("\n".join(lines))
    for path in ["README.md", "CONTRIBUTING.md"] + sorted(glob.glob("docs/*.md")):
        body = text(path)
        new = re.sub(r"`[^`\n]+`", lambda m: respelled(m.group(0), names, known, True), body)
        if new != body:
            with open(path, "w", encoding="utf-8") as file:
                file.write(new)


if __name__ == "__main__":
    main()
