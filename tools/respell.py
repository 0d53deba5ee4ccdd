#!/usr/bin/env python3
"""Turns the repository's own ghost names to today's spelling, once, after the kit's port script.

    respell.py [ROOT]          in the checkout there, or here
    respell.py --list [ROOT]   prints the table of names and writes nothing

Definitions, lemmas, fields and constructors that specs/ and proofs/ declare are in snake case: evalN is eval_n. A capital that
begins a name makes it a type and stays. A dash joins two names (a definition, a type, or a word of the kit's library) and is an
underscore elsewhere: eval_n-append, and collected_replies. Names of src/, of modules and of what the kit makes from src/
(goals, steps, clauses) are left. Names that would fall together stop it. It reads .antt files, clauses of .rt files and
must-fail edits; code of src/, strings and comments keep their words, but for names of definitions between backticks."""
import os
import re
import sys

WORD = re.compile(r"[^\s(){}.;,@\"«»]+")
COMMENT = re.compile(r"(?:^|(?<=[\s(){}.;,]))--(?=[\s-]|$).*$")
DECLARED = re.compile(r"^ *(?:(?:pub|abbrev|unfoldable|data|record|deriving) +)*([^\s(){}.;,@\"«»:]+)(?: +[({][^)}]*[)}])* +:(?= |$)")
# Words of the kit's library that lemmas are about: what a dash may join a name to.
KIT = set("""length map take drop append set get_or flatten reverse replicate sum filter zip last head tail concat add mul sub
div mod pow min max suc zero cons nil eqb leb ltb cond bit_and bit_or bit_xor xor""".split())
# English words that are declared as names here and there; a dash before or behind one joins no two names.
PLAIN = set("""all any at above after again apart ahead before begun below both by each end ends ended every fed few first five four from
full given good half halves held holds in is it last least left less like made many more most next no none not of on one only
other outside over own part past place put right same side small some stands start still ten then there three through to turn two
under up upon with within without whole""".split())


def texts(root):
    for folder, dirs, files in os.walk(os.path.join(root, "crates")):
        dirs[:] = sorted(d for d in dirs if d != "out")
        for f in sorted(files):
            if f.endswith((".antt", ".rt", ".edit")):
                yield os.path.join(folder, f)


def of_function(path):
    """Whether the file is a function's proof: proofs/F/NAME.antt."""
    at = path.split(os.sep)
    return "proofs" in at and at.index("proofs") < len(at) - 2


def read(path):
    with open(path, encoding="utf-8") as f:
        return f.read()


def declared(root):
    names, fields = set(), set()
    for p in texts(root):
        if not p.endswith(".antt") or of_function(p):
            continue
        for line in read(p).splitlines():
            m = DECLARED.match(line)
            if m and not line.lstrip().startswith("--"):
                (fields if line.startswith(" ") else names).add(m[1])
    return names, fields


def snake(part):
    if not re.search(r"[a-z0-9₀-₉ℕ][A-Z]", part) or part[0].isupper():
        return part
    return re.sub(r"(?<=[a-z0-9₀-₉])([A-Z]+)", lambda m: "_" + m[1].lower(), part)


def respelled(name, bare):
    """The name in snake case: a dash stays behind a type, and between two names."""
    if name[0].isupper() and "-" not in name:
        return name
    parts = [p for p in name.split("-")]
    if "" in parts or not re.match(r"[A-Za-zμ]", name):
        return name
    parts = [{"getD": "get_or", "bytesOf": "bytes_of", "upFrom": "up_from"}.get(p, p) for p in parts]
    parts = [p.lower() if re.fullmatch("[A-Z]", p) and i else p for i, p in enumerate(parts)]
    parts = [snake(p) for p in parts]
    out = parts[0]
    for a, b in zip(parts, parts[1:]):
        named = [p in bare and p not in PLAIN or p in KIT for p in (a, b)]
        out += ("-" if all(named) or a in bare and a[0].isupper() else "_") + b
    return out


def table(root):
    names, fields = declared(root)
    every = names | fields
    bare = {snake(n) for n in names if "-" not in n}
    to = {"proof-c": "of_proof_c", "proof-rust": "of_proof_rust"}
    for n in sorted(every - set(to)):
        new = respelled(n, bare)
        if new != n:
            to[n] = new
    # A lemma that would have its function's name gets _lem: the one that had a dash, here or before the port.
    for n in sorted(every):
        others = [m for m in every if m != n and to.get(m, m) == to.get(n, n)]
        if others and (("-" in n) or re.search("[A-Z]", others[0]) and not re.search("[A-Z]", n)):
            to[n] = to.get(n, n) + "_lem"
    back = {}
    for n in sorted(every):
        back.setdefault(to.get(n, n), []).append(n)
    clash = {k: v for k, v in back.items() if len(v) > 1}
    return to, fields, clash


def turned(text, to, may):
    def one(m):
        w = m[0]
        for tail in ("", "'"):
            if w.endswith(tail) and w[: len(w) - len(tail)] in to and may(w[: len(w) - len(tail)], m.string, m.start()):
                return to[w[: len(w) - len(tail)]] + tail
        return w
    return WORD.sub(one, text)


def antt_line(line, to, may):
    m = COMMENT.search(line)
    code, said = (line[: m.start()], line[m.start() :]) if m else (line, "")
    return turned(code, to, may) + re.sub(r"`[^`]*`", lambda s: turned(s[0], {**to, **{"`" + k: "`" + v for k, v in to.items()}, **{k + "`": v + "`" for k, v in to.items()}, **{"`" + k + "`": "`" + v + "`" for k, v in to.items()}}, lambda *_: True), said)


def of_kit(text, own):
    """The names that a file has from the kit's library."""
    found = set()
    for m in re.finditer(r"\buse ([^\s{;]+)\.\{([^}]*)\}", text):
        if not (m[1].startswith("Rattle.") and m[1].split(".")[1] in own):
            found |= {w.split(" as ")[0].strip() for w in m[2].split(",")} | {w.split(" as ")[-1].strip() for w in m[2].split(",")}
    return found


def main():
    import paths  # noqa: F401  (makes the module below importable)
    from arguments import Arguments

    parser = Arguments(__doc__)
    parser.add_argument("root", metavar="ROOT", nargs="?", default=".")
    parser.add_argument("--list", action="store_true", help="print the table of names")
    given = parser.parse_args()
    show, root = given.list, given.root
    if not os.path.isdir(os.path.join(root, "crates")):
        parser.error("'%s' is no checkout" % root)
    to, fields, clash = table(root)
    if show:
        for k, v in sorted(to.items()):
            print(k, v)
    if clash:
        print("names that fall together:", clash, file=sys.stderr)
        return 1
    if show:
        return 0
    code_words = set()
    for p in texts(root):
        if p.endswith(".rt"):
            code_words |= set(re.findall(r"\w+", re.sub(r"//.*", "", read(p))))
    both = {v for v in to.values() if v in code_words}
    print("also words of src/ (each looked at by hand):", " ".join(sorted(both)))
    count = 0
    every, own = to, set(os.listdir(os.path.join(root, "crates")))
    for p in texts(root):
        old = read(p)
        kits = of_kit(old, own)
        to = {k: v for k, v in every.items() if k not in kits}
        if p.endswith(".antt"):
            inner = of_function(p)
            def may(w, s, at):
                return not (inner and at and s[at - 1] == "." and w not in fields)
            new = "\n".join(antt_line(l, to, may) for l in old.split("\n"))
        else:
            edit = p.endswith(".edit")
            lines, clause = [], 0
            for l in old.split("\n"):
                s = l[9:] if edit and re.match("(old|new): ", l) else l
                ghost = bool(re.match(r"\s*(pub )?(ghost use|requires|ensures)\b", s)) or clause > 0
                if edit:
                    ghost = bool(re.match("(old|new): ", l)) and (".antt" in old.split("\n")[0] or bool(re.search(r"\b(ghost use|requires|ensures)\b", l)))
                if ghost and not l.lstrip().startswith("//"):
                    if not edit:
                        clause += s.count("{") - s.count("}")
                    lines.append(turned(l, to, lambda *_: True))
                else:
                    lines.append(l)
            new = "\n".join(lines)
        if new != old:
            count += 1
            with open(p, "w", encoding="utf-8") as f:
                f.write(new)
    print(f"{len(to)} names, {count} files")
    return 0


if __name__ == "__main__":
    sys.exit(main())
