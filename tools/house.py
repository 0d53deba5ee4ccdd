#!/usr/bin/env python3
"""Keeps the repository in order: cheap checks of its text, beside what `rt ci` proves.

  tools/house.py                every finding as `file:line: what`; exit status 1 if there is one
  tools/house.py --list-unused  unused names alone, for machines: kind, file, line and name, with tabs between them
  tools/house.py --prune        takes unused names out of `use` lines, in place, and makes one line of two
  tools/house.py --selftest     breaks a small repository in each way, and expects every break to be found

1. Every imported name is used in its file, and a file has one `use` line for a module.
2. Every definition and law is used, by something that is used itself or is an end; what is `pub` is needed outside
   its file. Ends are contracts, what an attribute `tactic(..)` names, the answers, invariants and measures that rt asks
   of a function's proof, theorems `..-spec`, what a must-fail edit puts in, what README.md, docs/PROMISES.md or
   docs/DECISIONS.md cite, and ENDS below. The same for functions, types, constants and traits of .rt files, and for
   methods, which are told apart by their names alone.
3. What these three cite in backticks exists, and in the place that they name; so do the must-fail edits.
4. What a must-fail edit replaces stands once in its file, and the names that it puts in are to be had there.
5. No file under crates/ has over 500 lines, stored data aside; no line of .rt and .antt files over 400 characters.
6. A crate's proofs/Lib.antt with over two modules says first what they are.
"""
import pathlib
import re
import sys
import tempfile

import paths  # noqa: F401  (makes the module below importable)
from arguments import Arguments

DOCS = ("README.md", "docs/PROMISES.md", "docs/DECISIONS.md")
MOST_LINES, LONGEST_LINE, LONG_LINE = 500, 400, 240

# Ends that no document cites: file under crates/, name (* for all of the file), reason.
ENDS = [
    ("scheme/proofs/Reading.antt", "*", "reading aids"),
    ("scheme/proofs/Printed.antt", "*", "reading aids"),
    ("fiat_shamir/proofs/Reading.antt", "*", "reading aids"),
    # Laws that landed for proofs which the prover now finds without them: a law does not go with its last use.
    ("algebra/specs/BarycentricTurns.antt", "weighed_entry", "an entry after a turn"),
    ("algebra/specs/Dot.antt", "four_lengths", "four rows lie within a list"),
    ("algebra/specs/Rests.antt", "rests_held", "rests are small"),
    ("algebra/specs/Divided.antt", "sub_product", "a difference with a product"),
    ("algebra/specs/Dot.antt", "low_fits", "sums of lower parts fit a word"),
    ("algebra/specs/Dot.antt", "high_fits", "and so do those of upper parts"),
    ("algebra/specs/Dot.antt", "folded_turn", "an entry after a turn"),
    ("algebra/specs/Numbers.antt", "eval_n_turn", "Horner's rule, a turn"),
    ("algebra/specs/Numbers.antt", "eval_n_end", "and its end"),
    ("algebra/specs/Pairs.antt", "pair_small", "the terms of a pair are small"),
    ("algebra/specs/Quartic.antt", "quartic_first", "the first coefficient"),
    ("algebra/specs/Spans.antt", "spans_fit", "spans lie within the coefficients"),
    ("algebra/specs/Spans.antt", "span_back", "one span less"),
    ("algebra/specs/Sums.antt", "products_none", "small products, at the start"),
    ("algebra/specs/Sums.antt", "products_next", "and one more"),
    ("algebra/specs/Sums.antt", "low_next", "a lower part more"),
    ("algebra/specs/Sums.antt", "high_next", "an upper part more"),
    ("algebra/specs/Sums.antt", "spare_at", "an entry has room"),
    ("algebra/specs/Wrapped.antt", "low_left", "what two sums leave"),
    ("lists/specs/Bytes.antt", "bytes_left", "the bytes left"),
    ("lists/specs/Bytes.antt", "one_byte", "a byte as a number"),
    ("lists/specs/Copies.antt", "*", "copies element by element"),
    ("lists/specs/Fill.antt", "filled_copy", "a list that was copied"),
    ("lists/specs/Numbers.antt", "half_is", "two bytes as a number"),
    ("lists/specs/Numbers.antt", "word_is", "and four"),
    ("lists/specs/Parts.antt", "front_is", "a front that was written"),
    ("lists/specs/Parts.antt", "read_front", "and read again"),
    ("lists/specs/Spliced.antt", "copy_next", "a copy, one element more"),
    ("lists/specs/Spliced.antt", "copy_done", "and its end"),
    ("lists/specs/Spliced.antt", "word_stores", "four stores"),
    ("lists/specs/Spliced.antt", "half_stores", "and two"),
    ("report/proofs/Writing.antt", "front_counts", "the text lies within the buffer"),
]

# Words in backticks that are no names of the repository's own.
LANGUAGE = set("rt requires ensures usize u8 u32 u64 &mut main pub use".split())


# ---- antt

LEXEME = re.compile(r"""(?P<skipped>\s+|--[^\n]*|\{-.*?-\}|"(?:\\.|[^"\\])*")|«(?P<escaped>[^»]*)»|(?P<name>[^\s(){}.;,@"«»]+)|(?P<mark>.)""", re.S)
MARKS = {"unfoldable", "abbrev", "pub", "axiom"}


class Token:
    __slots__ = ("text", "start", "end", "line", "column", "first")

    def __init__(self, text, start, end, line, column, first):
        self.text, self.start, self.end = text, start, end
        self.line, self.column, self.first = line, column, first  # first: the first of its line


def lex(text):
    """The tokens of an antt text: a name is a run of characters other than spaces and ( ) { } . ; , @ " « »."""
    tokens, line, begin, first = [], 1, 0, True
    for found in LEXEME.finditer(text):
        if found.lastgroup != "skipped":
            tokens.append(Token(found[found.lastgroup], found.start(), found.end(), line, found.start() - begin, first))
            first = False
        elif "\n" in found[0]:
            line, begin, first = line + found[0].count("\n"), found.start() + found[0].rindex("\n") + 1, True
    return tokens


def is_name(token):
    return token.text not in "(){}.;,@"


class Words:
    """The names that antt text uses: bare ones, and ones behind a module's name. No uses are labels of records and of
    implicit arguments, fields behind a dot, binders, and what a binder in force hides."""

    def __init__(self, tokens=(), bound=()):
        self.bare, self.behind = set(), set()
        self.add(tokens, bound)

    def add(self, tokens, bound=()):
        """`bound`: names that are bound around the tokens."""
        binders = binder_places(tokens)
        scopes = [set(bound)]  # the bracket's own binders are in the last one, and those around it before
        closing = []  # what (x y : A) binds behind its closing bracket
        for i, token in enumerate(tokens):
            text = token.text
            if text in "({":
                group = []
                while i + 1 + len(group) in binders:
                    group.append(tokens[i + 1 + len(group)].text)
                closing.append(group)
                scopes.append(set())
            elif text in ")}":
                if closing:
                    scopes.pop()
                    scopes[-1].update(closing.pop())
            elif text in ",;":
                if closing:
                    scopes[-1].clear()
            elif i in binders:
                if not closing or text not in closing[-1]:
                    scopes[-1].add(text)
            elif is_name(token):
                before = tokens[i - 1] if i else None
                after = tokens[i + 1].text if i + 1 < len(tokens) else ""
                if before and before.text == "." and before.end == token.start:
                    if i > 1 and tokens[i - 2].end == before.start:
                        self.behind.add((tokens[i - 2].text, text))
                elif before and before.text in "{;" and after == "=":
                    pass
                elif not any(text in scope for scope in scopes):
                    self.bare.update(named_by(text))

    def use(self, name):
        return used_in(self.bare, name)


def named_by(text):
    """A name, and of an operator the parts beside it: ≡ for ◌≡◌."""
    return [text, *(part for part in text.split("◌") if part)] if "◌" in text else [text]


def used_in(words, name):
    """An operator is used by its name, or by its parts; `do` uses ◌>>=◌ and ◌>>◌."""
    if name in words or "◌" not in name:
        return name in words
    if name in ("◌>>=◌", "◌>>◌") and "do" in words:
        return True
    parts = [part for part in name.split("◌") if part]
    return bool(parts) and all(part in words for part in parts)


def binder_places(tokens):
    """Places of x and y in (x y : A), {x y : A} and λ x y. and of x in let x."""
    places = set()
    for i, token in enumerate(tokens):
        j = i + 1
        if token.text in "({λ":
            while j < len(tokens) and is_name(tokens[j]) and tokens[j].text not in (":", "=", "λ"):
                j += 1
            if j < len(tokens) and tokens[j].text == ("." if token.text == "λ" else ":"):
                places.update(range(i + 1, j))
        elif token.text == "let" and j < len(tokens) and is_name(tokens[j]):
            places.add(j)
    return places


def bound_by(tokens):
    """The names that parameters (x y : A) bind."""
    return {tokens[i].text for i in binder_places(tokens)}


class Declaration:
    """head: the signature and the parameters of the blocks around; body: `unfolding` lines and clauses, one by one;
    parts: constructors, fields."""

    def __init__(self, name, kind, marks, line, around, head):
        self.name, self.kind, self.marks, self.line = name, kind, marks, line
        self.around, self.head, self.body, self.parts = list(around), head, [], []

    @property
    def open(self):
        """Whether others see its body."""
        return bool(self.marks & {"abbrev", "unfoldable"}) or self.kind in ("data", "record", "ruleset")

    def read(self, constructors):
        around = bound_by(self.around)
        self.words = Words(self.around)
        self.words.add(self.head, around)
        shown = Words(self.around)
        shown.add(self.head, around)
        if self.kind in ("data", "record"):
            around = around | bound_by(self.head)
        for item in self.body:
            read_clause(self.words, item, around, constructors)
        self.shown = self.words if self.open else shown


def read_clause(words, item, bound, constructors):
    """A clause `f x y = body where helpers`: x and y hide what is spelled so, unless they are constructors, and so do
    the helpers' names."""
    sign = at_depth_0(item, ("=",)) if item[0].text != "unfolding" else None
    if sign is None:
        words.add(item, bound)
        return
    left = {token.text for token in item[1:sign] if is_name(token)}
    words.add(item[:sign], bound | (left - constructors))
    bound = bound | (left - constructors)
    where = at_depth_0(item[sign:], ("where",))
    helpers = items(item[sign + where + 1:]) if where is not None else []
    signed = []
    for helper in helpers:
        colon = at_depth_0(helper, (":", "="))
        signed.append(colon is not None and helper[colon].text == ":" and helper[0].text != "unfolding")
    bound = bound | {helper[0].text for helper, has in zip(helpers, signed) if has}
    words.add(item[sign + 1:] if where is None else item[sign + 1:sign + where], bound)
    for helper, has in zip(helpers, signed):
        if has:
            words.add(helper[1:], bound)
        else:
            read_clause(words, helper, bound, constructors)


def items(tokens):
    """Cuts tokens where a line begins at the first token's column, outside brackets."""
    cut, depth = [], 0
    for token in tokens:
        if token.first and token.column == tokens[0].column and depth == 0 or not cut:
            cut.append([])
        cut[-1].append(token)
        depth += (token.text in "({") - (token.text in ")}")
    return cut


def at_depth_0(tokens, words):
    depth = 0
    for i, token in enumerate(tokens):
        depth += (token.text in "({") - (token.text in ")}")
        if depth == 0 and token.text in words:
            return i
    return None


def declarations(tokens, around=()):
    """The declarations of a file or of a block; `around` are the block's parameters."""
    found = []
    for item in items(tokens) if tokens else []:
        words = [token.text for token in item]
        marks, i = set(), 0
        while i < len(words) and words[i] in MARKS:
            marks.add(words[i])
            i += 1
        word = words[i]
        if word in ("module", "mutual"):
            where = at_depth_0(item, ("where",)) if word == "module" else i
            found += declarations(item[where + 1:], list(around) + item[i + 1:where])
        elif word in ("use", "mod", "infix", "infixl", "infixr"):
            pass
        elif word in ("data", "record"):
            where = at_depth_0(item, ("where",))
            d = Declaration(words[i + 1], word, marks, item[i].line, around, item[i + 2:where])
            for part in items(item[where + 1:]) if where is not None and where + 1 < len(item) else []:
                if part[0].text == "deriving":
                    d.parts.append((part[-1].text, part[-1].line))
                    continue
                colon = at_depth_0(part, (":",)) or 0
                d.parts += [(token.text, token.line) for token in part[:colon] if token.text != "pub"]
                d.body.append(part[colon + 1:])
            found.append(d)
        elif word == "ruleset":
            found.append(Declaration(words[i + 1], word, marks, item[i].line, around, item[i + 3:]))
        elif word == "open":
            found.append(Declaration("open", word, marks, item[i].line, around, item[i + 1:]))
        else:
            sign = at_depth_0(item, (":", "="))
            if word != "unfolding" and sign is not None and words[sign] == ":":
                found.append(Declaration(word, "law", marks, item[i].line, around, item[sign + 1:]))
            elif found:
                found[-1].body.append(item)
    return found


class Import:
    """A `use` line. names: (name there, name here); of a whole module (None, name here)."""

    def __init__(self, line, text, module, names, whole):
        self.line, self.text, self.module, self.names, self.whole = line, text, module, names, whole


def imports_of(lines, ghost):
    """The `use` lines of an antt file, or the `ghost use` lines of an .rt file."""
    found = []
    form = re.compile(r"(ghost use) (.*);$" if ghost else r"(use|pub use|unfoldable pub use) (.*)$")
    for number, line in enumerate(lines, 1):
        match = form.match(line)
        if not match:
            continue
        path = match[2].strip()
        if "{" in path:
            module, names = path[:path.index("{")].rstrip("."), path[path.index("{") + 1:path.rindex("}")]
            pairs = []
            for name in names.split(","):
                parts = name.split()
                if parts:
                    pairs.append((parts[0], parts[-1]))
            found.append(Import(number, line, module, pairs, False))
        else:
            parts = path.split()
            found.append(Import(number, line, parts[0], [(None, parts[-1].split(".")[-1])], True))
        found[-1].passed_on = "pub" in match[1]
    return found


# ---- .rt

CLAUSE = re.compile(r"\b(?:(?:requires|ensures|invariant|decreases)\*?(?:\s+\w+)?|ghost \w+\s*[:=]|(?<=\} )by)\s*\{")
ITEM = re.compile(r"^(?P<pub>pub )?(?:extern \"C\" )?(?P<kind>fn|const|static|struct|enum|trait) (?P<name>\w+)")
BLOCK = re.compile(r"^impl\b")
OF_TRAIT = re.compile(r"^impl\b[^{]* for ")  # its methods are called by the trait
METHOD = re.compile(r"^    (?P<pub>pub )?(?:const )?fn (?P<name>\w+)")
USE = re.compile(r"^(?:pub )?use ([^;]*);", re.M)
ENTRY = "#[unsafe(no_mangle)]"
TRAITS = {"Read", "Write", "BufRead", "Env"}  # the kit's, which code uses by their methods


def without_comments(text):
    """With the comments of an .rt text blanked; lines stay."""
    return re.sub(r"(\"(?:\\.|[^\"\\\n])*\")|//[^\n]*", lambda found: found[1] or "", text)


def flat(path, tree):
    """[(path, name there, name here)] of the tree behind `use`: a::b, a::{b, c as d}, a::{b, c::{d, e}}, a::{self}."""
    tree = tree.strip()
    head, brace, inner = tree.partition("{")
    if not brace:
        words = tree.split()
        there = words[0] if words else ""
        if "::" in there:
            more, there = there.rsplit("::", 1)
            path = path + "::" + more if path else more
        if there == "self":
            path, there = path.rpartition("::")[0], path.rpartition("::")[2]
        return [(path, there, words[-1].rsplit("::", 1)[-1] if words[-1] != "self" else there)] if there and there != "*" else []
    head = head.strip().removesuffix("::")
    path = path + "::" + head if path and head else path or head
    found, depth, begin = [], 0, 0
    inner = inner[:inner.rindex("}")] + ","
    for i, character in enumerate(inner):
        depth += (character == "{") - (character == "}")
        if character == "," and depth == 0:
            found += flat(path, inner[begin:i]) if inner[begin:i].strip() else []
            begin = i + 1
    return found


class Item:
    def __init__(self, kind, name, line, is_pub, entry):
        self.kind, self.name, self.line, self.pub, self.entry = kind, name, line, is_pub, entry
        self.text = ""


class Code:
    """An .rt file: its items, its `impl` blocks, the methods of these and of traits, and the clauses apart from the code."""

    def __init__(self, text):
        text = without_comments(text)
        self.lines = text.split("\n")
        self.imports = imports_of(self.lines, ghost=True)
        self.use_lists = []  # first and last line of a `use`, [(crate or module, name there, name here)]
        for found in USE.finditer(text):
            if not found[0].startswith("pub"):
                first, more = 1 + text.count("\n", 0, found.start()), found[0].count("\n")
                self.use_lists.append((first, first + more, flat("", found[1])))
        self.uses = [(first, path, here) for first, _, names in self.use_lists for path, _, here in names]
        self.tactics = re.findall(r"\b((?:\w+::)+)(specs|proofs)::([\w:]+)::([^\s(){},;:]+)", "".join(re.findall(r"#!?\[tactic\(.*\)\]", text)))
        body = re.sub(r"^(ghost |pub )?use [^;]*;", lambda found: "\n" * found[0].count("\n"), text, flags=re.M)
        code, clauses, at = [], [], 0
        for found in CLAUSE.finditer(body):
            if found.start() < at:
                continue
            depth, end = 1, found.end()
            while depth and end < len(body):
                depth += (body[end] == "{") - (body[end] == "}")
                end += 1
            code.append(body[at:found.start()])
            clauses.append(body[found.end():end - 1])
            code.append("\n" * body.count("\n", found.start(), end))
            at = end
        code.append(body[at:])
        self.code = "".join(code)
        self.clauses = Words(lex("\n".join(clauses)))
        self.items, self.blocks, self.methods = [], [], []
        entry, last, home = False, None, None  # home: the block or trait that methods stand in
        for number, line in enumerate(self.code.split("\n"), 1):
            match = ITEM.match(line)
            if match:
                last = Item(match["kind"], match["name"], number, bool(match["pub"]), entry)
                self.items.append(last)
                line = line[match.end():]
                home = last if last.kind == "trait" else None
            elif BLOCK.match(line):
                last = Item("block", "", number, False, False)
                self.blocks.append(last)
                home = None if OF_TRAIT.match(line) else last
            elif home and METHOD.match(line):
                match = METHOD.match(line)
                last = Item("method", match["name"], number, bool(match["pub"]), False)
                last.home = home
                self.methods.append(last)
                line = line[match.end():]
            if line.strip():
                entry = line.startswith("#[") and (entry or line.startswith(ENTRY))
            if last:
                last.text += line + "\n"
        self.words = CodeWords(self.code)
        for item in self.items + self.blocks + self.methods:
            item.words = CodeWords(item.text)
            item.about = set()
        for block in self.blocks:  # a type is not used by its own methods
            block.about = set(re.findall(r"\w+", block.text.partition("{")[0]))
        for method in self.methods:
            method.about = method.home.about | {method.home.name}


class CodeWords:
    """The names in code: called ones (f of f(..) and of f::<N>(..)), those of methods (f of x.f(..) and of T::f), those
    behind a name (a::b), and all."""

    def __init__(self, text):
        self.called = set(re.findall(r"(?<![.\w])(\w+)(?:::<[^();]*?>)?\s*\(", text))
        self.methods = set(re.findall(r"\.\s*(\w+)(?:::<[^();]*?>)?\s*\(", text)) | set(re.findall(r"::(\w+)", text))
        self.behind = set(re.findall(r"(\w+)::(?=(\w+))", text))
        self.all = set(re.findall(r"(?<![.\w])\w+", text))

    def use(self, item):
        return item.name in {"fn": self.called, "method": self.methods}.get(item.kind, self.all)


# ---- the repository

class File:
    def __init__(self, root, path):
        self.path = path
        self.name = str(path.relative_to(root))
        self.text = path.read_text()
        self.lines = self.text.split("\n")


class Repository:
    def __init__(self, root):
        self.root = pathlib.Path(root)
        self.findings = []  # kind, file, line, name, what
        crates = self.root / "crates"
        self.crates = sorted(p.name for p in crates.iterdir() if p.is_dir())
        self.antt, self.rt = {}, {}
        for part in ("specs", "proofs"):
            for path in sorted(crates.glob("*/%s/**/*.antt" % part)):
                file = File(self.root, path)
                tokens = lex(file.text)
                file.imports = imports_of(file.lines, ghost=False)
                file.declarations = declarations(tokens)
                file.of_function = path.parent.name != part
                file.goals = {i.names[0][1] for i in file.imports if i.whole and i.module.endswith((".Goals", ".Given"))}
                self.antt[file.name] = file
        constructors = {part for file in self.antt.values() for d in file.declarations if d.kind == "data" for part, _ in d.parts}
        for file in self.antt.values():
            foreign = {here for i in file.imports if self.module_file(i.module) not in self.antt for _, here in i.names}
            known = {part for name in constructors | foreign for part in named_by(name)}
            for d in file.declarations:
                d.read(known)
            file.words = [d.words for d in file.declarations]
        for path in sorted(crates.glob("*/src/**/*.rt")):
            file = File(self.root, path)
            file.code = Code(file.text)
            file.crate = path.relative_to(crates).parts[0]
            self.rt[file.name] = file
        self.edits = [File(self.root, path) for path in sorted(crates.glob("*/must-fail/*.edit"))]
        for file in [*self.antt.values(), *self.rt.values()]:
            file.edited, file.edited_code = Words(), set()  # what must-fail edits put in
        for edit in self.edits:
            edit.crate = edit.path.parent.parent
            for target, _, new in edit_pairs(edit):
                file = self.file_at(edit.crate / target)
                if file and (file.name in self.antt or CLAUSE.search(new)):
                    file.edited.add(lex(new))
                elif file:
                    file.edited_code |= CodeWords(new).all
        self.docs = [File(self.root, self.root / name) for name in DOCS]

    def find(self, kind, file, line, what, name=""):
        self.findings.append((kind, file, line, name, what))

    def file_at(self, path):
        name = str(path.relative_to(self.root))
        return self.antt.get(name) or self.rt.get(name)

    def module_file(self, module):
        """crates/C/specs/X.antt for Rattle.C.specs.X."""
        match = re.match(r"Rattle\.(\w+)\.(specs|proofs)\.(.+)$", module)
        return match and "crates/%s/%s/%s.antt" % (match[1], match[2], match[3].replace(".", "/"))

    # -- 1

    def unused_imports(self, file):
        """(import, [(name there, name here)]) of an antt or .rt file. What a must-fail edit puts in has to be in scope."""
        is_antt = file.name.endswith(".antt")
        words = [file.edited, *(file.words if is_antt else [file.code.clauses])]
        bare = set().union(*(w.bare for w in words))
        modules = {module for w in words for module, _ in w.behind}
        imports = file.imports if is_antt else file.code.imports
        modules |= {i.module.split(".")[0] for i in imports}  # use c.M as Q, then use Q.{x}
        for i in imports:
            if not i.passed_on:
                yield i, [pair for pair in i.names if pair[1] not in modules and (i.whole or not used_in(bare, pair[1]))]

    def unused_uses(self, file):
        """[(line, crate, name)] of the `use` lines of code."""
        words = file.code.words.all | file.edited_code
        return [use for use in file.code.uses if use[2] not in words and not (use[2] in TRAITS and use[1].startswith("std"))]

    def check_imports(self):
        for file in [*self.antt.values(), *self.rt.values()]:
            modules = {}
            for i, unused in self.unused_imports(file):
                for _, name in unused:
                    self.find("import", file.name, i.line, "`%s` is imported from %s and not used" % (name, i.module), name)
                if not i.whole:
                    if i.module in modules:
                        self.find("twice", file.name, i.line, "a second `use` line for %s, after line %d" % (i.module, modules[i.module]), i.module)
                    modules.setdefault(i.module, i.line)
        for file in self.rt.values():
            seen = set()
            for line, crate, name in self.unused_uses(file):
                self.find("import", file.name, line, "`%s` is imported from %s and not used" % (name, crate), name)
            for line, crate, name in file.code.uses:
                if (crate, name) in seen:
                    self.find("twice", file.name, line, "a second `use` line for %s::%s" % (crate, name), name)
                seen.add((crate, name))

    def prune(self, quiet=False):
        for file in [*self.antt.values(), *self.rt.values()]:
            lines = list(file.lines)
            first = {}
            for i, unused in self.unused_imports(file):
                kept = [pair for pair in i.names if pair not in unused]
                if i.whole:
                    if not kept:
                        lines[i.line - 1] = None
                    continue
                if i.module in first:
                    before, names = first[i.module]
                    lines[i.line - 1] = None
                    kept = names + [pair for pair in kept if pair not in names]
                    i = before
                first[i.module] = (i, kept)
                words = ", ".join(there if there == here else there + " as " + here for there, here in kept)
                ghost = file.name.endswith(".rt")
                line = ("ghost use %s.{%s};" if ghost else "use %s.{%s}") % (i.module, words)
                lines[i.line - 1] = None if not kept else line if line != i.text else i.text
            if file.name.endswith(".rt"):
                self.prune_uses(file, lines)
            text = "\n".join(line for line in lines if line is not None)
            if text != file.text:
                file.path.write_text(text)
                if not quiet:
                    print(file.name)

    def prune_uses(self, file, lines):
        """A list of names from several modules (a::{b, c::d}) is left as it is."""
        unused, seen = {use[1:] for use in self.unused_uses(file)}, set()
        for first, end, names in file.code.use_lists:
            kept = [name for name in names if (name[0], name[2]) not in unused | seen]
            seen.update((path, here) for path, _, here in names)
            if len(kept) < len(names) and len({path for path, _, _ in names}) == 1:
                lines[first - 1:end] = [None] * (end - first + 1)
                words = [there if there == here else there + " as " + here for _, there, here in kept]
                if words:
                    lines[first - 1] = "use %s::%s;" % (names[0][0], words[0] if len(words) == 1 else "{%s}" % ", ".join(words))

    # -- 2

    def ends(self):
        """The names that documents cite."""
        names = set()
        for doc in self.docs:
            for _, word, _ in cited(doc):
                names.update(re.split(r"[\s():]+", word))
        return names

    def check_definitions(self):
        cited_names = self.ends()
        ends = {(f, n) for f, n, _ in ENDS}
        declared = {}  # (file, name) -> declaration; a constructor stands for its type
        for file in self.antt.values():
            file.own = []
            for d in file.declarations:
                for name in [d.name, *(part for part, _ in d.parts if d.kind == "data")]:
                    declared[file.name, name] = d
                    file.own.append((name, file.name, name))

        def is_end(file, d):
            short = file.name[len("crates/"):]
            asked = file.of_function and (d.name.endswith(("-spec", "_spec")) or any((goal, d.name) in d.words.behind for goal in file.goals))
            if asked or d.kind == "open" or (short, "*") in ends or (short, d.name) in ends or d.name in cited_names:
                return True
            return any(d.name.endswith(name[2:]) for name in cited_names if is_ending(name))

        def scope(file, imports):
            """[(name here, file, name there)], and {alias of a module: file}"""
            names, modules = [], {}
            for i in imports:
                there = self.module_file(i.module)
                if there in self.antt:
                    if i.whole:
                        modules[i.names[0][1]] = there
                    else:
                        names += [(here, there, name) for name, here in i.names]
            return names, modules

        def used(words, names, modules):
            for here, there, name in names:
                if (there, name) in declared and words.use(here):
                    yield there, declared[there, name]
            for module, name in words.behind:
                there = modules.get(module)
                if (there, name) in declared:
                    yield there, declared[there, name]

        outside = set()  # declarations that another file's text names
        users = {}  # declaration -> what it uses
        roots = []
        for file in self.antt.values():
            names, modules = scope(file, file.imports)
            for d in file.declarations:
                users[d] = {e for _, e in used(d.words, names, modules)}
                users[d].update(e for _, e in used(d.words, file.own, {}) if e is not d)
                if is_end(file, d):
                    roots.append(d)
                    outside.add(d)
        for file in self.rt.values():
            names, modules = scope(file, file.code.imports)
            named = [e for _, e in used(file.code.clauses, names, modules)]
            for crate, part, module, name in file.code.tactics:
                crate = file.crate if crate == "crate::" else crate[:-2]
                there = "crates/%s/%s/%s.antt" % (crate, part, module.replace("::", "/"))
                named += [declared[there, name]] if (there, name) in declared else []
            roots += named
            outside.update(named)
        for file in [*self.antt.values(), *self.rt.values()]:
            is_antt = file.name.endswith(".antt")
            names, modules = scope(file, file.imports if is_antt else file.code.imports)
            roots += [e for _, e in used(file.edited, names + (file.own if is_antt else []), modules)]
        alive = set()
        while roots:
            d = roots.pop()
            if d not in alive:
                alive.add(d)
                roots += users[d]
        for file in self.antt.values():
            names, modules = scope(file, file.imports)
            for d in file.declarations:
                if d in alive:
                    outside.update(e for _, e in used(d.words, names, modules))
        for file in self.antt.values():
            # what a needed `pub` declaration shows to others has to be `pub` too
            needed = [d for d in file.declarations if d in outside]
            shown = set()
            while needed:
                d = needed.pop()
                if d not in shown:
                    shown.add(d)
                    needed += [e for _, e in used(d.shown, file.own, {})]
            for d in file.declarations:
                if d.kind == "open":
                    continue
                if d not in alive:
                    only = any(d in users[e] for e in users if e is not d)
                    self.find("law", file.name, d.line, "`%s` is used by %s" % (d.name, "nothing but what is unused itself" if only else "nothing"), d.name)
                elif "pub" in d.marks and d not in shown:
                    self.find("pub", file.name, d.line, "`%s` is `pub`, and no other file needs it" % d.name, d.name)

    def check_code(self):
        cited_names = self.ends()
        for file in self.rt.values():
            own = file.code.items + file.code.blocks + file.code.methods
            for item in file.code.items + file.code.methods:
                if item.entry or item.name == "main" or item.name in cited_names:
                    continue
                inside = any(other.words.use(item) for other in own if other is not item and item.name not in other.about)
                outside = False
                for other in self.rt.values():
                    if other is not file and self.uses_from(other, file, item):
                        outside = True
                if item.kind in ("fn", "method") and item.pub and not outside:
                    self.find("function", file.name, item.line, "`%s` is `pub`, and %s" % (item.name, "no other crate uses it" if inside else "nothing uses it"), item.name)
                elif not inside and not outside:
                    self.find("function", file.name, item.line, "%s `%s` is used by nothing" % (item.kind, item.name), item.name)

    @staticmethod
    def uses_from(other, file, item):
        """Whether the code of another file uses an item of this one; of methods their names alone are known."""
        if item.kind == "method":
            return other.code.words.use(item)
        by = file.path.stem if other.crate == file.crate else file.crate
        homes = {by, "super::" + by, "%s::%s" % (by, file.path.stem)}
        imported = any(crate in homes and name == item.name for _, crate, name in other.code.uses)
        return imported and other.code.words.use(item) or (by, item.name) in other.code.words.behind

    # -- 3

    def check_citations(self):
        where = {}  # name -> files
        for file in self.antt.values():
            for d in file.declarations:
                for name in [d.name, *(part for part, _ in d.parts)]:
                    where.setdefault(name, set()).add(file.name)
        for file in self.antt.values():  # what rt makes of a contract, as in check.Learnt
            made = {i.names[0][1] for i in file.imports if i.whole and self.module_file(i.module) not in self.antt}
            for words in file.words:
                for module, name in words.behind:
                    if module in made:
                        where.setdefault(name, set())
        items, parameters = {}, set()
        for file in self.rt.values():
            for item in file.code.items:
                items.setdefault(item.name, set()).update((file.crate, file.path.stem))
            parameters.update(re.findall(r"\b(\w+):", file.code.code))
        labels = {edit.path.stem for edit in self.edits}
        macros = set()
        for path in [*self.root.glob("tools/**/*.[ch]"), *self.root.glob("include/*.h")]:
            macros.update(re.findall(r"\b[A-Z][A-Z_]+\b|\bsmallwood_\w+\b", path.read_text()))
        for doc in self.docs:
            for line, word, place in cited(doc):
                fault = self.citation_fault(word, where, items, parameters, labels, macros)
                if fault:
                    self.find("citation", doc.name, line, "`%s`: %s" % (word, fault), word)
                elif place and "::" not in word:
                    files = self.place_files(place)
                    if files is None:
                        self.find("citation", doc.name, line, "`%s`: there is no place %s" % (word, place), word)
                    elif not any(files & where[name] for name in where if name == word or is_ending(word) and name.endswith(word[2:])):
                        self.find("citation", doc.name, line, "`%s` is not in %s" % (word, place), word)
        for doc in self.docs:
            self.check_cited_edits(doc)

    def place_files(self, place):
        """The antt files that a place stands for: scheme/X, crates/scheme/proofs/X.antt, X.antt or a crate."""
        if place.startswith("crates/"):
            files = {place}
        elif place.endswith(".antt"):
            files = {name for name in self.antt if name.endswith("/" + place)}
        elif "/" in place:
            crate, name = place.split("/", 1)
            files = {"crates/%s/%s/%s.antt" % (crate, part, name) for part in ("specs", "proofs")}
        else:
            files = {name for name in self.antt if name.startswith("crates/%s/" % place)}
        files = {name for name in files if name in self.antt}
        return files or None

    def citation_fault(self, word, where, items, parameters, labels, macros):
        """Why a cited word is no name of the repository; None where it is one, or is no name at all."""
        command = word.split()[0]
        if re.search(r"/X(\.antt)?$", command):
            return None  # X stands for any file
        if "/" in command and re.fullmatch(r"[\w./*-]+", command):
            return None if list(self.root.glob(command.rstrip("/"))) else "there is no such file"
        match = re.fullmatch(r"(\w+)::(\w+|\.\.)(\(.*\))?", word)
        if match:
            if match[1] in items.get(match[2], ()):
                return None
            return "%s has no such function" % match[1]
        if word in LANGUAGE or " " in word or re.search(r"[&#=+^<>…]", word):
            return None  # a command, a formula, a word of the language
        if is_ending(word):
            return None if any(name.endswith(word[2:]) for name in where) else "no definition ends so"
        if word in where or word in items or word in self.crates or word in labels or word in parameters or word in macros:
            return None
        if (self.root / word).exists() or list(self.root.glob("*/" + word)) or any(name.endswith("/" + word) for name in [*self.antt, *self.rt]):
            return None
        return "there is no such definition, field, function, crate, file or edit"

    def check_cited_edits(self, doc):
        """The table under "Must-fail edits": crate/label, and a label alone after one of the same crate."""
        within = False
        for number, line in enumerate(doc.lines, 1):
            if line.startswith("#"):
                within = "must-fail edits" in line.lower()
            if not within or not line.startswith("|") or line.startswith("|---"):
                continue
            crate = None
            for cell in line.strip().strip("|").split("|")[1:]:
                for label in re.findall(r"[\w/]+", cell) if "/" in cell else []:
                    if "/" in label:
                        crate, label = label.split("/", 1)
                    if crate and not (self.root / "crates" / crate / "must-fail" / (label + ".edit")).exists():
                        self.find("citation", doc.name, number, "there is no edit %s/%s" % (crate, label), label)

    # -- 4, 5, 6

    def check_edits(self):
        for edit in self.edits:
            texts, pairs = {}, 0
            for target, old, new in edit_pairs(edit):
                pairs += 1
                if target not in texts:
                    path = edit.crate / target
                    if not path.is_file():
                        self.find("edit", edit.name, 1, "there is no file %s" % target)
                        break
                    texts[target] = path.read_text()
                count = texts[target].count(old) if old else 0
                if count != 1:
                    self.find("edit", edit.name, 1, "its `old:` text stands %s in %s" % ("%d times" % count if count else "nowhere", target))
                texts[target] = texts[target].replace(old, new, 1)
            for target, old, new in edit_pairs(edit):  # refused for want of a name, it would say nothing
                if target in texts and target.endswith(".antt") and not new.startswith("use "):
                    there = lex(old + " = λ\n" + texts[target].replace(new, "", 1))
                    there = {part for token in there for part in named_by(token.text)}
                    for name in sorted(Words(lex(new)).bare - there):
                        if not name[0].isdigit():
                            self.find("edit", edit.name, 1, "it puts in `%s`, which is not in %s" % (name, target))
            if not pairs:
                self.find("edit", edit.name, 1, "it has no `old:` and `new:`")

    def check_lengths(self):
        self.long_lines = 0
        parts = [part for part in sorted(self.root.glob("crates/*/*")) if part.name not in ("stdout", "stdin", "args", "data", "out")]
        for path in [path for part in parts for path in [part, *sorted(part.rglob("*"))]]:
            name = str(path.relative_to(self.root))
            if not path.is_file():
                continue
            lines = path.read_text().split("\n")
            count = len(lines) - (lines[-1] == "")
            if count > MOST_LINES:
                self.find("length", name, MOST_LINES + 1, "%d lines, and %d are the most" % (count, MOST_LINES))
            if path.suffix in (".antt", ".rt"):
                for number, line in enumerate(lines, 1):
                    self.long_lines += len(line) > LONG_LINE
                    if len(line) > LONGEST_LINE:
                        self.find("width", name, number, "a line of %d characters, and %d are the most" % (len(line), LONGEST_LINE))

    def check_index(self):
        for path in sorted((self.root / "crates").glob("*/proofs/Lib.antt")):
            lines = path.read_text().split("\n")
            modules = [i for i, line in enumerate(lines) if line.startswith(("pub mod ", "mod "))]
            if len(modules) > 2 and not any(line.startswith("--") for line in lines[:modules[0]]):
                self.find("index", str(path.relative_to(self.root)), 1, "%d modules, and no comment before the first that says what they are" % len(modules))

    def check(self):
        self.check_imports()
        self.check_definitions()
        self.check_code()
        self.check_citations()
        self.check_edits()
        self.check_lengths()
        self.check_index()
        self.findings.sort(key=lambda f: (f[1], f[2], f[4]))
        return self.findings


def edit_pairs(edit):
    """(file, old, new) of a must-fail edit, as `rt must-fail` reads it."""
    target, old = "", ""
    for line in edit.lines:
        if line.startswith("file: "):
            target = line[6:]
        elif line.startswith("old: "):
            old = line[5:]
        elif line.startswith("new:"):
            yield target, old, line[5:]
            old = ""


def is_ending(word):
    """Whether a cited word stands for all names that end so: `.._within`."""
    return word.startswith(("..-", ".._"))


PLACE = r"(?:crates/[\w/]+\.antt|\w+\.antt|[a-z_]+/[A-Z]\w*|[a-z_]+(?=\)))"


def cited(doc):
    """(line, word, place or None) for each word in backticks. A place stands in brackets after a word or a list of
    words (`a`, `b` (scheme/X)), after a comma within brackets (`a`, scheme/X), or after "in" (`a` in scheme/X)."""
    fenced = False
    for number, line in enumerate(doc.lines, 1):
        if line.startswith("```"):
            fenced = not fenced
        if fenced or line.startswith("    "):
            continue
        words = list(re.finditer(r"`([^`]+)`", line))
        places = [None] * len(words)
        for i, word in enumerate(words):
            rest = line[word.end():]
            match = re.match(r" \((" + PLACE + r")[,)]", rest) or re.match(r" in ([a-z_]+/[A-Z]\w*|crates/[\w/]+\.antt)", rest)
            if not match and "(" in line[:word.start()].rsplit(")", 1)[-1]:
                match = re.match(r", ([a-z_]+/[A-Z]\w*|crates/[\w/]+\.antt)", rest)
            if match:
                j = i
                while True:
                    places[j] = match[1]
                    if j == 0 or not re.fullmatch(r", | and |, and ", line[words[j - 1].end():words[j].start()]) or places[j - 1]:
                        break
                    j -= 1
        for word, place in zip(words, places):
            yield number, word[1], place


# ---- the self-test

SAMPLE = {  # a small repository without a finding
    "README.md": "Read `docs/PROMISES.md` and run `tools/house.py --prune`; `one` is the crate.\n",
    "docs/PROMISES.md": "## Demands\n\n`twice` and `Even` (one/Sets), `half_even` (crates/one/proofs/Halves.antt), `one::double`.\n\n"
                        "## Must-fail edits\n\n| Mistake | Edit of code | Edit of a definition |\n|---|---|---|\n| a sum | one/three_times, four_times | |\n",
    "docs/DECISIONS.md": "`.._even` are laws; the field `value` (one/Sets) is a number, `n + n` a formula.\n",
    "tools/house.py": "",
    "crates/one/specs/Lib.antt": "pub mod Sets\n",
    "crates/one/specs/Sets.antt": "-- Sets.\nuse Rattle.std.specs.Prelude.{ℕ, ◌+◌}\n\nunfoldable pub twice : ℕ → ℕ\ntwice n = n + n\n\n"
                                  "pub record Even (n : ℕ) : Type 0 where\n  pub value : ℕ\n\npub data Way : Type 0 where\n  up down : Way\n",
    "crates/one/proofs/Lib.antt": "-- Halves: laws of halves.\npub mod Halves\npub mod Ways\npub mod More\n",
    "crates/one/proofs/Halves.antt": "use Rattle.std.specs.Prelude.{ℕ, ◌+◌}\nuse Rattle.one.specs.Sets.{twice, Even}\n\n"
                                     "module _ (n : ℕ)\n    (m : ℕ) where\n  helper : Even (twice n) → ℕ\n  unfolding twice\n  helper e = go n\n    where\n"
                                     "      go : ℕ → ℕ\n      go k = k + n\n\n  pub half_even : Even (twice n) → ℕ\n  half_even e = helper e\n",
    "crates/one/proofs/Ways.antt": "use Rattle.one.specs.Sets.{Way, up, down}\nuse Rattle.one.proofs.Halves as H\n\n"
                                   "pub turned : Way → Way\nturned up = down\nturned down = up\n\npub both : H.half_even\nboth = H.half_even\n",
    "crates/one/specs/None.antt": "",
    "crates/one/proofs/More.antt": "use Rattle.std.specs.Prelude.{ℕ}\n\npub far : ℕ → ℕ\nfar n = n\n",
    "crates/one/proofs/double/Proof.antt": "use Rattle.one.proofs.Ways.{turned, both as two}\n\nlocal : turned\nlocal = two\n\npub double-spec : local\ndouble-spec = local\n",
    "crates/one/proofs/halve/Answers.antt": "use Rattle.std.specs.Prelude.{ℕ}\nuse Rattle.one.proofs.halve.Goals as goal\n\nstep : ℕ → ℕ\nstep n = n\n\npub loop-i-init : goal.loop-i-init\nloop-i-init c = step c\n",
    "crates/one/src/lib.rt": "ghost use Rattle.std.specs.Prelude.{◌<◌, ◌≡◌};\nghost use Rattle.one.specs.Sets.{twice};\n\nuse std::io::Read;\nuse two::Pair;\n\nconst LIMIT: u32 = 4; // x - y\n\n"
                             "fn wide<const N: u32>(n: u32) -> u32 {\n    n.min(N)\n}\n\nstruct Step {\n    n: u32,\n}\n\n"
                             "fn next(n: u32) -> u32 {\n    n\n}\n\nimpl Step {\n    fn over(self) -> Step {\n        Step { n: next(self.n) }\n    }\n}\n\n"
                             "fn small(n: u32) -> bool {\n    n < LIMIT\n}\n\n#[unsafe(no_mangle)]\n#[tactic(auto, using(crate::proofs::More::far))]\npub extern \"C\" fn double(n: u32, p: Pair) -> u32\n    requires { n < 5 }\n"
                             "    ensures exact { result ≡ twice n }\n{\n    if small(n) { return n + n; }\n    let step = Step { n: wide::<{ 3 + 1 }>(n) }.over();\n    n + n\n}\n",
    "crates/one/must-fail/three_times.edit": "Three times.\nfile: src/lib.rt\nold:     if small(n) { return n + n; }\nnew:     if small(n) { return n; }\n",
    "crates/one/must-fail/four_times.edit": "file: specs/Sets.antt\nold: twice n = n + n\nnew: twice n = n\n",
}

BREAKS = [  # what is broken, file, old text, new text, the finding
    ("an unused import", "crates/one/specs/Sets.antt", "{ℕ, ◌+◌}", "{ℕ, ◌+◌, ◌-◌}", "`◌-◌` is imported from Rattle.std.specs.Prelude and not used"),
    ("an import that a variable hides", "crates/one/proofs/Halves.antt", "{twice, Even}", "{twice, Even, k}", "`k` is imported from Rattle.one.specs.Sets and not used"),
    ("an unused module", "crates/one/specs/Sets.antt", "-- Sets.\n", "use Rattle.std.specs.Prelude as N\n", "`N` is imported from Rattle.std.specs.Prelude and not used"),
    ("an import that only code and comments name", "crates/one/src/lib.rt", "{◌<◌, ◌≡◌}", "{◌<◌, ◌≡◌, ◌+◌, ◌-◌}", "`◌+◌` is imported"),
    ("an unused import of code", "crates/one/src/lib.rt", "use two::Pair;", "use two::Pair;\nuse two::other;", "`other` is imported from two and not used"),
    ("an unused import in a list", "crates/one/src/lib.rt", "use two::Pair;", "use two::{\n    Pair, deep::{other, Pair as Two},\n};", "`other` is imported from two::deep and not used"),
    ("two lines for a module", "crates/one/specs/Sets.antt", "{ℕ, ◌+◌}", "{ℕ}\nuse Rattle.std.specs.Prelude.{◌+◌}", "a second `use` line for Rattle.std.specs.Prelude"),
    ("an unused law", "crates/one/proofs/Ways.antt", "pub both", "unused : Way\nunused = up\n\npub both", "`unused` is used by nothing"),
    ("an unused law in a block", "crates/one/proofs/Halves.antt", "  pub half", "  unused : ℕ\n  unused = n\n\n  pub half", "`unused` is used by nothing"),
    ("a law that its own proof alone uses", "crates/one/proofs/Ways.antt", "pub both", "again : Way\nagain = again\n\npub both", "`again` is used by nothing"),
    ("a law whose one user goes", "crates/one/proofs/Ways.antt", "H.half_even\nboth = H.half_even", "Way\nboth = up", "`H` is imported"),
    ("a law that an attribute no longer names", "crates/one/src/lib.rt", "More::far", "More::near", "`far` is used by nothing"),
    ("an answer that is not asked", "crates/one/proofs/halve/Answers.antt", ": goal.loop-i-init", ": goal.loop-i", "`loop-i-init` is used by nothing"),
    ("an operator's name in parts", "crates/one/specs/Sets.antt", "{ℕ, ◌+◌}", "{ℕ, ◌+◌, n_twice}", "`n_twice` is imported"),
    ("an unused law of a proof", "crates/one/proofs/double/Proof.antt", "\nlocal :", "\nidle : turned\nidle = two\n\nlocal :", "`idle` is used by nothing"),
    ("a needless pub", "crates/one/proofs/Halves.antt", "  helper :", "  pub helper :", "`helper` is `pub`, and no other file needs it"),
    ("an unused function", "crates/one/src/lib.rt", "fn small(", "fn idle(n: u32) -> u32 {\n    n\n}\n\nfn small(", "fn `idle` is used by nothing"),
    ("a needless pub of a function", "crates/one/src/lib.rt", "fn small(", "pub fn small(", "`small` is `pub`, and no other crate uses it"),
    ("an unused constant", "crates/one/src/lib.rt", "n < LIMIT", "n < 4", "const `LIMIT` is used by nothing"),
    ("a function without its call with a const parameter", "crates/one/src/lib.rt", "wide::<{ 3 + 1 }>(n)", "n", "fn `wide` is used by nothing"),
    ("a function that no method calls any more", "crates/one/src/lib.rt", "next(self.n)", "self.n", "fn `next` is used by nothing"),
    ("a type that its own methods alone use", "crates/one/src/lib.rt", "let step = Step {", "let step = Other {", "struct `Step` is used by nothing"),
    ("a method that nothing calls any more", "crates/one/src/lib.rt", ".over()", "", "method `over` is used by nothing"),
    ("a method that it alone calls", "crates/one/src/lib.rt", "impl Step {\n", "impl Step {\n    fn idle(self) -> Step {\n        self.idle()\n    }\n\n", "method `idle` is used by nothing"),
    ("a needless pub of a method", "crates/one/src/lib.rt", "    fn over(", "    pub fn over(", "`over` is `pub`, and no other crate uses it"),
    ("an unused trait", "crates/one/src/lib.rt", "struct Step", "pub trait Idle {\n    fn idle(self);\n}\n\nstruct Step", "trait `Idle` is used by nothing"),
    ("an unused method of a trait", "crates/one/src/lib.rt", "struct Step", "pub trait Idle {\n    fn idle(self);\n}\n\nstruct Step", "method `idle` is used by nothing"),
    ("a cited name that is not there", "docs/DECISIONS.md", "`value`", "`worth`", "`worth`: there is no such definition"),
    ("a cited function that is not there", "docs/PROMISES.md", "one::double", "one::triple", "one has no such function"),
    ("a cited file that is not there", "README.md", "docs/PROMISES.md", "docs/PROMISE.md", "there is no such file"),
    ("a wrong place", "docs/PROMISES.md", "`Even` (one/Sets)", "`Even` (one/Halves)", "`Even` is not in one/Halves"),
    ("a wrong place of a list", "docs/PROMISES.md", "`Even` (one/Sets)", "`Even` (one/Halves)", "`twice` is not in one/Halves"),
    ("a place that is not there", "docs/PROMISES.md", "(one/Sets)", "(one/Nowhere)", "there is no place one/Nowhere"),
    ("a cited edit that is not there", "docs/PROMISES.md", "one/three_times", "one/five_times", "there is no edit one/five_times"),
    ("a second cited edit that is not there", "docs/PROMISES.md", ", four_times", ", five_times", "there is no edit one/five_times"),
    ("an old text that stands twice", "crates/one/must-fail/three_times.edit", "old:     if small(n) { return n + n; }", "old: n + n", "its `old:` text stands 2 times"),
    ("an old text that is not there", "crates/one/must-fail/four_times.edit", "old: twice", "old: thrice", "its `old:` text stands nowhere"),
    ("an edit with a name that is not there", "crates/one/must-fail/four_times.edit", "new: twice n = n", "new: twice n = n - n", "it puts in `-`"),
    ("a file of 501 lines", "crates/one/specs/None.antt", "", "\n" * 501, "501 lines, and 500 are the most"),
    ("a line of 401 characters", "crates/one/specs/None.antt", "", "-- " + "x" * 398, "a line of 401 characters"),
    ("no index of modules", "crates/one/proofs/Lib.antt", "-- Halves: laws of halves.\n", "", "3 modules, and no comment"),
]


def selftest():
    faults = 0
    with tempfile.TemporaryDirectory() as root:
        root = pathlib.Path(root)

        def put(broken=None, old="", new=""):
            for name, text in SAMPLE.items():
                (root / name).parent.mkdir(parents=True, exist_ok=True)
                (root / name).write_text(text.replace(old, new, 1) if name == broken else text)

        put()
        for _, file, line, _, what in Repository(root).check():
            print("house self-test: found where nothing is broken: %s:%d: %s" % (file, line, what))
            faults += 1
        for broken, file, old, new, expected in BREAKS:
            assert old in SAMPLE[file], broken
            put(file, old, new)
            if not any(expected in what for _, _, _, _, what in Repository(root).check()):
                print("house self-test: not found: %s" % broken)
                faults += 1
        put("crates/one/specs/Sets.antt", "{ℕ, ◌+◌}", "{◌-◌, ℕ}\nuse lib.Seq.{paste}\nuse Rattle.std.specs.Prelude.{◌+◌, ℕ}")
        Repository(root).prune(quiet=True)
        if (root / "crates/one/specs/Sets.antt").read_text() != SAMPLE["crates/one/specs/Sets.antt"]:
            print("house self-test: --prune leaves something else")
            faults += 1
        put("crates/one/src/lib.rt", "use two::Pair;", "use two::{\n    Pair, other,\n};\nuse two::more;")
        Repository(root).prune(quiet=True)
        if (root / "crates/one/src/lib.rt").read_text() != SAMPLE["crates/one/src/lib.rt"]:
            print("house self-test: --prune leaves other code")
            faults += 1
    print("house self-test: %d breaks, %d faults" % (len(BREAKS), faults))
    return 1 if faults else 0


def main():
    parser = Arguments(__doc__)
    one = parser.add_mutually_exclusive_group()
    one.add_argument("--list-unused", action="store_true", help="unused names alone, for machines")
    one.add_argument("--prune", action="store_true", help="take unused names out of `use` lines")
    one.add_argument("--selftest", action="store_true", help="test these checks")
    given = parser.parse_args()
    if given.selftest:
        return selftest()
    repository = Repository(pathlib.Path(__file__).resolve().parent.parent)
    if given.prune:
        repository.prune()
        return 0
    findings = repository.check()
    if given.list_unused:
        for kind, file, line, name, _ in findings:
            if kind in ("import", "twice", "law", "pub", "function"):
                print(kind, file, line, name, sep="\t")
        return 0
    for _, file, line, _, what in findings:
        print("%s:%d: %s" % (file, line, what))
    print("house: %d findings; %d lines over %d characters" % (len(findings), repository.long_lines, LONG_LINE))
    return 1 if findings else 0


if __name__ == "__main__":
    sys.exit(main())
