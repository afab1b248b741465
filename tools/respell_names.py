#!/usr/bin/env python3
"""tools/respell_names.py [--list] [ROOT]: spells the definitions and lemmas of this repository by the rules of names that its toolchain has.

Words are in snake case. A dash stays where it joins the names of two functions, as in `length-drop`; a plain word is added with `_`. A type
keeps upper camel case and loses its dashes. What a library declares keeps its spelling in a file that imports it from there. Turned are the
code and the code spans of comments in .antt files, the clauses and ghost items of .rt files, the code spans of README.md and docs/, and the
lines of must-fail edits. Run once, behind port.py. With --list it writes the table and changes nothing.
"""
import collections, pathlib, re, sys

WORD = re.compile(r'[^\s(){}.;,@"«»`]+')
DECLARED = re.compile(r"(?m)^ *(?:(?:pub|abbrev|unfoldable|record|data|proof|lemma) )*([^\s(){}.;,@\"«»|:]+)(?: \{[^{}\n]*\}| \([^()\n]*\))* :(?= |$)")
USE = re.compile(r"\b(?:ghost )?(?:pub )?use ([^\s;{]+?)\.?(?:\{([^{}]*)\}|\*|(?=[\s;]))", re.S)
COMMENT = re.compile(r"(?m)(?<![^\s(){}.;,@])--(?= |$|-).*$")
SPAN = re.compile(r"`[^`\n]+`")
CLAUSE = re.compile(r"(?:requires|ensures)\s*\*?\s*(?:\w+\s*)?\{|ghost\s*(?:\w+\s*(?::\s*)?(?:=\s*)?)?\{|ghost\s+\w+\s*(?::|=)\s*\{")
GHOST_USE = re.compile(r"ghost\s+use\b[^;]*;")
# words of the library's lists, numbers and tests, which the names of lemmas join to others
LIBRARY = """length append take drop set get get_or get_elem? slice_index map sum filter reverse rev fold zip concat replicate mul add div mod
min max pow leb ltb eqb cond suc some none head last elem count_by flatten join option_map bit_and""".split()
OWN_FUNCTIONS = "size sizes uses weaken encode decode rename words".split()
ALIAS = re.compile(r" as ([^\s(){}.;,@\"«»`]+)")
# lemmas that have had their definition's name but for its capitals: in the files of these crates
LEMMAS = {"part_end": ("crates/syntax/proofs/Parts.antt", "crates/words/proofs/Sized.antt")}
OWN = re.compile(r"Rattle\.(?!std\b|core\b)")

def snake(part):
    if part[:1].isupper():
        return part
    return re.sub(r"(?<=[a-z0-9₀-₉?])([A-Z])", lambda m: "_" + m[1].lower(), part)

def files(root):
    for pattern in ("crates/*/specs/**/*.antt", "crates/*/proofs/**/*.antt"):
        yield from sorted(p for p in root.glob(pattern) if "/out/" not in str(p))

def bare(text):
    return COMMENT.sub("", text)

def collect(root):
    """The names that are declared or brought in under another name, and those of functions that a lemma's name may join."""
    names, functions = set(), set(LIBRARY + OWN_FUNCTIONS)
    for path in files(root):
        code = bare(path.read_text())
        declared = DECLARED.findall(code)
        names.update(declared, ALIAS.findall(" ".join(m[0] for m in USE.finditer(code))))
        if "/specs/" in str(path):
            functions.update(n for n in declared if n[:1].islower() and "-" not in n and snake(n) != n)
    for path in root.glob("crates/*/src/*.rt"):
        names.update(ALIAS.findall(" ".join(GHOST_USE.findall(path.read_text()))))
    return names, functions

def spelled(name, functions):
    if name.startswith(("invariant-", "decreases-", "Inv-")):
        return name
    if name.endswith("-spec"):
        return name.replace("-", "_")
    parts = ["get_or" if p == "getD" else p for p in name.split("-")]
    if "" in parts:
        return name
    if name[:1].isupper() and len(parts) > 1:
        return "".join(p[:1].upper() + p[1:] for p in parts)
    new = snake(parts[0])
    for left, right in zip(parts, parts[1:]):
        new += ("-" if {left, right} <= functions else "_") + snake(right)
    return new

def table(root):
    names, functions = collect(root)
    turned = {n: spelled(n, functions) for n in names if n[:1].isalpha()}
    of_functions = {new for old, new in turned.items() if "-" not in old}
    for old, new in turned.items():
        if "-" in old and new in of_functions and not old.endswith("-spec"):
            turned[old] = new + "_lem"
    return {old: new for old, new in turned.items() if old != new}

def foreign(code):
    """The names that a file imports from a library."""
    found = set()
    for path, items in USE.findall(code):
        if not OWN.match(path):
            found.update(WORD.findall(items) or [])
    return found

def turn(code, rows, keep=()):
    return WORD.sub(lambda m: m[0] if m[0] in keep else rows.get(m[0], m[0]), code)

def in_comment(text, rows, keep):
    return SPAN.sub(lambda m: turn(m[0], rows, keep), text)

def antt(text, rows, keep):
    out, at = [], 0
    for m in COMMENT.finditer(text):
        out += [turn(text[at:m.start()], rows, keep), in_comment(m[0], rows, keep)]
        at = m.end()
    return "".join(out) + turn(text[at:], rows, keep)

def rt(text, rows, keep):
    spans = [m.span() for m in GHOST_USE.finditer(text)]
    for m in CLAUSE.finditer(text):
        depth, end = 1, m.end()
        while depth and end < len(text):
            depth += {"{": 1, "}": -1}.get(text[end], 0)
            end += 1
        spans.append((m.end(), end))
    out, at = [], 0
    for start, end in sorted(spans):
        if start >= at:
            out += [text[at:start], turn(text[start:end], rows, keep)]
            at = end
    return "".join(out) + text[at:]

def clashes(code, rows, keep):
    words = set(re.findall(r"(?<![^\s(){};,@«»])" + WORD.pattern, code)) - set(keep)
    met = collections.defaultdict(set)
    for w in words:
        met[rows.get(w, w)].add(w)
    return {new: olds for new, olds in met.items() if len(olds) > 1}

def main():
    args = [a for a in sys.argv[1:] if a != "--list"]
    root = pathlib.Path(args[0] if args else ".").resolve()
    rows = table(root)
    for path in files(root):
        code = bare(path.read_text())
        for new, olds in clashes(code, rows, foreign(code)).items():
            print(f"clash: {path.relative_to(root)}: {', '.join(sorted(olds))} -> {new}")
    by_new = collections.defaultdict(set)
    for old, new in rows.items():
        by_new[new].add(old)
    for new, olds in by_new.items():
        if len(olds) > 1:
            print(f"meets: {', '.join(sorted(olds))} -> {new}")
    if "--list" in sys.argv:
        for old, new in sorted(rows.items()):
            print(f"{old}\t{new}")
        return
    for path in files(root):
        text = path.read_text()
        lemmas = {n: n + "_lem" for n, where in LEMMAS.items() if str(path.relative_to(root)) in where}
        path.write_text(antt(text, rows | lemmas, foreign(bare(text))))
    for path in sorted(root.glob("crates/*/src/**/*.rt")):
        text = path.read_text()
        path.write_text(rt(text, rows, foreign(" ".join(GHOST_USE.findall(text)))))
    for path in sorted(root.glob("crates/*/must-fail/*.edit")):
        path.write_text("\n".join(turn(l, rows) if l.startswith(("old:", "new:")) else l for l in path.read_text().split("\n")))
    for path in [root / "README.md", *sorted(root.glob("docs/*.md"))]:
        path.write_text(SPAN.sub(lambda m: turn(m[0], rows), path.read_text()))

main()
