#!/usr/bin/env python3
"""Run once after the kit's port.py, at the top: brings the repository's own definitions and lemmas to the kit's spelling.

A word that began small and had capitals inside (`fileUsed`) is in snake case (`file_used`). In a lemma's name a dash stays
only where it joins the names of two definitions (`block_of-length`), and is `_` elsewhere (`all_at`); a lemma that would have a
definition's name ends in `_lem`. The proof of a function
`f` is `f_spec`. Functions of src/, exported C names, strings, inputs and outputs keep their names.

usage: port_names.py              respells crates/ of the folder that it is run in
       port_names.py FILE..       respells these files too (edits, pages), by the names of crates/
"""
import os
import re
import sys

DECLARED = re.compile(r"^[ ]*(?:(?:pub|abbrev|unfoldable)[ ]+)*((?:[^\s(){};,.:«»=]+[ ])+):[ ]", re.M)
DEFINED = re.compile(r"^(?:(?:pub|abbrev|unfoldable)[ ]+)+([^\s(){};,.:«»]+)[ ]:[ ]", re.M)
WORD = re.compile(r"[^\s(){};,.:`\"«»\[\]]+")
STRING = re.compile(r'b?"(?:[^"\\]|\\.)*"')
# words of the kit's lists, tests and numbers between which a lemma's dash joins two names
KIT = set("length take drop get_or map replicate append reverse set any all count keep pairs sum zip min max".split())
# lemmas that port.py has respelled already, each of which would have a definition's or a field's name
LEMMAS = {w: w + "_lem" for w in ("walk_ends", "slot_cases", "kept_block", "not_root", "in_order")}
# aliases whose middle dot stood for a module
ALIASES = {
    "Option·some-injective": "some_injective",
    "List·getD-eq-default": "get_or_default",
    "List·getD-map": "get_or_map",
}


def texts(top="crates"):
    for folder, folders, files in os.walk(top):
        folders[:] = sorted(f for f in folders if f != "out")
        for name in sorted(files):
            if name.endswith((".antt", ".rt")):
                yield os.path.join(folder, name)


def read(path):
    with open(path, encoding="utf-8") as f:
        return f.read()


def snake(word):
    """`fileUsed` as `file_used`; `a1B` as `a1_b`."""
    return re.sub(r"(?<=[a-z0-9])([A-Z])", lambda m: "_" + m[1].lower(), word)


def is_camel(word):
    return re.fullmatch(r"[a-z][A-Za-z0-9'₀-₉]*", word) is not None and re.search(r"[a-z0-9][A-Z]", word) is not None


def is_of_function(path):
    """A proof of a function: its names are seen nowhere else."""
    return os.path.basename(path) in ("Proof.antt", "Answers.antt", "Invariants.antt")


def declared(text):
    found = (m[1].split() for m in DECLARED.finditer(text) if not text[m.end() :].startswith("tie."))
    return {name for names in found for name in names}


def lemma_names(own, table, taken, defined):
    """The dashes of lemmas: they stay between two names of definitions."""
    found = {}
    for word in own:
        if "-" not in word or word.startswith("-") or word.endswith("-"):
            continue
        parts = [table.get(p, snake(p) if is_camel(p) else p) for p in word.split("-")]
        new = ("-" if len(parts) == 2 and defined.issuperset(parts) else "_").join(parts)
        if new in taken:
            new += "_lem"
        if new != word:
            found[word] = new
    return found


def names():
    """The words to respell, each with its new spelling; the names in use, and those of definitions."""
    own, words, defined = set(), set(), set(KIT)
    for path in texts():
        text = read(path)
        words.update(WORD.findall(STRING.sub(" ", text)))
        if path.endswith(".antt") and not is_of_function(path):
            own |= declared(text)
        if "/specs/" in path:
            defined |= {m[1] for m in DEFINED.finditer(text)}
    table = {w: snake(w) for w in words if is_camel(w)}
    taken = {table.get(w, w) for w in own if "-" not in w} | set(table.values())
    plain = (taken, {table.get(w, w) for w in defined})
    table.update(lemma_names(own, table, *plain))
    table.update(ALIASES)
    if any(is_camel(w) for w in words):
        table.update(LEMMAS)
    return table, plain


def respelled(text, table, is_source):
    def word(m):
        return table.get(m[0], m[0])

    if not is_source:
        return WORD.sub(word, text)
    out, end = [], 0
    for m in STRING.finditer(text):
        out += [WORD.sub(word, text[end:m.start()]), m[0]]
        end = m.end()
    return "".join(out + [WORD.sub(word, text[end:])])


def spec_names(path, text):
    """The proof of a function goes by the function's name."""
    folder = os.path.dirname(path)
    if os.path.basename(path) != "Proof.antt":
        return text
    said = re.search(r"(?m)^pub ([\w'-]+[-_]spec) :", text)
    if not said:
        return text
    new = os.path.basename(folder).lstrip("+") + "_spec"
    return re.sub(r"(?<![\w'-])" + re.escape(said[1]) + r"(?![\w'-])", new, text)


def fallen_together(before, table):
    """Two words of one file that have one spelling now."""
    by_new = {}
    for w in set(WORD.findall(before)):
        by_new.setdefault(table.get(w, w), set()).add(w)
    return {n: ws for n, ws in by_new.items() if len(ws) > 1}


def main():
    table, plain = names()
    met = {}
    for path in texts():
        before = read(path)
        everywhere = table
        if is_of_function(path):
            table = {**everywhere, **lemma_names(declared(spec_names(path, before)) - set(everywhere), everywhere, *plain)}
        if path.endswith(".antt"):
            for new, old in fallen_together(spec_names(path, before), table).items():
                met.setdefault((new, tuple(sorted(old))), []).append(path)
        after = respelled(spec_names(path, before), table, path.endswith(".rt"))
        if after != before and "--check" not in sys.argv:
            with open(path, "w", encoding="utf-8") as f:
                f.write(after)
        table = everywhere
    for (new, old), where in sorted(met.items()):
        print(f"one spelling: {' and '.join(old)} as {new}: {', '.join(where[:3])} ({len(where)})")
    print(f"{len(table)} words respelled")
    for path in [a for a in sys.argv[1:] if a != "--check"]:
        before = read(path)
        after = respelled(before, table, False)
        if after != before:
            with open(path, "w", encoding="utf-8") as f:
                f.write(after)


if __name__ == "__main__":
    main()
