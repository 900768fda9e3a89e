#!/usr/bin/env python3
"""Brings the repository's own names to the library's spelling: words in snake case, types in camel case, a dash where it joins two names.

usage: python3 tools/respell.py        at the top of the repository, once, after the kit's port.py

Definitions and lemmas of specs/ and proofs/ alone: functions of src/, strings, inputs and outputs keep their names. Of two names that would fall together the lemma's gets `_lem`.
"""
import glob
import os
import re
import shutil
import sys

KIT = os.path.dirname(os.path.dirname(os.path.realpath(shutil.which("rt") or "rt")))
LETTER = r"A-Za-z_\u0370-\u03ff"
WORD = rf"[{LETTER}][\w'\u2080-\u209c]*(?:-[\w'\u2080-\u209c]+)*"
# Words that a lemma's name may have after a dash though nothing here is called so.
JOINED = {"cons", "nil", "append", "zero", "suc", "snoc", "cond", "length", "take", "drop", "map", "reverse", "set", "get_or", "replicate", "min", "le", "lt"}
# A plain word that is also some function's name joins nothing.
PLAIN = {"at", "in", "is", "of", "left", "was", "given", "going", "found", "cases", "holds", "leaves", "moved", "table", "word", "row", "value", "number"}


def files():
    for top in ("specs", "proofs"):
        yield from sorted(glob.glob(f"crates/*/{top}/**/*.antt", recursive=True))


def in_library():
    """Every word of the kit's library: a name of ours that it has too is left."""
    known = set()
    for folder in ("rattle/std", "rattle/logic", "rattle/core"):
        for path in glob.glob(f"{KIT}/{folder}/**/*.antt", recursive=True):
            with open(path, encoding="utf-8") as f:
                for line in f:
                    m = re.match(rf"\s*(?:abbrev |unfoldable )?(?:pub )?(?:record |data )?({WORD})(?: |$)", line)
                    if m:
                        known.add(m.group(1))
    return known


def defined():
    """The names that specs/ and the lemma files of proofs/ define: at the top, and inside (fields, constructors, locals)."""
    top, inside = set(), set()
    for path in files():
        by_function = os.path.basename(path) in ("Proof.antt", "Answers.antt", "Invariants.antt")
        with open(path, encoding="utf-8") as f:
            for line in f:
                if re.match(r"\s*use ", line):
                    inside.update(re.findall(rf" as ({WORD})", line))
                if re.match(r"\s*(--|use |mod |pub mod )", line):
                    continue
                m = re.match(rf"(?:  )?(?:abbrev |unfoldable )?(?:pub )?({WORD}) :(?: |$)", line)
                if m and not line.startswith("  pub") and not by_function:
                    top.add(m.group(1))
                for m in re.finditer(rf"({WORD})(?= : )|(?<=let )({WORD})(?= =)|(?<=λ )({WORD})(?=\.)", line):
                    name = m.group(1) or m.group(2) or m.group(3)
                    if not by_function or not re.match(r"\S", line):
                        inside.add(name)
                for m in re.finditer(rf"[({{]((?:{WORD} )+): ", line):
                    inside.update(m.group(1).split())
    for path in sorted(glob.glob("crates/*/src/**/*.rt", recursive=True)):
        with open(path, encoding="utf-8") as f:
            for line in f:
                if line.startswith("ghost use "):
                    inside.update(re.findall(rf" as ({WORD})", line))
    return top, inside


def snake(part):
    """A word of a name, in snake case; what begins with a capital is a type."""
    if not part or part[0].isupper():
        return part
    if part == "getD":
        return "get_or"
    return re.sub(r"(?<=[a-z0-9])([A-Z]+)", lambda m: "_" + m.group(1).lower(), part)


def fields():
    """The fields of records and the constructors of data in specs/: no dash joins a field to anything."""
    found = set()
    for path in sorted(glob.glob("crates/*/specs/**/*.antt", recursive=True)):
        with open(path, encoding="utf-8") as f:
            inside = False
            for line in f:
                if re.match(r"(pub )?(record|data) ", line):
                    inside = True
                elif re.match(r"\S", line) and not line.startswith("--"):
                    inside = False
                m = re.match(rf"  (?:pub )?({WORD}) : ", line)
                if inside and m:
                    found.add(m.group(1))
    return found


def imported():
    """What our files import from the library by name."""
    found = set()
    for path in files():
        with open(path, encoding="utf-8") as f:
            for m in re.finditer(r"(?m)^\s*use (?!Rattle\.(?!std|core))[\w.]+\.\{([^}]*)\}", f.read()):
                found.update(n.strip().split(" as ")[0] for n in m.group(1).split(","))
    return found


def respelled(name, functions, of_records):
    parts = [snake(p) for p in name.split("-")]
    if name in of_records:
        return "_".join(parts)
    out = parts[0]
    for before, part in zip(parts, parts[1:]):
        joins = (before in functions or before[:1].isupper()) and before not in PLAIN and (part in JOINED or (part in functions and part not in PLAIN) or part[:1].isupper())
        out += ("-" if joins else "_") + part
    return out


def main():
    library, cited = in_library(), imported()
    top, inside = defined()
    of_records = fields()
    functions = {snake(n) for n in top if "-" not in n} | JOINED
    names = {n for n in top | inside if ("-" in n or re.search(r"[a-z0-9][A-Z]", n)) and not n[0].isupper()}
    # What Rattle makes of the code keeps its name.
    names = {n for n in names if not re.match(r"(returns|overflow_|bounds-|loop-|offset_bounds-|slice_bounds-|nonzero_|invariant-|decreases-|shape_of-|prove-)", n)}
    turned, kept = {}, []
    for name in sorted(names):
        if name in library and (name in cited or name not in of_records):
            kept.append(name)
            continue
        new = respelled(name, functions, of_records)
        if new != name:
            turned[name] = new
    taken = {}
    for name in sorted(top | inside):
        taken.setdefault(turned.get(name, name), []).append(name)
    together = {n: olds for n, olds in taken.items() if len(olds) > 1}
    for n, olds in sorted(together.items()):
        print(f"together: {' and '.join(olds)} would be {n}")
    clash = sorted(f"{o} -> {n}" for o, n in turned.items() if n in library and o in top)
    for line in clash:
        print(f"the library has it: {line}")
    # A lemma that would have its function's name gets `_lem`, where both stand in one file; what src/ calls so keeps it.
    in_source = set(re.findall(rf"\bfn (\w+)", "".join(open(p, encoding="utf-8").read() for p in glob.glob("crates/*/src/**/*.rt", recursive=True))))
    words_of = [set(re.findall(rf"(?<![\w'])(?<!\w-){WORD}", open(p, encoding="utf-8").read())) for p in files()]
    for new, olds in together.items():
        first = next((o for o in olds if o in of_records), next((o for o in olds if re.search(r"[a-z0-9][A-Z]", o)), olds[0]))
        if not any(len(ws & set(olds)) > 1 for ws in words_of):
            continue
        for o in olds:
            if o != first and o not in in_source:
                turned[o] = new + "_lem"
            elif o != first:
                turned.pop(first, None)
    if "--dry" in sys.argv:
        for o, n in sorted(turned.items()):
            print(f"{o} -> {n}")
        return
    word = re.compile(rf"(?<![\w'])(?<!\w-){WORD}")
    changed = 0
    for path in list(files()) + sorted(glob.glob("crates/*/src/**/*.rt", recursive=True)) + sorted(glob.glob("crates/*/must-fail/*.edit")):
        with open(path, encoding="utf-8") as f:
            text = f.read()
        new = word.sub(lambda m: turned.get(m.group(0), m.group(0)), text)
        if new != text:
            changed += 1
            with open(path, "w", encoding="utf-8") as f:
                f.write(new)
    print(f"{len(turned)} names respelled in {changed} files; kept, as the library has them: {' '.join(kept)}")


# ---- contracts: what a parameter refers to at the two moments of a call, and the labels of clauses

LABELS = {
    "crates/book/src/lib.rt": {
        "ensures value { result ≡ record_of nothing }": "ensures holds_nothing { result ≡ record_of nothing }",
        "ensures* do_value { do ⌜ (← (⟦Book::PICTURES⟧).entry) ≡ most_pictures ⌝ }": "ensures pictures { Book.PICTURES ≡ most_pictures }",
        "ensures* do_value_2 { do ⌜ (← (⟦Book::RULES⟧).entry) ≡ most_rules ⌝ }": "ensures rules { Book.RULES ≡ most_rules }",
        "ensures* do_value_3 { do ⌜ (← (⟦Book::SYMBOLS⟧).entry) ≡ most_symbols ⌝ }": "ensures symbols { Book.SYMBOLS ≡ most_symbols }",
        "ensures* do_value_4 { do ⌜ (← (⟦Book::PLACES⟧).entry) ≡ places ⌝ }": "ensures all_places { Book.PLACES ≡ places }",
        "ensures* do_value_5 { do ⌜ (← (⟦Book::ROWS⟧).entry) ≡ most_rows ⌝ }": "ensures rows { Book.ROWS ≡ most_rows }",
        "ensures* do_value_6 { do ⌜ (← (⟦Book::TEXT⟧).entry) ≡ most_bytes ⌝ }": "ensures bytes { Book.TEXT ≡ most_bytes }",
        "ensures symbols_value {": "ensures symbols_grown {",
        "ensures lengths_value {": "ensures lengths_grown {",
    },
    "crates/leaf_totals/src/lib.rt": {"ensures value {": "ensures is_empty {", "ensures value_2 {": "ensures profiles {"},
    "crates/lister/src/main.rt": {"ensures upper_bound {": "ensures within {", "ensures lister_answer {": "ensures answers {"},
    "crates/summer/src/main.rt": {"ensures upper_bound {": "ensures within {", "ensures summer_answer {": "ensures answers {"},
    "crates/reader/src/lib.rt": {
        "ensures value {": "ensures judges {",
        "ensures map_value {": "ensures marks {",
        "ensures symbols_value {": "ensures symbols_grown {",
        "ensures lengths_value {": "ensures lengths_grown {",
    },
    "crates/shown/src/lib.rt": {"ensures held_len_bound {": "ensures bounded {", "ensures sums_len_bound {": "ensures bounded {"},
    "crates/widen/src/lib.rt": {"ensures fact_1 {": "ensures answer {", "ensures fact_2 {": "ensures live_left {", "ensures fact_3 {": "ensures out_left {"},
    "crates/walk/src/lib.rt": {"requires text_len {": "requires room {"},
    "crates/words/src/lib.rt": {
        "ensures value {": "ensures all_empty {",
        "ensures value_2 {": "ensures words {",
        "ensures words_value {": "ensures each {",
        "ensures words_value_2 {": "ensures as_sets {",
    },
    "crates/build/src/lib.rt": {
        "requires fact_1 { (n ≤": "requires room { (n ≤",
        "requires fact_2 { Rising": "requires rising { Rising",
        "requires fact_4 { Rising": "requires rising { Rising",
        "requires fact_1 { Descends": "requires descends { Descends",
        "requires fact_2 { byte": "requires is_byte { byte",
        "requires fact_1 { Within": "requires within { Within",
        "requires fact_2 { RowsUsed": "requires used { RowsUsed",
        "requires fact_3 { f < n": "requires falls_in { f < n",
        "requires fact_3 { via < n": "requires via_in { via < n",
        "requires fact_3 { s < n": "requires row_in { s < n",
        "requires fact_3 { length row": "requires row_long { length row",
        "requires fact_4 { ((c": "requires via_in { ((c",
        "requires fact_2 { InHand": "requires in_hand { InHand",
        "requires fact_2 { Sane": "requires sane { Sane",
        "requires fact_3 { Chains": "requires chains { Chains",
        "requires fact_4 { Chains": "requires chains { Chains",
        "requires fact_5 { Chains": "requires chains { Chains",
        "ensures fact_1 {": "ensures course {",
        "ensures fact_2 {": "ensures chains {",
    },
}
DEFINITIONS = {
    "crates/lent/specs/Lent.antt": [
        (
            "abbrev pub given : {A B C D E : Type 0} → Both (Bor (List ℕ)) A → Both (Bor (List ℕ)) B → Both (Bor (List ℕ)) C → Both (Bor (List ℕ)) D → Both (Bor (List ℕ)) E\n    → Five\ngiven goto fall held live out = five (was goto) (was fall) (was held) (was live) (was out)",
            "abbrev pub given : List ℕ → List ℕ → List ℕ → List ℕ → List ℕ → Five\ngiven goto fall held live out = five goto fall held live out",
        ),
        (
            "abbrev pub returned : {A B C D E : Type 0} → Both A (Bor (List ℕ)) → Both B (Bor (List ℕ)) → Both C (Bor (List ℕ)) → Both D (Bor (List ℕ)) → Both E (Bor (List ℕ))\n    → Five\nreturned goto fall held live out = five (left goto) (left fall) (left held) (left live) (left out)",
            "abbrev pub returned : List ℕ → List ℕ → List ℕ → List ℕ → List ℕ → Five\nreturned goto fall held live out = five goto fall held live out",
        ),
    ],
    "crates/tally/specs/Tally.antt": [
        (
            "abbrev pub moves_over : {X Y : Type 0} → Both (Bor (List ℕ)) X → Both (Bor (List ℕ)) Y → ℕ → ℕ → ℕ → Moved\nmoves_over goto fall n = move_of (was goto) (was fall) n",
            "abbrev pub moves_over : List ℕ → List ℕ → ℕ → ℕ → ℕ → Moved\nmoves_over goto fall n = move_of goto fall n",
        ),
    ],
    "crates/moments/specs/Moments.antt": [
        ("abbrev pub left : {A E : Type 0} → Both E (Bor A) → A", "abbrev pub left : {A E : Type 0} → Both E (MutBor A) → A"),
        ("use Rattle.std.specs.Borrow.{Bor}", "use Rattle.std.specs.Borrow.{Bor, MutBor}"),
    ],
}
UNUSED = ("use Rattle.std.specs.Borrow.{Bor}\n", "use denote.Triple.Both.{Both}\n", "use Rattle.moments.specs.Moments.{was, left}\n", "use Rattle.moments.specs.Moments.{was}\n")


def moments(text):
    """`was x` and `left x` of each function's clauses as `x.now` at a `&`, `x.old` and `x.new` at a `&mut`."""
    pieces = re.split(r"(?m)^( *(?:pub )?(?:extern \"C\" )?fn )", text)
    out = [pieces[0]]
    for head, piece in zip(pieces[1::2], pieces[2::2]):
        lines, clauses = piece.split("\n"), []
        end = next((i for i, l in enumerate(lines) if l.rstrip().endswith("{") or l.strip().endswith("}") and " { " in l and not re.match(r"\s+(ensures|requires)", l) and ")" in l), 0)
        top, body = "\n".join(lines[: end + 1]), lines[end + 1 :]
        mutable = dict((m.group(1), bool(m.group(2))) for m in re.finditer(r"(\w+): &(mut )?", top))

        def at_entry(name):
            return f"{name}.{'old' if mutable[name] else 'now'}"

        def five(word, at, names):
            return " ".join([word] + [at(n) for n in names.split()])

        top = re.sub(r"\b(given) ((?:\w+ ){4}\w+)", lambda m: five(m.group(1), at_entry, m.group(2)), top)
        top = re.sub(r"\b(returned) ((?:\w+ ){4}\w+)", lambda m: five(m.group(1), lambda n: n + ".new", m.group(2)), top)
        top = re.sub(r"\b(moves_over) (\w+ \w+)", lambda m: five(m.group(1), at_entry, m.group(2)), top)
        for word, at in (("was", at_entry), ("left", lambda n: n + ".new")):
            known = "|".join(map(re.escape, mutable)) or "-"
            top = re.sub(rf"\({word} ({known})\)", lambda m: at(m.group(1)), top)
            top = re.sub(rf"\b{word} ({known})\b(?!:)", lambda m: at(m.group(1)), top)
        out += [head, "\n".join([top] + body)]
    text = "".join(out)
    return re.sub(r"(?m)^ghost use Rattle\.moments\.specs\.Moments\.\{[^}]*\};\n", "", text)


def contracts():
    for path in sorted(glob.glob("crates/*/src/**/*.rt", recursive=True)) + list(DEFINITIONS):
        with open(path, encoding="utf-8") as f:
            text = f.read()
        new = text
        if path.endswith(".rt"):
            new = moments(new)
        home = re.sub(r"/src/.*", "/src/" + ("main.rt" if path.endswith("main.rt") else "lib.rt"), path)
        for old, label in LABELS.get(home, {}).items():
            new = new.replace(old, label)
        for old, definition in DEFINITIONS.get(path, []):
            new = new.replace(old, definition)
        if path in DEFINITIONS and "moments" not in path:
            for line in UNUSED:
                new = new.replace(line, "")
        if new != text:
            with open(path, "w", encoding="utf-8") as f:
                f.write(new)


def tactics():
    """The line that asks the check to try its tactics, above the first item of each crate."""
    for path in sorted(glob.glob("crates/*/src/lib.rt") + glob.glob("crates/*/src/main.rt")):
        with open(path, encoding="utf-8") as f:
            lines = f.read().split("\n")
        if "#![tactic(auto)]" in lines:
            continue
        i = next(i for i, l in enumerate(lines) if not l.startswith("//"))
        lines[i:i] = ["#![tactic(auto)]"] + ([""] if i < len(lines) and lines[i] else [])
        with open(path, "w", encoding="utf-8") as f:
            f.write("\n".join(lines))


main()
if "--dry" not in sys.argv:
    contracts()
    tactics()
