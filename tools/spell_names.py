#!/usr/bin/env python3
"""Turns the names that the repository gives its own definitions and lemmas to the spelling of today's Rattle: words in snake case.

usage: python3 tools/spell_names.py     at the top, on what port.py left

port.py turns the library's names, and of the repository's own only those that the library has as well. Here `rangeOf` becomes `range_of`, and
`any-cut` becomes `any_cut`, wherever they stand: in specs/, proofs/, the clauses of src/, must-fail edits, and between backquotes in README.md and docs/.
A lemma that would get the name of a definition beside it gets `_lem` behind it, as the library's style has it. Names of functions in src/, of types,
modules and whatever Rattle makes stay, and so does what stands in a string.
It stops where two names would become one.
"""
import collections
import glob
import re
import sys

WORD = re.compile(r"(?<!\w)[^\W\d_][\w'₀-₉⁺⁻-]*")
SIGNATURE = re.compile(r"(?m)^\s*(?:(?:abbrev|unfoldable|pub) )*([^\W\d_][\w'₀-₉⁺⁻-]*)(?: \{[^}]*\}| \([^)]*\))* :(?!=)(.*)$")
STRING = re.compile(r'b?"(?:[^"\\\n]|\\.)*"')
# a definition of the same name stands in the same scope
BESIDE = {
    "all-from", "checksum-from", "claimed-head", "clock-back", "convert-bytes", "here-of", "little-bytes", "new-lock", "observation-at", "observed-as",
    "rows-up-to", "time-at", "with-field",
}
# the same of a name that in other files is the only one; `offset_at` is what port.py made of `offset-at`
PROMISES = "crates/promises/proofs/"
BESIDE_IN = {PROMISES + "FinishAgain.antt": {"at-end"}} | {PROMISES + name + ".antt": {"offset_at"} for name in ("Assembled", "Messages", "ReadWrite")}
# these take a name that another has in a scope of its own
APART = {"adr-deviation", "at-end", "exponent-of", "fed-as", "range-deviation", "sync-of"}
# port.py turned these in all files but the edits, since the library has them
TURNED = {"getD": "get_or", "natAbs": "nat_abs"}
# words of what the programs print
PRINTED = {"clock-back", "new-lock"}


def snake(name):
    """The name in snake case; a part that begins with a capital is a type's name or a letter's, and keeps it."""
    parts = []
    for part in re.split("[-_]", name):
        if part[:1].islower():
            part = re.sub(r"([a-z0-9'])([A-Z])", r"\1_\2", part)
            part = re.sub(r"([A-Z])([A-Z][a-z])", r"\1_\2", part).lower()
        parts.append(part)
    return "_".join(parts) + ("_lem" if name in BESIDE else "")


def read(path):
    with open(path, encoding="utf-8") as file:
        return file.read()


def files():
    for pattern in ("specs/**/*.antt", "proofs/**/*.antt", "src/*.rt", "must-fail/*.edit"):
        yield from sorted(glob.glob(f"crates/*/{pattern}", recursive=True))


def turned_words(text, turn):
    """The text with each word turned, but in strings."""
    out, at = [], 0
    for string in STRING.finditer(text):
        out += [WORD.sub(lambda m: turn(m[0]), text[at : string.start()]), string[0]]
        at = string.end()
    return "".join(out + [WORD.sub(lambda m: turn(m[0]), text[at:])])


def turned_edit(text, turn):
    """An edit's lines that hold text of a file, or name a law; what it says in prose stays."""
    lines = [turned_words(line, turn) if re.match(r"(old|new|breaks): ", line) else line for line in text.split("\n")]
    return "\n".join(lines)


def main():
    texts = {path: read(path) for path in files()}
    used = collections.Counter(word for text in texts.values() for word in WORD.findall(text))
    # in the folder of a function, what Rattle makes is stated by a module of goals, in older proofs by a `tie` or a `statement`
    declared = {
        name
        for path, text in texts.items()
        if path.endswith(".antt")
        for name, rest in SIGNATURE.findall(text)
        if path.count("/") == 3 or not re.search(r"\b(goal|tie)\.|\bstatement\b", rest)
    }
    camel = {word for word in used if word[0].islower() and re.search(r"[a-z0-9][A-Z]", word)}
    turn = {name: snake(name) for name in declared | camel if snake(name) != name and not name.endswith("-")} | TURNED
    turn |= {name: snake(name) for name in BESIDE if name in used}
    became = collections.defaultdict(set)
    for name, to in turn.items():
        became[to].add(name)
    together = {to: names for to, names in became.items() if len(names - APART) > 1}
    if together:
        sys.exit(f"these would become one: {together}")
    for path, text in texts.items():
        here = turn | {name: snake(name) + "_lem" for name in BESIDE_IN.get(path, ())}
        new = (turned_edit if path.endswith(".edit") else turned_words)(text, lambda word: here.get(word, word))
        if new != text:
            with open(path, "w", encoding="utf-8") as file:
                file.write(new)
    names = set(turn.values()) | declared

    def cited(word):
        return snake(word) if word not in PRINTED and snake(word) in names and snake(word) != word else word

    for path in ["README.md"] + sorted(glob.glob("docs/**/*.md", recursive=True)):
        text = read(path)
        new = re.sub(r"`[^`\n]*`", lambda m: WORD.sub(lambda word: cited(word[0]), m[0]), text)
        if new != text:
            with open(path, "w", encoding="utf-8") as file:
                file.write(new)
    print(f"{len(turn)} names turned")


main()
