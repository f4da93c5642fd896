#!/usr/bin/env python3
"""Brings the repository's own words to snake case: definitions, fields and lemmas of specs/ and proofs/.

    python3 tools/snake_names.py          at the top, after port.py
    python3 tools/snake_names.py --list   only prints old and new names

An old word has capitals inside, or hyphens. With capitals it is the repository's, since the library has no such words; with hyphens where a file of specs/ or
proofs/ declares it, at the left edge or further in. A word that a file takes from another library keeps its spelling there. Functions of src/, goals (the check
makes their names), strings and types keep theirs. Two words of one crate that would become one stop the script.
"""
import collections
import os
import re
import sys

WORD = r"[a-z][A-Za-z0-9_']*(?:-[A-Za-z0-9_']+)*"
TOKEN = re.compile(r'"(?:[^"\\\n]|\\.)*"|(?<![\w\'\u25cc-])' + WORD + r"(?![\w'\u25cc-])")
DECLARED = re.compile(r"^ *(?:abbrev |unfoldable |opaque |instance |pub )*((?:" + WORD + r" +)+):(?!:)")
CAPITALS = re.compile(r"(?<![\w'\u25cc-])[a-z][a-z0-9]*(?:[A-Z][a-z0-9]*)+(?![\w'\u25cc-])")
USE = re.compile(r"^(?:ghost |pub )*use ((?:[\w·.'-]+?)(?:\.\{[^}]*\}| as [\w']+)?)[;]?\s*$", re.M)


# Words that would fall together with another of their crate: laws get another name, and the definition `someHolds` gives way to a law.
APART = {
    "any-error": "any_error_same",
    "bad-records": "bad_records_same",
    "close-done": "close_done_same",
    "first-number": "first_number_same",
    "is-zero": "words_zero",
    "nop-done": "nop_done_same",
    "someHolds": "any_holds",
}


def respelt(word):
    return APART.get(word) or re.sub(r"(?<=[a-z0-9'])([A-Z])", lambda m: "_" + m.group(1), word).replace("-", "_").lower()


def is_old(word):
    return "-" in word or re.search("[A-Z]", word) is not None


def files(root):
    for crate in sorted(os.listdir(os.path.join(root, "crates"))):
        for kind in ("specs", "proofs", "src", "must-fail"):
            for folder, dirs, names in os.walk(os.path.join(root, "crates", crate, kind)):
                dirs.sort()
                for name in sorted(names):
                    if name.endswith((".antt", ".rt", ".edit")):
                        yield crate, kind, os.path.join(folder, name)


def read(path):
    with open(path, encoding="utf-8") as it:
        return it.read()


def write(path, text):
    with open(path, "w", encoding="utf-8") as it:
        it.write(text)


def is_answer_file(path):
    return "/proofs/" in path and os.path.basename(path) in ("Answers.antt", "Invariants.antt", "Proof.antt")


def declared(text):
    for line in text.split("\n"):
        m = DECLARED.match(line)
        if m:
            yield from m.group(1).split()
    yield from CAPITALS.findall(text)


def taken_elsewhere(text, own_crates):
    """The words that a file's use lines take from a library that is not of this repository."""
    words = set()
    for m in USE.finditer(text):
        path = m.group(1)
        crate = re.match(r"Rattle[.·](\w+)", path)
        if crate and crate.group(1) in own_crates:
            continue
        inside = re.search(r"\{([^}]*)\}", path)
        if inside:
            words |= {w.split(" as ")[-1].strip() for w in inside.group(1).split(",")}
    return words


def main():
    root = os.getcwd()
    all_files = list(files(root))
    own_crates = {c for c, _, _ in all_files}
    own = collections.defaultdict(set)
    for crate, kind, path in all_files:
        if path.endswith(".antt") and not is_answer_file(path):
            for word in declared(read(path)):
                own[word].add(crate)
    new = {w: respelt(w) for w in own if is_old(w)}
    for crate in sorted(own_crates):
        came = collections.defaultdict(list)
        for word in sorted(w for w in own if crate in own[w]):
            came[new.get(word, word)].append(word)
        for other, words in sorted(came.items()):
            if len(words) > 1:
                sys.exit(f"snake_names: in {crate} {' and '.join(words)} would become {other}")
    if "--list" in sys.argv:
        for word, other in sorted(new.items()):
            print(f"{word} {other}")
        return
    changed = 0
    for crate, kind, path in all_files:
        text = read(path)
        kept = taken_elsewhere(text, own_crates)

        def turn(m):
            word = m.group(0)
            return word if word.startswith('"') or word in kept else new.get(word, word)

        turned = TOKEN.sub(turn, text)
        if turned != text:
            write(path, turned)
            changed += 1
    print(f"snake_names: {len(new)} words, {changed} files")


main()
