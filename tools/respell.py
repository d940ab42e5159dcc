#!/usr/bin/env python3
"""Brings the definitions and lemmas of this repository to the spelling of today's Rattle.

    python3 tools/respell.py

Run once at the top of the repository as the older Rattle left it, behind the kit's port/port.py, which respells what it knows; later it
refuses, since the names of answers in proofs/ are Rattle's own. Names of specs/ and proofs/ that have a dash between two of their parts, or
a capital behind a small letter, become snake case: `all-at` and `allAt` are `all_at`. Types, records and modules keep theirs, and so do
names that Rattle makes, that the library has, or that src/ has.

A name is changed where it stands as a word of its own: in specs/ and proofs/; in clauses and `ghost use` lines of src/; in the text of
must-fail edits; between backticks in Markdown files; and in comments where it is the first word of a line of a file's table of names or
stands between backticks. The script prints each file in which two names would fall together, and then changes nothing.
"""
import collections
import glob
import re
import sys

WORD = r"[^\s(){}\[\];,.:\"«»]+"
TO_CHANGE = re.compile(r"[^\W_]-[^\W_]|^[a-z][^-]*[a-z0-9][A-Z]")
# Lemmas that would have the name of a function: the library's ending for them is `_lem`. And a field whose type names the function.
LEMMAS = (
    "allowed-glass allowed-pane allowed-wind column-of glass-at glass-count glass-of no-trailer numbers-from numbers-read pane-at "
    "pane-count parts-job written-digits written-line written-number written-numbers written-part written-trailer"
).split()
OTHERWISE = {**{lemma: lemma.replace("-", "_") + "_lem" for lemma in LEMMAS}, "in-proportion": "each_in_proportion"}
# Names that may fall together within a file: a field, behind a dot, and a local variable or a definition.
APART = {"any_position", "near_edges", "glass_count", "pane_count", "glass_ids", "pane_ids", "is_digit", "glass_at", "pane_at"}
# Names that Rattle makes and asks for, and no name of ours.
MADE = {"invariant-loop", "decreases-loop", "invariant-loop2", "decreases-loop2"}


def files(pattern):
    return sorted(glob.glob(pattern, recursive=True))


def antt_files():
    return files("crates/*/specs/**/*.antt") + files("crates/*/proofs/**/*.antt")


def spelled(word):
    """The name in snake case."""
    if word in OTHERWISE:
        return OTHERWISE[word]
    word = re.sub(r"([a-z0-9])([A-Z])", lambda m: m.group(1) + "_" + m.group(2).lower(), word)
    return re.sub(r"(?<=[^\W_])-(?=[^\W_])", "_", word).lower() if not word[0].isupper() else word


def bare(text):
    """The text of an .antt file with no imports and no comments."""
    text = re.sub(r"^(?:pub )?use .*$", "", text, flags=re.M)
    return re.sub(r"--.*$", "", text, flags=re.M)


def foreign_names(text):
    """What a file imports from elsewhere than this repository."""
    names = set()
    for module, items in re.findall(r"^(?:pub )?use ([^\s{;]+?)\.\{([^}]*)\}", text, re.M):
        if not module.startswith("Rattle.") or module.startswith("Rattle.std"):
            names |= {item.strip() for item in items.split(",")}
    return names


def own_names():
    """Each name of ours that has to change, with its new spelling."""
    declared, foreign, used = set(), set(), set()
    for path in antt_files():
        text = open(path, encoding="utf-8").read()
        foreign |= foreign_names(text)
        head = r"^\s*(?:abbrev\s+|unfoldable\s+|pub\s+)*(" + WORD + r")\s*(?:\{[^}]*\}\s*|\([^)]*\)\s*)*:(?=\s)"
        declared |= set(re.findall(head, bare(text), re.M))
        used |= {word for dot, word in re.findall(r"(\.?)(" + WORD + ")", bare(text)) if not dot}
    names = {w for w in declared | used if TO_CHANGE.search(w) and w not in foreign and w not in MADE}
    return {w: spelled(w) for w in names if spelled(w) != w}


def change(text, names):
    return re.sub(WORD, lambda m: names.get(m.group(0), m.group(0)), text)


def change_quoted(text, names):
    return re.sub(r"`[^`\n]+`", lambda m: change(m.group(0)[:-1].replace("`", "` "), names).replace("` ", "`") + "`", text)


def change_comment(text, names):
    """A comment: names between backticks, and the first words of a line of a table of names."""
    table = re.match(r"(--\s{3,})((?:" + WORD + r", )*" + WORD + r")(\s{2,}.*)$", text)
    if table:
        text = table.group(1) + change(table.group(2), names) + table.group(3)
    return change_quoted(text, names)


def change_antt(text, names):
    lines = []
    for line in text.split("\n"):
        at = re.search(r"(?:^|\s)--(?:\s|$)", line)
        at = len(line) if not at else at.start()
        lines.append(change(line[:at], names) + change_line_comment(line[at:], names))
    return "\n".join(lines)


def change_line_comment(text, names):
    lead = text[: len(text) - len(text.lstrip())]
    return lead + change_comment(text.lstrip(), names)


def change_rt(text, names):
    lines = []
    for line in text.split("\n"):
        code, slashes, comment = line.partition("//")
        lines.append(change(code, names) + slashes + change_quoted(comment, names))
    return "\n".join(lines)


def fallen_together(path, text, names):
    """The pairs of names of a file that would be one."""
    words = set(re.findall(WORD, bare(text)))
    by_new = collections.defaultdict(set)
    for word in words:
        by_new[names.get(word, word)].add(word)
    return [(path, new, sorted(old)) for new, old in by_new.items() if len(old) > 1 and new not in APART]


def main():
    if files("crates/*/proofs/**/Invariants.antt"):
        sys.exit("the repository has been moved: its proofs have today's form")
    names = own_names()
    clashes = []
    for path in antt_files():
        clashes += fallen_together(path, open(path, encoding="utf-8").read(), names)
    if clashes:
        for path, new, old in clashes:
            print(f"{path}: {', '.join(old)} would all be {new}")
        sys.exit(1)
    kinds = [(antt_files(), change_antt), (files("crates/*/src/**/*.rt"), change_rt)]
    kinds += [(files("crates/*/must-fail/*.edit"), change_edit), (files("*.md") + files("docs/**/*.md"), change_quoted)]
    changed = 0
    for paths, how in kinds:
        for path in paths:
            text = open(path, encoding="utf-8").read()
            new = how(text, names)
            if new != text:
                open(path, "w", encoding="utf-8").write(new)
                changed += 1
    print(f"{len(names)} names, {changed} files changed")


def change_edit(text, names):
    """A must-fail edit: only the texts that it takes out and puts in."""
    return "\n".join(change(l, names) if l.startswith(("old:", "new:")) else l for l in text.split("\n"))


if __name__ == "__main__":
    main()
