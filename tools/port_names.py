#!/usr/bin/env python3
"""Names of this repository in the spelling of the Rattle to which it was brought.

usage: tools/port_names.py before    at the top, ahead of the kit's port.py
       tools/port_names.py after     at the top, right after it

before: port.py takes `state_of`, a function of crate host_record that two proofs cite, for a name that only a tree in today's spelling can have, and then
leaves out the steps for older spellings. So the word is hidden from it; `after` writes it again.

after: definitions, lemmas, fields and constructors of specs/ and proofs/, and what they bind, are in snake case (`words-from` is `words_from`), and the proof of
a Rattle function f is `f_spec`. Names of src/, of the library and those that the check makes keep their spelling, and so do comments. In must-fail edits the
texts are respelled likewise. It stops, with nothing written, where two names would fall together.
"""
import os
import re
import sys

HIDDEN = ("state_of", "stateof")
CITED = [
    "crates/linguastel/proofs/linguastel_unguarded_call/Proof.antt",
    "crates/linguastel_table/proofs/linguastel_unguarded_table/Proof.antt",
]

# A name with a dash between letters or digits: `words-from`, `in-b`, `at₀-is`.
DASHED = re.compile(r"#?[^\W\d_][\w'ᴰ₀-₉]*(?:-[\w'ᴰ₀-₉]+)+")
# What a text is cut into: comments, strings, quoted names, and words up to the characters that no name has.
CUT = re.compile(r"(--[^\n]*|//[^\n]*|\"[^\"\n]*\"|«[^»]*»|[\s(){};,\"|λ]+|\.)")
USE = re.compile(r"^[ \t]*(?:pub )?(?:ghost )?use ([^\s;{]+?)(?:\.\{([^}]*)\})?(?: as \S+?)?;?[ \t]*$", re.M)
DECLARED = re.compile(r"^[ \t]*(?:(?:abbrev|unfoldable|pub|infixl?r?) )*([^\s:(){}]+)(?: (?:\{[^}]*\}|\([^)]*\)))* :(?: |$)", re.M)
# What the check makes and a proof cites: a proof's own needs stand in the module `tie`, whose words are read after a dot alone.
MADE = re.compile(r"^(?:Need|After)-")


def files(root, *endings):
    for folder, folders, names in os.walk(root):
        folders[:] = sorted(f for f in folders if f not in ("out", ".git"))
        for name in sorted(names):
            if name.endswith(endings):
                yield os.path.join(folder, name)


def read(path):
    with open(path, encoding="utf-8") as f:
        return f.read()


def write(path, text):
    with open(path, "w", encoding="utf-8") as f:
        f.write(text)


def is_own(path):
    """Whether a module is this repository's, and none that the check makes of a function."""
    parts = path.split(".")
    return parts[0] == "Rattle" and len(parts) > 2 and os.path.isdir(os.path.join("crates", parts[1]))


def imported(text, own):
    """The names that a text takes from modules of this repository, or from others, as they are called there."""
    found = set()
    for path, names in USE.findall(text):
        if is_own(path) == own:
            for name in names.split(","):
                found.update(name.split()[:1])
    return found


def words(text):
    """The pieces of a text, each with whether it is a word, and whether it stands behind a dot."""
    behind = False
    for piece in CUT.split(text):
        if not piece:
            continue
        plain = not CUT.fullmatch(piece)
        yield piece, plain, behind
        behind = piece == "."


def declared(path):
    text = re.sub(r"--[^\n]*", "", read(path))
    return {name for name in DECLARED.findall(text) if DASHED.fullmatch(name)}


def snake(name):
    return name.replace("-", "_")


def is_proof(path):
    return os.path.basename(path) == "Proof.antt"


def respelled(path, text, own):
    """The text with its names respelled. Behind a dot stand fields and members: of these only the repository's own are turned."""
    foreign = imported(text, own=False)
    out = []
    local = declared(path) if is_proof(path) else set()
    for piece, plain, behind in words(text):
        turn = plain and DASHED.fullmatch(piece) and piece not in foreign and not MADE.match(piece)
        if turn and (behind or is_proof(path) or path.endswith((".rt", ".edit"))):
            turn = piece in own and piece not in local
        out.append(snake(piece) if turn else piece)
    return "".join(out)


def fallen_together(path, old, new):
    """Two names of one text that have become one, but for a name that both spellings of the port had."""
    before = {piece for piece, plain, _ in words(old) if plain}
    after = {}
    for piece in before:
        if DASHED.fullmatch(piece) and piece not in {p for p, plain, _ in words(new) if plain}:
            after.setdefault(snake(piece), set()).add(piece)
    return [(path, name, pieces) for name, pieces in after.items() if len(pieces) > 1 or name in before]


def respell_all():
    texts = [p for p in files("crates", ".antt") if "/must-fail/" not in p]
    own = set()
    for path in texts:
        if not is_proof(path):
            own |= declared(path)
    changed, together = {}, []
    for path in texts + list(files("crates", ".rt", ".edit")):
        old = read(path)
        new = respelled(path, old, own)
        if is_proof(path):
            name = os.path.basename(os.path.dirname(path)).lstrip("+")
            new = re.sub(r"^(pub )?[\w-]+[-_]spec( :| =)", lambda m: f"{m[1] or ''}{name}_spec{m[2]}", new, flags=re.M)
        if new != old:
            changed[path] = new
        if path.endswith(".antt"):
            together += fallen_together(path, old, new)
    # A definition may have the name of the function whose folder of proofs a path names.
    together = [it for it in together if not (is_proof(it[0]) and len(it[2]) == 1)]
    for path, name, pieces in together:
        print(f"fall together: {path}: {name}: {', '.join(sorted(pieces))}")
    if together:
        return 1
    for path, text in changed.items():
        write(path, text)
    print(f"{len(own)} names, {len(changed)} files")
    return 0


def main(argv):
    if argv == ["before"]:
        for path in CITED:
            write(path, read(path).replace(*HIDDEN))
        return 0
    if argv[:1] == ["after"]:
        for path in CITED:
            write(path, read(path).replace(*reversed(HIDDEN)))
        return respell_all()
    print(__doc__)
    return 2


if __name__ == "__main__":
    raise SystemExit(main(sys.argv[1:]))
