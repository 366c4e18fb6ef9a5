"""What a check of edits need not prove. A proof goes by the contracts of other functions and by what lemmas say, and sees into no
body or proof of these. So a copy of a crate leaves those out, for a check that takes what is open as it is stated."""

import os
import re
import textwrap

from edits import CONSTANT, FUNCTION, TRAIT, body_of, function_of, head_of, proof_of, proofs_of, texts_of

# The proof of a function, left open.
PROOF = "use Rattle.{}.proofs.{}.Statement.{{statement}}\n\npub {name}_spec : {{M : Type 1}} → statement M\n{name}_spec = ?\n"
# Where a declaration in a file of proofs begins, or one of the lines that define what it states.
BEGINS = re.compile(r"^(?=[^\s)\]}-])", re.M)
# A declaration into which nothing sees, unless what unfolds names it: its name stands first.
STATES = re.compile(r"(?:pub(?:\([^)]*\))? )?([^\s:]+)\s+:\s")
WORD = re.compile(r"\w+")
MODULE = re.compile(r"module (?:.*\n)*?.* where\n")
INSIDE = re.compile(r"^  ", re.M)
UNFOLDS = re.compile(r"\bunfolding[ (]([^)\n]*)")
# What drops a value, compares, copies or shows it, for its type.
MADE = re.compile(r"\+Destruct/drop$|(?:PartialEq/eq|Clone/clone|Debug/fmt)$")
OF_FUNCTIONS = ("Invariants.antt", "Answers.antt", "Proof.antt")
# What stands in place of a body, of any type.
NO_BODY = "{{\n{0}    unreachable!()\n{0}}}"


def leave_open(edits, folder, made):
    """Leaves open, in the copy of a crate, the proof of each lemma, and of each function that those call which a check of these edits
    is to look at: of its sources, whose bodies it leaves out, and of what is made of its types, as the folders of proofs `made` tell."""
    crate, texts = edits[0].crate, texts_of(folder)
    asked = {it for edit in edits for it in (*proofs_of(edit, texts), *(proof_of(one, texts) for one in edit.functions))}
    # A cycle of calls has one proof.
    asked |= {it.replace("/+", "/") for it in made if "/+" in it}
    for file, text in texts.items():
        write(f"{folder}/{file}", without_bodies(file, text, lambda function: proof_of(function, texts) in asked))
    written, called = functions_apart(texts, asked)
    for at in written.union(it for it in made if MADE.search(it)) - asked:
        *path, name = at.split("/")[1:]
        for it in OF_FUNCTIONS:
            if os.path.isfile(f"{folder}/{at}/{it}"):
                os.remove(f"{folder}/{at}/{it}")
        if at in called or at not in written:
            os.makedirs(f"{folder}/{at}", exist_ok=True)
            write(f"{folder}/{at}/Proof.antt", PROOF.format(crate, ".".join([*path, name]), name=name))
    files = [f"{at}/{it}" for at, _, names in os.walk(f"{folder}/proofs") for it in names if it.endswith(".antt")]
    written = {it: open(it, encoding="utf-8").read() for it in files}
    names = " ".join(it for text in (*texts.values(), *written.values()) for it in UNFOLDS.findall(text))
    seen = set(re.split(r"[\s,]+|::", names))
    for it in (it for it in files if os.path.basename(it) not in OF_FUNCTIONS):
        write(it, lemmas_open(written[it], seen))


def functions_apart(texts, asked):
    """Returns the proofs' folders of all functions, and of those that the ones to look at may call: what their texts name, and
    all that are a trait's, which operators, loops and drops call too."""
    found, words = {}, set()
    for file, text in texts.items():
        for it in FUNCTION.finditer(text):
            head, body = head_of(text, it), body_of(text, it)
            if not TRAIT.match(head):
                function = function_of(file, text, it)
                found[proof_of(function, texts)] = None if " for " in head else function[2]
                if body and proof_of(function, texts) in asked:
                    words.update(WORD.findall(text[it.start() : body[1]]))
    return set(found), {at for at, name in found.items() if name is None or name in words}


def without_bodies(file, text, is_kept):
    """Returns the text of a file with no body of a function but those to be kept, of constants' and of traits' own."""
    parts, at = [], 0
    for it in FUNCTION.finditer(text):
        head, body = head_of(text, it), body_of(text, it)
        if body and not TRAIT.match(head) and not CONSTANT.search(it[0]) and not is_kept(function_of(file, text, it)):
            parts += [text[at : body[0]], NO_BODY.format(it[1])]
            at = body[1]
    return "".join([*parts, text[at:]])


def lemmas_open(text, seen):
    """Returns a file of proofs, or a module in one, with each lemma in it left open, but those that are seen into."""
    parts, name = [], None
    for part in BEGINS.split(text):
        word = part.partition(" ")[0]
        if match := STATES.match(part):
            name = match[1] if match[1] not in seen else None
        elif name and word == name:
            part = f"{name} = ?\n\n" * (parts[-1] != f"{name} = ?\n\n")
        elif word != "unfolding":
            name = None
        if match := MODULE.match(part):
            part = match[0] + textwrap.indent(lemmas_open(INSIDE.sub("", part[match.end() :]), seen), "  ")
        parts += [part] * bool(part)
    return "".join(parts)


def write(path, text):
    with open(path, "w", encoding="utf-8") as file:
        file.write(text)
