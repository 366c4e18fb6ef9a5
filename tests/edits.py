"""The edits of `crates/*/wrong`: how they are read, what they change, and which of them one check can try."""

import os
import re
import shutil
from collections import Counter
from dataclasses import dataclass, field, replace

FUNCTION = re.compile(r'^([ \t]*)(?:pub(?:\([\w: ]+\))? )?(?:(?:const|unsafe|extern "C") )*fn (\w+)', re.M)
# The attributes of a function, in the lines above it.
ATTRIBUTES = re.compile(r"(?:^[ \t]*#\[.*\]\n)+\Z", re.M)
OWNER = re.compile(r"^(?:pub )?(?:unsafe )?(?:impl|trait)\b[^\n{]*", re.M)
TRAIT = re.compile(r"(?:pub )?(?:unsafe )?trait\b")
CONSTANT = re.compile(r"\bconst\b")
TYPE = re.compile(r"^(?:pub(?:\([\w: ]+\))? )?(?:struct|enum|union|trait) (\w+)", re.M)
# What no check admits, since it cites what nothing declares: an error of a name, which refuses no edit.
NOWHERE = "\nno-offers : nowhere\nno-offers = nothing\n"
# What an edit may not touch if it is to be one of a body.
STATED = re.compile(r"\b(requires|ensures|ghost|struct|enum|fn|impl|trait|const|use|mod)\b")
# What gives a check goals to name: branches and ends, names that are bound, and calls.
MAKES = re.compile(r"\b(?:if|else|match|while|for|loop|return|let(?: mut)? \w+)\b|\?|=>|\w+!?(?=\()")


@dataclass
class Edit:
    """A wrong body: the texts that it changes, and the functions in which these stand, as files, owners and names. It may be of one
    body and nothing else, or of nothing but the clause that its goal names. And a check may try it on a copy of its function, under
    another name, where the function can have one."""

    crate: str
    name: str
    pairs: list = field(default_factory=list)
    functions: list = field(default_factory=list)
    is_of_a_body: bool = True
    is_of_its_clause: bool = True
    can_have_a_copy: bool = False
    copied: tuple = ()
    judge: str = ""
    goal: str = ""

    def __hash__(self):
        return hash((self.crate, self.name))

    @property
    def label(self):
        return f"{self.crate}/{self.name}"


def read_edit(crate, path):
    """Reads an edit: lines `file: PATH`, and pairs of lines `old: TEXT` and `new: TEXT`. A line `judge: PATH` names the function
    that has to refuse an edit of no body or of a closure, and a line `goal: NAME` the goal of it that has to."""
    edit, file, old = Edit(crate, os.path.basename(path).removesuffix(".edit")), None, None
    for line in open(path, encoding="utf-8").read().split("\n"):
        word, _, text = line.partition(": ")
        if word == "file":
            file = text.strip()
        elif word in ("judge", "goal"):
            setattr(edit, word, text.strip())
        elif word == "old":
            old = text
        elif word in ("new", "new:"):
            edit.pairs.append((file, old, text))
            old = None
    return edit


def fault_of(edit, folder):
    """Returns why the edit cannot be applied, or None."""
    texts = {}
    for file, old, new in edit.pairs:
        if not file or not old:
            return "a line `new:` stands before any `file:` or `old:`"
        if file not in texts:
            if not os.path.isfile(f"{folder}/{file}"):
                return f"there is no file {file}"
            texts[file] = open(f"{folder}/{file}", encoding="utf-8").read()
        if texts[file].count(old) != 1:
            return f"its old text stands in {file} {texts[file].count(old)} times, and not once"
        texts[file] = texts[file].replace(old, new)
    return None if edit.pairs else "it has no pair of lines `old:` and `new:`"


def may_make_goals(edit):
    """Whether an edit's texts tell that it may make the goal which refuses it: it brings what a check names goals by, and names none."""
    return not edit.goal and any(Counter(MAKES.findall(new)) - Counter(MAKES.findall(old)) for file, old, new in edit.pairs if file.startswith("src/"))


def in_one_check(edits):
    """Returns these edits as one check tries them: of those of one body the first stays with its function, and others have a copy each."""
    tried, seen = [], Counter()
    for edit in edits:
        if edit.is_of_a_body:
            [(file, owner, name)] = edit.functions
            seen[file, owner, name] += 1
            if seen[file, owner, name] > 1:
                other = (file, owner, f"{name}_{seen[file, owner, name]}")
                edit = replace(edit, functions=[other], copied=(file, owner, name))
        tried.append(edit)
    return tried


def apply_all(edits, folder):
    """Applies edits, as one check tries them, to the copy of a crate: those of copied functions first, which stand below these."""
    texts = texts_of(folder)
    for edit in sorted(edits, key=lambda it: not it.copied):
        if edit.copied:
            copy_proof(proof_of(edit.copied, texts), proof_of(edit.functions[0], texts), folder)
        for file in {it[0] for it in edit.pairs}:
            text = open(f"{folder}/{file}", encoding="utf-8").read()
            os.remove(f"{folder}/{file}")  # (it may be a link)
            with open(f"{folder}/{file}", "w", encoding="utf-8") as it:
                it.write(with_a_copy(text, edit) if edit.copied else changed(text, file, edit))


def changed(text, file, edit):
    for _, old, new in (it for it in edit.pairs if it[0] == file):
        text = text.replace(old, new, 1)
    return text


def with_a_copy(text, edit):
    """Returns the text of a file with a copy of the edit's function, which the edit changes, below that. It has the same attributes, which
    may name what its proof needs."""
    [file, _, name] = edit.copied
    function = next(it for it in FUNCTION.finditer(text) if function_of(file, text, it) == edit.copied)
    attributes, end = ATTRIBUTES.search(text, 0, function.start()), body_of(text, function)[1]
    begin = attributes.start() if attributes else function.start()
    head = re.compile(rf"\bfn {name}\b")
    return f"{text[:end]}\n\n{head.sub(f'fn {edit.functions[0][2]}', changed(text[begin:end], file, edit), 1)}{text[end:]}"


def copy_proof(proof, other, folder):
    """Gives a copy of a function the files of that function's proof, which name what it is a proof of."""
    for name in os.listdir(f"{folder}/{proof}") if os.path.isdir(f"{folder}/{proof}") else ():
        text = open(f"{folder}/{proof}/{name}", encoding="utf-8").read()
        os.makedirs(f"{folder}/{other}", exist_ok=True)
        with open(f"{folder}/{other}/{name}", "w", encoding="utf-8") as it:
            it.write(text.replace(f".{proof.replace('/', '.')}.", f".{other.replace('/', '.')}."))


def owner_of(head):
    """Returns the name by which `rt` tells the methods of an `impl` or a trait: that of the type and then, of the trait and the
    types that it is at, each name but those of parameters. A type that is itself a parameter is `Any`."""
    head = re.sub(r"'\w+|\bwhere\b.*|^(?:pub )?(?:unsafe )?", "", head).strip()
    if not head:
        return ""
    if head.startswith("trait"):
        return re.match(r"trait\s+(\w+)", head)[1]
    generics, head = generics_of(head.removeprefix("impl").strip())
    parameters = re.findall(r"(?:^|,)\s*(?:const )?(\w+)", without_arguments(generics))
    trait, _, kind = head.rpartition(" for ")
    of = re.match(r"(&\s*(?:mut )?)?(.*)", "Array" if kind.startswith("[") else kind)
    kind = "Any" if of[2] in parameters else "Ref" * bool(of[1]) + names_in(of[2], parameters)
    # What drops a value stands with the type's own methods.
    return kind + names_in(trait, ["Drop", *parameters])


def names_in(text, but):
    return "".join(name_of(it) for it in re.findall(r"[\w:]+", text) if it not in but)


def generics_of(text):
    """Parts a text after the `<..>` that it begins with, where it does."""
    depth = 0
    for at, sign in enumerate(text):
        depth += (sign == "<") - (sign == ">")
        if not depth:
            return (text[1:at], text[at + 1 :].strip()) if at else ("", text)
    return "", text


def without_arguments(text):
    while re.search(r"<[^<>]*>", text):
        text = re.sub(r"<[^<>]*>", "", text)
    return text


def name_of(path):
    """Returns the last word of a path, with a capital letter."""
    word = path.rpartition("::")[2]
    return word[:1].upper() + word[1:]


def head_of(text, function):
    """Returns the head of what a function, as `FUNCTION` found it, stands in, or nothing."""
    heads = [it[0] for it in OWNER.finditer(text) if it.start() < function.start()] if function[1] else []
    return heads[-1] if heads else ""


def body_of(text, function):
    """Returns where the body of a function, as `FUNCTION` found it, begins and ends with its braces, or None where it has no lines of
    its own. Only its head's lines, before that brace, stand as far to the left as the first."""
    indent = function[1]
    for it in re.compile(rf"^{indent}(?!\s)(.*)$", re.M).finditer(text, function.start()):
        if it[1].endswith("{"):
            return it.end() - 1, re.compile(rf"^{indent}\}}$", re.M).search(text, it.end()).end()
        is_of_the_head = it.start() == function.start() or it[1].startswith((")", ">")) or it[1] == "where"
        if not is_of_the_head or it[1].endswith(("}", ";")):
            return None
    return None


def function_of(file, text, function):
    """Returns a function, as `FUNCTION` found it, as its file, owner and name."""
    return file, owner_of(head_of(text, function)), function[2]


def function_at(text, at):
    """Returns the owner and the name of the function whose body has this place, or None."""
    found = [it for it in FUNCTION.finditer(text) if it.start() < at]
    if not found:
        return None
    last = found[-1]
    end = re.compile(rf"^{last[1]}\}}", re.M).search(text, last.end())
    if not end or end.start() < at:
        return None
    return owner_of(head_of(text, last)), last[2]


def functions_of(file, text):
    """Returns the functions of a file, but for those of traits, as files, owners and names."""
    return [function_of(file, text, it) for it in FUNCTION.finditer(text) if not TRAIT.match(head_of(text, it))]


def place(edit, folder):
    """Notes the functions that the edit changes, and whether it changes the body of one, or the clause of its goal, and nothing else."""
    texts = {it[0]: open(f"{folder}/{it[0]}", encoding="utf-8").read() for it in edit.pairs}
    for file, old, new in edit.pairs:
        # What is added to a line begins where that ends, as in a body after `fn .. {`.
        goes_on = old.endswith("{") and new.startswith(old)
        at = texts[file].find(old) + len(old) * goes_on
        # A check knows no function of a test.
        function = function_at(texts[file], at) if file.startswith("src/") and "tests" not in re.split("[/.]", file) else None
        if function and (file, *function) not in edit.functions:
            edit.functions.append((file, *function))
        edit.is_of_a_body &= bool(function) and (goes_on or not STATED.search(old))
        line = texts[file][texts[file].rfind("\n", 0, at) + 1 :]
        edit.is_of_its_clause &= "\n" not in old and line.lstrip().startswith(f"ensures {edit.goal.rpartition('-clause-')[2]} {{")
        texts[file] = texts[file].replace(old, new)
    edit.is_of_a_body &= len(edit.functions) == 1 and not edit.judge
    edit.is_of_its_clause &= bool(edit.judge and edit.goal)
    edit.can_have_a_copy = edit.is_of_a_body and has_a_copy(edit.functions[0], folder)


def has_a_copy(function, folder):
    """Whether a crate can have a copy of a function under another name: it is no trait's and no constant one, has no closure with a
    proof of its own, and its proof does not name it other than by its path."""
    texts = texts_of(folder)
    found = [it for it in FUNCTION.finditer(texts[function[0]]) if function_of(function[0], texts[function[0]], it) == function]
    head, proof = head_of(texts[function[0]], found[0]), proof_of(function, texts)
    is_free = len(found) == 1 and " for " not in head and not TRAIT.match(head) and not CONSTANT.search(found[0][0])
    has_closures = os.path.isdir(f"{folder}/{os.path.dirname(proof)}/fn/{function[2]}")
    return is_free and bool(body_of(texts[function[0]], found[0])) and not has_closures and not os.path.isfile(f"{folder}/{proof}/Proof.antt")


def companies(edits):
    """Parts the edits into lists that one check each can try, the longest first."""
    groups = []
    for edit in edits:
        group = next((it for it in groups if all(go_together(edit, one) for one in it)), None)
        if group is None:
            groups.append([edit])
        else:
            group.append(edit)
    return groups


def shared_out(edits, seconds, most):
    """Parts edits into as few lists as can be where no check of two or more takes more seconds than the most, each about as long as others."""

    def length(group):
        return sum(map(seconds, group))

    for count in range(len(edits) + 1):
        lists = dealt_out(edits, seconds, count)
        if lists is not None and all(len(it) == 1 or length(it) <= most for it in lists):
            break
    return lists


def dealt_out(edits, seconds, count):
    """Deals edits to so many lists that one check each can try, the longest first, and each to the shortest list, or returns None."""
    lists = [[] for _ in range(count)]
    for edit in sorted(edits, key=seconds, reverse=True):
        fits = [it for it in lists if all(go_together(edit, one) for one in it)]
        if not fits:
            return None
        min(fits, key=lambda it: sum(map(seconds, it))).append(edit)
    return lists


def seconds_of(edit, sizes):
    """Returns about how many seconds a check takes over an edit's functions, by the sizes of what the proofs of functions begin with, in MB."""
    ends = [f"::{edit.judge}"] if edit.judge else [f"::{path_of(it)}" for it in edit.functions]
    sized = [max((size for path, size in sizes.items() if f"::{path}".endswith(it)), default=1) for it in ends] or sizes.values()
    return sum(5 + 6 * it + it * it / 4 for it in sized)


def go_together(one, other):
    """Whether neither edit changes what refuses the other: bodies of two functions do not, or of a function and a copy of it, nor do two
    clauses of one function."""
    if one.is_of_a_body and other.is_of_a_body:
        return one.functions != other.functions or one.can_have_a_copy
    return one.is_of_its_clause and other.is_of_its_clause and one.judge == other.judge and one.goal != other.goal


def texts_of(folder):
    """Returns the text of each file of a crate that a check reads."""
    found = [os.path.relpath(f"{at}/{it}", folder) for at, _, names in os.walk(f"{folder}/src") for it in names if it.endswith(".rt")]
    return {it: open(f"{folder}/{it}", encoding="utf-8").read() for it in sorted(found) if "tests" not in re.split("[/.]", it)}


def module_of(file):
    """Returns the module of a file, or nothing for the root of a library or a program."""
    module = file.removeprefix("src/").removesuffix(".rt").removesuffix("/mod")
    return "" if module in ("lib", "main") else module


def proof_of(function, texts):
    """Returns the folder of a function's proof: a method of no trait has it below its type's module, wherever the impl is."""
    file, owner, name = function
    at = [file, *(it for it, text in texts.items() if owner and owner in TYPE.findall(text))][-1]
    return "/".join(it for it in ("proofs", module_of(at), owner, name) if it)


def path_of(function):
    """Returns the end of a function's path that `rattle check --only` knows it by: a method stands below its type, wherever the impl is."""
    file, owner, name = function
    return "::".join(it for it in (owner or module_of(file).replace("/", "::"), name) if it)


def only(edits):
    """Returns the words with which a check looks at the functions of these edits alone, or at all where an edit is of none."""
    paths = [[it.judge] if it.judge else [path_of(one) for one in it.functions] for it in edits]
    return [word for it in sorted({it for one in paths for it in one}) for word in ("--only", it)] if all(paths) else []


def proofs_of(edit, texts):
    """Returns the folders of the proofs of the functions that a check of an edit looks at."""
    if not edit.judge:
        return [proof_of(it, texts) for it in edit.functions]
    owners = edit.judge.split("::")
    at = [module_of(it) for it, text in texts.items() if owners[0] in TYPE.findall(text)]
    return ["/".join(it for it in ("proofs", *at[-1:], *owners) if it)]


def offers_nothing(edits, folder):
    """Has a check of the copy not offer answers for these edits' functions, for which it would search once more: the files of their
    proofs get an error, as long as which stands there it does not. What each goal comes to it says all the same."""
    texts = texts_of(folder)
    for it in {one for edit in edits for one in proofs_of(edit, texts)}:
        if not os.path.isfile(f"{folder}/{it}/Proof.antt"):
            os.makedirs(f"{folder}/{it}", exist_ok=True)
            with open(f"{folder}/{it}/Answers.antt", "a", encoding="utf-8") as file:
                file.write(NOWHERE)
