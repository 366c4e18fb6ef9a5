"""What a check, or `rt must-fail`, says of an edit: only what `rt` and `rattle` print is read."""

import itertools
import re

TELLS = re.compile(r"^fn (\S+): (.*)$", re.M)
# The line of a goal that is not proved, and that of a function for which no file answers it.
OPEN = re.compile(r"^note: src/\S+:\d+:\d+: .*\(`([^`]+)`\)")
SOUGHT = re.compile(r"no proof: expected answers .*`search` did not prove `([^`]+)`")
ERROR = re.compile(r"^(?:\./)?(\S+?)(?::\d+:\d+)?: error(?:\[[\w-]+\])?: (.*)$", re.M)
# How an error reads, but for what it quotes, that says only that a file of proofs cites what is gone: a fact or a variable, a goal or
# a lemma, what no `use` brings any more, a function; or that something was not checked since it cites what had such an error.
NAMES = re.compile(
    r"^(?:``: )*(?:(?:record )?`` has no field\b|(?:module|data type) `` has no `|(?:``(?:, | and )?)+ (?:is|are) not in scope\b"
    r"|`` (?:is|names) no(?:thing| module)\b|`` has no function ``|\d+ declarations? that depends? on `)"
)
# An error, not of the front end, in what is stated: a file of specs, or a clause of a source.
STATED = re.compile(r"^(?:\./)?((?:specs|src)/\S+?):\d+:\d+: error: (.*)$", re.M)
RESTS = re.compile(r"\d+ declarations? that depends? on `")
# A `prove!` of a constant, which a check evaluates before it asks for proofs.
FALSE = re.compile(r"^(?:\./)?src/\S+: error\[failed-constant-evaluation\]: evaluation reached a false `prove!`", re.M)
JUDGED = re.compile(r"^rt: must-fail [^/\s]+/(\S+)\.edit: (.*)$", re.M)


def is_of_a_name(error):
    return bool(NAMES.match(re.sub(r"`[^`]*`", "``", error)))


def path_in(said, edit):
    """Returns the path by which `rt` told the edit's function, or None where that is not one."""
    [(file, owner, name)] = edit.functions
    paths = [it for it in said if it.split("::")[-1] == name]
    if owner:
        paths = [it for it in paths if it.split("::")[-2] == owner] or [it for it in paths if it.split("::")[-2].startswith(owner)]
    else:
        paths = [it for it in paths if it.split("::")[-2][:1].islower()]
    if len(paths) > 1:
        module = file.removeprefix("src/").removesuffix(".rt").removesuffix("/mod")
        places = {it: "/".join(it.split("::")[1:-1]) for it in paths}
        exact = [it for it in paths if places[it] in (module, f"{module}/{owner}")]
        inside = exact or [it for it in paths if places[it].startswith(module)]
        paths = inside or [it for it in paths if it.split("::")[1] == module.split("/")[0]]
    return paths[0] if len(paths) == 1 else None


def goals_of(output, path, why):
    """Returns the goals of its own for which a function is not proved, as they are told, and then what else an error in the files of its
    proof is of, which may be a lemma. That it calls one that is not proved is none."""
    if match := SOUGHT.match(why):
        return [match[1]]
    if not why.startswith("not proved"):
        return []
    # The lines before the function's own tell what of it is not proved, and an error in its proof files what an answer does not prove.
    before = output[: output.index(f"\nfn {path}: ")].split("\n")
    lines = itertools.takewhile(lambda it: it.startswith(("note: ", "help: ", " ")), reversed(before))
    goals = [it[1] for it in map(OPEN.match, lines) if it][::-1]
    folder = "proofs/" + "/".join(path.split("::")[1:]) + "/"
    own = [text for file, text in ERROR.findall(output) if file.startswith(folder) and not is_of_a_name(text)]
    return list(dict.fromkeys([*goals, *(it[1] for it in (re.match(r"`([^`]+)`", one) for one in own) if it)]))


def told(output, edit):
    """Returns what a check tells of an edit's own function, by its path, or, where the edit is not of one body and so stands alone, of
    its judge or else of all functions."""
    said = dict(TELLS.findall(output))
    paths = [path_in(said, edit)] if edit.is_of_a_body else [it for it in said if it.endswith(f"::{edit.judge}" * bool(edit.judge))]
    return {it: said[it] for it in paths if it}


def refusals(output, edit):
    """Returns what refuses an edit by what a check says: of its function, its judge or any the goals that do, each with the function's
    path as the edit means it. Where the edit names its goal, that alone does."""
    found = [(named(path, edit), goal) for path, why in told(output, edit).items() for goal in goals_of(output, path, why)]
    return [it for it in found if edit.goal in ("", it[1])]


def misses(output, edit):
    """Returns how a check tells that the judge or the goal that an edit names does not refuse it, or None."""
    said = told(output, edit)
    if edit.judge and said and all(why.startswith("proved") for why in said.values()):
        return f"its judge {edit.judge} is still proved"
    others = [goal for path, why in said.items() for goal in goals_of(output, path, why)]
    return f"its goal {edit.goal} is not told as not proved, as {others[0]} is" if edit.goal and others and edit.goal not in others else None


def ill_stated(output, edit):
    """Returns the first error of a check of this edit alone that tells that what it states means nothing, or None: one in a clause, or in a
    file of specs that it changed. Another file of specs may have a proof about what it changed, which that is to break."""
    if edit.is_of_a_body:
        return None
    own = {file for file, _, _ in edit.pairs}
    found = [(file, text) for file, text in STATED.findall(output) if (file.startswith("src/") or file in own) and not RESTS.match(text)]
    return next((f"BAD EDIT: what it states does not typecheck: {file}: {text}" for file, text in found), None)


def named(path, edit):
    """Returns a function as the edit means it, of which a check may have tried a copy."""
    path = path.partition("::")[2]
    return path.removesuffix(edit.functions[0][2]) + edit.copied[2] if edit.copied else path


def is_by_names(output):
    """Whether a check refuses only for names that files of proofs cite."""
    errors = ERROR.findall(output)
    of_names = all(file.startswith("proofs/") and is_of_a_name(text) for file, text in errors)
    return bool(errors) and of_names and not re.search(OPEN.pattern, output, re.M) and not SOUGHT.search(output)


def of_all(output):
    """Returns what a check of a whole crate says: why it refuses it, by a false `prove!`, by its first error that is no name's or else by
    its first goal, or None; and else what is the matter."""
    if match := FALSE.search(output):
        return match[0], ""
    last = output.rstrip().rpartition("\n")[2]
    errors = [f"{file}: {text}" for file, text in ERROR.findall(output) if not is_of_a_name(text)]
    goals = [f"goal {it}" for it in [*re.findall(OPEN.pattern, output, re.M), *SOUGHT.findall(output)]]
    why = next(iter([*errors, *goals]), None) if last.startswith("logic=not-proved") else None
    return why, "the crate is still proved" if last.startswith("logic=proved") else output.strip()[-300:]


def judged(output):
    """Returns what `rt must-fail` says of each edit: why it is refused, or None, and the whole."""
    found = {}
    for name, text in JUDGED.findall(output):
        match = re.match(r"refused, as it must be(?! \(only because a proof file)(?:: )?(.*)", text)
        found[name] = (match[1] if match else None), text
    return found
