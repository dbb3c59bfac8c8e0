"""Makes the text of a crate's copy in which bodies are tried: each in a copy of its function or in place, beside stubs for the other functions."""
import os
import re
import shutil

from wrong_bodies.source_text import HEAD, functions_of, parts_of, read, sources


def text_with(wave, file, text):
    """Returns a file's text with the bodies of a wave: those that are tried in copies stand behind their functions."""
    lines = text.split("\n")
    changed, behind = list(lines), {}
    for body in wave:
        if not body.is_copied():
            for (_, line), new in ((it, new) for it, new in body.lines.items() if it[0] == file):
                changed[line] = new
        elif body.targets[0].file == file:
            behind.setdefault(body.targets[0].last, []).append("\n".join(body.copy(lines)))
    return "\n".join("\n\n".join([line, *behind.get(at, [])]) for at, line in enumerate(changed))


def tried_by(body, folder, room):
    """Returns the functions that must refuse a body, where they stand in the crate's copy."""
    now = {it.file: functions_of(it.file, read(f"{room}/{it.file}")) for it in body.targets}
    if body.is_copied():
        return [it for it in now[body.targets[0].file] if it.path == body.copy_path()]
    same = lambda of, found: [it for it in found if it.path == of.path]
    found = ((it, same(it, functions_of(it.file, read(f"{folder}/{it.file}")))) for it in body.targets)
    return [same(it, now[it.file])[before.index(it)] for it, before in found]


def ways_to(path):
    """Returns the folders of proofs/ that have the proof files of a function and of its closures: these stand in a folder `fn` somewhere on the way."""
    parts = path.split("::")
    return [parts, *([*parts[:at], "fn", *parts[at:]] for at in range(len(parts)))]


def copy_proofs(room, crate, path, name):
    """Copies the proof files of a function and of its closures for a copy of the function."""
    ways = ways_to(path)
    for way in ways:
        at = "/".join([room, "proofs", *way])
        if os.path.isdir(at):
            shutil.copytree(at, f"{os.path.dirname(at)}/{name}")
            for file in (f"{of}/{it}" for of, _, files in os.walk(f"{os.path.dirname(at)}/{name}") for it in files):
                text = read(file)
                for it in ways:
                    own = ".".join(["Rattle", crate, "proofs", *it])
                    text = re.sub(rf"{re.escape(own)}(?=[.\s])", ".".join([own.rpartition(".")[0], name]), text)
                with open(file, "w", encoding="utf-8") as out:
                    out.write(text)


# What a stub calls instead of having a body: a foreign function of which it is assumed that it never returns. So a stub meets any contract.
NEVER = """//! What never returns.

unsafe extern "C" {
    safe fn csa_never_returns()
        ensures { ⊥ };
}

pub(crate) fn never_returns()
    ensures { ⊥ }
{
    csa_never_returns();
}
"""


def stub_of(function, lines):
    """Returns the lines of a function with a body that never returns, or None if the function has to keep its own."""
    attributes, head, body = parts_of(function, lines)
    if not head or re.search(r"\b(const|ghost|unsafe) fn\b|\bfn main\b", head[0]) or function.is_recursive or "#[test]" in "".join(attributes):
        return None
    indent = HEAD.match(head[0])[1]
    # (what helps with the proof of its own body would be in the way)
    attributes = [it for it in attributes if "#[tactic" not in it]
    return [*attributes, *head, indent + "    crate::never::never_returns();", indent + "    unreachable!()", indent + "}"]


def put_stubs(room, tried, named):
    """Replaces in a crate's copy each function by a stub, but for those that are tried, and returns the stubs' paths."""
    stubs = []
    for file in sources(room):
        text = read(f"{room}/{file}")
        lines = text.split("\n")
        for it in reversed(functions_of(file, text)):
            stub = None if it in tried else stub_of(it, lines)
            if stub:
                lines[it.first : it.last + 1] = stub
                stubs.append(named(it))
                for way in ways_to(named(it)):
                    shutil.rmtree("/".join([room, "proofs", *way]), ignore_errors=True)
        with open(f"{room}/{file}", "w", encoding="utf-8") as out:
            out.write("\n".join(lines))
    with open(f"{room}/src/never.rt", "w", encoding="utf-8") as out:
        out.write(NEVER)
    root = f"{room}/src/main.rt" if os.path.isfile(f"{room}/src/main.rt") else f"{room}/src/lib.rt"
    with open(root, "a", encoding="utf-8") as out:
        out.write("\nmod never;\n")
    return stubs
