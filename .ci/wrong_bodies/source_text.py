"""Reads the functions of a crate's sources, as far as the wrong bodies need it. The layout is that of `rt fmt`."""
import os
import re
from dataclasses import dataclass


def read(path):
    with open(path, encoding="utf-8") as file:
        return file.read()


@dataclass(frozen=True)
class Function:
    file: str
    # Its first line, that of its attributes, and its last, counted from 0.
    first: int
    last: int
    # `module::Type::name`, by the module that it stands in.
    path: str
    # Whether it is of a trait, and whether it may call itself: such functions can't be copied.
    is_of_trait: bool = False
    is_recursive: bool = False

    def name(self):
        return self.path.rpartition("::")[2]


HEAD = re.compile(r"(\s*)(?:pub(?:\([^)]*\))? )?(?:(?:const|unsafe|default|ghost) )*fn (\w+)")
BLOCK = re.compile(r"(\s*)(?:pub(?:\([^)]*\))? )?(?:unsafe )?(impl|trait)\b(.*)")


def split_at_commas(text):
    """Splits a text at the commas that stand in no brackets of it."""
    parts, depth = [""], 0
    for it in text.replace("->", "  "):
        depth += (it in "<([") - (it in ">)]")
        if it == "," and not depth:
            parts.append("")
        else:
            parts[-1] += it
    return [it.strip() for it in parts if it.strip()]


def cut_arguments(text):
    """Returns what stands in the angle brackets that a text begins with, if it does, and what comes behind them."""
    depth = 0
    for at, it in enumerate(text.replace("->", "  ") if text.startswith("<") else ""):
        depth += (it == "<") - (it == ">")
        if not depth:
            return text[1:at], text[at + 1 :]
    return "", text


def type_name(text, parameters):
    """Returns what the prover calls a type: its words in one, but for lifetimes, type parameters and the crate that a path begins at."""
    words = re.findall(r"&\s*mut\b|&|\(\)|\w+", re.sub(r"'\w+", "", text))
    marks = {"&": "Ref", "()": "Unit"}
    named = [marks.get(it) or ("RefMut" if it[0] == "&" else it[0].upper() + it[1:]) for it in words if it not in (*parameters, "crate", "std")]
    return "".join(named)


def block_name(lines, at):
    """Returns what the prover calls an `impl` or a `trait`: of a trait's impl the type's name, the trait's and those of the trait's arguments."""
    head = " ".join(it.strip() for it in lines[at : at + 12]).partition("{")[0].partition(" where ")[0]
    _, kind, rest = BLOCK.match(head).groups()
    generics, rest = cut_arguments(rest.strip())
    parameters = [it.partition(":")[0].removeprefix("const ").strip() for it in split_at_commas(generics)]
    trait, _, of = rest.strip().rpartition(" for ")
    if kind == "trait" or not trait:
        return re.match(r"(?:\w+::)*(\w+)", of)[1]
    path = trait.partition("<")[0]
    arguments = split_at_commas(cut_arguments(trait.removeprefix(path))[0])
    names = ["Any" if of in parameters else type_name(of, parameters), path.rpartition("::")[2]]
    return "".join(names + [type_name(it, parameters) for it in arguments if it != of])


def is_of_trait(lines, at):
    """Returns whether a block is a trait, or an impl of one."""
    head = " ".join(it.strip() for it in lines[at : at + 12]).partition("{")[0].partition(" where ")[0]
    _, kind, rest = BLOCK.match(head).groups()
    return kind == "trait" or " for " in cut_arguments(rest.strip())[1]


def functions_of(file, text):
    """Returns the functions that have a body. The layout is `rt fmt`'s, so a body ends with the first brace as far in as its head."""
    module = module_of(file)
    lines, found, block = text.split("\n"), [], None
    for at, line in enumerate(lines):
        opened = BLOCK.match(line)
        if opened:
            block = opened[1], block_name(lines, at), is_of_trait(lines, at)
        elif block and line.startswith(block[0] + "}"):
            block = None
        head = HEAD.match(line)
        if not head:
            continue
        ends = (it for it in range(at, len(lines)) if re.match(head[1] + r"(\{.*)?\}", lines[it]) or (it == at and line.endswith("}")))
        is_inside = block and len(head[1]) > len(block[0])
        first = at
        while first and lines[first - 1].startswith(head[1] + "#["):
            first -= 1
        path = "::".join([*module, *([block[1]] if is_inside else []), head[2]])
        last = next(ends, at)
        own_call = re.compile(rf"((?<![\w.:])|\b[Ss]elf(\.|::)){head[2]}(::<.*>)?\(")
        is_recursive = any("#[cycle" in it for it in lines[first:at]) or any(map(own_call.search, lines[at + 1 : last + 1]))
        found.append(Function(file, first, last, path, bool(is_inside and block[2]), is_recursive))
    return found


def parts_of(function, lines):
    """Returns the lines of a function: its attributes, its head up to the brace that opens its body, and its body. The head is empty if the body isn't on
    lines of its own."""
    own = lines[function.first : function.last + 1]
    head = next(at for at, it in enumerate(own) if HEAD.match(it))
    indent = HEAD.match(own[head])[1]
    alone = [at for at, it in enumerate(own) if it == indent + "{"]
    behind = [at for at, it in enumerate(own) if at >= head and it.endswith(" {") and re.match(rf"{indent}\S", it)]
    opened = (alone or behind or [head - 1])[0] + 1
    # (a method without a body has the next method's)
    is_plain = own[-1] == indent + "}" and not any(it.endswith(";") for it in own[head : opened - 1])
    return (own[:head], own[head:opened], own[opened:]) if is_plain else (own[:head], [], own[head:])


def homes_of(folder):
    """Returns, for each type and trait, the modules that define one of that name."""
    homes = {}
    for file in sources(folder):
        for name in re.findall(r"(?m)^(?:pub(?:\([^)]*\))? )?(?:struct|enum|trait) (\w+)", read(f"{folder}/{file}")):
            homes.setdefault(name, []).append("::".join(module_of(file)))
    return homes


def module_of(file):
    """Returns the module that a file of src/ has, by its names from the root."""
    module = file.removeprefix("src/").removesuffix(".rt").removesuffix("/mod")
    return [] if module in ("lib", "main") else module.split("/")


def sources(folder):
    found = [f"{at}/{name}" for at, _, names in os.walk(f"{folder}/src") for name in names if name.endswith(".rt")]
    return sorted(os.path.relpath(it, folder) for it in found)
