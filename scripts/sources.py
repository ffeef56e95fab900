"""What the sources say: public items of `src/*.rt` with their contracts, and definitions of `specs/*.antt`.

The one reader for all that compares a page with the code. It goes by the layout that `rt fmt` gives: an item
begins at the left, a member of an `impl` or a `trait` four places in.
"""

import functools
import os
import re
from dataclasses import dataclass

STRING = re.compile(r'b?"(?:[^"\\]|\\.)*"|\'(?:[^\'\\\n]|\\[^\'\n]+|\\\')\'')
COMMENT = re.compile(rf"({STRING.pattern})|//[^\n]*")
ATTRIBUTE = re.compile(r"#!?\[(?:[^\[\]\"]|\"[^\"]*\"|\[[^\]]*\])*\]")
CLAUSE = re.compile(r"\b(?:requires|ensures)\*?(?: \w+)? $")
PUB = r"(?:pub(?:\(\w+\))? )?"
BLOCK = re.compile(rf"{PUB}(?:impl|trait)\b")
WORDS = r'(?:final |const |unsafe |extern "C" )*'
ITEM = re.compile(PUB + WORDS + r"(fn|ghost|const|type|struct|enum) (?!use\b)(\w+)")
TYPE = re.compile(rf"^{PUB}(?:trait|struct|enum|type) (\w+)", re.M)
DEFINED = re.compile(r"^ *(?:[a-z]+ )*?(?:(?:record|data) ◌?([^\s◌]+)◌? [({:]|◌?([^\s◌:]+)◌? :)", re.M)

# What an `impl` states and no caller reads: how a value is kept, and proofs.
UNSHOWN_TRAITS = {"Model", "Drop", "ExactEq", "TryClone", "Eq", "FusedIterator", "std::error::Error", "Kind"}
UNSHOWN = {"fmt", "laws", "code_tells", "respects_eq", "is_infallible", "total", "matches_eq"}
UNSHOWN |= {"matches_partial_cmp", "allowance_fits"}


@dataclass(eq=False)
class Item:
    """An item or a member, with the header of its `impl` or `trait`, and its lines up to its body."""

    block: str
    kind: str
    name: str
    lines: list

    def is_public(self):
        return self.lines[0].lstrip().startswith("pub ")

    def has_clause(self):
        return any(re.match(r" +(requires|ensures)", line) for line in self.lines)


@functools.cache
def read(path):
    with open(path, encoding="utf-8") as it:
        return it.read()


@functools.cache
def paths(folder, suffix):
    """The files of a folder and of those in it."""
    found = [os.path.join(at, name) for at, _, names in os.walk(folder) for name in names]
    return sorted(path for path in found if path.endswith(suffix))


@functools.cache
def code(path):
    """A file of `src` without comments and attributes."""
    return ATTRIBUTE.sub("", COMMENT.sub(lambda at: at[1] or "", read(path)))


def end_of(source, begin, kind):
    """Where an item's lines end: before a function's body, after a type's `}`, after any other's `;`."""
    depth, at = 0, begin
    while True:
        text = STRING.match(source, at)
        if text:
            at = text.end()
            continue
        c = source[at]
        if kind == "fn" and c == "{" and depth == 0 and not CLAUSE.search(source, begin, at):
            return at
        depth += (c in "([{") - (c in ")]}")
        at += 1
        if depth == 0 and (c == ";" or c == "}" and kind in ("struct", "enum")):
            return at


@functools.cache
def items(path):
    """The items and members of a file of `src`, in their order."""
    source, found, block, at = code(path), [], "", 0
    while at < len(source):
        end = source.index("\n", at)
        line = source[at:end]
        indent = "    " if block else ""
        item = ITEM.match(line[len(indent) :]) if line.startswith(indent) else None
        if line.startswith("}"):
            block = ""
        elif not block and BLOCK.match(line):
            end = source.index("{", at)
            block, end = source[at:end].strip(), source.index("\n", end)
            block = "" if source[end - 1] == "}" else block
        elif item:
            end = end_of(source, at + len(indent), item[1])
            lines = [part.rstrip() for part in source[at:end].split("\n") if part.strip()]
            found.append(Item(block, *item.groups(), lines))
            end = source.index("\n", end)
        at = end + 1
    return found


def of_block(item):
    """Of which type an item is, and of which trait, without parameters. A trait's member has it for both."""
    header = re.sub(r"\s+", " ", item.block)
    declared = re.match(rf"{PUB}trait (\w+)", header)
    if declared or not header:
        return (declared[1], declared[1]) if declared else (item.name, "")
    header, depth = header[len("impl") :], 0
    for at, c in enumerate(header):
        depth += (c == "<") - (c == ">" and header[at - 1] != "-")
        if depth == 0:
            break
    trait, _, of = header[at + 1 if at else 0 :].rpartition(" for ")
    return re.match(r" ?(?:&(?:'\w+ )?(?:mut )?)?([\w(]*)", of)[1], re.match(r" ?([\w:]*)", trait)[1]


@functools.cache
def exports(crate):
    """The modules of a crate, those that are public, and the names that it re-exports of its own modules."""
    path = f"crates/{crate}/src/lib.rt"
    source = code(path) if os.path.exists(path) else ""
    own = re.findall(r"\bmod (\w+);", source)
    uses = re.findall(r"pub use (?:crate::)?(\w+)::(\{[^}]*\}|\w+)", source)
    names = {name for module, names in uses if module in own for name in re.findall(r"\w+", names)}
    return own, set(re.findall(r"pub mod (\w+);", source)), names


def crate_of(path):
    return path.split("/")[1]


def is_public(path, name):
    """Whether what a file has under a name, at the left, is public outside of its crate."""
    module = os.path.basename(path)[: -len(".rt")]
    _, shown, names = exports(crate_of(path))
    return module in shown or name in names or module == "lib"


@functools.cache
def declared(crate):
    """The types and traits of a crate, and whether each is public."""
    files = paths(f"crates/{crate}/src", ".rt")
    return {name: is_public(path, name) for path in files for name in TYPE.findall(code(path))}


def is_contract(path, item):
    """Whether a caller from another crate has an item that isn't a type: itself, or by an `impl`.

    A function of an `impl` that has no clause of its own isn't one, where the crate also has the trait."""
    own = declared(crate_of(path))
    of, trait = of_block(item)
    if item.block.startswith("pub trait"):
        return own[of]
    if not trait:
        return item.kind == "fn" and item.is_public() and is_public(path, of)
    if item.kind not in ("fn", "ghost") or item.name in UNSHOWN or trait in UNSHOWN_TRAITS:
        return False
    is_repeated = item.kind == "fn" and not item.has_clause() and trait in own
    return own.get(of, True) and own.get(trait, True) and not is_repeated


def contracts(path):
    """What a caller from another crate has of a file of `src`."""
    return [item for item in items(path) if is_contract(path, item)]


def named(path, name):
    """What a file of `src` has under a name: `function`, `Type::member`, `Trait for Type`, `Trait`."""
    found = []
    for item in items(path):
        of, trait = of_block(item)
        whole = of if of == trait or not item.block else f"{trait.split('::')[-1]} for {of}"
        if name in (whole, f"{of}::{item.name}") and item.name not in UNSHOWN:
            found.append(item)
    return found


def definition(path, name, *forms):
    """The lines of a definition of a file of `specs`, or of its equations for these forms alone."""
    word = rf"◌?{re.escape(name)}◌?"
    header = re.compile(rf" *(?:[a-z]+ )*(?:(?:record|data) {word}(?= )|{word} :)")
    lines, found, at = read(path).split("\n"), [], 0
    while at < len(lines) and not header.match(lines[at]):
        at += 1
    indent = re.match(" *", lines[at])[0] if at < len(lines) else ""
    equation = re.compile(rf"{indent}{word} ")
    for line in lines[at:]:
        if equation.match(line) or header.match(line):
            found.append([line])
        elif line.startswith((indent + " ", indent + ")", indent + "}")):
            found[-1].append(line)
        elif line.strip() and not line.strip().startswith("--"):
            break
    if forms:
        found = [lines for lines in found if set(forms) & set(re.findall(r"\w+", lines[0].split(" =")[0]))]
    return [line[len(indent) :] for lines in found for line in lines]


@functools.cache
def words(path):
    """The names that a file defines."""
    if path.endswith(".rt"):
        return set(re.findall(r"\b(?:fn|ghost|const|type|struct|enum|trait) (\w+)", code(path)))
    return {name for names in DEFINED.findall(read(path)) for name in names if name}
