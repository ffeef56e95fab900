"""What a page quotes of the sources: contracts and definitions.

A block of code that begins with ```rattle or ```antt has a *mark*, a line, for each file that it quotes:
    // src/arena.rt                            the contracts of all that is public in the file
    // src/name.rt: Name::new, Display for Name, Kind, helper   a member, an `impl`, a trait, a function
    -- specs/Chains.antt: Occurs, HasChain     definitions
    -- specs/Frames.antt: binds Tuple Or       the equations of one for these forms
A path begins at the crate of the page, or with `crates/`. What comes after a mark is the script's, and isn't
edited. A block ```antt without a mark is the page's own.
"""

import os
import re

import sources

FENCED = re.compile(r"^```.*?^```$", re.S | re.M)
LANGUAGES = ("rattle", "antt")
BLOCK = re.compile(r"^```([^\n]*)\n(.*?)^```$", re.S | re.M)
MARK = re.compile(r"(?://|--) ((?:crates/\w+/)?(?:src|specs)/[\w/]+\.(?:rt|antt))(?:: (.+))?")


def marks(page, block):
    """The marks of a block: the line, the file, the names."""
    for mark in filter(None, map(MARK.fullmatch, block.split("\n"))):
        path = mark[1] if mark[1].startswith("crates/") else f"{os.path.dirname(page)}/{mark[1]}"
        yield mark[0], path, mark[2].split(", ") if mark[2] else []


def items_of(path, names):
    """The items that a mark names, by name; all contracts of the file where it names none."""
    return {name: sources.named(path, name) for name in names} or {"contracts": sources.contracts(path)}


def contracts_of(path, names):
    """The lines of the items that a mark names, members under their block's header; and what is missing."""
    found, lines, block = items_of(path, names), [], None
    for item in dict.fromkeys(item for items in found.values() for item in items):
        if item.block and item.block != block:
            lines += item.block.split("\n")
        block = item.block
        lines += item.lines
    return lines, [name for name, items in found.items() if not items]


def definitions_of(path, names):
    """The lines of the definitions that a mark names, with an empty one between two; and what is missing."""
    found = {name: sources.definition(path, *name.split()) for name in names} or {"names": []}
    lines = [line for definition in found.values() for line in ["", *definition]]
    return lines[1:], [name for name, definition in found.items() if not definition]


def filled(page, block):
    """A block with what its marks name, and a fault for each that names what isn't there."""
    sections, faults = [], []
    for line, path, names in marks(page, block):
        if not os.path.exists(path):
            faults.append(f"{page}: {path} doesn't exist")
            continue
        lines, missing = (contracts_of if path.endswith(".rt") else definitions_of)(path, names)
        faults += [f"{page}: {path} has no {name}" for name in missing]
        sections.append("\n".join([line, *lines]))
    return "\n\n".join(sections) + "\n", faults


def with_quotes(page, text):
    """A page with its blocks as the sources have them, and the faults of their marks."""
    faults = []

    def written(at):
        language, block = at.groups()
        has_mark = any(marks(page, block))
        if language not in LANGUAGES:
            faults.extend([f"{page}: ```{language} has a mark, and isn't ```rattle or ```antt"] * has_mark)
        elif has_mark:
            new, wrong = filled(page, block)
            faults.extend(wrong)
            return at[0] if wrong else f"```{language}\n{new}```"
        elif language == "rattle":
            faults.append(f"{page}: a block ```rattle has no mark")
        return at[0]

    return BLOCK.sub(written, text), faults


def unquoted(page, text):
    """The contracts of a page's crate that it doesn't quote, if it quotes one."""
    blocks = [block for language, block in BLOCK.findall(text) if language in LANGUAGES]
    found = [mark for block in blocks for mark in marks(page, block)]
    found = [(path, names) for _, path, names in found if path.endswith(".rt") and os.path.exists(path)]
    quoted = {item for path, names in found for items in items_of(path, names).values() for item in items}
    for path in sources.paths(f"{os.path.dirname(page)}/src", ".rt") if quoted else []:
        for item in sources.contracts(path):
            if item not in quoted:
                yield f"{page}: {path}: {item.block} {item.lines[0].strip()} isn't quoted"
