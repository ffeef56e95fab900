"""The words of definitions on pages: in which file each is, and which of them contracts cite."""

import os
import re

import sources
from quotes import FENCED

CODE = re.compile(r"`([^`]+)`")


def cells(line):
    """The cells of a row of a table."""
    return [cell.replace("\\|", "|").strip() for cell in re.split(r"(?<!\\)\|", line)[1:-1]]


def names_in(word):
    """The names in a word as a page has it: `f unless P`, `ExactEq.eq_decides`, `Seq<T>`."""
    return {name.split(".")[-1] for name in re.findall(r"(?:out-)?([^\s,<]+)", word)}


def files_of(crate, words, named):
    """The files that define words, those first that a row names; and the words that none defines."""
    every = sources.paths(f"{crate}/specs", ".antt") + sources.paths(f"{crate}/src", ".rt")
    files = [path for path in named if path in every] + every
    having = {word: [path for path in files if names_in(word) & sources.words(path)] for word in words}
    found = [path for path in named if any(path in paths for paths in having.values())]
    found += [paths[0] for paths in having.values() if paths and not set(paths) & set(named)]
    return list(dict.fromkeys(found)), [word for word, paths in having.items() if not paths]


def with_files(page, text):
    """A page whose tables of words name the files that define them, and the words that none defines.

    Such a table has a column Word or Type and a column File. It is of the crate of the page, or of the one
    that a heading names. A file is in the folder `specs`, or begins with `src/`."""
    lines, faults, head, crate = text.split("\n"), [], None, os.path.dirname(page)
    for at, line in enumerate(lines):
        if line.startswith("## `"):
            crate = f"crates/{CODE.search(line)[1]}"
        head = (head or cells(line)) if line.startswith("|") else None
        kinds = [re.match("Word$|Type$|File", cell) for cell in head or []]
        column = {kind[0]: at for at, kind in enumerate(kinds) if kind}
        if len(column) < 2 or "File" not in column or "`" not in line or not os.path.isdir(crate):
            continue
        row, files = cells(line), column.pop("File")
        written = CODE.findall(row[files])
        named = [os.path.join(crate, "" if file.startswith("src/") else "specs", file) for file in written]
        found, unknown = files_of(crate, CODE.findall(row[column.popitem()[1]]), named)
        faults += [f"{page}: {word} isn't defined in {crate}" for word in unknown]
        if found and set(found) != set(named):
            new = [path.removeprefix(f"{crate}/").removeprefix("specs/") for path in found]
            lines[at] = line.replace(f"| {row[files]} |", f"| {', '.join(f'`{file}`' for file in new)} |")
    return "\n".join(lines), faults


def cited(path):
    """The words of `specs` that the contracts of a file of `src` cite."""
    imports = re.findall(r"ghost use Rattle\.(\w+)\.specs\.[\w.]+\.\{([^}]*)\}", sources.code(path))
    names, defined = set(), set()
    for crate, found in imports:
        names |= {name.strip(" ◌").split(".")[-1] for name in found.split(",")}
        defined = defined.union(*map(sources.words, sources.paths(f"crates/{crate}/specs", ".antt")))
    contracts = ["\n".join(item.lines) for item in sources.contracts(path)]
    clauses = " ".join(clause for lines in contracts for clause in re.findall(r"\{.*\}", lines, re.S))
    return names & defined & set(re.findall(r"(?<![.\w'])[\w'-]+", clauses))


def missing(crate, page, text):
    """The words that the contracts of a crate cite and a page doesn't have in its text."""
    known = {name for word in CODE.findall(FENCED.sub("", text)) for name in names_in(word)}
    for path in sources.paths(f"crates/{crate}/src", ".rt"):
        for word in sorted(cited(path) - known):
            yield f"{page}: lacks {word}, which {path} cites"
