"""The public types of crates, and what the tables of a page have of them.

Each public variant and field is, with its types, at a place of its type, which is a row of a table:
    | Type | ..
    | `Name` | `field: T`, ..          or `Variant`, `Variant(T, ..)`, `Variant { field: T, .. }`, ..
    | `A`; `B` | what A has; what B has
or, after a line that ends in the type and a colon, all rows of a table:
    | Variant | ..
    | `Variant`, .. | `field: T`, .. |
"""

import re

import sources
from quotes import FENCED
from words import CODE, cells

FIELD = re.compile(r"[a-z_]+: ")
VARIANT = re.compile(r"[A-Z]\w*[a-z]\w*( {|\(|$)")


def split(text, mark):
    """The parts of a text at the marks that are in no bracket and in no code."""
    parts, depth, in_code = [""], 0, False
    for c in text:
        in_code ^= c == "`"
        depth += (c in "([{<") - (c in ")]}>")
        if c == mark and depth == 0 and not in_code:
            parts.append("")
        else:
            parts[-1] += c
    return [" ".join(part.split()) for part in parts if part.strip()]


def inside(source, at):
    """What is in the brackets of the item whose name ends at `at`, if it has any."""
    begin = re.compile(r"[{(;=]").search(source, at)
    if begin.group() not in "{(":
        return ""
    depth, end = 1, begin.end()
    while depth:
        depth += (source[end] in "{(") - (source[end] in "})")
        end += 1
    return source[begin.end() : end - 1]


def parts_of(kind, body):
    """What a page has to have of a type: its public fields, or its variants with what they hold."""
    if kind == "struct":
        return [field[len("pub ") :] for field in split(body, ",") if field.startswith("pub ")]
    return [re.sub(r",? }$", " }", variant) for variant in split(body, ",")] if kind == "enum" else []


def types_of(crate):
    """The public types of a crate: of each its name, and what a page has to have of it."""
    types = {}
    own, shown, _ = sources.exports(crate)
    for module in [*own, "lib"]:
        path = f"crates/{crate}/src/{module}.rt"
        for item in re.finditer(r"pub (struct|enum|type|trait) (\w+)", sources.code(path)):
            kind, name = item.groups()
            if sources.is_public(path, name):
                body = inside(sources.code(path), item.end())
                types[f"{module}::{name}" if module in shown else name] = parts_of(kind, body)
    return types


def rows_of(text):
    """The rows of tables: the head of the first column, the first two cells, the line before the table."""
    before, head = "", None
    for line in text.split("\n"):
        if line.startswith("|"):
            first, second, *_ = cells(line)
            head = head or first
            yield head, first, second, before
        else:
            before, head = line.strip() or before, None


def places_of(text):
    """The places of a page: the type of each, and the codes there."""
    for head, first, second, before in rows_of(text):
        names, codes = CODE.findall(first), CODE.findall(second)
        if head == "Variant" and names and before.endswith("`:"):
            fields = ", ".join(code for code in codes if FIELD.match(code))
            yield CODE.findall(before)[-1], [f"{name} {{ {fields} }}" if fields else name for name in names]
        elif head == "Type":
            for name, part in zip(names, split(second, ";") if len(names) > 1 else [second]):
                yield re.sub(r"<.*", "", name), CODE.findall(part)


def differences(name, wanted, found, all_types):
    """What of a type its places lack, and what they have and it doesn't. They may name other types."""
    looks = VARIANT if wanted and wanted[0][0].isupper() else FIELD
    more = [code for code in found if looks.match(code) or FIELD.match(code)]
    return [f"{name} lacks {code}" for code in wanted if code not in found] + [
        f"{name} has no {code}" for code in more if code not in wanted and code not in all_types
    ]


def faults(crate, page, all_types):
    """What differs between a page and the types of its crate, and the other types that it has places of."""
    text = FENCED.sub("", page)
    in_code = " ".join(FENCED.findall(page) + CODE.findall(text))
    found = {}
    for name, codes in places_of(text):
        found.setdefault(name, []).extend(codes)
    types = types_of(crate)
    for name in types:
        if not re.search(rf"(?<!\w){name}\b", in_code):
            yield f"{name} isn't on the page"
    for name in [*types, *(name for name in found if name in all_types and name not in types)]:
        wanted = types[name] if name in types else all_types[name]
        yield from differences(name, wanted, found.get(name, []), all_types)
