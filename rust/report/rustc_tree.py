"""rustc's own tree of a crate (-Zunpretty=hir-tree, which a stable rustc writes where RUSTC_BOOTSTRAP is set): the place of each path, and
that of the pattern of the variable that it resolves to. Places in macros are left out. The tree of a crate of 45,000 lines takes 300 MB,
which are read as they come."""

import json
import os
import re
import subprocess

SPAN = re.compile(r"span: (\S+):(\d+):(\d+): (\d+):(\d+) \(#(\d+)\),?$")


def place(match):
    """File, start and end of a span in source text; none where a macro wrote it."""
    file, *numbers, context = match.groups()
    return (file, *map(int, numbers)) if context == "0" else None


class Tree:
    """What rustc's tree says: the variables that a path resolves to, by its place, and the place of each variable's pattern. `kinds` has of
    a path that is no variable what it is, as `Def` and `Fn`."""

    def __init__(self, lines):
        self.paths, self.patterns, self.kinds = {}, {}, {}
        self.patterns_around = []
        self.path = None
        for raw in lines:
            line = raw.strip()
            indent = len(raw) - len(raw.lstrip())
            self.take_path(line)
            self.take_pattern(line, indent)

    def take_path(self, line):
        """`Path {`, then its span, then `res: Local(` and the variable, or `res: Def(` and its kind, or any other meaning."""
        if line.endswith("Path {"):
            self.path = ["span"]
        elif self.path and self.path[0] == "span":
            match = SPAN.match(line)
            self.path = ["meaning", place(match)] if match else None
        elif self.path and self.path[0] == "meaning":
            self.take_meaning(line)
        elif self.path:
            state, at = self.path
            if at and state == "variable":
                self.paths.setdefault(at, set()).add(line.rstrip(","))
            elif at:
                self.kinds.setdefault(at, set()).add(line.rstrip(",({ "))
            self.path = None

    def take_meaning(self, line):
        if line.startswith("res: Local("):
            self.path[0] = "variable"
            return
        at = self.path[1]
        self.path = None
        if line.startswith("res: ") and at:
            self.paths.setdefault(at, set())
            if line == "res: Def(":
                self.path = ["kind", at]
            else:
                self.kinds.setdefault(at, set()).add(line.removeprefix("res: ").rstrip(",("))

    def take_pattern(self, line, indent):
        """`Pat {`, in it `kind: Binding(` with the variable, and its span. Alternatives of a pattern name one variable."""
        around = self.patterns_around
        while around and indent <= around[-1]["indent"]:
            around.pop()
        if line.endswith("Pat {"):
            around.append({"indent": indent, "is_binding": False, "variable": None})
        elif around:
            pattern = around[-1]
            if indent == pattern["indent"] + 4:
                pattern["is_binding"] |= line == "kind: Binding("
                match = SPAN.match(line)
                if match and pattern["variable"] and place(match):
                    self.patterns.setdefault(pattern["variable"], []).append(place(match))
            elif indent == pattern["indent"] + 8 and pattern["is_binding"] and line.startswith("HirId("):
                pattern["variable"] = line.rstrip(",")

    def variable_places(self, at):
        """Where the patterns of the variable are that the path of this place resolves to, none where it is no variable."""
        return {it for id in self.paths[at] for it in self.patterns.get(id, [None])}

    def says(self, file, start, name, variable):
        """Whether rustc agrees that this path means the variable that is written here; none where its tree lacks the path."""
        meaning = self.paths.get((file, *start, start[0], start[1] + len(name)))
        if meaning is None:
            return None
        if not meaning or not variable:
            return not meaning and not variable
        patterns = [it for id in meaning for it in self.patterns.get(id, [])]
        return any(it[0] == file and it[1:3] <= variable < it[3:5] for it in patterns)


class Rustc:
    """A run of rustc over the library of a crate: its tree, its errors as (code, file, line), and whether it ended well."""

    def __init__(self, crate, arguments, stderr=None):
        self.errors = []
        command = ["cargo", "rustc", "--lib", "--quiet", "--message-format=json", *arguments, "--", "-Zunpretty=hir-tree"]
        environment = {**os.environ, "RUSTC_BOOTSTRAP": "1"}
        how = {"cwd": crate, "env": environment, "text": True, "errors": "replace", "stderr": stderr}
        # Cargo asks rustc about itself, which then reads what is left of standard input.
        with subprocess.Popen(command, stdin=subprocess.DEVNULL, stdout=subprocess.PIPE, **how) as process:
            self.tree = Tree(self.without_messages(process.stdout))
        self.is_good = process.returncode == 0

    def without_messages(self, lines):
        """The lines of the tree, without those of Cargo, whose errors are kept."""
        for line in lines:
            if not line.startswith('{"reason"'):
                yield line
                continue
            message = json.loads(line).get("message") or {}
            if message.get("level") == "error":
                code = (message.get("code") or {}).get("code") or message["message"]
                spans = [span for span in message["spans"] if span["is_primary"]]
                self.errors += [(code, span["file_name"], span["line_start"]) for span in spans] or [(code, None, 0)]


def numbers(text):
    """Line and column of a place, as `12:5`."""
    return tuple(map(int, text.split(":")))
