#!/usr/bin/env python3
"""What has to be believed: the definitions that the contracts of offered calls cite, and those that they are made of, by file with
their lines (comments, blanks and imports aside), as a table. With --check FILE: is that table what FILE has?"""
import re
import sys
from pathlib import Path

ROOT = Path(__file__).resolve().parent.parent
TOKEN = re.compile(r"[^\s(){}\[\],;.λ⌜⌝⟦⟧«»←]+")


def imports(text):
    """The names that `use` lines bring in: each with the module it stands for and the name there ('' for the module itself)."""
    names = {}
    for path, group, alias in re.findall(r"^(?:ghost )?use (Rattle\.\S+?)(?:\.\{([^}]*)\})?(?: as (\S+?))?;?$", text, re.M):
        if not group:
            names[alias or path.split(".")[-1]] = (path, "")
        for item in filter(None, (i.strip() for i in group.split(","))):
            name, _, other = item.partition(" as ")
            names[other or name] = (path, name)
    return names


def module_file(path):
    """The file of a module of definitions; None for declared types, which stand in the code."""
    crate, _, rest = path.removeprefix("Rattle.").partition(".")
    if crate == "std" or not rest.startswith("specs.") or rest.startswith("specs.declared."):
        return None
    return ROOT / "crates" / crate / "specs" / (rest.removeprefix("specs.").replace(".", "/") + ".antt")


class File:
    """A file of definitions: paragraphs, and the paragraph in which each name is declared."""

    def __init__(self, path):
        text = path.read_text()
        self.imports = imports(text)
        self.paragraphs, self.declares = [], {}
        for block in re.split(r"\n\s*\n", text):
            lines = [l for l in block.split("\n") if not re.match(r"\s*(--|use |infix|module )", l)]
            head = re.match(r"\s*(?:abbrev |unfoldable )?(?:pub )?(data |record )?([^\s:({]+)", "\n".join(lines))
            if not head:
                continue
            names = [head[2]] + (re.findall(r"^\s+(\S+) :", "\n".join(lines[1:]), re.M) if head[1] == "data " else [])
            for name in names:
                self.declares.setdefault(name, len(self.paragraphs))
            self.paragraphs.append((names[0], lines))


def said(text, names):
    """Those of some names that a text has: a name with gaps, as if◌then◌else◌, by its parts; `do` has `◌>>=◌`."""
    tokens = set(TOKEN.findall(text))
    tokens |= {">>="} if "do" in tokens else set()
    return [name for name in names if name in tokens or "◌" in name and set(filter(None, name.split("◌"))) <= tokens]


def offered():
    """Crate and name of each offered call, as docs/PLEDGES.md has them."""
    for crate, calls in re.findall(r"^\| (\w+) \| ([^|]*) \| offered", (ROOT / "docs/PLEDGES.md").read_text(), re.M):
        for call in re.findall(r"`([^`]*)`", calls):
            yield crate, call.split("(")[0].split("::")[-1]


def contract(crate, name):
    """The clauses of a function, and what its file brings in."""
    for path in sorted((ROOT / "crates" / crate / "src").glob("*.rt")):
        text = path.read_text()
        found = re.search(r"^ *pub fn " + name + r"\(.*?^ *\{$", text, re.M | re.S)
        if found:
            return "".join(re.findall(r"^ *(?:requires|ensures)\b.*", found[0], re.M | re.S)), imports(text)
    raise SystemExit(f"believed: {crate} has no {name}")


def closure():
    """The files of definitions, and the paragraphs of each that are cited."""
    files, cited, waiting = {}, {}, []

    def cite(text, known):
        for name in said(text, known):
            path = module_file(known[name][0])
            if path and known[name][1]:
                waiting.append((path, known[name][1]))
            elif path:
                waiting.extend((path, other) for other in re.findall(re.escape(name) + r"\.([^\s(){}.,]+)", text))

    for crate, name in offered():
        cite(*contract(crate, name))
    while waiting:
        path, name = waiting.pop()
        if path not in files:
            files[path], cited[path] = File(path), set()
        file = files[path]
        at = file.declares.get(name)
        if at is None or at in cited[path]:
            continue
        cited[path].add(at)
        text = "\n".join(file.paragraphs[at][1])
        cite(text, file.imports)
        waiting += [(path, other) for other in said(text, file.declares)]
    return files, cited


def table():
    files, cited = closure()
    rows, total = [], 0
    for path in sorted(cited):
        paragraphs = [files[path].paragraphs[at] for at in sorted(cited[path])]
        lines = sum(len(lines) for _, lines in paragraphs)
        total += lines
        names = ", ".join(f"`{name}`" for name, _ in paragraphs)
        spec = path.parts[-3] == "spec"
        rows.append(f"| {path.parts[-3]}/{path.stem} | {len(paragraphs) if spec else names} | {lines} |")
    return "\n".join(rows + [f"| all | | {total} |"]) + "\n"


if __name__ == "__main__":
    if sys.argv[1:2] == ["--check"]:
        if table() not in Path(sys.argv[2]).read_text():
            raise SystemExit(f"believed: {sys.argv[2]} does not have this table:\n{table()}")
    else:
        print(table(), end="")
