#!/usr/bin/env python3
"""What one has to believe: the definitions that a public function's contract cites, and those that these cite in turn.

usage: tests/closure.py [--list] [--opaque NAME,..] CRATE::FUNCTION ..

For each function it prints how many definitions those are, their lines without comments, and the files that they stand in; with
--list each of them too. A definition that is named by --opaque counts, but what it cites doesn't. What std and the kit's crates
define, and types and constants of Rust, are not counted.
"""
import argparse
import collections
import pathlib
import re
import sys

TOP = pathlib.Path(__file__).resolve().parent.parent
USE = re.compile(r"(?:ghost |pub )*use\s+(Rattle\.[\w.-]+?)(?:\.\{(.*)\}|\s+as\s+(\S+))?;?\s*$")
HEAD = re.compile(r"(?:(?:abbrev|pub|record|data|opaque|unfoldable)\s+)*([^\s:(){};,]+)")
WORD = re.compile(r"[^\s(){}\[\],;→λ×⊎≡≢≤<↔∷∧∨¬=|↦]+")


def imports(line):
    """The names that a use line brings in, each with the module and the name that it stands for there."""
    found = USE.match(line.strip())
    if not found:
        return {}
    module, names, alias = found.groups()
    if names is None:
        return {alias or module.rpartition(".")[2]: (module, None)}
    said = {}
    for each in names.split(","):
        name, _, other = each.strip().partition(" as ")
        said[other.strip() or name.strip()] = (module, name.strip())
    return said


class Module:
    """A file of definitions: what it brings in, and the text of each definition."""

    def __init__(self, path):
        self.path, self.brought, self.texts = path, {}, collections.defaultdict(list)
        name, margin = None, 0
        for line in path.read_text(encoding="utf-8").splitlines():
            if line.startswith(("use ", "pub use ")):
                self.brought.update(imports(line))
                continue
            if not line.strip() or line.lstrip().startswith(("--", "pub mod ", "infix")):
                continue
            indent = len(line) - len(line.lstrip())
            if indent == 0:
                # what stands in such a block is indented once
                margin = 2 if line.startswith(("mutual", "abbrev mutual", "module ")) else 0
            if indent == margin and (head := HEAD.match(line.strip())):
                name = head[1]
            if indent or not margin:
                self.texts[name].append(line.split(" -- ")[0])


PASSED = re.compile(r"pub use (Rattle\.\S+\.specs(?:\.cat_\w+)*) as (cat_\w+)$", re.M)


class Modules(dict):
    """Files of definitions by name, also by the names under which crates pass them on."""

    def __init__(self, top):
        self.passed = {}
        for lib in sorted(top.glob("crates/*/specs/Lib.antt")):
            for target, name in PASSED.findall(lib.read_text(encoding="utf-8")):
                self.passed[f"Rattle.{lib.parts[-3]}.specs.{name}"] = target

    def own(self, name):
        """The name of a module where it stands."""
        parts = name.split(".")
        for end in range(4, len(parts) + 1):
            front = ".".join(parts[:end])
            if front in self.passed:
                return self.own(".".join([self.passed[front], *parts[end:]]))
        return name

    def __contains__(self, name):
        return super().__contains__(self.own(name))

    def __getitem__(self, name):
        return super().__getitem__(self.own(name))


def modules(top):
    """Each file of definitions of the repository, by the name that proofs know it under."""
    found = Modules(top)
    for path in sorted(top.glob("crates/*/specs/**/*.antt")):
        crate, _, *rest = path.relative_to(top / "crates").with_suffix("").parts
        found[".".join(["Rattle", crate, "specs", *rest])] = Module(path)
    return found


def words(text):
    """The words of a text, each with what stands before its first dot."""
    for word in WORD.findall(text):
        yield word.partition(".")[0]
        yield word


def cited(known, at, text):
    """The definitions of the repository that a text of a module cites."""
    module = known[at]
    for word in words(text):
        if word in module.texts:
            yield at, word
        elif word in module.brought:
            other, name = module.brought[word]
            if name is None:
                continue
            if other in known:
                yield from named(known, other, name)


def named(known, at, name):
    """The definition of that name, in the module or where the module has it from."""
    module = known[at]
    if name in module.texts:
        yield known.own(at), name
    elif name in module.brought and module.brought[name][0] in known:
        yield from named(known, *module.brought[name])


def contract(path, function):
    """The clauses of a function of Rust, and the names that its file brings in for them."""
    text, brought = path.read_text(encoding="utf-8"), {}
    for line in text.splitlines():
        if line.lstrip().startswith("ghost use"):
            brought.update(imports(line))
    found = re.search(rf"(?m)^ *pub fn {function}\b.*?^ *\{{", text, re.S)
    return brought, re.sub(r"//.*", "", found[0]) if found else None


def closure(known, roots, opaque):
    """All that the roots cite, and what these cite in turn."""
    found, left = set(roots), list(roots)
    while left:
        at, name = left.pop()
        if name in opaque:
            continue
        for each in cited(known, at, "\n".join(known[at].texts[name])):
            if each not in found:
                found.add(each)
                left.append(each)
    return found


def roots_of(known, place):
    """The definitions that the contract of a function cites."""
    crate, function = place.split("::")
    for path in sorted((TOP / "crates" / crate / "src").rglob("*.rt")):
        brought, clauses = contract(path, function)
        if clauses and "ensures" in clauses:
            return {it for word in words(clauses) if word in brought and brought[word][1] and brought[word][0] in known
                    for it in named(known, *brought[word])}
    sys.exit(f"closure: no public function {function} with a contract in {crate}")


def show(known, place, opaque, lists):
    found = closure(known, roots_of(known, place), opaque)
    lines = {it: len(known[it[0]].texts[it[1]]) for it in found}
    files = sorted({it[0] for it in found})
    print(f"{place}: {len(found)} definitions, {sum(lines.values())} lines, {len(files)} files, {len({it.split('.')[1] for it in files})} crates")
    for at in files:
        mine = sorted(it for it in found if it[0] == at)
        print(f"  {sum(lines[it] for it in mine):5} {known[at].path.relative_to(TOP)}")
        if lists:
            print(f"        {' '.join(it[1] for it in mine)}")


def main():
    asked = argparse.ArgumentParser(usage=__doc__.split("usage: ")[1].splitlines()[0])
    asked.add_argument("--list", action="store_true")
    asked.add_argument("--opaque", default="")
    asked.add_argument("places", nargs="+")
    given = asked.parse_args()
    known = modules(TOP)
    for place in given.places:
        show(known, place, set(given.opaque.split(",")), given.list)


if __name__ == "__main__":
    main()
