#!/usr/bin/env python3
"""What one has to believe is one folder: the definitions that the theorem and `serve` cite, and those that these cite in turn.

usage: tests/believed.py

It prints how many they are, with their lines and files (tests/closure.py says how they are counted), and how many names more than one
module of specs defines. It fails where a definition stands outside crates/cat_model/specs, but for the files of OUTSIDE; where there are
more lines than a bound; where README.md or docs/THEOREM.md says other figures; where another module defines the name of one of them; and
where more than MOST_DOUBLE other names are defined twice.
"""
import collections
import re
import sys

import closure

FOLDER = "crates/cat_model/specs/"
OUTSIDE = {
    "crates/cat_base/specs/Bytes.antt": "the bytes of numbers, which code below the model spells too",
    "crates/cat_base/specs/Refusals.antt": "the number of each refusal, which is a type of the code",
    "crates/cat_base/specs/Texts.antt": "a sorted list of texts, each once, which code below the model makes too",
    "crates/cat_directory/specs/Names.antt": "what a directory tells, by the model's names in place of the code's",
    "crates/cat_items/specs/Reading.antt": "how JSON is read, by what serde_json makes of a text",
    "crates/cat_protocol/specs/serving/Serving.antt": "how `serve` ended, by the model's names",
}
# How many names may have two definitions that nobody has to believe: as `Asked`, what each of the two programs is asked for.
MOST_DOUBLE = 20
FIGURES = re.compile(r"\b([\d,]+) definitions, ([\d,]+) lines\b")
DOCS = ["README.md", "docs/THEOREM.md"]

Judged = collections.namedtuple("Judged", "place opaque bound")
JUDGED = [
    # What the theorem says of these is all that one needs of them: `serve` ensures the first three, which alone speak of JSON.
    Judged("cat_service::the_catalogue_holds", {"ServesIn", "IsServedIn", "BeginsFrom", "json"}, 720),
    Judged("cat_service::serve", set(), 1600),
]


def number(said):
    return int(said.replace(",", ""))


def faults_of(known, judged):
    """Prints the figures of one contract; answers its definitions, the figures, the files, and what is wrong with them."""
    found = closure.closure(known, closure.roots_of(known, judged.place), judged.opaque)
    lines = sum(len(known[at].texts[name]) for at, name in found)
    files = sorted({str(known[at].path.relative_to(closure.TOP)) for at, _ in found})
    print(f"{judged.place}: {len(found)} definitions, {lines:,} lines, {len(files)} files")
    faults = [f"{judged.place} cites {it}, outside {FOLDER}" for it in files if not it.startswith(FOLDER) and it not in OUTSIDE]
    if lines > judged.bound:
        faults.append(f"{judged.place} cites {lines:,} lines, more than {judged.bound:,}")
    return found, (len(found), lines), set(files), faults


def doubles_of(known, believed):
    """Prints how many names more than one module defines; answers which of these stand for what one has to believe, or are too many."""
    modules = collections.defaultdict(set)
    for at, module in known.items():
        for name in module.texts:
            modules[name].add(at)
    doubles = {name for name, places in modules.items() if len(places) > 1}
    meant = {name for _, name in believed}
    others = sorted(doubles - meant)
    print(f"names with more than one definition: {len(doubles & meant)} of those to believe, {len(others)} others, of at most {MOST_DOUBLE}")
    faults = [f"{name} means more than one thing: {', '.join(sorted(modules[name]))}" for name in sorted(doubles & meant)]
    if len(others) > MOST_DOUBLE:
        faults.append(f"{len(others)} names have more than one definition, more than {MOST_DOUBLE}: {', '.join(others)}")
    return faults


def main():
    known = closure.modules(closure.TOP)
    believed, figures, cited, faults = set(), set(), set(), []
    for judged in JUDGED:
        found, figure, files, wrong = faults_of(known, judged)
        believed |= found
        figures.add(figure)
        cited |= files
        faults += wrong
    faults += doubles_of(known, believed)
    faults += [f"{it} is cited no longer, so it needs no exception" for it in sorted(set(OUTSIDE) - cited)]
    for doc in DOCS:
        text = (closure.TOP / doc).read_text(encoding="utf-8")
        said = {(number(one), number(other)) for one, other in FIGURES.findall(text)}
        if said != figures:
            faults.append(f"{doc} says {sorted(said)}, and not {sorted(figures)}")
    for each in faults:
        print(f"FAILED: {each}", file=sys.stderr)
    passed = len(JUDGED) + len(DOCS) + 1
    print(f"{max(0, passed - len(faults))} passed, {len(faults)} failed")
    return 1 if faults else 0


if __name__ == "__main__":
    sys.exit(main())
