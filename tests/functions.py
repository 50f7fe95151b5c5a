"""The functions of a crate as they stand in its files: what each is called, which lines and which proof are its own, and how it is left with its contract alone."""

import re
import shutil
from functools import lru_cache
from pathlib import Path

from sources import TOP

HEAD = re.compile(r"(\s*)(?:pub(?:\([^)]*\))? )?(?:(?:const|unsafe|ghost) )*fn (\w+)")
OWNER = re.compile(r"(?:unsafe )?impl\b|(?:pub(?:\([^)]*\))? )?trait\b")
IS_DROP = re.compile(r"\bDrop for ")
TRAIT = re.compile(r"(?:pub(?:\([^)]*\))? )?trait (\w+)")

# How a clause of what a function ensures begins, with its name where it has one, and a declaration of a file of answers.
CLAUSE = re.compile(r"\s*ensures\*?(?: (\w+))? \{")
DECLARED = re.compile(r"(?m)^(?=(?:pub )?\S+ : )")

# The files of a function's proof that a person writes, where its proof isn't all by hand.
ANSWERS = ("Invariants.antt", "Answers.antt")
# A body that is of every type, and calls nothing. The borrow checker doesn't follow its pointer, so the prover makes no transition
# system of the function, which is half of what one with `loop {}` alone costs it.
NO_BODY = "let mut byte = 0u8; let place = &raw mut byte; unsafe { *place = 1; } loop {}"
# Its proof: the prover then takes the function by its contract, where it is told to check past holes. Of a hole it prints the goal, and
# that of a whole statement is long.
NO_PROOF = """use Rattle.{crate}.proofs.{path}.Statement.{{statement}}

pub {name}_spec : {{M : Type 1}} → statement M
{name}_spec = absurd ?
"""


class Unit:
    """What is proved as one: a function, or the cycle of functions that it is in."""

    def __init__(self, file, module, names, cycle, header, head, body):
        # The head's first row and the rows that open and close the body count from 0, and a check's lines from 1.
        self.file, self.cycle, self.header, self.head, self.body = file, cycle, header, head, body
        # Whether it stands in a trait, and is proved for each type, and whether it is what a type makes of a trait's.
        self.is_of_trait, self.is_for_trait = bool(TRAIT.match(header or "")), bool(header) and " for " in without_brackets(header)
        self.path = "::".join([*module, *names])
        # A closure of the function stands beside it in the module, below `fn`.
        self.closures = "::".join([*module, "fn", *names])
        above, _, name = self.path.rpartition("::")
        # One that calls itself is a cycle of its own.
        self.own_cycle = f"{above}::+{name}" if above else f"+{name}"
        self.key = ("cycle", cycle) if cycle else ("fn", self.path)

    def owns_line(self, file, line):
        return file == self.file and self.head < line <= self.body[1] + 1

    def owns_proof(self, file):
        """Whether the file is one of this function's proof: below proofs/ the folders are named as its path is."""
        folder = file[len("proofs/") :].rpartition("/")[0].replace("/", "::")
        # A cycle of functions has one proof.
        of_cycle = folder.rpartition("::")[2] == f"+{self.cycle}" or folder == self.own_cycle
        return folder == self.path or of_cycle or f"{folder}::".startswith(f"{self.closures}::")

    def owns_name(self, name):
        """Whether a check's line on this name speaks of the function, or of a closure in it."""
        return name == self.path or name.startswith(f"{self.closures}::")


def without_brackets(text):
    """The text without what stands between angle brackets, and those."""
    while True:
        less = re.sub(r"<[^<>]*>", "", text)
        if less == text:
            return text
        text = less


def type_word(text):
    """The word that rattle makes of a type in a path: its last name, and those of its arguments."""
    text = re.sub(r"'\w+\s*,?\s*", "", text.strip())
    text = re.sub(r"<\s*>", "", text)
    if text.startswith("&"):
        return "Ref" + type_word(text[1:].replace("mut ", "Mut", 1))
    return without_brackets(text).split("::")[-1].strip()


def owner_of(header, types=()):
    """What stands for an impl's type, or its type and trait, in a function's path: where a type has that name, with the type's arguments."""
    header = re.sub(r"\s+", " ", header).partition(" where ")[0].strip()
    header = re.sub(r"^(unsafe )?impl\b\s*", "", header)
    if header.startswith("<"):
        depth = 0
        for at, letter in enumerate(header):
            depth += (letter == "<") - (letter == ">" and header[at - 1] != "-")
            if not depth:
                header = header[at + 1 :].strip()
                break
    trait, is_of_trait, of = header.partition(" for ")
    if not is_of_trait:
        return type_word(header)
    if trait.strip() == "Drop":
        return type_word(of)
    inside = re.search(r"<(.*)>", trait)
    arguments = "".join(type_word(it) for it in inside[1].split(",")) if inside else ""
    name = type_word(of) + type_word(trait) + arguments
    # An impl's own parameters are called Any there.
    return type_word(of) + "Any" * (of.count(",") + 1) + type_word(trait) + arguments if name in types else name


def module_of(file):
    path = Path(file).with_suffix("").relative_to("src").as_posix()
    return [] if path in ("lib", "main") else path.split("/")


@lru_cache(maxsize=8)
def homes(room):
    """For the name of each struct and enum of the crate the files that have one: no edit moves a type to another file."""
    found = {}
    for file in sorted(room.glob("src/**/*.rt")):
        for it in re.findall(r"(?m)^\s*(?:pub(?:\([^)]*\))? )?(?:struct|enum) (\w+)\b", file.read_text(encoding="utf-8")):
            found.setdefault(it, set()).add(file.relative_to(room).as_posix())
    return found


def home_of(room, name, file):
    """The module of the crate's type of this name: a type's own methods are named by that, and not by where they stand."""
    found = homes(room).get(name, ())
    return module_of(*found) if len(found) == 1 else module_of(file)


def body_of(lines, head, indent):
    """The rows that open and close the body of the function with this head, or None where it has none."""
    for row in range(head, len(lines)):
        # Clauses, and parameters on lines of their own, stand further in than the head does.
        if not re.match(rf"{indent}\S", lines[row]):
            continue
        if lines[row].endswith("{}"):
            return row, row
        if lines[row].endswith("{"):
            return row, next((it for it in range(row, len(lines)) if lines[it].startswith(indent + "}")), row)
        if lines[row].endswith(";"):
            return None
    return None


def impl_of(lines, head):
    """The header of the impl or the trait that the function with this head stands in, or None."""
    for row in range(head, -1, -1):
        if OWNER.match(lines[row]):
            return "\n".join(lines[row : head + 1]).partition("{")[0]
    return None


def cycle_of(lines, head):
    """The cycle that the function with this head says it is in, or None."""
    cycle = None
    for row in range(head - 1, -1, -1):
        line = lines[row].strip()
        if not line.startswith(("#[", "//", "///")):
            break
        of = re.fullmatch(r"#\[cycle\((\w+)\)\]", line)
        cycle = of[1] if of else cycle
    return cycle


def attributes_of(lines, head):
    """The lines of what stands in brackets above the function with this head, as what its tactics may use, but for its cycle."""
    above = []
    for row in range(head - 1, -1, -1):
        line = lines[row].strip()
        if not line or line.endswith(("}", "{", ";")):
            break
        if not line.startswith(("//", "#[cycle(")):
            above.insert(0, lines[row])
    return above


def unit_at(room, file, text, at):
    """The function of the file that has this place in its head or its body, or None."""
    lines = text.split("\n")
    row = text.count("\n", 0, at)
    head = next((it for it in range(row, -1, -1) if HEAD.match(lines[it])), None)
    if head is None:
        return None
    indent, name = HEAD.match(lines[head]).groups()
    body = body_of(lines, head, indent)
    if body is None or body[1] < row:
        return None
    module, names = module_of(file), [name]
    header = impl_of(lines, head) if indent else None
    trait = TRAIT.match(header or "")
    if header:
        owner = trait[1] if trait else owner_of(header, homes(room))
        if not trait and (" for " not in without_brackets(header) or IS_DROP.search(header)):
            module = home_of(room, owner, file)
        names.insert(0, owner)
    return Unit(file, module, names, cycle_of(lines, head), header, head, body)


def units_of(room, path, text):
    """The functions of the file."""
    found = [unit_at(room, path, text, it.end()) for it in re.finditer(rf"(?m)^{HEAD.pattern}", text)]
    return [it for it in found if it]


def unit_named(room, name):
    """The function of this path in the crate."""
    for file in sorted(room.glob("src/**/*.rt")):
        for unit in units_of(room, file.relative_to(room).as_posix(), file.read_text(encoding="utf-8")):
            if unit.path == name:
                return unit
    return None


def can_be_copied(crate, room, unit):
    """Whether the function can stand in its file once more under another name, and its cycle with it: a trait's has its name from there, and a
    proof that others name, or that has files of more than its answers, isn't its own alone."""
    proofs = room / "proofs"
    if unit.is_of_trait or unit.is_for_trait or any(proofs.joinpath(*it.split("::")).exists() for it in (unit.closures, unit.own_cycle)):
        return False
    if unit.cycle and any(it.file != unit.file or it.header for it in cycle_with(room, unit)):
        return False
    own = proofs.joinpath(*proof_path(unit).split("::"))
    if own.is_dir() and any(it.name not in ANSWERS for it in own.iterdir()):
        return False
    paths = {proof_path(unit), *(it.path for it in cycle_with(room, unit))}
    return not any(is_named(crate, path, own.relative_to(room)) for path in paths)


@lru_cache(maxsize=1)
def texts_of(crate):
    """The folder and the text of each specification, proof and source of the crate as it stands, read once for all of its edits."""
    top = TOP / "crates" / crate
    files = [it for part in ("specs", "proofs", "src") for it in sorted((top / part).glob("**/*.*t"))]
    return [(it.parent.relative_to(top), it.read_text(encoding="utf-8")) for it in files]


def is_named(crate, path, own):
    """Whether a file of the crate that isn't in this folder names the function's own modules."""
    name, named = path.replace("::", "."), path_in_proofs(crate, path)
    # Most files have nothing of the name, which is found sooner than that the pattern fits nowhere.
    return any(name in text and named.search(text) for folder, text in texts_of(crate) if folder != own)


def proof_path(unit):
    """Where the function's proof stands below proofs/, or that of its cycle."""
    above = unit.path.rpartition("::")[0]
    return f"{above}::+{unit.cycle}".removeprefix("::") if unit.cycle else unit.path


def cycle_with(room, unit):
    """The functions of the function's cycle, or itself where it is in none."""
    if not unit.cycle:
        return [unit]
    files = ((it.relative_to(room).as_posix(), it.read_text(encoding="utf-8")) for it in sorted(room.glob("src/**/*.rt")))
    return [it for path, text in files for it in units_of(room, path, text) if it.cycle == unit.cycle]


def path_in_proofs(crate, path):
    """What names a function's own modules in a specification or a proof."""
    return re.compile(rf"(?<![\w.])(Rattle\.{crate}\.(?:proofs|specs\.contracts)\.){re.escape(path.replace('::', '.'))}(?![\w-])")


def copy_function(crate, room, unit, name, change):
    """Writes the function once more at the end of its file, under this name and with its lines changed by `change`, and its proof with it;
    where it is in a cycle, all that is.

    It has the contract that the function has, and no one else calls it."""
    file = room / unit.file
    whole = (TOP / "crates" / crate / unit.file).read_text(encoding="utf-8").split("\n")
    old = unit.path.rpartition("::")[2]
    suffix = name[len(old) :]
    members = cycle_with(room, unit)
    text = file.read_text(encoding="utf-8").rstrip("\n").split("\n")
    for it in members:
        lines = "\n".join(whole[it.head : it.body[1] + 1])
        lines = (change(lines) if it.path == unit.path else lines).split("\n")
        if unit.cycle:
            lines = [f"#[cycle({unit.cycle}{suffix})]", *(in_copy(members, suffix, row) for row in lines)]
        else:
            lines[0] = re.sub(rf"\bfn {old}\b", f"fn {name}", lines[0], count=1)
        lines = [*attributes_of(whole, it.head), *lines]
        text += ["", *([f"{unit.header.rstrip()} {{"] if unit.header else []), *lines, *(["}"] if unit.header else [])]
    file.write_text("\n".join([*text, ""]), encoding="utf-8")
    path, of = f"{unit.path.rpartition('::')[0]}::{name}".removeprefix("::"), proof_path(unit)
    proof = room.joinpath("proofs", *of.split("::"))
    if proof.is_dir():
        copy = proof.with_name(f"{proof.name}{suffix}")
        copy.mkdir()
        for it in proof.iterdir():
            named = path_in_proofs(crate, of).sub(rf"\g<1>{of.replace('::', '.')}{suffix}", it.read_text(encoding="utf-8"))
            (copy / it.name).write_text(in_copy(members, suffix, named) if unit.cycle else named, encoding="utf-8")
    return unit_named(room, path)


def in_copy(members, suffix, text):
    """The text with the names of these functions, which goals and steps have too, as they are in the copy of their cycle."""
    names = "|".join(re.escape(it.path.rpartition("::")[2]) for it in members)
    return re.sub(rf"(?<!\w)({names})(?!\w)", rf"\g<1>{suffix}", text)


def leave_contracts(crate, room, units):
    """Leaves each function of the copy with its contract alone, but these, those of their cycles, and what can't be left so.

    A function's proof rests on the contracts of those that it calls, and on nothing else of them, so it is accepted or refused
    as it would be beside their own bodies and proofs. The lines of the others stay where they are."""
    keys = {it.key for it in units}
    for file in sorted(room.glob("src/**/*.rt")):
        path = file.relative_to(room).as_posix()
        text = file.read_text(encoding="utf-8")
        lines, end = text.split("\n"), -1
        for unit in units_of(room, path, text):
            # A method of a trait is proved for each type, and one inside a body goes with that.
            if unit.head > end and not (unit.key in keys or unit.is_of_trait):
                leave_contract(crate, room, unit, lines)
            end = max(end, unit.body[1])
        file.write_text("\n".join(lines), encoding="utf-8")


def leave_contract(crate, room, unit, lines):
    """Takes the body of the function from these lines of its file, and puts a hole in place of its proof."""
    first, last = unit.body
    if last > first + 1:
        lines[first + 1 : last] = [NO_BODY] + [""] * (last - first - 2)
    proofs = room / "proofs"
    for path in (unit.closures, unit.own_cycle):
        shutil.rmtree(proofs.joinpath(*path.split("::")), ignore_errors=True)
    if unit.cycle:
        leave_cycle(proofs, unit, lines)
    # Below the folder of a function stands what is of a module with its name.
    own = proofs.joinpath(*unit.path.split("::"))
    own.mkdir(parents=True, exist_ok=True)
    for name in ANSWERS:
        (own / name).unlink(missing_ok=True)
    hole = NO_PROOF.format(crate=crate, path=unit.path.replace("::", "."), name=unit.path.rpartition("::")[2])
    (own / "Proof.antt").write_text(hole, encoding="utf-8")


def leave_cycle(proofs, unit, lines):
    """Takes the function out of its cycle: where no function of it has a body, none calls another. One that an edit changes keeps its whole cycle."""
    for row in range(unit.head - 1, -1, -1):
        if not lines[row].strip().startswith(("#[", "//")):
            break
        if lines[row].strip() == f"#[cycle({unit.cycle})]":
            lines[row] = ""
            break
    for proof in proofs.glob(f"**/+{unit.cycle}"):
        shutil.rmtree(proof)


def goals_answered(room, unit, goals):
    """Those of the goals that the function's own file of answers answers."""
    own = room.joinpath("proofs", *unit.path.split("::"), "Answers.antt")
    text = own.read_text(encoding="utf-8") if own.is_file() else ""
    return [it for it in goals if re.search(rf"(?m)^(?:pub )?{re.escape(it)} :", text)]


def leave_goals(crate, room, unit, goals):
    """Puts a hole in place of the proof of each of these goals of the function."""
    if not goals:
        return
    own = room.joinpath("proofs", *unit.path.split("::"), "Answers.antt")
    text = own.read_text(encoding="utf-8") if own.is_file() else f"use Rattle.{crate}.proofs.{unit.path.replace('::', '.')}.Goals as goal\n"
    own.parent.mkdir(parents=True, exist_ok=True)
    own.write_text(text + "".join(f"\npub {it} : goal.{it}\n{it} = absurd ?\n" for it in goals), encoding="utf-8")


def give_answers(crate, room, unit, answers, uses):
    """Gives each of these goals of the function, named with what its answer takes, this term for its answer, and brings what the terms name."""
    if not answers:
        return
    own = room.joinpath("proofs", *unit.path.split("::"), "Answers.antt")
    text = own.read_text(encoding="utf-8") if own.is_file() else f"use Rattle.{crate}.proofs.{unit.path.replace('::', '.')}.Goals as goal\n"
    own.parent.mkdir(parents=True, exist_ok=True)
    given = "".join(f"\npub {goal} : goal.{goal}\n{goal} {term}\n" for goal, term in answers)
    own.write_text("".join(f"{it}\n" for it in uses) + text + given, encoding="utf-8")


def clauses_of(lines, unit):
    """The clauses of what the function ensures, in these lines of its file: the name of each, or None, and the rows that it begins and ends on."""
    found, row = [], unit.head
    while row < unit.body[0]:
        clause, first = CLAUSE.match(lines[row]), row
        while clause and "".join(lines[first : row + 1]).count("{") > "".join(lines[first : row + 1]).count("}"):
            row += 1
        if clause:
            found.append((clause[1], first, row))
        row += 1
    return found


def leave_clauses(room, unit, kept):
    """Leaves of the clauses of what the function ensures those of these names alone, and of its answers those to goals of theirs.

    A body that is refused by some of the clauses is refused by all. The lines of the others are empty, so that all stand where they stood."""
    file = room / unit.file
    lines = file.read_text(encoding="utf-8").split("\n")
    clauses = clauses_of(lines, unit)
    left = [name for name, _, _ in clauses if name in kept]
    for name, first, last in clauses:
        if name not in kept:
            lines[first : last + 1] = [""] * (last + 1 - first)
        elif len(left) == 1:
            lines[first] = lines[first].replace(f" {name} {{", " {", 1)
    file.write_text("\n".join(lines), encoding="utf-8")
    own = room.joinpath("proofs", *unit.path.split("::"), "Answers.antt")
    if own.is_file():
        text = "".join(it for it in DECLARED.split(own.read_text(encoding="utf-8")) if clause_answered(it) in (None, *kept))
        # The goals of a clause that stands alone don't end in its name.
        if len(left) == 1:
            text = re.sub(rf"(?<![\w-])((?:goal\.)?returns[\w-]*)-clause-{left[0]}(?![\w-])", r"\1", text)
        own.write_text(text, encoding="utf-8")


def answers_all_clauses(room, unit):
    """Whether the function's own file of answers has one to a goal of all clauses together, which tells each of them."""
    own = room.joinpath("proofs", *unit.path.split("::"), "Answers.antt")
    return own.is_file() and re.search(r"(?m)^(?:pub )?returns(?!\S*-clause-)\S* : goal\.", own.read_text(encoding="utf-8")) is not None


def clause_of_goal(goal):
    """The name of the clause that the goal of what a function ensures is of, or None of another goal."""
    named = re.fullmatch(r"returns(?:-\S+)?-clause-(\w+)", goal)
    return named[1] if named else None


def clause_answered(declaration):
    """The name of the clause that the declaration is an answer to a goal of, or None."""
    goal = re.match(r"(?:pub )?(\S+) : goal\.", declaration)
    return clause_of_goal(goal[1]) if goal else None
