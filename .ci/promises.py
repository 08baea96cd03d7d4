"""What docs/PROOFS.md and the crates' front pages name of what is proved: functions, clauses, definitions. .ci/texts imports
this. It reads texts alone, and proves nothing.

A front page is the comment at the head of src/lib.rt. There each bullet of the part 'What is proved' ends with the calls that
keep its promise, and their clauses:

    - A refusal changes nothing (`Stream::take`, `cut`: `value`, `no_memory` (`state_cut`); `clear_fault`).

- Groups have ';' between them. A group is calls, and after ':' clauses. Each clause is an `ensures` of one of these calls or of
  the trait's that it is of, and each call has one of them. Without ':' each call has just one clause, and that has no name.
- A call is a public function of the crate, or, after 'within the crate', one that isn't. One of another crate is named with it,
  as `tr_chunk::archive_name`. What it stands in goes for the calls after it too, until another one is named.
- A type is in place of a call if what is said is its 'invariant', or the 'rule' of a table that it keeps.
- What is in parentheses after a call, a clause, 'invariant' or 'rule' is definitions of specs/, or parts of them.

Each public function that has a clause with a name, that changes what it is lent, or whose body is empty, so that its contract
is a law, is named in its crate's front page."""
import collections
import dataclasses
import functools
import glob
import importlib.machinery
import importlib.util
import itertools
import os
import re
import sys

TOP = os.path.dirname(os.path.dirname(os.path.abspath(__file__)))
# a name in a document: of a function or a type, with what it is in, or of a definition, with a part of it
NAME = re.compile(r"`((?:\w+::)*\w+(?:\.\w+)*)`")
CLAUSE = re.compile(r"^ *(?:ensures|requires)\*? (\w+) \{", re.M)
ENSURES = re.compile(r"^ *ensures\*? (\w* ?)\{", re.M)
DEFINITION = re.compile(r"^( *)(?:(?:pub|abbrev|unfoldable|record|data) )+([^\W\d][\w-]*)", re.M)
# the parts of a definition: what is further in than it, before a colon
PARTS = re.compile(r"^ +(?:pub )?([^\W\d][\w ]*?) : ", re.M)
TYPE = re.compile(r"^ *(?:pub(?:\([a-z]+\))? )?(?:struct|enum|trait|type|ghost) (\w+)", re.M)


def module_at(path):
    """The script at this path as a module: no file is made beside it."""
    sys.dont_write_bytecode = True
    loader = importlib.machinery.SourceFileLoader(os.path.basename(path), path)
    made = importlib.util.module_from_spec(importlib.util.spec_from_loader(loader.name, loader))
    sys.modules[loader.name] = made
    loader.exec_module(made)
    return made


names = module_at(f"{TOP}/.ci/edit-names")
edits = names.edits


# What there is in the tree


@dataclasses.dataclass
class Function:
    """A function by all that it stands in, as a check prints it, with its trait if it stands in one; the names of its
    clauses, the names in its contract, those of its `ensures` ('' for one without), whether other crates can call it, and
    whether it makes a promise that its crate's front page has to have."""

    place: str
    trait: str
    clauses: set
    cites: set
    ensures: list
    is_public: bool
    is_promise: bool

    @property
    def crate(self):
        return self.place.partition("::")[0]

    @property
    def owner(self):
        return self.place.rpartition("::")[2]


def is_promise(piece, ensures):
    """Whether a function has a clause with a name, changes what it is lent, or is a law: its body is empty."""
    head = re.split(r"\n *(?:requires|ensures)\*? ", piece, maxsplit=1)[0]
    return any(ensures) or bool(ensures) and bool(re.search(r"&(?:'\w+ )?mut ", head) or re.search(r"^ *\{\}$", piece, re.M))


def has_page(crate):
    """Whether the crate is a library: a program's calls are nobody else's."""
    return os.path.exists(f"{crate.folder}/src/lib.rt")


def can_be_called(crate, public, function, piece, trait):
    """Whether other crates, or C, can call this function: one of a trait if they can name the type, or the trait."""
    name = names.called(crate, function)
    owner = function.split("::")[-2]
    if names.LEFT_OUT.fullmatch(crate.name) or 'extern "C"' in piece.partition("\n")[0]:
        return bool(names.PUBLIC.match(piece))
    if name in public:
        return True
    type_name = name.partition(".")[0]
    is_of_trait = "." in name and owner != type_name and not owner.startswith(f"{type_name}+")
    return (trait or type_name if trait or is_of_trait else "") in names.exports(crate)[1]


@functools.cache
def functions():
    """The functions of all crates, by their names."""
    found = collections.defaultdict(list)
    for crate in edits.all_crates().values():
        public = names.public_functions(crate)
        for path in edits.sources(crate.folder):
            trait = ""
            for name, piece in edits.pieces(crate, path, edits.read(f"{crate.folder}/{path}")):
                place, _, last = name.rpartition("::")
                contract = re.split(r"^ *\{\}?$|\A.* \{$", piece, maxsplit=1, flags=re.M)[0]
                cites = set(re.findall(r"\b[A-Z]\w+", contract))
                ensures = [it.strip() for it in ENSURES.findall(contract)]
                is_public = bool(name) and has_page(crate) and can_be_called(crate, public, name, piece, trait)
                clauses, says = set(CLAUSE.findall(contract)), is_promise(piece, ensures)
                found[last].append(Function(place, trait, clauses, cites, ensures, is_public, says))
                # (what is in a trait is called by its module)
                trait = [trait, *re.findall(r"^(?:(?:pub )?(?:unsafe )?trait (\w+)|\}$)", piece, re.M)][-1]
    return found


@functools.cache
def definitions():
    """The parts of all definitions of specs/, by their names."""
    found = collections.defaultdict(set)
    for path in glob.glob(f"{TOP}/crates/*/specs/**/*.antt", recursive=True):
        text = edits.read(path)
        for it in DEFINITION.finditer(text):
            is_below = re.compile(rf"$|{it[1]} ").match
            below = "\n".join(itertools.takewhile(is_below, text[it.end() :].split("\n")[1:]))
            found[it[2]] |= {word for words in PARTS.findall(below) for word in words.split()}
    return found


@functools.cache
def sources():
    """The texts of all sources, by their paths."""
    return {path: edits.read(path) for path in glob.glob(f"{TOP}/crates/*/src/**/*.rt", recursive=True)}


@functools.cache
def types():
    """The types and traits of all crates, what a contract sees of them, and the modules."""
    found = {name for text in sources().values() for name in TYPE.findall(text)}
    return found | {os.path.basename(it).removesuffix(".rt") for it in sources()}


def called(name, owner):
    """The functions of this name, in that type, trait, module or crate if one is named."""
    stands_in = re.compile(rf"(?:^|::){owner}(?:\b|[A-Z+])")
    return [it for it in functions().get(name, ()) if not owner or stands_in.search(it.place) or it.trait == owner]


def is_in_module(function):
    """Whether this function stands in a module, and in no type or trait."""
    return not function.trait and function.owner[:1].islower()


def of_traits(name, function):
    """The functions of this name in the traits that this one is of."""
    return [it for it in functions()[name] if it.trait and it.trait in function.owner[1:]]


# The tables of docs/PROOFS.md


def promised(found):
    """The clauses of these functions, those of the traits that they are of, and the parts of what they cite."""
    clauses = set()
    for name, it in found:
        for each in (it, *of_traits(name, it)):
            clauses |= each.clauses.union(*(definitions().get(cited, set()) for cited in each.cites))
    return clauses


def named_in(cell, owner=""):
    """The names in a cell: each as it stands there, what it stands in, its last word, and its parts. What a function stands
    in goes for the functions after it too, until another one is named."""
    for name in NAME.findall(cell):
        *path, last = name.split("::")
        first, *parts = last.split(".")
        owner = path[-1] if path else owner
        yield name, owner if path or called(first, owner) else "", first, parts


def promised_by(cells):
    """What the functions and types that these cells name, and all of a crate that they name, promise by name."""
    found_names = [it for cell in cells for it in named_in(cell)]
    found = [(first, it) for _, owner, first, _ in found_names for it in called(first, owner)]
    wholes = {first for _, _, first, _ in found_names if first in types()} | set(re.findall(r"\btr_\w+", " ".join(cells)))
    found += [(name, it) for whole in wholes for name in functions() for it in called(name, whole)]
    return promised(found).union(*(definitions().get(first, set()) for _, _, first, _ in found_names))


def is_call(first, owner, named_types):
    """Whether this is a function of its owner; without one, of a module or of one of these types, or a type or a module."""
    if owner:
        return bool(called(first, owner))
    is_free = any(is_in_module(it) for it in functions().get(first, ()))
    return is_free or first in types() or any(called(first, it) for it in named_types)


def wrong_row(calls, clauses):
    """What isn't there of what a row names in these cells, of calls and of clauses. One cell has both in a table without a
    column of calls."""
    promises = promised_by([calls, clauses])
    for cell in dict.fromkeys([calls, clauses]):
        found_names = list(named_in(cell))
        named_types = {first for _, _, first, _ in found_names if first in types()}
        for name, owner, first, parts in found_names:
            # (a definition of one small word is easily taken for a call or a clause)
            is_defined = first in definitions() and (first[0].isupper() or "_" in first and cell == clauses)
            is_promise = not owner and (is_defined or first in promises and cell == clauses)
            has_parts = set(parts) <= definitions().get(first, set())
            if not has_parts or not is_promise and not is_call(first, owner, named_types):
                yield f"no {name}"


def wrong_proofs():
    """What isn't there of what the tables of docs/PROOFS.md name."""
    rows = re.findall(r"^\| (.*) \|$", edits.read(f"{TOP}/docs/PROOFS.md"), re.M)
    for row in rows:
        _, calls, *clauses = re.split(r" \| ", row)
        for what in wrong_row(calls, *(clauses or [calls])):
            yield f"docs/PROOFS.md: {what}: | {row[:60]} .."
    if not rows:
        yield "docs/PROOFS.md: no table"


# Front pages


ITEM = re.compile(r"`((?:\w+::)*\w+)`(?: \((.*)\))?|(invariant|rule)(?: \((.*)\))?")
WITHIN = "within the crate "


def split_at(mark, text):
    """The parts of a text between marks that are in no parentheses and no code."""
    parts, depth = [""], 0
    for token in re.findall(rf"`[^`]*`|{re.escape(mark)}|[()]|.", text):
        depth += (token == "(") - (token == ")")
        if token == mark and not depth:
            parts.append("")
        else:
            parts[-1] += token
    return parts


def bullets_of(crate):
    """The bullets of the part 'What is proved' of a crate's front page, each in one line."""
    page = "".join(re.findall(r"^//! ?(.*\n)", edits.read(f"{crate.folder}/src/lib.rt"), re.M))
    part = re.search(r"^# What is proved$(.*?)(?=^# |\Z)", page, re.M | re.S)
    found = re.findall(r"^- .*(?:\n  +\S.*)*", part[1] if part else "", re.M)
    return [re.sub(r"\s+", " ", it) for it in found]


def carriers(bullet):
    """What a bullet says at its end of calls and clauses: the text in its last parentheses; none if it doesn't end so."""
    depth = 0
    for at in range(len(bullet) - 2, -1, -1):
        depth += (bullet[at] == ")") - (bullet[at] == "(")
        if not depth:
            return bullet[at + 1 : -2] if bullet.endswith(").") else ""
    return ""


def items_of(text):
    """The names in a part of a group, each with the definitions in parentheses after it; None where one isn't read."""
    for part in split_at(", ", text):
        it = ITEM.fullmatch(part)
        yield (it[1] or it[3], it[2] or it[4] or "", bool(it[3])) if it else None


def wrong_definitions(text):
    """Of these definitions, and parts of definitions, those that specs/ don't have."""
    for name in text.split(", ") if text else []:
        it = re.fullmatch(r"`([\w-]+)(?:\.(\w+))?`", name)
        parts = definitions().get(it[1]) if it else None
        if parts is None or it[2] and it[2] not in parts:
            yield f"no definition {name}"


def found_as(crate, name, owner):
    """The functions of a crate that a front page names so, after this owner, and the owner after that. Of another crate they
    are if it is named."""
    *path, last = name.split("::")
    home = path.pop(0) if path and path[0] in edits.all_crates() else crate.name
    mine = [it for it in functions().get(last, ()) if it.crate == home]
    owner = path[-1] if path else owner
    found = [it for it in called(last, owner) if it in mine] if owner else []
    if not found and not path:
        found = [it for it in mine if is_in_module(it)]
    return last, found, owner


def promises_of(name, function):
    """The clauses of a function, and of the traits that it is of: '' is one without a name."""
    return [clause for it in (function, *of_traits(name, function)) for clause in it.ensures]


SAID = {"invariant": "ghost invariant = ", "rule": "ghost holds = "}


def lacks(crate, name, what, cited):
    """What isn't there of an invariant, or a rule, of this type of the crate, that names these definitions."""
    home = [text for path, text in sources().items() if path.startswith(f"{crate.folder}/")]
    impls = [it for text in home for it in re.findall(rf"^impl\b[^{{]* for {name}\b[^{{]*{{.*?^}}", text, re.M | re.S)]
    said = next((it for it in impls if SAID[what] in it), "")
    if not said:
        yield f"{name} has no {what}"
    yield from (f"no {it} there" for it in re.findall(r"`(\w+)", cited) if not re.search(rf"\b{it}\b", said))


def wrong_calls(crate, calls, clauses, is_within, owner):
    """What is wrong with a group's calls, by its clauses; and last the owner after them."""
    promised_here = set()
    is_type = [it for it in clauses if it[2]]
    for name, cited, _ in calls:
        yield from wrong_definitions(cited)
        if is_type and name in types() and not called(name, ""):
            yield from (lack for it in is_type for lack in lacks(crate, name, it[0], it[1]))
            continue
        last, found, owner = found_as(crate, name, owner)
        if not found:
            yield f"no call {name}"
        elif not is_within and not any(it.is_public for it in found):
            yield f"{name} isn't public"
        elif is_within and any(it.is_public for it in found):
            yield f"{name} is public"
        own = {clause for it in found for clause in promises_of(last, it)}
        promised_here |= own
        if found and not clauses and any(promises_of(last, it) != [""] for it in found):
            yield f"{name} hasn't just one clause, without a name"
        if found and clauses and not is_type and not own & {it[0] for it in clauses}:
            yield f"{name} has none of these clauses"
    for clause, cited, is_word in clauses:
        yield from wrong_definitions(cited)
        if not is_word and clause not in promised_here:
            yield f"no clause {clause} of these calls"
    yield owner


def groups_of(bullet):
    """The groups at a bullet's end: what is read of each, whether it is of calls within the crate, and the items of its calls
    and of its clauses."""
    said = carriers(bullet)
    for group in split_at("; ", said) if said.startswith(("`", WITHIN)) else []:
        calls, *clauses = split_at(": ", group.removeprefix(WITHIN))
        yield group, group.startswith(WITHIN), list(items_of(calls)), [it for text in clauses for it in items_of(text)]


def wrong_bullet(crate, bullet):
    """What is wrong with the calls and clauses at a bullet's end."""
    owner = None
    for group, is_within, calls, clauses in groups_of(bullet):
        owner = owner or ""
        if None in calls or None in clauses:
            yield f"isn't read: {group}"
        else:
            *wrong, owner = wrong_calls(crate, calls, clauses, is_within, owner)
            yield from wrong
    if owner is None:
        yield "no calls at its end"


def names_in(crate, bullet):
    """The functions that a bullet names at its end, as edits are called by them."""
    owner = ""
    for _, _, calls, _ in groups_of(bullet):
        for name, *_ in filter(None, calls):
            last, found, owner = found_as(crate, name, owner)
            yield from (names.called(crate, f"{it.place}::{last}") for it in found if it.crate == crate.name)


def wrong_front_page(crate):
    """What isn't there of what a crate's front page names, and what it doesn't name of what it has to."""
    bullets = bullets_of(crate)
    for bullet in bullets:
        yield from (f"{what}: {bullet[:60]} .." for what in wrong_bullet(crate, bullet))
    if not bullets and names.LEFT_OUT.fullmatch(crate.name):
        return
    named = {name for bullet in bullets for name in names_in(crate, bullet)}
    for last, found in functions().items():
        wanted = [it for it in found if it.crate == crate.name and it.is_public and it.is_promise]
        missing = {names.called(crate, f"{it.place}::{last}") for it in wanted} - named
        yield from (f"{it} isn't named" for it in sorted(missing))


def wrong_front_pages():
    for crate in edits.all_crates().values():
        if has_page(crate):
            yield from (f"crates/{crate.name}/src/lib.rt: {it}" for it in wrong_front_page(crate))
