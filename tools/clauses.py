"""What the crates promise, as the sources say it: the public calls and types with their comments and clauses.

`tools/documents --write` makes docs/CLAUSES.md of it.
"""
import collections
import functools
import glob
import os
import re

TOP = os.path.dirname(os.path.dirname(os.path.realpath(__file__)))
DOCUMENT = "docs/CLAUSES.md"

# A clause: its kind (`ensures`, `requires`, `invariant` or `fact`), its name or "", the comment above it, and its text.
Clause = collections.namedtuple("Clause", "kind name comment text")
# A public call or type: its path, its file, its doc comment and its clauses.
Item = collections.namedtuple("Item", "path file comment clauses")

HEAD = """# Every clause of every public call

Made from the sources by `tools/documents --write`; `tools/check` looks that it is what they give. The crates are in the
order of `crates.txt`. A call has its comment, then its premises (`requires`) and its clauses, each with
its name and, where it has one, its comment. A type has its invariant, and the facts that its values carry. Public is what a crate's root
exports, with the public methods of its types, those of its traits, and those with clauses by which a type implements a trait;
of a program, what other modules of it may call.
{clauses:,} clauses of {calls:,} calls and types. [PROVED](PROVED.md) has the order in which to read them; the names
that they cite are definitions of the crates' `specs/`.

A clause on success says nothing of failure. `D.honest` is the premise that this kind of disk behaves as `Disk` says,
`D.records` that it records its past moments; both are true of the program's disk (`has_a_model` of psu_durability). A
*possible crash image* is one for which `IsCrashImage` holds: each byte that is not flagged as unsynced is as it was.
`HasFailed` is a counted failure: the disk's count of failed calls rose since the call began, or is at its last value.
`DiskStep` says of a disk that its size stays, that the count stays where the call succeeds, that it never falls, and that
an error for which the disk is the cause has a counted failure. `LeavesImages` says of a property that each possible crash
image has it: honest, after the call; recording, at each moment since it began.
"""


@functools.lru_cache(maxsize=None)
def text_of(path):
    with open(os.path.join(TOP, path), encoding="utf-8") as file:
        return file.read()


def sources_of(crate):
    """The files of a crate's code, in order."""
    found = glob.glob(os.path.join(TOP, "crates", crate, "src", "**", "*.rt"), recursive=True)
    return sorted(os.path.relpath(it, TOP) for it in found)


def crates_in_order():
    """The crates of this repository, in the order of crates.txt."""
    names = re.findall(r"^(psu\w*)\b[^:\n]*:", text_of("crates.txt"), re.M)
    return [it for it in names if os.path.isdir(os.path.join(TOP, "crates", it))]


def is_library(crate):
    return os.path.isfile(os.path.join(TOP, f"crates/{crate}/src/lib.rt"))


def exported_by(crate):
    """The names that a crate's root exports."""
    root = text_of(f"crates/{crate}/src/lib.rt")
    lists = re.findall(r"^pub use ([^;]*);", root, re.M) + re.findall(r"^pub mod (\w+);", root, re.M)
    return set(re.findall(r"\b\w+\b(?!::)", " ".join(lists)))


def owner_of(head):
    """The type or trait whose block a line opens, and the trait that it is or implements, or ""; none of another line."""
    head = re.sub(r"<(?:[^<>]|<(?:[^<>]|<[^<>]*>)*>)*>", "", head)
    found = re.match(r"(?:pub(?:\(crate\))? )?(impl|trait) (\w+)(?: for &?(?:mut )?(\w+))?", head)
    if not found:
        return None, ""
    if found[3]:
        return found[3], found[2]
    return found[2], found[2] if found[1] == "trait" else ""


def end_of_braces(text, begin):
    """Where the braces end whose content begins at a place."""
    depth, at = 1, begin
    while depth and at < len(text):
        depth += {"{": 1, "}": -1}.get(text[at], 0)
        at += 1
    return at


def comment_above(lines, number, mark):
    """The comment that ends above a line, its attributes left out."""
    found = []
    for line in reversed(lines[:number]):
        line = line.strip()
        if line.startswith(mark) and (mark == "///" or not line.startswith("///")):
            found.append(line[len(mark) :].strip())
        elif mark == "//" or not line.startswith("#["):
            break
    return " ".join(reversed(found))


def without_breaks(text):
    return re.sub(r"\s+", " ", text).strip()


def clauses_below(lines, number):
    """The clauses of the function whose head begins in a line."""
    if re.search(r"[{;]\s*$", lines[number]):
        return
    at = number + 1
    while at < len(lines) and not re.match(r"\s*\{|\}", lines[at]):
        head = re.match(r"\s+(ensures|requires)(?:\s+(\w+))?\s*\{", lines[at])
        if not head:
            if re.search(r"[{;]\s*$", lines[at]):
                return
            at += 1
            continue
        rest = "\n".join(lines[at:])
        end = end_of_braces(rest, head.end())
        yield Clause(head[1], head[2] or "", comment_above(lines, at, "//"), without_breaks(rest[head.end() : end - 1]))
        at += rest[:end].count("\n") + 1
        if re.match(r"\s*;", rest[end:]):
            return


def functions_of(crate, path, exported):
    """The public functions and methods of a file that have clauses."""
    module, owner, trait = os.path.basename(path)[: -len(".rt")], None, ""
    lines = text_of(path).split("\n")
    for number, line in enumerate(lines):
        if re.match(r"(pub(\(crate\))? )?(impl|trait)\b", line):
            owner, trait = owner_of(line)
        elif line.startswith("}"):
            owner, trait = None, ""
        head = re.match(r"(\s*)(pub(?:\(crate\))? )?(?:const )?fn (\w+)", line)
        if not head or not is_public(head, owner, trait, module, exported):
            continue
        clauses = list(clauses_below(lines, number))
        if clauses:
            name = f"{owner}::{head[3]}" if head[1] else head[3]
            place = os.path.basename(path) + (f", as {trait}" if trait not in ("", owner) else "")
            yield Item(name, place, comment_above(lines, number, "///"), clauses)


def is_public(head, owner, trait, module, exported):
    """Whether a function is what a crate's root exports; of a program, which exports nothing, whether it is not private."""
    inside, public, name = head.groups()
    if exported is None:
        return bool(public or trait)
    if inside:
        return owner in exported and bool(public == "pub " or trait)
    return public == "pub " and bool({name, module} & exported)


def types_of(path, exported):
    """The public types of a file that have an invariant, or whose values carry facts."""
    text = text_of(path)
    lines = text.split("\n")
    facts = collections.defaultdict(list)
    for head in re.finditer(r"^pub struct (\w+)[^;{(]*\{", text, re.M):
        body = text[head.end() : end_of_braces(text, head.end())]
        for found in re.finditer(r"^\s+ghost (\w+): \{", body, re.M):
            said = body[found.end() : end_of_braces(body, found.end()) - 1]
            facts[head[1]].append(Clause("fact", found[1], "", without_breaks(said)))
    for head in re.finditer(r"^impl.* Model for (\w+)[^{]*\{", text, re.M):
        body = text[head.end() : end_of_braces(text, head.end())]
        found = re.search(r"^\s+ghost invariant = \{", body, re.M)
        if found:
            said = body[found.end() : end_of_braces(body, found.end()) - 1]
            facts[head[1]].append(Clause("invariant", "", "", without_breaks(said)))
    for name, clauses in facts.items():
        if exported is None or name in exported:
            at = next((it for it, line in enumerate(lines) if re.match(rf"pub (struct|enum) {name}\b", line)), None)
            yield Item(name, os.path.basename(path), comment_above(lines, at, "///") if at is not None else "", clauses)


@functools.lru_cache(maxsize=None)
def items_of(crate):
    """The public types and calls of a crate that have clauses."""
    exported = exported_by(crate) if is_library(crate) else None
    found = []
    for path in sources_of(crate):
        found += [*types_of(path, exported), *functions_of(crate, path, exported)]
    return found


def line_of(clause):
    """A clause as a line of the document."""
    name = {"ensures": f"`{clause.name or 'result'}`: ", "requires": "requires: ", "invariant": "invariant: "}
    begin = name.get(clause.kind, f"`{clause.name}`, a fact: ")
    comment = clause.comment + " " if clause.comment else ""
    return f"- {begin}{comment}`{clause.text}`"


def parts_of(crate):
    """The lines of a crate's part of the document."""
    root = "lib.rt" if is_library(crate) else "main.rt"
    first = re.match(r"(?://! ?(.*)\n)+", text_of(f"crates/{crate}/src/{root}"))
    words = " ".join(re.findall(r"^//! ?(.*)$", first[0], re.M)) if first else ""
    yield f"\n## {crate}\n\n{without_breaks(words)}"
    for item in items_of(crate):
        yield f"\n**`{item.path}`** ({item.file}) {item.comment}".rstrip() + "\n"
        yield from map(line_of, item.clauses)


def counts():
    """How many clauses there are, premises not counted, and of how many calls and types."""
    items = [it for crate in crates_in_order() for it in items_of(crate)]
    return sum(sum(clause.kind != "requires" for clause in it.clauses) for it in items), len(items)


def document():
    """The text of docs/CLAUSES.md that the sources give."""
    clauses, calls = counts()
    lines = [HEAD.format(clauses=clauses, calls=calls).rstrip()]
    for crate in crates_in_order():
        if items_of(crate):
            lines += parts_of(crate)
    return "\n".join(lines) + "\n"
