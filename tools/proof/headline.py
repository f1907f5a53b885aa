#!/usr/bin/env python3
"""Prints what one must read to understand `Book::headline`: its clauses, and all definitions that they cite.

    tools/proof/headline.py [FUNCTION]

FUNCTION is a function of crates/mesh_mutator/src/book.rt, by default headline; another is act.

The output has the clauses, and then each file with its lines and the names of its definitions, in the order in which a
reader meets them. Definitions that are cited only indirectly are included. The definitions that only the clauses
`sound` and `tied` cite follow by themselves: only the laws of refusals need them. The last lines count the definitions
and their lines, without comments and empty lines.

Definitions of the toolchain's library and the enums of crates/model_words/src are not counted. The status is 1 if a
definition isn't found. Run it from the top of the repository. docs/PROOF.md has its figures.
"""
import pathlib
import re
import sys

BOOK = pathlib.Path("crates/mesh_mutator/src/book.rt")
# The clauses of `headline` that only the laws of refusals need.
FOR_REFUSALS = ("sound", "tied")


def uses(text, own):
    """Each name that a file imports or defines, with its module and its name there; `own` is the file's own module."""
    found = {}
    for module, names in re.findall(r"^(?:ghost |pub )*use Rattle\.([\w.«»]+)\.\{([^}]*)\}", text, re.M):
        for name in names.split(","):
            name, _, alias = name.strip().partition(" as ")
            found[alias or name] = (module, name)
    for name in definitions(text):
        found[name] = (own, name)
    return found


def definitions(text):
    """The lines of each definition of a spec file, by its name, without comments."""
    found = {}
    for block in re.split(r"\n\s*\n", text):
        lines = [line for line in block.split("\n") if line.strip() and not line.strip().startswith("--")]
        if not lines or re.match(r"(pub )?use |pub mod ", lines[0]):
            continue
        head = next((line for line in lines if re.match(r"(abbrev|unfoldable|pub|record|data)\b", line)), None)
        if head is None:
            continue
        name = re.sub(r"^(abbrev |unfoldable |pub |record |data )+", "", head).split()[0]
        found[name] = lines
    return found


def module_file(module):
    """The spec file of a module of this repository, or None."""
    crate, _, rest = module.partition(".specs.")
    file = pathlib.Path("crates") / crate / "specs" / (rest.replace(".", "/") + ".antt")
    return file if rest and "declared" not in rest and file.exists() else None


def cited(lines, known):
    """The names in `known` that the lines cite, in their order."""
    text = "\n".join(lines)
    found = []
    for token in re.finditer(r"[A-Za-z_][A-Za-z0-9_']*|[^\sA-Za-z0-9_(){}.,;λ]+", text):
        for name in (token.group(), f"◌{token.group()}◌"):
            if name in known and name not in found:
                found.append(name)
    return found


def constructors(text):
    """For each constructor in a spec file, the name of its `data`. Constructors are lines of their own."""
    found = {}
    for name, lines in definitions(text).items():
        if any(re.match(r"pub data |data ", line) for line in lines):
            for line in lines[1:]:
                match = re.match(r"\s+([A-Za-z_]\w*)\s*:", line)
                if match:
                    found[match.group(1)] = name
    return found


def clauses(function):
    """The `ensures` clauses of a function of the book, and the names that its file imports."""
    text = BOOK.read_text()
    start = text.index(f"pub fn {function}(")
    body = text[start:text.index("\n    {\n", start)]
    return re.findall(r"^\s+ensures .*(?:\n\s{12,}.*)*", body, re.M), uses(text, "")


def is_for_refusals(head):
    """Whether only the laws of refusals need a clause."""
    name = re.match(r"\s*ensures (\w+) \{", head)
    return name.group(1) in FOR_REFUSALS if name else False


def reach(heads, known, seen):
    """The definitions that these clauses cite, directly or not, and that aren't in `seen` yet, which gets them.

    Of each definition: its file, its name, and its number of lines.
    """
    order = []
    pending = [known[name] for name in cited(heads, known)]
    while pending:
        module, name = pending.pop(0)
        file = module_file(module)
        if file is None:
            continue
        text = file.read_text()
        name = constructors(text).get(name, name)
        if (file, name) in seen:
            continue
        seen.add((file, name))
        found = definitions(text)
        if name not in found:
            sys.exit(f"{file} has no definition of {name}")
        order.append((file, name, len(found[name])))
        names = uses(text, module)
        pending[:0] = [names[it] for it in cited(found[name], names) if names[it] != (module, name)]
    return order


def print_files(order):
    """Prints the definitions, file by file."""
    files = {}
    for file, name, lines in order:
        files.setdefault(file, []).append((name, lines))
    print()
    for file, names in files.items():
        print(f"{file}, {sum(lines for _, lines in names)} lines:")
        print("  " + ", ".join(name for name, _ in names))


def count(order):
    """The number of definitions and of their lines, as text."""
    return f"{len(order)} definitions, {sum(lines for *_, lines in order)} lines"


def main():
    function = sys.argv[1] if len(sys.argv) > 1 else "headline"
    heads, known = clauses(function)
    print(f"Book::{function}: {len(heads)} clauses")
    for head in heads:
        print(" ", re.sub(r"\s+", " ", head.strip()))
    seen = set()
    own = reach([head for head in heads if not is_for_refusals(head)], known, seen)
    refusals = reach([head for head in heads if is_for_refusals(head)], known, seen)
    print_files(own)
    if refusals:
        print("\nOnly for the laws of refusals:", end="")
        print_files(refusals)
    print()
    print(f"{count(own)}")
    if refusals:
        print(f"and {count(refusals)} that only {' and '.join(FOR_REFUSALS)} cite")


main()
