"""What the sources say of themselves: crates, files, public functions, and definitions.

It reads lines by their form, as `rt fmt` lays them out, and knows no more of the language.
"""

import os
import re
from collections import namedtuple

from calls import TOP

# A crate: the head of its group in crates.txt, and what it stands on.
Crate = namedtuple("Crate", "name group below")

# A public function, or a type that keeps facts: its name, its file, what it asks for, what it
# promises or keeps, and the first sentence of its comment. A clause without a name is "".
Item = namedtuple("Item", "name file asks says about")

# A definition: its names, and the lines at which it begins and ends, with its comment.
Definition = namedtuple("Definition", "names first last")

CRATES = os.path.join(TOP, "crates")


def lines_of(path):
    with open(path, encoding="utf-8") as file:
        return file.read().splitlines()


# ---- crates


def crates():
    """All crates, in the order of crates.txt."""
    found, group, before = [], "", ""
    for line in lines_of(os.path.join(TOP, "crates.txt")):
        if line.startswith("# "):
            # A comment about one crate is no head of a group.
            group = group if before or line.startswith("# lt_") else line[2:]
        elif line:
            name, _, below = line.partition(":")
            found.append(Crate(name.split()[0], group, below.split()))
        before = line
    return found


def is_tests(crate):
    return crate.endswith("_tests")


def called(all_crates):
    """The crates on which a program stands, and the programs."""
    below = {it.name: it.below for it in all_crates}
    found, left = set(), [it for it in below if not has_library(it)]
    while left:
        name = left.pop()
        if name in below and name not in found:
            found.add(name)
            left += below[name]
    return found


def has_library(crate):
    return os.path.exists(os.path.join(CRATES, crate, "src", "lib.rt"))


def files_in(crate, folder, ending):
    """The files of a crate's folder, as paths in that, in order."""
    root = os.path.join(CRATES, crate, folder)
    found = [os.path.join(at, it) for at, _, names in os.walk(root) for it in names]
    return sorted(os.path.relpath(it, root) for it in found if it.endswith(ending))


def count(crate, folder, ending):
    """How many lines the files of a crate's folder have."""
    root = os.path.join(CRATES, crate, folder)
    return sum(len(lines_of(os.path.join(root, it))) for it in files_in(crate, folder, ending))


# ---- comments


def first_sentence(lines):
    """The first sentence of a comment, whose signs are away, in one line."""
    text = " ".join(lines[: lines.index("")] if "" in lines else lines)
    found = re.match(r"(.*?[.:!?])(?:\s+(?=[A-Z`\[(])|$)", text)
    text = found[1] if found and not found[1].endswith(":") else text.partition(". ")[0]
    text = re.sub(r"\[(`[^`]*`)\](\([^)]*\))?", r"\1", text.strip())
    return text.rstrip(".:").replace("|", "\\|")


def head_of(crate, name):
    """What a file of code says of itself, in a sentence."""
    comment = []
    for line in lines_of(os.path.join(CRATES, crate, "src", name)):
        if not line.startswith("//!"):
            break
        comment.append(line[3:].strip())
    return first_sentence(comment)


def about(crate):
    """What a crate says of itself, in a sentence."""
    return head_of(crate, "lib.rt" if has_library(crate) else "main.rt")


def about_script(path):
    """What a script says of itself, in a sentence: at its beginning, or below its first line."""
    lines = [it for it in lines_of(path) if not it.startswith("#!")]
    if lines[0].startswith("#"):
        comment = [it[1:].strip() for it in lines[: lines.index(next_code(lines))]]
    else:
        comment = [it.strip().replace('"""', "") for it in lines]
    return first_sentence(comment)


def next_code(lines):
    """The first line that is no comment."""
    return next(it for it in lines if not it.startswith("#"))


def modules_of(crate):
    """The modules of definitions of a crate that are for its readers."""
    found = [os.path.splitext(it)[0] for it in files_in(crate, "specs", ".antt")]
    return [it for it in found if it not in ("Lib", "inner") and not it.startswith("inner/")]


# ---- public functions, and types that keep facts


def exported(lines):
    """The names that a crate's root hands out, and its public modules."""
    text = "\n".join(lines)
    names = set()
    for inner in re.findall(r"^pub use [^;]*?(\w+|\{[^}]*\});", text, re.M):
        names |= set(re.findall(r"\w+", inner.replace(" as ", ",")))
    return names, set(re.findall(r"^pub mod (\w+);", text, re.M))


def without_generics(text):
    """A text without a first list in angle brackets."""
    if not text.startswith("<"):
        return text.strip()
    depth = 0
    for at, sign in enumerate(text):
        depth += {"<": 1, ">": -1}.get(sign, 0) if text[at - 1 : at + 1] != "->" else 0
        if depth == 0:
            return text[at + 1 :].strip()
    return ""


def owner_of(head):
    """The type that an `impl` or a trait is about, and whether the `impl` is one of a trait."""
    if head.startswith("pub trait"):
        return re.match(r"pub trait (\w+)", head)[1], False
    about = without_generics(head[len("impl") :])
    trait, of, of_type = about.partition(" for ")
    name = re.match(r"(?:\w+::)*(\w+)", of_type if of else trait)
    return (name[1] if name else ""), bool(of)


FUNCTION = re.compile(r"( *)(pub )?(?:const |unsafe )*fn (\w+)")
CLAUSE = re.compile(r" +(requires|ensures)\b ?(\w*) ?(?:\{|$)")


def clauses_from(lines, at):
    """The names of what a function asks for and of what it promises; it begins in that line."""
    asks, says, depth = [], [], 0
    for line in lines[at:]:
        clause = CLAUSE.match(line)
        is_plain = depth == 0 and not clause
        if is_plain and line.endswith(("{", "{}")):
            break
        if clause and depth == 0:
            (asks if clause[1] == "requires" else says).append(clause[2])
        depth += 0 if line.lstrip().startswith("//") else line.count("{") - line.count("}")
        if depth == 0 and line.endswith(";"):
            break
    return asks, says


def items_of(path, name, wanted):
    """The items of a file. `wanted` says of a name at the file's top whether it is handed out."""
    lines = lines_of(path)
    found, comment, owner, of_trait, is_trait = [], [], None, False, False
    for at, line in enumerate(lines):
        function = FUNCTION.match(line)
        if re.match(r"impl\b|pub trait\b", line):
            (owner, of_trait), is_trait = owner_of(line), line.startswith("pub")
        elif line.startswith("pub struct"):
            kept = facts_of(lines, at)
            called_so = re.match(r"pub struct (\w+)", line)[1]
            if kept and wanted(called_so):
                found.append(Item(called_so, name, None, kept, first_sentence(comment)))
        elif function and function[1] in ("", "    "):
            is_inner = function[1] != ""
            asks, says = clauses_from(lines, at)
            is_open = function[2] or (is_inner and (is_trait or (of_trait and says)))
            if is_open and wanted(owner if is_inner else function[3]):
                full = f"{owner}::{function[3]}" if is_inner else function[3]
                found.append(Item(full, name, asks, says, first_sentence(comment or [""])))
        elif line == "}":
            owner, of_trait, is_trait = None, False, False
        if line.lstrip().startswith("///"):
            comment.append(line.strip()[3:].strip())
        elif not line.lstrip().startswith("#["):
            comment = []
    return found


def facts_of(lines, at):
    """The names of the facts that a struct keeps."""
    found = []
    for line in lines[at:]:
        fact = re.match(r"    (?:pub )?ghost (\w+):", line)
        found += [fact[1]] if fact else []
        if line.startswith("}") or line.endswith(";"):
            break
    return found


def public_items(crate):
    """The public functions of a crate, and its public types that keep facts."""
    if not has_library(crate):
        return []
    root = os.path.join(CRATES, crate, "src")
    names, modules = exported(lines_of(os.path.join(root, "lib.rt")))
    found = []
    for name in files_in(crate, "src", ".rt"):
        is_open = os.path.splitext(name)[0] in modules
        wanted = lambda it: it in names or is_open
        found += items_of(os.path.join(root, name), name, wanted)
    return found


# ---- definitions

BEGINS = re.compile(r"(?:abbrev|unfoldable|pub|data|record|mutual)\b")
NAMED = re.compile(r"(?:(?:abbrev|unfoldable|pub|data|record) )+([^\s:({]+)")
MEMBER = re.compile(r" {2,4}(?:pub )?(?:data |record )?([^\s:({]+)(?: [({].*)? : ")
WORD = re.compile(r"(?:\b\w+\.)?[^\W\d][\w'-]*")


def definitions(lines):
    """The definitions of a module, in turn. Those that need each other are one."""
    starts = [at for at, it in enumerate(lines) if BEGINS.match(it) and not is_of_modules(it)]
    found = []
    for first, end in zip(starts, [*starts[1:], len(lines)]):
        head = lines[first]
        named = NAMED.match(head)
        names = [named[1]] if named and named[1] != "mutual" else []
        last = comment_from(lines, end)
        if re.search(r"\bmutual\b|\bdata\b", head):
            members = [MEMBER.match(it) for it in lines[first + 1 : last]]
            names += [it[1] for it in members if it]
        found.append(Definition(names, comment_from(lines, first), last))
    return found


def is_of_modules(line):
    return re.match(r"(?:pub )?(?:use|mod)\b", line) is not None


def comment_from(lines, at):
    """Where the comment begins that stands right before a line; blank lines before it aren't it."""
    while at > 0 and lines[at - 1].startswith("--"):
        at -= 1
    return at


USE = re.compile(r"(?:pub )?use ([^\s{]+?)\.?(?:\{(.*)\})?(?: as (\S+))?$")


def uses(lines):
    """What a module takes from others: by its own word for it, the module and the name there. A
    module with a word of its own stands under that word and a point."""
    found = {}
    for line in lines:
        use = USE.match(line)
        if use is None:
            continue
        for name in (use[2] or "").split(","):
            there, _, here = name.strip().partition(" as ")
            found[here or there] = (use[1], there)
        if use[3]:
            found[f"{use[3]}."] = (use[1], "")
    return found


def path_of(module):
    """The file of a module of this repository; None where it is another."""
    words = module.split(".")
    path = os.path.join(CRATES, *words[1:]) + ".antt"
    return path if words[0] == "Rattle" and os.path.exists(path) else None


class Module:
    """A module of definitions."""

    def __init__(self, path):
        self.lines = lines_of(path)
        self.uses = uses(self.lines)
        self.definitions = definitions(self.lines)
        self.by_name = {name: it for it in self.definitions for name in it.names}

    def mentioned(self, definition):
        """What a definition names: a name of this module, or a pair of a module and a name."""
        text = "\n".join(re.sub(r"^ *--.*", "", it) for it in self.slice(definition))
        for word in set(WORD.findall(re.sub(r'"[^"]*"', "", text))):
            before, point, last = word.rpartition(".")
            if point and f"{before}." in self.uses:
                yield self.uses[f"{before}."][0], last
            for name in [before] if point else [last]:
                if name in self.uses:
                    yield self.uses[name]
                elif name in self.by_name:
                    yield None, name

    def slice(self, definition):
        return self.lines[definition.first : definition.last]


Reached = namedtuple("Reached", "modules types others")


def reached(roots):
    """What some definitions rest on: by module its lines and those of its definitions, with the
    roots; the types of the code; and modules that aren't of this repository. A root is a pair of a
    module and a name."""
    read, found, types, others, left = {}, {}, set(), set(), list(roots)
    while left:
        module, name = left.pop()
        path = path_of(module)
        if ".declared." in module:
            types.add(module.partition(".TheVariants")[0])
        elif path is None:
            others.add(module)
        else:
            if module not in read:
                read[module] = Module(path)
            here = read[module]
            definition = here.by_name.get(name)
            if definition is None:
                left += [here.uses[name]] if name in here.uses else []
            elif definition not in found.setdefault(module, []):
                found[module].append(definition)
                left += [(it or module, name) for it, name in here.mentioned(definition)]
    sizes = {it: sum(one.last - one.first for one in found[it]) for it in found}
    return Reached({it: (sizes[it], len(read[it].lines)) for it in found}, types, others)


def roots_of(crate, name, functions):
    """What the clauses of some functions of a file name, as pairs of a module and a name."""
    lines = lines_of(os.path.join(CRATES, crate, "src", name))
    taken = uses([it.strip()[len("ghost ") :].rstrip(";") for it in lines if "ghost use" in it])
    found = set()
    for function in functions:
        first = next(at for at, it in enumerate(lines) if re.match(rf"(pub )?fn {function}\b", it))
        last = lines.index("{", first)
        words = re.findall(r"[\w-]+", " ".join(lines[first:last]))
        found |= {taken[it] for it in words if it in taken}
    return sorted(found)
