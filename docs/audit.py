#!/usr/bin/env python3
"""Lists the definitions that the contract of `vax_main` rests on, in the order in which they can be read, and the types of the code that they speak of.

Use: docs/audit.py [--check] TOP

Goes from the names of the contract's clauses through the files of definitions, by their `use` lines, and on to the structs and enums that these take
from src/. The lists stand in docs/AUDIT.md between two marks, and are written there anew; with --check nothing is written, and the answer is 1
where they would change.
"""
import argparse
import collections
import glob
import os
import re
import sys

BEGIN, END = "<!-- list -->\n", "<!-- end of the list -->\n"
START = "crates/vax_top/src/top.rt"
CALL = "pub fn vax_main"
WORD = re.compile(r"[^\s(){}.,;→λ×]+")
ITEM = re.compile(r"^(?:pub )?(abbrev|unfoldable|record|data|module)\b(.*)$")


def imports(text):
    """The names that a file has from others, each with its module and its name there; and the modules that have a name in it."""
    names, modules = {}, {}
    for line in re.findall(r"^(?:pub |ghost )?use (Rattle\.\S+?)(?:\.\{(.*?)\})?(?: as (\S+?))?;?$", text, re.M):
        module, inside, alias = line
        if inside:
            for part in inside.split(", "):
                there, _, here = part.partition(" as ")
                names[here or there] = (module, there)
        else:
            modules[alias or module.split(".")[-1]] = module
    return names, modules


class File:
    """A file of definitions: its items by name, each with its first and last line and the words that it has."""

    def __init__(self, path):
        self.path = path
        text = open(path).read()
        self.names, self.modules = imports(text)
        self.items, self.parts = {}, {}
        lines = text.split("\n")
        starts = []
        for i, line in enumerate(lines):
            found = ITEM.match(line)
            if found and found[1] != "module":
                name = re.sub(r"^pub ", "", found[2].strip()).split()[0]
                first = i
                while first > 0 and lines[first - 1].startswith("--"):
                    first -= 1
                starts.append((name, first, found[1]))
        for at, (name, first, kind) in enumerate(starts):
            last = starts[at + 1][1] if at + 1 < len(starts) else len(lines)
            body = [line for line in lines[first:last] if line.strip()]
            code = "\n".join(line for line in body if not line.startswith("--"))
            words = set(WORD.findall(code)) | set(re.findall(r"[\w']+\.[\w']+", code))
            self.items.setdefault(name, [0, set(), first])
            self.items[name][0] += len(body)
            self.items[name][1] |= words
            if kind == "data":
                for line in body:
                    constructor = re.match(r"\s+(\S+) :", line)
                    if constructor:
                        self.parts[constructor[1]] = name
            if kind == "record":
                for line in body:
                    part = re.match(r"\s+pub (\S+) :", line)
                    if part:
                        self.parts.setdefault(part[1], name)


TYPE = re.compile(r"^pub(?:\(crate\))? (struct|enum) (\w+)\b", re.M)


def types_of(top):
    """The structs and enums of src/, each by the module that definitions know it by: its file, and how many lines it has."""
    types = {}
    for path in glob.glob(top + "/crates/*/src/**/*.rt", recursive=True):
        part = os.path.relpath(path, top).split("/")
        inner = [] if part[3:] == ["lib.rt"] else ".".join(part[3:])[:-3].split(".")
        text = open(path).read()
        for found in TYPE.finditer(text):
            module = ".".join(["Rattle", part[1], "specs", "declared"] + inner + [found[2]])
            end = re.compile(r"^\}|;$", re.M).search(text, found.start())
            types[module] = (path, found[2], text[found.start() : end.end()].count("\n") + 1, found.start())
    return types


def types_table(top, crates, used):
    """The rows of these types, by their files."""
    by_file = collections.defaultdict(list)
    for path, name, count, at in used:
        by_file[os.path.relpath(path, top)].append((at, name, count))
    rows = ["\n| File | Types | Lines | Which |\n", "|---|---|---|---|\n"]
    for path in sorted(by_file, key=lambda p: (crates.index(p.split("/")[1]), p)):
        found = sorted(by_file[path])
        shown = " ".join(f"`{name}`" for _, name, _ in found[:6]) + (" .." if len(found) > 6 else "")
        rows.append(f"| [{path[7:]}](../{path}) | {len(found)} | {sum(count for _, _, count in found)} | {shown} |\n")
    lines = sum(count for _, _, count, _ in used)
    return "".join(rows) + f"\n{len(used)} types in {len(by_file)} files of code, {lines} lines.\n"


def main():
    arguments = argparse.ArgumentParser(description=__doc__.split("\n")[0])
    arguments.add_argument("--check", action="store_true")
    arguments.add_argument("top")
    said = arguments.parse_args()
    files = {}
    for path in glob.glob(said.top + "/crates/*/specs/**/*.antt", recursive=True):
        part = os.path.relpath(path, said.top).split("/")
        module = "Rattle." + part[1] + ".specs." + ".".join(part[3:])[:-5]
        files[module] = File(path)

    reached, order = set(), []
    types, used = types_of(said.top), set()

    def visit(module, name):
        if module.removesuffix(".TheVariants") in types:
            used.add(module.removesuffix(".TheVariants"))
        holder = files.get(module)
        if holder is None:
            return
        name = name if name in holder.items else holder.parts.get(name)
        if name is None:
            for aliased, there in [holder.names.get(name, (None, None))]:
                if aliased:
                    visit(aliased, there)
            return
        if (module, name) in reached:
            return
        reached.add((module, name))
        follow(holder, holder.items[name][1], module)
        order.append((module, name))

    def follow(holder, words, module=None):
        for word in sorted(words):
            head, _, rest = word.partition(".")
            if word in holder.names:
                visit(*holder.names[word])
            elif rest and head in holder.modules:
                visit(holder.modules[head], rest)
            elif head in holder.names:
                visit(*holder.names[head])
            elif module and head in holder.items and (module, head) not in reached:
                visit(module, head)

    text = open(os.path.join(said.top, START)).read()
    start = File.__new__(File)
    start.names, start.modules = imports(text)
    start.items = {}
    clause = text[text.index(CALL):]
    clause = clause[: clause.index("\n{\n")]
    follow(start, set(WORD.findall(clause)) | set(re.findall(r"[\w']+\.[\w']+", clause)))

    by_file, seen = {}, []
    for module, name in order:
        if module not in by_file:
            by_file[module] = []
            seen.append(module)
        by_file[module].append(name)
    rows = ["| File | Definitions | Lines | Which |\n", "|---|---|---|---|\n"]
    lines = 0
    crates = [l.split(":")[0] for l in open(said.top + "/crates.txt") if ":" in l and not l.startswith("#")]
    for module in sorted(seen, key=lambda m: (crates.index(m.split(".")[1]), seen.index(m))):
        holder = files[module]
        names = sorted(by_file[module], key=lambda n: holder.items[n][2])
        count = sum(holder.items[n][0] for n in names)
        lines += count
        path = os.path.relpath(holder.path, said.top)
        shown = " ".join(f"`{n}`" for n in names[:6]) + (" .." if len(names) > 6 else "")
        rows.append(f"| [{path[7:]}](../{path}) | {len(names)} | {count} | {shown} |\n")
    total = f"\n{len(order)} definitions in {len(seen)} files, {lines} lines with their comments.\n"
    told = types_table(said.top, crates, [types[module] for module in used])
    page = os.path.join(said.top, "docs/AUDIT.md")
    old = open(page).read()
    new = old[: old.index(BEGIN) + len(BEGIN)] + "".join(rows) + total + told + old[old.index(END):]
    if said.check:
        sys.exit(0 if new == old else 1)
    open(page, "w").write(new)
    print(total.strip())
    print(told.strip().split("\n")[-1])


if __name__ == "__main__":
    main()
