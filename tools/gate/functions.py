"""The functions of a crate, by the names that a check prints, as the toolchain's `rt plant` reads them."""
import os
import re

from gate.kit import load_script, place

CYCLE = re.compile(rb"#\[cycle\((\w+)\)\]")


class Function:
    """A function with a body, but no trait's own."""

    def __init__(self, folder, source, read):
        self.file, data, block = read.file, source.data[read.file], read.block
        module, inner = [*read.module], [read.name]
        if block:
            owner, trait = (words_of(it, block.generics) for it in (block.ty, block.trait))
            homes = source.declared.get(owner[0], [])
            # (a type's own functions stand in its module)
            module = [*homes[0][0]] if len(homes) == 1 and not trait else module
            inner = ["".join([*owner, *trait]) if trait else "+".join(owner), read.name]
        # Its modules, its type or impl, and its name; these as a check prints them; how names of closures in it begin.
        self.names = [*module, *inner]
        self.name, self.closures = "::".join(self.names), "::".join([*module, "fn", *inner, ""])
        # The lines where it begins, where its body opens and where it ends.
        self.first, self.opens, self.last = (data.count(b"\n", 0, it) for it in (read.start, read.opens, read.end))
        # The folder of its proof; the cycle of calls that it is in, or is by itself; and what is proved as one.
        at, self.folder = "/".join(["proofs", *self.names[:-1]]), "/".join(["proofs", *self.names])
        cycle, calls_itself = CYCLE.search(data, read.first, read.start), os.path.isdir(f"{folder}/{at}/+{read.name}")
        self.cycle = cycle[1].decode() if cycle else read.name if calls_itself else None
        self.unit = f"+{self.cycle}" if self.cycle else self.name

    def holds(self, file, line):
        """Whether this is a line of its body, and of nothing before it."""
        return file == self.file and (self.opens < line <= self.last or self.first == line == self.last)

    def owns(self, name):
        """Whether this is its name, or that of a closure in it."""
        return name == self.name or name.startswith(self.closures)

    def owns_file(self, path):
        """Whether a file of proofs/ belongs to its proof, its cycle's, or to that of a closure in it."""
        closures = f"proofs/{self.closures.replace('::', '/')}"
        return path.startswith((f"{self.folder}/", closures)) or bool(self.cycle) and f"/+{self.cycle}/" in path


def functions_of(crate):
    """The functions of a crate, and the texts of its sources. Where a name isn't the one that a check prints, the check
    says so."""
    source = load_script(place("rt-plant-bodies"), "rt_plant_bodies").Source(crate.folder)
    source.read(f"src/{'main' if crate.is_program else 'lib'}.rt")
    found = [it for it in source.functions if it.has_body and not (it.block and it.block.is_trait)]
    texts = {file: data.decode() for file, data in sorted(source.data.items())}
    return [Function(crate.folder, source, it) for it in found], texts


def words_of(tokens, generics):
    """The words of a type or a trait in such a name: its own, and those of its arguments but for parameters, lifetimes
    and what stands there by a path."""
    cut = tokens.index("<") if "<" in tokens else len(tokens)
    inside = zip(tokens[cut:], tokens[cut + 1 :], [*tokens[cut + 2 :], ""])
    words = [it for before, it, behind in inside if it.isidentifier() and ":" not in (before, behind)]
    return [*tokens[cut - 1 : cut], *(it[0].upper() + it[1:] for it in words if it not in (*generics, "mut", "dyn"))]
