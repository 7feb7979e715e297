"""What an ELF file has to say beside the definitions of its functions: their instructions, names of addresses, bytes that are loaded from constant addresses."""
from mc import disassembly, elf, notation
from mc.notation import is_plain
from mc.syntax import LOADS, Form, Number, exit_text


class Beside:
    """An ELF file beside some groups of a text."""

    def __init__(self, image, groups):
        self.image = image
        self.warnings = list(self._warnings(groups))
        ranges = [(address, address + len(code)) for group in groups for address, code in group.code if image.bytes_at(address, len(code)) == code]
        try:
            self.instructions = disassembly.instructions(image.path, ranges)
        except disassembly.NoDisassembler as bad:
            self.instructions = {}
            self.warnings.append(str(bad))

    def _warnings(self, groups):
        if self.image.position_independent:
            yield f"{self.image.path} is position independent: a loader moves it, and changes pointers in its data"
        for group in groups:
            if any(self.image.bytes_at(address, len(code)) != code for address, code in group.code):
                yield f"the code of {group.name} isn't that of {self.image.path}"

    def place(self, address):
        """An address, with the name of the function that begins there."""
        name = self.image.functions.get(address)
        return f"{exit_text(address)} <{elf.printable(name)}>" if name else exit_text(address)

    def code(self, addresses):
        """The instructions at these addresses, a line each."""
        return [f"{address:x}: {self.instructions[address]}" for address in sorted(addresses) if address in self.instructions]

    def all_code(self, group):
        """The instructions of a function, where no proof tells which definition has which."""
        return self.code(address for first, code in group.code for address in range(first, first + len(code)))

    def notes(self, terms):
        """What the file has for the loads from constant addresses in these terms, and the names of other addresses of data in them."""
        parts = list(dict.fromkeys(part for term in terms for part in notation.inner(term)))
        loads = [part for part in parts if isinstance(part, Form) and part.name in LOADS and is_plain(part.parts[0]) and isinstance(part.parts[1], Number)]
        loaded = {load.parts[1] for load in loads}
        numbers = [part for part in parts if isinstance(part, Number) and part.value >= notation.SMALL and part not in loaded]
        others = [part for part in numbers if self.image.bytes_at(part.value, 1) is not None and not self.image.is_executable(part.value)]
        notes = [self.loaded(load.parts[1].value, int(load.name[2])) for load in loads]
        notes += [f"{part.value:#x}: {self.told(part.value)}" for part in others if self.told(part.value)]
        return list(dict.fromkeys(notes))

    def loaded(self, address, size):
        """The word that the file has at an address."""
        found = self.image.bytes_at(address, size)
        if found is None:
            return f"nothing of the file at {address:#x}"
        told = self.told(address)
        writable = "writable: may have changed" if self.image.is_writable(address, size) else ""
        return f"in the file {int.from_bytes(found, 'little'):#x}" + f" ({'; '.join(filter(None, [told, writable]))})" * bool(told or writable)

    def told(self, address):
        """The symbol and the section of an address, as far as there are any."""
        return ", ".join(elf.printable(name) for name in (self.image.place(address), self.image.section_at(address)) if name)
