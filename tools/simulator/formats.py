"""Words, instructions, record and outlet entries, packed lists, and programs read from bytes."""

from collections import namedtuple

WORD_LIMIT = 1 << 32
MOST_COUNT = 4096


class Refused(Exception):
    """A question was answered with no. `place` is told for questions 1 to 5 only."""

    def __init__(self, number, place=None):
        super().__init__(number, place)
        self.number = number
        self.place = place

    def text(self):
        if self.place is None:
            return f"refused {self.number}"
        return f"refused {self.number} at {self.place}"


# Opcode -> name and the fields that the instruction names.
INSTRUCTION_SET = [
    ("HALT", ""),
    ("SET", "dn"),
    ("ADD", "dab"),
    ("SUB", "dab"),
    ("MEAN", "dab"),
    ("LOAD", "dan"),
    ("STORE", "abn"),
    ("JUMP", "n"),
    ("JZ", "an"),
    ("JLT", "abn"),
    ("BEGIN", ""),
    ("END", ""),
    ("RETRY", ""),
    ("EARLY", ""),
    ("OUT", "an"),
]
OPCODES = {name: opcode for opcode, (name, _) in enumerate(INSTRUCTION_SET)}
FIELDS = dict(INSTRUCTION_SET)
JUMPS = ("JUMP", "JZ", "JLT")

# An unnamed field is 0.
Instruction = namedtuple("Instruction", "name d a b n", defaults=(0, 0, 0, 0))
RecordEntry = namedtuple("RecordEntry", "core mark count")
SentEntry = namedtuple("SentEntry", "channel word")


def pack_instruction(instruction):
    """The instruction's word."""
    return (
        OPCODES[instruction.name] << 27
        | instruction.d << 24
        | instruction.a << 21
        | instruction.b << 18
        | instruction.n
    )


def unpack_instruction(word, place=0):
    """Questions 2 and 3; `place` is what a refusal tells."""
    opcode = word >> 27
    fields = {
        "d": word >> 24 & 7,
        "a": word >> 21 & 7,
        "b": word >> 18 & 7,
        "n": word & 0x3FFFF,
    }
    if opcode >= len(INSTRUCTION_SET):
        raise Refused(2, place)
    name, named = INSTRUCTION_SET[opcode]
    if any(value != 0 for field, value in fields.items() if field not in named):
        raise Refused(3, place)
    if name == "OUT" and fields["n"] > 255:
        raise Refused(3, place)
    return Instruction(name, **fields)


def instruction_text(instruction):
    words = [instruction.name]
    for field in FIELDS[instruction.name]:
        value = getattr(instruction, field)
        words.append(str(value) if field == "n" else f"R{value}")
    return " ".join(words)


def pack_entry(entry):
    return entry.core << 29 | entry.mark << 27 | entry.count


def unpack_entry(word):
    """Question 18."""
    mark = word >> 27 & 3
    spare = word >> 16 & 0x7FF
    count = word & 0xFFFF
    if mark > 2 or spare != 0 or count > MOST_COUNT:
        raise Refused(18)
    return RecordEntry(word >> 29, mark, count)


def pack_sent(entry):
    return bytes([entry.channel]) + entry.word.to_bytes(4, "big")


def unpack_sent(five):
    return SentEntry(five[0], int.from_bytes(five[1:5], "big"))


class Kind:
    """A kind of entry: its number of bytes, and how one is packed, unpacked and shown."""

    def __init__(self, size, pack, unpack, show):
        self.size = size
        self.pack = pack
        self.unpack = unpack  # takes the bytes and the place that a refusal may tell
        self.show = show


def show_instruction(instruction):
    return f"{instruction_text(instruction)} = 0x{pack_instruction(instruction):08X}"


def show_entry(entry):
    return f"core {entry.core} mark {entry.mark} count {entry.count} = 0x{pack_entry(entry):08X}"


def show_sent(entry):
    return f"channel {entry.channel} word {entry.word} = {pack_sent(entry).hex().upper()}"


KINDS = {
    "instruction": Kind(
        4,
        lambda instruction: pack_instruction(instruction).to_bytes(4, "big"),
        lambda data, place: unpack_instruction(int.from_bytes(data, "big"), place),
        show_instruction,
    ),
    "entry": Kind(
        4,
        lambda entry: pack_entry(entry).to_bytes(4, "big"),
        lambda data, place: unpack_entry(int.from_bytes(data, "big")),
        show_entry,
    ),
    "sent": Kind(5, pack_sent, lambda data, place: unpack_sent(data), show_sent),
}


class PackedList:
    """Whole entries of one kind over handed-in bytes (a bytearray, or bytes to read only)."""

    def __init__(self, kind, data):
        self.kind = kind
        self.data = data

    def __len__(self):
        return len(self.data) // self.kind.size

    def spare(self):
        return len(self.data) % self.kind.size

    def _span(self, place):
        if place >= len(self):
            raise Refused(16)
        return slice(place * self.kind.size, (place + 1) * self.kind.size)

    def get(self, place):
        return self.kind.unpack(self.data[self._span(place)], place)

    def put(self, place, entry):
        self.data[self._span(place)] = self.kind.pack(entry)


def read_program(data):
    """A program, as a list of instructions, from bytes: questions 1 to 5."""
    if len(data) % 4 != 0 or not 4 <= len(data) <= 2048:
        raise Refused(1, 0)
    packed = PackedList(KINDS["instruction"], data)
    program = []
    for place in range(len(packed)):
        instruction = packed.get(place)
        if instruction.name in JUMPS and instruction.n >= len(packed):
            raise Refused(4, place)
        program.append(instruction)
    if program[-1].name not in ("HALT", "JUMP"):
        raise Refused(5, len(program) - 1)
    return program


def address_of(instruction, registers):
    """The exact sum; it does not wrap."""
    return registers[instruction.a] + instruction.n


def compute(instruction, pc, registers):
    """(pc, registers) after an instruction, as far as it needs no memory, outlet or block."""
    registers = list(registers)
    ra = registers[instruction.a]
    rb = registers[instruction.b]
    following = pc + 1
    match instruction.name:
        case "SET":
            registers[instruction.d] = instruction.n
        case "ADD":
            registers[instruction.d] = (ra + rb) % WORD_LIMIT
        case "SUB":
            registers[instruction.d] = (ra - rb) % WORD_LIMIT
        case "MEAN":
            registers[instruction.d] = (ra + rb) // 2
        case "JUMP":
            following = instruction.n
        case "JZ" if ra == 0:
            following = instruction.n
        case "JLT" if ra < rb:
            following = instruction.n
    return following, registers
