"""The one-at-a-time machine: it runs the entries of a record as turns."""

from .formats import MOST_COUNT, SentEntry, address_of, compute

MOST_DEPTH = 255


class Impossible(Exception):
    """The turn cannot be."""


class Machine:
    def __init__(self, program, memory, cores):
        """`cores` is a list of (pc, registers, stopped)."""
        self.program = program
        self.memory = list(memory)
        self.sent = []
        self.cores = list(cores)

    def turn(self, core, mark, count):
        if core >= len(self.cores):
            raise Impossible(f"there is no core {core}")
        pc, registers, stopped = self.cores[core]
        if stopped:
            raise Impossible(f"core {core} has stopped")
        unit = Unit(self.program, self.memory, pc, registers)
        for _ in range(count):
            if unit.ended:
                raise Impossible(f"the unit ends before {count} instructions")
            fault = unit.fault()
            if fault is not None:
                raise Impossible(f"fault {fault} before {count} instructions")
            unit.perform()
        if mark == 0:
            if not unit.ended:
                raise Impossible(f"{count} instructions are no whole unit")
        else:
            if unit.ended:
                raise Impossible(f"the unit ends with {count} instructions, with no fault")
            if unit.fault() is None:
                raise Impossible(f"no fault after {count} instructions")
            unit.stopped = True
        self.cores[core] = (unit.pc, tuple(unit.registers), unit.stopped)
        if mark != 1:
            self.memory = unit.memory
            self.sent += unit.sent


class Unit:
    """One core alone, from the start of a unit."""

    def __init__(self, program, memory, pc, registers):
        self.program = program
        self.memory = list(memory)
        self.sent = []
        self.pc = pc
        self.registers = list(registers)
        self.stopped = False
        self.ended = False
        self.depth = 0
        self.count = 0

    def outside(self, instruction):
        if instruction.name not in ("LOAD", "STORE"):
            return False
        return address_of(instruction, self.registers) >= len(self.memory)

    def fault(self):
        """The number of the fault that the next instruction meets, or None."""
        instruction = self.program[self.pc]
        name = instruction.name
        if self.depth == 0:
            if name in ("END", "RETRY", "EARLY"):
                return 2
            return 1 if self.outside(instruction) else None
        if self.count == MOST_COUNT:
            return 4
        if self.outside(instruction):
            return 1
        if name == "BEGIN" and self.depth == MOST_DEPTH:
            return 3
        if name == "HALT":
            return 5
        if name == "RETRY":
            return 6
        return None

    def perform(self):
        instruction = self.program[self.pc]
        self.pc, registers = compute(instruction, self.pc, self.registers)
        match instruction.name:
            case "LOAD":
                registers[instruction.d] = self.memory[address_of(instruction, self.registers)]
            case "STORE":
                address = address_of(instruction, self.registers)
                self.memory[address] = self.registers[instruction.b]
            case "OUT":
                self.sent.append(SentEntry(instruction.n, self.registers[instruction.a]))
            case "HALT":
                self.stopped = True
            case "BEGIN":
                self.depth += 1
            case "END":
                self.depth -= 1
        self.registers = registers
        self.count += 1
        self.ended = self.depth == 0
