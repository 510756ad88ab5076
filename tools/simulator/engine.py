"""The engine: cores, lines, commit token, record, host, and every call."""

from dataclasses import dataclass, field
from enum import Enum

from .formats import MOST_COUNT, RecordEntry, Refused, address_of, compute

MOST_CORES = 8
MOST_LINES = 32
MOST_MEMORY_WORDS = 4096
RECORD_ROOM = 1024
MOST_DEPTH = 255

HOST = "host"
FREE = None


class State(Enum):
    BYPASS = "BYPASS"
    TRANSACTION = "TRANSACTION"
    COMMIT = "COMMIT"
    ABORT = "ABORT"
    EARLY_FLUSH = "EARLY_FLUSH"
    EARLY_COMMIT = "EARLY_COMMIT"
    STOPPED = "STOPPED"


@dataclass
class Line:
    address: int
    value: int
    tagged: bool
    dirty: bool


@dataclass
class Core:
    pc: int
    state: State = State.BYPASS
    registers: list = field(default_factory=lambda: [0] * 8)
    saved_pc: int = 0
    saved_registers: list = field(default_factory=lambda: [0] * 8)
    depth: int = 0
    count: int = 0
    lines: list = field(default_factory=list)  # in the order in which they were made

    def line_at(self, address):
        for line in self.lines:
            if line.address == address:
                return line
        return None

    def oldest_dirty(self):
        for line in self.lines:
            if line.dirty:
                return line
        return None

    def settled(self):
        """(pc, registers, stopped) as they count between units."""
        if self.state in (State.BYPASS, State.STOPPED):
            return self.pc, tuple(self.registers), self.state == State.STOPPED
        return self.saved_pc, tuple(self.saved_registers), False


def check(lines, entries, program, memory):
    """The first refusal of the settings, or nothing."""
    if not 1 <= len(entries) <= MOST_CORES:
        raise Refused(6)
    if not 1 <= lines <= MOST_LINES:
        raise Refused(7)
    if not 1 <= len(memory) <= MOST_MEMORY_WORDS:
        raise Refused(8)
    if any(entry >= len(program) for entry in entries):
        raise Refused(9)


class Engine:
    def __init__(self, lines, entries, program, memory, outlet):
        """From refused settings an engine with no core; `refusal` says which it was."""
        self.program = program
        self.memory = memory
        self.outlet = outlet
        self.line_limit = lines
        self.token = FREE  # FREE, HOST or a core's number
        self.record = []
        self.next_turn = 0
        self.refusal = None
        try:
            check(lines, entries, program, memory)
            self.cores = [Core(entry) for entry in entries]
        except Refused as refusal:
            self.refusal = refusal
            self.cores = []

    # ---- calls of the host

    def step(self, index):
        self._ask_core(index)
        another_has_token = self.token not in (FREE, HOST, index)
        needed = 2 if another_has_token else 1
        if RECORD_ROOM - len(self.record) < needed:
            raise Refused(11)
        return self._step(index)

    def turn(self):
        answer = self.step(self.next_turn)
        self.next_turn += 1
        if self.next_turn == len(self.cores):
            self.next_turn = 0
        return answer

    def clear(self):
        self._ask_token_free()
        self.record.clear()

    def hold(self):
        self._ask_token_free()
        self.token = HOST

    def read(self, address):
        self._ask_host_holds()
        return self.memory.read(address)  # question 14

    def give_back(self):
        self._ask_host_holds()
        self.token = FREE

    def take(self):
        return self.outlet.take()  # question 15

    def entry(self, place):
        if place >= len(self.record):
            raise Refused(16)
        return self.record[place]

    def tags(self, index, places):
        """Copies the tagged addresses to the first places of the list; answers their number."""
        self._ask_core(index)
        tagged = [line.address for line in self.cores[index].lines if line.tagged]
        if len(places) < len(tagged):
            raise Refused(17)
        places[: len(tagged)] = tagged
        return len(tagged)

    def core(self, index):
        self._ask_core(index)
        return self.cores[index]

    # ---- questions

    def _ask_core(self, index):
        if index >= len(self.cores):
            raise Refused(10)

    def _ask_token_free(self):
        if self.token is not FREE:
            raise Refused(12)

    def _ask_host_holds(self):
        if self.token != HOST:
            raise Refused(13)

    # ---- what the words of the documentation mean

    def _write(self, index, address, word):
        self.memory.write(address, word)
        for other, core in enumerate(self.cores):
            if other == index or core.state != State.TRANSACTION:
                continue
            line = core.line_at(address)
            if line is not None and line.tagged:
                core.state = State.ABORT

    def _finish(self, index, mark, count):
        core = self.cores[index]
        self.record.append(RecordEntry(index, mark, count))
        core.lines.clear()
        if self.token == index:
            self.token = FREE

    def _fault(self, index, number, mark, count):
        core = self.cores[index]
        self._finish(index, mark, count)
        core.state = State.STOPPED
        core.depth = core.count = 0
        return f"faulted {number} at {core.pc}"

    def _end_block(self, index):
        core = self.cores[index]
        core.pc += 1
        core.count += 1
        core.depth -= 1
        core.state = State.BYPASS
        self._finish(index, 0, core.count)
        core.depth = core.count = 0
        return "done"

    def _roll_back(self, index):
        core = self.cores[index]
        core.pc = core.saved_pc
        core.registers = list(core.saved_registers)
        core.lines.clear()
        core.state = State.BYPASS
        core.depth = core.count = 0

    # ---- a step, by state

    def _step(self, index):
        match self.cores[index].state:
            case State.STOPPED:
                return "stopped"
            case State.ABORT:
                self._roll_back(index)
                return "rolled back"
            case State.COMMIT:
                return self._step_commit(index)
            case State.EARLY_FLUSH:
                return self._step_early_flush(index)
            case State.BYPASS:
                return self._step_bypass(index)
            case State.TRANSACTION:
                return self._step_transaction(index)
            case State.EARLY_COMMIT:
                return self._step_early_commit(index)

    def _write_oldest_dirty(self, index):
        """Writes it; says whether that was the last one."""
        core = self.cores[index]
        line = core.oldest_dirty()
        self._write(index, line.address, line.value)
        line.dirty = False
        return core.oldest_dirty() is None

    def _step_commit(self, index):
        if self._write_oldest_dirty(index):
            return self._end_block(index)
        return "committing"

    def _step_early_flush(self, index):
        core = self.cores[index]
        if self._write_oldest_dirty(index):
            core.lines.clear()
            core.state = State.EARLY_COMMIT
        return "early"

    def _step_bypass(self, index):
        core = self.cores[index]
        instruction = self.program[core.pc]
        name = instruction.name
        if name == "BEGIN":
            core.saved_pc = core.pc
            core.saved_registers = list(core.registers)
            core.pc += 1
            core.depth = core.count = 1
            core.state = State.TRANSACTION
            return "running"
        if name in ("END", "RETRY", "EARLY"):
            return self._fault(index, 2, mark=1, count=0)
        if name in ("LOAD", "STORE"):
            address = address_of(instruction, core.registers)
            if address >= len(self.memory):
                return self._fault(index, 1, mark=1, count=0)
        if name in ("LOAD", "STORE", "OUT") and self.token is not FREE:
            return "waiting"
        if name == "OUT" and self.outlet.room() == 0:
            return "full"

        following, registers = compute(instruction, core.pc, core.registers)
        if name == "LOAD":
            registers[instruction.d] = self.memory.read(address)
        elif name == "STORE":
            self._write(index, address, core.registers[instruction.b])
        elif name == "OUT":
            self.outlet.send(instruction.n, core.registers[instruction.a])
        core.pc, core.registers = following, registers
        self._finish(index, 0, 1)
        if name == "HALT":
            core.state = State.STOPPED
        return "done"

    def _fault_in_block(self, core, instruction):
        """The number of the fault that the instruction meets inside a block, or None."""
        name = instruction.name
        if core.count == MOST_COUNT:
            return 4
        if name in ("LOAD", "STORE"):
            if address_of(instruction, core.registers) >= len(self.memory):
                return 1
        if name == "BEGIN" and core.depth == MOST_DEPTH:
            return 3
        if name == "HALT":
            return 5
        if name == "RETRY" and core.state == State.EARLY_COMMIT:
            return 6
        return None

    def _performed(self, core, instruction, loaded=None):
        """Moves pc, registers, count and depth for an instruction of a block."""
        core.pc, core.registers = compute(instruction, core.pc, core.registers)
        if instruction.name == "LOAD":
            core.registers[instruction.d] = loaded
        core.count += 1
        if instruction.name == "BEGIN":
            core.depth += 1
        if instruction.name == "END":
            core.depth -= 1
        return "running"

    def _step_transaction(self, index):
        core = self.cores[index]
        instruction = self.program[core.pc]
        name = instruction.name
        fault = self._fault_in_block(core, instruction)
        if fault is not None:
            if self.token is not FREE:
                return "waiting"
            return self._fault(index, fault, mark=1, count=core.count)

        if name in ("LOAD", "STORE"):
            address = address_of(instruction, core.registers)
            line = core.line_at(address)
            if line is None and len(core.lines) == self.line_limit:
                return self._commit_early(index)
            if name == "LOAD":
                if line is None:
                    line = Line(address, self.memory.read(address), tagged=True, dirty=False)
                    core.lines.append(line)
                return self._performed(core, instruction, line.value)
            value = core.registers[instruction.b]
            if line is None:
                core.lines.append(Line(address, value, tagged=False, dirty=True))
            else:
                line.value = value
                line.dirty = True
            return self._performed(core, instruction)
        if name in ("EARLY", "OUT"):
            return self._commit_early(index)
        if name == "RETRY":
            self._roll_back(index)
            return "retried"
        if name == "END" and core.depth == 1:
            if self.token is not FREE:
                return "waiting"
            if core.oldest_dirty() is None:
                return self._end_block(index)
            self.token = index
            core.state = State.COMMIT
            return "committing"
        return self._performed(core, instruction)

    def _commit_early(self, index):
        core = self.cores[index]
        if self.token is not FREE:
            return "waiting"
        self.token = index
        if core.oldest_dirty() is None:
            core.lines.clear()
            core.state = State.EARLY_COMMIT
        else:
            core.state = State.EARLY_FLUSH
        return "early"

    def _step_early_commit(self, index):
        core = self.cores[index]
        instruction = self.program[core.pc]
        name = instruction.name
        fault = self._fault_in_block(core, instruction)
        if fault is not None:
            return self._fault(index, fault, mark=2, count=core.count)
        if name == "LOAD":
            address = address_of(instruction, core.registers)
            return self._performed(core, instruction, self.memory.read(address))
        if name == "STORE":
            address = address_of(instruction, core.registers)
            self._write(index, address, core.registers[instruction.b])
        if name == "OUT":
            if not self.outlet.send(instruction.n, core.registers[instruction.a]):
                return "full"
        if name == "END" and core.depth == 1:
            return self._end_block(index)
        return self._performed(core, instruction)
