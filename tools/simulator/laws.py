"""An observer that checks the serial, roll-back and held-read laws while a run goes on.

It looks at the engine from outside: calls, answers, the instruction at a core's pc, the words
written to memory, the entries taken. It knows no tags, lines or states but for what "settled"
says of a core.
"""

from collections import Counter

from .engine import FREE, HOST, Engine
from .formats import Refused, address_of
from .one_at_a_time import Impossible, Machine

CLOSING = ("done", "faulted", "rolled back", "retried")


class LawBroken(Exception):
    """A law does not hold of this run."""


class WatchedMemory:
    """A memory that notes the addresses written."""

    def __init__(self, memory):
        self.memory = memory
        self.written = []

    def __len__(self):
        return len(self.memory)

    def read(self, address):
        return self.memory.read(address)

    def write(self, address, word):
        self.memory.write(address, word)
        self.written.append(address)

    def words(self):
        return [self.memory.read(address) for address in range(len(self.memory))]


class Block:
    """What an observer notes of one core's block."""

    def __init__(self):
        self.open = False
        self.touched = set()  # addresses of LOADs and STOREs performed
        self.taken = set()  # addresses of words taken from shared memory
        self.hit = False  # another core wrote a taken word


class WatchedEngine(Engine):
    """An engine whose calls are checked against the laws."""

    def __init__(self, lines, entries, program, memory, outlet):
        super().__init__(lines, entries, program, WatchedMemory(memory), outlet)
        self.blocks = [Block() for _ in self.cores]
        self.turns_made = 0
        self.checks = 0
        self.moves = Counter()
        self.held_words = None
        self._note_clearing()
        self._check_serial()

    # ---- calls

    def step(self, index):
        return self._watch(index, lambda: Engine.step(self, index))

    def turn(self):
        # Engine.turn calls step of the core whose turn it is by its own count; compare with ours.
        if self.cores and self.next_turn != self.turns_made % len(self.cores):
            raise LawBroken("turn: another core was expected to be next")
        answer = super().turn()
        self.turns_made += 1
        return answer

    def clear(self):
        super().clear()
        self._note_clearing()
        self._check_serial()

    def hold(self):
        super().hold()
        self._check_serial()
        self.held_words = list(self.machine.memory)

    def read(self, address):
        word = super().read(address)
        if word != self.held_words[address]:
            raise LawBroken(f"held read: {word} at {address}, {self.held_words[address]} expected")
        return word

    def give_back(self):
        super().give_back()
        self._check_serial()

    def take(self):
        entry = super().take()
        self.taken_entries.append(entry)
        self._check_serial()
        return entry

    # ---- the serial law

    def _note_clearing(self):
        cores = [core.settled() for core in self.cores]
        self.machine = Machine(self.program, self.memory.words(), cores)
        self.machine_ran = 0
        self.waiting_at_clearing = self.outlet.entries()
        self.taken_entries = []

    def _check_serial(self):
        if self.token is not FREE and self.token != HOST:
            return
        self.checks += 1
        for entry in self.record[self.machine_ran :]:
            try:
                self.machine.turn(*entry)
            except Impossible as reason:
                raise LawBroken(f"serial: entry {entry} is impossible: {reason}") from None
        self.machine_ran = len(self.record)
        if self.machine.memory != self.memory.words():
            raise LawBroken("serial: memory differs")
        if self.machine.cores != [core.settled() for core in self.cores]:
            raise LawBroken("serial: settled cores differ")
        seen = self.taken_entries + self.outlet.entries()
        if seen != self.waiting_at_clearing + self.machine.sent:
            raise LawBroken("serial: words sent differ")

    # ---- the roll-back law

    def _watch(self, index, call):
        instruction = address = state = None
        if index < len(self.cores):
            core = self.cores[index]
            state = core.state.value
            if core.pc < len(self.program):
                instruction = self.program[core.pc]
                address = address_of(instruction, core.registers)
        self.memory.written.clear()
        answer = call()  # a refusal passes through here
        name = instruction.name if instruction is not None else "-"
        self.moves[state, name, answer.split(" at ")[0]] += 1
        self._note_step(index, instruction, address, answer)
        self._check_serial()
        return answer

    def _note_step(self, index, instruction, address, answer):
        block = self.blocks[index]
        expected = block.open and block.hit
        if (answer == "rolled back") != expected:
            raise LawBroken(f"roll-back: core {index} answered {answer!r}")
        for other, theirs in enumerate(self.blocks):
            if other != index and theirs.open:
                if any(written in theirs.taken for written in self.memory.written):
                    theirs.hit = True
        if not block.open:
            if answer == "running":
                self.blocks[index] = Block()
                self.blocks[index].open = True
            return
        if answer.startswith(CLOSING):
            block.open = False
        elif answer == "running" and instruction.name in ("LOAD", "STORE"):
            if instruction.name == "LOAD" and address not in block.touched:
                block.taken.add(address)
            block.touched.add(address)


def refused_changes_nothing(engine, call):
    """Runs a call; if it is refused, every part of the engine must be as before."""
    before = snapshot(engine)
    try:
        return call()
    except Refused:
        if snapshot(engine) != before:
            raise LawBroken("a refused call changed the engine") from None
        raise


def snapshot(engine):
    """Every part of an engine, as a value to compare."""
    return (
        [
            (
                core.state,
                core.pc,
                tuple(core.registers),
                core.saved_pc,
                tuple(core.saved_registers),
                core.depth,
                core.count,
                [(line.address, line.value, line.tagged, line.dirty) for line in core.lines],
            )
            for core in engine.cores
        ],
        engine.token,
        list(engine.record),
        engine.next_turn,
        engine.outlet.entries(),
        engine.outlet.room(),
        [engine.memory.read(address) for address in range(len(engine.memory))],
    )
