#!/usr/bin/env python3
"""Makes random console scenarios: random_scenarios.py SEED COUNT [--formats] [--directory DIR]

Scenario number i of a seed is always the same text. Without --directory the scenarios are printed,
one after the other, each opened by a remark; played as one text, each begins with its own program
and make. With --directory each is written to a file of its own. With --formats only the commands
that need no engine occur.
"""

import argparse
import pathlib
import random
import sys

from simulator.formats import FIELDS, Instruction, pack_instruction

PLAIN = ("SET", "ADD", "SUB", "MEAN")


def hexword(word):
    return f"0x{word:08X}"


class Maker:
    """Makes one scenario."""

    def __init__(self, seed, number, formats_only):
        self.random = random.Random(f"{seed}/{number}")
        self.formats_only = formats_only
        self.lines = [f"# scenario {number} of seed {seed}"]

    # ---- small choices

    def chance(self, probability):
        return self.random.random() < probability

    def pick(self, *choices):
        return self.random.choice(choices)

    def below(self, limit):
        return self.random.randrange(limit)

    def say(self, *words):
        self.lines.append(" ".join(str(word) for word in words))

    def make(self):
        if self.formats_only:
            kind = self.pick(self.formats, self.formats, self.damage)
        else:
            kinds = [
                (40, self.conflicts),
                (20, self.windows),
                (14, self.wild),
                (8, self.full_record),
                (6, self.outlets),
                (4, self.nesting),
                (4, self.long_block),
                (5, self.settings),
                (5, self.formats),
                (3, self.damage),
                (3, self.no_engine),
            ]
            weights = [weight for weight, _ in kinds]
            kind = self.random.choices([kind for _, kind in kinds], weights)[0]
        kind()
        return "\n".join(self.lines) + "\n"

    # ---- instructions and programs

    def register(self):
        return self.below(8)

    def low_register(self):
        return self.pick(0, 1, 2, 3)

    def place(self):
        """An address offset: few addresses, now and then one outside."""
        if self.chance(0.01):
            return self.pick(16, 17, 4096, 262143)
        return self.below(self.addresses)

    def computing(self):
        name = self.pick(*PLAIN)
        if name == "SET":
            n = self.below(6) if self.chance(0.95) else self.pick(262143, 262142, 65536, 17)
            return Instruction(name, d=self.pick(1, 2, 3, 4, 5, 6, 7), n=n)
        return Instruction(
            name, d=self.pick(1, 2, 3, 4, 5), a=self.low_register(), b=self.low_register()
        )

    def memory_access(self):
        # R0 is never set by these programs, so most addresses are the offset alone.
        base = 0 if self.chance(0.96) else self.pick(4, 5, 6, 7)
        if self.chance(0.5):
            return Instruction("LOAD", d=self.pick(1, 2, 3), a=base, n=self.place())
        return Instruction("STORE", a=base, b=self.low_register(), n=self.place())

    def sending(self):
        return Instruction("OUT", a=self.low_register(), n=self.pick(0, 1, 2, 200, 255))

    def block(self, start, early, depth=1):
        """The instructions of a block that stands at `start`."""
        body = [Instruction("BEGIN")]
        for _ in range(self.random.randint(1, 7)):
            dice = self.random.random()
            here = start + len(body)
            if dice < 0.55:
                body.append(self.memory_access())
            elif dice < 0.75:
                body.append(self.computing())
            elif dice < 0.75 + early:
                body.append(self.pick(Instruction("EARLY"), self.sending()))
            elif dice < 0.88 and depth < 4:
                body += self.block(here, early, depth + 1)
            elif dice < 0.94:
                # restart the block while a word is zero: JZ to RETRY, else past it
                body.append(Instruction("LOAD", d=1, a=0, n=self.below(self.addresses)))
                body.append(Instruction("JZ", a=1, n=here + 3))
                body.append(Instruction("JUMP", n=here + 4))
                body.append(Instruction("RETRY"))
            elif dice < 0.965:
                # jump over the next instruction
                body.append(Instruction("JLT", a=self.low_register(), b=1, n=here + 2))
                body.append(self.memory_access())
            elif dice < 0.975:
                body.append(Instruction("RETRY"))
            elif dice < 0.982:
                body.append(Instruction("HALT"))
            else:
                body.append(self.computing())
        body.append(Instruction("END"))
        return body

    def units(self, early):
        """A program of plain instructions and blocks, and the places where its units begin."""
        program, starts = [], []
        for _ in range(self.random.randint(2, 6)):
            starts.append(len(program))
            dice = self.random.random()
            if dice < 0.62:
                program += self.block(len(program), early)
            elif dice < 0.80:
                program.append(self.memory_access())
            elif dice < 0.92:
                program.append(self.computing())
            elif dice < 0.95:
                program.append(self.sending())
            elif dice < 0.98:
                program.append(Instruction("JUMP", n=len(program) + 1))
            else:
                program.append(Instruction(self.pick("END", "RETRY", "EARLY", "HALT")))
        if self.chance(0.85):
            program.append(Instruction("JUMP", n=self.pick(0, self.pick(*starts))))
        else:
            program.append(Instruction("HALT"))
        starts.append(len(program) - 1)
        return program, starts

    def any_instruction(self, count):
        name = self.pick(*FIELDS)
        if self.chance(0.45):
            name = self.pick("LOAD", "STORE", "BEGIN", "END", "BEGIN", "ADD")
        values = {}
        for field in FIELDS[name]:
            if field != "n":
                values[field] = self.below(8) if self.chance(0.3) else self.below(3)
            elif name in ("JUMP", "JZ", "JLT"):
                values[field] = self.below(count)
            elif name == "OUT":
                values[field] = self.below(256)
            elif name == "SET":
                values[field] = self.below(5)
            else:
                values[field] = self.place()
        return Instruction(name, **values)

    def give_program(self, program):
        words = [pack_instruction(instruction) for instruction in program]
        if self.chance(0.2):
            self.say("program-bytes", "".join(f"{word:08X}" for word in words))
        else:
            self.say("program", *map(hexword, words))

    # ---- memory, outlet, making

    def give_memory(self, size):
        words = [self.below(4) if self.chance(0.9) else self.below(1 << 32) for _ in range(size)]
        if self.chance(0.5):
            self.say("memory words", *words)
        else:
            spare = "EE" * self.below(4)
            text = "".join(f"{word:08x}" for word in words) + spare
            self.say("memory bytes", text or "-")

    def give_outlet(self):
        dice = self.random.random()
        if dice < 0.3:
            self.say("outlet store")
        elif dice < 0.9:
            self.say("outlet bytes", self.below(24))

    # ---- a run

    def run(self, cores, length, starts_held=0.0):
        """Calls in a random order; a hold is given back after a few of them."""
        held_for = None
        favourite = self.below(cores)
        if self.chance(starts_held):
            self.say("hold")
            held_for = 4
        for _ in range(length):
            if held_for is not None:
                held_for -= 1
                if held_for <= 0:
                    self.say("give back")
                    held_for = None
            dice = self.random.random()
            if dice < 0.40:
                self.say("step", favourite if self.chance(0.4) else self.below(cores))
            elif dice < 0.62:
                self.say("turn")
            elif dice < 0.70:
                self.say("steps", self.below(cores), self.below(8))
            elif dice < 0.76:
                self.say("turns", self.below(12))
            elif dice < 0.80:
                self.say("core", self.below(cores + 1) if self.chance(0.2) else favourite)
            elif dice < 0.84:
                self.say("tags", self.below(cores), self.pick(0, 1, 2, 8, 32, 32))
            elif dice < 0.87:
                self.say("token")
            elif dice < 0.90:
                self.say("record", self.pick(0, 1, self.below(20), self.below(1100)))
            elif dice < 0.925:
                self.say("take")
            elif dice < 0.945:
                self.say("hold")
                held_for = self.random.randint(1, 9)
            elif dice < 0.97:
                self.say("read", self.below(self.addresses) if self.chance(0.8) else 70000)
            elif dice < 0.98:
                self.say("clear")
            elif dice < 0.985:
                self.say("give back")
            elif dice < 0.99:
                missing = cores + self.below(9)
                self.say(self.pick("step {0}", "steps {0} 3", "tags {0} 3", "core {0}").format(missing))
            else:
                favourite = self.below(cores)
        self.look(cores)

    def look(self, cores):
        """Everything that can be looked at."""
        for core in range(cores):
            self.say("core", core)
            self.say("tags", core, 32)
        self.say("token")
        self.say("hold")
        for address in range(self.addresses + 1):
            self.say("read", address)
        if self.chance(0.8):
            self.say("give back")
        for place in range(6):
            self.say("record", place)
        for _ in range(4):
            self.say("take")

    # ---- kinds of scenarios

    def conflicts(self):
        """Blocks over few addresses."""
        self.addresses = self.random.randint(1, 6)
        early = self.pick(0.0, 0.02, 0.08)
        program, starts = self.units(early)
        self.give_program(program)
        if self.chance(0.2):
            self.say("list")
        self.give_memory(self.addresses + (self.below(3) if self.chance(0.5) else 0))
        self.give_outlet()
        cores = self.pick(1, 2, 2, 3, 3, 4, 8)
        lines = self.pick(1, 2, 2, 3, 4, 8, 32)
        entries = [self.pick(*starts) for _ in range(cores)]
        self.say("make", lines, *entries)
        self.run(cores, self.random.randint(40, 300), 0.05)

    def role(self, start):
        """A unit or two for a core that goes round and round while others commit."""

        def load(d):
            return Instruction("LOAD", d=d, a=0, n=self.below(self.addresses))

        def store():
            return Instruction("STORE", a=0, b=1, n=self.below(self.addresses))

        begin, end = Instruction("BEGIN"), Instruction("END")
        count_up = [load(1), Instruction("SET", d=2, n=1), Instruction("ADD", d=1, a=1, b=2)]
        stores = [store() for _ in range(self.random.randint(1, 4))]
        early = [self.pick(Instruction("EARLY"), self.sending())]
        bad = self.pick(Instruction("HALT"), Instruction("LOAD", d=1, a=0, n=99))
        later = [load(5) for _ in range(self.below(12))]
        pointed = Instruction("LOAD", d=3, a=1, n=0)  # outside once the word has grown
        roles = [
            [begin, *count_up, *stores, end],
            [begin, *count_up, *stores, end],
            [begin, *count_up, *stores, *early, store(), end],
            [begin, load(1), load(3), end],
            [begin, load(1), end],
            [begin, store(), load(3), load(4), end],
            [*later, begin, load(1), load(3), bad],
            [*later, begin, load(1), load(3), bad],
            [begin, load(1), pointed, end],
            [*later, begin, *count_up, store(), *early, store(), bad],
            [load(3), load(4)],
            [*count_up, store()],
            [Instruction("SET", d=1, n=self.below(9)), store(), self.sending()],
        ]
        return self.pick(*roles) + [Instruction("JUMP", n=start)]

    def windows(self):
        """Commits of several words, with other cores looking in between, a step at a time."""
        self.addresses = self.random.randint(2, 4)
        cores = self.random.randint(2, 4)
        program, entries = [], []
        for _ in range(cores):
            entries.append(len(program))
            program += self.role(len(program))
        self.give_program(program)
        self.give_memory(self.addresses)
        self.give_outlet()
        self.say("make", self.pick(2, 3, 4, 8), *entries)
        for _ in range(self.random.randint(100, 250)):
            dice = self.random.random()
            if dice < 0.80:
                self.say("step", self.below(cores))
            elif dice < 0.86:
                self.say("steps", self.below(cores), self.below(6))
            elif dice < 0.90:
                self.say("turn")
            elif dice < 0.93:
                self.say("take")
            elif dice < 0.95:
                self.say("hold")
                for _ in range(self.below(5)):
                    self.say(self.pick(f"read {self.below(self.addresses)}", "turn"))
                self.say("give back")
            elif dice < 0.965:
                self.say("clear")
            else:
                core = self.below(cores)
                self.say(self.pick("token", f"core {core}", f"tags {core} 8", "record 3"))
        self.look(cores)

    def wild(self):
        """Programs of any instructions."""
        self.addresses = self.random.randint(1, 4)
        count = self.random.randint(2, 30)
        program = [self.any_instruction(count) for _ in range(count - 1)]
        program.append(self.pick(Instruction("HALT"), Instruction("JUMP", n=self.below(count))))
        self.give_program(program)
        self.give_memory(self.addresses)
        self.give_outlet()
        cores = self.random.randint(1, 8)
        self.say("make", self.random.randint(1, 5), *[self.below(count) for _ in range(cores)])
        self.run(cores, self.random.randint(30, 120))

    def full_record(self):
        """A record that fills, with and without another core holding the token."""
        self.addresses = 3
        # 0 JUMP 0; 1: a block that stores, forever
        block = self.block(1, self.pick(0.0, 0.05))
        stores = [Instruction("STORE", a=0, b=2, n=n) for n in range(self.random.randint(1, 3))]
        block = block[:-1] + stores + [Instruction("END")]
        if self.chance(0.6):
            block = [Instruction("BEGIN"), *stores, Instruction("END")]
        program = [Instruction("JUMP", n=0), *block, Instruction("JUMP", n=1)]
        self.give_program(program)
        self.give_memory(self.addresses)
        self.give_outlet()
        cores = self.random.randint(2, 4)
        entries = [0] + [self.pick(0, 1, 1) for _ in range(cores - 1)]
        self.say("make", self.random.randint(1, 4), *entries)
        self.say("steps", 0, self.random.randint(1000, 1024))
        self.run(cores, self.random.randint(20, 60))
        self.say("turns", self.random.randint(20, 200))
        for _ in range(6):
            self.say(self.pick("turn", f"step {self.below(cores)}", f"steps {self.below(cores)} 3"))
        self.say("record", 1023)
        self.say("record", 1024)
        self.say("clear")
        self.run(cores, 20)

    def outlets(self):
        """Words sent into small outlets."""
        self.addresses = 2
        program, starts = [], []
        for _ in range(self.random.randint(1, 3)):
            starts.append(len(program))
            program.append(self.computing())
            program.append(self.sending())
            starts.append(len(program))
            program.append(Instruction("BEGIN"))
            program.append(self.memory_access())
            program += [self.sending() for _ in range(self.random.randint(1, 3))]
            if self.chance(0.3):
                program.append(self.pick(Instruction("RETRY"), Instruction("HALT"), self.sending()))
            program.append(Instruction("END"))
        program.append(Instruction("JUMP", n=0))
        self.give_program(program)
        self.give_memory(2)
        if self.chance(0.25):
            self.say("outlet store")
        else:
            self.say("outlet bytes", self.pick(0, 4, 5, 9, 10, 14, 15, 20, 325))
        cores = self.random.randint(1, 3)
        self.say("make", 2, *[self.pick(*starts) for _ in range(cores)])
        for _ in range(self.random.randint(20, 80)):
            self.say(
                self.pick(
                    "turn", "turn", f"turns {self.below(9)}", f"step {self.below(cores)}", "take"
                )
            )
        if self.chance(0.3):
            self.say("turns", 400)
        if self.chance(0.5):
            self.say("clear")
            self.say("turns", 10)
        for _ in range(self.pick(3, 70)):
            self.say("take")
        self.look(cores)

    def nesting(self):
        """Blocks 255 deep and one deeper, before and after an early commit."""
        self.addresses = 1
        # BEGIN; [EARLY once]; then BEGIN over and over
        program = [Instruction("BEGIN")]
        if self.chance(0.4):
            program.append(self.pick(Instruction("EARLY"), Instruction("OUT", a=0, n=3)))
        inner = len(program)
        program.append(Instruction("BEGIN"))
        if self.chance(0.5):
            program.append(self.computing())
        program.append(Instruction("JUMP", n=inner))
        # a second core that stores into the word, in a block or not
        second = len(program)
        program.append(Instruction("BEGIN"))
        program.append(Instruction("STORE", a=0, b=1, n=0))
        program.append(Instruction("END"))
        program.append(Instruction("JUMP", n=second))
        self.give_program(program)
        self.give_memory(1)
        self.say("make", self.pick(1, 4), 0, second)
        self.say("steps", 0, self.random.randint(500, 520))
        self.say("core", 0)
        self.say("steps", 1, self.random.randint(0, 5))
        self.say("steps", 0, self.random.randint(1, 270))
        self.say("steps", 1, self.random.randint(0, 5))
        self.say("steps", 0, 3)
        self.run(2, 12)

    def long_block(self):
        """Blocks of 4,096 instructions, some fewer and some more."""
        self.addresses = 2
        program = [Instruction("BEGIN"), Instruction("SET", d=2, n=1)]
        program.append(Instruction("SET", d=3, n=self.pick(2043, 2044, 2045, 2046, 2047)))
        program.append(Instruction("LOAD", d=4, a=0, n=self.below(2)))
        if self.chance(0.4):
            program.append(self.pick(Instruction("EARLY"), Instruction("OUT", a=2, n=9)))
        if self.chance(0.5):
            program.append(Instruction("STORE", a=0, b=3, n=self.below(2)))
        program += [Instruction("SET", d=5, n=1)] * self.below(3)
        loop = len(program)
        program.append(Instruction("ADD", d=1, a=1, b=2))
        program.append(Instruction("JLT", a=1, b=3, n=loop))
        last = [Instruction("HALT"), Instruction("LOAD", d=1, a=0, n=9), Instruction("RETRY")]
        if self.chance(0.3):
            program.append(self.pick(*last))
        program.append(Instruction("END"))
        program.append(Instruction("HALT"))
        second = len(program)
        program.append(Instruction("STORE", a=0, b=1, n=self.below(2)))
        program.append(Instruction("JUMP", n=second))
        self.give_program(program)
        self.give_memory(2)
        self.give_outlet()
        self.say("make", self.pick(1, 2, 4), 0, second)
        self.say("steps", 0, self.random.randint(4085, 4096))
        if self.chance(0.3):
            self.say("steps", 1, self.below(3))
        self.say("core", 0)
        if self.chance(0.2):
            self.say("hold")
        for _ in range(14):
            self.say("step", 0)
        self.say("give back")
        for _ in range(4):
            self.say("step", 0)
        self.run(2, 10)

    def settings(self):
        """Settings at and past their limits."""
        self.addresses = 2
        count = self.pick(1, 2, 511, 512, 513)
        self.say("program", *([0] * count))
        for _ in range(self.random.randint(3, 8)):
            if self.chance(0.5):
                size = self.pick(0, 1, 2, 15)
                if self.chance(0.08):
                    size = self.pick(4095, 4096, 4097, 65536, 65537)
                self.give_memory(size)
            if self.chance(0.3):
                self.give_outlet()
            cores = self.pick(0, 1, 1, 2, 3, 7, 8, 9)
            lines = self.pick(0, 1, 1, 4, 31, 32, 33, 4294967295)
            entry = self.pick(0, 0, 0, count - 1, count)
            self.say("make", lines, *[self.pick(0, entry) for _ in range(cores)])
            for _ in range(self.random.randint(2, 8)):
                self.say(
                    self.pick(
                        "turn",
                        "step 0",
                        f"step {max(cores - 1, 0)}",
                        f"step {cores}",
                        "hold",
                        "read 0",
                        "read 1",
                        "read 4096",
                        "read 65535",
                        "read 65536",
                        "give back",
                        "take",
                        "clear",
                        "record 0",
                        "tags 0 0",
                        "core 0",
                        "token",
                        "turns 9",
                    )
                )

    def corrupt(self, word):
        return word ^ (1 << self.below(32))

    def formats(self):
        """Programs and packed words, good and damaged."""
        self.addresses = 20
        for _ in range(self.random.randint(5, 15)):
            count = self.pick(1, 2, 3, 5, 8)
            dice = self.random.random()
            if dice < 0.35:
                program = [self.any_instruction(count) for _ in range(count)]
                if self.chance(0.8):
                    program[-1] = self.pick(Instruction("HALT"), Instruction("JUMP", n=0))
                words = [pack_instruction(instruction) for instruction in program]
                if self.chance(0.4):
                    place = self.below(count)
                    words[place] = self.corrupt(words[place])
                if self.chance(0.3):
                    words = [Instruction("JUMP", n=count)] + program
                    words = [pack_instruction(instruction) for instruction in words]
                if self.chance(0.3):
                    text = "".join(f"{word:08x}" for word in words)
                    self.say("program-bytes", text[: len(text) - 2 * self.below(3)] or "-")
                else:
                    self.say("program", *[self.pick(word, hexword(word)) for word in words])
            elif dice < 0.45:
                self.say("list")
            elif dice < 0.60:
                word = pack_instruction(self.any_instruction(1000))
                if self.chance(0.5):
                    word = self.corrupt(word)
                if self.chance(0.1):
                    word = self.below(1 << 32)
                self.say("instruction", self.pick(word, hexword(word), f"0x{word:x}"))
            elif dice < 0.75:
                self.say("entry", hexword(self.entry_word()))
            elif dice < 0.82:
                self.say("sent", self.bytes(5))
            elif dice < 0.88:
                self.say("image sent", self.bytes(self.below(23)) or "-")
            elif dice < 0.94:
                text = "".join(f"{self.entry_word():08X}" for _ in range(self.below(4)))
                self.say("image entry", text + self.bytes(self.below(4)) or "-")
            else:
                words = [pack_instruction(self.any_instruction(9)) for _ in range(self.below(5))]
                words = [self.corrupt(word) if self.chance(0.4) else word for word in words]
                text = "".join(f"{word:08X}" for word in words)
                self.say("image instruction", text + self.bytes(self.below(4)) or "-")
        if self.chance(0.1):
            self.say("program", *([hexword(0)] * self.pick(511, 512, 513)))

    def entry_word(self):
        word = self.below(8) << 29 | self.below(3) << 27 | self.pick(0, 1, 6, 4095, 4096)
        if self.chance(0.3):
            word = self.corrupt(word)
        return word

    def bytes(self, count):
        text = "".join(f"{self.below(256):02x}" for _ in range(count))
        return self.pick(text, text.upper())

    def damage(self):
        """Lines that are no commands, and numbers that do not fit."""
        good = [
            "program 0x38000000",
            "list",
            "instruction 0x09000007",
            "entry 0xB0001000",
            "sent C800000007",
            "image entry B0001000",
            "image sent C80000000701",
        ]
        if not self.formats_only:
            good += [
                "memory words 1 2",
                "memory bytes 0000000100000002",
                "outlet bytes 7",
                "outlet store",
                "make 2 0 0",
                "step 0",
                "turn",
                "steps 1 2",
                "turns 3",
                "hold",
                "read 0",
                "give back",
                "take",
                "clear",
                "record 0",
                "tags 0 2",
                "core 1",
                "token",
            ]
        for _ in range(self.random.randint(15, 40)):
            tokens = self.pick(*good).split(" ")
            dice = self.random.random()
            at = self.below(len(tokens))
            if dice < 0.2:
                del tokens[at]
            elif dice < 0.4:
                tokens.insert(at + 1, self.pick("0", "x", "-", "00", "1", "#", "# remark"))
            elif dice < 0.7:
                tokens[at] = self.pick(
                    "4294967296",
                    "99999999999999999999999",
                    "0x",
                    "0x100000000",
                    "00000000000000000001",
                    "0x00000000000000001",
                    "-1",
                    "+1",
                    "1.0",
                    "0X1",
                    "0xg",
                    "1x",
                    "65536",
                    "65537",
                    "abc",
                    "ABCD",
                    "-",
                    "LIST",
                    "give",
                    "back",
                    "words",
                )
            elif dice < 0.75:
                tokens[at] = tokens[at].upper()
            self.lines.append(self.pick(" ", "  ", "   ", "\t").join([""] * self.below(2) + tokens))

    def no_engine(self):
        """Commands to an engine that is not there."""
        for _ in range(6):
            self.say(self.pick("step 0", "turn", "hold", "read 0", "take", "token", "make 1 0"))
        self.settings()


def scenarios(seed, count, formats_only=False):
    """Scenario 0 to count - 1 of a seed."""
    for number in range(count):
        yield Maker(seed, number, formats_only).make()


def main():
    parser = argparse.ArgumentParser(description="Makes random console scenarios.")
    parser.add_argument("seed", type=int, metavar="SEED")
    parser.add_argument("count", type=int, metavar="COUNT")
    parser.add_argument("--formats", action="store_true", help="only what needs no engine")
    parser.add_argument("--directory", type=pathlib.Path, help="a file for each scenario")
    options = parser.parse_args()
    made = scenarios(options.seed, options.count, options.formats)
    for number, text in enumerate(made):
        if options.directory is None:
            sys.stdout.write(text)
        else:
            options.directory.mkdir(parents=True, exist_ok=True)
            name = f"{options.seed}-{number:05}.txt"
            (options.directory / name).write_text(text)


if __name__ == "__main__":
    main()
