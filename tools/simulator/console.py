"""The console: plays a scenario, given as bytes, and gives its output lines."""

from collections import Counter

from .devices import ByteMemory, ByteOutlet, StoreOutlet, WordMemory
from .engine import FREE, HOST, Engine
from .formats import (
    KINDS,
    WORD_LIMIT,
    PackedList,
    Refused,
    instruction_text,
    read_program,
    show_entry,
    show_instruction,
    show_sent,
    unpack_entry,
    unpack_instruction,
    unpack_sent,
)
from .laws import WatchedEngine, refused_changes_nothing

MOST_TIMES = 65536  # steps, turns, bytes or places that one command may ask for

DECIMAL = frozenset("0123456789")
HEXADECIMAL = frozenset("0123456789abcdefABCDEF")
TWO_WORD_COMMANDS = ("memory", "outlet", "give")


class NotUnderstood(Exception):
    """The line's words do not fit; the message says why."""


class Words:
    """The words of a command after its name, taken from left to right."""

    def __init__(self, tokens):
        self.tokens = tokens

    def word(self):
        if not self.tokens:
            raise NotUnderstood("missing word")
        return self.tokens.pop(0)

    def number(self, most=WORD_LIMIT - 1):
        token = self.word()
        if token.startswith("0x"):
            digits, allowed, base = token[2:], HEXADECIMAL, 16
        else:
            digits, allowed, base = token, DECIMAL, 10
        if not digits or not allowed.issuperset(digits):
            raise NotUnderstood("no number")
        # Many digits are too large unless all but the last few are zeros.
        digits = digits.lstrip("0") or "0"
        if len(digits) > 10 or int(digits, base) > most:
            raise NotUnderstood("number too large")
        return int(digits, base)

    def times(self):
        return self.number(MOST_TIMES)

    def numbers(self):
        found = []
        while self.tokens:
            found.append(self.number())
        return found

    def bytes(self):
        token = self.word()
        if token == "-":
            return b""
        if len(token) % 2 != 0 or not HEXADECIMAL.issuperset(token):
            raise NotUnderstood("no bytes")
        return bytes.fromhex(token)

    def end(self):
        if self.tokens:
            raise NotUnderstood("extra word")


class Console:
    """One scenario, from the beginning."""

    def __init__(self, check_laws=False):
        self.check_laws = check_laws
        self.program = None
        self.memory = None
        self.outlet = None
        self.engine = None
        self.seen = Counter()  # how often each answer, refusal and reason occurred
        self.moves = Counter()  # with laws checked: (state, instruction, answer) of each step
        self.checks = 0  # moments at which the serial law was checked

    def play(self, data):
        """Gives the output lines, one after the other."""
        for line in data.split(b"\n"):
            yield from self.line(line)
        if self.engine is not None and self.engine.token == HOST:
            self.engine.give_back()
            yield "(end) give back -> given back"
        self._collect()

    def line(self, line):
        text = line.split(b"#", 1)[0].decode("latin-1")
        text = text.replace("\t", " ").replace("\r", " ")
        tokens = [token for token in text.split(" ") if token]
        if not tokens:
            return
        try:
            lines = self.command(list(tokens))
        except NotUnderstood as why:
            self.seen[f"not understood: {why}"] += 1
            yield f"-> not understood: {why}"
            return
        except Refused as refusal:
            lines = [self._refused(refusal)]
        yield f"{' '.join(tokens)} -> {lines[0]}"
        yield from lines[1:]

    def command(self, tokens):
        """The answer's lines; the first stands behind the arrow."""
        name = tokens.pop(0)
        if name in TWO_WORD_COMMANDS:
            name += " " + (tokens.pop(0) if tokens else "")
        perform = self.COMMANDS.get(name)
        if perform is None:
            raise NotUnderstood("unknown command")
        answer = perform(self, Words(tokens))
        return answer if isinstance(answer, list) else [answer]

    def _refused(self, refusal):
        self.seen[f"refused {refusal.number}"] += 1
        return refusal.text()

    # ---- programs and packed words

    def do_program(self, words):
        numbers = words.numbers()
        return self._accept(b"".join(word.to_bytes(4, "big") for word in numbers))

    def do_program_bytes(self, words):
        data = words.bytes()
        words.end()
        return self._accept(data)

    def _accept(self, data):
        self.program = read_program(data)
        return f"accepted {len(self.program)}"

    def do_list(self, words):
        words.end()
        if self.program is None:
            return "no program"
        lines = [f"instructions {len(self.program)}"]
        for number, instruction in enumerate(self.program):
            lines.append(f"  {number}  {instruction_text(instruction)}")
        return lines

    def do_instruction(self, words):
        word = words.number()
        words.end()
        return show_instruction(unpack_instruction(word))

    def do_entry(self, words):
        word = words.number()
        words.end()
        return show_entry(unpack_entry(word))

    def do_sent(self, words):
        data = words.bytes()
        if len(data) != 5:
            raise NotUnderstood("not five bytes")
        words.end()
        return show_sent(unpack_sent(data))

    def do_image(self, words):
        kind = KINDS.get(words.word())
        if kind is None:
            raise NotUnderstood("unknown kind")
        packed = PackedList(kind, words.bytes())
        words.end()
        lines = [f"entries {len(packed)} spare {packed.spare()}"]
        for place in range(len(packed)):
            try:
                shown = kind.show(packed.get(place))
            except Refused as refusal:
                shown = self._refused(refusal)
            lines.append(f"  {place}: {shown}")
        return lines

    # ---- the engine

    def do_memory_words(self, words):
        self.memory = WordMemory(words.numbers())
        return f"words {len(self.memory)}"

    def do_memory_bytes(self, words):
        data = words.bytes()
        words.end()
        self.memory = ByteMemory(data)
        return f"words {len(self.memory)}"

    def do_outlet_store(self, words):
        words.end()
        self.outlet = StoreOutlet()
        return f"room {self.outlet.room()}"

    def do_outlet_bytes(self, words):
        size = words.times()
        words.end()
        self.outlet = ByteOutlet(size)
        return f"room {self.outlet.room()}"

    def do_make(self, words):
        lines = words.number()
        entries = words.numbers()
        if self.program is None:
            raise NotUnderstood("no program")
        if self.engine is not None and self.engine.token == HOST:
            self.engine.give_back()
        self._collect()
        memory = self.memory if self.memory is not None else WordMemory([0] * 16)
        outlet = self.outlet if self.outlet is not None else StoreOutlet()
        self.memory = self.outlet = None
        make = WatchedEngine if self.check_laws else Engine
        self.engine = make(lines, entries, self.program, memory, outlet)
        if self.engine.refusal is not None:
            return f"{self._refused(self.engine.refusal)} cores 0"
        return f"cores {len(self.engine.cores)}"

    def _collect(self):
        """Adds up what the observer of the engine that is now left has counted."""
        if self.check_laws and self.engine is not None:
            self.checks += self.engine.checks
            self.moves += self.engine.moves

    def _call(self, call):
        """Calls the engine; while laws are checked, a refused call must change nothing."""
        if self.engine is None:
            raise NotUnderstood("no engine")
        if self.check_laws:
            return refused_changes_nothing(self.engine, lambda: call(self.engine))
        return call(self.engine)

    def _move(self, call):
        """A step or a turn."""
        try:
            answer = self._call(call)
        except Refused as refusal:
            if refusal.number == 11 and self.engine.token not in (FREE, HOST):
                self.seen["refused 11 while a core has the token"] += 1
            raise
        if answer.startswith("faulted"):
            self.seen[f"{answer.split(' at ')[0]} mark {self.engine.record[-1].mark}"] += 1
        else:
            self.seen[answer] += 1
        return answer

    def do_step(self, words):
        index = words.number()
        words.end()
        return self._move(lambda engine: engine.step(index))

    def do_turn(self, words):
        words.end()
        return self._move(lambda engine: engine.turn())

    def do_steps(self, words):
        index = words.number()
        times = words.times()
        words.end()
        return self._repeat(times, lambda engine: engine.step(index))

    def do_turns(self, words):
        times = words.times()
        words.end()
        return self._repeat(times, lambda engine: engine.turn())

    def _repeat(self, times, call):
        if self.engine is None:
            raise NotUnderstood("no engine")
        answer = "none"
        for called in range(1, times + 1):
            try:
                answer = self._move(call)
            except Refused as refusal:
                return f"{self._refused(refusal)} after {called}"
        return f"{answer} after {times}"

    def do_hold(self, words):
        words.end()
        self._call(lambda engine: engine.hold())
        return "held"

    def do_give_back(self, words):
        words.end()
        self._call(lambda engine: engine.give_back())
        return "given back"

    def do_read(self, words):
        address = words.number()
        words.end()
        return f"word {self._call(lambda engine: engine.read(address))}"

    def do_take(self, words):
        words.end()
        entry = self._call(lambda engine: engine.take())
        return f"channel {entry.channel} word {entry.word}"

    def do_clear(self, words):
        words.end()
        self._call(lambda engine: engine.clear())
        return "cleared"

    def do_record(self, words):
        place = words.number()
        words.end()
        return show_entry(self._call(lambda engine: engine.entry(place)))

    def do_tags(self, words):
        index = words.number()
        places = [0] * words.times()
        words.end()
        count = self._call(lambda engine: engine.tags(index, places))
        return " ".join([f"{count}:"] + [str(address) for address in places[:count]])

    def do_core(self, words):
        index = words.number()
        words.end()
        core = self._call(lambda engine: engine.core(index))
        registers = " ".join(str(register) for register in core.registers)
        return (
            f"{core.state.value} pc {core.pc} registers {registers}"
            f" depth {core.depth} count {core.count} lines {len(core.lines)}"
        )

    def do_token(self, words):
        words.end()
        holder = self._call(lambda engine: engine.token)
        if holder is FREE:
            return "free"
        return HOST if holder == HOST else f"core {holder}"

    COMMANDS = {
        "program": do_program,
        "program-bytes": do_program_bytes,
        "list": do_list,
        "instruction": do_instruction,
        "entry": do_entry,
        "sent": do_sent,
        "image": do_image,
        "memory words": do_memory_words,
        "memory bytes": do_memory_bytes,
        "outlet store": do_outlet_store,
        "outlet bytes": do_outlet_bytes,
        "make": do_make,
        "step": do_step,
        "turn": do_turn,
        "steps": do_steps,
        "turns": do_turns,
        "hold": do_hold,
        "give back": do_give_back,
        "read": do_read,
        "take": do_take,
        "clear": do_clear,
        "record": do_record,
        "tags": do_tags,
        "core": do_core,
        "token": do_token,
    }
