"""Two memories and two outlets."""

from collections import deque

from .formats import KINDS, PackedList, Refused, SentEntry

MOST_WORDS = 65536


class WordMemory:
    """A handed-in list of words; words past 65,536 are never touched."""

    def __init__(self, words):
        self.words = words

    def __len__(self):
        return min(len(self.words), MOST_WORDS)

    def read(self, address):
        if address >= len(self):
            raise Refused(14)
        return self.words[address]

    def write(self, address, word):
        if address >= len(self):
            raise Refused(14)
        self.words[address] = word


class ByteMemory:
    """Handed-in bytes, four to a word, most significant first."""

    def __init__(self, data):
        self.data = bytearray(data)

    def __len__(self):
        return min(len(self.data) // 4, MOST_WORDS)

    def read(self, address):
        if address >= len(self):
            raise Refused(14)
        return int.from_bytes(self.data[address * 4 : address * 4 + 4], "big")

    def write(self, address, word):
        if address >= len(self):
            raise Refused(14)
        self.data[address * 4 : address * 4 + 4] = word.to_bytes(4, "big")


class StoreOutlet:
    """A store with room for 64 entries."""

    def __init__(self):
        self.waiting = deque()

    def room(self):
        return 64 - len(self.waiting)

    def send(self, channel, word):
        if self.room() == 0:
            return False
        self.waiting.append(SentEntry(channel, word))
        return True

    def take(self):
        if not self.waiting:
            raise Refused(15)
        return self.waiting.popleft()

    def entries(self):
        return list(self.waiting)


class ByteOutlet:
    """A ring over handed-in bytes, five to an entry."""

    def __init__(self, size):
        self.ring = PackedList(KINDS["sent"], bytearray(size))
        self.oldest = 0
        self.used = 0

    def room(self):
        return len(self.ring) - self.used

    def _place(self, offset):
        place = self.oldest + offset
        return place - len(self.ring) if place >= len(self.ring) else place

    def send(self, channel, word):
        if self.room() == 0:
            return False
        self.ring.put(self._place(self.used), SentEntry(channel, word))
        self.used += 1
        return True

    def take(self):
        if self.used == 0:
            raise Refused(15)
        entry = self.ring.get(self.oldest)
        self.oldest = self._place(1)
        self.used -= 1
        return entry

    def entries(self):
        return [self.ring.get(self._place(i)) for i in range(self.used)]
