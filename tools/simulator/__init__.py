"""A simulator of the hub, written from docs/ and from nothing else.

formats.py        words, instructions, entries, packed lists, programs   (docs/1, docs/2)
devices.py        memory and outlet                                       (docs/3)
engine.py         the engine and its calls                                (docs/4, docs/6)
one_at_a_time.py  the one-at-a-time machine                               (docs/5)
laws.py           an observer that checks the laws during a run           (docs/7)
console.py        the console that plays scenarios                        (docs/8)
"""
