"""Writes case files (FORMAT.md)."""
from sections import words

OPEN, ONE, ALL = 0, 1, 2
SPARE = 16      # bytes lent past the text's end; they must come back zero
DRAFT = 65536   # the same for a refused request, which may print first and is dropped then


class Cases:
    def __init__(self):
        self.names = []
        self.bytes = b""

    def raw(self, name, section, calls, text):
        """Calls are (what, a, b, section length, work length, text length, number, value)."""
        assert name not in self.names and len(name) <= 200, name
        self.names.append(name)
        text = text.encode() if isinstance(text, str) else text
        self.bytes += words(len(name)) + name.encode() + words(len(section)) + section
        self.bytes += words(len(calls)) + b"".join(words(*c) for c in calls)
        self.bytes += words(len(text)) + text

    def add(self, name, table, *asks, pointer=8, modes=0, has=()):
        """Opens the table and makes the requests, each given as
        (id or "all", text that it adds), (id or "all", number of its refusal) or
        ("all", number, text added before the refusal).
        `has` are fragments that the whole text must contain."""
        section, work = table.section(), table.work()
        steps, text = [], ""
        for what, answer, *kept in asks:
            number = answer if isinstance(answer, int) else 0
            text += "".join(kept) if number else answer
            steps.append((what, number, len(text)))
        if steps[-1][1] >= 12:          # the session is closed now
            steps.append((0, 11, len(text)))
        for fragment in has:
            assert fragment in text, (name, fragment, text)
        room = len(text) + (DRAFT if any(s[1] for s in steps) else SPARE)
        calls = [(OPEN, pointer, modes, len(section), work, room, 0, table.types)]
        for what, number, value in steps:
            ask = (ALL, 0) if what == "all" else (ONE, what)
            calls.append((*ask, 0, len(section), work, room, number, value))
        self.raw(name, section, calls, text)

    def file(self):
        return b"BTFCASE1" + words(len(self.names)) + self.bytes
