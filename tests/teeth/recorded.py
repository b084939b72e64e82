"""Reads case files and runs them over a member: model.py, or one of the faulty members that faults.py makes of it. It judges what the format
asks for: the lines of each step, and that no octet changed beyond what the answer says is written.
"""

import os

UNTOUCHED = 170
NUMBERS = ("channel", "mid", "reciprocal", "total", "reliable", "known", "acked", "expiry", "outbound", "holdoff", "modulus", "maxwait", "idle")
CALLS = ("message", "elapsed", "leave", "block", "read", "write")


class Step:
    """One line of a case and the lines that it must give; none if it is not compared."""

    def __init__(self, number, words):
        self.number = number
        self.words = words
        self.expected = []


class Case:
    def __init__(self, name):
        self.name = name
        self.steps = []


def read_file(path):
    cases = []
    with open(path, encoding="ascii") as lines:
        for number, line in enumerate(lines, 1):
            words = line.split()
            if not words or words[0].startswith("#"):
                continue
            if words[0] == "case":
                cases.append(Case(" ".join(words[1:])))
            elif words[0].startswith("="):
                cases[-1].steps[-1].expected.append(" ".join(words).removeprefix("=").strip().lower())
            else:
                cases[-1].steps.append(Step(number, words))
    return cases


def files_of(folder):
    """The case files of a folder, small ones first."""
    paths = [os.path.join(folder, name) for name in os.listdir(folder) if name.endswith(".txt")]
    return sorted(paths, key=lambda path: (os.path.getsize(path), path))


class Octets(bytes):
    """Lent octets to read. A member that reads past their end finds something there, as it might in another language."""

    def __getitem__(self, place):
        if isinstance(place, slice):
            return Octets(super().__getitem__(place))
        return super().__getitem__(place) if place < len(self) else UNTOUCHED


class Room(bytearray):
    """Lent octets to write. `overrun` says whether a member has written past their end."""

    overrun = False

    def __setitem__(self, place, octet):
        if isinstance(place, int) and place >= len(self):
            self.overrun = True
        else:
            super().__setitem__(place, octet)


def octets_of(word):
    return Octets() if word == "-" else Octets.fromhex(word)


def word_of(octets):
    return bytes(octets).hex() or "-"


def first_difference(member, case):
    """The first step that gives other lines than it must, as (step, given lines), or None."""
    table = Table(member)
    for step in case.steps:
        given = table.run(step.words)
        if table.spoilt or (step.expected and given != step.expected):
            return (step, given)
    return None


class Table:
    """One case's table with everything that is lent to the calls over it."""

    def __init__(self, member):
        self.member = member
        self.table = [member.Record() for _ in range(8)]
        self.states = [record.state() for record in self.table]
        self.held = Room(46528)
        self.ours = bytes(16)
        self.lent = {}
        self.spoilt = False

    def run(self, words):
        """Runs one line; the lines that it gives, or none if it only sets something."""
        if words[0] == "lend":
            self.lent[words[1]] = int(words[2])
            return []
        lines = getattr(self, "do_" + words[0])(*words[1:])
        self.lent = {}
        return lines or []

    def room(self, piece, size):
        return Room([UNTOUCHED] * self.lent.get(piece, size))

    def records(self):
        count = self.lent.get("table", 8)
        return self.table[:count] + [self.member.Record() for _ in range(count - 8)]

    def expect_untouched(self, room, written):
        """Notes a failure if an octet outside the written runs, (begin, end) in order, is not as it was lent, or one past the end was written."""
        self.spoilt = self.spoilt or room.overrun
        at = 0
        for begin, end in written + [(len(room), len(room))]:
            if room[at:begin] != bytes([UNTOUCHED]) * (begin - at):
                self.spoilt = True
            at = max(at, end)

    # ---- lines that set something ----

    def do_ours(self, cid):
        self.ours = octets_of(cid)

    def do_record(self, index, *words):
        record = self.table[int(index)]
        fields = dict(zip(words[0::2], words[1::2]))
        record.used = True
        record.owner = octets_of(fields["owner"])
        for name in NUMBERS:
            setattr(record, name, int(fields[name]))
        record.phase = fields["gap"]
        record.left, record.count = (int(word) for word in words[-2:]) if record.phase != "quiet" else (0, 0)
        self.states[int(index)] = record.state()

    def do_free(self, index):
        self.table[int(index)].used = False
        self.states[int(index)] = self.table[int(index)].state()

    def do_place(self, index, place, _total, total, _reliable, reliable, _contents, contents):
        octets = octets_of(contents)
        kept = self.table[int(index)].places[int(place)]
        kept.used = True
        kept.total = int(total)
        kept.reliable = int(reliable)
        kept.length = len(octets)
        at = (int(index) * 4 + int(place)) * 1454
        self.held[at:at + len(octets[:1454])] = octets[:1454]
        self.states[int(index)] = self.table[int(index)].state()

    # ---- calls over the table ----

    def do_message(self, sender, vector, reciprocal, octets):
        size = self.lent.get("held", 46528)
        held = self.held if size == 46528 else Room(self.held[:size] + bytes(max(0, size - 46528)))
        before = bytes(held)
        deliver = self.room("deliver", 7270)
        reply = self.room("reply", 64)
        answer = self.member.message_call(self.records(), held, deliver, reply, octets_of(sender), self.ours, int(vector), int(reciprocal),
                                          octets_of(octets))
        self.expect_untouched(deliver, [(n * 1454, n * 1454 + one[3]) for n, one in enumerate(answer.deliveries)])
        self.expect_untouched(reply, [(0, answer.reply)])
        self.expect_held(before, held, answer)
        if answer.refusal:
            return self.refused(answer)
        lines = ["taken"]
        for turn, (kind, total, reliable, length) in enumerate(answer.deliveries):
            lines.append(f"delivered {kind} {total} {reliable} {word_of(deliver[turn * 1454:turn * 1454 + length])}")
        if answer.fate == "held":
            lines.append(f"held {answer.place}")
        if answer.fate == "dropped":
            lines.append("dropped")
        if answer.thrown:
            lines.append(f"thrown {answer.thrown}")
        if answer.reply:
            lines.append(f"reply {word_of(reply[:answer.reply])}")
        return lines + self.changes()

    def expect_held(self, before, held, answer):
        self.spoilt = self.spoilt or held.overrun
        if held == before:
            return
        begin = end = 0
        if answer.fate == "held":
            begin = (answer.record * 4 + answer.place) * 1454
            end = begin + self.table[answer.record].places[answer.place].length
        if held[:begin] != before[:begin] or held[end:] != before[end:]:
            self.spoilt = True

    def do_elapsed(self, milliseconds):
        cells = self.room("cells", 512)
        answer = self.member.elapsed_call(self.records(), cells, int(milliseconds))
        self.expect_untouched(cells, [(index * 64, index * 64 + length) for index, _, length in answer.cells])
        if answer.refusal:
            return self.refused(answer)
        lines = ["taken"]
        for index, kind, length in answer.cells:
            lines.append(f"cell {index} {kind} {word_of(cells[index * 64:index * 64 + length])}")
        return lines + self.changes()

    def do_leave(self, owner, channel, reason):
        reply = self.room("reply", 64)
        answer = self.member.leave_call(self.records(), reply, octets_of(owner), int(channel), int(reason))
        self.expect_untouched(reply, [(0, answer.reply)])
        if answer.refusal:
            return self.refused(answer)
        return ["taken", f"reply {word_of(reply[:answer.reply])}"] + self.changes()

    def refused(self, answer):
        # A refusal prints its number alone, so what it should have left alone shows in the steps that follow.
        self.states = [record.state() for record in self.table]
        return [f"refused {answer.refusal}"]

    def changes(self):
        lines = []
        for index, record in enumerate(self.table):
            before, now = self.states[index], record.state()
            if now == before:
                continue
            self.states[index] = now
            lines.append(record_line(index, record))
            for place, kept in enumerate(record.places):
                if now[-1][place] != before[-1][place]:
                    lines.append(f"place {index} {place} {'used' if kept.used else 'free'} total {kept.total} reliable {kept.reliable} "
                                 f"length {kept.length}")
        return lines

    # ---- blocks and messages ----

    def do_block(self, position, octets):
        answer = self.member.read_block(octets_of(octets), int(position))
        if answer[0] == "message":
            return [f"message vector {answer[1]} data {answer[2]} length {answer[3]}"]
        if answer[0] == "refused" and answer[1] == 11:
            return [f"refused 11 at {answer[2]}"]
        return [" ".join(str(part) for part in answer)]

    def do_read(self, vector, octets):
        words = self.member.read_message(int(vector), octets_of(octets))
        if words is None:
            return ["refused 4"]
        line = " ".join(f"{name} {word_of(value) if isinstance(value, bytes) else value}" for name, value in words)
        return [" ".join(line.split())]

    def do_write(self, size, name, *words):
        room = Room([UNTOUCHED] * int(size))
        kind, fields, contents = message_fields(name, words)
        outcome, number = self.member.write_message(kind, fields, contents, room)
        if outcome == "refused":
            self.expect_untouched(room, [])
            return [f"refused {number}"]
        self.expect_untouched(room, [(0, number)])
        return [f"wrote {word_of(room[:number])}"]


def record_line(index, record):
    numbers = " ".join(f"{name} {getattr(record, name)}" for name in NUMBERS)
    gap = "quiet" if record.phase == "quiet" else f"{record.phase} {record.left} {record.count}"
    return f"record {index} {'used' if record.used else 'free'} owner {word_of(record.owner)} {numbers} gap {gap}"


# Octets of each field of a written message; reliable and total numbers have four unless said otherwise.
WIDTHS = {"mid": 2, "channel": 2, "reciprocal": 2, "total": 4, "reliable": 4, "expiry": 1, "flags": 1, "holdoff": 2, "modulus": 2, "maxwait": 2,
          "adhoc": 1, "reason": 1, "first": 4, "last": 4, "oldest": 4, "threshold": 2}


def message_fields(name, words):
    """A written message's kind, its fields in the order of its figure as (value, width), and its contents."""
    fields = []
    contents = b""
    if name == "get":
        words = words[1:]
    wrapper = name in ("reliable", "unreliable")
    words = list(words)
    while words:
        field = words.pop(0)
        value = words.pop(0)
        if field == "cid":
            fields.append((octets_of(value), 16))
        elif field == "contents":
            contents = octets_of(value)
        elif field == "address" and value == "type":
            return ("join of another type", [], b"")
        elif field == "address" and value == "null":
            fields.append((0, 1))
        elif field == "address":
            fields += [(1, 1), (int(words.pop(0)), 2), (bytes(int(part) for part in words.pop(0).split(".")), 4)]
        else:
            fields.append((int(value), 2 if wrapper and field in ("first", "last") else WIDTHS[field]))
    return (name, fields, contents)
