#!/usr/bin/env python3
"""draw.py SEED CASES > FILE: a case file of random tables and random steps near the edges of each rule. What each step must give comes from
the model. The same seed draws the same file.
"""

import random
import struct
import sys

import model
import recorded

TURN = 2**32
HALF = 2**31
OWNERS = [bytes([0xA0] * 15 + [last]) for last in range(2)] + [bytes([first] + [0xA0] * 15) for first in range(2)]
CHANNELS = (1, 2, 65535)
MIDS = (1, 2, 5, 77, 65534)
EDGES = (0, 1, 2, 5, HALF - 2, HALF - 1, HALF, HALF + 1, TURN - 3, TURN - 1)


class Drawer:
    """Draws cases one after the other; each line is run over the model as it is drawn."""

    def __init__(self, seed):
        self.random = random.Random(seed)
        self.pick = self.random.choice
        self.table = None

    def line(self, text):
        print(text)
        for given in self.table.run(text.split()):
            print("= " + given)

    def chance(self, part):
        return self.random.random() < part

    def octets(self, *lengths):
        return self.random.randbytes(self.pick(lengths))

    def used(self):
        return [record for record in self.table.table if record.used]

    # ---- tables ----

    def case(self, name):
        print(f"case {name}")
        self.table = recorded.Table(model)
        self.line("ours " + self.random.randbytes(16).hex())
        names = [(owner, channel) for owner in OWNERS for channel in CHANNELS]
        self.random.shuffle(names)
        for index in self.random.sample(range(8), self.pick((1, 2, 2, 3, 8))):
            self.record(index, *names.pop())
            if self.chance(0.15):
                self.line(f"free {index}")
        for _ in range(self.pick((4, 8, 16))):
            self.step()

    def record(self, index, owner, channel):
        reliable, total = self.pick(EDGES), self.pick(EDGES)
        expiry, maxwait = self.pick((2, 3, 10, 255)), self.pick((0, 1, 10, 100, 3000, 65535))
        ahead = self.pick((0, 0, 1, 2, 3, 4, 5, 8, HALF - 1))
        acked = self.pick((reliable, reliable - 1, reliable - 5, self.pick(EDGES))) % TURN
        self.line(f"record {index} owner {owner.hex()} channel {channel} mid {self.pick(MIDS)} reciprocal {self.pick((1, 9, 65535))} "
                  f"total {total} reliable {reliable} known {(reliable + ahead) % TURN} acked {acked} expiry {expiry} "
                  f"outbound {self.pick((0, 1))} holdoff {self.pick((0, 1, 2, 20, 65535))} modulus {self.pick((1, 2, 7, 8, 65535))} "
                  f"maxwait {maxwait} idle {self.pick((0, 1, 500, expiry * 1000 - 5, expiry * 1000 - 1))} gap {self.gap(ahead, expiry, maxwait)}")
        taken = set()
        for place in self.random.sample(range(4), self.random.randrange(5)):
            held = self.pick((2, 2, 3, 4, 5, ahead))
            if 2 <= held <= ahead and held not in taken:
                taken.add(held)
                behind = self.pick((0, 1, held, held + 1, held + 3, -2, HALF, HALF - 1))
                self.line(f"place {index} {place} total {(total + behind) % TURN} reliable {(reliable + held) % TURN} "
                          f"contents {recorded.word_of(self.octets(0, 1, 3, 20))}")

    def gap(self, ahead, expiry, maxwait):
        if ahead == 0:
            return "quiet"
        if self.chance(0.5):
            return f"standoff {self.pick((0, maxwait, maxwait // 2))} {self.random.randrange(3)}"
        return f"waiting {self.pick((0, 1, expiry * 50, expiry * 100))} {self.random.randrange(1, 4)}"

    # ---- steps ----

    def step(self):
        if self.chance(0.04):
            piece, size = self.pick((("held", 46528), ("deliver", 7270), ("reply", 64), ("cells", 512)))
            self.line(f"lend {piece} {self.pick((0, size - 1, size))}")
        draw = self.random.choices((self.wrapper, self.join, self.other, self.elapsed, self.leave), (62, 14, 4, 16, 4))[0]
        self.line(draw())

    def wrapper(self):
        record = self.pick(self.used() or self.table.table) if self.chance(0.95) else self.pick(self.table.table)
        d = self.pick((1, 1, 1, 2, 3, 4, 5, 0, -1, HALF - 1, -HALF, 8))
        e = self.pick((0, 1, 1, 1, 1, 2, 3, 4, 5, -1, HALF - 1, -HALF))
        held = [place for place in record.places if place.used]
        if held and self.chance(0.3):
            e = model.distance(record.reliable, self.pick(held).reliable)
        if self.chance(0.5):
            d = max(d, e)
        reliable = (record.reliable + e) % TURN
        oldest = (record.reliable + (self.pick((-3, 1, 1, 2, 3, HALF - 1, -HALF)) if self.chance(0.3) else 0)) % TURN
        mid = record.mid
        first, last = self.pick(((1, 65535), (65535, 65535), (mid, mid), (min(mid + 1, 65535), 65535), (0, max(mid - 1, 0)), (5, 1)))
        since = (reliable - record.acked) % TURN
        threshold = self.pick((0, 0, 1, 2, 5, 65535, min(since, 65535), min(since + 1, 65535)))
        octets = struct.pack(">HIIIHHH", record.channel, (record.total + d) % TURN, reliable, oldest, first, last, threshold)
        return f"message {record.owner.hex()} {self.pick((1, 1, 1, 2))} {self.pick((0, 9))} {(octets + self.octets(0, 1, 2, 5, 30)).hex()}"

    def join(self):
        owner, channel, mid = self.pick(OWNERS), self.pick((0,) + CHANNELS * 4), self.pick(MIDS * 3 + (0, 65535))
        if self.used() and self.chance(0.4):
            record = self.pick(self.used())
            owner, channel, mid = record.owner, record.channel, self.pick((record.mid, record.mid, mid))
        address = self.pick((0, 0, 1, 1, 1, 2, 255))
        octets = self.table.ours if self.chance(0.95) else bytes(16)
        octets += struct.pack(">HHHIIB", mid, channel, self.pick((0, 3)), self.pick(EDGES), self.pick(EDGES), address)
        if address == 1:
            octets += self.octets(6)
        if address < 2:
            octets += struct.pack(">BBHHHB", self.pick((2, 3, 255) * 4 + (0, 1)), self.pick((0, 128) * 5 + (1, 64, 127, 129)),
                                  self.pick((0, 2, 65535)), self.pick((1, 7, 65535) * 4 + (0,)), self.pick((0, 100, 65535)), self.pick((0, 9)))
        else:
            octets += self.octets(0, 0, 1, 9, 15)
        octets = self.pick((octets,) * 18 + (octets[:-1], octets + b"\0"))
        return f"message {owner.hex()} 4 {self.pick((9, 9, 9, 1, 65535, 0))} {octets.hex()}"

    def other(self):
        vector = self.pick((0, 3, 5, 6, 7, 8, 9, 13, 14, 14, 15, 16, 17, 255, 1, 2))
        length = {5: 25, 6: 26, 8: 25, 15: 32, 16: 16, 14: 4, 1: 19, 2: 19}.get(vector, 20)
        return f"message {self.pick(OWNERS).hex()} {vector} 9 {self.octets(length, length, length - 1).hex()}"

    def elapsed(self):
        return f"elapsed {self.pick((0, 0, 1, 2, 5, 10, 100, 200, 300, 500, 999, 1000, 1001, TURN - 1))}"

    def leave(self):
        record = self.pick(self.used() or self.table.table)
        return f"leave {record.owner.hex()} {record.channel} {self.pick(list(range(14)) + [255])}"


def main():
    seed, cases = int(sys.argv[1]), int(sys.argv[2])
    print("# Random tables and steps near the edges of each rule: the tables set by hand, then wrappers, Joins, elapsed times and leave calls at and")
    print(f"# beside their bounds. Drawn by tests/teeth/draw.py {seed} {cases}.")
    drawer = Drawer(seed)
    for number in range(cases):
        drawer.case(f"edges {seed}.{number}")


if __name__ == "__main__":
    main()
