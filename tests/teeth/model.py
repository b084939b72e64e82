"""The scope paper's rules in Python: blocks, messages and the calls over a table, one function for each rule. It was written from the
paper alone, so that case files can be recorded and judged without the library. Nothing here is fast or clever on purpose; faults.py makes
some two thousand small changes of this file, and each has to be noticed by a case file. So that a faulty member gives a wrong answer where Python
would break down, a field that was never read is 0, a number too large for its octets is cut, a message of no known kind is taken for the last
one, and a search that finds nothing gives a number.
"""

# Sizes of what is lent, in records or octets.
TABLE = 8
PLACES = 4
CONTENTS = 1454
HELD = 46528
DELIVER = 7270
REPLY = 64
CELLS = 512
CELL = 64
CID = 16

# What a search gives that finds nothing.
NONE = -1

LONGEST_BLOCK = 65535
LONGEST_ELAPSED = 1000

# Numbers of the profile: seconds, milliseconds of NAK_TIMEOUT for each second of expiry, and how many NAKs are sent for a gap.
MIN_EXPIRY_TIME = 2
NAK_TIMEOUT = 100
NAK_MAX_RETRIES = 3

RELIABLE = 1
UNRELIABLE = 2
JOIN = 4
JOIN_REFUSE = 5
JOIN_ACCEPT = 6
LEAVING = 8
ACK = 14
NAK = 15
GET_SESSIONS = 16

ADDRESS_NULL = 0
ADDRESS_IPV4 = 1

ILLEGAL_PARAMETERS = 2
LOW_RESOURCES = 3
ALREADY_MEMBER = 4
BAD_ADDRESS = 5
NO_RECIPROCAL = 6
CHANNEL_EXPIRED = 7
LOST_SEQUENCE = 8
LEAVING_REASONS = (1, 6, 7, 8, 9, 10, 11)


class Place:
    """One place for a held wrapper; its octets lie in the held octets."""

    def __init__(self):
        self.used = False
        self.total = 0
        self.reliable = 0
        self.length = 0

    def state(self):
        return (self.used, self.total, self.reliable, self.length)


class Record:
    """One channel. `phase` is quiet, standoff or waiting, with its time left and its NAK count."""

    def __init__(self):
        self.used = False
        self.owner = bytes(CID)
        self.channel = 0
        self.mid = 0
        self.reciprocal = 0
        self.total = 0
        self.reliable = 0
        self.known = 0
        self.acked = 0
        self.expiry = 0
        self.outbound = 0
        self.holdoff = 0
        self.modulus = 0
        self.maxwait = 0
        self.idle = 0
        self.phase = "quiet"
        self.left = 0
        self.count = 0
        self.places = [Place() for _ in range(PLACES)]

    def state(self):
        return (self.used, self.owner, self.channel, self.mid, self.reciprocal, self.total, self.reliable, self.known, self.acked, self.expiry,
                self.outbound, self.holdoff, self.modulus, self.maxwait, self.idle, self.phase, self.left, self.count,
                tuple(place.state() for place in self.places))


class Answer:
    """What a call over the table answers: a refusal number, or 0 and what was done."""

    def __init__(self, refusal=0):
        self.refusal = refusal
        self.deliveries = []  # (kind, total, reliable, length), each with its cell of the delivery room
        self.fate = None  # of the wrapper itself: delivered, held or dropped
        self.record = 0  # the record and the place that holds it, if it is held
        self.place = 0
        self.thrown = 0
        self.reply = 0  # octets written into the reply room
        self.cells = []  # (record, kind, length), each with its cell of the elapsed room


class Fields:
    """What the fields of a message are before they are read."""

    cid = bytes(CID)
    ipv4 = bytes(4)
    contents = b""
    reliably = False
    mid = channel = reciprocal = total = reliable = address = port = expiry = flags = holdoff = modulus = maxwait = adhoc = 0
    oldest = first = last = threshold = 0


class Join(Fields):
    """The fields of a Join. With an address type other than null and IPv4 only those up to the type count."""

    def __init__(self, octets):
        self.cid = octets[0:16]
        self.mid = number(octets, 16, 2)
        self.channel = number(octets, 18, 2)
        self.reciprocal = number(octets, 20, 2)
        self.total = number(octets, 22, 4)
        self.reliable = number(octets, 26, 4)
        self.address = octets[30]
        if self.address == ADDRESS_NULL:
            self.parameters(octets, 31)
        if self.address == ADDRESS_IPV4:
            self.port = number(octets, 31, 2)
            self.ipv4 = octets[33:37]
            self.parameters(octets, 37)

    def parameters(self, octets, at):
        self.expiry = octets[at]
        self.flags = octets[at + 1]
        self.holdoff = number(octets, at + 2, 2)
        self.modulus = number(octets, at + 4, 2)
        self.maxwait = number(octets, at + 6, 2)
        self.adhoc = octets[at + 8]


class Wrapper(Fields):
    """The fields of a wrapper, and its contents behind them."""

    def __init__(self, vector, octets):
        self.reliably = vector == RELIABLE
        self.channel = number(octets, 0, 2)
        self.total = number(octets, 2, 4)
        self.reliable = number(octets, 6, 4)
        self.oldest = number(octets, 10, 4)
        self.first = number(octets, 14, 2)
        self.last = number(octets, 16, 2)
        self.threshold = number(octets, 18, 2)
        self.contents = octets[20:]


# ---- numbers and octets ----


def distance(old, new):
    """The signed distance from an old to a new number; a half turn is behind."""
    ahead = (new - old) % 2**32
    if ahead < 2**31:
        return ahead
    return ahead - 2**32


def number(octets, at, width):
    return int.from_bytes(octets[at:at + width], "big")


def write(room, at, octets):
    """Puts octets into a lent room; all else in it stays."""
    for offset, octet in enumerate(octets):
        room[at + offset] = octet


def big(value, width):
    return (value & 256**width - 1).to_bytes(width, "big")


def pdu(vector, fields):
    return big(0x7000 + 3 + len(fields), 2) + big(vector, 1) + fields


# ---- blocks ----


def read_block(block, position):
    """The places of a message's vector and data: ("message", vector, data, length), ("fewer",), ("refused", 1) or ("refused", 11, place)."""
    if len(block) > LONGEST_BLOCK:
        return ("refused", 1)
    found = ("fewer",)
    vector = data = length = None
    at = 0
    turn = 0
    while at < len(block):
        if at == 0 and block[at] & 0x70 != 0x70:
            return ("refused", 11, at)
        own, fields, size = pdu_sizes(block, at)
        if size < fields or at + size > len(block):
            return ("refused", 11, at)
        if block[at] & 0x40:
            vector = at + own
        if block[at] & 0x10:
            data = at + fields
            length = size - fields
        elif size > fields:
            return ("refused", 11, at)
        if turn == position:
            found = ("message", vector, data, length)
        turn += 1
        at += size
    return found


def pdu_sizes(block, at):
    """How many octets a PDU's flags and length have, those with the vector, and the PDU by its length. Where length octets are missing, a
    length that covers its fields ends past the block.
    """
    own = 3 if block[at] & 0x80 else 2
    fields = own + 1 if block[at] & 0x40 else own
    size = (block[at] & 0x0F) * 256 ** (own - 1) + number(block, at + 1, own - 1)
    return own, fields, size


# ---- messages ----


def fixed_length(vector):
    """The data length of a base message that has but one, or None."""
    return {JOIN_REFUSE: 25, JOIN_ACCEPT: 26, LEAVING: 25, NAK: 32, GET_SESSIONS: 16}.get(vector)


def is_readable(vector, octets):
    """Whether this is a base message with a data length and an address form of the paper's list."""
    if vector == RELIABLE or vector == UNRELIABLE:
        return len(octets) >= 20
    if vector == JOIN:
        return is_join_readable(octets)
    return len(octets) == fixed_length(vector)


def is_join_readable(octets):
    if len(octets) < 31:
        return False
    if octets[30] == ADDRESS_NULL:
        return len(octets) == 40
    if octets[30] == ADDRESS_IPV4:
        return len(octets) == 46
    return True


def read_message(vector, octets):
    """The message's words in the case format, as a list of (name, value), or None where reading gives 4. An ACK is readable here."""
    if vector == ACK:
        if len(octets) != 4:
            return None
        return [("ack", ""), ("reliable", number(octets, 0, 4))]
    if not is_readable(vector, octets):
        return None
    if vector == JOIN:
        return join_words(Join(octets))
    if vector == RELIABLE or vector == UNRELIABLE:
        return wrapper_words(Wrapper(vector, octets))
    if vector == GET_SESSIONS:
        return [("get", "sessions"), ("cid", octets[0:16])]
    name = {JOIN_REFUSE: "refuse", JOIN_ACCEPT: "accept", LEAVING: "leaving"}.get(vector, "nak")
    words = [(name, ""), ("cid", octets[0:16]), ("channel", number(octets, 16, 2)), ("mid", number(octets, 18, 2)),
             ("reliable", number(octets, 20, 4))]
    if vector == JOIN_ACCEPT:
        return words + [("reciprocal", number(octets, 24, 2))]
    if vector == NAK:
        return words + [("first", number(octets, 24, 4)), ("last", number(octets, 28, 4))]
    return words + [("reason", octets[24])]


def join_words(join):
    words = [("join", ""), ("cid", join.cid), ("mid", join.mid), ("channel", join.channel), ("reciprocal", join.reciprocal),
             ("total", join.total), ("reliable", join.reliable)]
    if join.address == ADDRESS_NULL:
        words += [("address", "null")]
    elif join.address == ADDRESS_IPV4:
        words += [("address", "ipv4"), (str(join.port), ".".join(str(octet) for octet in join.ipv4))]
    else:
        return words + [("address", "type"), (str(join.address), "")]
    return words + [("expiry", join.expiry), ("flags", join.flags), ("holdoff", join.holdoff), ("modulus", join.modulus),
                    ("maxwait", join.maxwait), ("adhoc", join.adhoc)]


def wrapper_words(wrapper):
    return [("reliable" if wrapper.reliably else "unreliable", ""), ("channel", wrapper.channel), ("total", wrapper.total),
            ("reliable", wrapper.reliable), ("oldest", wrapper.oldest), ("first", wrapper.first), ("last", wrapper.last),
            ("threshold", wrapper.threshold), ("contents", wrapper.contents)]


def write_message(name, fields, contents, room):
    """Writes a message of `fields`, a list of (value, width); answers ("refused", number) or ("wrote", length)."""
    if name == "join of another type":
        return ("refused", 4)
    octets = b"".join(value if isinstance(value, bytes) else big(value, width) for value, width in fields) + contents
    vector = {"reliable": RELIABLE, "unreliable": UNRELIABLE, "join": JOIN, "refuse": JOIN_REFUSE, "accept": JOIN_ACCEPT,
              "leaving": LEAVING, "ack": ACK, "nak": NAK}.get(name, GET_SESSIONS)
    if 3 + len(octets) > len(room):
        return ("refused", 1)
    if len(contents) > CONTENTS:
        return ("refused", 7)
    written = pdu(vector, octets)
    write(room, 0, written)
    return ("wrote", len(written))


# ---- the messages that a member sends ----


def standing(owner, channel, mid, reliable):
    """The fields with which most of a member's messages begin."""
    return owner + big(channel, 2) + big(mid, 2) + big(reliable, 4)


def ack(reliable):
    return pdu(ACK, big(reliable, 4))


def leaving(record, reason):
    return pdu(LEAVING, standing(record.owner, record.channel, record.mid, record.reliable) + big(reason, 1))


def accept(owner, channel, mid, reliable, reciprocal):
    return pdu(JOIN_ACCEPT, standing(owner, channel, mid, reliable) + big(reciprocal, 2))


def refuse(owner, join, reason):
    return pdu(JOIN_REFUSE, standing(owner, join.channel, join.mid, join.reliable) + big(reason, 1))


def nak(record, first, last):
    return pdu(NAK, standing(record.owner, record.channel, record.mid, record.reliable) + big(first, 4) + big(last, 4))


# ---- the table ----


def is_well_formed(table):
    for index, record in enumerate(table):
        if not record.used:
            continue
        if not is_record_well_formed(record):
            return False
        for earlier in range(index):
            other = table[earlier]
            if other.used and other.owner == record.owner and other.channel == record.channel:
                return False
    return True


def is_record_well_formed(record):
    if not are_terms_well_formed(record):
        return False
    if record.idle >= record.expiry * 1000:
        return False
    known = distance(record.reliable, record.known)
    if known < 0:
        return False
    return are_places_well_formed(record, known) and is_gap_well_formed(record, known)


def are_terms_well_formed(record):
    """Whether a record has fields that Joining accepts, and a reciprocal number."""
    if record.channel == 0:
        return False
    if record.mid == 0:
        return False
    if record.mid == 65535:
        return False
    if record.reciprocal == 0:
        return False
    if record.modulus == 0:
        return False
    return record.expiry >= MIN_EXPIRY_TIME


def are_places_well_formed(record, known):
    for index, place in enumerate(record.places):
        if not place.used:
            continue
        ahead = distance(record.reliable, place.reliable)
        if ahead < 2:
            return False
        if ahead > known:
            return False
        if place.length > CONTENTS:
            return False
        for earlier in range(index):
            other = record.places[earlier]
            if other.used and other.reliable == place.reliable:
                return False
    return True


def is_gap_well_formed(record, known):
    if record.phase == "quiet":
        return known == 0
    if known == 0:
        return False
    if record.phase == "standoff":
        if record.count >= NAK_MAX_RETRIES:
            return False
        return record.left <= record.maxwait
    if record.count < 1:
        return False
    if record.count > NAK_MAX_RETRIES:
        return False
    return record.left <= record.expiry * NAK_TIMEOUT


def find(table, owner, channel):
    """The record of this owner and channel, or NONE. A free record has neither."""
    for index, record in enumerate(table):
        if record.used and record.owner == owner and record.channel == channel:
            return index
    return NONE


def lowest_free(run):
    """The lowest free record of a table, or the lowest free place of a record, or NONE."""
    for index, item in enumerate(run):
        if not item.used:
            return index
    return NONE


def place_octets(index, place):
    """Where a place's octets begin in the held octets."""
    return (index * PLACES + place) * CONTENTS


# ---- a message call ----


def message_call(table, held, deliver, reply, sender, ours, vector, reciprocal, octets):
    if not has_sizes(table, held, deliver, reply):
        return Answer(1)
    if len(sender) != CID:
        return Answer(1)
    if len(ours) != CID:
        return Answer(1)
    if not is_well_formed(table):
        return Answer(2)
    if not is_readable(vector, octets):
        return Answer(4)
    if vector == JOIN:
        if octets[0:16] != ours:
            return Answer(5)
        return join_step(table, reply, sender, reciprocal, Join(octets))
    if vector != RELIABLE and vector != UNRELIABLE:
        return Answer(5)
    return wrapper_call(table, held, deliver, reply, sender, Wrapper(vector, octets))


def has_sizes(table, held, deliver, reply):
    """Whether what a message call is lent has the sizes of the paper."""
    if len(table) != TABLE:
        return False
    if len(held) != HELD:
        return False
    if len(deliver) != DELIVER:
        return False
    return len(reply) == REPLY


def is_illegal(join):
    """Whether a Join has illegal parameters. Without a readable address only its channel and MID are judged."""
    if join.channel == 0:
        return True
    if join.mid == 0:
        return True
    if join.mid == 65535:
        return True
    if join.address != ADDRESS_NULL and join.address != ADDRESS_IPV4:
        return False
    if join.modulus == 0:
        return True
    if join.expiry < MIN_EXPIRY_TIME:
        return True
    return join.flags & 0x7F != 0


def join_step(table, reply, sender, reciprocal, join):
    if is_illegal(join):
        return answer_with(reply, refuse(sender, join, ILLEGAL_PARAMETERS))
    if join.address != ADDRESS_NULL and join.address != ADDRESS_IPV4:
        return answer_with(reply, refuse(sender, join, BAD_ADDRESS))
    index = find(table, sender, join.channel)
    if index != NONE:
        record = table[index]
        if record.mid != join.mid:
            return answer_with(reply, refuse(sender, join, ALREADY_MEMBER))
        return answer_with(reply, accept(sender, join.channel, join.mid, record.reliable, record.reciprocal))
    if reciprocal == 0:
        return answer_with(reply, refuse(sender, join, NO_RECIPROCAL))
    index = lowest_free(table)
    if index == NONE:
        return answer_with(reply, refuse(sender, join, LOW_RESOURCES))
    begin(table[index], sender, reciprocal, join)
    return answer_with(reply, accept(sender, join.channel, join.mid, join.reliable, reciprocal) + ack(join.reliable))


def answer_with(reply, octets):
    answer = Answer()
    write(reply, 0, octets)
    answer.reply = len(octets)
    return answer


def begin(record, sender, reciprocal, join):
    """A new record. Its places are marked free and else stand."""
    record.used = True
    record.owner = sender
    record.channel = join.channel
    record.mid = join.mid
    record.reciprocal = reciprocal
    record.total = join.total
    record.reliable = join.reliable
    record.known = join.reliable
    record.acked = join.reliable
    record.expiry = join.expiry
    record.outbound = join.flags // 128
    record.holdoff = join.holdoff
    record.modulus = join.modulus
    record.maxwait = join.maxwait
    record.idle = 0
    record.phase = "quiet"
    record.left = 0
    record.count = 0
    for place in record.places:
        place.used = False


def wrapper_call(table, held, deliver, reply, sender, wrapper):
    index = find(table, sender, wrapper.channel)
    if index == NONE:
        return Answer(6)
    if len(wrapper.contents) > CONTENTS:
        return Answer(7)
    record = table[index]
    refusal = judge(record, wrapper.reliably, wrapper.total, wrapper.reliable)
    if refusal != 0:
        return Answer(refusal)
    answer = Answer()
    record.idle = 0
    if distance(record.reliable, wrapper.reliable) > distance(record.reliable, record.known):
        record.known = wrapper.reliable
    take(index, record, held, deliver, wrapper, answer)
    release(index, record, held, deliver, answer)
    if is_lost(record, wrapper):
        octets = leaving(record, LOST_SEQUENCE)
        write(reply, 0, octets)
        answer.reply = len(octets)
        record.used = False
        return answer
    settle(record)
    acknowledge(record, wrapper, reply, answer)
    return answer


def judge(record, reliably, total, reliable):
    """Step 1: 8 if old, 9 if inconsistent, 0 if neither."""
    d = distance(record.total, total)
    e = distance(record.reliable, reliable)
    if d <= 0:
        return 8
    if reliably:
        if e < 1:
            return 9
        if e > d:
            return 9
        return 0
    if e < 0:
        return 9
    if e >= d:
        return 9
    return 0


def take(index, record, held, deliver, wrapper, answer):
    """Step 3: the wrapper is delivered, held or dropped."""
    e = distance(record.reliable, wrapper.reliable)
    if e == (1 if wrapper.reliably else 0):
        deliver_one(record, deliver, answer, wrapper.reliably, wrapper.total, wrapper.reliable, wrapper.contents)
        answer.fate = "delivered"
        return
    answer.fate = "dropped"
    if not wrapper.reliably:
        return
    for place in record.places:
        if place.used and place.reliable == wrapper.reliable:
            return
    free = lowest_free(record.places)
    if free == NONE:
        return
    place = record.places[free]
    place.used = True
    place.total = wrapper.total
    place.reliable = wrapper.reliable
    place.length = len(wrapper.contents)
    write(held, place_octets(index, free), wrapper.contents)
    answer.fate = "held"
    answer.record = index
    answer.place = free


def deliver_one(record, deliver, answer, reliably, total, reliable, contents):
    write(deliver, len(answer.deliveries) * CONTENTS, contents)
    answer.deliveries.append(("reliable" if reliably else "unreliable", total, reliable, len(contents)))
    record.total = total
    record.reliable = reliable


def next_held(record):
    """The place of a held wrapper at distance 1 from R, or NONE."""
    for index, place in enumerate(record.places):
        if place.used and distance(record.reliable, place.reliable) == 1:
            return index
    return NONE


def release(index, record, held, deliver, answer):
    """Step 4: held wrappers whose turn has come are delivered or, if they have grown old, thrown out."""
    while True:
        nearest = next_held(record)
        if nearest == NONE:
            return
        place = record.places[nearest]
        place.used = False
        if judge(record, True, place.total, place.reliable) != 0:
            answer.thrown += 1
            continue
        at = place_octets(index, nearest)
        deliver_one(record, deliver, answer, True, place.total, place.reliable, held[at:at + place.length])


def is_lost(record, wrapper):
    """Step 5: whether the next number is missing and no longer available."""
    if record.known == record.reliable:
        return False
    return distance(record.reliable, wrapper.oldest) >= 2


def settle(record):
    """Step 5: a channel without a gap is quiet; a quiet one with a gap begins its standoff."""
    if record.known == record.reliable:
        record.phase = "quiet"
        record.left = 0
        record.count = 0
        return
    if record.phase == "quiet":
        record.phase = "standoff"
        record.left = standoff(record)


def acknowledge(record, wrapper, reply, answer):
    """Step 6."""
    if record.mid < wrapper.first:
        return
    if record.mid > wrapper.last:
        return
    if wrapper.threshold != 0:
        reached = (wrapper.reliable - wrapper.threshold) % 2**32
        if distance(reached, record.acked) >= 1:
            return
    octets = ack(record.reliable)
    write(reply, 0, octets)
    answer.reply = len(octets)
    record.acked = record.reliable


def standoff(record):
    return min(record.maxwait, (record.reliable + record.mid) % record.modulus * record.holdoff)


# ---- an elapsed call ----


def elapsed_call(table, cells, milliseconds):
    if len(table) != TABLE:
        return Answer(1)
    if len(cells) != CELLS:
        return Answer(1)
    if not is_well_formed(table):
        return Answer(2)
    if milliseconds > LONGEST_ELAPSED:
        return Answer(3)
    answer = Answer()
    for index, record in enumerate(table):
        if not record.used:
            continue
        kind, octets = pass_time(record, milliseconds)
        if kind is None:
            continue
        write(cells, index * CELL, octets)
        answer.cells.append((index, kind, len(octets)))
    return answer


def pass_time(record, milliseconds):
    """One record's time: what it sends, as a kind and its octets, or None."""
    record.idle += milliseconds
    if record.idle >= record.expiry * 1000:
        record.used = False
        return ("leaving", leaving(record, CHANNEL_EXPIRED))
    if record.phase == "quiet":
        return (None, b"")
    record.left = max(record.left - milliseconds, 0)
    if record.left > 0:
        return (None, b"")
    if record.phase == "standoff":
        return end_standoff(record)
    return end_wait(record)


def end_standoff(record):
    first = (record.reliable + 1) % 2**32
    octets = nak(record, first, last_missing(record))
    record.phase = "waiting"
    record.left = record.expiry * NAK_TIMEOUT
    record.count += 1
    return ("nak outbound" if record.outbound != 0 else "nak", octets)


def last_missing(record):
    """One before the nearest held number, or K if none is held."""
    nearest = NONE
    for place in record.places:
        if not place.used:
            continue
        ahead = distance(record.reliable, place.reliable)
        if nearest == NONE or ahead < nearest:
            nearest = ahead
    if nearest == NONE:
        return record.known
    return (record.reliable + nearest - 1) % 2**32


def end_wait(record):
    if record.count == NAK_MAX_RETRIES:
        record.used = False
        return ("leaving", leaving(record, LOST_SEQUENCE))
    record.phase = "standoff"
    record.left = standoff(record)
    return (None, b"")


# ---- a leave call ----


def leave_call(table, reply, owner, channel, reason):
    if len(table) != TABLE:
        return Answer(1)
    if len(reply) != REPLY:
        return Answer(1)
    if len(owner) != CID:
        return Answer(1)
    if not is_well_formed(table):
        return Answer(2)
    index = find(table, owner, channel)
    if index == NONE:
        return Answer(6)
    if reason not in LEAVING_REASONS:
        return Answer(10)
    record = table[index]
    record.used = False
    return answer_with(reply, leaving(record, reason))
