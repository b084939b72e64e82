"""check.py FOLDER: has Wireshark's ACN dissector read the messages of FOLDER/messages.txt (write.c says how a line is made), and compares
what it finds with what was written. `run` calls it.

Each message goes alone into a packet, then three share a block, then all do: a message is right if it is right in every packet. The test
fails on any difference, on anything that the dissector calls malformed or remarks on, and on octets that it leaves aside.

All nine messages are dissected whole by version 4.0. Of an ACK it reads the number only inside a wrapper's client block, which is where an
ACK belongs; so write.c puts it there.
"""

import collections
import itertools
import os
import struct
import subprocess
import sys
import xml.etree.ElementTree

Message = collections.namedtuple("Message", "name fields octets")

# The layouts that docs/DECISIONS.md decides on, each field with its octets. They are held against the places where the dissector
# finds the fields, whatever the values are.
HEAD = "pdu.length 2"
TYPED = f"{HEAD}, sdt_vector 1"
WRAPPER = (f"{TYPED}, channel_number 2, total_sequence_number 4, reliable_sequence_number 4, oldest_available_wrapper 4, "
           "first_member_to_ack 2, last_member_to_ack 2, mak_threshold 2")
JOIN = (f"{TYPED}, cid 16, member_id 2, channel_number 2, reciprocal_channel 2, total_sequence_number 4, reliable_sequence_number 4, "
        "ip_address_type 1")
PARAMETERS = "expiry 1, nak_outbound_flag 1, nak_holdoff 2, nak_modulus 2, nak_max_wait 2"
MEMBER = f"{TYPED}, cid 16, channel_number 2, member_id 2, reliable_sequence_number 4"
LAYOUTS = {
    "Reliable Wrapper": WRAPPER,
    "Unreliable Wrapper": WRAPPER,
    "Join with null address": f"{JOIN}, {PARAMETERS}, adhoc_expiry 1",
    "Join with IPv4 address": f"{JOIN}, port 2, ipv4 4, {PARAMETERS}, adhoc_expiry 1",
    "Join Refuse": f"{MEMBER}, refuse_code 1",
    "Join Accept": f"{MEMBER}, reciprocal_channel 2",
    "Leaving": f"{MEMBER}, reason_code 1",
    "ACK": f"{TYPED}, reliable_sequence_number 4",
    "NAK": f"{MEMBER}, first_missed_sequence 4, last_missed_sequence 4",
    "Get Sessions": f"{TYPED}, cid 16",
    "client block PDU": f"{HEAD}, member_id 2, protocol_id 4, association 2",
}
KINDS = {"1": "Reliable Wrapper", "2": "Unreliable Wrapper", "5": "Join Refuse", "6": "Join Accept", "8": "Leaving", "14": "ACK",
         "15": "NAK", "16": "Get Sessions"}
ADDRESSES = {"0": "null", "1": "IPv4"}

# ---- packets ----


def read_messages(path):
    with open(path, encoding="ascii") as lines:
        words = [line.split() for line in lines]
    return [Message(w[0], [tuple(f.split("=")) for f in w[1:-1]], bytes.fromhex(w[-1])) for w in words]


def groups_of(messages):
    threes = [messages[i:i + 3] for i in range(0, len(messages), 3)]
    return [[m] for m in messages] + threes + [messages]


def root_layer(block):
    """The block in an ACN packet: preamble, and a root PDU of protocol SDT from some component."""
    rest = struct.pack(">I", 1) + bytes(range(0xc0, 0xd0)) + block
    if len(rest) + 2 < 1 << 12:
        head = struct.pack(">H", 0x7000 | len(rest) + 2)
    else:
        head = struct.pack(">I", 0xf00000 | len(rest) + 3)[1:]
    return struct.pack(">HH12s", 16, 0, b"ASC-E1.17") + head + rest


def internet_checksum(octets):
    total = sum(struct.unpack(f">{len(octets) // 2}H", octets))
    while total >> 16:
        total = (total & 0xffff) + (total >> 16)
    return total ^ 0xffff


def frame_of(group):
    payload = root_layer(b"".join(m.octets for m in group))
    udp = struct.pack(">HHHH", 5568, 5568, 8 + len(payload), 0) + payload
    ip = struct.pack(">BBHIBBH4B4B", 0x45, 0, 20 + len(udp), 0, 64, 17, 0, 192, 0, 2, 1, 192, 0, 2, 2)
    ip = ip[:10] + struct.pack(">H", internet_checksum(ip)) + ip[12:]
    return bytes.fromhex("020000000002" "020000000001" "0800") + ip + udp


def write_capture(path, frames):
    with open(path, "wb") as capture:
        capture.write(struct.pack("<IHHIIII", 0xa1b2c3d4, 2, 4, 0, 0, 1 << 18, 1))
        for frame in frames:
            capture.write(struct.pack("<IIII", 0, 0, len(frame), len(frame)) + frame)


# ---- the dissector ----


def dissect(capture, answer):
    """A tree for each packet. The settings of whoever runs this are shut out, since they could turn the dissector off."""
    command = ["tshark", "-n", "--enable-heuristic", "acn", "-r", capture, "-T", "pdml"]
    settings = dict(os.environ, WIRESHARK_CONFIG_DIR=os.path.join(os.path.dirname(capture), "settings"))
    with open(answer, "wb") as output:
        run = subprocess.run(command, stdin=subprocess.DEVNULL, stdout=output, stderr=subprocess.PIPE, env=settings, check=False)
    if run.returncode != 0:
        sys.exit(f"wireshark: tshark failed ({run.returncode}): {run.stderr.decode(errors='replace')}")
    return xml.etree.ElementTree.parse(answer).getroot().findall("packet")


def remark_of(packet):
    """What the dissector finds wrong in a packet, or None."""
    for element in packet.iter():
        if element.get("name", "").startswith("_ws."):
            return element.get("showname") or element.get("name")
    protocols = [p.get("name") for p in packet.findall("proto")]
    if protocols != ["geninfo", "frame", "eth", "ip", "udp", "acn"]:
        return "the packet is taken for " + " ".join(protocols)
    return None


def pdus_in(element):
    return element.findall("field[@name='acn.pdu']")


def messages_in(packet):
    return [pdu for root in packet.findall("proto[@name='acn']") for outer in pdus_in(root) for pdu in pdus_in(outer)]


def leaves_of(element):
    return [e for e in element.iter("field") if e.find("field") is None]


def span_of(element):
    start = int(element.get("pos"))
    return start, start + int(element.get("size"))


def value_of(leaf):
    """The value as write.c has it: later versions write truth values as words."""
    return {"False": "0", "True": "1"}.get(leaf.get("show"), leaf.get("show"))


def is_flag(leaf):
    """A PDU's flags lie inside its length field, as the dissector counts octets."""
    return leaf.get("name").startswith("acn.pdu.flag_")


def fields_in(pdu, frame):
    """The fields of a message and of all within it, by place; octets that are in none come out as `undissected`."""
    fields = []
    at, end = span_of(pdu)
    for leaf in leaves_of(pdu):
        start, behind = span_of(leaf)
        if start != at:
            fields.append(("undissected", frame[at:start].hex()))
        fields.append((leaf.get("name"), value_of(leaf)))
        if leaf.get("name") == "acn.nak_outbound_flag":
            fields.append(("reserved", str(int(leaf.get("unmaskedvalue"), 16) & 127)))
        at = start if is_flag(leaf) else behind
    if at != end:
        fields.append(("undissected", frame[at:end].hex()))
    return fields


# ---- verdicts ----


def shortened(text):
    return text if len(text) <= 40 else text[:40] + ".."


def difference(expected, given):
    """The first field that is not as written, or None."""
    for (name, value), (other, found) in itertools.zip_longest(expected, given, fillvalue=("", "nothing")):
        if (name, value) != (other, found):
            stranger = f"{other} " if name and other and name != other else ""
            return f"{name or other} expected {shortened(value)} given {stranger}{shortened(found)}"
    return None


def faults_of(group, frame, packet):
    """Of each message of a packet: what is wrong with it, or None. A remark that no message explains is held against all of them."""
    if packet is None:
        return ["packet expected given nothing"] * len(group)
    pdus = messages_in(packet)
    remark = remark_of(packet)
    if remark is None and len(pdus) != len(group):
        remark = f"messages expected {len(group)} given {len(pdus)}"
    found = [fields_in(pdu, frame) for pdu in pdus[:len(group)]]
    differences = [difference(m.fields, f) for m, f in itertools.zip_longest(group, found, fillvalue=[])]
    return differences if any(differences) else [remark] * len(group)


def judge_messages(groups, frames, packets):
    """The first fault of each message by its name, None for a right one."""
    verdicts = {}
    for number, (group, frame, packet) in enumerate(itertools.zip_longest(groups, frames, packets), 1):
        for message, fault in zip(group, faults_of(group, frame, packet)):
            if verdicts.get(message.name) is None:
                verdicts[message.name] = fault and f"{fault} (packet {number})"
    return verdicts


def kind_of(leaves):
    values = {leaf.get("name"): leaf.get("show") for leaf in leaves}
    vector = values.get("acn.sdt_vector")
    if vector is None:
        return "client block PDU"
    if vector == "4":
        return f"Join with {ADDRESSES.get(values.get('acn.ip_address_type'))} address"
    return KINDS.get(vector, f"vector {vector}")


def layout_of(pdu):
    """The kind of a PDU, and its own fields with their octets."""
    leaves = [leaf for child in pdu if child.get("name") != "acn.pdu" for leaf in leaves_of(child) if not is_flag(leaf)]
    return kind_of(leaves), ", ".join(f"{leaf.get('name').removeprefix('acn.')} {leaf.get('size')}" for leaf in leaves)


def judge_layouts(packets):
    """A verdict on each layout: every PDU of the kind has it, and there is one."""
    seen = {kind: set() for kind in LAYOUTS}
    for packet in packets:
        for message in messages_in(packet):
            for pdu in message.iter("field"):
                if pdu.get("name") == "acn.pdu":
                    kind, layout = layout_of(pdu)
                    seen.setdefault(kind, set()).add(layout)
    return {f"layout of {kind}": judge_layout(LAYOUTS.get(kind), layouts) for kind, layouts in seen.items()}


def judge_layout(expected, layouts):
    wrong = sorted(layouts - {expected}) or ["nothing"]
    return None if layouts == {expected} else f"layout expected {expected} given {wrong[0]}"


def main(folder):
    messages = read_messages(os.path.join(folder, "messages.txt"))
    groups = groups_of(messages)
    frames = [frame_of(group) for group in groups]
    capture = os.path.join(folder, "sdt.pcap")
    write_capture(capture, frames)
    packets = dissect(capture, os.path.join(folder, "sdt.pdml"))
    verdicts = judge_messages(groups, frames, packets) | judge_layouts(packets)
    for name, fault in verdicts.items():
        print(f"ok {name}" if fault is None else f"FAIL {name}: {fault}")
    failed = sum(fault is not None for fault in verdicts.values())
    print(f"wireshark: {len(verdicts) - failed} passed, {failed} failed")
    return 1 if failed else 0


if __name__ == "__main__":
    sys.exit(main(sys.argv[1]))
