"""tshark's dissection of each reply, in a capture of the search that it answers."""

import json
import os
import subprocess
import uuid

from answered import ADDRESS_LENGTH, WITH_ADDRESS
from capture import capture
from verdict import Verdict

NAME = "tshark"
READS = "replies"
KNOWN = {
    "opcode": "tshark takes apart only replies of the opcodes 19 and 23, not those of paused and unknown; in a copy"
    " with that opcode all fields agree",
    "address": "it looks for an EX reply's address only where the version in the reply has bit 8, and ours is 5 or 15h;"
    " in a copy with that bit the address agrees",
    "empty name": "it shows a name of no labels as <Root>",
    "name 8": "it has no field for the next closest site",
}
PREFIX = "mscldap."
NAMES = ["forest", "domain", "hostname", "nb_domain", "nb_hostname", "username", "sitename", "clientsitename"]
TEXTS = ["nb_hostname", "username", "nb_domain"]
NUMBERS = ["netlogon.opcode", "netlogon.flags", "ntver.flags", "netlogon.lm_token", "netlogon.nt_token"]
ADDRESS = ["netlogon.ipaddress", "netlogon.ipaddress.ipv4", "netlogon.ipaddress.family", "netlogon.ipaddress.port"]
FIELDS = [PREFIX + field for field in [*NUMBERS, "domain.guid", *NAMES, *ADDRESS]] + ["_ws.malformed"]
# What is shown whatever the opcode.
ALWAYS = [PREFIX + field for field in NUMBERS if field != "netlogon.flags"]
TAKEN_APART = (19, 23)
EMPTY = "<Root>"


def dissected(pings, replies, folder):
    """The fields of each reply, each with all its values."""
    path = os.path.join(folder, "replies.pcap")
    with open(path, "wb") as file:
        file.write(capture(pings, replies))
    command = ["tshark", "-r", path, "-Y", "ldap.protocolOp == 4", "-T", "json"]
    for field in FIELDS:
        command += ["-e", field]
    # As root it warns on standard error, whatever it reads.
    said = subprocess.run(command, stdout=subprocess.PIPE, stderr=subprocess.DEVNULL, check=True).stdout
    # It may show octets that are no UTF-8; no text of ours has any, so that the mark in their place differs too.
    shown = json.loads(said.decode(errors="replace"))
    packets = [packet["_source"]["layers"] for packet in shown]
    if len(packets) != len(replies):
        raise SystemExit(f"tshark shows {len(packets)} of {len(replies)} replies")
    return packets


def copy_of(ping, reply):
    """A copy that tshark takes apart: the opcode of an answer, and the version telling of the address."""
    bit = WITH_ADDRESS if ping.has_address() else 0
    opcode = 23 if ping.form == "ex" else 19
    return bytes([opcode]) + reply[1:-8] + bytes([reply[-8] | bit]) + reply[-7:]


def fields_of(ping, reply):
    """Our reading as tshark is to show it, with opcode and version as in this reply."""
    reading = ping.reading
    fields = {
        "netlogon.opcode": str(int.from_bytes(reply[:2], "little")),
        "ntver.flags": f"0x{int.from_bytes(reply[-8:-4], 'little'):08x}",
        "netlogon.lm_token": "0xffff",
        "netlogon.nt_token": "0xffff",
    }
    fields.update(zip(TEXTS, [text.decode("utf-16-le") for text in reading.texts]))
    fields.update(zip(NAMES, [name.text.decode() or EMPTY for name in reading.names]))
    if ping.form != "nt40":
        fields["netlogon.flags"] = f"0x{reading.flags:08x}"
        fields["domain.guid"] = str(uuid.UUID(bytes_le=reading.guid))
    if reading.address is not None:
        fields["netlogon.ipaddress"] = ".".join(str(octet) for octet in reading.address)
    if ping.has_address():
        fields.update(zip(ADDRESS[1:], [fields["netlogon.ipaddress"], "2", "0"]))
    return {PREFIX + field: [value] for field, value in fields.items()}


def known_of(ping):
    """The listed differences that a reply must show."""
    reading = ping.reading
    met = {
        "opcode": reading.opcode not in TAKEN_APART,
        "address": ping.has_address(),
        "empty name": any(not name.text for name in reading.names[:8]),
        "name 8": len(reading.names) == 9,
    }
    return {key for key, holds in met.items() if holds}


def fields_alone(ping):
    """What is left of our reading where tshark is given the reply as it is."""
    fields = fields_of(ping, ping.reply)
    if ping.reading.opcode not in TAKEN_APART:
        return {field: values for field, values in fields.items() if field in ALWAYS}
    if ping.has_address():
        return {field: values for field, values in fields.items() if field.removeprefix(PREFIX) not in ADDRESS}
    return fields


def judge_one(ping, alone, seen):
    verdict = Verdict()
    verdict.known = known_of(ping)
    for given, ours, theirs in (
        ("the reply", fields_alone(ping), alone),
        ("the copy", fields_of(ping, copy_of(ping, ping.reply)), seen),
    ):
        for field in FIELDS:
            verdict.compare(f"{field} of {given}", ours.get(field), theirs.get(field))
    return verdict


def judge(pings, replies, folder):
    alone = dissected(pings, replies, folder)
    seen = dissected(pings, [copy_of(ping, reply) for ping, reply in zip(pings, replies)], folder)
    return [judge_one(*each) for each in zip(pings, alone, seen)]


def looks_at(ping, place):
    """It passes over a RESPONSE's null GUID; EX's second number, the size and the zeros of its address, and name 8. An
    empty name 7 looks to it like a pointer past the end."""
    names = ping.reading.names
    if ping.form == "nt40":
        return True
    if ping.form == "response":
        return not names[0].offset - 16 <= place < names[0].offset
    passed_over = [2, 3]
    if ping.has_address():
        address = names[7].end
        passed_over += [address, *range(address + 9, address + ADDRESS_LENGTH)]
    for name in names[8:]:
        passed_over += range(name.offset, name.end)
    if not names[7].text:
        passed_over.append(names[7].offset)
    return place not in passed_over
