"""Samba's libndr on replies, by the program made from libndr.c: it reads each, and writes it anew."""

import os

from answered import WITH_ADDRESS, answers
from verdict import Verdict

NAME = "Samba libndr"
READS = "replies"
KNOWN = {
    "address": "libndr looks for an EX reply's address only where the version in the reply has bit 8, and ours is 5 or"
    " 15h; with that bit put into a copy, all fields and octets agree",
    "address order": "it takes a RESPONSE's address for a little-endian number, so shows it from its last octet; ours"
    " is in dotted order",
}
# NDR_ERR_VALIDATE
WRONG_VERSION = "refused:10"


def with_version_bit(ping, reply):
    """A copy in which the version tells of the address."""
    if not ping.has_address():
        return reply
    return reply[:-8] + bytes([reply[-8] | WITH_ADDRESS]) + reply[-7:]


def dotted(address):
    return "." if address is None else ".".join(str(octet) for octet in address)


def words_of(ping):
    """Our reading in the words of libndr.c, the version left out, and a RESPONSE's address in its order."""
    reading = ping.reading
    texts = ["=" + text.decode("utf-16-le").encode().hex() for text in reading.texts]
    names = ["=" + name.text.hex() for name in reading.names]
    if ping.form == "nt40":
        return ["nt40", str(reading.opcode), *texts]
    guid, flags = reading.guid.hex(), f"{reading.flags:08x}"
    if ping.form == "response":
        return ["response", str(reading.opcode), *texts, guid, *names, dotted(reading.address[::-1]), flags]
    return ["ex", str(reading.opcode), flags, guid, *names[:8], dotted(reading.address), *(names[8:] or ["."])]


def parted(words):
    """Fields, version, and the octets written anew; a refusal is all there is."""
    return (words[:-2], words[-2], words[-1]) if len(words) > 1 else (words, None, None)


def without_address(ping):
    """What libndr by itself makes of a reply with an address: where the address is, it reads the version, and refuses
    another one than stands eight octets from the end. If name 8 follows, it reads this there first: the octet 10h is
    the length of a label, the address, which as a C string is cut at its first zero, after the family's 02."""
    if len(ping.reading.names) == 8:
        return [WRONG_VERSION]
    words = words_of(ping)
    return words[:-2] + [".", "=" + (b"\x02." + ping.reading.names[8].text).hex()]


def judge_one(ping, alone, seen):
    verdict = Verdict()
    fields, version, pushed = parted(seen)
    ours = with_version_bit(ping, ping.reply)
    verdict.compare("fields", words_of(ping), fields)
    verdict.compare("version", str(int.from_bytes(ours[-8:-4], "little")), version)
    verdict.compare("octets written anew", ours.hex(), pushed)
    if ping.form == "response" and ping.reading.address != ping.reading.address[::-1]:
        verdict.known.add("address order")
    if ping.has_address():
        verdict.known.add("address")
        verdict.compare("fields without the version bit", without_address(ping), parted(alone)[0])
    return verdict


def judge(pings, replies, folder):
    program = os.path.join(folder, "libndr")
    copies = [with_version_bit(ping, reply) for ping, reply in zip(pings, replies)]
    alone = answers(program, [f"reply {reply.hex()}" for reply in replies])
    seen = answers(program, [f"reply {copy.hex()}" for copy in copies])
    return [judge_one(ping, one.split(" "), other.split(" ")) for ping, one, other in zip(pings, alone, seen)]


def looks_at(ping, place):
    """All octets come back when it writes the reply anew."""
    return True
