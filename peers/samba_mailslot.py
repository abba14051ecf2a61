"""Samba's libndr on mailslot messages: it reads each and writes it anew, and our reader reads what it wrote."""

import os

from answered import answers
from verdict import Verdict

NAME = "Samba libndr"
READS = "messages"
KNOWN = {
    "zero SID": "libndr writes a SID of eight zero octets as no SID, with size 0 and neither padding nor SID; when it"
    " reads, the size alone tells the two apart",
}
ZERO_SID = bytes(8)
OPCODE = "18"
TOKEN = "ffff"


def sid_word(sid):
    """Revision, authority and parts; no SID is one of zeros to libndr."""
    sid = sid or ZERO_SID
    parts = [str(int.from_bytes(sid[at : at + 4], "little")) for at in range(8, len(sid), 4)]
    return "-".join([str(sid[0]), sid[2:8].hex(), *parts])


def words_of(message):
    """What was asked in the words of libndr.c; padding is zeros."""
    texts = ["=" + text.hex() for text in (message.computer.encode(), message.user.encode(), message.mailslot)]
    sid = ["=" + message.padding().hex(), str(len(message.sid)), sid_word(message.sid)]
    bits, version = f"{message.bits:08x}", f"{message.version:08x}"
    return ["mailslot", OPCODE, str(message.repeat), *texts, bits, *sid, version, TOKEN, TOKEN]


def without_sid(message):
    """The message that libndr makes of one with a SID of zeros."""
    octets = message.octets[: message.size_offset()] + bytes(4) + message.octets[-8:]
    return message._replace(sid=b"", octets=octets)


def judge_one(message, seen, pushed, read):
    verdict = Verdict()
    anew = message
    if message.sid == ZERO_SID:
        verdict.known.add("zero SID")
        anew = without_sid(message)
    verdict.compare("fields", words_of(message), seen)
    verdict.compare("octets written anew", anew.octets.hex(), pushed)
    verdict.compare("our reading of these", f"mailslot 0 {anew.words()}", read)
    return verdict


def judge(messages, written, folder, program):
    seen = answers(os.path.join(folder, "libndr"), [f"mailslot {octets.hex()}" for octets in written])
    seen = [line.split(" ") for line in seen]
    # A refusal stands in the place of the octets, and is none to our reader either.
    read = answers(program, [f"mailslot {words[-1]}" for words in seen])
    return [judge_one(message, words[:-1], words[-1], line) for message, words, line in zip(messages, seen, read)]


def looks_at(message, place):
    """All octets come back, those of the padding among the fields."""
    return True
