"""Fresh mailslot messages: random fields, and the octets that the proved program writes of them."""

import random
from typing import NamedTuple

from answered import ROOM, answers

# First and last characters that UTF-8 writes in one to four octets, without surrogates. The mark of octet order is one
# of its own, since programs are known to drop it.
CHARACTERS = [(0x1, 0x7F), (0x80, 0x7FF), (0x800, 0xD7FF), (0xE000, 0xFFFF), (0x10000, 0x10FFFF), (0xFEFF, 0xFEFF)]
ASCII = CHARACTERS[:1]
# Units of UTF-16, octets of UTF-8, octets.
LONGEST_COMPUTER, LONGEST_USER, LONGEST_MAILSLOT = 15, 63, 64
MOST_PARTS = 15
NO_SID = -1


class Message(NamedTuple):
    """What was asked to be written, and the octets that were."""

    repeat: int
    computer: str
    user: str
    mailslot: bytes
    bits: int
    sid: bytes
    version: int
    octets: bytes = b""

    def words(self):
        """The fields as vector lines have them."""
        texts = [self.computer.encode("utf-16-le"), self.user.encode("utf-16-le"), self.mailslot]
        texts = " ".join("=" + text.hex() for text in texts)
        return f"{self.repeat} {texts} {self.bits:08x} ={self.sid.hex()} {self.version:08x}"

    def size_offset(self):
        """The SID's size stands behind opcode, repeat count, three texts with their zeros, and account bits."""
        return 4 + units(self.computer) * 2 + 2 + units(self.user) * 2 + 2 + len(self.mailslot) + 1 + 4

    def padding(self):
        return bytes(-self.size_offset() % 4) if self.sid else b""

    @property
    def form(self):
        return f"padding {len(self.padding())}" if self.sid else "no SID"

    def shown(self):
        return "\n".join(["this message:", self.octets.hex(), "written from these fields:", self.words()])


def units(text):
    return len(text.encode("utf-16-le")) // 2


def dealt(values, count, chance):
    """So many of the values in random order, each as often as the others."""
    cards = [values[place % len(values)] for place in range(count)]
    chance.shuffle(cards)
    return cards


def fresh_text(length, measure, chance):
    """A text of exactly that length; some are ASCII alone."""
    ranges = chance.choice([ASCII, CHARACTERS])
    text = ""
    while measure(text) < length:
        first, last = chance.choice(ranges)
        at_the_edge = chance.random() < 0.2
        longer = text + chr(chance.choice([first, last]) if at_the_edge else chance.randint(first, last))
        text = longer if measure(longer) <= length else text
    return text


def fresh_number(most, chance):
    return chance.choice([0, 1, most, chance.randint(0, most), chance.randint(0, most)])


def fresh_sid(parts, chance):
    if parts == NO_SID:
        return b""
    revision = chance.choice([0, 1, 1, chance.randrange(256)])
    length = 6 + 4 * parts
    return bytes([revision, parts]) + chance.choice([bytes(length), chance.randbytes(length), chance.randbytes(length)])


def fresh_fields(count, chance):
    """Every length of a text, and every number of a SID's parts, comes as often as the others."""
    lengths = [dealt(range(most + 1), count, chance) for most in (LONGEST_COMPUTER, LONGEST_USER, LONGEST_MAILSLOT)]
    parts = dealt(range(NO_SID, MOST_PARTS + 1), count, chance)
    for computer, user, mailslot, sid in zip(*lengths, parts):
        yield Message(
            repeat=fresh_number(0xFFFF, chance),
            computer=fresh_text(computer, units, chance),
            user=fresh_text(user, lambda text: len(text.encode()), chance),
            mailslot=bytes(chance.randint(1, 0x7F) for _ in range(mailslot)),
            bits=fresh_number(0xFFFFFFFF, chance),
            sid=fresh_sid(sid, chance),
            version=fresh_number(0xFFFFFFFF, chance),
        )


def fresh_messages(program, count, seed):
    """So many messages that the program writes."""
    asked = list(fresh_fields(count, random.Random(seed)))
    written = []
    for message, answer in zip(asked, answers(program, [f"mailwrite {ROOM} {message.words()}" for message in asked])):
        words = answer.split(" ")
        if words[:2] != ["mailwrite", "0"]:
            raise SystemExit(f"this message is not written, but answered by {answer[:80]}:\n{message.words()}")
        written.append(message._replace(octets=bytes.fromhex(words[3])[: int(words[2])]))
    return written
