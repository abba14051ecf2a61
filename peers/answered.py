"""Fresh answered pings: the second generator's lines, the proved program's replies, and its readings of them."""

import subprocess
from typing import NamedTuple, Optional

ROOM = "4096"
# About one line in four of the generator is an answered ping. More are made than are taken, so that those taken stand
# on many tables.
LINES_PER_PING = 24
WITH_ADDRESS = 0x8
ADDRESS_LENGTH = 17


class Name(NamedTuple):
    """A name's text and pointer count as read, and its field in the reply, which ends at `end`."""

    text: bytes
    pointers: int
    offset: int
    end: int


class Reading(NamedTuple):
    """The fields of a `read` answer; those that the form lacks are None or empty."""

    opcode: int
    version: int
    texts: list = []
    flags: Optional[int] = None
    guid: Optional[bytes] = None
    names: list = []
    address: Optional[bytes] = None


class Answered(NamedTuple):
    table: str
    ping: str
    form: str
    asked: int
    reply: bytes
    reading: Reading

    def has_address(self):
        return self.form == "ex" and self.asked & WITH_ADDRESS != 0

    def shown(self):
        head = f"this ping, asked with {self.asked:08x} and answered in the form {self.form}:"
        lines = [head, self.table, self.ping, "the reply:", self.reply.hex(), "our reading:", str(self.reading)]
        return "\n".join(lines)


def answers(program, lines):
    """A program's answer lines to request lines that each have one."""
    sent = "".join(line + "\n" for line in lines).encode()
    said = subprocess.run([program], input=sent, stdout=subprocess.PIPE, check=True).stdout
    said = said.decode("ascii").splitlines()
    if len(said) != len(lines):
        raise SystemExit(f"{program} gave {len(said)} answers to {len(lines)} lines")
    return said


def fresh_requests(generate, count, seed):
    """Tables, and pings with room for any reply."""
    command = [generate, "--bulk", str((10 + count) * LINES_PER_PING), "--seed", str(seed)]
    made = subprocess.run(command, stdout=subprocess.PIPE, check=True).stdout
    requests = []
    for line in made.decode("latin-1").split("\n"):
        words = line.split(" ")
        if words[0] == "table" and line.isascii():
            requests.append(line)
        elif words[0] == "ping" and len(words) == 4 and line.isascii():
            requests.append(" ".join(words[:3] + [ROOM]))
    return requests


def fresh_answered(generate, program, count, seed):
    """So many pings that the program answers with 0."""
    requests = fresh_requests(generate, count, seed)
    table = ""
    found = []
    for request, answer in zip(requests, answers(program, requests)):
        words = answer.split(" ")
        if words[0] == "table":
            table = request
        elif words[:2] == ["ping", "0"]:
            found.append((table, request, words[4], bytes.fromhex(words[5])[: int(words[2])]))
    if len(found) < count:
        raise SystemExit(f"seed {seed} gives only {len(found)} answered pings")
    return read_all(program, found[:: len(found) // count][:count])


def read_all(program, found):
    filters = [ping.split(" ")[2] for _, ping, _, _ in found]
    values = answers(program, [f"values {octets}" for octets in filters])
    versions = [int(line.split(" ")[2], 16) for line in values]
    reads = [f"read {form} {asked:08x} {reply.hex()}" for (_, _, form, reply), asked in zip(found, versions)]
    pings = []
    for (table, ping, form, reply), asked, read in zip(found, versions, answers(program, reads)):
        number, _, *fields = read.split(" ")[1:]
        if number != "0":
            raise SystemExit(f"the reply to this ping is refused with {number}:\n{table}\n{ping}")
        pings.append(Answered(table, ping, form, asked, reply, reading_of(form, fields, reply)))
    return pings


def reading_of(form, fields, reply):
    """The words of a `read` answer as a reading."""
    opcode, version = int(fields[0]), int(fields[-1])
    if form == "nt40":
        return Reading(opcode, version, texts=[octets_of(word) for word in fields[1:4]])
    if form == "response":
        texts = [octets_of(word) for word in fields[1:4]]
        guid, address, flags = octets_of(fields[4]), octets_of(fields[8]), int(fields[9], 16)
        # Opcode, texts with their zero units, and both GUIDs stand before the names.
        names = names_of(fields[5:8], reply, 2 + sum(len(text) + 2 for text in texts) + 32)
        return Reading(opcode, version, texts, flags, guid, names, address)
    names = names_of(fields[3:11], reply, 24)
    address = None if fields[11] == "." else octets_of(fields[11])
    if fields[12] != ".":
        names += names_of(fields[12:13], reply, names[-1].end + (0 if address is None else ADDRESS_LENGTH))
    return Reading(opcode, version, [], int(fields[1], 16), octets_of(fields[2]), names, address)


def octets_of(word):
    return bytes.fromhex(word.lstrip("="))


def names_of(words, reply, at):
    """Names that stand one after the other from an offset."""
    names = []
    for word in words:
        text, pointers = word.split("/")
        end = field_end(reply, at)
        names.append(Name(octets_of(text), int(pointers), at, end))
        at = end
    return names


def field_end(reply, at):
    """A name's field ends with its first zero or pointer."""
    while 0 < reply[at] < 0xC0:
        at += 1 + reply[at]
    return at + (1 if reply[at] == 0 else 2)
