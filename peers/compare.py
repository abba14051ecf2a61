"""Puts fresh replies and mailslot messages through the peers:
compare.py MODE COUNT SEED GENERATE PROGRAM FOLDER PEER...

MODE is `agree`, or `faults`, by which one octet of each is changed on its way to the peers, who must notice. GENERATE
makes requests, and PROGRAM answers vector lines. FOLDER is for files made on the way, and holds the program made from
libndr.c.
"""

import importlib
import random
import sys

from answered import fresh_answered
from messages import fresh_messages
from verdict import report, report_faults


def agree(peers, items, octets, *tools):
    """Whether each peer agrees, but for its known differences. Tools are the folder and, for messages, our program."""
    return [report(peer, items, peer.judge(items, octets, *tools)) for peer in peers]


def notice(peers, faults, *tools):
    """Whether each peer notices all changed octets that it looks at; a fault is a ping or message, a place in its
    octets, and these as changed."""
    items = [item for item, _, _ in faults]
    octets = [changed for _, _, changed in faults]
    noticed = []
    for peer in peers:
        noticeable = [peer.looks_at(item, place) for item, place, _ in faults]
        noticed.append(report_faults(peer, peer.judge(items, octets, *tools), noticeable))
    return noticed


def fault_in(octets, chance):
    """A place, and the octets with another one there."""
    place = chance.randrange(len(octets))
    octet = bytes([octets[place] ^ chance.randrange(1, 256)])
    return place, octets[:place] + octet + octets[place + 1 :]


def reply_faults(pings, chance):
    """A fault in each reply. A pointer changed to one that leads to the same labels is left out: a peer that neither
    counts pointers nor minds where they lead cannot notice."""
    faults = []
    for ping in pings:
        place, reply = fault_in(ping.reply, chance)
        names = [name for name in ping.reading.names if name.offset <= place < name.end]
        if not names or text_at(reply, names[0].offset) != names[0].text:
            faults.append((ping, place, reply))
    return faults


def text_at(reply, at):
    """The labels from an offset joined by dots, its pointers leading anywhere; None where they lead to no end."""
    labels = []
    try:
        for _ in reply:
            first = reply[at]
            if first == 0:
                return b".".join(labels)
            if first < 0xC0:
                labels.append(reply[at + 1 : at + 1 + first])
                at += 1 + first
            else:
                at = (first & 0x3F) << 8 | reply[at + 1]
    except IndexError:
        pass
    return None


def show_replies(mode, peers, count, seed, generate, program, folder):
    pings = fresh_answered(generate, program, int(count), int(seed))
    if mode == "faults":
        return notice(peers, reply_faults(pings, random.Random(seed)), folder)
    return agree(peers, pings, [ping.reply for ping in pings], folder)


def show_messages(mode, peers, count, seed, program, folder):
    messages = fresh_messages(program, int(count), int(seed))
    if mode == "faults":
        chance = random.Random(seed)
        faults = [(message, *fault_in(message.octets, chance)) for message in messages]
        return notice(peers, faults, folder, program)
    return agree(peers, messages, [message.octets for message in messages], folder, program)


def main(mode, count, seed, generate, program, folder, *names):
    peers = [importlib.import_module(name) for name in names]
    of_replies = [peer for peer in peers if peer.READS == "replies"]
    of_messages = [peer for peer in peers if peer.READS == "messages"]
    passed = show_replies(mode, of_replies, count, seed, generate, program, folder)
    if of_messages:
        passed += show_messages(mode, of_messages, count, seed, program, folder)
    return 0 if all(passed) else 1


if __name__ == "__main__":
    sys.exit(main(*sys.argv[1:]))
