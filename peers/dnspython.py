"""dnspython's reader of names, at each name's offset in a reply."""

import dns.exception
import dns.name
import dns.wire

from verdict import Verdict

NAME = "dnspython names"
READS = "replies"
KNOWN = {}


class CountingParser(dns.wire.Parser):
    """Each pointer that is followed is a seek, and so is the start."""

    pointers = -1

    def seek(self, where):
        self.pointers += 1
        super().seek(where)


def judge_one(ping, reply):
    verdict = Verdict()
    for place, name in enumerate(ping.reading.names):
        labels = name.text.split(b".") if name.text else []
        ours = (labels, name.pointers, name.end)
        parser = CountingParser(reply, name.offset)
        try:
            read = dns.name.from_wire_parser(parser)
            theirs = (list(read.labels[:-1]), parser.pointers, parser.current)
        except dns.exception.DNSException as error:
            theirs = repr(error)
        verdict.compare(f"labels, pointers and end of name {place}", ours, theirs)
    return verdict


def judge(pings, replies, folder):
    """The older form without names is none of it."""
    return [judge_one(ping, reply) if ping.reading.names else None for ping, reply in zip(pings, replies)]


def looks_at(ping, place):
    return any(name.offset <= place < name.end for name in ping.reading.names)
