"""What a peer says of one reply or message, and the sum of it over all."""

from collections import Counter

MOST_SHOWN = 5


class Verdict:
    """Keys of the peer's known differences that are met, and lines on every other difference."""

    def __init__(self):
        self.known = set()
        self.unexplained = []

    def compare(self, what, ours, theirs):
        if ours != theirs:
            self.unexplained.append(f"{what}: ours {ours!r}, theirs {theirs!r}")


def counted_by_form(items):
    counts = Counter(item.form for item in items)
    return ", ".join(f"{form}: {count}" for form, count in sorted(counts.items()))


def report(peer, items, verdicts):
    """Prints the sum over pings or messages; true where no difference is left unexplained."""
    judged = [(item, verdict) for item, verdict in zip(items, verdicts) if verdict is not None]
    others = [(item, verdict) for item, verdict in judged if verdict.unexplained]
    listed = [verdict for _, verdict in judged if verdict.known and not verdict.unexplained]
    agree = len(judged) - len(others) - len(listed)
    forms = counted_by_form([item for item, _ in judged])
    sums = f"{agree} agree, {len(listed)} differ as listed, {len(others)} otherwise"
    print(f"{peer.NAME}: {len(judged)} {peer.READS} ({forms}): {sums}")
    for key, sentence in peer.KNOWN.items():
        count = sum(key in verdict.known for verdict in listed)
        print(f"  {count:5} {key}: {sentence}")
    for item, verdict in others[:MOST_SHOWN]:
        print("\n".join([f"  {peer.NAME} differs on {item.shown()}", *verdict.unexplained]))
    if len(others) > MOST_SHOWN:
        print(f"  and {len(others) - MOST_SHOWN} more that differ otherwise")
    return not others


def report_faults(peer, verdicts, noticeable):
    """Prints how many deliberate faults the peer noticed; true where it missed none of those it looks at."""
    judged = [(verdict, can) for verdict, can in zip(verdicts, noticeable) if verdict is not None]
    looked_at = [verdict for verdict, can in judged if can]
    noticed = sum(bool(verdict.unexplained) for verdict in looked_at)
    elsewhere = len(judged) - len(looked_at)
    sums = f"{noticed} of {len(looked_at)} faults noticed, and {elsewhere} were where it does not look"
    print(f"{peer.NAME}, {peer.READS}: {sums}")
    return noticed == len(looked_at)
