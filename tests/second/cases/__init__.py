"""Calls for the desk, made from a seed.

`stream` gives all edges of the verbs that are known, then calls by chance
until there are enough. The same seed gives the same lines.
"""

import random

from . import (collecting, digests, floating, framing, listing, malformed, mistyping, paying,
               plain_forms, recovering, splitting)

GROUPS = [group for module in (plain_forms, mistyping, digests, framing, floating, paying, listing,
                               collecting, splitting, recovering)
          for group in module.GROUPS]


def known_groups(verbs):
    """The groups whose verbs have all landed."""
    return [group for group in GROUPS if set(group.verbs) <= set(verbs)]


def edge_blocks(seed, verbs):
    """Every group's edges, each with a source of chance of its own."""
    for group in known_groups(verbs):
        yield from group.edges(random.Random(f"{seed} {group.verbs[0]} edges"))
    samples = [good for group in known_groups(verbs) for good in group.samples]
    yield from malformed.edges(samples)(random.Random(f"{seed} malformed"))


def chance_blocks(seed, verbs):
    """Blocks by chance, without end; one line in twelve is put out of form."""
    rng = random.Random(f"{seed} chance")
    groups = known_groups(verbs)
    weights = [group.weight for group in groups]
    while True:
        group = rng.choices(groups, weights)[0]
        block = group.chance(rng)
        if len(block) == 1 and rng.random() < 1 / 12:
            block = [malformed.mutated(rng, block[0])]
        yield block


def printing(line):
    """Whether the desk prints a line for this one."""
    return line != b"" and not line.startswith(b"#") or len(line) > malformed.LONGEST


def stream(seed, count, verbs):
    """Blocks with at least `count` lines that print, all edges among them."""
    made = 0
    for block in edge_blocks(seed, verbs):
        made += sum(map(printing, block))
        yield block
    for block in chance_blocks(seed, verbs):
        if made >= count:
            return
        made += sum(map(printing, block))
        yield block


def sessions(seed, count):
    """Register sessions by chance, each a block of its own."""
    rng = random.Random(f"{seed} sessions")
    return (collecting.chance(rng) for _ in range(count))
