"""Shares and slips: by published values, by slower ways, and by sums that need no field."""

import random
from functools import reduce
from itertools import combinations, permutations, product
from operator import xor

from ..cases import recovering
from ..cases.common import with_byte
from ..cases.recovering import payload, some_slips
from ..payloads import TYPES, Shard, padded
from ..sharing import MODULUS, inverse, recover, split, times
from ..stored.sharing import BY_SSSS, DOUBLE, FOURFOLD, L
from .common import answer_of, check, same, says

MOST = 65536


def number(block):
    """A block as an element, its first byte highest (R19.1)."""
    return int.from_bytes(block, "big")


def slow_times(one, other):
    """The product bit by bit: x at a time, and less the modulus where there is an x^128."""
    total = 0
    for bit in f"{one:0128b}":
        total <<= 1
        total ^= MODULUS if total >> 128 else 0
        total ^= other if bit == "1" else 0
    return total


def shares_of(secret, threshold, count, coefficients):
    """A list of shares, of one split."""
    size = padded(len(secret))
    whole = split(secret, threshold, count, coefficients, MOST)
    same(len(whole), size * count)
    return [whole[at:at + size] for at in range(0, len(whole), size)]


def recovered(slips, room=MOST):
    """What recover says of slips."""
    return answer_of(recover, room, *map(payload, slips))


@check
def products_that_are_published():
    """RFC 4493, section 4, has 2 and 4 times L. In GCM the bits of a block stand the other way
    round in the same field: test case 2 of its authors' paper has a product."""
    same([times(2, number(L)), times(4, number(L))], [number(DOUBLE), number(FOURFOLD)])
    key, text, due = (int(f"{int(digits, 16):0128b}"[::-1], 2) for digits in (
        "66e94bd4ef8a2c3b884cfa59ca342b2e", "0388dace60b6a392f328c2b971b2fe78",
        "5e2ec746917062882c85b0685353deb7"))
    same(times(key, text), due)
    same([times(3, 3), times(2, 1 << 127)], [5, 0x87])


@check
def laws_of_the_field():
    """R19.1 on elements by chance, small ones and those of few bits."""
    rng = random.Random(31)
    few = [0, 1, 2, 3, 255, 1 << 64, 1 << 127, (1 << 128) - 1]
    for _ in range(1500):
        a, b, c = (rng.choice((rng.getrandbits(128), rng.getrandbits(8), rng.choice(few)))
                   for _ in range(3))
        same(times(a, b), slow_times(a, b), a, b)
        same(times(a, b), times(b, a))
        same(times(times(a, b), c), times(a, times(b, c)))
        same(times(a, b ^ c), times(a, b) ^ times(a, c))
        same((times(a, 1), times(a, 0), a and times(a, inverse(a))), (a, 0, 1 if a else 0))
        same(times(a, b) == 0, a == 0 or b == 0)


@check
def shares_by_horner():
    """R19.3: each share as the powers have it, from the highest down, block by block."""
    rng = random.Random(32)
    for _ in range(150):
        count = rng.randrange(1, 12)
        threshold, length = rng.randrange(1, count + 1), rng.randrange(1, 50)
        secret, size = rng.randbytes(length), padded(length)
        given = rng.randbytes(size * (threshold - 1))
        for index, share in enumerate(shares_of(secret, threshold, count, given), start=1):
            for at in range(0, size, 16):
                mine = given[at * (threshold - 1):(at + 16) * (threshold - 1)]
                value = 0
                for place in reversed(range(0, len(mine), 16)):
                    value = slow_times(index, value ^ number(mine[place:place + 16]))
                block = secret[at:at + 16].ljust(16, b"\0")
                same(number(share[at:at + 16]), value ^ number(block))


@check
def shares_that_add_up():
    """The elements below 2^n are closed under sums. So of 2^n - 1 shares, which are all of a split
    and as many as its threshold, the sum is the secret: no product is needed."""
    rng = random.Random(33)
    for threshold, length in ((1, 16), (3, 17), (7, 224), (15, 5), (63, 33), (255, 224)):
        secret = rng.randbytes(length)
        given = rng.randbytes(padded(length) * (threshold - 1))
        shares = shares_of(secret, threshold, threshold, given)
        total = reduce(xor, map(number, shares))
        same(total.to_bytes(padded(length), "big"), secret.ljust(padded(length), b"\0"))


@check
def shares_of_another_program():
    """What ssss made: any shares give its secret, and the others are on their curve."""
    rng = random.Random(34)
    for threshold, secret, shares in BY_SSSS:
        plain = Shard(bytes(32), bytes(64), bytes(32), TYPES[0], b"", 16, threshold + 1,
                      len(shares), 0)
        slips = [plain._replace(share=bytes.fromhex(share), index=index)
                 for index, share in enumerate(shares, start=1)]
        for _ in range(20):
            rng.shuffle(slips)
            same(recovered(slips), (0, bytes.fromhex(secret)))
            same(recovered(slips[:threshold + 1]), (0, bytes.fromhex(secret)))
            same(recovered(slips[:threshold]), (26, 0))


@check
def any_slips_give_back_the_secret():
    """R19.8: of every threshold, chosen and ordered by chance; of five, all choices."""
    rng = random.Random(35)
    for threshold in [*range(1, 20), 64, 200, 254, 255]:
        for length in (1, 15, 16, 17, 223, 224) if threshold < 20 else (17,):
            secret, count = rng.randbytes(length), rng.randrange(threshold, 256)
            count = count if threshold < 4 or threshold > 19 else threshold + 2
            given = rng.randbytes(padded(length) * (threshold - 1))
            shares = shares_of(secret, threshold, count, given)
            plain = some_slips(rng, length, threshold, count, 1)[0]
            indexes = rng.sample(range(1, count + 1), min(count, threshold + rng.randrange(2)))
            slips = [plain._replace(share=shares[index - 1], index=index) for index in indexes]
            same(recovered(slips, length), (0, secret), threshold, length)
            same(recovered(slips, length - 1), (11, 0))
    slips = some_slips(rng, 20, 3, 5)
    told = {recovered(chosen) for chosen in permutations(slips, 3)}
    for beyond in combinations(slips, 2):
        told.add(recovered([*(slip for slip in slips if slip not in beyond), *beyond]))
    same([answer for answer, _ in told], [0])


@check
def a_changed_share_is_found_where_it_can_be():
    """29 for any changed byte where a slip is beyond the threshold. Else it is another secret."""
    rng = random.Random(36)
    for length, threshold in product((16, 31), (1, 2, 3)):
        slips = some_slips(rng, length, threshold, 4)
        whole = recovered(slips)
        for at, byte in product(range(4), range(padded(length))):
            share = with_byte(slips[at].share, byte, slips[at].share[byte] ^ rng.randrange(1, 256))
            wrong = recovering.replaced(slips, at, slips[at]._replace(share=share))
            same(recovered(wrong), (29, 0))
            if at < threshold:
                number_told, secret = recovered(wrong[:threshold])
                same(number_told in (0, 30) and secret != whole[1], True)


@check
def numbers_of_a_split():
    """R19.5: every threshold and count up to 257; lengths; coefficients; room."""
    for threshold, count in product((*range(5), 254, 255, 256, 257), repeat=2):
        right = 1 <= threshold <= count <= 255
        given = bytes(16 * max(0, threshold - 1))
        same(answer_of(split, b"a", threshold, count, given, MOST)[0], 0 if right else 19)
    for length in range(0, 260):
        given = bytes(padded(length))
        due = 0 if 1 <= length <= 224 else 19
        same(answer_of(split, bytes(length), 2, 2, given, 2 * len(given))[0], due)
        same(answer_of(split, bytes(length), 2, 2, given, 2 * len(given) - 1)[0], due or 11)
        same(answer_of(split, bytes(length), 2, 2, given + b"a", 0)[0], 19)
        same(answer_of(split, bytes(length), 2, 2, given[1:], 0)[0], 19)
    says("split 61 2 2 " + "00" * 16 + " 31", "11")
    says("split 61 18446744073709551615 18446744073709551615 - 31", "19")
    says("split 61 18446744073709551616 1 - 31", "?")


@check
def slips_are_judged_in_order():
    """R19.7: each refusal alone, and before all that come later."""
    rng = random.Random(37)
    slips = recovering.ill_padded(rng, 20, 2, 4, 4)
    raws = [payload(slip) for slip in slips]
    off = slips[3]._replace(share=bytes(32))
    twice = [*slips[:3], off, slips[0]]
    mixed = [*twice, slips[1]._replace(hash=bytes(32))]
    same(recovered(slips, 0), (30, 0))
    same(recovered([*slips[:3], off], 0), (29, 0))
    same(recovered(twice, 0), (28, 0))
    same(recovered(mixed, 0), (27, 0))
    same(recovered([slip._replace(threshold=4) for slip in slips[:3]] + mixed[-1:], 0), (27, 0))
    same(recovered([slips[0]._replace(threshold=3), mixed[-1]], 0), (26, 0))
    same(recovered([slips[0], slips[1]._replace(threshold=3)], 0), (27, 0))
    for other in recovering.differing(rng, slips[2]):
        same(recovered([*slips[:2], other, off], 0), (27, 0), other)
    same((recovered([]), recovered([slips[0]])), ((26, 0), (26, 0)))
    for wrong, due in ((b"", 3), (b"\xa0", 18), (payload(slips[0]._replace(index=9)), 19)):
        same(answer_of(recover, 0, raws[0], wrong, raws[0], b"\xa0"), (due, 0))
        same(answer_of(recover, 0, wrong), (due, 0))
    good = some_slips(rng, 20, 2, 4)
    same([recovered(good, room)[0] for room in (0, 19, 20, MOST)], [11, 11, 0, 0])


@check
def slips_on_a_line():
    """D2.14: the room first, then 0 to 300 slips."""
    for line, answer in (("recover", "?"), ("recover 65537", "?"), ("recover 0", "26"),
                         ("recover -", "?"), ("recover 0 -", "3"), ("recover 0 - ", "?"),
                         ("recover 0" + " -" * 300, "3"), ("recover 0" + " -" * 301, "?"),
                         ("recover 0 a0 0", "?"), ("recover 0 a0 null", "?")):
        says(line, answer)
