"""Tries the model on the worked cases of docs/RULES.md and on its promise.

The cases follow section 10 row by row, but for 10.6: the model keeps no headers
and tags that could break. As there, (a, c) is a block and (w, k, d, p) a fault.
"""

from __future__ import annotations

import random
from functools import reduce
from typing import Callable

from model import (
    GRAIN,
    LARGEST_SIZE,
    POWER,
    Affix,
    Bitmap,
    Block,
    BoundaryTag,
    Bump,
    Fallback,
    Fault,
    FreeList,
    Frame,
    Heap,
    Quota,
    Rounding,
    RoundingLayer,
    Segregator,
    output,
    pile,
    read_frames,
    trace_fault,
)

tried = 0


def same(found: object, expected: object, what: str) -> None:
    global tried
    tried += 1
    if found != expected:
        raise SystemExit(f"{what}: expected {expected}, found {found}")


def grants(heap: Heap, *cases: tuple[int, tuple[int, ...]]) -> None:
    """Allocates in turn; each allocate answers what was offered just before."""
    for size, expected in cases:
        same(heap.offer(size), expected, f"{type(heap).__name__} offer({size})")
        same(heap.allocate(size), expected, f"{type(heap).__name__} allocate({size})")


def offers(heap: Heap, *cases: tuple[int, tuple[int, ...]]) -> None:
    for size, expected in cases:
        same(heap.offer(size), expected, f"{type(heap).__name__} offer({size})")


def frees(heap: Heap, *addresses: int) -> None:
    for address in addresses:
        same(heap.free(address), None, f"{type(heap).__name__} free({address})")


# 10.1


def small_boundary_tag() -> None:
    heap = BoundaryTag(64)
    grants(heap, (16, (8, 16)), (16, (40, 16)), (1, (5, 3, 0, 1)))
    frees(heap, 8, 40)
    grants(heap, (48, (8, 48)))
    for size, expected in [(24, (8, 24)), (32, (8, 48)), (49, (5, 3, 0, 49))]:
        grants(BoundaryTag(64), (size, expected))


def small_bump() -> None:
    for first, last in [(8, 40), (40, 8)]:
        heap = Bump(64)
        grants(heap, (24, (8, 24)), (24, (40, 24)), (1, (5, 1, 0, 1)))
        frees(heap, first)
        grants(heap, (24, (5, 1, 0, 24)))
        frees(heap, last)
        grants(heap, (24, (8, 24)))


def small_others() -> None:
    grants(Bitmap(128), (64, (0, 64)), (65, (5, 2, 0, 65)), (1, (64, 64)))
    grants(Affix(BoundaryTag(64)), (33, (5, 3, 1, 49)), (16, (16, 32)))
    grants(Quota(48, Bump(64)), (24, (8, 24)), (24, (40, 24)))
    grants(Quota(47, Bump(64)), (24, (8, 24)), (24, (7, 7, 0, 24)))
    held = FreeList(POWER, Bump(64))
    grants(held, (20, (8, 32)))
    frees(held, 8)
    grants(held, (32, (8, 32)), (33, (5, 1, 1, 64)))
    grants(Fallback(Bump(32), Bump(64)), (24, (8, 24)), (24, (40, 24)))


# 10.2


def every_sort() -> list[Heap]:
    return [
        Bump(65_536),
        Bitmap(65_536),
        BoundaryTag(65_536),
        RoundingLayer(POWER, Bump(65_536)),
        Affix(Bump(65_536)),
        FreeList(POWER, Bump(65_536)),
        Quota(2**32 - 1, Bump(65_536)),
        Segregator(256, Bump(65_536), Bump(65_536)),
        Fallback(Bump(65_536), Bump(65_536)),
    ]


def largest_size() -> None:
    for heap in every_sort():
        offers(heap, (32_769, (2, heap.kind, 0, 32_769)), (2**32 - 1, (2, heap.kind, 0, 2**32 - 1)))
        if not isinstance(heap, Affix):
            same(isinstance(heap.offer(32_768), Block), True, "32,768 may be offered")
    offers(Bump(65_536), (32_768, (8, 32_768)), (32_769, (2, 1, 0, 32_769)))
    offers(
        Affix(Bump(65_536)),
        (32_752, (16, 32_752)),
        (32_753, (2, 1, 1, 32_769)),
        (32_769, (2, 5, 0, 32_769)),
    )
    grants(BoundaryTag(32_800), (32_768, (8, 32_784)))
    offers(RoundingLayer(GRAIN, Bump(65_536)), (8_192, (8, 8_192)), (8_193, (2, 4, 0, 8_193)))
    two = RoundingLayer(POWER, RoundingLayer(GRAIN, Bump(65_536)))
    offers(two, (5_000, (8, 8_192)), (8_193, (2, 4, 1, 16_384)))
    offers(FreeList(GRAIN, Bump(64)), (8_193, (2, 6, 0, 8_193)))


# 10.3, and 4.4 with it


def tiny_regions() -> None:
    offers(Bump(16), (8, (8, 8)), (9, (5, 1, 0, 9)))
    same(Bump(15).span(), 8, "span of bump 15")
    offers(Bump(15), (1, (5, 1, 0, 1)))
    offers(Bitmap(64), (64, (0, 64)), (65, (5, 2, 0, 65)))
    same(Bitmap(63).span(), 0, "span of bitmap 63")
    offers(Bitmap(63), (1, (5, 2, 0, 1)))
    offers(BoundaryTag(24), (8, (8, 8)), (9, (5, 3, 0, 9)))
    same(BoundaryTag(23).span(), 0, "span of boundary tag 23")
    offers(BoundaryTag(23), (0, (1, 3, 0, 0)), (32_769, (2, 3, 0, 32_769)), (1, (5, 3, 0, 1)))
    same([Bump(length).span() for length in (0, 7, 8, 16)], [0, 0, 8, 16], "spans of bumps")


# 10.4


def touching_blocks() -> None:
    heap = Bitmap(128)
    grants(heap, (64, (0, 64)), (64, (64, 64)))
    same(heap.fill(0, 64, 1), None, "fill of the whole block")
    same(heap.fill(0, 65, 1), (4, 2, 0, 0), "fill over two blocks")
    same(heap.fill(100, 2**32 - 1, 1), (4, 2, 0, 100), "fill past 2^32")
    same(heap.fill(200, 0, 1), (1, 2, 0, 200), "fill of nothing")
    same(heap.free(1), (3, 2, 0, 1), "free(1)")
    same(heap.get(128), (4, 2, 0, 128), "get(128)")
    same([heap.get(0), heap.get(63), heap.get(64)], [1, 1, 0], "bytes")
    same([heap.find(63), heap.find(64), heap.find(128)], [(0, 64), (64, 64), None], "find")


def affix_marks() -> None:
    heap = Affix(BoundaryTag(64))
    grants(heap, (16, (16, 32)))
    same([heap.find(15), heap.find(48), heap.find(47)], [None, None, (16, 32)], "find")
    same(heap.get(48), (4, 5, 0, 48), "get(48)")
    same(heap.free(8), (3, 5, 0, 8), "free(8)")
    same([heap.whole(16), heap.whole(8)], [True, False], "whole")
    same({heap.get(address) for address in range(16, 48)}, {0}, "bytes of the block above")


def free_in_second() -> None:
    second = Bump(64)
    heap = Fallback(Bump(32), second)
    grants(heap, (24, (8, 24)), (24, (40, 24)))
    frees(heap, 40)
    same((heap.live(), second.live()), ([(8, 24)], []), "free(40)")
    same(heap.free(40), (3, 9, 0, 40), "a further free(40)")


# 10.5


def sixteen_held() -> None:
    below = Bitmap(2_048)
    heap = FreeList(GRAIN, below)
    grants(heap, *[(8, (64 * index, 64)) for index in range(17)])
    frees(heap, *[64 * index for index in range(17)])
    same(below.live(), [(64 * index, 64) for index in range(16)], "held blocks")
    same((heap.live(), heap.free(0), heap.get(0)), ([], (3, 6, 0, 0), (4, 6, 0, 0)), "held is ended")
    grants(heap, (1, (960, 64)))
    heap.relief()
    same((below.live(), heap.held), ([(960, 64)], []), "after relief")


def held_blocks_on_offer() -> None:
    heap = FreeList(GRAIN, BoundaryTag(256))
    grants(heap, (8, (8, 8)), (64, (32, 64)), (8, (112, 8)))
    frees(heap, 8, 32, 112)
    offers(heap, (8, (112, 8)), (9, (32, 64)))
    limited = Quota(56, FreeList(GRAIN, Bump(256)))
    grants(limited, (40, (8, 40)))
    frees(limited, 8)
    grants(limited, (48, (56, 48)), (8, (7, 7, 0, 8)))


def widest() -> Heap:
    """A heap with the largest span."""
    heaps: list[Heap] = [Bump(65_536) for _ in range(16)]
    return reduce(Fallback, heaps)


def many_layers_and_wide_pairs() -> None:
    tower = reduce(lambda below, _: Quota(2**32 - 1, below), range(300), Bump(8))
    grants(tower, (1, (5, 1, 255, 1)), (0, (1, 7, 0, 0)))
    for second, kind in [(Bump(7), 1), (Bitmap(63), 2), (BoundaryTag(23), 3)]:
        opened = Segregator(256, widest(), second)
        same(opened.span(), 1_048_576, "span of the open pair")
        grants(opened, (257, (5, kind, 1, 257)))
    shut = Segregator(256, widest(), Bump(64))
    same(shut.span(), 1_048_576, "span of the shut pair")
    grants(shut, (257, (6, 8, 0, 257)), (0, (1, 8, 0, 0)), (32_769, (2, 8, 0, 32_769)))
    same(shut.free(1_048_584), (3, 8, 0, 1_048_584), "free in a shut heap")
    same(shut.get(1_048_576), (4, 8, 0, 1_048_576), "get in a shut heap")
    grants(Fallback(widest(), Bump(64)), (32_769, (2, 9, 0, 32_769)), (1, (8, 8)))


def third_pile() -> None:
    offers(
        pile(3),
        (256, (0, 256)),
        (257, (8_208, 264)),
        (8_160, (8_208, 8_160)),
        (8_161, (5, 1, 3, 8_161)),
        (0, (1, 8, 0, 0)),
    )
    grants(pile(3), (8_160, (8_208, 8_160)), (2_000, (7, 7, 1, 2_000)), (1_000, (16_392, 1_000)))
    same([pile(number).span() for number in (1, 2, 3)], [16_384, 16_384, 20_480], "spans of the piles")


# 5


def roundings() -> None:
    for name, rounding in [("Grain", GRAIN), ("Power", POWER)]:
        rounded = [rounding.of(size) for size in range(1, rounding.largest + 1)]
        lawful = (
            all(size <= result <= rounding.largest for size, result in enumerate(rounded, 1))
            and rounded == sorted(rounded)
            and rounded == [rounding.of(result) for result in rounded]
        )
        same(lawful, True, f"laws of {name}")
        same([rounding.of(0), rounding.of(rounding.largest + 1)], [0, 0], f"{name} elsewhere")


# 10.7 and 9.6


def traces() -> None:
    good = "000000000001"
    refused = {
        "": "1F0B00000000",
        "00": "1F0B00000000",
        good + "00": "1F0B00000000",
        good + "010100000001" * 5_461: "1F0B00000000",
        "000000000004": "1F0E00000000",
        "000100000004": "1F0D00000000",
        "010000000001": "1F0C00000000",
        good + good: "1F0C00000001",
        good + "050000000000": "1F0C00000001",
        good + "030100000100": "1F0D00000001",
        good + "020100000001": "1F0D00000001",
        good + "040100000000": "1F0D00000001",
    }
    for text, expected in refused.items():
        same(output(bytes.fromhex(text)), f"{expected}\n".encode(), f"trace {text[:24]}")
    longest = bytes.fromhex(good + "010100000001" * 5_460)
    same((len(longest), trace_fault(longest)), (32_766, None), "the longest trace")
    alone = b"100100000000000000000000000000000000\n11000000000000000000000000\n"
    same(output(bytes.fromhex(good)), alone, "the head alone")
    frame = bytes.fromhex("01fe01020304")
    same(read_frames(frame), [Frame(1, 254, 0x01020304)], "fields of a frame")
    same(read_frames(frame)[0].written(), frame, "bytes of a frame")


def complete_example() -> None:
    trace = bytes.fromhex("000000000001 010100000010 010200000000 020100000000 020100000000")
    expected = (
        b"100100000004000000010000000100000002\n"
        b"11000100000010000000000000\n"
        b"120000000001\n"
        b"120100000001\n"
        b"130000000201010000000000\n"
    )
    same(output(trace), expected, "the complete example")


# 7: the promise, on random piles and random calls.

SIZES = [0, 1, 7, 8, 9, 24, 63, 64, 65, 128, 255, 256, 257, 300, 1_000, LARGEST_SIZE, LARGEST_SIZE + 1]


class Book:
    """The blocks of a pile, with their bytes, as its client knows them."""

    def __init__(self) -> None:
        self.bytes: dict[Block, bytearray] = {}

    def find(self, address: int) -> Block | None:
        return next((b for b in self.bytes if b.address <= address < b.end), None)


def random_pile(chance: random.Random, layers: int) -> Heap:
    if layers == 0:
        bottom: Callable[[int], Heap] = chance.choice([Bump, Bitmap, BoundaryTag])
        return bottom(chance.choice([0, 23, 64, 500, 2_048, 4_096]))
    sort = chance.randrange(6)
    below = random_pile(chance, layers - 1)
    rounding: Rounding = chance.choice([GRAIN, POWER])
    if sort == 0:
        return RoundingLayer(rounding, below)
    if sort == 1:
        return Affix(below)
    if sort == 2:
        return FreeList(rounding, below)
    if sort == 3:
        return Quota(chance.choice([0, 500, 3_000, 2**32 - 1]), below)
    other = random_pile(chance, chance.randrange(layers))
    return Segregator(chance.choice([0, 64, 256, 10**6]), below, other) if sort == 4 else Fallback(below, other)


def compare_with_book(heap: Heap, book: Book) -> None:
    blocks = sorted(heap.live())
    same(blocks, sorted(book.bytes), "live blocks")
    for block in blocks:
        aligned = block.address % 8 == 0 and block.length % 8 == 0 and 8 <= block.length
        same(aligned and block.end <= heap.span(), True, f"{block} lies well")
        bottom_bytes = [heap.get(address) for address in (block.address, block.end - 1)]
        same(bottom_bytes, [book.bytes[block][0], book.bytes[block][-1]], f"bytes of {block}")
    for low, high in zip(blocks, blocks[1:]):
        same(low.end <= high.address, True, f"{low} and {high} are apart")


def random_call(heap: Heap, book: Book, chance: random.Random) -> None:
    before = [heap.offer(size) for size in SIZES]
    address = chance.choice([b.address for b in book.bytes] or [0]) + chance.choice([0, 0, 0, 1, 8])
    block = book.find(address)
    offers_may_change = True
    call = chance.randrange(8)
    if call <= 3:
        size = chance.choice(SIZES)
        answer = heap.allocate(size)
        same(answer, before[SIZES.index(size)], f"allocate({size})")
        if isinstance(answer, Block):
            same(answer.length >= size, True, f"length for {size}")
            book.bytes[answer] = bytearray(answer.length)
        offers_may_change = isinstance(answer, Block)
    elif call <= 5:
        begins = block is not None and block.address == address
        same(heap.free(address), None if begins else Fault(3, heap.kind, 0, address), "free")
        if begins:
            del book.bytes[block]
        offers_may_change = begins
    elif call == 6:
        random_fill(heap, book, chance, address)
        offers_may_change = False
    else:
        heap.relief()
    if not offers_may_change:
        same([heap.offer(size) for size in SIZES], before, "offers")


def random_fill(heap: Heap, book: Book, chance: random.Random, address: int) -> None:
    block = book.find(address)
    count = chance.choice([0, 1, 8, block.end - address if block else 8, 2**32 - 1])
    byte = chance.randrange(256)
    expected = None
    if count == 0:
        expected = Fault(1, heap.kind, 0, address)
    elif block is None or address + count > block.end:
        expected = Fault(4, heap.kind, 0, address)
    else:
        start = address - block.address
        book.bytes[block][start : start + count] = bytes([byte]) * count
    same(heap.fill(address, count, byte), expected, f"fill({address}, {count})")


def promise() -> None:
    chance = random.Random("promise")
    heaps = [pile(1), pile(2), pile(3)] + [random_pile(chance, chance.randrange(5)) for _ in range(60)]
    for heap in heaps:
        book = Book()
        for _ in range(60):
            random_call(heap, book, chance)
            compare_with_book(heap, book)


CHECKS = [
    small_boundary_tag,
    small_bump,
    small_others,
    largest_size,
    tiny_regions,
    touching_blocks,
    affix_marks,
    free_in_second,
    sixteen_held,
    held_blocks_on_offer,
    many_layers_and_wide_pairs,
    third_pile,
    roundings,
    traces,
    complete_example,
    promise,
]


def check() -> int:
    for one in CHECKS:
        before = tried
        one()
        print(f"{one.__name__.replace('_', ' ')}: {tried - before} as the rules say")
    return 0
