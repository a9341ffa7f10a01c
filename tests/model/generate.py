#!/usr/bin/env python3
"""Makes traces, with the model's output for each. The same traces every time.

    generate.py DIR               writes DIR/NAME.trace and DIR/NAME.out for all of
                                  them, and DIR/NAME.hex, the trace as commented hex
                                  text, where it is whole frames and not overlong
    generate.py --vectors FOLDER  writes FOLDER/stdin and FOLDER/stdout for the
                                  hundred that are chosen as vectors of the gate
    generate.py --list            prints each name with its length in bytes
"""

from __future__ import annotations

import random
import sys
from pathlib import Path
from typing import Callable, Iterable

sys.dont_write_bytecode = True  # leave no cache beside the sources

from model import (  # noqa: E402
    ALLOCATE,
    FILL,
    FRAME_LENGTH,
    FREE,
    HEAD,
    LONGEST_TRACE,
    RELIEF,
    Cause,
    Fault,
    Frame,
    Replay,
    output,
    pile,
)

SEED = 20_480
PILES = (1, 2, 3)
MOST_FRAMES = LONGEST_TRACE // FRAME_LENGTH
LONGEST_HEX = LONGEST_TRACE + FRAME_LENGTH
BIGGEST = 2**32 - 1

# Both sides of every bound in the rules, and sizes that would wrap if cut or rounded up.
EDGES = (
    *(0, 1, 7, 8, 9, 15, 16, 17, 31, 32, 33, 63, 64, 65, 127, 128, 129),
    *(255, 256, 257, 263, 264, 265, 511, 512, 513, 1_024, 1_025, 2_048, 2_049),
    *(4_088, 4_089, 4_096, 4_097, 8_136, 8_137, 8_144, 8_152, 8_160, 8_161, 8_192, 8_193),
    *(9_999, 10_000, 10_001, 16_376, 16_377, 16_384, 16_385),
    *(32_752, 32_753, 32_767, 32_768, 32_769, 65_535, 65_536, 65_544),
    *(2**31 - 1, 2**31, BIGGEST - 7, BIGGEST - 6, BIGGEST),
)

# Fillings that would pass for the state in a header or a tag, and a mark of an affix.
BYTES = (0, 1, 2, 8, 24, 0x5A, 0x7F, 0x80, 0xFF)


def chance_for(name: str) -> random.Random:
    """A source of its own for each trace: new ones leave the others as they are."""
    return random.Random(f"{SEED} {name}")


class Script:
    """A trace in the making. The model runs along, so that a choice can depend on what is held."""

    def __init__(self, pile_number: int) -> None:
        self.frames = [Frame(HEAD, 0, pile_number)]
        self.run = Replay(pile(pile_number))
        self.held: list[int] = []  # ids in the order of their grants

    def allocate(self, slot: int, size: int) -> Fault | None:
        fault = self.add(ALLOCATE, slot, size)
        if fault is None:
            self.held.append(slot)
        return fault

    def free(self, slot: int) -> None:
        if self.add(FREE, slot, 0) is None:
            self.held.remove(slot)

    def fill(self, slot: int, byte: int) -> None:
        self.add(FILL, slot, byte)

    def relief(self) -> None:
        self.add(RELIEF, 0, 0)

    def add(self, kind: int, slot: int, number: int) -> Fault | None:
        frame = Frame(kind, slot, number)
        self.frames.append(frame)
        return self.run.run(frame)

    def empty_slots(self, ids: int) -> list[int]:
        return [slot for slot in range(ids) if self.run.slots[slot] is None]

    def trace(self) -> bytes:
        return b"".join(frame.written() for frame in self.frames)


class Traces(dict[str, bytes]):
    """Named traces in the order in which they were made."""

    def add(self, name: str, trace: bytes | Script) -> None:
        if name in self:
            raise ValueError(f"two traces are named {name}")
        self[name] = trace.trace() if isinstance(trace, Script) else trace


def joined(*frames: tuple[int, int, int]) -> bytes:
    return b"".join(Frame(*frame).written() for frame in frames)


# Random work.

SizeOf = Callable[[random.Random], int]

PROFILES: dict[str, SizeOf] = {
    "tiny": lambda chance: chance.randint(1, 64),
    "small": lambda chance: chance.randint(1, 256),
    "middle": lambda chance: chance.randint(150, 700),
    "large": lambda chance: chance.randint(257, 3_000),
    "huge": lambda chance: chance.randint(2_000, 9_000),
    "edges": lambda chance: chance.choice(EDGES),
    "powers": lambda chance: 2 ** chance.randint(0, 13) + chance.randint(-1, 1),
    "any": lambda chance: PROFILES[chance.choice(["tiny", "small", "middle", "large", "huge", "edges"])](chance),
}

ORDERS = ("lifo", "fifo", "random")


def chosen_held(script: Script, chance: random.Random, order: str) -> int:
    if order == "lifo":
        return script.held[-1]
    if order == "fifo":
        return script.held[0]
    return chance.choice(script.held)


def work(
    script: Script,
    chance: random.Random,
    frames: int,
    size_of: SizeOf,
    ids: int = 256,
    order: str = "random",
    mistakes: float = 0.05,
) -> None:
    """Adds frames in phases that mostly allocate and phases that mostly free."""
    growth = 0.8
    for _ in range(frames):
        if chance.random() < 0.03:
            growth = chance.choice([0.2, 0.35, 0.5, 0.65, 0.8])
        kind = chance.random()
        if kind < 0.02:
            script.relief()
            continue
        empty = script.empty_slots(ids)
        if chance.random() < mistakes:
            add_any(script, chance, chance.choice([chance.randrange(256), *script.held[:1]]), size_of)
        elif empty and (not script.held or chance.random() < growth):
            script.allocate(chance.choice(empty), size_of(chance))
        elif kind < 0.2:
            script.fill(chance.choice(script.held), chance.choice(BYTES))
        else:
            script.free(chosen_held(script, chance, order))


def add_any(script: Script, chance: random.Random, slot: int, size_of: SizeOf) -> None:
    """A frame that takes no heed of what its slot holds."""
    kind = chance.choice([ALLOCATE, FREE, FILL])
    if kind == ALLOCATE:
        script.allocate(slot, size_of(chance))
    elif kind == FREE:
        script.free(slot)
    else:
        script.fill(slot, chance.choice(BYTES))


def add_random_work(traces: Traces) -> None:
    for number in PILES:
        for profile in PROFILES:
            for frames in (12, 40, 150):
                name = f"pile-{number}-work-{profile}-{frames}"
                chance = chance_for(name)
                script = Script(number)
                mistakes = chance.choice([0.0, 0.05, 0.2])
                work(script, chance, frames, PROFILES[profile], chance.choice([4, 20, 256]), mistakes=mistakes)
                traces.add(name, script)
        for order in ORDERS:
            for profile in ("small", "large", "any"):
                name = f"pile-{number}-{order}-{profile}"
                script = Script(number)
                work(script, chance_for(name), 500, PROFILES[profile], order=order)
                traces.add(name, script)


def add_longest(traces: Traces) -> None:
    for number in PILES:
        for profile in ("any", "small", "large"):
            name = f"pile-{number}-longest-{profile}"
            script = Script(number)
            work(script, chance_for(name), MOST_FRAMES - 1, PROFILES[profile], mistakes=0.02)
            traces.add(name, script)
        traces.add(f"pile-{number}-longest-sweep", size_sweep(number))
        traces.add(f"pile-{number}-longest-relief", joined((HEAD, 0, number), *[(RELIEF, 0, 0)] * (MOST_FRAMES - 1)))


def size_sweep(number: int) -> Script:
    """A block of each size in turn, from 1 on, as far as a trace reaches."""
    script = Script(number)
    for size in range(1, MOST_FRAMES // 2 + 1):
        script.allocate(size % 256, size)
        script.free(size % 256)
    return script


# Sizes, slots and fillings.


def add_sizes(traces: Traces) -> None:
    for number in PILES:
        for size in EDGES:
            traces.add(f"pile-{number}-size-{size}", one_size(number, size))
        name = f"pile-{number}-edges"
        shuffled = list(EDGES)
        chance_for(name).shuffle(shuffled)
        for suffix, sizes in [("up", EDGES), ("down", EDGES[::-1]), ("shuffled", shuffled)]:
            traces.add(f"{name}-{suffix}", kept_sizes(number, sizes))
            traces.add(f"{name}-{suffix}-freed", freed_sizes(number, sizes))


def one_size(number: int, size: int) -> Script:
    script = Script(number)
    script.allocate(1, size)
    script.fill(1, 0xFF)
    script.allocate(2, size)
    script.free(1)
    script.allocate(3, size)
    script.fill(3, 2)
    return script


def kept_sizes(number: int, sizes: Iterable[int]) -> Script:
    script = Script(number)
    for slot, size in enumerate(sizes):
        script.allocate(slot, size)
    return script


def freed_sizes(number: int, sizes: Iterable[int]) -> Script:
    script = Script(number)
    for size in sizes:
        if script.allocate(255, size) is None:
            script.free(255)
    return script


def add_slots(traces: Traces) -> None:
    for number in PILES:
        head = (HEAD, 0, number)
        ids = (0, 1, 127, 128, 254, 255)
        traces.add(f"pile-{number}-head-alone", joined(head))
        traces.add(f"pile-{number}-relief-alone", joined(head, (RELIEF, 0, 0)))
        traces.add(f"pile-{number}-free-empty", joined(head, *[(FREE, slot, 0) for slot in ids]))
        traces.add(f"pile-{number}-fill-empty", joined(head, *[(FILL, slot, 255) for slot in ids]))
        traces.add(f"pile-{number}-free-twice", joined(head, (ALLOCATE, 9, 40), (FREE, 9, 0), (FREE, 9, 0)))
        traces.add(f"pile-{number}-fill-freed", joined(head, (ALLOCATE, 9, 40), (FREE, 9, 0), (FILL, 9, 7)))
        traces.add(f"pile-{number}-allocate-twice", joined(head, (ALLOCATE, 255, 40), (ALLOCATE, 255, 40)))
        traces.add(f"pile-{number}-taken-zero", joined(head, (ALLOCATE, 3, 40), (ALLOCATE, 3, 0)))
        traces.add(f"pile-{number}-taken-too-large", joined(head, (ALLOCATE, 3, 40), (ALLOCATE, 3, BIGGEST)))
        traces.add(f"pile-{number}-refused-then-free", joined(head, (ALLOCATE, 3, 0), (FREE, 3, 0), (ALLOCATE, 3, 1)))
        traces.add(f"pile-{number}-all-empty-freed", joined(head, *[(FREE, slot, 0) for slot in range(256)]))
        traces.add(f"pile-{number}-every-filling", every_filling(number))
        for size in (1, 9, 33, 57, 64):
            traces.add(f"pile-{number}-all-ids-{size}", all_ids(number, size))


def every_filling(number: int) -> Script:
    """Blocks between blocks, filled with each byte: what stands around them must stay."""
    script = Script(number)
    for slot in range(6):
        script.allocate(slot, 300 if slot % 2 else 50)
    for byte in range(256):
        script.fill(byte % 6, byte)
    for slot in (1, 3, 2, 5, 0):
        script.free(slot)
        script.allocate(slot + 100, 310)
    return script


def all_ids(number: int, size: int) -> Script:
    script = Script(number)
    for slot in range(256):
        script.allocate(slot, size)
        script.fill(slot, slot)
    for slot in range(255, -1, -3):
        script.free(slot)
    for slot in range(256):
        script.allocate(slot, size + 8)
    return script


# Full heaps.


def add_full(traces: Traces) -> None:
    for number in PILES:
        for size in (8, 64, 65, 200, 256, 257, 480, 1_000, 4_000):
            for order in ORDERS:
                name = f"pile-{number}-full-{size}-{order}"
                traces.add(name, full(number, size, order, chance_for(name)))


def full(number: int, size: int, order: str, chance: random.Random) -> Script:
    """Allocates until refused, frees most, asks for other sizes, then the same after a relief."""
    script = Script(number)
    allocate_until_refused(script, size)
    for share in (0.4, 0.7, 1.0):
        for _ in range(round(len(script.held) * share)):
            slot = chosen_held(script, chance, order)
            if chance.random() < 0.2:
                script.fill(slot, chance.choice(BYTES))
            script.free(slot)
        allocate_until_refused(script, size * 2 + chance.randint(-9, 9))
        script.relief()
        allocate_until_refused(script, max(1, size - chance.randint(0, 9)))
    return script


def allocate_until_refused(script: Script, size: int) -> None:
    for slot in script.empty_slots(256):
        if script.allocate(slot, size) is not None:
            return


def add_exact(traces: Traces) -> None:
    """The last byte that fits, and the first that does not."""
    for number, room in [(1, 16_384), (2, 16_384), (3, 8_192)]:
        for size in (8, 56, 64, 120, 248, 256):
            for more in (0, 1, 2):
                script = Script(number)
                header = 8 if number == 1 else 0
                length = size if number == 1 else -(-size // 64) * 64
                for index in range(min(room // (length + header) + more, 256)):
                    script.allocate(index, size)
                traces.add(f"pile-{number}-exact-{size}-{more}", script)


# What one sort of heap does.


def scripted(number: int, calls: str) -> Script:
    """A trace from words: +ID:SIZE allocates, -ID frees, ID=BYTE fills, ~ is relief."""
    script = Script(number)
    for word in calls.split():
        if word == "~":
            script.relief()
        elif word[0] == "+":
            slot, size = word[1:].split(":")
            script.allocate(int(slot), int(size))
        elif word[0] == "-":
            script.free(int(word[1:]))
        else:
            slot, byte = word.split("=")
            script.fill(int(slot), int(byte))
    return script


def in_turn(sign: str, count: int, size: str = "") -> str:
    return " ".join(f"{sign}{slot}{size}" for slot in range(count))


def add_bump(traces: Traces) -> None:
    cases = {
        "whole": "+1:16376 -1 +1:16376 +2:1",
        "one-too-many": "+1:16377 +1:16369 -1 +1:16376",
        "last-eight": "+1:16360 +2:8 -2 +3:8 -1 +4:8",
        "last-eight-missed": "+1:16360 +2:9 +3:8 +4:1",
        "cursor-stays": "+1:8000 +2:8000 -1 +3:8000 -2 +4:8000",
        "cursor-returns": "+1:8000 +2:8000 -2 -1 +3:16000 -3 +4:16376",
        "cursor-returns-often": " ".join(f"+{slot}:16000 -{slot}" for slot in range(40)) + " +1:16376",
        "refused-keeps-cursor": "+1:16000 +2:1000 +3:360 +4:1",
        "ended-in-front": "+1:4000 +2:4000 +3:4000 -1 -2 +4:4000 +5:4000 -3 +6:4400 -4 +7:4000 -6 -7 +8:16376",
        "filled-to-the-end": "+1:40 +2:40 +3:40 2=255 1=0 -2 +4:40 3=1 -1 -3 4=2 -4 +5:16376",
        "relief-gives-nothing": "+1:9000 +2:100 -1 ~ +3:9000 -2 ~ +4:16376",
    }
    for name, calls in cases.items():
        traces.add(f"pile-1-bump-{name}", scripted(1, calls))


def add_free_list(traces: Traces) -> None:
    cases = {
        "newest-first": "+1:64 +2:640 +3:64 -2 -1 -3 +4:10 +5:10 +6:10 +7:10",
        "newest-long": "+1:64 +2:600 -1 -2 +3:8 +4:8",
        "newest-fits": "+1:600 +2:64 -1 -2 +3:100 +4:8",
        "newest-too-short": "+1:100 +2:200 +3:64 -1 -2 -3 +4:65 +5:65 +6:65",
        "reuse": "+1:20 1=255 -1 +2:24 -2 +3:1 -3 +4:33 -4 +5:64",
        "held-fills-up": "+1:8192 +2:8192 -1 +3:64 +4:8192 -3 +5:4096",
        "held-hides-space": "+1:8192 +2:4096 +3:4096 -2 -3 +4:8192 ~ +5:8192",
        "relief-joins": "+1:4096 +2:4096 +3:4096 +4:4096 -1 -2 +5:8000 ~ +6:8000 -3 ~ +7:2048",
        "relief-twice": "+1:100 +2:100 -1 -2 ~ ~ +3:300 -3 ~ +4:8192 +5:8192",
        "relief-keeps-live": "+1:100 +2:100 +3:100 -2 ~ 1=1 3=3 -1 -3 +4:100 +5:100 +6:100",
        "rounded-up": "+1:65 +2:129 +3:257 +4:513 +5:1025 +6:2049 +7:4097 +8:1",
        "place-is-rounded": "+1:8192 +2:8192 +3:4097 +4:65 +5:1",
        "place-of-two-roundings": "+1:8192 +2:8192 +3:17",
        "sixteenth-held": f"{in_turn('+', 15, ':64')} +15:250 {in_turn('-', 16)} +20:8",
        "seventeenth-not-held": f"{in_turn('+', 16, ':64')} +16:250 {in_turn('-', 17)} +20:8",
    }
    for name, calls in cases.items():
        traces.add(f"pile-2-list-{name}", scripted(2, calls))
        traces.add(f"pile-3-list-{name}", scripted(3, calls))
    for number in (2, 3):
        for count in (1, 2, 15, 16, 17, 18, 33):
            for order in ORDERS:
                name = f"pile-{number}-held-{count}-{order}"
                traces.add(name, many_held(number, count, order, chance_for(name)))


def many_held(number: int, count: int, order: str, chance: random.Random) -> Script:
    """Frees more blocks than a list holds, then asks for what is only there once all are freed below."""
    script = Script(number)
    for slot in range(count):
        script.allocate(slot, 64 * (slot % 4 + 1))
    # The rest of the cells, so that only what was freed can serve.
    for size in (4_096, 2_048, 1_024, 512, 256, 128, 64):
        allocate_until_refused(script, size)
    rest = [slot for slot in script.held if slot >= count]
    script.held = [slot for slot in script.held if slot < count]
    while script.held:
        script.free(chosen_held(script, chance, order))
    script.held = rest
    for size in (250, 190, 100, 60, 128):
        script.allocate(chance.choice(script.empty_slots(256)), size)
    allocate_until_refused(script, 256)
    allocate_until_refused(script, 64)
    script.relief()
    allocate_until_refused(script, 250)
    return script


# Leaves pile 3's boundary tag empty, and behind the cursor of its bump no room for a large size.
NO_BUMP = "+1:8160 +2:1500 +3:257 -2 +4:1500 -4 +5:700 -5 -1"


def add_large_side(traces: Traces) -> None:
    """Pile 3 above its threshold: quota, fallback, affix, boundary tag and bump."""
    cases = {
        "threshold": "+1:256 +2:257 +3:255 +4:258",
        "whole-chunk": "+1:8160 +2:257 -1 +3:8160",
        "rest-of-8": "+1:8152 -1 +2:8152",
        "rest-of-16": "+1:8144 -1 +2:8144",
        "rest-of-24": "+1:8136 -1 +2:8136",
        "rest-of-24-serves-none": "+1:8136 +2:257 +3:3800 +4:257",
        "rest-between": "+1:1000 +2:1000 +3:1000 -2 +4:976 -4 +5:984 -5 +6:992 -6 +7:968",
        "join-behind": "+1:2000 +2:2000 +3:2000 +4:1000 -3 -2 +5:4032 +6:400",
        "join-before": "+1:2000 +2:2000 +3:2000 +4:1000 -2 -3 +5:4032 +6:400",
        "join-both": "+1:1500 +2:1500 +3:1500 +4:1500 +5:1500 -2 -4 -3 +6:4564 -1 -5 -6 +7:8160",
        "join-to-the-end": "+1:3000 +2:3000 -2 +3:5000 -1 -3 +4:8160",
        "join-none": "+1:1500 +2:1500 +3:1500 +4:1500 +5:1500 -1 -3 +6:2000 +7:3000 +8:1600",
        "lowest-not-best": f"{NO_BUMP} +10:1000 +11:257 +12:700 +13:257 +14:5800 -10 -12 +15:700 +16:1000",
        "lowest-not-worst": f"{NO_BUMP} +10:700 +11:257 +12:1000 +13:257 +14:5800 -10 -12 +15:700 +16:1000",
        "lowest-chunk": "+1:900 +2:400 +3:600 +4:400 +5:5000 -1 -3 +6:600 +7:600 +8:300 -2 -4 +9:800",
        "to-the-bump": "+1:8000 +2:1000 +3:900 -2 +4:1000 -3 -4 +5:1800",
        "bump-exact": "+1:5000 +2:4088 -2 +3:4089 +4:4000",
        "bump-keeps-ended": "+1:7000 +2:1400 +3:1400 -2 +4:1400 -4 +5:1400 -3 -5 +6:1400",
        "bump-starts-again": "+1:8000 +2:1900 -2 +3:1900 -3 +4:1900 -4 +5:1900",
        "quota-exact": "+1:8160 +2:1000 +3:840 +4:257",
        "quota-passed-by-8": "+1:8160 +2:1000 +3:841 +4:840",
        "quota-after-free": "+1:8160 +2:1840 +3:257 -2 +4:1848 +5:1840",
        "quota-counts-lengths": "+1:8152 +2:1841 +3:1833",
        "quota-whole-chunk": "+1:8000 +2:1848 -1 +3:8152 +4:8136",
        "quota-before-full": "+1:8160 +2:4088 +3:4089 +4:1841",
        "full-before-quota": "+1:8160 +2:1800 +3:4089 +4:2280 +5:2281",
        "quota-not-for-small": "+1:8160 +2:1840 +3:256 +4:256 +5:257",
        "too-large-for-affix": "+1:32752 +2:32753 +3:32768 +4:32769",
        "many-then-one": in_turn("+", 40, ":260")
        + " "
        + " ".join(f"-{slot}" for slot in range(0, 40, 2))
        + " +100:500 "
        + " ".join(f"-{slot}" for slot in range(1, 40, 2))
        + " +101:8160 +102:4088",
        "filled-between": "+1:300 +2:300 +3:300 2=1 1=255 3=90 -2 1=0 3=0 +4:310 -1 +5:620 -3 +6:300",
        "relief-changes-nothing": "+1:3000 +2:3000 -1 ~ +3:3000 ~ +4:1000",
        "both-sides-full": in_turn("+", 33, ":256") + " +40:8160 +41:1840 +42:257 +43:5000",
    }
    for name, calls in cases.items():
        traces.add(f"pile-3-large-{name}", scripted(3, calls))


# Damaged traces.


def good_trace(number: int, frames: int, name: str) -> bytes:
    script = Script(number)
    work(script, chance_for(name), frames - 1, PROFILES["any"])
    return script.trace()


def add_wrong_lengths(traces: Traces) -> None:
    sample = good_trace(1, 20, "length-sample")
    for length in (*range(8), 11, 13, 17, 59, 61, 119):
        traces.add(f"length-{length}", sample[:length])
        traces.add(f"length-{length}-of-ff", b"\xff" * length)
    for number in PILES:
        longest = good_trace(number, MOST_FRAMES, f"length-longest-{number}")
        relief = Frame(RELIEF, 0, 0).written()
        for length in (LONGEST_TRACE - 6, LONGEST_TRACE - 1, LONGEST_TRACE, LONGEST_TRACE + 1, LONGEST_TRACE + 6):
            traces.add(f"length-{length}-pile-{number}", (longest + relief)[:length])
    # Lengths that would pass if they were cut to 15, 16 or 17 bits.
    for length in (32_768, 32_774, 32_778, 65_532, 65_536, 65_542, 98_298, 131_078):
        traces.add(f"length-{length}", Frame(HEAD, 0, 1).written() + relief * (length // 6 - 1) + relief[: length % 6])


def add_wrong_kinds(traces: Traces) -> None:
    sample = good_trace(2, 20, "kind-sample")
    for kind in (1, 2, 3, 4, 5, 6, 127, 128, 255):
        traces.add(f"kind-{kind}-first", joined((kind, 0, 1)))
    for place in (1, 2, 9, 19):
        for kind in (0, 5, 6, 16, 127, 128, 255):
            traces.add(f"kind-{kind}-at-{place}", with_byte(sample, place * FRAME_LENGTH, kind))
    traces.add("kind-second-head", joined((HEAD, 0, 2), (ALLOCATE, 1, 1), (HEAD, 0, 2), (FREE, 1, 0)))


def with_byte(trace: bytes, at: int, byte: int) -> bytes:
    return trace[:at] + bytes([byte]) + trace[at + 1 :]


def add_wrong_fields(traces: Traces) -> None:
    head, block = (HEAD, 0, 3), (ALLOCATE, 1, 100)
    for slot in (1, 128, 255):
        traces.add(f"field-head-id-{slot}", joined((HEAD, slot, 3)))
        traces.add(f"field-head-id-{slot}-pile-4", joined((HEAD, slot, 4)))
        traces.add(f"field-relief-id-{slot}", joined(head, block, (RELIEF, slot, 0)))
    for number in (1, 255, 256, 65_536, 2**24, BIGGEST):
        traces.add(f"field-free-number-{number}", joined(head, block, (FREE, 1, number)))
        traces.add(f"field-relief-number-{number}", joined(head, block, (RELIEF, 0, number)))
        traces.add(f"field-fill-number-{number}", joined(head, block, (FILL, 1, number)))
    traces.add("field-fill-empty-256", joined(head, (FILL, 1, 256)))
    traces.add("field-free-empty-number", joined(head, (FREE, 1, 1)))


def add_wrong_piles(traces: Traces) -> None:
    for number in (0, 4, 5, 255, 256, 257, 258, 259, 65_537, 2**24 + 1, 2**24, 2 * 2**24, 2**31 + 1, BIGGEST):
        traces.add(f"pile-number-{number}", joined((HEAD, 0, number), (ALLOCATE, 1, 1)))


def add_two_damages(traces: Traces) -> None:
    """The first test that fails names the cause."""
    head, block = (HEAD, 0, 1), (ALLOCATE, 1, 1)
    kind, field = (5, 0, 0), (FREE, 1, 1)
    cases = {
        "kind-and-field": [head, (9, 9, 9)],
        "kind-and-field-first": [(RELIEF, 1, 1)],
        "kind-and-pile-first": [(5, 0, 4)],
        "head-later-with-id": [head, (HEAD, 1, 9)],
        "field-and-pile": [(HEAD, 2, 0)],
        "pile-then-kind": [(HEAD, 0, 0), kind],
        "pile-then-field": [(HEAD, 0, 4), field],
        "head-field-then-kind": [(HEAD, 7, 1), kind],
        "field-then-kind": [head, block, field, kind],
        "kind-then-field": [head, block, kind, field],
        "field-then-field": [head, block, (FILL, 1, 256), block, field],
        "kind-then-kind": [head, block, block, (HEAD, 0, 1), kind],
    }
    for name, frames in cases.items():
        traces.add(f"two-{name}", joined(*frames))
        traces.add(f"two-{name}-and-length", joined(*frames) + b"\x00")


def add_damaged_longest(traces: Traces) -> None:
    sample = good_trace(3, MOST_FRAMES, "damaged-longest")
    last = LONGEST_TRACE - FRAME_LENGTH
    traces.add("damaged-longest-kind", with_byte(sample, last, 5))
    traces.add("damaged-longest-head", sample[:last] + Frame(HEAD, 0, 3).written())
    traces.add("damaged-longest-field", sample[:last] + Frame(RELIEF, 0, 1).written())
    traces.add("damaged-longest-at-256", with_byte(sample, 256 * FRAME_LENGTH, 99))
    traces.add("damaged-at-258", joined((HEAD, 0, 1), *[(RELIEF, 0, 0)] * 257, (RELIEF, 0, 1)))


def add_changed_bytes(traces: Traces) -> None:
    """Good traces with one byte changed: some are damaged, some only mean something else."""
    for index in range(60):
        name = f"changed-byte-{index}"
        chance = chance_for(name)
        trace = good_trace(index % 3 + 1, chance.randint(2, 30), name)
        traces.add(name, with_byte(trace, chance.randrange(len(trace)), chance.choice([0, 1, 2, 3, 4, 5, 255])))


GROUPS = (
    add_wrong_lengths,
    add_wrong_kinds,
    add_wrong_fields,
    add_wrong_piles,
    add_two_damages,
    add_damaged_longest,
    add_changed_bytes,
    add_slots,
    add_sizes,
    add_full,
    add_exact,
    add_bump,
    add_free_list,
    add_large_side,
    add_random_work,
    add_longest,
)


def all_traces() -> Traces:
    traces = Traces()
    for add_group in GROUPS:
        add_group(traces)
    return traces


# Hex text.

COMMENTS = ("relief", "000000000004", "frame of a meter", "0102", "free # and again", "ABCDEF abcdef")


def hex_text(name: str, trace: bytes) -> str:
    """A frame a line in mixed case, with comments and blank lines between and comments behind."""
    chance = chance_for(f"hex {name}")
    rows: list[str] = []
    for at in range(0, len(trace), FRAME_LENGTH):
        if chance.random() < 0.1:
            rows.append("")
        if chance.random() < 0.1:
            rows.append(f"# {chance.choice(COMMENTS)}")
        digits = trace[at : at + FRAME_LENGTH].hex()
        row = "".join(chance.choice([digit, digit.upper()]) for digit in digits)
        if chance.random() < 0.1:
            row += f" # {chance.choice(COMMENTS)}"
        rows.append(row)
    rows.append("# end")
    return "".join(row + "\n" for row in rows)


# The hundred vectors of the gate.

VECTORS = """
length-0 length-1 length-5-of-ff length-6-of-ff length-7
length-32767-pile-2 length-32772-pile-3
pile-1-longest-any pile-2-longest-any pile-3-longest-any

kind-1-first kind-4-first kind-0-at-1 kind-5-at-2 kind-255-at-19
kind-second-head damaged-at-258

field-head-id-1 field-head-id-255-pile-4 field-relief-id-1 field-relief-number-1
field-relief-number-4294967295 field-free-number-1 field-free-number-16777216
field-fill-number-255 field-fill-number-256 field-fill-number-4294967295

pile-number-0 pile-number-4 pile-number-257 pile-number-16777216 pile-number-4294967295

two-kind-and-field two-head-later-with-id two-field-and-pile
two-pile-then-kind two-field-then-kind two-kind-then-field two-field-then-kind-and-length

pile-1-head-alone pile-2-head-alone pile-3-relief-alone
pile-1-free-empty pile-2-fill-empty pile-3-free-twice
pile-1-allocate-twice pile-2-taken-too-large pile-3-taken-zero pile-3-refused-then-free
pile-2-all-ids-64 pile-1-every-filling pile-3-every-filling

pile-1-size-32769 pile-1-size-0 pile-2-size-0 pile-2-size-8192 pile-2-size-8193
pile-3-size-0 pile-3-size-8160 pile-3-size-8161 pile-3-size-32769
pile-1-edges-shuffled pile-2-edges-shuffled pile-3-edges-shuffled

pile-2-full-480-random pile-3-full-256-random pile-3-full-1000-fifo
pile-1-exact-248-1 pile-2-exact-256-1 pile-3-exact-8-1 pile-3-exact-256-1

pile-1-bump-one-too-many pile-1-bump-last-eight pile-1-bump-cursor-stays pile-1-bump-cursor-returns

pile-2-list-newest-fits pile-2-list-held-hides-space
pile-2-list-rounded-up pile-2-list-place-is-rounded pile-2-list-place-of-two-roundings
pile-2-list-sixteenth-held pile-2-list-seventeenth-not-held pile-2-held-33-random pile-3-held-17-lifo

pile-3-large-rest-of-16 pile-3-large-rest-of-24 pile-3-large-rest-between
pile-3-large-join-both pile-3-large-lowest-not-best pile-3-large-lowest-not-worst
pile-3-large-bump-keeps-ended pile-3-large-quota-exact pile-3-large-quota-passed-by-8
pile-3-large-quota-whole-chunk pile-3-large-full-before-quota pile-3-large-both-sides-full pile-3-large-many-then-one

pile-1-work-any-150 pile-2-work-any-150 pile-3-work-any-150
""".split()

MOST_VECTOR_BYTES = 400_000


# Every refusal that a frame can meet on a pile: cause, kind and down.
REACHABLE = {
    1: {(1, 1, 0), (2, 1, 0), (5, 1, 0), (21, 0, 0), (22, 0, 0)},
    2: {(1, 6, 0), (2, 6, 0), (5, 2, 2), (21, 0, 0), (22, 0, 0)},
    3: {(1, 8, 0), (2, 8, 0), (5, 2, 2), (5, 1, 3), (7, 7, 1), (21, 0, 0), (22, 0, 0)},
}


class Report:
    """What a vector's output shows, read back from its lines."""

    def __init__(self, out: bytes) -> None:
        rows = [bytes.fromhex(row) for row in out.decode().splitlines()]
        self.lines = {row[0] for row in rows}
        self.kinds = {row[1] for row in rows if row[0] == 0x12}
        head, held, last = rows[0], rows[min(1, len(rows) - 1)], rows[-1]
        self.pile = head[1] if head[0] == 0x10 else None
        self.refused_trace = head[1] if head[0] == 0x1F else None
        self.ends_at_peak = held[1:7] == held[7:13]
        self.first_refused = (last[5], last[6], last[7]) if last[0] == 0x13 else None


def demand(holds: bool, what: str) -> None:
    if not holds:
        raise SystemExit(f"the vectors lack {what}")


def check_vectors(vectors: dict[str, bytes]) -> None:
    """Every line, cause and kind that the program can print is among the hundred."""
    reports = [Report(output(trace)) for trace in vectors.values()]
    demand(len(vectors) == 100, "the number of one hundred")
    demand({0x10, 0x11, 0x12, 0x13, 0x1F} == set().union(*(r.lines for r in reports)), "a line")
    damages = {Cause.TRACE_LENGTH, Cause.FRAME_KIND, Cause.FRAME_FIELD, Cause.PILE_NUMBER}
    demand(damages <= {r.refused_trace for r in reports}, "a cause that refuses a trace")
    for number, reachable in REACHABLE.items():
        mine = [r for r in reports if r.pile == number]
        first = {r.first_refused for r in mine} - {None}
        demand(first == reachable, f"a refusal of pile {number}")
        kinds = {kind for _, kind, _ in reachable}
        demand(set().union(*(r.kinds for r in mine)) == kinds, f"a kind of pile {number}")
        demand(any(r.kinds == kinds for r in mine), f"all kinds of pile {number} in one report")
        demand(any(not r.ends_at_peak for r in mine), f"a peak of pile {number} before the end")
        demand(any(r.first_refused is None for r in mine), f"a report of pile {number} without refusals")
    lengths = {len(trace) for trace in vectors.values()}
    demand({0, LONGEST_TRACE, LONGEST_TRACE + 1, LONGEST_TRACE + 6} <= lengths, "a length")


# Writing.


def write_all(folder: Path) -> None:
    folder.mkdir(parents=True, exist_ok=True)
    for name, trace in all_traces().items():
        (folder / f"{name}.trace").write_bytes(trace)
        (folder / f"{name}.out").write_bytes(output(trace))
        if len(trace) % FRAME_LENGTH == 0 and len(trace) <= LONGEST_HEX:
            (folder / f"{name}.hex").write_text(hex_text(name, trace))


def write_vectors(folder: Path) -> None:
    traces = all_traces()
    vectors = {name: traces[name] for name in VECTORS}
    check_vectors(vectors)
    stdin = "".join((trace.hex() or "-") + "\n" for trace in vectors.values()).encode()
    demand(len(stdin) < MOST_VECTOR_BYTES, "shortness")
    folder.mkdir(parents=True, exist_ok=True)
    (folder / "stdin").write_bytes(stdin)
    (folder / "stdout").write_bytes(b"".join(output(trace) + b"--\n" for trace in vectors.values()))


def main(arguments: list[str]) -> int:
    if arguments == ["--list"]:
        for name, trace in all_traces().items():
            print(name, len(trace))
    elif len(arguments) == 2 and arguments[0] == "--vectors":
        write_vectors(Path(arguments[1]))
    elif len(arguments) == 1 and not arguments[0].startswith("-"):
        write_all(Path(arguments[0]))
    else:
        print(__doc__, file=sys.stderr)
        return 2
    return 0


if __name__ == "__main__":
    sys.exit(main(sys.argv[1:]))
