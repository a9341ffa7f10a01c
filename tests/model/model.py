#!/usr/bin/env python3
"""A model of docs/RULES.md: heaps, layers, piles, traces, replay and report.

It is written from the rules alone and never from the program, in the plainest
way, so that the two can be compared. Heaps are lists of blocks, cells or chunks
over numbers. Headers, tags and maps are not kept in bytes, so broken ones do not
occur here; the bytes of blocks are kept, as the rules name them.

    model.py < TRACE         prints what the program prints for a raw trace
    model.py --hex < TEXT    the same, from hex text: a frame a line, # comments
    model.py --check         tries the worked cases of the rules
"""

from __future__ import annotations

import sys
from enum import IntEnum
from typing import Callable, NamedTuple, Union


class Cause(IntEnum):
    ZERO = 1
    TOO_LARGE = 2
    NOT_LIVE = 3
    OUTSIDE = 4
    FULL = 5
    SHUT = 6
    OVER_QUOTA = 7
    TRACE_LENGTH = 11
    FRAME_KIND = 12
    FRAME_FIELD = 13
    PILE_NUMBER = 14
    SLOT_TAKEN = 21
    SLOT_EMPTY = 22


class Kind(IntEnum):
    REPLAY = 0
    BUMP = 1
    BITMAP = 2
    BOUNDARY_TAG = 3
    ROUNDING = 4
    AFFIX = 5
    FREE_LIST = 6
    QUOTA = 7
    SEGREGATOR = 8
    FALLBACK = 9


class Block(NamedTuple):
    address: int
    length: int

    @property
    def end(self) -> int:
        return self.address + self.length

    def moved(self, distance: int) -> Block:
        return Block(self.address + distance, self.length)


class Fault(NamedTuple):
    cause: int
    kind: int
    down: int
    place: int


Answer = Union[Block, Fault]

LARGEST_SIZE = 32_768
LARGEST_SPAN = 1_048_576
MOST_USED_LENGTH = 65_536
DOWN_STAYS_AT = 255


def up8(size: int) -> int:
    return (size + 7) // 8 * 8


# Section 2: what a heap is.


class Heap:
    """The calls and their tests, which are the same on every heap.

    What a heap does once the tests have passed is said by its sort, in the
    methods of the first group.
    """

    kind: Kind
    largest = LARGEST_SIZE

    def span(self) -> int:
        raise NotImplementedError

    def live(self) -> list[Block]:
        raise NotImplementedError

    def look(self, size: int) -> Answer:
        """The offer for a size that passed the tests."""
        raise NotImplementedError

    def grant(self, size: int) -> Answer:
        """The same, and a block becomes live with all its bytes 0."""
        raise NotImplementedError

    def end(self, block: Block) -> None:
        """Ends a live block."""
        raise NotImplementedError

    def write(self, address: int, count: int, byte: int) -> None:
        """Sets bytes that lie in one live block."""
        raise NotImplementedError

    def read(self, address: int) -> int:
        """The byte at a covered address."""
        raise NotImplementedError

    def relief(self) -> None:
        raise NotImplementedError

    def offer(self, size: int) -> Answer:
        return self.size_fault(size) or self.look(size)

    def allocate(self, size: int) -> Answer:
        return self.size_fault(size) or self.grant(size)

    def free(self, address: int) -> Fault | None:
        block = self.find(address)
        if block is None or block.address != address:
            return self.own_fault(Cause.NOT_LIVE, address)
        self.end(block)
        return None

    def fill(self, address: int, count: int, byte: int) -> Fault | None:
        if count == 0:
            return self.own_fault(Cause.ZERO, address)
        block = self.find(address)
        if block is None or address + count > block.end:
            return self.own_fault(Cause.OUTSIDE, address)
        self.write(address, count, byte)
        return None

    def get(self, address: int) -> int | Fault:
        if self.find(address) is None:
            return self.own_fault(Cause.OUTSIDE, address)
        return self.read(address)

    def find(self, address: int) -> Block | None:
        for block in self.live():
            if block.address <= address < block.end:
                return block
        return None

    def size_fault(self, size: int) -> Fault | None:
        if size == 0:
            return self.own_fault(Cause.ZERO, 0)
        if size > self.largest:
            return self.own_fault(Cause.TOO_LARGE, size)
        return None

    def own_fault(self, cause: Cause, place: int) -> Fault:
        return Fault(cause, self.kind, 0, place)


# Section 4: the three bottoms.


class Bottom(Heap):
    """A heap over a region of a given length."""

    def __init__(self, region_length: int) -> None:
        self.used_length = min(region_length, MOST_USED_LENGTH)
        self.bytes = bytearray(self.span())

    def take(self, block: Block) -> None:
        """Makes an offered block live."""
        raise NotImplementedError

    def grant(self, size: int) -> Answer:
        answer = self.look(size)
        if isinstance(answer, Block):
            self.take(answer)
            self.write(answer.address, answer.length, 0)
        return answer

    def write(self, address: int, count: int, byte: int) -> None:
        self.bytes[address : address + count] = bytes([byte]) * count

    def read(self, address: int) -> int:
        return self.bytes[address]

    def relief(self) -> None:
        pass


class Bump(Bottom):
    kind = Kind.BUMP

    def __init__(self, region_length: int) -> None:
        super().__init__(region_length)
        self.cursor = 0
        self.blocks: list[Block] = []

    def span(self) -> int:
        return self.used_length // 8 * 8

    def live(self) -> list[Block]:
        return list(self.blocks)

    def look(self, size: int) -> Answer:
        block = Block(self.cursor + 8, up8(size))
        if block.end > self.span():
            return self.own_fault(Cause.FULL, size)
        return block

    def take(self, block: Block) -> None:
        self.blocks.append(block)
        self.cursor = block.end

    def end(self, block: Block) -> None:
        self.blocks.remove(block)
        if not self.blocks:
            self.cursor = 0


class Bitmap(Bottom):
    kind = Kind.BITMAP
    CELL = 64

    def __init__(self, region_length: int) -> None:
        super().__init__(region_length)
        cells = self.span() // self.CELL
        self.used = [False] * cells
        self.first = [False] * cells

    def span(self) -> int:
        return self.used_length // self.CELL * self.CELL

    def live(self) -> list[Block]:
        blocks: list[Block] = []
        for cell, used in enumerate(self.used):
            if self.first[cell]:
                blocks.append(Block(cell * self.CELL, self.CELL))
            elif used:
                address, length = blocks[-1]
                blocks[-1] = Block(address, length + self.CELL)
        return blocks

    def look(self, size: int) -> Answer:
        wanted = (size + self.CELL - 1) // self.CELL
        run = 0
        for cell, used in enumerate(self.used):
            run = 0 if used else run + 1
            if run == wanted:
                lowest = cell + 1 - wanted
                return Block(lowest * self.CELL, wanted * self.CELL)
        return self.own_fault(Cause.FULL, size)

    def take(self, block: Block) -> None:
        self.first[block.address // self.CELL] = True
        self.mark(block, True)

    def end(self, block: Block) -> None:
        self.first[block.address // self.CELL] = False
        self.mark(block, False)

    def mark(self, block: Block, used: bool) -> None:
        for cell in range(block.address // self.CELL, block.end // self.CELL):
            self.used[cell] = used


class Chunk(NamedTuple):
    address: int
    length: int
    is_live: bool

    def block(self) -> Block:
        return Block(self.address + 8, self.length - 16)


class BoundaryTag(Bottom):
    kind = Kind.BOUNDARY_TAG
    LEAST_CHUNK = 24

    def __init__(self, region_length: int) -> None:
        super().__init__(region_length)
        self.chunks: list[Chunk] = []
        if self.span() > 0:
            self.chunks.append(Chunk(0, self.span(), False))

    def span(self) -> int:
        span = self.used_length // 8 * 8
        return 0 if span < self.LEAST_CHUNK else span

    def live(self) -> list[Block]:
        return [chunk.block() for chunk in self.chunks if chunk.is_live]

    def look(self, size: int) -> Answer:
        wanted = up8(size) + 16
        for chunk in self.chunks:
            if not chunk.is_live and chunk.length >= wanted:
                splits = chunk.length - wanted >= self.LEAST_CHUNK
                length = wanted if splits else chunk.length
                return Chunk(chunk.address, length, True).block()
        return self.own_fault(Cause.FULL, size)

    def take(self, block: Block) -> None:
        index = self.index_of(block)
        address, length, _ = self.chunks[index]
        granted = block.length + 16
        parts = [Chunk(address, granted, True)]
        if granted < length:
            parts.append(Chunk(address + granted, length - granted, False))
        self.chunks[index : index + 1] = parts

    def end(self, block: Block) -> None:
        index = self.index_of(block)
        self.chunks[index] = self.chunks[index]._replace(is_live=False)
        self.join_with_next(index)
        self.join_with_next(index - 1)

    def join_with_next(self, index: int) -> None:
        if index < 0 or index + 1 >= len(self.chunks):
            return
        low, high = self.chunks[index], self.chunks[index + 1]
        if not low.is_live and not high.is_live:
            self.chunks[index : index + 2] = [Chunk(low.address, low.length + high.length, False)]

    def index_of(self, block: Block) -> int:
        addresses = [chunk.address for chunk in self.chunks]
        return addresses.index(block.address - 8)


# Section 5: roundings.


class Rounding(NamedTuple):
    round: Callable[[int], int]
    largest: int

    def of(self, size: int) -> int:
        return self.round(size) if 1 <= size <= self.largest else 0


def least_power(size: int) -> int:
    power = 8
    while power < size:
        power *= 2
    return power


GRAIN = Rounding(up8, 8_192)
POWER = Rounding(least_power, 32_768)


# Section 6: the six layers.


def handed_up(answer: Answer) -> Answer:
    """What a layer makes of an answer to an allocate or an offer below."""
    if isinstance(answer, Fault):
        return answer._replace(down=min(answer.down + 1, DOWN_STAYS_AT))
    return answer


def done(fault: Fault | None) -> None:
    """A layer tests free and fill by its own blocks, so below they are done."""
    if fault is not None:
        raise AssertionError(f"a call that a layer handed down was refused: {fault}")


class Layer(Heap):
    """A layer over one heap; all that it does not change is the heap's below."""

    def __init__(self, below: Heap) -> None:
        self.below = below

    def span(self) -> int:
        return self.below.span()

    def live(self) -> list[Block]:
        return self.below.live()

    def look(self, size: int) -> Answer:
        return handed_up(self.below.offer(size))

    def grant(self, size: int) -> Answer:
        return handed_up(self.below.allocate(size))

    def end(self, block: Block) -> None:
        done(self.below.free(block.address))

    def write(self, address: int, count: int, byte: int) -> None:
        done(self.below.fill(address, count, byte))

    def read(self, address: int) -> int:
        byte = self.below.get(address)
        assert isinstance(byte, int)
        return byte

    def relief(self) -> None:
        self.below.relief()


class RoundingLayer(Layer):
    kind = Kind.ROUNDING

    def __init__(self, rounding: Rounding, below: Heap) -> None:
        super().__init__(below)
        self.rounding = rounding
        self.largest = rounding.largest

    def look(self, size: int) -> Answer:
        return super().look(self.rounding.of(size))

    def grant(self, size: int) -> Answer:
        return super().grant(self.rounding.of(size))


class Affix(Layer):
    kind = Kind.AFFIX
    MARK = 0x5A

    def live(self) -> list[Block]:
        return [self.above(block) for block in self.below.live() if block.length >= 24]

    def look(self, size: int) -> Answer:
        answer = super().look(size + 16)
        return self.above(answer) if isinstance(answer, Block) else answer

    def grant(self, size: int) -> Answer:
        answer = super().grant(size + 16)
        if isinstance(answer, Fault):
            return answer
        done(self.below.fill(answer.address, 8, self.MARK))
        done(self.below.fill(answer.end - 8, 8, self.MARK))
        return self.above(answer)

    def end(self, block: Block) -> None:
        done(self.below.free(block.address - 8))

    def whole(self, address: int) -> bool:
        block = self.find(address)
        if block is None or block.address != address:
            return False
        marks = [*range(address - 8, address), *range(block.end, block.end + 8)]
        return all(self.below.get(mark) == self.MARK for mark in marks)

    @staticmethod
    def above(block: Block) -> Block:
        return Block(block.address + 8, block.length - 16)


class FreeList(Layer):
    kind = Kind.FREE_LIST
    MOST_HELD = 16

    def __init__(self, rounding: Rounding, below: Heap) -> None:
        super().__init__(below)
        self.rounding = rounding
        self.largest = rounding.largest
        self.held: list[int] = []  # addresses, oldest first

    def live(self) -> list[Block]:
        return [block for block in self.below.live() if block.address not in self.held]

    def look(self, size: int) -> Answer:
        rounded = self.rounding.of(size)
        return self.newest_held(rounded) or super().look(rounded)

    def grant(self, size: int) -> Answer:
        rounded = self.rounding.of(size)
        block = self.newest_held(rounded)
        if block is not None:
            self.held.remove(block.address)
            done(self.below.fill(block.address, block.length, 0))
            return block
        answer = super().grant(rounded)
        if isinstance(answer, Block) and answer.address in self.held:
            self.held.remove(answer.address)
        return answer

    def end(self, block: Block) -> None:
        if len(self.held) < self.MOST_HELD:
            self.held.append(block.address)
        else:
            super().end(block)

    def relief(self) -> None:
        for address in self.held:
            done(self.below.free(address))
        self.held.clear()
        super().relief()

    def newest_held(self, least_length: int) -> Block | None:
        begins = {block.address: block for block in self.below.live()}
        for address in reversed(self.held):
            block = begins.get(address)
            if block is not None and block.length >= least_length:
                return block
        return None


class Quota(Layer):
    kind = Kind.QUOTA

    def __init__(self, limit: int, below: Heap) -> None:
        super().__init__(below)
        self.limit = limit
        self.account = 0

    def look(self, size: int) -> Answer:
        answer = super().look(size)
        if isinstance(answer, Block) and self.account + answer.length > self.limit:
            return self.own_fault(Cause.OVER_QUOTA, size)
        return answer

    def grant(self, size: int) -> Answer:
        answer = self.look(size)
        if isinstance(answer, Block):
            super().grant(size)
            self.account += answer.length
        return answer

    def end(self, block: Block) -> None:
        super().end(block)
        self.account = max(0, self.account - block.length)


class Pair(Heap):
    """What segregator and fallback share."""

    def __init__(self, first: Heap, second: Heap) -> None:
        self.first = first
        self.second = second
        self.border = first.span()
        self.is_shut = first.span() + second.span() > LARGEST_SPAN

    def span(self) -> int:
        return self.border if self.is_shut else self.border + self.second.span()

    def live(self) -> list[Block]:
        if self.is_shut:
            return self.first.live()
        return self.first.live() + [block.moved(self.border) for block in self.second.live()]

    def look_second(self, size: int) -> Answer:
        return self.shown(size, self.second.offer)

    def grant_second(self, size: int) -> Answer:
        return self.shown(size, self.second.allocate)

    def shown(self, size: int, call: Callable[[int], Answer]) -> Answer:
        if self.is_shut:
            return self.own_fault(Cause.SHUT, size)
        answer = handed_up(call(size))
        return answer.moved(self.border) if isinstance(answer, Block) else answer

    def share(self, address: int) -> tuple[Heap, int]:
        """The heap in whose share an address lies, and the address there."""
        if address < self.border:
            return self.first, address
        return self.second, address - self.border

    def end(self, block: Block) -> None:
        heap, address = self.share(block.address)
        done(heap.free(address))

    def write(self, address: int, count: int, byte: int) -> None:
        heap, inner = self.share(address)
        done(heap.fill(inner, count, byte))

    def read(self, address: int) -> int:
        heap, inner = self.share(address)
        byte = heap.get(inner)
        assert isinstance(byte, int)
        return byte

    def relief(self) -> None:
        self.first.relief()
        self.second.relief()


class Segregator(Pair):
    kind = Kind.SEGREGATOR

    def __init__(self, threshold: int, first: Heap, second: Heap) -> None:
        super().__init__(first, second)
        self.threshold = threshold

    def look(self, size: int) -> Answer:
        if size <= self.threshold:
            return handed_up(self.first.offer(size))
        return self.look_second(size)

    def grant(self, size: int) -> Answer:
        if size <= self.threshold:
            return handed_up(self.first.allocate(size))
        return self.grant_second(size)


class Fallback(Pair):
    kind = Kind.FALLBACK

    def look(self, size: int) -> Answer:
        answer = self.first.offer(size)
        return answer if isinstance(answer, Block) else self.look_second(size)

    def grant(self, size: int) -> Answer:
        answer = self.first.allocate(size)
        return answer if isinstance(answer, Block) else self.grant_second(size)


# Section 9.5: the piles.


def pile(number: int) -> Heap:
    if number == 1:
        return Bump(16_384)
    if number == 2:
        return FreeList(GRAIN, RoundingLayer(POWER, Bitmap(16_384)))
    small = FreeList(POWER, Bitmap(8_192))
    large = Quota(10_000, Fallback(Affix(BoundaryTag(8_192)), Bump(4_096)))
    return Segregator(256, small, large)


# Section 8: frames and the test of a trace.

FRAME_LENGTH = 6
LONGEST_TRACE = 32_766

HEAD, ALLOCATE, FREE, FILL, RELIEF = range(5)


class Frame(NamedTuple):
    kind: int
    id: int
    number: int

    def written(self) -> bytes:
        return bytes([self.kind, self.id]) + self.number.to_bytes(4, "big")


def read_frames(trace: bytes) -> list[Frame]:
    return [
        Frame(trace[at], trace[at + 1], int.from_bytes(trace[at + 2 : at + FRAME_LENGTH], "big"))
        for at in range(0, len(trace), FRAME_LENGTH)
    ]


def trace_fault(trace: bytes) -> Fault | None:
    if len(trace) == 0 or len(trace) > LONGEST_TRACE or len(trace) % FRAME_LENGTH != 0:
        return Fault(Cause.TRACE_LENGTH, Kind.REPLAY, 0, 0)
    for place, frame in enumerate(read_frames(trace)):
        cause = frame_cause(place, frame)
        if cause is not None:
            return Fault(cause, Kind.REPLAY, 0, place)
    return None


def frame_cause(place: int, frame: Frame) -> Cause | None:
    if frame.kind > RELIEF or (frame.kind == HEAD) != (place == 0):
        return Cause.FRAME_KIND
    if frame.kind in (HEAD, RELIEF) and frame.id != 0:
        return Cause.FRAME_FIELD
    if frame.kind in (FREE, RELIEF) and frame.number != 0:
        return Cause.FRAME_FIELD
    if frame.kind == FILL and frame.number > 255:
        return Cause.FRAME_FIELD
    if frame.kind == HEAD and not 1 <= frame.number <= 3:
        return Cause.PILE_NUMBER
    return None


# Section 9: replay and report.


class Replay:
    """The slots and the counts of one run on a heap."""

    def __init__(self, heap: Heap) -> None:
        self.heap = heap
        self.slots: list[Block | None] = [None] * 256
        self.frames = 0
        self.granted = 0
        self.freed = 0
        self.refused = 0
        self.peak_blocks = 0
        self.peak_bytes = 0
        self.refused_by_kind: dict[int, int] = {}
        self.first_refused: tuple[int, Fault] | None = None

    def run(self, frame: Frame) -> Fault | None:
        """Runs the next frame behind the head."""
        self.frames += 1
        fault = self.call(frame)
        if fault is not None:
            self.count_refused(fault)
        self.peak_blocks = max(self.peak_blocks, self.held_blocks())
        self.peak_bytes = max(self.peak_bytes, self.held_bytes())
        return fault

    def call(self, frame: Frame) -> Fault | None:
        if frame.kind == ALLOCATE:
            return self.allocate(frame.id, frame.number)
        if frame.kind == FREE:
            return self.free(frame.id)
        if frame.kind == FILL:
            return self.fill(frame.id, frame.number)
        self.heap.relief()
        return None

    def allocate(self, slot: int, size: int) -> Fault | None:
        if self.slots[slot] is not None:
            return Fault(Cause.SLOT_TAKEN, Kind.REPLAY, 0, slot)
        answer = self.heap.allocate(size)
        if isinstance(answer, Fault):
            return answer
        self.slots[slot] = answer
        self.granted += 1
        return None

    def free(self, slot: int) -> Fault | None:
        block = self.slots[slot]
        if block is None:
            return Fault(Cause.SLOT_EMPTY, Kind.REPLAY, 0, slot)
        fault = self.heap.free(block.address)
        if fault is not None:
            return fault
        self.slots[slot] = None
        self.freed += 1
        return None

    def fill(self, slot: int, byte: int) -> Fault | None:
        block = self.slots[slot]
        if block is None:
            return Fault(Cause.SLOT_EMPTY, Kind.REPLAY, 0, slot)
        return self.heap.fill(block.address, block.length, byte)

    def count_refused(self, fault: Fault) -> None:
        self.refused += 1
        self.refused_by_kind[fault.kind] = self.refused_by_kind.get(fault.kind, 0) + 1
        if self.first_refused is None:
            self.first_refused = (self.frames, fault)

    def held(self) -> list[Block]:
        return [block for block in self.slots if block is not None]

    def held_blocks(self) -> int:
        return len(self.held())

    def held_bytes(self) -> int:
        return sum(block.length for block in self.held())


def line(name: int, *fields: tuple[int, int]) -> str:
    """One line of output; each field is a number and how many bytes it takes."""
    parts = [f"{name:02X}"] + [f"{number:0{2 * width}X}" for number, width in fields]
    return "".join(parts) + "\n"


def report(pile_number: int, run: Replay) -> str:
    lines = [
        line(0x10, (pile_number, 1), (run.frames, 4), (run.granted, 4), (run.freed, 4), (run.refused, 4)),
        line(0x11, (run.peak_blocks, 2), (run.peak_bytes, 4), (run.held_blocks(), 2), (run.held_bytes(), 4)),
    ]
    for kind, count in sorted(run.refused_by_kind.items()):
        lines.append(line(0x12, (kind, 1), (count, 4)))
    if run.first_refused is not None:
        place, fault = run.first_refused
        lines.append(
            line(0x13, (place, 4), (fault.cause, 1), (fault.kind, 1), (fault.down, 1), (fault.place, 4))
        )
    return "".join(lines)


def output(trace: bytes) -> bytes:
    """What the program prints on standard output for a trace."""
    fault = trace_fault(trace)
    if fault is not None:
        return line(0x1F, (fault.cause, 1), (fault.place, 4)).encode()
    head, *frames = read_frames(trace)
    run = Replay(pile(head.number))
    for frame in frames:
        run.run(frame)
    return report(head.number, run).encode()


def from_hex(text: str) -> bytes:
    """The trace in a hex text; what stands behind a # is a comment."""
    return bytes.fromhex("".join(row.split("#")[0] for row in text.splitlines()))


def main(arguments: list[str]) -> int:
    if arguments == ["--check"]:
        # Only here, because the cases are written on top of this file.
        sys.dont_write_bytecode = True
        from worked_cases import check

        return check()
    if arguments == ["--hex"]:
        trace = from_hex(sys.stdin.read())
    elif not arguments:
        trace = sys.stdin.buffer.read()
    else:
        print(__doc__, file=sys.stderr)
        return 2
    sys.stdout.buffer.write(output(trace))
    return 0


if __name__ == "__main__":
    sys.exit(main(sys.argv[1:]))
