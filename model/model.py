"""A second, independent statement of a book's rules, in plain Python, and the list of calls over it.
Answers calls from standard input, one a line; with --self-test it tries itself on cases with known answers."""

import io
import os
import re
import sys
from functools import partial
from itertools import chain, islice, takewhile
from typing import NamedTuple

# ---- The bytes of a book

HEADER = 32                          # bytes before entry 0
MIRRORS = 16                         # control bytes repeated behind the last
SLOT_LIMIT = 65_536
BOOK_TAG = b"ODHT"
VERSION = bytes([0, 0, 0, 2])
OK = ("ok",)

def total(K, V, S):
    """How many bytes a book of these sizes has."""
    return HEADER + S * (K + V) + S + MIRRORS

def slot_count(book):
    """S as the header states it, in all its 64 bits."""
    return int.from_bytes(book[16:24], "little")

def entry_offset(K, V, slot):
    """The byte offset of a slot's key; its value follows the key."""
    return HEADER + slot * (K + V)

def control_offset(K, V, S, position):
    """The byte offset of a control position; positions from S on are the mirrors."""
    return entry_offset(K, V, S) + position

def key_at(book, K, V, slot):
    """The key bytes standing in a slot, occupied or not."""
    at = entry_offset(K, V, slot)
    return book[at:at + K]

def controls_of(book, K, V):
    """The S control bytes, without the mirrors."""
    S = slot_count(book)
    at = control_offset(K, V, S, 0)
    return book[at:at + S]

def is_empty(control):
    """Whether a control byte means an empty slot."""
    return control & 0x80 != 0

def initialise(book, K, V, S, count, load):
    """Makes a lent buffer a fresh book, whatever stood in it."""
    refused = first_refusal(INITIAL_ROWS, book, K, V, S)
    if refused:
        return refused
    header = BOOK_TAG + bytes([1, K, V, HEADER]) + count.to_bytes(8, "little") + S.to_bytes(8, "little")
    header += VERSION + load.to_bytes(2, "little") + bytes(2)
    book[:] = header + bytes(S * (K + V)) + b"\xff" * (S + MIRRORS)
    return OK

# ---- Hash and groups

GROUP = 8                            # control bytes read at a time
PAIR = 16                            # slots of one step of the probe, whatever the group width
FACTOR = 0x517cc1b727220a95
WORD = 2**64 - 1

def hash_of(key):
    """The 32-bit hash of a key, taken in eights while they last, then at most one four, one two, one single."""
    state, at = 0, 0
    for size in [8] * (len(key) // 8) + [4, 2, 1]:
        if len(key) - at >= size:
            chunk = int.from_bytes(key[at:at + size], "little")
            rotated = (state << 5 | state >> 59) & WORD
            state = (rotated ^ chunk) * FACTOR & WORD
            at += size
    return state & 0xffffffff

def tag_of(key):
    """The tag of a key: the top seven bits of its hash."""
    return hash_of(key) >> 25

def start_of(key, S):
    """The slot where the search for a key starts."""
    return hash_of(key) % S

def group_starts(b, S, width=GROUP):
    """The starts of a search's groups from b, in order: pair k at b + 8k(k+1), cut into groups."""
    for n in range(S // width):
        k, within = divmod(n * width, PAIR)
        yield (b + 8 * k * (k + 1) + within) % S

def probe_order(b, S):
    """Every slot once, in the order in which a search from b comes to it."""
    for start in group_starts(b, S):
        for m in range(GROUP):
            yield (start + m) % S

def query(group, tag):
    """The positions a group reports for a tag: equal bytes, and near misses right behind a reported one."""
    reported = []
    for m, control in enumerate(group):
        if control == tag or (control == tag ^ 1 and m - 1 in reported):
            reported.append(m)
    return reported

def first_empty(group):
    """The lowest empty position of a group, or None."""
    return next((m for m, control in enumerate(group) if is_empty(control)), None)

# ---- Find, insert, walk

def search(book, K, V, key, width=GROUP):
    """Goes through the key's groups: how the search ends (match, empty, no end), the slot, the count."""
    S, tag = slot_count(book), tag_of(key)
    for count, start in enumerate(group_starts(start_of(key, S), S, width), 1):
        at = control_offset(K, V, S, start)
        group = book[at:at + width]  # runs on into the mirrors, never round to control byte 0
        for m in query(group, tag):
            slot = (start + m) % S
            if key_at(book, K, V, slot) == key:
                return "match", slot, count
        m = first_empty(group)
        if m is not None:
            return "empty", (start + m) % S, count
    return "no end", None, S // width

def find(book, K, V, key):
    """Where a key stands."""
    refused = first_refusal(BOOK_ROWS, book, K, V) or wrong_length((key, K))
    if refused:
        return refused
    end, slot, count = search(book, K, V, key)
    return ("at", slot, count) if end == "match" else ("absent", count)

def value_of(book, K, V, key):
    """The value bytes of a key, none where find has no slot."""
    answer = find(book, K, V, key)
    if answer[0] != "at":
        return b""
    at = entry_offset(K, V, answer[1]) + K
    return book[at:at + V]

def insert(book, K, V, key, value, old):
    """Writes a new pair, or a new value over the old one, which goes to the third buffer."""
    refused = first_refusal(BOOK_ROWS, book, K, V) or wrong_length((key, K), (value, V), (old, V))
    if refused:
        return refused
    end, slot, count = search(book, K, V, key)
    if end == "no end":
        return no_end(count)
    at = entry_offset(K, V, slot)
    if end == "match":
        old[:] = book[at + K:at + K + V]
        book[at + K:at + K + V] = value
        return "replaced", slot, count
    book[at:at + K + V] = key + value
    set_control(book, K, V, slot, tag_of(key))
    return "new", slot, count

def set_control(book, K, V, slot, control):
    """Sets a slot's control byte, and its mirror where it has one."""
    S = slot_count(book)
    book[control_offset(K, V, S, slot)] = control
    if slot < MIRRORS:
        book[control_offset(K, V, S, S + slot)] = control

def next_occupied(book, K, V, begin):
    """The first occupied slot at or after a number, with its control byte."""
    refused = first_refusal(BOOK_ROWS, book, K, V)
    if refused:
        return refused
    controls = controls_of(book, K, V)
    for slot in range(begin, len(controls)):
        if not is_empty(controls[slot]):
            return "slot", slot, controls[slot]
    return ("done",)

def walk_step(book, K, V, at):
    """One step of a walk whose next slot is at: the answer, and the next slot after it."""
    answer = next_occupied(book, K, V, at)
    return answer, answer[1] + 1 if answer[0] == "slot" else at

# ---- Rows

class Refusal(NamedTuple):
    """What every refused call answers; a number that its row does not give is 0."""
    row: int
    slot: int = 0
    expected: int = 0
    found: int = 0
    count: int = 0

def plain(row):
    """A refusal that gives its row only."""
    return Refusal(row)

def at_slot(row, slot):
    """A refusal that names a slot or a mirror."""
    return Refusal(row, slot=slot)

def wrong_tag(slot, expected, found):
    """Refusal 12."""
    return Refusal(12, slot=slot, expected=expected, found=found)

def no_end(count):
    """Refusal 14."""
    return Refusal(14, count=count)

def plain_row(row, applies):
    """A row that refuses, without more numbers, what its question says yes to."""
    return lambda *asked: plain(row) if applies(*asked) else None

def first_refusal(rows, *asked):
    """The refusal of the first row that applies, or None."""
    return next((refused for row in rows if (refused := row(*asked))), None)

def sizes_allowed(K, V):
    """Whether K and V are sizes a book may have."""
    return 1 <= K <= 255 and 0 <= V <= 255

def slots_allowed(S):
    """Whether S is a slot count a book may have."""
    return 16 <= S <= SLOT_LIMIT and S & (S - 1) == 0

def wrong_length(*lent):
    """Refusal 13, if one of the lent buffers has not the length beside it."""
    return plain(13) if any(len(buffer) != size for buffer, size in lent) else None

def slot_fault(book, K, V, slots):
    """Refusal 11 or 12 at the first of these slots that has either fault."""
    controls = controls_of(book, K, V)
    for slot in slots:
        at = entry_offset(K, V, slot)
        if is_empty(controls[slot]):
            if any(book[at:at + K + V]):
                return at_slot(11, slot)
        elif controls[slot] != (tag := tag_of(key_at(book, K, V, slot))):
            return wrong_tag(slot, tag, controls[slot])
    return None

# Rows are asked from the top of a list, and the first refusal ends it.
BOOK_ROWS = [
    plain_row(1, lambda book, K, V: not sizes_allowed(K, V)),
    plain_row(2, lambda book, K, V: len(book) < HEADER),
    plain_row(3, lambda book, K, V: book[0:4] != BOOK_TAG),
    plain_row(4, lambda book, K, V: book[24:28] != VERSION),
    plain_row(5, lambda book, K, V: book[4] != 1),
    plain_row(6, lambda book, K, V: book[5] != K),
    plain_row(7, lambda book, K, V: book[6] != V),
    plain_row(8, lambda book, K, V: book[7] != HEADER),
    plain_row(9, lambda book, K, V: not slots_allowed(slot_count(book))),
    plain_row(10, lambda book, K, V: len(book) != total(K, V, slot_count(book))),
]
INITIAL_ROWS = [
    plain_row(1, lambda book, K, V, S: not sizes_allowed(K, V)),
    plain_row(9, lambda book, K, V, S: not slots_allowed(S)),
    plain_row(10, lambda book, K, V, S: len(book) != total(K, V, S)),
]
OPEN_ROWS = [*BOOK_ROWS, lambda book, K, V: slot_fault(book, K, V, range(10))]

def open_book(book, K, V):
    """Opening: the header, and the first ten slots."""
    return first_refusal(OPEN_ROWS, book, K, V) or OK

# ---- The whole-book check

WINDOW = 16                          # slots of the probe order that count as one for reaching a key

def occupied_slots(controls):
    """The occupied slots, rising; the control byte alone decides."""
    return [slot for slot, control in enumerate(controls) if not is_empty(control)]

def reachable(controls, b, slot):
    """Whether, in the probe order from b, no window before the slot's own has an empty slot."""
    order = probe_order(b, len(controls))
    windows = iter(lambda: list(islice(order, WINDOW)), [])
    before = takewhile(lambda window: slot not in window, windows)
    return not any(is_empty(controls[each]) for window in before for each in window)

def mirror_fault(book, K, V):
    """Refusal 15 at the first mirror that differs from its control byte."""
    S = slot_count(book)
    at, mirror_at = control_offset(K, V, S, 0), control_offset(K, V, S, S)
    return next((at_slot(15, j) for j in range(MIRRORS) if book[at + j] != book[mirror_at + j]), None)

def twin_fault(book, K, V):
    """Refusal 16 at the first slot whose key stands in an occupied slot before it."""
    seen = set()
    for slot in occupied_slots(controls_of(book, K, V)):
        key = bytes(key_at(book, K, V, slot))
        if key in seen:
            return at_slot(16, slot)
        seen.add(key)
    return None

def reach_fault(book, K, V):
    """Refusal 17 at the first slot whose key is out of reach."""
    controls = controls_of(book, K, V)
    occupied = occupied_slots(controls)
    if len(occupied) == len(controls):
        return None                  # nothing to stop at; the probes of a full book are the longest
    for slot in occupied:
        if not reachable(controls, start_of(key_at(book, K, V, slot), len(controls)), slot):
            return at_slot(17, slot)
    return None

CHECK_ROWS = [
    *BOOK_ROWS,
    lambda book, K, V: slot_fault(book, K, V, range(slot_count(book))),
    mirror_fault,
    twin_fault,
    reach_fault,
]

def check_book(book, K, V):
    """The whole-book check."""
    return first_refusal(CHECK_ROWS, book, K, V) or OK

# ---- The list of calls

LINE_LIMIT = 131_072                 # bytes of a line, its newline not counted
BOOK_LIMIT = 524_288

class Bad(Exception):
    """A line that is no call."""

def number(limit):
    """A reader of decimal numbers up to a limit, each in its one spelling."""
    def read(field):
        if not re.fullmatch(rb"0|[1-9][0-9]{0,19}", field) or int(field) > limit:
            raise Bad
        return int(field)
    return read

def data(field):
    """Reads bytes in hex; a dash is none."""
    if field == b"-":
        return bytearray()
    if not field or len(field) % 2 or field.strip(b"0123456789abcdef"):
        raise Bad
    return bytearray.fromhex(field.decode("ascii"))

def hexed(content):
    """Bytes as the list writes them."""
    return content.hex() or "-"

def words(answer):
    """An answer in the list's words."""
    return ("no", *answer) if isinstance(answer, Refusal) else answer

def set_book(book, content):
    """The book becomes these bytes, if it may be so long."""
    if len(content) > BOOK_LIMIT:
        raise Bad
    book[:] = content
    return "ok", len(book)

def poke(book, offset, content):
    """Overwrites bytes within the book."""
    if offset + len(content) > len(book):
        raise Bad
    book[offset:offset + len(content)] = content
    return "ok", len(book)

def insert_call(book, K, V, key, value, old):
    """Inserts, and shows the third buffer as it is afterwards."""
    answer = insert(book, K, V, key, value, old)
    return *words(answer), hexed(old)

def walk_call(book, K, V, steps):
    """A new walk, up to that many steps or to where it can't go on."""
    at, seen = 0, []
    while len(seen) < steps:
        answer, at = walk_step(book, K, V, at)
        if isinstance(answer, Refusal):
            return answer
        if answer[0] == "done":
            break
        seen.append(f"{answer[1]}:{answer[2]}")
    return "walk", *seen, "next", at

def fnv(content):
    """FNV-1a over 64 bits."""
    state = 0xcbf29ce484222325
    for byte in content:
        state = (state ^ byte) * 0x100000001b3 & WORD
    return state

N64 = number(WORD)
# Each call's function, then the readers of its fields.
CALLS = {
    b"book": (set_book, data),
    b"more": (lambda book, content: set_book(book, book + content), data),
    b"fill": (lambda book, n, byte: set_book(book, bytes([byte]) * n), number(BOOK_LIMIT), number(255)),
    b"poke": (poke, N64, data),
    b"init": (initialise, N64, N64, N64, N64, number(65535)),
    b"open": (open_book, N64, N64),
    b"check": (check_book, N64, N64),
    b"find": (find, N64, N64, data),
    b"value": (lambda *asked: ("part", hexed(value_of(*asked))), N64, N64, data),
    b"insert": (insert_call, N64, N64, data, data, data),
    b"next": (next_occupied, N64, N64, N64),
    b"walk": (walk_call, N64, N64, N64),
    b"hash": (lambda book, key: ("hash", hash_of(key), tag_of(key)), data),
    b"bytes": (lambda book: (hexed(book),),),
    b"sum": (lambda book: (f"{fnv(book):016x}",),),
}

def answer_line(book, line):
    """The answer to one line; a line that was too long comes as None."""
    word, *fields = (line or b"").split(b" ")
    call, *readers = CALLS.get(word, [None])
    try:
        if call is None or len(fields) != len(readers):
            raise Bad
        answer = call(book, *[read(field) for read, field in zip(readers, fields)])
    except Bad:
        return "bad"
    return " ".join(map(str, words(answer)))

def lines(source):
    """The lines without their newlines, None for one over the limit, which is never held whole."""
    while line := source.readline(LINE_LIMIT + 1):
        if line.endswith(b"\n"):
            yield line[:-1]
        elif len(line) <= LINE_LIMIT:
            yield line               # the last one, without a newline
        else:
            while line and not line.endswith(b"\n"):
                line = source.readline(LINE_LIMIT)
            yield None

def answers(source):
    """The answers to a whole list of calls, which starts with a book of no bytes."""
    book = bytearray()
    for line in lines(source):
        yield answer_line(book, line)

# ---- The self-test

def laid(length, *pieces):
    """The hex of a book given as pieces, offset and hex, laid over zeros in turn."""
    book = bytearray(length)
    for offset, content in pieces:
        book[offset:offset + len(content) // 2] = bytes.fromhex(content)
    return book.hex()

HEAD = "4f44485401010120" + "00" * 8 + "10" + "00" * 7 + "0000000200000000"
MADE = "fill 96 170; init 1 1 16 0 0"      # 16 slots, K = V = 1: entries at 32, control bytes at 64, mirrors at 80
MADE_32 = "fill 144 170; init 1 1 32 0 0"  # 32 slots: entries at 32, control bytes at 96, mirrors at 128
FRESH = [(0, HEAD), (64, "ff" * 32)]
FIRST = [*FRESH, (42, "010a"), (69, "13"), (85, "13")]
FOUR = [*FIRST, (44, "110b"), (70, "4c"), (86, "4c"), (62, "030c"), (79, "3a"), (95, "3a"),
        (32, "130d"), (64, "73"), (80, "73")]
FOUR_INSERTS = "; ".join(f"insert 1 1 {pair} 00" for pair in ["01 0a", "11 0b", "03 0c", "13 0d"])
# The hash of a single byte x ends in the hex digit of 5x, so at S = 16 its start is 5x mod 16: the keys 00 to 0f
# have sixteen different starts and stay there, while 01, 11 .. f1 all start at 5 and fill the slots from there on.
SIXTEEN = "; ".join(f"insert 1 1 {x:02x} {x + 64:02x} 00 -> new {5 * x % 16} 1 00" for x in range(16))
FROM_5 = [f"insert 1 1 {n:x}1 00 00 -> new {(5 + n) % 16} {1 if n < 8 else 2} 00" for n in range(16)]

# Steps stand between semicolons; one with an arrow is a case. `no` and a row alone stand for that row and zeros.
SCRIPT = f"""
# desk hashes
hash 01 -> hash {0x27220a95} {0x13}; hash 03 -> hash {0x75661fbf} {0x3a}; hash 00 -> hash 0 0
hash 11 -> hash {0x9942b3e5} {0x4c}; hash 13 -> hash {0xe786c90f} {0x73}; hash - -> hash 0 0
hash 000001 -> hash {0x27220a95} {0x13}; hash 0100000000000000 -> hash {0x27220a95} {0x13}
hash 000000000000000001000000 -> hash {0x27220a95} {0x13}
# chunks: 01 as byte n of one leaves the low 32 bits of 27220a95 shifted by 8n
hash 0001 -> hash {0x220a9500} {0x11}; hash 00000001 -> hash {0x95000000} {0x4a}; hash {"00" * 7}01 -> hash 0 0
hash {"00" * 6}01 -> hash {0x27220a95} {0x13}; hash {"00" * 5}01 -> hash {0x220a9500} {0x11}
hash {"00" * 9}01 -> hash {0x220a9500} {0x11}; hash {"00" * 15}01 -> hash 0 0
hash {"00" * 16}01{"00" * 7} -> hash {0x27220a95} {0x13}
# rotation: the factor turned left by 5 is 2f9836e4e44152aa, and e44152aa times 27220a95 ends in 47d3c0f2
hash 010000 -> hash {0x47d3c0f2} {0x23}; hash 01{"00" * 15} -> hash {0x47d3c0f2} {0x23}
# .. aa xor 01 is one more, aa xor 02 two less
hash 0100000001 -> hash {0x47d3c0f2 + 0x27220a95} {0x37}
hash 0100000002 -> hash {0x47d3c0f2 - 2 * 0x27220a95 + 2**32} {0x7c}
# first book
{MADE} -> ok; bytes -> {laid(96, *FRESH)}
find 1 1 01 -> absent 1; find 1 1 00 -> absent 1; value 1 1 00 -> part -; walk 1 1 {2**64 - 1} -> walk next 0
open 1 1 -> ok; check 1 1 -> ok; insert 1 1 01 0a 55 -> new 5 1 55; bytes -> {laid(96, *FIRST)}
insert 1 1 11 0b 55 -> new 6 1 55; insert 1 1 03 0c 55 -> new 15 1 55; insert 1 1 13 0d 55 -> new 0 1 55
bytes -> {laid(96, *FOUR)}
find 1 1 01 -> at 5 1; find 1 1 11 -> at 6 1; find 1 1 03 -> at 15 1; find 1 1 13 -> at 0 1; find 1 1 02 -> absent 1
value 1 1 01 -> part 0a; value 1 1 13 -> part 0d; value 1 1 02 -> part -; value 2 1 01 -> part -
value 1 1 0101 -> part -; open 1 1 -> ok; check 1 1 -> ok
insert 1 1 11 2b 55 -> replaced 6 1 0b; bytes -> {laid(96, *FOUR, (45, "2b"))}
# iterating
next 1 1 0 -> slot 0 115; next 1 1 1 -> slot 5 19; next 1 1 5 -> slot 5 19; next 1 1 7 -> slot 15 58
next 1 1 15 -> slot 15 58; next 1 1 16 -> done; next 1 1 17 -> done; next 1 1 {2**64 - 1} -> done; next 1 2 16 -> no 7
walk 1 1 0 -> walk next 0; walk 1 1 1 -> walk 0:115 next 1; walk 1 1 3 -> walk 0:115 5:19 6:76 next 7
walk 1 1 4 -> walk 0:115 5:19 6:76 15:58 next 16; walk 1 1 99 -> walk 0:115 5:19 6:76 15:58 next 16
walk 2 1 1 -> no 6; walk 2 1 0 -> walk next 0; poke 79 80; walk 1 1 4 -> walk 0:115 5:19 6:76 next 7; next 1 1 7 -> done
# initialising
fill 96 170; init 1 1 16 {2**64 - 1} 65535 -> ok; check 1 1 -> ok
bytes -> {laid(96, *FRESH, (8, "ff" * 8), (28, "ffff"))}
fill 96 170; init 1 1 16 {0x0102030405060708} 258 -> ok
bytes -> {laid(96, *FRESH, (8, "0807060504030201"), (28, "0201"))}
fill 95 170; init 1 1 16 0 0 -> no 10; init 0 1 8 0 0 -> no 1; init 256 1 16 0 0 -> no 1; init 1 256 8 0 0 -> no 1
init 1 1 8 0 0 -> no 9; bytes -> {"aa" * 95}; fill 97 0; init 1 1 16 0 0 -> no 10; fill 31 0; init 1 1 16 0 0 -> no 10
fill 72 0; init 1 1 8 0 0 -> no 9; fill 120 0; init 1 1 24 0 0 -> no 9; fill 393264 0; init 1 1 131072 0 0 -> no 9
init 1 1 0 0 0 -> no 9; init 1 1 {2**63} 0 0 -> no 9; init {2**64 - 1} {2**64 - 1} {2**64 - 1} 0 0 -> no 1
fill 196656 0; init 1 1 65536 0 0 -> ok; find 1 1 01 -> absent 1; check 1 1 -> ok
fill 8224 0; init 255 255 16 0 0 -> ok; open 255 255 -> ok; next 255 255 0 -> done; next 256 255 0 -> no 1
# lengths
{MADE}; more 00; open 1 1 -> no 10; find 1 1 01 -> no 10; check 1 1 -> no 10; fill 95 255; poke 0 {HEAD}
open 1 1 -> no 10; next 1 1 99 -> no 10; insert 1 1 01 00 aa -> no 10 0 0 0 0 aa; book {HEAD}; open 1 1 -> no 10
book {HEAD[:62]}; open 1 1 -> no 2; find 1 1 01 -> no 2; book -; open 1 1 -> no 2
open 0 1 -> no 1; open 256 1 -> no 1; open 1 256 -> no 1; fill 32 0; open 1 1 -> no 3
# header rows: each fault stands while the one before it is mended
{MADE}; poke 0 4f444853; poke 24 00000001; open 1 1 -> no 3; poke 0 {HEAD[:8]}; poke 4 00; open 1 1 -> no 4
open 2 2 -> no 4; poke 24 02000000; open 1 1 -> no 4; poke 24 00000002; open 1 1 -> no 5; open 2 1 -> no 5
poke 4 01; open 2 2 -> no 6; open 1 2 -> no 7; poke 7 21; open 1 0 -> no 7; poke 16 08; open 1 1 -> no 8
poke 7 20; open 1 1 -> no 9; poke 16 18; open 1 1 -> no 9; poke 16 000002; open 1 1 -> no 9; check 1 1 -> no 9
poke 16 100000; poke 23 01; open 1 1 -> no 9; poke 23 00; poke 16 20; open 1 1 -> no 10; poke 16 10; open 1 1 -> ok
open 0 {2**64 - 1} -> no 1; poke 30 abcd; open 1 1 -> ok; poke 8 ff; check 1 1 -> ok
# opening, 11 and 12
{MADE}; poke 73 13; open 1 1 -> no 12 9 0 19 0; check 1 1 -> no 12 9 0 19 0; poke 73 ff13; open 1 1 -> ok
check 1 1 -> no 12 10 0 19 0; find 1 1 02 -> absent 1; next 1 1 0 -> slot 10 19; insert 1 1 0a 77 00 -> new 2 1 00
{MADE}; poke 47 01; open 1 1 -> no 11 7 0 0 0; find 1 1 07 -> absent 1; poke 67 14; open 1 1 -> no 12 3 0 20 0
find 1 1 02 -> absent 1; next 1 1 0 -> slot 3 20; poke 38 01; open 1 1 -> no 12 3 19 20 0
poke 67 13; open 1 1 -> no 11 7 0 0 0; poke 46 0500; open 1 1 -> no 11 7 0 0 0; poke 67 ff; open 1 1 -> no 11 3 0 0 0
{MADE}; poke 38 01; poke 71 13; check 1 1 -> no 11 3 0 0 0; insert 1 1 02 77 00 -> new 10 1 00
{MADE}; poke 52 01; open 1 1 -> ok; check 1 1 -> no 11 10 0 0 0
{MADE}; poke 79 01; open 1 1 -> ok; check 1 1 -> no 12 15 0 1 0
# lent lengths
{MADE}; find 1 1 - -> no 13; find 1 1 0101 -> no 13; find 2 1 01 -> no 6; insert 1 1 0101 0a 00 -> no 13 0 0 0 0 00
insert 1 1 01 - 5a -> no 13 0 0 0 0 5a; insert 1 1 01 0a 5a5a -> no 13 0 0 0 0 5a5a
insert 1 1 01 0a - -> no 13 0 0 0 0 -; insert 1 2 01 0a - -> no 7 0 0 0 0 -; bytes -> {laid(96, *FRESH)}
# sixteen keys in sixteen slots
{MADE}; {SIXTEEN}
check 1 1 -> ok; find 1 1 10 -> absent 2; find 1 1 0f -> at 11 1; insert 1 1 10 00 5a -> no 14 0 0 0 2 5a
insert 1 1 01 77 5a -> replaced 5 1 41; value 1 1 01 -> part 77; insert 1 1 10 00 - -> no 13 0 0 0 0 -
# one start for all, where the second group is the last
{MADE}; {"; ".join(FROM_5[:8])}
find 1 1 81 -> absent 2; {"; ".join(FROM_5[8:])}
find 1 1 71 -> at 12 1; find 1 1 81 -> at 13 2; find 1 1 b1 -> at 0 2; find 1 1 02 -> absent 2; check 1 1 -> ok
# near misses: key 01 has tag 13 and start 5
{MADE}; poke 42 11000100; poke 69 1312; find 1 1 01 -> at 6 1; insert 1 1 01 0b 00 -> replaced 6 1 00
next 1 1 6 -> slot 6 18; {MADE}; poke 42 110021000100; poke 69 131212; find 1 1 01 -> at 7 1
poke 70 14; find 1 1 01 -> absent 1; {MADE}; poke 42 0100; poke 69 12; find 1 1 01 -> absent 1
poke 68 13; find 1 1 01 -> absent 1; {MADE}; poke 69 {"14" * 7}1312; poke 58 01; find 1 1 01 -> absent 2
poke 77 13; find 1 1 01 -> at 13 2
# a reported position is only a hint, and the first equal key stops the search
{MADE}; poke 69 1313; poke 44 01; find 1 1 01 -> at 6 1; poke 42 01; find 1 1 01 -> at 5 1
{MADE}; poke 79 3a; poke 80 3a; poke 62 03; poke 32 03; find 1 1 03 -> at 15 1
# reported positions behind an empty one
{MADE}; poke 70 13; poke 44 010a; find 1 1 01 -> at 6 1; insert 1 1 01 0b 00 -> replaced 6 1 0a; find 1 1 11 -> absent 1
# all of 80 to ff are empty
{MADE}; poke 69 80; poke 85 80; check 1 1 -> ok; next 1 1 0 -> done; find 1 1 01 -> absent 1
insert 1 1 01 0a 00 -> new 5 1 00; poke 70 fe; poke 86 fe; check 1 1 -> ok; insert 1 1 11 0b 00 -> new 6 1 00
check 1 1 -> ok
# a mirror that says empty: 23 has hash 59a7725f, tag 2c, start 15, and goes over 13 in slot 0
{MADE}; {FOUR_INSERTS}; poke 80 ff; insert 1 1 23 0e 00 -> new 0 1 00
bytes -> {laid(96, *FOUR, (32, "230e"), (64, "2c"), (80, "2c"))}
# a mirror that has the tag over an empty slot
{MADE}; poke 32 1355; poke 62 03; poke 79 3a; poke 80 73; find 1 1 13 -> at 0 1; insert 1 1 13 66 00 -> replaced 0 1 55
next 1 1 0 -> slot 15 58; bytes -> {laid(96, *FRESH, (32, "1366"), (62, "03"), (79, "3a"), (80, "73"))}
# mirrors in the check
{MADE}; poke 80 80; open 1 1 -> ok; check 1 1 -> no 15; poke 64 80; check 1 1 -> ok; poke 95 00
check 1 1 -> no 15 15 0 0 0; poke 88 00; check 1 1 -> no 15 8 0 0 0; poke 43 01; check 1 1 -> no 11 5 0 0 0
# twins: 01 in slots 2 and 9, 11 in slots 5 and 6
{MADE}; poke 36 01; poke 50 01; poke 42 11001100; poke 66 13; poke 82 13; poke 73 13; poke 89 13; poke 69 4c4c
poke 85 4cff; check 1 1 -> no 15 6 0 0 0; poke 86 4c; check 1 1 -> no 16 6 0 0 0
poke 44 00; poke 70 ff; poke 86 ff; check 1 1 -> no 16 9 0 0 0
# the key of all zeros is no twin of empty slots
{MADE}; insert 1 1 00 00 00 -> new 0 1 00; check 1 1 -> ok; find 1 1 00 -> at 0 1
# reach at 16 slots: 11 alone in slot 7
{MADE}; poke 46 11; poke 71 4c; poke 87 4c; check 1 1 -> ok; find 1 1 11 -> at 7 1
# reach at 32 slots: 01 starts at 21, so its first window ends with slot 4; 10 starts at 16, the first without mirror
{MADE_32}; poke 40 01; poke 100 13; poke 132 13; check 1 1 -> ok; find 1 1 01 -> absent 1
poke 40 00000100; poke 100 ff13; poke 132 ff13; check 1 1 -> no 17 5 0 0 0; open 1 1 -> ok
insert 1 1 10 00 00 -> new 16 1 00; find 1 1 10 -> at 16 1; check 1 1 -> no 17 5 0 0 0
poke 32 01; poke 96 13; poke 128 13; check 1 1 -> no 16 5 0 0 0
# 21x mod 32 is a start: 28 for 0c, 21 for 01 to e1, 29 for 09 to e9; e1 comes to its third group
{MADE_32}; insert 1 1 0c 00 00 -> new 28 1 00
{"; ".join(f"insert 1 1 {n:x}1 00 00 -> new {21 + n // 2} 1 00" for n in range(0, 14, 2))}
{"; ".join(f"insert 1 1 {n:x}9 00 00 -> new {(29 + n // 2) % 32} 1 00" for n in range(0, 16, 2))}
insert 1 1 e1 0a 00 -> new 5 3 00; check 1 1 -> ok; find 1 1 e1 -> at 5 3; find 1 1 e9 -> at 4 1
poke 32 0000; poke 96 ff; poke 128 ff; check 1 1 -> no 17 5 0 0 0; find 1 1 e1 -> absent 2
# values of no bytes
fill 80 170; init 1 0 16 0 0 -> ok; insert 1 0 01 - - -> new 5 1 -; insert 1 0 01 - - -> replaced 5 1 -
find 1 0 01 -> at 5 1; value 1 0 01 -> part -; insert 1 0 01 00 - -> no 13 0 0 0 0 -; check 1 0 -> ok
# equal hashes, different keys: only the low half of an eight counts in the hash
fill 256 170; init 8 4 16 0 0 -> ok; insert 8 4 0100000000000000 0a0b0c0d 01020304 -> new 5 1 01020304
find 8 4 0100000001000000 -> absent 1; insert 8 4 0100000001000000 1a1b1c1d 01020304 -> new 6 1 01020304
find 8 4 0100000001000000 -> at 6 1; value 8 4 0100000000000000 -> part 0a0b0c0d; find 8 4 0100000002000000 -> absent 1
insert 8 4 0100000001000000 2a2b2c2d 01020304 -> replaced 6 1 1a1b1c1d; check 8 4 -> ok
bytes -> {laid(256, (0, HEAD), (5, "08"), (6, "04"), (92, "01"), (100, "0a0b0c0d"), (104, "0100000001"),
               (112, "2a2b2c2d"), (224, "ff" * 32), (229, "1313"), (245, "1313"))}
# book, more, fill, poke, bytes, sum; the sums are published ones of nothing, a and foobar
fill 0 7 -> ok 0; bytes -> -; sum -> cbf29ce484222325; book 61 -> ok 1; sum -> af63dc4c8601ec8c; book 666f6f -> ok 3
more 626172 -> ok 6; sum -> 85944171f73967e8; more - -> ok 6; poke 4 0001 -> ok 6; bytes -> 666f6f620001
poke 6 - -> ok 6; fill 2 255 -> ok 2; bytes -> ffff; fill 524288 0 -> ok 524288; more 00 -> bad; more - -> ok 524288
poke 524287 01 -> ok 524288; fill 1 0 -> ok 1; book - -> ok 0
"""

# Calls that leave the book of sixteen keys as it is: refused ones, and those that only look.
IDLE = [
    "insert 1 1 10 00 00", "insert 1 1 01 0000 00", "insert 1 1 01 00 -", "insert 2 1 0101 00 00", "init 1 1 32 0 0",
    "init 1 1 8 0 0", "init 0 1 16 0 0", "open 1 1", "check 1 1", "check 2 1", "find 1 1 01", "find 1 1 10",
    "value 1 1 01", "next 1 1 0", "walk 1 1 20", "hash 01", "sum",
]

BAD_LINES = [
    b"", b" ", b"-", b"bad", b"HASH 01", b"hash", b"hash ", b" hash 01", b"hash  01", b"hash 01 ", b"hash 01 02",
    b"hash 01\r", b"hash\t01", b"hash 0", b"hash 012", b"hash 0A", b"hash 0g", b"hash 0x01", b"hash --", b"hash 01-",
    b"hash \x00", b"hash 01\x00", b"\x00", b"\xff\xfe", b"hash \xc3\xa9", b"hash \xd9\xa0\xd9\xa1", b"# 01",
    b"fill 1", b"fill 1 256", b"fill 01 0", b"fill 00 0", b"fill +1 0", b"fill -1 0", b"fill 1_0 0", b"fill 1.0 0",
    b"fill - 0", b"fill 1 -", b"fill 0x1 0", b"fill 524289 0", b"fill 18446744073709551616 0", b"fill 1 00",
    b"fill " + b"9" * 5000 + b" 0", b"fill \xef\xbc\x91 0", b"book", b"book 0", b"book 00 00", b"more zz", b"poke 0",
    b"poke 2 00", b"poke 1 0000", b"poke 3 -", b"poke 18446744073709551615 00", b"poke -1 00", b"init 1 1 16 0",
    b"init 1 1 16 0 65536", b"init 1 1 16 18446744073709551616 0", b"init 1 1 16 0 0 0", b"open 1", b"open 1 1 1",
    b"open 1 01", b"check 1 -", b"find 1 1", b"find 1 1 1", b"value 1 1 01 01", b"insert 1 1 01 0a",
    b"insert 1 1 01 0a 0", b"next 1 1", b"next 1 1 -", b"next 1 1 18446744073709551616", b"walk 1 1 01", b"bytes -",
    b"bytes ", b"sum 0", b"sums",
]

FACTS = [
    *[(f"start of {x:02x} at S = 16", start, lambda x=x: start_of(bytes([x]), 16))
      for x, start in [(0x01, 5), (0x03, 15), (0x11, 5), (0x13, 15), (0x00, 0)]],
    ("group 05 04, six 14", [0, 1], lambda: query(bytes.fromhex("0504141414141414"), 5)),
    ("group 04 05, six 14", [1], lambda: query(bytes.fromhex("0405141414141414"), 5)),
    ("group 05 04 04, five 14", [0, 1, 2], lambda: query(bytes.fromhex("0504041414141414"), 5)),
    ("group 05 14 04 04 05 04 ff 04", [0, 4, 5], lambda: query(bytes.fromhex("051404040504ff04"), 5)),
    ("group 05 04 05, five 14, tag 04", [1, 2], lambda: query(bytes.fromhex("0504051414141414"), 4)),
    ("first empty of 7f 80 ff", 1, lambda: first_empty(bytes.fromhex("7f80ff0000000000"))),
    ("first empty of eight 7f", None, lambda: first_empty(b"\x7f" * 8)),
    ("total at S = 16, K = V = 1", 96, lambda: total(1, 1, 16)),
    ("total at S = 16, K = 8, V = 4", 256, lambda: total(8, 4, 16)),
    ("total at S = 65,536, K = V = 255", 33_488_944, lambda: total(255, 255, 65_536)),
    ("group starts from 5", [5, 13, 21, 29, 53, 61, 101, 109], lambda: list(group_starts(5, 1024))[:8]),
    ("group starts from 29 of 32", [29, 5, 13, 21], lambda: list(group_starts(29, 32))),
    ("group starts by sixteen from 5", [5, 21, 53, 101], lambda: list(group_starts(5, 1024, 16))[:4]),
    *[(f"probe order of {2**n} slots", True, lambda S=2**n: sorted(probe_order(S - 3, S)) == list(range(S)))
      for n in range(4, 17)],
    ("every key in an empty book", ["absent 1"] * 256,
     lambda: told(MADE.replace("; ", "\n").encode() + b"".join(b"\nfind 1 1 %02x" % x for x in range(256)))[2:]),
    ("no calls", [], lambda: told(b"")),
    ("a last line without newline", ["ok 1", "00"], lambda: told(b"book 00\nbytes")),
    ("a last line of 131,072 bytes", ["part -"], lambda: told(b"value 1 1 " + b"0" * 131_062)),
    ("empty lines", ["bad", "bad"], lambda: told(b"\n\n")),
    ("a line of 131,072 bytes", ["part -", "-"], lambda: told(b"value 1 1 " + b"0" * 131_062 + b"\nbytes")),
    ("a line of 131,073 bytes", ["bad", "-"], lambda: told(b"book " + b"0" * 131_068 + b"\nbytes\n")),
    ("a last line too long", ["ok 1", "bad"], lambda: told(b"book 00\nbook " + b"0" * 131_068)),
    ("a line of a million bytes", ["bad", "-"], lambda: told(b"hash " * 200_000 + b"\nbytes\n")),
    ("every byte once", ["bad", "bad"], lambda: told(bytes(range(256)))),
]

def told(content):
    """The answers to a list of calls given as bytes."""
    return list(answers(io.BytesIO(content)))

def came(ask):
    """What a case gives; an error in the program is an answer too, and a wrong one."""
    try:
        return ask()
    except Exception as error:
        return repr(error)

def script_cases():
    """The script's cases, to be asked one by one as they come; the steps between them are made here."""
    book, heading = bytearray(), ""
    for text in SCRIPT.splitlines():
        if text.startswith("# "):
            heading = text[2:]
            continue
        for step in filter(None, text.split("; ")):
            call, arrow, expected = step.partition(" -> ")
            ask = partial(answer_line, book, call.encode())
            if arrow:
                yield f"{heading}: {call}", re.sub(r"^(no \d+)$", r"\1 0 0 0 0", expected), ask
            else:
                came(ask)

def list_cases():
    """The idle calls, with the book before and after, and the bad lines, each between two that show the book."""
    setting = f"{MADE}; {re.sub(' -> [^;]*', '', SIXTEEN)}".replace("; ", "\n")
    for call in IDLE:
        content = f"{setting}\nbytes\n{call}\nbytes".encode()
        yield f"bytes kept by {call}", True, lambda: told(content)[-3] == told(content)[-1]
    for line in BAD_LINES:
        yield f"line {line[:40]!r}", ["ok 2", "bad", "00ff"], partial(told, b"book 00ff\n%b\nbytes\n" % line)

def self_test():
    """Asks every case, prints those that fail and then the totals, and gives the exit status."""
    passed = failed = 0
    for asked, expected, ask in chain(script_cases(), FACTS, list_cases()):
        answer = came(ask)
        if answer == expected:
            passed += 1
        else:
            failed += 1
            print(f"{asked}: expected {expected}, came {answer}")
    print(f"{passed} passed, {failed} failed")
    return 1 if failed else 0

def serve():
    """Answers standard input on standard output; if either is closed there is nothing to do."""
    if sys.stdin and sys.stdout:
        for answer in answers(sys.stdin.buffer):
            sys.stdout.buffer.write(answer.encode("ascii") + b"\n")
            sys.stdout.buffer.flush()
    return 0

def main(arguments):
    """Does what the arguments ask, and gives the exit status."""
    if arguments not in ([], ["--self-test"]):
        print("usage: model.py [--self-test]", file=sys.stderr)
        return 2
    try:
        return self_test() if arguments else serve()
    except BrokenPipeError:
        os.dup2(os.open(os.devnull, os.O_WRONLY), 1)  # else the flush at exit complains
        return 0

if __name__ == "__main__":
    sys.exit(main(sys.argv[1:]))
