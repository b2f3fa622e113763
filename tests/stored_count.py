#!/usr/bin/env python3
"""The count that a table stores, read by judge::counting::stored_count, which no request of the
trial driver calls.

Builds it as a library for C and calls it on sheets that are accepted and refused, with tables too
short, exact and longer, of any bytes, and as lists of queries leave them. Each has to be answered
as tests/oracle does, and after a list with the sum of the visits that its queries reported.

Run `rt check` first.
"""
import ctypes
import random
import sys
from collections import Counter
from itertools import chain, product

from inputs.chance import damaged, random_sheet, random_states, random_table
from inputs.contents import headings
from inputs.parts import GREATEST_X, K, K8, LEAST, LEAST_LOOP, LEAST_X, LONG, deepest, refusals
from native import SLICE, loaded
from oracle.rows import Sheet, clear, count, query
from oracle.sheet import Refused, four, sheet_of

SOURCE = '''
use sheet::Numbered;

#[unsafe(no_mangle)]
pub extern "C" fn count_number(sheet: &[u8], table: &[u8]) -> u8 {
    let counted = judge::counting::stored_count(sheet, table);
    counted.number()
}

#[unsafe(no_mangle)]
pub extern "C" fn count_place(sheet: &[u8], table: &[u8]) -> u16 {
    let counted = judge::counting::stored_count(sheet, table);
    counted.place()
}

#[unsafe(no_mangle)]
pub extern "C" fn stored_count(sheet: &[u8], table: &[u8]) -> u32 {
    let counted = judge::counting::stored_count(sheet, table);
    counted.unwrap_or(0)
}
'''

COUNTS = 0, 1, 255, 256, 65535, 65536, 1 << 24, 0x01020304, 0xfffefdfc, 0xffffffff


def right(s, tab):
    """number, place and count"""
    try:
        return 0, 0, count(s, tab)
    except Refused as f:
        return f.number, f.place, 0


def after_list(rng, s, states):
    """the table that a list leaves, and the sum of its visits"""
    tab, visits = bytearray(rng.randbytes(Sheet(s).table_size() + rng.randrange(3))), 0
    clear(s, tab)
    for state in states:
        try:
            visits += query(s, state, tab)[1]
        except Refused:
            pass
    return bytes(tab), visits


def by_hand():
    """cells all of one value with small counts and large ones, and tables of every length up to the
    count and past it"""
    for s in (K, K8, LEAST_X, GREATEST_X, LEAST_LOOP, sheet_of(*LEAST), sheet_of(*LONG), deepest()):
        cells = Sheet(s).cells()
        for value, number in product((0, 1, 2, 3, 255), COUNTS):
            tab = bytes([value]) * cells + four(number)
            yield s, tab, (0, 0, number)
            yield s, tab + b'\1', (0, 0, number)
        tab = b'\2' * cells + b'\x11\x22\x33\x44\x55'
        for size in range(max(0, cells - 150), len(tab) + 1):
            yield s, tab[:size], (20, 0, 0) if size < cells + 4 else (0, 0, 0x44332211)
    for s in (*refusals(), *headings()):
        for tab in (b'', bytes(112), b'\1' * 57348):
            yield s, tab, right(s, tab)


def accepted_sheets(rng, tries):
    for _ in range(tries):
        s = random_sheet(rng, (3, 8, 16, 40, 64))
        if right(s, b'') == (20, 0, 0):
            yield s


def of_lists(rng):
    """what lists leave: of up to three of K's states, and of random sheets"""
    for n in range(4):
        for states in product(range(4), repeat=n):
            tab, visits = after_list(rng, K, states)
            yield K, tab, (0, 0, visits)
    for s in accepted_sheets(rng, 1000):
        tab, visits = after_list(rng, s, random_states(rng, Sheet(s)))
        yield s, tab, (0, 0, visits)


def at_random(rng):
    """tables from elsewhere, of any bytes and cut short, and damaged sheets"""
    for s in accepted_sheets(rng, 1000):
        cells = Sheet(s).cells()
        tab = rng.choice((random_table(rng, cells), rng.randbytes(cells + 4)))
        for given in (tab, tab + rng.randbytes(5), tab[:rng.randrange(len(tab))]):
            yield s, given, right(s, given)
        s = damaged(rng, s)
        yield s, tab, right(s, tab)


def library():
    """its calls for the number, the place and the count"""
    made = loaded(SOURCE, 'judge')
    made.count_number.restype = ctypes.c_uint8
    made.count_place.restype = ctypes.c_uint16
    made.stored_count.restype = ctypes.c_uint32
    calls = made.count_number, made.count_place, made.stored_count
    for call in calls:
        call.argtypes = [*SLICE, *SLICE]
    return calls


def main():
    calls, rng, met = library(), random.Random(8), Counter()
    for s, tab, wanted in chain(by_hand(), at_random(rng), of_lists(rng)):
        found = tuple(call(s, len(s), tab, len(tab)) for call in calls)
        if found != wanted:
            print('sheet', [*s], 'with a table of', len(tab), 'bytes that ends in', [*tab[-9:]],
                  'gives', found, 'and not', wanted)
            return 1
        met[found[0]] += 1
    print('%d tables: %d counts as they should be; refused with 20: %d, with 1 to 10: %d' % (
        met.total(), met[0], met[20], sum(met[number] for number in range(1, 11))))
    return 0


if __name__ == '__main__':
    sys.exit(main())
