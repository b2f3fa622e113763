"""The table of contents: edition, entries, offsets, lengths, and the length of the file."""
from inputs.parts import (
    K, K_ACTIONS, K_PLAN, K_RULE, LONG, LONG_ACTIONS, LONG_PLAN, LONG_RULE, set_at)
from oracle.sheet import sheet_of, two


def headings():
    """sheets cut short or grown, and wrong bytes in the table of contents"""
    for n in (0, 1, 2, 15, 16, 17, 18, 36, 73):
        yield K[:n]
    yield K + b'\0'
    yield b'\xff' * 16
    yield b'\xff' * 17
    yield sheet_of(b'', b'', b'')
    yield set_at(sheet_of(b'', b'', b''), 0, 2)
    yield set_at(sheet_of(b'', b'', b''), 1, 2)
    for value in (0, 2, 3, 255):
        yield set_at(K, 0, value)
    for value in (0, 1, 2, 4, 255):
        yield set_at(K, 1, value)
    for at in range(2, 17):
        for value in (0, K[at] ^ 1, K[at] ^ 128, 255):
            if value != K[at]:
                yield set_at(K, at, value)
    # gaps, overlaps and exchanged bodies, each with the right length in all
    yield K[:3] + two(18) + K[5:]
    yield K[:2] + K[7:12] + K[2:7] + K[12:]
    yield K[:8] + two(26) + two(11) + K[12:]
    yield K[:13] + two(36) + two(38) + K[17:]
    yield K[:10] + two(11) + K[12:13] + two(38) + two(36) + K[17:]
    # sums that only agree modulo 65,536
    for first, second in ((65535, 20), (65519, 65519), (10, 65535), (65529, 1)):
        offsets = [(17 + before) % 65536 for before in (first, first + second)]
        third = (len(K) - 17 - first - second) % 65536
        yield (K[:5] + two(first) + b'\2' + two(offsets[0]) + two(second)
               + b'\3' + two(offsets[1]) + two(third) + K[17:])
    yield sheet_of(*LONG)
    yield sheet_of(LONG_PLAN, LONG_ACTIONS, LONG_RULE + b'\0')
    yield sheet_of(K_PLAN, K_ACTIONS, K_RULE + b'\7' * (65535 - len(K)))
