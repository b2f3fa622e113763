"""How .aut texts are spelt: each byte of a small one, spaces, numbers, labels, other dialects."""
from itertools import product

from inputs.aut_parts import row, text

SMALL = text(2, (0, b'a', 1))
# the lines of the small text in parts; a space is shown behind the parts of these numbers
FIRST, FIRST_SHOWN = (b'des', b'(', b'0', b',', b'1', b',', b'2', b')'), (0, 3, 5)
ROW, ROW_SHOWN = (b'(', b'0', b',', b'"a"', b',', b'1', b')'), (2, 4)


def changed():
    """the small text with a byte left out, doubled, changed for the next one's, for one that a text
    has elsewhere, for one near it, in the other case, with its high bit; with a byte put in; cut
    from either end"""
    signs = b' \n"(),01'
    found = []
    for at, byte in enumerate(SMALL):
        before, behind = SMALL[:at], SMALL[at + 1:]
        found += [before, SMALL[at:], before + behind, before + bytes([byte, byte]) + behind,
                  before + behind[:1] + bytes([byte]) + behind[1:]]
        for b in (*signs, *b'a\0\r\t\xff', byte ^ 1, byte + 1, byte - 1, byte ^ 32, byte ^ 128):
            found.append(before + bytes([b]) + behind)
        for b in signs:
            found.append(before + bytes([b, byte]) + behind)
    found += [SMALL + bytes([b]) for b in signs]
    yield from dict.fromkeys(found)


def spaced(parts, where):
    """a line of these parts, with what is put behind some of them"""
    return b''.join(part + where.get(i, b'') for i, part in enumerate(parts)) + b'\n'


def spaces():
    """each shown space there, missing and twice; white space of other kinds, and many spaces, at
    every place"""
    first, second = SMALL.splitlines(True)
    for shown in product((b'', b' ', b'  '), repeat=3):
        yield spaced(FIRST, dict(zip(FIRST_SHOWN, shown))) + second
    for shown in product((b'', b' ', b'  '), repeat=2):
        yield first + spaced(ROW, dict(zip(ROW_SHOWN, shown)))
    for shown in product((b'', b' '), repeat=5):
        yield (spaced(FIRST, dict(zip(FIRST_SHOWN, shown)))
               + spaced(ROW, dict(zip(ROW_SHOWN, shown[3:]))))
    for space in (b' ', b'\t', b'\r', b'\n', b'\v', b'\xa0', b' ' * 40):
        yield space
        yield space + SMALL
        for i in range(len(FIRST)):
            yield spaced(FIRST, {i: space}) + second
        for i in range(len(ROW)):
            yield first + spaced(ROW, {i: space})
        yield SMALL + space
        # inside the word, and inside a number
        yield SMALL.replace(b'des', b'd%ses' % space)
        yield SMALL.replace(b'(0, "', b'(1%s0, "' % space)


def in_each_place(number):
    """texts of one transition, with a number as each of the five that it has"""
    yield text(20, (0, b'a', 1), first=number)
    yield text(20, (0, b'a', 1), count=number)
    yield text(number, (0, b'a', 1))
    yield text(20, (number, b'a', 1))
    yield text(20, (0, b'a', number))


def numbers():
    """that are none, that have zeros in front, and that have none in front"""
    for number in (b'', b'-0', b'-1', b'+1', b'1.0', b'1.', b'1e0', b'0x1', b'1_0', b'1 0', b'/',
                   b':', b'a', b'o', b'"1"', b'(1)', b'\xb9', b'\xd9\xa1', b'1\0', b'\0001',
                   b'00', b'01', b'001', b'010', b'0' * 20, b'0' * 20 + b'1', b'0' * 300,
                   b'0', b'1', b'2', b'10', b'11', b'19', b'20', b'21', b'100', b'101', b'9'):
        yield from in_each_place(number)


def every_byte():
    """as a label, and each third one as a number"""
    for b in range(256):
        yield b'des(0,1,1)\n(0,"%c",0)\n' % b
    for b in range(0, 256, 3):
        yield b'des(0,1,3)\n(%c,"a",0)\n' % b


def like_labels():
    """labels that are nearly the same, in a text each"""
    yield b'', b' '
    yield b' ', b'  '
    yield b'a', b'a '
    yield b'a', b' a'
    yield b'a b', b'ab'
    yield b'a', b'A'
    yield b'a', b'aa', b'aaa', b'', b'aa', b'a'
    yield b'probe', b'prob', b'probes', b'probe1', b'probe2'
    yield b'ab', b'ba', b'abab', b'aba'
    yield b'xa', b'ya', b'a'
    yield b'0', b'00', b'000', b'01', b'1', b'-1'
    yield b'\0', b'\0\0', b'', b'0'
    yield b'\0a', b'\0b', b'a\0', b'b\0'
    yield b'\xff', b'\x7f', b'\xfe', b'\xff\xff'
    yield b'a\r', b'a', b'\ra', b'\r'
    yield b'a\t', b'a ', b'a\0', b'a\r'
    yield b'\xc3\xa9', b'e', b'\xe9', b'e\xcc\x81'
    for length in (255, 256):
        same = b'p' * length
        yield same, same[:-1] + b'q', b'q' + same[1:], same[:-1], same + b'p', same


def labelled():
    for found in like_labels():
        yield text(9, *((i, label, 0) for i, label in enumerate(found)))
    # signs of the text itself
    for label in (b',', b', ', b'(', b')', b'()', b'(0, ', b', 1)', b'des (0, 1, 2)', b'des', b'1',
                  b'1, 2', b'\\', b'\\n', b'\\r\\n', b"'", b"'a'", b'`', b'*', b'a, b, c', b'a;b',
                  b'(a)', b'a) -> (b', b' a ', b'   ', b'i', b'tau', b'exit', b'&quot;', b'%s'):
        yield text(2, (0, label, 1))
        yield text(2, (0, label, 1), (1, label + b' ', 0), (1, label, 0))
    # what a quote mark or a line feed ends
    for label in (b'"', b'""', b'a"', b'"a', b'a"b', b'\\"', b'", 1)', b'", 1)\n(0, "', b'\n',
                  b'a\nb', b'\\\n', b'\r\n', b'a", 1), (0, "b', b'", "', b', "'):
        yield text(2, (0, label, 1))
        yield text(2, (0, label, 1), count=2)


def dialects():
    """texts that other tools may write or take"""
    first, second = SMALL.splitlines(True)
    yield SMALL.replace(b'\n', b'\r\n')
    yield SMALL.replace(b'\n', b'\n\r')
    yield SMALL.replace(b'\n', b'\r')
    yield SMALL.replace(b'\n', b'')
    yield SMALL.replace(b'\n', b' ')
    yield first + second[:-1] + b'\r\n'
    yield first[:-1] + b'\r\n' + second
    yield SMALL[:-1] + b'\0'
    yield b'\xef\xbb\xbf' + SMALL
    yield '\ufeff{}'.format(SMALL.decode()).encode('utf-16-le')
    for word in (b'DES', b'Des', b'desc', b'de', b'', b'aut', b'"des"', b'sed', b'des.', b'des:'):
        yield SMALL.replace(b'des', word)
    for label in (b'a', b"'a'", b'*', b'"*"', b'a b', b'a"', b'"a', b'', b'""', b'""""', b'"a""b"',
                  b'"a" "b"', b'"a"b', b'b"a"', b'i', b'0', b'("a")', b'"a",', b',"a"',
                  b'\xe2\x80\x9ca\xe2\x80\x9d', b'`a`', b'<a>'):
        yield SMALL.replace(b'"a"', label)
    for old, new in ((b'(', b'['), (b')', b']'), (b'(', b'{'), (b')', b''), (b'(', b''),
                     (b',', b';'), (b',', b''), (b',', b',,'), (b')', b'),'), (b')', b').'),
                     (b')', b'))'), (b'(', b'(('), (b'\n', b';\n'), (b'"', b"'")):
        yield first.replace(old, new) + second
        yield first + second.replace(old, new)
        yield SMALL.replace(old, new)
    for line in (b'des (0, 1)\n', b'des (0, 1, 2, 3)\n', b'des (0)\n', b'des ()\n', b'des\n',
                 b'des (0, 1, 2) # a plan\n', b'# a plan\n', b'\n', b'(0, 1, 2)\n', b''):
        yield line + second
    for line in (b'(0, "a")\n', b'("a", 1)\n', b'(0, 1)\n', b'(0, "a", 1, 2)\n', b'(0, 1, "a")\n',
                 b'(0, "a", "b", 1)\n', b'(0, "a", 1) (1, "b", 0)\n', b'()\n', b'(,,)\n', b'0\n',
                 b'(0, "a", 1) # clamp\n', b'# clamp\n', b'\n', b'0, "a", 1\n', b'0 a 1\n',
                 b'(0, "a", 1)' * 2 + b'\n', b'(s0, "a", s1)\n', b'("0", "a", "1")\n'):
        yield first + line
    # lines in another order, twice, or none
    yield second + first
    yield first + first
    yield first + first + second
    yield first + second + first
    yield second
    yield first * 2
    yield first + b'\n' + second
    yield b'\n' + SMALL
    yield SMALL + b'\n'
    yield SMALL * 2
    yield first + row(0, b'a', 1) + b'\n' + row(1, b'b', 0)
