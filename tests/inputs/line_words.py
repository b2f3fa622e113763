"""How lines are spelt: every byte, words and numbers, what touches, spaces."""
from inputs.line_parts import chain

TOKENS = (b'3', b'true', b'false', b'not', b'and', b'or', b'(', b')')
# a line in which each word is right
AROUND = {b'true': b'%s', b'false': b'not %s', b'not': b'%s 3', b'and': b'3 %s 4', b'or': b'3 %s 4'}


def every_byte():
    """alone, behind a number, before one, between two words, inside a word and inside a number"""
    for b in range(256):
        for line in (b'%c', b'3%c', b'%c3', b'3 or%c4', b'n%ct 3', b'1%c2'):
            yield line % b


def misspelt():
    """words with a letter less, more, changed or in upper case; their beginnings; words run into
    one another"""
    for word, line in AROUND.items():
        yield line % word
        yield line % word.upper()
        for n in range(len(word)):
            yield line % word[:n]
            yield line % (word[:n] + word[n + 1:])
            yield line % (word[:n] + word[n:n + 1].upper() + word[n + 1:])
            yield line % (word[:n] + word[n:n + 1] + word[n:])
            for near in (word[n] - 1, word[n] + 1):
                yield line % (word[:n] + bytes([near]) + word[n + 1:])
        for more in (b'e', b's', b'0', b'_', b'\0', b'.', b'\x80'):
            yield line % (word + more)
            yield line % (more + word)
        for other in AROUND:
            yield line % (word + other)
        for before in (b'a', b'aaaaaaaa', b'x' * 13, b'z' * 60):
            yield line % (before + word)
    for word in (b'xor', b'nand', b'nor', b'no', b'yes', b'T', b'F', b't', b'f', b'1', b'0', b'&',
                 b'|', b'!', b'-', b'~', b'&&', b'||', b'^', b'*', b'+', b',', b'o r', b'an d'):
        yield b'3 %s 4' % word
        yield b'%s 3' % word


def touching():
    """two tokens without a space between them, alone and with a right line about them"""
    for first in TOKENS:
        for second in TOKENS:
            both = first + second
            for line in (both, both + b' 4', b'4 ' + both, b'(%s)' % both, b'4 or ' + both,
                         both + b' or 4'):
                yield line
    for line in (b'(3)and(4)', b'(3)or(4)', b'not(3)', b'not(not(3))', b'(not 3)and(not 4)',
                 b'(true)and(false)', b'(3)and 4', b'3 and(4)', b'3 and(4)or 5',
                 b'((3)or(4))and(5)', b'(3)(4)', b'3(4)', b'(3)4', b'true(3)', b'(3)not(4)',
                 b'3and(4)', b'(3)and4', b'3 andnot 4', b'3 and not4', b'3 ornot(4)',
                 b'not 3and not 4', b'3or4', b'12 3', b'1 2', b'0 0', b'0and 1', b'0x3', b'3.0',
                 b'-3', b'+3', b'3,4', b'1_2'):
        yield line


def spaced():
    """spaces before, behind and between, many of them, and other white space in their place"""
    for space in (b' ', b'  ', b' ' * 40, b'\t', b'\n', b'\r', b'\v', b'\f', b'\0', b'\xa0',
                  b'\x1f', b'!'):
        for line in (b'%s3', b'3%s', b'3 and%s4', b'3%sor 4', b'not%s3', b'(%s3)', b'(3%s)',
                     b'not (%s3) and 4'):
            yield line % space
        yield space
        yield space.join([b'', b'not', b'(', b'3', b'and', b'4', b')', b'or', b'true', b''])
    yield b'no t 3'
    yield b'tr ue'
    yield b'3 a nd 4'
    yield b'( 3 ) and ( 4 )'
    yield b' ' * 500
    yield b' ' * 500 + b'3' + b' ' * 500


def zeros():
    """leading zeros, however many, and numbers that end in zeros"""
    for number in (b'0', b'00', b'000', b'01', b'001', b'010', b'08', b'0254', b'0' * 20 + b'3',
                   b'0' * 256, b'0' * 300 + b'3', b'10', b'100', b'20', b'200', b'101', b'0 0'):
        yield number
        yield b'not ' + number
        yield chain(b'or', b'3', number)
        yield chain(b'and', number, b'3')


def large_numbers():
    """that end where a count of 8, 16, 32, 64 or 128 bits does, and 3 after that; powers of ten,
    which such a count takes for 0; numbers far longer"""
    for n in (255, 256, 511, 512, 999, 1000, 2 ** 16, 2 ** 31, 2 ** 32, 2 ** 63, 2 ** 64, 2 ** 128):
        for number in (n - 1, n, n + 3):
            yield b'%d' % number
    for zeros_behind in (8, 16, 32, 64, 128, 400):
        yield b'1' + b'0' * zeros_behind
        yield b'1' + b'0' * (zeros_behind - 1) + b'3'
    for digits in (b'9' * 20, b'25' * 30, b'3' * 300):
        yield digits
