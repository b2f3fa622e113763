"""The trial driver as a tool: one request, and what its call gives or its refusal."""
import re
import subprocess
import sys

from native import HERE
from oracle.sheet import Refused

DRIVER = str(HERE / 'target/bin/trials')
ROOM = 6455                             # bytes that are enough for every sheet

# what the refusals of a sheet mean; docs/REFUSALS.md says more of each
MEANINGS = {
    1: 'the sheet has fewer than 17 bytes',
    2: 'the sheet is not of edition 1 with three bodies',
    3: 'the table of contents of the sheet is wrong, or its length is another',
    4: 'the length of the plan, its number of states or that of its transitions is wrong',
    5: 'transition {} of the plan is wrong',
    6: 'the number of action formulas or their length is wrong',
    7: 'action formula {} is wrong',
    8: 'the number of nodes of the rule or its length is wrong',
    9: 'node {} of the rule is wrong',
    10: 'node {} of the rule is a binder or a variable that may not stand there',
}


def chosen(args):
    """the driver, another one where `--driver PROGRAM` stands first, and the other words"""
    if args[:1] == ['--driver'] and len(args) > 1:
        return args[1], args[2:]
    return DRIVER, args


def run(command, counts, words, manual):
    """a command on a driver and its words, so many of them, and the number it ends with"""
    driver, args = chosen(words)
    if len(args) not in counts:
        print(manual)
        return 0 if args == ['--help'] else 2
    try:
        command(driver, args)
    except Refused as refused:
        sys.exit('refused %d %d' % (refused.number, refused.place))
    except OSError as missing:
        sys.exit(str(missing))
    return 0


def answered(driver, request, form):
    """what stands behind the number and the place of an answer, in a given form"""
    done = subprocess.run([driver], input=request, capture_output=True)
    found = re.fullmatch(rb'\w+ (\d+) (\d+)[ \n]' + form, done.stdout)
    if not found:
        sys.exit('%s does not answer' % driver)
    number, place, *values = found.groups()
    if int(number):
        raise Refused(int(number), int(place))
    return [value.decode() for value in values]


def in_words(further, number, place):
    """a refusal with what it means, further ones than a sheet's by their numbers"""
    meaning = {**MEANINGS, **further}[number].format(place)
    return 'refused %d %d: %s' % (number, place, meaning)


def called(driver, request):
    """what a call leaves at the start of its output"""
    length, out = answered(driver, request, rb'(\d+)\nout (\w*)\n')
    return bytes.fromhex(out)[:int(length)]


def fitting(given):
    if len(given) > 65535:
        sys.exit('a request of the trial driver has room for 65,535 bytes')
    return given


def typed(words):
    """bytes in decimal, with spaces or commas between them"""
    found = words.replace(',', ' ').split()
    for word in found:
        if not re.fullmatch('[0-9]{1,3}', word) or int(word) > 255:
            sys.exit('%s is no byte' % word)
    return fitting(bytes(map(int, found)))
