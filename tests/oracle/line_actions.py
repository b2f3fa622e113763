"""What a line says of actions, with no body made of it: it is written as an expression of Python,
in which `not`, `and` and `or` bind and group as in a line."""
import ast
import re

SAME = {b'(': '(', b')': ')', b'not': 'not', b'and': 'and', b'or': 'or', b'true': 'True',
        b'false': 'False'}


def expression_of(line):
    """the expression, of an action; nothing where a word of the line is none"""
    words = line.replace(b'(', b' ( ').replace(b')', b' ) ').split(b' ')
    found = []
    for word in filter(None, words):
        if word in SAME:
            found.append(SAME[word])
        elif word.isdigit() and word == b'%d' % int(word):
            found.append('(action == %d)' % int(word))
        else:
            return ''
    return ' '.join(found)


def actions_said(line, actions):
    """the actions below a number for which the line holds; None where it can't be read, or where it
    has 200 parentheses one inside the other or a number of thousands of digits, which Python does
    not read. One part right behind another would be a call to Python, and nothing in parentheses a
    tuple."""
    try:
        tree = ast.parse(expression_of(line), mode='eval')
    except SyntaxError:
        return None
    if any(isinstance(node, (ast.Call, ast.Tuple)) for node in ast.walk(tree)):
        return None
    holds = compile(tree, 'line', 'eval')
    return frozenset(a for a in range(actions) if eval(holds, {'action': a}))


def refusal_of(line, actions):
    """32, 33 or 34, where one of them is right, and 0 where none is"""
    words = re.findall(rb'[0-9a-z]+', line)
    if actions_said(line, actions) is None:
        return 32
    if any(int(word) >= actions for word in words if word.isdigit()):
        return 33
    return 34 if len(words) > 32 else 0
