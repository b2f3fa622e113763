"""What a pattern says of runs, from the plan's transitions and with no rule made of it: for each
state the states where a run matching the pattern ends."""
from oracle.patterns import ACTION, CHOICE, SEQUENCE, read_pattern
from oracle.rows import Sheet
from oracle.table1 import meaning


def onward(states, ends):
    """where the runs from any of some states end"""
    return {end for state in states for end in ends[state]}


def run_ends(sheet, pattern):
    every = range(sheet.states)
    if pattern.kind == ACTION:
        met = sheet.formulas[pattern.entry]
        return [{to for action, to in sheet.after[s] if action in met} for s in every]
    parts = [run_ends(sheet, part) for part in pattern.parts]
    if pattern.kind == SEQUENCE:
        return [onward(parts[0][s], parts[1]) for s in every]
    if pattern.kind == CHOICE:
        return [parts[0][s] | parts[1][s] for s in every]
    ends = [{s} for s in every]         # after no run of the part; then after one more, to the end
    while True:
        more = [ends[s] | onward(ends[s], parts[0]) for s in every]
        if more == ends:
            return ends
        ends = more


def sentence(s, b):
    """the states from which some run, or every run, matching the pattern ends where the rule of the
    sheet holds by Table 1"""
    sheet = Sheet(s)
    every, pattern = read_pattern(b, len(sheet.entries))
    holds, ends = meaning(sheet, 0, {}), run_ends(sheet, pattern)
    if every:
        return frozenset(q for q in range(sheet.states) if ends[q] <= holds)
    return frozenset(q for q in range(sheet.states) if ends[q] & holds)
