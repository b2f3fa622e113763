"""The closest state that breaks the rule: the reachable states by their steps, and solution and
need by the rows as the table given changes them."""
from oracle.rows import examined, fill, solve


def steps_to(sheet):
    """of each state that can be reached from state 0 the fewest transitions of a way to it"""
    steps, now, count = {}, {0}, 0
    while now:
        steps.update(dict.fromkeys(now, count))
        now = {to for state in now for _, to in sheet.after[state]} - steps.keys()
        count += 1
    return steps


def way_to(sheet, state):
    """the transitions of a shortest way from state 0 to the state: the last one is the first in the
    plan that leads there from a state of one step less, and so on back"""
    steps, way = steps_to(sheet), []
    while state:
        way.insert(0, next((source, action, to) for source, after in enumerate(sheet.after)
                           for action, to in after
                           if to == state and steps.get(source) == steps[state] - 1))
        state = way[0][0]
    return way


def closest(s, tab):
    """whether a reachable state breaks the rule, which is the closest, its steps, and the visits;
    fills the table and adds the visits to its count"""
    sheet = examined(s, 0, tab)
    steps = steps_to(sheet)
    order = sorted(steps, key=lambda state: (steps[state], state))
    solution, _ = solve(sheet, tab, *((0, 0, state) for state in order))
    broken = [state for state in order if not solution[0, 0, state]]
    looked_at = order[:order.index(broken[0]) + 1] if broken else order
    # for all of them the rows are those of the table as it was given
    solution, need = solve(sheet, tab, *((0, 0, state) for state in looked_at))
    visits = fill(sheet, tab, solution, need)
    if not broken:
        return False, 0, 0, visits
    return True, broken[0], steps[broken[0]], visits
