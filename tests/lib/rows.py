"""Scripts of members whose settings change from life to life: budgets, stalls, retentions, and recoveries at a floor.

`enduring` alone serves them, since `viewstate` has no line for settings. What stands behind each reply is one line's; a line
`settings STALL BUDGET RETENTION FLOOR` sets up the lifetimes that begin from then on, with 0 for no stall timeout and for genesis."""

from lib.scripts import REPLIED, Script

BUDGETS = """
    settings 0 1 10 0 => ok
    restart 0 0 => ok
    nullification 1 10 => added true
    trigger 6 Inactivity 20 => ok
    timeout 30 => timeout 1010 LeaderTimeout
    settings 0 2 10 0 => ok
    restart 0 40 => ok
    trigger 6 Inactivity 50 => ok
    timeout 60 => timeout 50 Inactivity
    settings 0 0 10 0 => ok
    restart 0 70 => ok
    trigger 6 Inactivity 80 => ok
    timeout 90 => timeout 1070 LeaderTimeout
"""
STALLS = """
    settings 500 4 10 0 => ok
    restart 0 0 => ok
    timeout 10 => timeout 500 StallTimeout
    notarization 1 0 7 => added true -
    verdict 1 true 100 => certified 1
    timeout 100 => timeout 500 StallTimeout
    notarization 2 1 7 => added true -
    verdict 2 true 200 => certified 2
    timeout 200 => timeout 500 StallTimeout
    finalization 1 0 7 300 => added true -
    timeout 300 => timeout 600 StallTimeout
    finalization 2 1 7 400 => added true -
    timeout 400 => timeout 700 StallTimeout
    settings 0 4 10 0 => ok
    restart 0 410 => ok
    timeout 420 => timeout 1410 LeaderTimeout
"""
RETENTIONS = """
    notarization 4 3 7 => added true -
    finalization 20 19 7 5 => added true -
    notarization 12 11 7 => added true -
    settings 0 4 5 0 => ok
    restart-pruned 0 5 => ok
    record => record 2
    view => view 21 20 15
    prune => pruned 1 12 13
    settings 0 4 10 0 => ok
    restart 0 6 => refused 14 RetentionGrown
    restart-pruned 0 6 => refused 14 RetentionGrown
    view => view 21 20 15
    record => record 2
    settings 0 4 5 0 => ok
    restart-pruned 0 7 => ok
    record => record 1
    settings 0 4 0 0 => ok
    restart 0 8 => ok
    view => view 21 20 20
"""
RECOVERIES = """
    nullification 3 5 => added true
    notarization 15 14 7 => added true -
    settings 0 4 10 20 => ok
    restart 0 6 => ok
    view => view 21 20 10
    record => record 3
    broadcast nullification 3 => none
    best => finalization 20
    settings 0 4 10 0 => ok
    restart 0 8 => ok
    view => view 21 20 10
"""
VOTES = """
    nullify 1 => nullify 1 false
    notarization 1 0 7 => added true -
    verdict 1 true 10 => certified 1
    notarization 3 2 7 => added true -
    verdict 3 false 20 => certified 3
    view => view 2 0 0
    settings 0 4 10 5 => ok
    restart 0 30 => ok
    view => view 6 5 0
    nullify 6 => nullify 6 false
    settings 0 4 10 3 => ok
    restart 0 40 => ok
    view => view 6 5 0
    nullify 6 => nullify 6 true
    record => record 8
"""
ROWS = (
    ("a view that was abandoned is skipped within the budget of each lifetime", 5, BUDGETS),
    ("the first view that is not finalized stalls, in the life that has a stall timeout", 5, STALLS),
    ("a pruning goes by the last life's retention, and a retention grows only before", 1, RETENTIONS),
    ("entries below the retention of a floor are passed over, and a later floor rolls nothing back", 1, RECOVERIES),
    ("votes and verdicts over lifetimes that begin at floors", 1, VOTES),
)


def script_of(shows, term_length, text):
    pairs = [row.strip().partition(REPLIED)[::2] for row in text.strip().splitlines()]
    lines, replies = zip(*pairs)
    return Script(shows, ("voter", "4", "0", str(term_length), "0"), lines, replies, True)


def all_rows():
    """The scripts."""
    return [script_of(*row) for row in ROWS]
