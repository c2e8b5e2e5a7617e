"""Stored schedules of networks, each with what it has to show.

A step is a line of text: the members that are asked, a colon, the line, and after ` => ` the reply that is wanted. Member 0
is faulty: it leads the first term, sends each member another proposal if that serves it, and votes for everything."""

from dataclasses import dataclass, field

from lib.networks.protocol import FINALIZATION, NOTARIZATION, NULLIFICATION, Certificate, Terms, vote_in


class NotShown(Exception):
    """A schedule that does not show what it has to."""


@dataclass(frozen=True)
class Schedule:
    """Steps of a network of four, and how many members back some certificates in the end."""

    name: str
    shows: str
    terms: Terms
    steps: tuple
    backing: dict = field(default_factory=dict)


def steps_in(text):
    """The steps of a text: (member, line, wanted reply or None)."""
    steps = []
    for row in text.strip().splitlines():
        members, _, rest = row.strip().partition(": ")
        line, _, wanted = rest.partition(" => ")
        steps += [(int(member), line, wanted or None) for member in members.split(" ")]
    return tuple(steps)


def verified(members, view, parent, payload):
    """The members are handed a proposal, verify it and vote to notarize it."""
    return f"""
        {members}: proposal {view} {parent} {payload} => true
        {members}: verify
        {members}: verified {view} => true
        {members}: notarize {view} => notarize {view} {parent} {payload}
    """


def certified(members, view, parent, payload, now):
    """The members are handed a notarization and certify it."""
    return f"""
        {members}: notarization {view} {parent} {payload} => added true -
        {members}: verdict {view} true {now} => certified {view}
    """


def joined(*texts):
    return "\n".join(text.strip() for text in texts if text.strip())


TWO_PROPOSALS = joined(
    verified("1 2", 1, 0, 7),
    verified("3", 1, 0, 8),
    "3: nullify 1 => nullify 1 false",
)
SKIPPED_BY_ONE = joined(
    "1: nullify 1 => nullify 1 false",
    verified("2 3", 1, 0, 7),
    certified("1 2 3", 1, 0, 7, 10),
    "2 3: finalize 1 => finalize 1 0 7",
    "1: finalize 1 => none",
)
GATE = joined(
    SKIPPED_BY_ONE,
    verified("2 3", 2, 1, 9),
    certified("1", 2, 1, 9, 20),
    "1: prune => pruned",
    "1: finalize 2 => none",
    "1: finalization 1 0 7 21 => added true -",
    "1: finalize 2 => finalize 2 1 9",
)
GATE_OF_EARLIER_LIFE = joined(
    SKIPPED_BY_ONE,
    verified("2 3", 2, 1, 9),
    certified("1", 2, 1, 9, 20),
    "1: restart-pruned 0 21 => ok",
    "1: finalize 2 => none",
    "1: finalization 1 0 7 22 => added true -",
    "1: finalize 2 => finalize 2 1 9",
)
CHAIN = joined(*(verified("1 2 3", view, view - 1, view + 6) for view in (1, 2, 3)))
HANDOFF = joined(
    verified("1 2 3", 1, 0, 7),
    "1: propose => prepare 2 1 1 7",
    "1: proposed 2 8 3 => true",
    "1: notarize 2 => notarize 2 1 8",
    certified("2 3", 1, 0, 7, 10),
    verified("2 3", 2, 1, 8),
)


def proposal_made(view, leader):
    """A correct leader builds its proposal, or the faulty one's is handed round; all vote to notarize it."""
    parent, payload = view - 1, view + 100
    if leader == 0:
        return verified("1 2 3", view, parent, payload)
    others = " ".join(str(member) for member in (1, 2, 3) if member != leader)
    return joined(
        f"{leader}: propose",
        f"{leader}: proposed {view} {payload} {view * 10} => true",
        f"{leader}: notarize {view} => notarize {view} {parent} {payload}",
        verified(others, view, parent, payload),
    )


def finalized_view(view, leader):
    """A view that all certify and finalize."""
    parent, payload, now = view - 1, view + 100, view * 10
    return joined(
        proposal_made(view, leader),
        certified("1 2 3", view, parent, payload, now),
        f"1 2 3: finalize {view} => finalize {view} {parent} {payload}",
        f"1 2 3: finalization {view} {parent} {payload} {now} => added true -",
    )


def asked_again(views):
    """No vote of these views is cast again."""
    return joined(*(f"1 2 3: {vote} {view} => none" for view in views for vote in ("notarize", "nullify", "finalize")))


def pruned_lives():
    """25 views finalized one after another; once view 20 is, each member begins a new lifetime from a pruned record."""
    views = [finalized_view(view, (view - 1) % 4) for view in range(1, 26)]
    again = joined("1 2 3: restart-pruned 0 205 => ok", "1 2 3: view => view 21 20 10", asked_again(range(1, 10)))
    return joined(*views[:20], again, *views[20:], asked_again(range(1, 10)))


def notarization(view, parent, payload):
    return Certificate(NOTARIZATION, view, parent, payload)


def nullification(view):
    return Certificate(NULLIFICATION, view)


def finalization(view, parent, payload):
    return Certificate(FINALIZATION, view, parent, payload)


FIRST_SCHEDULES = (
    Schedule(
        "two-proposals", "a leader that equivocates: one of its two proposals is notarized, and the view is not skipped",
        Terms(1, 0), steps_in(TWO_PROPOSALS),
        {notarization(1, 0, 7): 3, notarization(1, 0, 8): 2, nullification(1): 2},
    ),
    Schedule(
        "skipped-by-one", "a view is finalized while one member and the faulty one vote to skip it",
        Terms(5, 0), steps_in(SKIPPED_BY_ONE),
        {finalization(1, 0, 7): 3, nullification(1): 2},
    ),
    Schedule(
        "gate", "who voted to skip a view votes to finalize a later one of the term only once a finalization shows it not skipped",
        Terms(5, 0), steps_in(GATE),
        {finalization(1, 0, 7): 3, finalization(2, 1, 9): 2, nullification(1): 2},
    ),
    Schedule(
        "gate-of-an-earlier-life", "the same, where the vote to skip was cast in an earlier lifetime",
        Terms(5, 0), steps_in(GATE_OF_EARLIER_LIFE),
        {finalization(1, 0, 7): 3, finalization(2, 1, 9): 2, nullification(1): 2},
    ),
    Schedule(
        "chain-ahead", "three views of a term are voted for before any certificate",
        Terms(5, 4), steps_in(CHAIN),
        {notarization(1, 0, 7): 4, notarization(2, 1, 8): 4, notarization(3, 2, 9): 4},
    ),
    Schedule(
        "handoff", "the next leader builds on a view that is not certified yet, and the others verify it once it is",
        Terms(1, 0), steps_in(HANDOFF),
        {notarization(1, 0, 7): 4, notarization(2, 1, 8): 4},
    ),
)


def with_restarts(schedule, restart):
    """The schedule with a restart after every vote, and the steps that led to the vote once more; replies are not compared."""
    steps, done = [], {}
    for member, line, wanted in schedule.steps:
        earlier = done.setdefault(member, [])
        earlier.append((member, line, None))
        steps.append((member, line, None))
        if wanted is not None and vote_in(line, wanted) is not None:
            steps += [(member, f"{restart} 30", None), *earlier]
    word = restart.split(" ")[0]
    shows = f"{schedule.name} with a {word} after every vote, and what led to it once more"
    return Schedule(f"{schedule.name}-{word}", shows, schedule.terms, tuple(steps), schedule.backing)


def all_schedules(crashes=False):
    """Every stored schedule; those with crashes only where they are asked for."""
    lives = ("restart 1", "restart-pruned 1", "crash") if crashes else ("restart 1", "restart-pruned 1")
    restarted = [with_restarts(it, life) for life in lives for it in FIRST_SCHEDULES]
    pruned = Schedule(
        "pruned-lives", "25 views are finalized one after another, records are pruned at the twentieth, and no vote of a pruned view comes again",
        Terms(1, 0), steps_in(pruned_lives()), {finalization(view, view - 1, view + 100): 4 for view in range(1, 26)},
    )
    return [*FIRST_SCHEDULES, *restarted, pruned]


def play(schedule, network):
    """Plays a schedule's steps, and looks whether it shows what it has to."""
    for member, line, wanted in schedule.steps:
        reply = network.ask(member, line)
        if wanted is not None and reply != wanted:
            raise NotShown(f"{schedule.name}: member {member} answered {reply!r} to {line!r}, not {wanted!r}")
    for certificate, backing in schedule.backing.items():
        if network.laws.count(certificate) != backing:
            raise NotShown(f"{schedule.name}: {network.laws.count(certificate)} back the {certificate}, not {backing}")
