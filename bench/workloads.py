"""The workloads: each a name, the program's arguments, and the lines of a size with their replies, `LINE => REPLY`."""

from typing import Callable, NamedTuple

import finalized_views
import healthy_views
import nullified_views
import orders
import resolver_calls
import tracked_views

VOTER = ("voter", "4", "0", "1", "0")
VOTER_AHEAD = ("voter", "4", "0", "5", "4")
LONG_TERM = ("voter", "4", "1", str(finalized_views.LONG_TERM), "8")
RESOLVER = ("resolver", "5")


class Workload(NamedTuple):
    name: str
    arguments: tuple
    lines: Callable


def all_workloads():
    yield Workload("views, by certificates", VOTER, healthy_views.by_certificates)
    yield Workload("views, one by one", VOTER, healthy_views.one_by_one)
    yield Workload("views, five ahead", VOTER_AHEAD, healthy_views.ahead)
    yield from of_each_order("voter", VOTER, orders.ALL, tracked_views.notarized)
    yield from of_tracked_views()
    yield from of_nullified_views()
    yield from of_finalized_views()
    yield Workload("restarts", VOTER, tracked_views.restarted)
    yield from of_each_order("resolver", RESOLVER, orders.ALL[:2], resolver_calls.notarized)
    yield from of_each_order("repair", RESOLVER, orders.ALL[:2], resolver_calls.repaired)


def of_each_order(name, arguments, chosen, lines_of):
    for word, order in chosen:
        yield Workload(f"{name}, {word}", arguments, lambda size, order=order: lines_of(order(size)))


def of_tracked_views():
    yield Workload("certified", VOTER, tracked_views.certified)
    for asked in (tracked_views.best, tracked_views.timeout, tracked_views.prune):
        yield Workload(f"certified, {asked.__name__}", VOTER, tracked_views.certified_with(asked))
    yield Workload("certified, pruned at once", VOTER, tracked_views.pruned_at_once)
    yield Workload("notarized, candidates", VOTER, tracked_views.waiting)


def of_nullified_views():
    yield Workload("nullified", VOTER, nullified_views.alone)
    yield Workload("nullified, late proposals", VOTER, nullified_views.with_late_proposals)
    yield Workload("nullified, gap searches", VOTER, nullified_views.with_proposals)
    yield Workload("nullified, out of order", VOTER, nullified_views.out_of_order)
    yield Workload("nullified, own proposals", VOTER, nullified_views.with_own_proposals)


def of_finalized_views():
    yield Workload("finalized, none dropped", VOTER, finalized_views.none_dropped)
    yield Workload("finalized, behind all", VOTER, finalized_views.behind_all)
    yield Workload("finalized, one restart", VOTER, finalized_views.restarted_once)
    yield Workload("one term", LONG_TERM, finalized_views.one_term)
    yield Workload("one term, far proposals", LONG_TERM, finalized_views.far_proposals)
