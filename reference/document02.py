"""A plain reading of document 02's L1, appending a time point, L3, work in the
answer, L13, a counter for each desk, L5, a dot that starts occupied, and L6, many
bond flows in a call, over that of document 01.

Slices are "laid out for a capacity of points (row t begins at t times capacity
blocks)": entry (a, b) of block (t, u) begins at `place(capacity, n, t, u, a, b)`,
and there are as many times as the capacity. The points come first; what has an
index that is not below them is room, and no entry. Calls take and return what
those of document01.py do. A run is told its points; an append is told the points
before it, and its new point has that index. The forms that start occupied take g0,
a Block, after the three functions: it is operand 3.
"""

import math
from typing import NamedTuple

import document01
from document01 import (
    ACCEPTED, REFUSED_BLOCK, Outcome, Overflow, Refusal, adjoint_of, block_at, entries, first_sums, function_length,
    grid_lines, held, interval_sum, lay_out, line_1, line_2, place, read, solve_dyson, step_weight, support_lines, table,
    weighted_sum, zeros,
)

# ---- The layout -------------------------------------------------------------------


def within(numbers, points, capacity, n):
    """The points' entries, laid out as document 01 has it: room is left out."""
    return lay_out(table(points, lambda t, u: block_at(numbers, capacity, n, t, u)))


def places(points):
    return [(t, u) for t in range(points) for u in range(points)]


def new_places(new):
    """The row and the column of the new point: its index is the larger one of the place."""
    return [(t, u) for t, u in places(new + 1) if max(t, u) == new]


def written(numbers, capacity, n, blocks):
    """The numbers, with these blocks at their places; the rest stays."""
    after = list(numbers)
    for (t, u), block in blocks.items():
        begin = place(capacity, n, t, u, 0, 0)
        after[begin : begin + 2 * n * n] = [part for value in block for part in value]
    return after


# ---- Questions in order -----------------------------------------------------------


def line_7(points, capacity, n, functions, block):
    """Document 02: "line 7's position is that in the lent slice"; room is not asked."""
    for operand, numbers in enumerate(functions):
        for t, u in places(points):
            begin = place(capacity, n, t, u, 0, 0)
            for position in range(begin, begin + 2 * n * n):
                if not math.isfinite(numbers[position]):
                    return Refusal(7, operand=operand, first=position)
    refusal = None if block is None else document01.line_7([held(block)])
    return refusal and refusal._replace(operand=len(functions))


def line_16(points, capacity):
    """Document 02: "16 if the points would pass the capacity, after line 3"."""
    if points > capacity:
        return Refusal(16)


def line_18(queries):
    """L6: "18 if the list exceeds 1,024 queries, after line 3 and after 16"."""
    if queries > 1024:
        return Refusal(18)


def capacity_lines(points, capacity, orbitals, functions, lent=(), times=None, block=None, queries=0, lists_fit=True):
    """Lines 1, 2, 3, 16, 18, then 4 to 7 over the points, an append's new one among them.

    Document 02: "Line 1 counts the new point too, lines 2 and 3 read the capacity as N". `lists_fit`
    says whether the slices of a list of queries fit it.
    """
    shapes = [] if block is None else [(block.rows, block.columns)]
    sizes = line_1(points, orbitals, shapes) or line_2(capacity, orbitals, shapes)
    if sizes:
        return sizes
    length = function_length(capacity, orbitals)
    lengths_fit = all(len(numbers) == length for numbers in [*functions, *lent])
    times_fit = times is None or len(times) == capacity
    block_fits = block is None or (block.rows, block.columns) == (orbitals, orbitals)
    if not (lengths_fit and times_fit and block_fits and lists_fit):
        return Refusal(3)
    refusal = line_16(points, capacity) or line_18(queries) or (None if times is None else grid_lines(times[:points]))
    return refusal or line_7(points, capacity, orbitals, functions, block)


def unchanged(lent):
    return {name: list(numbers) for name, numbers in lent.items()}


def cleared(lent):
    """Every slice at +0 throughout, room included."""
    return {name: [0.0] * len(numbers) for name, numbers in lent.items()}


# ---- The run ----------------------------------------------------------------------


def transient_run(
    points, capacity, orbitals, times, free, self_energy, lesser_self_energy, tolerance, retarded, lesser, kernel, sums
):
    """Document 01's run over the points' entries. Accepted, it leaves room; its 10 clears room too."""
    lent = {"retarded": retarded, "lesser": lesser, "kernel": kernel, "sums": sums}
    operands = [free, self_energy, lesser_self_energy]
    refusal = capacity_lines(points, capacity, orbitals, operands, lent.values(), times)
    if refusal:
        return Outcome(refusal, unchanged(lent))
    of_points = lambda numbers: within(numbers, points, capacity, orbitals)
    slices = [of_points(numbers) for numbers in lent.values()]
    run = document01.transient_run(points, orbitals, times[:points], *map(of_points, operands), tolerance, *slices)
    if run.answer == Refusal(10):
        return Outcome(run.answer, cleared(lent))
    made = {
        name: {at: block_at(numbers, points, orbitals, *at) for at in places(points)}
        for name, numbers in run.lent.items()
    }
    return Outcome(run.answer, {name: written(lent[name], capacity, orbitals, made[name]) for name in lent})


# ---- The append -------------------------------------------------------------------
# "Only the new row and column of K, G^R, X and G^< are worked out"; old entries "are
# read as the buffers hold them, whatever that is, and stay". A function that is read
# gives the block of a place (t, u); blocks that are made stand by their places.


def with_new(old, made):
    """A function whose new row and column were made, and whose old entries the buffer holds."""
    return lambda t, u: made[t, u] if (t, u) in made else old(t, u)


def new_kernel(new, n, times, free, self_energy):
    """K(t, u) is the causal convolution of both, +0 above the diagonal."""

    def block(t, u):
        if t < u:
            return zeros(n)
        return interval_sum(n, times, u, t, lambda s: free(t, s), lambda s: self_energy(s, u))

    return {at: block(*at) for at in new_places(new)}


def new_retarded(new, n, times, free, kernel, retarded):
    """G(t, u) starts as free(t, u) and adds K(t, s)·G(s, u), s from u to t - 1, +0 above the diagonal.

    Every K is of the new row, every G of an old one.
    """

    def block(t, u):
        if t < u:
            return zeros(n)
        terms = ((step_weight(times, s, u, t), kernel[t, s], retarded(s, u)) for s in range(u, t))
        return weighted_sum(n, free(t, u), terms)

    return {at: block(*at) for at in new_places(new)}


def new_sums(new, n, times, lesser_self_energy, retarded):
    """X(t, u) sums s from 0 to u over the lesser self-energy and G^A(s, u)."""

    def block(t, u):
        advanced = lambda s: adjoint_of(retarded(u, s), n, n)
        return interval_sum(n, times, 0, u, lambda s: lesser_self_energy(t, s), advanced)

    return {at: block(*at) for at in new_places(new)}


def new_lesser(new, n, times, retarded, sums):
    """G^<(t, u) sums s from 0 to t over G^R(t, s) and X(s, u)."""

    def block(t, u):
        return interval_sum(n, times, 0, t, lambda s: retarded(t, s), lambda s: sums(s, u))

    return {at: block(*at) for at in new_places(new)}


def new_blocks(new, n, times, free, self_energy, lesser_self_energy, retarded, sums, made_of=new_lesser):
    """The new row and column of all four; `retarded` and `sums` are what the buffers hold. `made_of` makes those of G^<."""
    made_kernel = new_kernel(new, n, times, free, self_energy)
    made_retarded = new_retarded(new, n, times, free, made_kernel, retarded)
    all_retarded = with_new(retarded, made_retarded)
    made_sums = new_sums(new, n, times, lesser_self_energy, all_retarded)
    made_lesser = made_of(new, n, times, all_retarded, with_new(sums, made_sums))
    return {"retarded": made_retarded, "lesser": made_lesser, "kernel": made_kernel, "sums": made_sums}


def solve_lines(points, capacity, orbitals, times, operands, lent, tolerance, g0=None):
    """Lines 1, 2, 3, 16 and 4 to 9, all over the points, an append's new one among them; 1, 2, 3 and 7 of g0 too."""
    refusal = capacity_lines(points, capacity, orbitals, operands, lent, times, g0)
    if refusal:
        return refusal
    free, self_energy = (within(numbers, points, capacity, orbitals) for numbers in operands[:2])
    return support_lines(points, orbitals, free, self_energy, tolerance)


def append_point(
    points, capacity, orbitals, times, free, self_energy, lesser_self_energy, tolerance, retarded, lesser, kernel, sums
):
    lent = {"retarded": retarded, "lesser": lesser, "kernel": kernel, "sums": sums}
    operands = [free, self_energy, lesser_self_energy]
    refusal = solve_lines(points + 1, capacity, orbitals, times, operands, lent.values(), tolerance)
    return appended(refusal, points, capacity, orbitals, times, operands, lent, new_lesser)


def appended(refusal, points, capacity, orbitals, times, operands, lent, made_of):
    """Document 02: "On an append's 10 the new row and column hold +0 and the rest is untouched"."""
    if refusal:
        return Outcome(refusal, unchanged(lent))
    reading = lambda numbers: lambda t, u: block_at(numbers, capacity, orbitals, t, u)
    try:
        read_now = [*operands, lent["retarded"], lent["sums"]]
        made = new_blocks(points, orbitals, times, *map(reading, read_now), made_of)
        answer = ACCEPTED
    except Overflow:
        made = dict.fromkeys(lent, {at: zeros(orbitals) for at in new_places(points)})
        answer = Refusal(10)
    return Outcome(answer, {name: written(lent[name], capacity, orbitals, made[name]) for name in lent})


# ---- A dot that starts occupied ---------------------------------------------------
# L5: "A second form of the run takes a block g0, as operand 3"; "Appends take g0 too".
# K, G^R and X are as before.


def occupied_start(n, g0, retarded, t, u):
    """(G^R(t, 0)·g0)·G^A(0, u): two products, each of which is asked by 10."""
    first = document01.multiplied(retarded(t, 0), g0, n, n, n)
    return document01.multiplied(first, adjoint_of(retarded(u, 0), n, n), n, n, n)


def occupied_lesser(made, n, times, g0, retarded, sums):
    """G^<(t, u) "then starts from" that "instead of zero"; "where t is 0 that start is the whole block"."""

    def block(t, u):
        start = occupied_start(n, g0, retarded, t, u)
        if t == 0:
            return start
        terms = ((step_weight(times, s, 0, t), retarded(t, s), sums(s, u)) for s in range(t + 1))
        return weighted_sum(n, start, terms)

    return {at: block(*at) for at in made}


def occupied_blocks(points, n, times, free, self_energy, lesser_self_energy, g0):
    """All four of a run, by places; the functions have the points' entries alone."""
    kernel, retarded = solve_dyson(points, n, times, free, self_energy)
    sums = first_sums(points, n, times, read(lesser_self_energy, points, n), retarded)
    reading = lambda function: lambda t, u: function[t][u]
    lesser = occupied_lesser(places(points), n, times, g0, reading(retarded), reading(sums))
    by_place = lambda function: {(t, u): function[t][u] for t, u in places(points)}
    return {"retarded": by_place(retarded), "lesser": lesser, "kernel": by_place(kernel), "sums": by_place(sums)}


def occupied_run(
    points, capacity, orbitals, times, free, self_energy, lesser_self_energy, g0, tolerance, retarded, lesser, kernel, sums
):
    lent = {"retarded": retarded, "lesser": lesser, "kernel": kernel, "sums": sums}
    operands = [free, self_energy, lesser_self_energy]
    refusal = solve_lines(points, capacity, orbitals, times, operands, lent.values(), tolerance, g0)
    if refusal:
        return Outcome(refusal, unchanged(lent))
    of_points = lambda numbers: within(numbers, points, capacity, orbitals)
    try:
        made = occupied_blocks(points, orbitals, times[:points], *map(of_points, operands), entries(g0))
    except Overflow:
        return Outcome(Refusal(10), cleared(lent))
    return Outcome(ACCEPTED, {name: written(lent[name], capacity, orbitals, made[name]) for name in lent})


def occupied_append(
    points, capacity, orbitals, times, free, self_energy, lesser_self_energy, g0, tolerance, retarded, lesser, kernel, sums
):
    lent = {"retarded": retarded, "lesser": lesser, "kernel": kernel, "sums": sums}
    operands = [free, self_energy, lesser_self_energy]
    refusal = solve_lines(points + 1, capacity, orbitals, times, operands, lent.values(), tolerance, g0)
    made_of = lambda new, n, times, *read_now: occupied_lesser(new_places(new), n, times, entries(g0), *read_now)
    return appended(refusal, points, capacity, orbitals, times, operands, lent, made_of)


# ---- Work in the answer -----------------------------------------------------------
# L3: "An accepted transient run carries the count it formed". A sum forms a product
# for each of its s, so the products are counted place by place from the sums above.


def interval_products(start, end):
    """Each s from start to end; L2: no product "where an interval has one point only"."""
    return 0 if start == end else len(range(start, end + 1))


def kernel_products(t, u):
    """K(t, u) sums s from u to t; above the diagonal there is no sum."""
    return 0 if t < u else interval_products(u, t)


def retarded_products(t, u):
    """G(t, u) adds K(t, s)·G(s, u), s from u to t - 1; above the diagonal there is no sum."""
    return 0 if t < u else len(range(u, t))


def sums_products(t, u):
    """X(t, u) sums s from 0 to u."""
    return interval_products(0, u)


def lesser_products(t, u):
    """G^<(t, u) sums s from 0 to t."""
    return interval_products(0, t)


def products(made):
    """The products of K, G^R, X and G^< at the places that are made."""
    each = (kernel_products, retarded_products, sums_products, lesser_products)
    return sum(count(t, u) for t, u in made for count in each)


def run_products(points):
    return products(places(points))


def append_products(points):
    """Of an append onto so many points."""
    return products(new_places(points))


def formula(points):
    """Document 02: "N(N+1)(2N+1)/6 + N·N·(N+1) - 3N"."""
    return points * (points + 1) * (2 * points + 1) // 6 + points * points * (points + 1) - 3 * points


def start_products(made):
    """L5: "The two products of an entry are counted", at every place that is made."""
    return sum(2 for _ in made)


def occupied_run_products(points):
    return run_products(points) + start_products(places(points))


def occupied_append_products(points):
    return append_products(points) + start_products(new_places(points))


def occupied_formula(points):
    """L5: "2·N·N more per run"."""
    return formula(points) + 2 * points * points


# ---- Sessions ---------------------------------------------------------------------
# A call in a session takes the session and its desk first, and gives the session back
# beside its outcome.

LARGEST_COUNT = 2**64 - 1
DESKS = 8


class Session(NamedTuple):
    """L13: "eight counters, one for each desk numbered 0 to 7, in place of the session's one"."""

    counters: tuple


def opened(totals):
    """Each counter is "opened at the total its own desk carries over"."""
    assert len(totals) == DESKS and all(0 <= total <= LARGEST_COUNT for total in totals)
    return Session(tuple(totals))


class Formed(NamedTuple):
    """An accepted answer, which carries the count of the products formed."""

    products: int


def line_22(desk):
    """L13: "22 if the desk is above 7, before line 1"."""
    if desk > 7:
        return Refusal(22)


def line_17(session, desk, count):
    """L3: "17 if the session counter would pass 2^64 - 1"; it may come to that. L13: "that desk's counter"."""
    if session.counters[desk] + count > LARGEST_COUNT:
        return Refusal(17)


def with_count(session, desk, count):
    """L13: "no other desk's counter changes"."""
    counters = list(session.counters)
    counters[desk] += count
    return Session(tuple(counters))


def in_session(session, desk, call, count, points, all_points, told):
    """17 comes "after line 9 and before any product"; a call that is refused adds nothing.

    `count` gives the products by the points that the call is told; `all_points` has an append's
    new one too. `told` is what the call takes after its points: with g0, or without.
    """
    capacity, orbitals, times, free, self_energy, lesser_self_energy, *g0, tolerance, retarded, lesser, kernel, sums = told
    lent = {"retarded": retarded, "lesser": lesser, "kernel": kernel, "sums": sums}
    operands = [free, self_energy, lesser_self_energy]
    refusal = line_22(desk) or solve_lines(all_points, capacity, orbitals, times, operands, lent.values(), tolerance, *g0)
    refusal = refusal or line_17(session, desk, count(points))
    if refusal:
        return Outcome(refusal, unchanged(lent)), session
    outcome = call(points, *told)
    if outcome.answer != ACCEPTED:
        return outcome, session
    formed = count(points)
    return Outcome(Formed(formed), outcome.lent), with_count(session, desk, formed)


def run_in_session(session, desk, points, *told):
    return in_session(session, desk, transient_run, run_products, points, points, told)


def append_in_session(session, desk, points, *told):
    """An append adds what it forms: "A run and its appends count like the run over all points"."""
    return in_session(session, desk, append_point, append_products, points, points + 1, told)


def occupied_run_in_session(session, desk, points, *told):
    return in_session(session, desk, occupied_run, occupied_run_products, points, points, told)


def occupied_append_in_session(session, desk, points, *told):
    return in_session(session, desk, occupied_append, occupied_append_products, points, points + 1, told)


# ---- Observables ------------------------------------------------------------------
# "Observables read the same layout over the points": lines 1, 2, 3, 16 and 7, then
# what document 01 asks and answers of the points' entries.


def density_matrix(points, capacity, orbitals, lesser, time):
    refusal = capacity_lines(points, capacity, orbitals, [lesser])
    if refusal:
        return refusal, REFUSED_BLOCK
    return document01.density_matrix(points, orbitals, within(lesser, points, capacity, orbitals), time)


def particle_number(points, capacity, orbitals, lesser, time, tolerance):
    return capacity_lines(points, capacity, orbitals, [lesser]) or document01.particle_number(
        points, orbitals, within(lesser, points, capacity, orbitals), time, tolerance
    )


def one_body_expectation(points, capacity, orbitals, lesser, time, observable, tolerance):
    return capacity_lines(points, capacity, orbitals, [lesser], block=observable) or document01.one_body_expectation(
        points, orbitals, within(lesser, points, capacity, orbitals), time, observable, tolerance
    )


def bond_flow_into(points, capacity, orbitals, lesser, time, a, b, hopping, charge):
    return capacity_lines(points, capacity, orbitals, [lesser]) or document01.bond_flow_into(
        points, orbitals, within(lesser, points, capacity, orbitals), time, a, b, hopping, charge
    )


# ---- Many bond flows --------------------------------------------------------------
# L6: "Take a list of queries (time, a, b, hopping, factor) as slices, and write each
# answer in list order into two lent slices of the list's length". Hoppings are two
# numbers each; the list's length is that of the times.


def flow_and_number(answer):
    """The flow, "+0 on a refusal", and "the refusal's number (0 if none)"."""
    return (0.0, answer.number) if isinstance(answer, Refusal) else (answer, 0)


def bond_flows_into(points, capacity, orbitals, lesser, times, a, b, hoppings, factors, flows, refusals):
    """L6: "Each answer equals the single call's"; "Lines 1 to 7 refuse the whole call"."""
    lent = {"flows": flows, "refusals": refusals}
    count = len(times)
    fit = len(hoppings) == 2 * count and all(len(numbers) == count for numbers in (a, b, factors, flows, refusals))
    refusal = capacity_lines(points, capacity, orbitals, [lesser], queries=count, lists_fit=fit)
    if refusal:
        return Outcome(refusal, unchanged(lent))
    queries = zip(times, a, b, zip(hoppings[0::2], hoppings[1::2]), factors)
    answers = [flow_and_number(bond_flow_into(points, capacity, orbitals, lesser, *query)) for query in queries]
    return Outcome(ACCEPTED, {"flows": [flow for flow, _ in answers], "refusals": [number for _, number in answers]})
