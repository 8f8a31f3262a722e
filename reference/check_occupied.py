"""Asserts cases of document 02's L5, a dot that starts occupied: g0 at +0 against the empty form, the count, where the
lines of g0 stand, the value at (0,0), P12 with g0 = i, an isolated dot, histories, demand 3, and which product of a start
overflows. Prints what it held, and the bits of every slice of P12 with g0 = i."""

import itertools
import math
import random
from typing import NamedTuple

import document01
from bits import hex_of, same_bits
from check_sessions import formed
from document01 import (
    ACCEPTED, DEFAULT_TOLERANCE, LARGEST, MOST_POINTS, Block, Overflow, Refusal, block_at, block_of, entries, function_length, held, place,
)
from document02 import (
    DESKS, LARGEST_COUNT, Formed, append_in_session, append_point, bond_flow_into, density_matrix, formula, occupied_append,
    occupied_append_in_session, occupied_append_products, occupied_formula, occupied_run, occupied_run_in_session, occupied_run_products,
    occupied_start, one_body_expectation, opened, particle_number, places, run_in_session, transient_run, within,
)

NAN, INFINITY = math.nan, math.inf
LENT = ("retarded", "lesser", "kernel", "sums")
# The empty form and the occupied one, of a run and of an append, which is told a point less.
FORMS = [(transient_run, occupied_run), (append_point, occupied_append)]
BOOKED = [(run_in_session, occupied_run_in_session), (append_in_session, occupied_append_in_session)]


# ---- Calls -----------------------------------------------------------------------


def g0_of(n, *values):
    """The n by n block of these complex numbers; past its entries it holds NaN."""
    block = block_of(n, n, values)
    return block._replace(numbers=held(block) + [NAN] * (512 - 2 * n * n))


def one(re, im=0.0):
    return g0_of(1, (re, im))


def function_of(capacity, n, entry):
    """A function over the capacity, its entries given by (t, u, a, b)."""
    return [part for t, u in places(capacity) for a in range(n) for b in range(n) for part in entry(t, u, a, b)]


def real(capacity, values):
    """A function of one orbital that has these real numbers at their places."""
    return function_of(capacity, 1, lambda t, u, a, b: (values.get((t, u), 0.0), 0.0))


def before(capacity, n):
    return [[number] * function_length(capacity, n) for number in (NAN, 7.0, -0.0, -INFINITY)]


class Inputs(NamedTuple):
    """What a call takes after its points, but for g0."""

    capacity: int
    n: int
    times: list
    operands: list
    lent: list
    tolerance: float = DEFAULT_TOLERANCE

    def told(self, *g0):
        return (self.capacity, self.n, self.times, *self.operands, *g0, self.tolerance, *self.lent)


def p12(capacity):
    ones = real(capacity, {(t, u): 1.0 for t, u in places(capacity) if u <= t})
    return Inputs(capacity, 1, [float(index) for index in range(capacity)], [ones, ones, [0.0, 1.0] * capacity**2], before(capacity, 1))


def drawn_operand(points, capacity, n, retarded, choose, scale=1.0):
    def entry(t, u, a, b):
        if max(t, u) >= points:
            return NAN, INFINITY
        return (0.0, 0.0) if retarded and t < u else (scale * choose.uniform(-1, 1), scale * choose.uniform(-1, 1))

    return function_of(capacity, n, entry)


def drawn(points, capacity, n, choose, scale=1.0):
    """Random inputs at the points, +0 above the diagonal of both retarded ones; room is not finite."""
    times = list(itertools.accumulate(choose.uniform(0.01, 2) for _ in range(points))) + [NAN] * (capacity - points)
    operands = [drawn_operand(points, capacity, n, retarded, choose, scale) for retarded in (True, True, False)]
    return Inputs(capacity, n, times, operands, before(capacity, n))


def drawn_g0(n, choose):
    return g0_of(n, *((choose.uniform(-1, 1), choose.uniform(-1, 1)) for _ in range(n * n)))


def agree(left, right):
    return len(left) == len(right) and all(map(same_bits, left, right))


def slices_of(outcome):
    return [outcome.lent[name] for name in LENT]


def stand(outcome, slices):
    """Whether every slice has these numbers, in bits."""
    return all(map(agree, slices_of(outcome), slices))


# ---- g0 at +0 --------------------------------------------------------------------


def zeros_of(n):
    """Blocks of zeros: all +0, all -0, and of both."""
    yield g0_of(n, *[(0.0, 0.0)] * (n * n))
    yield g0_of(n, *[(-0.0, -0.0)] * (n * n))
    yield g0_of(n, *itertools.islice(itertools.cycle([(0.0, -0.0), (-0.0, 0.0)]), n * n))


def alike(forms, points, inputs):
    """The answer of the empty form, which that with g0 at +0 has too, with the same slices in bits; so with g0 at -0."""
    empty, occupied = forms
    due = empty(points, *inputs.told())
    for g0 in zeros_of(inputs.n):
        found = occupied(points, *inputs.told(g0))
        assert found.answer == due.answer and stand(found, slices_of(due)), (found.answer, due.answer)
    return due.answer


def refused_inputs():
    """A number before 17, points with an append's new one, and inputs in a capacity of four that are refused by it."""
    good = p12(4)
    free, *others = good.operands
    with_free = lambda at, value: good._replace(operands=[[*free[:at], value, *free[at + 1 :]], *others])
    yield 1, 1, good
    yield 2, 3, good._replace(capacity=257)
    yield 3, 3, good._replace(capacity=3)
    yield 16, 5, good
    yield 16, LARGEST_COUNT, good
    yield 4, 3, good._replace(times=[0.0, 1.0, INFINITY, 3.0])
    yield 5, 3, good._replace(times=[0.0, 1.0, 1.0, 3.0])
    yield 6, 3, good._replace(times=[-LARGEST, 0.0, LARGEST, NAN])
    yield 7, 3, with_free(8, NAN)
    yield 8, 3, good._replace(tolerance=-0.0)
    yield 9, 3, with_free(2, 1.0)


def check_zero():
    run, append = FORMS
    choose = random.Random(1)
    answers = []
    for n, points, room, scale in itertools.product((1, 2, 3), (2, 3, 4), (0, 1), (1.0, 2.0**512, 2.0**-600)):
        answers.append(alike(run, points, drawn(points, points + room, n, choose, scale)))
    # Onto contents of no run, of which one may be not finite.
    for n, points, _ in itertools.product((1, 2), (2, 3), range(20)):
        length = function_length(points + 1, n)
        lent = [[choose.choice([choose.uniform(-1, 1), -0.0, LARGEST]) for _ in range(length)] for _ in LENT]
        lent[choose.randrange(4)][choose.randrange(length)] = choose.choice([NAN, INFINITY, 0.5])
        answers.append(alike(append, points - 1, drawn(points, points + 1, n, choose)._replace(lent=lent)))
    for name, (t, u) in itertools.product(range(4), places(2)):
        lent = [[0.5] * 32 for _ in LENT]
        lent[name][place(4, 1, t, u, 0, 0)] = NAN
        answers.append(alike(append, 2, p12(4)._replace(lent=lent)))
    for number, points, inputs in refused_inputs():
        for told, forms in ((points, run), (points - 1, append)):
            answers.append(alike(forms, told, inputs))
            assert answers[-1].number == number
    accepted, overflown = answers.count(ACCEPTED), answers.count(Refusal(10))
    print(f"g0 at +0, and at -0, leaves the empty form's bits: {len(answers)} calls, {accepted} accepted, {overflown} refused by 10")


# ---- The count -------------------------------------------------------------------


def at_desk(desk, counter):
    """A session whose other desks are full."""
    return opened([counter if at == desk else LARGEST_COUNT for at in range(DESKS)])


def check_count():
    for points in range(1, MOST_POINTS + 1):
        assert occupied_run_products(points) == occupied_formula(points) == formula(points) + 2 * points**2
    for points in range(1, MOST_POINTS):
        more = occupied_formula(points + 1) - occupied_formula(points)
        assert occupied_append_products(points) == more == formula(points + 1) - formula(points) + 2 * (2 * points + 1)
    choose = random.Random(2)
    for n, points in itertools.product((1, 2), range(2, 8)):
        inputs = drawn(points, points + 1, n, choose, 0.25)
        outcome, count = formed(occupied_run, points, *inputs.told(drawn_g0(n, choose)))
        assert outcome.answer == ACCEPTED and count == occupied_formula(points)
        lent = [[0.5] * function_length(points + 1, n)] * 4
        outcome, count = formed(occupied_append, points - 1, *inputs._replace(lent=lent).told(drawn_g0(n, choose)))
        assert outcome.answer == ACCEPTED and count == occupied_append_products(points - 1)
    assert [occupied_formula(points) for points in (1, 2, 3, 4)] == [2, 19, 59, 130] and occupied_append_products(1) == 17
    print(f"2·N·N products more a run, to N = {MOST_POINTS}, and 2·(2p + 1) an append: as many as the reading forms")


def check_17():
    """N = 3 at 2^64 - 1 - 41: the empty form is let through, the other is 17, whatever g0 is. It is let through at 2^64 - 1 - 59."""
    inputs = p12(4)._replace(lent=[[0.5] * 32] * 4)
    for (empty, occupied), told, count, more in zip(BOOKED, (3, 2), (41, 30), (18, 10)):
        for g0, desk in itertools.product((one(0.0), one(0.0, 1.0)), range(DESKS)):
            outcome, session = occupied(at_desk(desk, LARGEST_COUNT - count - more), desk, told, *inputs.told(g0))
            assert outcome.answer == Formed(count + more) and session == at_desk(desk, LARGEST_COUNT)
            for counter in (LARGEST_COUNT - count - more + 1, LARGEST_COUNT - count, LARGEST_COUNT):
                full = at_desk(desk, counter)
                (outcome, session), formed_now = formed(occupied, full, desk, told, *inputs.told(g0))
                assert outcome.answer == Refusal(17) and session == full and stand(outcome, inputs.lent) and formed_now == 0
            outcome, session = empty(at_desk(desk, LARGEST_COUNT - count), desk, told, *inputs.told())
            assert outcome.answer == Formed(count)
    print("17 asks the form's own count: 59 over three points where the empty form has 41, 40 for an append of the third where it has 30")


# ---- Lines of g0 -----------------------------------------------------------------


def faults(more):
    """What is refused by a line of g0, or beside one: number, desk, points told, inputs, g0. `more` is 1 for an append."""
    good, bad, told = p12(4), one(0.5, -INFINITY), 3 - more
    shape = lambda rows, columns: Block(rows, columns, [0.5] * 512)
    short, late = good._replace(lent=[[0.0] * 31] * 4), good._replace(times=[NAN] * 4)
    above = good._replace(operands=[real(4, {(0, 1): 1.0}), *good.operands[1:]])
    yield 22, 8, 0, short, shape(0, 0)
    for rows, columns in [(0, 1), (1, 0), (0, 0), (0, 17), (17, 0)]:
        yield 1, 3, told, good._replace(capacity=257), shape(rows, columns)
    yield 1, 3, 1 - more, good, shape(17, 17)
    yield 1, 3, told, good._replace(n=0), shape(17, 17)
    for rows, columns in [(17, 1), (1, 17), (17, 17), (LARGEST_COUNT, LARGEST_COUNT)]:
        yield 2, 3, told, short, shape(rows, columns)
    yield 2, 3, told, good._replace(n=17), shape(17, 17)
    for rows, columns in [(2, 2), (1, 2), (2, 1), (16, 16)]:
        yield 3, 3, 5, late, shape(rows, columns)
    yield 16, 3, 5, late, bad
    yield 4, 3, told, late, bad
    yield 7, 3, told, good._replace(tolerance=NAN), bad
    yield 8, 3, told, above._replace(tolerance=0.0), one(LARGEST)
    yield 9, 3, told, above, one(LARGEST)


def check_lines():
    room, full = at_desk(3, LARGEST_COUNT - 59), at_desk(3, LARGEST_COUNT)
    for more, (_, call) in enumerate(BOOKED):
        for number, desk, told, inputs, g0 in faults(more):
            for session in (room, full):
                outcome, after = call(session, desk, told, *inputs.told(g0))
                assert outcome.answer.number == number and after == session and stand(outcome, inputs.lent), (number, outcome.answer)
        # The lowest position as in a block, after the three functions.
        for at in range(8):
            numbers = [NAN if index in (at, 7) or index > 7 else 0.5 for index in range(512)]
            outcome, _ = call(room, 3, 3 - more, *drawn(3, 4, 2, random.Random(at)).told(Block(2, 2, numbers)))
            assert outcome.answer == Refusal(7, operand=3, first=at)
        good = p12(4)._replace(lent=[[2.0] * 32] * 4)
        wrong = good._replace(operands=[*good.operands[:2], [NAN] * 32])
        assert call(room, 3, 3 - more, *wrong.told(one(NAN)))[0].answer == Refusal(7, operand=2)
        for session, number in ((full, 17), (room, 10)):
            (outcome, after), count = formed(call, session, 3, 3 - more, *good.told(one(LARGEST)))
            assert outcome.answer == Refusal(number) and after == session and (count > 0) == (number == 10)
    print("22, then 1, 2 and 3 of g0 in their lines, 16, 4, then 7 of g0 as operand 3 by a block's position, 8, 9, 17, 10")


# ---- What it starts from ---------------------------------------------------------


def check_start():
    """Where G^R(0,0) is -i times the identity, its zeros of either sign, G^<(0,0) equals g0 by value, whatever the rest is."""
    choose = random.Random(3)
    edges = [0.0, -0.0, 5e-324, -5e-324, 1.0, 1 / 3, LARGEST, -LARGEST]
    count = 0
    for n, points, _ in itertools.product((1, 2, 3, 4), (2, 3), range(12)):
        inputs = drawn(points, points, n, choose, 2.0**-10)
        free = inputs.operands[0]
        zero = lambda: choose.choice([0.0, -0.0])
        free[: 2 * n * n] = [part for a in range(n) for b in range(n) for part in (zero(), -1.0 if a == b else zero())]
        g0 = g0_of(n, *((choose.choice(edges), choose.choice(edges)) for _ in range(n * n)))
        outcome = occupied_run(points, *inputs.told(g0))
        if outcome.answer == ACCEPTED:
            assert outcome.lent["lesser"][: 2 * n * n] == held(g0)
            count += 1
    assert count > 50
    print(f"G^<(0,0) equals g0 by value where G^R(0,0) is -i times the identity: {count} runs")


def check_bench():
    """P12 with g0 = i: to each G^<(t,t') of P12 comes G^R(t,0)·i·G^R(t',0), all of it exact."""
    outcome, empty = occupied_run(3, *p12(3).told(one(0.0, 1.0))), transient_run(3, *p12(3).told())
    assert outcome.answer == ACCEPTED
    assert all(agree(outcome.lent[name], empty.lent[name]) for name in ("retarded", "kernel", "sums"))
    retarded, lesser = outcome.lent["retarded"], outcome.lent["lesser"]
    assert [retarded[place(3, 1, t, 0, 0, 0)] for t in range(3)] == [1.0, 1.5, 3.5]
    for t, u in places(3):
        at = place(3, 1, t, u, 0, 0)
        more = retarded[place(3, 1, t, 0, 0, 0)] * retarded[place(3, 1, u, 0, 0, 0)]
        assert agree(lesser[at : at + 2], [0.0, empty.lent["lesser"][at + 1] + more])
    assert [particle_number(3, 3, 1, lesser, t, DEFAULT_TOLERANCE) for t in range(3)] == [1.0, 3.8125, 26.3125]
    print("P12 with g0 = i, whose run carries 59, every slice by rows, real part before imaginary:")
    for name, t in itertools.product(LENT, range(3)):
        numbers = outcome.lent[name][6 * t : 6 * t + 6]
        print(f"  {name:8} {t}  {' '.join(map(hex_of, numbers))}  {' '.join(map(str, numbers))}")


def isolated(capacity, n, times):
    """Self-energies 0, and free -i times the identity on and below the diagonal."""
    free = function_of(capacity, n, lambda t, u, a, b: (0.0, -1.0) if t >= u and a == b else (0.0, 0.0))
    nothing = [0.0] * function_length(capacity, n)
    return Inputs(capacity, n, times, [free, nothing, nothing], before(capacity, n))


def check_isolated():
    """An isolated dot with g0 = i·f keeps its occupation f at every time, exactly; so does one of a matrix of occupations."""
    choose = random.Random(4)
    times = [0.0, 0.1, 0.25, 1.0, 1.5]
    occupations = [0.0, 1.0, 0.5, 1 / 3, 0.1, 5e-324, math.nextafter(1.0, 0.0), LARGEST]
    for f in occupations:
        outcome = occupied_run(5, *isolated(5, 1, times).told(one(0.0, f)))
        lesser = outcome.lent["lesser"]
        assert outcome.answer == ACCEPTED and lesser == [0.0, f] * 25
        assert agree([particle_number(5, 5, 1, lesser, t, DEFAULT_TOLERANCE) for t in range(5)], [f] * 5)
    for n in (2, 3):
        rho = [choose.uniform(-1, 1) for _ in range(n * n)]
        outcome = occupied_run(4, *isolated(5, n, times).told(g0_of(n, *((0.0, x) for x in rho))))
        for t in range(4):
            answer, block = density_matrix(4, 5, n, outcome.lent["lesser"], t)
            assert answer == ACCEPTED and entries(block) == [(x, 0.0) for x in rho]
    print(f"an isolated dot keeps its occupation at every time, exactly: {len(occupations)} numbers, two matrices")


# ---- Histories and demand 3 ------------------------------------------------------


def check_histories():
    """The run to some points and appends with the same g0 leave the run over all points, in bits; another g0 changes G^< alone."""
    choose = random.Random(5)
    count = 0
    for n, first, last, room in itertools.product((1, 2), (2, 3), (3, 4, 5), (0, 1)):
        inputs, g0 = drawn(last, last + room, n, choose), drawn_g0(n, choose)
        outcome, session = occupied_run_in_session(opened([0] * DESKS), 0, first, *inputs.told(g0))
        for points in range(first, last):
            outcome, session = occupied_append_in_session(session, 5, points, *inputs._replace(lent=slices_of(outcome)).told(g0))
        whole, after = occupied_run_in_session(opened([0] * DESKS), 1, last, *inputs.told(g0))
        assert isinstance(whole.answer, Formed) and stand(outcome, slices_of(whole))
        assert sum(session.counters) == sum(after.counters) == occupied_formula(last)
        other = occupied_append(last - 1, *inputs._replace(lent=slices_of(whole)).told(drawn_g0(n, choose)))
        same = [agree(other.lent[name], whole.lent[name]) for name in LENT]
        assert other.answer == ACCEPTED and same == [name != "lesser" for name in LENT]
        count += 1
    print(f"a run and its appends with the same g0 leave and count what the run over all points does: {count} histories")


def changed_after(inputs, points, k, choose):
    """Inputs over so many points, in no more room, that agree to index k as demand 3 supposes; the rest is drawn anew."""
    n = inputs.n
    times = inputs.times[: k + 1] + [inputs.times[k] + 0.5 * index for index in range(1, points - k)]
    operands = []
    for operand, numbers in enumerate(inputs.operands):
        retarded = operand < 2
        changed = drawn_operand(points, points, n, retarded, choose)
        for t, u in places(k + 1):
            begin, size = place(points, n, t, u, 0, 0), 2 * n * n
            old = place(inputs.capacity, n, t, u, 0, 0)
            changed[begin : begin + size] = numbers[old : old + size]
        operands.append(changed)
    return Inputs(points, n, times, operands, [[0.25] * function_length(points, n)] * 4, 0.5)


def seen(k, points, inputs, outcome):
    """What demand 3 is about: rows to k of both functions, and three observables up to k; the retarded function is +0 after column k."""
    capacity, n = inputs.capacity, inputs.n
    retarded, lesser = (within(outcome.lent[name], points, capacity, n) for name in ("retarded", "lesser"))
    block = block_of(n, n, [(0.5, 0.25 * index) for index in range(n * n)])
    for t in range(k + 1):
        for u in range(k + 1):
            yield from (part for numbers in (retarded, lesser) for value in block_at(numbers, points, n, t, u) for part in value)
        assert all(same_bits(part, 0.0) for u in range(t + 1, points) for z in block_at(retarded, points, n, t, u) for part in z)
        yield particle_number(points, points, n, lesser, t, LARGEST)
        yield one_body_expectation(points, points, n, lesser, t, block, LARGEST)
        yield bond_flow_into(points, points, n, lesser, t, 0, n - 1, (0.5, -0.75), 1.5)


def check_demand_3():
    """Earlier rows are blind to later data, where g0 is equal in bits; the empty form counts as g0 at +0."""
    choose = random.Random(6)
    count = 0
    for n, points in itertools.product((1, 2, 3), (3, 4)):
        for k in range(points - 1):
            inputs, g0, zero = drawn(points, points + 1, n, choose), drawn_g0(n, choose), next(zeros_of(n))
            rows = lambda outcome: list(seen(k, points, inputs, outcome))
            left = occupied_run(points, *inputs.told(g0))
            left_zero, left_empty = occupied_run(points, *inputs.told(zero)), transient_run(points, *inputs.told())
            for later in (points, k + 2):
                other = changed_after(inputs, later, k, choose)
                right, right_zero = (occupied_run(later, *other.told(block)) for block in (g0, zero))
                right_empty = transient_run(later, *other.told())
                for one_run, other_run in [(left, right), (left_zero, right_empty), (left_empty, right_zero), (left_zero, right_zero)]:
                    assert one_run.answer == other_run.answer == ACCEPTED
                    assert agree(rows(one_run), list(seen(k, later, other, other_run)))
                    count += 1
                # The later data do reach later rows.
                last = [block_at(x.lent["lesser"], y.capacity, n, k + 1, k + 1) for x, y in ((left, inputs), (right, other))]
                assert last[0] != last[1]
            # g0 is a premise: with another the rows differ.
            minus = g0._replace(numbers=[-x for x in g0.numbers])
            assert not agree(rows(left), rows(occupied_run(points, *inputs.told(minus))))
    print(f"demand 3, of both forms, the empty one as g0 at +0: {count} pairs of runs whose later data differ")


# ---- Overflow --------------------------------------------------------------------


def overflowing(n, retarded, g0, t, u):
    """Which product of the start at (t, u) is not finite, if one is."""
    try:
        document01.multiplied(retarded(t, 0), entries(g0), n, n, n)
    except Overflow:
        return "first"
    try:
        occupied_start(n, entries(g0), retarded, t, u)
    except Overflow:
        return "second"


def check_start_overflow(n, free, g0, **due):
    """A run over two points without self-energies, so that G^R is free and the empty form is accepted. `due` names the places whose start
    overflows, as t0_u1, and by which product. The append of the second point overflows unless (0, 0) is the only one."""
    due = {(int(name[1]), int(name[4])): product for name, product in due.items()}
    nothing, block = [0.0] * function_length(2, n), 2 * n * n
    inputs = Inputs(2, n, [0.0, 1.0], [free, nothing, nothing], before(2, n))
    assert transient_run(2, *inputs.told()).answer == ACCEPTED
    found = {(t, u): overflowing(n, lambda t, u: block_at(free, 2, n, t, u), g0, t, u) for t, u in places(2)}
    assert {at: product for at, product in found.items() if product} == due, found
    outcome = occupied_run(2, *inputs.told(g0))
    assert outcome.answer == (Refusal(10) if due else ACCEPTED)
    assert not due or stand(outcome, [nothing] * 4)
    lent = [free[:block] + [NAN] * 3 * block, [NAN] * 4 * block, [NAN] * 4 * block, [0.0] * block + [NAN] * 3 * block]
    outcome = occupied_append(1, *inputs._replace(lent=lent).told(g0))
    assert outcome.answer == (Refusal(10) if set(due) - {(0, 0)} else ACCEPTED)
    assert outcome.answer == ACCEPTED or stand(outcome, [numbers[:block] + [0.0] * 3 * block for numbers in lent])


def check_overflow():
    root, below = 2.0**512, math.nextafter(2.0**512, 0.0)
    row_0, row_1 = {"t0_u0": "first", "t0_u1": "first"}, {"t1_u0": "first", "t1_u1": "first"}
    # The first product, of row 0 and of row 1; the least g0 that overflows, and one less.
    check_start_overflow(1, real(2, {(0, 0): LARGEST}), one(2.0), **row_0)
    check_start_overflow(1, real(2, {(0, 0): root}), one(0.0, root), **row_0)
    check_start_overflow(1, real(2, {(1, 0): LARGEST}), one(0.0, 2.0), **row_1)
    check_start_overflow(1, real(2, {(0, 0): 0.5, (1, 0): math.nextafter(1.0, 2.0)}), one(LARGEST), **row_1)
    check_start_overflow(1, real(2, {(0, 0): 0.5, (1, 0): 1.0}), one(LARGEST))
    # The second one: at (0, 0) alone, and one less; at (1, 1) alone; at every place but (0, 0).
    check_start_overflow(1, real(2, {(0, 0): root}), one(1.0), t0_u0="second")
    check_start_overflow(1, real(2, {(0, 0): below}), one(1.0))
    check_start_overflow(1, real(2, {(1, 0): root}), one(0.0, -1.0), t1_u1="second")
    check_start_overflow(1, real(2, {(0, 0): 4.0, (1, 0): LARGEST}), one(0.5), t0_u1="second", t1_u0="second", t1_u1="second")
    # Two orbitals: G^R(0,0)·g0 overflows and g0·G^A(0,0) would be 0; of the transposed g0 nothing overflows.
    corner = function_of(2, 2, lambda t, u, a, b: (LARGEST, 0.0) if (t, u, a, b) == (0, 0, 0, 0) else (0.0, 0.0))
    right, zero = (2.0, 0.0), (0.0, 0.0)
    check_start_overflow(2, corner, g0_of(2, zero, right, zero, zero), **row_0)
    check_start_overflow(2, corner, g0_of(2, zero, zero, right, zero))
    # The start and a term are finite and their sum is not; and a start with which a sum is finite that overflows in the empty form.
    free, nothing = real(2, {(1, 0): 1.0, (1, 1): 1.0}), [0.0] * 8
    for start, source, *due in [(LARGEST, 0.5 * LARGEST, ACCEPTED, Refusal(10)), (-LARGEST, LARGEST, Refusal(10), ACCEPTED)]:
        inputs = Inputs(2, 1, [0.0, 2.0], [free, nothing, real(2, {(0, 1): source, (1, 1): source})], before(2, 1))
        assert [transient_run(2, *inputs.told()).answer, occupied_run(2, *inputs.told(one(start))).answer] == due
    print("10 where the first product of a start overflows, or the second, in row 0 or after, and the empty form is accepted")


def main():
    check_zero()
    check_count()
    check_17()
    check_lines()
    check_start()
    check_bench()
    check_isolated()
    check_histories()
    check_demand_3()
    check_overflow()
    print("occupied: ok")


if __name__ == "__main__":
    main()
