/* A program of the header, in C and in C++ alike: P12's run, the same by appends in one session and from an occupied start, then answers that refuse and what they leave. */
#include "leechgrommet.h"

#include <float.h>
#include <inttypes.h>
#include <math.h>
#include <stdio.h>
#include <string.h>

#define POINTS 3
#define NUMBERS (2 * POINTS * POINTS)
#define CAPACITY 4
#define WITH_ROOM (2 * CAPACITY * CAPACITY)
#define LENT (-7.25)
#define DESKS 8
#define MANY 1025

static size_t places[3];
static double part[1];

static void number(double x)
{
    uint64_t bits;
    memcpy(&bits, &x, sizeof bits);
    printf(" %016" PRIX64, bits);
}

/* A call by name: its answer, a refusal's places and part, and the numbers passed to it. */
static void print_answer(const char *call, uint8_t answer, const double *passed, size_t count)
{
    size_t i;
    printf("%s: %d", call, answer);
    if (answer != LEECHGROMMET_ACCEPTED) {
        printf(" at %d %d %d, part", (int)places[0], (int)places[1], (int)places[2]);
        number(part[0]);
    }
    printf(",");
    for (i = 0; i < count; i++)
        number(passed[i]);
    printf("\n");
}

/* What a session's counters hold. */
static void print_counters(const uint64_t *counters)
{
    size_t desk;
    printf("counters:");
    for (desk = 0; desk < DESKS; desk++)
        printf(" %" PRIu64, counters[desk]);
    printf("\n");
}

static void particle_number(const char *call, const double *lesser, size_t points, size_t time, double *value, size_t value_len)
{
    value[0] = LENT;
    print_answer(call, leechgrommet_particle_number(lesser, NUMBERS, points, POINTS, 1, time, 1e-12, value, value_len, places, 3, part, 1), value, 1);
}

/* A list of flows by name: its answer and flows, then the numbers of the queries' refusals. Query k is of time k modulo 4, a hopping of i
 * and a factor of one half, so that its flow is the particle number: time 3 is past the points. Query 4 is of an orbital past n, and the hopping of 5 is
 * infinite. */
static void bond_flows(const char *call, const double *lesser, size_t queries, size_t numbers_len)
{
    static size_t times[MANY], a[MANY], b[MANY];
    static double hoppings[2 * MANY], charges[MANY], flows[MANY];
    static uint8_t refused[MANY];
    size_t k, shown = queries < 6 ? queries : 6;
    for (k = 0; k < MANY; k++) {
        times[k] = k % 4;
        a[k] = k == 4;
        b[k] = 0;
        hoppings[2 * k] = k == 5 ? HUGE_VAL : 0;
        hoppings[2 * k + 1] = 1;
        charges[k] = 0.5;
        flows[k] = LENT;
        refused[k] = 7;
    }
    print_answer(call, leechgrommet_bond_flows_into(lesser, NUMBERS, POINTS, POINTS, 1, times, queries, a, queries, b, queries, hoppings, 2 * queries, charges,
        queries, flows, queries, refused, numbers_len, places, 3, part, 1), flows, shown);
    printf("refused:");
    for (k = 0; k < shown; k++)
        printf(" %d", refused[k]);
    printf("\n");
}

/* P12 to two points in a capacity of four, then by appends to three, to four and beyond: what is in room stays as it was passed. All are at
 * desk 3, whose counter begins where the 98 products of the run over four points fill it; that of desk 4 is full. */
static void appends(void)
{
    double times[CAPACITY] = {0, 1, 2, 3}, step[WITH_ROOM] = {0}, lesser_self_energy[WITH_ROOM] = {0}, value[1];
    double retarded[WITH_ROOM], lesser[WITH_ROOM], kernel[WITH_ROOM], lesser_advanced[WITH_ROOM];
    uint64_t counters[DESKS + 1] = {0, 0, 0, UINT64_MAX - 98, UINT64_MAX, 0, 0, 0, 0};
    size_t t, u, points;
    uint8_t answer;

    for (t = 0; t < WITH_ROOM; t++)
        retarded[t] = lesser[t] = kernel[t] = lesser_advanced[t] = LENT;
    for (t = 0; t < CAPACITY; t++)
        for (u = 0; u < CAPACITY; u++) {
            step[2 * (t * CAPACITY + u)] = u <= t;
            lesser_self_energy[2 * (t * CAPACITY + u) + 1] = 1;
        }
    answer = leechgrommet_transient_run(counters, DESKS, 3, times, CAPACITY, step, WITH_ROOM, step, WITH_ROOM, lesser_self_energy, WITH_ROOM, 2, CAPACITY, 1,
        1e-12, retarded, WITH_ROOM, lesser, WITH_ROOM, kernel, WITH_ROOM, lesser_advanced, WITH_ROOM, places, 3, part, 1);
    print_answer("transient_run in a capacity", answer, lesser, WITH_ROOM);
    print_counters(counters);
    for (points = 2; points <= CAPACITY; points++) {
        /* The last of these is one too many. */
        answer = leechgrommet_append_point(counters, DESKS, 3, times, CAPACITY, step, WITH_ROOM, step, WITH_ROOM, lesser_self_energy, WITH_ROOM, points,
            CAPACITY, 1, 1e-12, retarded, WITH_ROOM, lesser, WITH_ROOM, kernel, WITH_ROOM, lesser_advanced, WITH_ROOM, places, 3, part, 1);
        print_answer("append_point", answer, lesser, WITH_ROOM);
        print_counters(counters);
        answer = leechgrommet_particle_number(lesser, WITH_ROOM, points + 1, CAPACITY, 1, points, 1e-12, value, 1, places, 3, part, 1);
        print_answer("particle_number in a capacity", answer, value, answer == LEECHGROMMET_ACCEPTED);
    }

    /* The new point again, with a free propagator that overflows: 17 at the desk that is full now, which comes before; 3 with nine counters, and 22 at
     * desk 8 even then; at desk 0 10, and its row and column are +0. */
    for (u = 0; u < CAPACITY; u++)
        step[2 * ((CAPACITY - 1) * CAPACITY + u)] = DBL_MAX;
    answer = leechgrommet_append_point(counters, DESKS, 3, times, CAPACITY, step, WITH_ROOM, step, WITH_ROOM, lesser_self_energy, WITH_ROOM, CAPACITY - 1,
        CAPACITY, 1, 1e-12, retarded, WITH_ROOM, lesser, WITH_ROOM, kernel, WITH_ROOM, lesser_advanced, WITH_ROOM, places, 3, part, 1);
    print_answer("append_point at a full counter", answer, lesser, WITH_ROOM);
    answer = leechgrommet_append_point(counters, DESKS + 1, 0, times, CAPACITY, step, WITH_ROOM, step, WITH_ROOM, lesser_self_energy, WITH_ROOM,
        CAPACITY - 1, CAPACITY, 1, 1e-12, retarded, WITH_ROOM, lesser, WITH_ROOM, kernel, WITH_ROOM, lesser_advanced, WITH_ROOM, places, 3, part, 1);
    print_answer("append_point with nine counters", answer, lesser, WITH_ROOM);
    answer = leechgrommet_append_point(counters, DESKS + 1, 8, times, CAPACITY, step, WITH_ROOM, step, WITH_ROOM, lesser_self_energy, WITH_ROOM,
        CAPACITY - 1, CAPACITY, 1, 1e-12, retarded, WITH_ROOM, lesser, WITH_ROOM, kernel, WITH_ROOM, lesser_advanced, WITH_ROOM, places, 3, part, 1);
    print_answer("append_point at desk 8 with nine counters", answer, lesser, WITH_ROOM);
    print_counters(counters);
    answer = leechgrommet_append_point(counters, DESKS, 0, times, CAPACITY, step, WITH_ROOM, step, WITH_ROOM, lesser_self_energy, WITH_ROOM, CAPACITY - 1,
        CAPACITY, 1, 1e-12, retarded, WITH_ROOM, lesser, WITH_ROOM, kernel, WITH_ROOM, lesser_advanced, WITH_ROOM, places, 3, part, 1);
    print_answer("append_point that overflows", answer, lesser, WITH_ROOM);
    print_counters(counters);
}

/* P12 from g0 = i to two points in a capacity of three, at desk 7, and an append: what the run over three points leaves, particle numbers 1, 3.8125 and
 * 26.3125, of 59 products. Then shapes and a number of g0 that are refused, and 1 of g0 with seven counters. */
static void occupied(void)
{
    double times[POINTS] = {0, 1, 2}, step[NUMBERS] = {0}, lesser_self_energy[NUMBERS] = {0}, value[1], g0[LEECHGROMMET_BLOCK_NUMBERS] = {0, 1};
    double retarded[NUMBERS], lesser[NUMBERS], kernel[NUMBERS], lesser_advanced[NUMBERS];
    const size_t shapes[4][2] = {{1, 0}, {17, 1}, {2, 2}, {1, 1}};
    uint64_t counters[DESKS] = {0};
    size_t t, u;
    uint8_t answer;

    for (t = 0; t < NUMBERS; t++)
        retarded[t] = lesser[t] = kernel[t] = lesser_advanced[t] = LENT;
    for (t = 0; t < POINTS; t++)
        for (u = 0; u < POINTS; u++) {
            step[2 * (t * POINTS + u)] = u <= t;
            lesser_self_energy[2 * (t * POINTS + u) + 1] = 1;
        }
    answer = leechgrommet_transient_run_occupied(counters, DESKS, 7, times, POINTS, step, NUMBERS, step, NUMBERS, lesser_self_energy, NUMBERS, 1, 1, g0, 2,
        POINTS, 1, 1e-12, retarded, NUMBERS, lesser, NUMBERS, kernel, NUMBERS, lesser_advanced, NUMBERS, places, 3, part, 1);
    print_answer("transient_run_occupied", answer, lesser, NUMBERS);
    print_counters(counters);
    answer = leechgrommet_append_point_occupied(counters, DESKS, 7, times, POINTS, step, NUMBERS, step, NUMBERS, lesser_self_energy, NUMBERS, 1, 1, g0, 2,
        POINTS, 1, 1e-12, retarded, NUMBERS, lesser, NUMBERS, kernel, NUMBERS, lesser_advanced, NUMBERS, places, 3, part, 1);
    print_answer("append_point_occupied", answer, lesser, NUMBERS);
    print_counters(counters);
    for (t = 0; t < POINTS; t++)
        particle_number("particle_number from an occupied start", lesser, POINTS, t, value, 1);

    g0[1] = DBL_MAX * 2;
    for (t = 0; t < 4; t++) {
        answer = leechgrommet_transient_run_occupied(counters, DESKS, 7, times, POINTS, step, NUMBERS, step, NUMBERS, lesser_self_energy, NUMBERS,
            shapes[t][0], shapes[t][1], g0, POINTS, POINTS, 1, 1e-12, retarded, NUMBERS, lesser, NUMBERS, kernel, NUMBERS, lesser_advanced, NUMBERS, places, 3,
            part, 1);
        print_answer("transient_run_occupied refused by g0", answer, lesser, 2);
    }
    answer = leechgrommet_append_point_occupied(counters, DESKS - 1, 7, times, POINTS, step, NUMBERS, step, NUMBERS, lesser_self_energy, NUMBERS, 1, 0, g0, 2,
        POINTS, 1, 1e-12, retarded, NUMBERS, lesser, NUMBERS, kernel, NUMBERS, lesser_advanced, NUMBERS, places, 3, part, 1);
    print_answer("append_point_occupied with seven counters and no columns", answer, lesser, 2);
    answer = leechgrommet_append_point_occupied(counters, DESKS - 1, 7, times, POINTS, step, NUMBERS, step, NUMBERS, lesser_self_energy, NUMBERS, 1, 1, g0, 2,
        POINTS, 1, 1e-12, retarded, NUMBERS, lesser, NUMBERS, kernel, NUMBERS, lesser_advanced, NUMBERS, places, 3, part, 1);
    print_answer("append_point_occupied with seven counters", answer, lesser, 2);
    print_counters(counters);
}

int main(void)
{
    double times[POINTS] = {0, 1, 2}, step[NUMBERS] = {0}, lesser_self_energy[NUMBERS] = {0}, none[NUMBERS] = {0}, most[NUMBERS], least[NUMBERS];
    double retarded[NUMBERS], lesser[NUMBERS], kernel[NUMBERS], lesser_advanced[NUMBERS], value[2] = {LENT, LENT}, residuals[7] = {0};
    double numbers[LEECHGROMMET_BLOCK_NUMBERS], two_orbitals[32] = {0};
    size_t t, u, shape[2] = {7, 7};
    uint64_t counters[DESKS] = {0};
    uint8_t decided[1] = {7}, answer;

    for (t = 0; t < POINTS; t++)
        for (u = 0; u < POINTS; u++) {
            step[2 * (t * POINTS + u)] = u <= t;
            lesser_self_energy[2 * (t * POINTS + u) + 1] = 1;
        }
    for (t = 0; t < NUMBERS; t++) {
        most[t] = DBL_MAX;
        least[t] = -DBL_MAX;
    }
    /* The density at time 0 has the largest number twice on its diagonal. */
    two_orbitals[1] = two_orbitals[7] = DBL_MAX;

    printf("norm:");
    number(leechgrommet_norm(3, 4));
    printf("\n");

    answer = leechgrommet_transient_run(counters, DESKS, 0, times, POINTS, step, NUMBERS, step, NUMBERS, lesser_self_energy, NUMBERS, POINTS, POINTS, 1, 1e-12,
        retarded, NUMBERS, lesser, NUMBERS, kernel, NUMBERS, lesser_advanced, NUMBERS, places, 3, part, 1);
    print_answer("transient_run", answer, lesser, NUMBERS);
    print_counters(counters);
    for (t = 0; t <= POINTS; t++)
        particle_number("particle_number", lesser, POINTS, t, value, 1);
    particle_number("particle_number of a longer slice", lesser, POINTS, POINTS, value, 2);
    particle_number("particle_number of one time and a longer slice", lesser, 1, 0, value, 2);
    answer = leechgrommet_particle_number(lesser, NUMBERS, POINTS, POINTS, 1, POINTS, 0, value, 1, places, 3, part, 1);
    print_answer("particle_number without a tolerance", answer, value, 1);
    answer = leechgrommet_particle_number(two_orbitals, 32, 2, 2, 2, 0, 1e-12, value, 1, places, 3, part, 1);
    print_answer("particle_number that is infinite", answer, value, 1);

    bond_flows("bond_flows_into", lesser, 6, 6);
    bond_flows("bond_flows_into of 1,024", lesser, MANY - 1, MANY - 1);
    bond_flows("bond_flows_into of 1,025", lesser, MANY, MANY);
    bond_flows("bond_flows_into of 1,025 with a shorter slice", lesser, MANY, MANY - 1);
    bond_flows("bond_flows_into of none", lesser, 0, 0);

    appends();
    occupied();

    times[2] = 1;
    answer = leechgrommet_causal_volterra_convolution(times, POINTS, step, NUMBERS, step, NUMBERS, POINTS, 1, retarded, NUMBERS,
        places, 3, part, 1);
    print_answer("causal_volterra_convolution", answer, retarded, 2);
    times[2] = 2;

    for (t = 0; t < 7; t++)
        residuals[t] = LENT;
    answer = leechgrommet_consistency_report(step, NUMBERS, step, NUMBERS, lesser_self_energy, NUMBERS, lesser_self_energy, NUMBERS, POINTS, 1,
        residuals, 6, places, 3, part, 1);
    print_answer("consistency_report of six residuals", answer, residuals, 7);
    answer = leechgrommet_consistency_report(most, NUMBERS, least, NUMBERS, lesser_self_energy, NUMBERS, lesser_self_energy, NUMBERS, POINTS, 1,
        residuals, 7, places, 3, part, 1);
    print_answer("consistency_report", answer, residuals, 7);
    answer = leechgrommet_is_consistent(residuals, 7, 0, decided, 0, places, 3, part, 1);
    print_answer("is_consistent without a byte", answer, value, 0);
    answer = leechgrommet_is_consistent(residuals, 6, 0, decided, 1, places, 3, part, 1);
    print_answer("is_consistent of six residuals", answer, value, 0);
    answer = leechgrommet_is_consistent(residuals, 7, 1e-12, decided, 1, places, 3, part, 1);
    printf("is_consistent: %d, %d\n", answer, decided[0]);

    /* All identities hold but the equal-time rule: G^> - G^< is +0. */
    answer = leechgrommet_consistency_report(none, NUMBERS, none, NUMBERS, lesser_self_energy, NUMBERS, lesser_self_energy, NUMBERS, POINTS, 1,
        residuals, 7, places, 3, part, 1);
    print_answer("consistency_report without a spectrum", answer, residuals, 7);
    answer = leechgrommet_is_consistent(residuals, 7, 1e-12, decided, 1, places, 3, part, 1);
    printf("is_consistent: %d, %d\n", answer, decided[0]);

    for (t = 0; t < LEECHGROMMET_BLOCK_NUMBERS; t++)
        numbers[t] = LENT;
    answer = leechgrommet_block_identity(2, shape, 2, numbers, LEECHGROMMET_BLOCK_NUMBERS - 1, places, 3, part, 1);
    print_answer("block_identity of a shorter slice", answer, numbers, 1);
    printf("%d by %d\n", (int)shape[0], (int)shape[1]);
    answer = leechgrommet_block_identity(17, shape, 2, numbers, LEECHGROMMET_BLOCK_NUMBERS, places, 3, part, 1);
    print_answer("block_identity", answer, numbers, 1);
    printf("%d by %d\n", (int)shape[0], (int)shape[1]);
    numbers[0] = numbers[6] = DBL_MAX;
    answer = leechgrommet_block_trace(2, 2, numbers, value, 2, places, 3, part, 1);
    print_answer("block_trace that is infinite", answer, value, 2);
    answer = leechgrommet_block_from_scalar(0.5, -2, shape, 2, numbers, LEECHGROMMET_BLOCK_NUMBERS, places, 3, part, 1);
    print_answer("block_from_scalar", answer, numbers, 3);
    printf("%d by %d\n", (int)shape[0], (int)shape[1]);
    answer = leechgrommet_block_trace(1, 1, numbers, value, 2, places, 3, part, 1);
    print_answer("block_trace", answer, value, 2);
    return answer;
}
