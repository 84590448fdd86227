/* Calls every function of the header, on the worked figures P1 to P11, at the edges of the rest, on orders of halves,
 * on plans of P1, on P1 with packs, on frames, on openings of the same weight and of unlike kinds, on each field out
 * of range and on sheets of a week, and says which answer differs. That the header declares what the library defines,
 * and that its own calls over jobs, profiles and sheets give what the plain ones give, into another profile and in
 * place, is seen here from C. Compiles as C99, as C11 and as C++17. */
#include "leafanchor.h"

#include <stdio.h>
#include <string.h>

static int wrong;

/* Says that a figure differs. */
static void check(int holds, const char *what)
{
    if (!holds) {
        printf("differs: %s\n", what);
        wrong = 1;
    }
}

/* The same, with the condition as the words. */
#define CHECK(holds) check(holds, #holds)

/* P1: bus free at -600, five jobs. */
static const int32_t p1[] = {7, 0, 1, 0,  -600, 495, 0,   3, 0, 0, 20, -200, 300, 250, 12, 0, 0, 15, 0,
                             200, 300, 5, 0, 1, 0, 100, 100, 450, 9, 0, 0, 15, 0, 100, 500};
static uint8_t order[LEAFANCHOR_ORDER_BYTES];
static int32_t numbers[LEAFANCHOR_ORDER_NUMBERS];
static int32_t starts[LEAFANCHOR_STARTS];
static int32_t profile[LEAFANCHOR_PROFILE_ROOM];
static int32_t work[LEAFANCHOR_WORK_AREA];

/* P1 through packing, unpacking and the reader. */
static void packed_orders(void)
{
    leafanchor_pack_answer packed = leafanchor_pack(-600, p1, 35, order, LEAFANCHOR_ORDER_BYTES);
    CHECK(packed.refusal == 0 && packed.place == 0 && packed.field == 0 && packed.bytes == 44);
    CHECK(memcmp(order, "\x17\xFD\xA8\x00\x1E\x03\xFD\xA8\x07\xBC\x00\x00", 12) == 0);
    leafanchor_unpack_answer unpacked = leafanchor_unpack(order, 44, numbers, LEAFANCHOR_ORDER_NUMBERS);
    CHECK(unpacked.refusal == 0 && unpacked.place == 0 && unpacked.field == 0);
    CHECK(unpacked.jobs == 5 && unpacked.t0 == -600);
    CHECK(memcmp(numbers, p1, sizeof p1) == 0);
    leafanchor_open_answer opened = leafanchor_open(order, 44);
    CHECK(opened.refusal == 0 && opened.jobs == 5);
    leafanchor_step_answer job = leafanchor_step(order, 44, 1);
    CHECK(job.refusal == 0 && job.place == 0 && job.field == 0 && job.end == 0 && job.next == 2);
    CHECK(job.number == 3 && job.pack == 0 && job.critical == 0 && job.weight == 20);
    CHECK(job.ready == -200 && job.length == 300 && job.deadline == 250);
    CHECK(leafanchor_step(order, 44, 5).end == 1);
    CHECK(leafanchor_step(order, 3, 0).refusal == LEAFANCHOR_ORDER_TOO_SHORT);
}

/* P1 as jobs: packed, unpacked and read, and a room of one job too few. */
static void jobs(void)
{
    static const leafanchor_job wanted[] = {
        {7, 0, 1, 0, -600, 495, 0}, {3, 0, 0, 20, -200, 300, 250}, {12, 0, 0, 15, 0, 200, 300},
        {5, 0, 1, 0, 100, 100, 450}, {9, 0, 0, 15, 0, 100, 500}};
    static leafanchor_job got[LEAFANCHOR_MOST_JOBS];
    static uint8_t bytes[LEAFANCHOR_ORDER_BYTES];
    leafanchor_pack_answer packed = leafanchor_pack_jobs(-600, wanted, 5, bytes, LEAFANCHOR_ORDER_BYTES);
    CHECK(packed.refusal == 0 && packed.place == 0 && packed.field == 0 && packed.bytes == 44);
    CHECK(memcmp(bytes, order, 44) == 0);
    leafanchor_unpack_answer unpacked = leafanchor_unpack_jobs(bytes, 44, got, LEAFANCHOR_MOST_JOBS);
    CHECK(unpacked.refusal == 0 && unpacked.place == 0 && unpacked.field == 0);
    CHECK(unpacked.jobs == 5 && unpacked.t0 == -600);
    CHECK(memcmp(got, wanted, sizeof wanted) == 0);
    CHECK(got[1].number == 3 && got[1].pack == 0 && got[1].critical == 0 && got[1].weight == 20);
    CHECK(got[1].ready == -200 && got[1].length == 300 && got[1].deadline == 250);
    for (size_t place = 0; place < 5; place++) {
        leafanchor_job job = leafanchor_job_of_step(leafanchor_step(bytes, 44, place));
        CHECK(memcmp(&job, &wanted[place], sizeof job) == 0);
    }
    CHECK(leafanchor_unpack_jobs(bytes, 44, got, 4).refusal == LEAFANCHOR_BUFFER_TOO_SHORT);
    CHECK(leafanchor_pack_jobs(-600, wanted, 5, bytes, 43).refusal == LEAFANCHOR_BUFFER_TOO_SHORT);
    got[2].number = 7;
    packed = leafanchor_pack_jobs(-600, got, 5, bytes, LEAFANCHOR_ORDER_BYTES);
    CHECK(packed.refusal == LEAFANCHOR_NUMBER_REPEATED && packed.place == 2 && packed.field == 0 && packed.bytes == 0);
}

/* The plan of P1, with its starts. */
static void plans(void)
{
    static const int32_t wanted[] = {-600, -90, LEAFANCHOR_LEFT_OUT, 225, 340};
    leafanchor_plan_answer plan =
        leafanchor_plan(order, 44, starts, LEAFANCHOR_STARTS, work, LEAFANCHOR_WORK_AREA);
    CHECK(plan.refusal == 0 && plan.place == 0 && plan.field == 0 && plan.mask == UINT64_C(0xD800000000000000));
    CHECK(plan.kept == 4 && plan.kept_weight == 35 && plan.lost_weight == 15);
    CHECK(plan.finish == 455 && plan.points == 14);
    CHECK(memcmp(starts, wanted, sizeof wanted) == 0);
    plan = leafanchor_plan(order, 44, starts, 4, work, LEAFANCHOR_WORK_AREA);
    CHECK(plan.refusal == LEAFANCHOR_BUFFER_TOO_SHORT && plan.field == 0 && plan.mask == 0);
}

/* P2, P3 and P9. */
static void profiles(void)
{
    static const int32_t bus_free[] = {-600, 0};
    static const int32_t p2[] = {215, 0, 330, 15, 340, 20, 445, 30, 455, 35};
    static const leafanchor_point points[] = {{215, 0}, {330, 15}, {340, 20}, {445, 30}, {455, 35}};
    static const int32_t p[] = {0, 0, 20, 7}, q[] = {5, 7}, p9[] = {0, 0, 5, 7};
    leafanchor_extend_answer extended = leafanchor_extend(bus_free, 2, order, 44, profile,
                                                          LEAFANCHOR_PROFILE_ROOM, work, LEAFANCHOR_WORK_AREA);
    CHECK(extended.refusal == 0 && extended.place == 0 && extended.field == 0 && extended.points == 5);
    CHECK(memcmp(profile, p2, sizeof p2) == 0);
    CHECK(leafanchor_lookup(profile, 10, 214).found == 0);
    CHECK(leafanchor_lookup(profile, 10, 454).weight == 30);
    CHECK(leafanchor_lookup(profile, 9, 0).refusal == LEAFANCHOR_PROFILE_NOT_VALID);
    CHECK(leafanchor_lookup_records(points, 5, 214).found == 0);
    CHECK(leafanchor_lookup_records(points, 5, 455).weight == 35);
    leafanchor_better_answer better = leafanchor_better_of(p, 4, q, 2, profile, LEAFANCHOR_PROFILE_ROOM);
    CHECK(better.refusal == 0 && better.points == 2);
    CHECK(memcmp(profile, p9, sizeof p9) == 0);
}

/* Whether a profile is these numbers. */
static int is(const leafanchor_profile *got, const int32_t *wanted, size_t wanted_len)
{
    return got->numbers_len == wanted_len && memcmp(got->numbers, wanted, wanted_len * sizeof *wanted) == 0;
}

/* P2, P3 and P9 over profiles that carry their length: the order of P1 whole and in two parts, and what a refusal
 * leaves. */
static void held_profiles(void)
{
    static const int32_t p2[] = {215, 0, 330, 15, 340, 20, 445, 30, 455, 35}, p9[] = {0, 0, 5, 7};
    static const leafanchor_profile p = {4, {0, 0, 20, 7}}, q = {2, {5, 7}}, odd = {3, {0, 0, 5}};
    static leafanchor_profile made, front, whole;
    static uint8_t part[LEAFANCHOR_ORDER_BYTES];
    leafanchor_extend_answer answer =
        leafanchor_profile_of_order(order, 44, &made, work, LEAFANCHOR_WORK_AREA);
    CHECK(answer.refusal == 0 && answer.place == 0 && answer.field == 0);
    CHECK(answer.points == 5 && is(&made, p2, 10));
    CHECK(leafanchor_profile_lookup(&made, 214).found == 0 && leafanchor_profile_lookup(&made, 215).found == 1);
    CHECK(leafanchor_profile_lookup(&made, 454).weight == 30 && leafanchor_profile_lookup(&made, 455).weight == 35);

    size_t bytes = leafanchor_pack(-600, p1, 14, part, LEAFANCHOR_ORDER_BYTES).bytes;
    CHECK(leafanchor_profile_of_order(part, bytes, &front, work, LEAFANCHOR_WORK_AREA).refusal == 0);
    bytes = leafanchor_pack(0, p1 + 14, 21, part, LEAFANCHOR_ORDER_BYTES).bytes;
    answer = leafanchor_profile_extended(&front, part, bytes, &whole, work, LEAFANCHOR_WORK_AREA);
    CHECK(answer.refusal == 0 && answer.points == 5 && is(&whole, p2, 10));

    leafanchor_better_answer better = leafanchor_profile_better(&p, &q, &made);
    CHECK(better.refusal == 0 && better.points == 2 && is(&made, p9, 4));
    CHECK(leafanchor_profile_better(&p, &odd, &made).refusal == LEAFANCHOR_PROFILE_NOT_VALID);
    CHECK(made.numbers_len == 0 && leafanchor_profile_lookup(&made, 100).found == 0);
    answer = leafanchor_profile_extended(&odd, part, bytes, &whole, work, LEAFANCHOR_WORK_AREA);
    CHECK(answer.refusal == LEAFANCHOR_PROFILE_NOT_VALID && whole.numbers_len == 0);
    answer = leafanchor_profile_of_order(part, 3, &whole, work, LEAFANCHOR_WORK_AREA);
    CHECK(answer.refusal == LEAFANCHOR_ORDER_TOO_SHORT && whole.numbers_len == 0);
    part[4 + 8] = part[4];
    answer = leafanchor_profile_of_order(part, bytes, &whole, work, LEAFANCHOR_WORK_AREA);
    CHECK(answer.refusal == LEAFANCHOR_JOB_OUT_OF_RANGE && answer.place == 1 && whole.numbers_len == 0);
    CHECK(answer.field == LEAFANCHOR_FIELD_WEIGHT);
    answer = leafanchor_profile_of_order(order, 44, &whole, work, LEAFANCHOR_WORK_AREA - 1);
    CHECK(answer.refusal == LEAFANCHOR_BUFFER_TOO_SHORT && whole.numbers_len == 0);
}

/* Whether an answer of better-of and its profile are those wanted; refused, the profile is what it was before. */
static int is_better(leafanchor_better_answer got, const leafanchor_profile *into, leafanchor_better_answer wanted,
                     const leafanchor_profile *apart, const leafanchor_profile *before)
{
    return got.refusal == wanted.refusal && got.points == wanted.points &&
           (got.refusal != 0 ? memcmp(into, before, sizeof *into) == 0 : is(into, apart->numbers, apart->numbers_len));
}

/* The better of two profiles into the one, into the other and, of a profile and itself, into that: as into a third. */
static void better_in_place(const leafanchor_profile *p, const leafanchor_profile *q)
{
    static leafanchor_profile apart, into;
    leafanchor_better_answer wanted = leafanchor_profile_better(p, q, &apart);
    into = *p;
    CHECK(is_better(leafanchor_profile_better(&into, q, &into), &into, wanted, &apart, p));
    into = *q;
    CHECK(is_better(leafanchor_profile_better(p, &into, &into), &into, wanted, &apart, q));
    wanted = leafanchor_profile_better(p, p, &apart);
    into = *p;
    CHECK(is_better(leafanchor_profile_better(&into, &into, &into), &into, wanted, &apart, p));
}

/* A profile extended by an order into itself: as into another. */
static void extended_in_place(const leafanchor_profile *p, const uint8_t *by, size_t by_len, size_t work_len)
{
    static leafanchor_profile apart, into;
    leafanchor_extend_answer wanted = leafanchor_profile_extended(p, by, by_len, &apart, work, work_len);
    into = *p;
    leafanchor_extend_answer got = leafanchor_profile_extended(&into, by, by_len, &into, work, work_len);
    CHECK(got.refusal == wanted.refusal && got.place == wanted.place && got.field == wanted.field);
    CHECK(got.points == wanted.points);
    CHECK(got.refusal != 0 ? memcmp(&into, p, sizeof into) == 0 : is(&into, apart.numbers, apart.numbers_len));
}

/* Profiles of all kinds, the longest, none and refused ones among them, each with each and extended by the order of P1
 * and of no jobs, a refused one, and with a work area that is too short. */
static void profiles_in_place(void)
{
    static leafanchor_profile all[] = {
        {0, {0}}, {4, {0, 0, 20, 7}}, {2, {5, 7}}, {2, {-600, 0}}, {6, {-600, 1, -90, 21, 210, 30}}, {3, {0, 0, 5}},
        {4, {0, 7, 5, 7}}, {LEAFANCHOR_PROFILE_ROOM, {0}}, {LEAFANCHOR_PROFILE_ROOM, {0}}};
    static const uint8_t empty[] = {0, 0, 0, 0};
    const size_t count = sizeof all / sizeof all[0];
    for (int32_t point = 0; point < LEAFANCHOR_PROFILE_ROOM / 2; point++) {
        all[count - 1].numbers[2 * point] = 3 * point;
        all[count - 2].numbers[2 * point] = 3 * point + point % 3;
        all[count - 1].numbers[2 * point + 1] = all[count - 2].numbers[2 * point + 1] = point;
    }
    for (size_t i = 0; i < count; i++) {
        for (size_t k = 0; k < count; k++) {
            better_in_place(&all[i], &all[k]);
        }
        extended_in_place(&all[i], order, 44, LEAFANCHOR_WORK_AREA);
        extended_in_place(&all[i], order, 43, LEAFANCHOR_WORK_AREA);
        extended_in_place(&all[i], order, 44, LEAFANCHOR_WORK_AREA - 1);
        extended_in_place(&all[i], empty, 4, LEAFANCHOR_WORK_AREA);
    }
}

/* The order of P1 as a tail: planned from a point's time it keeps what that point, extended by it, says at its last
 * point, and the bus is free then; where nothing is feasible, there is no point. */
static void tails(void)
{
    static leafanchor_profile point;
    static uint8_t tail[LEAFANCHOR_ORDER_BYTES];
    for (int32_t t0 = -700; t0 <= -400; t0 += 5) {
        size_t bytes = leafanchor_pack(t0, p1, 35, tail, LEAFANCHOR_ORDER_BYTES).bytes;
        leafanchor_plan_answer plan =
            leafanchor_plan(tail, bytes, starts, LEAFANCHOR_STARTS, work, LEAFANCHOR_WORK_AREA);
        point.numbers_len = 2;
        point.numbers[0] = t0;
        point.numbers[1] = 7;
        CHECK(leafanchor_profile_extended(&point, tail, bytes, &point, work, LEAFANCHOR_WORK_AREA).refusal == 0);
        size_t end = point.numbers_len;
        CHECK(plan.refusal == (end == 0 ? LEAFANCHOR_NO_FEASIBLE_CHOICE : LEAFANCHOR_NONE));
        CHECK(end == 0 || (point.numbers[end - 2] == plan.finish &&
                           point.numbers[end - 1] == 7 + (int32_t)plan.kept_weight));
    }
}

/* The rest: a job starts 15 seconds after the finish of the one before it and meets its deadline, which a second
 * less does not. */
static void rest(void)
{
    static leafanchor_job pair[] = {{1, 0, 1, 0, 0, 10, 10}, {2, 0, 1, 0, 0, 10, 35}};
    static uint8_t bytes[LEAFANCHOR_ORDER_BYTES];
    size_t length = leafanchor_pack_jobs(0, pair, 2, bytes, LEAFANCHOR_ORDER_BYTES).bytes;
    leafanchor_plan_answer plan =
        leafanchor_plan(bytes, length, starts, LEAFANCHOR_STARTS, work, LEAFANCHOR_WORK_AREA);
    CHECK(plan.refusal == 0 && plan.finish == 50 && starts[0] == 0 && starts[1] == 25);
    CHECK(starts[1] == starts[0] + pair[0].length + LEAFANCHOR_REST);
    pair[1].deadline = 34;
    length = leafanchor_pack_jobs(0, pair, 2, bytes, LEAFANCHOR_ORDER_BYTES).bytes;
    plan = leafanchor_plan(bytes, length, starts, LEAFANCHOR_STARTS, work, LEAFANCHOR_WORK_AREA);
    CHECK(plan.refusal == LEAFANCHOR_NO_FEASIBLE_CHOICE);
}

/* The latest bus-free time, after a job that ends at 100,000: a profile has it and is extended, and no order has it
 * for its t0. */
static void latest(void)
{
    static const leafanchor_job last = {1, 0, 1, 0, 90000, 10000, 100000};
    static const leafanchor_profile past = {2, {100016, 0}};
    static const int32_t wanted[] = {100015, 0};
    static const uint8_t empty[] = {0, 0, 0, 0};
    static leafanchor_profile made, again;
    static uint8_t bytes[LEAFANCHOR_ORDER_BYTES];
    size_t length = leafanchor_pack_jobs(0, &last, 1, bytes, LEAFANCHOR_ORDER_BYTES).bytes;
    leafanchor_plan_answer plan =
        leafanchor_plan(bytes, length, starts, LEAFANCHOR_STARTS, work, LEAFANCHOR_WORK_AREA);
    CHECK(plan.refusal == 0 && plan.finish == 100015 && starts[0] == 90000);
    CHECK(leafanchor_profile_of_order(bytes, length, &made, work, LEAFANCHOR_WORK_AREA).refusal == 0);
    CHECK(is(&made, wanted, 2));
    CHECK(leafanchor_profile_extended(&made, empty, 4, &again, work, LEAFANCHOR_WORK_AREA).refusal == 0);
    CHECK(is(&again, wanted, 2) && leafanchor_profile_lookup(&again, 100015).found == 1);
    CHECK(leafanchor_profile_lookup(&past, 0).refusal == LEAFANCHOR_PROFILE_NOT_VALID);
    CHECK(leafanchor_pack(plan.finish, p1, 0, bytes, 4).refusal == LEAFANCHOR_BUS_FREE_OUT_OF_RANGE);
}

/* The worked order of halves, bus free at -900: checks 4 and 9, each with its optional half. */
static leafanchor_job worked[] = {{4, 0, 1, 0, -900, 300, -300}, {36, 0, 0, 5, -900, 300, 0},
                                  {9, 0, 1, 0, -900, 200, 0}, {41, 0, 0, 8, -900, 480, 300}};
static uint8_t halves[LEAFANCHOR_ORDER_BYTES];

/* The plan of the worked order as it then is, as halves, with this much room. */
static leafanchor_halves_answer of_halves(size_t starts_len, size_t work_len)
{
    size_t length = leafanchor_pack_jobs(-900, worked, 4, halves, LEAFANCHOR_ORDER_BYTES).bytes;
    return leafanchor_plan_halves(halves, length, starts, starts_len, work, work_len);
}

/* The plan of the worked order, with its starts and the optional seconds lost, and rooms that are too short. */
static void plans_of_halves(void)
{
    static const int32_t wanted[] = {-900, LEAFANCHOR_LEFT_OUT, -585, -370};
    leafanchor_halves_answer plan = of_halves(LEAFANCHOR_STARTS, LEAFANCHOR_WORK_AREA);
    CHECK(plan.refusal == 0 && plan.place == 0 && plan.field == 0 && plan.mask == UINT64_C(0xB000000000000000));
    CHECK(plan.kept == 3 && plan.kept_weight == 8 && plan.lost_weight == 5);
    CHECK(plan.finish == 125 && plan.points == 8 && plan.seconds_lost == 300);
    CHECK(memcmp(starts, wanted, sizeof wanted) == 0);
    plan = of_halves(3, LEAFANCHOR_WORK_AREA);
    CHECK(plan.refusal == LEAFANCHOR_BUFFER_TOO_SHORT && plan.mask == 0 && plan.seconds_lost == 0);
    CHECK(of_halves(4, LEAFANCHOR_WORK_AREA - 1).refusal == LEAFANCHOR_BUFFER_TOO_SHORT);
    CHECK(worked[3].number == worked[2].number + LEAFANCHOR_HALVES_APART);
    CHECK(worked[3].length == LEAFANCHOR_SECONDS_PER_WEIGHT * worked[3].weight);
}

/* What is not of halves: refused with its place whatever the buffers, and planned by the other call. */
static void not_of_halves(void)
{
    worked[3].length = 481;
    leafanchor_halves_answer plan = of_halves(0, 0);
    CHECK(plan.refusal == LEAFANCHOR_NOT_OF_HALVES && plan.place == 3 && plan.field == 0 && plan.lost_weight == 0);
    CHECK(leafanchor_plan(halves, 36, starts, 4, work, LEAFANCHOR_WORK_AREA).refusal == LEAFANCHOR_NONE);
    worked[2].number = LEAFANCHOR_HIGHEST_HALF + 1;
    plan = of_halves(4, LEAFANCHOR_WORK_AREA);
    CHECK(plan.refusal == LEAFANCHOR_NOT_OF_HALVES && plan.place == 2);
    worked[1].number = 37;
    plan = of_halves(4, LEAFANCHOR_WORK_AREA);
    CHECK(plan.refusal == LEAFANCHOR_NOT_OF_HALVES && plan.place == 1);
    plan = leafanchor_plan_halves(order, 44, starts, 5, work, LEAFANCHOR_WORK_AREA); /* P1 */
    CHECK(plan.refusal == LEAFANCHOR_NOT_OF_HALVES && plan.place == 1);
}

/* Our plan of P1 in packed bytes: jobs 7, 3, 5 and 9, at -600, -90, 225 and 340. */
static const uint8_t our_plan[] = {0xD8, 0, 0, 0, 0, 0, 0xFF, 0x6A, 0x3F, 0xFA, 0x60, 0x03, 0x84, 0x01, 0x54};

/* Our plan written, for P1 and for an order of no jobs, and rooms that are too short: nothing is written then. */
static void written_plans(void)
{
    static const uint8_t empty[] = {0, 0, 0, 0}, nothing[] = {0, 0, 0, 0, 0, 0, 0xAA};
    static uint8_t out[LEAFANCHOR_PLAN_BYTES];
    memset(out, 0xAA, sizeof out);
    leafanchor_pack_answer written =
        leafanchor_write_plan(order, 44, out, LEAFANCHOR_PLAN_BYTES - 1, work, LEAFANCHOR_WORK_AREA);
    CHECK(written.refusal == LEAFANCHOR_BUFFER_TOO_SHORT && written.bytes == 0 && out[0] == 0xAA);
    written = leafanchor_write_plan(empty, 4, out, LEAFANCHOR_PLAN_BYTES, work, LEAFANCHOR_WORK_AREA - 1);
    CHECK(written.refusal == LEAFANCHOR_BUFFER_TOO_SHORT && written.bytes == 0 && out[0] == 0xAA);
    written = leafanchor_write_plan(empty, 4, out, LEAFANCHOR_PLAN_BYTES, work, LEAFANCHOR_WORK_AREA);
    CHECK(written.refusal == 0 && written.bytes == 6 && memcmp(out, nothing, sizeof nothing) == 0);
    written = leafanchor_write_plan(order, 44, out, LEAFANCHOR_PLAN_BYTES, work, LEAFANCHOR_WORK_AREA);
    CHECK(written.refusal == 0 && written.place == 0 && written.field == 0 && written.bytes == 15);
    CHECK(memcmp(out, our_plan, sizeof our_plan) == 0 && out[15] == 0xAA);
}

/* Whether a plan is told legal and best so, both without a refusal. */
static int judged(const uint8_t *plan, size_t plan_len, uint32_t is_legal, uint32_t is_best)
{
    leafanchor_verdict_answer legal = leafanchor_legal(order, 44, plan, plan_len);
    leafanchor_verdict_answer best = leafanchor_best(order, 44, plan, plan_len, work, LEAFANCHOR_WORK_AREA);
    return legal.refusal == 0 && legal.place == 0 && legal.field == 0 && legal.yes == is_legal &&
           best.refusal == 0 && best.place == 0 && best.field == 0 && best.yes == is_best;
}

/* Whether both calls refuse a plan with this number, whatever the work area. */
static int not_judged(const uint8_t *plan, size_t plan_len, uint32_t refusal)
{
    leafanchor_verdict_answer legal = leafanchor_legal(order, 44, plan, plan_len);
    leafanchor_verdict_answer best = leafanchor_best(order, 44, plan, plan_len, work, 0);
    return legal.refusal == refusal && legal.place == 0 && legal.field == 0 && legal.yes == 0 &&
           best.refusal == refusal && best.place == 0 && best.field == 0 && best.yes == 0;
}

/* Plans for P1: ours, one that keeps less, one whose second job starts a second before the rest ends, and plans that
 * are refused. */
static void checked_plans(void)
{
    static const uint8_t less[] = {0x90, 0, 0, 0, 0, 0, 0xFF, 0x6A, 0x00, 0x06, 0x40};
    static uint8_t plan[LEAFANCHOR_PLAN_BYTES + 1];
    memcpy(plan, our_plan, sizeof our_plan);
    CHECK(judged(plan, 15, 1, 1) && judged(less, 11, 1, 0));
    plan[10] = 0x50; /* the second start is now -91 */
    CHECK(judged(plan, 15, 0, 0));
    CHECK(not_judged(plan, 5, LEAFANCHOR_PLAN_WRONG_LENGTH) && not_judged(plan, 14, LEAFANCHOR_PLAN_WRONG_LENGTH));
    CHECK(not_judged(plan, 16, LEAFANCHOR_PLAN_WRONG_LENGTH));
    plan[0] = 0x9C; /* keeps a job that is not there in place of the second */
    CHECK(not_judged(plan, 15, LEAFANCHOR_PLAN_STRAY_BITS));
    memcpy(plan, less, sizeof less);
    plan[10] |= 1; /* a bit at the end */
    CHECK(not_judged(plan, 11, LEAFANCHOR_PLAN_STRAY_BITS));
    leafanchor_verdict_answer best =
        leafanchor_best(order, 44, our_plan, sizeof our_plan, work, LEAFANCHOR_WORK_AREA - 1);
    CHECK(best.refusal == LEAFANCHOR_BUFFER_TOO_SHORT && best.yes == 0);
    CHECK(leafanchor_legal(order, 3, plan, 0).refusal == LEAFANCHOR_ORDER_TOO_SHORT);
}

/* P1 with packs, of kind 1: the first record is that of the rules. Every call of the order gives what P1 gives, and the
 * packs where it tells jobs. */
static void packs(void)
{
    static const int32_t bus_free[] = {-600, 0};
    static int32_t wanted[35];
    static uint8_t packed[49];
    memcpy(wanted, p1, sizeof p1);
    wanted[1] = 3;
    wanted[4 * LEAFANCHOR_JOB_NUMBERS + 1] = 255;
    CHECK(leafanchor_pack(-600, wanted, 35, packed, 48).refusal == LEAFANCHOR_BUFFER_TOO_SHORT);
    leafanchor_pack_answer made = leafanchor_pack(-600, wanted, 35, packed, sizeof packed);
    CHECK(made.refusal == 0 && made.bytes == sizeof packed);
    CHECK(memcmp(packed, "\x17\xFD\xA8\x01\x1C\x0E\x03\xFD\xA8\x07\xBC\x00\x00", 13) == 0);
    CHECK(leafanchor_unpack(packed, sizeof packed, numbers, 34).refusal == LEAFANCHOR_BUFFER_TOO_SHORT);
    CHECK(leafanchor_unpack(packed, sizeof packed, numbers, 35).jobs == 5);
    CHECK(memcmp(numbers, wanted, sizeof wanted) == 0);
    CHECK(leafanchor_open(packed, sizeof packed).jobs == 5 && leafanchor_step(packed, sizeof packed, 3).pack == 0);
    leafanchor_job job = leafanchor_job_of_step(leafanchor_step(packed, sizeof packed, 4));
    CHECK(job.number == 9 && job.pack == 255 && job.weight == 15 && job.deadline == 500);
    leafanchor_plan_answer plan =
        leafanchor_plan(packed, sizeof packed, starts, LEAFANCHOR_STARTS, work, LEAFANCHOR_WORK_AREA);
    CHECK(plan.kept == 4 && plan.kept_weight == 35 && plan.finish == 455 && plan.points == 14 && starts[3] == 225);
    CHECK(leafanchor_extend(bus_free, 2, packed, sizeof packed, profile, LEAFANCHOR_PROFILE_ROOM, work,
                            LEAFANCHOR_WORK_AREA).points == 5);
    CHECK(leafanchor_best(packed, sizeof packed, our_plan, sizeof our_plan, work, LEAFANCHOR_WORK_AREA).yes == 1);
    CHECK(leafanchor_legal(packed, sizeof packed, our_plan, sizeof our_plan).yes == 1);
    CHECK(leafanchor_plan_halves(packed, sizeof packed, starts, 5, work, LEAFANCHOR_WORK_AREA).refusal == 13);
}

/* Whether every call on bytes refuses them with this number. */
static int all_refuse(const uint8_t *bytes, size_t length, uint32_t refusal)
{
    static const int32_t bus_free[] = {0, 0};
    static uint8_t out[LEAFANCHOR_PLAN_BYTES];
    return leafanchor_unpack(bytes, length, numbers, LEAFANCHOR_ORDER_NUMBERS).refusal == refusal &&
           leafanchor_open(bytes, length).refusal == refusal && leafanchor_step(bytes, length, 0).refusal == refusal &&
           leafanchor_extend(bus_free, 2, bytes, length, profile, LEAFANCHOR_PROFILE_ROOM, work,
                             LEAFANCHOR_WORK_AREA).refusal == refusal &&
           leafanchor_plan(bytes, length, starts, 1, work, LEAFANCHOR_WORK_AREA).refusal == refusal &&
           leafanchor_plan_halves(bytes, length, starts, 1, work, LEAFANCHOR_WORK_AREA).refusal == refusal &&
           leafanchor_write_plan(bytes, length, out, sizeof out, work, LEAFANCHOR_WORK_AREA).refusal == refusal &&
           leafanchor_legal(bytes, length, our_plan, 0).refusal == refusal &&
           leafanchor_best(bytes, length, our_plan, 0, work, LEAFANCHOR_WORK_AREA).refusal == refusal &&
           leafanchor_question(bytes, length, order, 44, 0, work, LEAFANCHOR_WORK_AREA).refusal == refusal &&
           leafanchor_choose_first(order, 44, bytes, length, 0, work, LEAFANCHOR_WORK_AREA).refusal == refusal;
}

/* Kinds above 1, kind 1 without a pack, its job's length out of range too, and lengths that are those of the other
 * kind. */
static void kinds(void)
{
    static uint8_t bytes[] = {4, 0, 0, 1, 4, 0, 4, 0, 0, 0, 0, 0, 100}, bare[] = {0, 0, 0, 1};
    CHECK(all_refuse(bytes, 13, LEAFANCHOR_EVERY_PACK_ZERO) && all_refuse(bare, 4, LEAFANCHOR_EVERY_PACK_ZERO));
    CHECK(all_refuse(bytes, 12, LEAFANCHOR_WRONG_LENGTH));
    bytes[5] = 4; /* pack 1 */
    CHECK(leafanchor_open(bytes, 13).jobs == 1 && leafanchor_step(bytes, 13, 0).field == LEAFANCHOR_FIELD_LENGTH);
    bytes[3] = 0;
    CHECK(all_refuse(bytes, 13, LEAFANCHOR_WRONG_LENGTH));
    bytes[3] = bare[3] = 2;
    CHECK(all_refuse(bytes, 13, LEAFANCHOR_UNKNOWN_KIND) && all_refuse(bare, 4, LEAFANCHOR_UNKNOWN_KIND));
}

/* A coolant pump's check, critical, every 1,200 seconds, and a fan's of weight 5, every 1,800 from 100 on. */
static const leafanchor_repeating pump_and_fan[] = {{1, 0, 0, 60, 300, 1200}, {0, 5, 100, 120, 400, 1800}};

/* Their frame of 3,600: five jobs, ready at 0, 100, 1,200, 1,900 and 2,400. */
static const uint8_t one_frame[] = {
    0x14, 0, 0, 0, 0x02, 0x00, 0x00, 0x00, 0x00, 0xF0, 0x01, 0x2C, 0x04, 0x14, 0x00, 0x64, 0x01, 0xE0, 0x01, 0xF4,
    0x0A, 0x00, 0x04, 0xB0, 0x00, 0xF0, 0x05, 0xDC, 0x0C, 0x14, 0x07, 0x6C, 0x01, 0xE0, 0x08, 0xFC,
    0x12, 0x00, 0x09, 0x60, 0x00, 0xF0, 0x0A, 0x8C};

/* The worked frame, from jobs and from numbers, with what is past its order, a room that is too short, and no jobs. */
static void frames(void)
{
    static const int32_t none[] = {0};
    static uint8_t out[LEAFANCHOR_ORDER_BYTES];
    memset(out, 0xAA, sizeof out);
    leafanchor_frame_answer made = leafanchor_frame_jobs(pump_and_fan, 2, out, 43);
    CHECK(made.refusal == LEAFANCHOR_BUFFER_TOO_SHORT && made.place == 0 && made.bytes == 0 && made.frame == 0);
    CHECK(out[0] == 0xAA && out[43] == 0xAA);
    made = leafanchor_frame_jobs(pump_and_fan, 2, out, sizeof out);
    CHECK(made.refusal == 0 && made.place == 0 && made.bytes == 44 && made.frame == 3600);
    CHECK(memcmp(out, one_frame, sizeof one_frame) == 0 && out[44] == 0xAA);
    memset(out, 0xAA, sizeof out);
    made = leafanchor_frame(&pump_and_fan[0].critical, 12, out, 44);
    CHECK(made.refusal == 0 && made.bytes == 44 && made.frame == 3600 && memcmp(out, one_frame, 44) == 0);
    made = leafanchor_frame(none, 0, out, 4);
    CHECK(made.refusal == 0 && made.place == 0 && made.bytes == 4 && made.frame == 1);
    CHECK(memcmp(out, "\0\0\0\0", 4) == 0 && out[4] == one_frame[4]);
    CHECK(leafanchor_frame(none, 0, out, 3).refusal == LEAFANCHOR_BUFFER_TOO_SHORT);
}

/* Whether a frame of so many of these jobs is refused so, and nothing is written. */
static int no_frame(const leafanchor_repeating *repeating, size_t count, uint32_t refusal, size_t place)
{
    static uint8_t out[LEAFANCHOR_ORDER_BYTES];
    memset(out, 0xAA, sizeof out);
    leafanchor_frame_answer made = leafanchor_frame_jobs(repeating, count, out, sizeof out);
    for (size_t byte = 0; byte < sizeof out; byte++) {
        if (out[byte] != 0xAA) {
            return 0;
        }
    }
    return made.refusal == refusal && made.place == place && made.bytes == 0 && made.frame == 0;
}

/* Every refusal of a frame but 10, and the edges of the frame, of late deadlines and of 16 and 48. */
static void no_frames(void)
{
    static leafanchor_repeating many[LEAFANCHOR_MOST_REPEATING + 1];
    for (size_t place = 0; place <= LEAFANCHOR_MOST_REPEATING; place++) {
        many[place] = pump_and_fan[0];
    }
    CHECK(leafanchor_frame_jobs(many, LEAFANCHOR_MOST_REPEATING, order, LEAFANCHOR_ORDER_BYTES).bytes == 132);
    CHECK(no_frame(many, LEAFANCHOR_MOST_REPEATING + 1, LEAFANCHOR_TOO_MANY_JOBS, 0));
    CHECK(leafanchor_frame(&many[0].critical, LEAFANCHOR_REPEATING_NUMBERS - 1, order, 0).refusal == 4);
    CHECK(leafanchor_frame(&many[0].critical, LEAFANCHOR_REPEATING_NUMBERS + 1, order, 0).refusal == 3);
    many[1].phase = 885; /* and the deadline of 300 and the rest of 15 end with the period */
    CHECK(leafanchor_frame_jobs(many, 2, order, LEAFANCHOR_ORDER_BYTES).frame == 1200);
    many[1].phase = 886;
    CHECK(no_frame(many, 2, LEAFANCHOR_REPEATING_NOT_VALID, 1));
    many[1].phase = INT32_MAX;
    CHECK(no_frame(many, 2, LEAFANCHOR_REPEATING_NOT_VALID, 1));
    many[1].phase = 0;
    many[1].period = LEAFANCHOR_LONGEST_FRAME;
    CHECK(no_frame(many, 2, LEAFANCHOR_TOO_MANY_JOBS, 0)); /* 72 repeats of the first */
    many[0].period = 1800;
    CHECK(no_frame(many, 2, LEAFANCHOR_TOO_MANY_JOBS, 0)); /* 48 repeats of the first, and one more */
    many[0].period = 1920;
    CHECK(leafanchor_frame_jobs(many, 2, order, LEAFANCHOR_ORDER_BYTES).bytes == 4 + 8 * 46);
    many[0].period = LEAFANCHOR_LONGEST_FRAME - 1;
    CHECK(no_frame(many, 2, LEAFANCHOR_FRAME_TOO_LONG, 0));
    many[0].critical = many[1].critical = 0;
    many[0].weight = many[1].weight = 50;
    many[0].period = 1200;
    many[1].period = 7200;
    CHECK(no_frame(many, 2, LEAFANCHOR_TOO_MUCH_WEIGHT, 0)); /* 350 */
    many[1].weight = 0;
    CHECK(no_frame(many, 2, LEAFANCHOR_REPEATING_NOT_VALID, 1));
    many[1].critical = 1;
    CHECK(leafanchor_frame_jobs(many, 2, order, LEAFANCHOR_ORDER_BYTES).bytes == 4 + 8 * 7);
}

/* Two frames joined, the second numbered on and set a frame later: planned, they keep twice what one keeps. */
static void two_frames(void)
{
    static leafanchor_job both[10];
    CHECK(leafanchor_unpack_jobs(one_frame, sizeof one_frame, both, 5).jobs == 5);
    for (size_t place = 0; place < 5; place++) {
        both[5 + place] = both[place];
        both[5 + place].number += 5;
        both[5 + place].ready += 3600;
        both[5 + place].deadline += 3600;
    }
    size_t bytes = leafanchor_pack_jobs(0, both, 10, order, LEAFANCHOR_ORDER_BYTES).bytes;
    leafanchor_plan_answer one =
        leafanchor_plan(one_frame, sizeof one_frame, starts, LEAFANCHOR_STARTS, work, LEAFANCHOR_WORK_AREA);
    leafanchor_plan_answer two = leafanchor_plan(order, bytes, starts, LEAFANCHOR_STARTS, work, LEAFANCHOR_WORK_AREA);
    CHECK(one.refusal == 0 && one.kept == 5 && one.kept_weight == 10 && one.finish == 2475);
    CHECK(two.refusal == 0 && two.kept == 10 && two.kept_weight == 20 && two.finish == 3600 + 2475);
}

/* Whether the question names this winner. */
static int names(leafanchor_question_answer asked, uint32_t winner)
{
    return asked.refusal == 0 && asked.field == 0 && asked.winner == winner && asked.kind == 0;
}

/* Whether the choice hands back the one record of this winner. */
static int hands(leafanchor_choose_answer chosen, uint32_t winner)
{
    return chosen.refusal == 0 && chosen.field == 0 && chosen.winner == winner && chosen.offset == 4 &&
           chosen.length == 8 && chosen.kind == 0;
}

/* Whether these win between two openings of one job each: by the default, and where equal weight always goes to the
 * first. */
static int win(const uint8_t *first, const uint8_t *second, int32_t t, uint32_t sooner, uint32_t to_first)
{
    return names(leafanchor_question(first, 12, second, 12, t, work, LEAFANCHOR_WORK_AREA), sooner) &&
           hands(leafanchor_choose(first, 12, second, 12, t, work, LEAFANCHOR_WORK_AREA), sooner) &&
           names(leafanchor_question_first(first, 12, second, 12, t, work, LEAFANCHOR_WORK_AREA), to_first) &&
           hands(leafanchor_choose_first(first, 12, second, 12, t, work, LEAFANCHOR_WORK_AREA), to_first);
}

/* Two openings of the same weight, with the bus free at 25 and at 20: where both rules differ, and a second before. */
static void rival_openings(void)
{
    static const leafanchor_job one = {1, 0, 0, 10, 0, 10, 10}, other = {1, 0, 0, 10, 0, 5, 10};
    static uint8_t slow[12], quick[12];
    CHECK(leafanchor_pack_jobs(0, &one, 1, slow, sizeof slow).bytes == 12);
    CHECK(leafanchor_pack_jobs(0, &other, 1, quick, sizeof quick).bytes == 12);
    CHECK(win(slow, quick, 19, 1, 1) && win(slow, quick, 24, 2, 2) && win(slow, quick, 25, 2, 1));
    CHECK(win(quick, slow, 19, 1, 1) && win(quick, slow, 24, 1, 1) && win(quick, slow, 25, 1, 1));
    CHECK(win(slow, slow, 25, 1, 1));
}

/* Openings of unlike kinds, of the same weight, the one of kind 1 sooner: it wins at 25, but for the night desk where it
 * is the second. */
static void unlike_openings(void)
{
    static const leafanchor_job one = {1, 0, 0, 10, 0, 10, 10}, other = {1, 7, 0, 10, 0, 5, 10};
    static uint8_t slow[12], quick[13];
    CHECK(leafanchor_pack_jobs(0, &one, 1, slow, sizeof slow).bytes == 12);
    CHECK(leafanchor_pack_jobs(0, &other, 1, quick, sizeof quick).bytes == 13);
    leafanchor_question_answer asked =
        leafanchor_question(slow, 12, quick, 13, 25, work, LEAFANCHOR_WORK_AREA);
    CHECK(asked.refusal == 0 && asked.winner == 2 && asked.kind == 1);
    asked = leafanchor_question_first(slow, 12, quick, 13, 25, work, LEAFANCHOR_WORK_AREA);
    CHECK(asked.refusal == 0 && asked.winner == 1 && asked.kind == 0);
    leafanchor_choose_answer chosen = leafanchor_choose(quick, 13, slow, 12, 25, work, LEAFANCHOR_WORK_AREA);
    CHECK(chosen.winner == 1 && chosen.offset == 4 && chosen.length == 9 && chosen.kind == 1);
    chosen = leafanchor_choose_first(slow, 12, quick, 13, 25, work, LEAFANCHOR_WORK_AREA);
    CHECK(chosen.winner == 1 && chosen.offset == 4 && chosen.length == 8 && chosen.kind == 0);
    chosen = leafanchor_choose_first(slow, 12, quick, 13, -1, work, LEAFANCHOR_WORK_AREA);
    CHECK(chosen.refusal == LEAFANCHOR_NO_FEASIBLE_CHOICE && chosen.winner == 0 && chosen.kind == 0);
}

/* P1 as the first opening against an order of no jobs, and the other way round. */
static void openings(void)
{
    static const uint8_t empty[] = {0, 0, 0, 0};
    leafanchor_question_answer asked =
        leafanchor_question(order, 44, empty, 4, 454, work, LEAFANCHOR_WORK_AREA);
    CHECK(asked.refusal == 0 && asked.field == 0 && asked.winner == 1);
    leafanchor_choose_answer chosen = leafanchor_choose(empty, 4, order, 44, 454, work, LEAFANCHOR_WORK_AREA);
    CHECK(chosen.refusal == 0 && chosen.field == 0);
    CHECK(chosen.winner == 2 && chosen.offset == 4 && chosen.length == 40);
    chosen = leafanchor_choose(empty, 4, order, 44, -1, work, LEAFANCHOR_WORK_AREA);
    CHECK(chosen.refusal == LEAFANCHOR_NO_FEASIBLE_CHOICE && chosen.field == 0);
    CHECK(chosen.winner == 0 && chosen.length == 0);
    asked = leafanchor_question_first(order, 44, empty, 4, -1, work, LEAFANCHOR_WORK_AREA);
    CHECK(asked.refusal == LEAFANCHOR_NO_FEASIBLE_CHOICE && asked.field == 0 && asked.winner == 0);
    chosen = leafanchor_choose_first(empty, 4, order, 44, -1, work, LEAFANCHOR_WORK_AREA);
    CHECK(chosen.refusal == LEAFANCHOR_NO_FEASIBLE_CHOICE && chosen.winner == 0 && chosen.length == 0);
}

/* An order of two jobs as packed bytes, of kind 1 where the first has a pack, whatever the fields from the weight on
 * hold. Returns how many bytes. In kind 1 the number and the pack's first two bits are a byte before the others. */
static size_t put_two(const int32_t *two, uint8_t *bytes)
{
    const uint8_t header[] = {2 << 2, 0, 0, two[1] != 0};
    size_t at = sizeof header;
    memcpy(bytes, header, sizeof header);
    for (size_t place = 0; place < 2; place++) {
        const int32_t *job = &two[LEAFANCHOR_JOB_NUMBERS * place];
        const uint64_t record = (uint64_t)(header[3] == 1 ? job[1] & 0x3F : job[0]) << 58 | (uint64_t)job[2] << 57 |
                                (uint64_t)job[3] << 50 | (uint64_t)(job[4] & 0x3FFFF) << 32 |
                                (uint64_t)job[5] << 18 | (uint64_t)(job[6] & 0x3FFFF);
        if (header[3] == 1) {
            bytes[at++] = (uint8_t)(job[0] << 2 | job[1] >> 6);
        }
        for (int shift = 56; shift >= 0; shift -= 8) {
            bytes[at++] = (uint8_t)(record >> shift & 0xFF);
        }
    }
    return at;
}

/* Every call on openings refuses an order with a job whose field is out of range, as either of them, and names the
 * field. */
static void named_by_openings(const uint8_t *bad, size_t bad_len, uint32_t field)
{
    static const uint8_t empty[] = {0, 0, 0, 0};
    leafanchor_question_answer asked =
        leafanchor_question(bad, bad_len, empty, 4, 0, work, LEAFANCHOR_WORK_AREA);
    CHECK(asked.refusal == 6 && asked.field == field && asked.winner == 0);
    asked = leafanchor_question_first(empty, 4, bad, bad_len, 0, work, LEAFANCHOR_WORK_AREA);
    CHECK(asked.refusal == 6 && asked.field == field && asked.winner == 0);
    leafanchor_choose_answer chosen = leafanchor_choose(empty, 4, bad, bad_len, 0, work, LEAFANCHOR_WORK_AREA);
    CHECK(chosen.refusal == 6 && chosen.field == field && chosen.winner == 0 && chosen.length == 0);
    chosen = leafanchor_choose_first(bad, bad_len, empty, 4, 0, work, LEAFANCHOR_WORK_AREA);
    CHECK(chosen.refusal == 6 && chosen.field == field && chosen.winner == 0 && chosen.length == 0);
}

/* Every call on bytes refuses an order whose second job has this field out of range, and names it. */
static void named_over_bytes(const int32_t *two, uint32_t field)
{
    static const int32_t bus_free[] = {0, 0};
    static uint8_t bad[4 + 2 * 9];
    const size_t length = put_two(two, bad);
    leafanchor_unpack_answer unpacked = leafanchor_unpack(bad, length, numbers, LEAFANCHOR_ORDER_NUMBERS);
    CHECK(unpacked.refusal == 6 && unpacked.place == 1 && unpacked.field == field && unpacked.jobs == 0);
    leafanchor_step_answer job = leafanchor_step(bad, length, 1);
    CHECK(job.refusal == 6 && job.place == 1 && job.field == field && job.end == 0 && job.next == 1);
    CHECK(leafanchor_step(bad, length, 0).refusal == 0 && leafanchor_step(bad, length, 0).field == 0);
    leafanchor_extend_answer extended = leafanchor_extend(bus_free, 2, bad, length, profile,
                                                          LEAFANCHOR_PROFILE_ROOM, work, LEAFANCHOR_WORK_AREA);
    CHECK(extended.refusal == 6 && extended.place == 1 && extended.field == field && extended.points == 0);
    leafanchor_plan_answer plan = leafanchor_plan(bad, length, starts, 2, work, LEAFANCHOR_WORK_AREA);
    CHECK(plan.refusal == 6 && plan.place == 1 && plan.field == field && plan.mask == 0);
    leafanchor_halves_answer of = leafanchor_plan_halves(bad, length, starts, 2, work, LEAFANCHOR_WORK_AREA);
    CHECK(of.refusal == 6 && of.place == 1 && of.field == field && of.mask == 0);
    leafanchor_pack_answer written =
        leafanchor_write_plan(bad, length, order, LEAFANCHOR_ORDER_BYTES, work, LEAFANCHOR_WORK_AREA);
    CHECK(written.refusal == 6 && written.place == 1 && written.field == field && written.bytes == 0);
    leafanchor_verdict_answer legal = leafanchor_legal(bad, length, our_plan, sizeof our_plan);
    CHECK(legal.refusal == 6 && legal.place == 1 && legal.field == field && legal.yes == 0);
    leafanchor_verdict_answer best = leafanchor_best(bad, length, our_plan, 0, work, 0);
    CHECK(best.refusal == 6 && best.place == 1 && best.field == field && best.yes == 0);
    named_by_openings(bad, length, field);
}

/* Each field of a second job out of range in turn, and the deadline with it: the first is named, in kind 1 too. Bytes
 * hold a number, a pack and a mark within their ranges. */
static void fields_out_of_range(void)
{
    static const int32_t two[] = {1, 0, 0, 5, 0, 10, 100, 2, 0, 0, 5, 0, 10, 100001};
    static const int32_t past[] = {64, 256, 2, 51, 100001, 10001, 100001};
    static int32_t bad[14];
    for (uint32_t field = LEAFANCHOR_FIELD_NUMBER; field <= LEAFANCHOR_FIELD_DEADLINE; field++) {
        memcpy(bad, two, sizeof two);
        bad[LEAFANCHOR_JOB_NUMBERS + field - 1] = past[field - 1];
        leafanchor_pack_answer packed = leafanchor_pack(0, bad, 14, order, LEAFANCHOR_ORDER_BYTES);
        CHECK(packed.refusal == 6 && packed.place == 1 && packed.field == field && packed.bytes == 0);
        if (field >= LEAFANCHOR_FIELD_WEIGHT) {
            named_over_bytes(bad, field);
            bad[1] = 200; /* the first job's pack */
            named_over_bytes(bad, field);
        }
    }
    memcpy(bad, two, sizeof two);
    bad[LEAFANCHOR_JOB_NUMBERS + 2] = 1; /* critical, and its weight is 5 */
    named_over_bytes(bad, LEAFANCHOR_FIELD_WEIGHT);
}

/* Whether a refusal is told so, with room for every text. */
static int told(uint32_t refusal, size_t place, uint32_t field, const char *text)
{
    char out[LEAFANCHOR_PHRASE_ROOM];
    return strcmp(leafanchor_tell(refusal, place, field, out, sizeof out), text) == 0;
}

/* A refusal in words, and a field's name, where the list of phrases has none: tools/phrases.c holds the rest. */
static void in_words(void)
{
    char out[LEAFANCHOR_PHRASE_ROOM];
    CHECK(strcmp(leafanchor_field_name(0), "no field") == 0 && strcmp(leafanchor_field_name(8), "no such field") == 0);
    CHECK(told(6, 2, LEAFANCHOR_FIELD_LENGTH, "job at place 2: length out of range"));
    CHECK(told(6, 47, LEAFANCHOR_FIELD_WEIGHT, "job at place 47: weight out of range"));
    CHECK(told(6, LEAFANCHOR_NO_PLACE, LEAFANCHOR_FIELD_READY, "ready time out of range"));
    CHECK(told(6, 2, LEAFANCHOR_NO_FIELD, leafanchor_phrase(6)) && told(6, 2, 8, leafanchor_phrase(6)));
    CHECK(told(7, LEAFANCHOR_NO_PLACE, 0, leafanchor_phrase(7)));
    CHECK(told(13, LEAFANCHOR_NO_PLACE, 0, leafanchor_phrase(13)));
    CHECK(told(16, LEAFANCHOR_NO_PLACE, 0, leafanchor_phrase(16)));
    CHECK(told(0, 0, 0, "not refused") && told(20, 3, 4, "no such refusal"));
    /* a place of 14 digits has room, the greatest is cut, and so is any text in a shorter room */
    CHECK(told(13, 99999999999999, 0, "job at place 99999999999999: it does not fit an order of halves"));
    CHECK(told(16, 99999999999999, 0, "job at place 99999999999999: out of range, or its deadline late"));
    CHECK(told(13, LEAFANCHOR_NO_PLACE - 1, 0, "job at place 18446744073709551614: it does not fit an order of "));
    CHECK(strcmp(leafanchor_tell(6, 2, 5, out, 8), "job at ") == 0);
    CHECK(strcmp(leafanchor_tell(6, 2, 5, out, 1), "") == 0);
}

/* P10 and P11. */
static void heat_up(void)
{
    CHECK(leafanchor_heat_up(255).seconds == 495 && leafanchor_heat_up(0).seconds == 450);
    CHECK(leafanchor_heat_up(9).seconds == 45 && leafanchor_heat_up(10).seconds == 0);
    CHECK(leafanchor_heat_up(246).seconds == 900 && leafanchor_heat_up(245).seconds == 1020);
    CHECK(leafanchor_heat_up(226).seconds == 3300);
    CHECK(leafanchor_heat_up(225).refusal == LEAFANCHOR_CELL_TOO_COLD && leafanchor_heat_up(225).seconds == 0);
}

/* Five orders of a week: of no jobs, of one byte, P1, one whose critical job is late, P1 again; and their stream. */
#define WEEK 5
static uint8_t week[WEEK][44], stream_bytes[2 * WEEK + 44 * WEEK];
static size_t week_len[WEEK], stream_len;
static const char week_text[] = "5\n1\n0\n0\n0\n0\n0\n0\n0\n0\n0\n1\n0\n0\n0\n0\n0\n0\n0\n0\n3\n100\n70\n8\n14 2\n"
                                "3/4\n3/10\nwhole\n";
static const char no_text[] = "0\n0\n0\n0\n0\n0\n0\n0\n0\n0\n0\n0\n0\n0\n0\n0\n0\n0\n0\n0\n0\n0\n0\n0\n-\n"
                              "-\n-\nwhole\n";

static void make_week(void)
{
    static const leafanchor_job late = {1, 0, 1, 0, 0, 10, 9};
    week_len[0] = 4;
    week_len[1] = 1;
    week_len[2] = leafanchor_pack(-600, p1, 35, week[2], sizeof week[2]).bytes;
    week_len[3] = leafanchor_pack_jobs(0, &late, 1, week[3], sizeof week[3]).bytes;
    week_len[4] = leafanchor_pack(-600, p1, 35, week[4], sizeof week[4]).bytes;
    for (size_t place = 0; place < WEEK; place++) {
        stream_bytes[stream_len++] = 0;
        stream_bytes[stream_len++] = (uint8_t)week_len[place];
        memcpy(&stream_bytes[stream_len], week[place], week_len[place]);
        stream_len += week_len[place];
    }
}

/* The sheet of the orders from a place to before another. */
static leafanchor_sheet sheet_of(size_t from, size_t to)
{
    leafanchor_sheet sheet = leafanchor_sheet_none();
    for (size_t place = from; place < to; place++) {
        CHECK(leafanchor_sheet_add_order(&sheet, week[place], week_len[place], work, LEAFANCHOR_WORK_AREA).refusal
              == 0);
    }
    return sheet;
}

/* Whether two sheets are the same. */
static int same(leafanchor_sheet one, leafanchor_sheet other) { return memcmp(&one, &other, sizeof one) == 0; }

/* Whether a sheet's text is this. */
static int tells(leafanchor_sheet sheet, uint32_t cut, const char *wanted)
{
    char text[LEAFANCHOR_SHEET_TEXT];
    leafanchor_sheet_text_answer told = leafanchor_sheet_tell(&sheet, cut, text, sizeof text);
    return told.refusal == 0 && told.bytes == strlen(wanted) && memcmp(text, wanted, told.bytes) == 0;
}

/* The sheet of the week by name and as text, and joined of two of its parts wherever it is parted. */
static void sheets(void)
{
    const leafanchor_sheet whole = sheet_of(0, WEEK), none = leafanchor_sheet_none();
    CHECK(whole.orders == 5 && whole.refused[0] == 1 && whole.refused[10] == 1 && whole.refused[18] == 0);
    CHECK(whole.feasible == 3 && whole.offered_weight == 100 && whole.kept_weight == 70 && whole.jobs_kept == 8);
    CHECK(whole.top == 15 && whole.place == 2);
    CHECK(tells(whole, 0, week_text) && tells(none, 0, no_text));
    for (size_t place = 0; place <= WEEK; place++) {
        leafanchor_sheet front = sheet_of(0, place);
        const leafanchor_sheet behind = sheet_of(place, WEEK);
        CHECK(leafanchor_sheet_join_sheet(&front, &behind).refusal == 0 && same(front, whole));
    }
    leafanchor_sheet twice = whole;
    CHECK(leafanchor_sheet_join_sheet(&twice, &twice).refusal == 0);
    CHECK(twice.orders == 10 && twice.offered_weight == 200 && twice.top == 15 && twice.place == 2);
    leafanchor_sheet wrong_sum = whole;
    wrong_sum.feasible = 2;
    leafanchor_sheet before = wrong_sum;
    CHECK(leafanchor_sheet_add_order(&wrong_sum, week[0], 4, work, LEAFANCHOR_WORK_AREA).refusal == 18);
    CHECK(leafanchor_sheet_join_sheet(&wrong_sum, &none).refusal == LEAFANCHOR_NO_SHEET && same(wrong_sum, before));
}

/* The stream of the week in two pieces, wherever it is cut, and ended there: at an entry's edge it is whole. */
static void streams(void)
{
    static char text[LEAFANCHOR_SHEET_TEXT];
    const leafanchor_sheet whole = sheet_of(0, WEEK);
    int edges = 0;
    for (size_t cut = 0; cut <= stream_len; cut++) {
        leafanchor_sheet_stream stream = leafanchor_sheet_begin();
        CHECK(leafanchor_sheet_feed_piece(&stream, stream_bytes, cut, work, LEAFANCHOR_WORK_AREA).refusal == 0);
        leafanchor_sheet_text_answer told = leafanchor_sheet_tell_stream(&stream, text, sizeof text);
        const int ends_whole = memcmp(&text[told.bytes - 7], "\nwhole\n", 7) == 0;
        edges += ends_whole;
        CHECK(told.refusal == 0 && ends_whole == (stream.known == 0));
        CHECK(ends_whole || memcmp(&text[told.bytes - 5], "\ncut\n", 5) == 0);
        CHECK(same(stream.sheet, sheet_of(0, stream.sheet.orders)));
        CHECK(leafanchor_sheet_feed_piece(&stream, &stream_bytes[cut], stream_len - cut, work, LEAFANCHOR_WORK_AREA)
                  .refusal == 0);
        CHECK(same(stream.sheet, whole) && stream.known == 0 && stream.size == 0 && stream.got == 0);
        told = leafanchor_sheet_tell_stream(&stream, text, sizeof text);
        CHECK(told.bytes == strlen(week_text) && memcmp(text, week_text, told.bytes) == 0);
    }
    CHECK(edges == WEEK + 1);
}

/* 10,000 entries of no bytes and one more, and what then is refused. */
static void full_sheets(void)
{
    static const uint8_t entries[2 * (LEAFANCHOR_SHEET_ORDERS + 1)] = {0};
    static char text[LEAFANCHOR_SHEET_TEXT];
    leafanchor_sheet_stream stream = leafanchor_sheet_begin();
    CHECK(leafanchor_sheet_feed_piece(&stream, entries, 2 * LEAFANCHOR_SHEET_ORDERS, work, LEAFANCHOR_WORK_AREA).refusal
          == 0);
    leafanchor_sheet full = stream.sheet;
    const leafanchor_sheet none = leafanchor_sheet_none(), one = sheet_of(0, 1), before = full;
    CHECK(full.orders == LEAFANCHOR_SHEET_ORDERS && full.refused[0] == full.orders);
    CHECK(leafanchor_sheet_add_order(&full, week[0], 4, work, LEAFANCHOR_WORK_AREA).refusal == LEAFANCHOR_NO_SHEET);
    CHECK(leafanchor_sheet_join_sheet(&full, &one).refusal == LEAFANCHOR_NO_SHEET);
    CHECK(leafanchor_sheet_join_sheet(&full, &none).refusal == 0 && same(full, before));
    CHECK(leafanchor_sheet_feed_piece(&stream, entries, 1, work, LEAFANCHOR_WORK_AREA).refusal == 0);
    CHECK(leafanchor_sheet_tell_stream(&stream, text, sizeof text).refusal == 0 && stream.known == 1);
    for (int again = 0; again < 2; again++) {
        CHECK(leafanchor_sheet_feed_piece(&stream, entries, 9, work, LEAFANCHOR_WORK_AREA).refusal == 18);
        CHECK(stream.sheet.orders == LEAFANCHOR_SHEET_ORDERS + 1 && stream.known == 0);
        CHECK(leafanchor_sheet_tell_stream(&stream, text, sizeof text).refusal == LEAFANCHOR_NO_SHEET);
    }
}

/* The calls of sheets over plain numbers: with all the room that they need, and with one element less of each. */
static void sheets_of_numbers(void)
{
    static uint32_t feed[LEAFANCHOR_SHEET_FEED], more[LEAFANCHOR_SHEET_FIGURES];
    static uint8_t front[LEAFANCHOR_SHEET_FRONT], text[LEAFANCHOR_SHEET_TEXT];
    const size_t figures = LEAFANCHOR_SHEET_FIGURES, feeds = sizeof feed / sizeof *feed, area = LEAFANCHOR_WORK_AREA;
    CHECK(leafanchor_sheet_add(feed, figures - 1, week[0], 4, work, area).refusal == LEAFANCHOR_BUFFER_TOO_SHORT);
    CHECK(leafanchor_sheet_add(feed, figures, week[0], 4, work, area - 1).refusal == LEAFANCHOR_BUFFER_TOO_SHORT);
    CHECK(leafanchor_sheet_add(feed, figures, week[0], 4, work, area).refusal == 0 && feed[0] == 1 && feed[24] == 1);
    CHECK(leafanchor_sheet_join(feed, figures - 1, more, figures).refusal == LEAFANCHOR_BUFFER_TOO_SHORT);
    CHECK(leafanchor_sheet_join(feed, figures, more, figures - 1).refusal == LEAFANCHOR_BUFFER_TOO_SHORT);
    CHECK(leafanchor_sheet_join(more, figures, feed, feeds).refusal == 0 && memcmp(more, feed, sizeof more) == 0);
    CHECK(leafanchor_sheet_feed(feed, feeds - 1, front, sizeof front, front, 0, work, area).refusal == 10);
    CHECK(leafanchor_sheet_feed(feed, feeds, front, sizeof front - 1, front, 0, work, area).refusal == 10);
    CHECK(leafanchor_sheet_feed(feed, feeds, front, sizeof front, stream_bytes, 3, work, area - 1).refusal == 10);
    CHECK(leafanchor_sheet_feed(feed, feeds, front, sizeof front, stream_bytes, 3, work, area).refusal == 0);
    CHECK(feed[0] == 1 && feed[26] == 2 && feed[27] == 4 && feed[28] == 1);
    CHECK(leafanchor_sheet_text(feed, figures - 1, 1, text, sizeof text).refusal == LEAFANCHOR_BUFFER_TOO_SHORT);
    CHECK(leafanchor_sheet_text(feed, figures, 1, text, sizeof text - 1).refusal == LEAFANCHOR_BUFFER_TOO_SHORT);
    leafanchor_sheet_text_answer told = leafanchor_sheet_text(feed, figures, feed[26], text, sizeof text);
    CHECK(told.refusal == 0 && memcmp(&text[told.bytes - 17], "\n0\n0 0\n1/1\n-\ncut\n", 17) == 0);
    feed[28] = 4;
    CHECK(leafanchor_sheet_feed(feed, feeds, front, sizeof front, stream_bytes, 3, work, area).refusal == 18);
    CHECK(feed[0] == 1 && feed[26] == 2 && feed[27] == 4 && feed[28] == 4);
}

/* The version's text is its figures. */
static void version(void)
{
    char text[32];
    snprintf(text, sizeof text, "%d.%d.%d", LEAFANCHOR_VERSION_MAJOR, LEAFANCHOR_VERSION_MINOR,
             LEAFANCHOR_VERSION_PATCH);
    CHECK(strcmp(text, LEAFANCHOR_VERSION) == 0);
}

int main(void)
{
    packed_orders();
    jobs();
    plans();
    profiles();
    held_profiles();
    profiles_in_place();
    tails();
    rest();
    latest();
    plans_of_halves();
    not_of_halves();
    written_plans();
    checked_plans();
    packs();
    kinds();
    openings();
    rival_openings();
    unlike_openings();
    fields_out_of_range();
    in_words();
    frames();
    no_frames();
    two_frames();
    make_week();
    sheets();
    streams();
    full_sheets();
    sheets_of_numbers();
    heat_up();
    version();
    puts(wrong ? "every call: differs" : "every call: as worked out");
    return wrong;
}
