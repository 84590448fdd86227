/* Plans the tail of a morning twice. Before the hangar picks one of two openings: the better of both openings'
 * profiles, extended by the tail, says what can be kept by when. Once it has picked: the winner's point at that time
 * says when the bus is free; that is the t0 of the tail's packed order, and the tail is planned from there. What is
 * refused prints its refusal and phrase. */
#include "leafanchor.h"

#include <inttypes.h>
#include <stdio.h>

#define OPENINGS 2
#define PICKED_AT 300

/* A balancing and a top-up: with the first opening the bus is free at 0, with the second at 60, and the top-up is
 * ready later. */
static const int32_t bus_free[OPENINGS] = {0, 60};
static const leafanchor_job opening_jobs[OPENINGS][2] = {
    /* number, pack, critical, weight, ready, length, deadline */
    {{4, 0, 0, 10, 0, 240, 600}, {9, 0, 0, 15, 300, 300, 900}},
    {{4, 0, 0, 10, 0, 120, 600}, {9, 0, 0, 15, 400, 300, 900}},
};
/* The tail: a heat-up that must run, a balancing and a top-up. */
static const leafanchor_job tail_jobs[] = {
    {21, 0, 1, 0,  200, 120, 700},
    {33, 0, 0, 20, 0,   200, 560},
    {17, 0, 0, 12, 300, 100, 640},
};
#define TAIL_JOBS (sizeof tail_jobs / sizeof *tail_jobs)

static uint8_t openings[OPENINGS][LEAFANCHOR_ORDER_BYTES], tail[LEAFANCHOR_ORDER_BYTES];
static size_t opening_len[OPENINGS];
static leafanchor_profile profiles[OPENINGS], morning; /* the morning starts as the profile of no points */
static int32_t starts[LEAFANCHOR_STARTS];
static int32_t work[LEAFANCHOR_WORK_AREA];

/* Prints a refusal. */
static int refused(uint32_t refusal, size_t place, uint32_t field)
{
    char phrase[LEAFANCHOR_PHRASE_ROOM];
    printf("%" PRIu32 " %s\n", refusal, leafanchor_tell(refusal, place, field, phrase, sizeof phrase));
    return 1;
}

/* Before the pick: gathers the better of the openings' profiles in the morning, one opening after the other. */
static int gather_openings(void)
{
    for (size_t i = 0; i < OPENINGS; i++) {
        opening_len[i] = leafanchor_pack_jobs(bus_free[i], opening_jobs[i], 2, openings[i], sizeof openings[i]).bytes;
        leafanchor_extend_answer made =
            leafanchor_profile_of_order(openings[i], opening_len[i], &profiles[i], work, LEAFANCHOR_WORK_AREA);
        if (made.refusal != LEAFANCHOR_NONE) {
            return refused(made.refusal, made.place, made.field);
        }
        leafanchor_better_answer gathered = leafanchor_profile_better(&morning, &profiles[i], &morning);
        if (gathered.refusal != LEAFANCHOR_NONE) {
            return refused(gathered.refusal, LEAFANCHOR_NO_PLACE, LEAFANCHOR_NO_FIELD);
        }
    }
    return 0;
}

/* Before the pick: extends the morning by the tail, whichever opening it will be. The tail starts when the points say;
 * its own t0 has no effect here. */
static int extend_by_tail(void)
{
    size_t tail_len = leafanchor_pack_jobs(0, tail_jobs, TAIL_JOBS, tail, sizeof tail).bytes;
    leafanchor_extend_answer extended =
        leafanchor_profile_extended(&morning, tail, tail_len, &morning, work, LEAFANCHOR_WORK_AREA);
    if (extended.refusal != LEAFANCHOR_NONE) {
        return refused(extended.refusal, extended.place, extended.field);
    }
    printf("before the pick:");
    for (size_t at = 0; at < morning.numbers_len; at += 2) {
        printf(" weight %" PRId32 " by %" PRId32 "%s", morning.numbers[at + 1], morning.numbers[at],
               at + 2 < morning.numbers_len ? "," : "\n");
    }
    return 0;
}

/* The point of a profile at a time, the last one at or before it. Lookup tells its weight; its time stands in the
 * profile. */
static leafanchor_point point_at(const leafanchor_profile *profile, int32_t t)
{
    leafanchor_point point = {0, 0};
    for (size_t at = 0; at < profile->numbers_len && profile->numbers[at] <= t; at += 2) {
        point.time = profile->numbers[at];
        point.weight = profile->numbers[at + 1];
    }
    return point;
}

/* After the pick: plans the tail from the point's time. A time past 100,000, which a point may have, is no t0: packing
 * refuses it with 5, and there is only the profile then. */
static int plan_tail(leafanchor_point from)
{
    leafanchor_pack_answer packed = leafanchor_pack_jobs(from.time, tail_jobs, TAIL_JOBS, tail, sizeof tail);
    if (packed.refusal != LEAFANCHOR_NONE) {
        return refused(packed.refusal, packed.place, packed.field);
    }
    leafanchor_plan_answer plan =
        leafanchor_plan(tail, packed.bytes, starts, LEAFANCHOR_STARTS, work, LEAFANCHOR_WORK_AREA);
    if (plan.refusal != LEAFANCHOR_NONE) {
        return refused(plan.refusal, plan.place, plan.field);
    }
    for (size_t place = 0; place < TAIL_JOBS; place++) {
        if (starts[place] == LEAFANCHOR_LEFT_OUT) {
            printf("job %" PRId32 ": left out\n", tail_jobs[place].number);
        } else {
            printf("job %" PRId32 ": from %" PRId32 " to %" PRId32 "\n", tail_jobs[place].number, starts[place],
                   starts[place] + tail_jobs[place].length);
        }
    }
    printf("weight %" PRId32 " and %" PRIu32 " kept, the bus free at %" PRId32 "\n", from.weight, plan.kept_weight,
           plan.finish);
    /* By then the profile has promised as much. It may promise more, by a point that was not picked. */
    printf("as before the pick: weight %" PRIu32 " by %" PRId32 "\n",
           leafanchor_profile_lookup(&morning, plan.finish).weight, plan.finish);
    return 0;
}

int main(void)
{
    if (gather_openings() != 0 || extend_by_tail() != 0) {
        return 1;
    }
    leafanchor_question_answer pick = leafanchor_question(openings[0], opening_len[0], openings[1], opening_len[1],
                                                          PICKED_AT, work, LEAFANCHOR_WORK_AREA);
    if (pick.refusal != LEAFANCHOR_NONE) {
        return refused(pick.refusal, LEAFANCHOR_NO_PLACE, pick.field);
    }
    leafanchor_point point = point_at(&profiles[pick.winner - 1], PICKED_AT);
    printf("at %d: the %s opening, weight %" PRId32 " kept, the bus free at %" PRId32 "\n", PICKED_AT,
           pick.winner == 1 ? "first" : "second", point.weight, point.time);
    return plan_tail(point);
}
