/* Makes the order of one frame of two repeating jobs, a coolant pump's check and a fan's, plans it and prints when
 * every repeat runs. Then it joins two frames, the second numbered on and set one frame later, and plans them: twice
 * the weight is kept. What is refused prints its refusal, place and phrase. */
#include "leafanchor.h"

#include <inttypes.h>
#include <stdio.h>

static const leafanchor_repeating repeating[] = {
    /* critical, weight, phase, length, deadline, period */
    {1, 0, 0, 60, 300, 1200},   /* the pump */
    {0, 5, 100, 120, 400, 1800} /* the fan */
};
#define REPEATING (sizeof repeating / sizeof *repeating)

static uint8_t order[LEAFANCHOR_ORDER_BYTES];
static leafanchor_job jobs[2 * LEAFANCHOR_MOST_JOBS]; /* of one frame, and behind them of the next */
static int32_t starts[LEAFANCHOR_STARTS];
static int32_t work[LEAFANCHOR_WORK_AREA];

/* Prints a refusal. */
static int refused(uint32_t refusal, size_t place, uint32_t field)
{
    char phrase[LEAFANCHOR_PHRASE_ROOM];
    printf("%" PRIu32 " %zu %s\n", refusal, place, leafanchor_tell(refusal, place, field, phrase, sizeof phrase));
    return 1;
}

/* Prints one line: a repeat, and when it runs. */
static void print_repeat(const leafanchor_job *job, int32_t start)
{
    printf("job %" PRId32 ", %s: ready at %" PRId32 ", ", job->number, job->critical == 1 ? "the pump" : "the fan",
           job->ready);
    if (start == LEAFANCHOR_LEFT_OUT) {
        printf("left out\n");
    } else {
        printf("runs from %" PRId32 " to %" PRId32 "\n", start, start + job->length);
    }
}

/* Puts the jobs of the next frame behind those of the first. */
static void join_frames(size_t count, int32_t frame)
{
    for (size_t place = 0; place < count; place++) {
        jobs[count + place] = jobs[place];
        jobs[count + place].number += (int32_t)count;
        jobs[count + place].ready += frame;
        jobs[count + place].deadline += frame;
    }
}

int main(void)
{
    leafanchor_frame_answer made = leafanchor_frame_jobs(repeating, REPEATING, order, sizeof order);
    if (made.refusal != LEAFANCHOR_NONE) {
        return refused(made.refusal, made.place, LEAFANCHOR_NO_FIELD);
    }
    const size_t count = leafanchor_unpack_jobs(order, made.bytes, jobs, LEAFANCHOR_MOST_JOBS).jobs;
    leafanchor_plan_answer one =
        leafanchor_plan(order, made.bytes, starts, LEAFANCHOR_STARTS, work, LEAFANCHOR_WORK_AREA);
    if (one.refusal != LEAFANCHOR_NONE) {
        return refused(one.refusal, one.place, one.field);
    }
    printf("a frame of %" PRIu32 " seconds, %zu bytes\n", made.frame, made.bytes);
    for (size_t place = 0; place < count; place++) {
        print_repeat(&jobs[place], starts[place]);
    }
    join_frames(count, (int32_t)made.frame);
    leafanchor_pack_answer both = leafanchor_pack_jobs(0, jobs, 2 * count, order, sizeof order);
    if (both.refusal != LEAFANCHOR_NONE) {
        return refused(both.refusal, both.place, both.field);
    }
    leafanchor_plan_answer two =
        leafanchor_plan(order, both.bytes, starts, LEAFANCHOR_STARTS, work, LEAFANCHOR_WORK_AREA);
    printf("weight %" PRIu32 " kept in one frame, %" PRIu32 " in two\n", one.kept_weight, two.kept_weight);
    return 0;
}
