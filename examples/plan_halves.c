/* Plans two long checks, each split into a critical half and an optional one, and prints when every half runs and how
 * many optional seconds are lost. An order that is refused prints its refusal, place, field and phrase. */
#include "leafanchor.h"

#include <inttypes.h>
#include <stdio.h>

/* Check 4, whose optional half is job 36, and check 9, whose optional half is job 41: an optional half's number is 32
 * above its critical half's, and it takes 60 seconds for each of its weight. */
static const int32_t jobs[] = {
    /* number, pack, critical, weight, ready, length, deadline */
    4,  0, 1, 0, -900, 300, -300,
    36, 0, 0, 5, -900, 300, 0,
    9,  0, 1, 0, -900, 200, 0,
    41, 0, 0, 8, -900, 480, 300,
};
#define NUMBERS (sizeof jobs / sizeof jobs[0])

static uint8_t order[LEAFANCHOR_ORDER_BYTES];
static int32_t starts[LEAFANCHOR_STARTS];
static int32_t work[LEAFANCHOR_WORK_AREA];

/* Prints one line: the job of these seven numbers, and when it runs. */
static void print_job(const int32_t *job, int32_t start)
{
    printf("job %" PRId32 ", %s: ", job[0], job[2] == 1 ? "critical" : "optional");
    if (start == LEAFANCHOR_LEFT_OUT) {
        printf("left out\n");
    } else {
        printf("from %" PRId32 " to %" PRId32 "\n", start, start + job[5]);
    }
}

/* Prints a refusal. */
static int refused(uint32_t refusal, size_t place, uint32_t field)
{
    char phrase[LEAFANCHOR_PHRASE_ROOM];
    printf("%" PRIu32 " %zu %" PRIu32 " %s\n", refusal, place, field,
           leafanchor_tell(refusal, place, field, phrase, sizeof phrase));
    return 1;
}

int main(void)
{
    leafanchor_pack_answer packed = leafanchor_pack(-900, jobs, NUMBERS, order, LEAFANCHOR_ORDER_BYTES);
    if (packed.refusal != LEAFANCHOR_NONE) {
        return refused(packed.refusal, packed.place, packed.field);
    }
    leafanchor_halves_answer plan =
        leafanchor_plan_halves(order, packed.bytes, starts, LEAFANCHOR_STARTS, work, LEAFANCHOR_WORK_AREA);
    if (plan.refusal != LEAFANCHOR_NONE) {
        return refused(plan.refusal, plan.place, plan.field);
    }
    for (size_t place = 0; place < NUMBERS / LEAFANCHOR_JOB_NUMBERS; place++) {
        print_job(&jobs[LEAFANCHOR_JOB_NUMBERS * place], starts[place]);
    }
    printf("bus free at %" PRId32 ", optional seconds lost: %" PRIu32 "\n", plan.finish, plan.seconds_lost);
    return 0;
}
