/* Plans the packed order on standard input (p1.order is one) and prints the plan: a line of figures, then
 * each job's number and its start, or - where it is left out. A refused order prints its refusal, place,
 * field and phrase. */
#include "leafanchor.h"

#include <inttypes.h>
#include <stdio.h>

/* One byte more than the longest order, so that a longer input is seen to be too long. */
static uint8_t order[LEAFANCHOR_ORDER_BYTES + 1];
static int32_t starts[LEAFANCHOR_STARTS];
static int32_t work[LEAFANCHOR_WORK_AREA];

/* Prints the jobs' lines, with a reader over the order's bytes. */
static void print_jobs(size_t bytes)
{
    size_t place = 0;
    for (;;) {
        leafanchor_step_answer job = leafanchor_step(order, bytes, place);
        if (job.refusal != LEAFANCHOR_NONE || job.end == 1) {
            return;
        }
        if (starts[place] == LEAFANCHOR_LEFT_OUT) {
            printf("%" PRId32 " -\n", job.number);
        } else {
            printf("%" PRId32 " %" PRId32 "\n", job.number, starts[place]);
        }
        place = job.next;
    }
}

/* Prints a refused order's line. */
static void print_refusal(leafanchor_plan_answer plan)
{
    char phrase[LEAFANCHOR_PHRASE_ROOM];
    printf("%" PRIu32 " %zu %" PRIu32 " %s\n", plan.refusal, plan.place, plan.field,
           leafanchor_tell(plan.refusal, plan.place, plan.field, phrase, sizeof phrase));
}

int main(void)
{
    size_t bytes = fread(order, 1, sizeof order, stdin);
    leafanchor_plan_answer plan =
        leafanchor_plan(order, bytes, starts, LEAFANCHOR_STARTS, work, LEAFANCHOR_WORK_AREA);
    if (plan.refusal != LEAFANCHOR_NONE) {
        print_refusal(plan);
        return 1;
    }
    printf("%" PRIu32 " %zu %" PRIu32 " %" PRIu32 " %" PRIu32 " %" PRId32 " %" PRIu32 "\n", plan.refusal,
           plan.place, plan.kept, plan.kept_weight, plan.lost_weight, plan.finish, plan.points);
    print_jobs(bytes);
    return 0;
}
