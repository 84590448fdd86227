/* Asks of two openings for the tail of a morning which one wins at each of five times: by the rule that is meant, equal weight
 * to the one that reaches it sooner, and by the night desk's, equal weight to the first. The jobs of the second have packs, so
 * its records are of kind 1, which the question tells too. What is refused prints its refusal, field and phrase. */
#include "leafanchor.h"

#include <inttypes.h>
#include <stdio.h>

/* A balancing and a top-up: with the first opening the bus is free at 0, with the second at 60, and the top-up is ready later. */
static const int32_t first_jobs[] = {
    /* number, pack, critical, weight, ready, length, deadline */
    4, 0, 0, 10, 0,   240, 600,
    9, 0, 0, 15, 300, 300, 900,
};
static const int32_t second_jobs[] = {
    4, 31, 0, 10, 0,   120, 600,
    9, 32, 0, 15, 400, 300, 900,
};
static const int32_t times[] = {50, 200, 300, 650, 800};

static uint8_t first[LEAFANCHOR_ORDER_BYTES], second[LEAFANCHOR_ORDER_BYTES];
static int32_t work[LEAFANCHOR_WORK_AREA];

/* Prints a refusal. */
static int refused(uint32_t refusal, uint32_t field)
{
    char phrase[LEAFANCHOR_PHRASE_ROOM];
    printf("%" PRIu32 " %" PRIu32 " %s\n", refusal, field,
           leafanchor_tell(refusal, LEAFANCHOR_NO_PLACE, field, phrase, sizeof phrase));
    return 1;
}

/* Prints who wins at a time by both rules. */
static int print_winners(size_t first_len, size_t second_len, int32_t t)
{
    leafanchor_question_answer fair =
        leafanchor_question(first, first_len, second, second_len, t, work, LEAFANCHOR_WORK_AREA);
    leafanchor_question_answer night =
        leafanchor_question_first(first, first_len, second, second_len, t, work, LEAFANCHOR_WORK_AREA);
    if (fair.refusal != LEAFANCHOR_NONE) {
        return refused(fair.refusal, fair.field);
    }
    printf("at %" PRId32 ": the %s opening, of kind %" PRIu32 ", for the night desk the %s\n", t,
           fair.winner == 1 ? "first" : "second", fair.kind, night.winner == 1 ? "first" : "second");
    return 0;
}

int main(void)
{
    size_t first_len = leafanchor_pack(0, first_jobs, sizeof first_jobs / sizeof *first_jobs, first, sizeof first).bytes;
    size_t second_len = leafanchor_pack(60, second_jobs, sizeof second_jobs / sizeof *second_jobs, second, sizeof second).bytes;
    int failed = 0;
    for (size_t i = 0; i < sizeof times / sizeof *times; i++) {
        failed |= print_winners(first_len, second_len, times[i]);
    }
    return failed;
}
