/* Writes our own plan of P1 in packed bytes, and says of it and of three plans from the hangar whether each is legal
 * and whether it is best. What is refused prints its refusal, place, field and phrase. */
#include "leafanchor.h"

#include <inttypes.h>
#include <stdio.h>

/* P1, bus free at -600. */
static const int32_t jobs[] = {
    /* number, pack, critical, weight, ready, length, deadline */
    7,  0, 1, 0,  -600, 495, 0,
    3,  0, 0, 20, -200, 300, 250,
    12, 0, 0, 15, 0,    200, 300,
    5,  0, 1, 0,  100,  100, 450,
    9,  0, 0, 15, 0,    100, 500,
};

/* Plans from the hangar: 48 bits for the jobs kept, then 18 for the start of each. */
#define HANGAR_BYTES 15
static const struct { const char *name; uint8_t bytes[HANGAR_BYTES]; } hangar[] = {
    /* jobs 7, 3, 5 and 9 at -600, -60, 260 and 400: the bus idles between them */
    {"with idle time", {0xD8, 0, 0, 0, 0, 0, 0xFF, 0x6A, 0x3F, 0xFC, 0x40, 0x04, 0x10, 0x01, 0x90}},
    /* jobs 7, 12, 5 and 9 at -600, 0, 215 and 330: weight 30 is kept, and 35 can be */
    {"with job 12 for job 3", {0xB8, 0, 0, 0, 0, 0, 0xFF, 0x6A, 0x00, 0x00, 0x00, 0x03, 0x5C, 0x01, 0x4A}},
    /* our own plan, but job 3 starts at -91: job 7 ends at -105 */
    {"after a rest of 14 seconds", {0xD8, 0, 0, 0, 0, 0, 0xFF, 0x6A, 0x3F, 0xFA, 0x50, 0x03, 0x84, 0x01, 0x54}},
};

static uint8_t order[LEAFANCHOR_ORDER_BYTES];
static size_t order_len;
static uint8_t ours[LEAFANCHOR_PLAN_BYTES];
static int32_t work[LEAFANCHOR_WORK_AREA];

/* Prints a refusal. */
static int refused(uint32_t refusal, size_t place, uint32_t field)
{
    char phrase[LEAFANCHOR_PHRASE_ROOM];
    printf("%" PRIu32 " %zu %" PRIu32 " %s\n", refusal, place, field,
           leafanchor_tell(refusal, place, field, phrase, sizeof phrase));
    return 1;
}

/* Prints both verdicts on a plan. */
static int print_verdicts(const char *name, const uint8_t *plan, size_t plan_len)
{
    leafanchor_verdict_answer legal = leafanchor_legal(order, order_len, plan, plan_len);
    if (legal.refusal != LEAFANCHOR_NONE) {
        return refused(legal.refusal, legal.place, legal.field);
    }
    leafanchor_verdict_answer best =
        leafanchor_best(order, order_len, plan, plan_len, work, LEAFANCHOR_WORK_AREA);
    if (best.refusal != LEAFANCHOR_NONE) {
        return refused(best.refusal, best.place, best.field);
    }
    printf("%s: %s, %s\n", name, legal.yes == 1 ? "legal" : "not legal", best.yes == 1 ? "best" : "not best");
    return 0;
}

int main(void)
{
    leafanchor_pack_answer packed =
        leafanchor_pack(-600, jobs, sizeof jobs / sizeof jobs[0], order, LEAFANCHOR_ORDER_BYTES);
    if (packed.refusal != LEAFANCHOR_NONE) {
        return refused(packed.refusal, packed.place, packed.field);
    }
    order_len = packed.bytes;
    leafanchor_pack_answer written =
        leafanchor_write_plan(order, order_len, ours, LEAFANCHOR_PLAN_BYTES, work, LEAFANCHOR_WORK_AREA);
    if (written.refusal != LEAFANCHOR_NONE) {
        return refused(written.refusal, written.place, written.field);
    }
    for (size_t byte = 0; byte < written.bytes; byte++) {
        printf("%02X%s", (unsigned)ours[byte], byte + 1 < written.bytes ? " " : "\n");
    }
    int failed = print_verdicts("our own plan", ours, written.bytes);
    for (size_t plan = 0; plan < sizeof hangar / sizeof hangar[0]; plan++) {
        failed |= print_verdicts(hangar[plan].name, hangar[plan].bytes, HANGAR_BYTES);
    }
    return failed;
}
