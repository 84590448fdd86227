/* Measures the greatest stack use of every call: each runs on a painted stack of its own, and the lowest
 * byte that lost its paint tells how deep it went, less the depth of a call that does nothing. Ends with a
 * failure above LEAFANCHOR_STACK bytes. A part of a frame that no run writes is not seen; the inputs are long, short
 * and refused ones. To be linked with all names bound at the start, or the first call of a C function
 * would count the loader's stack. */
#define _GNU_SOURCE
#include "leafanchor.h"

#include <stdio.h>
#include <stdlib.h>
#include <string.h>
#include <ucontext.h>

#define STACK (1 << 18)
#define PAINT 0xA5
#define INPUTS 6
#define WIDE 4 /* the input with windows that every choice meets */
#define POINTS (LEAFANCHOR_PROFILE_ROOM / 2)

static unsigned char *stack;
static uint8_t orders[INPUTS][LEAFANCHOR_ORDER_BYTES];
static size_t bytes[INPUTS];
static int32_t numbers[LEAFANCHOR_ORDER_NUMBERS], copy[LEAFANCHOR_ORDER_NUMBERS];
static size_t jobs[INPUTS];
static int32_t profile[LEAFANCHOR_PROFILE_ROOM], other[LEAFANCHOR_PROFILE_ROOM], out[LEAFANCHOR_PROFILE_ROOM];
static leafanchor_point points[POINTS];
static int32_t starts[LEAFANCHOR_STARTS], work[LEAFANCHOR_WORK_AREA];
static uint8_t packed[LEAFANCHOR_ORDER_BYTES];
static uint8_t plans[INPUTS][LEAFANCHOR_PLAN_BYTES];
static size_t plan_bytes[INPUTS];
static leafanchor_repeating repeating[INPUTS][LEAFANCHOR_MOST_REPEATING];
static leafanchor_job job_list[LEAFANCHOR_MOST_JOBS];
static const leafanchor_profile bus_free = {2, {0, 0}};
static leafanchor_profile long_profile, long_other, made;
static leafanchor_sheet sheets[INPUTS], counted;
static leafanchor_sheet_stream stream;
static uint8_t entries[INPUTS][2 + LEAFANCHOR_ORDER_BYTES];
static char text[LEAFANCHOR_SHEET_TEXT];

/* One call on one of the inputs; it gives the refusal. */
typedef uint32_t call(size_t input);

static uint32_t nothing(size_t i) { return (uint32_t)i; }
static uint32_t heat_up(size_t i) { return leafanchor_heat_up((uint8_t)(i * 60)).refusal; }
static uint32_t unpack(size_t i)
{
    return leafanchor_unpack(orders[i], bytes[i], copy, LEAFANCHOR_ORDER_NUMBERS).refusal;
}
static uint32_t pack(size_t i)
{
    return leafanchor_pack(0, numbers, LEAFANCHOR_JOB_NUMBERS * jobs[i], packed, LEAFANCHOR_ORDER_BYTES).refusal;
}
static uint32_t frame(size_t i)
{
    return leafanchor_frame(&repeating[i][0].critical, LEAFANCHOR_REPEATING_NUMBERS, packed,
                            LEAFANCHOR_ORDER_BYTES).refusal;
}
static uint32_t open(size_t i) { return leafanchor_open(orders[i], bytes[i]).refusal; }
static uint32_t step(size_t i) { return leafanchor_step(orders[i], bytes[i], i).refusal; }
static uint32_t lookup(size_t i) { return leafanchor_lookup(profile, LEAFANCHOR_PROFILE_ROOM - i, 5).refusal; }
static uint32_t lookup_records(size_t i) { return leafanchor_lookup_records(points, POINTS - i, 500).refusal; }
static uint32_t better_of(size_t i)
{
    return leafanchor_better_of(profile, LEAFANCHOR_PROFILE_ROOM - i, other, LEAFANCHOR_PROFILE_ROOM, out,
                                LEAFANCHOR_PROFILE_ROOM).refusal;
}
static uint32_t extend(size_t i)
{
    return leafanchor_extend(profile, 2, orders[i], bytes[i], out, LEAFANCHOR_PROFILE_ROOM, work,
                             LEAFANCHOR_WORK_AREA).refusal;
}
static uint32_t plan(size_t i)
{
    return leafanchor_plan(orders[i], bytes[i], starts, LEAFANCHOR_STARTS, work, LEAFANCHOR_WORK_AREA).refusal;
}
static uint32_t plan_halves(size_t i)
{
    return leafanchor_plan_halves(orders[i], bytes[i], starts, LEAFANCHOR_STARTS, work, LEAFANCHOR_WORK_AREA).refusal;
}
static uint32_t write_plan(size_t i)
{
    return leafanchor_write_plan(orders[i], bytes[i], packed, LEAFANCHOR_PLAN_BYTES, work,
                                 LEAFANCHOR_WORK_AREA).refusal;
}
static uint32_t legal(size_t i) { return leafanchor_legal(orders[i], bytes[i], plans[i], plan_bytes[i]).refusal; }
static uint32_t best(size_t i)
{
    return leafanchor_best(orders[i], bytes[i], plans[i], plan_bytes[i], work, LEAFANCHOR_WORK_AREA).refusal;
}
static uint32_t question(size_t i)
{
    return leafanchor_question(orders[i], bytes[i], orders[0], bytes[0], 9000, work, LEAFANCHOR_WORK_AREA).refusal;
}
static uint32_t question_first(size_t i)
{
    return leafanchor_question_first(orders[i], bytes[i], orders[0], bytes[0], 9000, work,
                                     LEAFANCHOR_WORK_AREA).refusal;
}
static uint32_t choose(size_t i)
{
    return leafanchor_choose(orders[i], bytes[i], orders[0], bytes[0], 9000, work, LEAFANCHOR_WORK_AREA).refusal;
}
static uint32_t choose_first(size_t i)
{
    return leafanchor_choose_first(orders[i], bytes[i], orders[0], bytes[0], 9000, work, LEAFANCHOR_WORK_AREA).refusal;
}
static uint32_t unpack_jobs(size_t i)
{
    return leafanchor_unpack_jobs(orders[i], bytes[i], job_list, LEAFANCHOR_MOST_JOBS).refusal;
}
static uint32_t pack_jobs(size_t i)
{
    return leafanchor_pack_jobs(0, job_list, jobs[i], packed, LEAFANCHOR_ORDER_BYTES).refusal;
}
static uint32_t frame_jobs(size_t i)
{
    return leafanchor_frame_jobs(repeating[i], LEAFANCHOR_MOST_REPEATING, packed, LEAFANCHOR_ORDER_BYTES).refusal;
}
static uint32_t profile_of_order(size_t i)
{
    return leafanchor_profile_of_order(orders[i], bytes[i], &made, work, LEAFANCHOR_WORK_AREA).refusal;
}
static uint32_t profile_extended(size_t i)
{
    return leafanchor_profile_extended(&bus_free, orders[i], bytes[i], &made, work, LEAFANCHOR_WORK_AREA).refusal;
}
static uint32_t extended_in_place(size_t i)
{
    made = bus_free;
    return leafanchor_profile_extended(&made, orders[i], bytes[i], &made, work, LEAFANCHOR_WORK_AREA).refusal;
}
static uint32_t profile_better(size_t i)
{
    return leafanchor_profile_better(&long_profile, i % 2 == 0 ? &long_other : &bus_free, &made).refusal;
}
static uint32_t better_in_place(size_t i)
{
    made = long_profile;
    return leafanchor_profile_better(&made, i % 2 == 0 ? &long_other : &made, &made).refusal;
}
static uint32_t profile_lookup(size_t i) { return leafanchor_profile_lookup(&long_profile, 500 * (int32_t)i).refusal; }
static uint32_t sheet_add(size_t i)
{
    return leafanchor_sheet_add(&counted.orders, LEAFANCHOR_SHEET_FIGURES, orders[i], bytes[i], work,
                                LEAFANCHOR_WORK_AREA).refusal;
}
static uint32_t sheet_join(size_t i)
{
    return leafanchor_sheet_join(&counted.orders, LEAFANCHOR_SHEET_FIGURES, &sheets[i].orders,
                                 LEAFANCHOR_SHEET_FIGURES).refusal;
}
static uint32_t sheet_feed(size_t i)
{
    return leafanchor_sheet_feed(&stream.sheet.orders, LEAFANCHOR_SHEET_FEED, stream.front, LEAFANCHOR_SHEET_FRONT,
                                 entries[i], 2 + bytes[i], work, LEAFANCHOR_WORK_AREA).refusal;
}
static uint32_t sheet_text(size_t i)
{
    return leafanchor_sheet_text(&sheets[i].orders, LEAFANCHOR_SHEET_FIGURES, 0, (uint8_t *)text, sizeof text).refusal;
}
static uint32_t sheet_none(size_t i)
{
    counted = leafanchor_sheet_none();
    return (uint32_t)i;
}
static uint32_t sheet_add_order(size_t i)
{
    return leafanchor_sheet_add_order(&counted, orders[i], bytes[i], work, LEAFANCHOR_WORK_AREA).refusal;
}
static uint32_t sheet_join_sheet(size_t i) { return leafanchor_sheet_join_sheet(&counted, &sheets[i]).refusal; }
static uint32_t sheet_tell(size_t i) { return leafanchor_sheet_tell(&sheets[i], 1, text, sizeof text).refusal; }
static uint32_t sheet_begin(size_t i)
{
    stream = leafanchor_sheet_begin();
    return (uint32_t)i;
}
static uint32_t sheet_feed_piece(size_t i)
{
    return leafanchor_sheet_feed_piece(&stream, entries[i], 2 + bytes[i], work, LEAFANCHOR_WORK_AREA).refusal;
}
static uint32_t sheet_tell_stream(size_t i)
{
    return leafanchor_sheet_tell_stream(&stream, text, sizeof text - (i == 0)).refusal;
}

static const struct { const char *name; call *run; } calls[] = {
    {"heat_up", heat_up}, {"unpack", unpack}, {"pack", pack}, {"frame", frame}, {"open", open}, {"step", step},
    {"lookup", lookup}, {"lookup_records", lookup_records}, {"better_of", better_of}, {"extend", extend},
    {"plan", plan}, {"plan_halves", plan_halves}, {"write_plan", write_plan}, {"legal", legal}, {"best", best},
    {"question", question}, {"question_first", question_first}, {"choose", choose}, {"choose_first", choose_first},
    {"unpack_jobs", unpack_jobs}, {"pack_jobs", pack_jobs}, {"frame_jobs", frame_jobs},
    {"profile_of_order", profile_of_order}, {"profile_extended", profile_extended},
    {"profile_extended in place", extended_in_place},
    {"profile_better", profile_better}, {"profile_better in place", better_in_place},
    {"profile_lookup", profile_lookup}, {"sheet_add", sheet_add}, {"sheet_join", sheet_join},
    {"sheet_feed", sheet_feed}, {"sheet_text", sheet_text}, {"sheet_none", sheet_none},
    {"sheet_add_order", sheet_add_order}, {"sheet_join_sheet", sheet_join_sheet}, {"sheet_tell", sheet_tell},
    {"sheet_begin", sheet_begin}, {"sheet_feed_piece", sheet_feed_piece}, {"sheet_tell_stream", sheet_tell_stream}};

/* Ends the program where the system refuses something. */
static void must(int result, const char *what)
{
    if (result != 0) {
        printf("stack: %s failed\n", what);
        exit(2);
    }
}

static struct { call *run; size_t input; uint32_t refusal; } task;
static ucontext_t here, there;

/* What runs on the painted stack. It leaves by the switch and never returns, so that leaving adds no depth. */
static void run_task(void)
{
    task.refusal = task.run(task.input);
    must(swapcontext(&there, &here), "the way back");
}

/* The bytes of the painted stack that this call used. */
static size_t depth(call *run, size_t input)
{
    size_t untouched = 0;
    memset(stack, PAINT, STACK);
    task.run = run;
    task.input = input;
    must(getcontext(&there), "a context");
    there.uc_stack.ss_sp = stack;
    there.uc_stack.ss_size = STACK;
    there.uc_link = NULL;
    makecontext(&there, run_task, 0);
    must(swapcontext(&here, &there), "the way there");
    while (untouched < STACK && stack[untouched] == PAINT) {
        untouched++;
    }
    return STACK - untouched;
}

/* The greatest depth over all inputs. */
static size_t deepest(call *run)
{
    size_t most = 0;
    for (size_t input = 0; input < INPUTS; input++) {
        size_t used = depth(run, input);
        most = used > most ? used : most;
    }
    return most;
}

/* 16 repeating jobs whose periods of 60, 100 and 300 make 48 repeats that meet at many times, falling by their phases;
 * the same with one that is late at the end, with too long a frame, with too many repeats and with too much weight. */
static void make_repeating(void)
{
    static const int32_t periods[LEAFANCHOR_MOST_REPEATING] = {300, 60, 300, 60, 100, 60, 300, 60,
                                                               300, 60, 300, 60, 100, 60, 300, 300};
    for (int32_t place = 0; place < LEAFANCHOR_MOST_REPEATING; place++) {
        const leafanchor_repeating job = {place % 2, 2 * (1 - place % 2), 15 - place, 5, 20, periods[place]};
        for (size_t input = 0; input < INPUTS; input++) {
            repeating[input][place] = job;
        }
    }
    repeating[1][LEAFANCHOR_MOST_REPEATING - 1].deadline = 286;
    repeating[2][LEAFANCHOR_MOST_REPEATING - 1].period = LEAFANCHOR_LONGEST_FRAME - 1;
    repeating[3][LEAFANCHOR_MOST_REPEATING - 1].period = LEAFANCHOR_LONGEST_FRAME;
    for (size_t place = 0; place < LEAFANCHOR_MOST_REPEATING; place += 2) {
        repeating[4][place].weight = 50;
    }
}

/* The numbers of an input's jobs: critical halves and behind each its optional one, so that every call goes all the way.
 * Windows overlap, or are so wide that lists grow long and go by cells. */
static void make_jobs(size_t input)
{
    for (int32_t place = 0; place < LEAFANCHOR_MOST_JOBS; place++) {
        const int32_t pair = place / 2, pack = input == 1 ? 0 : 255 - place;
        const int32_t ready = input == WIDE ? 0 : 100 * place, deadline = input == WIDE ? 60000 : ready + 1000;
        const int32_t weight = input == WIDE ? 1 + pair % 12 : 12;
        const int32_t critical[] = {pair, pack, 1, 0, ready, 150, deadline};
        const int32_t optional[] = {pair + LEAFANCHOR_HALVES_APART, pack, 0, weight, ready, 60 * weight, deadline};
        memcpy(&numbers[LEAFANCHOR_JOB_NUMBERS * place], place % 2 == 0 ? critical : optional, sizeof critical);
    }
}

/* 48 jobs that have packs, 24 that have none, 1 and no jobs, 48 with wide windows, and one order that is refused; and the
 * packed plan of each. */
static void make_inputs(void)
{
    static const size_t counts[INPUTS] = {48, 24, 1, 0, 48, 48};
    for (size_t input = 0; input < INPUTS; input++) {
        jobs[input] = counts[input];
        make_jobs(input);
        bytes[input] = leafanchor_pack(0, numbers, LEAFANCHOR_JOB_NUMBERS * jobs[input], orders[input],
                                       LEAFANCHOR_ORDER_BYTES).bytes;
        plan_bytes[input] = leafanchor_write_plan(orders[input], bytes[input], plans[input], LEAFANCHOR_PLAN_BYTES,
                                                  work, LEAFANCHOR_WORK_AREA).bytes;
    }
    orders[INPUTS - 1][4 + 9 * 47] ^= 0x04; /* the last job's number is now that of an earlier one */
    for (int32_t point = 0; point < POINTS; point++) {
        profile[2 * point] = other[2 * point] = points[point].time = 3 * point;
        profile[2 * point + 1] = other[2 * point + 1] = points[point].weight = point;
        other[2 * point] += point % 3;
    }
    long_profile.numbers_len = long_other.numbers_len = LEAFANCHOR_PROFILE_ROOM;
    memcpy(long_profile.numbers, profile, sizeof profile);
    memcpy(long_other.numbers, other, sizeof other);
}

/* The orders as entries of a stream, and sheets: of no order, of the most with the greatest figures, of as many that
 * are refused, and figures that no sheet has. */
static void make_sheets(void)
{
    static const leafanchor_sheet greatest = {
        LEAFANCHOR_SHEET_ORDERS, {0}, LEAFANCHOR_SHEET_ORDERS, 2999999, 1, 480000, 14449, 9999};
    for (size_t input = 0; input < INPUTS; input++) {
        entries[input][0] = (uint8_t)(bytes[input] >> 8);
        entries[input][1] = (uint8_t)(bytes[input] & 0xFF);
        memcpy(&entries[input][2], orders[input], bytes[input]);
    }
    sheets[1] = greatest;
    sheets[2].orders = sheets[2].refused[LEAFANCHOR_SHEET_REFUSALS - 1] = LEAFANCHOR_SHEET_ORDERS;
    sheets[3].orders = 1; /* neither refused nor feasible */
}

int main(void)
{
    int failed = 0;
    stack = (unsigned char *)aligned_alloc(4096, STACK);
    must(stack == NULL, "memory");
    make_inputs();
    make_repeating();
    make_sheets();
    size_t empty = deepest(nothing);
    for (size_t i = 0; i < sizeof calls / sizeof calls[0]; i++) {
        size_t used = deepest(calls[i].run);
        used = used > empty ? used - empty : 0;
        printf("stack of %s: %zu bytes\n", calls[i].name, used);
        failed |= used > LEAFANCHOR_STACK;
    }
    printf(failed ? "stack: above %d bytes\n" : "stack: every call within %d bytes\n", LEAFANCHOR_STACK);
    return failed;
}
