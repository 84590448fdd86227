/* Counts a week's mornings in one sheet. The stream of a stand's three mornings, each a packed order behind its
 * length, comes in two pieces that are parted in the middle of the second; another stand's two mornings, one of them
 * with its last byte lost, are counted by themselves, and their sheet is joined behind. Prints what has come with the
 * first piece, and the text of the sheet. What is refused prints its refusal and phrase. */
#include "leafanchor.h"

#include <inttypes.h>
#include <stdio.h>
#include <string.h>

#define MORNINGS 3
#define BUS_FREE (-600)

/* A heat-up that must run, then a balancing and a top-up. On the second morning the heat-up is too long for its
 * deadline. */
static const leafanchor_job jobs[MORNINGS][3] = {
    /* number, pack, critical, weight, ready, length, deadline */
    {{7, 0, 1, 0, -600, 495, 0}, {3, 0, 0, 20, -200, 300, 250}, {12, 0, 0, 15, 0, 200, 300}},
    {{7, 0, 1, 0, -600, 700, 0}, {3, 0, 0, 20, -200, 300, 250}, {12, 0, 0, 15, 0, 200, 300}},
    {{7, 0, 1, 0, -600, 300, 0}, {3, 0, 0, 20, -200, 100, 250}, {12, 0, 0, 15, 0, 200, 300}},
};

static uint8_t orders[MORNINGS][LEAFANCHOR_ORDER_BYTES];
static size_t order_len[MORNINGS];
static uint8_t stream[MORNINGS * (2 + LEAFANCHOR_ORDER_BYTES)];
static size_t stream_len;
static int32_t work[LEAFANCHOR_WORK_AREA];

/* Prints a refusal. */
static int refused(uint32_t refusal)
{
    printf("%" PRIu32 " %s\n", refusal, leafanchor_phrase(refusal));
    return 1;
}

/* Packs the mornings, and puts each behind its length in two bytes, the highest first, into the stream. */
static void make_stream(void)
{
    for (size_t i = 0; i < MORNINGS; i++) {
        order_len[i] = leafanchor_pack_jobs(BUS_FREE, jobs[i], 3, orders[i], sizeof orders[i]).bytes;
        stream[stream_len++] = (uint8_t)(order_len[i] >> 8);
        stream[stream_len++] = (uint8_t)(order_len[i] & 0xFF);
        memcpy(&stream[stream_len], orders[i], order_len[i]);
        stream_len += order_len[i];
    }
}

/* The stand's stream in two pieces. */
static uint32_t feed_stream(leafanchor_sheet_stream *week)
{
    const size_t cut = stream_len / 2;
    leafanchor_sheet_answer fed = leafanchor_sheet_feed_piece(week, stream, cut, work, LEAFANCHOR_WORK_AREA);
    if (fed.refusal == LEAFANCHOR_NONE) {
        printf("after the first piece: %" PRIu32 " order, %s\n", week->sheet.orders,
               week->known == 0 ? "whole" : "cut");
        fed = leafanchor_sheet_feed_piece(week, &stream[cut], stream_len - cut, work, LEAFANCHOR_WORK_AREA);
    }
    return fed.refusal;
}

/* The other stand's sheet: the first morning with its last byte lost, and whole. */
static uint32_t count_other(leafanchor_sheet *other)
{
    leafanchor_sheet_answer added =
        leafanchor_sheet_add_order(other, orders[0], order_len[0] - 1, work, LEAFANCHOR_WORK_AREA);
    if (added.refusal == LEAFANCHOR_NONE) {
        added = leafanchor_sheet_add_order(other, orders[0], order_len[0], work, LEAFANCHOR_WORK_AREA);
    }
    return added.refusal;
}

int main(void)
{
    leafanchor_sheet_stream week = leafanchor_sheet_begin();
    leafanchor_sheet other = leafanchor_sheet_none();
    char text[LEAFANCHOR_SHEET_TEXT];
    make_stream();
    uint32_t refusal = feed_stream(&week);
    if (refusal == LEAFANCHOR_NONE) {
        refusal = count_other(&other);
    }
    if (refusal == LEAFANCHOR_NONE) {
        refusal = leafanchor_sheet_join_sheet(&week.sheet, &other).refusal;
    }
    if (refusal != LEAFANCHOR_NONE) {
        return refused(refusal);
    }
    leafanchor_sheet_text_answer told = leafanchor_sheet_tell_stream(&week, text, sizeof text);
    fwrite(text, 1, told.bytes, stdout);
    return 0;
}
