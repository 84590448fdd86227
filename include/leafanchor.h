/** @file
 * The C header of Leafanchor, the planner of an air-taxi stand's one service bus. It declares every call of
 * libleafanchor.a, every answer and every size. C99 is enough, and C++98. The rules, R1 and on, are in docs/RULES.md.
 *
 * Words. Times are whole signed seconds. A job has seven fields (leafanchor_job); a critical one is always kept, any
 * other has a weight and may be left out. Its finish is its start plus its length; the deadline binds the finish
 * alone. Its pack says which battery pack it is for; plans and profiles do not read it (R44). After every job the
 * contactor rests 15 seconds before the bus is free: the next job kept starts then at the earliest. An order is t0,
 * the time at which the bus is free, and up to 48 jobs in the dispatcher's sequence; packed, it is 4 bytes and a
 * record a job (R21). Records are of kind 0, 8 bytes each, where every pack is 0, else of kind 1, 9 bytes each. A
 * job's place in its order counts from 0; a reader goes from place to place over the packed bytes. A choice says which
 * jobs are kept; it is feasible if all critical ones are and every deadline is met. A plan is a choice and the start
 * of each job kept. A point is a bus-free time and the weight that can be kept by then; a profile is a list of points,
 * both figures rising (R11). An opening is an order that the hangar may pick for the front of a morning; the tail is
 * the order behind it. A repeating job comes again with every period; the frame of repeating jobs is the time after
 * which all of them begin anew (R42). A sheet has the figures of a list of up to 10,000 orders (R46); a stream is the
 * bytes of many orders, each behind its length in two bytes, the highest first (R48), and comes in pieces.
 *
 * Machines. The library is for x86-64, where it is called by the System V convention, and for aarch64; where pointers
 * or size_t do not have 64 bits, or a number's greater byte comes first, this header stops with one sentence. Of the
 * C library it needs memcpy, memmove and memset at most.
 *
 * What the caller owes, and no call checks: a pointer is never null, also where its length is 0; it points to as many
 * elements as the length beside it says; it is aligned as C aligns its type, which is to 4 bytes for int32_t, uint32_t,
 * leafanchor_job, leafanchor_repeating, leafanchor_point and sheets, to 8 for leafanchor_profile, to 1 for bytes; a
 * buffer that a call writes overlaps no other buffer of that call, but for profiles and sheets where a call says so.
 * Beyond that a call takes any numbers and any bytes and ends with an answer.
 *
 * Lengths count elements: bytes of an order or a plan, numbers of a list, records of a list of points. A buffer may
 * be longer than a call needs; what lies past the part needed stays as it was.
 *
 * Every call is reentrant: it keeps nothing from one call to the next, allocates nothing, waits for nothing and
 * shares no data with another. It may be made from any thread and from an interrupt handler, as long as each has a
 * work area and output buffers of its own; a handler must have saved the vector registers, since calls use them. A
 * call takes LEAFANCHOR_STACK bytes of stack at most, as measured (docs/SPEED.md).
 *
 * A refused call says why by a number (leafanchor_refusal). Of several the lowest is given, but for 19, which comes
 * after 5 and before 6, and 13, 14 and 15, which come after 9 and before 10; those of a second opening, 1 to 9 and 19,
 * come after all of the first's; for a frame 16 and 17 come behind 3 and 4 of the numbers given, before 3 and 9 of the
 * order made (R25). In a refused answer every figure is 0 but the refusal, the place for 6, 7, 13 and 16, the field
 * for 6, and where a reader stands (R26).
 *
 * The work area is room that a call is lent for its search. It may hold anything before; its first
 * LEAFANCHOR_WORK_AREA numbers are 0 after every call that has one and passes refusal 10, refused with 11 or not
 * (R29); a sheet or a stream that is refused with 18 as it is given leaves it. */
#ifndef LEAFANCHOR_H
#define LEAFANCHOR_H

#include <stddef.h>
#include <stdint.h>

/** Whether there is a library for such a machine. C++98 may have no SIZE_MAX; the compiler's own figure then tells. */
#if SIZE_MAX != UINT64_MAX || UINTPTR_MAX != UINT64_MAX || \
    (defined(__SIZEOF_POINTER__) && __SIZEOF_POINTER__ != 8) || \
    (defined(__BYTE_ORDER__) && __BYTE_ORDER__ != __ORDER_LITTLE_ENDIAN__)
#define LEAFANCHOR_FITS 0
#error "Leafanchor's library is for little-endian machines with 64-bit pointers and size_t: x86-64 and aarch64."
#else
#define LEAFANCHOR_FITS 1
#endif

#ifdef __cplusplus
extern "C" {
#endif

/** The version's first figure: it rises when a call or an answer changes for its callers; while it is 0, the second
 * one rises then. */
#define LEAFANCHOR_VERSION_MAJOR 0
/** The version's second figure: it rises when something is added. */
#define LEAFANCHOR_VERSION_MINOR 10
/** The version's third figure: it rises when something is mended, or made smaller or faster. */
#define LEAFANCHOR_VERSION_PATCH 1
/** The version as text, "MAJOR.MINOR.PATCH". */
#define LEAFANCHOR_VERSION \
    LEAFANCHOR_QUOTED(LEAFANCHOR_VERSION_MAJOR) "." LEAFANCHOR_QUOTED(LEAFANCHOR_VERSION_MINOR) "." \
    LEAFANCHOR_QUOTED(LEAFANCHOR_VERSION_PATCH)
/** A macro's value as text. */
#define LEAFANCHOR_QUOTED(value) LEAFANCHOR_QUOTED_AS_IS(value)
/** A word as text. */
#define LEAFANCHOR_QUOTED_AS_IS(word) #word

/** Before a function that takes much stack, where the compiler has a mark that keeps it out of its callers' frames. */
#if defined(__GNUC__)
#define LEAFANCHOR_APART static __attribute__((noinline, unused))
#else
#define LEAFANCHOR_APART static inline
#endif

/** Before a call whose answer must be used, where the compiler has a mark for that. */
#if (defined(__cplusplus) && __cplusplus >= 201703L) || (defined(__STDC_VERSION__) && __STDC_VERSION__ >= 202311L)
#define LEAFANCHOR_MUST_USE [[nodiscard]]
#elif defined(__GNUC__)
#define LEAFANCHOR_MUST_USE __attribute__((warn_unused_result))
#else
#define LEAFANCHOR_MUST_USE
#endif

#define LEAFANCHOR_MOST_JOBS 48          /**< jobs of one order, at most */
#define LEAFANCHOR_ORDER_BYTES 436       /**< bytes of the longest packed order: 4, and 9 a job of kind 1 */
#define LEAFANCHOR_JOB_NUMBERS 7         /**< numbers of an unpacked job, those of leafanchor_job in its order */
#define LEAFANCHOR_ORDER_NUMBERS 336     /**< numbers of the longest unpacked order */
#define LEAFANCHOR_STARTS 48             /**< starts of the longest plan */
#define LEAFANCHOR_PLAN_BYTES 114        /**< bytes of the longest packed plan: 48 bits, and 18 a start */
#define LEAFANCHOR_PROFILE_ROOM 602      /**< numbers that extend and better-of ask room for: 301 points */
#define LEAFANCHOR_WORK_AREA 14749       /**< numbers of the work area that planning is lent */
#define LEAFANCHOR_LEFT_OUT 200000       /**< the start of a job that is left out */
#define LEAFANCHOR_REST 15               /**< seconds from a job's finish until the bus is free */
#define LEAFANCHOR_HIGHEST_HALF 31       /**< the highest number of a critical half */
#define LEAFANCHOR_HALVES_APART 32       /**< an optional half's number less that of its critical half */
#define LEAFANCHOR_SECONDS_PER_WEIGHT 60 /**< seconds that an optional half takes for each weight */
#define LEAFANCHOR_MOST_REPEATING 16     /**< repeating jobs of one frame, at most */
#define LEAFANCHOR_REPEATING_NUMBERS 96  /**< numbers of so many, six a job: those of leafanchor_repeating */
#define LEAFANCHOR_LONGEST_FRAME 86400   /**< seconds of the longest frame, and of the longest period */
#define LEAFANCHOR_SHEET_FIGURES 26      /**< numbers of a sheet, those of leafanchor_sheet in its order */
#define LEAFANCHOR_SHEET_REFUSALS 19     /**< those of them that count refusals, 1 to 19 */
#define LEAFANCHOR_SHEET_ORDERS 10000    /**< orders of one sheet, at most */
#define LEAFANCHOR_SHEET_TEXT 336        /**< bytes that a sheet's text asks room for, however short it is */
#define LEAFANCHOR_SHEET_FEED 29         /**< numbers held of a stream: its sheet's, known, size and got */
#define LEAFANCHOR_SHEET_FRONT 437       /**< bytes held of a stream: the longest order's and one more */
#define LEAFANCHOR_STACK 8192            /**< bytes of stack that a call takes at most, those of this header too */
#define LEAFANCHOR_PHRASE_ROOM 64        /**< bytes that the longest text of leafanchor_tell takes, its end included */
#define LEAFANCHOR_NO_PLACE ((size_t)-1) /**< tells leafanchor_tell that an answer has no place */

/** Why a call refused (R24); 0 where it did not. */
enum leafanchor_refusal {
    LEAFANCHOR_NONE = 0,                  /**< not refused */
    LEAFANCHOR_ORDER_TOO_SHORT = 1,       /**< the packed order is under 4 bytes */
    LEAFANCHOR_UNKNOWN_KIND = 2,          /**< the kind of the records is above 1 */
    LEAFANCHOR_TOO_MANY_JOBS = 3,         /**< more than 48 jobs (packing: more than 336 numbers; a frame: more than 96
                                           * numbers, or more than 48 repeats) */
    LEAFANCHOR_WRONG_LENGTH = 4,          /**< not 4 + 8n bytes, 4 + 9n in kind 1 (packing: not a multiple of 7
                                           * numbers; a frame: of 6) */
    LEAFANCHOR_BUS_FREE_OUT_OF_RANGE = 5, /**< the bus-free time is out of range */
    LEAFANCHOR_JOB_OUT_OF_RANGE = 6,      /**< a job's field is out of range; the place is the first such job's,
                                           * the field its first such one */
    LEAFANCHOR_NUMBER_REPEATED = 7,       /**< a job number came earlier; the place is the first such job's */
    LEAFANCHOR_PROFILE_NOT_VALID = 8,     /**< a given profile is not valid (R11): too long, an odd length, not rising,
                                           * or a figure out of range */
    LEAFANCHOR_TOO_MUCH_WEIGHT = 9,       /**< the weights sum to more than 300 (extending: with the last weight of the
                                           * profile; a frame: of all repeats) */
    LEAFANCHOR_BUFFER_TOO_SHORT = 10,     /**< a buffer is too short */
    LEAFANCHOR_NO_FEASIBLE_CHOICE = 11,   /**< no choice is feasible (choosing: neither has a point by t) */
    LEAFANCHOR_CELL_TOO_COLD = 12,        /**< the cell is below -30 degrees */
    LEAFANCHOR_NOT_OF_HALVES = 13,        /**< the order is not of halves; the place is the first offending job's */
    LEAFANCHOR_PLAN_WRONG_LENGTH = 14,    /**< the packed plan is under 6 bytes, or not as long as its mask asks for */
    LEAFANCHOR_PLAN_STRAY_BITS = 15,      /**< the packed plan has bits set beyond the order's jobs or at its end */
    LEAFANCHOR_REPEATING_NOT_VALID = 16,  /**< a repeating job's field is out of range, or its phase, deadline and rest
                                           * pass its period; the place is the first such job's */
    LEAFANCHOR_FRAME_TOO_LONG = 17,       /**< the least common multiple of the periods is above 86,400 */
    LEAFANCHOR_NO_SHEET = 18,             /**< more than 10,000 orders, or figures that no sheet or stream has (R49) */
    LEAFANCHOR_EVERY_PACK_ZERO = 19       /**< the records are of kind 1 and every pack is 0, as in an order of no
                                           * jobs: such an order is of kind 0 */
};

/** A refusal in words for a person, those of include/phrases.txt.
 * @param refusal the refusal's number, or any other
 * @return the phrase, in memory that stays */
LEAFANCHOR_MUST_USE
static inline const char *leafanchor_phrase(uint32_t refusal)
{
    switch (refusal) {
    case LEAFANCHOR_NONE: return "not refused";
    case LEAFANCHOR_ORDER_TOO_SHORT: return "the packed order is under 4 bytes";
    case LEAFANCHOR_UNKNOWN_KIND: return "the kind of the records is above 1";
    case LEAFANCHOR_TOO_MANY_JOBS: return "there are more than 48 jobs, or more than 16 that repeat";
    case LEAFANCHOR_WRONG_LENGTH: return "the length does not fit the number of jobs";
    case LEAFANCHOR_BUS_FREE_OUT_OF_RANGE: return "the bus-free time is out of range";
    case LEAFANCHOR_JOB_OUT_OF_RANGE: return "a job's field is out of range";
    case LEAFANCHOR_NUMBER_REPEATED: return "a job's number stood earlier";
    case LEAFANCHOR_PROFILE_NOT_VALID: return "a given profile is not valid";
    case LEAFANCHOR_TOO_MUCH_WEIGHT: return "the weights sum to more than 300";
    case LEAFANCHOR_BUFFER_TOO_SHORT: return "a buffer is too short";
    case LEAFANCHOR_NO_FEASIBLE_CHOICE: return "no choice of jobs keeps every critical job in time";
    case LEAFANCHOR_CELL_TOO_COLD: return "the cell is below -30 degrees";
    case LEAFANCHOR_NOT_OF_HALVES: return "the order is not of halves";
    case LEAFANCHOR_PLAN_WRONG_LENGTH: return "the length does not fit the packed plan's mask";
    case LEAFANCHOR_PLAN_STRAY_BITS: return "the packed plan has bits set that must be zero";
    case LEAFANCHOR_REPEATING_NOT_VALID: return "a repeating job's field is out of range, or its deadline late";
    case LEAFANCHOR_FRAME_TOO_LONG: return "the frame is longer than 86,400 seconds";
    case LEAFANCHOR_NO_SHEET: return "there are more than 10,000 orders, or figures that no sheet has";
    case LEAFANCHOR_EVERY_PACK_ZERO: return "the records are of kind 1 and every pack is 0";
    default: return "no such refusal";
    }
}

/** Which field of a job is out of range (R36): the first such in the order of a packed record, for refusal 6; 0 with
 * every other answer. A packed order holds the first three within their ranges: packing alone can name them. */
enum leafanchor_field {
    LEAFANCHOR_NO_FIELD = 0,       /**< the answer names none */
    LEAFANCHOR_FIELD_NUMBER = 1,   /**< not 0 to 63 */
    LEAFANCHOR_FIELD_PACK = 2,     /**< not 0 to 255 */
    LEAFANCHOR_FIELD_CRITICAL = 3, /**< neither 0 nor 1 */
    LEAFANCHOR_FIELD_WEIGHT = 4,   /**< not 0 where the job is critical, else not 1 to 50 */
    LEAFANCHOR_FIELD_READY = 5,    /**< not -100,000 to 100,000 */
    LEAFANCHOR_FIELD_LENGTH = 6,   /**< not 1 to 10,000 */
    LEAFANCHOR_FIELD_DEADLINE = 7  /**< not -100,000 to 100,000 */
};

/** A field's name for a person, as in "job at place 2: length out of range".
 * @param field the field's figure, or any other
 * @return the name, in memory that stays */
LEAFANCHOR_MUST_USE
static inline const char *leafanchor_field_name(uint32_t field)
{
    switch (field) {
    case LEAFANCHOR_NO_FIELD: return "no field";
    case LEAFANCHOR_FIELD_NUMBER: return "number";
    case LEAFANCHOR_FIELD_PACK: return "pack";
    case LEAFANCHOR_FIELD_CRITICAL: return "critical mark";
    case LEAFANCHOR_FIELD_WEIGHT: return "weight";
    case LEAFANCHOR_FIELD_READY: return "ready time";
    case LEAFANCHOR_FIELD_LENGTH: return "length";
    case LEAFANCHOR_FIELD_DEADLINE: return "deadline";
    default: return "no such field";
    }
}

/** What leafanchor_tell says behind a job's place; for refusal 6 the field's name comes in between.
 * @param refusal the refusal's number, or any other
 * @return the words, none for a refusal that has no place; in memory that stays */
LEAFANCHOR_MUST_USE
static inline const char *leafanchor_words_behind_place(uint32_t refusal)
{
    switch (refusal) {
    case LEAFANCHOR_JOB_OUT_OF_RANGE: return " out of range";
    case LEAFANCHOR_NUMBER_REPEATED: return "its number stood earlier";
    case LEAFANCHOR_NOT_OF_HALVES: return "it does not fit an order of halves";
    case LEAFANCHOR_REPEATING_NOT_VALID: return "out of range, or its deadline late";
    default: return "";
    }
}

/** Puts text behind the text that ends at a place; what has no room beside an end is left off.
 * @param text what is put
 * @param out the bytes written
 * @param room how many they are
 * @param at where the text so far ends
 * @return where it ends now */
static inline size_t leafanchor_put_text(const char *text, char *out, size_t room, size_t at)
{
    while (*text != '\0' && at + 1 < room) {
        out[at++] = *text++;
    }
    return at;
}

/** Puts "job at place 2: ", with the place given, behind the text that ends at a place, as leafanchor_put_text does.
 * @param place the job's place
 * @param out the bytes written
 * @param room how many they are
 * @param at where the text so far ends
 * @return where it ends now */
static inline size_t leafanchor_put_place(size_t place, char *out, size_t room, size_t at)
{
    char digits[24];
    size_t first = sizeof digits;
    digits[--first] = '\0';
    do {
        digits[--first] = (char)('0' + place % 10);
        place /= 10;
    } while (place != 0);
    at = leafanchor_put_text("job at place ", out, room, at);
    at = leafanchor_put_text(&digits[first], out, room, at);
    return leafanchor_put_text(": ", out, room, at);
}

/** A refusal in words for a person, with the place and the field that it names: "job at place 2: length out of range".
 * Without the place that it needs, or for 6 the field, it is told as leafanchor_phrase does; 6 with a field alone is
 * "length out of range".
 * @param refusal the refusal's number, or any other
 * @param place its place; LEAFANCHOR_NO_PLACE for a question or a choice, whose answers have none
 * @param field its field; 0 where the answer has none
 * @param out written: the text and an end, cut where it is too short
 * @param room bytes of out: 1 at least. LEAFANCHOR_PHRASE_ROOM is enough for every answer of the library; with a place
 * of more than 14 digits, which no answer has, the text may then be cut
 * @return out */
LEAFANCHOR_MUST_USE
static inline const char *leafanchor_tell(uint32_t refusal, size_t place, uint32_t field, char *out, size_t room)
{
    const char *behind = leafanchor_words_behind_place(refusal);
    const int of_field = refusal == LEAFANCHOR_JOB_OUT_OF_RANGE;
    const int named = of_field ? field >= LEAFANCHOR_FIELD_NUMBER && field <= LEAFANCHOR_FIELD_DEADLINE
                               : place != LEAFANCHOR_NO_PLACE;
    size_t at = 0;
    if (*behind == '\0' || !named) {
        at = leafanchor_put_text(leafanchor_phrase(refusal), out, room, at);
    } else {
        if (place != LEAFANCHOR_NO_PLACE) {
            at = leafanchor_put_place(place, out, room, at);
        }
        if (of_field) {
            at = leafanchor_put_text(leafanchor_field_name(field), out, room, at);
        }
        at = leafanchor_put_text(behind, out, room, at);
    }
    out[at] = '\0';
    return out;
}

/** The heat-up length. */
typedef struct leafanchor_heat_answer {
    uint32_t refusal; /**< 12 or 0 */
    uint32_t seconds; /**< of heating */
} leafanchor_heat_answer;

/** What unpacking gives beside the numbers. */
typedef struct leafanchor_unpack_answer {
    uint32_t refusal; /**< 1 to 7, 9, 10, 19 or 0 */
    size_t place;     /**< of the refused job, for 6 and 7 */
    uint32_t field;   /**< of that job, for 6 */
    size_t jobs;      /**< of the order */
    int32_t t0;       /**< its bus-free time */
} leafanchor_unpack_answer;

/** What packing an order and writing a plan give beside the bytes. */
typedef struct leafanchor_pack_answer {
    uint32_t refusal; /**< packing: 3 to 7, 9, 10 or 0; writing a plan: 1 to 7, 9 to 11, 19 or 0 */
    size_t place;     /**< of the refused job, for 6 and 7 */
    uint32_t field;   /**< of that job, for 6 */
    size_t bytes;     /**< written */
} leafanchor_pack_answer;

/** What a frame of repeating jobs gives beside its order. */
typedef struct leafanchor_frame_answer {
    uint32_t refusal; /**< 3, 4, 9, 10, 16, 17 or 0 */
    size_t place;     /**< of the refused repeating job, for 16 */
    size_t bytes;     /**< written */
    uint32_t frame;   /**< its seconds: the least common multiple of the periods */
} leafanchor_frame_answer;

/** What a reader will meet. */
typedef struct leafanchor_open_answer {
    uint32_t refusal; /**< 1 to 5, 19 or 0 */
    size_t jobs;      /**< of the order */
} leafanchor_open_answer;

/** One step of a reader: a job, the end or a refusal. The job's fields are 0 where there is none. */
typedef struct leafanchor_step_answer {
    uint32_t refusal; /**< 1 to 6, 19 or 0 */
    size_t place;     /**< of the refused job, for 6 */
    uint32_t field;   /**< of that job, for 6 */
    uint32_t end;     /**< 1 at the end of the order, else 0 */
    int32_t number;   /**< the job's number, 0 to 63 */
    int32_t pack;     /**< its pack, 0 to 255; 0 in kind 0 */
    int32_t critical; /**< 1 where it is critical, else 0 */
    int32_t weight;   /**< its weight, 0 where it is critical */
    int32_t ready;    /**< the second from which it may run */
    int32_t length;   /**< in seconds */
    int32_t deadline; /**< the second by which it must have ended */
    size_t next;      /**< the place where the reader then stands, refused or not */
} leafanchor_step_answer;

/** One point of a profile: from this time on, the bus can be free with this weight kept. */
typedef struct leafanchor_point {
    int32_t time;   /**< a bus-free time, -100,000 to 100,015: 15 seconds after a job's finish where one is kept */
    int32_t weight; /**< the weight kept */
} leafanchor_point;

/** What a profile gives at a time. */
typedef struct leafanchor_lookup_answer {
    uint32_t refusal; /**< 8 or 0 */
    uint32_t found;   /**< 1 where a point is at or before the time, else 0 */
    uint32_t weight;  /**< of the last such point; 0 where none is found */
} leafanchor_lookup_answer;

/** What better-of gives beside the profile. */
typedef struct leafanchor_better_answer {
    uint32_t refusal; /**< 8, 10 or 0 */
    size_t points;    /**< written; each is two numbers */
} leafanchor_better_answer;

/** What extending gives beside the profile. */
typedef struct leafanchor_extend_answer {
    uint32_t refusal; /**< 1 to 10, 19 or 0 */
    size_t place;     /**< of the refused job, for 6 and 7 */
    uint32_t field;   /**< of that job, for 6 */
    size_t points;    /**< written; each is two numbers */
} leafanchor_extend_answer;

/** What planning gives beside the starts. */
typedef struct leafanchor_plan_answer {
    uint32_t refusal;     /**< 1 to 7, 9 to 11, 19 or 0 */
    size_t place;         /**< of the refused job, for 6 and 7 */
    uint32_t field;       /**< of that job, for 6 */
    uint64_t mask;        /**< a one for each job kept, the highest bit for place 0 */
    uint32_t kept;        /**< how many are kept */
    uint32_t kept_weight; /**< of the jobs kept */
    uint32_t lost_weight; /**< of the jobs left out */
    int32_t finish;       /**< when the bus is free after the plan: 15 seconds after the last kept job's finish, t0
                           * where none is kept */
    uint32_t points;      /**< in the profiles of the order's first 1, 2, ... jobs, added (R9) */
} leafanchor_plan_answer;

/** What planning halves gives beside the starts: the figures of planning, and the optional seconds lost. */
typedef struct leafanchor_halves_answer {
    uint32_t refusal;      /**< 1 to 7, 9 to 11, 13, 19 or 0 */
    size_t place;          /**< of the refused job, for 6, 7 and 13 */
    uint32_t field;        /**< of that job, for 6 */
    uint64_t mask;         /**< a one for each job kept, the highest bit for place 0 */
    uint32_t kept;         /**< how many are kept */
    uint32_t kept_weight;  /**< of the jobs kept */
    uint32_t lost_weight;  /**< of the jobs left out */
    int32_t finish;        /**< when the bus is free after the plan, as in leafanchor_plan_answer */
    uint32_t points;       /**< as in leafanchor_plan_answer */
    uint32_t seconds_lost; /**< the lengths of the non-critical jobs left out, added */
} leafanchor_halves_answer;

/** Whether a plan is legal, or best. */
typedef struct leafanchor_verdict_answer {
    uint32_t refusal; /**< 1 to 7, 9, 14, 15, 19 or 0; for best also 10 */
    size_t place;     /**< of the refused job, for 6 and 7 */
    uint32_t field;   /**< of that job, for 6 */
    uint32_t yes;     /**< 1 where it is, else 0 */
} leafanchor_verdict_answer;

/** Which opening is worth more, and the kind of its records. */
typedef struct leafanchor_question_answer {
    uint32_t refusal; /**< 1 to 7, 9 to 11, 19 or 0 */
    uint32_t field;   /**< of the refused job, for 6 */
    uint32_t winner;  /**< 1 or 2; 0 if refused */
    uint32_t kind;    /**< of the winner's records, 0 or 1; 0 if refused */
} leafanchor_question_answer;

/** Which opening is worth more, and where its records, 8 bytes a job or 9 by their kind, lie: its bytes offset ..
 * offset + length. */
typedef struct leafanchor_choose_answer {
    uint32_t refusal; /**< 1 to 7, 9 to 11, 19 or 0 */
    uint32_t field;   /**< of the refused job, for 6 */
    uint32_t winner;  /**< 1 or 2; 0 if refused */
    size_t offset;    /**< of the winner's first record */
    size_t length;    /**< of its records together, in bytes */
    uint32_t kind;    /**< of these records, 0 or 1; 0 if refused */
} leafanchor_choose_answer;

/** Whether a sheet took what it was given. */
typedef struct leafanchor_sheet_answer {
    uint32_t refusal; /**< 10, 18 or 0 */
} leafanchor_sheet_answer;

/** What a sheet's text gives beside its bytes. */
typedef struct leafanchor_sheet_text_answer {
    uint32_t refusal; /**< 10, 18 or 0 */
    size_t bytes;     /**< written */
} leafanchor_sheet_text_answer;

/** The heat-up length for a sample of the cell's temperature (R20). Refusal 12 gives 0 seconds.
 * @param byte the sampler's byte, which is a signed number of degrees
 * @return the seconds */
LEAFANCHOR_MUST_USE
leafanchor_heat_answer leafanchor_heat_up(uint8_t byte);

/** Unpacks an order: seven numbers a job (R22). Refusals 1 to 7, 9, 10 and 19 write nothing.
 * @param order the packed order
 * @param order_len its bytes
 * @param numbers written: number, pack, critical, weight, ready, length and deadline of each job
 * @param numbers_len room for 7 numbers a job
 * @return the number of jobs and the bus-free time */
LEAFANCHOR_MUST_USE
leafanchor_unpack_answer leafanchor_unpack(const uint8_t *order, size_t order_len, int32_t *numbers,
                                           size_t numbers_len);

/** Packs an order (R21): records of kind 0 where every pack is 0, else of kind 1. Refusals 3 to 7, 9 and 10 write
 * nothing.
 * @param t0 the bus-free time, -100,000 to 100,000: a plan's finish of 100,001 to 100,015 is no t0 of a next order,
 * though a valid time of a point
 * @param numbers seven numbers a job, as unpacking writes them
 * @param numbers_len how many numbers
 * @param order written: the packed order
 * @param order_len room for 4 bytes and 8 a job, 9 in kind 1
 * @return the bytes written */
LEAFANCHOR_MUST_USE
leafanchor_pack_answer leafanchor_pack(int32_t t0, const int32_t *numbers, size_t numbers_len, uint8_t *order,
                                       size_t order_len);

/** Packs the order of one frame of repeating jobs (R43): each at its phase and every period from there, below the
 * frame; t0 and every pack are 0. Refusals 3, 4, 16, 17, then 3 and 9 of the order made, then 10; they write nothing.
 * @param repeating six numbers a job: critical, weight, phase, length, deadline behind each ready time, and period
 * @param repeating_len how many numbers, LEAFANCHOR_REPEATING_NUMBERS at most; with none the frame is 1
 * @param order written: the packed order, by ready time and then by the place given, numbered 0, 1, 2 and so on
 * @param order_len room for 4 bytes and 8 a repeat; LEAFANCHOR_ORDER_BYTES are enough
 * @return the bytes written and the frame */
LEAFANCHOR_MUST_USE
leafanchor_frame_answer leafanchor_frame(const int32_t *repeating, size_t repeating_len, uint8_t *order,
                                         size_t order_len);

/** Whether a reader may stand over these bytes (R23). Refusals 1 to 5 and 19 give 0 jobs.
 * @param order the packed order
 * @param order_len its bytes
 * @return how many jobs the reader will meet */
LEAFANCHOR_MUST_USE
leafanchor_open_answer leafanchor_open(const uint8_t *order, size_t order_len);

/** Reads the job at a place of the order (R23). Refusals 1 to 6 and 19 give no job, and the reader stays at its place.
 * @param order the packed order
 * @param order_len its bytes
 * @param place where the reader stands; 0 at first
 * @return the job or the end, and the place where the reader then stands */
LEAFANCHOR_MUST_USE
leafanchor_step_answer leafanchor_step(const uint8_t *order, size_t order_len, size_t place);

/** Looks a profile up: the weight of its last point at or before t (R15). Refusal 8 gives not found, weight 0. The
 * point's own time stands in the profile; it is the t0 of what comes behind (examples/plan_tail.c).
 * @param profile alternating times and weights
 * @param profile_len how many numbers: twice the points
 * @param t any time
 * @return found and weight */
LEAFANCHOR_MUST_USE
leafanchor_lookup_answer leafanchor_lookup(const int32_t *profile, size_t profile_len, int32_t t);

/** Looks a list of point records up, as leafanchor_lookup does. Refusal 8 gives not found, weight 0.
 * @param points the profile's points
 * @param points_len how many points
 * @param t any time
 * @return found and weight */
LEAFANCHOR_MUST_USE
leafanchor_lookup_answer leafanchor_lookup_records(const leafanchor_point *points, size_t points_len, int32_t t);

/** The better of two profiles: the shortest profile that gives at each time the greater weight (R14). Refusals 8
 * and 10 write nothing.
 * @param p alternating times and weights
 * @param p_len how many numbers: twice the points
 * @param q alternating times and weights
 * @param q_len how many numbers: twice the points
 * @param out written: the profile, two numbers a point
 * @param out_len room for LEAFANCHOR_PROFILE_ROOM numbers
 * @return the points written */
LEAFANCHOR_MUST_USE
leafanchor_better_answer leafanchor_better_of(const int32_t *p, size_t p_len, const int32_t *q, size_t q_len,
                                              int32_t *out, size_t out_len);

/** Extends a profile by an order (R12): what can be kept by when if the order comes behind; (t0, 0) extended by an
 * order is that order's profile (R13). Refusals 1 to 10 and 19 write nothing.
 * @param profile alternating times and weights
 * @param profile_len how many numbers: twice the points
 * @param order the packed order; its t0 is checked and has no other effect
 * @param order_len its bytes
 * @param out written: the profile, two numbers a point
 * @param out_len room for LEAFANCHOR_PROFILE_ROOM numbers
 * @param work the work area
 * @param work_len room for LEAFANCHOR_WORK_AREA numbers
 * @return the points written */
LEAFANCHOR_MUST_USE
leafanchor_extend_answer leafanchor_extend(const int32_t *profile, size_t profile_len, const uint8_t *order,
                                           size_t order_len, int32_t *out, size_t out_len, int32_t *work,
                                           size_t work_len);

/** Plans an order: the plan that loses the least weight (R7, R8). Refusals 1 to 7, 9 to 11 and 19 write no start.
 * @param order the packed order
 * @param order_len its bytes
 * @param starts written: the start of each job, LEAFANCHOR_LEFT_OUT for a job left out
 * @param starts_len room for one start a job
 * @param work the work area
 * @param work_len room for LEAFANCHOR_WORK_AREA numbers
 * @return the jobs kept, the weights, when the bus is free and the point total */
LEAFANCHOR_MUST_USE
leafanchor_plan_answer leafanchor_plan(const uint8_t *order, size_t order_len, int32_t *starts, size_t starts_len,
                                       int32_t *work, size_t work_len);

/** Plans an order of halves as leafanchor_plan does, and tells the optional seconds lost (R34, R35). Refusals 1 to 7,
 * 9 to 11, 13 and 19 write no start; 13 is judged after 9, whatever the buffers.
 * @param order the packed order: each non-critical job comes behind the critical one whose optional half it is, its
 * number LEAFANCHOR_HALVES_APART above that one's, its length LEAFANCHOR_SECONDS_PER_WEIGHT times its weight; no
 * critical job is numbered above LEAFANCHOR_HIGHEST_HALF
 * @param order_len its bytes
 * @param starts written: the start of each job, LEAFANCHOR_LEFT_OUT for a job left out
 * @param starts_len room for one start a job
 * @param work the work area
 * @param work_len room for LEAFANCHOR_WORK_AREA numbers
 * @return what planning gives, and the optional seconds lost */
LEAFANCHOR_MUST_USE
leafanchor_halves_answer leafanchor_plan_halves(const uint8_t *order, size_t order_len, int32_t *starts,
                                                size_t starts_len, int32_t *work, size_t work_len);

/** Writes the plan of leafanchor_plan in packed bytes (R37, R40): legal and best. Refusals 1 to 7, 9 to 11 and 19 write
 * no byte.
 * @param order the packed order
 * @param order_len its bytes
 * @param out written: the packed plan
 * @param out_len room for LEAFANCHOR_PLAN_BYTES, however short the plan is
 * @param work the work area
 * @param work_len room for LEAFANCHOR_WORK_AREA numbers
 * @return the bytes written */
LEAFANCHOR_MUST_USE
leafanchor_pack_answer leafanchor_write_plan(const uint8_t *order, size_t order_len, uint8_t *out, size_t out_len,
                                             int32_t *work, size_t work_len);

/** Whether a packed plan, of any planner, is legal for an order (R38): all critical jobs kept, no start before t0 or
 * its job's ready time, rests observed, deadlines met. Refusals 1 to 7, 9 and 19 of the order, then 14 and 15 of the
 * plan.
 * @param order the packed order
 * @param order_len its bytes
 * @param plan the packed plan: the jobs kept and the start of each (R37)
 * @param plan_len its bytes
 * @return yes or no */
LEAFANCHOR_MUST_USE
leafanchor_verdict_answer leafanchor_legal(const uint8_t *order, size_t order_len, const uint8_t *plan,
                                           size_t plan_len);

/** Whether a packed plan, of any planner, is best for an order (R39): legal, and no feasible choice keeps more weight.
 * Refusals 1 to 7, 9 and 19 of the order, 14 and 15 of the plan, then 10; no for a plan that is not legal.
 * @param order the packed order
 * @param order_len its bytes
 * @param plan the packed plan: the jobs kept and the start of each (R37)
 * @param plan_len its bytes
 * @param work the work area
 * @param work_len room for LEAFANCHOR_WORK_AREA numbers
 * @return yes or no */
LEAFANCHOR_MUST_USE
leafanchor_verdict_answer leafanchor_best(const uint8_t *order, size_t order_len, const uint8_t *plan,
                                          size_t plan_len, int32_t *work, size_t work_len);

/** Asks which of two openings is worth more at a time; equal weight goes to the opening that reaches it sooner, by the
 * times of the points found at t, and only then to the first (R17). The openings may be of unlike kinds. Refusals 1 to
 * 7, 9 and 19 of either opening, 10 and 11 name no winner. Which opening one of 1 to 9 or 19 is about: plan the first
 * alone. It gives that refusal with its place and field; or else it is the second's, and planning the second alone
 * gives it.
 * @param first the first packed order
 * @param first_len its bytes
 * @param second the second packed order
 * @param second_len its bytes
 * @param t any time
 * @param work the work area
 * @param work_len room for LEAFANCHOR_WORK_AREA numbers
 * @return the winner, and the kind of its records */
LEAFANCHOR_MUST_USE
leafanchor_question_answer leafanchor_question(const uint8_t *first, size_t first_len, const uint8_t *second,
                                               size_t second_len, int32_t t, int32_t *work, size_t work_len);

/** leafanchor_question by the older rule: equal weight always goes to the first (R17).
 * @param first the first packed order
 * @param first_len its bytes
 * @param second the second packed order
 * @param second_len its bytes
 * @param t any time
 * @param work the work area
 * @param work_len room for LEAFANCHOR_WORK_AREA numbers
 * @return the winner, and the kind of its records */
LEAFANCHOR_MUST_USE
leafanchor_question_answer leafanchor_question_first(const uint8_t *first, size_t first_len, const uint8_t *second,
                                                     size_t second_len, int32_t t, int32_t *work, size_t work_len);

/** Chooses between two openings: leafanchor_question, and where the winner's records lie in its bytes, without
 * the header (R18). Refused as the question is, it hands back an empty part of the first.
 * @param first the first packed order
 * @param first_len its bytes
 * @param second the second packed order
 * @param second_len its bytes
 * @param t any time
 * @param work the work area
 * @param work_len room for LEAFANCHOR_WORK_AREA numbers
 * @return the winner, its part and its kind */
LEAFANCHOR_MUST_USE
leafanchor_choose_answer leafanchor_choose(const uint8_t *first, size_t first_len, const uint8_t *second,
                                           size_t second_len, int32_t t, int32_t *work, size_t work_len);

/** leafanchor_choose by the older rule: equal weight always goes to the first (R18).
 * @param first the first packed order
 * @param first_len its bytes
 * @param second the second packed order
 * @param second_len its bytes
 * @param t any time
 * @param work the work area
 * @param work_len room for LEAFANCHOR_WORK_AREA numbers
 * @return the winner, its part and its kind */
LEAFANCHOR_MUST_USE
leafanchor_choose_answer leafanchor_choose_first(const uint8_t *first, size_t first_len, const uint8_t *second,
                                                 size_t second_len, int32_t t, int32_t *work, size_t work_len);

/** Counts one order more in a sheet, whatever planning says of it (R46). Refusals 10, then 18 (R49), also where the
 * sheet has LEAFANCHOR_SHEET_ORDERS; they change nothing.
 * @param figures the sheet, changed: the numbers of leafanchor_sheet
 * @param figures_len how many numbers, LEAFANCHOR_SHEET_FIGURES at least
 * @param order the packed order, or any bytes
 * @param order_len how many
 * @param work the work area
 * @param work_len room for LEAFANCHOR_WORK_AREA numbers
 * @return the refusal */
LEAFANCHOR_MUST_USE
leafanchor_sheet_answer leafanchor_sheet_add(uint32_t *figures, size_t figures_len, const uint8_t *order,
                                             size_t order_len, int32_t *work, size_t work_len);

/** Joins two sheets into that of the one list behind the other (R46). Refusals 10, then 18 (R49), also for more than
 * LEAFANCHOR_SHEET_ORDERS together; they change nothing.
 * @param figures the first sheet, changed: the numbers of leafanchor_sheet
 * @param figures_len how many numbers, LEAFANCHOR_SHEET_FIGURES at least
 * @param more the second sheet: the numbers of leafanchor_sheet
 * @param more_len how many numbers, LEAFANCHOR_SHEET_FIGURES at least
 * @return the refusal */
LEAFANCHOR_MUST_USE
leafanchor_sheet_answer leafanchor_sheet_join(uint32_t *figures, size_t figures_len, const uint32_t *more,
                                              size_t more_len);

/** Feeds a stream's next piece, of any size: its whole entries are counted, and of the last one is held what has come
 * (R48). Refusals 10, then 18 (R49); they change nothing, but that the piece with the 10,001st whole entry is counted
 * up to it, and any piece behind it is refused.
 * @param feed held of the stream, changed: its sheet's numbers, then known, size and got; 0 each at first
 * @param feed_len how many numbers, LEAFANCHOR_SHEET_FEED at least
 * @param front held of the stream, changed: the first bytes of the entry begun; anything at first
 * @param front_len room for LEAFANCHOR_SHEET_FRONT bytes
 * @param piece the piece
 * @param piece_len its bytes
 * @param work the work area
 * @param work_len room for LEAFANCHOR_WORK_AREA numbers
 * @return the refusal */
LEAFANCHOR_MUST_USE
leafanchor_sheet_answer leafanchor_sheet_feed(uint32_t *feed, size_t feed_len, uint8_t *front, size_t front_len,
                                              const uint8_t *piece, size_t piece_len, int32_t *work,
                                              size_t work_len);

/** Writes a sheet's text, 28 lines with no end behind them (R47). Refusals 10, then 18 (R49), write nothing.
 * @param figures the sheet: the numbers of leafanchor_sheet, or what is held of a stream
 * @param figures_len how many numbers, LEAFANCHOR_SHEET_FIGURES at least
 * @param cut 0 for "whole" in the last line, any other for "cut"
 * @param text written: the text
 * @param text_len room for LEAFANCHOR_SHEET_TEXT bytes
 * @return the bytes written */
LEAFANCHOR_MUST_USE
leafanchor_sheet_text_answer leafanchor_sheet_text(const uint32_t *figures, size_t figures_len, uint32_t cut,
                                                   uint8_t *text, size_t text_len);

/** A job (R2). An array of jobs is a list of unpacked numbers, seven a job. */
typedef struct leafanchor_job {
    int32_t number;   /**< 0 to 63, unlike any other of the order */
    int32_t pack;     /**< 0 to 255: the battery pack that it is for; no plan depends on it */
    int32_t critical; /**< 1 where it may not be left out, else 0 */
    int32_t weight;   /**< 0 where it is critical, else 1 to 50 */
    int32_t ready;    /**< the second from which it may run */
    int32_t length;   /**< in seconds, 1 to 10,000 */
    int32_t deadline; /**< the second by which it must have ended; the rest after it does not count */
} leafanchor_job;

/** A repeating job (R41). An array of them is the list of numbers that a frame is made of, six a job. Phase, deadline
 * and LEAFANCHOR_REST, added, may not pass the period. */
typedef struct leafanchor_repeating {
    int32_t critical; /**< 1 where no repeat may be left out, else 0 */
    int32_t weight;   /**< of each repeat: 0 where it is critical, else 1 to 50 */
    int32_t phase;    /**< the second from which the first repeat may run, 0 or more */
    int32_t length;   /**< in seconds, 1 to 10,000 */
    int32_t deadline; /**< the seconds from a repeat's ready time by which it must have ended, 1 to 86,400 */
    int32_t period;   /**< the seconds from one ready time to the next, 1 to 86,400 */
} leafanchor_repeating;

/** A profile (R11) with its length: one call writes both, and the next reads just what was written. It takes 2,416
 * bytes, on a stack too. {0, {0}} is the profile of no points. */
typedef struct leafanchor_profile {
    size_t numbers_len;                       /**< how many of the numbers are the profile: twice the points */
    int32_t numbers[LEAFANCHOR_PROFILE_ROOM]; /**< alternating times and weights; what stands behind means nothing */
} leafanchor_profile;

/** A sheet (R46), which is 26 numbers. All but the last two are sums over its orders. All 0 is the sheet of none. */
typedef struct leafanchor_sheet {
    uint32_t orders;         /**< all of them, LEAFANCHOR_SHEET_ORDERS at most */
    uint32_t refused[19];    /**< those refused by 1 to 19, each at its number less 1 */
    uint32_t feasible;       /**< those with a plan; with the refused ones they are all */
    uint32_t offered_weight; /**< of the feasible ones: all their weights */
    uint32_t kept_weight;    /**< of the feasible ones: what their plans keep */
    uint32_t jobs_kept;      /**< of the feasible ones */
    uint32_t top;            /**< the greatest point total and 1; 0 with no feasible order */
    uint32_t place;          /**< of the first order that has it, from 0 and refused ones counted; else 0 */
} leafanchor_sheet;

/** What is held of a stream between its pieces (R48). Where sheet.orders is above LEAFANCHOR_SHEET_ORDERS it has too
 * many entries; else it is whole where known is 0. All 0 is the beginning. */
typedef struct leafanchor_sheet_stream {
    leafanchor_sheet sheet; /**< of its whole entries */
    uint32_t known;         /**< bytes of the next entry's length that have come, 0 to 2 */
    uint32_t size;          /**< what they say */
    uint32_t got;           /**< bytes of that entry that have come, fewer than its size */
    uint8_t front[437];     /**< the first of them; what stands behind means nothing */
} leafanchor_sheet_stream;

/** leafanchor_unpack into jobs. It takes no stack of its own.
 * @param order the packed order
 * @param order_len its bytes
 * @param jobs written: the jobs
 * @param jobs_len room for the order's jobs, LEAFANCHOR_MOST_JOBS at most
 * @return the number of jobs and the bus-free time */
LEAFANCHOR_MUST_USE
static inline leafanchor_unpack_answer leafanchor_unpack_jobs(const uint8_t *order, size_t order_len,
                                                              leafanchor_job *jobs, size_t jobs_len)
{
    return leafanchor_unpack(order, order_len, (int32_t *)(void *)jobs, LEAFANCHOR_JOB_NUMBERS * jobs_len);
}

/** leafanchor_pack of jobs. It takes no stack of its own.
 * @param t0 the bus-free time
 * @param jobs the jobs
 * @param jobs_len how many
 * @param order written: the packed order
 * @param order_len room for 4 bytes and 8 a job, 9 in kind 1; LEAFANCHOR_ORDER_BYTES at most
 * @return the bytes written */
LEAFANCHOR_MUST_USE
static inline leafanchor_pack_answer leafanchor_pack_jobs(int32_t t0, const leafanchor_job *jobs, size_t jobs_len,
                                                          uint8_t *order, size_t order_len)
{
    return leafanchor_pack(t0, (const int32_t *)(const void *)jobs, LEAFANCHOR_JOB_NUMBERS * jobs_len, order,
                           order_len);
}

/** leafanchor_frame of repeating jobs. It takes no stack of its own.
 * @param jobs the repeating jobs
 * @param jobs_len how many
 * @param order written: the packed order of one frame
 * @param order_len room for 4 bytes and 8 a repeat; LEAFANCHOR_ORDER_BYTES are enough
 * @return the bytes written and the frame */
LEAFANCHOR_MUST_USE
static inline leafanchor_frame_answer leafanchor_frame_jobs(const leafanchor_repeating *jobs, size_t jobs_len,
                                                            uint8_t *order, size_t order_len)
{
    return leafanchor_frame((const int32_t *)(const void *)jobs, sizeof *jobs / sizeof(int32_t) * jobs_len, order,
                            order_len);
}

/** The sheet of no order.
 * @return 26 zeros */
LEAFANCHOR_MUST_USE
static inline leafanchor_sheet leafanchor_sheet_none(void)
{
    const leafanchor_sheet none = {0, {0}, 0, 0, 0, 0, 0, 0};
    return none;
}

/** leafanchor_sheet_add to a sheet. It takes no stack of its own.
 * @param sheet the sheet, changed
 * @param order the packed order, or any bytes
 * @param order_len how many
 * @param work the work area
 * @param work_len room for LEAFANCHOR_WORK_AREA numbers
 * @return the refusal */
LEAFANCHOR_MUST_USE
static inline leafanchor_sheet_answer leafanchor_sheet_add_order(leafanchor_sheet *sheet, const uint8_t *order,
                                                                 size_t order_len, int32_t *work, size_t work_len)
{
    return leafanchor_sheet_add((uint32_t *)(void *)sheet, LEAFANCHOR_SHEET_FIGURES, order, order_len, work, work_len);
}

/** leafanchor_sheet_join of sheets.
 * @param sheet the first sheet, changed
 * @param more the second sheet; it may be the first itself
 * @return the refusal */
LEAFANCHOR_MUST_USE
static inline leafanchor_sheet_answer leafanchor_sheet_join_sheet(leafanchor_sheet *sheet,
                                                                  const leafanchor_sheet *more)
{
    const leafanchor_sheet second = *more;
    return leafanchor_sheet_join((uint32_t *)(void *)sheet, LEAFANCHOR_SHEET_FIGURES,
                                 (const uint32_t *)(const void *)&second, LEAFANCHOR_SHEET_FIGURES);
}

/** leafanchor_sheet_text of a sheet. It takes no stack of its own.
 * @param sheet the sheet
 * @param cut 0 for "whole" in the last line, any other for "cut"
 * @param text written: the text, with no end behind it
 * @param text_len room for LEAFANCHOR_SHEET_TEXT bytes
 * @return the bytes written */
LEAFANCHOR_MUST_USE
static inline leafanchor_sheet_text_answer leafanchor_sheet_tell(const leafanchor_sheet *sheet, uint32_t cut,
                                                                 char *text, size_t text_len)
{
    return leafanchor_sheet_text((const uint32_t *)(const void *)sheet, LEAFANCHOR_SHEET_FIGURES, cut,
                                 (uint8_t *)(void *)text, text_len);
}

/** A stream of which nothing has come.
 * @return zeros */
LEAFANCHOR_MUST_USE
static inline leafanchor_sheet_stream leafanchor_sheet_begin(void)
{
    const leafanchor_sheet_stream begun = {{0, {0}, 0, 0, 0, 0, 0, 0}, 0, 0, 0, {0}};
    return begun;
}

/** leafanchor_sheet_feed of a stream. It takes no stack of its own.
 * @param stream what is held of the stream, changed
 * @param piece its next piece
 * @param piece_len its bytes
 * @param work the work area
 * @param work_len room for LEAFANCHOR_WORK_AREA numbers
 * @return the refusal */
LEAFANCHOR_MUST_USE
static inline leafanchor_sheet_answer leafanchor_sheet_feed_piece(leafanchor_sheet_stream *stream,
                                                                  const uint8_t *piece, size_t piece_len,
                                                                  int32_t *work, size_t work_len)
{
    return leafanchor_sheet_feed((uint32_t *)(void *)stream, LEAFANCHOR_SHEET_FEED, stream->front,
                                 LEAFANCHOR_SHEET_FRONT, piece, piece_len, work, work_len);
}

/** leafanchor_sheet_text of a stream that ends here: cut, or whole at an entry's edge. It takes no stack of its own.
 * @param stream what is held of the stream
 * @param text written: the text, with no end behind it
 * @param text_len room for LEAFANCHOR_SHEET_TEXT bytes
 * @return the bytes written */
LEAFANCHOR_MUST_USE
static inline leafanchor_sheet_text_answer leafanchor_sheet_tell_stream(const leafanchor_sheet_stream *stream,
                                                                        char *text, size_t text_len)
{
    return leafanchor_sheet_tell(&stream->sheet, stream->known, text, text_len);
}

/** The job that a reader's step gave.
 * @param step the answer of leafanchor_step, neither refused nor the end
 * @return its job; all 0 where it gave none */
LEAFANCHOR_MUST_USE
static inline leafanchor_job leafanchor_job_of_step(leafanchor_step_answer step)
{
    leafanchor_job job = {step.number, step.pack,   step.critical, step.weight,
                          step.ready,  step.length, step.deadline};
    return job;
}

/** leafanchor_profile_extended in place: from a copy of the profile, whose 2,416 bytes of stack are taken only then.
 * @param profile extended, or refused as it was
 * @param order the packed order
 * @param order_len its bytes
 * @param work the work area
 * @param work_len room for LEAFANCHOR_WORK_AREA numbers
 * @return the refusal, its place and its field, and the points of the profile extended */
LEAFANCHOR_MUST_USE
LEAFANCHOR_APART leafanchor_extend_answer leafanchor_profile_extend_in_place(leafanchor_profile *profile,
                                                                             const uint8_t *order, size_t order_len,
                                                                             int32_t *work, size_t work_len)
{
    const leafanchor_profile before = *profile;
    leafanchor_extend_answer answer = leafanchor_extend(before.numbers, before.numbers_len, order, order_len,
                                                        profile->numbers, LEAFANCHOR_PROFILE_ROOM, work, work_len);
    if (answer.refusal == LEAFANCHOR_NONE) {
        profile->numbers_len = 2 * answer.points;
    }
    return answer;
}

/** leafanchor_extend over profiles. Refused, out is the profile of no points, or as it was where it is profile itself.
 * @param profile the profile
 * @param order the packed order
 * @param order_len its bytes
 * @param out written: the profile extended by the order; it may be profile itself
 * @param work the work area
 * @param work_len room for LEAFANCHOR_WORK_AREA numbers
 * @return the refusal, its place and its field, and the points of out */
LEAFANCHOR_MUST_USE
static inline leafanchor_extend_answer leafanchor_profile_extended(const leafanchor_profile *profile,
                                                                   const uint8_t *order, size_t order_len,
                                                                   leafanchor_profile *out, int32_t *work,
                                                                   size_t work_len)
{
    leafanchor_extend_answer answer;
    if (profile == out) {
        return leafanchor_profile_extend_in_place(out, order, order_len, work, work_len);
    }
    answer = leafanchor_extend(profile->numbers, profile->numbers_len, order, order_len, out->numbers,
                               LEAFANCHOR_PROFILE_ROOM, work, work_len);
    out->numbers_len = 2 * answer.points;
    return answer;
}

/** The profile of an order (R13): its bus-free time with weight 0, extended by it. Refused, out is the profile of no
 * points. The order is unpacked into out on the way, so it takes no more than 100 bytes of stack beside
 * leafanchor_extend's.
 * @param order the packed order
 * @param order_len its bytes
 * @param out written: the profile of the order
 * @param work the work area
 * @param work_len room for LEAFANCHOR_WORK_AREA numbers
 * @return the refusal, its place and its field, and the points of out */
LEAFANCHOR_MUST_USE
static inline leafanchor_extend_answer leafanchor_profile_of_order(const uint8_t *order, size_t order_len,
                                                                   leafanchor_profile *out, int32_t *work,
                                                                   size_t work_len)
{
    leafanchor_unpack_answer unpacked = leafanchor_unpack(order, order_len, out->numbers, LEAFANCHOR_PROFILE_ROOM);
    leafanchor_extend_answer answer = {unpacked.refusal, unpacked.place, unpacked.field, 0};
    if (unpacked.refusal == LEAFANCHOR_NONE) {
        const int32_t bus_free[] = {unpacked.t0, 0};
        answer = leafanchor_extend(bus_free, 2, order, order_len, out->numbers, LEAFANCHOR_PROFILE_ROOM, work,
                                   work_len);
    }
    out->numbers_len = 2 * answer.points;
    return answer;
}

/** leafanchor_profile_better where out is p, q or both: from a copy of it, whose 2,416 bytes of stack are taken only
 * then.
 * @param p a profile
 * @param q a profile
 * @param out the better of both, or refused as it was
 * @return the refusal, and the points of the better of both */
LEAFANCHOR_MUST_USE
LEAFANCHOR_APART leafanchor_better_answer leafanchor_profile_better_in_place(const leafanchor_profile *p,
                                                                             const leafanchor_profile *q,
                                                                             leafanchor_profile *out)
{
    const leafanchor_profile before = *out;
    const leafanchor_profile *first = p == out ? &before : p, *second = q == out ? &before : q;
    leafanchor_better_answer answer = leafanchor_better_of(first->numbers, first->numbers_len, second->numbers,
                                                           second->numbers_len, out->numbers, LEAFANCHOR_PROFILE_ROOM);
    if (answer.refusal == LEAFANCHOR_NONE) {
        out->numbers_len = 2 * answer.points;
    }
    return answer;
}

/** leafanchor_better_of over profiles. Refused, out is the profile of no points, or as it was where it is p or q
 * itself.
 * @param p a profile
 * @param q a profile, p itself too
 * @param out written: the better of both; it may be p or q itself, so that one profile gathers many
 * @return the refusal, and the points of out */
LEAFANCHOR_MUST_USE
static inline leafanchor_better_answer leafanchor_profile_better(const leafanchor_profile *p,
                                                                 const leafanchor_profile *q,
                                                                 leafanchor_profile *out)
{
    leafanchor_better_answer answer;
    if (p == out || q == out) {
        return leafanchor_profile_better_in_place(p, q, out);
    }
    answer = leafanchor_better_of(p->numbers, p->numbers_len, q->numbers, q->numbers_len, out->numbers,
                                  LEAFANCHOR_PROFILE_ROOM);
    out->numbers_len = 2 * answer.points;
    return answer;
}

/** leafanchor_lookup in a profile.
 * @param profile the profile
 * @param t any time
 * @return found and weight */
LEAFANCHOR_MUST_USE
static inline leafanchor_lookup_answer leafanchor_profile_lookup(const leafanchor_profile *profile, int32_t t)
{
    return leafanchor_lookup(profile->numbers, profile->numbers_len, t);
}

/** How every answer is laid out where pointers have 64 bits: SIZE(NAME, BYTES) for each struct leafanchor_NAME,
 * OFFSET(NAME, MEMBER, BYTES) for each of its members. */
#define LEAFANCHOR_LAYOUT(SIZE, OFFSET)                                                                       \
    SIZE(heat_answer, 8)                                                                                      \
    OFFSET(heat_answer, refusal, 0) OFFSET(heat_answer, seconds, 4)                                           \
    SIZE(unpack_answer, 40)                                                                                   \
    OFFSET(unpack_answer, refusal, 0) OFFSET(unpack_answer, place, 8) OFFSET(unpack_answer, field, 16)        \
    OFFSET(unpack_answer, jobs, 24) OFFSET(unpack_answer, t0, 32)                                             \
    SIZE(pack_answer, 32)                                                                                     \
    OFFSET(pack_answer, refusal, 0) OFFSET(pack_answer, place, 8) OFFSET(pack_answer, field, 16)              \
    OFFSET(pack_answer, bytes, 24)                                                                            \
    SIZE(frame_answer, 32)                                                                                    \
    OFFSET(frame_answer, refusal, 0) OFFSET(frame_answer, place, 8) OFFSET(frame_answer, bytes, 16)           \
    OFFSET(frame_answer, frame, 24)                                                                           \
    SIZE(open_answer, 16)                                                                                     \
    OFFSET(open_answer, refusal, 0) OFFSET(open_answer, jobs, 8)                                              \
    SIZE(step_answer, 64)                                                                                     \
    OFFSET(step_answer, refusal, 0) OFFSET(step_answer, place, 8) OFFSET(step_answer, field, 16)              \
    OFFSET(step_answer, end, 20) OFFSET(step_answer, number, 24) OFFSET(step_answer, pack, 28)                \
    OFFSET(step_answer, critical, 32) OFFSET(step_answer, weight, 36) OFFSET(step_answer, ready, 40)          \
    OFFSET(step_answer, length, 44) OFFSET(step_answer, deadline, 48) OFFSET(step_answer, next, 56)           \
    SIZE(point, 8)                                                                                            \
    OFFSET(point, time, 0) OFFSET(point, weight, 4)                                                           \
    SIZE(lookup_answer, 12)                                                                                   \
    OFFSET(lookup_answer, refusal, 0) OFFSET(lookup_answer, found, 4) OFFSET(lookup_answer, weight, 8)        \
    SIZE(better_answer, 16)                                                                                   \
    OFFSET(better_answer, refusal, 0) OFFSET(better_answer, points, 8)                                        \
    SIZE(extend_answer, 32)                                                                                   \
    OFFSET(extend_answer, refusal, 0) OFFSET(extend_answer, place, 8) OFFSET(extend_answer, field, 16)        \
    OFFSET(extend_answer, points, 24)                                                                         \
    SIZE(plan_answer, 56)                                                                                     \
    OFFSET(plan_answer, refusal, 0) OFFSET(plan_answer, place, 8) OFFSET(plan_answer, field, 16)              \
    OFFSET(plan_answer, mask, 24) OFFSET(plan_answer, kept, 32) OFFSET(plan_answer, kept_weight, 36)          \
    OFFSET(plan_answer, lost_weight, 40) OFFSET(plan_answer, finish, 44) OFFSET(plan_answer, points, 48)      \
    SIZE(halves_answer, 56)                                                                                   \
    OFFSET(halves_answer, refusal, 0) OFFSET(halves_answer, place, 8) OFFSET(halves_answer, field, 16)        \
    OFFSET(halves_answer, mask, 24) OFFSET(halves_answer, kept, 32) OFFSET(halves_answer, kept_weight, 36)    \
    OFFSET(halves_answer, lost_weight, 40) OFFSET(halves_answer, finish, 44)                                  \
    OFFSET(halves_answer, points, 48) OFFSET(halves_answer, seconds_lost, 52)                                 \
    SIZE(verdict_answer, 24)                                                                                  \
    OFFSET(verdict_answer, refusal, 0) OFFSET(verdict_answer, place, 8) OFFSET(verdict_answer, field, 16)     \
    OFFSET(verdict_answer, yes, 20)                                                                           \
    SIZE(question_answer, 16)                                                                                 \
    OFFSET(question_answer, refusal, 0) OFFSET(question_answer, field, 4) OFFSET(question_answer, winner, 8)  \
    OFFSET(question_answer, kind, 12)                                                                         \
    SIZE(choose_answer, 40)                                                                                   \
    OFFSET(choose_answer, refusal, 0) OFFSET(choose_answer, field, 4) OFFSET(choose_answer, winner, 8)        \
    OFFSET(choose_answer, offset, 16) OFFSET(choose_answer, length, 24) OFFSET(choose_answer, kind, 32)       \
    SIZE(sheet_answer, 4)                                                                                     \
    OFFSET(sheet_answer, refusal, 0)                                                                          \
    SIZE(sheet_text_answer, 16)                                                                               \
    OFFSET(sheet_text_answer, refusal, 0) OFFSET(sheet_text_answer, bytes, 8)

/** A fact that the compiler checks, where it can; where there is no library the one sentence above is enough. */
#if !LEAFANCHOR_FITS
#define LEAFANCHOR_HOLDS(fact, words)
#elif defined(__cplusplus) && __cplusplus >= 201103L
#define LEAFANCHOR_HOLDS(fact, words) static_assert(fact, words);
#elif defined(__STDC_VERSION__) && __STDC_VERSION__ >= 201112L
#define LEAFANCHOR_HOLDS(fact, words) _Static_assert(fact, words);
#elif defined(__GNUC__) && !defined(__cplusplus)
#define LEAFANCHOR_HOLDS(fact, words) __extension__ _Static_assert(fact, words);
#else
#define LEAFANCHOR_HOLDS(fact, words)
#endif
/** The size of an answer is as the library has it. */
#define LEAFANCHOR_HAS_SIZE(name, bytes) LEAFANCHOR_HOLDS(sizeof(leafanchor_##name) == bytes, "leafanchor_" #name)
/** A member of an answer lies where the library has it. */
#define LEAFANCHOR_LIES_AT(name, member, bytes) \
    LEAFANCHOR_HOLDS(offsetof(leafanchor_##name, member) == bytes, "leafanchor_" #name "." #member)

LEAFANCHOR_LAYOUT(LEAFANCHOR_HAS_SIZE, LEAFANCHOR_LIES_AT)
LEAFANCHOR_HAS_SIZE(job, LEAFANCHOR_JOB_NUMBERS * sizeof(int32_t))
LEAFANCHOR_LIES_AT(job, number, 0)
LEAFANCHOR_LIES_AT(job, pack, 4)
LEAFANCHOR_LIES_AT(job, critical, 8)
LEAFANCHOR_LIES_AT(job, weight, 12)
LEAFANCHOR_LIES_AT(job, ready, 16)
LEAFANCHOR_LIES_AT(job, length, 20)
LEAFANCHOR_LIES_AT(job, deadline, 24)
LEAFANCHOR_HAS_SIZE(repeating, LEAFANCHOR_REPEATING_NUMBERS / LEAFANCHOR_MOST_REPEATING * sizeof(int32_t))
LEAFANCHOR_LIES_AT(repeating, critical, 0)
LEAFANCHOR_LIES_AT(repeating, weight, 4)
LEAFANCHOR_LIES_AT(repeating, phase, 8)
LEAFANCHOR_LIES_AT(repeating, length, 12)
LEAFANCHOR_LIES_AT(repeating, deadline, 16)
LEAFANCHOR_LIES_AT(repeating, period, 20)
LEAFANCHOR_HAS_SIZE(profile, 2416)
LEAFANCHOR_HAS_SIZE(sheet, LEAFANCHOR_SHEET_FIGURES * sizeof(uint32_t))
LEAFANCHOR_LIES_AT(sheet, orders, 0)
LEAFANCHOR_LIES_AT(sheet, refused, 4)
LEAFANCHOR_LIES_AT(sheet, feasible, 4 + 4 * LEAFANCHOR_SHEET_REFUSALS)
LEAFANCHOR_LIES_AT(sheet, offered_weight, 84)
LEAFANCHOR_LIES_AT(sheet, kept_weight, 88)
LEAFANCHOR_LIES_AT(sheet, jobs_kept, 92)
LEAFANCHOR_LIES_AT(sheet, top, 96)
LEAFANCHOR_LIES_AT(sheet, place, 100)
LEAFANCHOR_HAS_SIZE(sheet_stream, 556)
LEAFANCHOR_LIES_AT(sheet_stream, sheet, 0)
LEAFANCHOR_LIES_AT(sheet_stream, known, 104)
LEAFANCHOR_LIES_AT(sheet_stream, size, 108)
LEAFANCHOR_LIES_AT(sheet_stream, got, 112)
LEAFANCHOR_LIES_AT(sheet_stream, front, LEAFANCHOR_SHEET_FEED * sizeof(uint32_t))
LEAFANCHOR_HOLDS(LEAFANCHOR_ORDER_BYTES == 4 + 9 * LEAFANCHOR_MOST_JOBS, "bytes of an order")
LEAFANCHOR_HOLDS(LEAFANCHOR_ORDER_NUMBERS == LEAFANCHOR_JOB_NUMBERS * LEAFANCHOR_MOST_JOBS, "numbers of an order")
LEAFANCHOR_HOLDS(LEAFANCHOR_STARTS == LEAFANCHOR_MOST_JOBS, "starts of a plan")
LEAFANCHOR_HOLDS(LEAFANCHOR_PLAN_BYTES == (48 + 18 * LEAFANCHOR_STARTS + 7) / 8, "bytes of a plan")
LEAFANCHOR_HOLDS(LEAFANCHOR_HALVES_APART == LEAFANCHOR_HIGHEST_HALF + 1, "numbers of halves")
LEAFANCHOR_HOLDS(LEAFANCHOR_REPEATING_NUMBERS == 6 * LEAFANCHOR_MOST_REPEATING, "numbers of repeating jobs")
LEAFANCHOR_HOLDS(LEAFANCHOR_PROFILE_ROOM == 2 * 301, "numbers of a profile")
LEAFANCHOR_HOLDS(LEAFANCHOR_PROFILE_ROOM >= LEAFANCHOR_ORDER_NUMBERS, "an order unpacks into a profile's room")
LEAFANCHOR_HOLDS(LEAFANCHOR_SHEET_FIGURES == LEAFANCHOR_SHEET_REFUSALS + 7, "numbers of a sheet")
LEAFANCHOR_HOLDS(LEAFANCHOR_SHEET_FEED == LEAFANCHOR_SHEET_FIGURES + 3, "numbers held of a stream")
LEAFANCHOR_HOLDS(LEAFANCHOR_SHEET_FRONT == LEAFANCHOR_ORDER_BYTES + 1, "bytes held of a stream")
LEAFANCHOR_HOLDS(sizeof(((leafanchor_sheet_stream *)0)->front) == LEAFANCHOR_SHEET_FRONT, "the front of a stream")
LEAFANCHOR_HOLDS(LEAFANCHOR_WORK_AREA == (1 + LEAFANCHOR_MOST_JOBS) * 301, "numbers of the work area")

#ifdef __cplusplus
}
#endif

#endif
