/*
 * Quechotzal: when a small craft is hidden by its planet, and when a dish can see it, as a proved list; and of any such list the totals by day.
 *
 * What is declared here is in the static library of the crate `door_c` (`tools/door` writes target/staticlib/libdoor.a, for x86-64 Linux).
 * docs/RULES.md has the rules by which a list is made, docs/PROMISES.md what it may be relied on for. All numbers are little-endian.
 *
 * What a caller owes, and nothing checks: each pointer is not null (even where its length is 0), points to as many bytes as its length says, of
 * which there are fewer than 2^63, and no two of the buffers overlap, not even in one byte. Nothing else may read or write the buffers during a call.
 * Calls share nothing: several threads may call at once, each with its own buffers.
 */
#ifndef QUECHOTZAL_H
#define QUECHOTZAL_H

#include <stddef.h>
#include <stdint.h>

#ifdef __cplusplus
extern "C" {
#endif

/* Sizes in bytes. */
#define QUECHOTZAL_RECORD_BYTES 136u  /* an orbit record */
#define QUECHOTZAL_INTERVAL_BYTES 24u /* an interval record: job u32, flags u32, first u64, last u64 */
#define QUECHOTZAL_ANSWER_BYTES 32u   /* an answer */
#define QUECHOTZAL_LIST_BYTES 49176u  /* a list that has room for any job: 4,096 steps, so at most 2,049 intervals */
#define QUECHOTZAL_DAY_BYTES 16u      /* a day's record: day u32, intervals that have an instant in it u32, instants of it that are in some interval u64 */
#define QUECHOTZAL_SUMMARY_BYTES 512u /* a summary that has room for any window: at most 32 days */

/* The flags of an interval, a sum. Where first is t0, or last is t1, that end's other two are not set; else one of them is or both. */
#define QUECHOTZAL_FLAG_FROM_START 1u   /* first is t0 */
#define QUECHOTZAL_FLAG_TO_END 2u       /* last is t1 */
#define QUECHOTZAL_FLAG_FIRST_HIDDEN 4u /* the hidden answer differs between first - 1 and first */
#define QUECHOTZAL_FLAG_FIRST_UP 8u     /* the up answer does; never for question 1 */
#define QUECHOTZAL_FLAG_LAST_HIDDEN 16u /* the hidden answer differs between last and last + 1 */
#define QUECHOTZAL_FLAG_LAST_UP 32u     /* the up answer does; never for question 1 */

/* Where the answer's numbers stand. */
#define QUECHOTZAL_REFUSAL_AT 0u    /* u32: the refusal's number, 0 for none */
#define QUECHOTZAL_FIELD_AT 4u      /* u32: the field that offends, 1 to 13, for refusals 3 and 4; else 0 */
#define QUECHOTZAL_NUMBER_AT 8u     /* u64: the bits of the number that is handed back: for 3 and 4 the field's own, a NaN's payload included; for 5 the closest distance's; else 0 */
#define QUECHOTZAL_INTERVALS_AT 16u /* u64: how many intervals were written, or how many days the summary has; 0 for a refusal */
#define QUECHOTZAL_ASKED_AT 24u     /* u64: how many instants were asked; 0 for a refusal, and always 0 beside a summary */

/* The refusals. The first that applies is given, in this order, but 3 and 4 together: fields in number order, 3 before 4 for each. 10 is no longer used. */
#define QUECHOTZAL_REFUSED_LENGTH 1u       /* record_length is not 136 */
#define QUECHOTZAL_REFUSED_WORD 2u         /* bytes 4 to 7 are not zero */
#define QUECHOTZAL_REFUSED_NOT_FINITE 3u   /* a field is NaN or infinite */
#define QUECHOTZAL_REFUSED_OUT_OF_RANGE 4u /* a field is finite and out of its range */
#define QUECHOTZAL_REFUSED_TOO_CLOSE 5u    /* the closest distance is not above the planet's radius */
#define QUECHOTZAL_REFUSED_WINDOW 6u       /* t0 is not before t1, or t1 is above 2,678,400,000 ms */
#define QUECHOTZAL_REFUSED_STEP 7u         /* the step is 0 or above 1,048,576 ms, or there are more than 4,096 steps */
#define QUECHOTZAL_REFUSED_QUESTION 8u     /* the question is neither 1 (hidden) nor 2 (visible) */
#define QUECHOTZAL_REFUSED_ROOM 9u         /* list_length is under 24 * ceil((n + 1) / 2), n steps */

/* Of a summary, behind the job's own, of which 9 does not come up there; 11 before 12. */
#define QUECHOTZAL_REFUSED_SUMMARY_ROOM 11u /* the summary's buffer has less than 16 bytes for each day that the window touches */
#define QUECHOTZAL_REFUSED_BAD_LIST 12u     /* the list is not whole records, or an interval has last before first, is not inside the window, or begins less than 2 after the
                                               one before it ends; quechotzal_append has further causes, below */

/*
 * One job. Writes its intervals into `list` from byte 0, each 24 bytes, in order, and no other byte of `list`; a refused job writes none, and `list` keeps
 * every byte. Writes what came of it into `answer`, all 32 bytes, and returns 1. Where answer_length is not 32 nothing at all is written, and it returns 0.
 */
uint32_t quechotzal_list(const uint8_t *record, size_t record_length, uint8_t *list, size_t list_length, uint8_t *answer, size_t answer_length);

/*
 * The summary of a list: one record for each day that the job's window touches, in order. A day has 86,400,000 ms and is counted from the epoch, so t is in day
 * t / 86,400,000. The list may be anybody's: its job numbers and flags are not looked at. Writes the summary into `out` from byte 0, 16 bytes a day, and no other byte
 * of `out`; a refusal writes none, and `out` keeps every byte. Writes what came of it into `answer`, all 32 bytes, with the number of days at
 * QUECHOTZAL_INTERVALS_AT and 0 at QUECHOTZAL_ASKED_AT, and returns 1. Where answer_length is not 32 nothing at all is written, and it returns 0.
 */
uint32_t quechotzal_days(const uint8_t *record, size_t record_length, const uint8_t *list, size_t list_length, uint8_t *out, size_t out_length, uint8_t *answer, size_t answer_length);

/*
 * One interval more, later than all others: `summary` comes in as the summary of `list`, and goes out as that of `list` with `interval` behind it. Only the records of
 * the days that the interval touches are rewritten, and no byte behind the 16 bytes a day; a refusal writes none. `list` itself is not written. Refused by 12 also if
 * `interval` is not 24 bytes, or has last before first, is not inside the window, or begins less than 2 after the last of `list`; or if the first 16 bytes a day of
 * `summary` are not the summary of `list`. The answer, and what is returned, are those of quechotzal_days.
 */
uint32_t quechotzal_append(const uint8_t *record, size_t record_length, const uint8_t *list, size_t list_length, const uint8_t *interval, size_t interval_length,
                           uint8_t *summary, size_t summary_length, uint8_t *answer, size_t answer_length);

#ifdef __cplusplus
}
#endif

#endif
