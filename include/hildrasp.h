/*
 * The C face of Hildrasp: random words from outside become dice rolls, shuffles and samples.
 *
 * A list is a pointer and a count. The pointer is aligned and good for as many numbers as the count says; it may be
 * null where the count is 0. A list that a call writes in overlaps no other list of the call. Nothing else is asked:
 * every call is answered for every input, and while the rules stand the same input has the same answer.
 *
 * `no` is 0 where nothing is refused, and else the number of the refusal; a refusal returns the start place as given in
 * `next` (0 where the call takes none) and zeros elsewhere, except that HILDRASP_WORDS also names the first batch, from
 * 0, that got no word. Every lent list is then exactly what it was.
 *
 * Calls use the stack alone: hildrasp_sample about 256 KiB of it, hildrasp_run_sheet 384 KiB, hildrasp_why 320 KiB,
 * hildrasp_rolls_behind 64 KiB, the others little.
 */
#ifndef HILDRASP_H
#define HILDRASP_H

#include <stddef.h>
#include <stdint.h>

#ifdef __cplusplus
extern "C" {
#endif

/* The numbers for no. The lowest that applies is given. */
enum {
    HILDRASP_SHEET = 1,   /* the sheet is not sound */
    HILDRASP_COUNT = 2,   /* bounds or records outside their count; a sheet to write would pass 65,535 bytes */
    HILDRASP_SAMPLE = 3,  /* k is 0 or above n; on a sheet, w is above k */
    HILDRASP_ZERO = 4,    /* some bound is 0 */
    HILDRASP_PRODUCT = 5, /* product of one batch above 2^64 */
    HILDRASP_ROOM = 6,    /* the lent result list is too short */
    HILDRASP_MISFIT = 7,  /* rolls and bounds differ in count, or a roll reaches its bound; the place isn't below the
                             count of records */
    HILDRASP_ORDER = 8,   /* the list isn't each of 0..n - 1 once */
    HILDRASP_START = 9,   /* start place above the number of words */
    HILDRASP_WORDS = 10   /* the list ends before some batch has an accepted word */
};

/* The answer of a list, a shuffle, a sample and the rolls behind an order, where next, rejected and batch are 0. */
typedef struct {
    uint64_t no;
    size_t next;     /* the place after the last word used, the start where none was */
    size_t rejected; /* the count of rejected words */
    size_t batch;    /* at HILDRASP_WORDS, the first batch that got no word */
} hildrasp_answer;

/* One batch: its rolls and their count; places past the count are 0. */
typedef struct {
    uint64_t no;
    size_t next;
    size_t rejected;
    size_t count;
    uint64_t rolls[16];
} hildrasp_batch;

/* The run of words behind rolls: its first and its last word. `next` and `rejected` are 0. */
typedef struct {
    uint64_t no;
    size_t next;
    size_t rejected;
    uint64_t first;
    uint64_t last;
} hildrasp_behind;

/* A draw from a sheet, or the reading of one, where next, rejected and batch are 0; with the sheet's six numbers. */
typedef struct {
    uint64_t no;
    size_t next;
    size_t rejected;
    size_t batch;
    uint32_t words;      /* count of words */
    uint32_t words_at;   /* byte offset of words */
    uint32_t records;    /* count of records */
    uint32_t records_at; /* byte offset of records */
    uint32_t k;          /* sample size */
    uint32_t w;          /* count of early reviews */
} hildrasp_drawn;

/* A sheet that was written: its length. `next` and `rejected` are 0. */
typedef struct {
    uint64_t no;
    size_t next;
    size_t rejected;
    size_t length; /* in bytes */
} hildrasp_written;

/* The reasons why a record was drawn or not. Exactly one is true in a draw. */
enum {
    HILDRASP_STAYED = 1,     /* it was among the first k and stayed in its slot until the final shuffle */
    HILDRASP_ROLLED_IN = 2,  /* it was rolled into a slot at its step and stayed there until the final shuffle */
    HILDRASP_TAKEN = 3,      /* it held a slot until a later record took that slot; the first such record is named */
    HILDRASP_PASSED_OVER = 4 /* its own roll was k or more */
};

/* Why a record was drawn or not. Fields that do not apply are 0. */
typedef struct {
    uint64_t no;
    size_t next;
    size_t rejected;
    size_t batch;
    uint64_t reason;   /* 1 to 4, 0 on a refusal */
    size_t slot;       /* at HILDRASP_STAYED, HILDRASP_ROLLED_IN and HILDRASP_TAKEN, the reservoir's slot, from 0 */
    size_t final_slot; /* at HILDRASP_STAYED and HILDRASP_ROLLED_IN, where the record stands after the final shuffle */
    size_t by_place;   /* at HILDRASP_TAKEN, the place of the record that took the slot */
    size_t by_step;    /* at HILDRASP_TAKEN, the step of that record: place i has step i - k */
    uint64_t roll;     /* at HILDRASP_PASSED_OVER, the record's own roll */
} hildrasp_reason;

/* Rolls one batch of 1 to 16 bounds. Refusals: 2, 4, 5, 9, 10. */
hildrasp_batch hildrasp_roll_batch(const uint64_t *words, size_t word_count, size_t start,
                                   const uint64_t *bounds, size_t bound_count);

/* Rolls a list of 0 to 4,096 bounds into the lent list `rolls`. Refusals: 2, 4, 6, 9, 10. */
hildrasp_answer hildrasp_roll_list(const uint64_t *words, size_t word_count, size_t start,
                                   const uint64_t *bounds, size_t bound_count,
                                   uint64_t *rolls, size_t room);

/* Shuffles 0 to 16,384 records in the lent list itself. Refusals: 2, 9, 10. */
hildrasp_answer hildrasp_shuffle(const uint64_t *words, size_t word_count, size_t start,
                                 uint32_t *records, size_t record_count);

/*
 * Samples k of 0 to 16,384 records into the lent list `slots`: the reservoir, its bounds k + 1, .., n cut as a list of
 * bounds; then its k slots are shuffled as hildrasp_shuffle does, with the words that follow. Refusals: 2, 3, 6, 9, 10.
 * The batches of HILDRASP_WORDS are counted on from the reservoir into the final shuffle; the slots stay the same also
 * where that alone lacks words.
 */
hildrasp_answer hildrasp_sample(const uint64_t *words, size_t word_count, size_t start,
                                const uint32_t *records, size_t record_count, size_t k,
                                uint32_t *slots, size_t room);

/* Names the words that give these rolls, accepted. Refusals: 2, 4, 5, 7. */
hildrasp_behind hildrasp_words_behind(const uint64_t *bounds, size_t bound_count,
                                      const uint64_t *rolls, size_t roll_count);

/* Names the rolls that shuffle 0, 1, .., n - 1 into this order, in the lent list `rolls`. Refusals: 2, 6, 8. */
hildrasp_answer hildrasp_rolls_behind(const uint32_t *order, size_t order_count,
                                      uint64_t *rolls, size_t room);

/*
 * Runs a draw sheet of 24 to 65,535 bytes: the sample from start 0, with its final shuffle, into the lent list `slots`.
 * The first w slots are the early reviews, the others late. Refusals: 1, 3, 6, 10.
 */
hildrasp_drawn hildrasp_run_sheet(const uint8_t *sheet, size_t byte_count, uint32_t *slots, size_t room);

/*
 * Writes a draw sheet into the front of the lent list `sheet`: the six numbers, the words at byte 24, the records
 * straight after. Bytes past the sheet stay. Whether the words suffice for the draw is not looked at. Refusals: 2, 3,
 * 6. Cost: linear in the sheet's length, with little stack.
 */
hildrasp_written hildrasp_write_sheet(const uint64_t *words, size_t word_count,
                                      const uint32_t *records, size_t record_count, size_t k, size_t w,
                                      uint8_t *sheet, size_t room);

/*
 * Reads a draw sheet of 24 to 65,535 bytes: its words into the front of the lent list `words`, its records into the
 * front of the lent list `records`. The rest of each list stays. Whether the words suffice for the draw is not looked
 * at. Refusals: 1, 3, 6 where either list is too short. Cost: linear in the counts of words and records, with little
 * stack.
 */
hildrasp_drawn hildrasp_read_sheet(const uint8_t *sheet, size_t byte_count,
                                   uint64_t *words, size_t word_room, uint32_t *records, size_t record_room);

/*
 * Tells why the record at a place, from 0, of a draw sheet of 24 to 65,535 bytes was drawn or not, in the draw that
 * hildrasp_run_sheet runs; `next` and `rejected` are those of the draw. It goes by place, since record numbers may
 * repeat. Refusals: 1, 3, 7 where the place isn't below the count of records, 10 also where the final shuffle alone
 * lacks words, with the batch that hildrasp_run_sheet names. Cost: linear in the counts of words and records: the sheet
 * is read once, the words are gone over in one dry run, each roll is made once, and one pass over the rolls finds the
 * reason; with about 320 KiB of stack.
 */
hildrasp_reason hildrasp_why(const uint8_t *sheet, size_t byte_count, size_t place);

#ifdef __cplusplus
}
#endif

#endif
