/*
 * A C program over include/hildrasp.h: one call of each function, on an example of document 01; refusals with the lists
 * that they must leave alone; empty lists lent as null pointers; and lists as long as 32 bits can count bytes.
 */
#include <hildrasp.h>
#include <stdio.h>
#include <stdlib.h>
#include <string.h>

static void holds(int rule, const char *text)
{
    if (!rule) {
        fprintf(stderr, "does not hold: %s\n", text);
        exit(1);
    }
}

#define HOLDS(rule) holds(rule, #rule)

/* The answers of each function with each of its lists in turn empty. */
typedef struct {
    hildrasp_batch batch[2];
    hildrasp_answer list[3];
    hildrasp_behind run[2];
    hildrasp_answer shuffled[2];
    hildrasp_answer sampled[3];
    hildrasp_answer order[2];
    hildrasp_drawn drawn[2];
    hildrasp_written written[3];
    hildrasp_drawn read[4];
    hildrasp_reason why;
} answers;

static answers with_empty_lists(void *empty, const uint8_t sheet[52])
{
    const uint64_t words[2] = {0, 1}, bounds[2] = {2, 6};
    uint64_t rolls[2] = {0, 0};
    uint32_t records[3] = {1, 2, 0}, slots[1];
    uint8_t without_words[36], bytes[52];
    hildrasp_write_sheet(words, 0, records, 3, 1, 1, without_words, 36);
    return (answers){
        .batch = {hildrasp_roll_batch(empty, 0, 0, bounds, 2), hildrasp_roll_batch(words, 2, 0, empty, 0)},
        .list = {hildrasp_roll_list(empty, 0, 0, bounds, 2, rolls, 2),
                 hildrasp_roll_list(words, 2, 0, empty, 0, rolls, 2),
                 hildrasp_roll_list(words, 2, 0, bounds, 2, empty, 0)},
        .run = {hildrasp_words_behind(empty, 0, rolls, 2), hildrasp_words_behind(bounds, 2, empty, 0)},
        .shuffled = {hildrasp_shuffle(empty, 0, 0, records, 3), hildrasp_shuffle(words, 2, 0, empty, 0)},
        .sampled = {hildrasp_sample(empty, 0, 0, records, 3, 1, slots, 1),
                    hildrasp_sample(words, 2, 0, empty, 0, 1, slots, 1),
                    hildrasp_sample(words, 2, 0, records, 3, 1, empty, 0)},
        .order = {hildrasp_rolls_behind(empty, 0, rolls, 2), hildrasp_rolls_behind(records, 3, empty, 0)},
        .drawn = {hildrasp_run_sheet(empty, 0, slots, 1), hildrasp_run_sheet(sheet, 52, empty, 0)},
        .written = {hildrasp_write_sheet(empty, 0, records, 3, 1, 1, bytes, 52),
                    hildrasp_write_sheet(words, 2, empty, 0, 1, 1, bytes, 52),
                    hildrasp_write_sheet(words, 2, records, 3, 1, 1, empty, 0)},
        .read = {hildrasp_read_sheet(empty, 0, rolls, 2, records, 3),
                 hildrasp_read_sheet(sheet, 52, empty, 0, records, 3),
                 hildrasp_read_sheet(without_words, 36, empty, 0, records, 3),
                 hildrasp_read_sheet(sheet, 52, rolls, 2, empty, 0)},
        .why = hildrasp_why(empty, 0, 0),
    };
}

/* The sheet of document 01 written from its words and records, and read back. */
static void is_written_and_read(const uint8_t sheet[52])
{
    const uint64_t words[2] = {0, 1};
    const uint32_t records[3] = {101, 205, 309};
    uint8_t bytes[54];
    memset(bytes, 9, 54);
    hildrasp_written written = hildrasp_write_sheet(words, 2, records, 3, 1, 1, bytes, 51);
    HOLDS(written.no == HILDRASP_ROOM && written.next == 0 && written.rejected == 0 && written.length == 0);
    for (int place = 0; place < 54; place++)
        HOLDS(bytes[place] == 9);
    written = hildrasp_write_sheet(words, 2, records, 3, 1, 1, bytes, 54);
    HOLDS(written.no == 0 && written.next == 0 && written.rejected == 0 && written.length == 52);
    HOLDS(memcmp(bytes, sheet, 52) == 0 && bytes[52] == 9 && bytes[53] == 9);

    uint64_t words_read[3] = {9, 9, 9};
    uint32_t records_read[4] = {9, 9, 9, 9};
    hildrasp_drawn read = hildrasp_read_sheet(sheet, 52, words_read, 1, records_read, 4);
    HOLDS(read.no == HILDRASP_ROOM && read.words == 0 && read.k == 0 && words_read[0] == 9 && records_read[0] == 9);
    read = hildrasp_read_sheet(sheet, 52, words_read, 3, records_read, 4);
    HOLDS(read.no == 0 && read.next == 0 && read.rejected == 0 && read.batch == 0);
    HOLDS(read.words == 2 && read.words_at == 24 && read.records == 3 && read.records_at == 40);
    HOLDS(read.k == 1 && read.w == 1 && words_read[0] == 0 && words_read[1] == 1 && words_read[2] == 9);
    HOLDS(memcmp(records_read, records, sizeof records) == 0 && records_read[3] == 9);
}

/* On the sheet of document 01 record 205 took the slot from 101, and 309 from 205. There is no fourth record. */
static void has_its_reasons(const uint8_t sheet[52])
{
    for (size_t place = 0; place < 3; place++) {
        hildrasp_reason why = hildrasp_why(sheet, 52, place);
        HOLDS(why.no == 0 && why.next == 2 && why.rejected == 1 && why.batch == 0);
        HOLDS(why.reason == (place < 2 ? HILDRASP_TAKEN : HILDRASP_ROLLED_IN) && why.slot == 0 && why.roll == 0);
        HOLDS(why.by_place == (place < 2 ? place + 1 : 0) && why.by_step == (place < 2 ? place : 0));
        HOLDS(why.final_slot == 0);
    }
    hildrasp_reason why = hildrasp_why(sheet, 52, 3);
    HOLDS(why.no == HILDRASP_MISFIT && why.next == 0 && why.rejected == 0 && why.batch == 0);
    HOLDS(why.reason == 0 && why.slot == 0 && why.final_slot == 0);
    HOLDS(why.by_place == 0 && why.by_step == 0 && why.roll == 0);
    why = hildrasp_why(sheet, 51, 3);
    HOLDS(why.no == HILDRASP_SHEET && why.next == 0 && why.rejected == 0 && why.reason == 0);
}

/* The highest words leave the first of 18 records in its slot: the last rolls 17. They are two batches. */
static void passes_over_the_last_of_18(void)
{
    const uint64_t words[2] = {UINT64_MAX, UINT64_MAX};
    const uint32_t records[18] = {0};
    uint8_t sheet[112];
    HOLDS(hildrasp_write_sheet(words, 2, records, 18, 1, 1, sheet, 112).length == 112);
    hildrasp_reason why = hildrasp_why(sheet, 112, 17);
    HOLDS(why.no == 0 && why.next == 2 && why.rejected == 0 && why.batch == 0);
    HOLDS(why.reason == HILDRASP_PASSED_OVER && why.slot == 0 && why.by_place == 0 && why.by_step == 0 && why.roll == 17);
    HOLDS(hildrasp_why(sheet, 112, 0).reason == HILDRASP_STAYED);
    hildrasp_write_sheet(words, 1, records, 18, 1, 1, sheet, 112);
    why = hildrasp_why(sheet, 104, 17);
    HOLDS(why.no == HILDRASP_WORDS && why.next == 0 && why.batch == 1 && why.reason == 0 && why.roll == 0);
}

/*
 * Three of five records. Word 2^62 + 1 rolls 1 with bound 4 and 0 with bound 5: 204 takes slot 1, and 205 slot 0. Then
 * word 1 rolls 0 with bound 3 and 0 with bound 2: slots 0 and 2 are exchanged, and then slots 0 and 1.
 */
static void shuffles_its_slots(void)
{
    const uint64_t words[2] = {((uint64_t)1 << 62) + 1, 1};
    const uint32_t records[5] = {201, 202, 203, 204, 205};
    uint32_t slots[4] = {9, 9, 9, 9};
    hildrasp_answer sampled = hildrasp_sample(words, 1, 0, records, 5, 3, slots, 4);
    HOLDS(sampled.no == HILDRASP_WORDS && sampled.next == 0 && sampled.rejected == 0 && sampled.batch == 1);
    HOLDS(slots[0] == 9 && slots[1] == 9 && slots[2] == 9 && slots[3] == 9);
    sampled = hildrasp_sample(words, 2, 0, records, 5, 3, slots, 4);
    HOLDS(sampled.no == 0 && sampled.next == 2 && sampled.rejected == 0 && sampled.batch == 0);
    HOLDS(slots[0] == 204 && slots[1] == 203 && slots[2] == 205 && slots[3] == 9);

    uint8_t sheet[60];
    HOLDS(hildrasp_write_sheet(words, 2, records, 5, 3, 1, sheet, 60).length == 60);
    hildrasp_reason first = hildrasp_why(sheet, 60, 0), third = hildrasp_why(sheet, 60, 2);
    hildrasp_reason fourth = hildrasp_why(sheet, 60, 3), fifth = hildrasp_why(sheet, 60, 4);
    HOLDS(first.reason == HILDRASP_TAKEN && first.slot == 0 && first.final_slot == 0);
    HOLDS(first.by_place == 4 && first.by_step == 1 && first.roll == 0);
    HOLDS(third.reason == HILDRASP_STAYED && third.slot == 2 && third.final_slot == 1);
    HOLDS(third.by_place == 0 && third.by_step == 0 && third.roll == 0);
    HOLDS(fourth.reason == HILDRASP_ROLLED_IN && fourth.slot == 1 && fourth.final_slot == 0);
    HOLDS(fifth.reason == HILDRASP_ROLLED_IN && fifth.slot == 0 && fifth.final_slot == 2);
}

/* Writing is refused 2 for these counts of words and records, both lists in the same zeros, which are not looked at. */
static void are_too_many(const void *zeros, size_t word_count, size_t record_count)
{
    uint8_t bytes[40];
    memset(bytes, 9, 40);
    hildrasp_written written = hildrasp_write_sheet(zeros, word_count, zeros, record_count, 1, 1, bytes, 40);
    HOLDS(written.no == HILDRASP_COUNT && written.next == 0 && written.rejected == 0 && written.length == 0);
    for (int place = 0; place < 40; place++)
        HOLDS(bytes[place] == 9);
}

/* With wrap at 32 bits these sheets have 28, 32 and 24 bytes. A machine that lends no 4 GiB has no such lists. */
static void lists_of_4_gib_are_too_long(void)
{
    void *zeros = calloc((size_t)1 << 30, 4);
    if (zeros != NULL) {
        are_too_many(zeros, (size_t)1 << 29, 1);
        are_too_many(zeros, 1, (size_t)1 << 30);
        are_too_many(zeros, (size_t)1 << 28, (size_t)1 << 29);
    }
    free(zeros);
}

int main(void)
{
    const uint64_t words[2] = {0, 1};

    const uint64_t bound[1] = {UINT64_MAX};
    hildrasp_batch batch = hildrasp_roll_batch(words, 2, 0, bound, 1);
    HOLDS(batch.no == 0 && batch.next == 2 && batch.rejected == 1 && batch.count == 1);
    for (int place = 0; place < 16; place++)
        HOLDS(batch.rolls[place] == 0);

    const uint64_t ones[17] = {1, 1, 1, 1, 1, 1, 1, 1, 1, 1, 1, 1, 1, 1, 1, 1, 1};
    uint64_t rolls[18];
    for (int place = 0; place < 18; place++)
        rolls[place] = 9;
    hildrasp_answer list = hildrasp_roll_list(words, 1, 0, ones, 17, rolls, 18);
    HOLDS(list.no == HILDRASP_WORDS && list.next == 0 && list.rejected == 0 && list.batch == 1);
    for (int place = 0; place < 18; place++)
        HOLDS(rolls[place] == 9);
    list = hildrasp_roll_list(words, 2, 0, ones, 17, rolls, 18);
    HOLDS(list.no == 0 && list.next == 2 && list.rejected == 0 && list.batch == 0);
    HOLDS(rolls[0] == 0 && rolls[16] == 0 && rolls[17] == 9);

    const uint64_t bounds[2] = {2, 6}, wanted[2] = {0, 0};
    hildrasp_behind run = hildrasp_words_behind(bounds, 2, wanted, 2);
    HOLDS(run.no == 0 && run.next == 0 && run.rejected == 0);
    HOLDS(run.first == 1 && run.last == UINT64_C(1537228672809129301));

    uint32_t records[8] = {0, 1, 2, 3, 4, 5, 6, 7};
    hildrasp_answer shuffled = hildrasp_shuffle(words, 1, 0, records, 3);
    HOLDS(shuffled.no == HILDRASP_WORDS && shuffled.next == 0 && shuffled.rejected == 0 && shuffled.batch == 0);
    HOLDS(records[0] == 0 && records[1] == 1 && records[2] == 2);
    shuffled = hildrasp_shuffle(words, 2, 0, records, 3);
    HOLDS(shuffled.no == 0 && shuffled.next == 2 && shuffled.rejected == 1 && shuffled.batch == 0);
    HOLDS(records[0] == 1 && records[1] == 2 && records[2] == 0 && records[3] == 3);

    uint64_t behind[3] = {9, 9, 9};
    hildrasp_answer order = hildrasp_rolls_behind(records, 3, behind, 3);
    HOLDS(order.no == 0 && order.next == 0 && order.rejected == 0 && order.batch == 0);
    HOLDS(behind[0] == 0 && behind[1] == 0 && behind[2] == 9);

    const uint32_t three[3] = {101, 205, 309};
    uint32_t slots[2] = {9, 9};
    hildrasp_answer sampled = hildrasp_sample(words, 2, 0, three, 3, 1, slots, 2);
    HOLDS(sampled.no == 0 && sampled.next == 2 && sampled.rejected == 1 && sampled.batch == 0);
    HOLDS(slots[0] == 309 && slots[1] == 9);

    const uint8_t sheet[52] = {2,   0, 0, 0, 24, 0, 0, 0, 3, 0, 0, 0, 40, 0, 0, 0, 1, 0, 0, 0, 1, 0, 0, 0,
                               0,   0, 0, 0, 0,  0, 0, 0, 1, 0, 0, 0, 0,  0, 0, 0,
                               101, 0, 0, 0, 205, 0, 0, 0, 53, 1, 0, 0};
    slots[0] = 9;
    hildrasp_drawn drawn = hildrasp_run_sheet(sheet, 52, slots, 2);
    HOLDS(drawn.no == 0 && drawn.next == 2 && drawn.rejected == 1 && drawn.batch == 0);
    HOLDS(drawn.words == 2 && drawn.words_at == 24 && drawn.records == 3 && drawn.records_at == 40);
    HOLDS(drawn.k == 1 && drawn.w == 1 && slots[0] == 309 && slots[1] == 9);
    drawn = hildrasp_run_sheet(sheet, 51, slots, 2);
    HOLDS(drawn.no == HILDRASP_SHEET && drawn.words == 0 && drawn.k == 0 && slots[0] == 309);

    is_written_and_read(sheet);
    has_its_reasons(sheet);
    passes_over_the_last_of_18();
    shuffles_its_slots();
    lists_of_4_gib_are_too_long();

    uint64_t place = 9;
    answers lent = with_empty_lists(&place, sheet), null = with_empty_lists(NULL, sheet);
    HOLDS(memcmp(&lent, &null, sizeof lent) == 0 && place == 9);

    return 0;
}
