/*
 * Restores dumps from a store in which most are kept as edits of another, and reclaims what nobody wants any more.
 *
 * The store has a bank as a whole dump, and two deltas on top of it: dump 2 renames an entry, dump 3 takes the other one out of dump 2.
 * Dump 3 stands before the dumps that it rests on. Dumps 4 and 5 each name the other as their base, as after a mistake of who wrote
 * them. The program checks the store, says what each dump is, restores it in just the words that it needs and prints it. The ring is
 * refused, and so is a dump that the store does not hold, or one word too few; the words then stay as they were.
 *
 * Then dumps 1, 4 and 5 are marked unwanted and the store is collected. Dump 1 stays, since dump 2 rests on it. The ring goes, and a
 * new dump 4 is written to the bytes that were freed.
 */
#include <inttypes.h>
#include <stdbool.h>
#include <stdio.h>
#include <string.h>

#include "latchbeacon.h"

#define LENT 16

/* The store. A number has two bytes, the highest first. */
static uint8_t store[] = {
    0x02, 0, 3, 0, 2,                                                         /* dump 3, a delta of 2 */
    0x03, 0, 0, 0, 7,                                                         /* seven bytes of it, from 0 on, go */
    0x01, 0, 1, 3, 0x0A,                                                      /* dump 1, whole: group 3, stream id 0A */
    0x8D, 0x01, 'P', 'I', 'A', 'N', 'O', 0x40, 0x02, 'O', 'R', 'G', 'A', 'N', /* its first 13 bytes */
    0x81, 0x41,                                                               /* and one more */
    0x02, 0, 2, 0, 1,                                                         /* dump 2, a delta of 1 */
    0x03, 0, 8, 0, 13,                                                        /* five bytes of it, from 8 on, are replaced */
    0x84, 'B', 'A', 'S', 'S',                                                 /* by four */
    0x02, 0, 4, 0, 5,                                                         /* dump 4, a delta of 5 */
    0x02, 0, 5, 0, 4,                                                         /* dump 5, a delta of 4 */
};

/* How many of its bytes are in use. */
static size_t used = sizeof store;

static uint32_t words[LENT];

/* Restores a dump in so many words and prints its message; answers the refusal. */
static uint8_t restore(size_t number, size_t lent) {
    latchbeacon_number length = latchbeacon_store_restore(store, used, number, words, lent);
    if (length.refusal != LATCHBEACON_ACCEPTED) {
        printf("dump %zu in %zu words: refusal %u at %zu\n", number, lent, (unsigned)length.refusal, length.place);
        return length.refusal;
    }
    printf("dump %zu in %zu words:", number, lent);
    for (size_t index = 0; index < length.value; index++) {
        printf(" %08" PRIX32, words[index]);
    }
    printf("\n");
    return 0;
}

/* Describes a dump, and restores it in just the words that it needs; answers whether neither was refused. */
static bool show(size_t number) {
    latchbeacon_dump dump = latchbeacon_store_describe(store, used, number);
    if (dump.refusal != LATCHBEACON_ACCEPTED) {
        printf("dump %zu: refusal %u at %zu\n", number, (unsigned)dump.refusal, dump.place);
        return false;
    }
    printf("dump %zu: %s", number, dump.delta ? "a delta" : "whole");
    if (dump.delta) {
        printf(" of %zu", dump.base);
    }
    printf(", steps %zu, group %u, stream id %02X, %zu bytes, lend %zu words\n", dump.steps, (unsigned)dump.group,
           (unsigned)dump.id, dump.size, dump.words);
    return dump.words <= LENT && restore(number, dump.words) == 0;
}

/* Checks the store and prints how many dumps it has; answers whether it is good. */
static bool check(void) {
    latchbeacon_number dumps = latchbeacon_store_check(store, used);
    if (dumps.refusal != LATCHBEACON_ACCEPTED) {
        printf("refusal %u at %zu\n", (unsigned)dumps.refusal, dumps.place);
        return false;
    }
    printf("%zu dumps in %zu bytes\n", dumps.value, used);
    return true;
}

/* Tries what is refused; answers whether it was. */
static bool try_refused(void) {
    bool refused = restore(3, 7) == LATCHBEACON_ROOM;
    refused = restore(4, LENT) == LATCHBEACON_RING && refused;
    refused = restore(6, LENT) == LATCHBEACON_MISSING && refused;
    printf("still %08" PRIX32 "\n", words[0]);
    return refused;
}

/* Marks a dump unwanted; answers the refusal. */
static uint8_t mark(size_t number) {
    latchbeacon_number done = latchbeacon_store_mark(store, used, number);
    if (done.refusal != LATCHBEACON_ACCEPTED) {
        printf("mark dump %zu: refusal %u at %zu\n", number, (unsigned)done.refusal, done.place);
        return done.refusal;
    }
    printf("dump %zu is not wanted any more\n", number);
    return 0;
}

/* Collects the store and goes on with the bytes that are still in use; answers whether it was not refused. */
static bool collect(void) {
    latchbeacon_number length = latchbeacon_store_collect(store, used);
    if (length.refusal != LATCHBEACON_ACCEPTED) {
        printf("collect: refusal %u at %zu\n", (unsigned)length.refusal, length.place);
        return false;
    }
    printf("collected: %zu bytes freed\n", used - length.value);
    used = length.value;
    return true;
}

/* Writes a new dump 4 behind the bytes in use; answers whether there is room. */
static bool append(void) {
    static const uint8_t dump[] = {0x01, 0, 4, 3, 0x0A, 0x84, 0x03, 'P', 'A', 'D'};
    if (sizeof dump > sizeof store - used) {
        return false;
    }
    memcpy(store + used, dump, sizeof dump);
    used += sizeof dump;
    return true;
}

/* Shows the dumps that can be restored, tries what is refused, then reclaims the store and shows what it holds. */
int main(void) {
    if (!check() || !show(1) || !show(2) || !show(3) || !try_refused()) {
        return 1;
    }
    if (mark(1) != 0 || mark(4) != 0 || mark(5) != 0 || mark(6) != LATCHBEACON_MISSING || !collect()) {
        return 1;
    }
    if (!check() || !show(1) || !show(3) || restore(4, LENT) != LATCHBEACON_MISSING) {
        return 1;
    }
    return append() && check() && show(4) ? 0 : 1;
}
