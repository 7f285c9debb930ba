/*
 * Looks at a patched bank without writing it: no call here is lent a buffer that it may change.
 *
 * The bank has two entries of eight bytes: a number, six letters of a name, a level. First one edit renames the first entry, and the
 * runs of the result are printed one after the other, each by a pointer into the bank or into the new name. An edit that changes
 * nothing still ends a run. Then two edits rename the first entry and take the second one out. The bytes of that result are asked one
 * by one: of the bank's bytes, of the bank in packets, and of a store in which the same edits make dump 2 of dump 1. All three print
 * the same row.
 */
#include <stdbool.h>
#include <stdio.h>

#include "latchbeacon.h"

/* The bank. */
static const uint8_t bank[] = {0x01, 'P', 'I', 'A', 'N', 'O', ' ', 0x40, 0x02, 'O', 'R', 'G', 'A', 'N', ' ', 0x41};

/* The bank in packets: group 3, stream id 0A. */
static const uint32_t words[] = {
    0x531E0A01, 0x5049414E, 0x4F204002, 0x4F524741, 0x53340A4E, 0x20410000, 0x00000000, 0x00000000,
};

/* The new name of the first entry. */
static const uint8_t name[] = {'H', 'A', 'R', 'P'};

/* Two edits of the bank: from, to and replacement length of each. */
static const size_t edits[] = {1, 7, 4, 8, 16, 0};

/* A store. A number has two bytes, the highest first. */
static const uint8_t store[] = {
    0x02, 0, 2, 0, 1,                                                         /* dump 2, a delta of 1 */
    0x03, 0, 1, 0, 7, 0x84, 'H', 'A', 'R', 'P',                               /* six bytes of it are replaced by four */
    0x03, 0, 8, 0, 16,                                                        /* and its last eight bytes go */
    0x01, 0, 1, 3, 0x0A,                                                      /* dump 1, whole: group 3, stream id 0A */
    0x8D, 0x01, 'P', 'I', 'A', 'N', 'O', ' ', 0x40, 0x02, 'O', 'R', 'G', 'A', /* its first 13 bytes */
    0x83, 'N', ' ', 0x41,                                                     /* and three more */
};

#define COUNT(items) (sizeof(items) / sizeof *(items))

/* The most runs that a payload with one edit has. */
#define MOST_RUNS 3

/* Prints the runs of the bank once its bytes from..to are replaced by the first `size` bytes of the name; answers how many there
 * are. */
static size_t print_runs(size_t from, size_t to, size_t size) {
    static const char *const sources[] = {"before", "within", "behind"};
    size_t position = 0, runs = 0;
    printf("bytes %zu..%zu replaced by %zu:\n", from, to, size);
    for (; runs < MOST_RUNS + 1; runs++) {
        latchbeacon_run run = latchbeacon_look_run(sizeof bank, from, to, size, position);
        if (run.refusal != LATCHBEACON_ACCEPTED) {
            printf("  at %zu: refusal %u at %zu\n", position, (unsigned)run.refusal, run.place);
            return runs;
        }
        const uint8_t *bytes = (run.source == LATCHBEACON_RUN_WITHIN ? name : bank) + run.start;
        printf("  at %zu: %s, from %zu:", position, sources[run.source], run.start);
        for (size_t index = 0; index < run.end - run.start; index++) {
            printf(" %02X", (unsigned)bytes[index]);
        }
        printf("\n");
        position += run.end - run.start;
    }
    return runs;
}

/* A byte of the result of the two edits, by the bank's bytes. */
static latchbeacon_number of_bytes(size_t position) {
    return latchbeacon_look_byte(bank, sizeof bank, edits, COUNT(edits), name, sizeof name, position);
}

/* The same by the bank in packets. */
static latchbeacon_number of_packets(size_t position) {
    return latchbeacon_sysex8_look_byte(words, COUNT(words), COUNT(words), edits, COUNT(edits), name, sizeof name, position);
}

/* The same by dump 2 of the store. */
static latchbeacon_number of_dump(size_t position) {
    return latchbeacon_store_look_byte(store, sizeof store, 2, position);
}

/* Prints the bytes of the result up to its end; answers whether there are six, and then Range. */
static bool print_bytes(const char *title, latchbeacon_number (*look)(size_t)) {
    size_t position = 0;
    latchbeacon_number byte = look(position);
    printf("%s:", title);
    while (byte.refusal == LATCHBEACON_ACCEPTED && position <= sizeof bank + sizeof name) {
        printf(" %02zX", byte.value);
        byte = look(++position);
    }
    printf(", then refusal %u at %zu\n", (unsigned)byte.refusal, byte.place);
    return position == 6 && byte.refusal == LATCHBEACON_RANGE;
}

/* Tries what is refused before the position is asked for; answers whether it was. */
static bool try_refused(void) {
    static const size_t swapped[] = {8, 16, 0, 1, 7, 4};
    latchbeacon_number order = latchbeacon_look_byte(bank, sizeof bank, swapped, COUNT(swapped), name, sizeof name, 99);
    latchbeacon_number cut = latchbeacon_sysex8_look_byte(words, COUNT(words), 4, edits, COUNT(edits), name, sizeof name, 99);
    latchbeacon_number missing = latchbeacon_store_look_byte(store, sizeof store, 3, 99);
    printf("edits out of order: refusal %u at %zu\n", (unsigned)order.refusal, order.place);
    printf("the first packet alone: refusal %u at %zu\n", (unsigned)cut.refusal, cut.place);
    printf("dump 3: refusal %u at %zu\n", (unsigned)missing.refusal, missing.place);
    return order.refusal == LATCHBEACON_OVERLAP && cut.refusal == LATCHBEACON_COMPLETE && missing.refusal == LATCHBEACON_MISSING;
}

/* Prints the runs of some edits, the bytes of two edits in three ways, and what is refused. */
int main(void) {
    if (print_runs(1, 7, 4) != 3 || print_runs(8, 8, 0) != 2 || print_runs(0, 17, 4) != 0) {
        return 1;
    }
    if (!print_bytes("of the bytes", of_bytes) || !print_bytes("of the packets", of_packets) || !print_bytes("of dump 2", of_dump)) {
        return 1;
    }
    return try_refused() ? 0 : 1;
}
