/*
 * Checks a bank in SysEx8 packets, patches it and prints it.
 *
 * The bank has three entries of eight bytes: a number, six letters of a name, a level. Its sender cut the packets short: they have
 * 10, 0, 13 and 1 bytes. The program renames the second entry by a splice. Then it takes the first entry out and puts a longer one
 * in the place of the third, at once, and before that says where some octets of the result come from. Last it shows that a splice
 * that does not fit is refused, and that the bank stays as it was.
 */
#include <inttypes.h>
#include <stdbool.h>
#include <stdio.h>

#include "latchbeacon.h"

#define LENT 20
#define BYTES 64

/* The bank in 16 words, and room for one more packet; the words past the bank are not its own. */
static uint32_t bank[LENT] = {
    0x531B0A01, 0x5049414E, 0x4F204002, 0x4F000000, 0x53210A00, 0x00000000, 0x00000000, 0x00000000, 0x532E0A52, 0x47414E20,
    0x41035354, 0x52494E47, 0x53320A42, 0x00000000, 0x00000000, 0x00000000, 0xFFFFFFFF, 0xFFFFFFFF, 0xFFFFFFFF, 0xFFFFFFFF,
};

/* Prints why a call was refused. */
static void print_refusal(const char *call, uint8_t refusal, size_t place) {
    printf("%s: refusal %u at %zu\n", call, (unsigned)refusal, place);
}

/* Prints the words of a message, four to a line. */
static void print_words(const uint32_t *words, size_t length) {
    for (size_t index = 0; index < length; index++) {
        printf("%08" PRIX32 "%c", words[index], index % 4 == 3 ? '\n' : ' ');
    }
}

/* Prints the payload of the message, eight bytes to a line, with the reader. */
static bool print_payload(const uint32_t *words, size_t length) {
    latchbeacon_cursor cursor = latchbeacon_sysex8_open(words, length, length);
    if (cursor.refusal != LATCHBEACON_ACCEPTED) {
        print_refusal("open", cursor.refusal, cursor.place);
        return false;
    }
    size_t packet = cursor.packet, byte = cursor.byte, remaining = cursor.remaining;
    for (size_t index = 0;; index++) {
        latchbeacon_read read = latchbeacon_sysex8_next(words, length, packet, byte, remaining);
        if (read.ended) {
            printf("\n");
            return true;
        }
        printf("%s%02X", index == 0 ? "" : index % 8 == 0 ? "\n" : " ", (unsigned)read.value);
        packet = read.packet;
        byte = read.byte;
        remaining = read.remaining;
    }
}

/* Checks the bank and prints what the check answers, its words and its payload. */
static bool print_bank(const char *title, size_t length) {
    latchbeacon_message message = latchbeacon_sysex8_check(bank, LENT, length);
    if (message.refusal != LATCHBEACON_ACCEPTED) {
        print_refusal("check", message.refusal, message.place);
        return false;
    }
    printf("%s: group %u, stream id %02X, %zu bytes in %zu words\n", title, (unsigned)message.group, (unsigned)message.id,
           message.size, message.words);
    print_words(bank, message.words);
    return print_payload(bank, message.words);
}

/* Prints what a change did and answers the new length; 0 if it was refused. */
static size_t print_change(const char *call, latchbeacon_change change) {
    if (change.refusal != LATCHBEACON_ACCEPTED) {
        print_refusal(call, change.refusal, change.place);
        return 0;
    }
    printf("%s: growth %+" PRId64 ", %zu words\n", call, change.growth, change.length);
    return change.length;
}

/* Renames the second entry to "FLUTE ". */
static size_t rename_second(size_t length) {
    static const uint8_t name[] = {'F', 'L', 'U', 'T', 'E', ' '};
    return print_change("splice", latchbeacon_sysex8_splice(bank, LENT, length, 9, 15, name, sizeof name));
}

/* Prints where some octets come from once these edits are done; answers whether none was refused. */
static bool print_origins(size_t length, const size_t *edits, size_t numbers, const uint8_t *bytes, size_t count) {
    static const char *const kinds[] = {"header", "dump", "edit", "filler", "zeroed", "untouched"};
    static const size_t octets[] = {1, 3, 11, 16, 19, 25, 32};
    for (size_t index = 0; index < sizeof octets / sizeof *octets; index++) {
        latchbeacon_origin origin = latchbeacon_sysex8_origin(bank, LENT, length, edits, numbers, bytes, count, octets[index]);
        if (origin.refusal != LATCHBEACON_ACCEPTED) {
            print_refusal("origin", origin.refusal, origin.place);
            return false;
        }
        printf("octet %zu: %s %zu %zu\n", octets[index], kinds[origin.kind], origin.number, origin.index);
    }
    return true;
}

/* Takes the first entry out and replaces the third by one of eleven bytes, after a look at where octets will come from. */
static size_t replace_others(size_t length) {
    static const size_t edits[] = {0, 8, 0, 16, 24, 11};
    static const uint8_t bytes[] = {0x04, 'W', 'I', 'D', 'E', ' ', 'P', 'A', 'D', ' ', 0x43};
    size_t numbers = sizeof edits / sizeof *edits;
    if (!print_origins(length, edits, numbers, bytes, sizeof bytes)) {
        return 0;
    }
    return print_change("splice_all", latchbeacon_sysex8_splice_all(bank, LENT, length, edits, numbers, bytes, sizeof bytes));
}

/* Puts more bytes in than the words lent can hold; answers whether that was refused. */
static bool overfill(size_t length) {
    static const uint8_t bytes[BYTES] = {0};
    latchbeacon_change change = latchbeacon_sysex8_splice(bank, LENT, length, 0, 0, bytes, sizeof bytes);
    if (change.refusal == LATCHBEACON_ROOM) {
        printf("%d bytes more do not fit in %d words: ", BYTES, LENT);
        print_refusal("splice", change.refusal, change.place);
    }
    return change.refusal == LATCHBEACON_ROOM;
}

/* Prints the bank, patches it, prints it, tries what is refused, prints it again. */
int main(void) {
    size_t length = 16;
    if (!print_bank("bank", length)) {
        return 1;
    }
    length = rename_second(length);
    if (length == 0 || !print_bank("renamed", length)) {
        return 1;
    }
    length = replace_others(length);
    if (length == 0 || !print_bank("replaced", length)) {
        return 1;
    }
    if (!overfill(length) || !print_bank("still", length)) {
        return 1;
    }
    latchbeacon_message cut = latchbeacon_sysex8_check(bank, LENT, 4);
    print_refusal("check of the first packet alone", cut.refusal, cut.place);
    return cut.refusal == LATCHBEACON_COMPLETE ? 0 : 1;
}
