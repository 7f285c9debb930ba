/*
 * Holds the packets that other senders made of a bank to the bank itself. No call here is lent a buffer that it may change.
 *
 * The bank has two entries of eight bytes: a number, six letters of a name, a level. Some senders pack it, each in its own way, and all
 * of these packings carry it. Then one packing is held to a payload, a group and a stream id that differ: each answer is no, and names
 * the packet at fault. Last come packets that are no message: they get the refusal of the check, whatever they are held to.
 */
#include <stdbool.h>
#include <stdio.h>

#include "latchbeacon.h"

#define GROUP 0x3
#define ID 0x0A
#define MOST_PACKETS 16
#define COUNT(items) (sizeof(items) / sizeof *(items))

/* The bank, and a byte behind it that is not its own. */
static const uint8_t bank[] = {0x01, 'P', 'I', 'A', 'N', 'O', ' ', 0x40, 0x02, 'O', 'R', 'G', 'A', 'N', ' ', 0x41, 0xEE};
static const size_t bank_size = sizeof bank - 1;

/* The packets of a sender. */
static uint32_t words[4 * MOST_PACKETS];

/* A sender: packs the bank in packets of these sizes and puts a byte in their unused octets. Answers the length in words. */
static size_t pack(const size_t *sizes, size_t packets, uint8_t filler) {
    size_t taken = 0;
    for (size_t packet = 0; packet < packets; packet++) {
        size_t status = packets == 1 ? 0 : packet == 0 ? 1 : packet + 1 == packets ? 3 : 2;
        uint8_t octets[16] = {0x50 | GROUP, (uint8_t)(status << 4 | (sizes[packet] + 1)), ID};
        for (size_t index = 0; index < 13; index++) {
            octets[3 + index] = index < sizes[packet] ? bank[taken++] : filler;
        }
        for (size_t octet = 0; octet < 16; octet++) {
            words[4 * packet + octet / 4] = words[4 * packet + octet / 4] << 8 | octets[octet];
        }
    }
    return 4 * packets;
}

/* Asks whether the first `length` words carry a payload, and prints the answer; answers whether it is a yes. */
static bool ask(const char *title, size_t length, const uint8_t *payload, size_t size, uint8_t group, uint8_t id) {
    latchbeacon_number answer = latchbeacon_sysex8_carries(words, COUNT(words), length, payload, size, group, id);
    if (answer.refusal == LATCHBEACON_ACCEPTED) {
        printf("%s: yes\n", title);
    } else {
        printf("%s: no, refusal %u at %zu\n", title, (unsigned)answer.refusal, answer.place);
    }
    return answer.refusal == LATCHBEACON_ACCEPTED;
}

/* Packs the bank in many ways and asks for it; answers whether each was a yes. */
static bool try_packings(void) {
    static const size_t fewest[] = {13, 3}, entries[] = {8, 0, 8}, empty_ends[] = {0, 4, 12, 0};
    static const size_t single_bytes[] = {1, 1, 1, 1, 1, 1, 1, 1, 1, 1, 1, 1, 1, 1, 1, 1}, nothing[] = {0, 0};
    bool good = ask("packets of 13 and 3 bytes", pack(fewest, COUNT(fewest), 0), bank, bank_size, GROUP, ID);
    good = ask("16 packets of a byte", pack(single_bytes, COUNT(single_bytes), 0), bank, bank_size, GROUP, ID) && good;
    good = ask("empty packets at both ends", pack(empty_ends, COUNT(empty_ends), 0), bank, bank_size, GROUP, ID) && good;
    good = ask("no bytes in two packets", pack(nothing, COUNT(nothing), 0), NULL, 0, GROUP, ID) && good;
    return ask("8, 0 and 8 bytes, unused octets EE", pack(entries, COUNT(entries), 0xEE), bank, bank_size, GROUP, ID) && good;
}

/* Asks for what the packing of 8, 0 and 8 bytes does not carry; answers whether each was a no. */
static bool try_others(size_t length) {
    static const uint8_t renamed[] = {0x01, 'P', 'I', 'A', 'N', 'O', '2', 0x40, 0x02, 'O', 'R', 'G', 'A', 'N', ' ', 0x42};
    static const uint8_t louder[] = {0x01, 'P', 'I', 'A', 'N', 'O', ' ', 0x40, 0x02, 'O', 'R', 'G', 'A', 'N', ' ', 0x42};
    bool yes = ask("a name and a level differ", length, renamed, sizeof renamed, GROUP, ID);
    yes = ask("the last level differs", length, louder, sizeof louder, GROUP, ID) || yes;
    yes = ask("one byte less", length, bank, bank_size - 1, GROUP, ID) || yes;
    yes = ask("one byte more", length, bank, bank_size + 1, GROUP, ID) || yes;
    yes = ask("another group", length, louder, sizeof louder, GROUP + 1, ID) || yes;
    yes = ask("another stream id", length, louder, sizeof louder, GROUP, ID + 1) || yes;
    yes = ask("both", length, bank, bank_size, GROUP + 1, ID + 1) || yes;
    return !ask("a group above 15", length, louder, sizeof louder, 16, ID + 1) && !yes;
}

/* Asks for words that are no message, with a group above 15 too; answers whether each was a no. */
static bool try_no_messages(size_t length) {
    bool yes = ask("the end is missing", length - 4, bank, bank_size, GROUP, ID);
    yes = ask("a word is missing", length - 1, bank, bank_size, 16, ID) || yes;
    yes = ask("more words than are lent", COUNT(words) + 1, bank, bank_size, 16, ID) || yes;
    words[8] ^= 0x01000000;
    yes = ask("the third packet has another group", length, bank, bank_size, 16, ID) || yes;
    words[8] ^= 0x01000000;
    return ask("as it was", length, bank, bank_size, GROUP, ID) && !yes;
}

/* Asks for all of it. */
int main(void) {
    return try_packings() && try_others(12) && try_no_messages(12) ? 0 : 1;
}
