/*
 * Receives the packets of several messages that come interleaved on two ports, and prints each message when its end has come.
 *
 * Both ports use stream id 7 of group 2: the port tells their streams apart. Port 0 has stream id 8 too, which its sender gives up,
 * and a complete packet comes in between. Then a sender starts a stream over, and ends it sooner than it meant to. Some packets are
 * refused, and the streams stay as they were. Last, port 0 opens as many streams as it may, and port 1 the others.
 */
#include <stdbool.h>
#include <stdio.h>
#include <string.h>

#include "latchbeacon.h"

#define GROUP 0x2
#define PART 8 /* the words of a stream: room for two packets before its end */
#define ENOUGH (PART + 4)

enum status { COMPLETE, START, CONTINUE, END };

static uint32_t table[LATCHBEACON_PORTS_TABLE];
static uint32_t words[16 * PART];
static uint32_t output[ENOUGH];

/* Prints the message in the first words of the output: its words, and its payload as text. */
static void print_message(size_t length) {
    char text[13 * ENOUGH / 4 + 1] = {0};
    latchbeacon_number size = latchbeacon_sysex8_payload(output, ENOUGH, length, (uint8_t *)text, sizeof text - 1);
    if (size.refusal == LATCHBEACON_ACCEPTED) {
        printf("a message of %zu words, \"%s\"\n", length, text);
    } else {
        printf("no message, refusal %u at %zu\n", (unsigned)size.refusal, size.place);
    }
}

/* Receives a packet with so many words of output and prints what it did; answers the refusal. */
static uint8_t receive(const char *title, uint8_t port, const uint32_t *packet, size_t lent) {
    latchbeacon_received answer = latchbeacon_ports_receive(table, words, 16 * PART, port, packet, 4, output, lent);
    printf("port %u, %s: ", (unsigned)port, title);
    if (answer.refusal != LATCHBEACON_ACCEPTED) {
        printf("refusal %u at %zu\n", (unsigned)answer.refusal, answer.place);
    } else if (answer.kind == LATCHBEACON_RECEIVED_MESSAGE) {
        print_message(answer.words);
    } else {
        printf(answer.kind == LATCHBEACON_RECEIVED_KEPT ? "kept\n" : "its stream is dropped\n");
    }
    return answer.refusal;
}

/* Puts a packet of up to 13 letters on a port; answers whether the refusal is this one. */
static bool put(uint8_t port, uint8_t id, enum status status, const char *letters, size_t lent, uint8_t refusal) {
    static const char *const names[] = {"complete", "start", "continue", "end"};
    char title[40];
    size_t size = strlen(letters);
    uint32_t packet[4] = {0x50000000 | GROUP << 24 | (uint32_t)status << 20 | (uint32_t)(size + 1) << 16 | (uint32_t)id << 8};
    for (size_t index = 0; index < size; index++) {
        packet[(index + 3) / 4] |= (uint32_t)(uint8_t)letters[index] << (24 - 8 * ((index + 3) % 4));
    }
    snprintf(title, sizeof title, "%s of %u, \"%s\"", names[status], (unsigned)id, letters);
    return receive(title, port, packet, lent) == refusal;
}

/* Two streams of port 0 and one of port 1, a packet of each in turn. */
static bool interleave(void) {
    const uint32_t give_up[4] = {0x503F0800 | GROUP << 24, 0, 0, 0};
    bool good = put(0, 7, START, "PI", 0, 0) && put(1, 7, START, "OR", 0, 0) && put(0, 8, START, "BA", 0, 0);
    good = good && put(0, 7, CONTINUE, "AN", 0, 0) && put(0, 9, COMPLETE, "HELLO", 4, 0) && put(1, 7, END, "GAN", ENOUGH, 0);
    good = good && receive("end of 8, earlier data invalid", 0, give_up, 0) == 0;
    return good && put(0, 7, END, "O", ENOUGH, 0);
}

/* A stream that is started over, and an unexpected end with valid earlier data: an end packet without bytes. */
static bool start_over(void) {
    return put(1, 7, START, "DRAMS", 0, 0) && put(1, 7, START, "DRUMS", 0, 0) && put(1, 7, END, "", ENOUGH, 0);
}

/* Packets that are refused. The stream that they are about stays open, until a complete packet of its own closes it. */
static bool try_refused(void) {
    bool good = put(0, 7, CONTINUE, "A", 0, LATCHBEACON_CLOSED) && put(0, 7, START, "A", 0, 0) && put(0, 7, CONTINUE, "B", 0, 0);
    good = good && put(0, 7, CONTINUE, "C", 0, LATCHBEACON_ROOM) && put(2, 7, END, "C", ENOUGH, LATCHBEACON_PORT);
    good = good && put(0, 7, COMPLETE, "D", 3, LATCHBEACON_ROOM) && put(0, 7, END, "C", ENOUGH - 1, LATCHBEACON_ROOM);
    good = good && put(0, 7, COMPLETE, "D", 4, 0);
    return good && put(0, 7, END, "C", ENOUGH, LATCHBEACON_CLOSED);
}

/* Twelve streams of port 0 and four of port 1: one more is refused, one that is open can start over. Then the table is emptied. */
static bool fill(void) {
    const uint32_t start[4] = {0x50110000 | GROUP << 24, 0, 0, 0};
    bool good = true;
    for (uint32_t id = 0; id < 16; id++) {
        uint32_t packet[4] = {start[0] | id << 8, 0, 0, 0};
        uint8_t port = id < 12 ? 0 : 1;
        good = latchbeacon_ports_receive(table, words, 16 * PART, port, packet, 4, NULL, 0).refusal == LATCHBEACON_ACCEPTED && good;
    }
    good = good && put(0, 30, START, "A", 0, LATCHBEACON_SHARE) && put(1, 30, START, "A", 0, LATCHBEACON_FULL);
    good = good && put(0, 5, START, "A", 0, 0) && put(0, 5, END, "B", ENOUGH, 0) && put(1, 30, START, "A", 0, 0);
    latchbeacon_ports_clear(table);
    return good && put(1, 15, END, "B", ENOUGH, LATCHBEACON_CLOSED) && put(1, 30, END, "B", ENOUGH, LATCHBEACON_CLOSED);
}

/* All of it. */
int main(void) {
    latchbeacon_ports_clear(table);
    return interleave() && start_over() && try_refused() && fill() ? 0 : 1;
}
