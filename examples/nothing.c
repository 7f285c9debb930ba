/*
 * Calls the library with buffers of no items, each lent as NULL, and prints what it answers. Then buffers of one call share their
 * bytes, all only read.
 */
#include <stdbool.h>
#include <stdio.h>

#include "latchbeacon.h"

/* Prints the refusal, the place and a value of an answer. */
static void print_answer(const char *call, uint8_t refusal, size_t place, size_t value) {
    printf("%-20s refusal %2u at %zu, value %zu\n", call, (unsigned)refusal, place, value);
}

/* Prints an answer that has a value of its own. */
static void print_number(const char *call, latchbeacon_number answer) {
    print_answer(call, answer.refusal, answer.place, answer.value);
}

/* Prints what a packet did that was received: its kind is the value. */
static void print_received(const char *call, latchbeacon_received answer) {
    print_answer(call, answer.refusal, answer.place, answer.kind);
}

/* Single packets and messages: Short, as there are no words. */
static void call_on_no_words(void) {
    latchbeacon_packet packet8 = latchbeacon_sysex8_packet(NULL, 0);
    latchbeacon_packet packet7 = latchbeacon_sysex7_packet(NULL, 0);
    latchbeacon_message check8 = latchbeacon_sysex8_check(NULL, 0, 0);
    latchbeacon_message check7 = latchbeacon_sysex7_check(NULL, 0, 0);
    latchbeacon_change splice = latchbeacon_sysex8_splice(NULL, 0, 0, 0, 0, NULL, 0);
    latchbeacon_change set_payload = latchbeacon_sysex8_set_payload(NULL, 0, 0, NULL, 0);
    latchbeacon_change splice_all = latchbeacon_sysex8_splice_all(NULL, 0, 0, NULL, 0, NULL, 0);
    latchbeacon_origin origin = latchbeacon_sysex8_origin(NULL, 0, 0, NULL, 0, NULL, 0, 0);
    latchbeacon_cursor open = latchbeacon_sysex8_open(NULL, 0, 0);
    print_answer("sysex8 packet", packet8.refusal, packet8.place, packet8.size);
    print_number("sysex8 packet byte", latchbeacon_sysex8_packet_byte(NULL, 0, 0));
    print_number("sysex8 packet group", latchbeacon_sysex8_packet_set_group(NULL, 0, 0));
    print_answer("sysex7 packet", packet7.refusal, packet7.place, packet7.size);
    print_number("sysex7 packet byte", latchbeacon_sysex7_packet_byte(NULL, 0, 0));
    print_number("sysex7 packet group", latchbeacon_sysex7_packet_set_group(NULL, 0, 0));
    print_answer("sysex8 check", check8.refusal, check8.place, check8.size);
    print_answer("sysex7 check", check7.refusal, check7.place, check7.size);
    print_number("byte", latchbeacon_sysex8_byte(NULL, 0, 0, 0));
    print_number("look byte", latchbeacon_sysex8_look_byte(NULL, 0, 0, NULL, 0, NULL, 0, 0));
    print_number("payload", latchbeacon_sysex8_payload(NULL, 0, 0, NULL, 0));
    print_number("carries", latchbeacon_sysex8_carries(NULL, 0, 0, NULL, 0, 0, 0));
    print_number("set group", latchbeacon_sysex8_set_group(NULL, 0, 0, 0));
    print_number("set stream id", latchbeacon_sysex8_set_stream_id(NULL, 0, 0, 0));
    print_number("set byte", latchbeacon_sysex8_set_byte(NULL, 0, 0, 0, 0));
    print_number("repack", latchbeacon_sysex8_repack(NULL, 0, 0));
    print_answer("splice", splice.refusal, splice.place, splice.length);
    print_answer("set payload", set_payload.refusal, set_payload.place, set_payload.length);
    print_answer("splice all", splice_all.refusal, splice_all.place, splice_all.length);
    print_answer("origin", origin.refusal, origin.place, origin.index);
    print_answer("open", open.refusal, open.place, open.remaining);
}

/* A message is there, and what else is lent has no items. */
static void call_on_no_bytes(void) {
    uint32_t words[4] = {0x52030741, 0x42000000, 0, 0};
    latchbeacon_change splice_all = latchbeacon_sysex8_splice_all(words, 4, 4, NULL, 0, NULL, 0);
    latchbeacon_origin origin = latchbeacon_sysex8_origin(words, 4, 4, NULL, 0, NULL, 0, 4);
    latchbeacon_number look = latchbeacon_sysex8_look_byte(words, 4, 4, NULL, 0, NULL, 0, 1);
    latchbeacon_change splice = latchbeacon_sysex8_splice(words, 4, 4, 0, 1, NULL, 0);
    print_number("payload", latchbeacon_sysex8_payload(words, 4, 4, NULL, 0));
    print_number("carries", latchbeacon_sysex8_carries(words, 4, 4, NULL, 0, 2, 7));
    print_number("look byte", look);
    print_answer("splice all", splice_all.refusal, splice_all.place, splice_all.length);
    print_answer("origin", origin.refusal, origin.place, origin.index);
    print_answer("splice", splice.refusal, splice.place, splice.length);
    latchbeacon_change set_payload = latchbeacon_sysex8_set_payload(words, 4, 4, NULL, 0);
    print_answer("set payload", set_payload.refusal, set_payload.place, set_payload.length);
    print_number("payload", latchbeacon_sysex8_payload(words, 4, 4, NULL, 0));
    print_number("carries", latchbeacon_sysex8_carries(words, 4, 4, NULL, 0, 2, 7));
}

/* A payload, a list of edits, replacement bytes: each of them, and all, without items. */
static void look_at_nothing(void) {
    const uint8_t bytes[2] = {7, 8};
    const size_t put_in[3] = {0, 0, 2}, take_out[3] = {0, 1, 0};
    latchbeacon_run run = latchbeacon_look_run(0, 0, 0, 0, 0);
    print_answer("look run", run.refusal, run.place, run.end);
    print_number("look byte of nothing", latchbeacon_look_byte(NULL, 0, NULL, 0, NULL, 0, 0));
    print_number("no payload", latchbeacon_look_byte(NULL, 0, put_in, 3, bytes, 2, 1));
    print_number("no replacement", latchbeacon_look_byte(bytes, 2, take_out, 3, NULL, 0, 0));
    print_number("no edits", latchbeacon_look_byte(bytes, 2, NULL, 0, NULL, 0, 1));
}

/* A reader of no words is at its end; a stream of no bytes has no frame, and one of no data takes two words; a store of no bytes is good. */
static void call_on_no_stream(void) {
    const uint8_t frame[2] = {0xF0, 0xF7};
    uint32_t words[4] = {9, 9, 9, 9};
    latchbeacon_read next = latchbeacon_sysex8_next(NULL, 0, 0, 0, 1);
    latchbeacon_read nth = latchbeacon_sysex8_nth(NULL, 0, 0, 0, 1, 0);
    latchbeacon_dump dump = latchbeacon_store_describe(NULL, 0, 0);
    printf("next ended %d, nth ended %d, remaining %zu\n", next.ended, nth.ended, latchbeacon_sysex8_remaining(NULL, 0, 0, 0, 1));
    print_number("bytes to sysex7", latchbeacon_bytes_to_sysex7(NULL, 0, 0, NULL, 0));
    print_number("bytes to sysex7", latchbeacon_bytes_to_sysex7(frame, 2, 0, NULL, 0));
    print_number("store check", latchbeacon_store_check(NULL, 0));
    print_answer("store describe", dump.refusal, dump.place, dump.size);
    print_number("store restore", latchbeacon_store_restore(NULL, 0, 0, NULL, 0));
    print_number("store look byte", latchbeacon_store_look_byte(NULL, 0, 0, 0));
    print_number("store mark", latchbeacon_store_mark(NULL, 0, 0));
    print_number("store collect", latchbeacon_store_collect(NULL, 0));
    print_number("store restore", latchbeacon_store_restore(NULL, 0, 0, words, 4));
    printf("words %u %u %u %u\n", (unsigned)words[0], (unsigned)words[1], (unsigned)words[2], (unsigned)words[3]);
}

/* Packets received without a packet, a buffer or an output. A table is always there. */
static void receive_nothing(void) {
    const uint32_t complete[4] = {0x52030741, 0x42000000, 0, 0}, start[4] = {0x52130741, 0x42000000, 0, 0};
    const uint32_t end[4] = {0x52310700, 0, 0, 0};
    uint32_t table[LATCHBEACON_PORTS_TABLE], words[64] = {0}, output[4] = {9, 9, 9, 9};
    latchbeacon_ports_clear(table);
    print_received("no packet", latchbeacon_ports_receive(table, words, 64, 0, NULL, 0, output, 4));
    print_received("nothing at all", latchbeacon_ports_receive(table, NULL, 0, 0, NULL, 0, NULL, 0));
    print_received("start, no buffer", latchbeacon_ports_receive(table, NULL, 0, 0, start, 4, NULL, 0));
    print_received("start, no output", latchbeacon_ports_receive(table, words, 64, 0, start, 4, NULL, 0));
    print_received("end, no output", latchbeacon_ports_receive(table, words, 64, 0, end, 4, NULL, 0));
    print_received("complete, no output", latchbeacon_ports_receive(table, words, 64, 0, complete, 4, NULL, 0));
    print_received("complete, no buffer", latchbeacon_ports_receive(table, NULL, 0, 1, complete, 4, output, 4));
    printf("words %08X %08X %u %u\n", (unsigned)output[0], (unsigned)output[1], (unsigned)output[2], (unsigned)output[3]);
}

/* The numbers of an edit are its replacement too: 0, 1 and 8 put eight bytes, those of the first number, in the place of one. When it
 * is looked at they are the payload as well: the lowest byte of its second number then stands at 15. A message of one byte is its own
 * payload: that byte is the lowest of its first word. */
static void share_a_buffer(void) {
    const size_t numbers[3] = {0, 1, 8};
    const uint32_t own[4] = {0x52020741, 0, 0, 0};
    uint32_t words[4] = {0x52030741, 0x42000000, 0, 0};
    latchbeacon_change change = latchbeacon_sysex8_splice_all(words, 4, 4, numbers, 3, (const uint8_t *)numbers, 8);
    const uint8_t *bytes = (const uint8_t *)numbers;
    print_number("look byte, shared", latchbeacon_look_byte(bytes, sizeof numbers, numbers, 3, bytes, 8, 15));
    print_number("carries, shared", latchbeacon_sysex8_carries(own, 4, 4, (const uint8_t *)own, 1, 2, 7));
    print_answer("splice all, shared", change.refusal, change.place, change.length);
    printf("words %08X %08X %08X %08X\n", (unsigned)words[0], (unsigned)words[1], (unsigned)words[2], (unsigned)words[3]);
}

/* Prints what is above. */
int main(void) {
    printf("latchbeacon %s: at most %d words, %d bytes\n", LATCHBEACON_VERSION, LATCHBEACON_MOST_WORDS, LATCHBEACON_MOST_BYTES);
    call_on_no_words();
    call_on_no_bytes();
    look_at_nothing();
    call_on_no_stream();
    receive_nothing();
    share_a_buffer();
    return latchbeacon_store_check(NULL, 0).refusal == LATCHBEACON_ACCEPTED ? 0 : 1;
}
