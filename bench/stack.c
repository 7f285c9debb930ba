/* Says how much stack the calls of a store of dumps take. Each call is made in a thread of its own, whose stack is filled with a byte
 * before; what is no longer that byte was used. */
#define _XOPEN_SOURCE 700
#include <pthread.h>
#include <stdalign.h>
#include <stdio.h>
#include <string.h>

#include "latchbeacon.h"

#define STACK (1 << 20)
#define FILL 0xA7
#define DUMPS 256
#define SIZE 53000

static alignas(4096) unsigned char stack[STACK];
static uint8_t store[1 << 17];
static size_t store_size;
static uint32_t words[16384];

enum which { CHECK, DESCRIBE, RESTORE, LOOK, MARK, COLLECT };

/* A call: its name, which it is, the number that it asks for, the words lent, or the position, and the refusal that it must give. */
struct call {
    const char *name;
    enum which which;
    size_t number;
    size_t lent;
    uint8_t refusal;
};

/* Where the frame of a call's caller is, as an offset in the stack. */
static size_t top;

/* Puts bytes behind the store. */
static void put(const uint8_t *bytes, size_t count) {
    memcpy(store + store_size, bytes, count);
    store_size += count;
}

/* Puts a record of two numbers behind the store. */
static void put_pair(uint8_t kind, size_t first, size_t second) {
    const uint8_t bytes[5] = {kind, (uint8_t)(first >> 8), (uint8_t)first, (uint8_t)(second >> 8), (uint8_t)second};
    put(bytes, sizeof bytes);
}

/* Puts a whole dump, number 0, behind the store. */
static void put_whole(void) {
    static const uint8_t data[14] = {0x8D, 1, 2, 3, 4, 5, 6, 7, 8, 9, 10, 11, 12, 13};
    put_pair(0x01, 0, 0);
    for (size_t size = 0; size + 13 <= SIZE; size += 13) {
        put(data, sizeof data);
    }
}

/* Puts deltas behind the store, from a number on, each of one edit on the number before it; that of 0 is 255. */
static void put_deltas(size_t first) {
    static const uint8_t data[3] = {0x82, 1, 2};
    for (size_t number = first; number < DUMPS; number++) {
        put_pair(0x02, number, (number + DUMPS - 1) % DUMPS);
        put_pair(0x03, number, number + 1);
        put(data, sizeof data);
    }
}

/* Makes a call, as a thread of its own. The answer is not null if the refusal is the right one. */
static void *make(void *argument) {
    const struct call *call = argument;
    unsigned char here;
    top = (size_t)(&here - stack);
    uint8_t refusal = call->which == CHECK      ? latchbeacon_store_check(store, store_size).refusal
                      : call->which == DESCRIBE ? latchbeacon_store_describe(store, store_size, call->number).refusal
                      : call->which == LOOK     ? latchbeacon_store_look_byte(store, store_size, call->number, call->lent).refusal
                      : call->which == MARK     ? latchbeacon_store_mark(store, store_size, call->number).refusal
                      : call->which == COLLECT  ? latchbeacon_store_collect(store, store_size).refusal
                                                : latchbeacon_store_restore(store, store_size, call->number, words, call->lent).refusal;
    return refusal == call->refusal ? argument : NULL;
}

/* Makes a call and prints the stack that it took; answers whether the refusal was the right one. */
static bool measure(struct call call) {
    pthread_t thread;
    pthread_attr_t attributes;
    void *answer = NULL;
    memset(stack, FILL, STACK);
    if (pthread_attr_init(&attributes) != 0 || pthread_attr_setstack(&attributes, stack, STACK) != 0 ||
        pthread_create(&thread, &attributes, make, &call) != 0 || pthread_join(thread, &answer) != 0) {
        return false;
    }
    size_t lowest = 0;
    while (stack[lowest] == FILL) {
        lowest++;
    }
    printf("| %s | %zu |\n", call.name, top - lowest);
    return answer != NULL && lowest > 0;
}

/* A chain of 255 deltas on a whole dump of 53,000 bytes, then a ring of 256 dumps. */
int main(void) {
    const size_t last = DUMPS - 1;
    printf("| call | stack, bytes |\n|---|---|\n");
    put_whole();
    put_deltas(1);
    bool good = measure((struct call){"check, 255 deltas on 53,000 bytes", CHECK, 0, 0, 0});
    good = measure((struct call){"describe, the whole dump", DESCRIBE, 0, 0, 0}) && good;
    good = measure((struct call){"describe, the last delta", DESCRIBE, last, 0, 0}) && good;
    good = measure((struct call){"restore, the whole dump", RESTORE, 0, 16384, 0}) && good;
    good = measure((struct call){"restore, the last delta", RESTORE, last, 16384, 0}) && good;
    good = measure((struct call){"look, the whole dump", LOOK, 0, SIZE / 2, 0}) && good;
    good = measure((struct call){"look, the last delta", LOOK, last, SIZE / 2, 0}) && good;
    good = measure((struct call){"mark, the last delta", MARK, last, 0, 0}) && good;
    good = measure((struct call){"collect, 255 deltas on 53,000 bytes, the last goes", COLLECT, 0, 0, 0}) && good;
    store_size = 0;
    put_deltas(0);
    good = measure((struct call){"describe, a ring of 256 dumps", DESCRIBE, 0, 0, LATCHBEACON_RING}) && good;
    good = measure((struct call){"restore, a ring of 256 dumps", RESTORE, 0, 16384, LATCHBEACON_RING}) && good;
    good = measure((struct call){"restore, the same, 1,024 words lent", RESTORE, 0, 1024, LATCHBEACON_RING}) && good;
    good = measure((struct call){"look, a ring of 256 dumps", LOOK, 0, 0, LATCHBEACON_RING}) && good;
    good = measure((struct call){"collect, a ring of 256 dumps", COLLECT, 0, 0, 0}) && good;
    return good ? 0 : 1;
}
