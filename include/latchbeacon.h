/*
 * latchbeacon: MIDI 2.0 SysEx8 bulk dumps: receive, check, read, compare with a payload, set, pack and splice, look at bytes of a
 * result that is not written, and restore from a store, in buffers that the caller lends.
 *
 * Every call answers for any words, bytes and numbers. It takes no memory but stack, keeps nothing and never stops the program.
 *
 * Buffers. A buffer is a pointer and the number of its items, which are there for the length of the call. For no items the pointer may
 * be anything, NULL too. No word or byte past the number given is read or changed.
 * A `const` buffer is only read: it may overlap other `const` buffers of the call, and any number of calls, on any threads, may read
 * it at the same time. A buffer that a call may change overlaps no other buffer of that call, and no other call has it meanwhile.
 *
 * Words. A message is the first `length` of `words_lent` words. At most LATCHBEACON_MOST_WORDS words are taken, which is 4,096 packets
 * of SysEx8 with LATCHBEACON_MOST_BYTES payload bytes. A word is a number of the machine: octet 0 is its most significant.
 *
 * Answers. `refusal` is LATCHBEACON_ACCEPTED, 0, if the call is accepted, else one of the numbers below; then `place` says where, every
 * value in the answer is 0 and every lent buffer holds what it held before. An accepted answer has place 0.
 *
 * "The check's refusals" are 1 to 12 (SysEx7: 1 to 11) in this order, each over all packets before the next, except that 6 to 9 are
 * one walk.
 */
#ifndef LATCHBEACON_H
#define LATCHBEACON_H

#include <stdbool.h>
#include <stddef.h>
#include <stdint.h>

/* The version of this header and of the library that it belongs to. */
#define LATCHBEACON_VERSION "0.2.0"
#define LATCHBEACON_VERSION_MAJOR 0
#define LATCHBEACON_VERSION_MINOR 2
#define LATCHBEACON_VERSION_PATCH 0

/* The most words that a message may be lent in, and the most payload bytes that a SysEx8 message has in so many: more never fit. */
#define LATCHBEACON_MOST_WORDS 16384
#define LATCHBEACON_MOST_BYTES 53248

/* The library is compiled for Linux, on x86-64 and on Arm (aarch64), where a size_t has 64 bits. */
#if !(defined(__x86_64__) || defined(__aarch64__)) || defined(_WIN32)
#error "latchbeacon is compiled for Linux on x86-64, and on Arm (aarch64)"
#endif
#ifdef __cplusplus
static_assert(sizeof(size_t) == 8, "latchbeacon takes a size_t of 64 bits");
#else
_Static_assert(sizeof(size_t) == 8, "latchbeacon takes a size_t of 64 bits");
#endif

#ifdef __cplusplus
extern "C" {
#endif

/* 0 for a call that is accepted; else why it refuses. The place is the word index of the first packet at fault for 5 to 12 and 26 (0
 * where only the sizes differ), the index of the first such byte for 18, else 0. No refusal has the number 19, and none will: it was
 * taken out, as no input was ever given it. 27 and 28 are not in use yet. */
enum latchbeacon_refusal {
    LATCHBEACON_ACCEPTED = 0,  /* the call is accepted */
    LATCHBEACON_LONG = 1,      /* more than LATCHBEACON_MOST_WORDS words lent */
    LATCHBEACON_LENGTH = 2,    /* message length above the words lent */
    LATCHBEACON_SHORT = 3,     /* under 4 words (SysEx7: 2) */
    LATCHBEACON_RAGGED = 4,    /* not whole packets */
    LATCHBEACON_TYPE = 5,      /* a packet of another type */
    LATCHBEACON_COMPLETE = 6,  /* one packet, status not 0 */
    LATCHBEACON_BEGIN = 7,     /* several packets, first not 1 */
    LATCHBEACON_CONTINUE = 8,  /* an inner packet not 2 */
    LATCHBEACON_END = 9,       /* last of several not 3 */
    LATCHBEACON_COUNT = 10,    /* SysEx8 0 or 15, SysEx7 over 6 */
    LATCHBEACON_GROUP = 11,    /* differs from the first packet */
    LATCHBEACON_STREAM = 12,   /* SysEx8 id differs from the first */
    LATCHBEACON_RANGE = 13,    /* from above to, or to above the payload size; byte index not below it; a number within an edit above
                                  LATCHBEACON_MOST_BYTES; octet index not below 4 times the words lent; position not below the size
                                  of the result */
    LATCHBEACON_ROOM = 14,     /* words needed exceed words lent for output (payload out: bytes; store: also of a dump on the way;
                                  ports: or the part of a stream) */
    LATCHBEACON_STATUS = 15,   /* single packet, status over 3 */
    LATCHBEACON_FIELD = 16,    /* field index, or value for a field, too big */
    LATCHBEACON_FRAME = 17,    /* stream under 2 bytes, first not F0 or last not F7 */
    LATCHBEACON_BYTE = 18,     /* a byte of 80 to F7 hex between them */
    LATCHBEACON_OVERLAP = 20,  /* edits not in the stated order */
    LATCHBEACON_FORMAT = 21,   /* store: unknown kind, short body, misplaced record, group above 15, or an edit's from below the to of
                                  the edit before it */
    LATCHBEACON_TWICE = 22,    /* store: a number used again */
    LATCHBEACON_FULL = 23,     /* store: a 257th dump; ports: a new stream, 16 open */
    LATCHBEACON_MISSING = 24,  /* following bases from a dump comes to a number not held; or it is not held itself */
    LATCHBEACON_RING = 25,     /* following bases from a dump comes back to a number already passed */
    LATCHBEACON_OTHER = 26,    /* the message has another group, stream id or payload than the one named */
    LATCHBEACON_PORT = 29,     /* ports: a port other than 0 and 1 */
    LATCHBEACON_CLOSED = 30,   /* ports: continue or end, and no start before it */
    LATCHBEACON_SHARE = 31     /* ports: a new stream, 12 of its port open */
};

/* What a packet is. An unexpected end is SysEx8's alone. */
enum latchbeacon_kind {
    LATCHBEACON_KIND_COMPLETE = 0,
    LATCHBEACON_KIND_START = 1,
    LATCHBEACON_KIND_CONTINUE = 2,
    LATCHBEACON_KIND_END = 3,
    LATCHBEACON_KIND_UNEXPECTED_END_VALID = 4,   /* unexpected end, earlier data valid */
    LATCHBEACON_KIND_UNEXPECTED_END_INVALID = 5  /* unexpected end, earlier data invalid */
};

/* Where an octet of the words lent comes from once all edits of a list are done. */
enum latchbeacon_origin_kind {
    LATCHBEACON_ORIGIN_HEADER = 0,    /* the header of a packet of the new message */
    LATCHBEACON_ORIGIN_DUMP = 1,      /* a byte of the old payload */
    LATCHBEACON_ORIGIN_EDIT = 2,      /* a byte of an edit's replacement */
    LATCHBEACON_ORIGIN_FILLER = 3,    /* an unused octet of the last packet; it is zero */
    LATCHBEACON_ORIGIN_ZEROED = 4,    /* behind the new message, where the old one stood; it is zero */
    LATCHBEACON_ORIGIN_UNTOUCHED = 5  /* behind both; it is what it was */
};

/* Where the bytes of a run stand. */
enum latchbeacon_run_source {
    LATCHBEACON_RUN_BEFORE = 0,  /* in the payload, before the edit */
    LATCHBEACON_RUN_WITHIN = 1,  /* in the replacement */
    LATCHBEACON_RUN_BEHIND = 2   /* in the payload, behind the edit */
};

/* A number: a byte, a field, a word with a field set, a size in bytes, a length in words, that of a store in bytes; 0 where a call
 * only stores, or only says yes. */
typedef struct {
    uint8_t refusal;
    size_t place;
    size_t value;
} latchbeacon_number;

/* A packet: its kind (enum latchbeacon_kind), group, stream id (0 for SysEx7) and payload size. */
typedef struct {
    uint8_t refusal;
    size_t place;
    uint8_t kind;
    uint8_t group;
    uint8_t id;
    size_t size;
} latchbeacon_packet;

/* A message: its group, stream id (0 for SysEx7), payload size in bytes and length in words. */
typedef struct {
    uint8_t refusal;
    size_t place;
    uint8_t group;
    uint8_t id;
    size_t size;
    size_t words;
} latchbeacon_message;

/* What a splice did: the new length in words; and the growth, replacement length minus range length, which may be below zero. */
typedef struct {
    uint8_t refusal;
    size_t place;
    size_t length;
    int64_t growth;
} latchbeacon_change;

/* The growth of an edit. */
typedef struct {
    uint8_t refusal;
    size_t place;
    int64_t growth;
} latchbeacon_edit_growth;

/* The new range of an edit. */
typedef struct {
    uint8_t refusal;
    size_t place;
    size_t from;
    size_t to;
} latchbeacon_range;

/* The origin of an octet: its kind (enum latchbeacon_origin_kind) and two numbers. Of a header: `number` is the packet, `index` the
 * octet of its header (0: type and group, 1: status and count, 2: stream id). Of the dump: `number` is 0, `index` the byte of the old
 * payload. Of an edit: `number` is the edit, `index` the byte of its replacement. Else both are 0. */
typedef struct {
    uint8_t refusal;
    size_t place;
    uint8_t kind;
    size_t number;
    size_t index;
} latchbeacon_origin;

/* A run of bytes: its source (enum latchbeacon_run_source), and its bytes start..end there. Of an accepted call start is below end. */
typedef struct {
    uint8_t refusal;
    size_t place;
    uint8_t source;
    size_t start;
    size_t end;
} latchbeacon_run;

/* A dump of a store: whether it is a delta; the group and stream id of the whole dump that it rests on, or is; the number of its
 * base (0 for a whole dump); its payload size in bytes; the words to lend for restoring it; and how many bases are followed to the
 * whole dump (0 for a whole dump). */
typedef struct {
    uint8_t refusal;
    size_t place;
    bool delta;
    uint8_t group;
    uint8_t id;
    size_t base;
    size_t size;
    size_t words;
    size_t steps;
} latchbeacon_dump;

/* Where a reader of a payload stands: packet, byte within it, and how many bytes are to be read. */
typedef struct {
    uint8_t refusal;
    size_t place;
    size_t packet;
    size_t byte;
    size_t remaining;
} latchbeacon_cursor;

/* What a reader read: whether the payload has ended, the byte (0 at the end), and where the reader stands then. */
typedef struct {
    bool ended;
    uint8_t value;
    size_t packet;
    size_t byte;
    size_t remaining;
} latchbeacon_read;

/* ---- fields of a word; index 0 is the most significant -------------------------------------------------------------------- */

/* Answer the field. Refusal: 16 (index: bit 32, crumb 16, nibble 8, septet and octet 4, word 2 and above). A septet is the low seven
 * bits of an octet, a word is 16 bits. */
latchbeacon_number latchbeacon_bit(uint32_t word, size_t index);
latchbeacon_number latchbeacon_crumb(uint32_t word, size_t index);
latchbeacon_number latchbeacon_nibble(uint32_t word, size_t index);
latchbeacon_number latchbeacon_septet(uint32_t word, size_t index);
latchbeacon_number latchbeacon_octet(uint32_t word, size_t index);
latchbeacon_number latchbeacon_word(uint32_t word, size_t index);

/* Answer the word with the field set, all its other bits kept (a septet's octet keeps its top bit). Refusal: 16 (index as above, or
 * a value that the field cannot hold). */
latchbeacon_number latchbeacon_set_bit(uint32_t word, size_t index, bool value);
latchbeacon_number latchbeacon_set_crumb(uint32_t word, size_t index, uint8_t value);
latchbeacon_number latchbeacon_set_nibble(uint32_t word, size_t index, uint8_t value);
latchbeacon_number latchbeacon_set_septet(uint32_t word, size_t index, uint8_t value);
latchbeacon_number latchbeacon_set_octet(uint32_t word, size_t index, uint8_t value);
latchbeacon_number latchbeacon_set_word(uint32_t word, size_t index, uint16_t value);

/* ---- single packets: the first 4 words (SysEx7: 2), of any number lent ------------------------------------------------------ */

/* Answers kind, group, stream id and payload size of the packet. Refusals, in this order: 3, 5, 15, 10. */
latchbeacon_packet latchbeacon_sysex8_packet(const uint32_t *words, size_t words_lent);

/* Answers a payload byte of the packet. Refusals: those of latchbeacon_sysex8_packet, then 13 (index not below the payload size). */
latchbeacon_number latchbeacon_sysex8_packet_byte(const uint32_t *words, size_t words_lent, size_t index);

/* Sets the group of the packet (0 to 15); every other bit lent stays. Refusals: those of latchbeacon_sysex8_packet, then 16. */
latchbeacon_number latchbeacon_sysex8_packet_set_group(uint32_t *words, size_t words_lent, uint8_t group);

/* Answers kind, group and payload size of the packet; the id is 0. Refusals, in this order: 3, 5, 10, 15. */
latchbeacon_packet latchbeacon_sysex7_packet(const uint32_t *words, size_t words_lent);

/* Answers a payload byte of the packet, its low seven bits. Refusals: those of latchbeacon_sysex7_packet, then 13. */
latchbeacon_number latchbeacon_sysex7_packet_byte(const uint32_t *words, size_t words_lent, size_t index);

/* Sets the group of the packet (0 to 15); every other bit lent stays. Refusals: those of latchbeacon_sysex7_packet, then 16. */
latchbeacon_number latchbeacon_sysex7_packet_set_group(uint32_t *words, size_t words_lent, uint8_t group);

/* ---- messages --------------------------------------------------------------------------------------------------------------- */

/* Checks the SysEx8 message in the first `length` words; answers group, stream id, payload size and words. Refusals: 1 to 12. */
latchbeacon_message latchbeacon_sysex8_check(const uint32_t *words, size_t words_lent, size_t length);

/* Checks the SysEx7 message in the first `length` words; the id is 0. Refusals: 1 to 11. */
latchbeacon_message latchbeacon_sysex7_check(const uint32_t *words, size_t words_lent, size_t length);

/* Answers payload byte `index` of the message. Refusals: the check's, then 13. */
latchbeacon_number latchbeacon_sysex8_byte(const uint32_t *words, size_t words_lent, size_t length, size_t index);

/* Copies the payload to `bytes` and answers its size; bytes past it stay. Refusals: the check's, then 14 (fewer than that lent). */
latchbeacon_number latchbeacon_sysex8_payload(const uint32_t *words, size_t words_lent, size_t length, uint8_t *bytes,
                                              size_t bytes_lent);

/* Says whether the message carries this payload, with this group (0 to 15) and stream id, in whatever packing: packets of any sizes,
 * empty ones too, whatever their unused octets hold. The payload may be empty, and of any size. Yes is an accepted answer, with the
 * value 0; no is the refusal. Nothing is written. Refusals: the check's, then 16, then 26. The place of 26 is 0 if the group or the
 * stream id differs, else the word index of the packet with the first byte that differs, or 0 if only the sizes differ. */
latchbeacon_number latchbeacon_sysex8_carries(const uint32_t *words, size_t words_lent, size_t length, const uint8_t *payload,
                                              size_t payload_size, uint8_t group, uint8_t id);

/* Sets the group of every packet of the message (0 to 15); every other bit lent stays. Refusals: the check's, then 16. */
latchbeacon_number latchbeacon_sysex8_set_group(uint32_t *words, size_t words_lent, size_t length, uint8_t group);

/* Sets the stream id, octet 2, of every packet of the message; every other bit lent stays. Refusals: the check's. */
latchbeacon_number latchbeacon_sysex8_set_stream_id(uint32_t *words, size_t words_lent, size_t length, uint8_t id);

/* Sets payload byte `index` of the message; every other bit lent stays. Refusals: the check's, then 13. */
latchbeacon_number latchbeacon_sysex8_set_byte(uint32_t *words, size_t words_lent, size_t length, size_t index, uint8_t value);

/* ---- fewest-packet form ------------------------------------------------------------------------------------------------------
 * Every packet but the last carries 13 bytes, group and stream id are the old first packet's, and the unused octets of the last
 * packet are zero. Words past the new end that belonged to the old message are zero; all others past it stay. */

/* Answers the words that the fewest-packet form of a payload of `size` bytes takes: four for each packet. That is one packet if there
 * are no bytes, else `size` over 13, rounded up. It refuses nothing; the largest sizes are answered with the exact number too. */
size_t latchbeacon_sysex8_words_needed(size_t size);

/* Rewrites the message in fewest-packet form and answers its new length in words. Refusals: the check's alone, as no message needs
 * more words than it has. */
latchbeacon_number latchbeacon_sysex8_repack(uint32_t *words, size_t words_lent, size_t length);

/* Replaces the payload bytes from..to by `replacement` and writes the fewest-packet form. Refusals: the check's, then 13, 14. */
latchbeacon_change latchbeacon_sysex8_splice(uint32_t *words, size_t words_lent, size_t length, size_t from, size_t to,
                                             const uint8_t *replacement, size_t replacement_lent);

/* Sets the payload: a splice of the whole. Refusals: the check's, then 14. */
latchbeacon_change latchbeacon_sysex8_set_payload(uint32_t *words, size_t words_lent, size_t length, const uint8_t *bytes,
                                                  size_t bytes_lent);

/* Replaces all ranges of a list of edits at once. Edit i is numbers[3i], numbers[3i + 1] and numbers[3i + 2]: from, to and
 * replacement length, as of the message before the call; its bytes follow those of the edits before it in `bytes`. The edits are in
 * ascending order, each ending no later than the next begins. The growth is that of all of them. With no edits the message is
 * packed. Refusals: the check's, then 13 (also when the numbers are not three to an edit, or the bytes are not as many as the lengths
 * say), 20, 14 (the result needs more words than lent: no step on the way there needs room of its own). */
latchbeacon_change latchbeacon_sysex8_splice_all(uint32_t *words, size_t words_lent, size_t length, const size_t *numbers,
                                                 size_t numbers_lent, const uint8_t *bytes, size_t bytes_lent);

/* Answers where an octet of the words lent comes from once latchbeacon_sysex8_splice_all is done. All is lent as to that call, and as
 * it is before it; nothing is written. Octet 4w + b is octet b of word w. Splices of the same edits in any order, each moved by
 * latchbeacon_move_edit, make the same message, if there is at least one edit and the words lent have room for the payload and all
 * replacement bytes; then the answer is the same for every octet of it. Behind it the answer is what latchbeacon_sysex8_splice_all
 * leaves. Refusals: those of latchbeacon_sysex8_splice_all, then 13 (octet not below 4 times the words lent). */
latchbeacon_origin latchbeacon_sysex8_origin(const uint32_t *words, size_t words_lent, size_t length, const size_t *numbers,
                                             size_t numbers_lent, const uint8_t *bytes, size_t bytes_lent, size_t octet);

/* ---- edits: from, to and replacement length ---------------------------------------------------------------------------------- */

/* Answers replacement length minus range length. Refusal: 13 (reversed, or a number above LATCHBEACON_MOST_BYTES). */
latchbeacon_edit_growth latchbeacon_growth(size_t from, size_t to, size_t length);

/* Answers the pending edit's new range once the done one is spliced. Both are given as of the message just before that;
 * `done_first` says that the done edit stands first. The new range may go past LATCHBEACON_MOST_BYTES, where the done edit grows the
 * payload: moving does not know the payload; a splice at such a range is refused with 13. Refusals: 13 (either edit), then 20 (first's
 * to above second's from). */
latchbeacon_range latchbeacon_move_edit(size_t done_from, size_t done_to, size_t done_length, size_t pending_from,
                                        size_t pending_to, size_t pending_length, bool done_first);

/* ---- looking at the result of edits, without writing it -----------------------------------------------------------------------
 * A position counts in the payload that a splice of the edits would leave, and what is answered is what stands there then. Nothing is
 * written, so that no room is asked for. The payload may be longer than LATCHBEACON_MOST_BYTES. The place is 0, but for the check's
 * refusals. */

/* Answers the longest run of bytes that starts at `position` once the payload bytes from..to are replaced. Before the edit it goes up
 * to `from`, in the replacement to its end, behind the edit to the end of the payload. So an edit's end always ends a run, also if the
 * edit is empty. The call takes sizes alone and reads no bytes: the run is the `end - start` bytes at payload + start, or at
 * replacement + start, lent and not copied. The run at 0, then that at its end, and so on, at most three, are the whole result.
 * Refusals: 13 (the edit is reversed or past the payload, or `to` or `replacement_size` is above LATCHBEACON_MOST_BYTES), then 13
 * (position not below the size of the result). */
latchbeacon_run latchbeacon_look_run(size_t payload_size, size_t from, size_t to, size_t replacement_size, size_t position);

/* Answers the byte at `position` once all edits of a list are done at once. The edits and their bytes are lent as to
 * latchbeacon_sysex8_splice_all, the payload as bytes. With no edits it is the payload's byte. Refusals: 13 (the numbers are not three
 * to an edit; an edit is reversed, past the payload or has a number above LATCHBEACON_MOST_BYTES; the bytes are not as many as the
 * lengths say), 20, then 13 (position not below the size of the result). */
latchbeacon_number latchbeacon_look_byte(const uint8_t *payload, size_t payload_size, const size_t *numbers, size_t numbers_lent,
                                         const uint8_t *bytes, size_t bytes_lent, size_t position);

/* The same for the payload of the message in the first `length` words. Refusals: the check's, then those of latchbeacon_look_byte. */
latchbeacon_number latchbeacon_sysex8_look_byte(const uint32_t *words, size_t words_lent, size_t length, const size_t *numbers,
                                                size_t numbers_lent, const uint8_t *bytes, size_t bytes_lent, size_t position);

/* ---- reading a payload byte by byte -------------------------------------------------------------------------------------------
 * A reader is a cursor: packet, byte and remaining, passed in and answered moved on. These calls take any numbers: a packet of count
 * 0 or 15 is empty, a byte at or past its packet's size moves on to the next packet, and words short of a packet are ignored. */

/* Answers the cursor at the start of the message in the first `length` words; read on with those words, so with words_lent =
 * length. Refusals: the check's. */
latchbeacon_cursor latchbeacon_sysex8_open(const uint32_t *words, size_t words_lent, size_t length);

/* Answers the next byte, or the end, and after the end the end for ever. Refuses nothing. */
latchbeacon_read latchbeacon_sysex8_next(const uint32_t *words, size_t words_lent, size_t packet, size_t byte, size_t remaining);

/* Skips `skip` bytes and reads one. Refuses nothing. */
latchbeacon_read latchbeacon_sysex8_nth(const uint32_t *words, size_t words_lent, size_t packet, size_t byte, size_t remaining,
                                        size_t skip);

/* Answers how many bytes remain: the smaller of `remaining` and the bytes that stand there. Refuses nothing. */
size_t latchbeacon_sysex8_remaining(const uint32_t *words, size_t words_lent, size_t packet, size_t byte, size_t remaining);

/* ---- byte stream to SysEx7 ----------------------------------------------------------------------------------------------------- */

/* Writes the data between F0 and F7 as SysEx7 packets of six bytes, only the last shorter, and answers their words; words past them
 * stay. F0 and F7 themselves are not stored: the status of the packets says where the data begins and ends.
 * Real-time bytes (F8 to FF hex) after F0 and before the last byte are passed over: they are no data and take no room. The stream may
 * be of any length.
 * Refusals, in this order: 1, 16 (group over 15), 17, 18 (its place counts all bytes, real-time bytes too; F0 has index 0), 14. */
latchbeacon_number latchbeacon_bytes_to_sysex7(const uint8_t *bytes, size_t bytes_lent, uint8_t group, uint32_t *words,
                                               size_t words_lent);

/* ---- the chain: a store of dumps, each whole or a delta of another --------------------------------------------------------------
 * A store is the `store_size` bytes in use. They are records: a byte of kind (hex), then a body. Numbers have two bytes, highest first.
 *   01        a whole dump. Body: number, group (1 byte, 0 to 15), stream id (1 byte)
 *   02        a delta. Body: number, number of its base
 *   11, 12    a whole dump, a delta, that is not wanted any more; else it is read as 01, 02
 *   03        an edit of the delta before it. Body: from, to, which count in the base's payload
 *   81 to 8D  1 to 13 bytes of data, of the whole dump or edit before them
 * Edits stand behind their delta, or its edits and their data, in ascending order, each ending no later than the next begins. Data
 * stands behind a whole dump, an edit or other data. A base may stand behind its delta. No two dumps have one number, and there are
 * at most 256. A store without bytes is good.
 *
 * The payload of a whole dump is its data. That of a delta is its base's payload with the ranges of all its edits replaced at once,
 * each by its data. Every place is 0. */

/* Checks the store and answers how many dumps it has. Refusals, each over the whole store before the next: 21, 22, 23. */
latchbeacon_number latchbeacon_store_check(const uint8_t *store, size_t store_size);

/* Describes the dump of this number. Its `words` are what latchbeacon_store_restore must be lent at least: the most that the dump, or
 * one that it rests on, needs. The message itself takes latchbeacon_sysex8_words_needed(size), which may be fewer. It may be more
 * than LATCHBEACON_MOST_WORDS; then the dump cannot be restored.
 * Refusals, in this order: 21, 22, 23, 24, 25, then 13 (an edit reversed or past its base's payload). */
latchbeacon_dump latchbeacon_store_describe(const uint8_t *store, size_t store_size, size_t number);

/* Restores the dump of this number: its base first, then its edits. Writes its message in fewest-packet form, with the group and
 * stream id of its whole dump, answers its length in words, and zeroes all lent words past it. It takes up to 167 KB of stack.
 * Refusals, in this order: 1, 21, 22, 23, 24, 25; then from the whole dump up: of the whole dump 14, of each delta 13, then 14 (the
 * dump itself, all its edits done, needs more words than lent). */
latchbeacon_number latchbeacon_store_restore(const uint8_t *store, size_t store_size, size_t number, uint32_t *words,
                                             size_t words_lent);

/* Answers the byte at `position` of the payload that the dump of this number has, without restoring it. It takes any dump that
 * latchbeacon_store_describe takes, also one too long to be restored, and needs no words. It reads the store once, then the records
 * of the dump and of those that it rests on twice, as that call does, and once more up to the byte. Refusals, in this order: those of
 * latchbeacon_store_describe, then 13 (position not below the payload size). */
latchbeacon_number latchbeacon_store_look_byte(const uint8_t *store, size_t store_size, size_t number, size_t position);

/* Marks the dump of this number unwanted: its kind 01 becomes 11 hex, 02 becomes 12, and no other byte is changed. Every number is
 * still described and restored as before, this one too, and it still counts for 22 and 23. Marking again is accepted and changes
 * nothing. The value is 0. Refusals, in this order: 21, 22, 23, 24 (a number not held). */
latchbeacon_number latchbeacon_store_mark(uint8_t *store, size_t store_size, size_t number);

/* Collects: keeps each wanted dump and each dump that a wanted one rests on, also where following its bases ends with 24 or 25. Moves
 * their records down in their old order, zeroes all other bytes lent, and answers the new length. That is the `store_size` of the
 * next calls: the zeros behind it are no records, and the next records are written there. Each dump that is kept is described and
 * restored as before, or gets the same refusal. Each other number is 24, until a new dump has it. Collecting again changes nothing.
 * Refusals, each over the whole store before the next: 21, 22, 23. */
latchbeacon_number latchbeacon_store_collect(uint8_t *store, size_t store_size);

/* ---- interleaved streams: two ports on one table --------------------------------------------------------------------------------
 * The packets of several SysEx8 messages may come interleaved, on two ports. A stream is told by its port, group and stream id. A
 * table has room for 16 open streams, of which a port may hold 12: a port with fewer than four is never refused room for one more, by
 * 31 or 23. Their packets stand in a lent buffer. Each of the 16 has an equal part of it, the words lent over 16, rounded down.
 *
 * A table is LATCHBEACON_PORTS_TABLE words that the caller keeps. It is never NULL. Zeros are an empty table. What else its words mean
 * is for these calls alone, which answer for any of them. As long as streams are open, lend the same buffer in the same length: what
 * was kept is looked for where the parts of that length are. No word past those lent is touched in any case.
 *
 * No answer says where a stream stands. Refusal 23 apart, what a port is answered does not depend on the other port: in two runs that
 * begin with empty tables and buffers of one length, the same calls of a port of which the same ones get 23 are answered the same.
 * Every place is 0. */

/* The words of a table. */
#define LATCHBEACON_PORTS_TABLE 32

/* What a packet did that was received. */
enum latchbeacon_received_kind {
    LATCHBEACON_RECEIVED_KEPT = 0,     /* it is kept in its stream */
    LATCHBEACON_RECEIVED_DROPPED = 1,  /* its stream was dropped */
    LATCHBEACON_RECEIVED_MESSAGE = 2   /* a message was handed out */
};

/* What a packet did: its kind (enum latchbeacon_received_kind), and the words handed out, 0 if there is no message. */
typedef struct {
    uint8_t refusal;
    size_t place;
    uint8_t kind;
    size_t words;
} latchbeacon_received;

/* Empties the table: no stream is open. Refuses nothing. */
void latchbeacon_ports_clear(uint32_t *table);

/* Receives the packet in the first 4 words of `packet`, of any number lent, from port 0 or 1.
 *   start      opens its stream, or begins it afresh if it is open: the packets that it had are gone. It is kept.
 *   continue   is kept behind the packets of its stream.
 *   end        closes its stream. The packets of the stream and then the end are handed out as they came: they are a message. An
 *              unexpected end with valid earlier data does the same. The end itself needs no room in the part of the stream.
 *   complete   is handed out alone: it is a message. It closes the open stream of its port, group and stream id, if there is one.
 *   unexpected end with invalid earlier data   drops its stream: it is closed, and nothing is handed out. No output is needed.
 * A message is handed out to the front of `output`; words past it stay. The room of a stream that is closed can be used again. The
 * table, the buffer, the packet and the output do not overlap.
 * Refusals, in this order: 1 (words or output), those of latchbeacon_sysex8_packet, 29, 30, 31, 23, 14 (a start or continue past the
 * part of its stream, or an output too short for the message). A start of an open stream is never 31 or 23. */
latchbeacon_received latchbeacon_ports_receive(uint32_t *table, uint32_t *words, size_t words_lent, uint8_t port,
                                               const uint32_t *packet, size_t packet_lent, uint32_t *output, size_t output_lent);

#ifdef __cplusplus
}
#endif

#endif
