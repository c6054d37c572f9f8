/* Lowers one typed expression to byte and bit instructions: the C side of the
 * static library libwesknuft.a. C99 or C++11 on.
 *
 * No heap is used. Beside the room, which the caller lends, a call needs stack:
 * a thread of WESKNUFT_THREAD_STACK bytes answers every ticket. */
#ifndef WESKNUFT_LOWER_H
#define WESKNUFT_LOWER_H

#include <stdbool.h>
#include <stddef.h>
#include <stdint.h>

#ifdef __cplusplus
extern "C" {
#endif

/* Lengths of the lent areas, in their own elements, that are enough for every
 * ticket. Those of code and store are only for speed. */
#define WESKNUFT_ROWS_LEN 41000
#define WESKNUFT_LISTS_LEN 32768
#define WESKNUFT_STACK_LEN 65536
#define WESKNUFT_NARROWED_LEN 256
#define WESKNUFT_CODE_LEN 524288
#define WESKNUFT_STORE_LEN 262144

/* The stack, in bytes, of a thread in which every ticket at all is answered,
 * the thread's own start included. It is measured (rust/README.md), not
 * proved. */
#define WESKNUFT_THREAD_STACK 262144

/* Room to work in. A caller has one for each thread that lowers (static or on
 * the heap, as it is large) and uses it again from ticket to ticket; what it
 * holds is of no account, so that it need not be cleared. */
struct wesknuft_room {
    uint64_t rows[WESKNUFT_ROWS_LEN];
    uint64_t lists[WESKNUFT_LISTS_LEN];
    uint64_t stack[WESKNUFT_STACK_LEN];
    uint64_t narrowed[WESKNUFT_NARROWED_LEN];
    uint8_t code[WESKNUFT_CODE_LEN];
    uint8_t store[WESKNUFT_STORE_LEN];
};

/* The room's bytes. */
#define WESKNUFT_ROOM_SIZE \
    (8 * (WESKNUFT_ROWS_LEN + WESKNUFT_LISTS_LEN + WESKNUFT_STACK_LEN + WESKNUFT_NARROWED_LEN) + \
     WESKNUFT_CODE_LEN + WESKNUFT_STORE_LEN)

#if defined(__cplusplus)
static_assert(sizeof(struct wesknuft_room) == WESKNUFT_ROOM_SIZE, "the room's size");
#elif defined(__STDC_VERSION__) && __STDC_VERSION__ >= 201112L
_Static_assert(sizeof(struct wesknuft_room) == WESKNUFT_ROOM_SIZE, "the room's size");
#endif

/* What wesknuft_lower_in answers. */
enum wesknuft_answer {
    WESKNUFT_REFUSED = 0,
    WESKNUFT_ACCEPTED = 1,
    WESKNUFT_NO_ROOM = 2
};

/* Lowers the ticket of ticket_len bytes at ticket, which may be any bytes, in
 * six lent areas.
 *
 * WESKNUFT_ACCEPTED: the listing is written to the front of buffer, and *length
 * is its length, at most buffer_len. Bytes past it keep their content.
 * WESKNUFT_REFUSED: *number and *line say why; all bytes of the buffer keep
 * their content. A number is 1 to 10 from reading, 20 to 27 from lowering, 28
 * where the listing is longer than the buffer; a line counts from 1, and is 0
 * where the whole ticket is meant.
 * WESKNUFT_NO_ROOM: the areas are too short for the ticket; all bytes of the
 * buffer keep their content. Areas as long as those of struct wesknuft_room
 * never are. A ticket of up to 65536 bytes is answered so if
 *   lists_len    < (ticket_len + 1) / 2, or
 *   rows_len     < 40 * (c + 1), where c is the number of lines of any one kind
 *                  before the last line that is read, or
 *   narrowed_len < the number of its storage lines, or
 *   stack_len    < 8 * the sum of the weights of its nodes' types.
 * code_len and store_len may be anything: a listing whose halves they hold is
 * made in one run, any other in three.
 *
 * Of *length, *number and *line what does not apply is set to 0. What the lent
 * areas hold is of no account, and nothing in them is to be kept. No two of all
 * these may overlap. A pointer whose length is 0 is not followed. */
uint64_t wesknuft_lower_in(const uint8_t *ticket, size_t ticket_len,
                           uint8_t *buffer, size_t buffer_len,
                           uint64_t *rows, size_t rows_len,
                           uint64_t *lists, size_t lists_len,
                           uint64_t *stack, size_t stack_len,
                           uint64_t *narrowed, size_t narrowed_len,
                           uint8_t *code, size_t code_len,
                           uint8_t *store, size_t store_len,
                           size_t *length, uint64_t *number, uint64_t *line);

/* The same in a room, which is enough for every ticket: whether the ticket is
 * accepted. */
static inline bool wesknuft_lower(const uint8_t *ticket, size_t ticket_len,
                                  uint8_t *buffer, size_t buffer_len,
                                  struct wesknuft_room *room,
                                  size_t *length, uint64_t *number, uint64_t *line) {
    return wesknuft_lower_in(ticket, ticket_len, buffer, buffer_len,
                             room->rows, WESKNUFT_ROWS_LEN,
                             room->lists, WESKNUFT_LISTS_LEN,
                             room->stack, WESKNUFT_STACK_LEN,
                             room->narrowed, WESKNUFT_NARROWED_LEN,
                             room->code, WESKNUFT_CODE_LEN,
                             room->store, WESKNUFT_STORE_LEN,
                             length, number, line) == WESKNUFT_ACCEPTED;
}

#ifdef __cplusplus
}
#endif

#endif
