/* The verified keyboard seat: key events become bytes of the kitty keyboard protocol, or frames.
 *
 * Every number that comes is checked, and one that stands for nothing is refused. What a caller owes is about its
 * pointers alone: each is not null, not even for a length of 0, is aligned for its type, has as many elements as its
 * length says, and is overlapped by no other argument of the same call where one of the two is written. No call keeps
 * a pointer, allocates, or waits; two calls may run at once where they share no state, page or buffer.
 *
 * docs/BINDING.md has the numbers, the refusals and the layout of the states. Link with crates/seat_c/out/libseat_c.a.
 */
#ifndef SEAT_H
#define SEAT_H

#include <stddef.h>
#include <stdint.h>

#ifdef __cplusplus
extern "C" {
#endif

/* refusal is 0 where the call was accepted, and value is then a count; else value is the place of the fault, or 0. */
typedef struct {
    size_t refusal;
    size_t value;
} seat_answer;

/* layouts and dialects */
enum { SEAT_US = 0, SEAT_BARE = 1 };
enum { SEAT_KITTY = 0, SEAT_FRAMES = 1 };

/* refusals */
enum {
    SEAT_NOT_UTF8 = 1,
    SEAT_NOT_ALLOWED = 5,
    SEAT_OUT_OF_RANGE = 6,
    SEAT_TOO_LONG = 7,
    SEAT_NO_ROOM = 8,
    SEAT_UNLISTED = 9,
    SEAT_NO_VALUE = 10,
    SEAT_SHORT = 11,
    SEAT_MISFIT = 12,
    SEAT_NARROW = 13,
    SEAT_NO_STATE = 25,
    SEAT_NO_NUMBER = 26
};

typedef struct {
    uint32_t kind;
    uint32_t value;
} seat_key;

/* present is 0 or 1; place is 0 where it is not known, else the number of the place and one */
typedef struct {
    uint32_t present;
    seat_key key;
    uint32_t modifiers;
    uint32_t leds;
    uint32_t place;
} seat_raw_event;

/* down is 1 for a press and 0 for a release */
typedef struct {
    seat_key key;
    uint32_t modifiers;
    uint32_t leds;
    uint32_t down;
    seat_raw_event raw;
} seat_event;

typedef struct {
    uint32_t layout;
    uint32_t dialect;
    uint32_t shown;
    uint32_t main_held;
    uint32_t alternate_held;
    uint8_t main[8];
    uint8_t alternate[8];
} seat_kept;

/* A seat over a ring. seat_ring_open makes one, whatever the memory held. */
typedef struct {
    seat_kept kept;
    uint32_t head;
    uint32_t count;
    uint8_t table[4096];
} seat_ring;

/* A seat over a page, which is lent at each call, with the same length and the bytes that the last call left. */
typedef struct {
    size_t count;
    seat_kept kept;
} seat_page;

/* 1 a text, 2 a sequence, 3 an answer; an absent code is 0xFFFFFFFF */
typedef struct {
    uint32_t kind;
    uint32_t number;
    uint32_t shifted;
    uint32_t base;
    uint32_t sum;
    uint32_t direction;
    uint32_t last;
    uint32_t text;
} seat_report;

/* The reader of requests; zeros begin. */
typedef struct {
    uint32_t stage;
    uint32_t number;
    uint32_t flags;
} seat_reader;

/* 0 none, 1 push flags, 2 pop count, 3 set flags and mode, 4 query */
typedef struct {
    uint32_t kind;
    uint32_t first;
    uint32_t second;
} seat_request;

seat_answer seat_ring_open(seat_ring *state, uint32_t layout, uint32_t dialect);
seat_answer seat_ring_key(seat_ring *state, const seat_event *event, const uint8_t *text, size_t text_length,
                          const uint8_t *raw_text, size_t raw_text_length);
seat_answer seat_ring_push(seat_ring *state, uint32_t flags);
seat_answer seat_ring_pop(seat_ring *state, size_t count);
seat_answer seat_ring_set(seat_ring *state, uint32_t flags, uint32_t mode);
seat_answer seat_ring_screen(seat_ring *state, size_t screen);
seat_answer seat_ring_query(seat_ring *state);
seat_answer seat_ring_drain(seat_ring *state, uint8_t *buffer, size_t length);

seat_answer seat_page_open(seat_page *state, uint8_t *page, size_t page_length, uint32_t layout, uint32_t dialect);
seat_answer seat_page_key(seat_page *state, uint8_t *page, size_t page_length, const seat_event *event,
                          const uint8_t *text, size_t text_length, const uint8_t *raw_text, size_t raw_text_length);
seat_answer seat_page_push(seat_page *state, uint8_t *page, size_t page_length, uint32_t flags);
seat_answer seat_page_pop(seat_page *state, uint8_t *page, size_t page_length, size_t count);
seat_answer seat_page_set(seat_page *state, uint8_t *page, size_t page_length, uint32_t flags, uint32_t mode);
seat_answer seat_page_screen(seat_page *state, uint8_t *page, size_t page_length, size_t screen);
seat_answer seat_page_query(seat_page *state, uint8_t *page, size_t page_length);
seat_answer seat_page_drain(seat_page *state, uint8_t *page, size_t page_length, uint8_t *buffer, size_t length);

/* The bytes of one event under a setting, with no seat: out has 512 bytes. */
seat_answer seat_encode(uint32_t layout, uint32_t dialect, uint32_t flags, const seat_event *event,
                        const uint8_t *text, size_t text_length, const uint8_t *raw_text, size_t raw_text_length,
                        uint8_t *out);

/* The first clear report of the given bytes; its text goes to the front of text, for which 32 places suffice. */
seat_answer seat_read(uint32_t dialect, const uint8_t *given, size_t given_length, uint32_t *text, size_t text_length,
                      seat_report *report);

/* One byte of a host's requests: 1 where a request ends, which then stands in request. */
seat_answer seat_request_feed(seat_reader *reader, uint8_t byte, seat_request *request);

#ifdef __cplusplus
}
#endif

#endif
