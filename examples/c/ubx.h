/* The receiver for C (crates/embed): what docs/embedding.md explains. Each declaration fits a function of crates/embed/src/calls.rt, each struct one of
   crates/embed/src/numbers.rt. */
#ifndef UBX_H
#define UBX_H

#include <stdbool.h>
#include <stddef.h>
#include <stdint.h>

/* An item of the catalogue; `kind` is 0 for unsigned numbers, 1 for two's complement, 2 for bits. */
typedef struct {
    uint32_t key;
    uint8_t kind;
    uint64_t initial;
    uint64_t low;
    uint64_t high;
} ubx_entry;

/* A value other than 0 in the first item needs one in the second. */
typedef struct {
    size_t first;
    size_t second;
} ubx_need;

/* In each answer `refused` is the number of the call's refusal, 0 where it was not refused. */
typedef struct {
    size_t count;
    uint8_t refused;
} ubx_taken;

enum { UBX_NOTHING_WHOLE = 0, UBX_OUTSIDE = 1, UBX_ACK = 2, UBX_NAK = 3 };

typedef struct {
    size_t noise;
    size_t length;
    size_t place;
    uint8_t told;
    uint8_t class_;
    uint8_t id;
    uint8_t number;
    uint8_t refused;
} ubx_answered;

typedef struct {
    uint64_t value;
    bool held;
    uint8_t refused;
} ubx_looked;

typedef struct {
    size_t item;
    bool unfit;
    uint8_t refused;
} ubx_restarted;

typedef struct {
    size_t word;
    uint8_t refused;
} ubx_inspected;

enum { UBX_NO_MEMORY = 255, UBX_ANSWER_ROOM = 790, UBX_MIN_WORDS = 640, UBX_MAX_WORDS = 16384 };

/* A receiver, made by `ubx_make` and ended by `ubx_end`. C keeps the pointer and reads nothing behind it. */
typedef struct {
    void *board;
} ubx_receiver;

#ifdef __cplusplus
extern "C" {
#endif

/* Of these the receiver goes in by value, and where its pointer stands beside it: it is put back there. The functions below that take a
   `ubx_receiver *` do that. */
uint8_t ubx_make(const ubx_entry *entries, size_t entry_count, const ubx_need *needs, size_t need_count, const uint32_t *words, size_t word_count, void **board);
ubx_taken ubx_take(ubx_receiver receiver, void **board, const uint8_t *piece, size_t length);
ubx_answered ubx_answer(ubx_receiver receiver, void **board, uint8_t *buffer, size_t room);
ubx_looked ubx_look(ubx_receiver receiver, void **board, uint8_t layer, uint32_t key);
ubx_restarted ubx_restart(ubx_receiver receiver, void **board, bool battery_lost);
size_t ubx_words(ubx_receiver receiver, void **board, uint32_t *words, size_t room);
ubx_inspected ubx_inspect(const uint32_t *words, size_t word_count);
void ubx_end(ubx_receiver receiver);

#ifdef __cplusplus
}
#endif

static inline ubx_taken ubx_receiver_take(ubx_receiver *receiver, const uint8_t *piece, size_t length) {
    return ubx_take(*receiver, &receiver->board, piece, length);
}

static inline ubx_answered ubx_receiver_answer(ubx_receiver *receiver, uint8_t *buffer, size_t room) {
    return ubx_answer(*receiver, &receiver->board, buffer, room);
}

static inline ubx_looked ubx_receiver_look(ubx_receiver *receiver, uint8_t layer, uint32_t key) {
    return ubx_look(*receiver, &receiver->board, layer, key);
}

static inline ubx_restarted ubx_receiver_restart(ubx_receiver *receiver, bool battery_lost) {
    return ubx_restart(*receiver, &receiver->board, battery_lost);
}

static inline size_t ubx_receiver_words(ubx_receiver *receiver, uint32_t *words, size_t room) {
    return ubx_words(*receiver, &receiver->board, words, room);
}

#endif
