/* Measures how much stack the calls of the receiver for C used on this machine, in a few runs: each is made on a stack of its own that was painted before.
   What it prints was seen and is no bound. */
#define _XOPEN_SOURCE 700
#include "ubx.h"

#include <stdio.h>
#include <string.h>
#include <ucontext.h>

enum { STACK_BYTES = 1 << 20, PAINT = 0xa5 };

static uint8_t stack[STACK_BYTES] __attribute__((aligned(16)));
static ucontext_t here, there;
static ubx_receiver receiver;
static uint8_t buffer[UBX_ANSWER_ROOM];
static uint32_t words[UBX_MIN_WORDS];
static const ubx_need no_needs[1] = {{0, 0}};
static const ubx_entry entry = {0x20510001, 0, 65, 8, 119};

static const uint8_t set_all[17] = {0xb5, 0x62, 0x06, 0x8a, 9, 0, 0, 7, 0, 0, 0x01, 0x00, 0x51, 0x20, 0x42, 0x54, 0xdb};
static const uint8_t get[16] = {0xb5, 0x62, 0x06, 0x8b, 8, 0, 0, 0, 0, 0, 0x01, 0x00, 0x51, 0x20, 0x0b, 0x57};

static ubx_answered answered;
static uint8_t made;

static void nothing(void) {}
static void make(void) { made = ubx_make(&entry, 1, no_needs, 0, words, UBX_MIN_WORDS, &receiver.board); }
static void take_set(void) { ubx_receiver_take(&receiver, set_all, sizeof set_all); }
static void take_get(void) { ubx_receiver_take(&receiver, get, sizeof get); }
static void answer(void) { answered = ubx_receiver_answer(&receiver, buffer, sizeof buffer); }
static void look(void) { ubx_receiver_look(&receiver, 2, entry.key); }
static void restart(void) { ubx_receiver_restart(&receiver, true); }
static void end(void) { ubx_end(receiver); }

/* How many bytes of the stack a call changed. */
static size_t depth_of(void (*call)(void)) {
    memset(stack, PAINT, sizeof stack);
    getcontext(&there);
    there.uc_stack.ss_sp = stack;
    there.uc_stack.ss_size = sizeof stack;
    there.uc_link = &here;
    makecontext(&there, call, 0);
    swapcontext(&here, &there);
    size_t untouched = 0;
    while (untouched < sizeof stack && stack[untouched] == PAINT)
        untouched++;
    return sizeof stack - untouched;
}

int main(void) {
    memset(words, 0xff, sizeof words);
    size_t none = depth_of(nothing);
    printf("stack of make: %zu bytes\n", depth_of(make) - none);
    if (made != 0)
        return 1;
    printf("stack of take: %zu\n", depth_of(take_set) - none);
    printf("stack of answer, a set in three layers: %zu\n", depth_of(answer) - none);
    if (answered.told != UBX_ACK)
        return 1;
    depth_of(take_get);
    printf("stack of answer, a get: %zu\n", depth_of(answer) - none);
    if (answered.told != UBX_ACK)
        return 1;
    printf("stack of look: %zu\n", depth_of(look) - none);
    printf("stack of restart: %zu\n", depth_of(restart) - none);
    printf("stack of end: %zu\n", depth_of(end) - none);
    return 0;
}
