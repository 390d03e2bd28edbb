/* Runs worked cases of docs/receiver.md, and one of docs/journal.md's words, against the receiver for C, and counts what the heap is asked for.
   Exits with 1 at any difference. Linked with --wrap=malloc --wrap=realloc --wrap=free (tools/embed.sh). */
#include "ubx.h"

#include <stdio.h>
#include <stdlib.h>
#include <string.h>

static size_t heap_calls;
static long live_blocks;
static size_t largest;

void *__real_malloc(size_t size);
void *__real_realloc(void *block, size_t size);
void __real_free(void *block);

void *__wrap_malloc(size_t size) {
    heap_calls++;
    live_blocks++;
    largest = size > largest ? size : largest;
    return __real_malloc(size);
}

void *__wrap_realloc(void *block, size_t size) {
    heap_calls++;
    largest = size > largest ? size : largest;
    return __real_realloc(block, size);
}

void __wrap_free(void *block) {
    heap_calls++;
    live_blocks -= block != NULL;
    __real_free(block);
}

static int differences;

static void check(const char *what, unsigned long long found, unsigned long long wanted) {
    if (found != wanted) {
        differences++;
        printf("    DIFFERS: %s is %llu, not %llu\n", what, found, wanted);
    }
}

static size_t read_hex(const char *hex, uint8_t *bytes) {
    size_t count = 0;
    unsigned int byte;
    int width;
    while (sscanf(hex, " %2x%n", &byte, &width) == 1) {
        bytes[count++] = (uint8_t)byte;
        hex += width;
    }
    return count;
}

/* The bench catalogue: seven items. */
static const ubx_entry entries[7] = {
    {0x10510002, 0, 0, 0, 1},   {0x10510003, 0, 1, 0, 1},  {0x20510001, 0, 65, 8, 119}, {0x2091033b, 0, 0, 0, 10},
    {0x2091033d, 0, 0, 0, 10},  {0x20920002, 2, 0, 0, 0},  {0x20920004, 2, 0, 0, 0},
};
static const ubx_need needs[1] = {{0, 1}};
static const uint32_t DYNAMICS = 0x20510001;

static uint32_t words[UBX_MIN_WORDS];
static uint8_t buffer[UBX_ANSWER_ROOM];

/* Gives a frame to the receiver and compares what it answers. */
static void frame(ubx_receiver *receiver, const char *name, const char *request, const char *reply, ubx_answered wanted) {
    uint8_t piece[800];
    uint8_t bytes[800];
    size_t length = read_hex(request, piece);
    size_t written = read_hex(reply, bytes);
    memset(buffer, 0xee, sizeof buffer);
    ubx_taken taken = ubx_receiver_take(receiver, piece, length);
    check("the refusal of take", taken.refused, 0);
    check("the count taken", taken.count, length);
    ubx_answered answered = ubx_receiver_answer(receiver, buffer, sizeof buffer);
    printf("%s: told %u, %02x %02x, number %u, place %zu, %zu bytes:", name, answered.told, answered.class_, answered.id, answered.number,
           answered.place, answered.length);
    for (size_t at = 0; at < answered.length && at < sizeof buffer; at++)
        printf(" %02x", buffer[at]);
    printf("\n");
    check("the refusal of answer", answered.refused, 0);
    check("the noise", answered.noise, wanted.noise);
    check("the verdict", answered.told, wanted.told);
    check("the class", answered.class_, wanted.class_);
    check("the ID", answered.id, wanted.id);
    check("the number", answered.number, wanted.number);
    check("the place", answered.place, wanted.place);
    check("the length", answered.length, written);
    check("a difference in the bytes written", memcmp(buffer, bytes, written) != 0, 0);
    for (size_t at = written; at < sizeof buffer; at++)
        check("a byte behind them", buffer[at], 0xee);
}

static void look(ubx_receiver *receiver, uint8_t layer, bool held, uint64_t value) {
    ubx_looked looked = ubx_receiver_look(receiver, layer, DYNAMICS);
    printf("look(%u, %08x): held %u, value %llu, refused %u\n", layer, (unsigned)DYNAMICS, looked.held, (unsigned long long)looked.value, looked.refused);
    check("the refusal of look", looked.refused, 0);
    check("whether it is held", looked.held, held);
    check("the value", looked.value, value);
}

static ubx_answered ack(uint8_t id) {
    ubx_answered wanted = {.told = UBX_ACK, .class_ = 0x06, .id = id};
    return wanted;
}

int main(void) {
    ubx_receiver receiver = {NULL};
    memset(words, 0xff, sizeof words);

    printf("sizes: an entry %zu, a need %zu, taken %zu, answered %zu, looked %zu, restarted %zu, inspected %zu, a receiver %zu\n", sizeof(ubx_entry),
           sizeof(ubx_need), sizeof(ubx_taken), sizeof(ubx_answered), sizeof(ubx_looked), sizeof(ubx_restarted), sizeof(ubx_inspected), sizeof(ubx_receiver));

    /* words that are no journal: too few, and a part that stands alone */
    check("inspecting blank words", ubx_inspect(words, UBX_MIN_WORDS).refused, 0);
    check("inspecting too few words", ubx_inspect(words, UBX_MIN_WORDS - 1).refused, 22);
    words[3] = 0x40000042;
    ubx_inspected inspected = ubx_inspect(words, UBX_MIN_WORDS);
    printf("inspect: refused %u at word %zu\n", inspected.refused, inspected.word);
    check("inspecting a wrong word", inspected.refused, 23);
    check("the wrong word", inspected.word, 3);
    words[3] = 0xffffffff;

    /* catalogues that are refused make no receiver */
    check("making of no entries", ubx_make(entries, 0, needs, 1, words, UBX_MIN_WORDS, &receiver.board), 1);
    check("making of needs that the defaults break", ubx_make(entries, 7, (const ubx_need[]){{1, 0}}, 1, words, UBX_MIN_WORDS, &receiver.board), 7);
    check("a receiver where none is made", receiver.board != NULL, 0);
    check("blocks left by a refused making", (unsigned long long)live_blocks, 0);

    uint8_t made = ubx_make(entries, 7, needs, 1, words, UBX_MIN_WORDS, &receiver.board);
    printf("make: %u, with %ld blocks of heap, the largest %zu bytes\n", made, live_blocks, largest);
    check("making", made, 0);
    if (made != 0)
        return 1;
    const void *board = receiver.board;
    size_t calls_at_making = heap_calls;

    frame(&receiver, "case 1", "b5 62 06 8a 09 00 00 01 00 00 01 00 51 20 42 4e ab", "b5 62 05 01 02 00 06 8a 98 c1", ack(0x8a));
    frame(&receiver, "case 2", "b5 62 06 8a 09 00 00 01 00 00 01 00 51 20 05 11 6e", "b5 62 05 00 02 00 06 8a 97 bc",
          (ubx_answered){.told = UBX_NAK, .class_ = 0x06, .id = 0x8a, .number = 21, .place = 2});
    frame(&receiver, "case 3", "b5 62 06 8b 08 00 00 00 00 00 01 00 51 20 0b 57",
          "b5 62 06 8b 09 00 01 00 00 00 01 00 51 20 42 4f b8 b5 62 05 01 02 00 06 8b 99 c2", ack(0x8b));
    look(&receiver, 0, true, 66);
    look(&receiver, 1, false, 0);

    /* case 5: a buffer of 789 bytes is refused, and the frame is held still */
    uint8_t again[17];
    read_hex("b5 62 06 8a 09 00 00 01 00 00 01 00 51 20 42 4e ab", again);
    check("taking again", ubx_receiver_take(&receiver, again, sizeof again).count, 17);
    check("the refusal of a buffer of 789 bytes", ubx_receiver_answer(&receiver, buffer, 789).refused, 9);
    check("the frame that is held still", ubx_receiver_answer(&receiver, buffer, sizeof buffer).told, UBX_ACK);

    /* refused lookings */
    check("looking at layer 3", ubx_receiver_look(&receiver, 3, DYNAMICS).refused, 14);
    check("looking for an unknown key", ubx_receiver_look(&receiver, 0, 0x20510009).refused, 20);

    /* the same value into Flash (layers 04): its journal has a setting of two words, key and value; a restart then stacks it */
    frame(&receiver, "flash", "b5 62 06 8a 09 00 00 04 00 00 01 00 51 20 42 51 c3", "b5 62 05 01 02 00 06 8a 98 c1", ack(0x8a));
    check("the count of words", ubx_receiver_words(&receiver, words, UBX_MIN_WORDS), UBX_MIN_WORDS);
    printf("flash words: %08x %08x %08x\n", (unsigned)words[0], (unsigned)words[1], (unsigned)words[2]);
    check("word 0", words[0], 0x00251001);
    check("word 1", words[1], 0x40000042);
    check("word 2", words[2], 0xffffffff);
    look(&receiver, 2, true, 66);

    ubx_restarted restarted = ubx_receiver_restart(&receiver, true);
    printf("restart: unfit %u, refused %u\n", restarted.unfit, restarted.refused);
    check("the refusal of restart", restarted.refused, 0);
    check("an unfit stack", restarted.unfit, false);
    look(&receiver, 0, true, 66);

    printf("heap calls after making: %zu\n", heap_calls - calls_at_making);
    check("heap calls after making", heap_calls - calls_at_making, 0);
    check("a pointer that moved", receiver.board != board, 0);

    /* the end, and another receiver over the words that were kept */
    ubx_end(receiver);
    check("blocks left at the end", (unsigned long long)live_blocks, 0);
    check("making over the kept words", ubx_make(entries, 7, needs, 1, words, UBX_MIN_WORDS, &receiver.board), 0);
    look(&receiver, 0, true, 66);
    look(&receiver, 2, true, 66);

    /* case 8: an unfit value in BBR shows at the restart, and is gone with the battery */
    frame(&receiver, "case 8", "b5 62 06 8a 09 00 00 02 00 00 01 00 51 20 05 12 76", "b5 62 05 01 02 00 06 8a 98 c1", ack(0x8a));
    restarted = ubx_receiver_restart(&receiver, false);
    printf("restart, battery kept: unfit %u, item %zu\n", restarted.unfit, restarted.item);
    check("an unfit stack", restarted.unfit, true);
    check("the item at fault", restarted.item, 2);
    look(&receiver, 0, true, 65);
    look(&receiver, 1, true, 5);
    restarted = ubx_receiver_restart(&receiver, true);
    check("an unfit stack, the battery lost", restarted.unfit, false);
    look(&receiver, 1, false, 0);
    ubx_end(receiver);
    check("blocks left at the end", (unsigned long long)live_blocks, 0);

    printf(differences == 0 ? "all as wanted\n" : "%d differences\n", differences);
    return differences != 0;
}
