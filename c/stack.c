/*
 * Prints how much stack each call takes, "name bytes" a line: by painting a stack, running the call on
 * it and looking how deep the paint is gone. Every call is made in a fifth of the admissible layouts
 * whose codeword has at most 300 symbols and in some small and large ones, with the lists, wrong trays
 * and wrong shares of stack_calls.h; the most is printed. Both fields' calls are run by the same text.
 * With the word few only the small ones are taken. tools/needs.py holds it against the header's figures,
 * and refuses where it stays far below them.
 *
 * With the words FIELD CALL TIMES B u k d E it makes one call so many times instead, for a count of its
 * instructions (tools/cost.py).
 */
#include <stdio.h>
#include <stdlib.h>
#include <string.h>
#include <ucontext.h>

#include "gesarumbo.h"

enum { STACK = 192 * 1024, PAGE = 2048, PAINT = 0xA7, TRAYS = 60, LAYERS = 4096, SYMBOLS = TRAYS * LAYERS, CARD = 60 * 60 };
enum { FEW = 64, LIVE = 1, VOLUME = 7, CALLS = 128, SOME = 17, BATCH = 257 };

/* The layout at hand and its numbers, and what a call is lent. */
static gesarumbo_layout layout;
static uint32_t trays, layers, checks, groups, host, helper, lost_count, answer;
static size_t length, rack_length, card_length, image_length, first_group, erased_count, many;
static uint32_t erased[TRAYS], helpers[TRAYS], lost[TRAYS], missing[TRAYS];
static uint8_t images[TRAYS * (24 + 2 * LAYERS)], states[TRAYS];
static gesarumbo_scrub_record record;

/* The most that each call took. */
static struct { const char *name; size_t most; } taken[CALLS];
static _Alignas(64) uint8_t stack[STACK], paint[PAGE];
static ucontext_t here, there;

static void set_numbers(gesarumbo_measured measured, size_t symbol)
{
    uint32_t digits = layout.helpers - layout.dimension / layout.size + 1 - 2 * layout.errors;
    trays = layout.racks * layout.size;
    layers = measured.layers;
    checks = measured.checks;
    groups = layers / digits;
    length = (size_t)trays * layers;
    rack_length = (size_t)layout.size * layers;
    card_length = (size_t)layout.helpers * digits;
    image_length = 24 + symbol * layers;
}

static void do_reset(void)
{
    record.next = record.bad = 0;
    record.first = layers;
}

/* How much of the painted stack a function takes; the paint is then as before. */
static size_t depth(void (*call)(void))
{
    size_t at = 0;
    getcontext(&there);
    there.uc_stack.ss_sp = stack;
    there.uc_stack.ss_size = STACK;
    there.uc_link = &here;
    makecontext(&there, call, 0);
    swapcontext(&here, &there);
    while (at + PAGE < STACK && memcmp(stack + at, paint, PAGE) == 0)
        at += PAGE;
    while (at < STACK && stack[at] == PAINT)
        at++;
    memset(stack + at, PAINT, STACK - at);
    return STACK - at;
}

static void nothing(void) {}

static void measure(const char *name, void (*call)(void))
{
    static size_t none;
    size_t i = 0, deep = depth(call);
    if (none == 0)
        none = depth(nothing);
    deep -= none;
    while (taken[i].name != NULL && strcmp(taken[i].name, name) != 0)
        i++;
    taken[i].name = name;
    if (deep > taken[i].most)
        taken[i].most = deep;
}

#define SYMBOL uint8_t
#define CALL(name) gesarumbo_##name
#define OWN(name) f256_##name
#define MEASURE(name) measure("gesarumbo_" #name, f256_do_##name)
#define READ_IMAGE gesarumbo_read_image(layout, VOLUME, images, image_length)
#include "stack_calls.h"
#undef SYMBOL
#undef CALL
#undef OWN
#undef MEASURE
#undef READ_IMAGE

#define SYMBOL uint16_t
#define CALL(name) gesarumbo257_##name
#define OWN(name) f257_##name
#define MEASURE(name) measure("gesarumbo257_" #name, f257_do_##name)
#define READ_IMAGE gesarumbo257_read_image(layout, VOLUME, images, image_length, f257_spare, layers)
#include "stack_calls.h"

/* The checksum and the box. */
static uint8_t box_data[7], box_values[16], box_shares[2], box_spare[1];
static const uint32_t box_erased[9] = { 0, 1, 2, 3, 4, 5, 6, 7, 8 }, box_helpers[2] = { 1, 2 };

static void do_checksum(void) { answer = (uint32_t)gesarumbo_checksum(0, images, sizeof images); }
static void do_box_store(void) { answer = gesarumbo_box_store(box_data, 7, box_values, 16); }
static void do_box_recover(void) { answer = gesarumbo_box_recover(box_values, 16, box_erased, erased_count); }
static void do_box_data(void)
{
    answer = gesarumbo_box_data(box_values, 16, box_erased, erased_count, box_data, 7);
}
static void do_box_share(void) { answer = gesarumbo_box_share(0, 1, box_values + 4, 4, box_shares, 1); }
static void do_box_repair(void)
{
    answer = gesarumbo_box_repair(0, box_helpers, 2, box_shares, 2, box_values, 4, box_spare, 1).refusal;
}

static void in_box(void)
{
    for (uint32_t i = 0; i < 7; i++)
        box_data[i] = (uint8_t)(i + 3);
    measure("gesarumbo_checksum", do_checksum);
    measure("gesarumbo_box_store", do_box_store);
    for (erased_count = 0; erased_count <= 9; erased_count++) {
        measure("gesarumbo_box_recover", do_box_recover);
        measure("gesarumbo_box_data", do_box_data);
    }
    measure("gesarumbo_box_share", do_box_share);
    box_shares[1] = box_shares[0];
    measure("gesarumbo_box_repair", do_box_repair);
}

static void in_layout(unsigned long most)
{
    gesarumbo_measured first = gesarumbo_measure(layout), second = gesarumbo257_measure(layout);
    unsigned long all = layout.racks * layout.size;
    if (first.refusal == 0 && all * first.layers <= most)
        f256_in_layout();
    if (second.refusal == 0 && all * second.layers <= most)
        f257_in_layout();
}

/* Goes on to the next numbers of a layout, E first; 0 after the last. */
static int next_layout(void)
{
    if (++layout.errors < 2)
        return 1;
    layout.errors = 0;
    if (++layout.helpers < layout.racks)
        return 1;
    layout.helpers = 1;
    if (++layout.dimension < layout.racks * layout.size)
        return 1;
    if (++layout.size > 17 || layout.racks * layout.size > TRAYS) {
        layout.size = 1;
        layout.racks++;
    }
    layout.dimension = layout.size;
    return layout.racks <= TRAYS;
}

/* Makes one call, by the words FIELD CALL TIMES B u k d E; whether it was done. */
static int repeat(char **words)
{
    uint32_t numbers[5];
    unsigned long times = strtoul(words[2], NULL, 10);
    for (int i = 0; i < 5; i++)
        numbers[i] = (uint32_t)strtoul(words[3 + i], NULL, 10);
    layout = (gesarumbo_layout){ numbers[0], numbers[1], numbers[2], numbers[3], numbers[4] };
    return strcmp(words[0], "257") == 0 ? f257_repeat(words[1], times) : f256_repeat(words[1], times);
}

/* A fifth of the small layouts. */
static void in_many(void)
{
    layout = (gesarumbo_layout){ 2, 1, 1, 1, 0 };
    do {
        if ((layout.racks + 3 * layout.dimension + layout.helpers) % 5 == 0)
            in_layout(300);
    } while (next_layout());
}

int main(int count, char **words)
{
    static const gesarumbo_layout chosen[] = {
        { 4, 3, 8, 3, 0 },   { 5, 3, 4, 3, 0 },   { 5, 3, 4, 4, 1 },   { 4, 3, 6, 3, 0 },
        { 5, 4, 15, 4, 0 },  { 4, 4, 8, 3, 0 },   { 5, 4, 4, 4, 1 },   { 4, 15, 15, 3, 1 },
        { 10, 3, 24, 9, 0 }, { 7, 5, 24, 6, 0 },  { 10, 3, 18, 9, 1 }, { 12, 5, 50, 11, 0 },
        { 10, 4, 32, 9, 0 }, { 10, 4, 24, 9, 1 }, { 12, 4, 40, 11, 0 },
    };
    enum { SMALL = 8 };
    size_t last = count == 2 ? SMALL : sizeof chosen / sizeof *chosen;
    if (count == 9)
        return !repeat(words + 1);
    memset(stack, PAINT, STACK);
    memset(paint, PAINT, PAGE);
    in_box();
    if (count == 1)
        in_many();
    for (size_t i = 0; i < last; i++) {
        layout = chosen[i];
        in_layout(SYMBOLS);
    }
    for (size_t i = 0; taken[i].name != NULL; i++)
        printf("%s %zu\n", taken[i].name, taken[i].most);
    return 0;
}
