/*
 * The sixteen-tray box in one program, after Example 1 of its source: data are stored, three trays
 * of the first rack are lost and recovered, a lost tray is repaired from two other racks, the data
 * come back from seven trays, and damage is found.
 *
 * No byte beside a buffer may be written: see guards.h.
 */
#include "gesarumbo.h"
#include "guards.h"

enum { TRAYS = 16, SIZE = 4, DATA = 7, HELPERS = 2 };

static uint8_t *data, *values, *back, *shares, *spare;

static void lend_all(void)
{
    clear_pool();
    data = lend(DATA);
    values = lend(TRAYS);
    back = lend(DATA);
    shares = lend(HELPERS);
    spare = lend(1);
}

static void print_symbols(const char *name, const uint8_t *symbols, size_t count)
{
    printf("%s", name);
    for (size_t i = 0; i < count; i++)
        printf(" %X", symbols[i]);
    printf("\n");
}

static void print_racks(void)
{
    for (size_t i = 0; i < TRAYS / SIZE; i++) {
        printf("rack %zu:", i);
        print_symbols("", values + i * SIZE, SIZE);
    }
}

static void store(const uint8_t coefficients[DATA])
{
    memcpy(data, coefficients, DATA);
    must(gesarumbo_box_store(data, DATA, values, TRAYS) == 0, "data are stored");
}

/* h(x) = x + x^4, by which the racks are sorted: it is 0, 1, y^5 and y^10 there. */
static void store_the_sorting_polynomial(void)
{
    static const uint8_t h[DATA] = { 0, 1, 0, 0, 1, 0, 0 };
    store(h);
    print_racks();
}

/* The trays at 1, y^5 and y^10 are lost together. */
static void recover_three_of_a_rack(void)
{
    static const uint32_t erased[] = { 1, 2, 3 };
    uint8_t kept[TRAYS];
    memcpy(kept, values, TRAYS);
    memset(values + 1, 0xEE, 3);
    must(gesarumbo_box_recover(values, TRAYS, erased, 3) == 0, "three trays are recovered");
    printf("trays 1, 2 and 3 are %s\n",
           memcmp(values, kept, TRAYS) == 0 ? "as they were" : "wrong");
}

/* Racks 0 and 3 each send one symbol for rack 1, which has lost tray 6. */
static void repair(void)
{
    static const uint32_t helpers[HELPERS] = { 0, 3 };
    uint8_t kept = values[6];
    for (size_t i = 0; i < HELPERS; i++)
        must(gesarumbo_box_share(1, helpers[i], values + SIZE * helpers[i], SIZE,
                                 shares + i, 1) == 0,
             "a share is worked out");
    print_symbols("shares:", shares, HELPERS);
    values[6] = 0xEE;
    gesarumbo_box_repaired done = gesarumbo_box_repair(6, helpers, HELPERS, shares, HELPERS,
                                                       values + SIZE, SIZE, spare, 1);
    must(done.refusal == 0, "a tray is repaired");
    printf("crossed %u, tray 6 is %s\n", done.crossed, spare[0] == kept ? "as it was" : "wrong");
    shares[0] ^= 1;
    printf("shares that differ: refused %u\n",
           gesarumbo_box_repair(6, helpers, HELPERS, shares, HELPERS, values + SIZE, SIZE,
                                spare, 1).refusal);
    must(spare[0] == kept, "a refusal changes nothing");
    values[6] = kept;
}

/* Trays 0 to 8 are lost; the other seven give the data. */
static void give_data(void)
{
    static const uint32_t erased[] = { 0, 1, 2, 3, 4, 5, 6, 7, 8, 9 };
    memset(values, 0xEE, 9);
    printf("nine lost: %u,", gesarumbo_box_data(values, TRAYS, erased, 9, back, DATA));
    printf(" the data are %s\n", memcmp(back, data, DATA) == 0 ? "as they were" : "wrong");
    printf("ten lost: refused %u\n",
           gesarumbo_box_data(values, TRAYS, erased, 10, back, DATA));
    must(gesarumbo_box_recover(values, TRAYS, erased, 9) == 0, "nine trays are recovered");
}

static void find_damage(void)
{
    printf("test: %u", gesarumbo_box_recover(values, TRAYS, NULL, 0));
    values[15] ^= 1;
    printf(", with one tray damaged %u", gesarumbo_box_recover(values, TRAYS, NULL, 0));
    values[15] = 16;
    printf(", with no symbol %u\n", gesarumbo_box_recover(values, TRAYS, NULL, 0));
}

int main(void)
{
    static const uint8_t coefficients[DATA] = { 1, 2, 3, 4, 5, 6, 7 };
    lend_all();
    store_the_sorting_polynomial();
    store(coefficients);
    print_racks();
    recover_three_of_a_rack();
    repair();
    give_data();
    find_damage();
    must(guards_untouched(), "no byte beside a buffer is written");
    return 0;
}
