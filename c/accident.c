/*
 * The accident that must not happen again: a tray that was reset comes up with demonstration
 * contents in a cabinet of four racks of three trays. It is refused wherever it could be taken for a
 * live one, and the tray is brought back. Then one tray is pulled out while another one rots: the
 * rotten one is found, named and put right. README says how to build it.
 */
#include <stdio.h>
#include <string.h>

#include "gesarumbo.h"

enum { RACKS = 4, SIZE = 3, DATA = 8, HELPERS = 3, TRAYS = RACKS * SIZE, LAYERS = 16 };
enum { IMAGE = 24 + LAYERS, LIVE = 1, DEMONSTRATION = 2, VOLUME = 7 };

static const gesarumbo_layout layout = { RACKS, SIZE, DATA, HELPERS, 0 };
static uint8_t data[DATA * LAYERS], stored[TRAYS * LAYERS]; /* what the cabinet was given to keep */
static uint8_t places[TRAYS * IMAGE];                       /* what stands at its places */
static uint8_t codeword[TRAYS * LAYERS];
static uint32_t missing[TRAYS];

static void put_in(uint32_t tray, uint32_t state, const uint8_t *symbols)
{
    gesarumbo_write_image(layout, tray, state, VOLUME, symbols, LAYERS, places + tray * IMAGE, IMAGE);
}

/* Says how a call ended; 1 where it was done. */
static int done(const char *call, uint32_t refusal)
{
    printf("%s: %u, %s\n", call, refusal, gesarumbo_words(refusal));
    return refusal == 0;
}

/* Takes what stands at the places for what it is; says which trays are missing, and how many. */
static uint32_t gather(void)
{
    gesarumbo_gathered gathered = gesarumbo_gather(layout, VOLUME, places, sizeof places, codeword,
                                                   sizeof codeword, missing, TRAYS);
    for (uint32_t i = 0; i < gathered.count; i++)
        printf("tray %u is missing\n", missing[i]);
    gesarumbo_kept kept = gesarumbo_test_kept(layout, codeword, sizeof codeword, missing,
                                              gathered.count);
    printf("the others are %s, by %u checks\n", kept.verdict == 1 ? "sound" : "bad", kept.checks);
    return gathered.count;
}

static void compare(void)
{
    int same = memcmp(codeword, stored, sizeof stored) == 0;
    printf("all trays are %s\n", same ? "as they were" : "wrong");
}

int main(void)
{
    for (size_t i = 0; i < sizeof data; i++)
        data[i] = (uint8_t)(7 * i + 3);
    gesarumbo_store(layout, data, sizeof data, stored, sizeof stored);
    for (uint32_t tray = 0; tray < TRAYS; tray++)
        put_in(tray, LIVE, stored + tray * LAYERS);

    /* Tray 5 is reset: it holds a demonstration in which all looks well. */
    uint8_t contents[LAYERS], rack[SIZE * LAYERS], states[TRAYS];
    const uint32_t reset = 5;
    memset(contents, 0x55, sizeof contents);
    put_in(reset, DEMONSTRATION, contents);
    gesarumbo_image read = gesarumbo_read_image(layout, VOLUME, places + reset * IMAGE, IMAGE);
    done("reading tray 5", read.refusal);
    const uint8_t *of_rack_1 = places + SIZE * IMAGE;
    done("gathering rack 1", gesarumbo_gather_rack(layout, VOLUME, 1, NULL, 0, of_rack_1,
                                                   SIZE * IMAGE, rack, sizeof rack));
    done("without tray 5", gesarumbo_gather_rack(layout, VOLUME, 1, &reset, 1, of_rack_1,
                                                 SIZE * IMAGE, rack, sizeof rack));
    gesarumbo_states(layout, VOLUME, places, sizeof places, states, TRAYS);
    printf("%d more trays may be lost\n", gesarumbo_margin(layout, states, TRAYS).margin);
    uint32_t count = gather();
    if (done("recovering", gesarumbo_recover(layout, codeword, sizeof codeword, missing, count)))
        put_in(reset, LIVE, codeword + reset * LAYERS);
    compare();

    /* Tray 2 is pulled out, and one bit of tray 9 has flipped, in an image that reads as live. */
    memset(places + 2 * IMAGE, 0, IMAGE);
    places[9 * IMAGE + 24 + 6] ^= 0x10;
    count = gather();
    done("recovering", gesarumbo_recover(layout, codeword, sizeof codeword, missing, count));
    gesarumbo_recovered recovered = gesarumbo_recover_correcting(layout, codeword, sizeof codeword,
                                                                 missing, count);
    if (done("correcting", recovered.refusal))
        printf("tray %u was wrong\n", recovered.tray);
    compare();
    return 0;
}
