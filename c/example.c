/*
 * Data are stored in a cabinet of four racks of three trays, tray 5 is lost, and it is repaired in
 * pieces from the shares of the other racks. README says how to build it.
 */
#include <stdio.h>
#include <string.h>

#include "gesarumbo.h"

enum { RACKS = 4, SIZE = 3, DATA = 8, HELPERS = 3 };
enum { LAYERS = 16, GROUPS = 8, TRAYS = RACKS * SIZE, RACK = SIZE * LAYERS };

int main(void)
{
    const gesarumbo_layout layout = { RACKS, SIZE, DATA, HELPERS, 0 };
    const uint32_t host = 1, lost = 5, helpers[HELPERS] = { 0, 2, 3 }, erased[] = { 0, 1, 4, 5, 11 };
    uint8_t data[DATA * LAYERS], codeword[TRAYS * LAYERS], shares[HELPERS * GROUPS], spare[LAYERS];

    for (size_t i = 0; i < sizeof data; i++)
        data[i] = (uint8_t)(7 * i + 3);
    uint32_t refusal = gesarumbo_store(layout, data, sizeof data, codeword, sizeof codeword);
    printf("store: %s\n", gesarumbo_words(refusal));

    /* What tray 5 held is not looked at. Each of the other racks sends a share to its rack. */
    memset(codeword + lost * LAYERS, 0xFF, LAYERS);
    for (size_t i = 0; i < HELPERS; i++) {
        refusal = gesarumbo_share(layout, host, helpers[i], codeword + helpers[i] * RACK, RACK,
                                  shares + i * GROUPS, GROUPS);
        printf("share of rack %u: %s\n", helpers[i], gesarumbo_words(refusal));
    }

    /* Three groups at a time; power may fail between two pieces. */
    for (uint64_t done = 0; done < GROUPS;) {
        gesarumbo_repaired piece = gesarumbo_repair(
            layout, lost, helpers, HELPERS, shares, sizeof shares, codeword + host * RACK, RACK,
            spare, sizeof spare, done, 3);
        if (piece.refusal != 0) {
            printf("repair: %s\n", gesarumbo_words(piece.refusal));
            return 1;
        }
        done += piece.groups;
        printf("%u of %u groups, %u symbols to come\n", (unsigned)done, (unsigned)GROUPS,
               (unsigned)piece.remaining);
    }
    int same = memcmp(spare, data + lost * LAYERS, LAYERS) == 0;
    printf("tray 5 is %s\n", same ? "as it was" : "wrong");

    /* What cannot be done is refused, and no byte has changed. */
    refusal = gesarumbo_recover(layout, codeword, sizeof codeword, erased, 5);
    printf("five trays erased: refused, ground %u: %s\n", refusal, gesarumbo_words(refusal));
    return 0;
}
