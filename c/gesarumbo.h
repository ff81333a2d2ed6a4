/*
 * gesarumbo: rack-aware erasure coding for packaged record stores, every call proved.
 *
 * The cabinet. It has B racks of u trays, n = B*u trays in all; tray x stands in rack x/u, at place
 * x mod u. k trays' worth of data are stored, and d racks help in a repair, of which E may send a
 * wrong share. Write K = k/u (whole), v = k mod u, r = n - k, s = d - K + 1 - 2*E and L = s^B. A
 * tray has L symbols of one byte, in layers 0 to L-1. A codeword lies tray after tray, symbol j of
 * tray x at x*L + j, so that the trays of a rack lie side by side.
 *
 * A layout is admissible exactly when all of these hold: B >= 2; u is 1, 3, 5, 15 or 17; n <= 60;
 * u <= k; u <= n - k; E is 0 or 1; K + 2*E <= d; d <= B - 1; L <= 4096. With E = 1 a lost tray is
 * repaired by gesarumbo_repair_correcting; the calls whose ground 1 says so are for E = 0 only, and
 * all others for both. E is a number of the code: data stored with one E are not read with another.
 *
 * The code. Symbols are elements of the field of 256 with polynomial 11D (hex) and root 2. Layer j
 * has a digit in base s for each rack, that of rack 0 the lowest. The point of rack i, digit a and
 * place g is 2 to the power i*s + a + g*(255/u). Check t of a layer, t from 0 to r-1, says that the
 * sum of all trays' symbols, each times the t-th power of its tray's point, is zero. For a host
 * rack h the layers fall into L/s groups: layer j is in group (j mod s^h) + s^h * (j / s^(h+1)).
 *
 * Refusals. Any numbers, lists and buffers may be given: no caller has to look first, and every
 * call ends with an answer. A call is refused exactly when one of the grounds named above it
 * applies, on the first that does:
 *
 *    0   done
 *    1   layout not admissible, or E not the one that the call is for
 *    2   a lent buffer is not exactly the length its rule gives (symbols, shares, spare, states, an
 *        image being written, the images and the list of missing trays that a gathering is lent;
 *        not other lists, not an image being read)
 *    3   a tray or rack number outside the layout, a state outside its values, an image to be
 *        written with volume number 0, a scrub record that breaks a rule named at gesarumbo_scrub,
 *        a run of layers outside 0 .. L or one that ends before it begins, more groups done than
 *        there are, a card's group not below L/s, or a symbol or multiplier of the second field
 *        above 256
 *    4   a list is not strictly rising
 *    5   more than r trays erased, or not exactly d helpers
 *   12   not 1 to u - v lost trays
 *    6   the host rack is a helper
 *    7   first group above L/s
 *    8   no codeword has these survivors
 *    9   image malformed: under 24 bytes, a header rule broken, its own layout not admissible, its
 *        tray not below n, or its length not 24 + L
 *   10   image marked demonstration
 *   11   image of another layout or volume; where a rack is gathered, or of another place
 *   13   a layer asked for of the lost tray is not in a group that is done
 *   14   the shares do not meet the checks, and no change of one helper's share makes them
 *   15   the card is not right
 *
 * A refused call has changed no byte of any buffer, and every other number it answers is 0; a scrub
 * record is handed back, or left, as it came.
 *
 * Buffers. Each is a pointer and then its length in elements; one of length 0 may be NULL. A buffer
 * that is written must not overlap another one of the call; buffers that are only read may. A call
 * keeps no pointer, allocates nothing and remembers nothing, so calls may run side by side.
 *
 * Stack and code. What each call takes at most on x86-64, in bytes. Stack: below the caller's own
 * frame, whatever the call is given, by the compiled code; each call was also run on a painted stack.
 * Code: of a program that links this call alone with --gc-sections, constants included. What other
 * processors take is in docs/PERFORMANCE.md.
 *
 *                                       field of 256      field of 257
 *     call                            stack     code    stack     code
 *     measure                           256      511      256      511
 *     test                            3,072   23,687    4,800    8,723
 *     store                          15,040   58,677   22,080   22,779
 *     recover                        14,912   60,565   21,952   25,606
 *     recover_correcting             15,296   61,349   22,336   26,390
 *     test_kept                      21,760   60,913   35,392   25,706
 *     share                           5,504   22,051    9,216   28,980
 *     share_add                       5,440   21,955    9,152   29,572
 *     share_many                      5,504   22,070    9,216   28,999
 *     share_add_many                  5,440   21,974    9,152   29,591
 *     repair                         14,016   49,022   25,792   36,303
 *     repair_many                    14,016   49,012   25,792   36,293
 *     repair_correcting              42,496   56,878   82,624   39,873
 *     card                           11,328   35,104   21,504   18,496
 *     card_test                      11,328   35,846   21,504   19,917
 *     card_repair                    12,992   47,158   24,704   31,636
 *     read_part                         256    1,199      256    1,199
 *     write_image                       448    3,600      448    4,305
 *     read_image                        448    3,647      512    4,095
 *     margin                            256    2,910      256    2,910
 *     states                            512    4,338      640    4,772
 *     gather                            640    5,695      768    6,399
 *     gather_rack                       768    7,217      832    7,167
 *     scrub_reset                       320      474      320      474
 *     scrub                           3,200   24,157    4,864   10,430
 *     scrub_reset_in_place              320      485      320      485
 *     scrub_in_place                  3,200   24,164    4,864   10,437
 *     store_batch                    17,600   19,654   27,136   10,635
 *     share_batch                       896   17,920      512   23,152
 *     repair_batch                   11,584   38,897   21,760   27,183
 *     all calls                      42,496  164,431   82,624  129,121
 *
 *     checksum                        2,240    4,971
 *     box_store                         256    6,719
 *     box_data                          384    7,449
 *     box_recover                       384    5,927
 *     box_share                         192      135
 *     box_repair                        192      508
 *
 * From trays to records. Which trays are good is no question for the caller: gesarumbo_gather takes
 * what stands at all places of a cabinet, anything at all, and gives the symbols of the trays that
 * are there and the list of those that are not. gesarumbo_test_kept and gesarumbo_recover_correcting
 * go on from there, and say how many checks were left to find a wrong tray with.
 *
 * Batches. Many codewords of one layout may be lent to one call, interleaved: see "Batches" below.
 *
 * The second field. Each call over a layout has a twin over the numbers modulo 257, for racks of 1,
 * 2, 4, 8 or 16 trays: see "The second field" below.
 */
#ifndef GESARUMBO_H
#define GESARUMBO_H

#include <stddef.h>
#include <stdint.h>

/* The library's version; a program that was written for MAJOR.MINOR works with any later MINOR. */
#define GESARUMBO_VERSION "1.0.0"
#define GESARUMBO_VERSION_MAJOR 1
#define GESARUMBO_VERSION_MINOR 0
#define GESARUMBO_VERSION_PATCH 0

#ifdef __cplusplus
extern "C" {
#endif

/* The refusals' numbers by name. Calls answer them as uint32_t, whose size is the same everywhere. */
enum gesarumbo_refusal {
    GESARUMBO_DONE = 0,
    GESARUMBO_REFUSED_LAYOUT = 1,
    GESARUMBO_REFUSED_LENGTH = 2,
    GESARUMBO_REFUSED_NUMBER = 3,
    GESARUMBO_REFUSED_ORDER = 4,
    GESARUMBO_REFUSED_COUNT = 5,
    GESARUMBO_REFUSED_HOST = 6,
    GESARUMBO_REFUSED_FIRST_GROUP = 7,
    GESARUMBO_REFUSED_SURVIVORS = 8,
    GESARUMBO_REFUSED_MALFORMED = 9,
    GESARUMBO_REFUSED_DEMONSTRATION = 10,
    GESARUMBO_REFUSED_OTHER = 11,
    GESARUMBO_REFUSED_LOST_COUNT = 12,
    GESARUMBO_REFUSED_NOT_REPAIRED = 13,
    GESARUMBO_REFUSED_SHARES = 14,
    GESARUMBO_REFUSED_CARD = 15
};

/*
 * What a refusal's number means, in words; "done" for 0. The words are constants of the program that
 * asks for them, some 1 KB, and no part of the library: a program that never asks has none.
 */
static inline const char *gesarumbo_words(uint32_t refusal)
{
    static const char *const words[] = {
        "done",
        "the layout is not admissible, or not one that the call is for",
        "a buffer is not exactly the length its rule gives",
        "a tray, rack, state, volume, layer or group number or a symbol is outside its values, or a scrub record breaks its rules",
        "a list is not strictly rising",
        "too many trays are erased, or the helpers are not as many as the layout says",
        "the host rack is a helper",
        "the first group is above the number of groups",
        "no codeword has these survivors",
        "the image is malformed",
        "the image is marked demonstration",
        "the image is of another layout or volume",
        "there is no lost tray, or there are more of one rack than shares can repair",
        "a layer asked for is not yet repaired in the spare",
        "more than one helper's share is wrong: no change of one makes them agree",
        "the card does not give the host rack's sums of every codeword",
    };
    return refusal < sizeof words / sizeof *words ? words[refusal] : "no ground of refusal";
}

/* Its name in earlier headers. */
#define gesarumbo_refusal_words gesarumbo_words

/* B, u, k, d and E: any values, each call says whether they are admissible. */
typedef struct {
    uint32_t racks, size, dimension, helpers, errors;
} gesarumbo_layout;

typedef struct {
    uint32_t refusal;
    uint32_t layers;  /* L, the symbols of a tray */
    uint32_t checks;  /* r, as many trays as may be erased */
    uint32_t traffic; /* d*L/s, the symbols that cross in the repair of one tray */
} gesarumbo_measured;

typedef struct {
    uint32_t refusal;
    uint32_t verdict; /* 1 sound, 2 bad */
    uint32_t layer;   /* the first bad layer; 0 where it is sound */
    uint32_t check;   /* the least check broken there; 0 where it is sound */
} gesarumbo_tested;

typedef struct {
    uint32_t refusal;
    uint32_t tray;   /* the tray that was wrong; n where none was; 0 with a refusal */
    uint32_t checks; /* the checks of a layer left to test with: r less the erased trays */
} gesarumbo_recovered;

typedef struct {
    uint32_t refusal;
    uint32_t verdict; /* 1 sound, 2 bad */
    uint32_t layer;   /* the first layer that does not fit; 0 where it is sound */
    uint32_t checks;  /* the checks of a layer left to test with: r less the erased trays */
} gesarumbo_kept;

typedef struct {
    uint32_t refusal;
    uint32_t count; /* the missing trays */
} gesarumbo_gathered;

typedef struct {
    uint32_t refusal;
    uint64_t groups;    /* groups done */
    uint64_t crossed;   /* symbols crossed: d for each lost tray, codeword and group done */
    uint64_t remaining; /* symbols still to come: as many for each group after the last one done */
} gesarumbo_repaired;

typedef struct {
    uint32_t refusal;
    uint32_t rack;    /* the helper whose share was wrong; B where none was; 0 with a refusal */
    uint64_t crossed; /* symbols crossed: d*L/s */
} gesarumbo_corrected;

typedef struct {
    uint32_t refusal;
    uint32_t source;       /* 1 the store, 2 the spare, 0 with a refusal */
    size_t offset, length; /* where the part lies in it */
} gesarumbo_part;

typedef struct {
    uint32_t refusal;
    uint32_t tray;
    size_t offset, length; /* where its symbols lie in the image */
} gesarumbo_image;

typedef struct {
    uint32_t refusal;
    int32_t margin; /* from -k to n - k */
} gesarumbo_margin_result;

/* The record of a walk over a codeword's layers; it may be kept anywhere between two calls. */
typedef struct {
    uint32_t next;  /* the next layer to look at, L where all have been seen */
    uint32_t bad;   /* how many layers below it are bad */
    uint32_t first; /* the first bad layer, L where there is none */
} gesarumbo_scrub_record;

typedef struct {
    uint32_t refusal;
    uint32_t report; /* 1 unfinished, 2 sound, 3 bad */
    gesarumbo_scrub_record record;
} gesarumbo_scrubbed;

/* The same where the record was lent. */
typedef struct {
    uint32_t refusal;
    uint32_t report;
} gesarumbo_reported;

/*
 * Measures a layout.
 * Grounds: 1.
 */
gesarumbo_measured gesarumbo_measure(gesarumbo_layout layout);

/*
 * Tests whether n*L bytes are a codeword. A bad one is an answer and no refusal.
 * Grounds: 1, 2.
 * Done: sound exactly when every check of every layer holds; else the first bad layer and the least
 * check broken there. Nothing is written.
 */
gesarumbo_tested gesarumbo_test(gesarumbo_layout layout,
                                const uint8_t *codeword, size_t codeword_length);

/*
 * Stores k*L bytes of data as a codeword of n*L bytes.
 * Grounds: 1; 2, either buffer.
 * Done: every byte of codeword is written, whatever it held. Trays 0 to k-1 are the data, and the
 * others are the only ones that make a codeword of them.
 */
uint32_t gesarumbo_store(gesarumbo_layout layout,
                         const uint8_t *data, size_t data_length,
                         uint8_t *codeword, size_t codeword_length);

/*
 * Fills the erased trays of a codeword of n*L bytes from all the others.
 * Grounds: 1; 2, the codeword; 3, a tray listed; 4; 5; 8, exactly when no codeword has the trays
 * that are not listed.
 * Done: codeword is a codeword, the only one with these survivors. Erased trays alone are written,
 * and their old bytes are not looked at. With none erased nothing is written, and the call is a
 * test: 0 or 8.
 */
uint32_t gesarumbo_recover(gesarumbo_layout layout,
                           uint8_t *codeword, size_t codeword_length,
                           const uint32_t *erased, size_t erased_count);

/*
 * Fills the erased trays of a codeword of n*L bytes from all the others, of which one may be wrong
 * in any of its symbols: errors and erasures.
 * Grounds: 1; 2, the codeword; 3, a tray listed; 4; 5; 8, exactly when no codeword has the trays
 * that are not listed, nor has one with one of these trays changed where at least two checks are
 * left, that is, where at most r - 2 trays are listed.
 * Done: codeword is a codeword. Where one has the trays that are not listed, it is the only one, and
 * tray is n: answer and bytes are those of gesarumbo_recover. Else tray is the one that had to be
 * changed, and codeword is the only one that has the others; at most one tray and one change of it
 * make a codeword. The erased trays and the one named alone are written, and the old bytes of the
 * erased ones are not looked at. checks is r less the number of erased trays: with 0 nothing could
 * be tested, with 1 a wrong tray is seen but not found.
 * If at most one tray that is not listed differs from a codeword, in any of its symbols, and at
 * least two checks are left, codeword becomes that one, and tray is the one that differs, n for
 * none. With at least three left, two wrong trays are never taken for another one.
 */
gesarumbo_recovered gesarumbo_recover_correcting(gesarumbo_layout layout,
                                                 uint8_t *codeword, size_t codeword_length,
                                                 const uint32_t *erased, size_t erased_count);

/*
 * Tests the trays of a codeword of n*L bytes that are not listed as erased. A bad codeword is an
 * answer and no refusal.
 * Grounds: 1; 2, the codeword; 3, a tray listed; 4; 5.
 * Done: sound exactly when a codeword has the trays that are not listed, which is when
 * gesarumbo_recover is done; else the first layer in which no symbols of the erased trays meet the
 * checks. With none listed verdict and layer are those of gesarumbo_test. checks is r less the
 * number of erased trays: with 0 the answer is sound whatever the trays hold, since nothing could
 * be tested. Erased trays are not looked at, and nothing is written.
 */
gesarumbo_kept gesarumbo_test_kept(gesarumbo_layout layout,
                                   const uint8_t *codeword, size_t codeword_length,
                                   const uint32_t *erased, size_t erased_count);

/*
 * Works out a helper rack's share of L/s bytes for a host rack, from the helper's u*L bytes.
 * Grounds: 1; 2, either buffer; 3, either rack; 6, both racks are the same.
 * Done: every byte of share is written, whatever it held. Symbol p is the exclusive or of all the
 * helper's symbols in the s layers of group p.
 */
uint32_t gesarumbo_share(gesarumbo_layout layout, uint32_t host, uint32_t helper,
                         const uint8_t *rack, size_t rack_length,
                         uint8_t *share, size_t share_length);

/*
 * Adds one tray's part to the share of L/s bytes for a host rack, from the tray's L bytes. Clear
 * the share first and feed each of the rack's u trays once, in any order: it is then the rack's
 * share.
 * Grounds: 1; 2, either buffer; 3, the host rack or the tray; 6, the tray stands in the host rack.
 * Done: share holds what it held, plus this tray's part. Symbol p of the part is the exclusive or
 * of the tray's symbols in the s layers of group p. A tray fed twice cancels.
 */
uint32_t gesarumbo_share_add(gesarumbo_layout layout, uint32_t host, uint32_t tray,
                             const uint8_t *symbols, size_t symbols_length,
                             uint8_t *share, size_t share_length);

/*
 * Works out a helper rack's shares for a host rack with e = lost_count lost trays, from the
 * helper's u*L bytes. They are shares m = 0 to e-1, L/s bytes each, one after another.
 * Grounds: 1, also for E = 1; 2, rack or the e*L/s bytes of share; 3, either rack; 12; 6, both racks
 * are the same.
 * Done: every byte of share is written, whatever it held. Symbol p of share m is the exclusive or
 * of all the helper's symbols in the s layers of group p, those of the tray at place g each times
 * 2 to the power g*m*(255/u). With e = 1 the bytes are those of gesarumbo_share.
 */
uint32_t gesarumbo_share_many(gesarumbo_layout layout, uint32_t lost_count,
                              uint32_t host, uint32_t helper,
                              const uint8_t *rack, size_t rack_length,
                              uint8_t *share, size_t share_length);

/*
 * Adds one tray's part to the shares of e*L/s bytes for a host rack with e = lost_count lost trays,
 * from the tray's L bytes. Clear the shares first and feed each of the rack's u trays once, in any
 * order: they are then the rack's shares.
 * Grounds: 1, also for E = 1; 2, either buffer; 3, the host rack or the tray; 12; 6, the tray stands
 * in the host rack.
 * Done: share holds what it held, plus this tray's part. Part m is 2 to the power g*m*(255/u) times
 * what gesarumbo_share_add adds, g being the tray's place. A tray fed twice cancels.
 */
uint32_t gesarumbo_share_add_many(gesarumbo_layout layout, uint32_t lost_count,
                                  uint32_t host, uint32_t tray,
                                  const uint8_t *symbols, size_t symbols_length,
                                  uint8_t *share, size_t share_length);

/*
 * Repairs a lost tray, or a piece of it. helpers are d racks, rising; shares are theirs in this
 * order, d*L/s bytes; host is the u*L bytes of the lost tray's rack, of which those of the lost
 * tray are not looked at; spare has L bytes.
 * Grounds: 1, also for E = 1; 2, shares, host or spare; 3, the tray or a helper; 4; 5; 6; 7.
 * Done: the groups from first on, the smaller of budget and the groups left. Their layers of spare
 * are written, and no other byte. From the shares and sound trays of a codeword these are its lost
 * symbols; from any others they are fixed all the same, by the checks t = 0, u, 2u and on summed
 * over each group. A budget of 0, or a first group of L/s, does nothing.
 * A repair may be cut into any pieces, the first from group 0 and each later one from where the
 * last done one ended, with refused calls between them: the layers of all groups done are then as
 * one uncut repair writes them, and the rest of spare is as it was.
 */
gesarumbo_repaired gesarumbo_repair(gesarumbo_layout layout, uint32_t lost,
                                    const uint32_t *helpers, size_t helpers_count,
                                    const uint8_t *shares, size_t shares_length,
                                    const uint8_t *host, size_t host_length,
                                    uint8_t *spare, size_t spare_length,
                                    uint64_t first, uint64_t budget);

/*
 * Repairs e lost trays of one rack, or a piece of them, e being the length of the list. lost and
 * helpers rise; shares are the helpers' in this order, e*d*L/s bytes, those of one helper in order
 * of m; host is the u*L bytes of the lost trays' rack, of which those of the lost trays are not
 * looked at; spare has e*L bytes, tray after tray as listed.
 * Grounds: 1, also for E = 1; 2, shares, host or spare; 3, a lost tray, also one outside the first
 * one's rack, or a helper; 4, either list; 5; 12; 6; 7.
 * Done: the groups from first on, the smaller of budget and the groups left. Their layers of every
 * tray in spare are written, and no other byte. From the shares and sound trays of a codeword these
 * are its lost symbols; from any others they are fixed all the same, by the checks t = m, u + m,
 * 2u + m and on for each m, summed over each group. e*d symbols cross for a group. A budget of 0,
 * or a first group of L/s, does nothing.
 * It may be cut as the repair of one tray may; with e = 1 answer and bytes are those of that call.
 */
gesarumbo_repaired gesarumbo_repair_many(gesarumbo_layout layout,
                                         const uint32_t *lost, size_t lost_count,
                                         const uint32_t *helpers, size_t helpers_count,
                                         const uint8_t *shares, size_t shares_length,
                                         const uint8_t *host, size_t host_length,
                                         uint8_t *spare, size_t spare_length,
                                         uint64_t first, uint64_t budget);

/*
 * Repairs a lost tray, all groups at once, though one helper's share may be wrong: E is 1. helpers
 * are d racks, rising; shares are theirs in this order, as gesarumbo_share gives them, d*L/s bytes;
 * host is the u*L bytes of the lost tray's rack, of which those of the lost tray are not looked at;
 * spare has L bytes.
 * The shares meet the checks where, in each group, some sums of the host rack in its layers and
 * some group sums of the racks that do not help solve the R = B - K checks t = 0, u, 2u and on
 * summed over the group. At most one helper and one changed share make them do so.
 * Grounds: 1, also for E = 0; 2, shares, host or spare; 3, the tray or a helper; 4; 5; 6; 14, exactly
 * when the shares neither meet the checks nor can be made to by changing one helper's share, in any
 * of its symbols.
 * Done: every byte of spare is written, whatever it held: in each layer the host rack's sum, of the
 * shares so changed, plus its other trays' symbols. rack is the helper whose share had to be
 * changed, B where none had. d*L/s symbols have crossed.
 * If sound trays and shares are a codeword's, but for at most one helper's share, which may be wrong
 * in any of its symbols, then spare is the codeword's lost tray, and rack is the helper whose share
 * differs, B for none. Where two are wrong nothing is said of this.
 */
gesarumbo_corrected gesarumbo_repair_correcting(gesarumbo_layout layout, uint32_t lost,
                                                const uint32_t *helpers, size_t helpers_count,
                                                const uint8_t *shares, size_t shares_length,
                                                const uint8_t *host, size_t host_length,
                                                uint8_t *spare, size_t spare_length);

/*
 * Repair cards. A card for a lost tray, d helpers and a group has d multipliers for each of the s
 * sums of the lost tray's rack, d*s bytes: those of digit 0 first, helpers in their order. The sum
 * of digit a is the exclusive or of the helpers' share symbols of the group, each times its
 * multiplier for a. A card is right where this gives the sums of the host rack in the layers of the
 * group for every codeword of the layout. There is exactly one right card for a host rack, helpers
 * and a group; which tray of the rack is lost does not matter.
 *
 * Prints the right card into the d*s bytes of card.
 * Grounds: 1, also for E = 1; 2, card; 3, the tray, a helper, or a group not below L/s; 4; 5; 6.
 * Done: every byte of card is written, whatever it held.
 */
uint32_t gesarumbo_card(gesarumbo_layout layout, uint32_t lost,
                        const uint32_t *helpers, size_t helpers_count, uint64_t group,
                        uint8_t *card, size_t card_length);

/*
 * Tests a card, whoever has printed it. Here, and in the repair by card, the card comes before the
 * group; gesarumbo_card has the group first.
 * Grounds: 1, also for E = 1; 2, card; 3, the tray, a helper, or a group not below L/s; 4; 5; 6; 15,
 * exactly when the card is not right.
 * Done: the card is right. Nothing is written.
 */
uint32_t gesarumbo_card_test(gesarumbo_layout layout, uint32_t lost,
                             const uint32_t *helpers, size_t helpers_count,
                             const uint8_t *card, size_t card_length, uint64_t group);

/*
 * Repairs one group of a lost tray by a card, which is tested too. All else is lent as to
 * gesarumbo_repair.
 * Grounds: 1, also for E = 1; 2, card, shares, host or spare; 3, the tray, a helper, or a group not
 * below L/s; 4; 5; 6; 15, exactly when the card is not right.
 * Done: what gesarumbo_repair does and answers with first group group and a budget of 1, for any
 * shares: the group's layers of spare are written, and no other byte. So the call may stand for that
 * piece in a repair that is cut.
 */
gesarumbo_repaired gesarumbo_card_repair(gesarumbo_layout layout, uint32_t lost,
                                         const uint32_t *helpers, size_t helpers_count,
                                         const uint8_t *card, size_t card_length,
                                         const uint8_t *shares, size_t shares_length,
                                         const uint8_t *host, size_t host_length,
                                         uint8_t *spare, size_t spare_length, uint64_t group);

/*
 * Reads layers first to end - 1 of a tray while the tray lost is being repaired in spare, where so
 * many groups are done from group 0. codeword, the store, has n*L bytes and spare has L.
 * Grounds: 1, also for E = 1; 2, codeword or spare; 3, either tray, groups above L/s, end above L, or
 * end below first; 13.
 * Done: where the part lies: in the store for a tray that is not lost, in the spare for the lost
 * one, every layer asked for being in a group done. With first = end it is empty. Nothing is
 * written.
 * If spare was written by pieces of a repair of this tray alone, the first from group 0 and each
 * from where the last done one ended, and at least as far as groups says, out of shares and sound
 * trays of a codeword that the store's other trays belong to, then the part is that codeword's.
 */
gesarumbo_part gesarumbo_read_part(gesarumbo_layout layout,
                                   const uint8_t *codeword, size_t codeword_length,
                                   const uint8_t *spare, size_t spare_length,
                                   uint32_t lost, uint64_t groups,
                                   uint32_t tray, uint32_t first, uint32_t end);

/*
 * Writes the image of a tray, with state 1 live or 2 demonstration: the header, then L symbols.
 *
 *    at 0      2 bytes   header length, 24
 *    at 2      1 byte    edition, 1
 *    at 3      1 byte    state
 *    at 4..7   1 each    B, u, k, d
 *    at 8      1 byte    tray number
 *    at 9      1 byte    E
 *    at 10     2 bytes   zero
 *    at 12     4 bytes   volume number
 *    at 16     4 bytes   offset of the symbols, 24
 *    at 20     4 bytes   count of the symbols, L
 *
 * Numbers are little endian.
 * Grounds: 1; 2, symbols L or image 24 + L; 3, the tray, the state, or volume number 0.
 * Done: every byte of image is written, whatever it held.
 */
uint32_t gesarumbo_write_image(gesarumbo_layout layout,
                               uint32_t tray, uint32_t state, uint32_t volume,
                               const uint8_t *symbols, size_t symbols_length,
                               uint8_t *image, size_t image_length);

/*
 * Reads an image that should be a live one of this layout and volume. Volume number 0 is what a
 * reset tray comes up with: an image of it is malformed, also where 0 is expected.
 * Grounds: 1, the layout expected; 9; 10; 11.
 * Done: its tray, and where its L symbols lie in it. A demonstration image is never handed out.
 * Nothing is written.
 */
gesarumbo_image gesarumbo_read_image(gesarumbo_layout layout, uint32_t volume,
                                     const uint8_t *image, size_t image_length);

/*
 * Says how many more trays may be lost: the live trays, less k. states has one byte a tray:
 * 0 absent, 1 live, 2 demonstration. A margin below 0 is an answer and no refusal.
 * Grounds: 1; 2; 3, a state above 2.
 * Done: nothing is written.
 */
gesarumbo_margin_result gesarumbo_margin(gesarumbo_layout layout,
                                         const uint8_t *states, size_t states_length);

/*
 * Gathering. images is what stands at the places of some trays, one after another in the order of
 * their numbers, 24 + L bytes each, and may hold anything. A tray is there where its place holds a
 * live image of the layout and volume expected, written for this tray: gesarumbo_read_image is done
 * and answers this place's number. Nothing else that stands at a place is ever handed out or has
 * any effect on what is.
 *
 * Says what stands at each of the n places, as gesarumbo_margin asks for it.
 * Grounds: 1; 2, images n*(24 + L) or states n.
 * Done: every byte of states is written, whatever it held: 1 where the tray is there, 2 where
 * gesarumbo_read_image answers 10, and 0 for anything else.
 */
uint32_t gesarumbo_states(gesarumbo_layout layout, uint32_t volume,
                          const uint8_t *images, size_t images_length,
                          uint8_t *states, size_t states_length);

/*
 * Gathers a codeword from what stands at the n places.
 * Grounds: 1; 2, images n*(24 + L), codeword n*L or missing n.
 * Done: every byte of codeword is written, whatever it held: the symbols of each tray that is there,
 * and zeros for every other. count is the number of the others, and the first count numbers of
 * missing are theirs, rising; the rest of missing is as it was. They are a list of erased trays for
 * gesarumbo_recover, gesarumbo_recover_correcting and gesarumbo_test_kept.
 * From images of a codeword's trays, of which any r or fewer have been replaced by anything that is
 * no live image of its place, gathering and recovering give the codeword. If besides one live image
 * holds wrong symbols, and at most r - 2 are missing, gathering and the correcting recovery give
 * the codeword and name that tray.
 */
gesarumbo_gathered gesarumbo_gather(gesarumbo_layout layout, uint32_t volume,
                                    const uint8_t *images, size_t images_length,
                                    uint8_t *codeword, size_t codeword_length,
                                    uint32_t *missing, size_t missing_length);

/*
 * Gathers one rack from what stands at its u places, for a share or as the host of a repair. What
 * stands at the places of the lost trays is not looked at.
 * Grounds: 1; 2, images u*(24 + L) or out u*L; 3, the rack, or a lost tray that is not one of it; 4;
 * then, each over all images that are looked at, 9; 10; 11, also for a live image of another place.
 * Done: the symbols of every tray that is not lost are written at its place in out; the places of
 * the lost trays are as they were.
 */
uint32_t gesarumbo_gather_rack(gesarumbo_layout layout, uint32_t volume, uint32_t rack,
                               const uint32_t *lost, size_t lost_count,
                               const uint8_t *images, size_t images_length,
                               uint8_t *out, size_t out_length);

/*
 * Starts a new walk, whatever the record holds: the next layer is 0, no layer is bad, the first bad
 * one is L. The report is 0.
 * Grounds: 1.
 */
gesarumbo_scrubbed gesarumbo_scrub_reset(gesarumbo_layout layout, gesarumbo_scrub_record record);

/*
 * Looks at the next layers of a codeword of n*L bytes: the smaller of budget and the layers left.
 * A layer is bad where some check of it is broken.
 * Grounds: 1; 2, the codeword; 3, a next layer above L, a count of bad layers above the next layer,
 * or a first bad layer that is not L with a count of 0 or not below the next layer otherwise.
 * Done: the record's next layer is that much higher. After each call of a walk begun by a reset, if
 * codeword, layout and record were not changed between calls, the record holds exactly how many
 * layers below the next are bad, and the least of them. The report is unfinished while the next
 * layer is below L; at L it is sound exactly when the count is 0, and then, after such a walk,
 * codeword is a codeword. Nothing is written.
 */
gesarumbo_scrubbed gesarumbo_scrub(gesarumbo_layout layout,
                                   const uint8_t *codeword, size_t codeword_length,
                                   gesarumbo_scrub_record record, uint64_t budget);

/*
 * The reset and the call with the record lent, and changed in its place: what the two calls above
 * hand back is what *record is afterwards. A refused call leaves it as it was. record must not be
 * NULL, and lies in no buffer of the call.
 */
gesarumbo_reported gesarumbo_scrub_reset_in_place(gesarumbo_layout layout,
                                                  gesarumbo_scrub_record *record);

gesarumbo_reported gesarumbo_scrub_in_place(gesarumbo_layout layout,
                                            const uint8_t *codeword, size_t codeword_length,
                                            gesarumbo_scrub_record *record, uint64_t budget);

/*
 * Batches: many codewords of one layout in a call, interleaved. Symbol j of tray x of codeword q
 * stands at (x*L + j)*many + q, for q from 0 to many-1. Data, racks, shares and spares lie likewise:
 * what stands at i in the call for one codeword stands at i*many + q. So codeword q has every
 * many-th symbol of a buffer from q on: its part.
 *
 * A call does to each part what the call for one codeword does, with layout, numbers and lists the
 * same for all. Its grounds are that call's, in that order, with lengths times many, whatever number
 * many is; a ground applies where it does to one of the parts, and a refused call has changed none.
 * With many = 0 the right buffers are the empty ones, and layout, numbers and lists are judged as ever. With many =
 * 1 answer and bytes are those of the call for one codeword.
 */

/*
 * Stores the data of many codewords, many*k*L bytes, as many*n*L bytes.
 * Grounds: 1; 2, either buffer.
 * Done: every byte of codewords is written, whatever it held. Each part is what gesarumbo_store
 * makes of the part of data.
 */
uint32_t gesarumbo_store_batch(gesarumbo_layout layout, size_t many,
                               const uint8_t *data, size_t data_length,
                               uint8_t *codewords, size_t codewords_length);

/*
 * Works out a helper rack's share of many*L/s bytes for a host rack, from the helper's many*u*L bytes.
 * Grounds: 1; 2, either buffer; 3, either rack; 6, both racks are the same.
 * Done: every byte of share is written, whatever it held. Each part is what gesarumbo_share makes of
 * the part of rack.
 */
uint32_t gesarumbo_share_batch(gesarumbo_layout layout, size_t many, uint32_t host, uint32_t helper,
                               const uint8_t *rack, size_t rack_length,
                               uint8_t *share, size_t share_length);

/*
 * Repairs a lost tray of many codewords, or a piece of it: the same groups of all. helpers are d
 * racks, rising; shares are theirs in this order, many*d*L/s bytes, each helper's as
 * gesarumbo_share_batch gives it; host is the many*u*L bytes of the lost tray's rack, of which those
 * of the lost tray are not looked at; spare has many*L bytes.
 * Grounds: 1, also for E = 1; 2, shares, host or spare; 3, the tray or a helper; 4; 5; 6; 7.
 * Done: the groups from first on, the smaller of budget and the groups left. Each part of spare is
 * as gesarumbo_repair leaves it: its layers of these groups are written, and no other byte. groups
 * counts groups; crossed and remaining count symbols, many times those of one codeword.
 * It may be cut as the repair of one codeword may.
 */
gesarumbo_repaired gesarumbo_repair_batch(gesarumbo_layout layout, size_t many, uint32_t lost,
                                          const uint32_t *helpers, size_t helpers_count,
                                          const uint8_t *shares, size_t shares_length,
                                          const uint8_t *host, size_t host_length,
                                          uint8_t *spare, size_t spare_length,
                                          uint64_t first, uint64_t budget);

/*
 * The second field: the whole numbers modulo 257, with root 3 of order 256.
 *
 * Every call above has a twin gesarumbo257_.., with symbols lent as 16-bit numbers. What is said
 * above of a call is said of its twin too, but for the following.
 *
 * Layouts. u is 1, 2, 4, 8 or 16; the other conditions are the same. Points and weights are powers
 * of 3, with 256/u in place of 255/u.
 *
 * Symbols, and the multipliers of cards, are the numbers 0 to 256, and every sum is one modulo 257
 * in place of the exclusive or. So signs matter: a lost symbol is the host rack's sum less its other
 * trays' symbols, and a tray fed twice to a share counts twice. Lengths count symbols; images and
 * states stay bytes, and their lengths count bytes.
 *
 * Ground 3 applies also where a number above 256 stands where the call looks:
 *
 *    test                        every symbol, before it answers
 *    store, store_batch          the data
 *    recover, recover_correcting, test_kept
 *                                the trays that are not listed
 *    share, share_many, share_batch
 *                                the helper's rack
 *    share_add, share_add_many   the tray, and what the share holds
 *    repair, repair_many, repair_batch
 *                                the share symbols of the groups that the call does, and the
 *                                symbols of the host's sound trays in their layers
 *    repair_correcting           the shares, and the host's sound trays
 *    card_test                   the card
 *    card_repair                 the card, the share symbols of the group, and the symbols of the
 *                                host's sound trays in its layers
 *    write_image                 the symbols
 *    scrub                       the layers that the call tests
 *
 * It is looked at there also where a later ground applies: to a list that does not rise or is of
 * the wrong length, to a host that helps, to too many lost trays. Nothing else is looked at: not
 * what is only written, not erased and lost trays, not other groups and layers. With no lost tray
 * (e = 0) and in read_part no symbol is looked at, and with a first group above L/s none either.
 * What is said of repairs in pieces and of walks is said for symbols 0 to 256.
 *
 * Images have edition 2 and two bytes a symbol, low byte first: 24 + 2*L bytes. A reader of one
 * edition refuses an image of the other with 9. Reading copies the symbols to L lent places;
 * grounds: 1, the layout expected; 2, the places lent, by that layout; 9, also a symbol above 256,
 * in a demonstration image too; 10; 11. Done: every place is written, whatever it held. Where trays
 * are gathered each place has 24 + 2*L bytes, and a tray whose image holds a number above 256 is not
 * there.
 */
typedef struct {
    uint32_t refusal;
    uint32_t tray;
} gesarumbo257_image;

gesarumbo_measured gesarumbo257_measure(gesarumbo_layout layout);

gesarumbo_tested gesarumbo257_test(gesarumbo_layout layout,
                                   const uint16_t *codeword, size_t codeword_length);

uint32_t gesarumbo257_store(gesarumbo_layout layout,
                            const uint16_t *data, size_t data_length,
                            uint16_t *codeword, size_t codeword_length);

uint32_t gesarumbo257_recover(gesarumbo_layout layout,
                              uint16_t *codeword, size_t codeword_length,
                              const uint32_t *erased, size_t erased_count);

gesarumbo_recovered gesarumbo257_recover_correcting(gesarumbo_layout layout,
                                                    uint16_t *codeword, size_t codeword_length,
                                                    const uint32_t *erased, size_t erased_count);

gesarumbo_kept gesarumbo257_test_kept(gesarumbo_layout layout,
                                      const uint16_t *codeword, size_t codeword_length,
                                      const uint32_t *erased, size_t erased_count);

uint32_t gesarumbo257_share(gesarumbo_layout layout, uint32_t host, uint32_t helper,
                            const uint16_t *rack, size_t rack_length,
                            uint16_t *share, size_t share_length);

uint32_t gesarumbo257_share_add(gesarumbo_layout layout, uint32_t host, uint32_t tray,
                                const uint16_t *symbols, size_t symbols_length,
                                uint16_t *share, size_t share_length);

uint32_t gesarumbo257_share_many(gesarumbo_layout layout, uint32_t lost_count,
                                 uint32_t host, uint32_t helper,
                                 const uint16_t *rack, size_t rack_length,
                                 uint16_t *share, size_t share_length);

uint32_t gesarumbo257_share_add_many(gesarumbo_layout layout, uint32_t lost_count,
                                     uint32_t host, uint32_t tray,
                                     const uint16_t *symbols, size_t symbols_length,
                                     uint16_t *share, size_t share_length);

gesarumbo_repaired gesarumbo257_repair(gesarumbo_layout layout, uint32_t lost,
                                       const uint32_t *helpers, size_t helpers_count,
                                       const uint16_t *shares, size_t shares_length,
                                       const uint16_t *host, size_t host_length,
                                       uint16_t *spare, size_t spare_length,
                                       uint64_t first, uint64_t budget);

gesarumbo_repaired gesarumbo257_repair_many(gesarumbo_layout layout,
                                            const uint32_t *lost, size_t lost_count,
                                            const uint32_t *helpers, size_t helpers_count,
                                            const uint16_t *shares, size_t shares_length,
                                            const uint16_t *host, size_t host_length,
                                            uint16_t *spare, size_t spare_length,
                                            uint64_t first, uint64_t budget);

gesarumbo_corrected gesarumbo257_repair_correcting(gesarumbo_layout layout, uint32_t lost,
                                                   const uint32_t *helpers, size_t helpers_count,
                                                   const uint16_t *shares, size_t shares_length,
                                                   const uint16_t *host, size_t host_length,
                                                   uint16_t *spare, size_t spare_length);

uint32_t gesarumbo257_card(gesarumbo_layout layout, uint32_t lost,
                           const uint32_t *helpers, size_t helpers_count, uint64_t group,
                           uint16_t *card, size_t card_length);

uint32_t gesarumbo257_card_test(gesarumbo_layout layout, uint32_t lost,
                                const uint32_t *helpers, size_t helpers_count,
                                const uint16_t *card, size_t card_length, uint64_t group);

gesarumbo_repaired gesarumbo257_card_repair(gesarumbo_layout layout, uint32_t lost,
                                            const uint32_t *helpers, size_t helpers_count,
                                            const uint16_t *card, size_t card_length,
                                            const uint16_t *shares, size_t shares_length,
                                            const uint16_t *host, size_t host_length,
                                            uint16_t *spare, size_t spare_length, uint64_t group);

gesarumbo_part gesarumbo257_read_part(gesarumbo_layout layout,
                                      const uint16_t *codeword, size_t codeword_length,
                                      const uint16_t *spare, size_t spare_length,
                                      uint32_t lost, uint64_t groups,
                                      uint32_t tray, uint32_t first, uint32_t end);

uint32_t gesarumbo257_write_image(gesarumbo_layout layout,
                                  uint32_t tray, uint32_t state, uint32_t volume,
                                  const uint16_t *symbols, size_t symbols_length,
                                  uint8_t *image, size_t image_length);

gesarumbo257_image gesarumbo257_read_image(gesarumbo_layout layout, uint32_t volume,
                                           const uint8_t *image, size_t image_length,
                                           uint16_t *symbols, size_t symbols_length);

gesarumbo_margin_result gesarumbo257_margin(gesarumbo_layout layout,
                                            const uint8_t *states, size_t states_length);

uint32_t gesarumbo257_states(gesarumbo_layout layout, uint32_t volume,
                             const uint8_t *images, size_t images_length,
                             uint8_t *states, size_t states_length);

gesarumbo_gathered gesarumbo257_gather(gesarumbo_layout layout, uint32_t volume,
                                       const uint8_t *images, size_t images_length,
                                       uint16_t *codeword, size_t codeword_length,
                                       uint32_t *missing, size_t missing_length);

uint32_t gesarumbo257_gather_rack(gesarumbo_layout layout, uint32_t volume, uint32_t rack,
                                  const uint32_t *lost, size_t lost_count,
                                  const uint8_t *images, size_t images_length,
                                  uint16_t *out, size_t out_length);

gesarumbo_scrubbed gesarumbo257_scrub_reset(gesarumbo_layout layout,
                                            gesarumbo_scrub_record record);

gesarumbo_scrubbed gesarumbo257_scrub(gesarumbo_layout layout,
                                      const uint16_t *codeword, size_t codeword_length,
                                      gesarumbo_scrub_record record, uint64_t budget);

gesarumbo_reported gesarumbo257_scrub_reset_in_place(gesarumbo_layout layout,
                                                     gesarumbo_scrub_record *record);

gesarumbo_reported gesarumbo257_scrub_in_place(gesarumbo_layout layout,
                                               const uint16_t *codeword, size_t codeword_length,
                                               gesarumbo_scrub_record *record, uint64_t budget);

uint32_t gesarumbo257_store_batch(gesarumbo_layout layout, size_t many,
                                  const uint16_t *data, size_t data_length,
                                  uint16_t *codewords, size_t codewords_length);

uint32_t gesarumbo257_share_batch(gesarumbo_layout layout, size_t many,
                                  uint32_t host, uint32_t helper,
                                  const uint16_t *rack, size_t rack_length,
                                  uint16_t *share, size_t share_length);

gesarumbo_repaired gesarumbo257_repair_batch(gesarumbo_layout layout, size_t many, uint32_t lost,
                                             const uint32_t *helpers, size_t helpers_count,
                                             const uint16_t *shares, size_t shares_length,
                                             const uint16_t *host, size_t host_length,
                                             uint16_t *spare, size_t spare_length,
                                             uint64_t first, uint64_t budget);

/*
 * The CRC-64 of bytes, as xz has it (ECMA-182, reflected), so that outside tools agree: of the nine
 * bytes "123456789" it is 995DC9BBDF1939FA (hex). start is 0, or the checksum of the bytes before
 * these: bytes may be cut anywhere, and their checksum is the same in parts as in one go. It belongs
 * to neither field. It is never refused, and nothing is written. It finds accidents and no ill will:
 * different bytes may have the same checksum.
 */
uint64_t gesarumbo_checksum(uint64_t start, const uint8_t *bytes, size_t length);

/*
 * The sixteen-tray box, a cabinet of its own with no layout. It has 16 trays of one symbol in four
 * racks of four: tray x stands in rack x/4, at place x mod 4. Symbols are the numbers 0 to 15,
 * elements of the field of 16 by x^4 + x + 1 with root y = 2; sums are exclusive or. The trays'
 * points are, rack after rack, 0, 1, y^5, y^10; y, y^2, y^4, y^8; y^6, y^7, y^9, y^13; y^3, y^11,
 * y^12, y^14. The data are the 7 coefficients of a polynomial, the lowest first, and its word is the
 * polynomial's values at the 16 points. Any 7 trays determine the word. The trays do not hold the
 * data as they are: gesarumbo_box_data gives them.
 *
 * The grounds of refusal are those above, with n = 16, k = 7 and two helpers. Besides, 3 is a value
 * above 15, unless it is never looked at, and 8 is also for two shares that differ.
 */

typedef struct {
    uint32_t refusal;
    uint32_t crossed; /* symbols crossed: 2 */
} gesarumbo_box_repaired;

/*
 * Stores 7 symbols of data in the 16 trays of the box.
 * Grounds: 2, either buffer; 3, the data.
 * Done: values is the word of the data, whatever it held. Different data have different words.
 */
uint32_t gesarumbo_box_store(const uint8_t *data, size_t data_length,
                             uint8_t *values, size_t values_length);

/*
 * Gives the 7 symbols of data from the trays of the box that are not erased.
 * Grounds: 2, either buffer; 3, a tray listed, or the value of a tray that is not; 4; 5, more than 9
 * trays; 8, exactly when no word has the trays that are not listed.
 * Done: data is the only one whose word has these survivors, whatever it held. What values holds at
 * the trays listed is not looked at.
 */
uint32_t gesarumbo_box_data(const uint8_t *values, size_t values_length,
                            const uint32_t *erased, size_t erased_count,
                            uint8_t *data, size_t data_length);

/*
 * Fills the erased trays of the box from all the others.
 * Grounds: 2, values; 3, a tray listed, or the value of a tray that is not; 4; 5, more than 9 trays;
 * 8, exactly when no word has the trays that are not listed.
 * Done: values is a word, the only one with these survivors. Erased trays alone are written, and
 * their old values are not looked at. With none erased nothing is written, and the call is a test: 0
 * or 8.
 */
uint32_t gesarumbo_box_recover(uint8_t *values, size_t values_length,
                               const uint32_t *erased, size_t erased_count);

/*
 * Works out a helper rack's share for a host rack, one symbol, from the helper's four values.
 * Grounds: 2, either buffer; 3, either rack or a value; 6, both racks are the same.
 * Done: share is the top coefficient, that of x^3, of the polynomial of degree below 4 through the
 * helper's values at its points, whatever it held. Of a word all four racks' shares are the same.
 */
uint32_t gesarumbo_box_share(uint32_t host, uint32_t helper,
                             const uint8_t *rack, size_t rack_length,
                             uint8_t *share, size_t share_length);

/*
 * Repairs a lost tray of the box. helpers are two racks, rising; shares are theirs in this order, 2
 * bytes; host is the four values of the lost tray's rack, of which that of the lost tray is not
 * looked at; spare has one byte.
 * Grounds: 2, shares, host or spare; 3, the tray, a helper, a share or one of the three other values
 * of host; 4; 5, not exactly two helpers; 6; 8, the shares differ.
 * Done: spare is the one value with which the top coefficient of the lost tray's rack is that of the
 * helpers. From the shares and values of a word it is the word's.
 */
gesarumbo_box_repaired gesarumbo_box_repair(uint32_t lost,
                                            const uint32_t *helpers, size_t helpers_count,
                                            const uint8_t *shares, size_t shares_length,
                                            const uint8_t *host, size_t host_length,
                                            uint8_t *spare, size_t spare_length);

#ifdef __cplusplus
}
#endif

#endif
