/*
 * Every call of the second field from C, in a cabinet with racks of four trays: data are stored and
 * tested, whole and some layers at a time; a lost tray is repaired in pieces and by a card, and read
 * meanwhile; two erased trays are recovered, a wrong one beside them too; trays are imaged and
 * gathered. In a cabinet with less data, two lost trays of one rack are repaired; in one that allows
 * for a wrong share, a lost tray although one rack's share is stale. Then seventeen codewords are
 * worked on in one call each, and every part is as the call for one leaves it.
 *
 * No byte beside a buffer may be written: see guards.h.
 */
#include "gesarumbo.h"
#include "guards.h"

/* The cabinet: five racks of four trays, fifteen trays' worth of data; and what follows from it. */
enum { RACKS = 5, SIZE = 4, TRAYS = RACKS * SIZE, DATA = 15, HELPERS = 4 };
enum { LAYERS = 32, GROUPS = 16, IMAGE = 24 + 2 * LAYERS, CARD = HELPERS * (LAYERS / GROUPS) };
enum { CODEWORD = TRAYS * LAYERS, RACK = SIZE * LAYERS, SHARES = HELPERS * GROUPS };
/* So many trays of a rack are lost together where there is less data. */
enum { LESS_DATA = 14, LOST = 2 };
/* With so much data one helper's share may be wrong; layers and groups are the same. */
enum { WARY_DATA = 6 };

/* So many codewords in a batch. */
enum { MANY = 17 };

enum { LIVE = 1, DEMONSTRATION = 2, VOLUME = 7, LARGE = 0xFFFF };

static const gesarumbo_layout layout = { RACKS, SIZE, DATA, HELPERS, 0 };
static const gesarumbo_layout less = { RACKS, SIZE, LESS_DATA, HELPERS, 0 };
static const gesarumbo_layout wary = { RACKS, SIZE, WARY_DATA, HELPERS, 1 };

/* What the cabinet works with, all of it lent from the pool. */
static uint16_t *data, *codeword, *shares, *spare, *shares_of_two, *two_spares, *card, *gathered;
static uint8_t *images, *states;
static gesarumbo_scrub_record *record;
static uint32_t *helpers, *trays, *missing;
/* A batch, and one codeword of it. */
static uint16_t *batch_data, *batch, *one_data, *one;
/* Its shares and one of one codeword, and the spare. */
static uint16_t *batch_shares, *one_share, *batch_spare;

static uint16_t *lend_symbols(size_t count)
{
    return lend(count * sizeof(uint16_t));
}

static void lend_all(void)
{
    clear_pool();
    data = lend_symbols(DATA * LAYERS);
    codeword = lend_symbols(CODEWORD);
    shares = lend_symbols(SHARES);
    spare = lend_symbols(LAYERS);
    shares_of_two = lend_symbols(LOST * SHARES);
    two_spares = lend_symbols(LOST * LAYERS);
    card = lend_symbols(CARD);
    gathered = lend_symbols(CODEWORD);
    images = lend(TRAYS * IMAGE);
    states = lend(TRAYS);
    record = lend(sizeof *record);
    helpers = lend(HELPERS * sizeof *helpers);
    trays = lend(2 * sizeof *trays);
    missing = lend(TRAYS * sizeof *missing);
    batch_data = lend_symbols(MANY * DATA * LAYERS);
    batch = lend_symbols(MANY * CODEWORD);
    one_data = lend_symbols(DATA * LAYERS);
    one = lend_symbols(CODEWORD);
    batch_shares = lend_symbols(MANY * SHARES);
    one_share = lend_symbols(GROUPS);
    batch_spare = lend_symbols(MANY * LAYERS);
}

static uint16_t *tray_at(size_t tray)
{
    return codeword + tray * LAYERS;
}

static uint16_t *rack_at(size_t rack)
{
    return codeword + rack * RACK;
}

static uint8_t *image_at(size_t tray)
{
    return images + tray * IMAGE;
}

/* Whether two runs of symbols are alike. */
static int alike(const uint16_t *one, const uint16_t *other, size_t count)
{
    return memcmp(one, other, count * sizeof *one) == 0;
}

static const char *as_it_was(int same)
{
    return same ? "as it was" : "wrong";
}

static void fill(uint16_t *symbols, size_t count, uint16_t symbol)
{
    for (size_t i = 0; i < count; i++)
        symbols[i] = symbol;
}

/* Adds to a symbol, modulo 257. */
static void add(uint16_t *symbol, unsigned added)
{
    *symbol = (uint16_t)((*symbol + added) % 257);
}

static void print_symbols(const char *name, const uint16_t *symbols, size_t count)
{
    printf("%s", name);
    for (size_t i = 0; i < count; i++)
        printf(" %u", symbols[i]);
    printf("\n");
}

static void print_bytes(const char *name, const uint8_t *bytes, size_t count)
{
    printf("%s", name);
    for (size_t i = 0; i < count; i++)
        printf(" %02X", bytes[i]);
    printf("\n");
}

/* Four does not divide 255, but it divides 256: racks of four are had modulo 257. */
static void measure_and_store(void)
{
    gesarumbo_measured m = gesarumbo257_measure(layout);
    must(m.refusal == 0 && m.layers == LAYERS, "the layout is admissible in the second field");
    printf("racks of four modulo 257: layers %u, checks %u, traffic of a repair %u\n", m.layers,
           m.checks, m.traffic);
    gesarumbo_layout threes = { 4, 3, 8, 3, 0 };
    printf("racks of three trays: refused %u\n", gesarumbo257_measure(threes).refusal);
    for (uint32_t i = 0; i < DATA * LAYERS; i++)
        data[i] = (uint16_t)((11 * i + 250) % 257);
    must(gesarumbo257_store(layout, data, DATA * LAYERS, codeword, CODEWORD) == 0,
         "data are stored");
    print_symbols("tray 0:", codeword, 8);
    print_symbols("tray 15:", tray_at(15), 8);
    gesarumbo_tested t = gesarumbo257_test(layout, codeword, CODEWORD);
    must(t.refusal == 0 && t.verdict == 1, "what is stored is a codeword");
    codeword[CODEWORD - 1] += 257;
    printf("test with a number above 256: refused %u\n",
           gesarumbo257_test(layout, codeword, CODEWORD).refusal);
    codeword[CODEWORD - 1] -= 257;
}

/* A walk of thirteen layers a call over a codeword with two bad layers, both ways. */
static void scrub(void)
{
    gesarumbo_scrub_record any = { 99, 99, 99 };
    add(tray_at(2) + 6, 1);
    add(tray_at(9) + 30, 256);
    gesarumbo_scrubbed s = gesarumbo257_scrub_reset(layout, any);
    must(s.refusal == 0 && s.report == 0, "a walk begins");
    *record = any;
    gesarumbo_reported r = gesarumbo257_scrub_reset_in_place(layout, record);
    must(r.refusal == 0 && r.report == 0, "a walk begins in its place");
    do {
        s = gesarumbo257_scrub(layout, codeword, CODEWORD, s.record, 13);
        r = gesarumbo257_scrub_in_place(layout, codeword, CODEWORD, record, 13);
        must(s.refusal == 0 && r.refusal == 0 && s.report == r.report, "a call is done");
        must(memcmp(record, &s.record, sizeof *record) == 0, "both ways are alike");
        printf("scrub: report %u, %u of %u layers seen, %u bad, the first is %u\n", s.report,
               s.record.next, LAYERS, s.record.bad, s.record.first);
    } while (s.report == 1);
    add(tray_at(2) + 6, 256);
    add(tray_at(9) + 30, 1);
}

/* The racks but rack 1 each send a share for it: at once, and built up tray by tray. */
static void collect_shares(gesarumbo_layout of)
{
    static const uint32_t others[HELPERS] = { 0, 2, 3, 4 };
    memcpy(helpers, others, sizeof others);
    for (size_t i = 0; i < HELPERS; i++)
        must(gesarumbo257_share(of, 1, helpers[i], rack_at(helpers[i]), RACK, shares + i * GROUPS,
                                GROUPS) == 0,
             "a share is worked out");
    fill(spare, GROUPS, 0);
    for (uint32_t x = SIZE; x-- > 0;)
        must(gesarumbo257_share_add(of, 1, x, tray_at(x), LAYERS, spare, GROUPS) == 0,
             "a tray's part is added");
    must(alike(spare, shares, GROUPS), "a share built up tray by tray is the rack's");
}

/* Rack 1 has lost tray 6, whose old symbols are not looked at. Layers are read meanwhile. */
static void repair_in_pieces(void)
{
    uint16_t kept[LAYERS];
    collect_shares(layout);
    print_symbols("share of rack 0:", shares, 8);
    memcpy(kept, tray_at(6), sizeof kept);
    fill(tray_at(6), LAYERS, LARGE);
    fill(spare, LAYERS, LARGE);
    for (uint64_t done = 0; done < GROUPS; done += 8) {
        gesarumbo_repaired piece =
            gesarumbo257_repair(layout, 6, helpers, HELPERS, shares, SHARES, rack_at(1), RACK,
                                spare, LAYERS, done, 8);
        must(piece.refusal == 0, "a piece is done");
        gesarumbo_part part = gesarumbo257_read_part(layout, codeword, CODEWORD, spare, LAYERS, 6,
                                                     done + piece.groups, 6, 14, 20);
        printf("crossed %u, still to come %u, layers 14 to 19: refused %u, at %zu of buffer %u\n",
               (unsigned)piece.crossed, (unsigned)piece.remaining, part.refusal, part.offset,
               part.source);
    }
    printf("tray 6 is %s\n", as_it_was(alike(spare, kept, LAYERS)));
    memcpy(tray_at(6), kept, sizeof kept);
}

/* One group of the same repair by a card, of which one multiplier is wrong at first. */
static void repair_by_card(void)
{
    must(gesarumbo257_card(layout, 6, helpers, HELPERS, 3, card, CARD) == 0, "a card is printed");
    print_symbols("card of group 3:", card, CARD);
    add(card + 4, 1);
    printf("a wrong card: refused %u\n",
           gesarumbo257_card_test(layout, 6, helpers, HELPERS, card, CARD, 3));
    add(card + 4, 256);
    must(gesarumbo257_card_test(layout, 6, helpers, HELPERS, card, CARD, 3) == 0,
         "the card that was printed is right");
    fill(spare, LAYERS, LARGE);
    gesarumbo_repaired done =
        gesarumbo257_card_repair(layout, 6, helpers, HELPERS, card, CARD, shares, SHARES,
                                 rack_at(1), RACK, spare, LAYERS, 3);
    must(done.refusal == 0 && done.groups == 1, "a group is repaired by its card");
    size_t right = 0, left = 0;
    for (size_t j = 0; j < LAYERS; j++) {
        right += spare[j] == tray_at(6)[j];
        left += spare[j] == LARGE;
    }
    printf("by card: %zu layers right, %zu as they were\n", right, left);
}

/* Trays 1 and 10 are erased; then tray 4 is wrong in two layers; then tray 7 is wrong too. */
static void recover(void)
{
    uint16_t kept[CODEWORD];
    memcpy(kept, codeword, sizeof kept);
    trays[0] = 1;
    trays[1] = 10;
    fill(tray_at(1), LAYERS, LARGE);
    fill(tray_at(10), LAYERS, LARGE);
    gesarumbo_kept sound = gesarumbo257_test_kept(layout, codeword, CODEWORD, trays, 2);
    must(sound.refusal == 0 && sound.verdict == 1 && sound.checks == 3, "the others are sound");
    must(gesarumbo257_recover(layout, codeword, CODEWORD, trays, 2) == 0, "two are recovered");
    must(alike(codeword, kept, CODEWORD), "they come back");

    add(tray_at(4) + 31, 1);
    add(tray_at(4) + 5, 200);
    fill(tray_at(1), LAYERS, LARGE);
    gesarumbo_kept bad = gesarumbo257_test_kept(layout, codeword, CODEWORD, trays, 2);
    printf("one wrong: recover refused %u, test kept layer %u by %u checks\n",
           gesarumbo257_recover(layout, codeword, CODEWORD, trays, 2), bad.layer, bad.checks);
    gesarumbo_recovered one =
        gesarumbo257_recover_correcting(layout, codeword, CODEWORD, trays, 2);
    printf("correcting: refused %u, tray %u was wrong, %u checks left; the codeword is %s\n",
           one.refusal, one.tray, one.checks, as_it_was(alike(codeword, kept, CODEWORD)));

    add(tray_at(4) + 31, 1);
    add(tray_at(7) + 30, 1);
    uint16_t damaged[CODEWORD];
    memcpy(damaged, codeword, sizeof damaged);
    gesarumbo_recovered two =
        gesarumbo257_recover_correcting(layout, codeword, CODEWORD, trays, 2);
    printf("two wrong: refused %u, %u, %u\n", two.refusal, two.tray, two.checks);
    must(alike(codeword, damaged, CODEWORD), "a refusal changes nothing");
    memcpy(codeword, kept, sizeof kept);
}

/* An image of edition 2: the first field's reader takes it for malformed. */
static void write_images(void)
{
    for (uint32_t x = 0; x < TRAYS; x++)
        must(gesarumbo257_write_image(layout, x, LIVE, VOLUME, tray_at(x), LAYERS, image_at(x),
                                      IMAGE) == 0,
             "an image is written");
    print_bytes("header of tray 6:", image_at(6), IMAGE - 2 * LAYERS);
    gesarumbo_layout other = { 4, 3, 8, 3, 0 };
    printf("read as edition 1: refused %u\n",
           gesarumbo_read_image(other, VOLUME, image_at(6), IMAGE).refusal);
    fill(spare, LAYERS, LARGE);
    gesarumbo257_image read =
        gesarumbo257_read_image(layout, VOLUME, image_at(6), IMAGE, spare, LAYERS);
    must(read.refusal == 0 && read.tray == 6, "an image is its tray's");
    must(alike(spare, tray_at(6), LAYERS), "reading copies the tray's symbols");
}

/* Tray 5 is reset, tray 9 holds a number above 256, and tray 18 is of another volume. */
static void gather(void)
{
    static const uint32_t due[] = { 5, 9, 18 };
    enum { MISSING = 3, OTHER = 0x55AA55AA };
    image_at(5)[3] = DEMONSTRATION;
    image_at(9)[IMAGE - 1] = 2;
    image_at(18)[12] = VOLUME + 1;
    must(gesarumbo257_states(layout, VOLUME, images, TRAYS * IMAGE, states, TRAYS) == 0,
         "states are told");
    print_bytes("states:", states, TRAYS);
    printf("margin of these %d\n", gesarumbo257_margin(layout, states, TRAYS).margin);
    for (size_t i = 0; i < TRAYS; i++)
        missing[i] = OTHER;
    fill(gathered, CODEWORD, LARGE);
    gesarumbo_gathered all = gesarumbo257_gather(layout, VOLUME, images, TRAYS * IMAGE, gathered,
                                                 CODEWORD, missing, TRAYS);
    must(all.refusal == 0 && all.count == MISSING, "three trays are missing");
    must(memcmp(missing, due, sizeof due) == 0, "they are listed");
    for (size_t i = MISSING; i < TRAYS; i++)
        must(missing[i] == OTHER, "the rest of the list is as it was");
    for (size_t i = 0; i < MISSING; i++)
        for (size_t j = 0; j < LAYERS; j++)
            must(gathered[due[i] * LAYERS + j] == 0, "a missing tray is zeros");
    must(gesarumbo257_recover(layout, gathered, CODEWORD, missing, all.count) == 0,
         "what was gathered is recovered");
    printf("gathered and recovered: %u trays missing, the codeword is %s\n", all.count,
           as_it_was(alike(gathered, codeword, CODEWORD)));
}

/* Rack 1 has the reset tray, rack 2 the malformed one, rack 4 the one of another volume. */
static void gather_racks(void)
{
    static const uint32_t lost[] = { 5, 9, 18 };
    for (size_t i = 0; i < 3; i++) {
        uint32_t rack = lost[i] / SIZE;
        const uint8_t *at = image_at(rack * SIZE);
        fill(gathered, RACK, LARGE);
        uint32_t refused = gesarumbo257_gather_rack(layout, VOLUME, rack, NULL, 0, at, SIZE * IMAGE,
                                                    gathered, RACK);
        for (size_t j = 0; j < RACK; j++)
            must(gathered[j] == LARGE, "a refusal changes nothing");
        *trays = lost[i];
        must(gesarumbo257_gather_rack(layout, VOLUME, rack, trays, 1, at, SIZE * IMAGE, gathered,
                                      RACK) == 0,
             "a rack is gathered without its lost tray");
        printf("rack %u: refused %u, without tray %u done\n", rack, refused, *trays);
        for (size_t j = 0; j < RACK; j++) {
            int is_lost = j / LAYERS == lost[i] % SIZE;
            must(gathered[j] == (is_lost ? LARGE : rack_at(rack)[j]), "each tray is at its place");
        }
    }
}

/* Trays 5 and 7 of rack 1 are lost, and come back in two pieces. */
static void repair_two(void)
{
    enum { EACH = LOST * GROUPS };
    uint16_t built[EACH] = { 0 };
    must(gesarumbo257_store(less, data, LESS_DATA * LAYERS, codeword, CODEWORD) == 0,
         "less data are stored");
    for (size_t i = 0; i < HELPERS; i++)
        must(gesarumbo257_share_many(less, LOST, 1, helpers[i], rack_at(helpers[i]), RACK,
                                     shares_of_two + i * EACH, EACH) == 0,
             "a rack's shares are worked out");
    for (uint32_t x = SIZE; x-- > 0;)
        must(gesarumbo257_share_add_many(less, LOST, 1, x, tray_at(x), LAYERS, built, EACH) == 0,
             "a tray's part is added");
    must(alike(built, shares_of_two, EACH), "shares built up tray by tray are the rack's");
    trays[0] = 5;
    trays[1] = 7;
    for (uint64_t done = 0; done < GROUPS; done += 10) {
        gesarumbo_repaired piece =
            gesarumbo257_repair_many(less, trays, LOST, helpers, HELPERS, shares_of_two,
                                     LOST * SHARES, rack_at(1), RACK, two_spares, LOST * LAYERS,
                                     done, 10);
        must(piece.refusal == 0, "a piece is done");
        printf("two lost of one rack: crossed %u, still to come %u\n", (unsigned)piece.crossed,
               (unsigned)piece.remaining);
    }
    int same = alike(two_spares, tray_at(5), LAYERS) &&
               alike(two_spares + LAYERS, tray_at(7), LAYERS);
    printf("trays 5 and 7: each is %s\n", as_it_was(same));
}

/* Rack 3 sends a stale share, and rack 1 has lost tray 4. */
static void correct_a_share(void)
{
    must(gesarumbo257_store(wary, data, WARY_DATA * LAYERS, codeword, CODEWORD) == 0,
         "data are stored where a share may be wrong");
    collect_shares(wary);
    for (size_t p = 0; p < GROUPS; p++)
        add(shares + 2 * GROUPS + p, p % 3);
    gesarumbo_corrected one =
        gesarumbo257_repair_correcting(wary, 4, helpers, HELPERS, shares, SHARES, rack_at(1), RACK,
                                       spare, LAYERS);
    printf("a stale share: refused %u, rack %u named, crossed %u, tray 4 is %s\n", one.refusal,
           one.rack, (unsigned)one.crossed, as_it_was(alike(spare, tray_at(4), LAYERS)));
}

/* A buffer of length 0 may be NULL: an empty list, or a length that is refused. */
static void lend_nothing(void)
{
    gesarumbo_scrub_record nothing_seen = { 0, 0, LAYERS };
    printf("nothing lent: test %u", gesarumbo257_test(layout, NULL, 0).refusal);
    printf(", store %u", gesarumbo257_store(layout, NULL, 0, NULL, 0));
    printf(", recover %u", gesarumbo257_recover(layout, NULL, 0, NULL, 0));
    printf(", correcting %u", gesarumbo257_recover_correcting(layout, NULL, 0, NULL, 0).refusal);
    printf(", test kept %u", gesarumbo257_test_kept(layout, NULL, 0, NULL, 0).refusal);
    printf(", share %u", gesarumbo257_share(layout, 1, 0, NULL, 0, NULL, 0));
    printf(", repair %u",
           gesarumbo257_repair(layout, 5, NULL, 0, NULL, 0, NULL, 0, NULL, 0, 0, 1).refusal);
    printf(", cards %u %u", gesarumbo257_card(layout, 5, NULL, 0, 0, NULL, 0),
           gesarumbo257_card_test(layout, 5, NULL, 0, NULL, 0, 0));
    printf(", read %u", gesarumbo257_read_image(layout, VOLUME, NULL, 0, spare, LAYERS).refusal);
    printf(", states %u", gesarumbo257_states(layout, VOLUME, NULL, 0, NULL, 0));
    printf(", gather %u %u",
           gesarumbo257_gather(layout, VOLUME, NULL, 0, NULL, 0, NULL, 0).refusal,
           gesarumbo257_gather_rack(layout, VOLUME, 1, NULL, 0, NULL, 0, NULL, 0));
    printf(", margin %u", gesarumbo257_margin(layout, NULL, 0).refusal);
    printf(", scrub %u\n", gesarumbo257_scrub(layout, NULL, 0, nothing_seen, 1).refusal);
}

/* Takes the part of codeword q, so many symbols, out of a batch. */
static void part(uint16_t *taken, const uint16_t *from, size_t count, size_t q)
{
    for (size_t i = 0; i < count; i++)
        taken[i] = from[i * MANY + q];
}

/* Whether a share is the part of codeword q. */
static int is_part(const uint16_t *alone, const uint16_t *of, size_t count, size_t q)
{
    for (size_t i = 0; i < count; i++)
        if (of[i * MANY + q] != alone[i])
            return 0;
    return 1;
}

/* Fills the batch by the call for one codeword. */
static void fill_batch(void)
{
    for (size_t i = 0; i < MANY * DATA * LAYERS; i++)
        batch_data[i] = (uint16_t)((i * i / 5 + 3 * i) % 257);
    for (size_t q = 0; q < MANY; q++) {
        part(one_data, batch_data, DATA * LAYERS, q);
        must(gesarumbo257_store(layout, one_data, DATA * LAYERS, one, CODEWORD) == 0,
             "a part of the data is stored");
        for (size_t i = 0; i < CODEWORD; i++)
            batch[i * MANY + q] = one[i];
    }
}

/* Over the same data the batch is what it was, whatever it held. */
static void store_batch(void)
{
    enum { DATA_OF_ALL = MANY * DATA * LAYERS, ALL = MANY * CODEWORD };
    static uint16_t kept[ALL];
    memcpy(kept, batch, sizeof kept);
    fill(batch, ALL, LARGE);
    must(gesarumbo257_store_batch(layout, MANY, batch_data, DATA_OF_ALL, batch, ALL) == 0,
         "a batch is stored");
    must(alike(batch, kept, ALL), "each part is stored as it is alone");
    part(one, batch, CODEWORD, MANY - 1);
    print_symbols("codeword 16, tray 19:", one + 19 * LAYERS, 8);
    batch_data[DATA_OF_ALL - 1] += 257;
    printf("batch: a number above 256: refused %u, a codeword too few: refused %u, "
           "no codeword: %u, 2^63 of none: refused %u\n",
           gesarumbo257_store_batch(layout, MANY, batch_data, DATA_OF_ALL, batch, ALL),
           gesarumbo257_store_batch(layout, MANY + 1, batch_data, DATA_OF_ALL, batch, ALL),
           gesarumbo257_store_batch(layout, 0, NULL, 0, NULL, 0),
           gesarumbo257_store_batch(layout, SIZE_MAX / 2 + 1, NULL, 0, NULL, 0));
    must(alike(batch, kept, ALL), "a refusal changes nothing");
}

/* The racks but rack 1 each send a share of all codewords for it. */
static void share_batch(void)
{
    enum { LENGTH = MANY * RACK, SHARE = MANY * GROUPS };
    for (size_t i = 0; i < HELPERS; i++) {
        const uint16_t *from = batch + helpers[i] * LENGTH;
        uint16_t *share = batch_shares + i * SHARE;
        must(gesarumbo257_share_batch(layout, MANY, 1, helpers[i], from, LENGTH, share, SHARE) == 0,
             "a share of a batch is worked out");
        for (size_t q = 0; q < MANY; q++) {
            part(one, from, RACK, q);
            must(gesarumbo257_share(layout, 1, helpers[i], one, RACK, one_share, GROUPS) == 0,
                 "a part's share is worked out");
            must(is_part(one_share, share, GROUPS, q), "each part's share is as it is alone");
        }
    }
    print_symbols("share of rack 4, codeword 16:", one_share, 8);
    batch[MANY * CODEWORD - 1] += 257;
    printf("batch with a number above 256: refused %u\n",
           gesarumbo257_share_batch(layout, MANY, 1, 4, batch + 4 * LENGTH, LENGTH, batch_shares,
                                    SHARE));
    batch[MANY * CODEWORD - 1] -= 257;
    printf("batch of none: share %u, refused %u for a rack, %u for its own\n",
           gesarumbo257_share_batch(layout, 0, 1, 0, NULL, 0, NULL, 0),
           gesarumbo257_share_batch(layout, 0, 1, RACKS, NULL, 0, NULL, 0),
           gesarumbo257_share_batch(layout, 0, 1, 1, NULL, 0, NULL, 0));
}

static gesarumbo_repaired repair_batch_piece(uint64_t first, uint64_t budget)
{
    return gesarumbo257_repair_batch(layout, MANY, 6, helpers, HELPERS, batch_shares, MANY * SHARES,
                                     batch + MANY * RACK, MANY * RACK, batch_spare, MANY * LAYERS,
                                     first, budget);
}

/* Tray 6 of all codewords is lost, and comes back in pieces; a share is no symbol in group 15. */
static void repair_batch(void)
{
    enum { TRAY = MANY * LAYERS, LAST = MANY * SHARES - 1 };
    static uint16_t kept[TRAY];
    uint16_t *tray = batch + 6 * TRAY;
    memcpy(kept, tray, sizeof kept);
    fill(tray, TRAY, LARGE);
    fill(batch_spare, TRAY, LARGE);
    uint16_t last = batch_shares[LAST];
    batch_shares[LAST] = LARGE;
    printf("batch with a share above 256: refused %u, and in its other groups %u\n",
           repair_batch_piece(0, GROUPS).refusal, repair_batch_piece(0, GROUPS - 1).refusal);
    batch_shares[LAST] = last;
    fill(batch_spare, TRAY, LARGE);
    for (uint64_t done = 0; done < GROUPS; done += 10) {
        must(repair_batch_piece(GROUPS + 1, 1).refusal == 7, "no such group");
        gesarumbo_repaired piece = repair_batch_piece(done, 10);
        must(piece.refusal == 0, "a piece of a batch is done");
        printf("batch, groups %u: crossed %u, still to come %u\n", (unsigned)piece.groups,
               (unsigned)piece.crossed, (unsigned)piece.remaining);
    }
    printf("tray 6 of each codeword is %s\n", as_it_was(alike(batch_spare, kept, TRAY)));
    memcpy(tray, kept, sizeof kept);
}

int main(void)
{
    lend_all();
    measure_and_store();
    scrub();
    repair_in_pieces();
    repair_by_card();
    recover();
    write_images();
    gather();
    gather_racks();
    repair_two();
    correct_a_share();
    lend_nothing();
    fill_batch();
    store_batch();
    share_batch();
    repair_batch();
    must(guards_untouched(), "no byte beside a buffer is written");
    return 0;
}
