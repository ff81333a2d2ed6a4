/*
 * Every call of the first field from C: data are stored, a reset tray is refused, a lost tray is
 * repaired in pieces and by a card and read meanwhile, the codeword is tested some layers at a time,
 * two erased trays are recovered, a wrong one beside them too, and trays are gathered from their
 * images. In a cabinet with less data, two lost trays of one rack are repaired. In one that allows
 * for a wrong share, a lost tray is repaired although one rack's share is stale. Then seventeen
 * codewords are worked on in one call each, and every part is as the call for one leaves it. The
 * second field's calls are in test257.c, the box's in box_test.c.
 *
 * No byte beside a buffer may be written: see guards.h.
 */
#include "gesarumbo.h"
#include "guards.h"

/* The cabinet: four racks of three trays, eight trays' worth of data, three helpers. */
enum { RACKS = 4, SIZE = 3, TRAYS = RACKS * SIZE, DATA = 8, HELPERS = 3 };
/* What follows from it. */
enum { LAYERS = 16, GROUPS = 8, IMAGE = 24 + LAYERS, CARD = HELPERS * (LAYERS / GROUPS) };
/* The lengths of its buffers. */
enum { DATA_LENGTH = DATA * LAYERS, CODEWORD_LENGTH = TRAYS * LAYERS };
enum { RACK_LENGTH = SIZE * LAYERS, SHARES_LENGTH = HELPERS * GROUPS };

/* The same cabinet with less data, and so many trays of a rack lost together. */
enum { LESS_DATA = 6, LOST = 2 };

/* A cabinet of five racks in which one of four helpers may send a wrong share, and what follows. */
enum { WARY_RACKS = 5, WARY_TRAYS = WARY_RACKS * SIZE, WARY_DATA = 4, WARY_HELPERS = 4, ERRORS = 1 };
enum { WARY_LAYERS = 32, WARY_GROUPS = 16, WARY_RACK = SIZE * WARY_LAYERS };
enum { WARY_SHARES = WARY_HELPERS * WARY_GROUPS };

/* So many codewords in a batch. */
enum { MANY = 17 };

enum { ABSENT = 0, LIVE = 1, DEMONSTRATION = 2, VOLUME = 7 };

static const gesarumbo_layout layout = { RACKS, SIZE, DATA, HELPERS, 0 };
static const gesarumbo_layout less = { RACKS, SIZE, LESS_DATA, HELPERS, 0 };
static const gesarumbo_layout wary = { WARY_RACKS, SIZE, WARY_DATA, WARY_HELPERS, ERRORS };

/* What the cabinet works with, all of it lent from the pool. */
static uint8_t *data, *codeword, *images, *shares, *spare, *states, *shares_of_two, *two_spares;
static uint8_t *card;
static gesarumbo_scrub_record *record;
static uint8_t *wary_codeword, *wary_shares, *wary_spare;
static uint32_t *helpers, *erased, *lost, *wary_helpers;
/* What trays are gathered into, and bytes for a checksum. */
static uint8_t *gathered, *rack, *nine;
static uint32_t *missing;
/* A batch, and one codeword of it. */
static uint8_t *batch_data, *batch, *one_data, *one;
/* Its shares and one of one codeword, and the spare. */
static uint8_t *batch_shares, *one_share, *batch_spare;

static void lend_all(void)
{
    clear_pool();
    data = lend(DATA_LENGTH);
    codeword = lend(CODEWORD_LENGTH);
    images = lend(TRAYS * IMAGE);
    shares = lend(SHARES_LENGTH);
    spare = lend(LAYERS);
    states = lend(TRAYS);
    helpers = lend(HELPERS * sizeof *helpers);
    erased = lend(2 * sizeof *erased);
    lost = lend(LOST * sizeof *lost);
    shares_of_two = lend(LOST * SHARES_LENGTH);
    two_spares = lend(LOST * LAYERS);
    card = lend(CARD);
    record = lend(sizeof *record);
    wary_codeword = lend(WARY_TRAYS * WARY_LAYERS);
    wary_shares = lend(WARY_SHARES);
    wary_spare = lend(WARY_LAYERS);
    wary_helpers = lend(WARY_HELPERS * sizeof *wary_helpers);
    gathered = lend(CODEWORD_LENGTH);
    rack = lend(RACK_LENGTH);
    missing = lend(TRAYS * sizeof *missing);
    nine = lend(9);
    batch_data = lend(MANY * DATA_LENGTH);
    batch = lend(MANY * CODEWORD_LENGTH);
    one_data = lend(DATA_LENGTH);
    one = lend(CODEWORD_LENGTH);
    batch_shares = lend(MANY * SHARES_LENGTH);
    one_share = lend(GROUPS);
    batch_spare = lend(MANY * LAYERS);
}

static uint8_t *tray_at(size_t tray)
{
    return codeword + tray * LAYERS;
}

static uint8_t *rack_at(size_t rack)
{
    return codeword + rack * RACK_LENGTH;
}

static uint8_t *image_at(size_t tray)
{
    return images + tray * IMAGE;
}

static void print_bytes(const char *name, const uint8_t *bytes, size_t count)
{
    printf("%s", name);
    for (size_t i = 0; i < count; i++)
        printf(" %02X", bytes[i]);
    printf("\n");
}

static void measure(void)
{
    gesarumbo_measured m = gesarumbo_measure(layout);
    must(m.refusal == 0 && m.layers == LAYERS, "the layout is admissible");
    printf("layers %u, checks %u, traffic of a repair %u\n", m.layers, m.checks, m.traffic);

    gesarumbo_layout even = { 4, 4, 8, 3, 0 };
    printf("racks of four trays: refused %u\n", gesarumbo_measure(even).refusal);
}

static void store(void)
{
    for (size_t i = 0; i < DATA_LENGTH; i++)
        data[i] = (uint8_t)(7 * i + 3);
    must(gesarumbo_store(layout, data, DATA_LENGTH, codeword, CODEWORD_LENGTH) == 0,
         "data are stored");
    must(memcmp(codeword, data, DATA_LENGTH) == 0, "the first trays are the data");
    print_bytes("tray 8:", tray_at(8), LAYERS);
    print_bytes("tray 11:", tray_at(11), LAYERS);
}

static void write_image(uint32_t tray, uint32_t state, uint32_t volume, const uint8_t *symbols)
{
    must(gesarumbo_write_image(layout, tray, state, volume, symbols, LAYERS,
                               image_at(tray), IMAGE) == 0,
         "an image is written");
}

static void write_images(void)
{
    for (uint32_t x = 0; x < TRAYS; x++)
        write_image(x, LIVE, VOLUME, tray_at(x));
    print_bytes("header of tray 5:", image_at(5), IMAGE - LAYERS);
}

/* Tray 5 has been changed for one that was reset: it must not be taken for a live one. */
static void refuse_demonstration(void)
{
    memset(spare, 0, LAYERS);
    write_image(5, DEMONSTRATION, VOLUME + 1, spare);
    for (uint32_t x = 0; x < TRAYS; x++) {
        gesarumbo_image read = gesarumbo_read_image(layout, VOLUME, image_at(x), IMAGE);
        if (read.refusal != 0) {
            printf("tray %u: refused %u, %zu symbols handed out\n", x, read.refusal, read.length);
            continue;
        }
        must(read.tray == x && read.length == LAYERS, "an image is its tray's");
        must(memcmp(image_at(x) + read.offset, tray_at(x), LAYERS) == 0,
             "an image holds its tray's symbols");
    }
}

/* Racks 0, 2 and 3 each send a share for rack 1, which has lost tray 5. */
static void collect_shares(void)
{
    static const uint32_t others[HELPERS] = { 0, 2, 3 };
    memcpy(helpers, others, sizeof others);
    for (size_t i = 0; i < HELPERS; i++)
        must(gesarumbo_share(layout, 1, helpers[i], rack_at(helpers[i]), RACK_LENGTH,
                             shares + i * GROUPS, GROUPS) == 0,
             "a share is worked out");
    uint8_t built[GROUPS] = { 0 };
    for (uint32_t x = 3; x-- > 0;)
        must(gesarumbo_share_add(layout, 1, x, tray_at(x), LAYERS, built, GROUPS) == 0,
             "a tray's part is added");
    must(memcmp(built, shares, GROUPS) == 0, "a share built up tray by tray is the rack's");
    print_bytes("share of rack 0:", shares, GROUPS);
}

static gesarumbo_repaired repair_piece(size_t helpers_count, uint64_t first, uint64_t budget)
{
    return gesarumbo_repair(layout, 5, helpers_count == 0 ? NULL : helpers, helpers_count,
                            shares, SHARES_LENGTH, rack_at(1), RACK_LENGTH, spare, LAYERS,
                            first, budget);
}

/* Reads layers of tray 5 from its spare while it is being repaired. */
static void read_layers(uint64_t groups, uint32_t first, uint32_t end)
{
    gesarumbo_part part = gesarumbo_read_part(layout, codeword, CODEWORD_LENGTH, spare, LAYERS, 5,
                                              groups, 5, first, end);
    if (part.refusal != 0) {
        printf("layers %u to %u: refused %u\n", first, end - 1, part.refusal);
        return;
    }
    must(part.source == 2 && part.length == end - first, "the lost tray is read from the spare");
    print_bytes("read:", spare + part.offset, part.length);
}

static void repair_in_pieces(void)
{
    uint8_t kept[LAYERS];
    memcpy(kept, tray_at(5), LAYERS);
    memset(tray_at(5), 0xFF, LAYERS);
    memset(spare, 0xEE, LAYERS);
    uint64_t done = 0, crossed = 0;
    while (done < GROUPS) {
        gesarumbo_repaired piece = repair_piece(HELPERS, done, 3);
        must(piece.refusal == 0 && piece.groups > 0, "a piece is done");
        done += piece.groups;
        crossed += piece.crossed;
        printf("groups %u of %u, crossed %u, still to come %u\n", (unsigned)done, GROUPS,
               (unsigned)crossed, (unsigned)piece.remaining);
        print_bytes("spare:", spare, LAYERS);
        read_layers(done, 1, 4);
        read_layers(done, 4, 6);
    }
    printf("from group %u: refused %u\n", GROUPS + 1, repair_piece(HELPERS, GROUPS + 1, 0).refusal);
    printf("tray 5 is %s\n", memcmp(spare, kept, LAYERS) == 0 ? "as it was" : "wrong");
    memcpy(tray_at(5), spare, LAYERS);
}

/* The works print a card for group 3 of the same repair; at first one multiplier is wrong. */
static void repair_by_card(void)
{
    must(gesarumbo_card(layout, 5, helpers, HELPERS, 3, card, CARD) == 0, "a card is printed");
    print_bytes("card of group 3:", card, CARD);
    card[4] ^= 1;
    printf("a wrong card: refused %u\n",
           gesarumbo_card_test(layout, 5, helpers, HELPERS, card, CARD, 3));
    card[4] ^= 1;
    must(gesarumbo_card_test(layout, 5, helpers, HELPERS, card, CARD, 3) == 0,
         "the card that was printed is right");
    memset(spare, 0xEE, LAYERS);
    gesarumbo_repaired done = gesarumbo_card_repair(layout, 5, helpers, HELPERS, card, CARD, shares,
                                                    SHARES_LENGTH, rack_at(1), RACK_LENGTH, spare,
                                                    LAYERS, 3);
    must(done.refusal == 0 && done.groups == 1, "a group is repaired by its card");
    printf("by card: crossed %u, still to come %u\n", (unsigned)done.crossed,
           (unsigned)done.remaining);
    print_bytes("spare:", spare, LAYERS);
}

static void print_test(void)
{
    gesarumbo_tested t = gesarumbo_test(layout, codeword, CODEWORD_LENGTH);
    must(t.refusal == 0, "a codeword is tested");
    if (t.verdict == 1)
        printf("test: sound\n");
    else
        printf("test: layer %u, check %u\n", t.layer, t.check);
}

static void test(void)
{
    print_test();
    tray_at(2)[6] ^= 1;
    tray_at(9)[11] ^= 1;
    print_test();
    tray_at(2)[6] ^= 1;
    tray_at(9)[11] ^= 1;
}

/* The night check: seven layers a call, over a codeword with two bad layers. */
static void scrub(void)
{
    static const char *const reports[] = { "none", "unfinished", "sound", "bad" };
    gesarumbo_scrub_record any = { 99, 99, 99 };
    tray_at(2)[6] ^= 1;
    tray_at(9)[11] ^= 1;
    gesarumbo_scrubbed s = gesarumbo_scrub_reset(layout, any);
    must(s.refusal == 0 && s.report == 0, "a walk begins");
    do {
        s = gesarumbo_scrub(layout, codeword, CODEWORD_LENGTH, s.record, 7);
        must(s.refusal == 0, "a call of the walk is done");
        printf("scrub: %s, %u of %u layers seen, %u bad, the first is %u\n", reports[s.report],
               s.record.next, LAYERS, s.record.bad, s.record.first);
    } while (s.report == 1);
    *record = any;
    gesarumbo_reported r = gesarumbo_scrub_reset_in_place(layout, record);
    must(r.refusal == 0 && r.report == 0, "a walk begins in its place");
    do {
        r = gesarumbo_scrub_in_place(layout, codeword, CODEWORD_LENGTH, record, 7);
        must(r.refusal == 0, "a call of the walk is done in its place");
    } while (r.report == 1);
    printf("scrub in place: %s, %u of %u layers seen, %u bad, the first is %u\n", reports[r.report],
           record->next, LAYERS, record->bad, record->first);
    tray_at(2)[6] ^= 1;
    tray_at(9)[11] ^= 1;
    s = gesarumbo_scrub(layout, codeword, CODEWORD_LENGTH, any, 7);
    must(s.record.next == 99 && s.record.bad == 99 && s.record.first == 99,
         "a refused call hands back the record as it came");
    *record = any;
    r = gesarumbo_scrub_in_place(layout, codeword, CODEWORD_LENGTH, record, 7);
    must(memcmp(record, &any, sizeof any) == 0, "a refused call leaves the record as it was");
    printf("scrub with another record: refused %u, in place %u\n", s.refusal, r.refusal);
}

static void recover(void)
{
    uint8_t kept[CODEWORD_LENGTH], damaged[CODEWORD_LENGTH];
    memcpy(kept, codeword, CODEWORD_LENGTH);
    erased[0] = 1;
    erased[1] = 10;
    memset(tray_at(1), 0, LAYERS);
    memset(tray_at(10), 0, LAYERS);
    tray_at(4)[15] ^= 1;
    memcpy(damaged, codeword, CODEWORD_LENGTH);
    printf("two erased, one damaged: refused %u\n",
           gesarumbo_recover(layout, codeword, CODEWORD_LENGTH, erased, 2));
    must(memcmp(codeword, damaged, CODEWORD_LENGTH) == 0, "a refusal changes nothing");
    tray_at(4)[15] ^= 1;
    must(gesarumbo_recover(layout, codeword, CODEWORD_LENGTH, erased, 2) == 0,
         "two trays are recovered");
    printf("two erased: all trays %s\n",
           memcmp(codeword, kept, CODEWORD_LENGTH) == 0 ? "as they were" : "wrong");
}

static void print_kept(const char *name, const uint32_t *list, size_t count)
{
    gesarumbo_kept kept = gesarumbo_test_kept(layout, codeword, CODEWORD_LENGTH, list, count);
    must(kept.refusal == 0, "what is there is tested");
    if (kept.verdict == 1)
        printf("%s: sound, by %u checks\n", name, kept.checks);
    else
        printf("%s: layer %u, by %u checks\n", name, kept.layer, kept.checks);
}

/* Trays 1 and 10 are erased, and tray 4 is wrong in two layers; then tray 7 is wrong too. */
static void correct_a_tray(void)
{
    uint8_t kept[CODEWORD_LENGTH], damaged[CODEWORD_LENGTH];
    memcpy(kept, codeword, CODEWORD_LENGTH);
    memset(tray_at(1), 0, LAYERS);
    memset(tray_at(10), 0xFF, LAYERS);
    print_kept("two erased", erased, 2);
    tray_at(4)[15] ^= 1;
    tray_at(4)[2] ^= 0x80;
    print_kept("two erased, one wrong", erased, 2);
    print_kept("none erased", NULL, 0);
    memcpy(damaged, codeword, CODEWORD_LENGTH);
    gesarumbo_recovered one =
        gesarumbo_recover_correcting(layout, codeword, CODEWORD_LENGTH, erased, 2);
    printf("correcting: refused %u, tray %u was wrong, %u checks left, all trays %s\n", one.refusal,
           one.tray, one.checks,
           memcmp(codeword, kept, CODEWORD_LENGTH) == 0 ? "as they were" : "wrong");
    gesarumbo_recovered none =
        gesarumbo_recover_correcting(layout, codeword, CODEWORD_LENGTH, erased, 2);
    must(none.refusal == 0 && none.tray == TRAYS, "a codeword names no tray");
    must(memcmp(codeword, kept, CODEWORD_LENGTH) == 0, "a codeword is kept");

    memcpy(codeword, damaged, CODEWORD_LENGTH);
    tray_at(7)[3] ^= 1;
    memcpy(damaged, codeword, CODEWORD_LENGTH);
    gesarumbo_recovered two =
        gesarumbo_recover_correcting(layout, codeword, CODEWORD_LENGTH, erased, 2);
    printf("two wrong: refused %u\n", two.refusal);
    must(two.tray == 0 && two.checks == 0, "a refusal's other numbers are 0");
    must(memcmp(codeword, damaged, CODEWORD_LENGTH) == 0, "a refusal changes nothing");
    memcpy(codeword, kept, CODEWORD_LENGTH);
}

/* At place 5 stands the reset tray; at places 2 and 8 stand each other's trays, and 11 is empty. */
static void gather(void)
{
    static const uint32_t due[] = { 2, 5, 8, 11 };
    enum { MISSING = 4, OTHER = 0x55AA55AA };
    must(gesarumbo_store(layout, data, DATA_LENGTH, codeword, CODEWORD_LENGTH) == 0,
         "data are stored again");
    uint8_t held[IMAGE];
    memcpy(held, image_at(2), IMAGE);
    memcpy(image_at(2), image_at(8), IMAGE);
    memcpy(image_at(8), held, IMAGE);
    memset(image_at(11), 0, IMAGE);
    must(gesarumbo_states(layout, VOLUME, images, TRAYS * IMAGE, states, TRAYS) == 0,
         "states are told");
    print_bytes("states:", states, TRAYS);
    printf("margin of these %d\n", gesarumbo_margin(layout, states, TRAYS).margin);
    for (size_t i = 0; i < TRAYS; i++)
        missing[i] = OTHER;
    memset(gathered, 0xEE, CODEWORD_LENGTH);
    gesarumbo_gathered all = gesarumbo_gather(layout, VOLUME, images, TRAYS * IMAGE, gathered,
                                              CODEWORD_LENGTH, missing, TRAYS);
    must(all.refusal == 0 && all.count == MISSING, "four trays are missing");
    must(memcmp(missing, due, sizeof due) == 0, "they are listed");
    for (size_t i = MISSING; i < TRAYS; i++)
        must(missing[i] == OTHER, "the rest of the list is as it was");
    for (uint32_t x = 0, i = 0; x < TRAYS; x++) {
        int there = i == MISSING || due[i] != x;
        for (size_t j = 0; j < LAYERS; j++)
            must(gathered[x * LAYERS + j] == (there ? tray_at(x)[j] : 0), "a tray is gathered");
        i += !there;
    }
    must(gesarumbo_recover(layout, gathered, CODEWORD_LENGTH, missing, all.count) == 0,
         "what was gathered is recovered");
    printf("gathered and recovered: %u trays missing, all trays %s\n", all.count,
           memcmp(gathered, codeword, CODEWORD_LENGTH) == 0 ? "as they were" : "wrong");
    gesarumbo_gathered other = gesarumbo_gather(layout, VOLUME, images, TRAYS * IMAGE - 1, gathered,
                                                CODEWORD_LENGTH, missing, TRAYS);
    must(memcmp(gathered, codeword, CODEWORD_LENGTH) == 0, "a refusal changes nothing");
    must(memcmp(missing, due, sizeof due) == 0, "a refusal leaves the list");
    printf("images cut: refused %u, %u\n", other.refusal, other.count);
}

/* Rack 0 has another's tray at place 2, rack 1 a reset one at 5, rack 3 an empty place 11. */
static void gather_racks(void)
{
    static const uint32_t lost_ones[] = { 2, 5, 11 }, of[] = { 0, 1, 3 };
    for (size_t i = 0; i < 3; i++) {
        memset(rack, 0xEE, RACK_LENGTH);
        const uint8_t *at = image_at(of[i] * SIZE);
        uint32_t refused = gesarumbo_gather_rack(layout, VOLUME, of[i], NULL, 0, at, SIZE * IMAGE,
                                                 rack, RACK_LENGTH);
        for (size_t j = 0; j < RACK_LENGTH; j++)
            must(rack[j] == 0xEE, "a refusal changes nothing");
        *lost = lost_ones[i];
        must(gesarumbo_gather_rack(layout, VOLUME, of[i], lost, 1, at, SIZE * IMAGE, rack,
                                   RACK_LENGTH) == 0,
             "a rack is gathered without its lost tray");
        printf("rack %u: refused %u, without tray %u done\n", of[i], refused, *lost);
        for (size_t j = 0; j < RACK_LENGTH; j++) {
            int is_lost = j / LAYERS == *lost % SIZE;
            must(rack[j] == (is_lost ? 0xEE : rack_at(of[i])[j]), "each tray is at its place");
        }
    }
    *lost = 3;
    printf("a tray of another rack: refused %u\n",
           gesarumbo_gather_rack(layout, VOLUME, 0, lost, 1, images, SIZE * IMAGE, rack,
                                 RACK_LENGTH));
}

static void checksum(void)
{
    memcpy(nine, "123456789", 9);
    uint64_t whole = gesarumbo_checksum(0, nine, 9);
    must(gesarumbo_checksum(gesarumbo_checksum(0, nine, 4), nine + 4, 5) == whole,
         "a checksum in parts is that in one go");
    must(gesarumbo_checksum(whole, NULL, 0) == whole, "nothing changes no checksum");
    printf("checksum %08X%08X\n", (unsigned)(whole >> 32), (unsigned)whole);
}

static void margin(void)
{
    memset(states, LIVE, TRAYS);
    gesarumbo_margin_result all = gesarumbo_margin(layout, states, TRAYS);
    memset(states, ABSENT, 5);
    gesarumbo_margin_result seven = gesarumbo_margin(layout, states, TRAYS);
    must(all.refusal == 0 && seven.refusal == 0, "a margin below zero is an answer");
    printf("margin with 12 trays %d, with 7 trays %d\n", all.margin, seven.margin);
}

/* A buffer of length 0 may be NULL: an empty list, or a length that is refused. */
static void lend_nothing(void)
{
    gesarumbo_scrub_record nothing_seen = { 0, 0, LAYERS };
    printf("nothing lent: test %u", gesarumbo_test(layout, NULL, 0).refusal);
    printf(", store %u", gesarumbo_store(layout, NULL, 0, NULL, 0));
    printf(", recover %u", gesarumbo_recover(layout, NULL, 0, NULL, 0));
    printf(", share %u", gesarumbo_share(layout, 1, 0, NULL, 0, NULL, 0));
    printf(", repair %u",
           gesarumbo_repair(layout, 5, NULL, 0, NULL, 0, NULL, 0, NULL, 0, 0, 1).refusal);
    printf(", of many %u %u", gesarumbo_share_many(layout, 1, 1, 0, NULL, 0, NULL, 0),
           gesarumbo_repair_many(layout, NULL, 0, NULL, 0, NULL, 0, NULL, 0, NULL, 0, 0, 1)
               .refusal);
    printf(", correcting %u",
           gesarumbo_repair_correcting(wary, 5, NULL, 0, NULL, 0, NULL, 0, NULL, 0).refusal);
    printf(", cards %u %u %u", gesarumbo_card(layout, 5, NULL, 0, 0, NULL, 0),
           gesarumbo_card_test(layout, 5, NULL, 0, NULL, 0, 0),
           gesarumbo_card_repair(layout, 5, NULL, 0, NULL, 0, NULL, 0, NULL, 0, NULL, 0, 0)
               .refusal);
    printf(", part %u",
           gesarumbo_read_part(layout, NULL, 0, NULL, 0, 5, 0, 5, 0, 0).refusal);
    printf(", write %u", gesarumbo_write_image(layout, 5, LIVE, VOLUME, NULL, 0, NULL, 0));
    printf(", read %u", gesarumbo_read_image(layout, VOLUME, NULL, 0).refusal);
    printf(", margin %u", gesarumbo_margin(layout, NULL, 0).refusal);
    printf(", scrub %u", gesarumbo_scrub(layout, NULL, 0, nothing_seen, 1).refusal);
    printf(", recover correcting %u",
           gesarumbo_recover_correcting(layout, NULL, 0, NULL, 0).refusal);
    printf(", test kept %u", gesarumbo_test_kept(layout, NULL, 0, NULL, 0).refusal);
    printf(", states %u", gesarumbo_states(layout, VOLUME, NULL, 0, NULL, 0));
    printf(", gather %u %u\n",
           gesarumbo_gather(layout, VOLUME, NULL, 0, NULL, 0, NULL, 0).refusal,
           gesarumbo_gather_rack(layout, VOLUME, 1, NULL, 0, NULL, 0, NULL, 0));
    printf("no tray erased: %u, no helpers: %u, no tray lost: %u\n",
           gesarumbo_recover(layout, codeword, CODEWORD_LENGTH, NULL, 0),
           repair_piece(0, 0, 1).refusal,
           gesarumbo_repair_many(layout, NULL, 0, helpers, HELPERS, NULL, 0, rack_at(1),
                                 RACK_LENGTH, NULL, 0, 0, 1).refusal);
}

/* Racks 0, 2 and 3 each send two shares for rack 1, which has lost trays 3 and 5. */
static void collect_shares_of_two(void)
{
    enum { EACH = LOST * GROUPS };
    for (size_t i = 0; i < HELPERS; i++)
        must(gesarumbo_share_many(less, LOST, 1, helpers[i], rack_at(helpers[i]), RACK_LENGTH,
                                  shares_of_two + i * EACH, EACH) == 0,
             "a rack's shares are worked out");
    uint8_t built[EACH] = { 0 };
    for (uint32_t x = 3; x-- > 0;)
        must(gesarumbo_share_add_many(less, LOST, 1, x, tray_at(x), LAYERS, built, EACH) == 0,
             "a tray's part is added");
    must(memcmp(built, shares_of_two, EACH) == 0, "shares built up tray by tray are the rack's");
    print_bytes("shares of rack 0:", shares_of_two, EACH);
}

static gesarumbo_repaired repair_two(gesarumbo_layout of, uint64_t first, uint64_t budget)
{
    return gesarumbo_repair_many(of, lost, LOST, helpers, HELPERS,
                                 shares_of_two, LOST * SHARES_LENGTH, rack_at(1), RACK_LENGTH,
                                 two_spares, LOST * LAYERS, first, budget);
}

/* A power strip takes trays 3 and 5. With more data they could be recovered, but not repaired. */
static void repair_two_in_pieces(void)
{
    uint8_t kept[LOST * LAYERS], noise[LOST * LAYERS];
    must(gesarumbo_store(less, data, LESS_DATA * LAYERS, codeword, CODEWORD_LENGTH) == 0,
         "less data are stored");
    collect_shares_of_two();
    memset(noise, 0xEE, sizeof noise);
    memcpy(two_spares, noise, sizeof noise);
    for (uint32_t i = 0; i < LOST; i++) {
        lost[i] = 3 + 2 * i;
        memcpy(kept + i * LAYERS, tray_at(lost[i]), LAYERS);
        memset(tray_at(lost[i]), 0xFF, LAYERS);
    }
    printf("two lost of one rack, with more data: refused %u\n", repair_two(layout, 0, 5).refusal);
    must(memcmp(two_spares, noise, sizeof noise) == 0, "a refusal changes nothing");
    for (uint64_t done = 0; done < GROUPS; done += 5) {
        gesarumbo_repaired piece = repair_two(less, done, 5);
        must(piece.refusal == 0, "a piece is done");
        printf("two lost of one rack: crossed %u, still to come %u\n", (unsigned)piece.crossed,
               (unsigned)piece.remaining);
    }
    printf("trays 3 and 5 are %s\n",
           memcmp(two_spares, kept, sizeof kept) == 0 ? "as they were" : "wrong");
}

/* Racks 0, 2, 3 and 4 each send a share for rack 1, which has lost tray 4. */
static void collect_wary_shares(void)
{
    static const uint32_t others[WARY_HELPERS] = { 0, 2, 3, 4 };
    memcpy(wary_helpers, others, sizeof others);
    for (size_t i = 0; i < WARY_HELPERS; i++)
        must(gesarumbo_share(wary, 1, others[i], wary_codeword + others[i] * WARY_RACK, WARY_RACK,
                             wary_shares + i * WARY_GROUPS, WARY_GROUPS) == 0,
             "a share is worked out");
}

static gesarumbo_corrected repair_correcting(gesarumbo_layout of)
{
    return gesarumbo_repair_correcting(of, 4, wary_helpers, WARY_HELPERS, wary_shares, WARY_SHARES,
                                       wary_codeword + WARY_RACK, WARY_RACK, wary_spare,
                                       WARY_LAYERS);
}

/* Rack 3 sends a share of what it held last year; then rack 4 sends a wrong symbol besides. */
static void correct_a_share(void)
{
    const uint8_t *tray = wary_codeword + 4 * WARY_LAYERS;
    must(gesarumbo_store(wary, data, WARY_DATA * WARY_LAYERS, wary_codeword,
                         WARY_TRAYS * WARY_LAYERS) == 0,
         "data are stored where a share may be wrong");
    collect_wary_shares();
    gesarumbo_corrected all = repair_correcting(wary);
    must(all.refusal == 0 && all.rack == WARY_RACKS, "true shares name no rack");
    must(memcmp(wary_spare, tray, WARY_LAYERS) == 0, "the tray comes back");

    for (size_t p = 0; p < WARY_GROUPS; p++)
        wary_shares[2 * WARY_GROUPS + p] ^= (uint8_t)(p % 3);
    memset(wary_spare, 0xEE, WARY_LAYERS);
    gesarumbo_corrected one = repair_correcting(wary);
    printf("a stale share: rack %u named, crossed %u, tray 4 is %s\n", one.rack,
           (unsigned)one.crossed,
           memcmp(wary_spare, tray, WARY_LAYERS) == 0 ? "as it was" : "wrong");

    wary_shares[3 * WARY_GROUPS] ^= 1;
    gesarumbo_corrected two = repair_correcting(wary);
    printf("two wrong shares: refused %u; in pieces: refused %u; with E = 0: refused %u\n",
           two.refusal,
           gesarumbo_repair(wary, 4, wary_helpers, WARY_HELPERS, wary_shares, WARY_SHARES,
                            wary_codeword + WARY_RACK, WARY_RACK, wary_spare, WARY_LAYERS, 0, 1)
               .refusal,
           repair_correcting(layout).refusal);
    must(two.rack == 0 && two.crossed == 0, "a refusal's other numbers are 0");
    must(memcmp(wary_spare, tray, WARY_LAYERS) == 0, "a refusal changes nothing");
}

/* Takes the part of codeword q, so many bytes, out of a batch. */
static void part(uint8_t *taken, const uint8_t *from, size_t count, size_t q)
{
    for (size_t i = 0; i < count; i++)
        taken[i] = from[i * MANY + q];
}

/* Whether a share is the part of codeword q. */
static int is_part(const uint8_t *alone, const uint8_t *of, size_t count, size_t q)
{
    for (size_t i = 0; i < count; i++)
        if (of[i * MANY + q] != alone[i])
            return 0;
    return 1;
}

/* Fills the batch by the call for one codeword. */
static void fill_batch(void)
{
    for (size_t i = 0; i < MANY * DATA_LENGTH; i++)
        batch_data[i] = (uint8_t)(i * i / 5 + 3 * i);
    for (size_t q = 0; q < MANY; q++) {
        part(one_data, batch_data, DATA_LENGTH, q);
        must(gesarumbo_store(layout, one_data, DATA_LENGTH, one, CODEWORD_LENGTH) == 0,
             "a part of the data is stored");
        for (size_t i = 0; i < CODEWORD_LENGTH; i++)
            batch[i * MANY + q] = one[i];
    }
}

/* Over the same data the batch is what it was, whatever it held. */
static void store_batch(void)
{
    enum { DATA_OF_ALL = MANY * DATA_LENGTH, ALL = MANY * CODEWORD_LENGTH };
    static uint8_t kept[ALL];
    memcpy(kept, batch, ALL);
    memset(batch, 0xEE, ALL);
    must(gesarumbo_store_batch(layout, MANY, batch_data, DATA_OF_ALL, batch, ALL) == 0,
         "a batch is stored");
    must(memcmp(batch, kept, ALL) == 0, "each part is stored as it is alone");
    part(one, batch, CODEWORD_LENGTH, MANY - 1);
    print_bytes("codeword 16, tray 11:", one + 11 * LAYERS, LAYERS);
    printf("batch: a codeword too few: refused %u, no codeword: %u, 2^63 of none: refused %u\n",
           gesarumbo_store_batch(layout, MANY + 1, batch_data, DATA_OF_ALL, batch, ALL),
           gesarumbo_store_batch(layout, 0, NULL, 0, NULL, 0),
           gesarumbo_store_batch(layout, SIZE_MAX / 2 + 1, NULL, 0, NULL, 0));
    must(memcmp(batch, kept, ALL) == 0, "a refusal changes nothing");
}

/* Racks 0, 2 and 3 each send a share of all codewords for rack 1. */
static void share_batch(void)
{
    enum { RACK = MANY * RACK_LENGTH, SHARE = MANY * GROUPS };
    for (size_t i = 0; i < HELPERS; i++) {
        const uint8_t *from = batch + helpers[i] * RACK;
        uint8_t *share = batch_shares + i * SHARE;
        must(gesarumbo_share_batch(layout, MANY, 1, helpers[i], from, RACK, share, SHARE) == 0,
             "a share of a batch is worked out");
        for (size_t q = 0; q < MANY; q++) {
            part(one, from, RACK_LENGTH, q);
            must(gesarumbo_share(layout, 1, helpers[i], one, RACK_LENGTH, one_share, GROUPS) == 0,
                 "a part's share is worked out");
            must(is_part(one_share, share, GROUPS, q), "each part's share is as it is alone");
        }
    }
    print_bytes("share of rack 3, codeword 16:", one_share, GROUPS);
    printf("batch of none: share %u, refused %u for a rack, %u for its own, %u for its length\n",
           gesarumbo_share_batch(layout, 0, 1, 0, NULL, 0, NULL, 0),
           gesarumbo_share_batch(layout, 0, 1, RACKS, NULL, 0, NULL, 0),
           gesarumbo_share_batch(layout, 0, 1, 1, NULL, 0, NULL, 0),
           gesarumbo_share_batch(layout, 0, 1, 0, batch, RACK, batch_shares, SHARE));
}

static gesarumbo_repaired repair_batch_piece(size_t many, uint64_t first, uint64_t budget)
{
    enum { RACK = MANY * RACK_LENGTH };
    return gesarumbo_repair_batch(layout, many, 5, helpers, HELPERS, batch_shares,
                                  MANY * SHARES_LENGTH, batch + RACK, RACK, batch_spare,
                                  MANY * LAYERS, first, budget);
}

/* Tray 5 of all codewords is lost, and comes back in pieces of three groups. */
static void repair_batch(void)
{
    enum { TRAY = MANY * LAYERS };
    static uint8_t kept[TRAY];
    uint8_t *tray = batch + 5 * TRAY;
    memcpy(kept, tray, TRAY);
    memset(tray, 0xFF, TRAY);
    memset(batch_spare, 0xEE, TRAY);
    for (uint64_t done = 0; done < GROUPS; done += 3) {
        gesarumbo_repaired piece = repair_batch_piece(MANY, done, 3);
        must(piece.refusal == 0, "a piece of a batch is done");
        printf("batch, groups %u: crossed %u, still to come %u\n", (unsigned)piece.groups,
               (unsigned)piece.crossed, (unsigned)piece.remaining);
        for (size_t j = 0; done == 0 && j < LAYERS; j++)
            for (size_t q = 0; q < MANY; q++)
                must(batch_spare[j * MANY + q] == (j < 5 || j == 6 ? kept[j * MANY + q] : 0xEE),
                     "a piece writes the layers of its groups in every part");
    }
    printf("batch: from group %u: refused %u; a codeword too few: refused %u\n", GROUPS + 1,
           repair_batch_piece(MANY, GROUPS + 1, 0).refusal,
           repair_batch_piece(MANY + 1, 0, 1).refusal);
    gesarumbo_repaired none = gesarumbo_repair_batch(layout, 0, 5, helpers, HELPERS, NULL, 0, NULL,
                                                     0, NULL, 0, 2, 4);
    must(none.refusal == 0 && none.crossed == 0 && none.remaining == 0, "of none nothing crosses");
    printf("batch of none: groups %u, no helpers: refused %u\n", (unsigned)none.groups,
           gesarumbo_repair_batch(layout, 0, 5, NULL, 0, NULL, 0, NULL, 0, NULL, 0, 0, 1).refusal);
    printf("tray 5 of every codeword is %s\n",
           memcmp(batch_spare, kept, TRAY) == 0 ? "as it was" : "wrong");
    memcpy(tray, kept, TRAY);
}

int main(void)
{
    lend_all();
    measure();
    store();
    write_images();
    refuse_demonstration();
    collect_shares();
    repair_in_pieces();
    repair_by_card();
    test();
    scrub();
    recover();
    correct_a_tray();
    margin();
    lend_nothing();
    repair_two_in_pieces();
    correct_a_share();
    gather();
    gather_racks();
    checksum();
    fill_batch();
    store_batch();
    share_batch();
    repair_batch();
    must(guards_untouched(), "no byte beside a buffer is written");
    return 0;
}
