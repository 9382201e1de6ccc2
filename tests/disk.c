/* The proved parts of a disk driver as C links them, beside straightforward C: bytes both ways, headers with each bit flipped, every sector of
 * random tables of all widths, commit sectors damaged, the steps of a store. Prints "N passed, M failed". */
#include "keeper_disk_inside.h"

#include <stdio.h>
#include <string.h>

static unsigned long passed, failed;

static void is(int holds, const char *what) {
    if (holds)
        passed++;
    else if (failed++ < 20)
        printf("wrong: %s\n", what);
}

/* numbers that look random, the same in every run */
static uint32_t draw(void) {
    static uint64_t x = 88172645463325252u;
    x ^= x << 13;
    x ^= x >> 7;
    x ^= x << 17;
    return (uint32_t)(x >> 16);
}

static uint32_t below(uint32_t n) { return draw() % n; }

static void fill(uint32_t *words, size_t count) {
    for (size_t i = 0; i < count; i++)
        words[i] = draw();
}

static int same(const uint32_t *a, const uint32_t *b) { return memcmp(a, b, DISK_BYTES) == 0; }

/* ---- bytes ---- */
static void bytes(void) {
    uint32_t words[DISK_WORDS], back[DISK_WORDS];
    uint8_t there[DISK_BYTES];
    for (int turn = 0; turn < 500; turn++) {
        int ok = 1;
        fill(words, DISK_WORDS);
        disk_to_bytes(words, there);
        for (int i = 0; i < DISK_BYTES; i++)
            ok &= there[i] == (uint8_t)(words[i / 4] >> (8 * (i % 4)));
        is(ok, "low byte first");
        disk_from_bytes(there, back);
        is(same(words, back), "back after to");
    }
}

/* ---- the header ---- */
static KeeperSizes some_sizes(void) {
    KeeperSizes z = {1 + below(1024), 1 + below(4096), draw(), 1 + below(64), 1 + below(256), 1 + below(16), draw()};
    return z;
}

static void header_words(KeeperSizes z, uint32_t *words) {
    uint32_t first[8] = {0x5045454B, 0x4B534944, 5, (uint32_t)z.words, (uint32_t)z.records, (uint32_t)z.slots, (uint32_t)z.pages, (uint32_t)z.accounts};
    memset(words, 0, DISK_BYTES);
    memcpy(words, first, sizeof first);
}

/* What a look at a header with one bit flipped must find. */
static uint32_t reason(int word) { return word < 2 ? DISK_FOREIGN : word == 2 ? DISK_OTHER_VERSION : word < 8 ? DISK_OTHER_SIZES : DISK_FOREIGN; }

static int limits(const uint32_t *words) {
    return words[3] - 1 < 1024 && words[4] - 1 < 4096 && words[5] - 1 < 64 && words[6] - 1 < 256 && words[7] - 1 < 16;
}

static void flipped(KeeperSizes z, uint32_t *words) {
    int ok = 1, said_ok = 1;
    for (int bit = 0; bit < 32 * DISK_WORDS; bit++) {
        int word = bit / 32;
        words[word] ^= (uint32_t)1 << bit % 32;
        DiskSaid said = disk_header_sizes(words);
        ok &= disk_look_header(z, words) == reason(word);
        if (word < 3 || word >= 8)
            said_ok &= said.refusal == reason(word) && said.words == 0 && said.accounts == 0;
        else
            said_ok &= said.refusal == (limits(words) ? 0u : DISK_OUT_OF_LIMITS) && said.words == (limits(words) ? words[3] : 0);
        words[word] ^= (uint32_t)1 << bit % 32;
    }
    is(ok, "a header with one bit flipped");
    is(said_ok, "the sizes of a header with one bit flipped");
}

static void header(void) {
    uint32_t words[DISK_WORDS], want[DISK_WORDS], zeros[DISK_WORDS] = {0};
    for (int turn = 0; turn < 30; turn++) {
        KeeperSizes z = some_sizes();
        header_words(z, want);
        fill(words, DISK_WORDS);
        is(disk_fill_header(z, words) == 0 && same(words, want), "a header filled");
        is(disk_look_header(z, words) == DISK_OURS, "a header looked at");
        DiskSaid said = disk_header_sizes(words);
        is(said.refusal == 0 && said.words == z.words && said.records == z.records && said.slots == z.slots && said.pages == z.pages && said.accounts == z.accounts, "the sizes that it says");
        is(disk_look_header(z, zeros) == DISK_BLANK && disk_header_sizes(zeros).refusal == DISK_BLANK, "zeros");
        flipped(z, words);
        size_t *one[5] = {&z.words, &z.records, &z.slots, &z.pages, &z.accounts}, most[5] = {1024, 4096, 64, 256, 16};
        for (int i = 0; i < 5; i++) {
            size_t kept = *one[i], wrong[4] = {0, most[i] + 1, kept + ((size_t)1 << 32), (size_t)-1};
            for (int k = 0; k < 4; k++) {
                *one[i] = wrong[k];
                memcpy(words, want, DISK_BYTES);
                is(disk_fill_header(z, words) == 1 && same(words, want), "sizes out of limits are not filled");
                is(disk_look_header(z, want) == DISK_OTHER_SIZES, "sizes out of limits are others");
                is(disk_room(z) == 0 && disk_table(z, below(7)).begins == 0, "they have no room");
            }
            *one[i] = kept;
        }
    }
}

/* ---- where things are ---- */
static void places(void) {
    for (int turn = 0; turn < 2000; turn++) {
        KeeperSizes z = some_sizes();
        uint32_t width[7] = {(uint32_t)z.words, (uint32_t)z.pages, (uint32_t)z.slots, (uint32_t)z.slots, (uint32_t)z.accounts, (uint32_t)z.accounts, 1};
        uint32_t rows[7] = {(uint32_t)z.records, (uint32_t)z.slots, 1, 1, 1, 1, 1}, next = 1;
        int ok = 1;
        for (uint32_t t = 0; t < 7; t++) {
            DiskPlace at = disk_table(z, t);
            uint32_t sectors = width[t] / 128 + (width[t] % 128 != 0);
            ok &= at.begins == next && at.rows == rows[t] && at.width == width[t] && at.sectors == sectors;
            next += rows[t] * sectors;
        }
        DiskPlace none = disk_table(z, 7 + below(4000000000u));
        is(ok && none.begins == 0 && none.rows == 0 && none.width == 0 && none.sectors == 0, "where a table is");
        is(disk_room(z) == next, "how many home sectors there are");
    }
}

/* ---- a table's sectors ---- */
enum { MOST_ENTRIES = 6000, MOST_SECTORS = MOST_ENTRIES + 10 };

/* Laid out row by row, entry by entry. */
static void lay(uint32_t width, const uint32_t *table, size_t count, uint32_t sectors[][DISK_WORDS]) {
    uint32_t in_row = width / 128 + (width % 128 != 0);
    memset(sectors, 0, sizeof(uint32_t[MOST_SECTORS][DISK_WORDS]));
    for (size_t i = 0; i < count; i++) {
        uint32_t row = (uint32_t)(i / width), entry = (uint32_t)(i % width);
        sectors[row * in_row + entry / 128][entry % 128] = table[i];
    }
}

static uint32_t full[MOST_ENTRIES], read_back[MOST_ENTRIES], laid[MOST_SECTORS][DISK_WORDS];
static uint16_t halves[MOST_ENTRIES], halves_back[MOST_ENTRIES];

static void one_table(uint32_t width, size_t count) {
    uint32_t words[DISK_WORDS], in_row = width / 128 + (width % 128 != 0), sectors = (uint32_t)((count + width - 1) / width) * in_row;
    int small = draw() % 2, ok = 1;
    for (size_t i = 0; i < count; i++) {
        full[i] = small ? draw() % 65536 : draw();
        halves[i] = (uint16_t)full[i];
    }
    fill(read_back, count);
    memset(halves_back, 7, sizeof halves_back);
    lay(width, full, count, laid);
    for (uint32_t y = 0; y < sectors + 2; y++) {
        fill(words, DISK_WORDS);
        disk_fill_u32(width, full, count, y, words);
        ok &= same(words, laid[y]);
        disk_take_u32(width, y, laid[y], read_back, count);
        if (small) {
            fill(words, DISK_WORDS);
            disk_fill_u16(width, halves, count, y, words);
            ok &= same(words, laid[y]);
            ok &= disk_take_u16(width, y, laid[y], halves_back, count) == 0;
        }
    }
    is(ok, "every sector of a table");
    is(memcmp(full, read_back, count * sizeof *full) == 0, "the table read back");
    is(!small || memcmp(halves, halves_back, count * sizeof *halves) == 0, "the table of u16 read back");
}

/* One sector taken: only its entries change. */
static void one_sector(uint32_t width, size_t count) {
    uint32_t words[DISK_WORDS], in_row = width / 128 + (width % 128 != 0), y = below((uint32_t)(count / width + 1) * in_row + 2);
    fill(full, count);
    fill(words, DISK_WORDS);
    memcpy(read_back, full, count * sizeof *full);
    for (size_t i = 0; i < count; i++)
        if (i / width * in_row + i % width / 128 == y)
            full[i] = words[i % width % 128];
    disk_take_u32(width, y, words, read_back, count);
    is(memcmp(full, read_back, count * sizeof *full) == 0, "one sector taken");
    memset(halves, 7, sizeof halves);
    memset(halves_back, 7, sizeof halves_back);
    for (int j = 0; j < DISK_WORDS; j++)
        words[j] %= 65536;
    words[below(DISK_WORDS)] = 65536 + below(1000);
    is(disk_take_u16(width, y, words, halves_back, count) == 1 && memcmp(halves, halves_back, sizeof halves) == 0, "a word above 65,535 is not taken");
}

static void tables(void) {
    uint32_t words[DISK_WORDS], zeros[DISK_WORDS] = {0};
    for (uint32_t width = 1; width <= 1030; width++) {
        one_table(width, below(MOST_ENTRIES / width + 1) * width);
        one_table(width, below(MOST_ENTRIES));
        one_sector(width, below(MOST_ENTRIES));
    }
    fill(full, MOST_ENTRIES);
    memcpy(read_back, full, sizeof full);
    for (int turn = 0; turn < 100; turn++) {
        uint32_t far = 4294967295u - below(100);
        disk_fill_u32(0, full, MOST_ENTRIES, draw(), words);
        is(same(words, zeros), "a row of no entries");
        disk_take_u32(0, below(50), words, read_back, MOST_ENTRIES);
        disk_fill_u32(far, full, MOST_ENTRIES, far, words);
        is(same(words, zeros), "far past the table");
        disk_take_u32(1 + below(2000), far, words, read_back, MOST_ENTRIES);
        is(memcmp(full, read_back, sizeof full) == 0, "nothing is taken");
    }
}

/* ---- the journal ---- */
static uint32_t looked(const uint32_t *words, uint32_t room) {
    if (words[0] != 0x4A524E4C)
        return DISK_NO_JOURNAL;
    if (words[2] > DISK_MOST)
        return DISK_TOO_MANY;
    for (uint32_t i = 0; i < words[2]; i++)
        if (words[3 + i] >= room)
            return DISK_NO_HOME;
    for (uint32_t i = 3 + words[2]; i < DISK_WORDS; i++)
        if (words[i] != 0)
            return DISK_NOT_ZERO;
    return DISK_STORE;
}

static int found(const uint32_t *words, uint32_t room) {
    DiskFound got = disk_look_commit(words, room);
    int store = looked(words, room) == DISK_STORE;
    return got.what == looked(words, room) && got.sequence == (store ? words[1] : 0) && got.count == (store ? words[2] : 0);
}

static void commits(void) {
    uint32_t words[DISK_WORDS], want[DISK_WORDS], homes[200];
    for (int turn = 0; turn < 400; turn++) {
        uint32_t room = 1 + below(40000), sequence = draw(), count = below(140);
        int ok = 1;
        for (int i = 0; i < 200; i++)
            homes[i] = below(room);
        fill(words, DISK_WORDS);
        memcpy(want, words, DISK_BYTES);
        if (count <= DISK_MOST) {
            memset(want, 0, DISK_BYTES);
            want[0] = 0x4A524E4C, want[1] = sequence, want[2] = count;
            memcpy(want + 3, homes, count * sizeof *homes);
        }
        is(disk_fill_commit(sequence, homes, count, words) == (count > DISK_MOST) && same(words, want), "a commit sector");
        is(found(words, room) && (count > DISK_MOST || looked(words, room) == DISK_STORE), "a commit sector looked at");
        for (int bit = 0; bit < 32 * DISK_WORDS; bit++) {
            words[bit / 32] ^= (uint32_t)1 << bit % 32;
            ok &= found(words, room);
            words[bit / 32] ^= (uint32_t)1 << bit % 32;
        }
        is(ok, "a commit sector with one bit flipped");
    }
}

static void steps(void) {
    for (int turn = 0; turn < 400; turn++) {
        uint32_t count = below(126), sequence = draw(), x = draw(), i = below(140);
        int ok = 1;
        for (uint32_t at = 0; at < 2 * count + 5; at++) {
            DiskStep step = disk_ask(count, at), back = disk_recover(count, at);
            uint32_t past = at - count, what = at < count ? DISK_CONTENT : past == 1 ? DISK_COMMIT : past < 3 ? DISK_SYNC : past < 3 + count ? DISK_TO_HOME : DISK_DONE;
            ok &= step.what == what && step.number == (what == DISK_CONTENT ? at : what == DISK_TO_HOME ? past - 3 : 0);
            ok &= back.what == (at < count ? DISK_COPY : DISK_DONE) && back.number == (at < count ? at : 0);
        }
        is(ok, "the steps of a store and of a recovery");
        is(disk_next_sequence(sequence) == (uint32_t)(sequence + 1), "the next sequence number");
        is(disk_area(sequence, i) == (i < DISK_MOST ? 1 + (sequence % 2) * DISK_MOST + i : 0), "a sector of an area");
        is(disk_home(x) == (x > 4294967044u ? 0 : x + 251), "a home sector");
    }
    is(disk_next_sequence(4294967295u) == 0, "the sequence begins again");
    is(disk_home(4294967044u) == 4294967295u && disk_home(4294967045u) == 0 && disk_home(4294967295u) == 0, "the last home sector");
    is(disk_area(0, 4294967295u) == 0 && disk_ask(4294967295u, 4294967295u).what == DISK_SYNC, "the highest numbers");
}

int main(void) {
    bytes();
    header();
    places();
    tables();
    commits();
    steps();
    printf("%lu passed, %lu failed\n", passed, failed);
    return failed != 0;
}
