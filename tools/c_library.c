/*
 * c_library IMAGES [SEED]: makes that many EEPROM images by chance and compares what the library says of them with a checker of its own,
 * which is written from ETG.1000.6 and ETG.2010 and shares nothing with the library. Prints how often each code came; the status is 1
 * at the first difference.
 */
#include "pilzhoon.h"
#include <stdio.h>
#include <stdlib.h>
#include <string.h>

enum { MOST_WORDS = 4096, MOST_BYTES = 2 * MOST_WORDS + 3 };

/* ---- chance */

static uint64_t state;

static uint32_t chance(uint32_t below) {
    state = state * 6364136223846793005u + 1442695040888963407u;
    return (uint32_t)((state >> 33) % below);
}

/* ---- the checker */

typedef struct {
    const uint8_t *bytes;
    size_t words;
} view;

static unsigned word(view v, size_t at) { return v.bytes[2 * at] | v.bytes[2 * at + 1] << 8; }

static uint8_t remainder_of(const uint8_t *bytes) {
    unsigned crc = 0xFF;
    for (int i = 0; i < 14; i++) {
        for (int bit = 7; bit >= 0; bit--) {
            unsigned top = (crc >> 7 ^ bytes[i] >> bit) & 1;
            crc = (crc << 1 & 0xFF) ^ (top ? 0x07 : 0);
        }
    }
    return (uint8_t)crc;
}

static uint32_t check_length(size_t length, int device) {
    if (length % 2) return PZ_ODD_LENGTH;
    size_t words = length / 2;
    return words < 64 || words > MOST_WORDS || (device && words % 64) ? PZ_BAD_SIZE : PZ_OK;
}

/* The next category at *at: 1 if there is one, 0 at the end, -1 if it is cut off. */
static int category_at(view v, size_t at) {
    if (at >= v.words || word(v, at) == 0xFFFF) return 0;
    return at + 1 < v.words && at + 2 + word(v, at + 1) <= v.words ? 1 : -1;
}

static int strings_ok(const uint8_t *c, size_t n) {
    if (n == 0) return 1;
    size_t p = 1;
    for (unsigned left = c[0]; left > 0; left--) {
        if (p >= n || p + 1 + c[p] > n) return 0;
        p += 1u + c[p];
    }
    return 1;
}

static int pdos_ok(const uint8_t *c, size_t n) {
    for (size_t p = 0; n - p >= 8;) {
        size_t size = 8 + 8u * c[p + 2];
        if (n - p < size) return 0;
        p += size;
    }
    return 1;
}

static int content_ok(unsigned kind, const uint8_t *c, size_t n) {
    if (kind == 10) return strings_ok(c, n);
    return kind == 50 || kind == 51 ? pdos_ok(c, n) : 1;
}

/* The chain, and where it ends or is cut off. */
typedef struct {
    size_t count, end;
    int cut;
    size_t at[MOST_WORDS];
} chain;

static void walk(view v, chain *all) {
    size_t at = 64;
    int here;
    all->count = 0;
    while ((here = category_at(v, at)) == 1) {
        all->at[all->count++] = at;
        at += 2 + word(v, at + 1);
    }
    all->end = at;
    all->cut = here == -1;
}

static const uint8_t *content_of(view v, size_t at) { return v.bytes + 2 * (at + 2); }
static size_t size_of(view v, size_t at) { return 2 * word(v, at + 1); }

/* The first malformed category of the chain; -1 for none. */
static long malformed(view v, const chain *all) {
    for (size_t i = 0; i < all->count; i++) {
        size_t at = all->at[i];
        if (!content_ok(word(v, at), content_of(v, at), size_of(v, at))) return (long)word(v, at);
    }
    return -1;
}

static chain scratch;

static uint32_t check_image(const uint8_t *bytes, size_t length, size_t *detail) {
    *detail = 0;
    uint32_t code = check_length(length, 0);
    if (code) return code;
    view v = {bytes, length / 2};
    if (bytes[14] != remainder_of(bytes)) return *detail = remainder_of(bytes), PZ_BAD_CHECK;
    walk(v, &scratch);
    if (scratch.cut) return *detail = scratch.end, PZ_RUNS_OUT;
    long bad = malformed(v, &scratch);
    if (bad >= 0) return *detail = (size_t)bad, PZ_BAD_CATEGORY;
    return PZ_OK;
}

/* A sync manager with process data. */
typedef struct {
    unsigned manager, bits, output, start, control;
} row;

static unsigned bits_of(view v, const chain *all, unsigned kind, unsigned manager) {
    unsigned bits = 0;
    for (size_t i = 0; i < all->count; i++) {
        size_t at = all->at[i], n = size_of(v, at);
        if (word(v, at) != kind) continue;
        const uint8_t *c = content_of(v, at);
        for (size_t p = 0; n - p >= 8; p += 8 + 8u * c[p + 2]) {
            for (unsigned e = 0; e < c[p + 2] && c[p + 3] == manager; e++) bits += c[p + 8 + 8 * e + 5];
        }
    }
    return bits;
}

/* The sync managers with process data; -1 where there are more than 8. */
static int rows_of(view v, row *rows) {
    static chain all;
    walk(v, &all);
    if (all.cut) return 0;
    size_t first = 0;
    for (size_t i = all.count; i-- > 0;) {
        unsigned kind = word(v, all.at[i]);
        if (kind == 41) first = all.at[i];
        if ((kind == 50 || kind == 51) && !pdos_ok(content_of(v, all.at[i]), size_of(v, all.at[i]))) return 0;
    }
    if (!first) return 0;
    int count = 0;
    const uint8_t *c = content_of(v, first);
    for (unsigned m = 0; m < 16 && 8 * (m + 1) <= size_of(v, first); m++, c += 8) {
        unsigned bits = c[7] == 3 ? bits_of(v, &all, 51, m) : c[7] == 4 ? bits_of(v, &all, 50, m) : 0;
        if (!bits) continue;
        if (count == 8) return -1;
        rows[count++] = (row){m, bits, c[7] == 3, c[0] | c[1] << 8, c[4]};
    }
    return count;
}

/* Whether the device alone would have no process image: more than 8 segments, or more than 1,486 bytes. */
static uint32_t over_limit(const uint8_t *device, size_t length) {
    row rows[8];
    int count = rows_of((view){device, length / 2}, rows);
    unsigned size = 0;
    for (int i = 0; i < count; i++) size += (rows[i].bits + 7) / 8;
    return count < 0 || size > 1486 ? PZ_IMAGE_OVER_LIMIT : PZ_OK;
}

static void put(uint8_t *bytes, size_t at, size_t value) {
    bytes[2 * at] = (uint8_t)value;
    bytes[2 * at + 1] = (uint8_t)(value >> 8);
}

static uint32_t edit_category(uint8_t *device, size_t length, unsigned kind, const uint8_t *content, size_t n) {
    static chain all;
    static uint8_t made[MOST_BYTES];
    uint32_t code = check_length(length, 1);
    if (code) return code;
    if (n % 2) return PZ_ODD_LENGTH;
    view v = {device, length / 2};
    walk(v, &all);
    size_t place = all.count, found = 0, at = 64;
    for (size_t i = all.count; i-- > 0;) {
        if (word(v, all.at[i]) == kind) place = i, found++;
    }
    if (!all.cut && n == 0 && !found) return PZ_NO_SUCH_CATEGORY;
    if (!all.cut && found > 1) return PZ_SEVERAL_CATEGORIES;
    if (kind == 0xFFFF || !content_ok(kind, content, n)) return PZ_BAD_CATEGORY;
    if (all.cut) return PZ_BAD_CHAIN;
    size_t old = found ? 2 + word(v, all.at[place] + 1) : 0;
    size_t end = all.end - old + (n ? 2 + n / 2 : 0);
    if (end > v.words) return PZ_NO_ROOM;
    memcpy(made, device, length);
    for (size_t i = 0; i <= all.count; i++) {
        if (i == place && n) {
            put(made, at, kind);
            put(made, at + 1, n / 2);
            memcpy(made + 2 * (at + 2), content, n);
            at += 2 + n / 2;
        }
        if (i < all.count && !(found && i == place)) {
            size_t whole = 2 + word(v, all.at[i] + 1);
            memcpy(made + 2 * at, device + 2 * all.at[i], 2 * whole);
            at += whole;
        }
    }
    if (at < v.words) put(made, at, 0xFFFF);
    code = over_limit(made, length);
    if (code == PZ_OK) memcpy(device, made, length);
    return code;
}

static uint32_t edit_image(uint8_t *device, size_t length, const uint8_t *image, size_t n) {
    static chain all;
    static uint8_t made[MOST_BYTES];
    uint32_t code = check_length(length, 1);
    if (code) return code;
    code = check_length(n, 0);
    if (code) return code;
    if (n > length) return PZ_IMAGE_TOO_LONG;
    if (image[14] != remainder_of(image)) return PZ_BAD_CHECK;
    memcpy(made, device, length);
    memcpy(made, image, n);
    view v = {made, length / 2};
    walk(v, &all);
    if (!all.cut && malformed(v, &all) >= 0) return PZ_BAD_CATEGORY;
    if (all.cut) return PZ_BAD_CHAIN;
    code = over_limit(made, length);
    if (code == PZ_OK) memcpy(device, made, length);
    return code;
}

/* The process image of a line: its segments, outputs first. */
static uint32_t place(uint8_t **devices, const size_t *lengths, size_t slaves, size_t room, pz_segment *segments, pz_image_sizes *sizes) {
    static row rows[64][8];
    int counts[64];
    pz_image_sizes made = {0, 0, 0, 0};
    for (size_t i = 0; i < slaves; i++) {
        uint32_t code = check_length(lengths[i], 1);
        if (code) return code;
    }
    for (size_t i = 0; i < slaves; i++) {
        counts[i] = rows_of((view){devices[i], lengths[i] / 2}, rows[i]);
        if (counts[i] < 0) return PZ_IMAGE_OVER_LIMIT;
    }
    for (size_t i = 0; i < slaves; i++) {
        int both[2] = {0, 0};
        for (int r = 0; r < counts[i]; r++) {
            *(rows[i][r].output ? &made.outputs : &made.inputs) += (rows[i][r].bits + 7) / 8;
            both[rows[i][r].output] = 1;
            made.segments++;
        }
        made.counter += 2u * (unsigned)both[1] + (unsigned)both[0];
    }
    if (made.outputs + made.inputs > 1486) return PZ_IMAGE_OVER_LIMIT;
    if (room < made.segments) return PZ_NO_SPACE;
    uint32_t offset = 0;
    for (unsigned output = 2; output-- > 0;) {
        for (size_t i = 0; i < slaves; i++) {
            for (int r = 0; r < counts[i]; r++) {
                row it = rows[i][r];
                if (it.output != output) continue;
                *segments++ = (pz_segment){(uint32_t)i, it.manager, output, offset, (it.bits + 7) / 8, it.bits, it.start, it.control};
                offset += (it.bits + 7) / 8;
            }
        }
    }
    *sizes = made;
    return PZ_OK;
}

/* ---- images by chance */

static size_t content_by_chance(unsigned kind, uint8_t *c, size_t most) {
    size_t n = 0;
    if (kind == 10) {
        unsigned strings = chance(4);
        c[n++] = (uint8_t)strings;
        for (unsigned i = 0; i < strings; i++) {
            unsigned size = chance(9);
            c[n++] = (uint8_t)size;
            for (unsigned k = 0; k < size; k++) c[n++] = (uint8_t)chance(256);
        }
    } else if (kind == 41) {
        for (unsigned managers = chance(10); managers > 0; managers--, n += 8) {
            for (int k = 0; k < 7; k++) c[n + (size_t)k] = (uint8_t)chance(256);
            c[n + 7] = (uint8_t)chance(5);
        }
    } else if (kind == 50 || kind == 51) {
        for (unsigned pdos = chance(5); pdos > 0; pdos--) {
            unsigned entries = chance(4);
            for (unsigned k = 0; k < 8 + 8 * entries; k++) c[n + k] = (uint8_t)chance(256);
            c[n + 2] = (uint8_t)entries;
            c[n + 3] = (uint8_t)chance(10);
            n += 8 + 8 * entries;
        }
    } else {
        n = chance(30);
        for (size_t k = 0; k < n; k++) c[k] = (uint8_t)chance(256);
    }
    if (chance(12) == 0 && n > 0) n -= 1 + chance(n > 8 ? 8 : (uint32_t)n);
    if (n % 2) c[n++] = 0;
    return n > most ? most & ~(size_t)1 : n;
}

static unsigned kind_by_chance(void) {
    static const unsigned kinds[] = {10, 30, 40, 41, 41, 50, 50, 51, 51, 60};
    return chance(20) ? kinds[chance(10)] : chance(65536);
}

static size_t image_by_chance(uint8_t *image) {
    size_t words = chance(2) ? 64 * (1 + chance(8)) : 64 + chance(400), at = 64;
    if (chance(30) == 0) words = MOST_WORDS - chance(2);
    for (size_t i = 0; i < 2 * words; i++) image[i] = (uint8_t)chance(256);
    for (unsigned categories = chance(8); categories > 0 && at + 70 < words; categories--) {
        unsigned kind = kind_by_chance();
        size_t n = content_by_chance(kind, image + 2 * (at + 2), 2 * (words - at - 2));
        put(image, at, kind);
        put(image, at + 1, n / 2);
        at += 2 + n / 2;
    }
    if (at < words && chance(12)) put(image, at, 0xFFFF);
    if (chance(10)) image[14] = remainder_of(image);
    size_t length = 2 * words;
    if (chance(60) == 0) length += 1;
    if (chance(60) == 0) length = chance(140);
    return length;
}

/* ---- the comparison */

enum { CALLS = 11, CODES = 320 };

static unsigned long codes[CALLS][CODES];
static unsigned long made;

static void same(const char *what, int holds) {
    if (!holds) {
        printf("image %lu: %s differs\n", made, what);
        exit(1);
    }
}

static void compare_reading(const uint8_t *image, size_t length) {
    size_t detail = 7, expected_detail;
    uint32_t code = pz_validate(image, length, &detail), expected = check_image(image, length, &expected_detail);
    same("pz_validate", code == expected && detail == expected_detail);
    codes[0][code]++;

    pz_head head, before;
    memset(&head, 0xAA, sizeof head);
    before = head;
    code = pz_read_head(image, length, &head);
    same("pz_read_head", code == check_length(length, 0));
    codes[1][code]++;
    if (code) {
        same("the head of bad bytes", memcmp(&head, &before, sizeof head) == 0);
        return;
    }
    view v = {image, length / 2};
    same("the head", head.words == v.words && head.alias == word(v, 4) && head.check == image[14] && head.expected == remainder_of(image) &&
                         head.vendor == (word(v, 8) | word(v, 9) << 16) && head.product == (word(v, 10) | word(v, 11) << 16) &&
                         head.revision == (word(v, 12) | word(v, 13) << 16) && head.serial == (word(v, 14) | word(v, 15) << 16));

    static chain all;
    walk(v, &all);
    for (size_t k = 0; k <= all.count + 1; k += 1 + (k > 2) * chance(3)) {
        pz_category_place place = {1, 2, 3};
        code = pz_category(image, length, k, &place);
        codes[2][code]++;
        if (all.cut) same("pz_category where the chain is cut off", code == PZ_RUNS_OUT && place.kind == 1 && place.at == 2);
        else if (k >= all.count) same("pz_category after the last", code == PZ_NO_SUCH_CATEGORY && place.count == 3);
        else same("pz_category", code == PZ_OK && place.at == all.at[k] && place.kind == word(v, place.at) && place.count == word(v, place.at + 1));
    }
}

/* The items of a content, read byte by byte. */
static void compare_managers(const uint8_t *c, size_t n) {
    size_t number = chance(12);
    pz_sync_manager_row row = {1, 2, 3, 4, 5, 6};
    pz_code code = pz_sync_manager(c, n, number, &row);
    const uint8_t *b = c + 8 * number;
    codes[7][code]++;
    if (n % 2) same("pz_sync_manager of odd bytes", code == PZ_ODD_LENGTH && row.start == 1);
    else if (number >= n / 8) same("pz_sync_manager after the last", code == PZ_NO_SUCH_ITEM && row.kind == 6);
    else
        same("pz_sync_manager", code == PZ_OK && row.start == (b[0] | (uint32_t)b[1] << 8) && row.length == (b[2] | (uint32_t)b[3] << 8) &&
                                    row.control == b[4] && row.status == b[5] && row.enable == b[6] && row.kind == b[7]);
}

static void compare_pdos(const uint8_t *c, size_t n) {
    size_t number = chance(6), at = chance(5), p = 0, left = number;
    pz_pdo_row row = {1, 2, 3, 4, 5, 6};
    pz_pdo_entry_row entry = {1, 2, 3, 4, 5, 6};
    pz_code code = pz_pdo(c, n, number, &row), of_entry = pz_pdo_entry(c, n, number, at, &entry);
    codes[8][code]++;
    codes[9][of_entry]++;
    if (n % 2 || !pdos_ok(c, n)) {
        pz_code wanted = n % 2 ? PZ_ODD_LENGTH : PZ_BAD_CATEGORY;
        same("pz_pdo of what can't be read", code == wanted && of_entry == wanted && row.entries == 1 && entry.index == 1);
        return;
    }
    for (; n - p >= 8 && left > 0; left--) p += 8 + 8u * c[p + 2];
    if (left > 0 || n - p < 8) {
        same("pz_pdo after the last", code == PZ_NO_SUCH_ITEM && of_entry == PZ_NO_SUCH_ITEM && row.index == 2);
        return;
    }
    const uint8_t *b = c + p, *e = b + 8 + 8 * at;
    same("pz_pdo", code == PZ_OK && row.entries == b[2] && row.index == (b[0] | (uint32_t)b[1] << 8) && row.manager == b[3] &&
                       row.synchronization == b[4] && row.name == b[5] && row.flags == (b[6] | (uint32_t)b[7] << 8));
    if (at >= b[2]) same("pz_pdo_entry after the last", of_entry == PZ_NO_SUCH_ITEM && entry.flags == 6);
    else
        same("pz_pdo_entry", of_entry == PZ_OK && entry.index == (e[0] | (uint32_t)e[1] << 8) && entry.subindex == e[2] && entry.name == e[3] &&
                                 entry.data_type == e[4] && entry.bits == e[5] && entry.flags == (e[6] | (uint32_t)e[7] << 8));
}

static void compare_strings(const uint8_t *c, size_t n) {
    uint8_t text[8], before[8];
    size_t number = chance(6), room = chance(9), size = 99, p = 1;
    memset(text, 0xAA, sizeof text);
    memcpy(before, text, sizeof text);
    pz_code code = pz_string(c, n, number, text, room, &size);
    codes[10][code]++;
    pz_code wanted = n % 2 ? PZ_ODD_LENGTH : !strings_ok(c, n) ? PZ_BAD_CATEGORY : n == 0 || number == 0 || number > c[0] ? PZ_NO_SUCH_ITEM : PZ_OK;
    for (size_t left = number; wanted == PZ_OK && left > 1; left--) p += 1u + c[p];
    if (wanted == PZ_OK && c[p] > room) wanted = PZ_NO_SPACE;
    if (wanted == PZ_OK) memcpy(before, c + p + 1, c[p]);
    same("pz_string", code == wanted && memcmp(text, before, sizeof text) == 0 && size == (wanted == PZ_OK ? c[p] : 99u));
}

static void compare_contents(void) {
    static uint8_t made[16384];
    static const unsigned kinds[] = {10, 41, 50};
    for (unsigned i = 0; i < 3; i++) {
        size_t n = content_by_chance(kinds[i], made, sizeof made);
        if (chance(50) == 0 && n > 0) n -= 1;
        uint8_t *c = malloc(n ? n : 1);
        if (!c) exit(2);
        memcpy(c, made, n);
        compare_strings(c, n);
        compare_managers(c, n);
        compare_pdos(c, n);
        free(c);
    }
}

static void compare_alias(const uint8_t *image, size_t length) {
    static uint8_t mine[MOST_BYTES], theirs[MOST_BYTES];
    memcpy(mine, image, length);
    memcpy(theirs, image, length);
    unsigned value = chance(65536);
    uint32_t code = pz_set_alias(theirs, length, (uint16_t)value), expected = check_length(length, 0);
    if (!expected && image[14] != remainder_of(image)) expected = PZ_BAD_CHECK;
    if (!expected) {
        put(mine, 4, value);
        mine[14] = remainder_of(mine);
    }
    same("pz_set_alias", code == expected && memcmp(mine, theirs, length) == 0);
    codes[3][code]++;
}

static void compare_edits(const uint8_t *image, size_t length) {
    static uint8_t mine[MOST_BYTES], theirs[MOST_BYTES], content[16384], other[MOST_BYTES];
    memcpy(mine, image, length);
    memcpy(theirs, image, length);
    unsigned kind = chance(40) ? kind_by_chance() : 0xFFFF;
    size_t n = chance(4) ? content_by_chance(kind, content, sizeof content) : 0;
    if (chance(100) == 0 && n > 0) n -= 1;
    if (chance(100) == 0) {
        n = sizeof content;
        memset(content, 0, n);
    }
    uint32_t code = pz_edit_category(theirs, length, (uint16_t)kind, n ? content : NULL, n);
    same("the code of pz_edit_category", code == edit_category(mine, length, kind, content, n));
    same("pz_edit_category", memcmp(mine, theirs, length) == 0);
    codes[4][code]++;

    n = image_by_chance(other);
    code = pz_edit_image(theirs, length, other, n);
    same("the code of pz_edit_image", code == edit_image(mine, length, other, n));
    same("pz_edit_image", memcmp(mine, theirs, length) == 0);
    codes[5][code]++;
}

static void compare_line(void) {
    static uint8_t all[64 * MOST_BYTES], *devices[64];
    static pz_segment mine[512], theirs[512];
    int many = chance(100) == 0;
    size_t lengths[64], length = 0, slaves = many ? 30 + chance(35) : 1 + chance(5), room = chance(20) ? 512 : chance(6);
    pz_image_sizes my_sizes, their_sizes;
    memset(mine, 0xAA, sizeof mine);
    memset(theirs, 0xAA, sizeof theirs);
    memset(&my_sizes, 0xAA, sizeof my_sizes);
    memset(&their_sizes, 0xAA, sizeof their_sizes);
    for (size_t i = 0; i < slaves; i++) {
        devices[i] = all + length;
        lengths[i] = image_by_chance(devices[i]);
        if (many || chance(20)) lengths[i] = lengths[i] / 128 * 128;
        if (many && lengths[i] == 0) lengths[i] = 128;
        length += lengths[i];
    }
    size_t more = chance(30) ? 0 : 1;
    uint32_t code = pz_place_line(all, length + more, lengths, slaves, theirs, room, &their_sizes);
    uint32_t expected = more ? PZ_BAD_LINE : place(devices, lengths, slaves, room, mine, &my_sizes);
    same("the code of pz_place_line", code == expected);
    same("pz_place_line", memcmp(mine, theirs, sizeof mine) == 0 && my_sizes.segments == their_sizes.segments &&
                              my_sizes.outputs == their_sizes.outputs && my_sizes.inputs == their_sizes.inputs && my_sizes.counter == their_sizes.counter);
    codes[6][code]++;
}

int main(int count, char **words) {
    static const char *names[CALLS] = {"pz_validate",       "pz_read_head",  "pz_category",   "pz_set_alias", "pz_edit_category", "pz_edit_image",
                                       "pz_place_line", "pz_sync_manager", "pz_pdo", "pz_pdo_entry", "pz_string"};
    unsigned long images = count > 1 ? strtoul(words[1], NULL, 10) : 1000;
    state = count > 2 ? strtoul(words[2], NULL, 10) : 1;
    static uint8_t image[MOST_BYTES];
    for (made = 0; made < images; made++) {
        size_t length = image_by_chance(image);
        /* in a block of its own, so that the sanitizer sees a byte read after it */
        uint8_t *copy = malloc(length ? length : 1);
        if (!copy) return 2;
        memcpy(copy, image, length);
        compare_reading(copy, length);
        free(copy);
        compare_alias(image, length);
        compare_edits(image, length);
        compare_line();
        compare_contents();
    }
    for (int call = 0; call < CALLS; call++) {
        printf("%-17s", names[call]);
        for (unsigned code = 0; code < CODES; code++) {
            if (codes[call][code]) printf(" %u: %lu", code, codes[call][code]);
        }
        printf("\n");
    }
    printf("images %lu, no difference\n", images);
    return 0;
}
