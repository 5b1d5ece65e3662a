/* c_limits: calls the library with lengths and pointers at and beyond the limits of pilzhoon.h: no bytes, odd ones, too few, too many, NULL
 * where an array is empty, room that is too small, bytes of an access that the library didn't write, and no memory. Each input lies in a block
 * of its own length, so that a sanitizer or valgrind sees a byte too many. Ends with status 1 at the first answer that the header doesn't give.
 * The linker has to put __wrap_malloc in the place of malloc (-Wl,--wrap=malloc). */
#include "pilzhoon.h"
#include <stdio.h>
#include <stdlib.h>
#include <string.h>

static unsigned long calls;
/* Whether malloc refuses memory, to the library too. */
static int is_refused;

void *__real_malloc(size_t size);
void *__wrap_malloc(size_t size);

void *__wrap_malloc(size_t size) {
    return is_refused ? NULL : __real_malloc(size);
}

static void must(int holds, const char *call, size_t length, unsigned code) {
    calls++;
    if (holds) return;
    printf("%s of %lu bytes: code %u, %s\n", call, (unsigned long)length, code, pz_text(code));
    exit(1);
}

/* A block of exactly so many bytes, or NULL for none. */
static uint8_t *block(size_t length, unsigned seed) {
    uint8_t *bytes = length ? malloc(length) : NULL;
    if (length && !bytes) exit(2);
    for (size_t i = 0; i < length; i++) bytes[i] = (uint8_t)((seed = seed * 1103515245u + 12345u) >> 16);
    return bytes;
}

static pz_code of_image(size_t length) {
    return length % 2 ? PZ_ODD_LENGTH : length < 128 || length > 8192 ? PZ_BAD_SIZE : PZ_OK;
}

static pz_code of_device(size_t length) {
    return length % 2 ? PZ_ODD_LENGTH : length < 128 || length > 8192 || length % 128 ? PZ_BAD_SIZE : PZ_OK;
}

/* Whether an answer is the one of this length, or, for a good length, any other but those two. */
static int fits(pz_code wanted, pz_code code) {
    return wanted == PZ_OK ? code != PZ_ODD_LENGTH && code != PZ_BAD_SIZE : code == wanted;
}

static void try_image(size_t length) {
    uint8_t *image = block(length, (unsigned)length), *before = block(length, (unsigned)length);
    pz_head head;
    pz_category_place place;
    size_t detail = 7;
    pz_code code = pz_read_head(image, length, &head);
    must(code == of_image(length), "pz_read_head", length, code);
    code = pz_validate(image, length, &detail);
    int has_detail = code == PZ_BAD_CHECK || code == PZ_RUNS_OUT || code == PZ_BAD_CATEGORY;
    must(fits(of_image(length), code) && (has_detail || detail == 0), "pz_validate", length, code);
    code = pz_category(image, length, SIZE_MAX, &place);
    must(of_image(length) ? code == of_image(length) : code == PZ_NO_SUCH_CATEGORY || code == PZ_RUNS_OUT, "pz_category", length, code);
    is_refused = 1;
    pz_code without = pz_read_head(image, length, &head);
    code = pz_set_alias(image, length, 7);
    is_refused = 0;
    must(without == (of_image(length) ? of_image(length) : PZ_MEMORY), "pz_read_head without memory", length, without);
    must(fits(of_image(length), code) && code != PZ_MEMORY, "pz_set_alias without memory", length, code);
    if (code != PZ_OK) must(!length || !memcmp(image, before, length), "pz_set_alias changes an image that it refuses,", length, code);
    free(image);
    free(before);
}

static void try_edit(size_t length, size_t content_length) {
    uint8_t *device = block(length, 1), *before = block(length, 1), *content = block(content_length, 2);
    pz_code code = pz_edit_category(device, length, 60, content, content_length), wanted = of_device(length);
    must(fits(wanted ? wanted : content_length % 2 ? PZ_ODD_LENGTH : PZ_OK, code), "pz_edit_category", length, code);
    if (code != PZ_OK) must(!length || !memcmp(device, before, length), "pz_edit_category changes a device that it refuses,", length, code);
    if (length) memcpy(device, before, length);
    code = pz_edit_image(device, length, content, content_length);
    must(fits(wanted ? wanted : of_image(content_length), code), "pz_edit_image", length, code);
    if (code != PZ_OK) must(!length || !memcmp(device, before, length), "pz_edit_image changes a device that it refuses,", length, code);
    free(device);
    free(before);
    free(content);
}

static void try_content(size_t length) {
    uint8_t *content = block(length, (unsigned)length + 3), *text = block(3, 0);
    pz_sync_manager_row manager;
    pz_pdo_row pdo;
    pz_pdo_entry_row entry;
    size_t size = 9, at[] = {0, 1, 255, 256, SIZE_MAX};
    for (size_t i = 0; i < sizeof at / sizeof *at; i++) {
        pz_code code = pz_sync_manager(content, length, at[i], &manager);
        must(code == (length % 2 ? PZ_ODD_LENGTH : at[i] < length / 8 ? PZ_OK : PZ_NO_SUCH_ITEM), "pz_sync_manager", length, code);
        code = pz_pdo(content, length, at[i], &pdo);
        must(length % 2 ? code == PZ_ODD_LENGTH : code == PZ_OK || code == PZ_BAD_CATEGORY || code == PZ_NO_SUCH_ITEM, "pz_pdo", length, code);
        code = pz_pdo_entry(content, length, at[i], at[i], &entry);
        must(length % 2 ? code == PZ_ODD_LENGTH : code == PZ_OK || code == PZ_BAD_CATEGORY || code == PZ_NO_SUCH_ITEM, "pz_pdo_entry", length, code);
        code = pz_string(content, length, at[i], text, 3, &size);
        must(code == PZ_OK ? size <= 3 : size == 9, "pz_string", length, code);
        code = pz_string(content, length, at[i], NULL, 0, &size);
        must(code == PZ_OK ? size == 0 : 1, "pz_string without room", length, code);
        size = 9;
    }
    free(content);
    free(text);
}

static void try_line(void) {
    pz_image_sizes sizes;
    pz_segment segment;
    size_t lengths[65];
    uint8_t *devices = block(65 * 128, 5);
    for (int i = 0; i < 65; i++) lengths[i] = 128;
    pz_code code = pz_place_line(NULL, 0, NULL, 0, NULL, 0, &sizes);
    must(code == PZ_BAD_LINE, "pz_place_line without slaves", 0, code);
    code = pz_place_line(devices, 64 * 128, lengths, 64, NULL, 0, &sizes);
    must(code == PZ_OK && sizes.segments == 0, "pz_place_line of 64 slaves without room", 64 * 128, code);
    code = pz_place_line(devices, 65 * 128, lengths, 65, &segment, 1, &sizes);
    must(code == PZ_BAD_LINE, "pz_place_line of 65 slaves", 65 * 128, code);
    code = pz_place_line(devices, 128, lengths, 2, &segment, 1, &sizes);
    must(code == PZ_BAD_LINE, "pz_place_line of too few bytes", 128, code);
    lengths[1] = SIZE_MAX;
    code = pz_place_line(devices, 127, lengths, 2, &segment, 1, &sizes);
    must(code == PZ_BAD_LINE, "pz_place_line of lengths whose sum wraps round", 127, code);
    lengths[0] = 127, lengths[1] = 130;
    code = pz_place_line(devices, 257, lengths, 2, &segment, 1, &sizes);
    must(code == PZ_ODD_LENGTH, "pz_place_line of an odd slave", 257, code);
    code = pz_place_line(devices, 130, lengths + 1, 1, &segment, 1, &sizes);
    must(code == PZ_BAD_SIZE, "pz_place_line of a slave of 65 words", 130, code);
    free(devices);
}

static void try_access(unsigned seed) {
    uint8_t *bytes = block(sizeof(pz_access), seed), *content = block(300, seed);
    pz_access access, before;
    pz_datagram datagram;
    memcpy(&access, bytes, sizeof access);
    if (seed % 2) access.phase %= 32, access.more %= 3, access.tries %= 4;
    if (seed == 0) memset(&access, 0, sizeof access);
    pz_progress next = pz_next(&access, &datagram);
    must(next != PZ_SEND || (datagram.length >= 1 && datagram.length <= 8), "pz_next", datagram.length, next);
    must(seed || next == PZ_NO_ACCESS, "pz_next of no access", 0, next);
    for (size_t length = 0; length <= 300; length += length < 12 ? 1 : 96) {
        before = access;
        pz_code code = pz_take(&access, 1, length ? content : NULL, length);
        must(next == PZ_SEND ? code == (length == datagram.length ? PZ_OK : PZ_OTHER_LENGTH) : code == PZ_NO_STEP, "pz_take", length, code);
        if (code != PZ_OK) must(!memcmp(&access, &before, sizeof access), "pz_take changes an access that it refuses,", length, code);
        access = before;
    }
    pz_code code = pz_lose(&access);
    must(code == (next == PZ_SEND ? PZ_OK : PZ_NO_STEP), "pz_lose", 0, code);
    code = pz_stop(&access);
    must(code == PZ_OK || code == PZ_NO_STEP, "pz_stop", 0, code);
    free(bytes);
    free(content);
}

int main(void) {
    static const size_t lengths[] = {0, 1, 2, 8, 126, 127, 128, 129, 130, 254, 256, 384, 1024, 4096, 8064,
                                     8190, 8191, 8192, 8193, 8194, 16384, 1048576, 1048577};
    size_t count = sizeof lengths / sizeof *lengths;
    for (size_t length = 0; length < 300; length++) try_image(length), try_content(length);
    for (size_t i = 0; i < count; i++) try_image(lengths[i]), try_content(lengths[i] & 0xffff);
    for (size_t i = 0; i < count; i++)
        for (size_t j = 0; j < count; j++) try_edit(lengths[i], lengths[j]);
    try_line();
    for (unsigned seed = 0; seed < 2000; seed++) try_access(seed);
    printf("%lu answers at the limits, all as the header says\n", calls);
    return 0;
}
