/* check_image FILE..: checks EEPROM image files, and lists their categories with strings, sync managers and PDOs. */
#include "pilzhoon.h"
#include <stdio.h>

static uint8_t image[8193]; /* one byte more than any image has */

/* Lists the items of a category's content. */
static void list(uint32_t kind, const uint8_t *content, size_t length) {
    uint8_t text[256];
    size_t size, number;
    pz_sync_manager_row manager;
    pz_pdo_row pdo;
    pz_pdo_entry_row entry;
    for (number = 1; kind == 10 && pz_string(content, length, number, text, sizeof text, &size) == PZ_OK; number++)
        printf("    string %u: %.*s\n", (unsigned)number, (int)size, (const char *)text);
    for (number = 0; kind == 41 && pz_sync_manager(content, length, number, &manager) == PZ_OK; number++)
        printf("    sync manager %u: type %u, %u bytes from 0x%04x\n", (unsigned)number, (unsigned)manager.kind, (unsigned)manager.length,
               (unsigned)manager.start);
    for (number = 0; (kind == 50 || kind == 51) && pz_pdo(content, length, number, &pdo) == PZ_OK; number++) {
        printf("    PDO 0x%04x of sync manager %u\n", (unsigned)pdo.index, (unsigned)pdo.manager);
        for (size_t at = 0; pz_pdo_entry(content, length, number, at, &entry) == PZ_OK; at++)
            printf("      0x%04x:%02x, %u bits\n", (unsigned)entry.index, (unsigned)entry.subindex, (unsigned)entry.bits);
    }
}

static int check(const char *name) {
    FILE *file = fopen(name, "rb");
    if (!file) {
        perror(name);
        return 3;
    }
    size_t length = fread(image, 1, sizeof image, file);
    fclose(file);

    pz_head head;
    pz_code code = pz_read_head(image, length, &head);
    if (code != PZ_OK) {
        printf("%s: no image: %s\n", name, pz_text(code));
        return 1;
    }
    printf("%s: %u words, alias %u, vendor 0x%08x, product 0x%08x\n", name, (unsigned)head.words, (unsigned)head.alias,
           (unsigned)head.vendor, (unsigned)head.product);

    pz_category_place place;
    for (size_t number = 0; pz_category(image, length, number, &place) == PZ_OK; number++) {
        printf("  category %u at word %u, %u words\n", (unsigned)place.kind, (unsigned)place.at, (unsigned)place.count);
        list(place.kind, image + 2 * (place.at + 2), 2 * place.count);
    }

    size_t detail;
    code = pz_validate(image, length, &detail);
    if (code == PZ_OK) {
        printf("  good\n");
        return 0;
    }
    printf("  bad: %s (code %u, detail %u)\n", pz_text(code), (unsigned)code, (unsigned)detail);
    return 1;
}

int main(int count, char **names) {
    int status = 0;
    for (int i = 1; i < count; i++) {
        int one = check(names[i]);
        status = one > status ? one : status;
    }
    return status;
}
