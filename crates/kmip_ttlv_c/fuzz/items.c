/* kmip_ttlv_check, kmip_ttlv_items and kmip_ttlv_write of what was listed: any bytes. The first fault and the items are those
 * of the model; the items of a whole message are written as its canonical bytes, and these have the same items. */
#include "model.h"

/* A whole message with zeros for padding. */
static uint8_t *canonical(const uint8_t *bytes, size_t size, const kmip_ttlv_item *items, size_t count) {
    uint8_t *copy = copy_of(bytes, size);
    for (size_t i = 0; i < count; i++) {
        const size_t end = items[i].offset + 8 + items[i].length;
        if (items[i].typ != KMIP_TTLV_STRUCTURE) {
            memset(copy + end, 0, padded(items[i].typ, items[i].length) - items[i].length);
        }
    }
    return copy;
}

static void written_back(const uint8_t *bytes, size_t size, const kmip_ttlv_item *items, size_t count) {
    uint8_t *wanted = canonical(bytes, size, items, count), *out = malloc(size);
    kmip_ttlv_item *again = malloc(count * sizeof *again);
    kmip_ttlv_bad_item bad = {9, 9};
    kmip_ttlv_fault fault = {9, 9};
    size_t length = 9, found = 9;
    HOLD(kmip_ttlv_write(items, count, bytes, size, out, size - 1, &length, &bad) == KMIP_TTLV_NO_ROOM && length == size);
    HOLD(kmip_ttlv_write(items, count, bytes, size, out, size, &length, &bad) == KMIP_TTLV_OK && length == size);
    HOLD(bad.kind == KMIP_TTLV_WHOLE && bad.index == 0 && memcmp(out, wanted, size) == 0);
    HOLD(kmip_ttlv_items(out, size, again, count, &found, &fault) == KMIP_TTLV_OK && found == count);
    for (size_t i = 0; i < count; i++) {
        HOLD(is_same(again + i, items + i));
    }
    free(again);
    free(out);
    free(wanted);
}

/* With each allocation failing in turn. */
static void without_memory(const uint8_t *bytes, size_t size, kmip_ttlv_item *items, size_t room, kmip_ttlv_fault wanted) {
    for (long n = 0;; n++) {
        kmip_ttlv_fault fault = {9, 9}, other = {9, 9};
        size_t count = 9;
        left = n;
        const kmip_ttlv_status status = kmip_ttlv_items(bytes, size, items, room, &count, &fault);
        left = n;
        const kmip_ttlv_status check = kmip_ttlv_check(bytes, size, &other);
        left = -1;
        HOLD(used == 0 && (status == KMIP_TTLV_OUT_OF_MEMORY) == (check == KMIP_TTLV_OUT_OF_MEMORY));
        if (status != KMIP_TTLV_OUT_OF_MEMORY) {
            HOLD(fault.kind == wanted.kind && other.kind == wanted.kind && fault.offset == wanted.offset);
            return;
        }
        HOLD(count == 0 && fault.kind == KMIP_TTLV_WHOLE && other.kind == KMIP_TTLV_WHOLE && other.offset == 0);
    }
}

int LLVMFuzzerTestOneInput(const uint8_t *data, size_t size) {
    const size_t most_items = size / 8 + 1;
    uint8_t *bytes = copy_of(data, size);
    kmip_ttlv_item *wanted = malloc(most_items * sizeof *wanted);
    uint64_t *ends = malloc(most_items * sizeof *ends);
    kmip_ttlv_fault fault, found = {9, 9};
    const size_t count = walk(bytes, size, wanted, ends, &fault);
    const size_t room = size % 3 == 0 ? count : size % 3 == 1 && count > 0 ? count - 1 : size / 8;
    kmip_ttlv_item *items = malloc(room * sizeof *items);
    size_t listed = 9;
    const kmip_ttlv_status status = kmip_ttlv_items(bytes, size, items, room, &listed, &found);
    HOLD(listed == count && found.kind == fault.kind && found.offset == fault.offset && used == 0);
    HOLD(status == (fault.kind != KMIP_TTLV_WHOLE ? KMIP_TTLV_MALFORMED : count > room ? KMIP_TTLV_NO_ROOM : KMIP_TTLV_OK));
    for (size_t i = 0; i < count && i < room; i++) {
        HOLD(is_same(items + i, wanted + i));
    }
    HOLD(kmip_ttlv_check(bytes, size, &found) == (fault.kind == KMIP_TTLV_WHOLE ? KMIP_TTLV_OK : KMIP_TTLV_MALFORMED));
    HOLD(found.kind == fault.kind && found.offset == fault.offset && used == 0);
    if (fault.kind == KMIP_TTLV_WHOLE) {
        written_back(bytes, size, wanted, count);
    }
    if (size % 16 == 0) {
        without_memory(bytes, size, items, room, fault);
    }
    free(items);
    free(ends);
    free(wanted);
    free(bytes);
    return 0;
}
