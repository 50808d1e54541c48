/* kmip_ttlv_write: any items over any lent bytes. Their bytes, or the first that can't be written, are those of the model. */
#include "model.h"

enum { MOST = 48 };

/* What is wrong with an item, given how many structures are open. */
static uint32_t wrong_with(const kmip_ttlv_item *item, size_t open, const uint8_t *lent, size_t size) {
    if (item->depth > open) {
        return KMIP_TTLV_NOT_INSIDE;
    }
    if (item->tag >= 1u << 24) {
        return KMIP_TTLV_LONG_TAG;
    }
    if (item->typ < 1 || item->typ > 10) {
        return KMIP_TTLV_UNKNOWN_TYPE;
    }
    if (item->typ == KMIP_TTLV_STRUCTURE) {
        return KMIP_TTLV_WHOLE;
    }
    if (!has_length(item->typ, item->length)) {
        return KMIP_TTLV_WRONG_LENGTH;
    }
    if (size < 8 || item->offset > size - 8 || item->length > size - 8 - item->offset) {
        return KMIP_TTLV_OUTSIDE;
    }
    return is_value(item->typ, lent + item->offset + 8, item->length) ? KMIP_TTLV_WHOLE : KMIP_TTLV_INVALID_VALUE;
}

static void put(uint8_t *out, uint32_t number, int size) {
    for (int i = 0; i < size; i++) {
        out[i] = (uint8_t)(number >> 8 * (size - 1 - i));
    }
}

/* Writes items that have no fault, and returns how many bytes they take. */
static size_t write_items(const kmip_ttlv_item *items, size_t count, const uint8_t *lent, uint8_t *out) {
    size_t at = 0;
    for (size_t i = 0; i < count; i++) {
        uint64_t length = items[i].length;
        if (items[i].typ == KMIP_TTLV_STRUCTURE) {
            length = 0;
            for (size_t in = i + 1; in < count && items[in].depth > items[i].depth; in++) {
                length += 8 + (items[in].typ == KMIP_TTLV_STRUCTURE ? 0 : padded(items[in].typ, items[in].length));
            }
        }
        put(out + at, items[i].tag << 8 | items[i].typ, 4);
        put(out + at + 4, (uint32_t)length, 4);
        at += 8;
        if (items[i].typ != KMIP_TTLV_STRUCTURE) {
            memset(out + at, 0, padded(items[i].typ, items[i].length));
            memcpy(out + at, lent + items[i].offset + 8, items[i].length);
            at += padded(items[i].typ, items[i].length);
        }
    }
    return at;
}

/* Items out of bytes, eight for each: mostly such as can be written, and any now and then. */
static size_t read_items(const uint8_t *data, size_t size, size_t lent, kmip_ttlv_item *items) {
    static const uint32_t lengths[] = {0, 0, 4, 8, 8, 4, 8, 3, 5, 8, 4};
    size_t count = 0, open = 0;
    for (; count < MOST && size >= 8 * (count + 1); count++) {
        const uint8_t *at = data + 8 * count;
        kmip_ttlv_item item = {at[4] % (lent + 1), at[5] % (open + 1), 0x420000u + at[1], 1u + at[2] % 10, 0};
        item.length = at[0] & 1 ? at[3] : lengths[item.typ];
        item.depth = at[0] & 2 ? at[5] : item.depth;
        item.tag = at[0] & 4 ? number_at(at, 1, 4) : item.tag;
        item.typ = at[0] & 8 ? number_at(at, 2, at[6] & 1 ? 1 : 4) : item.typ;
        item.offset = at[0] & 16 ? SIZE_MAX - at[4] : at[0] & 32 ? at[4] : item.offset;
        item.length = at[0] & 64 ? UINT32_MAX - at[3] : item.length;
        items[count] = item;
        open = item.depth + (item.typ == KMIP_TTLV_STRUCTURE);
    }
    return count;
}

int LLVMFuzzerTestOneInput(const uint8_t *data, size_t size) {
    const size_t front = size < 8 * MOST ? size / 2 / 8 * 8 : 8 * MOST;
    const size_t lent_size = size - front;
    kmip_ttlv_item *items = malloc(MOST * sizeof *items);
    const size_t count = read_items(data, front, lent_size, items);
    kmip_ttlv_item *given = (kmip_ttlv_item *)copy_of((uint8_t *)items, count * sizeof *items);
    uint8_t *lent = copy_of(data + front, lent_size);
    uint32_t wrong = KMIP_TTLV_WHOLE;
    size_t first = 0, open = 0, wanted = 0, length = 9;
    for (size_t i = 0; i < count && wrong == KMIP_TTLV_WHOLE; i++) {
        wrong = wrong_with(items + i, open, lent, lent_size);
        first = wrong == KMIP_TTLV_WHOLE ? 0 : i;
        wanted += 8 + (items[i].typ == KMIP_TTLV_STRUCTURE ? 0 : padded(items[i].typ, items[i].length));
        open = items[i].depth + (items[i].typ == KMIP_TTLV_STRUCTURE);
    }
    kmip_ttlv_bad_item bad = {9, 9};
    if (wrong != KMIP_TTLV_WHOLE) {
        uint8_t out[64];
        memset(out, 0x55, sizeof out);
        HOLD(kmip_ttlv_write(given, count, lent, lent_size, out, sizeof out, &length, &bad) == KMIP_TTLV_MALFORMED);
        HOLD(length == 0 && bad.kind == wrong && bad.index == first && out[0] == 0x55 &&
             memcmp(out, out + 1, sizeof out - 1) == 0);
    } else {
        uint8_t *out = malloc(wanted), *model = malloc(wanted);
        HOLD(write_items(items, count, lent, model) == wanted);
        memset(out, 0x55, wanted);
        if (wanted > 0) {
            HOLD(kmip_ttlv_write(given, count, lent, lent_size, out, wanted - 1, &length, &bad) == KMIP_TTLV_NO_ROOM);
            HOLD(length == wanted && bad.kind == KMIP_TTLV_WHOLE && out[0] == 0x55 && memcmp(out, out + 1, wanted - 1) == 0);
        }
        HOLD(kmip_ttlv_write(given, count, lent, lent_size, out, wanted, &length, &bad) == KMIP_TTLV_OK && length == wanted);
        HOLD(bad.kind == KMIP_TTLV_WHOLE && bad.index == 0 && (wanted == 0 || memcmp(out, model, wanted) == 0));
        size_t roots = 0;
        for (size_t i = 0; i < count; i++) {
            roots += items[i].depth == 0;
        }
        kmip_ttlv_fault fault;
        const bool is_message = roots == 1 && items[0].typ == KMIP_TTLV_STRUCTURE;
        HOLD((kmip_ttlv_check(out, wanted, &fault) == KMIP_TTLV_OK) == is_message);
        free(model);
        free(out);
    }
    HOLD(used == 0);
    free(lent);
    free(given);
    free(items);
    return 0;
}
