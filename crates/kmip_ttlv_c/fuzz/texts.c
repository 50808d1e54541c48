/* kmip_ttlv_to_diag and kmip_ttlv_to_diag_checked, kmip_ttlv_to_text and kmip_ttlv_to_standard_text: any bytes behind two that
 * choose. The checked diagnostic shows whole messages alone, and else the fault of the model. Of a whole message the diagnostic is that of the model, is the same for any other values, and has as many lines if it is read back; texts are UTF-8,
 * fit a buffer of their length and none that is shorter, and take no more memory than their limit. */
#include "model.h"

enum { TO_DIAG, TO_TEXT, TO_STANDARD_TEXT, CALLS };

static const char *const PREFIXES[] = {"", "4200", "42", "420078", "4200690", "42006A"};
static const char *const TABLES[] = {"", "420078 Request\n42006A Major\n", "# none\n\n42006A \xC3\xA9\xE2\x82\xAC\r\n",
                                     "42006A\n", "\nNo tag"};
static const size_t BAD_LINES[] = {0, 0, 0, 1, 2};

struct asked {
    const uint8_t *bytes;
    size_t size;
    const char *prefix;
    size_t table;
    bool open_empty;
    size_t limit;
};

static kmip_ttlv_status call(int which, const struct asked *it, uint8_t *out, size_t room, size_t *length, size_t *other) {
    const uint8_t *prefix = (const uint8_t *)it->prefix, *table = (const uint8_t *)TABLES[it->table];
    switch (which) {
    case TO_DIAG:
        return kmip_ttlv_to_diag(it->bytes, it->size, prefix, strlen(it->prefix), it->open_empty, out, room, length, other);
    case TO_TEXT:
        return kmip_ttlv_to_text(it->bytes, it->size, table, strlen(TABLES[it->table]), it->open_empty, it->limit, out, room,
                                 length, other);
    default:
        *other = 0;
        return kmip_ttlv_to_standard_text(it->bytes, it->size, it->open_empty, it->limit, out, room, length);
    }
}

/* The text of a call, in a block of its length: NULL if it is an error, as it may be. */
static uint8_t *text_of(int which, const struct asked *it, size_t *length) {
    size_t other = 9, again = 9;
    most = 0;
    kmip_ttlv_status status = call(which, it, (uint8_t *)"", 0, length, &other);
    HOLD(used == 0);
    if (status == KMIP_TTLV_BAD_NAMES || BAD_LINES[it->table] != 0) {
        HOLD(which != TO_TEXT || (status == KMIP_TTLV_BAD_NAMES && other == BAD_LINES[it->table] && *length == 0));
    }
    if (status == KMIP_TTLV_OUT_OF_MEMORY || status == KMIP_TTLV_BAD_NAMES) {
        HOLD(*length == 0 && (status == KMIP_TTLV_BAD_NAMES ? which == TO_TEXT : which != TO_DIAG));
        return NULL;
    }
    HOLD(status == (*length == 0 ? KMIP_TTLV_OK : KMIP_TTLV_NO_ROOM));
    HOLD(which == TO_DIAG || most <= it->limit);
    HOLD(which == TO_DIAG ? other >= 1 && other <= it->size / 8 + 1 : other == 0);
    uint8_t *out = malloc(*length);
    memset(out, 0x55, *length);
    if (*length > 0) {
        HOLD(call(which, it, out, *length - 1, &again, &other) == KMIP_TTLV_NO_ROOM && again == *length);
        HOLD(out[0] == 0x55 && memcmp(out, out + 1, *length - 1) == 0);
    }
    HOLD(call(which, it, out, *length, &again, &other) == KMIP_TTLV_OK && again == *length && used == 0);
    HOLD(is_utf8(out, *length));
    return out;
}

/* With each allocation failing in turn. */
static void without_memory(int which, const struct asked *it) {
    uint8_t out[64];
    memset(out, 0x55, sizeof out);
    for (long n = 0; n < 200; n++) {
        size_t length = 9, other = 9;
        left = n;
        const kmip_ttlv_status status = call(which, it, out, sizeof out, &length, &other);
        const bool is_over = left != 0;
        left = -1;
        HOLD(used == 0);
        if (status != KMIP_TTLV_OUT_OF_MEMORY || is_over) {
            return;
        }
        HOLD(length == 0 && other == 0 && out[0] == 0x55 && memcmp(out, out + 1, sizeof out - 1) == 0);
    }
}

/* The message with other values, each of its type, and the same enumeration values. */
static uint8_t *with_other_values(const struct asked *it, const kmip_ttlv_item *items, size_t count) {
    uint8_t *copy = copy_of(it->bytes, it->size);
    for (size_t i = 0; i < count; i++) {
        uint8_t *value = copy + items[i].offset + 8;
        if (items[i].typ == KMIP_TTLV_BOOLEAN) {
            value[7] ^= 1;
        } else if (items[i].typ == KMIP_TTLV_TEXT_STRING) {
            memset(value, 'A' + (int)(i % 26), items[i].length);
        } else if (items[i].typ != KMIP_TTLV_STRUCTURE && items[i].typ != KMIP_TTLV_ENUMERATION) {
            for (size_t at = 0; at < items[i].length; at++) {
                value[at] = (uint8_t)(value[at] * 5 + 77 + i);
            }
        }
    }
    return copy;
}

/* Of a whole message, with empty structures closed. */
static void of_whole(const struct asked *it, const kmip_ttlv_item *items, size_t count, const uint8_t *shown, size_t length) {
    char *wanted = malloc(24 * count + 1);
    HOLD(diagnostic(it->bytes, items, count, it->prefix, wanted) == length && memcmp(shown, wanted, length) == 0);
    free(wanted);
    uint8_t *other = with_other_values(it, items, count);
    struct asked changed = *it;
    changed.bytes = other;
    size_t again = 9;
    uint8_t *same = text_of(TO_DIAG, &changed, &again);
    HOLD(same != NULL && again == length && memcmp(same, shown, length) == 0);
    free(same);
    free(other);
    size_t lines = 0, line = 9, begun = 0;
    uint8_t *out = malloc(512 * count + 2 * count * count + 64);
    const size_t room = 512 * count + 2 * count * count + 64, prefix = strlen(it->prefix);
    /* a prefix with which no tag can be read back shows nothing */
    if (prefix == 0 || prefix == 4 || prefix == 2) {
        HOLD(kmip_ttlv_from_diag(shown, length, (const uint8_t *)it->prefix, prefix, (const uint8_t *)"", 0, SIZE_MAX, out,
                                 room, &lines, &line) == KMIP_TTLV_OK);
        for (size_t at = 0; at + 5 <= lines; at++) {
            begun += memcmp(out + at, "Tag: ", 5) == 0;
        }
        bool all = true;
        for (size_t i = 0; i < count; i++) {
            all = all && (prefix < 4 ? prefix == 0 || items[i].tag >> 16 == 0x42 : items[i].tag >> 8 == 0x4200);
        }
        HOLD(!all || begun == count);
    }
    free(out);
}

/* The checked diagnostic: this text of a whole message, and of other bytes nothing but the fault. */
static void checked(const struct asked *it, const uint8_t *shown, size_t shown_length, kmip_ttlv_fault wanted) {
    const uint8_t *prefix = (const uint8_t *)it->prefix;
    const bool is_whole = wanted.kind == KMIP_TTLV_WHOLE;
    uint8_t *out = malloc(shown_length);
    memset(out, 0x55, shown_length);
    kmip_ttlv_fault fault = {9, 9};
    size_t length = 9;
    const kmip_ttlv_status status = kmip_ttlv_to_diag_checked(it->bytes, it->size, prefix, strlen(it->prefix), out, shown_length, &length, &fault);
    HOLD(status == (is_whole ? KMIP_TTLV_OK : KMIP_TTLV_MALFORMED) && used == 0);
    HOLD(fault.kind == wanted.kind && fault.offset == wanted.offset && length == (is_whole ? shown_length : 0));
    HOLD(is_whole ? memcmp(out, shown, length) == 0 : out[0] == 0x55 && memcmp(out, out + 1, shown_length - 1) == 0);
    free(out);
}

int LLVMFuzzerTestOneInput(const uint8_t *data, size_t size) {
    if (size < 2) {
        return 0;
    }
    uint8_t *bytes = copy_of(data + 2, size - 2);
    struct asked it = {bytes, size - 2, PREFIXES[data[0] % 6], data[0] / 6 % 5, data[1] & 1, 64 * size + 262144};
    if (data[1] & 2) {
        it.limit = 40000 + 64 * (size_t)data[1];
    }
    kmip_ttlv_item *items = malloc((it.size / 8 + 1) * sizeof *items);
    uint64_t *ends = malloc((it.size / 8 + 1) * sizeof *ends);
    kmip_ttlv_fault fault;
    const size_t count = walk(bytes, it.size, items, ends, &fault);
    /* KMIP's names are a large table, so they are asked for now and then */
    for (int which = 0; which < (data[1] % 8 == 0 ? CALLS : TO_STANDARD_TEXT); which++) {
        size_t length = 9;
        uint8_t *text = text_of(which, &it, &length);
        HOLD(text != NULL || which != TO_DIAG);
        if (which == TO_DIAG && !it.open_empty) {
            checked(&it, text, length, fault);
        }
        if (which == TO_DIAG && fault.kind == KMIP_TTLV_WHOLE && !it.open_empty) {
            of_whole(&it, items, count, text, length);
        }
        if (text != NULL && which != TO_DIAG && fault.kind == KMIP_TTLV_CUT) {
            static const char error[] = "ERROR: cannot read the item at byte ";
            bool has_error = false;
            for (size_t at = 0; at + strlen(error) <= length; at++) {
                has_error = has_error || memcmp(text + at, error, strlen(error)) == 0;
            }
            HOLD(has_error);
        }
        free(text);
        if (size % 64 == 0) {
            without_memory(which, &it);
        }
    }
    free(ends);
    free(items);
    free(bytes);
    return 0;
}
