/* kmip_ttlv_from_diag: any text behind two bytes that choose a prefix and a table. It is an error only if a text isn't UTF-8, a
 * line of the table is bad, or memory runs out; its lines are UTF-8, fit a buffer of their length and none that is shorter, and
 * begin as lines of items do. */
#include "model.h"

static const char *const PREFIXES[] = {"", "4200", "42", "420078", "4200690", "\xFF"};

/* No space, line feed or letter outside of ASCII: the value of an enumeration is shown as it is. */
static bool is_plain(const uint8_t *text, size_t size) {
    for (size_t at = 0; at < size; at++) {
        if (text[at] <= ' ' || text[at] >= 0x7F) {
            return false;
        }
    }
    return true;
}

static void check_lines(const uint8_t *out, size_t length) {
    bool begins = true;
    size_t spaces = 0;
    for (size_t at = 0; at < length; at++) {
        if (begins && out[at] == ' ') {
            spaces++;
        } else if (begins) {
            HOLD(spaces % 2 == 0 && length - at >= 7 && memcmp(out + at, "Tag: ", 5) == 0);
            begins = false;
        }
        if (out[at] == '\n') {
            HOLD(!begins);
            begins = true;
            spaces = 0;
        }
    }
    HOLD(length == 0 || (!begins && out[length - 1] != '\n' && out[length - 1] != ' '));
}

int LLVMFuzzerTestOneInput(const uint8_t *data, size_t size) {
    if (size < 2) {
        return 0;
    }
    /* the table is the end of the input */
    const size_t table_size = data[1] % 4 == 0 ? data[1] % (size - 1) : 0, text_size = size - 2 - table_size;
    uint8_t *text = copy_of(data + 2, text_size), *table = copy_of(data + 2 + text_size, table_size);
    const uint8_t *prefix = (const uint8_t *)PREFIXES[data[0] % 6];
    const size_t prefix_size = strlen(PREFIXES[data[0] % 6]), limit = 64 * size + 65536;
    const bool is_text = is_utf8(text, text_size) && is_utf8(prefix, prefix_size) && is_utf8(table, table_size);
    size_t length = 9, line = 9, again = 9;
    most = 0;
    kmip_ttlv_status status =
        kmip_ttlv_from_diag(text, text_size, prefix, prefix_size, table, table_size, limit, text, 0, &length, &line);
    HOLD(used == 0 && most <= limit && (status == KMIP_TTLV_NOT_UTF8) == !is_text);
    HOLD((line == 0) == (status != KMIP_TTLV_BAD_NAMES) && (status != KMIP_TTLV_BAD_NAMES || table_size > 0));
    if (status == KMIP_TTLV_OK || status == KMIP_TTLV_NO_ROOM) {
        HOLD((length == 0) == (status == KMIP_TTLV_OK));
        uint8_t *out = malloc(length);
        memset(out, 0x55, length);
        if (length > 0) {
            HOLD(kmip_ttlv_from_diag(text, text_size, prefix, prefix_size, table, table_size, SIZE_MAX, out, length - 1, &again,
                                     &line) == KMIP_TTLV_NO_ROOM);
            HOLD(again == length && out[0] == 0x55 && memcmp(out, out + 1, length - 1) == 0);
        }
        HOLD(kmip_ttlv_from_diag(text, text_size, prefix, prefix_size, table, table_size, SIZE_MAX, out, length, &again,
                                 &line) == KMIP_TTLV_OK);
        HOLD(again == length && is_utf8(out, length) && used == 0);
        if (table_size == 0 && is_plain(text, text_size)) {
            check_lines(out, length);
        }
        free(out);
    } else {
        HOLD(length == 0);
    }
    for (long n = 0; size % 16 == 0 && n < 200; n++) {
        left = n;
        status = kmip_ttlv_from_diag(text, text_size, prefix, prefix_size, table, table_size, limit, text, 0, &length, &line);
        const bool is_over = left != 0;
        left = -1;
        HOLD(used == 0 && (is_over || status != KMIP_TTLV_OUT_OF_MEMORY || (length == 0 && line == 0)));
        if (is_over || status != KMIP_TTLV_OUT_OF_MEMORY) {
            break;
        }
    }
    free(table);
    free(text);
    return 0;
}
