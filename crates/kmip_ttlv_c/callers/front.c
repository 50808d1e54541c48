/* What the proved calls are passed by front.c: it is linked with others here, of the same names, that look at their arguments. None is
 * null, and one that isn't is passed on as it is. */
#include "kmip_ttlv.h"

#include <stdio.h>

#define PROVED(name) extern __typeof__(kmip_ttlv_##name) rattle_kmip_ttlv_##name

PROVED(to_diag);
PROVED(to_diag_checked);
PROVED(to_text);
PROVED(to_standard_text);
PROVED(to_redacted_text);
PROVED(from_diag);
PROVED(to_json);
PROVED(from_json);
PROVED(tag_name);
PROVED(value_name);
PROVED(mask_names);
PROVED(items);
PROVED(check);
PROVED(write);
PROVED(version);

/* What a call is to be passed: null, which has to come as something else, or this. */
static uint8_t block[8];
static kmip_ttlv_item list[2];
static bool is_null;
enum { LENGTH = 3, LIMIT = 77, NUMBER = 5, VALUE = 6 };

/* The places that are set, in whose stead nothing may come. */
static size_t set[2];
static kmip_ttlv_fault fault;
static kmip_ttlv_bad_item bad;

static bool is_passed(const void *at, size_t length, const void *wanted) {
    return is_null ? at != NULL && length == 0 : at == wanted && length == LENGTH;
}

static bool is_block(const uint8_t *at, size_t length, int from) {
    return is_passed(at, length, block + from);
}

static kmip_ttlv_status answer(bool is_so) {
    return is_so ? KMIP_TTLV_OK : KMIP_TTLV_MALFORMED;
}

kmip_ttlv_status rattle_kmip_ttlv_to_diag(const uint8_t *bytes, size_t bytes_len, const uint8_t *prefix, size_t prefix_len, bool open_empty,
                                          uint8_t *out, size_t room, size_t *length, size_t *items) {
    return answer(is_block(bytes, bytes_len, 0) && is_block(prefix, prefix_len, 1) && open_empty != is_null && is_block(out, room, 3) &&
                  length == set && items == set + 1);
}

kmip_ttlv_status rattle_kmip_ttlv_to_diag_checked(const uint8_t *bytes, size_t bytes_len, const uint8_t *prefix, size_t prefix_len,
                                                  uint8_t *out, size_t room, size_t *length, kmip_ttlv_fault *where) {
    return answer(is_block(bytes, bytes_len, 0) && is_block(prefix, prefix_len, 1) && is_block(out, room, 3) && length == set && where == &fault);
}

kmip_ttlv_status rattle_kmip_ttlv_to_text(const uint8_t *bytes, size_t bytes_len, const uint8_t *names, size_t names_len, bool open_empty,
                                          size_t limit, uint8_t *out, size_t room, size_t *length, size_t *bad_line) {
    return answer(is_block(bytes, bytes_len, 0) && is_block(names, names_len, 2) && open_empty != is_null && limit == LIMIT &&
                  is_block(out, room, 3) && length == set && bad_line == set + 1);
}

kmip_ttlv_status rattle_kmip_ttlv_to_standard_text(const uint8_t *bytes, size_t bytes_len, bool open_empty, size_t limit, uint8_t *out,
                                                   size_t room, size_t *length) {
    return answer(is_block(bytes, bytes_len, 0) && open_empty != is_null && limit == LIMIT && is_block(out, room, 3) && length == set);
}

kmip_ttlv_status rattle_kmip_ttlv_to_redacted_text(const uint8_t *bytes, size_t bytes_len, size_t limit, uint8_t *out, size_t room,
                                                   size_t *length, kmip_ttlv_fault *where) {
    return answer(is_block(bytes, bytes_len, 0) && limit == LIMIT && is_block(out, room, 3) && length == set && where == &fault);
}

kmip_ttlv_status rattle_kmip_ttlv_to_json(const uint8_t *bytes, size_t bytes_len, uint32_t redact, uint8_t *out, size_t room,
                                          size_t *length, kmip_ttlv_fault *where) {
    return answer(is_block(bytes, bytes_len, 0) && redact == NUMBER && is_block(out, room, 3) && length == set && where == &fault);
}

kmip_ttlv_status rattle_kmip_ttlv_from_json(const uint8_t *text, size_t text_len, uint8_t *out, size_t room, size_t *length,
                                            kmip_ttlv_fault *where) {
    return answer(is_block(text, text_len, 0) && is_block(out, room, 3) && length == set && where == &fault);
}

kmip_ttlv_status rattle_kmip_ttlv_tag_name(uint32_t tag, uint8_t *out, size_t room, size_t *length) {
    return answer(tag == NUMBER && is_block(out, room, 3) && length == set);
}

kmip_ttlv_status rattle_kmip_ttlv_value_name(uint32_t tag, uint32_t value, uint8_t *out, size_t room, size_t *length) {
    return answer(tag == NUMBER && value == VALUE && is_block(out, room, 3) && length == set);
}

kmip_ttlv_status rattle_kmip_ttlv_mask_names(uint32_t tag, uint32_t mask, uint8_t *out, size_t room, size_t *length) {
    return answer(tag == NUMBER && mask == VALUE && is_block(out, room, 3) && length == set);
}

kmip_ttlv_status rattle_kmip_ttlv_from_diag(const uint8_t *diagnostic, size_t diagnostic_len, const uint8_t *prefix, size_t prefix_len,
                                            const uint8_t *names, size_t names_len, size_t limit, uint8_t *out, size_t room,
                                            size_t *length, size_t *bad_line) {
    return answer(is_block(diagnostic, diagnostic_len, 0) && is_block(prefix, prefix_len, 1) && is_block(names, names_len, 2) &&
                  limit == LIMIT && is_block(out, room, 3) && length == set && bad_line == set + 1);
}

kmip_ttlv_status rattle_kmip_ttlv_items(const uint8_t *bytes, size_t bytes_len, kmip_ttlv_item *items, size_t room, size_t *count,
                                        kmip_ttlv_fault *where) {
    return answer(is_block(bytes, bytes_len, 0) && is_passed(items, room, list) && count == set && where == &fault);
}

kmip_ttlv_status rattle_kmip_ttlv_check(const uint8_t *bytes, size_t bytes_len, kmip_ttlv_fault *where) {
    return answer(is_block(bytes, bytes_len, 0) && where == &fault);
}

kmip_ttlv_status rattle_kmip_ttlv_write(const kmip_ttlv_item *items, size_t count, const uint8_t *bytes, size_t bytes_len, uint8_t *out,
                                        size_t room, size_t *length, kmip_ttlv_bad_item *which) {
    return answer(is_passed(items, count, list) && is_block(bytes, bytes_len, 0) && is_block(out, room, 3) && length == set && which == &bad);
}

kmip_ttlv_status rattle_kmip_ttlv_version(uint8_t *out, size_t room, size_t *length) {
    return answer(is_block(out, room, 3) && length == set);
}

/* How many calls were passed something else. */
static int tried(void) {
    const uint8_t *bytes = is_null ? NULL : block, *prefix = is_null ? NULL : block + 1, *names = is_null ? NULL : block + 2;
    uint8_t *out = is_null ? NULL : block + 3;
    kmip_ttlv_item *items = is_null ? NULL : list;
    const size_t n = is_null ? 0 : LENGTH;
    const bool open = !is_null;
    const kmip_ttlv_status found[] = {
        kmip_ttlv_to_diag(bytes, n, prefix, n, open, out, n, set, set + 1),
        kmip_ttlv_to_diag_checked(bytes, n, prefix, n, out, n, set, &fault),
        kmip_ttlv_to_text(bytes, n, names, n, open, LIMIT, out, n, set, set + 1),
        kmip_ttlv_to_standard_text(bytes, n, open, LIMIT, out, n, set),
        kmip_ttlv_to_redacted_text(bytes, n, LIMIT, out, n, set, &fault),
        kmip_ttlv_to_json(bytes, n, NUMBER, out, n, set, &fault),
        kmip_ttlv_from_json(bytes, n, out, n, set, &fault),
        kmip_ttlv_tag_name(NUMBER, out, n, set),
        kmip_ttlv_value_name(NUMBER, VALUE, out, n, set),
        kmip_ttlv_mask_names(NUMBER, VALUE, out, n, set),
        kmip_ttlv_from_diag(bytes, n, prefix, n, names, n, LIMIT, out, n, set, set + 1),
        kmip_ttlv_items(bytes, n, items, n, set, &fault),
        kmip_ttlv_check(bytes, n, &fault),
        kmip_ttlv_write(items, n, bytes, n, out, n, set, &bad),
        kmip_ttlv_version(out, n, set),
    };
    int others = 0;
    for (size_t i = 0; i < sizeof found / sizeof *found; i++) {
        if (found[i] != KMIP_TTLV_OK) {
            printf("call %zu: passed something else, given %s\n", i, is_null ? "null" : "blocks");
            others++;
        }
    }
    return others;
}

int main(void) {
    is_null = false;
    const int of_blocks = tried();
    is_null = true;
    return of_blocks + tried() > 0 ? 1 : 0;
}
