/* The calls as C makes them. The proved ones, which the script `build` renames to rattle_kmip_ttlv_.., take pointers that are not
 * null and lengths that an object can have. Here a null pointer whose length is 0 becomes one to a place that is neither read nor
 * written, and what no object can be is an error. Nothing else is done here. */
#include "kmip_ttlv.h"

#define PROVED(name) extern __typeof__(kmip_ttlv_##name) rattle_kmip_ttlv_##name

PROVED(to_diag);
PROVED(to_diag_checked);
PROVED(to_text);
PROVED(to_standard_text);
PROVED(to_redacted_text);
PROVED(from_diag);
PROVED(to_json);
PROVED(from_json);
PROVED(tag_name);
PROVED(value_name);
PROVED(mask_names);
PROVED(items);
PROVED(check);
PROVED(write);
PROVED(version);

/* Where what is empty lies. */
static uint8_t nothing;
static kmip_ttlv_item no_items;

static bool is_bad(const void *at, size_t length) {
    return length > PTRDIFF_MAX || (at == NULL && length > 0);
}

static bool is_bad_list(const kmip_ttlv_item *at, size_t count) {
    return count > PTRDIFF_MAX / sizeof *at || (at == NULL && count > 0);
}

static const uint8_t *from(const uint8_t *at) {
    return at == NULL ? &nothing : at;
}

static uint8_t *to(uint8_t *at) {
    return at == NULL ? &nothing : at;
}

static kmip_ttlv_status refused(size_t *length, size_t *other) {
    *length = 0;
    *other = 0;
    return KMIP_TTLV_BAD_ARGUMENT;
}

static kmip_ttlv_status refused_with(size_t *length, kmip_ttlv_fault *fault) {
    fault->kind = KMIP_TTLV_WHOLE;
    return refused(length, &fault->offset);
}

kmip_ttlv_status kmip_ttlv_to_diag(const uint8_t *bytes, size_t bytes_len, const uint8_t *prefix, size_t prefix_len,
                                   bool open_empty, uint8_t *out, size_t room, size_t *length, size_t *items) {
    if (is_bad(bytes, bytes_len) || is_bad(prefix, prefix_len) || is_bad(out, room)) {
        return refused(length, items);
    }
    return rattle_kmip_ttlv_to_diag(from(bytes), bytes_len, from(prefix), prefix_len, open_empty, to(out), room, length, items);
}

kmip_ttlv_status kmip_ttlv_to_diag_checked(const uint8_t *bytes, size_t bytes_len, const uint8_t *prefix, size_t prefix_len,
                                           uint8_t *out, size_t room, size_t *length, kmip_ttlv_fault *fault) {
    if (is_bad(bytes, bytes_len) || is_bad(prefix, prefix_len) || is_bad(out, room)) {
        return refused_with(length, fault);
    }
    return rattle_kmip_ttlv_to_diag_checked(from(bytes), bytes_len, from(prefix), prefix_len, to(out), room, length, fault);
}

kmip_ttlv_status kmip_ttlv_to_text(const uint8_t *bytes, size_t bytes_len, const uint8_t *names, size_t names_len,
                                   bool open_empty, size_t limit, uint8_t *out, size_t room, size_t *length,
                                   size_t *bad_line) {
    if (is_bad(bytes, bytes_len) || is_bad(names, names_len) || is_bad(out, room)) {
        return refused(length, bad_line);
    }
    return rattle_kmip_ttlv_to_text(from(bytes), bytes_len, from(names), names_len, open_empty, limit, to(out), room, length,
                                    bad_line);
}

kmip_ttlv_status kmip_ttlv_to_standard_text(const uint8_t *bytes, size_t bytes_len, bool open_empty, size_t limit,
                                            uint8_t *out, size_t room, size_t *length) {
    if (is_bad(bytes, bytes_len) || is_bad(out, room)) {
        return refused(length, length);
    }
    return rattle_kmip_ttlv_to_standard_text(from(bytes), bytes_len, open_empty, limit, to(out), room, length);
}

kmip_ttlv_status kmip_ttlv_to_redacted_text(const uint8_t *bytes, size_t bytes_len, size_t limit, uint8_t *out, size_t room,
                                            size_t *length, kmip_ttlv_fault *fault) {
    if (is_bad(bytes, bytes_len) || is_bad(out, room)) {
        return refused_with(length, fault);
    }
    return rattle_kmip_ttlv_to_redacted_text(from(bytes), bytes_len, limit, to(out), room, length, fault);
}

kmip_ttlv_status kmip_ttlv_from_diag(const uint8_t *diagnostic, size_t diagnostic_len, const uint8_t *prefix,
                                     size_t prefix_len, const uint8_t *names, size_t names_len, size_t limit,
                                     uint8_t *out, size_t room, size_t *length, size_t *bad_line) {
    if (is_bad(diagnostic, diagnostic_len) || is_bad(prefix, prefix_len) || is_bad(names, names_len) || is_bad(out, room)) {
        return refused(length, bad_line);
    }
    return rattle_kmip_ttlv_from_diag(from(diagnostic), diagnostic_len, from(prefix), prefix_len, from(names), names_len, limit,
                                      to(out), room, length, bad_line);
}

kmip_ttlv_status kmip_ttlv_to_json(const uint8_t *bytes, size_t bytes_len, uint32_t redact, uint8_t *out, size_t room,
                                   size_t *length, kmip_ttlv_fault *fault) {
    if (is_bad(bytes, bytes_len) || is_bad(out, room)) {
        return refused_with(length, fault);
    }
    return rattle_kmip_ttlv_to_json(from(bytes), bytes_len, redact, to(out), room, length, fault);
}

kmip_ttlv_status kmip_ttlv_from_json(const uint8_t *text, size_t text_len, uint8_t *out, size_t room, size_t *length,
                                     kmip_ttlv_fault *fault) {
    if (is_bad(text, text_len) || is_bad(out, room)) {
        return refused_with(length, fault);
    }
    return rattle_kmip_ttlv_from_json(from(text), text_len, to(out), room, length, fault);
}

kmip_ttlv_status kmip_ttlv_tag_name(uint32_t tag, uint8_t *out, size_t room, size_t *length) {
    if (is_bad(out, room)) {
        return refused(length, length);
    }
    return rattle_kmip_ttlv_tag_name(tag, to(out), room, length);
}

kmip_ttlv_status kmip_ttlv_value_name(uint32_t tag, uint32_t value, uint8_t *out, size_t room, size_t *length) {
    if (is_bad(out, room)) {
        return refused(length, length);
    }
    return rattle_kmip_ttlv_value_name(tag, value, to(out), room, length);
}

kmip_ttlv_status kmip_ttlv_mask_names(uint32_t tag, uint32_t mask, uint8_t *out, size_t room, size_t *length) {
    if (is_bad(out, room)) {
        return refused(length, length);
    }
    return rattle_kmip_ttlv_mask_names(tag, mask, to(out), room, length);
}

kmip_ttlv_status kmip_ttlv_items(const uint8_t *bytes, size_t bytes_len, kmip_ttlv_item *items, size_t room, size_t *count,
                                 kmip_ttlv_fault *fault) {
    if (is_bad(bytes, bytes_len) || is_bad_list(items, room)) {
        return refused_with(count, fault);
    }
    return rattle_kmip_ttlv_items(from(bytes), bytes_len, items == NULL ? &no_items : items, room, count, fault);
}

kmip_ttlv_status kmip_ttlv_check(const uint8_t *bytes, size_t bytes_len, kmip_ttlv_fault *fault) {
    if (is_bad(bytes, bytes_len)) {
        return refused_with(&fault->offset, fault);
    }
    return rattle_kmip_ttlv_check(from(bytes), bytes_len, fault);
}

kmip_ttlv_status kmip_ttlv_write(const kmip_ttlv_item *items, size_t count, const uint8_t *bytes, size_t bytes_len,
                                 uint8_t *out, size_t room, size_t *length, kmip_ttlv_bad_item *bad) {
    if (is_bad_list(items, count) || is_bad(bytes, bytes_len) || is_bad(out, room)) {
        bad->kind = KMIP_TTLV_WHOLE;
        return refused(length, &bad->index);
    }
    return rattle_kmip_ttlv_write(items == NULL ? &no_items : items, count, from(bytes), bytes_len, to(out), room, length, bad);
}

kmip_ttlv_status kmip_ttlv_version(uint8_t *out, size_t room, size_t *length) {
    if (is_bad(out, room)) {
        return refused(length, length);
    }
    return rattle_kmip_ttlv_version(to(out), room, length);
}
