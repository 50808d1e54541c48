// The calls that bench/run measures, by hand, in plain C: for these messages alone, with nothing said of an error but that there is one.
// floor CALL MESSAGE COUNT, with the message on standard input; with 0 for COUNT the result goes to standard output.
#include <stdint.h>
#include <stdio.h>
#include <stdlib.h>
#include <string.h>

typedef struct { uint8_t *p; size_t len; } Bytes;

static uint32_t be32(const uint8_t *p) { uint32_t v; memcpy(&v, p, 4); return __builtin_bswap32(v); }
static uint64_t be64(const uint8_t *p) { uint64_t v; memcpy(&v, p, 8); return __builtin_bswap64(v); }
static void put64(uint8_t *p, uint64_t v) { v = __builtin_bswap64(v); memcpy(p, &v, 8); }
static size_t padded(size_t n) { return (n + 7) & ~(size_t)7; }

// An item's header: its tag, its type and its length.
#define HEAD(tag, typ, len) ((uint64_t)(tag) << 40 | (uint64_t)(typ) << 32 | (uint32_t)(len))

// UTF-8 as RFC 3629 has it, eight ASCII bytes at once.
static int is_utf8(const uint8_t *p, size_t n) {
    size_t i = 0;
    while (i < n) {
        uint64_t w;
        if (i + 8 <= n && (memcpy(&w, p + i, 8), !(w & 0x8080808080808080ull))) { i += 8; continue; }
        uint8_t c = p[i];
        if (c < 0x80) { i++; continue; }
        size_t more = c >= 0xC2 && c < 0xE0 ? 1 : (c & 0xF0) == 0xE0 ? 2 : c >= 0xF0 && c < 0xF5 ? 3 : 0;
        if (!more || i + more >= n) return 0;
        for (size_t k = 1; k <= more; k++) if ((p[i + k] & 0xC0) != 0x80) return 0;
        uint8_t d = p[i + 1];
        if ((c == 0xE0 && d < 0xA0) || (c == 0xED && d > 0x9F) || (c == 0xF0 && d < 0x90) || (c == 0xF4 && d > 0x8F)) return 0;
        i += more + 1;
    }
    return 1;
}

// The messages: requests to create or register a key, the responses to these and to Get, and a long value.

typedef struct { uint32_t format, algorithm; int32_t bits; Bytes material; } Key;
enum { ALGORITHM, INTEGER, NAME };
typedef struct { Bytes name; int kind; uint32_t number; Bytes text; } Attribute;
typedef struct { uint32_t operation, object_type; Attribute *attributes; size_t count, room; Key *key; } RequestItem;
typedef struct { int32_t major, minor, batch; RequestItem *items; size_t count, room; } Request;
typedef struct { uint32_t operation, status, object_type; Bytes identifier; Key *key; } ResponseItem;
typedef struct { int32_t major, minor, batch; int64_t stamp; ResponseItem *items; size_t count, room; } Response;
typedef struct { Bytes content; int32_t number; } Blob;

enum { CREATE = 1, REGISTER = 3, GET = 10, DESTROY = 20 };

// Encoding: the size first, and each structure's length when its end is reached.

static uint8_t *four(uint8_t *p, uint32_t tag, int typ, uint32_t v) {
    put64(p, HEAD(tag, typ, 4));
    put64(p + 8, (uint64_t)v << 32);
    return p + 16;
}
static uint8_t *bytes(uint8_t *p, uint32_t tag, int typ, const Bytes *b) {
    size_t q = padded(b->len);
    put64(p, HEAD(tag, typ, b->len));
    if (q) put64(p + q, 0);
    memcpy(p + 8, b->p, b->len);
    return p + 8 + q;
}
static void close_structure(uint8_t *at, uint32_t tag, const uint8_t *end) { put64(at, HEAD(tag, 1, end - at - 8)); }
static size_t key_size(const Key *k) { return k ? 8 + 8 + 16 + 8 + 8 + padded(k->material.len) + 16 + 16 : 0; }
static uint8_t *put_key(uint8_t *p, const Key *k) {
    uint8_t *key = p, *block = p + 8, *value = p + 32;
    four(p + 16, 0x420042, 5, k->format);
    p = bytes(p + 40, 0x420043, 8, &k->material);
    close_structure(value, 0x420045, p);
    p = four(four(p, 0x420028, 5, k->algorithm), 0x42002A, 2, k->bits);
    close_structure(block, 0x420040, p);
    close_structure(key, 0x42008F, p);
    return p;
}
static size_t attribute_size(const Attribute *a) {
    return 8 + 8 + padded(a->name.len) + (a->kind == NAME ? 8 + 8 + padded(a->text.len) + 16 : 16);
}
static uint8_t *put_attribute(uint8_t *p, const Attribute *a) {
    uint8_t *attribute = p, *value = p = bytes(p + 8, 0x42000A, 7, &a->name);
    if (a->kind == NAME) {
        p = four(bytes(p + 8, 0x420055, 7, &a->text), 0x420054, 5, a->number);
        close_structure(value, 0x42000B, p);
    } else
        p = four(p, 0x42000B, a->kind == INTEGER ? 2 : 5, a->number);
    close_structure(attribute, 0x420008, p);
    return p;
}
static uint8_t *put_version(uint8_t *p, int32_t major, int32_t minor) {
    put64(p, HEAD(0x420069, 1, 32));
    return four(four(p + 8, 0x42006A, 2, major), 0x42006B, 2, minor);
}
static int encode_request(const Request *r, Bytes *out) {
    size_t size = 72;
    for (const RequestItem *i = r->items; i < r->items + r->count; i++) {
        size += 56 + key_size(i->key);
        for (size_t k = 0; k < i->count; k++) size += attribute_size(&i->attributes[k]);
    }
    uint8_t *p = out->p = malloc(size);
    if (!p || size > UINT32_MAX) return free(p), 0;
    put64(p + 8, HEAD(0x420077, 1, 56));
    p = four(put_version(p + 16, r->major, r->minor), 0x42000D, 2, r->batch);
    for (const RequestItem *i = r->items; i < r->items + r->count; i++) {
        uint8_t *item = p, *payload = p + 24, *template = p + 48;
        four(p + 8, 0x42005C, 5, i->operation);
        four(p + 32, 0x420057, 5, i->object_type);
        p += 56;
        for (size_t k = 0; k < i->count; k++) p = put_attribute(p, &i->attributes[k]);
        close_structure(template, 0x420091, p);
        if (i->key) p = put_key(p, i->key);
        close_structure(payload, 0x420079, p);
        close_structure(item, 0x42000F, p);
    }
    close_structure(out->p, 0x420078, p);
    out->len = p - out->p;
    return 1;
}
static int encode_response(const Response *r, Bytes *out) {
    size_t size = 88;
    for (const ResponseItem *i = r->items; i < r->items + r->count; i++) size += 72 + padded(i->identifier.len) + key_size(i->key);
    uint8_t *p = out->p = malloc(size);
    if (!p || size > UINT32_MAX) return free(p), 0;
    put64(p + 8, HEAD(0x42007A, 1, 72));
    p = put_version(p + 16, r->major, r->minor);
    put64(p, HEAD(0x420092, 9, 8));
    put64(p + 8, r->stamp);
    p = four(p + 16, 0x42000D, 2, r->batch);
    for (const ResponseItem *i = r->items; i < r->items + r->count; i++) {
        uint8_t *item = p, *payload = p + 40;
        four(four(p + 8, 0x42005C, 5, i->operation), 0x42007F, 5, i->status);
        p += 48;
        if (i->operation != DESTROY) p = four(p, 0x420057, 5, i->object_type);
        p = bytes(p, 0x420094, 7, &i->identifier);
        if (i->key) p = put_key(p, i->key);
        close_structure(payload, 0x42007C, p);
        close_structure(item, 0x42000F, p);
    }
    close_structure(out->p, 0x42007B, p);
    out->len = p - out->p;
    return 1;
}
static int encode_blob(const Blob *b, Bytes *out) {
    size_t size = 32 + padded(b->content.len);
    uint8_t *p = out->p = malloc(size);
    if (!p || size > UINT32_MAX) return free(p), 0;
    p = four(bytes(p + 8, 0xBBBBBB, 8, &b->content), 0xCCCCCC, 2, b->number);
    close_structure(out->p, 0xAAAAAA, p);
    out->len = p - out->p;
    return 1;
}

// Decoding: a place in the bytes, and the end of the structure around it.

typedef struct { const uint8_t *p, *end; } Cursor;

static inline int enter(Cursor *c, uint32_t tag, Cursor *inside) {
    if (c->end - c->p < 8) return 0;
    uint64_t h = be64(c->p);
    if (h >> 32 != (tag << 8 | 1) || (size_t)(c->end - c->p - 8) < (uint32_t)h) return 0;
    inside->p = c->p + 8;
    c->p = inside->end = inside->p + (uint32_t)h;
    return 1;
}
static inline int take_four(Cursor *c, uint32_t tag, int typ, uint32_t *v) {
    if (c->end - c->p < 16 || be64(c->p) != HEAD(tag, typ, 4)) return 0;
    *v = be32(c->p + 8);
    c->p += 16;
    return 1;
}
static inline int take_bytes(Cursor *c, uint32_t tag, int typ, Bytes *b) {
    if (c->end - c->p < 8) return 0;
    uint64_t h = be64(c->p);
    size_t n = (uint32_t)h, q = padded(n);
    if (h >> 32 != (tag << 8 | typ) || (size_t)(c->end - c->p - 8) < q) return 0;
    if (typ == 7 && !is_utf8(c->p + 8, n)) return 0;
    if (!(b->p = malloc(n ? n : 1))) return 0;
    memcpy(b->p, c->p + 8, n);
    b->len = n;
    c->p += 8 + q;
    return 1;
}
static inline int is_next(const Cursor *c, uint32_t tag) { return c->end - c->p >= 8 && be32(c->p) >> 8 == tag; }
static inline int is(const Bytes *b, const char *text) { return b->len == strlen(text) && !memcmp(b->p, text, b->len); }

// A list with room for one more.
static void *grown(void *list, size_t count, size_t *room, size_t size, size_t first) {
    if (count < *room) return list;
    void *more = realloc(list, (*room ? 2 * *room : first) * size);
    if (more) *room = *room ? 2 * *room : first;
    return more;
}
static void drop_key(Key *k) { if (k) { free(k->material.p); free(k); } }
static int take_key(Cursor *c, Key **to) {
    Cursor key, block, value;
    Key *k = *to = calloc(1, sizeof *k);
    return k && enter(c, 0x42008F, &key) && enter(&key, 0x420040, &block) && take_four(&block, 0x420042, 5, &k->format)
        && enter(&block, 0x420045, &value) && take_bytes(&value, 0x420043, 8, &k->material)
        && take_four(&block, 0x420028, 5, &k->algorithm) && take_four(&block, 0x42002A, 2, (uint32_t *)&k->bits);
}
static int take_attribute(Cursor *c, Attribute *a) {
    Cursor in, name;
    if (!enter(c, 0x420008, &in) || !take_bytes(&in, 0x42000A, 7, &a->name)) return 0;
    if (is(&a->name, "Cryptographic Algorithm")) return a->kind = ALGORITHM, take_four(&in, 0x42000B, 5, &a->number);
    if (is(&a->name, "Cryptographic Length") || is(&a->name, "Cryptographic Usage Mask"))
        return a->kind = INTEGER, take_four(&in, 0x42000B, 2, &a->number);
    a->kind = NAME;
    return is(&a->name, "Name") && enter(&in, 0x42000B, &name) && take_bytes(&name, 0x420055, 7, &a->text)
        && take_four(&name, 0x420054, 5, &a->number);
}
static int take_version(Cursor *c, int32_t *major, int32_t *minor) {
    Cursor in;
    return enter(c, 0x420069, &in) && take_four(&in, 0x42006A, 2, (uint32_t *)major) && take_four(&in, 0x42006B, 2, (uint32_t *)minor);
}
static void drop_request(Request *r) {
    for (RequestItem *i = r->items; i < r->items + r->count; i++) {
        for (Attribute *a = i->attributes; a < i->attributes + i->count; a++) {
            free(a->name.p);
            if (a->kind == NAME) free(a->text.p);
        }
        free(i->attributes);
        drop_key(i->key);
    }
    free(r->items);
}
static int take_request_item(Cursor *c, RequestItem *i) {
    Cursor in, payload, template;
    if (!enter(c, 0x42000F, &in) || !take_four(&in, 0x42005C, 5, &i->operation)) return 0;
    if (!enter(&in, 0x420079, &payload) || !take_four(&payload, 0x420057, 5, &i->object_type)) return 0;
    if ((i->operation != CREATE && i->operation != REGISTER) || !enter(&payload, 0x420091, &template)) return 0;
    while (is_next(&template, 0x420008)) {
        void *list = grown(i->attributes, i->count, &i->room, sizeof *i->attributes, 4);
        if (!list) return 0;
        i->attributes = list;
        Attribute *a = &i->attributes[i->count++];
        a->name.p = a->text.p = NULL;
        if (!take_attribute(&template, a)) return 0;
    }
    return i->operation == CREATE || take_key(&payload, &i->key);
}
static int decode_request(Bytes b, Request *r) {
    memset(r, 0, sizeof *r);
    Cursor all = {b.p, b.p + b.len}, in, header;
    if (!enter(&all, 0x420078, &in) || !enter(&in, 0x420077, &header) || !take_version(&header, &r->major, &r->minor)) return 0;
    if (!take_four(&header, 0x42000D, 2, (uint32_t *)&r->batch)) return 0;
    while (is_next(&in, 0x42000F)) {
        void *list = grown(r->items, r->count, &r->room, sizeof *r->items, 1);
        if (!list) return drop_request(r), 0;
        r->items = list;
        memset(&r->items[r->count], 0, sizeof *r->items);
        if (!take_request_item(&in, &r->items[r->count++])) return drop_request(r), 0;
    }
    return 1;
}
static void drop_response(Response *r) {
    for (ResponseItem *i = r->items; i < r->items + r->count; i++) {
        free(i->identifier.p);
        drop_key(i->key);
    }
    free(r->items);
}
static int take_response_item(Cursor *c, ResponseItem *i) {
    Cursor in, payload;
    if (!enter(c, 0x42000F, &in) || !take_four(&in, 0x42005C, 5, &i->operation) || !take_four(&in, 0x42007F, 5, &i->status)) return 0;
    if (i->operation != CREATE && i->operation != GET && i->operation != DESTROY) return 0;
    if (!enter(&in, 0x42007C, &payload)) return 0;
    if (i->operation != DESTROY && !take_four(&payload, 0x420057, 5, &i->object_type)) return 0;
    return take_bytes(&payload, 0x420094, 7, &i->identifier) && (i->operation != GET || take_key(&payload, &i->key));
}
static int decode_response(Bytes b, Response *r) {
    memset(r, 0, sizeof *r);
    Cursor all = {b.p, b.p + b.len}, in, header;
    if (!enter(&all, 0x42007B, &in) || !enter(&in, 0x42007A, &header) || !take_version(&header, &r->major, &r->minor)) return 0;
    if (header.end - header.p < 16 || be64(header.p) != HEAD(0x420092, 9, 8)) return 0;
    r->stamp = be64(header.p + 8);
    header.p += 16;
    if (!take_four(&header, 0x42000D, 2, (uint32_t *)&r->batch)) return 0;
    while (is_next(&in, 0x42000F)) {
        void *list = grown(r->items, r->count, &r->room, sizeof *r->items, 1);
        if (!list) return drop_response(r), 0;
        r->items = list;
        memset(&r->items[r->count], 0, sizeof *r->items);
        if (!take_response_item(&in, &r->items[r->count++])) return drop_response(r), 0;
    }
    return 1;
}
static int decode_blob(Bytes b, Blob *o) {
    Cursor all = {b.p, b.p + b.len}, in;
    return enter(&all, 0xAAAAAA, &in) && take_bytes(&in, 0xBBBBBB, 8, &o->content)
        && take_four(&in, 0xCCCCCC, 2, (uint32_t *)&o->number);
}

// Printing: a walk over the items of one message, with the ends of the open structures.

typedef struct { size_t near[32], *ends, count, room; } Stack;
typedef struct { const uint8_t *b; size_t at, end; int begun; } Walk;
typedef struct { size_t depth; uint32_t tag; int typ; const uint8_t *p; size_t len; } Item;
enum { ENDED, CLOSED, FOUND, BAD };

static void empty(Stack *s) { s->ends = s->near, s->count = 0, s->room = 32; }
static void drop(Stack *s) { if (s->ends != s->near) free(s->ends); }
static int push(Stack *s, size_t it) {
    if (s->count == s->room) {
        size_t *more = malloc(2 * s->room * sizeof *more);
        if (!more) return 0;
        memcpy(more, s->ends, s->count * sizeof *more);
        if (s->ends != s->near) free(s->ends);
        s->ends = more, s->room *= 2;
    }
    s->ends[s->count++] = it;
    return 1;
}
static inline int is_content(int typ, const uint8_t *p, size_t n) {
    switch (typ) {
    case 2: case 5: case 10: return n == 4;
    case 3: case 9: return n == 8;
    case 6: return n == 8 && be64(p) < 2;
    case 7: return is_utf8(p, n);
    case 4: case 8: return 1;
    }
    return 0;
}
__attribute__((always_inline)) static inline int step(Walk *w, Stack *open, Item *i) {
    if (w->at == w->end) {
        if (!open->count) return ENDED;
        w->end = open->ends[--open->count];
        return CLOSED;
    }
    if (!open->count && w->begun) return ENDED;
    w->begun = 1;
    if (w->end - w->at < 8) return BAD;
    uint64_t h = be64(w->b + w->at);
    i->tag = h >> 40, i->typ = h >> 32 & 255, i->len = (uint32_t)h, i->p = w->b + w->at + 8, i->depth = open->count;
    w->at += 8;
    size_t left = w->end - w->at, q = padded(i->len);
    if (i->typ == 1) {
        if (i->len > left || !push(open, w->end)) return BAD;
        w->end = w->at + i->len;
        return FOUND;
    }
    if (q > left || !is_content(i->typ, i->p, i->len)) return BAD;
    w->at += q;
    return FOUND;
}
static int is_whole(Bytes b) {
    Walk w = {b.p, 0, b.len, 0};
    Stack open;
    Item i;
    int found;
    empty(&open);
    do found = step(&w, &open, &i); while (found == CLOSED || found == FOUND);
    drop(&open);
    return found == ENDED && w.at == b.len;
}

static const char LETTERS[] = "?[ilIebtodn", DIGITS[] = "0123456789ABCDEF";
static const char *const TYPES[] = {"", "Structure (0x01)", "Integer (0x02)", "LongInteger (0x03)", "BigInteger (0x04)", "Enumeration (0x05)",
    "Boolean (0x06)", "TextString (0x07)", "ByteString (0x08)", "DateTime (0x09)", "Interval (0x0A)"};
static uint8_t TYPE_LENGTHS[11], PAIRS[256][2];
static int8_t DIGIT_OF[256], TYPE_OF[256];

static void make_tables(void) {
    memset(DIGIT_OF, -1, sizeof DIGIT_OF);
    for (int k = 0; k < 256; k++) PAIRS[k][0] = DIGITS[k >> 4], PAIRS[k][1] = DIGITS[k & 15];
    for (int k = 0; k < 16; k++) DIGIT_OF[(uint8_t)DIGITS[k]] = k;
    for (int k = 1; k < 11; k++) TYPE_OF[(uint8_t)LETTERS[k]] = k, TYPE_LENGTHS[k] = strlen(TYPES[k]);
}

// A text with room for more.
typedef struct { uint8_t *p; size_t len, room; } Text;
static inline uint8_t *room(Text *t, size_t n) {
    if (t->room - t->len < n) t->p = realloc(t->p, t->room = 2 * t->room > t->len + n ? 2 * t->room : t->len + n);
    if (!t->p) abort();
    return t->p + t->len;
}
static inline uint8_t *put(uint8_t *o, const void *s, size_t n) { memcpy(o, s, n); return o + n; }
#define PUT(o, text) put(o, text, sizeof text - 1)
static inline uint8_t *put_tag(uint8_t *o, uint32_t tag) {
    return put(put(put(o, PAIRS[tag >> 16], 2), PAIRS[tag >> 8 & 255], 2), PAIRS[tag & 255], 2);
}
static inline uint8_t *put_decimal(uint8_t *o, uint64_t v) {
    char digits[20];
    int k = 20;
    do digits[--k] = '0' + v % 10; while (v /= 10);
    return put(o, digits + k, 20 - k);
}
static inline uint8_t *put_hex(uint8_t *o, uint64_t v, int least) {
    int k = v ? 15 - __builtin_clzll(v) / 4 : 0;
    for (k = k < least - 1 ? least - 1 : k; k >= 0; k--) *o++ = DIGITS[v >> 4 * k & 15];
    return o;
}

// The diagnostic, without the first four digits of tags that begin with `prefix`: no more characters than the message has bytes.
static int diagnostic(Bytes b, uint32_t prefix, Bytes *out) {
    uint8_t *o = out->p = malloc(b.len + 8);
    Walk w = {b.p, 0, b.len, 0};
    Stack open;
    Item i;
    int found;
    if (!o) return 0;
    empty(&open);
    while ((found = step(&w, &open, &i)) == FOUND || found == CLOSED) {
        if (found == CLOSED) { *o++ = ']'; continue; }
        o = i.tag >> 8 == prefix ? put(o, PAIRS[i.tag & 255], 2) : put_tag(o, i.tag);
        *o++ = LETTERS[i.typ];
        if (i.typ == 5) o = put_hex(o, be32(i.p), 1), *o++ = ':';
    }
    drop(&open);
    if (found == BAD) o = PUT(o, "ERR");
    out->len = o - out->p;
    return 1;
}

static inline uint8_t *put_front(uint8_t *o, size_t depth, uint32_t tag, int typ) {
    memset(o, ' ', 2 * depth);
    o = PUT(put_tag(PUT(o + 2 * depth, "Tag: 0x"), tag), ", Type: ");
    return PUT(put(o, TYPES[typ], TYPE_LENGTHS[typ]), ", Data:");
}
static inline uint8_t *put_value(uint8_t *o, const Item *i) {
    switch (i->typ) {
    case 2: case 5: case 10: {
        uint32_t v = be32(i->p);
        o = PUT(put_hex(PUT(o, "0x"), v, 6), " (");
        if (i->typ == 2 && v >> 31) *o++ = '-', v = -v;
        return PUT(put_decimal(o, v), ")");
    }
    case 3: case 9: return put_hex(PUT(o, "0x"), be64(i->p), 6);
    case 6: return be64(i->p) ? PUT(o, "true") : PUT(o, "false");
    case 7: return put(o, i->p, i->len);
    }
    for (size_t k = 0; k < i->len; k++) o = put(o, PAIRS[i->p[k]], 2);
    return o;
}
static int text(Bytes b, Bytes *out) {
    Text t = {malloc(4 * b.len + 64), 0, 4 * b.len + 64};
    Walk w = {b.p, 0, b.len, 0};
    Stack open;
    Item i;
    int found;
    if (!t.p) return 0;
    empty(&open);
    while ((found = step(&w, &open, &i)) == FOUND || found == CLOSED) {
        if (found == CLOSED) continue;
        uint8_t *o = put_front(room(&t, 2 * i.depth + 96 + (i.typ == 1 ? 0 : 2 * i.len)), i.depth, i.tag, i.typ);
        if (i.typ != 1) *o++ = ' ', o = put_value(o, &i);
        *o++ = '\n';
        t.len = o - t.p;
    }
    drop(&open);
    if (found == BAD) t.len = PUT(room(&t, 8), "ERROR: ?") - t.p;
    *out = (Bytes){t.p, t.len};
    return 1;
}

// A diagnostic as readable text, up to where it stops being one.
static int read_back(Bytes b, uint32_t prefix, Bytes *out) {
    Text t = {malloc(16 * b.len + 64), 0, 16 * b.len + 64};
    size_t i = 0, depth = 0;
    if (!t.p) return 0;
    while (i < b.len) {
        if (b.p[i] == ']') {
            if (!depth) break;
            depth--, i++;
            continue;
        }
        uint32_t tag = 0;
        size_t from = i;
        while (i < b.len && i - from < 6 && DIGIT_OF[b.p[i]] >= 0) tag = tag << 4 | DIGIT_OF[b.p[i++]];
        size_t digits = i - from;
        if (!digits || i == b.len || (digits != 6 && digits > 2)) break;
        if (digits != 6) tag |= prefix << 4 * digits;
        int typ = TYPE_OF[b.p[i++]];
        if (!typ) break;
        uint8_t *o = put_front(room(&t, 2 * depth + 96), depth, tag, typ);
        *o++ = ' ';
        if (typ == 1) depth++;
        else if (typ == 5) {
            uint32_t v = 0;
            while (i < b.len && DIGIT_OF[b.p[i]] >= 0) v = v << 4 | DIGIT_OF[b.p[i++]];
            if (i == b.len || b.p[i++] != ':') break;
            o = put_decimal(o, v);
        } else
            o = PUT(o, "<redacted>");
        *o++ = '\n';
        t.len = o - t.p;
    }
    while (t.len && (t.p[t.len - 1] == '\n' || t.p[t.len - 1] == ' ')) t.len--;
    *out = (Bytes){t.p, t.len};
    return 1;
}

// The calls.

static Bytes input(void) {
    Bytes b = {NULL, 0};
    size_t room = 0, got;
    do {
        if (b.len == room) b.p = realloc(b.p, room = room ? 2 * room : 65536);
        if (!b.p) abort();
        b.len += got = fread(b.p + b.len, 1, room - b.len, stdin);
    } while (got);
    return b;
}
static void show(Bytes b) { fwrite(b.p, 1, b.len, stdout); }
#define KEEP(it) __asm__ volatile("" : : "r"(it) : "memory")
// Makes a call as often as is asked, or once, and shows what it gives.
#define REPEAT(type, make, shown, drop) do { \
        for (long k = 0; k < (count ? count : 1); k++) { \
            type it; \
            KEEP(in.p); \
            if (!(make)) return 1; \
            KEEP(&it); \
            if (!count) shown; \
            drop; \
        } \
        return 0; \
    } while (0)
#define CODE(type, name) do { \
        type value; \
        if (!strcmp(call, "from_slice")) \
            REPEAT(type, decode_##name(in, &it), { Bytes b; if (!encode_##name(&it, &b)) return 1; show(b); }, drop_##name(&it)); \
        if (strcmp(call, "to_vec") || !decode_##name(in, &value)) return 1; \
        REPEAT(Bytes, encode_##name(&value, &it), show(it), free(it.p)); \
    } while (0)
static void drop_blob(Blob *b) { free(b->content.p); }

int main(int argc, char **words) {
    if (argc != 4) return 2;
    const char *call = words[1], *message = words[2];
    long count = atol(words[3]);
    Bytes in = input();
    make_tables();
    if (!strcmp(call, "find_fault")) REPEAT(int, it = is_whole(in), fputs("whole", stdout), (void)it);
    if (!strcmp(call, "to_diag_string")) REPEAT(Bytes, diagnostic(in, 0x4200, &it), show(it), free(it.p));
    if (!strcmp(call, "to_string")) REPEAT(Bytes, text(in, &it), show(it), free(it.p));
    if (!strcmp(call, "from_diag_string")) {
        if (!diagnostic(in, 0x4200, &in)) return 1;
        REPEAT(Bytes, read_back(in, 0x4200, &it), show(it), free(it.p));
    }
    if (strstr(message, "response")) CODE(Response, response);
    if (strstr(message, "blob")) CODE(Blob, blob);
    CODE(Request, request);
}
