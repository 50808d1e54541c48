/* The native methods of kmipttlv.KmipTtlv. Each copies what it is passed out of Java's arrays, calls the library, and copies the result
 * back, so no pointer into Java's memory is ever held. `told` gets the status, and two numbers more: of a fault or a bad item where and
 * what it is, of a diagnostic how many items were read, of a table of names its bad line. */
#include <jni.h>
#include <kmip_ttlv.h>
#include <stdlib.h>

typedef struct {
    uint8_t *bytes;
    size_t length;
} block;

typedef struct {
    kmip_ttlv_item *items;
    size_t count;
} list;

/* What a call that fills a buffer was asked for. */
typedef enum {
    TO_DIAG,
    TO_DIAG_CHECKED,
    TO_TEXT,
    TO_STANDARD_TEXT,
    TO_REDACTED_TEXT,
    FROM_DIAG,
    TO_JSON,
    FROM_JSON,
    TAG_NAME,
    VALUE_NAME,
    MASK_NAMES,
    WRITE,
    VERSION
} task;

typedef struct {
    task task;
    block input, prefix, names;
    list items;
    bool open_empty;
    size_t limit;
    /* of JSON what is hidden; of a name the tag, and the value or mask */
    uint32_t numbers[2];
} asked;

typedef struct {
    kmip_ttlv_status status;
    size_t where, what;
} answer;

static void tell(JNIEnv *env, jlongArray told, answer it) {
    const jlong numbers[3] = {(jlong)it.status, (jlong)it.where, (jlong)it.what};
    (*env)->SetLongArrayRegion(env, told, 0, 3, numbers);
}

/* Copies bytes, of which null has none, and returns whether there was memory. */
static bool take(JNIEnv *env, jbyteArray from, block *to) {
    to->length = from == NULL ? 0 : (size_t)(*env)->GetArrayLength(env, from);
    to->bytes = malloc(to->length + 1);
    if (to->bytes == NULL) {
        return false;
    }
    if (to->length > 0) {
        (*env)->GetByteArrayRegion(env, from, 0, (jsize)to->length, (jbyte *)to->bytes);
    }
    return true;
}

/* Copies items, of which each is five numbers. */
static bool take_items(JNIEnv *env, jlongArray from, list *to) {
    to->count = from == NULL ? 0 : (size_t)(*env)->GetArrayLength(env, from) / 5;
    to->items = malloc((to->count + 1) * sizeof *to->items);
    if (to->items == NULL) {
        return false;
    }
    for (size_t i = 0; i < to->count; i++) {
        jlong it[5];
        (*env)->GetLongArrayRegion(env, from, (jsize)(5 * i), 5, it);
        const kmip_ttlv_item item = {(size_t)it[0], (size_t)it[1], (uint32_t)it[2], (uint32_t)it[3], (uint32_t)it[4]};
        to->items[i] = item;
    }
    return true;
}

static void give_back(asked *it) {
    free(it->input.bytes);
    free(it->prefix.bytes);
    free(it->names.bytes);
    free(it->items.items);
}

/* Calls the library once, with a buffer that may be too small. */
static answer call(const asked *it, uint8_t *out, size_t room, size_t *length) {
    const block *in = &it->input, *prefix = &it->prefix, *names = &it->names;
    kmip_ttlv_fault fault = {0, 0};
    kmip_ttlv_bad_item bad = {0, 0};
    answer made = {KMIP_TTLV_OK, 0, 0};
    switch (it->task) {
    case TO_DIAG:
        made.status = kmip_ttlv_to_diag(in->bytes, in->length, prefix->bytes, prefix->length, it->open_empty, out, room, length, &made.where);
        return made;
    case TO_DIAG_CHECKED:
        made.status = kmip_ttlv_to_diag_checked(in->bytes, in->length, prefix->bytes, prefix->length, out, room, length, &fault);
        made.where = fault.offset, made.what = fault.kind;
        return made;
    case TO_TEXT:
        made.status = kmip_ttlv_to_text(in->bytes, in->length, names->bytes, names->length, it->open_empty, it->limit, out, room, length, &made.where);
        return made;
    case TO_STANDARD_TEXT:
        made.status = kmip_ttlv_to_standard_text(in->bytes, in->length, it->open_empty, it->limit, out, room, length);
        return made;
    case TO_REDACTED_TEXT:
        made.status = kmip_ttlv_to_redacted_text(in->bytes, in->length, it->limit, out, room, length, &fault);
        made.where = fault.offset, made.what = fault.kind;
        return made;
    case TO_JSON:
        made.status = kmip_ttlv_to_json(in->bytes, in->length, it->numbers[0], out, room, length, &fault);
        made.where = fault.offset, made.what = fault.kind;
        return made;
    case FROM_JSON:
        made.status = kmip_ttlv_from_json(in->bytes, in->length, out, room, length, &fault);
        made.where = fault.offset, made.what = fault.kind;
        return made;
    case TAG_NAME:
        made.status = kmip_ttlv_tag_name(it->numbers[0], out, room, length);
        return made;
    case VALUE_NAME:
        made.status = kmip_ttlv_value_name(it->numbers[0], it->numbers[1], out, room, length);
        return made;
    case MASK_NAMES:
        made.status = kmip_ttlv_mask_names(it->numbers[0], it->numbers[1], out, room, length);
        return made;
    case FROM_DIAG:
        made.status = kmip_ttlv_from_diag(in->bytes, in->length, prefix->bytes, prefix->length, names->bytes, names->length, it->limit, out,
                                          room, length, &made.where);
        return made;
    case WRITE:
        made.status = kmip_ttlv_write(it->items.items, it->items.count, in->bytes, in->length, out, room, length, &bad);
        made.where = bad.index, made.what = bad.kind;
        return made;
    default:
        made.status = kmip_ttlv_version(out, room, length);
        return made;
    }
}

/* Java's copy of bytes, or null if it has no memory; then an exception is pending. */
static jbyteArray copied(JNIEnv *env, const uint8_t *bytes, size_t length) {
    const jbyteArray made = (*env)->NewByteArray(env, (jsize)length);
    if (made != NULL) {
        (*env)->SetByteArrayRegion(env, made, 0, (jsize)length, (const jbyte *)bytes);
    }
    return made;
}

/* Fills a buffer of `room` bytes, or one as large as is asked for, and returns what was written, or null. */
static jbyteArray filled(JNIEnv *env, const asked *it, size_t room, jlongArray told) {
    const answer none = {KMIP_TTLV_OUT_OF_MEMORY, 0, 0};
    answer made = none;
    for (;;) {
        size_t length = 0;
        uint8_t *out = room > INT32_MAX ? NULL : malloc(room + 1);
        made = out == NULL ? none : call(it, out, room, &length);
        const jbyteArray found = made.status == KMIP_TTLV_OK ? copied(env, out, length) : NULL;
        free(out);
        if (made.status != KMIP_TTLV_NO_ROOM) {
            if (!(*env)->ExceptionCheck(env)) {
                tell(env, told, made);
            }
            return found;
        }
        room = length;
    }
}

/* Takes the arguments of a call that fills a buffer, and makes it. */
static jbyteArray answered(JNIEnv *env, asked it, jbyteArray input, jbyteArray prefix, jbyteArray names, jlongArray items, jlongArray told) {
    const answer none = {KMIP_TTLV_OUT_OF_MEMORY, 0, 0};
    jbyteArray found = NULL;
    if (take(env, input, &it.input) && take(env, prefix, &it.prefix) && take(env, names, &it.names) && take_items(env, items, &it.items)) {
        found = filled(env, &it, 4 * it.input.length + 16 * it.items.count + 256, told);
    } else {
        tell(env, told, none);
    }
    give_back(&it);
    return found;
}

static asked task_of(task task, jboolean open_empty, jlong limit) {
    const asked it = {task, {NULL, 0}, {NULL, 0}, {NULL, 0}, {NULL, 0}, open_empty != JNI_FALSE, limit < 0 ? 0 : (size_t)limit, {0, 0}};
    return it;
}

#define METHOD(type, name) JNIEXPORT type JNICALL Java_kmipttlv_KmipTtlv_##name
#define UNUSED(it) (void)(it)

METHOD(jbyteArray, toDiag0)(JNIEnv *env, jclass of, jbyteArray bytes, jbyteArray prefix, jboolean open_empty, jlongArray told) {
    UNUSED(of);
    return answered(env, task_of(TO_DIAG, open_empty, 0), bytes, prefix, NULL, NULL, told);
}

METHOD(jbyteArray, toDiagChecked0)(JNIEnv *env, jclass of, jbyteArray bytes, jbyteArray prefix, jlongArray told) {
    UNUSED(of);
    return answered(env, task_of(TO_DIAG_CHECKED, JNI_FALSE, 0), bytes, prefix, NULL, NULL, told);
}

METHOD(jbyteArray, toText0)
(JNIEnv *env, jclass of, jbyteArray bytes, jbyteArray names, jboolean open_empty, jlong limit, jlongArray told) {
    UNUSED(of);
    return answered(env, task_of(names == NULL ? TO_STANDARD_TEXT : TO_TEXT, open_empty, limit), bytes, NULL, names, NULL, told);
}

METHOD(jbyteArray, toRedactedText0)(JNIEnv *env, jclass of, jbyteArray bytes, jlong limit, jlongArray told) {
    UNUSED(of);
    return answered(env, task_of(TO_REDACTED_TEXT, JNI_FALSE, limit), bytes, NULL, NULL, NULL, told);
}

METHOD(jbyteArray, toJson0)(JNIEnv *env, jclass of, jbyteArray bytes, jint redact, jlongArray told) {
    UNUSED(of);
    asked it = task_of(TO_JSON, JNI_FALSE, 0);
    it.numbers[0] = (uint32_t)redact;
    return answered(env, it, bytes, NULL, NULL, NULL, told);
}

METHOD(jbyteArray, fromJson0)(JNIEnv *env, jclass of, jbyteArray text, jlongArray told) {
    UNUSED(of);
    return answered(env, task_of(FROM_JSON, JNI_FALSE, 0), text, NULL, NULL, NULL, told);
}

METHOD(jbyteArray, name0)(JNIEnv *env, jclass of, jint which, jint tag, jint number, jlongArray told) {
    UNUSED(of);
    asked it = task_of(which == 0 ? TAG_NAME : which == 1 ? VALUE_NAME : MASK_NAMES, JNI_FALSE, 0);
    it.numbers[0] = (uint32_t)tag, it.numbers[1] = (uint32_t)number;
    return answered(env, it, NULL, NULL, NULL, NULL, told);
}

METHOD(jbyteArray, fromDiag0)
(JNIEnv *env, jclass of, jbyteArray diagnostic, jbyteArray prefix, jbyteArray names, jlong limit, jlongArray told) {
    UNUSED(of);
    return answered(env, task_of(FROM_DIAG, JNI_FALSE, limit), diagnostic, prefix, names, NULL, told);
}

METHOD(jbyteArray, write0)(JNIEnv *env, jclass of, jlongArray items, jbyteArray bytes, jlongArray told) {
    UNUSED(of);
    return answered(env, task_of(WRITE, JNI_FALSE, 0), bytes, NULL, NULL, items, told);
}

METHOD(jbyteArray, version0)(JNIEnv *env, jclass of, jlongArray told) {
    UNUSED(of);
    return answered(env, task_of(VERSION, JNI_FALSE, 0), NULL, NULL, NULL, NULL, told);
}

METHOD(void, check0)(JNIEnv *env, jclass of, jbyteArray bytes, jlongArray told) {
    UNUSED(of);
    answer made = {KMIP_TTLV_OUT_OF_MEMORY, 0, 0};
    kmip_ttlv_fault fault = {0, 0};
    block in;
    if (take(env, bytes, &in)) {
        made.status = kmip_ttlv_check(in.bytes, in.length, &fault);
        made.where = fault.offset, made.what = fault.kind;
    }
    free(in.bytes);
    tell(env, told, made);
}

/* Java's copy of a list, five numbers for each item. */
static jlongArray copied_items(JNIEnv *env, const kmip_ttlv_item *items, size_t count) {
    const jlongArray made = (*env)->NewLongArray(env, (jsize)(5 * count));
    for (size_t i = 0; made != NULL && i < count; i++) {
        const kmip_ttlv_item *it = &items[i];
        const jlong numbers[5] = {(jlong)it->offset, (jlong)it->depth, (jlong)it->tag, (jlong)it->typ, (jlong)it->length};
        (*env)->SetLongArrayRegion(env, made, (jsize)(5 * i), 5, numbers);
    }
    return made;
}

METHOD(jlongArray, items0)(JNIEnv *env, jclass of, jbyteArray bytes, jlongArray told) {
    UNUSED(of);
    answer made = {KMIP_TTLV_OUT_OF_MEMORY, 0, 0};
    kmip_ttlv_fault fault = {0, 0};
    jlongArray found = NULL;
    block in;
    size_t count = 0;
    const bool is_taken = take(env, bytes, &in);
    /* a message of n bytes has at most n / 8 items */
    const size_t room = in.length / 8 + 1;
    kmip_ttlv_item *items = malloc(room * sizeof *items);
    if (is_taken && items != NULL) {
        made.status = kmip_ttlv_items(in.bytes, in.length, items, room, &count, &fault);
        made.where = fault.offset, made.what = fault.kind;
    }
    if (made.status != KMIP_TTLV_OUT_OF_MEMORY) {
        found = copied_items(env, items, count);
    }
    free(items);
    free(in.bytes);
    if (!(*env)->ExceptionCheck(env)) {
        tell(env, told, made);
    }
    return found;
}
