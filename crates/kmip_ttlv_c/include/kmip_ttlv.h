/* TTLV, the encoding of OASIS KMIP 1.0 (section 9.1): prints, redacts, lists, checks and writes messages, as JSON too.
 *
 * Every call returns a status. It keeps none of its arguments, has no state of its own, and frees all memory that it
 * allocates before it returns, so any number of threads may be in calls at a time. Lengths and offsets are in bytes, counts
 * of items and the `room` of a list in items; all are of type size_t.
 *
 * Input is passed as a pointer and a length. The pointer may be null if the length is 0; so may `out` and a list, if their
 * `room` is. A length or room of more bytes than PTRDIFF_MAX, or null with another one than 0, is BAD_ARGUMENT: then what is
 * set is 0, as on any other error. No other pointer may be null. The input must not change during the call, and what is
 * written to (a buffer, a list, and the objects of `length`, `items`, `count`, `bad_line`, `fault` and `bad`) must not overlap
 * with any other argument.
 *
 * A call that makes a text or a message writes it to `out` if its `room` bytes hold all of it, without an ending zero, and
 * writes nothing after it. `*length` is how long it is, even if there was no room; on any other error it is 0. On
 * every error `out` is unchanged.
 *
 * Texts: `*length` of a diagnostic is at most a few times the length of the bytes. The readable texts indent each line by
 * two spaces for each structure around it, so for deeply nested bytes they grow with the square of the depth. `limit` is how
 * many bytes of memory such a call may hold at a time, for its text and its table of names; if it needs more, it returns
 * OUT_OF_MEMORY. While a text grows it takes up to three times its length, and KMIP's names take 64 KiB: for untrusted bytes
 * pass, for example, 64 * bytes_len + 1048576, and SIZE_MAX for no limit. A call that reaches its limit ends there.
 *
 * `open_empty` is whether an empty structure stays open until the structure around it ends, as in the texts of the Rust crate
 * kmip-ttlv; pass false unless you compare with these. If true, what follows an empty structure is shown as if it were in it,
 * and items that go past an end are not reported any more; a message that is an empty structure has a diagnostic that ends
 * with "ERR"; and n empty structures side by side have a readable text of n * n bytes.
 *
 * The printers take any bytes, and return OK for those that are not one whole message too. They follow headers as far as these
 * can be read: in malformed bytes, key bytes may sit where a header is expected, and are then shown as tags. At an item that
 * can't be read a diagnostic ends with "ERR" and a readable text with a line "ERROR: .."; after an item that goes past the end
 * of its structure both end with "ERROR: TTLV structure content exceeds the structure length.". What follows a first structure
 * is not shown, and no text says that it is there. So call `kmip_ttlv_check` first, which says whether bytes are one whole
 * message; or for a log kmip_ttlv_to_diag_checked or kmip_ttlv_to_redacted_text, which show nothing of other bytes.
 *
 * Memory comes from malloc, realloc and free. A program that links the static library can replace them by defining
 * kmip_ttlv_malloc, kmip_ttlv_realloc and kmip_ttlv_free, all three of them, with the same meaning. If the program calls
 * from several threads, the three are called from these threads too.
 *
 * Don't call from a signal handler, nor in the child of a fork of a process with threads.
 */
#ifndef KMIP_TTLV_H
#define KMIP_TTLV_H

#include <stdbool.h>
#include <stddef.h>
#include <stdint.h>

#ifdef __cplusplus
extern "C" {
#endif

/* The version of this header. */
#define KMIP_TTLV_VERSION "0.2.0"

typedef uint32_t kmip_ttlv_status;

/* Success. */
#define KMIP_TTLV_OK 0u
/* Out of memory. */
#define KMIP_TTLV_OUT_OF_MEMORY 1u
/* A text that was passed is not UTF-8. */
#define KMIP_TTLV_NOT_UTF8 2u
/* The buffer or the list is too small; `*length` or `*count` is the size that it needs. */
#define KMIP_TTLV_NO_ROOM 3u
/* The bytes are not one whole message, or a text is not the JSON of one; or an item can't be written. */
#define KMIP_TTLV_MALFORMED 4u
/* A line of a table of names can't be parsed; `*bad_line` is its number. */
#define KMIP_TTLV_BAD_NAMES 5u
/* A length or a room is more than PTRDIFF_MAX bytes, or isn't 0 and its pointer is null; or `redact` is more than 2. */
#define KMIP_TTLV_BAD_ARGUMENT 6u
/* The KMIP specifications have no name for it. */
#define KMIP_TTLV_NO_NAME 7u

/* An item of a message. */
typedef struct {
    size_t offset;   /* where its header begins, from the first byte; its value begins 8 bytes later */
    size_t depth;    /* how many structures it is in: 0 for the root */
    uint32_t tag;    /* its tag, below 2^24 */
    uint32_t typ;    /* the code of its type, KMIP_TTLV_STRUCTURE to KMIP_TTLV_INTERVAL */
    uint32_t length; /* the length of its value in bytes, without padding; in a truncated message a structure may have fewer bytes */
} kmip_ttlv_item;

/* The codes of types (9.1.1.2). */
#define KMIP_TTLV_STRUCTURE 1u
#define KMIP_TTLV_INTEGER 2u
#define KMIP_TTLV_LONG_INTEGER 3u
#define KMIP_TTLV_BIG_INTEGER 4u
#define KMIP_TTLV_ENUMERATION 5u
#define KMIP_TTLV_BOOLEAN 6u
#define KMIP_TTLV_TEXT_STRING 7u
#define KMIP_TTLV_BYTE_STRING 8u
#define KMIP_TTLV_DATE_TIME 9u
#define KMIP_TTLV_INTERVAL 10u

/* The first fault of bytes that are not one whole message, in document order. If several things are wrong with one item, it
 * is the first of these: for the root, fewer than eight bytes (CUT), UNKNOWN_TYPE, NO_STRUCTURE; for any other item
 * PARTIAL_HEADER, fewer than eight bytes (CUT), UNKNOWN_TYPE, WRONG_LENGTH, OVERLONG, a value without its end (CUT),
 * INVALID_VALUE. Items before the one that is cut are listed. */
typedef struct {
    size_t offset; /* where the bad item or the surplus begins, from the first byte; 0 if nothing is wrong */
    uint32_t kind; /* what is wrong there, KMIP_TTLV_WHOLE to KMIP_TTLV_SURPLUS */
} kmip_ttlv_fault;

/* Nothing is wrong. */
#define KMIP_TTLV_WHOLE 0u
/* The bytes end before the root does, within this item: its header, its value or its padding. */
#define KMIP_TTLV_CUT 1u
/* The root is no Structure. */
#define KMIP_TTLV_NO_STRUCTURE 2u
/* The type code is unknown. */
#define KMIP_TTLV_UNKNOWN_TYPE 3u
/* Fewer than eight bytes are left in the enclosing structure, too few for a header. */
#define KMIP_TTLV_PARTIAL_HEADER 4u
/* No value of the type has this length. */
#define KMIP_TTLV_WRONG_LENGTH 5u
/* The item, with its padding, goes past the end of the enclosing structure. */
#define KMIP_TTLV_OVERLONG 6u
/* The content is no value of the type: a Boolean that is neither 0 nor 1, a text that is not UTF-8. */
#define KMIP_TTLV_INVALID_VALUE 7u
/* More bytes follow the root. */
#define KMIP_TTLV_SURPLUS 8u

/* The first item that can't be written. If several things are wrong with it, it is the first of these: NOT_INSIDE, LONG_TAG,
 * UNKNOWN_TYPE, WRONG_LENGTH, OUTSIDE, INVALID_VALUE, TOO_LONG. */
typedef struct {
    size_t index;  /* the index of the item, from 0; 0 if nothing is wrong */
    uint32_t kind; /* what is wrong with it: KMIP_TTLV_WHOLE, or one of the seven */
} kmip_ttlv_bad_item;

/* No structure before it contains it: its depth is more than the number of open structures. */
#define KMIP_TTLV_NOT_INSIDE 9u
/* Its tag is 2^24 or more. */
#define KMIP_TTLV_LONG_TAG 10u
/* Its value goes past the end of `bytes`. */
#define KMIP_TTLV_OUTSIDE 11u
/* With it, an enclosing structure has 2^32 bytes of content or more (or all items take 2^64 or more). */
#define KMIP_TTLV_TOO_LONG 12u

/* What is wrong with JSON (kmip_ttlv_from_json), besides NO_STRUCTURE, UNKNOWN_TYPE, INVALID_VALUE and TOO_LONG. */

/* It is not JSON: the offset is where the first token begins that can't stand there, or the text's length if it ends too early. */
#define KMIP_TTLV_NOT_JSON 13u
/* It nests more than 127 deep: the offset is that of the first bracket that does. */
#define KMIP_TTLV_TOO_DEEP 14u
/* An item is no object of exactly the members `tag`, `type` and `value`. */
#define KMIP_TTLV_NOT_ITEM 15u
/* A tag is not `0x` and six hexadecimal digits. */
#define KMIP_TTLV_NOT_TAG 16u

/* What kmip_ttlv_to_json hides. */
#define KMIP_TTLV_SHOW_ALL 0u
/* The values of secret tags, whose items can hold a key, data to encrypt or decrypt, or proof of identity, and of all items in them. */
#define KMIP_TTLV_REDACT_SECRETS 1u
/* All values but those of Enumerations. */
#define KMIP_TTLV_REDACT_VALUES 2u

/* Writes the redacted diagnostic of any bytes. For a well-formed message it shows each item's tag and type, the values of
 * enumerations, and no other value; in malformed bytes, key bytes may sit where a tag is expected, and are then shown.
 *
 * `prefix` holds hexadecimal digits, such as "4200", that are omitted from tags that begin with them. `*items` is how many
 * items the call tried to read, at most bytes_len / 8 + 1; it is set with OK and NO_ROOM, and 0 on any other error.
 *
 * NOT_UTF8: the prefix. NO_ROOM: `out`. OUT_OF_MEMORY. */
kmip_ttlv_status kmip_ttlv_to_diag(const uint8_t *bytes, size_t bytes_len, const uint8_t *prefix, size_t prefix_len,
                                   bool open_empty, uint8_t *out, size_t room, size_t *length, size_t *items);

/* Writes the redacted diagnostic of bytes that are one whole message, and nothing of any others: the text of kmip_ttlv_to_diag, in
 * which empty structures are closed. Two messages have the same one, under one prefix, if and only if they have the same tags,
 * types, nesting and enumeration values.
 *
 * MALFORMED: the bytes are not one whole message; `*fault` is the first fault, as of kmip_ttlv_check. With any other status its
 * kind is KMIP_TTLV_WHOLE. NOT_UTF8: the prefix. NO_ROOM: `out`. OUT_OF_MEMORY. */
kmip_ttlv_status kmip_ttlv_to_diag_checked(const uint8_t *bytes, size_t bytes_len, const uint8_t *prefix, size_t prefix_len,
                                           uint8_t *out, size_t room, size_t *length, kmip_ttlv_fault *fault);

/* Writes any bytes as readable text, a line for each item, with every value. Texts are copied as they are in the message,
 * control characters too: escape them before you print them.
 *
 * `names` is a table of names of tags: a line for each, with the tag's hexadecimal digits, a space and its name. Empty
 * lines and lines that begin with '#' are ignored; of two lines for one tag the later wins. An empty table has no names.
 *
 * `*bad_line` is 0 with every status but BAD_NAMES.
 *
 * NOT_UTF8: the table. BAD_NAMES: a line of the table has another form; `*bad_line` is its number, from 1.
 * NO_ROOM: `out`. OUT_OF_MEMORY. */
kmip_ttlv_status kmip_ttlv_to_text(const uint8_t *bytes, size_t bytes_len, const uint8_t *names, size_t names_len,
                                   bool open_empty, size_t limit, uint8_t *out, size_t room, size_t *length,
                                   size_t *bad_line);

/* The same with the tag names of the KMIP specifications.
 *
 * NO_ROOM: `out`. OUT_OF_MEMORY. */
kmip_ttlv_status kmip_ttlv_to_standard_text(const uint8_t *bytes, size_t bytes_len, bool open_empty, size_t limit,
                                            uint8_t *out, size_t room, size_t *length);

/* Writes bytes that are one whole message as readable text without any value but those of Enumerations, which are in hexadecimal, and
 * nothing of any others: the lines of kmip_ttlv_from_diag for its checked diagnostic, with the names of tags of the KMIP specifications.
 *
 * `limit` is as in kmip_ttlv_to_standard_text. MALFORMED and `*fault` are as in kmip_ttlv_to_diag_checked. NO_ROOM: `out`.
 * OUT_OF_MEMORY. */
kmip_ttlv_status kmip_ttlv_to_redacted_text(const uint8_t *bytes, size_t bytes_len, size_t limit, uint8_t *out, size_t room,
                                            size_t *length, kmip_ttlv_fault *fault);

/* Reads a diagnostic under a prefix back as lines: the tag and type of each item, the values of enumerations, and
 * "<redacted>" in place of any other value. Reading stops where the text is no diagnostic; the lines up to there are written.
 *
 * `names`, `limit` and `bad_line` are as in kmip_ttlv_to_text. Each byte of a diagnostic can be an item, whose line has 60 bytes
 * and a name: pass a `limit` of, for example, 512 * diagnostic_len + 1048576.
 *
 * NOT_UTF8: the diagnostic, the prefix or the table. BAD_NAMES. NO_ROOM: `out`. OUT_OF_MEMORY. */
kmip_ttlv_status kmip_ttlv_from_diag(const uint8_t *diagnostic, size_t diagnostic_len, const uint8_t *prefix,
                                     size_t prefix_len, const uint8_t *names, size_t names_len, size_t limit,
                                     uint8_t *out, size_t room, size_t *length, size_t *bad_line);

/* Writes bytes that are one whole message as JSON (OASIS "KMIP Additional Message Encodings", in hexadecimal forms), and nothing of any
 * others: the line that the tool's `ttlv json` prints, without its line feed. `null` stands for a value that `redact` hides,
 * KMIP_TTLV_SHOW_ALL to KMIP_TTLV_REDACT_VALUES.
 *
 * BAD_ARGUMENT: `redact` too. MALFORMED and `*fault` are as in kmip_ttlv_to_diag_checked. NO_ROOM: `out`. OUT_OF_MEMORY. */
kmip_ttlv_status kmip_ttlv_to_json(const uint8_t *bytes, size_t bytes_len, uint32_t redact, uint8_t *out, size_t room,
                                   size_t *length, kmip_ttlv_fault *fault);

/* Writes the canonical bytes of the message whose JSON a text is, in any form of OASIS's encoding: in digits, as
 * kmip_ttlv_to_json writes, or with names and numbers. White space around tokens, members in any order and digits of either case are
 * read too; of a member that stands twice the last counts. It takes up to two and a half times the text's length of memory, and that
 * of the tables of names where there is a name.
 *
 * MALFORMED: it is the JSON of none; `fault->kind` is NOT_JSON, TOO_DEEP, or what is wrong with the first wrong item, and `fault->offset`
 * where that is, in bytes from the text's first. With any other status its kind is KMIP_TTLV_WHOLE. NOT_UTF8: the text. NO_ROOM: `out`.
 * OUT_OF_MEMORY. */
kmip_ttlv_status kmip_ttlv_from_json(const uint8_t *text, size_t text_len, uint8_t *out, size_t room, size_t *length,
                                     kmip_ttlv_fault *fault);

/* Writes the name that the KMIP specifications give a tag.
 *
 * Each of the calls for names reads a table first, of up to 64 KiB, which takes some tens of microseconds: keep what is asked for often.
 *
 * NO_NAME: they have none for this number. NO_ROOM: `out`. OUT_OF_MEMORY. */
kmip_ttlv_status kmip_ttlv_tag_name(uint32_t tag, uint8_t *out, size_t room, size_t *length);

/* Writes the name of a value of the Enumeration with this tag.
 *
 * NO_NAME: there is no such Enumeration, or it has no such value. NO_ROOM: `out`. OUT_OF_MEMORY. */
kmip_ttlv_status kmip_ttlv_value_name(uint32_t tag, uint32_t value, uint8_t *out, size_t room, size_t *length);

/* Writes the names of the bits that are set in a mask with this tag, from the lowest on, as `Encrypt | Decrypt`. Bits without a name are
 * left out.
 *
 * NO_NAME: there is no mask with this tag. NO_ROOM: `out`. OUT_OF_MEMORY. */
kmip_ttlv_status kmip_ttlv_mask_names(uint32_t tag, uint32_t mask, uint8_t *out, size_t room, size_t *length);

/* Lists the items of a message in document order, each before those in it, up to the first fault.
 *
 * The first `room` of them are written to `items`, and the rest of the list is unchanged. `*count` is how many there are,
 * which can be more than `room` with NO_ROOM and with MALFORMED. `*fault` is what is wrong; its kind is
 * KMIP_TTLV_WHOLE if the bytes are one whole message. A message of n bytes has at most n / 8 items.
 *
 * MALFORMED: the bytes are not one whole message; the items are those before the fault. NO_ROOM: a whole message has more
 * than `room` items. OUT_OF_MEMORY: `*count` is 0, the fault's kind is KMIP_TTLV_WHOLE, and what `items` holds is
 * unspecified. */
kmip_ttlv_status kmip_ttlv_items(const uint8_t *bytes, size_t bytes_len, kmip_ttlv_item *items, size_t room, size_t *count,
                                 kmip_ttlv_fault *fault);

/* Checks whether bytes are one whole well-formed message: a Structure whose items, at every depth, are whole, with values
 * valid for their types, and nothing after it.
 *
 * MALFORMED: they are not; `*fault` is the first fault in document order. OUT_OF_MEMORY: its kind is
 * KMIP_TTLV_WHOLE. */
kmip_ttlv_status kmip_ttlv_check(const uint8_t *bytes, size_t bytes_len, kmip_ttlv_fault *fault);

/* Writes items, in document order, as canonical TTLV bytes; lengths of structures are computed, and padding is zero.
 *
 * An item belongs to the last structure before it whose depth is one less. The value of any other item is the `length` bytes
 * from `offset` + 8 of `bytes` on: what kmip_ttlv_items returned for a whole message is written as that message (with zeros
 * as padding). The eight bytes before a value are not read. Values may be in any order and overlap, and `offset` and
 * `length` of a structure are ignored, so items can be left out, added and moved. To write a new message, begin `bytes` with
 * eight bytes of any value, append the values, and let `offset` be where a value begins, less 8.
 *
 * Several items may have depth 0. If only one has, and it is a structure, what is written is one whole message, as
 * kmip_ttlv_check defines it. The call allocates nothing.
 *
 * MALFORMED: an item can't be written; `*bad` is the first such item, and `*length` is 0. NO_ROOM: `out`. With NO_ROOM and OK,
 * `bad->kind` is KMIP_TTLV_WHOLE. */
kmip_ttlv_status kmip_ttlv_write(const kmip_ttlv_item *items, size_t count, const uint8_t *bytes, size_t bytes_len,
                                 uint8_t *out, size_t room, size_t *length, kmip_ttlv_bad_item *bad);

/* Writes the version of the library, which is KMIP_TTLV_VERSION.
 *
 * NO_ROOM: `out`. */
kmip_ttlv_status kmip_ttlv_version(uint8_t *out, size_t room, size_t *length);

#ifdef __cplusplus
}
#endif

#endif
