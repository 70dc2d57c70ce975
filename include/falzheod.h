/* falzheod.h: the open operations of Falzheod, an XML decoding core.
 *
 * Link libfalzheod.a, which `tools/archive` writes to target/staticlib.
 *
 * Platform: x86-64 Linux, with the System V calling convention. The archive links into
 * C and C++, also into static and into freestanding programs, and calls nothing from
 * outside but what is named here, which every C library has:
 *
 *     needs: memcpy memset
 *
 * Threads: there is no state, so calls may run at the same time, as long as nothing
 * that one of them writes is lent to another.
 *
 * Versions: header and archive go together. Functions may gain parameters under the
 * same name, as those that tell a `place` did; what was compiled with another header has
 * to be compiled again.
 *
 * What the library promises: any content of what is lent is taken, and any length
 * up to the size of an object; nothing about the bytes or the numbers is assumed,
 * and `out` need not be initialised. Nothing is kept after the call, nothing is
 * allocated, and only the memory that a function is said to write is written.
 *
 * What the caller sees to, or the behaviour is undefined: each pointer is valid
 * for its length, aligned for its type and not null, not even where the length is
 * 0; what a function writes overlaps nothing else that is lent to it. So no function
 * works in place: to unescape a text into or across itself may give wrong bytes or a
 * crash. Each function that writes says what must not overlap what.
 */
#ifndef FALZHEOD_H
#define FALZHEOD_H

#include <stddef.h>
#include <stdint.h>

#ifdef __cplusplus
extern "C" {
#endif

/* The numbers that an operation answers. Each stands exactly where its
 * condition holds; a function answers no number that it does not list. */

/* The operation finished. */
#define FALZHEOD_FINISHED UINT32_C(0)

/* The token table breaks a rule (falzheod_drain says which there are). */
#define FALZHEOD_TABLE UINT32_C(1)

/* The sheet is broken (falzheod_read_struct says what sheets are). */
#define FALZHEOD_SHEET UINT32_C(2)

/* The depth is at or above the maximum. */
#define FALZHEOD_DEPTH UINT32_C(3)

/* There is no root element. */
#define FALZHEOD_NO_ROOT UINT32_C(4)

/* The root has another name than the sheet says. */
#define FALZHEOD_ROOT_NAME UINT32_C(5)

/* An element stands where text is wanted. */
#define FALZHEOD_ELEMENT_IN_TEXT UINT32_C(6)

/* A reference is bad: an `&` without a `;` before the next `&` or the end, a
 * name other than lt, gt, amp, quot and apos, or a number that is not taken. Each
 * function that answers it tells the place of the first `&` that fails, from 0. */
#define FALZHEOD_REFERENCE UINT32_C(7)

/* A token error stands where text is wanted. */
#define FALZHEOD_TOKEN_ERROR UINT32_C(8)

/* The table keeps the rules, but the document is ill-formed. */
#define FALZHEOD_ILL_FORMED UINT32_C(9)

/* The result is longer than the room lent for it. */
#define FALZHEOD_NO_ROOM UINT32_C(10)

/* The text is no boolean. */
#define FALZHEOD_NOT_BOOLEAN UINT32_C(11)

/* The text is no integer of 32 bits. */
#define FALZHEOD_NOT_INTEGER UINT32_C(12)

/* No element has the name. */
#define FALZHEOD_NO_SUCH_ELEMENT UINT32_C(13)

/* Replaces the references in `text` and writes the result to the front of
 * `out`: lt, gt, amp, quot, apos, `#` with decimal and `#x` (small x) with
 * hexadecimal digits of either case. There is at least one digit, one `+` may
 * stand right before the first, leading zeros are passed over; the value fits in
 * 32 bits and is a Unicode scalar value, 0 included. All other bytes are copied,
 * UTF-8 or not, and the result is UTF-8 where `text` is. It is never longer than
 * `text`, so `out_len == text_len` is always room enough.
 *
 * Answers FALZHEOD_FINISHED, FALZHEOD_REFERENCE or FALZHEOD_NO_ROOM, tested in
 * this order: a bad reference, then room.
 *
 * `*length` becomes the number of bytes written, 0 for a refusal. The bytes of
 * `out` from `*length` on are untouched, so a refusal writes nothing to `out`.
 * `*place` becomes where the first failing `&` stands in `text`, and 0 where the
 * answer is not FALZHEOD_REFERENCE.
 *
 * Not in place: `out`, `*length` and `*place` must not overlap `text` or one
 * another. */
uint32_t falzheod_unescape(const uint8_t *text, size_t text_len, uint8_t *out,
                           size_t out_len, size_t *length, size_t *place);

/* Tests every reference in `text` as XML 1.0 has it: one of the five names, or
 * one or more digits (no sign) whose value is a character of XML 1.0, 2.2. This
 * is stricter than falzheod_unescape: what it takes, falzheod_unescape takes. So
 * the two may name different places of a text: `&#+65;&zz;` fails here at 0, and
 * in falzheod_unescape at 6.
 *
 * Answers FALZHEOD_FINISHED (every reference is valid) or FALZHEOD_REFERENCE.
 * `*place` becomes where the first failing `&` stands in `text`, 0 where there is
 * none. Writes nothing else.
 *
 * Not in place: `*place` must not overlap `text`. */
uint32_t falzheod_validate_references(const uint8_t *text, size_t text_len,
                                      size_t *place);

/* Tells whether `text` is well-formed UTF-8 (Unicode, table 3-7): 1 it is,
 * 0 it is not. These two are a yes and a no, none of the numbers above.
 * Writes nothing. */
uint32_t falzheod_is_utf8(const uint8_t *text, size_t text_len);

/* Why a document is ill-formed: the causes that falzheod_drain tells. */

/* The tokenizer could not go on: the row is of kind 8. */
#define FALZHEOD_CAUSE_TOKEN UINT32_C(1)

/* An end tag whose prefix and local name are not those of the innermost open
 * element. */
#define FALZHEOD_CAUSE_MISMATCHED UINT32_C(2)

/* An element is still open where the rows end. */
#define FALZHEOD_CAUSE_UNCLOSED UINT32_C(3)

/* An attribute alike in prefix and local name to an earlier one of its tag. */
#define FALZHEOD_CAUSE_REPEATED UINT32_C(4)

/* A value or a text with a reference that falzheod_validate_references refuses. Of
 * this cause alone falzheod_drain tells a place. */
#define FALZHEOD_CAUSE_REFERENCE UINT32_C(5)

/* Tests that a token table obeys its rules and that its tokens are well-formed: the
 * strict drain.
 *
 * `rows` has eight numbers for each token of `body`, and `rows_len` counts
 * numbers: kind, prefix start and length, local name start and length, value start
 * and length, and the position in the body right after the token. `end` is the final
 * position. Kinds: 1 start of a start tag, 2 attribute, 3 `>`, 4 end tag, 5 `/>`,
 * 6 text, 7 all others, 8 token error. Kinds 1 and 4 use prefix and local name, 2
 * all three spans, 6 the value; fields not used, and an empty prefix or value, are
 * 0 and 0. A number that is none of these kinds breaks the rules.
 *
 * The rules. `rows_len` divides by 8; there are at most 8,192 rows, 65,536 bytes of
 * body and 256 elements open at once, each from its row of kind 1. A body that is
 * not UTF-8 has no rows. Positions never fall; none is past `end`, nor `end`
 * past the body. A filled span lies between the previous row's position (0 at
 * first) and its own row's, and so does the start of a local name that is empty. In
 * kinds 1 and 4 the last `<` before the local name stands at or after the previous
 * position, and before a filled prefix. The body has `>` right before the position
 * of kinds 3 and 4, `/>` before that of kind 5. After kind 1 come only rows of kind
 * 2, then 3 or 5, or 8, or the end of the table; kinds 2, 3 and 5 come nowhere
 * else. Kinds 4 and 6 need an open element. After the root only 7 and 8 come. Kind
 * 8 is last.
 *
 * Answers FALZHEOD_FINISHED, FALZHEOD_TABLE or FALZHEOD_ILL_FORMED, tested in this
 * order: the rules, then the rows one by one. A row is tested for repetition before
 * its references. A table that obeys the rules and has no element (no rows, or rows
 * of kind 7 alone) passes: FALZHEOD_FINISHED does not say that there is a root, and a
 * body that is not UTF-8, which has no rows, passes so.
 *
 * `*row` and `*cause` become the number of the first failing row, from 0, and why;
 * the row of an unclosed element is the count of rows. Where the answer is not
 * FALZHEOD_ILL_FORMED both become 0. `*place` becomes where the first failing `&` of
 * that row's value stands in `body`, and 0 where the cause is not
 * FALZHEOD_CAUSE_REFERENCE. Writes nothing else.
 *
 * Not in place: `*row`, `*cause` and `*place` must not overlap `body`, `rows` or one
 * another. */
uint32_t falzheod_drain(const uint8_t *body, size_t body_len, const uint32_t *rows,
                        size_t rows_len, uint32_t end, size_t *row, uint32_t *cause,
                        size_t *place);

/* ---- Readings.
 *
 * What is read comes first: a body, its token table `rows` with the final position
 * `end` (see falzheod_drain; a table that breaks a rule is FALZHEOD_TABLE). Then what
 * is asked, how, where to, and what came of it.
 *
 * The readings of a map, a list of strings, a boolean, an integer and a string may
 * answer FALZHEOD_REFERENCE. Their `*place` becomes where the failing `&` stands in
 * `body`, and 0 where they answer another number. A lenient reading (see the settings)
 * tells the first `&` of the text that falzheod_unescape refuses, a strict one the place
 * that falzheod_drain tells. */

/* Settings: the sum of these; other bits are passed over. A reading at depth 0 with
 * FALZHEOD_VALIDATE_DOCUMENT is strict: it sees the rows before the one that fails
 * the drain, and is refused with FALZHEOD_ILL_FORMED at its end. Any other reading is
 * lenient. */
#define FALZHEOD_VALIDATE_DOCUMENT UINT32_C(1)
#define FALZHEOD_VALIDATE_ROOT_NAME UINT32_C(2)
#define FALZHEOD_STRICT_COLLECTION_ELEMENT_NAMES UINT32_C(4)

/* The kinds of entries. An entry is six numbers: kind, member index (0 for items and
 * map entries), key start and length (0 and 0 outside maps), start and length. */

/* A text in the text buffer. */
#define FALZHEOD_ENTRY_TEXT UINT32_C(1)

/* A piece of the body. */
#define FALZHEOD_ENTRY_PIECE UINT32_C(2)

/* A gathered group in the text buffer: `<__flat>`, the siblings, `</__flat>`. */
#define FALZHEOD_ENTRY_GROUP UINT32_C(3)

/* A text that failed: start is its number, 6 to 9. Length is the place of the failing
 * `&` in the body, as a reading tells it, where the number is FALZHEOD_REFERENCE, and
 * else 0. */
#define FALZHEOD_ENTRY_FAILED UINT32_C(4)

/* How many numbers an entry has. */
#define FALZHEOD_ENTRY_NUMBERS 6

/* The four readings by a sheet have the same parameters, and two have `*place` besides,
 * which is told above. `entries` are numbers, six an entry, of any length: there is room
 * for entries_len / 6 of them, rounded down. `*count` becomes the number of entries
 * written and `*length` the number of text bytes, finished or refused; a refusal keeps
 * what was written before it, and all else of both buffers stays as it was. An entry and
 * its text are written only if both fit, else FALZHEOD_NO_ROOM. Texts and groups follow
 * one another in `texts` from 0.
 *
 * A sheet is a byte of bits, then only the fields whose bit stands, in bit order; higher
 * bits are 0. A name is a length byte 1 to 255, then its bytes. The sheet ends with its
 * last field; any other bytes are FALZHEOD_SHEET.
 *
 * Each reading tests the table, the sheet, the depth (FALZHEOD_DEPTH where `depth` is at
 * or above `max_depth`) and the root, in this order, before it reads: it may answer
 * FALZHEOD_FINISHED, FALZHEOD_TABLE, FALZHEOD_SHEET, FALZHEOD_DEPTH, FALZHEOD_NO_ROOT,
 * FALZHEOD_ILL_FORMED (strict only), FALZHEOD_NO_ROOM, and what is said of it below.
 *
 * Where falzheod_drain finished with the same body, rows and end, a structure, list or
 * map reading answers neither FALZHEOD_TABLE nor FALZHEOD_ILL_FORMED, strict or not, nor
 * FALZHEOD_REFERENCE or FALZHEOD_TOKEN_ERROR; and each piece is exactly an element, from
 * its `<` to the end of its end tag or `/>`, which the drain passes again by its own rows.
 * In other tables a piece ends at the position of the last row read for it, or at `end`.
 *
 * The text of a scalar, a key, a value or a string is the first text in its element,
 * unescaped: what stands behind a comment, an instruction, a CDATA section or a tag in it
 * is not read, CDATA is no text, and an element with none of it has the empty text. An
 * element before the first text is FALZHEOD_ELEMENT_IN_TEXT.
 *
 * Names: the root, attributes and items match a name without a colon by their local name,
 * and one with a colon by prefix and local name, split at its first colon; children of a
 * structure, keys and values have exactly the local name that is asked for.
 *
 * A call keeps some 56 KB on the stack at most. */

/* A structure. Sheet: bits 0 XML name, 1 original name, 2 member name, 3 unwrapped; then
 * the shape name, always; a count 0 to 64; and members: bits 0 XML name, 1 member name,
 * 2 attribute, 3 flattened, 4 aggregate.
 *
 * With FALZHEOD_VALIDATE_ROOT_NAME at depth 0 the root's name is tested
 * (FALZHEOD_ROOT_NAME): the XML name, else the original name, else the member name, else
 * the shape name. A member is found by its XML name, else its member name; attribute
 * members are candidates for children too. Then attribute members come in sheet order,
 * children in body order (a text, a failed text, or, of an aggregate member, a piece),
 * the test of a strict reading, and the groups of flattened aggregate members by rising
 * member index, to the first that does not fit; those before it stay written. An
 * unwrapped sheet gives, after the test of a strict reading, one piece, the root
 * element, or none.
 *
 * Not in place: `entries`, `texts`, `*count` and `*length` must not overlap `body`, `rows`,
 * `sheet` or one another. */
uint32_t falzheod_read_struct(const uint8_t *body, size_t body_len,
                              const uint32_t *rows, size_t rows_len, uint32_t end,
                              const uint8_t *sheet, size_t sheet_len,
                              uint32_t flags, uint32_t max_depth, uint32_t depth,
                              uint32_t *entries, size_t entries_len,
                              uint8_t *texts, size_t texts_len,
                              size_t *count, size_t *length);

/* A list: each item a piece. Sheet: bits 0 has member, 1 flattened, 2 its XML name, 3
 * its member name (2 and 3 only with 0). With
 * FALZHEOD_STRICT_COLLECTION_ELEMENT_NAMES, children of another name than the member's
 * (XML name, else member name, else `member`) are passed over, unless flattened stands.
 * No text is written.
 *
 * Not in place: `entries`, `texts`, `*count` and `*length` must not overlap `body`, `rows`,
 * `sheet` or one another. */
uint32_t falzheod_read_list(const uint8_t *body, size_t body_len,
                            const uint32_t *rows, size_t rows_len, uint32_t end,
                            const uint8_t *sheet, size_t sheet_len,
                            uint32_t flags, uint32_t max_depth, uint32_t depth,
                            uint32_t *entries, size_t entries_len,
                            uint8_t *texts, size_t texts_len,
                            size_t *count, size_t *length);

/* A map: each entry its key and a text, or a piece where the value is an aggregate.
 * Sheet: bits 0 flattened, 1 key XML name, 2 has value, 3 value XML name, 4 value
 * aggregate (3 and 4 only with 2). Names that are not given are `key` and `value`; with
 * FALZHEOD_STRICT_COLLECTION_ELEMENT_NAMES children that are not named `entry` are passed
 * over, unless flattened stands. Of several keys or values the last counts, a child named
 * as both is a key, and an entry without both gives nothing. A key or value that fails
 * refuses the reading with its number, FALZHEOD_ELEMENT_IN_TEXT to FALZHEOD_ILL_FORMED,
 * as it is met, and `*place` becomes that of a bad reference, else 0; room is tested at
 * the end of each entry, for key and value together; the key stands before the value.
 *
 * Not in place: `entries`, `texts`, `*count`, `*length` and `*place` must not overlap
 * `body`, `rows`, `sheet` or one another. */
uint32_t falzheod_read_map(const uint8_t *body, size_t body_len,
                           const uint32_t *rows, size_t rows_len, uint32_t end,
                           const uint8_t *sheet, size_t sheet_len,
                           uint32_t flags, uint32_t max_depth, uint32_t depth,
                           uint32_t *entries, size_t entries_len,
                           uint8_t *texts, size_t texts_len,
                           size_t *count, size_t *length, size_t *place);

/* A list of strings, by a list's sheet: each item a text. One that fails refuses the
 * reading with its number, as it is met, and `*place` becomes that of a bad reference,
 * else 0.
 *
 * Not in place: `entries`, `texts`, `*count`, `*length` and `*place` must not overlap
 * `body`, `rows`, `sheet` or one another. */
uint32_t falzheod_read_string_list(const uint8_t *body, size_t body_len,
                                   const uint32_t *rows, size_t rows_len, uint32_t end,
                                   const uint8_t *sheet, size_t sheet_len,
                                   uint32_t flags, uint32_t max_depth, uint32_t depth,
                                   uint32_t *entries, size_t entries_len,
                                   uint8_t *texts, size_t texts_len,
                                   size_t *count, size_t *length, size_t *place);

/* The first text of the root, unescaped, as a boolean: `true` or `false`, nothing
 * trimmed. Answers FALZHEOD_FINISHED, FALZHEOD_TABLE, FALZHEOD_NO_ROOT, the numbers of
 * a text that fails, FALZHEOD_ILL_FORMED or FALZHEOD_NOT_BOOLEAN, in this order.
 * `*value` becomes 1 or 0; a refusal leaves it alone. `*place` becomes that of a bad
 * reference, else 0. Of `flags` only FALZHEOD_VALIDATE_DOCUMENT says anything here.
 *
 * Not in place: `*value` and `*place` must not overlap `body`, `rows` or each other. */
uint32_t falzheod_read_boolean(const uint8_t *body, size_t body_len,
                               const uint32_t *rows, size_t rows_len, uint32_t end,
                               uint32_t flags, uint32_t depth, uint32_t *value,
                               size_t *place);

/* The same as an integer: an optional sign and one or more digits, in the range of 32
 * bits; FALZHEOD_NOT_INTEGER else. `*place` is as in falzheod_read_boolean. A call keeps
 * some 69 KB on the stack at most.
 *
 * Not in place: `*value` and `*place` must not overlap `body`, `rows` or each other. */
uint32_t falzheod_read_integer(const uint8_t *body, size_t body_len,
                               const uint32_t *rows, size_t rows_len, uint32_t end,
                               uint32_t flags, uint32_t depth, int32_t *value,
                               size_t *place);

/* The same as a string, to the front of `out`; FALZHEOD_NO_ROOM where it does not fit.
 * `*length` becomes the number of bytes written, 0 for a refusal; `*place` is as in
 * falzheod_read_boolean.
 *
 * Not in place: `out`, `*length` and `*place` must not overlap `body`, `rows` or one
 * another. */
uint32_t falzheod_read_string(const uint8_t *body, size_t body_len,
                              const uint32_t *rows, size_t rows_len, uint32_t end,
                              uint32_t flags, uint32_t depth,
                              uint8_t *out, size_t out_len, size_t *length,
                              size_t *place);

/* A text, such as an entry's, by the same rules. The first answers FALZHEOD_FINISHED or
 * FALZHEOD_NOT_BOOLEAN, the second FALZHEOD_FINISHED or FALZHEOD_NOT_INTEGER, and both
 * leave `*value` alone where they refuse; the third copies the text and answers
 * FALZHEOD_FINISHED or FALZHEOD_NO_ROOM, with `*length` the number of bytes written.
 *
 * Not in place, none of the three: `*value`, and `out` and `*length`, must not overlap
 * `text` or each other. */
uint32_t falzheod_text_boolean(const uint8_t *text, size_t text_len, uint32_t *value);
uint32_t falzheod_text_integer(const uint8_t *text, size_t text_len, int32_t *value);
uint32_t falzheod_text_string(const uint8_t *text, size_t text_len,
                              uint8_t *out, size_t out_len, size_t *length);

/* The part of the body that has this local name, leniently: the whole body if the root
 * has it, else the first child of the root that has it. `*start` and `*length` become
 * the part. Answers FALZHEOD_FINISHED, FALZHEOD_TABLE or FALZHEOD_NO_SUCH_ELEMENT (also
 * without a root); both become 0 where it refuses.
 *
 * Not in place: `*start` and `*length` must not overlap `body`, `rows`, `name` or each
 * other. */
uint32_t falzheod_find(const uint8_t *body, size_t body_len,
                       const uint32_t *rows, size_t rows_len, uint32_t end,
                       const uint8_t *name, size_t name_len,
                       size_t *start, size_t *length);

/* All texts that stand directly in the root, unescaped and joined, to the front of
 * `out`. Answers FALZHEOD_FINISHED, FALZHEOD_TABLE, FALZHEOD_ILL_FORMED (what the drain
 * does not pass), FALZHEOD_NO_ROOT, FALZHEOD_ELEMENT_IN_TEXT (any element inside the
 * root) or FALZHEOD_NO_ROOM, in this order. `*length` becomes the number of bytes
 * written, 0 for a refusal.
 *
 * Not in place: `out` and `*length` must not overlap `body`, `rows` or each other. */
uint32_t falzheod_whole_text(const uint8_t *body, size_t body_len,
                             const uint32_t *rows, size_t rows_len, uint32_t end,
                             uint8_t *out, size_t out_len, size_t *length);

#ifdef __cplusplus
}
#endif

#endif
