/*
 * Kitlubas: slot accessors from schema sheets. These are the functions of the static library libexports.a, which
 * `tools/build exports` writes to target/staticlib. docs/SHEET.md says what a sheet, a request and an answer are.
 *
 * A caller may pass anything: any bytes, any numbers, a buffer or an index of any length. Each function is proved for
 * every value of its arguments; it returns, and reads and writes nothing but what it is lent. What C leaves to the caller:
 *
 *   - an address with a length beside it is good for so many elements (with length 0 any address will do), and every
 *     other address is good for the one value that it points to;
 *   - nothing that is written to overlaps anything else that is passed.
 *
 * There is no state and no allocation, so that threads may call at once; a stack of 64 KB is enough for every call.
 *
 * A function of sheets answers 0, or the number of a refusal:
 *
 *    1  the sheet has more than 65,536 bytes
 *    2  a line has a letter that may not stand there, or no byte 10 at its end, or the sheet ends too soon
 *    3  a line gives an id that an earlier line of the same letter has
 *    4  a type, a chain of parents or the groups inside each other have a 17th level
 *    5  a node that the field refers to is not in the sheet
 *    6  a list of AnyPointer has no text
 *    7  a type parameter has no client, server, dispatch or get_type
 *    8  a brand has not as many bindings as the node that it is for has parameters
 *    9  option stands at a slot that is not a pointer, or at an interface
 *   10  the default is not of the slot's type, so that there is no getter
 *   11  the default of a Bool or a number is neither, so that there is no setter
 *   12  the explicit default of an enum is not an enum's, so that there is no setter
 *   13  a type parameter's index is past the parameters of its node
 *   14  the node of a group is not a struct
 *   15  there is no such node, field, leaf or request, or such a request is not for such a field, or a verdict is asked of a
 *       field without bits
 *   16  a number of a line is not written as a sheet's number, or is none that may stand there
 *   17  a text of a line is none that may stand there, or the line has more bytes than belong to it
 *   21  the fill count is above the buffer's length
 *   22  the text is longer than the free part of the buffer
 *   36  the level of indentation is above 8
 */
#ifndef KITLUBAS_H
#define KITLUBAS_H

#include <stddef.h>
#include <stdint.h>

#ifdef __cplusplus
extern "C" {
#endif

/* How many numbers a field has, as kitlubas_field puts them for kitlubas_text. */
enum { KITLUBAS_FIELD_SIZE = 14 };

/* What is asked of a field. Any other number is no request, which is 15. */
enum {
    KITLUBAS_TYPE_TEXT = 0,               /* the text of a slot's type, at a leaf */
    KITLUBAS_GETTER_READER = 1,           /* a slot's getter: result type, newline, code, and the default's declaration */
    KITLUBAS_GETTER_BUILDER = 2,
    KITLUBAS_GETTER_READER_FUNCTION = 3,  /* the same as a function's: an arrow stands before the result type */
    KITLUBAS_GETTER_BUILDER_FUNCTION = 4,
    KITLUBAS_SETTER = 5,                  /* a slot's setter, and its initializer if it has one */
    KITLUBAS_HASER_READER = 6,            /* the test whether a pointer slot is there; an empty line for another slot */
    KITLUBAS_HASER_BUILDER = 7,
    KITLUBAS_ZEROING = 8,                 /* the lines that set everything in a group to zero */
    KITLUBAS_PAIRED_SETTER = 9            /* the setter with the getter's mask, so that a getter reads what was set; of a slot
                                             without bits KITLUBAS_SETTER's text */
};

/* What the text of a type names of it. Beside other requests the leaf is not looked at. */
enum {
    KITLUBAS_READER_A = 0,          /* Reader with the lifetime 'a */
    KITLUBAS_BUILDER_A = 1,
    KITLUBAS_READER_ANONYMOUS = 2,  /* Reader with the lifetime '_ */
    KITLUBAS_BUILDER_ANONYMOUS = 3,
    KITLUBAS_OWNED = 4,
    KITLUBAS_CLIENT = 5,
    KITLUBAS_SERVER = 6,
    KITLUBAS_SERVER_DISPATCH = 7,
    KITLUBAS_PIPELINE = 8,
    KITLUBAS_GET_TYPE = 9
};

/*
 * What a slot's getters read after its setter, as kitlubas_verdict tells it. KITLUBAS_SIGN_FLIPPED and
 * KITLUBAS_COMBINED_WITH_DEFAULT disagree.
 */
enum {
    KITLUBAS_AGREE = 0,                  /* the value that was set */
    KITLUBAS_SIGN_FLIPPED = 1,           /* that value with its sign flipped: a float whose default is -0.0 */
    KITLUBAS_COMBINED_WITH_DEFAULT = 2,  /* that value exclusive or the default: an enum's, which is not 0 and has no flag */
    KITLUBAS_NOT_BOTH_GENERATED = 3      /* nothing: the setter or a getter is refused */
};

/*
 * Whether s is a sheet: 0 or a refusal. *line becomes the line of a refusal that was met reading the sheet (2, 3, 4 of a type,
 * 16, 17), from 1, and *column the column in that line, in bytes from 1: for 16 the first of the number's 21, for 17 where the
 * text begins, or the column of the space before it that is missing, or the first surplus byte's, for 3 the id's, which is 2,
 * for 2 and 4 it is 1. The column may lie past the end of its line. Else both become 0.
 */
uint64_t kitlubas_admit(const uint8_t *s, size_t s_len, size_t *line, size_t *column);

/*
 * Admits s and answers a request for the field at a place, from 0, among those of the node with an id. 0: the text stands
 * in buf from *fill on, *fill has moved past it, and no other byte has changed. A refusal leaves buf and *fill as they were.
 * *line and *column become what they do in kitlubas_admit. At a level from 1 to 8 each line of the text begins with four spaces
 * for each step of it, and so does a type's text, which has no byte 10; a text of no lines is one byte 10 at every level, and
 * level 0 is capnpc's text, but for a paired setter's mask. 36 comes directly after 21, before the sheet is looked at.
 */
uint64_t kitlubas_answer(const uint8_t *s, size_t s_len, uint64_t id, uint64_t place, uint64_t request, uint64_t leaf,
                         size_t level, size_t *fill, size_t *line, size_t *column, uint8_t *buf, size_t buf_len);

/* How many numbers the index of a sheet of so many bytes needs, which is never more than 1,793. */
size_t kitlubas_index_size(size_t size);

/*
 * Answers as kitlubas_admit does. After 0, an index of at least kitlubas_index_size(s_len) numbers is that of the sheet's
 * nodes, for the functions below; a shorter one is not to be used. After a refusal the numbers may be any.
 */
uint64_t kitlubas_index(const uint8_t *s, size_t s_len, uint64_t *index, size_t index_len, size_t *line,
                        size_t *column);

/*
 * Answers and leaves what kitlubas_answer does, over the index that kitlubas_index filled for these bytes, without
 * admitting them again. Over any other index it returns, no byte of buf before *fill has changed, and *fill has neither fallen
 * nor passed the end of buf; after a number other than 0 nothing has changed.
 */
uint64_t kitlubas_answer_in(const uint8_t *s, size_t s_len, const uint64_t *index, size_t index_len, uint64_t id,
                            uint64_t place, uint64_t request, uint64_t leaf, size_t level, size_t *fill, size_t *line,
                            size_t *column, uint8_t *buf, size_t buf_len);

/*
 * The node with a number, from 0: *id becomes its id, *at the place of its module in the sheet, *size the length of that,
 * and *first the position of its first field. 0, or 15 where there is none; the four are then 0.
 */
uint64_t kitlubas_node(const uint8_t *s, size_t s_len, const uint64_t *index, size_t index_len, size_t number,
                       uint64_t *id, size_t *at, size_t *size, size_t *first);

/*
 * The field that stands at a position of the sheet: *kind becomes the kind of its type, 0 to 18 as schema.capnp's Type
 * numbers them, or 19 for a group; *at the place of its name in the sheet, *size the length of that; and *next the position
 * after the field. 0, or 15 where there is none, as after the last field of a node; the four are then 0. Where field has
 * KITLUBAS_FIELD_SIZE numbers or more, the first ones become those of the field; a shorter one stays as it was.
 */
uint64_t kitlubas_field(const uint8_t *s, size_t s_len, size_t from, uint64_t *field, size_t field_len, uint64_t *kind,
                        size_t *at, size_t *size, size_t *next);

/*
 * The text of a request at a level, as kitlubas_answer has it, for a field of the node with a number, from 0: field has the
 * numbers that kitlubas_field put for it. 36 comes first. 0: the text begins buf, and *size is its length. 22: buf is too short,
 * and *size is the length that the text has. Any other refusal: *size is 0. After a refusal the bytes of buf may be any. Over any
 * other numbers it returns, and after 0 *size is at most buf_len; fewer than KITLUBAS_FIELD_SIZE are no field, which is 15.
 */
uint64_t kitlubas_text(const uint8_t *s, size_t s_len, const uint64_t *index, size_t index_len, size_t node,
                       const uint64_t *field, size_t field_len, uint64_t request, uint64_t leaf, size_t level,
                       size_t *size, uint8_t *buf, size_t buf_len);

/*
 * Whether the setter (KITLUBAS_SETTER's) and the getters of a slot agree, over what kitlubas_text takes. 0: *verdict becomes one
 * of the four numbers above, which are said of records that are long enough and of slots clear of their union's tag. 15: there
 * is no such node or field (as of fewer than KITLUBAS_FIELD_SIZE numbers), or the field has no bits, as a Void, a pointer or a
 * group; *verdict becomes 0, which is then no verdict. Over any other numbers it returns as well.
 */
uint64_t kitlubas_verdict(const uint8_t *s, size_t s_len, const uint64_t *index, size_t index_len, size_t node,
                          const uint64_t *field, size_t field_len, uint64_t *verdict);

/*
 * The sheet that a text written by hand says: the numbers of each line, with any spaces between them, right-justified in their
 * 21 columns. 0: it stands in buf from *fill on, *fill has moved past it, and no other byte has changed. 21 or 22 leaves buf and
 * *fill as they were. Nothing else is refused: kitlubas_admit says whether it is a sheet.
 */
uint64_t kitlubas_pad(const uint8_t *s, size_t s_len, size_t *fill, uint8_t *buf, size_t buf_len);

/*
 * The writers put their text into buf from the fill count `at` on and answer the new fill count, which stops at
 * SIZE_MAX - 1. Bytes past the end of buf are counted and not written. What is not taken writes nothing and answers SIZE_MAX.
 */

/* The number in decimal. */
size_t kitlubas_number(size_t at, uint8_t *buf, size_t buf_len, uint64_t n);

/* The number with these bits in two's complement, at a width of 8, 16, 32 or 64 bits; no other width is taken. */
size_t kitlubas_signed(size_t at, uint8_t *buf, size_t buf_len, uint32_t width, uint64_t n);

/* A line with an indent of so many steps, four spaces each. */
size_t kitlubas_line(size_t at, uint8_t *buf, size_t buf_len, size_t indent, const uint8_t *line, size_t line_len);

/* An empty line. */
size_t kitlubas_blank_line(size_t at, uint8_t *buf, size_t buf_len);

/* What capnpc makes of no lines. */
size_t kitlubas_no_lines(size_t at, uint8_t *buf, size_t buf_len);

/* The name in snake case: bedId is bed_id. A name is taken that has at most 64 bytes, of ASCII and of letters from U+00C0 to
   U+00FF without U+00D7 and U+00F7, in UTF-8. */
size_t kitlubas_snake(size_t at, uint8_t *buf, size_t buf_len, const uint8_t *name, size_t name_len);

/* The name of the constant that holds the default of a field with this name: DEFAULT_BED_ID. Names as above. */
size_t kitlubas_default_name(size_t at, uint8_t *buf, size_t buf_len, const uint8_t *name, size_t name_len);

/* The name of a module that is made of this name: type is type_. Names as above. */
size_t kitlubas_module_name(size_t at, uint8_t *buf, size_t buf_len, const uint8_t *name, size_t name_len);

#ifdef __cplusplus
}
#endif

#endif
