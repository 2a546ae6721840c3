/*
 * Kitlubas: what accessors do to a record. These are the functions of the static library librecord_exports.a, which
 * `tools/build record_exports` writes to target/staticlib.
 *
 * A record is a data section of bytes, and a list of pointers, of which each is a byte: 0 for null. A Bool's offset counts
 * bits, a number's counts its own widths, a pointer's counts pointers. A width is 1, 2, 4 or 8 bytes; of any other nothing
 * is found or set. A mask is joined by exclusive or, on both ways. A get finds zero bits where they are not wholly inside the
 * section, and joins its mask to them.
 *
 * A caller may pass anything, as long as an address is good for what it is lent for: so many bytes where a length stands
 * beside it, one value elsewhere. What is written to overlaps nothing else that is passed.
 */
#ifndef KITLUBAS_RECORD_H
#define KITLUBAS_RECORD_H

#include <stdbool.h>
#include <stddef.h>
#include <stdint.h>

#ifdef __cplusplus
extern "C" {
#endif

/* A Bool. */
bool kitlubas_get_bool(const uint8_t *section, size_t section_len, uint32_t offset);

/* The same, with a mask. */
bool kitlubas_get_bool_mask(const uint8_t *section, size_t section_len, uint32_t offset, bool mask);

/* Sets a Bool: true; or false where its bit is not inside the section, which is then as it was. */
bool kitlubas_set_bool(uint8_t *section, size_t section_len, uint32_t offset, bool value);

/* The same, with a mask. */
bool kitlubas_set_bool_mask(uint8_t *section, size_t section_len, uint32_t offset, bool value, bool mask);

/* A number or an enum: true, and its bits in *value; or false where the width is none, and *value stays. */
bool kitlubas_get_data(const uint8_t *section, size_t section_len, uint32_t width, uint32_t offset, uint64_t *value);

/* The same, with a mask. */
bool kitlubas_get_data_mask(const uint8_t *section, size_t section_len, uint32_t width, uint32_t offset, uint64_t mask,
                            uint64_t *value);

/* Sets a number or an enum by its bits: true; or false where the width is none or the number is not wholly inside the section,
 * which is then as it was. */
bool kitlubas_set_data(uint8_t *section, size_t section_len, uint32_t width, uint32_t offset, uint64_t value);

/* The same, with a mask. */
bool kitlubas_set_data_mask(uint8_t *section, size_t section_len, uint32_t width, uint32_t offset, uint64_t value,
                            uint64_t mask);

/* Whether the tag at an offset of 16 bits has this number; one that is not wholly inside the section is 0. */
bool kitlubas_tag_is(const uint8_t *section, size_t section_len, uint32_t offset, uint16_t member);

/* Whether a pointer is null; past the pointers it is. */
bool kitlubas_is_pointer_null(const uint8_t *pointers, size_t pointers_len, uint32_t offset);

/* Makes a pointer null: true; or false past the pointers, which are then as they were. */
bool kitlubas_clear(uint8_t *pointers, size_t pointers_len, uint32_t offset);

#ifdef __cplusplus
}
#endif

#endif
