/* The calls that a terminal's firmware has on a module: check it, and find a key in it. */
#ifndef FIRMWARE_H
#define FIRMWARE_H

#include <stddef.h>
#include <stdint.h>

#ifdef __cplusplus
extern "C" {
#endif

/*
 * Checks a module. `bytes` points to its `length` bytes; any length and any bytes will do, and they are only read.
 *
 * The answer is 0 if the module is lawful. Otherwise it is the number of the decline, plus 256 times the number of the used
 * cell that is named, if one is:
 *
 *   14  the trailer is unlawful
 *   15  the bytes of the named cell are unlawful
 *   16  the record of the named cell lies outside its own buckets
 *   17  the key of the named cell stands in an earlier cell too
 *   18  the count of records is wrong
 *
 * The cell named by 15, 16 or 17 is the lowest faulty one.
 */
uint64_t module_check(const uint8_t *bytes, size_t length);

/*
 * Finds a key in a module by its two key words: the first eight and the last four bytes of a plate that is padded with
 * blanks to twelve, as big-endian numbers, or 0 and the tag. Any two words may be given.
 *
 * The answer is 256 times (the number of the key's cell + 1), 0 if the key is not there, or 14 if the trailer is unlawful.
 * Nothing but a lawful trailer is asked of the module: a cell with unlawful bytes counts as empty.
 */
uint64_t module_find(const uint8_t *bytes, size_t length, uint64_t first, uint64_t second);

#ifdef __cplusplus
}
#endif

#endif
