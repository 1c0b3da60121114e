/* The check of a usage-monitoring message, for C.
 *
 * The promise, proved of the function that this declares:
 *   - it accepts any kind and any octets, and always returns;
 *   - it reads octets[0 .. length - 1] and nothing else (it takes a shared slice and no allocator, so it writes
 *     nothing to the caller's memory and allocates nothing);
 *   - it answers 0 where the octets are a sound message of the kind, else the code of the fault that comes first:
 *       1  the header, length or padding of an AVP overruns, or the length is below the header
 *       2  an AVP that is not known has flag 40
 *       3  a known AVP is absent, repeated or foreign to its group or message
 *       4  the data has another width, or a key another length than 1 to 16 octets
 *       5  a value is out of range, or the kind is none of the three
 *       6  a group repeats a key, or is the seventeenth.
 *
 * Owed by the caller: octets points to length octets that may be read; where length is 0 it still points to somewhere
 * (any valid pointer will do, NULL will not).
 */
#ifndef GX_H
#define GX_H

#include <stddef.h>
#include <stdint.h>

#ifdef __cplusplus
extern "C" {
#endif

enum gx_kind { GX_REPORT = 1, GX_ANSWER = 2, GX_COMMAND = 3 };

uint32_t gx_check(uint32_t kind, const uint8_t *octets, size_t length);

#ifdef __cplusplus
}
#endif

#endif
