/* The colour engine, for C. Link with libboard.a; examples/c shows how. */
#ifndef NEWTWOLFRAM_H
#define NEWTWOLFRAM_H

#include <stddef.h>
#include <stdint.h>

#ifdef __cplusplus
extern "C" {
#endif

/*
 * Converts one colour through the element A2B0 of an ICC version 2 profile: from the profile's colour space to its other
 * space.
 *
 * profile, length: the profile as it stands in its file. Any bytes and any length are taken, also 0.
 * colour: four channels, each a count from 0 to 65,535. It holds the colour that goes in, and then the answer. Of the
 *     colour that goes in, only the channels that the profile's colour space has are looked at (one for gray, three for
 *     RGB, Lab and XYZ, four for CMYK), and in the answer those that its other space does not have are 0.
 *
 * Returns 0 when it has left the answer in colour. Otherwise it returns the number of what is wrong with the profile, and
 * colour is as it was:
 *
 *      1  its length: under 132 bytes, over 16,777,216, or not what its first four bytes say
 *      2  the letters acsp are missing: it is no profile
 *      3  one of its two spaces is none of gray, RGB, CMYK, Lab and XYZ
 *      4  its directory has over 64 records, or runs past the end
 *      5  its directory does not list A2B0
 *      6  the element begins before the directory ends, or ends past the end of the file
 *      7  the element has under 52 bytes
 *      8  the element is neither a lut8 nor a lut16
 *      9  the element's channels are not those of the two spaces
 *     10  the element has under 2 grid points
 *     11  the element's input or output tables have under 2 or over 4,096 entries
 *     12  the element's tables run past its end
 *
 * Where several things are wrong, it returns the lowest of their numbers.
 *
 * Memory: the length bytes at profile are only read, and nothing may change them during the call. Neither pointer is NULL,
 * also where length is 0. The four numbers at colour may be written and lie outside the profile. Nothing is allocated and
 * nothing is kept after the call, so threads may call it at the same time, each with a colour of its own. It was measured
 * to take under 1 KiB of stack, however large the profile is. The processor has the level x86-64-v2 or higher.
 */
uint32_t newtwolfram_convert(const uint8_t *profile, size_t length, uint16_t colour[4]);

#ifdef __cplusplus
}
#endif

#endif
