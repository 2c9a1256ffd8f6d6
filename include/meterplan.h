/* Tables for annealers from radio surveys: the proved library as C sees it.
 *
 * Build it by `rt lib` in crates/meterplan; link crates/meterplan/out/libmeterplan.a.
 *
 * Each function returns its result or the number of the first refusal that applies; a refusal of 0 says that the result
 * is there. A refused call alters nothing, and gives 0 for all its other values. A slice is a pointer and a length. The
 * lengths are part of the input: a wrong one is a refusal. Only the pointers are believed: each must be to that many
 * elements (not null, even where the length is 0), and what a call may alter must not overlap anything else lent to it.
 * What is asked for is a meterplan_ask, by value: "kind", "parameter" and "margin" below are its fields. Nothing is kept
 * between calls, and nothing is allocated.
 *
 * What a table's numbers mean: the energy of an assignment is the constant, plus the number of each bit that is set, plus
 * the number of each pair i < j whose bits are both set, once. (A symmetric matrix has half of a pair's number in each of
 * its two places.) A margin is added to the penalty A of the table: with groups and trees the bits of plans keep their
 * energies, all below A, and all others have A or more; with channels a meter without exactly one bit set costs more.
 *
 * Of several refusals the first of this list is given: the lowest number, except that 18 follows 7, and 9 follows 10.
 *
 *  1 image    not 2,064 bytes, or breaks a rule of images (meterplan_begin: length only)
 *  2 ends     meterplan_add, meterplan_remove: an end is 0 or above the number of meters, or both are equal
 *  3 weight   meterplan_add: 0
 *  4 present  meterplan_add: that link is there
 *  5 absent   meterplan_remove: no such link
 *  6 full     meterplan_add: 256 links are there
 *  7 kind     kind not 1..3, parameter outside its limits, or kind 3 with one meter (meterplan_begin: meters not 1..48)
 * 18 margin   margin above 1,000,000
 *  8 bits     more than 8,192 bits
 * 10 row      row number at or above the number of bits
 *  9 length   out shorter than the row; bits or plan of another length than needed
 * 11 value    meterplan_energy, meterplan_decode: a lent bit is neither 0 nor 1
 * 12 no plan  meterplan_code: the bytes are no plan; meterplan_decode: the bits of groups or a tree code none
 *
 * Bits, counted from 0, with N meters from 1 and parameter n. Channels and groups: bit (v - 1) * n + (i - 1) is meter v on
 * channel i, or in group i. Trees, with D = N / 2 rounded down: first for each meter its depths 0..D; then for each link in
 * order of its ends u < v, the arc from parent u to child v and then the arc back, their depths 1..D; then for each meter
 * its number of neighbours, 1..n.
 */
#ifndef METERPLAN_H
#define METERPLAN_H

#include <stddef.h>
#include <stdint.h>

#ifdef __cplusplus
extern "C" {
#endif

/* Bytes of a site image. */
#define METERPLAN_IMAGE 2064
/* No table has more bits; no plan has more bytes. */
#define METERPLAN_MOST_BITS 8192
#define METERPLAN_MOST_METERS 48
/* No margin is greater. */
#define METERPLAN_MOST_MARGIN 1000000

/* Kinds; beside each what its parameter is. */
#define METERPLAN_CHANNELS 1 /* number of channels, 1..16 */
#define METERPLAN_GROUPS 2   /* number of groups, 2..16 */
#define METERPLAN_TREE 3     /* greatest number of neighbours, 1..47 */

/* What is asked for. Name the fields of one that you make: later versions append fields, and one not named is 0. It
 * crosses by value, so compile with the header of the library that you link. */
typedef struct { uint64_t kind; uint64_t parameter; uint64_t margin; } meterplan_ask;
/* What a call gives: all but the refusal is 0 where that is not 0. */
typedef struct { uint64_t refusal; int64_t value; } meterplan_number;
typedef struct { uint64_t refusal; uint64_t weight; uint64_t repaired; } meterplan_decoded;

/* Makes the image one of that many meters with no links: whatever bytes it held before. */
uint64_t meterplan_begin(uint8_t *image, size_t image_len, uint64_t meters);
/* Adds or removes the link between u and v, either way round. */
uint64_t meterplan_add(uint8_t *image, size_t image_len, uint64_t u, uint64_t v, uint16_t weight);
uint64_t meterplan_remove(uint8_t *image, size_t image_len, uint64_t u, uint64_t v);

/* Of the table: its number of bits, its penalty A with the margin on it, its constant. Refused by 1, 7, 18, 8. */
meterplan_number meterplan_bits(const uint8_t *image, size_t image_len, meterplan_ask ask);
meterplan_number meterplan_penalty(const uint8_t *image, size_t image_len, meterplan_ask ask);
meterplan_number meterplan_constant(const uint8_t *image, size_t image_len, meterplan_ask ask);
/* Row i, in the first bits - i numbers of out: that of bit i, then those of pairs (i, j) for j = i + 1 upward. The rest of
 * out is unaltered. */
uint64_t meterplan_row(const uint8_t *image, size_t image_len, meterplan_ask ask, uint64_t i, int64_t *out, size_t out_len);

/* The energy of an assignment: a byte for each bit, 0 or 1. */
meterplan_number meterplan_energy(const uint8_t *image, size_t image_len, meterplan_ask ask, const uint8_t *bits, size_t bits_len);
/* The code of a plan, in bits, whatever these held. A plan is a byte for each meter: its channel, its group, or its parent
 * (0 for the root). */
uint64_t meterplan_code(const uint8_t *image, size_t image_len, meterplan_ask ask, const uint8_t *plan, size_t plan_len, uint8_t *bits, size_t bits_len);
/* The plan of an assignment, in plan; its weight, and how many meters had to be repaired (channels only). The weight is that
 * of links with both ends on one channel, of links between groups (each once; the energy has them twice), or of the tree. */
meterplan_decoded meterplan_decode(const uint8_t *image, size_t image_len, meterplan_ask ask, const uint8_t *bits, size_t bits_len, uint8_t *plan, size_t plan_len);

#ifdef __cplusplus
}
#endif

#endif
