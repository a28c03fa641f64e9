/* dirgemist_size.h: lengths and places, as they cross between C and the libraries.
 *
 * They are counted in 64 bits wherever the libraries are compiled to, since that is the machine that
 * the proofs speak of. Where size_t has 64 bits it is meant; on a processor of 32 bits it is
 * uint64_t. There a length of any type of number may be handed in, but one that is handed out is
 * written with eight bytes, so its place has to be a dirgemist_size: a pointer to anything else does
 * not build.
 */
#ifndef DIRGEMIST_SIZE_H
#define DIRGEMIST_SIZE_H

#include <stddef.h>
#include <stdint.h>

#if SIZE_MAX == UINT64_MAX
typedef size_t dirgemist_size;
#else
typedef uint64_t dirgemist_size;
/* Without this gcc only warns in C, and four bytes behind a size_t would be written over. */
#if defined(__GNUC__) && !defined(__cplusplus)
#pragma GCC diagnostic error "-Wincompatible-pointer-types"
#endif
#endif

#endif
