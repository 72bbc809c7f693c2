/* astc_tool: encode, polish, audit and decode rows of ASTC blocks. C99 and C++.
 *
 * Link with -lastc_tool: the shared library or the archive that `./build library` makes; both need
 * the C library alone. Each function is proved to do what its comment says, by the contracts of the
 * crates astc_c and astc_rows. A caller must ensure the following, which nothing checks:
 *
 *   - No pointer is null, not even for zero texels or blocks, and each points to the given number
 *     of texels, blocks or numbers.
 *   - Until a call ends, nothing else reads or writes what the call writes, and nothing writes what
 *     the call reads.
 *   - malloc and free come from one allocator, and no signal handler makes a call.
 *
 * The library keeps no state between calls: any number of threads may call at once. A call needs at
 * most 256 KiB of stack; one with options also allocates 0.1 to 1.3 MB for the tables that the
 * blocks of a picture share, and frees them before it returns. Making these tables takes one to
 * four milliseconds: pass some hundred blocks per call, not one.
 *
 * A picture is an array of texels in rows from the top, four bytes per texel: red, green, blue and
 * alpha. Blocks have 16 bytes each, in rows from the top and from left to right in a row. The last
 * block of a row and the last row of blocks may extend past the edges of the picture. */
#ifndef ASTC_TOOL_H
#define ASTC_TOOL_H

#include <stddef.h>
#include <stdint.h>

#ifdef __cplusplus
extern "C" {
#endif

/* Rows of blocks of a picture. */
struct astc_rows {
    uint32_t width;  /* of the picture in texels, 1 to 8192 */
    uint32_t height; /* of the picture in texels, 1 to 8192 */
    uint32_t format; /* ASTC_LINEAR + f or ASTC_SRGB + f, f one of enum astc_footprint */
    uint32_t first;  /* the first row, 0 to the number of rows, ceil(height / block height) */
    uint32_t count;  /* the number of rows, at most those from the first on */
};

/* The numbers of the formats in OpenGL and KTX. */
#define ASTC_LINEAR 0x93B0u
#define ASTC_SRGB 0x93D0u
enum astc_footprint {
    ASTC_4X4, ASTC_5X4, ASTC_5X5, ASTC_6X5, ASTC_6X6, ASTC_8X5, ASTC_8X6, ASTC_8X8,
    ASTC_10X5, ASTC_10X6, ASTC_10X8, ASTC_10X10, ASTC_12X10, ASTC_12X12
};

/* How to search and to judge blocks. */
struct astc_options {
    uint32_t preset;    /* one of enum astc_preset */
    uint8_t weights[4]; /* of red, green, blue and alpha in the error: 0 to 15 each, not all 0 */
    uint32_t fitted;    /* not 0: also try a fitted block: less error, little cost; not in audits */
};

/* From the quickest, except ASTC_PAIRS: ASTC_QUICK with both ends of a channel at once. With
   ASTC_QUICK a block has one colour if no listed block is closer to its source, so that thin lines
   may be lost; with `fitted` most of them stay. */
enum astc_preset { ASTC_FLAT, ASTC_QUICK, ASTC_MEDIUM, ASTC_THOROUGH, ASTC_PAIRS };

/* The results of an audit. */
struct astc_findings {
    uint64_t error; /* the sum of the errors; invalid blocks count as magenta */
    uint64_t bad;   /* invalid blocks, and those further off than a listed block or one change */
};

/* The result of a function: 0, or the first wrong argument, in this order. Unless the result is 0,
   nothing is written. */
enum astc_status {
    ASTC_DONE,
    ASTC_BAD_WIDTH,   /* not 1 to 8192 */
    ASTC_BAD_HEIGHT,  /* not 1 to 8192 */
    ASTC_BAD_FORMAT,  /* unknown format */
    ASTC_BAD_FIRST,   /* more than the number of rows of blocks */
    ASTC_BAD_COUNT,   /* more rows than follow the first */
    ASTC_BAD_PRESET,  /* unknown preset */
    ASTC_BAD_WEIGHTS, /* a weight over 15, or all 0 */
    ASTC_BAD_TEXELS,  /* wrong number of texels */
    ASTC_BAD_BLOCKS,  /* wrong number of blocks */
    ASTC_NO_MEMORY    /* only from functions with options */
};

/* The error of a block is the sum, over the texels inside the picture and the four channels, of the
 * squared difference between the decoded texel and the source texel, times the weight of the
 * channel; at most 561,816,000.
 *
 * A block is settled if it is legal, no block that the preset lists for its source has a smaller
 * error, and no change to one of its values gives a smaller error. With ASTC_PAIRS a change to both
 * ends of a channel gives no smaller error either; with `fitted` the fitted block has no smaller
 * error either. The library does not promise which block is the fitted one. */

/* Encodes the blocks of the rows. Each block is settled, like each block of the command `pack`, and
 * *error receives the sum of their errors. (Tests show that the bytes are those of `pack` without
 * `advised`, and with `fitted` those of `pack .. fitted`.)
 *   texels: the whole picture, width * height texels
 *   blocks: written, 16 bytes each: count * ceil(width / block width) blocks */
uint32_t astc_encode_rows(const struct astc_rows *rows,
    const struct astc_options *options, const uint8_t *texels, size_t texel_count,
    uint8_t *blocks, size_t block_count, uint64_t *error);

/* Polishes the blocks of the rows in place. Each block is settled, the search also tries the given
 * block, and no block is further from its source than before. Invalid blocks count as the magenta
 * that a decoder shows for them. *error receives the sum of the errors.
 *   texels and blocks: as above */
uint32_t astc_polish_rows(const struct astc_rows *rows,
    const struct astc_options *options, const uint8_t *texels, size_t texel_count,
    uint8_t *blocks, size_t block_count, uint64_t *error);

/* Checks the blocks of the rows, from any encoder, against the picture that they were made from,
 * like the command `audit`: by changes to one value, also with ASTC_PAIRS.
 *   texels and blocks: as above */
uint32_t astc_audit_rows(const struct astc_rows *rows,
    const struct astc_options *options, const uint8_t *texels, size_t texel_count,
    const uint8_t *blocks, size_t block_count, struct astc_findings *findings);

/* Decodes the blocks of the rows to 8 bits per channel: the top byte of a linear colour, as in Mesa
 * (a decoder that rounds, like astcenc's, differs by 1 at most), and magenta for an invalid block.
 * *illegal receives the number of invalid blocks.
 *   blocks: those of the rows, as above
 *   texels: written: the rows of texels that these rows of blocks cover, up to the last row of the
 *           picture, width texels each */
uint32_t astc_show_rows(const struct astc_rows *rows, const uint8_t *blocks, size_t block_count,
    uint8_t *texels, size_t texel_count, uint32_t *illegal);

/* The version: 65,536 times the first number, plus 256 times the second, plus the third. The header
 * is for version 0.2.0. */
#define ASTC_VERSION 0x000200u
uint32_t astc_version(void);

#ifdef __cplusplus
}
#endif

#endif
