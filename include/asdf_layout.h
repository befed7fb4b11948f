/* Proved functions that read the layout of ASDF files. Link crates/asdf/out/libasdf.a; `rt lib` in crates/asdf writes it.
 *
 * Every function returns one number:
 *   - below 2^56, it is how many bytes were written at the start of `out`, or the count that was asked for;
 *   - at least 2^56, it is a refusal: ASDF_REFUSAL_NUMBER says why (one of the constants below), and ASDF_REFUSAL_PLACE
 *     says where.
 * It is proved that the two are never confused, and that the number and the place are the intended ones, for calls that
 * are lent fewer than 2^56 bytes in all.
 *
 * A refusal changes no byte that was lent. The bytes of `out` after a result are unchanged. A buffer that is shorter
 * than the result is refused with 21. Nothing is kept between calls and nothing is allocated. Calls on different bytes
 * may run at the same time.
 *
 * The proofs rest on these duties of the caller:
 *   - The program runs on x86-64 Linux.
 *   - Each pointer points to the given number of bytes, at most PTRDIFF_MAX. NULL is allowed only with a length of 0.
 *   - Bytes that a function may change (`out`, and the file of asdf_edit) overlap nothing else that is lent to it.
 *   - Nobody else changes lent bytes during a call, not even through a mapped file.
 *
 * Each number in a buffer has eight bytes, the most significant first; asdf_number reads it. */
#ifndef ASDF_LAYOUT_H
#define ASDF_LAYOUT_H

#include <stddef.h>
#include <stdint.h>

#ifdef __cplusplus
extern "C" {
#endif

/* Why something is refused. */
enum asdf_refusal {
    ASDF_FILE_TOO_LONG = 1,           /* file is longer than 4,294,967,295 bytes */
    ASDF_NOT_ASDF = 2,                /* file does not begin with `#ASDF ` */
    ASDF_VERSION_MALFORMED = 3,       /* version line is malformed or has no line end */
    ASDF_VERSION_NOT_ONE = 4,         /* first version number is not 1 */
    ASDF_COMMENT_NOT_ENDED = 5,       /* comment line has no line end */
    ASDF_INDEX_AMONG_COMMENTS = 6,    /* first line of a block index is among the comments */
    ASDF_NEITHER_TREE_NOR_BLOCK = 7,  /* after the comments there is neither a tree nor a block nor the end of the file */
    ASDF_WRONG_LINE_BEFORE_START = 8, /* wrong line comes before the start line of the tree */
    ASDF_SECOND_START_LINE = 9,       /* tree has a second start line */
    ASDF_TREE_NOT_ENDED = 10,         /* tree does not end: its next line has no line end or is missing */
    ASDF_HEADER_PASSES_END = 11,      /* block header passes the end of the file */
    ASDF_HEADER_TOO_SMALL = 12,       /* header size is below 48 */
    ASDF_USED_ABOVE_ALLOCATED = 13,   /* used size is above allocated size */
    ASDF_DATA_SIZE_DIFFERS = 14,      /* data size differs from used size although the content is not compressed */
    ASDF_ALLOCATED_PASSES_END = 15,   /* allocated space passes the end of the file */
    ASDF_TOO_MANY_BLOCKS = 16,        /* there is a 65th block mark */
    ASDF_STRAY_TAIL = 17,             /* stray bytes follow the last block: not all zeros, not an index, and no mark after them */
    ASDF_EDIT_WITHOUT_TREE = 18,      /* file has no tree to edit */
    ASDF_TEXT_NOT_ONE_TREE = 19,      /* text is not exactly one tree */
    ASDF_TEXT_LONGER_THAN_ROOM = 20,  /* text is longer than the room of the tree */
    ASDF_BUFFER_TOO_SHORT = 21,       /* lent buffer is shorter than the result */
    ASDF_NO_INDEX_POSSIBLE = 22,      /* file cannot have an index: it has no block, or its last block is streamed */
    ASDF_OUTLINE_LENGTH = 23,         /* length of the outline is not divisible by 16 */
    ASDF_OUTLINE_ROW = 24             /* row of the outline breaks a rule */
};

#define ASDF_IS_REFUSAL(word) ((word) >> 56 != 0)
#define ASDF_REFUSAL_NUMBER(word) ((int)((word) >> 56))
/* The place counts from the first byte of what was lent. For a refused inner file, it counts from that file's first
 * byte. */
#define ASDF_REFUSAL_PLACE(word) ((word) & ((UINT64_C(1) << 56) - 1))

/* How many bytes each result has. A layout had 88 bytes before ASDF_LAYOUT_LINE_END was added: a call that still lends
 * 88 bytes is refused with 21. */
#define ASDF_LAYOUT_BYTES 96
#define ASDF_BLOCK_BYTES 80
#define ASDF_RECORD_BYTES 120
#define ASDF_ROW_BYTES 16
#define ASDF_STORED_ROW_BYTES 80
#define ASDF_LONGEST_INDEX 809

/* The numbers of a layout. Ends are exclusive. If there is no tree, its three offsets are 0. */
enum asdf_layout_number {
    ASDF_LAYOUT_MAJOR,
    ASDF_LAYOUT_MINOR,
    ASDF_LAYOUT_PATCH,
    ASDF_LAYOUT_HEADER_END,
    ASDF_LAYOUT_COMMENTS_END, /* The comments begin at the end of the header. */
    ASDF_LAYOUT_HAS_TREE,
    ASDF_LAYOUT_TREE_START,
    ASDF_LAYOUT_TREE_END,
    ASDF_LAYOUT_ROOM_END, /* The first block, or the end of the file: an edit may fill the room up to here. */
    ASDF_LAYOUT_BLOCKS,
    ASDF_LAYOUT_VERDICT,
    ASDF_LAYOUT_LINE_END /* How the header line ends. The lines of a written index end in the same way. */
};

/* How a line ends. */
enum asdf_line_end {
    ASDF_LINE_END_LF,  /* 0A */
    ASDF_LINE_END_CRLF /* 0D 0A */
};

/* The verdict on the block index, which may be written in brackets or with dashes. */
enum asdf_verdict {
    ASDF_INDEX_ABSENT,
    ASDF_INDEX_GOOD,
    ASDF_INDEX_IGNORED_FORM, /* Its text is not an index. */
    ASDF_INDEX_IGNORED_LIST  /* It lists other offsets. */
};

/* The numbers of a block. In a record they follow ASDF_RECORD_BLOCK other numbers. */
enum asdf_block_number {
    ASDF_BLOCK_ORDINAL,
    ASDF_BLOCK_AT,          /* The block's first byte, in its own file. Unallocated space may precede it. */
    ASDF_BLOCK_HEADER_SIZE, /* The content begins 6 + header size bytes after the block's first byte. */
    ASDF_BLOCK_FLAGS,       /* Bit 0 means streamed: then all three sizes are the length of the content. */
    ASDF_BLOCK_COMPRESSION, /* The four bytes of the name, the first of them the most significant; 0 for none. */
    ASDF_BLOCK_ALLOCATED,
    ASDF_BLOCK_USED,
    ASDF_BLOCK_DATA_SIZE,
    ASDF_BLOCK_CHECKSUM_HIGH, /* Both halves are 0 if there is no checksum. */
    ASDF_BLOCK_CHECKSUM_LOW
};

/* The numbers of a record. */
enum asdf_record_number {
    ASDF_RECORD_DEPTH,  /* How many files surround the block's own file. */
    ASDF_RECORD_OFFSET, /* The block's first byte, in the outermost file. */
    ASDF_RECORD_INNER,
    ASDF_RECORD_REFUSAL_NUMBER, /* The refusal of a refused inner file, otherwise 0. */
    ASDF_RECORD_REFUSAL_PLACE,
    ASDF_RECORD_BLOCK /* The numbers of the block begin here. */
};

/* Whether a block's content is itself a file. */
enum asdf_inner {
    ASDF_INNER_PLAIN,
    ASDF_INNER_OPENED, /* Its records follow. */
    ASDF_INNER_REFUSED,
    ASDF_INNER_TOO_DEEP
};

/* The numbers of a row of a stored outline. */
enum asdf_row_number {
    ASDF_ROW_DEPTH,
    ASDF_ROW_ORDINAL,
    ASDF_ROW_OFFSET, /* The block's first byte, in the outermost file. */
    ASDF_ROW_HEADER_SIZE,
    ASDF_ROW_ALLOCATED,
    ASDF_ROW_USED,
    ASDF_ROW_STREAMED,
    ASDF_ROW_COMPRESSED,
    ASDF_ROW_CHECKSUM,
    ASDF_ROW_INNER
};

/* Reads a number from a buffer, in which `before` other numbers precede it. */
static inline uint64_t asdf_number(const uint8_t *buffer, size_t before)
{
    uint64_t number = 0;
    for (size_t byte = 0; byte < 8; byte++)
        number = number << 8 | buffer[8 * before + byte];
    return number;
}

/* Functions that read a file. Each of them refuses the file with 1 to 17 if it breaks a rule. */

/* Writes the layout of a file, in ASDF_LAYOUT_BYTES. Files inside its blocks are not read. */
uint64_t asdf_read(const uint8_t *file, size_t file_length, uint8_t *out, size_t out_length);

/* Writes the block with this ordinal, in ASDF_BLOCK_BYTES. If there is no such block, it writes nothing and returns 0.
 * Files inside the blocks are not read. */
uint64_t asdf_block(const uint8_t *file, size_t file_length, uint64_t ordinal, uint8_t *out, size_t out_length);

/* Returns how many rows a file has: one for each of its blocks and for each block of the files inside them. */
uint64_t asdf_count(const uint8_t *file, size_t file_length);

/* Writes the outline of a file, to be stored: ASDF_ROW_BYTES for each row. */
uint64_t asdf_outline(const uint8_t *file, size_t file_length, uint8_t *out, size_t out_length);

/* Writes the record of row `k`, counted from 0, in ASDF_RECORD_BYTES. If there is no such row, it writes nothing and
 * returns 0. Each call walks the file again; asdf_records writes all records in one call. */
uint64_t asdf_record(const uint8_t *file, size_t file_length, uint64_t k, uint8_t *out, size_t out_length);

/* Writes the records of all rows in walking order, in one call: ASDF_RECORD_BYTES for each. */
uint64_t asdf_records(const uint8_t *file, size_t file_length, uint8_t *out, size_t out_length);

/* Writes the text of a block index in brackets, to be placed directly after the last block: at most ASDF_LONGEST_INDEX
 * bytes. Its lines end as the file's header line does. Also refuses with 22 a file that cannot have an index. */
uint64_t asdf_index(const uint8_t *file, size_t file_length, uint8_t *out, size_t out_length);

/* Functions that read a stored outline. Each call judges all rows, and refuses the outline with 23 or 24 if it breaks a
 * rule. */

/* Returns how many rows a stored outline has. */
uint64_t asdf_stored_count(const uint8_t *stored, size_t stored_length);

/* Writes row `k` of a stored outline, counted from 0, in ASDF_STORED_ROW_BYTES. If there is no such row, it writes
 * nothing and returns 0. */
uint64_t asdf_stored_row(const uint8_t *stored, size_t stored_length, uint64_t k, uint8_t *out, size_t out_length);

/* Writes all stored_length / ASDF_ROW_BYTES rows of a stored outline, in one call: ASDF_STORED_ROW_BYTES for each. */
uint64_t asdf_stored_rows(const uint8_t *stored, size_t stored_length, uint8_t *out, size_t out_length);

/* Reads a stored outline and writes it again from its rows: the bytes are the same. */
uint64_t asdf_rewrite(const uint8_t *stored, size_t stored_length, uint8_t *out, size_t out_length);

/* Replaces the tree of a file by a text that is exactly one tree, and fills the rest of the room with spaces. Returns 0
 * if that is done. Refuses the file with 1 to 17, as the functions that read a file do, and the edit with 18 to 20. The
 * length of the file does not change. */
uint64_t asdf_edit(uint8_t *file, size_t file_length, const uint8_t *text, size_t text_length);

#ifdef __cplusplus
}
#endif

#endif
