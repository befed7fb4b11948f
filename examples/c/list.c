/* Lists an ASDF file: where the tree is, a line for each block, and the verdict on the index.
 *
 * The status is 0 if the file is accepted. If it is refused, the status is 1, and the number and the place of the
 * refusal are printed instead of the listing. If the file cannot be read or the listing cannot be written, the status
 * is 2, and a sentence on standard error says so. */
#define _POSIX_C_SOURCE 200809L /* C alone does not have SIGPIPE and EPIPE. */

#include "asdf_layout.h"

#include <errno.h>
#include <inttypes.h>
#include <signal.h>
#include <stdio.h>
#include <stdlib.h>

static const char *const VERDICTS[] = {"absent", "good", "ignored-form", "ignored-list"};

/* Reads a whole file into memory, which the caller has to free. Returns NULL if that fails. */
static uint8_t *read_file(const char *name, size_t *length)
{
    uint8_t *bytes = NULL;
    FILE *file = fopen(name, "rb");
    if (file == NULL)
        return NULL;
    if (fseek(file, 0, SEEK_END) == 0) {
        long end = ftell(file);
        rewind(file);
        *length = end < 0 ? 0 : (size_t)end;
        /* One byte more, because malloc(0) may return NULL, and an empty file is not a failure. */
        bytes = end < 0 ? NULL : malloc(*length + 1);
    }
    if (bytes != NULL && fread(bytes, 1, *length, file) != *length) {
        free(bytes);
        bytes = NULL;
    }
    fclose(file);
    return bytes;
}

/* Ends the output. `printed` is what the last printf returned, and `status` is the status if everything is written. */
static int finished(int printed, int status)
{
    /* printf may only have filled a buffer, so fflush has the last word. A reader that closes the pipe, as head does,
     * has read enough: that is no failure. */
    if ((printed >= 0 && fflush(stdout) == 0) || errno == EPIPE)
        return status;
    perror("list: cannot write to standard output");
    return 2;
}

/* Prints a refusal and returns the status for it. */
static int refused(uint64_t word)
{
    return finished(printf("refused %d %" PRIu64 "\n", ASDF_REFUSAL_NUMBER(word), ASDF_REFUSAL_PLACE(word)), 1);
}

/* The functions that print return a negative number if that fails, as printf does. */

/* Prints where the tree is. */
static int print_tree(const uint8_t *layout)
{
    if (asdf_number(layout, ASDF_LAYOUT_HAS_TREE) == 0)
        return printf("tree none\n");
    return printf("tree %" PRIu64 " %" PRIu64 "\n", asdf_number(layout, ASDF_LAYOUT_TREE_START),
                  asdf_number(layout, ASDF_LAYOUT_TREE_END));
}

/* Prints the line of a block. */
static int print_record(const uint8_t *record)
{
    const uint8_t *block = record + 8 * ASDF_RECORD_BLOCK;
    uint64_t checksum = asdf_number(block, ASDF_BLOCK_CHECKSUM_HIGH) | asdf_number(block, ASDF_BLOCK_CHECKSUM_LOW);
    return printf("%" PRIu64 " %" PRIu64 " %" PRIu64 " %" PRIu64 " %" PRIu64 " %" PRIu64 " %d %d %d %" PRIu64 "\n",
                  asdf_number(record, ASDF_RECORD_DEPTH), asdf_number(block, ASDF_BLOCK_ORDINAL),
                  asdf_number(record, ASDF_RECORD_OFFSET), asdf_number(block, ASDF_BLOCK_HEADER_SIZE),
                  asdf_number(block, ASDF_BLOCK_ALLOCATED), asdf_number(block, ASDF_BLOCK_USED),
                  (int)(asdf_number(block, ASDF_BLOCK_FLAGS) & 1), asdf_number(block, ASDF_BLOCK_COMPRESSION) != 0,
                  checksum != 0, asdf_number(record, ASDF_RECORD_INNER));
}

/* Prints a listing, with the lines of all blocks, including those of inner files. */
static int print_listing(const uint8_t *layout, const uint8_t *records, uint64_t count)
{
    int printed = print_tree(layout);
    for (uint64_t k = 0; printed >= 0 && k < count; k++)
        printed = print_record(records + k * ASDF_RECORD_BYTES);
    if (printed < 0)
        return printed;
    return printf("index %s\n", VERDICTS[asdf_number(layout, ASDF_LAYOUT_VERDICT)]);
}

/* Prints the listing of a file with these bytes, and returns the status. */
static int list(const uint8_t *file, size_t length)
{
    uint8_t layout[ASDF_LAYOUT_BYTES];
    uint64_t word = asdf_read(file, length, layout, sizeof layout);
    if (ASDF_IS_REFUSAL(word))
        return refused(word);
    uint64_t count = asdf_count(file, length);
    if (ASDF_IS_REFUSAL(count))
        return refused(count);

    /* An accepted file has fewer than 2^32 bytes, and a block at least 54. So this product is far below SIZE_MAX. */
    size_t size = count * ASDF_RECORD_BYTES;
    uint8_t *records = malloc(size + 1);
    if (records == NULL) {
        fprintf(stderr, "list: there is not enough memory for the records\n");
        return 2;
    }
    word = asdf_records(file, length, records, size);
    int status = ASDF_IS_REFUSAL(word) ? refused(word) : finished(print_listing(layout, records, count), 0);
    free(records);
    return status;
}

int main(int count, char **words)
{
    if (count != 2) {
        fprintf(stderr, "usage: list FILE\n");
        return 2;
    }
    /* Without this, a closed pipe would end the program. Now it makes printf or fflush fail with EPIPE. */
    signal(SIGPIPE, SIG_IGN);
    size_t length = 0;
    uint8_t *file = read_file(words[1], &length);
    if (file == NULL) {
        fprintf(stderr, "list: cannot read %s\n", words[1]);
        return 2;
    }
    int status = list(file, length);
    free(file);
    return status;
}
