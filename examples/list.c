/* Lists a recording from C:

       scripts/staticlib export export_listing
       cc -o list examples/list.c target/staticlib/libexport.a target/staticlib/libexport_listing.a
       ./list 108 < examples/gate.sigmf-meta

   The number is the dataset's length in bytes. Exit status: 0 listed, 1 refused (the number is on standard error), 2 no answer. */
#include <errno.h>
#include <stdio.h>
#include <stdlib.h>

#include "../crates/export_listing/export_listing.h"

/* The longest metadata, in bytes, and room for 1,024 captures, 1,024 annotations and 61,440 bytes of output. */
enum { METADATA = 61440, ROWS = 4 * 1024, OUTPUT = 61440 };

static uint8_t text[METADATA + 1];
static uint64_t captures[ROWS], annotations[ROWS];
static uint8_t output[OUTPUT];

/* A length: decimal digits alone, below 2^64. */
static int is_length(const char *word, uint64_t *length) {
    char *end;
    errno = 0;
    *length = strtoull(word, &end, 10);
    return word[0] >= '0' && word[0] <= '9' && *end == '\0' && errno == 0;
}

static int refuse(uint64_t number) {
    fprintf(stderr, "refused %u\n", (unsigned)number);
    return 1;
}

int main(int argc, char **argv) {
    uint64_t d;
    if (argc != 2 || !is_length(argv[1], &d)) {
        fprintf(stderr, "usage: list LENGTH < METADATA\n");
        return 2;
    }
    size_t length = fread(text, 1, sizeof text, stdin);
    if (ferror(stdin)) {
        perror("list: the metadata could not be read");
        return 2;
    }
    struct summary t = recording_read(text, length, d, captures, ROWS, annotations, ROWS);
    if (t.refusal != 0) {
        return refuse(t.refusal);
    }
    struct listed l = table_listing(t, captures, ROWS, annotations, ROWS, text, length, output, OUTPUT);
    if (l.refusal != 0) {
        return refuse(l.refusal);
    }
    if (fwrite(output, 1, l.bytes, stdout) != l.bytes || fflush(stdout) != 0) {
        perror("list: the listing could not be written");
        return 2;
    }
    return 0;
}
