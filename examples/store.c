/* Keeps the table of a recording in a file, from C:

       scripts/staticlib export export_listing export_stored
       cc -o store examples/store.c target/staticlib/libexport.a target/staticlib/libexport_listing.a target/staticlib/libexport_stored.a
       ./store gate.table 108 < examples/gate.sigmf-meta
       ./store gate.table < examples/gate.sigmf-meta

   With a number, the dataset's length in bytes, the metadata is read and its table stored in the file. In both cases the table is then loaded
   from the file and listed, with the labels of the metadata. Exit status: 0 listed, 1 refused (the number is on standard error), 2 no
   answer. */
#include <errno.h>
#include <stdio.h>
#include <stdlib.h>

#include "../crates/export_listing/export_listing.h"
#include "../crates/export_stored/export_stored.h"

/* The longest metadata, in bytes, and room for 1,024 captures, 1,024 annotations, their stored form and 61,440 bytes of output. */
enum { METADATA = 61440, ROWS = 4 * 1024, STORED = STORED_BYTES(2 * 1024), OUTPUT = 61440 };

static uint8_t text[METADATA + 1];
static uint64_t captures[ROWS], annotations[ROWS];
static uint8_t stored[STORED + 1];
static uint8_t output[OUTPUT];

/* A length: decimal digits alone, below 2^64. */
static int is_length(const char *word, uint64_t *length) {
    char *end;
    errno = 0;
    *length = strtoull(word, &end, 10);
    return word[0] >= '0' && word[0] <= '9' && *end == '\0' && errno == 0;
}

static int refuse(uint64_t number) {
    fprintf(stderr, "refused %u\n", (unsigned)number);
    return 1;
}

static int store(const char *name, size_t length, uint64_t d) {
    struct summary t = recording_read(text, length, d, captures, ROWS, annotations, ROWS);
    if (t.refusal != 0) {
        return refuse(t.refusal);
    }
    struct wrote w = table_store(t, captures, ROWS, annotations, ROWS, stored, STORED);
    if (w.refusal != 0) {
        return refuse(w.refusal);
    }
    FILE *file = fopen(name, "wb");
    if (file == NULL || fwrite(stored, 1, w.count, file) != w.count || fclose(file) != 0) {
        perror("store: the file could not be written");
        return 2;
    }
    return 0;
}

static int list(const char *name, size_t length) {
    FILE *file = fopen(name, "rb");
    size_t size = file == NULL ? 0 : fread(stored, 1, sizeof stored, file);
    if (file == NULL || ferror(file)) {
        perror("store: the file could not be read");
        return 2;
    }
    fclose(file);
    if (size > STORED) {
        fprintf(stderr, "store: the file is longer than 1,024 captures and 1,024 annotations are\n");
        return 2;
    }
    struct summary t = table_load(stored, size, captures, ROWS, annotations, ROWS);
    if (t.refusal != 0) {
        return refuse(t.refusal);
    }
    struct listed l = table_listing(t, captures, ROWS, annotations, ROWS, text, length, output, OUTPUT);
    if (l.refusal != 0) {
        return refuse(l.refusal);
    }
    if (fwrite(output, 1, l.bytes, stdout) != l.bytes || fflush(stdout) != 0) {
        perror("store: the listing could not be written");
        return 2;
    }
    return 0;
}

int main(int argc, char **argv) {
    uint64_t d = 0;
    if (argc != 2 && (argc != 3 || !is_length(argv[2], &d))) {
        fprintf(stderr, "usage: store FILE [LENGTH] < METADATA\n");
        return 2;
    }
    size_t length = fread(text, 1, sizeof text, stdin);
    if (ferror(stdin)) {
        perror("store: the metadata could not be read");
        return 2;
    }
    int status = argc == 3 ? store(argv[1], length, d) : 0;
    return status == 0 ? list(argv[1], length) : status;
}
