/* Writes the metadata of a cut from C:

       scripts/staticlib export export_writer
       cc -o cut examples/cut.c target/staticlib/libexport.a target/staticlib/libexport_writer.a
       ./cut 108 4 12 < examples/gate.sigmf-meta

   The numbers are the dataset's length in bytes and the samples of the cut, from the first up to the second. Exit status: 0 written, 1
   refused (the number is on standard error), 2 no answer. */
#include <errno.h>
#include <stdio.h>
#include <stdlib.h>

#include "../crates/export_writer/export_writer.h"

/* The longest metadata, in bytes, and room for 1,024 captures and 1,024 annotations. */
enum { METADATA = 61440, ROWS = 4 * 1024 };

static uint8_t text[METADATA + 1];
static uint64_t captures[ROWS], annotations[ROWS], cut_captures[ROWS], cut_annotations[ROWS];
static uint8_t output[METADATA];

/* A whole number: decimal digits alone, below 2^64. */
static int is_whole(const char *word, uint64_t *number) {
    char *end;
    errno = 0;
    *number = strtoull(word, &end, 10);
    return word[0] >= '0' && word[0] <= '9' && *end == '\0' && errno == 0;
}

static int refuse(uint64_t number) {
    fprintf(stderr, "refused %u\n", (unsigned)number);
    return 1;
}

int main(int argc, char **argv) {
    uint64_t d, a, b;
    if (argc != 4 || !is_whole(argv[1], &d) || !is_whole(argv[2], &a) || !is_whole(argv[3], &b)) {
        fprintf(stderr, "usage: cut LENGTH FIRST END < METADATA\n");
        return 2;
    }
    size_t length = fread(text, 1, sizeof text, stdin);
    if (ferror(stdin)) {
        perror("cut: the metadata could not be read");
        return 2;
    }
    struct summary t = recording_read(text, length, d, captures, ROWS, annotations, ROWS);
    if (t.refusal != 0) {
        return refuse(t.refusal);
    }
    struct summary c = table_cut(t, captures, ROWS, annotations, ROWS, a, b, cut_captures, ROWS, cut_annotations, ROWS);
    if (c.refusal != 0) {
        return refuse(c.refusal);
    }
    struct wrote w = table_metadata(c, cut_captures, ROWS, cut_annotations, ROWS, text, length, output, METADATA);
    if (w.refusal != 0) {
        return refuse(w.refusal);
    }
    if (fwrite(output, 1, w.count, stdout) != w.count || fflush(stdout) != 0) {
        perror("cut: the metadata could not be written");
        return 2;
    }
    return 0;
}
