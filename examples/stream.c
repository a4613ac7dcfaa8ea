/* Judges the JSON text on standard input as it arrives, from C:

       scripts/staticlib export_stream
       cc -o stream examples/stream.c target/staticlib/libexport_stream.a
       { printf '[1,]'; sleep 5; printf '2]'; } | ./stream

   What each read gives is a chunk. It stops at the first chunk with which the text is lost, and prints at which byte, counted from 1, no continuation
   meets the JSON rules or the text is too long, and how many bytes were read. At the end of the input it prints the answer. Exit status:
   0 passed, 1 refused or lost (on standard error), 2 no answer. */
#define _POSIX_C_SOURCE 200809L
#include <stdio.h>
#include <unistd.h>

#include "../crates/export_stream/export_stream.h"

/* The most bytes of a chunk. */
enum { CHUNK = 4096 };

static uint8_t chunk[CHUNK];

/* The byte at which the text is lost: the chunk is fed again, a byte at a time, from the state before it. */
static size_t lost_at(struct json_state st, size_t length) {
    for (size_t i = 0; i < length; i++) {
        struct json_fed fed = json_feed(st, chunk + i, 1);
        st = fed.state;
        if (fed.lost) {
            break;
        }
    }
    return st.count;
}

static int answer(struct json_state st) {
    uint64_t refusal = json_finish(st);
    if (refusal != 0) {
        fprintf(stderr, "refused %u\n", (unsigned)refusal);
        return 1;
    }
    if (printf("passed\n") < 0 || fflush(stdout) != 0) {
        perror("stream: the answer could not be written");
        return 2;
    }
    return 0;
}

int main(int argc, char **argv) {
    (void)argv;
    if (argc != 1) {
        fprintf(stderr, "usage: stream < TEXT\n");
        return 2;
    }
    struct json_state st = json_fresh();
    size_t total = 0;
    ssize_t length;
    while ((length = read(STDIN_FILENO, chunk, sizeof chunk)) > 0) {
        struct json_fed fed = json_feed(st, chunk, (size_t)length);
        total += (size_t)length;
        if (fed.lost) {
            fprintf(stderr, "lost at byte %zu of %zu read\n", lost_at(st, (size_t)length), total);
            return 1;
        }
        st = fed.state;
    }
    if (length < 0) {
        perror("stream: the text could not be read");
        return 2;
    }
    return answer(st);
}
