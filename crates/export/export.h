/* The judge, the reader and the functions on tables in libexport.a, which `scripts/staticlib export` writes to target/staticlib/. Numbers of
   refusal are document 01's, 13 as request P3 amends it: an extension is listed with `optional` false; 9 is a datatype that is none of
   those below.

   In every call: each `_len` is that of the memory at the pointer before it, in bytes or numbers; no pointer is null, even where the
   length is 0; nobody writes the memory meanwhile, and memory that a call writes overlaps none of the rest. Output is written from the
   front. After a refusal every other number of the answer is 0 and all memory has its old content.

   A table is a `struct summary` with `caps`, its capture rows, and `notes`, its annotation rows, four numbers a row. It need not come
   from recording_read: every call judges it, and answers 18 where it is not well formed. */
#ifndef EXPORT_H
#define EXPORT_H

#include <stddef.h>
#include <stdint.h>

#ifdef __cplusplus
extern "C" {
#endif

/* The twelve numbers of a table. `datatype` is a code: 0 to 11 are rf32_le, rf32_be, ri32_le, ri32_be, ri16_le, ri16_be, ru32_le, ru32_be,
   ru16_le, ru16_be, ri8, ru8; 12 to 23 the same with c for r; 24 to 27 are rf64_le, rf64_be, cf64_le, cf64_be. `width` is W, the bytes of a
   sample in all channels, at most 16,384. */
struct summary {
    uint64_t refusal;
    uint64_t datatype;
    uint64_t channels;
    uint64_t width;
    uint64_t offset;
    uint64_t trailing;
    uint64_t samples;
    uint64_t size;
    uint64_t captures;
    uint64_t annotations;
    uint64_t rate;
    uint64_t ratelen;
};

/* The byte at which a sample starts. */
struct located {
    uint64_t refusal;
    uint64_t byte;
};

/* How many pieces or bytes were written. */
struct wrote {
    uint64_t refusal;
    uint64_t count;
};

/* Judges a text. Takes up to 108 KB of stack (105,000 bytes measured), whatever the length, and no other memory.
   0: good.
   2: not one JSON value in valid UTF-8, or nested beyond 32.
   3: some object, however deep, has a name twice or more than 256 members. */
uint32_t json_judge(const uint8_t *text, size_t text_len);

/* Reads the metadata `text` of a recording whose dataset has `d` bytes: its summary, its capture rows into `rows`, its annotation rows
   into `notes`. Refuses with 1 to 17 or 20 (too little memory). Takes up to 182 KB of stack (179,112 bytes
   measured), whatever the length, and no other memory. */
struct summary recording_read(const uint8_t *text, size_t text_len, uint64_t d, uint64_t *rows, size_t rows_len, uint64_t *notes,
                              size_t notes_len);

/* Where sample `i` starts. 19: it is not in the recording. */
struct located table_locate(struct summary t, const uint64_t *caps, size_t caps_len, const uint64_t *notes, size_t notes_len,
                            uint64_t i);

/* The pieces of samples `a` to `b`: two numbers each, the first byte and the number of bytes. 19: the range is not inside the
   recording, or a > b. 20: `out` is too short. */
struct wrote table_pieces(struct summary t, const uint64_t *caps, size_t caps_len, const uint64_t *notes, size_t notes_len, uint64_t a,
                          uint64_t b, uint64_t *out, size_t out_len);

/* The table of samples `a` to `b`: its summary, its rows into `capto` and `noteto`. 19 and 20 as for the pieces. */
struct summary table_cut(struct summary t, const uint64_t *caps, size_t caps_len, const uint64_t *notes, size_t notes_len, uint64_t a,
                         uint64_t b, uint64_t *capto, size_t capto_len, uint64_t *noteto, size_t noteto_len);

/* Copies the bytes of samples `a` to `b` from the dataset `bytes` to `out`. 18 also where the table's size is not `bytes_len`;
   19 and 20 as for the pieces. */
struct wrote table_copy(struct summary t, const uint64_t *caps, size_t caps_len, const uint64_t *notes, size_t notes_len,
                        const uint8_t *bytes, size_t bytes_len, uint64_t a, uint64_t b, uint8_t *out, size_t out_len);

#ifdef __cplusplus
}
#endif

#endif
