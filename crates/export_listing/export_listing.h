/* The label of an annotation and the listing in libexport_listing.a, which `scripts/staticlib export_listing` writes to target/staticlib/.
   What export.h says of every call holds here too. */
#ifndef EXPORT_LISTING_H
#define EXPORT_LISTING_H

#include "../export/export.h"

#ifdef __cplusplus
extern "C" {
#endif

/* How many bytes were written. */
struct listed {
    uint64_t refusal;
    uint64_t bytes;
};

/* 1 where there is a label, which may be empty, and the place and length of its raw text in the metadata; else zeros. */
struct labelled {
    uint64_t refusal;
    uint64_t present;
    uint64_t label;
    uint64_t labellen;
};

/* The label of annotation `n`, counted from 0, in the metadata `text`. 18 also where the label does not stand there; 19: there is no
   such annotation. */
struct labelled table_label(struct summary t, const uint64_t *caps, size_t caps_len, const uint64_t *notes, size_t notes_len,
                            const uint8_t *text, size_t text_len, uint64_t n);

/* The listing, with the labels of the metadata `text`. 18 also where a label does not stand there; 20: `out` is too short. */
struct listed table_listing(struct summary t, const uint64_t *caps, size_t caps_len, const uint64_t *notes, size_t notes_len,
                            const uint8_t *text, size_t text_len, uint8_t *out, size_t out_len);

#ifdef __cplusplus
}
#endif

#endif
