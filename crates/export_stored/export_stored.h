/* Tables kept in files: libexport_stored.a, which `scripts/staticlib export_stored` writes to target/staticlib/. What export.h says of every
   call holds here too; 21 and 22 are request P5's numbers of refusal.

   The stored form: the mark `SGT`, the version 1 in two bytes, the twelve numbers of the summary in its order, the capture rows, the
   annotation rows, nothing after. Each of these numbers has eight bytes, and all are little-endian. Labels and sample rate stay in the
   metadata: keep it beside the file. */
#ifndef EXPORT_STORED_H
#define EXPORT_STORED_H

#include "../export/export.h"

#ifdef __cplusplus
extern "C" {
#endif

/* How many bytes a table has in the stored form, by its captures and annotations together: the room that table_store needs. */
#define STORED_BYTES(rows) (101 + 32 * (rows))

/* Stores a table to `out`; the count is how many bytes it has. 18: the table is not well formed. 20: `out` is too short. */
struct wrote table_store(struct summary t, const uint64_t *caps, size_t caps_len, const uint64_t *notes, size_t notes_len, uint8_t *out,
                         size_t out_len);

/* Loads the table stored in `file`: its summary, its capture rows into `caps`, its annotation rows into `notes`. The three memories do
   not overlap. Any bytes get an answer, and the first of these that holds is the refusal:
   21: `file` does not begin with mark and version.
   22: it is too short for the summary, or does not have the length that the counts of captures and annotations give.
   18: the table, with the rows in `file`, is not well formed.
   20: `caps` or `notes` is too short for the rows, four numbers each. */
struct summary table_load(const uint8_t *file, size_t file_len, uint64_t *caps, size_t caps_len, uint64_t *notes, size_t notes_len);

#ifdef __cplusplus
}
#endif

#endif
