/* The metadata of a table in libexport_writer.a, which `scripts/staticlib export_writer` writes to target/staticlib/.
   What export.h says of every call holds here too. */
#ifndef EXPORT_WRITER_H
#define EXPORT_WRITER_H

#include "../export/export.h"

#ifdef __cplusplus
extern "C" {
#endif

/* The metadata of a table, such as a cut's, as JSON text. Labels and sample rate are copied from the metadata `text` that they stand
   in: for a cut, that of the recording it was cut from. Reading it with the table's size gives the table back: only the places of
   texts differ. 18 also where a label does not stand in `text`, or the sample rate is not inside it or not one JSON number; 20: `out`
   is too short, or the text would be longer than 61,440 bytes. */
struct wrote table_metadata(struct summary t, const uint64_t *caps, size_t caps_len, const uint64_t *notes, size_t notes_len,
                            const uint8_t *text, size_t text_len, uint8_t *out, size_t out_len);

#ifdef __cplusplus
}
#endif

#endif
