/* The lookup of member names in libexport_names.a, which `scripts/staticlib export_names` writes to target/staticlib/. */
#ifndef EXPORT_NAMES_H
#define EXPORT_NAMES_H

#include <stddef.h>
#include <stdint.h>

#ifdef __cplusplus
extern "C" {
#endif

/* The number of a core field, from 0 in document 01's order for its kind of object; how many there are (20, 6 or 10) if the name is
   none of theirs. And how many core names were compared with it byte for byte: all of that kind that have the length of the decoded
   name, and no others. */
struct name_lookup {
    size_t number;
    size_t compared;
};

/* The field of the global object, of a capture or of an annotation that a member's name is. `name` is the raw name between its quotes, with
   its escapes; it is compared decoded. Any bytes get an answer: a bare quote ends the name, and a backslash that begins no escape
   stands for itself. The pointer is not null, even where the length is 0, and nobody writes the memory meanwhile. */
struct name_lookup global_lookup(const uint8_t *name, size_t name_len);
struct name_lookup capture_lookup(const uint8_t *name, size_t name_len);
struct name_lookup annotation_lookup(const uint8_t *name, size_t name_len);

#ifdef __cplusplus
}
#endif

#endif
