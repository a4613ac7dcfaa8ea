/* A JSON text judged as it arrives, chunk by chunk: libexport_stream.a, which `scripts/staticlib export_stream` writes to target/staticlib/. The
   text may be divided anywhere, inside a character or a number too, and chunks of no bytes are allowed. Nothing is kept but the state,
   which goes from call to call by value and may be stored in between.

   Judged are the length (1 to 61,440 bytes) and the JSON rules, refusals 1 and 2 of document 01. Names used twice (3) wait for the full
   read. */
#ifndef EXPORT_STREAM_H
#define EXPORT_STREAM_H

#include <stddef.h>
#include <stdint.h>

#ifdef __cplusplus
extern "C" {
#endif

/* The state between two chunks. It need not come from the last call: json_feed and json_finish judge it, and answer 18 where no chunks
   lead to it. There is one state for each situation.
   `place`: what may stand next, once the token has ended: 1 a value, 2 the first item of an array or object or its close, 3 the next
   item, 4 a colon, 5 what follows a value; 6 the text is lost.
   `token`: how far inside a token the text ended: 0 between tokens, 1 to 20 in a string, 21 to 28 in a number, 29 to 37 in a literal.
   `stack`: the open brackets: a 1, then from the outermost on a binary digit each, 0 for an array and 1 for an object.
   `count`: how many bytes there were, 61,441 where there were more than 61,440. */
struct json_state {
    uint64_t place;
    uint64_t token;
    uint64_t stack;
    size_t count;
};

/* The answer between chunks. `lost` is 1 where the text so far is too long or no continuation makes it JSON, and 0 where it is open. After
   a refusal `lost` and the state are zeros; such a state is itself refused. */
struct json_fed {
    uint64_t refusal;
    uint64_t lost;
    struct json_state state;
};

/* The state before the first chunk: 1 0 1 0. */
struct json_state json_fresh(void);

/* Takes one chunk more, of `chunk_len` bytes; `chunk` is not null, even where there are none. 18: no chunks lead to `st`. */
struct json_fed json_feed(struct json_state st, const uint8_t *chunk, size_t chunk_len);

/* After the last chunk, the answer for the text of all chunks, whatever the division:
   0: passed.
   1: the text is empty or longer than 61,440 bytes.
   2: not one JSON value in valid UTF-8, or nested beyond 32.
   18: no chunks lead to `st`. */
uint64_t json_finish(struct json_state st);

#ifdef __cplusplus
}
#endif

#endif
