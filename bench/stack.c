/* How much stack the judge and the reader take, at most, on texts of several kinds and lengths. A call runs on a stack of its own whose bytes all
   had one value; those that changed were used. From the repository's folder:

       scripts/staticlib export && cc -o stack bench/stack.c target/staticlib/libexport.a -lpthread && ./stack */
#define _GNU_SOURCE
#include <pthread.h>
#include <stdio.h>
#include <stdlib.h>
#include <string.h>
#include <sys/mman.h>

#include "../crates/export/export.h"

enum { STACK = 1 << 20, LONGEST = 61440, SHORT = 4096, PAINT = 0xA5, ROOM = 4 * 4096 };

static char text[LONGEST + 1];
static size_t text_len;
static uint64_t rows[ROOM], notes[ROOM];
static uint64_t answer;

static void *nothing(void *unused) { return unused; }

static void *judge(void *unused)
{
    answer = json_judge((const uint8_t *)text, text_len);
    return unused;
}

static void *read_recording(void *unused)
{
    answer = recording_read((const uint8_t *)text, text_len, 1 << 20, rows, ROOM, notes, ROOM).refusal;
    return unused;
}

/* the bytes of a fresh stack that a call changes */
static size_t used(void *(*call)(void *))
{
    pthread_t thread;
    pthread_attr_t attributes;
    unsigned char *stack = mmap(NULL, STACK, PROT_READ | PROT_WRITE, MAP_PRIVATE | MAP_ANONYMOUS, -1, 0);
    size_t lowest = 0;
    if (stack == MAP_FAILED)
        exit(2);
    memset(stack, PAINT, STACK);
    pthread_attr_init(&attributes);
    pthread_attr_setstack(&attributes, stack, STACK);
    if (pthread_create(&thread, &attributes, call, NULL) != 0)
        exit(2);
    pthread_join(thread, NULL);
    while (lowest < STACK && stack[lowest] == PAINT)
        lowest++;
    munmap(stack, STACK);
    return STACK - lowest;
}

/* a recording with as many of an item as fit, of which the first stands with no comma before it */
static void recording(size_t most, const char *annotation)
{
    int at = sprintf(text, "{\"global\":{\"core:datatype\":\"ru8\",\"core:version\":\"1.0.0\"},\"captures\":[{\"core:sample_start\":0}],\"annotations\":[");
    int first = at;
    while (at + strlen(annotation) + 3 <= most)
        at += sprintf(text + at, "%s%s", at == first ? "" : ",", annotation);
    text_len = at + sprintf(text + at, "]}");
}

static void report(const char *kind)
{
    size_t base = used(nothing);
    size_t judged = used(judge) - base, judge_answer = answer;
    size_t read = used(read_recording) - base;
    printf("%-16s %6zu bytes: judge %7zu (answer %zu), read %7zu (answer %llu)\n", kind, text_len, judged, judge_answer, read, (unsigned long long)answer);
}

int main(void)
{
    static const size_t lengths[] = {SHORT, LONGEST};
    char deep[1024] = "{\"core:sample_start\":0,\"a:b\":";
    memset(deep + strlen(deep), '[', 29);
    memset(deep + strlen(deep), ']', 29);
    strcat(deep, "}");
    for (int i = 0; i < 2; i++) {
        recording(lengths[i], "{\"core:sample_start\":0}");
        report("annotations");
        recording(lengths[i], "{\"core:sample_start\":0,\"core:label\":\"caf\\u00e9 \\ud83d\\udd11\"}");
        report("escaped labels");
        recording(lengths[i], deep);
        report("nested");
    }
    return 0;
}
