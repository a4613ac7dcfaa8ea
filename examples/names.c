/* Looks up member names from C, one a line, raw as they stand between their quotes:

       scripts/staticlib export_names
       cc -o names examples/names.c target/staticlib/libexport_names.a
       printf '%s\n' core:label 'core:\u006cabel' core:gain | ./names

   For each kind of object it prints the number of the name's field, or how many fields there are, and how many names were compared
   byte for byte. Exit status: 0 looked up, 2 no answer. */
#define _POSIX_C_SOURCE 200809L
#include <stdio.h>

#include "../crates/export_names/export_names.h"

static void print(const char *object, struct name_lookup found, char end) {
    printf("%s %zu %zu%c", object, found.number, found.compared, end);
}

int main(int argc, char **argv) {
    (void)argv;
    if (argc != 1) {
        fprintf(stderr, "usage: names < NAMES\n");
        return 2;
    }
    char *line = NULL;
    size_t room = 0;
    ssize_t length;
    while ((length = getline(&line, &room, stdin)) > 0) {
        const uint8_t *name = (const uint8_t *)line;
        size_t name_len = (size_t)length - (line[length - 1] == '\n');
        print("global", global_lookup(name, name_len), ' ');
        print("capture", capture_lookup(name, name_len), ' ');
        print("annotation", annotation_lookup(name, name_len), '\n');
    }
    if (!feof(stdin)) {
        perror("names: the names could not be read");
        return 2;
    }
    if (fflush(stdout) != 0 || ferror(stdout)) {
        perror("names: the answers could not be written");
        return 2;
    }
    return 0;
}
