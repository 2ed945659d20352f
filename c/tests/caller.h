/* What the tests of the library share: words and files of a command line, gathered for calls. */
#ifndef CALLER_H
#define CALLER_H

#include "virage.h"

/* What is handed to a call. */
struct handed {
    size_t *word_sizes;
    size_t word_count;
    char *words;
    size_t words_size;
    virage_file_sizes *file_sizes;
    size_t file_count;
    char *files;
    size_t files_size;
};

/* Takes names of files up to a word `--`, and behind it the words of the call. Ends the process where it can't. */
struct handed gather(int argc, char **argv);

void let_go(struct handed *handed);

/* A call with what is handed, and these buffers. */
uint8_t call(const struct handed *handed, char *out, size_t out_room, char *err, size_t err_room, virage_told *told);

/* So many bytes, of which exactly these may be touched; ends the process where there is no memory. */
char *room_of(size_t size);

#endif
