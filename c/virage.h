/*
 * virage in the same process: words and files in, the status and the two texts out. docs/C.md goes on.
 *
 * There is one call, and no state: nothing is kept between calls, and nothing has to be freed. So several threads may
 * call at once, each with buffers of its own.
 */
#ifndef VIRAGE_H
#define VIRAGE_H

#include <stddef.h>
#include <stdint.h>

/* The version of the library that this header is of. Its first number is that of the soname, libvirage.so.0. */
#define VIRAGE_VERSION_MAJOR 0
#define VIRAGE_VERSION_MINOR 1
#define VIRAGE_VERSION_PATCH 0
#define VIRAGE_VERSION "0.1.0"

#if defined(__GNUC__)
#define VIRAGE_NO_NULL __attribute__((nonnull))
#else
#define VIRAGE_NO_NULL
#endif

#ifdef __cplusplus
extern "C" {
#endif

/* What a call answers: the statuses of the program, each with what stands in the two texts then. */
enum virage_status {
    VIRAGE_DONE = 0,            /* out has the result, and err is empty */
    VIRAGE_DENIED = 1,          /* out has the negative answer, and err is empty */
    VIRAGE_USAGE_FAULT = 2,     /* the words are no command (err says so), or a word or a name isn't UTF-8 (no text) */
    VIRAGE_TEXT_REFUSED = 3,    /* a rule file, a certificate or a manifest has a fault, which err tells */
    VIRAGE_PROFILE_REFUSED = 4, /* a profile has a fault, which err tells */
    VIRAGE_READ_FAULT = 5,      /* a file that the words name isn't among those that were handed in */
    VIRAGE_WRITE_FAULT = 6,     /* memory was wanting while the result was written: out has the front of it */
    VIRAGE_OUT_OF_MEMORY = 7    /* memory was wanting before */
};

/* How many bytes a file's name has, and its content. */
typedef struct virage_file_sizes {
    size_t name;
    size_t content;
} virage_file_sizes;

/* How many bytes the two texts have, also where a buffer is too small for one. */
typedef struct virage_told {
    size_t out;
    size_t err;
} virage_told;

/*
 * Does what the words ask for with these files, and answers the status (enum virage_status).
 *
 * The caller owes this, and nothing else:
 * - No pointer is null, also where there are no bytes or no sizes. (The data() of an empty std::vector may be null:
 *   hand in the address of any byte then, with the length 0. It isn't read.)
 * - Behind each pointer there are at least as many sizes or bytes as the number that follows it says. What is handed
 *   in isn't written to during the call, and the buffers and `told` may be written.
 * - `out`, `err` and `told` overlap neither each other nor what is handed in.
 * - malloc, realloc and free of the process belong together, as those of the C library do.
 *
 * Words and files are taken from their bytes one behind another, each with as many bytes as its size says. Where the
 * bytes end before, the last ones are shorter or empty; so no size is ever a danger. Where two files have one name,
 * the first is the one that is read.
 *
 * As much of each text as fits is put into its buffer, and nothing behind it in the buffer is changed. Where a text is
 * longer than its buffer, another call with enough room gives the same texts whole, if memory isn't wanting in one of
 * the two calls.
 */
VIRAGE_NO_NULL
uint8_t virage_call(
    const size_t *word_sizes,            /* how many bytes each word has, as 5 for count */
    size_t word_count,                   /* how many words there are, the command's name among them */
    const char *words,                   /* the words, one behind another, with nothing between them */
    size_t words_size,                   /* how many bytes stand there */
    const virage_file_sizes *file_sizes, /* how many bytes the name and the content of each file have */
    size_t file_count,                   /* how many files there are */
    const char *files,                   /* the files, one behind another: a name, its content, the next name, .. */
    size_t files_size,                   /* how many bytes stand there */
    char *out,                           /* room for the text that the program writes to standard output */
    size_t out_room,                     /* how many bytes fit there; 0 will do, to learn how long the text is */
    char *err,                           /* room for the line that it writes to standard error */
    size_t err_room,                     /* how many bytes fit there */
    virage_told *told);                  /* where it is told how long both texts are */

#ifdef __cplusplus
}
#endif

#endif
