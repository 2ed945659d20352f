/*
 * Holds the header to what the proved call takes, on the one machine that it is built for: the sizes of its types, the
 * layout of its two records, its statuses and its parameters, one after another. It is compiled, and never run.
 */
#include "virage.h"

#include <limits.h>

_Static_assert(CHAR_BIT == 8, "a byte");
_Static_assert(sizeof(size_t) == 8 && sizeof(void *) == 8, "a length and an address");

/* `FileSizes` and `Told` of vir_c: two lengths each, in this order, with nothing between or behind */
_Static_assert(sizeof(virage_file_sizes) == 16 && _Alignof(virage_file_sizes) == 8, "the sizes of a file");
#define IS_LENGTH(record, field) _Generic(((record *)0)->field, size_t: 1, default: 0)
_Static_assert(IS_LENGTH(virage_file_sizes, name) && IS_LENGTH(virage_file_sizes, content), "lengths");
_Static_assert(IS_LENGTH(virage_told, out) && IS_LENGTH(virage_told, err), "lengths");
_Static_assert(offsetof(virage_file_sizes, name) == 0, "the size of a name");
_Static_assert(offsetof(virage_file_sizes, content) == 8, "the size of a content");
_Static_assert(sizeof(virage_told) == 16 && _Alignof(virage_told) == 8, "what is told");
_Static_assert(offsetof(virage_told, out) == 0, "the length of the text");
_Static_assert(offsetof(virage_told, err) == 8, "the length of the line");

_Static_assert(VIRAGE_DONE == 0 && VIRAGE_DENIED == 1 && VIRAGE_USAGE_FAULT == 2 && VIRAGE_TEXT_REFUSED == 3,
               "statuses");
_Static_assert(VIRAGE_PROFILE_REFUSED == 4 && VIRAGE_READ_FAULT == 5 && VIRAGE_WRITE_FAULT == 6 &&
                   VIRAGE_OUT_OF_MEMORY == 7,
               "statuses");

/* a slice of the export is an address and a number: word_sizes, words, file_sizes, files, out, err; and told */
typedef uint8_t exported(const size_t *, size_t, const char *, size_t, const virage_file_sizes *, size_t, const char *,
                         size_t, char *, size_t, char *, size_t, virage_told *);
_Static_assert(_Generic(&virage_call, exported *: 1, default: 0), "the parameters of the call");
