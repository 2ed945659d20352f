/* What the tests of the library share: words and files of a command line, gathered for calls. */
#include "caller.h"

#include <stdio.h>
#include <stdlib.h>
#include <string.h>

static void fail(const char *what) {
    perror(what);
    exit(99);
}

char *room_of(size_t size) {
    /* (an address is needed for no bytes too, and malloc may give none) */
    char *at = malloc(size == 0 ? 1 : size);
    if (at == NULL) fail("memory");
    return at;
}

/* Appends bytes to others, which are moved. */
static void append(char **all, size_t *size, const char *bytes, size_t count) {
    *all = realloc(*all, *size + count + 1);
    if (*all == NULL) fail("memory");
    memcpy(*all + *size, bytes, count);
    *size += count;
}

static size_t append_content(struct handed *handed, const char *name) {
    size_t before = handed->files_size, count;
    char piece[65536];
    FILE *file = fopen(name, "rb");
    if (file == NULL) fail(name);
    while ((count = fread(piece, 1, sizeof piece, file)) > 0) {
        append(&handed->files, &handed->files_size, piece, count);
    }
    if (ferror(file)) fail(name);
    fclose(file);
    return handed->files_size - before;
}

struct handed gather(int argc, char **argv) {
    struct handed handed = {0};
    int i;
    handed.word_sizes = calloc(argc, sizeof *handed.word_sizes);
    handed.file_sizes = calloc(argc, sizeof *handed.file_sizes);
    if (handed.word_sizes == NULL || handed.file_sizes == NULL) fail("memory");
    append(&handed.files, &handed.files_size, "", 0);
    append(&handed.words, &handed.words_size, "", 0);
    for (i = 1; i < argc && strcmp(argv[i], "--") != 0; i++) {
        virage_file_sizes *sizes = &handed.file_sizes[handed.file_count++];
        sizes->name = strlen(argv[i]);
        append(&handed.files, &handed.files_size, argv[i], sizes->name);
        sizes->content = append_content(&handed, argv[i]);
    }
    for (i++; i < argc; i++) {
        handed.word_sizes[handed.word_count] = strlen(argv[i]);
        append(&handed.words, &handed.words_size, argv[i], handed.word_sizes[handed.word_count++]);
    }
    return handed;
}

void let_go(struct handed *handed) {
    free(handed->word_sizes);
    free(handed->words);
    free(handed->file_sizes);
    free(handed->files);
}

uint8_t call(const struct handed *handed, char *out, size_t out_room, char *err, size_t err_room, virage_told *told) {
    return virage_call(handed->word_sizes, handed->word_count, handed->words, handed->words_size, handed->file_sizes,
                       handed->file_count, handed->files, handed->files_size, out, out_room, err, err_room, told);
}
