/*
 * Counts a profile with a voting rule, as `virage count RULE PROFILE` does, in this process: count RULE PROFILE
 *
 *   cc -O2 -o count count.c $(pkg-config --cflags --libs virage)
 */
#include <stdio.h>
#include <stdlib.h>
#include <string.h>

#include "virage.h"

/* Bytes that grow at their end. */
struct bytes {
    char *at;
    size_t size;
    size_t room;
};

/* Makes room for so many bytes more, and answers whether it could. There is some room afterwards in any case. */
static int make_room(struct bytes *bytes, size_t more) {
    size_t wanted = bytes->size + more + 1;
    if (wanted > bytes->room) {
        char *at = realloc(bytes->at, 2 * wanted);
        if (at == NULL) return 0;
        bytes->at = at;
        bytes->room = 2 * wanted;
    }
    return 1;
}

/* Appends a file: its name, and what stands in it. */
static int append_file(struct bytes *files, virage_file_sizes *sizes, const char *name) {
    FILE *file = fopen(name, "rb");
    size_t count;
    if (file == NULL || !make_room(files, strlen(name))) return 0;
    sizes->name = strlen(name);
    memcpy(files->at + files->size, name, sizes->name);
    files->size += sizes->name;
    sizes->content = 0;
    do {
        if (!make_room(files, 65536)) return 0;
        count = fread(files->at + files->size, 1, 65536, file);
        files->size += count;
        sizes->content += count;
    } while (count > 0);
    return !ferror(file) && !fclose(file);
}

int main(int argc, char **argv) {
    struct bytes files = {0}, words = {0}, out = {0};
    virage_file_sizes file_sizes[2];
    size_t word_sizes[3];
    char err[256];
    virage_told told;
    uint8_t status;
    int i;

    if (argc != 3) {
        fputs("usage: count RULE PROFILE\n", stderr);
        return VIRAGE_USAGE_FAULT;
    }
    /* the words are those of the program; each file's name is the word that stands for it */
    argv[0] = "count";
    for (i = 0; i < 3; i++) {
        word_sizes[i] = strlen(argv[i]);
        if (!make_room(&words, word_sizes[i])) return VIRAGE_OUT_OF_MEMORY;
        memcpy(words.at + words.size, argv[i], word_sizes[i]);
        words.size += word_sizes[i];
    }
    for (i = 0; i < 2; i++) {
        if (!append_file(&files, &file_sizes[i], argv[i + 1])) {
            perror(argv[i + 1]);
            return VIRAGE_READ_FAULT;
        }
    }
    if (!make_room(&out, 4096)) return VIRAGE_OUT_OF_MEMORY;
    for (;;) {
        status = virage_call(word_sizes, 3, words.at, words.size, file_sizes, 2, files.at, files.size, out.at, out.room,
                             err, sizeof err, &told);
        if (told.out <= out.room) break;
        /* the text is longer than the room for it */
        if (!make_room(&out, told.out)) return VIRAGE_OUT_OF_MEMORY;
    }
    fwrite(out.at, 1, told.out, stdout);
    fwrite(err, 1, told.err < sizeof err ? told.err : sizeof err, stderr);
    free(files.at);
    free(words.at);
    free(out.at);
    return status;
}
