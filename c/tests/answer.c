/* Answers as the program does: answer FILE.. -- WORD..; the words may name the files, and no others are read. */
#include <stdio.h>
#include <stdlib.h>

#include "caller.h"

int main(int argc, char **argv) {
    struct handed handed = gather(argc, argv);
    virage_told told, again;
    char *out = room_of(0), *err = room_of(0);
    uint8_t status = call(&handed, out, 0, err, 0, &told), same;
    free(out);
    free(err);
    out = room_of(told.out);
    err = room_of(told.err);
    same = call(&handed, out, told.out, err, told.err, &again);
    if (same != status || again.out != told.out || again.err != told.err) {
        /* memory may be wanting in the one call and not in the other */
        fputs("the second call answers otherwise\n", stderr);
        return same == 7 || status == 7 || same == 6 || status == 6 ? 7 : 98;
    }
    fwrite(out, 1, told.out, stdout);
    fwrite(err, 1, told.err, stderr);
    free(out);
    free(err);
    let_go(&handed);
    return status;
}
