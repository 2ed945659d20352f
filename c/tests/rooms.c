/*
 * Calls with buffers of every size from 0 to some bytes more than the whole texts: rooms FILE.. -- WORD..
 *
 * Each buffer stands at the end of what was taken for it, so that a byte too many is seen by the address sanitizer;
 * and what stands in it behind the text has to stay as it was.
 */
#include <stdio.h>
#include <stdlib.h>
#include <string.h>

#include "caller.h"

enum { MARK = '~', MORE = 3 };

/* Whether so many bytes stand in the buffer as fit of the text, and marks behind them. */
static int is_told(const char *room, size_t size, const char *text, size_t text_size) {
    size_t front = size < text_size ? size : text_size, i;
    if (memcmp(room, text, front) != 0) return 0;
    for (i = front; i < size; i++) {
        if (room[i] != MARK) return 0;
    }
    return 1;
}

/* Whether a call with buffers of these sizes tells the texts. */
static int tells(const struct handed *handed, size_t out_size, size_t err_size, uint8_t status,
                 const virage_told *told, const char *out, const char *err) {
    char *out_room = room_of(out_size), *err_room = room_of(err_size);
    virage_told now = {~(size_t)0, ~(size_t)0};
    uint8_t same;
    int well;
    memset(out_room, MARK, out_size);
    memset(err_room, MARK, err_size);
    same = call(handed, out_room, out_size, err_room, err_size, &now);
    well = same == status && now.out == told->out && now.err == told->err &&
           is_told(out_room, out_size, out, told->out) && is_told(err_room, err_size, err, told->err);
    free(out_room);
    free(err_room);
    return well;
}

int main(int argc, char **argv) {
    struct handed handed = gather(argc, argv);
    virage_told told;
    char *out = room_of(1 << 20), *err = room_of(1 << 20);
    uint8_t status = call(&handed, out, 1 << 20, err, 1 << 20, &told);
    size_t size, calls = 0, wrong = 0;
    for (size = 0; size <= told.out + MORE; size++, calls++) {
        wrong += !tells(&handed, size, told.err, status, &told, out, err);
    }
    for (size = 0; size <= told.err + MORE; size++, calls++) {
        wrong += !tells(&handed, told.out, size, status, &told, out, err);
    }
    printf("%zu calls, %zu wrong\n", calls, wrong);
    free(out);
    free(err);
    let_go(&handed);
    return wrong != 0;
}
