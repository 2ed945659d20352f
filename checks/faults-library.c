/* Has each growth within a call of the library fail in turn: faults-library FILE.. -- WORD..; it is linked with
 * faults.c, which makes them fail. It prints how many failed, and ends with 1 where an answer isn't due: the right one;
 * status 7 with no text; status 6 with a front of it; or a refusal with a front of its line. */
#include <errno.h>
#include <stdio.h>
#include <string.h>

#include "caller.h"
#include "faults.h"

static const char LINE[] = "out of memory\n";

struct answer {
    uint8_t status;
    virage_told told;
    char *out, *err;
};

static int is_front(const char *text, size_t size, const char *of, size_t most) {
    return size <= most && memcmp(text, of, size) == 0;
}

static int is_due(const struct answer *right, const struct answer *got) {
    int same_out = got->told.out == right->told.out && is_front(got->out, got->told.out, right->out, right->told.out);
    int same_err = got->told.err == right->told.err && is_front(got->err, got->told.err, right->err, right->told.err);
    if (got->status == right->status && same_out && same_err) return 1;
    if (got->status == 6) return is_front(got->out, got->told.out, right->out, right->told.out);
    if (got->told.out != 0) return 0;
    if (got->status == 7) return is_front(got->err, got->told.err, LINE, sizeof LINE - 1);
    return got->status == right->status && is_front(got->err, got->told.err, right->err, right->told.err);
}

static struct answer answer_in(const struct handed *handed, size_t out_room, size_t err_room) {
    struct answer answer = {0, {0, 0}, room_of(out_room), room_of(err_room)};
    answer.status = call(handed, answer.out, out_room, answer.err, err_room, &answer.told);
    return answer;
}

int main(int argc, char **argv) {
    struct handed handed = gather(argc, argv);
    struct answer size = answer_in(&handed, 0, 0);
    size_t out_room = size.told.out + 64, err_room = size.told.err + 64;
    struct answer right = answer_in(&handed, out_room, err_room), got = answer_in(&handed, out_room, err_room);
    long at, failed = 0, wrong = 0;
    int on;
    for (on = 0; on <= 1; on++) {
        for (at = 1;; at++) {
            fault_begin(at, on, ENOMEM);
            got.status = call(&handed, got.out, out_room, got.err, err_room, &got.told);
            if (!fault_end()) break;
            failed++;
            if (!is_due(&right, &got)) {
                wrong++;
                printf("growth %ld: status %d, %zu bytes, a line of %zu\n", at, got.status, got.told.out, got.told.err);
            }
        }
        if (got.status != right.status || got.told.out != right.told.out) wrong++;
    }
    printf("%ld\n", failed);
    return wrong == 0 ? 0 : 1;
}
