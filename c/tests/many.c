/*
 * Calls as often as the first word says, in as many threads as the second says, and looks at the memory that the
 * process holds after each thousandth: many CALLS THREADS FILE.. -- WORD..
 */
#include <pthread.h>
#include <stdio.h>
#include <stdlib.h>
#include <string.h>
#include <unistd.h>

#include "caller.h"

static struct handed handed;
static char text[65536];
static virage_told wanted;
static uint8_t status;
static long calls_of_each;

/* The bytes that the process holds. */
static long held(void) {
    long all = 0, here = 0;
    FILE *file = fopen("/proc/self/statm", "r");
    if (file == NULL || fscanf(file, "%ld %ld", &all, &here) != 2) exit(99);
    fclose(file);
    return here * sysconf(_SC_PAGESIZE);
}

static void *call_often(void *wrong) {
    char *out = room_of(sizeof text), err[256];
    virage_told told;
    long i;
    for (i = 0; i < calls_of_each; i++) {
        uint8_t now = call(&handed, out, sizeof text, err, sizeof err, &told);
        *(long *)wrong += now != status || told.out != wanted.out || memcmp(out, text, told.out) != 0;
    }
    free(out);
    return NULL;
}

/* Calls in that many threads, and answers how many calls answered otherwise than the first. */
static long call_in(long threads) {
    pthread_t *all = calloc(threads, sizeof *all);
    long *wrong = calloc(threads, sizeof *wrong), sum = 0, i;
    if (all == NULL || wrong == NULL) exit(99);
    for (i = 0; i < threads; i++) {
        if (pthread_create(&all[i], NULL, call_often, &wrong[i]) != 0) exit(99);
    }
    for (i = 0; i < threads; i++) {
        pthread_join(all[i], NULL);
        sum += wrong[i];
    }
    free(all);
    free(wrong);
    return sum;
}

int main(int argc, char **argv) {
    long calls = argc > 3 ? atol(argv[1]) : 0, threads = argc > 3 ? atol(argv[2]) : 0, wrong, before, grown;
    char err[256];
    if (calls < 1000 || threads < 1) return 2;
    handed = gather(argc - 2, argv + 2);
    status = call(&handed, text, sizeof text, err, sizeof err, &wanted);
    if (wanted.out > sizeof text) return 2;
    /* (what the allocator keeps for itself and for each thread is there after these) */
    calls_of_each = 1000;
    wrong = call_in(threads);
    before = held();
    calls_of_each = calls / threads;
    wrong += call_in(threads);
    grown = held() - before;
    printf("%ld calls in %ld threads, %ld wrong, %ld KiB more than before\n", calls_of_each * threads, threads, wrong,
           grown / 1024);
    let_go(&handed);
    return wrong != 0 || grown > 1 << 20;
}
