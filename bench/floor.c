/* The system calls that the protocol needs, and nothing else: a number of stores, in commits of a size, over a number of pages.
 *
 *     floor FILE STORES BATCH PAGES [KEPT]
 *
 * A commit closes after BATCH stores, or if more than 28 pages have changed. It writes a segment's index and its bodies in one
 * call, syncs, opens the gate and syncs. A commit that finds eight segments open first writes each changed page home once, in order,
 * neighbours in one call, syncs, and closes the eight gates with a sync each. It prints the seconds that this took.
 *
 * With KEPT it reads too: each page that a commit changes, the first KEPT of them only once, and, before homes are written, the bodies of
 * each segment that has the newest of a page, in one call.
 */
#include <fcntl.h>
#include <stdio.h>
#include <stdlib.h>
#include <string.h>
#include <time.h>
#include <unistd.h>

enum { BLOCK = 4096, SEGMENT = 162, BODIES = 160, SEGMENTS = 8, MOST_STAGED = 28, FIRST_FRAME = 2599 };

static unsigned char blocks[BODIES + 1][BLOCK], run[BODIES][BLOCK];

static int file;

static void put(const void *bytes, size_t count, long block) {
    if (pwrite(file, bytes, count * BLOCK, block * BLOCK) != (ssize_t)(count * BLOCK)) exit(1);
}

static void take(void *bytes, size_t count, long block) {
    if (pread(file, bytes, count * BLOCK, block * BLOCK) != (ssize_t)(count * BLOCK)) exit(1);
}

static void make_sure(void) {
    if (fdatasync(file) != 0) exit(1);
}

/* Which pages are kept, how many they are, and how many may be. */
static char *is_kept;

static long kept, most;

/* Uses a page, which is kept if there is room. Whether it was kept. */
static int use(long page) {
    if (is_kept[page]) return 1;
    if (kept < most) is_kept[page] = 1, kept++;
    return 0;
}

int main(int count, char **words) {
    if (count != 5 && count != 6) return 2;
    file = open(words[1], O_RDWR | O_CREAT, 0644);
    long stores = atol(words[2]), batch = atol(words[3]), pages = atol(words[4]);
    long list[MOST_STAGED + 1], newest[SEGMENTS] = {0}, bodies[SEGMENTS], segment = 0, done = 0;
    char *is_staged = calloc(pages, 1), *waits = calloc(pages, 1);
    is_kept = calloc(pages, 1), most = count == 6 ? atol(words[5]) : 0;
    /* Memory that was never written is one page of zeros, which no program with blocks of its own has. */
    memset(blocks, 1, sizeof blocks), memset(run, 1, sizeof run);
    struct timespec begun, ended;
    clock_gettime(CLOCK_MONOTONIC, &begun);
    while (done < stores) {
        long staged = 0;
        for (long lines = 0; lines < batch && done < stores && staged <= MOST_STAGED; lines++, done++) {
            long page = done * 7 % pages;
            if (is_staged[page]) continue;
            is_staged[page] = 1, list[staged++] = page;
            if (most && !use(page)) take(blocks[staged], 1, FIRST_FRAME + page);
        }
        if (segment == SEGMENTS) {
            for (segment = 0; segment < SEGMENTS; segment++)
                if (most && newest[segment]) take(run, bodies[segment], 4 + SEGMENT * segment);
            for (long page = 0; page < pages; page++) {
                long first = page;
                while (page < pages && waits[page] && page - first < BODIES) waits[page++] = 0;
                if (page > first) put(run, page - first, FIRST_FRAME + first), page--;
            }
            make_sure();
            for (segment = 0; segment < SEGMENTS; segment++) put(run, 1, 2 + SEGMENT * segment), make_sure(), newest[segment] = 0;
            segment = 0;
        }
        put(blocks, staged + 1, 3 + SEGMENT * segment);
        make_sure();
        put(run, 1, 2 + SEGMENT * segment);
        make_sure();
        bodies[segment] = staged;
        while (staged > 0) {
            long page = list[--staged];
            is_staged[page] = 0;
            if (waits[page]) newest[waits[page] - 1]--;
            waits[page] = ++newest[segment] > 0 ? segment + 1 : 0;
        }
        segment++;
    }
    clock_gettime(CLOCK_MONOTONIC, &ended);
    printf("%.6f\n", (double)(ended.tv_sec - begun.tv_sec) + (double)(ended.tv_nsec - begun.tv_nsec) / 1e9);
    return 0;
}
