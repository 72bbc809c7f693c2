/* Pack a PAM picture with four bytes per texel into a plain .astc file, on all processors: as the
 * program's `pack` and `export` do, or with `fitted` as `part` and `join` do.
 *
 *     cc -O2 -pthread -I include examples/c/pack_threads.c crates/astc_c/out/libastc_tool.a \
 *         -o pack_threads
 *     ./pack_threads IN.pam OUT.astc 6x6 quick [THREADS [fitted]]
 *
 * If the library is installed, compile with `pkg-config --cflags --libs astc_tool` instead. A
 * counter hands the rows of blocks to the threads, some rows at a time. */
#include <pthread.h>
#include <stdatomic.h>
#include <stdio.h>
#include <stdlib.h>
#include <string.h>
#include <unistd.h>

#include "astc_tool.h"

static const uint8_t sides[14][2] = { { 4, 4 }, { 5, 4 }, { 5, 5 }, { 6, 5 }, { 6, 6 }, { 8, 5 }, { 8, 6 }, { 8, 8 }, { 10, 5 }, { 10, 6 },
    { 10, 8 }, { 10, 10 }, { 12, 10 }, { 12, 12 } };
static const char *const presets[] = { "flat", "quick", "medium", "thorough", "pairs" };

enum { MOST_THREADS = 256 };

/* What all threads share. */
struct work {
    uint32_t width, height, format, rows, columns, step;
    struct astc_options options;
    uint8_t *texels, *blocks;
    atomic_uint next;       /* the first row that nobody has taken */
    atomic_ullong error;    /* the sum of the errors so far */
    atomic_uint status;     /* of a call that failed */
};

/* Takes some rows after another until none is left. */
static void *run(void *given)
{
    struct work *work = given;
    for (;;) {
        uint32_t first = atomic_fetch_add(&work->next, work->step);
        if (first >= work->rows || atomic_load(&work->status) != ASTC_DONE)
            return NULL;
        uint32_t count = work->rows - first < work->step ? work->rows - first : work->step;
        struct astc_rows rows = { work->width, work->height, work->format, first, count };
        uint64_t error = 0;
        uint32_t status = astc_encode_rows(&rows, &work->options, work->texels, (size_t)work->width * work->height,
            work->blocks + (size_t)16 * first * work->columns, (size_t)count * work->columns, &error);
        if (status != ASTC_DONE)
            atomic_store(&work->status, status);
        atomic_fetch_add(&work->error, error);
    }
}

/* Reads a PAM picture of depth 4 and maximum 255; NULL where it is none. */
static uint8_t *read_pam(const char *name, uint32_t *width, uint32_t *height)
{
    FILE *file = fopen(name, "rb");
    char line[256];
    unsigned long depth = 0, maxval = 0, w = 0, h = 0;
    if (!file)
        return NULL;
    if (!fgets(line, sizeof line, file) || strcmp(line, "P7\n") != 0)
        goto wrong;
    while (fgets(line, sizeof line, file) && strcmp(line, "ENDHDR\n") != 0) {
        char *number = strchr(line, ' ');
        if (!number)
            continue;
        if (strncmp(line, "WIDTH ", 6) == 0) w = strtoul(number, NULL, 10);
        if (strncmp(line, "HEIGHT ", 7) == 0) h = strtoul(number, NULL, 10);
        if (strncmp(line, "DEPTH ", 6) == 0) depth = strtoul(number, NULL, 10);
        if (strncmp(line, "MAXVAL ", 7) == 0) maxval = strtoul(number, NULL, 10);
    }
    if (depth != 4 || maxval != 255 || w < 1 || w > 8192 || h < 1 || h > 8192)
        goto wrong;
    uint8_t *texels = malloc(4 * w * h);
    if (texels && fread(texels, 4, w * h, file) == w * h) {
        fclose(file);
        *width = (uint32_t)w;
        *height = (uint32_t)h;
        return texels;
    }
    free(texels);
wrong:
    fclose(file);
    return NULL;
}

/* Writes the header of a plain .astc file and its blocks; 0 where that went well. */
static int write_astc(const char *name, const struct work *work, uint32_t block_width, uint32_t block_height)
{
    uint32_t w = work->width, h = work->height;
    uint8_t header[16] = { 0x13, 0xAB, 0xA1, 0x5C, (uint8_t)block_width, (uint8_t)block_height, 1, (uint8_t)w, (uint8_t)(w >> 8), 0,
        (uint8_t)h, (uint8_t)(h >> 8), 0, 1, 0, 0 };
    size_t count = (size_t)work->rows * work->columns;
    FILE *file = fopen(name, "wb");
    if (!file)
        return 1;
    int failed = fwrite(header, 16, 1, file) != 1 || fwrite(work->blocks, 16, count, file) != count;
    return fclose(file) != 0 || failed;
}

/* Runs the work on this many threads; those that can't be started are done without. */
static void run_on(struct work *work, int threads)
{
    pthread_t started[MOST_THREADS];
    int count = 0;
    while (count + 1 < threads && pthread_create(&started[count], NULL, run, work) == 0)
        count++;
    run(work);
    while (count > 0)
        pthread_join(started[--count], NULL);
}

int main(int argc, char **argv)
{
    static struct work work;
    unsigned footprint = 0, preset = 0;
    char word[16];
    if (argc < 5) {
        fprintf(stderr, "pack_threads IN.pam OUT.astc FOOTPRINT PRESET [THREADS [fitted]]\n");
        return 2;
    }
    for (; footprint < 14; footprint++) {
        snprintf(word, sizeof word, "%ux%u", sides[footprint][0], sides[footprint][1]);
        if (strcmp(word, argv[3]) == 0) break;
    }
    for (; preset < 5; preset++)
        if (strcmp(presets[preset], argv[4]) == 0) break;
    work.texels = read_pam(argv[1], &work.width, &work.height);
    if (footprint == 14 || preset == 5 || !work.texels) {
        fprintf(stderr, "pack_threads: %s\n", work.texels ? "no such footprint or preset" : "the picture can't be read");
        return 2;
    }
    int threads = argc > 5 ? atoi(argv[5]) : (int)sysconf(_SC_NPROCESSORS_ONLN);
    threads = threads < 1 ? 1 : threads > MOST_THREADS ? MOST_THREADS : threads;
    uint32_t block_width = sides[footprint][0], block_height = sides[footprint][1];
    work.format = ASTC_LINEAR + footprint;
    work.options = (struct astc_options){ preset, { 1, 1, 1, 1 }, argc > 6 && strcmp(argv[6], "fitted") == 0 };
    work.columns = (work.width + block_width - 1) / block_width;
    work.rows = (work.height + block_height - 1) / block_height;
    /* some hundred blocks a call, but work for every thread */
    work.step = 1 + 256 / work.columns;
    while (work.step > 1 && work.step * (uint32_t)threads > work.rows)
        work.step--;
    work.blocks = malloc((size_t)16 * work.rows * work.columns);
    if (!work.blocks)
        return 8;
    run_on(&work, threads);
    if (work.status != ASTC_DONE || write_astc(argv[2], &work, block_width, block_height) != 0) {
        fprintf(stderr, "pack_threads: status %u, or the file can't be written\n", (unsigned)work.status);
        return 6;
    }
    printf("blocks %u error %llu\n", work.rows * work.columns, (unsigned long long)work.error);
    free(work.blocks);
    free(work.texels);
    return 0;
}
