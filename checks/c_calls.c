/* Calls each function of include/astc_tool.h with each argument wrong, on pictures of one texel and of many, on a small stack and with malloc
 * failing. `checks/link_from_c` builds and runs it, with -Wl,--wrap=malloc; the first word is the last preset to use. */
#include <pthread.h>
#include <stdio.h>
#include <stdlib.h>
#include <string.h>

#include "astc_tool.h"

enum { WIDTH = 13, HEIGHT = 11, ROWS = 3, COLUMNS = 3, TEXELS = WIDTH * HEIGHT, BLOCKS = ROWS * COLUMNS };

static uint8_t texels[4 * TEXELS];
static int failed, cases;

/* The call of malloc that fails, counted down; none for 0. */
static int failing;
void *__real_malloc(size_t size);
void *__wrap_malloc(size_t size);
void *__wrap_malloc(size_t size)
{
    if (failing > 0 && --failing == 0)
        return NULL;
    return __real_malloc(size);
}

static void want(const char *what, int is)
{
    cases++;
    if (!is) {
        printf("c_calls: %s\n", what);
        failed = 1;
    }
}

/* What one call is given. */
struct given {
    struct astc_rows rows;
    struct astc_options options;
    size_t texel_count, block_count;
    uint32_t status; /* the one that is wanted */
};

static const struct given right = { { WIDTH, HEIGHT, ASTC_LINEAR + ASTC_5X4, 0, ROWS }, { ASTC_FLAT, { 1, 1, 1, 1 }, 0 }, TEXELS, BLOCKS, ASTC_DONE };

static int is_all(const void *bytes, int byte, size_t count)
{
    for (size_t k = 0; k < count; k++)
        if (((const uint8_t *)bytes)[k] != byte) return 0;
    return 1;
}

/* All four calls with one wrong argument answer its status and write nothing. */
static void refuse(const char *what, const struct given *given)
{
    uint8_t blocks[16 * BLOCKS], into[4 * TEXELS];
    uint64_t error;
    uint32_t illegal;
    struct astc_findings findings;
    memset(blocks, 0xA5, sizeof blocks);
    memset(into, 0xA5, sizeof into);
    memset(&error, 0xA5, sizeof error);
    memset(&illegal, 0xA5, sizeof illegal);
    memset(&findings, 0xA5, sizeof findings);
    want(what, astc_encode_rows(&given->rows, &given->options, texels, given->texel_count, blocks, given->block_count, &error) == given->status);
    want(what, astc_polish_rows(&given->rows, &given->options, texels, given->texel_count, blocks, given->block_count, &error) == given->status);
    want(what, astc_audit_rows(&given->rows, &given->options, texels, given->texel_count, blocks, given->block_count, &findings) == given->status);
    if (given->status != ASTC_BAD_PRESET && given->status != ASTC_BAD_WEIGHTS)
        want(what, astc_show_rows(&given->rows, blocks, given->block_count, into, given->texel_count, &illegal) == given->status);
    want(what, is_all(blocks, 0xA5, sizeof blocks) && is_all(into, 0xA5, sizeof into) && is_all(&error, 0xA5, sizeof error));
    want(what, is_all(&illegal, 0xA5, sizeof illegal) && is_all(&findings, 0xA5, sizeof findings));
}

#define REFUSE(field, value, wanted) do { struct given g = right; g.field = (value); g.status = (wanted); refuse(#field " " #value, &g); } while (0)

static void refuse_each(void)
{
    REFUSE(rows.width, 0, ASTC_BAD_WIDTH);
    REFUSE(rows.width, 8193, ASTC_BAD_WIDTH);
    REFUSE(rows.width, UINT32_MAX, ASTC_BAD_WIDTH);
    REFUSE(rows.height, 0, ASTC_BAD_HEIGHT);
    REFUSE(rows.height, 8193, ASTC_BAD_HEIGHT);
    REFUSE(rows.format, ASTC_LINEAR - 1, ASTC_BAD_FORMAT);
    REFUSE(rows.format, ASTC_LINEAR + 14, ASTC_BAD_FORMAT);
    REFUSE(rows.format, ASTC_SRGB - 1, ASTC_BAD_FORMAT);
    REFUSE(rows.format, ASTC_SRGB + 14, ASTC_BAD_FORMAT);
    REFUSE(rows.first, ROWS + 1, ASTC_BAD_FIRST);
    REFUSE(rows.first, UINT32_MAX, ASTC_BAD_FIRST);
    REFUSE(rows.first, 1, ASTC_BAD_COUNT);
    REFUSE(rows.count, ROWS + 1, ASTC_BAD_COUNT);
    REFUSE(rows.count, UINT32_MAX, ASTC_BAD_COUNT);
    REFUSE(options.preset, 5, ASTC_BAD_PRESET);
    REFUSE(options.weights[2], 16, ASTC_BAD_WEIGHTS);
    REFUSE(texel_count, TEXELS - 1, ASTC_BAD_TEXELS);
    REFUSE(texel_count, 0, ASTC_BAD_TEXELS);
    REFUSE(block_count, BLOCKS - 1, ASTC_BAD_BLOCKS);
    REFUSE(block_count, 0, ASTC_BAD_BLOCKS);
    struct given none = right;
    memset(none.options.weights, 0, 4);
    none.status = ASTC_BAD_WEIGHTS;
    refuse("weights that are all 0", &none);
    struct given both = right;
    both.rows.height = 0;
    both.options.preset = 9;
    both.block_count = 0;
    both.status = ASTC_BAD_HEIGHT;
    refuse("the first of three wrong arguments", &both);
}

/* A picture of one texel. */
static void one_texel(uint32_t preset)
{
    static const uint8_t texel[4] = { 200, 30, 7, 255 };
    for (uint32_t footprint = 0; footprint < 14; footprint++) {
        struct astc_rows rows = { 1, 1, ASTC_LINEAR + footprint, 0, 1 };
        struct astc_options options = { preset, { 1, 1, 1, 1 }, preset % 2 };
        uint8_t block[16], shown[4];
        uint64_t error = 1;
        uint32_t illegal = 1;
        struct astc_findings findings = { 1, 1 };
        want("one texel encoded", astc_encode_rows(&rows, &options, texel, 1, block, 1, &error) == ASTC_DONE && error == 0);
        want("one texel shown", astc_show_rows(&rows, block, 1, shown, 1, &illegal) == ASTC_DONE && illegal == 0 && memcmp(shown, texel, 4) == 0);
        want("one texel judged", astc_audit_rows(&rows, &options, texel, 1, block, 1, &findings) == ASTC_DONE && findings.error == 0 && findings.bad == 0);
    }
}

/* Rows one by one and at once, judged, shown and polished. */
static void many_texels(uint32_t preset)
{
    struct given given = right;
    uint8_t whole[16 * BLOCKS], parts[16 * BLOCKS], shown[4 * TEXELS], magenta[4 * TEXELS];
    uint64_t error = 0, sum = 0, part = 0, polished = 0;
    uint32_t illegal = 0;
    struct astc_findings findings;
    given.options.preset = preset;
    want("all rows", astc_encode_rows(&given.rows, &given.options, texels, TEXELS, whole, BLOCKS, &error) == ASTC_DONE);
    for (uint32_t row = 0; row < ROWS; row++) {
        struct astc_rows rows = { WIDTH, HEIGHT, given.rows.format, row, 1 };
        want("a row", astc_encode_rows(&rows, &given.options, texels, TEXELS, parts + 16 * COLUMNS * row, COLUMNS, &part) == ASTC_DONE);
        sum += part;
    }
    want("rows one by one", memcmp(whole, parts, sizeof whole) == 0 && sum == error);
    want("judged", astc_audit_rows(&given.rows, &given.options, texels, TEXELS, whole, BLOCKS, &findings) == ASTC_DONE);
    want("no bad block of its own", findings.bad == 0 && findings.error == error);
    want("shown", astc_show_rows(&given.rows, whole, BLOCKS, shown, TEXELS, &illegal) == ASTC_DONE && illegal == 0);
    uint64_t squares = 0;
    for (size_t k = 0; k < sizeof shown; k++)
        squares += (uint64_t)((shown[k] - texels[k]) * (shown[k] - texels[k]));
    want("the error is that of what is shown", squares == error);
    want("polished", astc_polish_rows(&given.rows, &given.options, texels, TEXELS, parts, BLOCKS, &polished) == ASTC_DONE && polished <= error);
    memset(parts, 0, sizeof parts);
    want("no blocks shown", astc_show_rows(&given.rows, parts, BLOCKS, magenta, TEXELS, &illegal) == ASTC_DONE && illegal == BLOCKS);
    want("magenta", magenta[0] == 255 && magenta[1] == 0 && magenta[4 * TEXELS - 2] == 255 && magenta[4 * TEXELS - 1] == 255);
    want("no blocks polished", astc_polish_rows(&given.rows, &given.options, texels, TEXELS, parts, BLOCKS, &polished) == ASTC_DONE);
    want("no bad block of these", astc_audit_rows(&given.rows, &given.options, texels, TEXELS, parts, BLOCKS, &findings) == ASTC_DONE && findings.bad == 0);
    want("their errors", findings.error == polished);
    struct astc_rows last = { WIDTH, HEIGHT, given.rows.format, ROWS - 1, 1 };
    want("the last row shown", astc_show_rows(&last, whole + 16 * COLUMNS * (ROWS - 1), COLUMNS, magenta, WIDTH * (HEIGHT - 8), &illegal) == ASTC_DONE);
    want("as before", memcmp(magenta, shown + 4 * WIDTH * 8, 4 * WIDTH * (HEIGHT - 8)) == 0);
    struct astc_rows none = { WIDTH, HEIGHT, given.rows.format, ROWS, 0 };
    want("no row", astc_encode_rows(&none, &given.options, texels, TEXELS, whole, 0, &part) == ASTC_DONE && part == 0);
}

/* Each call of malloc fails in turn. */
static void no_memory(uint32_t preset)
{
    struct given given = right;
    uint8_t blocks[16 * BLOCKS];
    uint64_t error = 7;
    uint32_t status = ASTC_NO_MEMORY;
    int count = 0;
    given.options.preset = preset;
    memset(blocks, 0xA5, sizeof blocks);
    while (status == ASTC_NO_MEMORY && count < 10000) {
        want("nothing is written without memory", is_all(blocks, 0xA5, sizeof blocks) && error == 7);
        failing = ++count;
        status = astc_encode_rows(&given.rows, &given.options, texels, TEXELS, blocks, BLOCKS, &error);
    }
    failing = 0;
    want("memory is wanting, and then it isn't", status == ASTC_DONE && count > 1);
}

static void *on_small_stack(void *given)
{
    for (uint32_t preset = 0; preset <= *(uint32_t *)given; preset++) {
        one_texel(preset);
        many_texels(preset);
    }
    return NULL;
}

int main(int argc, char **argv)
{
    uint32_t preset = argc > 1 ? (uint32_t)atoi(argv[1]) : ASTC_QUICK;
    uint32_t noise = 7;
    for (size_t k = 0; k < sizeof texels; k++) {
        noise = (noise * 75 + 74) % 65537;
        texels[k] = (uint8_t)noise;
    }
    want("the version", astc_version() == ASTC_VERSION);
    refuse_each();
    no_memory(ASTC_QUICK);
    pthread_attr_t attributes;
    pthread_t thread;
    pthread_attr_init(&attributes);
    pthread_attr_setstacksize(&attributes, 256 * 1024);
    want("a thread on a small stack", pthread_create(&thread, &attributes, on_small_stack, &preset) == 0 && pthread_join(thread, NULL) == 0);
    printf("%d\n", cases);
    return failed;
}
