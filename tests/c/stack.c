/* How much stack the calls of the static library take, on every example: each call runs in a thread whose stack was filled with
   a mark before, and what no longer bears it was used. Arguments: folders that hold stage.ncl and reference.ncl, and texts, whose
   names end in .txt. The last line is 'N passed, M failed'; the header says what is held to: 64 kilobytes. */

#define _POSIX_C_SOURCE 200809L

#include "fovaheju.h"

#include <pthread.h>
#include <stdio.h>
#include <stdlib.h>
#include <string.h>

enum { STACK = 1 << 18, MOST = 64 * 1024, MARK = 0xA5 };

static uint8_t stage[8192], reference[8192], text[32768], row[276], out[16384], other[8192];
static uint16_t list[552];
static uint32_t keys[552];
static size_t stage_len, reference_len, text_len;

/* The calls, and the most bytes that each took. */
static void nothing(void) {}
static void check(void) { fovaheju_check(0, stage, stage_len, reference, reference_len); }
static void report(void) { fovaheju_report(0, stage, stage_len, reference, reference_len); }
static void settled_row(void) { fovaheju_settled_row(stage, stage_len, row, sizeof row); }
static void join(void)
{
    fovaheju_join(0, stage, stage_len, reference, reference_len, stage, stage_len, reference, reference_len, out, sizeof out,
                  other, sizeof other);
}
static void make_stage(void) { fovaheju_make_stage(reference, reference_len, out, sizeof out); }
static void read_text(void) { fovaheju_read_text(text, text_len, out, sizeof out); }
static void write_text(void) { fovaheju_write_text(stage, stage_len, out, sizeof out); }
static void next_stage(void) { fovaheju_next_stage(stage, stage_len, out, sizeof out); }
/* How many nets the stage has is not known here, and a row or keys of another length are refused: so every length is tried. */
static void witness(void) { fovaheju_witness(0, stage, stage_len, reference, reference_len, 0, list, 552); }
static void play(void)
{
    size_t nets;
    for (nets = 2; nets <= 276; nets++)
        fovaheju_play(0, stage, stage_len, 0, 0, list, 552, row, nets);
}
static void by_keys(void)
{
    size_t nets;
    for (nets = 2; nets <= 276; nets++)
        fovaheju_run_by_keys(0, stage, stage_len, 0, keys, 2 * nets, list, 552);
}
static void draw_reference(void) { fovaheju_draw_reference(1, 10, 20, out, sizeof out); }

static struct {
    const char *name;
    void (*make)(void);
    size_t most;
} calls[] = {{"nothing", nothing, 0},       {"join", join, 0},           {"report", report, 0},
             {"check", check, 0},           {"read text", read_text, 0}, {"write text", write_text, 0},
             {"settled row", settled_row, 0}, {"make a stage", make_stage, 0}, {"draw a reference", draw_reference, 0},
             {"next stage", next_stage, 0}, {"witness", witness, 0},     {"play", play, 0},
             {"run by keys", by_keys, 0}};
enum { CALLS = sizeof calls / sizeof *calls };

static void *in_thread(void *call)
{
    calls[*(size_t *)call].make();
    return NULL;
}

/* The bytes of a thread's stack that a call changed. */
static size_t used_by(size_t call)
{
    static uint8_t *space;
    pthread_attr_t how;
    pthread_t thread;
    size_t left = 0;
    if (!space && posix_memalign((void **)&space, 4096, STACK))
        exit(2);
    memset(space, MARK, STACK);
    pthread_attr_init(&how);
    pthread_attr_setstack(&how, space, STACK);
    if (pthread_create(&thread, &how, in_thread, &call))
        exit(2);
    pthread_join(thread, NULL);
    pthread_attr_destroy(&how);
    while (left < STACK && space[left] == MARK)
        left++;
    return STACK - left;
}

static size_t bytes_of(const char *folder, const char *name, uint8_t *bytes, size_t most)
{
    char path[4096];
    size_t count;
    FILE *file;
    snprintf(path, sizeof path, "%s%s", folder, name);
    file = fopen(path, "rb");
    if (!file)
        return 0;
    count = fread(bytes, 1, most, file);
    fclose(file);
    return count;
}

int main(int count, char **names)
{
    int i, failed = 0;
    size_t call;
    for (i = 1; i < count; i++) {
        size_t length = strlen(names[i]);
        int is_text = length > 4 && !strcmp(names[i] + length - 4, ".txt");
        if (is_text) {
            text_len = bytes_of(names[i], "", text, sizeof text);
        } else {
            stage_len = bytes_of(names[i], "/stage.ncl", stage, sizeof stage);
            reference_len = bytes_of(names[i], "/reference.ncl", reference, sizeof reference);
        }
        for (call = 0; call < CALLS; call++) {
            size_t used = used_by(call);
            if (used > calls[call].most)
                calls[call].most = used;
        }
    }
    printf("kilobytes of stack:");
    for (call = 1; call < CALLS; call++) {
        size_t most = calls[call].most - calls[0].most;
        printf("%s %s %zu", call > 1 ? "," : "", calls[call].name, (most + 512) / 1024);
        failed += most > MOST;
    }
    printf("\n%d passed, %d failed\n", CALLS - 1 - failed, failed);
    return failed > 0;
}
