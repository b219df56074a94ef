/* One call of the static library on a pair of files, for counting its instructions: cost check|witness FOLDER. The witness is of name 0. Prints the number
   of the verdict, and how many switchings there are. */

#include "fovaheju.h"

#include <stdio.h>
#include <string.h>

static uint8_t stage[8192], reference[8192];
static uint16_t list[552];

static size_t bytes_of(const char *folder, const char *name, uint8_t *bytes)
{
    char path[4096];
    size_t count;
    FILE *file;
    snprintf(path, sizeof path, "%s/%s", folder, name);
    file = fopen(path, "rb");
    if (!file)
        return 0;
    count = fread(bytes, 1, 8192, file);
    fclose(file);
    return count;
}

int main(int count, char **words)
{
    struct fovaheju_run run = {{0, 0, 0, 0}, 0, 0};
    size_t stage_len, reference_len;
    if (count != 3)
        return 2;
    stage_len = bytes_of(words[2], "stage.ncl", stage);
    reference_len = bytes_of(words[2], "reference.ncl", reference);
    if (strcmp(words[1], "check") == 0)
        run.verdict = fovaheju_check(0, stage, stage_len, reference, reference_len);
    else
        run = fovaheju_witness(0, stage, stage_len, reference, reference_len, 0, list, 552);
    printf("%u %u\n", (unsigned)run.verdict.number, (unsigned)run.count);
    return 0;
}
