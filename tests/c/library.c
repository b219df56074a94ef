/* The static library called from C: the stored examples in both orders of words, the structs by value, empty files, rows and
   buffers, null pointers. Arguments: folders that hold stage.ncl, reference.ncl, verdict and verdict.lowest. The last line is
   'N passed, M failed'. */

#include "fovaheju.h"

#include <stdio.h>
#include <string.h>

static int passed, failed;

static void same(const char *about, struct fovaheju_verdict got, uint64_t number, uint64_t file, uint64_t at,
                 uint64_t word)
{
    if (got.number == number && got.file == file && got.at == at && got.word == word) {
        passed++;
        return;
    }
    failed++;
    printf("%s: %llu %llu %llu %llu\n", about, (unsigned long long)got.number, (unsigned long long)got.file,
           (unsigned long long)got.at, (unsigned long long)got.word);
}

static void holds(const char *about, int fact)
{
    if (fact) {
        passed++;
    } else {
        failed++;
        printf("%s\n", about);
    }
}

static uint8_t stage[8192], reference[8192];

/* The bytes of a file, and how many there are. */
static size_t bytes_of(const char *folder, const char *name, uint8_t *bytes, size_t most)
{
    char path[4096];
    size_t count;
    FILE *file;
    snprintf(path, sizeof path, "%s/%s", folder, name);
    file = fopen(path, "rb");
    if (!file) {
        holds(path, 0);
        return 0;
    }
    count = fread(bytes, 1, most, file);
    fclose(file);
    return count;
}

/* Numbers that stand for the old order of words, in which input 0 is the lowest bit: every one but 0 does. */
static const uint64_t marks[] = {1, 2, 256, (uint64_t)1 << 32, (uint64_t)1 << 63, UINT64_MAX};
enum { MARKS = sizeof marks / sizeof *marks };

/* The verdict that a file holds, in an order. */
static void stored_in(uint64_t order, const char *folder, const char *name, size_t stage_len, size_t reference_len)
{
    unsigned long long number, file, at, word;
    char line[100];
    line[bytes_of(folder, name, (uint8_t *)line, sizeof line - 1)] = 0;
    if (sscanf(line, "%llu %llu %llu %llu", &number, &file, &at, &word) != 4) {
        holds(folder, 0);
        return;
    }
    same(folder, fovaheju_check(order, stage, stage_len, reference, reference_len), number, file, at, word);
    same(folder, fovaheju_report(order, stage, stage_len, reference, reference_len).verdict, number, file, at, word);
}

static void stored(const char *folder)
{
    size_t stage_len = bytes_of(folder, "stage.ncl", stage, sizeof stage);
    size_t reference_len = bytes_of(folder, "reference.ncl", reference, sizeof reference);
    stored_in(0, folder, "verdict", stage_len, reference_len);
    stored_in(marks[stage_len % MARKS], folder, "verdict.lowest", stage_len, reference_len);
}

static const uint8_t wire[] = {1, 1, 3, 0, 0, 1, 0, 0};
static const uint8_t wire_reference[] = {1, 1, 18, 0, 0, 0};
/* One input, two gates: TH12 of both rails, and TH22 of gate 0 and rail 1. */
static const uint8_t two_gates[] = {1, 1, 2, 1,   0,   0,   1,   0, 255, 255, 255, 255, 2, 2, 2, 0,
                                    1, 0, 255, 255, 255, 255, 3, 0, 0,   1,   0,   0};

static void checks(void)
{
    /* Bytes on both sides of the answer, to see that only its four numbers are written. */
    struct {
        uint64_t before;
        struct fovaheju_verdict verdict;
        uint64_t after;
    } kept = {0x1122334455667788, {9, 9, 9, 9}, 0x99AABBCCDDEEFF00};
    const uint8_t *nowhere = (const uint8_t *)1;

    holds("a verdict has 32 bytes", sizeof(struct fovaheju_verdict) == 32);
    kept.verdict = fovaheju_check(0, wire, sizeof wire, wire_reference, sizeof wire_reference);
    same("a wire", kept.verdict, 0, 0, 0, 0);
    kept.verdict = fovaheju_check(0, wire, sizeof wire, wire_reference, sizeof wire_reference - 1);
    same("a reference without its end", kept.verdict, 1, 2, 5, 0);
    holds("beside the answer", kept.before == 0x1122334455667788 && kept.after == 0x99AABBCCDDEEFF00);
    same("the files exchanged", fovaheju_check(0, wire_reference, sizeof wire_reference, wire, sizeof wire), 2, 1, 2, 0);
    same("an empty stage", fovaheju_check(0, wire, 0, wire_reference, sizeof wire_reference), 1, 1, 0, 0);
    same("an empty reference", fovaheju_check(0, wire, sizeof wire, wire_reference, 0), 1, 2, 0, 0);
    same("one address for both", fovaheju_check(0, wire, sizeof wire, wire, sizeof wire), 2, 2, 2, 0);
    same("empty files at an address of nothing", fovaheju_check(0, nowhere, 0, nowhere, 0), 1, 1, 0, 0);
    same("both files null", fovaheju_check(0, NULL, 0, NULL, 0), 1, 1, 0, 0);
    same("a null reference", fovaheju_check(0, wire, sizeof wire, NULL, 0), 1, 2, 0, 0);
}

/* All that a report holds but its verdict is 0. */
static int nothing_but_a_verdict(const struct fovaheju_report *report)
{
    size_t i;
    for (i = 0; i < 1024; i++)
        if (report->lines[i] != 0 || report->names[i] != 0)
            return 0;
    return report->words == 0 && report->total == 0;
}

/* The whole case of document 01: an AND of two inputs. */
static const uint8_t and_stage[] = {1, 2, 2, 2, 1, 0, 3, 0, 255, 255, 255, 255, 2, 26,
                                    0, 0, 2, 0, 1, 0, 3, 0, 3,   5,   0,   4,   0, 0};
static const uint8_t and_reference[] = {1, 2, 17, 2, 0, 0, 1, 0, 18, 2, 0, 0};

static void reports(void)
{
    struct {
        uint64_t before;
        struct fovaheju_report report;
        uint64_t after;
    } kept = {0x1122334455667788, {{9, 9, 9, 9}, 9, 9, {9}, {9}}, 0x99AABBCCDDEEFF00};
    struct fovaheju_report *report = &kept.report;
    size_t i;

    holds("a report has 4,144 bytes", sizeof *report == 4144);
    kept.report = fovaheju_report(0, and_stage, sizeof and_stage, and_reference, sizeof and_reference);
    same("the report of an AND", report->verdict, 0, 0, 0, 0);
    holds("four words, a total of four", report->words == 4 && report->total == 4);
    for (i = 0; i < 1024; i++)
        holds("a line of the report of an AND", report->lines[i] == (i < 4 ? 1 : 0) && report->names[i] == (i < 4 ? i : 0));
    kept.report = fovaheju_report(0, wire, sizeof wire, wire_reference, sizeof wire_reference);
    same("the report of a wire", report->verdict, 0, 0, 0, 0);
    holds("two words without gates", report->words == 2 && report->total == 0 && report->lines[0] == 0);
    kept.report = fovaheju_report(0, and_stage, sizeof and_stage, wire_reference, sizeof wire_reference);
    same("the report of unequal counts", report->verdict, 10, 0, 2, 1);
    holds("a refused pair has no lines", nothing_but_a_verdict(report));
    holds("beside the report", kept.before == 0x1122334455667788 && kept.after == 0x99AABBCCDDEEFF00);
    kept.report = fovaheju_report(0, NULL, 0, NULL, 0);
    same("the report of null files", report->verdict, 1, 1, 0, 0);
    holds("null files have no lines", nothing_but_a_verdict(report));
}

/* An OR of two inputs whose rail 1 waits for one input only: 14 in the word in which input 0 alone is 1, where input 1 is
   not waited for, and in the word in which input 1 alone is. And a chain of i + 1 gates on rail 1 of input i. */
static const uint8_t or_stage[] = {1, 2, 2, 2, 0, 0, 2, 0, 255, 255, 255, 255, 2, 1,
                                   1, 0, 3, 0, 255, 255, 255, 255, 3, 4, 0, 5, 0, 0};
static const uint8_t or_reference[] = {1, 2, 17, 3, 0, 0, 1, 0, 18, 2, 0, 0};
static const uint8_t chains[] = {1, 2, 2, 2, 1, 0, 1, 0, 255, 255, 255, 255, 2, 2, 3, 0, 3, 0, 255, 255, 255, 255,
                                 2, 2, 5, 0, 5, 0, 255, 255, 255, 255, 3, 0, 0, 4, 0, 3, 2, 0, 6, 0, 0};
static const uint8_t wires_reference[] = {1, 2, 18, 0, 0, 18, 1, 0, 0};
/* Two wires, of which the second part cares for the words 0, 2 and 3 of a file: not for input 0 alone. */
static const uint8_t wires[] = {1, 2, 3, 0, 0, 1, 0, 3, 2, 0, 3, 0, 0};
static const uint8_t three_words[] = {1, 2, 6, 0, 0, 6, 2, 0, 6, 3, 0, 3, 0, 0, 1, 0, 3, 2, 0, 3, 0, 0};

/* The lines of two inputs, each under its word. */
static int lines_are(const struct fovaheju_report *report, const uint16_t *lines)
{
    size_t i;
    for (i = 0; i < 4; i++)
        if (report->names[i] != i || report->lines[i] != lines[i])
            return 0;
    return report->words == 4 && report->total == 6;
}

static struct fovaheju_verdict stray(uint64_t order)
{
    uint8_t stage_out[64], reference_out[64];
    return fovaheju_join(order, wires, sizeof wires, wires_reference, sizeof wires_reference, three_words,
                         sizeof three_words, wires_reference, sizeof wires_reference, stage_out, 64, reference_out, 64)
        .verdict;
}

static void orders(void)
{
    const uint16_t highest[] = {0, 2, 1, 3}, lowest[] = {0, 1, 2, 3};
    struct fovaheju_report report;
    size_t i;

    same("an OR, input 0 highest", fovaheju_check(0, or_stage, sizeof or_stage, or_reference, sizeof or_reference),
         14, 1, 0, 1);
    report = fovaheju_report(0, chains, sizeof chains, wires_reference, sizeof wires_reference);
    holds("a report, input 0 highest", lines_are(&report, highest));
    same("a stray word, input 0 highest", stray(0), 23, 0, 0, 2);
    for (i = 0; i < MARKS; i++) {
        same("an OR, input 0 lowest",
             fovaheju_check(marks[i], or_stage, sizeof or_stage, or_reference, sizeof or_reference), 14, 1, 1, 1);
        report = fovaheju_report(marks[i], chains, sizeof chains, wires_reference, sizeof wires_reference);
        holds("a report, input 0 lowest", lines_are(&report, lowest));
        same("a stray word, input 0 lowest", stray(marks[i]), 23, 0, 0, 1);
    }
}

static void rows(void)
{
    uint8_t row[6] = {0, 1, 7, 8, 9, 10};
    const uint8_t settled[6] = {0, 1, 1, 1, 9, 10};
    uint8_t kept[6];

    same("a row", fovaheju_settled_row(two_gates, sizeof two_gates, row, 4), 0, 0, 0, 0);
    holds("the settled row, and the bytes after it", memcmp(row, settled, sizeof row) == 0);
    row[0] = 0, row[1] = 0;
    same("a row of NULL", fovaheju_settled_row(two_gates, sizeof two_gates, row, 4), 0, 0, 0, 0);
    holds("both gates are low", row[2] == 0 && row[3] == 0 && row[4] == 9);
    row[0] = 1, row[1] = 1, row[2] = 5;
    memcpy(kept, row, sizeof row);
    same("both rails high", fovaheju_settled_row(two_gates, sizeof two_gates, row, 4), 17, 3, 0, 0);
    same("a long row", fovaheju_settled_row(two_gates, sizeof two_gates, row, 6), 16, 3, 6, 0);
    same("an empty row", fovaheju_settled_row(two_gates, sizeof two_gates, row, 0), 16, 3, 0, 0);
    same("an empty stage", fovaheju_settled_row(two_gates, 0, row, 4), 1, 1, 0, 0);
    holds("refused rows are as before", memcmp(row, kept, sizeof row) == 0);
    same("a null row", fovaheju_settled_row(two_gates, sizeof two_gates, NULL, 0), 16, 3, 0, 0);
    same("a null stage and a null row", fovaheju_settled_row(NULL, 0, NULL, 0), 1, 1, 0, 0);
}

/* The AND with a wire behind it. */
static const uint8_t joined_stage[] = {1, 2, 2, 2, 1, 0, 3, 0, 255, 255, 255, 255, 2, 26,
                                       0, 0, 2, 0, 1, 0, 3, 0, 3,   5,   0,   4,   0, 0};
static const uint8_t joined_reference[] = {1, 2, 17, 2, 0, 0, 1, 0, 18, 2, 0, 0};

static struct fovaheju_join and_wire(uint8_t *stage_out, size_t stage_room, uint8_t *reference_out,
                                     size_t reference_room)
{
    return fovaheju_join(0, and_stage, sizeof and_stage, and_reference, sizeof and_reference, wire, sizeof wire,
                         wire_reference, sizeof wire_reference, stage_out, stage_room, reference_out, reference_room);
}

static void joins(void)
{
    struct {
        uint64_t before;
        struct fovaheju_join join;
        uint64_t after;
    } kept = {0x1122334455667788, {{9, 9, 9, 9}, 9, 9}, 0x99AABBCCDDEEFF00};
    struct fovaheju_join *join = &kept.join;
    uint8_t stage_out[64], reference_out[64], untouched[64];
    size_t n = sizeof joined_stage, m = sizeof joined_reference;

    memset(untouched, 7, sizeof untouched);
    memcpy(stage_out, untouched, 64);
    memcpy(reference_out, untouched, 64);
    holds("a join's answer has 48 bytes", sizeof *join == 48);
    kept.join = and_wire(stage_out, 64, reference_out, 64);
    same("an AND and a wire", join->verdict, 0, 0, 0, 0);
    holds("how many bytes", join->stage_count == n && join->reference_count == m);
    holds("the joined stage", memcmp(stage_out, joined_stage, n) == 0);
    holds("the joined reference", memcmp(reference_out, joined_reference, m) == 0);
    holds("past the stage", memcmp(stage_out + n, untouched, 64 - n) == 0);
    holds("past the reference", memcmp(reference_out + m, untouched, 64 - m) == 0);
    same("the whole is accepted", fovaheju_check(0, stage_out, n, reference_out, m), 0, 0, 0, 0);
    memcpy(stage_out, untouched, 64);
    memcpy(reference_out, untouched, 64);
    kept.join = and_wire(stage_out, n, reference_out, m - 1);
    same("a reference buffer too short", join->verdict, 24, 3, 0, 0);
    holds("nothing is counted", join->stage_count == 0 && join->reference_count == 0);
    same("a stage buffer too short", and_wire(stage_out, n - 1, reference_out, m).verdict, 24, 3, 0, 0);
    same("no buffers", and_wire(NULL, 0, NULL, 0).verdict, 24, 3, 0, 0);
    same("a wire and an AND",
         fovaheju_join(0, wire, sizeof wire, wire_reference, sizeof wire_reference, and_stage, sizeof and_stage, and_reference,
                       sizeof and_reference, stage_out, 64, reference_out, 64).verdict, 22, 0, 1, 2);
    same("a second stage without its end",
         fovaheju_join(0, wire, sizeof wire, wire_reference, sizeof wire_reference, wire, sizeof wire - 1, wire_reference,
                       sizeof wire_reference, stage_out, 64, reference_out, 64).verdict, 1, 4, 7, 0);
    same("four null files", fovaheju_join(0, NULL, 0, NULL, 0, NULL, 0, NULL, 0, stage_out, 64, reference_out, 64).verdict, 1, 1, 0, 0);
    holds("refused buffers are as before", memcmp(stage_out, untouched, 64) == 0 && memcmp(reference_out, untouched, 64) == 0);
    holds("beside the join's answer", kept.before == 0x1122334455667788 && kept.after == 0x99AABBCCDDEEFF00);
    kept.join = and_wire(stage_out, n, reference_out, m);
    same("buffers that just fit", join->verdict, 0, 0, 0, 0);
    holds("the same bytes", memcmp(stage_out, joined_stage, n) == 0 && memcmp(reference_out, joined_reference, m) == 0);
}

static void makes(void)
{
    struct {
        uint64_t before;
        struct fovaheju_written made;
        uint64_t after;
    } kept = {0x1122334455667788, {{9, 9, 9, 9}, 9}, 0x99AABBCCDDEEFF00};
    struct fovaheju_written *made = &kept.made;
    /* Two inputs, of which only the first is an output. */
    const uint8_t idle[] = {1, 2, 18, 0, 0, 0};
    uint8_t out[64], untouched[64];
    size_t n = sizeof and_stage;

    memset(untouched, 7, sizeof untouched);
    memcpy(out, untouched, 64);
    holds("a made stage's answer has 40 bytes", sizeof *made == 40);
    kept.made = fovaheju_make_stage(and_reference, sizeof and_reference, out, 64);
    same("the stage of an AND", made->verdict, 0, 0, 0, 0);
    holds("how many bytes", made->count == n);
    holds("the whole case's stage", memcmp(out, and_stage, n) == 0);
    holds("past the stage", memcmp(out + n, untouched, 64 - n) == 0);
    same("it is accepted", fovaheju_check(0, out, n, and_reference, sizeof and_reference), 0, 0, 0, 0);
    memcpy(out, untouched, 64);
    kept.made = fovaheju_make_stage(and_reference, sizeof and_reference, out, n - 1);
    same("a buffer one byte short", made->verdict, 27, 3, 0, 0);
    holds("nothing is counted", made->count == 0);
    same("an idle input", fovaheju_make_stage(idle, sizeof idle, out, 64).verdict, 25, 2, 1, 0);
    same("a reference without its end", fovaheju_make_stage(idle, sizeof idle - 1, out, 64).verdict, 1, 2, 5, 0);
    same("a null reference", fovaheju_make_stage(NULL, 0, out, 64).verdict, 1, 2, 0, 0);
    same("a null buffer", fovaheju_make_stage(and_reference, sizeof and_reference, NULL, 0).verdict, 27, 3, 0, 0);
    holds("a refused buffer is as before", memcmp(out, untouched, 64) == 0);
    holds("beside the answer", kept.before == 0x1122334455667788 && kept.after == 0x99AABBCCDDEEFF00);
    kept.made = fovaheju_make_stage(and_reference, sizeof and_reference, out, n);
    same("a buffer that just fits", made->verdict, 0, 0, 0, 0);
    holds("the same bytes", memcmp(out, and_stage, n) == 0);
    same("the stage of a wire", fovaheju_make_stage(wire_reference, sizeof wire_reference, out, 64).verdict, 0, 0, 0, 0);
    holds("it is the wire", memcmp(out, wire, sizeof wire) == 0);
}

/* The AND of two inputs in the line form, and a wire. */
static const char and_text[] = "a,b\nz\nTH22 a_1,b_1 z_1\nTHand0 a_0,b_0,a_1,b_1 z_0\n";
static const char wire_text[] = "a\na\n";

static struct fovaheju_written read_string(const char *text, uint8_t *out, size_t room)
{
    return fovaheju_read_text((const uint8_t *)text, strlen(text), out, room);
}

static void texts(void)
{
    struct {
        uint64_t before;
        struct fovaheju_written read;
        uint64_t after;
    } kept = {0x1122334455667788, {{9, 9, 9, 9}, 9}, 0x99AABBCCDDEEFF00};
    struct fovaheju_written *read = &kept.read;
    uint8_t out[64], untouched[64];
    size_t n = sizeof and_stage;

    memset(untouched, 7, sizeof untouched);
    memcpy(out, untouched, 64);
    kept.read = read_string(and_text, out, 64);
    same("the text of an AND", read->verdict, 0, 0, 0, 0);
    holds("how many bytes", read->count == n);
    holds("the whole case's stage", memcmp(out, and_stage, n) == 0);
    holds("past the stage", memcmp(out + n, untouched, 64 - n) == 0);
    same("it is accepted", fovaheju_check(0, out, n, and_reference, sizeof and_reference), 0, 0, 0, 0);
    memcpy(out, untouched, 64);
    kept.read = read_string(and_text, out, n - 1);
    same("a buffer one byte short", read->verdict, 24, 3, 0, 0);
    holds("nothing is counted", read->count == 0);
    same("an empty text", read_string("", out, 64).verdict, 29, 1, 0, 0);
    same("line 0 alone", read_string("a\n", out, 64).verdict, 29, 1, 1, 0);
    same("an empty last line", read_string("a\na\n\n", out, 64).verdict, 29, 1, 2, 0);
    same("no last newline", read_string("a\na", out, 64).verdict, 29, 1, 1, 0);
    same("a carriage return", read_string("a\r\na\r\n", out, 64).verdict, 29, 1, 0, 0);
    same("a name of 17 characters", read_string("abcdefghijklmnopq\na\n", out, 64).verdict, 29, 1, 0, 0);
    same("five pins", read_string("a\na\nTH14 a_0,a_1,a_0,a_1,a_0 g\n", out, 64).verdict, 29, 1, 2, 0);
    same("an output that nobody drives", read_string("a\nb\n", out, 64).verdict, 30, 1, 1, 0);
    same("a pin that nobody drives", read_string("a\na\nTH12 a_0,b_1 g\n", out, 64).verdict, 30, 1, 2, 0);
    same("30 at a later line before 31", read_string("a,a\na\nTH12 a_0,b_1 g\n", out, 64).verdict, 30, 1, 2, 0);
    same("an input twice", read_string("a,a\na\n", out, 64).verdict, 31, 1, 0, 0);
    same("a rail driven again", read_string("a\na\nTH12 a_0,a_1 a_1\n", out, 64).verdict, 31, 1, 2, 0);
    same("eleven inputs", read_string("a,b,c,d,e,f,g,h,i,j,k\na\n", out, 64).verdict, 3, 1, 1, 0);
    same("a pin too many", read_string("a\na\nTH12 a_0,a_1,a_0 g\n", out, 64).verdict, 5, 1, 8, 0);
    same("seventeen outputs", read_string("a\na,a,a,a,a,a,a,a,a,a,a,a,a,a,a,a,a\n", out, 64).verdict, 6, 1, 82, 0);
    same("a null text", fovaheju_read_text(NULL, 0, out, 64).verdict, 29, 1, 0, 0);
    same("a null buffer", read_string(and_text, NULL, 0).verdict, 24, 3, 0, 0);
    holds("a refused buffer is as before", memcmp(out, untouched, 64) == 0);
    holds("beside the answer", kept.before == 0x1122334455667788 && kept.after == 0x99AABBCCDDEEFF00);
    kept.read = read_string(and_text, out, n);
    same("a buffer that just fits", read->verdict, 0, 0, 0, 0);
    holds("the same bytes", memcmp(out, and_stage, n) == 0);
    same("the text of a wire", read_string(wire_text, out, 64).verdict, 0, 0, 0, 0);
    holds("it is the wire", memcmp(out, wire, sizeof wire) == 0);
    same("a gate's net may be an input's name", read_string("a\na\nTH12 a_0,a_1 a\n", out, 64).verdict, 0, 0, 0, 0);
    same("a relaxed gate", read_string("a\na\nrTH12 a_0,a_1 g\n", out, 64).verdict, 0, 0, 0, 0);
    holds("its kind is 129", out[3] == 129);
}

static void written_texts(void)
{
    struct {
        uint64_t before;
        struct fovaheju_written written;
        uint64_t after;
    } kept = {0x1122334455667788, {{9, 9, 9, 9}, 9}, 0x99AABBCCDDEEFF00};
    struct fovaheju_written *written = &kept.written;
    const char text[] = "x0,x1\ny0\nTH22 x0_1,x1_1 y0_1\nTHand0 x0_0,x1_0,x0_1,x1_1 y0_0\n";
    const char one_wire[] = "x0\nx0\n";
    const char one_gate[] = "x0\nx0\nrTH12 x0_0,x0_1 g0\n";
    /* A wire with a care list, one whose rails are swapped, and one with a relaxed gate that feeds nothing. */
    const uint8_t care[] = {1, 1, 6, 0, 0, 3, 0, 0, 1, 0, 0};
    const uint8_t swapped[] = {1, 1, 3, 1, 0, 0, 0, 0};
    const uint8_t relaxed[] = {1, 1, 2, 129, 0, 0, 1, 0, 255, 255, 255, 255, 3, 0, 0, 1, 0, 0};
    uint8_t out[128], untouched[128], again[64];
    size_t n = sizeof text - 1;

    memset(untouched, 7, sizeof untouched);
    memcpy(out, untouched, 128);
    kept.written = fovaheju_write_text(and_stage, sizeof and_stage, out, 128);
    same("an AND as text", written->verdict, 0, 0, 0, 0);
    holds("how many characters", written->count == n);
    holds("the whole case's text", memcmp(out, text, n) == 0);
    holds("past the text", memcmp(out + n, untouched, 128 - n) == 0);
    same("it is read again", fovaheju_read_text(out, n, again, 64).verdict, 0, 0, 0, 0);
    holds("the file's own bytes", memcmp(again, and_stage, sizeof and_stage) == 0);
    memcpy(out, untouched, 128);
    kept.written = fovaheju_write_text(and_stage, sizeof and_stage, out, n - 1);
    same("a text buffer one byte short", written->verdict, 24, 3, 0, 0);
    holds("no character is counted", written->count == 0);
    same("a care list", fovaheju_write_text(care, sizeof care, out, 128).verdict, 29, 1, 0, 0);
    same("a swapped input pair", fovaheju_write_text(swapped, sizeof swapped, out, 128).verdict, 31, 1, 0, 0);
    same("a stage without its end", fovaheju_write_text(wire, sizeof wire - 1, out, 128).verdict, 1, 1, 7, 0);
    same("a null stage", fovaheju_write_text(NULL, 0, out, 128).verdict, 1, 1, 0, 0);
    same("a null text buffer", fovaheju_write_text(and_stage, sizeof and_stage, NULL, 0).verdict, 24, 3, 0, 0);
    holds("a refused text buffer is as before", memcmp(out, untouched, 128) == 0);
    holds("beside the answer", kept.before == 0x1122334455667788 && kept.after == 0x99AABBCCDDEEFF00);
    kept.written = fovaheju_write_text(and_stage, sizeof and_stage, out, n);
    same("a text buffer that just fits", written->verdict, 0, 0, 0, 0);
    holds("the same characters", memcmp(out, text, n) == 0);
    same("a wire as text", fovaheju_write_text(wire, sizeof wire, out, 128).verdict, 0, 0, 0, 0);
    holds("the output bears the input's name", memcmp(out, one_wire, sizeof one_wire - 1) == 0);
    same("a relaxed gate as text", fovaheju_write_text(relaxed, sizeof relaxed, out, 128).verdict, 0, 0, 0, 0);
    holds("gates are numbered from 0", memcmp(out, one_gate, sizeof one_gate - 1) == 0);
}

static void nexts(void)
{
    struct {
        uint64_t before;
        struct fovaheju_written next;
        uint64_t after;
    } kept = {0x1122334455667788, {{9, 9, 9, 9}, 9}, 0x99AABBCCDDEEFF00};
    struct fovaheju_written *next = &kept.next;
    const uint8_t first[] = {1, 1, 3, 0, 0, 0, 0, 0};
    /* The last with one input, the first with two, and the last of all. */
    const uint8_t last_of_one[] = {1, 1, 2, 2, 3, 0, 3, 0, 255, 255, 255, 255, 2, 2,
                                   1, 0, 1, 0, 255, 255, 255, 255, 3, 3, 0, 3, 0, 0};
    const uint8_t first_of_two[] = {1, 2, 3, 0, 0, 0, 0, 0};
    const uint8_t last[] = {1, 2, 2, 2, 5, 0, 5, 0, 255, 255, 255, 255, 2, 2,
                            3, 0, 3, 0, 255, 255, 255, 255, 3, 5, 0, 5, 0, 0};
    uint8_t out[64], untouched[64], file[28];
    size_t n = sizeof first, length = 0;
    int count = 0;

    memset(untouched, 7, sizeof untouched);
    memcpy(out, untouched, 64);
    kept.next = fovaheju_next_stage(first, 0, out, 64);
    same("after the empty file", next->verdict, 0, 0, 0, 0);
    holds("how many bytes", next->count == n);
    holds("the first small stage", memcmp(out, first, n) == 0);
    holds("past the file", memcmp(out + n, untouched, 64 - n) == 0);
    memcpy(out, untouched, 64);
    kept.next = fovaheju_next_stage(first, n, out, n - 1);
    same("a buffer one byte short", next->verdict, 38, 3, 0, 0);
    holds("nothing is counted", next->count == 0);
    same("the last with no buffer", fovaheju_next_stage(last, sizeof last, NULL, 0).verdict, 36, 1, 0, 0);
    same("the last", fovaheju_next_stage(last, sizeof last, out, 64).verdict, 36, 1, 0, 0);
    same("an AND", fovaheju_next_stage(and_stage, sizeof and_stage, out, 64).verdict, 37, 1, 0, 0);
    same("a file without its end", fovaheju_next_stage(first, n - 1, out, 0).verdict, 37, 1, 0, 0);
    same("a null buffer", fovaheju_next_stage(first, n, NULL, 0).verdict, 38, 3, 0, 0);
    holds("a refused buffer is as before", memcmp(out, untouched, 64) == 0);
    holds("beside the answer", kept.before == 0x1122334455667788 && kept.after == 0x99AABBCCDDEEFF00);
    same("a buffer that just fits",
         fovaheju_next_stage(last_of_one, sizeof last_of_one, out, n).verdict, 0, 0, 0, 0);
    holds("the first with two inputs", memcmp(out, first_of_two, n) == 0);
    /* From a null stage on, through the whole family. */
    for (;;) {
        kept.next = fovaheju_next_stage(length == 0 ? NULL : file, length, out, 28);
        if (next->verdict.number != 0)
            break;
        length = (size_t)next->count;
        memcpy(file, out, length);
        count++;
    }
    same("after every file", next->verdict, 36, 1, 0, 0);
    holds("82,812 files", count == 82812 && length == sizeof last && memcmp(file, last, length) == 0);
}

/* Seed 1, one input, four gates. */
static const uint8_t drawn_reference[] = {1, 1, 17, 4, 0, 0, 0, 0,  17, 1, 1, 0, 255, 255, 17, 6, 1,
                                          0, 2, 0,  17, 4, 1, 0, 2, 0,  18, 3, 0, 18,  4,   0,  0};

static void draws(void)
{
    struct {
        uint64_t before;
        struct fovaheju_written drawn;
        uint64_t after;
    } kept = {0x1122334455667788, {{9, 9, 9, 9}, 9}, 0x99AABBCCDDEEFF00};
    struct fovaheju_written *drawn = &kept.drawn;
    uint8_t out[512], untouched[512];
    uint32_t seed;
    size_t n = sizeof drawn_reference;
    int many = 0, accepted = 0, idle = 0;

    memset(untouched, 7, sizeof untouched);
    memcpy(out, untouched, 512);
    kept.drawn = fovaheju_draw_reference(1, 1, 4, out, 512);
    same("seed 1", drawn->verdict, 0, 0, 0, 0);
    holds("how many bytes", drawn->count == n);
    holds("the reference of seed 1", memcmp(out, drawn_reference, n) == 0);
    holds("past the reference", memcmp(out + n, untouched, 512 - n) == 0);
    memcpy(out, untouched, 512);
    kept.drawn = fovaheju_draw_reference(1, 1, 4, out, n - 1);
    same("a buffer one byte short", drawn->verdict, 41, 3, 0, 0);
    holds("nothing is counted", drawn->count == 0);
    same("a null buffer", fovaheju_draw_reference(1, 1, 4, NULL, 0).verdict, 41, 3, 0, 0);
    same("19 outputs", fovaheju_draw_reference(1, 10, 40, out, 512).verdict, 40, 0, 0, 0);
    same("19 outputs and no buffer", fovaheju_draw_reference(1, 10, 40, NULL, 0).verdict, 40, 0, 0, 0);
    same("no input", fovaheju_draw_reference(1, 0, 4, out, 512).verdict, 39, 0, 0, 0);
    same("11 inputs", fovaheju_draw_reference(1, 11, 4, out, 512).verdict, 39, 0, 0, 0);
    same("41 gates and no buffer", fovaheju_draw_reference(1, 1, 41, NULL, 0).verdict, 39, 0, 0, 0);
    same("the most inputs", fovaheju_draw_reference(1, SIZE_MAX, 4, out, 512).verdict, 39, 0, 0, 0);
    same("the most gates", fovaheju_draw_reference(1, 1, SIZE_MAX, out, 512).verdict, 39, 0, 0, 0);
    /* Counts that are in range in their low 32 bits alone. */
    same("wide inputs", fovaheju_draw_reference(1, ((size_t)1 << 32) + 1, 4, out, 512).verdict, 39, 0, 0, 0);
    same("wide gates", fovaheju_draw_reference(1, 1, (size_t)1 << 32, out, 512).verdict, 39, 0, 0, 0);
    holds("a refused buffer is as before", memcmp(out, untouched, 512) == 0);
    holds("beside the answer", kept.before == 0x1122334455667788 && kept.after == 0x99AABBCCDDEEFF00);
    same("a buffer that just fits", fovaheju_draw_reference(1, 1, 4, out, n).verdict, 0, 0, 0, 0);
    holds("the same bytes", memcmp(out, drawn_reference, n) == 0);
    same("the highest seed", fovaheju_draw_reference(UINT32_MAX, 1, 0, out, 6).verdict, 0, 0, 0, 0);
    holds("a wire", memcmp(out, wire_reference, 6) == 0);
    /* A load: each reference is made a stage, which the check accepts, unless a gate never rises. */
    for (seed = UINT32_MAX - 500; seed != 500; seed++) {
        kept.drawn = fovaheju_draw_reference(seed, 1 + seed % 10, seed % 41, reference, sizeof reference);
        if (drawn->verdict.number == 40) {
            many++;
        } else if (drawn->verdict.number == 0) {
            struct fovaheju_written made = fovaheju_make_stage(reference, drawn->count, stage, sizeof stage);
            struct fovaheju_verdict found = fovaheju_check(0, stage, made.count, reference, drawn->count);
            accepted += made.verdict.number == 0 && found.number == 0;
            idle += made.verdict.number == 0 && found.number == 32 && found.file == 1 && found.word == 0;
        }
    }
    holds("a load of 1,001 seeds", many + accepted + idle == 1001 && many > 0 && many < 200 && accepted > 200 && idle > 200);
}

/* Whether a list begins with so many nets and has 777 behind them. */
static int listed(const uint16_t *list, size_t room, const uint16_t *nets, size_t count)
{
    size_t i;
    for (i = 0; i < room; i++)
        if (list[i] != (i < count ? nets[i] : 777))
            return 0;
    return 1;
}

static void blank(uint16_t *list, size_t room)
{
    size_t i;
    for (i = 0; i < room; i++)
        list[i] = 777;
}

static void runs(void)
{
    struct {
        uint64_t before;
        struct fovaheju_run run;
        uint64_t after;
    } kept = {0x1122334455667788, {{0, 0, 0, 0}, 0, 0}, 0x99AABBCCDDEEFF00};
    static const uint16_t cycle[] = {1, 2, 5, 1, 2, 5}, back[] = {2, 1, 5, 1, 2, 5}, early[] = {2, 4}, barred[] = {1, 5, 2};
    static const uint8_t incomplete[] = {1, 2, 2, 1, 0, 0, 2, 0, 255, 255, 255, 255, 2, 2, 1, 0, 3, 0, 255, 255, 255, 255, 3, 4, 0, 5, 0, 0};
    static const uint8_t never[] = {1, 1, 6, 0, 0, 2, 2, 0, 0, 1, 0, 255, 255, 255, 255, 3, 0, 0, 1, 0, 0};
    static const uint16_t still[] = {0, 0};
    static const uint32_t keys[] = {9, 8, 7, 6, 5, 4, 0, 1, 2, 3, 4, 5};
    static const uint8_t low[6], midway[] = {0, 1, 0, 0, 0, 0}, old[] = {9, 9, 9, 9, 9, 9};
    struct fovaheju_run *run = &kept.run;
    struct fovaheju_played played;
    uint16_t list[600];
    uint8_t row[6];
    blank(list, 600);
    kept.run = fovaheju_witness(0, and_stage, sizeof and_stage, and_reference, sizeof and_reference, 2, list, 600);
    same("a witness of the whole case", run->verdict, 0, 0, 0, 0);
    holds("a rise and a fall", run->rise == 3 && run->count == 6 && listed(list, 600, cycle, 6));
    blank(list, 600);
    kept.run = fovaheju_witness(1, and_stage, sizeof and_stage, and_reference, sizeof and_reference, 1, list, 5);
    holds("the word of the old order, and a list too short", run->count == 6 && listed(list, 600, cycle, 0));
    kept.run = fovaheju_witness(0, and_stage, sizeof and_stage, and_reference, sizeof and_reference, 2, NULL, 0);
    holds("a null list", run->rise == 3 && run->count == 6);
    kept.run = fovaheju_witness(0, incomplete, sizeof incomplete, and_reference, sizeof and_reference, 3, list, 600);
    same("a witness of 14", run->verdict, 14, 1, 0, 0);
    holds("the output is there before input 0", run->rise == 2 && run->count == 2 && listed(list, 600, early, 2));
    blank(list, 600);
    kept.run = fovaheju_witness(0, never, sizeof never, wire_reference, sizeof wire_reference, 1, list, 600);
    same("a witness of 32", run->verdict, 32, 1, 0, 0);
    holds("the first word that is cared for", run->rise == 1 && run->count == 2 && listed(list, 600, still, 2));
    blank(list, 600);
    kept.run = fovaheju_witness(0, NULL, 0, NULL, 0, 0, list, 600);
    same("a witness of empty files", run->verdict, 1, 1, 0, 0);
    holds("no run", run->rise == 0 && run->count == 0 && listed(list, 600, cycle, 0));
    kept.run = fovaheju_run_by_keys(0, and_stage, sizeof and_stage, 2, keys, 12, list, 600);
    same("a run by keys", run->verdict, 0, 0, 0, 0);
    holds("in another order", run->rise == 3 && run->count == 6 && listed(list, 600, back, 6));
    blank(list, 600);
    same("keys of the rise alone", fovaheju_run_by_keys(0, and_stage, sizeof and_stage, 2, keys, 6, list, 600).verdict, 16, 3, 6, 0);
    same("no keys", fovaheju_run_by_keys(0, and_stage, sizeof and_stage, 2, NULL, 0, list, 600).verdict, 16, 3, 0, 0);
    holds("nothing is listed", listed(list, 600, cycle, 0));
    holds("beside the answer", kept.before == 0x1122334455667788 && kept.after == 0x99AABBCCDDEEFF00);
    memcpy(row, old, 6);
    played = fovaheju_play(0, and_stage, sizeof and_stage, 2, 3, back, 6, row, 6);
    same("a list that is played", played.verdict, 0, 0, 0, 0);
    holds("all of it", played.steps == 6 && memcmp(row, low, 6) == 0);
    played = fovaheju_play(0, and_stage, sizeof and_stage, 2, 3, barred, 3, row, 6);
    holds("a gate before its pin", played.verdict.number == 0 && played.steps == 1 && memcmp(row, midway, 6) == 0);
    played = fovaheju_play(0, and_stage, sizeof and_stage, 2, SIZE_MAX, NULL, 0, row, 6);
    holds("no list", played.verdict.number == 0 && played.steps == 0 && memcmp(row, low, 6) == 0);
    memcpy(row, old, 6);
    played = fovaheju_play(0, and_stage, sizeof and_stage, 2, 3, back, 6, row, 5);
    same("a row too short", played.verdict, 16, 3, 5, 0);
    same("no stage", fovaheju_play(0, NULL, 0, 2, 3, back, 6, row, 6).verdict, 1, 1, 0, 0);
    holds("the row is as before", played.steps == 0 && memcmp(row, old, 6) == 0);
}

/* A wire through a register, two registers in a ring, and a cut register: the check reads them, every other call answers 2. */
static void registers(void)
{
    static const uint8_t one[] = {1, 1, 4, 0, 0, 1, 0, 0xFE, 0xFF, 3, 2, 0, 3, 0, 0};
    static const uint8_t ring[] = {1, 1, 4, 5, 0, 6, 0, 7, 0, 4, 2, 0, 3, 0, 0xFE, 0xFF, 3, 5, 0, 6, 0, 0};
    static const uint8_t wire[] = {1, 1, 3, 0, 0, 1, 0, 0};
    static const uint8_t signals[] = {1, 1, 0x12, 0, 0, 0};
    uint8_t row[2] = {1, 0}, out[64], other[64];
    uint16_t list[8];
    uint32_t keys[4] = {0, 1, 2, 3};
    same("a register", fovaheju_check(0, one, sizeof one, signals, sizeof signals), 0, 0, 0, 0);
    same("a ring", fovaheju_check(1, ring, sizeof ring, signals, sizeof signals), 33, 1, 0, 0);
    same("a cut register", fovaheju_check(0, one, 3, signals, sizeof signals), 1, 1, 3, 0);
    same("report", fovaheju_report(0, one, sizeof one, signals, sizeof signals).verdict, 2, 1, 2, 0);
    same("row", fovaheju_settled_row(one, sizeof one, row, sizeof row), 2, 1, 2, 0);
    same("row of a cut register", fovaheju_settled_row(one, 3, row, sizeof row), 2, 1, 2, 0);
    same("first part",
         fovaheju_join(0, one, sizeof one, signals, sizeof signals, wire, sizeof wire, signals, sizeof signals, out, sizeof out, other, sizeof other).verdict,
         2, 1, 2, 0);
    same("second part",
         fovaheju_join(0, wire, sizeof wire, signals, sizeof signals, one, sizeof one, signals, sizeof signals, out, sizeof out, other, sizeof other).verdict,
         2, 4, 2, 0);
    same("text", fovaheju_write_text(one, sizeof one, out, sizeof out).verdict, 2, 1, 2, 0);
    same("next", fovaheju_next_stage(one, sizeof one, out, sizeof out).verdict, 37, 1, 0, 0);
    same("witness", fovaheju_witness(0, one, sizeof one, signals, sizeof signals, 0, list, 8).verdict, 2, 1, 2, 0);
    same("play", fovaheju_play(0, one, sizeof one, 0, 0, NULL, 0, row, sizeof row).verdict, 2, 1, 2, 0);
    same("keys", fovaheju_run_by_keys(0, one, sizeof one, 0, keys, 4, list, 8).verdict, 2, 1, 2, 0);
    holds("the row is as before", row[0] == 1 && row[1] == 0);
}

int main(int count, char **folders)
{
    int i;
    for (i = 1; i < count; i++)
        stored(folders[i]);
    checks();
    reports();
    orders();
    rows();
    joins();
    makes();
    texts();
    written_texts();
    nexts();
    draws();
    runs();
    registers();
    printf("%d passed, %d failed\n", passed, failed);
    return failed != 0;
}
