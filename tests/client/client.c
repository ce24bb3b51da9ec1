/* A C client of libmpt.a: compiles, matches labels one by one, in batches and by numbers of a register, searches it, writes
 * back, and exits 1 on any surprise.
 * cc -std=c99 -pedantic -Wall -Wextra -Wconversion -Werror -I../../include client.c \
 *    ../../crates/mpt/out/libmpt.a -o client
 * A C++11 compiler takes it too. */

#include <stdint.h>
#include <stdio.h>
#include <stdlib.h>
#include <string.h>

#include "mpt.h"

enum { DIRT = 0xA5 };

static uint8_t table[MPT_TABLE_MAX], source[MPT_SOURCE_MAX], scratch[MPT_SCRATCH_SIZE(4, 60)], parts[MPT_PARTS_MAX];
static uint8_t verdicts[MPT_BATCH_MAX], all_parts[MPT_BATCH_MAX * MPT_PARTS_MAX], answer[MPT_ANSWER_SIZE];
static uint8_t reg[MPT_REGISTER_SIZE(3)], reg_before[MPT_REGISTER_SIZE(3)];

static void expect(int holds, const char *what)
{
    if (!holds) {
        printf("surprise: %s\n", what);
        exit(1);
    }
}

/* The four numbers of the answer area; the fourth is 0 but for a search. */
static void answered(uint64_t position, uint64_t value, uint64_t trials, const char *what)
{
    expect(mpt_answer_position(answer) == position, what);
    expect(mpt_answer_value(answer) == value, what);
    expect(mpt_answer_trials(answer) == trials, what);
    expect(mpt_answer_number(answer, 3) == 0, what);
}

static int all_are(const uint8_t *bytes, size_t len, uint8_t value)
{
    for (size_t at = 0; at < len; at++)
        if (bytes[at] != value)
            return 0;
    return 1;
}

/* Compiles a text; the table length, 0 on a refusal. */
static size_t compile(const char *text, uint32_t number, uint64_t position)
{
    memset(table, DIRT, sizeof table);
    uint32_t found = mpt_compile((const uint8_t *)text, strlen(text), table, sizeof table, answer, sizeof answer);
    size_t len = (size_t)mpt_answer_value(answer);
    printf("compile %.60s: %s at %u, length %u\n", text, mpt_refusal_name(found), (unsigned)mpt_answer_position(answer),
           (unsigned)len);
    expect(found == number, "number of a compile");
    answered(position, number == 0 ? len : 0, 0, "answer of a compile");
    expect(all_are(table + len, sizeof table - len, DIRT), "bytes after the table");
    return len;
}

static uint32_t match(size_t table_len, const char *label, size_t scratch_len, size_t parts_len, uint64_t budget)
{
    memset(scratch, DIRT, sizeof scratch);
    memset(parts, DIRT, sizeof parts);
    uint32_t found = mpt_match(table, table_len, (const uint8_t *)label, strlen(label), scratch, scratch_len, parts,
                               parts_len, budget, answer, sizeof answer);
    printf("match %.60s: %s, verdict %u, trials %llu\n", label, mpt_refusal_name(found),
           (unsigned)mpt_answer_value(answer), (unsigned long long)mpt_answer_trials(answer));
    answered(0, mpt_answer_value(answer), mpt_answer_trials(answer), "position and fourth number of a match");
    return found;
}

/* What a batch is lent besides its table; the buffer is a text. */
struct batch {
    const char *labels;
    const uint8_t *ends;
    size_t ends_len, scratch_len, verdicts_len, parts_len;
    uint64_t budget;
};

static uint32_t match_batch(size_t table_len, struct batch lent)
{
    memset(scratch, DIRT, sizeof scratch);
    memset(verdicts, DIRT, sizeof verdicts);
    memset(all_parts, DIRT, sizeof all_parts);
    uint32_t found = mpt_match_batch(table, table_len, (const uint8_t *)lent.labels, strlen(lent.labels), lent.ends,
                                     lent.ends_len, scratch, lent.scratch_len, verdicts, lent.verdicts_len, all_parts,
                                     lent.parts_len, lent.budget, answer, sizeof answer);
    printf("batch %.60s: %s\n", lent.labels, mpt_refusal_name(found));
    answered(0, 0, 0, "answer of a batch");
    return found;
}

/* A batch that returns a number and leaves what it was lent as it was. */
static void idle_batch(size_t table_len, struct batch lent, uint32_t number, const char *what)
{
    expect(match_batch(table_len, lent) == number, what);
    expect(all_are(scratch, sizeof scratch, DIRT) && all_are(verdicts, sizeof verdicts, DIRT), what);
    expect(all_are(all_parts, sizeof all_parts, DIRT), what);
}

/* What a call on the register other than a match returned and answered. */
static void on_register(uint32_t found, uint32_t number, const char *what)
{
    printf("%s: %s\n", what, mpt_refusal_name(found));
    expect(found == number, what);
    answered(0, 0, 0, what);
}

/* Such a call that was refused, with the register as it was copied before. */
static void refused_on_register(uint32_t found, uint32_t number, const char *what)
{
    on_register(found, number, what);
    expect(memcmp(reg, reg_before, sizeof reg) == 0, what);
}

/* Compiles a text and stores its table; the table's length. */
static size_t store(uint8_t number, const char *text)
{
    size_t len = compile(text, 0, 0);
    on_register(mpt_register_store(reg, sizeof reg, number, table, len, answer, sizeof answer), 0, "a store");
    return len;
}

static uint32_t match_number(uint8_t number, const char *label, size_t scratch_len, size_t parts_len, uint64_t budget)
{
    memset(scratch, DIRT, sizeof scratch);
    memset(parts, DIRT, sizeof parts);
    memcpy(reg_before, reg, sizeof reg);
    uint32_t found = mpt_register_match(reg, sizeof reg, number, (const uint8_t *)label, strlen(label), scratch,
                                        scratch_len, parts, parts_len, budget, answer, sizeof answer);
    printf("match %.60s by number %u: %s, verdict %u\n", label, number, mpt_refusal_name(found),
           (unsigned)mpt_answer_value(answer));
    expect(memcmp(reg, reg_before, sizeof reg) == 0, "a register written by a match");
    return found;
}

/* The verdict of a match that is lent enough. */
static int fits_number(uint8_t number, const char *label)
{
    expect(match_number(number, label, sizeof scratch, sizeof parts, UINT64_MAX) == 0, "number of a match by number");
    return mpt_answer_value(answer) == 1;
}

/* A search; the register stays as it is. */
static uint32_t search(const char *label, size_t scratch_len, size_t parts_len)
{
    memset(scratch, DIRT, sizeof scratch);
    memset(parts, DIRT, sizeof parts);
    memcpy(reg_before, reg, sizeof reg);
    uint32_t found = mpt_register_search(reg, sizeof reg, (const uint8_t *)label, strlen(label), scratch, scratch_len, parts,
                                         parts_len, answer, sizeof answer);
    printf("search %.60s: %s, verdict %u, number %u, skipped %u\n", label, mpt_refusal_name(found),
           (unsigned)mpt_answer_value(answer), (unsigned)mpt_answer_pattern(answer), (unsigned)mpt_answer_skipped(answer));
    expect(memcmp(reg, reg_before, sizeof reg) == 0, "a register written by a search");
    expect(mpt_answer_position(answer) == 0, "position of a search");
    return found;
}

/* The verdict, number and skipped patterns of a search, and the scratch bytes that are zero after it. */
static void searched(uint64_t verdict, uint64_t number, uint64_t skipped, size_t zeros, const char *what)
{
    expect(mpt_answer_value(answer) == verdict && mpt_answer_pattern(answer) == number, what);
    expect(mpt_answer_skipped(answer) == skipped, what);
    expect(all_are(scratch, zeros, 0) && all_are(scratch + zeros, sizeof scratch - zeros, DIRT), what);
    if (verdict == 0)
        expect(all_are(parts, sizeof parts, DIRT), what);
}

/* The header's readers, names and sizes on bytes that no call made. */
static void reading(void)
{
    static const uint8_t area[MPT_ANSWER_SIZE] = {1, 2,   3, 4, 5, 6, 7, 8, 9,   10,  11,  12,  13,  14,  15,  255,
                                                  0, 128, 0, 0, 0, 0, 0, 0, 255, 255, 255, 255, 255, 255, 255, 255};
    expect(mpt_answer_position(area) == UINT64_C(0x0807060504030201), "a position");
    expect(mpt_answer_value(area) == UINT64_C(0xFF0F0E0D0C0B0A09), "a value");
    expect(mpt_answer_trials(area) == 32768 && mpt_answer_pattern(area) == 32768, "trials or a number");
    expect(mpt_answer_number(area, 3) == UINT64_MAX && mpt_answer_skipped(area) == UINT64_MAX, "the fourth number");
    static const uint8_t three[6] = {6, 0, 255, 0, 0xCD, 0xAB};
    expect(mpt_part_begin(three, 0) == 0 && mpt_part_end(three, 0) == 6, "the first part");
    expect(mpt_part_begin(three, 1) == 6 && mpt_part_end(three, 1) == 255, "the second part");
    expect(mpt_part_begin(three, 2) == 255 && mpt_part_end(three, 2) == 0xABCD, "a part of two bytes");

    static const char *const names[21] = {"NONE",  "LONG",   "FORM",   "CODE",    "NUMBER",   "RANGE",   "ATOMS",
                                          "DEPTH", "ROOM",   "ANSWER", "UNKNOWN", "TABLE",    "LABEL",   "WORK",
                                          "PARTS", "BUDGET", "BATCH",  "FULL",    "REGISTER", "MISSING", "UNKNOWN"};
    for (uint32_t number = 0; number < 21; number++)
        expect(strcmp(mpt_refusal_name(number), names[number]) == 0, "the name of a refusal");
    expect(strcmp(mpt_refusal_name(UINT32_MAX), "UNKNOWN") == 0, "the name of no refusal");

    static const uint64_t enough[4] = {MPT_BUDGET_ENOUGH(1, 0), MPT_BUDGET_ENOUGH(2, 7), MPT_BUDGET_ENOUGH(64, 255),
                                       MPT_BUDGET_ENOUGH(256, 255)};
    expect(enough[0] == 1 && enough[1] == 1920, "small budgets");
    expect(enough[2] == UINT64_C(46351253504) && enough[3] == UINT64_C(185405014016), "the largest budgets");
    expect(MPT_SCRATCH_MAX == 33816576, "the largest scratch");
    expect(MPT_REGISTER_SIZE(0) == MPT_REGISTER_MIN && MPT_REGISTER_MAX == 1193224, "sizes of registers");
}

static void compiling(void)
{
    static const uint8_t two_digits[19] = {0x4D, 0x50, 0x54, 0x02, 0x00, 0x01, 0x00, 0x00, 0x00, 0x01,
                                           0x01, 0x02, 0x00, 0x02, 0x00, 0x10, 0x00, 0x00, 0x00};
    expect(compile("2N", 0, 0) == sizeof two_digits, "length of the table of 2N");
    expect(memcmp(table, two_digits, sizeof two_digits) == 0, "the table of 2N");
    expect(mpt_table_atoms(table) == 1, "the atoms of 2N");
    expect(compile("9999N", 0, 0) == 19, "length of the table of 9999N");
    compile("", MPT_FORM, 0);
    compile("2N,", MPT_FORM, 2);
    compile("1()", MPT_FORM, 2);
    compile("1(2N", MPT_FORM, 4);
    compile("5.3", MPT_RANGE, 0);
    compile("5..", MPT_FORM, 2);
    compile("3Q", MPT_CODE, 1);
    compile("3.10000N", MPT_NUMBER, 6);
    compile("20000N", MPT_NUMBER, 4);
    compile("1(1(1(1(1(1(1(1(1(1N)))))))))", MPT_DEPTH, 17);

    char text[MPT_SOURCE_MAX + 2];
    memset(text, 'N', sizeof text);
    text[MPT_SOURCE_MAX + 1] = 0;
    compile(text, MPT_LONG, MPT_SOURCE_MAX);
    for (int at = 0; at < 2 * MPT_ATOMS_MAX + 2; at += 2)
        memcpy(text + at, "1N", 3);
    compile(text, MPT_ATOMS, 2 * MPT_ATOMS_MAX);
    memcpy(text + 2 * MPT_ATOMS_MAX, "20000N", 7);
    compile(text, MPT_ATOMS, 2 * MPT_ATOMS_MAX);
    text[2 * MPT_ATOMS_MAX] = 0;
    compile(text, 0, 0);
    expect(mpt_table_atoms(table) == MPT_ATOMS_MAX, "256 atoms");

    memset(table, DIRT, sizeof table);
    expect(mpt_compile((const uint8_t *)"2N", 2, table, 18, answer, sizeof answer) == MPT_ROOM, "18 bytes of room");
    answered(2, 0, 0, "answer of no room");
    expect(all_are(table, sizeof table, DIRT), "table written without room");
}

static void matching(void)
{
    const size_t work = MPT_SCRATCH_SIZE(2, 7);
    const uint64_t enough = MPT_BUDGET_ENOUGH(2, 7);
    size_t len = compile("1.6N1.2N", 0, 0);
    expect(match(len, "1234567", work, 4, enough) == 0, "number of a match");
    uint64_t trials = mpt_answer_trials(answer);
    answered(0, 1, trials, "verdict");
    printf("cut at %zu and %zu\n", mpt_part_end(parts, 0), mpt_part_end(parts, 1));
    expect(memcmp(parts, "\6\0\7\0", 4) == 0, "the cut");
    expect(all_are(parts + 4, sizeof parts - 4, DIRT), "bytes after the parts");
    expect(all_are(scratch, work, 0), "scratch not zero");
    expect(all_are(scratch + work, sizeof scratch - work, DIRT), "scratch after the bytes used");

    expect(match(len, "1234567", work, 4, trials) == 0, "the exact budget");
    answered(0, 1, trials, "answer of the exact budget");
    expect(match(len, "1234567", work, 4, trials - 1) == MPT_BUDGET, "a budget one short");
    answered(0, 0, trials - 1, "answer of a budget one short");
    expect(all_are(scratch, work, 0) && all_are(parts, sizeof parts, DIRT), "bytes after a budget one short");

    expect(match(len, "123456x", work, 4, enough) == 0 && mpt_answer_value(answer) == 0, "verdict no");
    expect(all_are(parts, sizeof parts, DIRT), "parts of no");

    expect(match(len, "1234567", work - 1, 4, trials) == MPT_WORK, "scratch one short");
    expect(all_are(scratch, sizeof scratch, DIRT), "scratch written by a refusal");
    expect(match(len, "1234567", work, 3, trials) == MPT_PARTS, "parts one short");
    expect(all_are(scratch, sizeof scratch, DIRT), "scratch written by a refusal");
    expect(match(len - 1, "1234567", work, 4, trials) == MPT_TABLE, "a table cut short");
    expect(match(sizeof table, "1234567", work, 4, trials) == MPT_TABLE, "the buffer's length for the table's");

    char label[MPT_LABEL_MAX + 2];
    memset(label, '1', sizeof label);
    label[MPT_LABEL_MAX + 1] = 0;
    expect(match(len, label, work, 4, trials) == MPT_LABEL, "a label of 256 bytes");
    expect(match(len, label, 0, 0, 0) == MPT_LABEL, "a label of 256 bytes without scratch and parts");
    static const uint8_t end[2] = {0, 1};
    struct batch lent = {label, end, sizeof end, 0, 1, 4, 0};
    expect(match_batch(len, lent) == 0 && verdicts[0] == MPT_LABEL, "a label of 256 bytes in a batch");
}

/* Four labels, 1234567, 12345x, none and 12, and bytes after them. */
static const uint8_t four_ends[8] = {7, 0, 13, 0, 13, 0, 15, 0};

static struct batch four_labels(void)
{
    struct batch four = {"123456712345x12 left", four_ends, sizeof four_ends, MPT_SCRATCH_SIZE(2, 7), 4, 4 * 4,
                         MPT_BUDGET_ENOUGH(2, 7)};
    return four;
}

static void batches(void)
{
    size_t len = compile("1.6N1.2N", 0, 0);
    struct batch lent = four_labels();
    expect(match_batch(len, lent) == 0, "number of a batch");
    expect(memcmp(verdicts, "\1\0\0\1", 4) == 0, "verdicts");
    for (size_t k = 0; k < 4; k += 3)
        printf("label %zu cut at %zu and %zu\n", k, mpt_part_end(all_parts + 4 * k, 0), mpt_part_end(all_parts + 4 * k, 1));
    expect(memcmp(all_parts, "\6\0\7\0", 4) == 0 && memcmp(all_parts + 12, "\1\0\2\0", 4) == 0, "the cuts");
    expect(all_are(all_parts + 4, 8, DIRT), "parts of no");
    expect(all_are(verdicts + 4, sizeof verdicts - 4, DIRT), "bytes after the verdicts");
    expect(all_are(all_parts + 16, sizeof all_parts - 16, DIRT), "bytes after the parts of a batch");
    expect(all_are(scratch, lent.scratch_len, 0), "scratch of a batch not zero");
    expect(all_are(scratch + lent.scratch_len, sizeof scratch - lent.scratch_len, DIRT), "scratch after a batch's");

    expect(match(len, "12", lent.scratch_len, 4, lent.budget) == 0, "a label of the batch by itself");
    lent.budget = mpt_answer_trials(answer);
    expect(match_batch(len, lent) == 0 && memcmp(verdicts, "\17\17\0\1", 4) == 0, "a budget for two labels");
    lent.scratch_len = MPT_SCRATCH_SIZE(2, 2);
    expect(match_batch(len, lent) == 0 && memcmp(verdicts, "\15\15\0\1", 4) == 0, "scratch for two labels");
    expect(all_are(all_parts, 12, DIRT) && memcmp(all_parts + 12, "\1\0\2\0", 4) == 0, "parts of two labels");
    lent.ends_len = 0;
    idle_batch(len, lent, 0, "no labels");
}

static void refused_batches(void)
{
    size_t len = compile("1.6N1.2N", 0, 0);
    uint8_t ends[2 * MPT_BATCH_MAX + 2];
    struct batch lent = four_labels();
    lent.ends_len--;
    idle_batch(len, lent, MPT_BATCH, "half an end");
    idle_batch(len - 1, lent, MPT_TABLE, "half an end and a table cut short");
    lent = four_labels();
    lent.verdicts_len--;
    idle_batch(len, lent, MPT_BATCH, "verdicts one short");
    lent = four_labels();
    lent.parts_len--;
    idle_batch(len, lent, MPT_BATCH, "parts of a batch one short");

    lent = four_labels();
    memcpy(ends, four_ends, sizeof four_ends);
    lent.ends = ends;
    ends[4] = 12;
    idle_batch(len, lent, MPT_BATCH, "an end that falls");
    ends[4] = 13;
    ends[6] = (uint8_t)(strlen(lent.labels) + 1);
    idle_batch(len, lent, MPT_BATCH, "an end past the buffer");
    ends[6]--;
    expect(match_batch(len, lent) == 0, "an end at that of the buffer");

    memset(ends, 0, sizeof ends);
    lent.verdicts_len = sizeof verdicts;
    lent.parts_len = sizeof all_parts;
    lent.ends_len = sizeof ends;
    idle_batch(len, lent, MPT_BATCH, "97 labels");
    lent.ends_len -= 2;
    expect(match_batch(len, lent) == 0 && all_are(verdicts, sizeof verdicts, 0), "96 labels");
}

static void starting_empty(void)
{
    memset(reg, DIRT, sizeof reg);
    memcpy(reg_before, reg, sizeof reg);
    const size_t len = compile("2N", 0, 0);
    refused_on_register(mpt_register_init(reg, MPT_REGISTER_MIN - 1, answer, sizeof answer), MPT_REGISTER, "11,271 bytes");
    refused_on_register(mpt_register_store(reg, sizeof reg, 0, table, len, answer, sizeof answer), MPT_REGISTER,
                        "a store before the start");
    refused_on_register(mpt_register_remove(reg, sizeof reg, 0, answer, sizeof answer), MPT_REGISTER,
                        "a removal before the start");
    expect(match_number(0, "42", 0, 0, 0) == MPT_REGISTER, "a match before the start");
    expect(search("42", 0, 0) == MPT_REGISTER, "a search before the start");
    searched(0, 0, 0, 0, "answer of a search before the start");
    on_register(mpt_register_init(reg, sizeof reg, answer, sizeof answer), 0, "the start");
    expect(memcmp(reg, "MPR\2\0\0\0", 8) == 0 && all_are(reg + 8, MPT_REGISTER_MIN - 8, 0), "an empty register");
    expect(all_are(reg + MPT_REGISTER_MIN, sizeof reg - MPT_REGISTER_MIN, DIRT), "bytes after an empty register");
}

/* Three patterns kept by number, one of them replaced and one removed. */
static void registers(void)
{
    const uint64_t enough = MPT_BUDGET_ENOUGH(2, 7);
    starting_empty();
    store(255, "1U2N1\"-\"1.6N");
    store(0, "2N");
    size_t len = store(7, "1.6N1.2N");
    expect(memcmp(reg + MPT_REGISTER_MIN + 19, table, len) == 0, "the second table of three");
    expect(match(len, "1234567", MPT_SCRATCH_SIZE(2, 7), 4, enough) == 0, "a match without the register");
    uint64_t trials = mpt_answer_trials(answer);
    expect(match_number(7, "1234567", MPT_SCRATCH_SIZE(2, 7), 4, enough) == 0, "a match by number");
    answered(0, 1, trials, "answer of a match by number");
    expect(memcmp(parts, "\6\0\7\0", 4) == 0 && all_are(parts + 4, sizeof parts - 4, DIRT), "parts by number");
    expect(all_are(scratch, MPT_SCRATCH_SIZE(2, 7), 0), "scratch of a match by number not zero");
    expect(match_number(7, "1234567", MPT_SCRATCH_SIZE(2, 7), 4, trials - 1) == MPT_BUDGET, "a budget one short");
    answered(0, 0, trials - 1, "answer of a budget one short");
    expect(fits_number(255, "S24-012345") && fits_number(0, "42") && !fits_number(0, "421"), "three patterns");

    store(0, "3N1\".\"");
    expect(!fits_number(0, "42") && fits_number(0, "421."), "a pattern that was replaced");
    expect(fits_number(7, "1234567") && fits_number(255, "S24-012345"), "the patterns beside it");

    on_register(mpt_register_remove(reg, sizeof reg, 7, answer, sizeof answer), 0, "a removal");
    memcpy(reg_before, reg, sizeof reg);
    refused_on_register(mpt_register_remove(reg, sizeof reg, 7, answer, sizeof answer), MPT_MISSING, "removed twice");
    expect(match_number(7, "1234567", 0, 0, 0) == MPT_MISSING, "a match of a number that was removed");
    answered(0, 0, 0, "answer of a missing number");
    expect(fits_number(0, "421.") && fits_number(255, "S24-012345"), "the patterns that are left");
}

/* The slot of 2N: 19 bytes, 1 atom, 1 top-level atom, 2 bytes at least and at most, the digits. */
static const uint8_t slot_of_2n[44] = {19, 0, 0, 0, 1, 0, 1, 0, 2, 0, 2, 0, 0, 0, 0, 0, 0, 0, 0xFF, 0x03};

/* Four patterns: the lowest number that matches, what is skipped, and what is too short for one of them. */
static void searches(void)
{
    const size_t one = MPT_SCRATCH_SIZE(1, 3), two = MPT_SCRATCH_SIZE(2, 3), three = MPT_SCRATCH_SIZE(3, 3);
    char label[MPT_LABEL_MAX + 2];
    starting_empty();
    expect(search("421", 0, 0) == 0, "a search in an empty register");
    searched(0, 0, 0, 0, "nothing in an empty register");
    store(250, ".E");
    store(9, "1A1N1.2N");
    store(0, "2N");
    store(10, "1.6N1.2N");
    expect(memcmp(reg + 8, slot_of_2n, sizeof slot_of_2n) == 0, "the slot of number 0");
    expect(all_are(reg + 8 + 44, 8 * 44, 0), "the slots of numbers 1 to 8");

    expect(search("421", three, 6) == 0, "number of a search");
    searched(1, 10, 2, three, "the third pattern");
    expect(memcmp(parts, "\2\0\3\0", 4) == 0 && all_are(parts + 4, sizeof parts - 4, DIRT), "parts of a search");
    expect(search("42", three, 6) == 0, "a search that ends at 0");
    searched(1, 0, 0, MPT_SCRATCH_SIZE(1, 2), "number 0");
    expect(search("4-1", three, 6) == 0, "a search up to the last number");
    searched(1, 250, 2, three, "the last pattern");
    expect(search("", MPT_SCRATCH_SIZE(3, 0), 6) == 0, "a search for an empty label");
    searched(1, 250, 3, MPT_SCRATCH_SIZE(3, 0), "the last pattern for an empty label");

    expect(search("421", one - 1, 6) == MPT_WORK, "scratch one short of the first pattern's");
    searched(0, 0, 0, 0, "ended at number 0");
    expect(search("421", two, 6) == MPT_WORK, "scratch too short for a pattern to be skipped");
    searched(0, 9, 0, one, "ended by scratch at number 9");
    expect(search("421", three, 5) == MPT_PARTS, "parts too short for a pattern to be skipped");
    searched(0, 9, 0, one, "ended by parts at number 9");
    memset(label, '1', sizeof label);
    label[MPT_LABEL_MAX + 1] = 0;
    expect(search(label, 0, 0) == MPT_LABEL, "a search for a label of 256 bytes");
    searched(0, 0, 0, 0, "answer of a label of 256 bytes");

    on_register(mpt_register_remove(reg, sizeof reg, 250, answer, sizeof answer), 0, "a removal");
    expect(all_are(reg + 8 + 250 * 44, 44, 0), "the slot of a number that was removed");
    expect(search("4-1", three, 6) == 0, "a search that finds nothing");
    searched(0, 0, 2, three, "nothing found");
    reg[8 + 8]++;
    expect(search("42", three, 6) == MPT_REGISTER, "a wrong summary");
    reg[8 + 8]--;
    reg[3] = 1;
    expect(search("42", three, 6) == MPT_REGISTER, "a register of version 1");
    searched(0, 0, 0, 0, "answer of a register of version 1");
}

/* A register with no byte to spare, and one that isn't good. */
static void refused_registers(void)
{
    starting_empty();
    size_t len = store(3, "2N"), full = MPT_REGISTER_MIN + len;
    memcpy(reg_before, reg, sizeof reg);
    refused_on_register(mpt_register_store(reg, full, 4, table, len, answer, sizeof answer), MPT_FULL, "a second table");
    refused_on_register(mpt_register_store(reg, full, 4, table, len - 1, answer, sizeof answer), MPT_TABLE,
                        "a table cut short and no room");
    refused_on_register(mpt_register_store(reg, full - 1, 4, table, len - 1, answer, sizeof answer), MPT_REGISTER,
                        "a register cut short");
    expect(match_number(3, "42", 0, 0, 0) == MPT_WORK, "a match by number without scratch");
    expect(match_number(3, "42", MPT_SCRATCH_SIZE(1, 2), 0, 0) == MPT_PARTS, "a match by number without parts");
    len = compile("3A", 0, 0);
    on_register(mpt_register_store(reg, full, 3, table, len, answer, sizeof answer), 0, "a table of the same length");
    on_register(mpt_register_remove(reg, full, 3, answer, sizeof answer), 0, "a removal from a full register");
    on_register(mpt_register_store(reg, full, 4, table, len, answer, sizeof answer), 0, "a store in freed room");

    reg[MPT_REGISTER_MIN]++;
    memcpy(reg_before, reg, sizeof reg);
    refused_on_register(mpt_register_store(reg, sizeof reg, 4, table, len, answer, sizeof answer), MPT_REGISTER,
                        "a bad table in the register");
    refused_on_register(mpt_register_remove(reg, sizeof reg, 4, answer, sizeof answer), MPT_REGISTER,
                        "a bad table in the register");
    expect(match_number(5, "42", 0, 0, 0) == MPT_REGISTER, "a bad table in the register");
    on_register(mpt_register_init(reg, sizeof reg, answer, sizeof answer), 0, "a start over a bad register");
}

/* A version 1 table of 2N is matched, written back and kept beside the version 2 table of the same pattern. */
static void version_1(void)
{
    static const uint8_t old[18] = {0x4D, 0x50, 0x54, 0x01, 0x00, 0x01, 0x00, 0x00, 0x01,
                                    0x01, 0x02, 0x00, 0x02, 0x00, 0x10, 0x00, 0x00, 0x00};
    starting_empty();
    store(9, "2N");
    on_register(mpt_register_store(reg, sizeof reg, 4, old, sizeof old, answer, sizeof answer), 0, "version 1 stored");
    expect(fits_number(4, "42") && !fits_number(4, "4x") && fits_number(9, "42"), "both versions in a register");

    memcpy(table, old, sizeof old);
    expect(mpt_table_atoms(table) == 1, "the atoms of a version 1 table");
    expect(match(sizeof old, "42", sizeof scratch, 2, UINT64_MAX) == 0 && mpt_answer_value(answer) == 1, "version 1 matched");
    expect(mpt_write_back(table, sizeof old, source, sizeof source, answer, sizeof answer) == 0, "version 1 written back");
    answered(0, 2, 0, "answer of version 1 written back");
    expect(memcmp(source, "2N", 2) == 0, "the source of a version 1 table");
    table[3] = 3;
    expect(mpt_write_back(table, sizeof old, source, sizeof source, answer, sizeof answer) == MPT_TABLE, "version 3");
}

static uint8_t largest_scratch[MPT_SCRATCH_MAX];

/* A label of 255 bytes under no budget. */
static uint32_t match_largest(size_t table_len, size_t scratch_len, size_t parts_len)
{
    uint8_t label[MPT_LABEL_MAX];
    memset(label, '1', sizeof label);
    memset(parts, DIRT, sizeof parts);
    return mpt_match(table, table_len, label, sizeof label, largest_scratch, scratch_len, parts, parts_len, 0, answer,
                     sizeof answer);
}

/* 256 atoms in 2,048 bytes, a label of 255: the header's sizes suffice; source, scratch or parts a byte less don't. */
static void largest(void)
{
    char text[MPT_SOURCE_MAX + 1];
    const int before = 2 * (MPT_ATOMS_MAX - 1);
    memset(text, 'x', sizeof text);
    for (int at = 0; at < before; at += 2)
        memcpy(text + at, "1N", 2);
    memcpy(text + before, "1\"", 2);
    memcpy(text + MPT_SOURCE_MAX - 1, "\"", 2);
    size_t len = compile(text, 0, 0);
    expect(len == 9 + MPT_ATOMS_MAX * 10 + 1535, "length of the table of 256 atoms");
    expect(mpt_write_back(table, len, source, sizeof source - 1, answer, sizeof answer) == MPT_ROOM, "room for 2,047");
    expect(mpt_write_back(table, len, source, sizeof source, answer, sizeof answer) == 0, "room for 2,048");
    answered(0, sizeof source, 0, "answer of a source of 2,048 bytes");
    expect(memcmp(source, text, sizeof source) == 0, "a source of 2,048 bytes");

    const size_t work = sizeof largest_scratch;
    memset(largest_scratch, DIRT, work);
    expect(match_largest(len, work - 1, sizeof parts) == MPT_WORK, "scratch one short of the largest");
    expect(match_largest(len, work, sizeof parts - 1) == MPT_PARTS, "parts one short of the largest");
    expect(largest_scratch[0] == DIRT && largest_scratch[work - 1] == DIRT, "scratch written by a refusal");
    expect(match_largest(len, work, sizeof parts) == MPT_BUDGET, "the largest scratch and parts");
    answered(0, 0, 0, "answer of no budget");
    expect(all_are(largest_scratch, work, 0) && all_are(parts, sizeof parts, DIRT), "bytes after no budget");
}

static void writing_back(void)
{
    size_t len = compile("01.6n1.02(1nN,1\"a\"\"\")", 0, 0);
    static const char shortest[] = "1.6N1.2(1N,1\"a\"\"\")";
    const size_t found = sizeof shortest - 1;
    memset(source, DIRT, sizeof source);
    expect(mpt_write_back(table, len, source, sizeof source, answer, sizeof answer) == 0, "number of a write back");
    answered(0, found, 0, "answer of a write back");
    printf("write back: %.*s\n", (int)found, (const char *)source);
    expect(memcmp(source, shortest, found) == 0, "the shortest source");
    expect(all_are(source + found, sizeof source - found, DIRT), "bytes after the source");

    memset(source, DIRT, sizeof source);
    expect(mpt_write_back(table, len, source, found - 1, answer, sizeof answer) == MPT_ROOM, "no room");
    answered(0, 0, 0, "answer of no room to write back");
    expect(all_are(source, sizeof source, DIRT), "writing back without room");
    table[0]++;
    expect(mpt_write_back(table, len, source, sizeof source, answer, sizeof answer) == MPT_TABLE, "a bad mark");
    answered(0, 0, 0, "answer of a bad table");
    expect(all_are(source, sizeof source, DIRT), "writing back a bad table");
}

static void short_answers(void)
{
    memset(table, DIRT, sizeof table);
    memset(scratch, DIRT, sizeof scratch);
    memset(verdicts, DIRT, sizeof verdicts);
    memset(parts, DIRT, sizeof parts);
    memset(reg, DIRT, sizeof reg);
    for (size_t len = 0; len < MPT_ANSWER_SIZE; len++) {
        memset(answer, DIRT, sizeof answer);
        expect(mpt_register_init(reg, sizeof reg, answer, len) == MPT_ANSWER, "a short answer area");
        expect(mpt_register_store(reg, sizeof reg, 0, table, 19, answer, len) == MPT_ANSWER, "a short answer area");
        expect(mpt_register_remove(reg, sizeof reg, 0, answer, len) == MPT_ANSWER, "a short answer area");
        expect(mpt_register_match(reg, sizeof reg, 0, NULL, 0, scratch, 6, parts, 2, 0, answer, len) == MPT_ANSWER,
               "a short answer area");
        expect(mpt_register_search(reg, sizeof reg, NULL, 0, scratch, 6, parts, 2, answer, len) == MPT_ANSWER,
               "a short answer area");
        expect(mpt_compile((const uint8_t *)"2N", 2, table, 19, answer, len) == MPT_ANSWER, "a short answer area");
        expect(mpt_write_back(table, 19, source, 2, answer, len) == MPT_ANSWER, "a short answer area");
        expect(mpt_match(table, 19, NULL, 0, scratch, 6, parts, 2, 0, answer, len) == MPT_ANSWER,
               "a short answer area");
        expect(mpt_match_batch(table, 19, NULL, 0, NULL, 0, scratch, 6, verdicts, 1, parts, 2, 0, answer, len) == MPT_ANSWER,
               "a short answer area");
        expect(all_are(answer, sizeof answer, DIRT), "a short answer area written");
        expect(all_are(table, sizeof table, DIRT), "a table written by refusal 9");
    }
    expect(all_are(reg, sizeof reg, DIRT), "a register written by refusal 9");
    expect(all_are(scratch, sizeof scratch, DIRT), "scratch written by refusal 9");
    expect(all_are(verdicts, sizeof verdicts, DIRT) && all_are(parts, sizeof parts, DIRT), "outputs written by refusal 9");
}

static void long_answers(void)
{
    uint8_t area[MPT_ANSWER_SIZE + 9];
    for (size_t len = MPT_ANSWER_SIZE; len <= sizeof area; len++) {
        memset(area, DIRT, sizeof area);
        expect(mpt_compile((const uint8_t *)"2N", 2, table, sizeof table, area, len) == 0, "a long answer area");
        expect(mpt_answer_value(area) == 19 && all_are(area + 16, 16, 0), "the table length in a long answer area");
        expect(all_are(area + MPT_ANSWER_SIZE, sizeof area - MPT_ANSWER_SIZE, DIRT), "bytes after the answer");
    }
}

static void null_pointers(void)
{
    expect(mpt_compile(NULL, 0, NULL, 0, answer, sizeof answer) == MPT_FORM, "no source");
    answered(0, 0, 0, "answer of no source");
    expect(mpt_compile((const uint8_t *)"2N", 2, NULL, 0, answer, sizeof answer) == MPT_ROOM, "no table room");
    expect(mpt_write_back(NULL, 0, NULL, 0, answer, sizeof answer) == MPT_TABLE, "no table");
    expect(mpt_match(NULL, 0, NULL, 0, NULL, 0, NULL, 0, 0, answer, sizeof answer) == MPT_TABLE, "nothing to match");
    size_t len = compile("300\"\"", 0, 0);
    expect(mpt_write_back(table, len, NULL, 0, answer, sizeof answer) == MPT_ROOM, "no source room");
    expect(mpt_match(table, len, NULL, 0, NULL, 0, parts, 2, 0, answer, sizeof answer) == MPT_WORK, "no scratch");
    expect(mpt_match(table, len, NULL, 0, scratch, 6, NULL, 0, 0, answer, sizeof answer) == MPT_PARTS, "no parts");
    expect(mpt_match(table, len, NULL, 0, scratch, 6, parts, 2, 0, answer, sizeof answer) == 0, "an empty label");
    answered(0, 1, 0, "answer of an empty label");
    expect(mpt_match_batch(NULL, 0, NULL, 0, NULL, 0, NULL, 0, NULL, 0, NULL, 0, 0, answer, sizeof answer) == MPT_TABLE,
           "no table for a batch");
    expect(mpt_match_batch(table, len, NULL, 0, NULL, 0, NULL, 0, NULL, 0, NULL, 0, 0, answer, sizeof answer) == 0,
           "a batch of nothing");
    expect(mpt_register_init(NULL, 0, answer, sizeof answer) == MPT_REGISTER, "no register");
    expect(mpt_register_store(NULL, 0, 0, NULL, 0, answer, sizeof answer) == MPT_REGISTER, "no register");
    expect(mpt_register_remove(NULL, 0, 0, answer, sizeof answer) == MPT_REGISTER, "no register");
    expect(mpt_register_match(NULL, 0, 0, NULL, 0, NULL, 0, NULL, 0, 0, answer, sizeof answer) == MPT_REGISTER,
           "no register");
    expect(mpt_register_search(NULL, 0, NULL, 0, NULL, 0, NULL, 0, answer, sizeof answer) == MPT_REGISTER, "no register");
    on_register(mpt_register_init(reg, sizeof reg, answer, sizeof answer), 0, "the start");
    expect(mpt_register_search(reg, sizeof reg, NULL, 0, NULL, 0, NULL, 0, answer, sizeof answer) == 0,
           "a search for an empty label in an empty register");
    answered(0, 0, 0, "answer of a search in an empty register");
    expect(mpt_register_init(NULL, 0, NULL, 0) == MPT_ANSWER, "no answer area");
    expect(mpt_register_search(NULL, 0, NULL, 0, NULL, 0, NULL, 0, NULL, 0) == MPT_ANSWER, "no answer area");
    expect(mpt_compile(NULL, 0, NULL, 0, NULL, 0) == MPT_ANSWER, "no answer area");
    expect(mpt_write_back(NULL, 0, NULL, 0, NULL, 0) == MPT_ANSWER, "no answer area");
    expect(mpt_match(NULL, 0, NULL, 0, NULL, 0, NULL, 0, 0, NULL, 0) == MPT_ANSWER, "no answer area");
    expect(mpt_match_batch(NULL, 0, NULL, 0, NULL, 0, NULL, 0, NULL, 0, NULL, 0, 0, NULL, 0) == MPT_ANSWER,
           "no answer area");
}

int main(void)
{
    reading();
    compiling();
    matching();
    batches();
    refused_batches();
    registers();
    searches();
    refused_registers();
    version_1();
    largest();
    writing_back();
    short_answers();
    long_answers();
    null_pointers();
    printf("no surprise\n");
    return 0;
}
