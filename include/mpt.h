/* M patterns: compile a pattern to a table, match a label or a batch of them against it within a budget, write a table
 * back as source, keep tables by number in a register, match by number and search a register for the pattern of a label.
 *
 * Each call returns its refusal number, 0 for none (enum mpt_refusal). No input needs checking first: any bytes may be
 * handed over, and every call ends. A refused call writes nothing but its answer, save MPT_BUDGET, which clears the scratch
 * bytes used as a verdict does, and a search ended by MPT_WORK or MPT_PARTS, which leaves those of the patterns before cleared.
 *
 * Each slice is lent with its true length; a length of 0 may come with a null pointer. Nothing that a call writes (table,
 * source, scratch, verdicts, parts, register, answer) may share bytes with anything else lent to that call. Nothing is
 * allocated and the library has no data that is written: calls may run in any number of threads at once, each with its own
 * slices to write.
 *
 * The answer area is MPT_ANSWER_SIZE bytes: four little-endian 64-bit numbers, position; table or source length, or verdict
 * (1 yes, 0 no); trials (with MPT_BUDGET the budget), or the number at which a search ended; the patterns that a search skipped,
 * else 0. A batch and the calls on a register other than a match and a search answer 0 in all four. A shorter area gives
 * MPT_ANSWER, looked at before all else, and nothing is written; the bytes after the 32 stay as they were.
 *
 * docs/C.md has the order of refusals, what to do about each, and what is left in the lent slices.
 */
#ifndef MPT_H
#define MPT_H

#include <stddef.h>
#include <stdint.h>

#ifdef __cplusplus
extern "C" {
#endif

enum mpt_refusal {
    MPT_LONG = 1,      /* source over 2,048 bytes */
    MPT_FORM = 2,      /* not a pattern */
    MPT_CODE = 3,      /* a letter other than A C E L N P U as a code */
    MPT_NUMBER = 4,    /* a repeat number over 9,999 */
    MPT_RANGE = 5,     /* both repeat numbers fit and the second is less */
    MPT_ATOMS = 6,     /* a 257th atom */
    MPT_DEPTH = 7,     /* a group inside 8 others */
    MPT_ROOM = 8,      /* the lent output is too short */
    MPT_ANSWER = 9,    /* the answer area is too short */
    MPT_TABLE = 11,    /* the bytes are not a good table */
    MPT_LABEL = 12,    /* label over 255 bytes */
    MPT_WORK = 13,     /* scratch too short: see MPT_SCRATCH_SIZE */
    MPT_PARTS = 14,    /* parts too short: 2 bytes for each top-level atom */
    MPT_BUDGET = 15,   /* more trials than the budget */
    MPT_BATCH = 16,    /* a batch of over 96 labels, with ends at fault, or with verdicts or parts too short */
    MPT_FULL = 17,     /* the tables then kept would be longer than the register has room for */
    MPT_REGISTER = 18, /* not a good register, or shorter than MPT_REGISTER_MIN */
    MPT_MISSING = 19   /* the register has no table of that number */
};

enum {
    MPT_ANSWER_SIZE = 32,    /* the answer area */
    MPT_SOURCE_MAX = 2048,   /* a source, also one written back */
    MPT_ATOMS_MAX = 256,     /* atoms of a pattern, groups counted */
    MPT_TABLE_MAX = 4617,    /* a table: 9 + 256 * 10 + 2048 */
    MPT_PARTS_MAX = 512,     /* the parts of 256 atoms */
    MPT_LABEL_MAX = 255,     /* a label */
    MPT_BATCH_MAX = 96,      /* labels in a batch */
    MPT_REGISTER_MIN = 11272 /* a register without tables: 8 + 256 * 44 */
};

/* Scratch for a table of A atoms (mpt_table_atoms) and a label of n bytes, n at most MPT_LABEL_MAX: a longer label is refused
 * before scratch is looked at. MPT_SCRATCH_MAX always suffices; it is 33,816,576 bytes, more than a usual stack. */
#define MPT_SCRATCH_SIZE(A, n) ((2 * (size_t)(A) + 4) * ((size_t)(n) + 1) * ((size_t)(n) + 1))
#define MPT_SCRATCH_MAX MPT_SCRATCH_SIZE(MPT_ATOMS_MAX, MPT_LABEL_MAX)

/* A budget that is always enough for A atoms and n bytes, n at most MPT_LABEL_MAX: no match makes more trials. This macro and
 * MPT_SCRATCH_SIZE use their arguments more than once. */
#define MPT_BUDGET_ENOUGH(A, n) \
    ((uint64_t)(A) * ((uint64_t)(n) + 1) * ((uint64_t)(n) + 1) * ((uint64_t)(n) + 2) * ((uint64_t)(n) + 3) / 6)

/* A register that always has room for n tables, n at most 256, whatever their patterns. MPT_REGISTER_MAX, 1,193,224 bytes, is
 * never full. */
#define MPT_REGISTER_SIZE(n) (MPT_REGISTER_MIN + (size_t)(n) * MPT_TABLE_MAX)
#define MPT_REGISTER_MAX MPT_REGISTER_SIZE(256)

/* Writes a table of version 2. Every call that takes a table takes version 1 too, good by 64 atoms and 512 bytes of source. The
 * answer's value is the length of the table: lend the other calls that length, not the buffer's. */
uint32_t mpt_compile(const uint8_t *source, size_t source_len, uint8_t *table, size_t table_len, uint8_t *answer,
                     size_t answer_len);

uint32_t mpt_write_back(const uint8_t *table, size_t table_len, uint8_t *source, size_t source_len, uint8_t *answer,
                        size_t answer_len);

/* On yes, parts has for each top-level atom the place where its stretch ends, 16 bits each, little-endian. */
uint32_t mpt_match(const uint8_t *table, size_t table_len, const uint8_t *label, size_t label_len, uint8_t *scratch,
                   size_t scratch_len, uint8_t *parts, size_t parts_len, uint64_t budget, uint8_t *answer,
                   size_t answer_len);

/* Up to MPT_BATCH_MAX labels in one buffer, answered as mpt_match answers them in turn with the same scratch and budget.
 * Label k is the bytes from end k-1 (0 for the first) up to, not including, end k; ends are 16 bits each, little-endian.
 * verdicts gets a byte for each label: 1 yes, 0 no, else the label's refusal number (MPT_LABEL, MPT_WORK or MPT_BUDGET),
 * which doesn't refuse the call. With T top-level atoms the parts of label k are the 2 * T bytes from parts + 2 * T * k on,
 * written on yes only. MPT_BATCH refuses the call: half an end, too many labels, an end less than the one before or past
 * labels_len, less than 1 byte of verdicts or 2 * T bytes of parts for each label. */
uint32_t mpt_match_batch(const uint8_t *table, size_t table_len, const uint8_t *labels, size_t labels_len,
                         const uint8_t *ends, size_t ends_len, uint8_t *scratch, size_t scratch_len, uint8_t *verdicts,
                         size_t verdicts_len, uint8_t *parts, size_t parts_len, uint64_t budget, uint8_t *answer,
                         size_t answer_len);

/* A register keeps tables by number, 0 to 255, each with a summary of its pattern, all of them in the buffer reg. This call
 * starts an empty one there, whatever its bytes are: it looks at the length only and writes the first MPT_REGISTER_MIN bytes. */
uint32_t mpt_register_init(uint8_t *reg, size_t reg_len, uint8_t *answer, size_t answer_len);

/* Keeps a copy of the table under the number, in place of the one that stood there. MPT_FULL exactly when the lengths of all
 * tables then kept would exceed reg_len - MPT_REGISTER_MIN, so freed room is used again. */
uint32_t mpt_register_store(uint8_t *reg, size_t reg_len, uint8_t number, const uint8_t *table, size_t table_len,
                            uint8_t *answer, size_t answer_len);

/* The number has no table any more; MPT_MISSING if it had none. */
uint32_t mpt_register_remove(uint8_t *reg, size_t reg_len, uint8_t number, uint8_t *answer, size_t answer_len);

/* As mpt_match with the table of the number; the register stays as it is. */
uint32_t mpt_register_match(const uint8_t *reg, size_t reg_len, uint8_t number, const uint8_t *label, size_t label_len,
                            uint8_t *scratch, size_t scratch_len, uint8_t *parts, size_t parts_len, uint64_t budget,
                            uint8_t *answer, size_t answer_len);

/* The lowest number whose pattern matches the label: mpt_answer_value is 1, mpt_answer_pattern the number, and parts has its
 * parts. If none matches, both are 0 and no parts are written. The numbers that have a table are looked at upwards, none after
 * the first that matches, as by mpt_register_match with a budget that is always enough; so there is no budget, no trials are
 * answered, and the call may take long. A pattern whose summary rules out the label's length, or its first byte if it has one, is skipped,
 * which leaves scratch as its match would; mpt_answer_skipped counts these. Scratch or parts too short for a pattern that is
 * looked at, also for one to be skipped, end the search with MPT_WORK or MPT_PARTS, and mpt_answer_pattern is its number. */
uint32_t mpt_register_search(const uint8_t *reg, size_t reg_len, const uint8_t *label, size_t label_len, uint8_t *scratch,
                             size_t scratch_len, uint8_t *parts, size_t parts_len, uint8_t *answer, size_t answer_len);

/* Number k of the answer area, k from 0 to 3. After MPT_ANSWER the area has no answer. */
static inline uint64_t mpt_answer_number(const uint8_t *answer, size_t k)
{
    uint64_t number = 0;
    for (size_t byte = 8; byte > 0; byte--)
        number = number << 8 | answer[8 * k + byte - 1];
    return number;
}

/* Where the source is at fault, counted from 0; 0 for all else. */
static inline uint64_t mpt_answer_position(const uint8_t *answer) { return mpt_answer_number(answer, 0); }

/* The length of the table or source written; of a match or search 1 for yes, 0 for no. */
static inline uint64_t mpt_answer_value(const uint8_t *answer) { return mpt_answer_number(answer, 1); }

/* The trials of a match; with MPT_BUDGET the budget. */
static inline uint64_t mpt_answer_trials(const uint8_t *answer) { return mpt_answer_number(answer, 2); }

/* Of a search, the number that matched, or at which MPT_WORK or MPT_PARTS ended it; else 0. */
static inline uint64_t mpt_answer_pattern(const uint8_t *answer) { return mpt_answer_number(answer, 2); }

/* Of a search that is not refused, how many patterns it skipped. */
static inline uint64_t mpt_answer_skipped(const uint8_t *answer) { return mpt_answer_number(answer, 3); }

/* The atoms of a table that compiling wrote or that a call took, groups counted. */
static inline size_t mpt_table_atoms(const uint8_t *table)
{
    return table[3] == 1 ? table[5] : table[5] + (size_t)256 * table[6];
}

/* After yes, the stretch of top-level atom k, k from 0 on, is the label's bytes from begin up to, not including, end. */
static inline size_t mpt_part_end(const uint8_t *parts, size_t k)
{
    return parts[2 * k] + (size_t)256 * parts[2 * k + 1];
}

static inline size_t mpt_part_begin(const uint8_t *parts, size_t k) { return k == 0 ? 0 : mpt_part_end(parts, k - 1); }

/* The name of a refusal number, as MPT_LONG is LONG; NONE for 0, UNKNOWN for what is no refusal number. */
static inline const char *mpt_refusal_name(uint32_t number)
{
    switch (number) {
    case 0: return "NONE";
    case MPT_LONG: return "LONG";
    case MPT_FORM: return "FORM";
    case MPT_CODE: return "CODE";
    case MPT_NUMBER: return "NUMBER";
    case MPT_RANGE: return "RANGE";
    case MPT_ATOMS: return "ATOMS";
    case MPT_DEPTH: return "DEPTH";
    case MPT_ROOM: return "ROOM";
    case MPT_ANSWER: return "ANSWER";
    case MPT_TABLE: return "TABLE";
    case MPT_LABEL: return "LABEL";
    case MPT_WORK: return "WORK";
    case MPT_PARTS: return "PARTS";
    case MPT_BUDGET: return "BUDGET";
    case MPT_BATCH: return "BATCH";
    case MPT_FULL: return "FULL";
    case MPT_REGISTER: return "REGISTER";
    case MPT_MISSING: return "MISSING";
    default: return "UNKNOWN";
    }
}

#ifdef __cplusplus
}
#endif

#endif
