/* Zimgurav: proved ceilings on the supply current of a gate block. REFERENCE.md says what all of it means.
 *
 * The library, libzimgurav.a, is for x86-64. Every value of every argument is accepted or refused; none is undefined
 * behaviour, as long as the caller keeps to the following.
 *
 * - A slice is a pointer and a length, which counts elements, not bytes. The pointer is good for that many elements; an
 *   array, which has no length beside it, for as many as are declared. Pointers are aligned for their types and not
 *   null. That holds where the length is 0 too, though nothing is then read or written through the pointer.
 * - What a pointer that is not const points to, the answer among them, overlaps nothing else that the call is lent.
 *   What is only read may overlap. What is lent to be written may hold anything before.
 * - Until the call returns, no other thread writes what it is lent, or reads what is lent to be written.
 *
 * It allocates nothing, keeps nothing between calls and has no data that can change, so that any number of
 * threads may call at once. It calls nothing but memcpy and memset. A call takes less than ZIMGURAV_STACK_BYTES of
 * stack.
 *
 * An answer is eight numbers, 0 past those that are named here. answer[0] is 0 where the call was accepted. Else it
 * is the refusal's number, answer[1] is its place, and no lent buffer but the answer was changed.
 *
 * A block file has a record for each net and nothing else. The number of a net is that of its record, from 0. Numbers
 * of two bytes have the low byte first.
 *
 *   byte 0         kind: 1 input, 2 AND, 3 NAND, 4 OR, 5 NOR, 6 XOR, 7 XNOR, 8 NOT, 9 BUF
 *   byte 1         contact, 0 to 15
 *   byte 2         delay in ticks, 1 to 63
 *   byte 3         how many pins are used: 1 for NOT and BUF, 2 to 4 for the other gates
 *   bytes 4 to 11  the nets of the four pins, each below the record's own; 0 where unused, and a used 0 is net 0
 *   bytes 12, 13   rise and fall of a pulse in ticks, each 1 to 127
 *   bytes 14 to 17 peaks of the pulses for lh and, after it, for hl, in microamperes
 *   byte 18        of an input the excitations that it is allowed, a sum of 1 (l), 2 (h), 4 (hl), 8 (lh); of a gate 0
 *   byte 19        0
 *
 * Inputs come before gates, and all their bytes but 0 and 18 are 0. The arrival of a net is 0 for an input, and for a gate the
 * greatest arrival of its pins plus its delay.
 */
#ifndef ZIMGURAV_HEADER
#define ZIMGURAV_HEADER

#include <stddef.h>
#include <stdint.h>

#ifdef __cplusplus
extern "C" {
#endif

/* The version of the calls. It goes up with every change of what a call takes, answers or writes: two builds of one
 * version give the same answers, sheets, patterns, stores, lists and records. */
#define ZIMGURAV_VERSION 6

/* The version of the linked library, which has to be ZIMGURAV_VERSION. */
uint64_t zimgurav_version(void);

/* A word of a sheet: a current in microamperes. The pulses of a gate add up, and so do the gates of a contact, so that
 * it can be above 32 bits. */
typedef uint64_t zimgurav_word;

#define ZIMGURAV_RECORD_BYTES 20     /* bytes of a record of a block file */
#define ZIMGURAV_BLOCK_BYTES 20480   /* least bytes of a record buffer: the records of the largest block */
#define ZIMGURAV_LIST_ROW_BYTES 8    /* bytes of a row of a list: a kind's contact, delay, rise, fall and peaks */
#define ZIMGURAV_LIST_BYTES 64       /* bytes of a list: a row for each kind of gate, AND first */
#define ZIMGURAV_CONTACTS 16         /* contacts: rows of a sheet, and resistances of a bus node in a table */
#define ZIMGURAV_ROW_TICKS 512       /* ticks of a row: its words */
#define ZIMGURAV_SHEET_WORDS 8192    /* words of a sheet: its rows, contact 0 first */
#define ZIMGURAV_PATTERN_BYTES 64    /* bytes of a pattern */
#define ZIMGURAV_ORDER_BYTES 64      /* bytes that a maker writes of a list of inputs: one an input, 0 past them */
#define ZIMGURAV_CASE_BYTES 72       /* bytes of a case in the store */
#define ZIMGURAV_ANSWER_NUMBERS 8    /* numbers of an answer */
#define ZIMGURAV_STACK_BYTES 81920   /* bytes of stack that are enough for any call */

#define ZIMGURAV_MOST_NETS 1024      /* the most nets of a block: its records */
#define ZIMGURAV_MOST_INPUTS 64      /* the most inputs of a block */
#define ZIMGURAV_MOST_HOPS 16        /* the greatest hop limit; the least is 1 */
#define ZIMGURAV_MOST_NODES 16       /* the most bus nodes of a table; the least number is 1 */
#define ZIMGURAV_LEAST_RATIO 1000    /* the least ratio */
#define ZIMGURAV_MOST_RATIO 10000    /* the greatest ratio */
#define ZIMGURAV_MOST_BUDGET 10000   /* the greatest budget; the least is 0 */

/* The least bytes of the work buffer for a block of so many nets. */
#define ZIMGURAV_WORK_BYTES(nets) ((size_t)160 * (size_t)(nets))

/* The least bytes of the case store for such a budget. */
#define ZIMGURAV_STORE_BYTES(budget) ((size_t)ZIMGURAV_CASE_BYTES * (1 + 3 * (size_t)(budget)))

/* What a net is: byte 0 of a record. */
enum zimgurav_kind {
    ZIMGURAV_INPUT = 1,
    ZIMGURAV_AND = 2,
    ZIMGURAV_NAND = 3,
    ZIMGURAV_OR = 4,
    ZIMGURAV_NOR = 5,
    ZIMGURAV_XOR = 6,
    ZIMGURAV_XNOR = 7,
    ZIMGURAV_NOT = 8,
    ZIMGURAV_BUF = 9
};

/* What a net does at a tick: of an input, a byte of a pattern. */
enum zimgurav_excitation {
    ZIMGURAV_L = 0,  /* stays low */
    ZIMGURAV_H = 1,  /* stays high */
    ZIMGURAV_HL = 2, /* falls */
    ZIMGURAV_LH = 3  /* rises */
};

/* The set with this excitation alone. The set of several is the sum of theirs. */
#define ZIMGURAV_SET(excitation) (1 << (excitation))

/* The refusals, by their numbers. Of several that apply the lowest is answered, but of 4 to 10 that of the lowest net,
 * and 19 comes after 14 and before 15; zimgurav_bench has an order of its own. The place is 0 where none is named. */
enum zimgurav_refusal {
    /* The file's length is not a multiple of 20 bytes. */
    ZIMGURAV_REFUSED_LENGTH = 1,
    /* There are more than 1,024 records. */
    ZIMGURAV_REFUSED_RECORDS = 2,
    /* There is no record, or the first record is not an input. */
    ZIMGURAV_REFUSED_FIRST = 3,
    /* A record's kind is 0 or above 9. The place is its net. */
    ZIMGURAV_REFUSED_KIND = 4,
    /* An input stands after a gate, or is the 65th. The place is its net. */
    ZIMGURAV_REFUSED_INPUT = 5,
    /* A gate's pin count is wrong for its kind. The place is its net. */
    ZIMGURAV_REFUSED_PIN_COUNT = 6,
    /* A byte that has to be 0 is not: 1 to 17 or 19 of an input, or an unused pin, 18 or 19 of a gate.
     * The place is the net. */
    ZIMGURAV_REFUSED_STRAY_BYTE = 7,
    /* A gate's pin is not a net below its own. The place is the gate's net. */
    ZIMGURAV_REFUSED_PIN = 8,
    /* A contact, delay, rise or fall of a gate or of a list's row, or an input's set of allowed excitations, is out of
     * range. The place is the net; the row, from 0, of a list. */
    ZIMGURAV_REFUSED_RANGE = 9,
    /* A gate's arrival is after tick 255. The place is its net. */
    ZIMGURAV_REFUSED_ARRIVAL = 10,
    /* The hop limit is not 1 to 16. */
    ZIMGURAV_REFUSED_HOP_LIMIT = 11,
    /* The table does not have 16 resistances for each of 1 to 16 bus nodes. */
    ZIMGURAV_REFUSED_TABLE = 12,
    /* The ratio is not 1,000 to 10,000. */
    ZIMGURAV_REFUSED_RATIO = 13,
    /* The budget is above 10,000. */
    ZIMGURAV_REFUSED_BUDGET = 14,
    /* A lent buffer has the wrong size. The place is 1 for the sheet, 2 for the pattern, 3 for the work buffer, 4 for
     * the case store; of zimgurav_bench 1 for the records, 2 for the list. Of several it is the lowest. */
    ZIMGURAV_REFUSED_BUFFER = 15,
    /* An input's byte of the pattern is no excitation that the input is allowed. The place is its net, of several the
     * lowest. */
    ZIMGURAV_REFUSED_PATTERN = 16,
    /* A line of the text fits no form, has no known kind or a wrong pin count, or is an INPUT after a gate.
     * The place is the line, from 1. */
    ZIMGURAV_REFUSED_LINE = 17,
    /* A line of the text uses a name that no earlier line gives, or gives one that an earlier line gave.
     * The place is the line, from 1. */
    ZIMGURAV_REFUSED_NAME = 18,
    /* The list of inputs to split does not name each input exactly once. It is checked after 14 and before 15. */
    ZIMGURAV_REFUSED_ORDER = 19
};

/* How a search ended. */
enum zimgurav_outcome {
    /* The bounds are equal. */
    ZIMGURAV_EXACT = 0,
    /* They are not, but the upper bound is at most ratio / 1000 times the lower. */
    ZIMGURAV_WITHIN = 1,
    /* Neither, and the budget is spent. */
    ZIMGURAV_SPENT = 2
};

/* Reads a block file. Refusals 1 to 10. Accepted: answer[1] nets, answer[2] inputs. */
void zimgurav_read(
    const uint8_t *file, size_t file_length, /* the block file */
    uint64_t answer[ZIMGURAV_ANSWER_NUMBERS]);

/* Writes a ceiling on the current of each contact at each tick into the sheet. Refusals 1 to 12 and 15. A gate has a
 * pulse for each tick at which it may switch, that of the greater peak where both edges may be; its pulses add up.
 * Accepted: answer[1] drop in nanovolts, answer[2] the quiet tick: the last tick at which some row of the sheet is not
 * 0, and 0 where the whole sheet is 0.
 */
void zimgurav_envelope(
    const uint8_t *file, size_t file_length,    /* the block file */
    uint64_t hop_limit,                         /* the most runs that a gate's sets keep for an excitation */
    const uint16_t *table, size_t table_length, /* 16 resistances in milliohms for each bus node; 16 for one node */
    zimgurav_word *sheet, size_t sheet_length,  /* ZIMGURAV_SHEET_WORDS */
    uint8_t *work, size_t work_length,          /* at least ZIMGURAV_WORK_BYTES; means nothing after an accepted call */
    uint64_t answer[ZIMGURAV_ANSWER_NUMBERS]);

/* Writes the current of each contact at each tick under one pattern into the sheet. Refusals 1 to 10, 12, 15 and 16. A
 * gate has a pulse for each tick at which it switches; its pulses add up.
 * Accepted: answer[1] drop in nanovolts, answer[2] the quiet tick: the last tick at which some row of the sheet is not
 * 0, and 0 where the whole sheet is 0.
 *
 * Byte i of a pattern is the excitation of input net i. Bytes past the inputs are not read.
 */
void zimgurav_simulate(
    const uint8_t *file, size_t file_length,       /* the block file */
    const uint16_t *table, size_t table_length,    /* as for zimgurav_envelope */
    zimgurav_word *sheet, size_t sheet_length,     /* ZIMGURAV_SHEET_WORDS */
    const uint8_t *pattern, size_t pattern_length, /* ZIMGURAV_PATTERN_BYTES */
    uint8_t *work, size_t work_length,             /* as for zimgurav_envelope */
    uint64_t answer[ZIMGURAV_ANSWER_NUMBERS]);

/* Searches, best first, for bounds on the greatest drop of any pattern of the block. Refusals 1 to 14, 19, 15. Writes a
 * ceiling on the current of each contact at each tick into the sheet, and a pattern that drops the lower bound.
 * Accepted: answer[1] outcome, answer[2] upper and answer[3] lower bound in nanovolts, answer[4] how many cases were
 * split, answer[5] how many cases the store holds, answer[6] the quiet tick: the last tick at which some row of the
 * sheet is not 0, and 0 where the whole sheet is 0. No pattern of the block draws current after it.
 *
 * A case in the store is 64 bytes with the set of each input, 0 past the inputs, then its upper number, 8 bytes, low
 * first. A set is a sum of 1 (l), 2 (h), 4 (hl), 8 (lh).
 *
 * The list has a byte for each input, and no other: the inputs' nets, each exactly once. A case is split at the first
 * input of the list whose set in the case has more than one member. zimgurav_cone_order and zimgurav_bound_order make a
 * list; the bounds hold with every list.
 */
void zimgurav_search(
    const uint8_t *file, size_t file_length,    /* the block file */
    uint64_t hop_limit,                         /* as for zimgurav_envelope */
    const uint16_t *table, size_t table_length, /* as for zimgurav_envelope */
    uint64_t ratio,                             /* upper / lower bound to reach, in thousandths */
    uint64_t budget,                            /* the most cases to split */
    const uint8_t *order, size_t order_length,  /* the inputs in the order to be split: as many bytes as inputs */
    zimgurav_word *sheet, size_t sheet_length,  /* ZIMGURAV_SHEET_WORDS */
    uint8_t *pattern, size_t pattern_length,    /* ZIMGURAV_PATTERN_BYTES; unchanged past the inputs */
    uint8_t *work, size_t work_length,          /* as for zimgurav_envelope */
    uint8_t *store, size_t store_length,        /* at least ZIMGURAV_STORE_BYTES; unchanged past the cases */
    uint64_t answer[ZIMGURAV_ANSWER_NUMBERS]);

/* Writes a list of the inputs for zimgurav_search, made from the block alone. Refusals 1 to 10. The input with most
 * gates in its fan-out cone comes first, the lowest net on a tie; the cone has the gates that an input feeds, directly
 * or through others. Whether an input is decided, its set having one member, does not matter.
 * Accepted: answer[1] inputs: the first answer[1] bytes are the list.
 */
void zimgurav_cone_order(
    const uint8_t *file, size_t file_length, /* the block file */
    uint8_t order[ZIMGURAV_ORDER_BYTES],     /* written whole: the inputs' nets, then 0 */
    uint64_t answer[ZIMGURAV_ANSWER_NUMBERS]);

/* Writes a list of the inputs for zimgurav_search, made from bounds. Refusals 1 to 12 and 15, with place 3. Each input
 * whose set has more than one member is tried: the upper numbers of the cases that a split of the whole frame at it
 * makes, as zimgurav_search gives them, are sorted, the greatest first, and filled with 0 to four. The input with the
 * smallest four comes first: with the smallest first number, on a tie with the smallest second, and so on; the lowest
 * net where all four are equal. The inputs with one member follow by net.
 * Accepted: answer[1] inputs: the first answer[1] bytes are the list.
 */
void zimgurav_bound_order(
    const uint8_t *file, size_t file_length,    /* the block file */
    uint64_t hop_limit,                         /* as for zimgurav_envelope */
    const uint16_t *table, size_t table_length, /* as for zimgurav_envelope */
    uint8_t *work, size_t work_length,          /* as for zimgurav_envelope */
    uint8_t order[ZIMGURAV_ORDER_BYTES],        /* written whole: the inputs' nets, then 0 */
    uint64_t answer[ZIMGURAV_ANSWER_NUMBERS]);

/* Turns a bench text into the records of a block. Refusals 15 and 9; then line by line 17, and after it 18; then 2, 3,
 * 5 and 10, of the records that the text gives. Accepted: answer[1] how many records were written, from the buffer's
 * beginning: its first ZIMGURAV_RECORD_BYTES * answer[1] bytes are a block file.
 *
 * A line ends at byte 10, the last one also at the text's end; lines count from 1. A comment goes from # to the line's
 * end. Blanks (bytes 9, 13 and 32) are skipped wherever they stand, inside names and words too. What is left of a line
 * is nothing or one of
 *
 *   INPUT(name)              an input that is allowed all four excitations; no INPUT stands after a gate
 *   OUTPUT(name)             gives no record, and its name need not be known
 *   name=KIND(name,...)      a gate and its pins, in this order; names of the pins are given by earlier lines
 *
 * A name is 1 to 16 letters (A to Z, a to z) or digits, and given once. KIND is AND, NAND, OR, NOR, XOR, XNOR (2 to 4
 * pins), NOT, BUF or, for BUF, BUFF (1 pin). Small letters are other letters than capitals.
 *
 * A row of the list has the contact, delay, rise, fall, peak for lh and peak for hl of all gates of a kind, as bytes 1,
 * 2 and 12 to 17 of a record. Row 0 is AND's, row 7 BUF's.
 */
void zimgurav_bench(
    const uint8_t *text, size_t text_length, /* the bench text */
    const uint8_t *list, size_t list_length, /* ZIMGURAV_LIST_BYTES */
    uint8_t *records, size_t records_length, /* at least ZIMGURAV_BLOCK_BYTES; unchanged past the records */
    uint64_t answer[ZIMGURAV_ANSWER_NUMBERS]);

#ifdef __cplusplus
}
#endif

#endif
