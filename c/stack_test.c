/* Each call on a full block, or on a text of one, and the second maker on inputs that a sort may go deep on, on a stack of
 * ZIMGURAV_STACK_BYTES with nothing below it: more would end the program.
 * Prints how much of the stack each call used; the first one's is with the dynamic linker's look-up of memset. */
#define _GNU_SOURCE
#include <stdlib.h>
#include <sys/mman.h>
#include <ucontext.h>
#include <unistd.h>

#include "check.h"

enum { NETS = ZIMGURAV_MOST_NETS, INPUTS = ZIMGURAV_MOST_INPUTS, UNORDERED = 33, BUDGET = 20, UNUSED = 0xEE };

/* The longest line has five names of 16 letters, a kind word, and marks with the line's end. */
enum { LINE = 5 * 16 + 4 + 7 };

static uint8_t file[RECORD * NETS];
static uint8_t unordered[RECORD * 2 * UNORDERED];
static uint16_t table[CONTACTS * ZIMGURAV_MOST_NODES];
static zimgurav_word sheet[WORDS];
static uint8_t pattern[PATTERN];
static uint8_t by_net[INPUTS];
static uint8_t order[ORDER];
static uint8_t work[ZIMGURAV_WORK_BYTES(NETS)];
static uint8_t store[ZIMGURAV_STORE_BYTES(BUDGET)];
static char text[LINE * NETS];
static size_t text_length;
static uint8_t list[LIST];
static uint8_t records[BLOCK];
static uint64_t answer[NUMBERS];

/* Gates of every kind and pin count, each fed by nets 64 to 127 before it, so that there are at most 15 in a row. The
 * inputs are listed by net. */
static void make_block(void)
{
    for (int net = 0; net < NETS; net++) {
        uint8_t *const record = &file[RECORD * net];
        const int kind = net < INPUTS ? 1 : 2 + net % 8;
        const int pins = kind == 1 ? 0 : kind >= 8 ? 1 : 2 + net / 8 % 3;

        record[0] = (uint8_t)kind;
        if (kind == 1) {
            record[18] = 15;
            by_net[net] = (uint8_t)net;
            continue;
        }
        record[1] = (uint8_t)(net % CONTACTS);
        record[2] = (uint8_t)(1 + 7 * net % 17);
        record[3] = (uint8_t)pins;
        for (int pin = 0; pin < pins; pin++) {
            const int before = net - INPUTS - (31 * net + 17 * pin) % INPUTS;
            const int fed_by = before < 0 ? (net + pin) % INPUTS : before;

            record[4 + 2 * pin] = (uint8_t)(fed_by % 256);
            record[5 + 2 * pin] = (uint8_t)(fed_by / 256);
        }
        record[12] = (uint8_t)(1 + 5 * net % 127);
        record[13] = (uint8_t)(1 + 11 * net % 127);
        record[15] = (uint8_t)net;
        record[17] = (uint8_t)(3 * net);
    }
    for (size_t i = 0; i < sizeof table / sizeof *table; i++) {
        table[i] = (uint16_t)(257 * i);
    }
}

/* Inputs that are low or rise, each with a buffer whose peak is its own, so that the second maker sorts them by the peaks.
 * A quicksort that takes medians of few as pivots calls itself ten deep on this order of them. */
static void make_unordered(void)
{
    static const uint8_t ranks[UNORDERED] = {1, 30, 22, 16, 29, 32, 26, 21, 14, 27, 19, 23, 3, 17, 11, 12, 0,
                                             7, 13, 15, 28, 20, 25, 2, 4, 5, 31, 6, 9, 8, 10, 18, 24};

    for (int net = 0; net < UNORDERED; net++) {
        uint8_t *const input = &unordered[RECORD * net];
        uint8_t *const gate = &unordered[RECORD * (UNORDERED + net)];
        const int peak = 56800 + 100 * ranks[net];

        input[0] = ZIMGURAV_INPUT;
        input[18] = 9;
        gate[0] = ZIMGURAV_BUF;
        gate[1] = gate[2] = gate[3] = gate[12] = gate[13] = 1;
        gate[4] = (uint8_t)net;
        gate[14] = (uint8_t)(peak % 256);
        gate[15] = (uint8_t)(peak / 256);
    }
}

/* Adds a name of 16 letters, which differs from that of another net in the last ones. */
static void add_name(int net)
{
    text_length += (size_t)sprintf(text + text_length, "net%013d", net);
}

/* The block's text, with every name as long as it can be. */
static void make_text(void)
{
    static const char *const words[] = {"AND", "NAND", "OR", "NOR", "XOR", "XNOR", "NOT", "BUF"};

    for (int net = 0; net < NETS; net++) {
        const uint8_t *const record = &file[RECORD * net];

        if (record[0] == ZIMGURAV_INPUT) {
            text_length += (size_t)sprintf(text + text_length, "INPUT(");
            add_name(net);
        } else {
            add_name(net);
            text_length += (size_t)sprintf(text + text_length, "=%s(", words[record[0] - ZIMGURAV_AND]);
        }
        for (int pin = 0; pin < record[3]; pin++) {
            text_length += (size_t)sprintf(text + text_length, pin == 0 ? "" : ",");
            add_name(record[4 + 2 * pin] + 256 * record[5 + 2 * pin]);
        }
        text_length += (size_t)sprintf(text + text_length, ")\n");
    }
    memset(list, 1, sizeof list);
}

static void call_read(void)
{
    zimgurav_read(file, sizeof file, answer);
}

static void call_envelope(void)
{
    zimgurav_envelope(file, sizeof file, 2, table, sizeof table / sizeof *table, sheet, WORDS, work, sizeof work,
                      answer);
}

static void call_simulate(void)
{
    zimgurav_simulate(file, sizeof file, table, sizeof table / sizeof *table, sheet, WORDS, pattern, PATTERN, work,
                      sizeof work, answer);
}

static void call_search(void)
{
    zimgurav_search(file, sizeof file, 2, table, sizeof table / sizeof *table, 1000, BUDGET, by_net, sizeof by_net,
                    sheet, WORDS, pattern, PATTERN, work, sizeof work, store, sizeof store, answer);
}

static void call_cone_order(void)
{
    zimgurav_cone_order(file, sizeof file, order, answer);
}

static void call_bound_order(void)
{
    zimgurav_bound_order(file, sizeof file, 2, table, sizeof table / sizeof *table, work, sizeof work, order, answer);
}

static void call_unordered(void)
{
    zimgurav_bound_order(unordered, sizeof unordered, 10, table, CONTACTS, work, sizeof work, order, answer);
}

static void call_bench(void)
{
    zimgurav_bench((const uint8_t *)text, text_length, list, sizeof list, records, sizeof records, answer);
}

/* A stack with a page below it that cannot be read or written. */
static uint8_t *make_stack(void)
{
    const size_t page = (size_t)sysconf(_SC_PAGESIZE);
    uint8_t *const pages =
        mmap(NULL, page + ZIMGURAV_STACK_BYTES, PROT_READ | PROT_WRITE, MAP_PRIVATE | MAP_ANONYMOUS, -1, 0);

    if (pages == MAP_FAILED || mprotect(pages, page, PROT_NONE) != 0) {
        perror("no stack");
        exit(1);
    }
    return pages + page;
}

/* Makes a call on the stack. Returns whether it was refused, or not made at all. */
static int check_call(const char *name, void (*call)(void), uint8_t *stack)
{
    static ucontext_t here, there;
    size_t unused = 0;

    memset(stack, UNUSED, ZIMGURAV_STACK_BYTES);
    memset(answer, UNUSED, sizeof answer);
    getcontext(&there);
    there.uc_stack.ss_sp = stack;
    there.uc_stack.ss_size = ZIMGURAV_STACK_BYTES;
    there.uc_link = &here;
    makecontext(&there, call, 0);
    swapcontext(&here, &there);
    while (unused < ZIMGURAV_STACK_BYTES && stack[unused] == UNUSED) {
        unused++;
    }
    printf("%s: %zu bytes of stack\n", name, ZIMGURAV_STACK_BYTES - unused);
    if (answer[0] != 0) {
        fprintf(stderr, "%s: answer[0] is %" PRIu64 "\n", name, answer[0]);
        return 1;
    }
    return 0;
}

int main(void)
{
    const uint64_t counts[NUMBERS] = {0, NETS, INPUTS};
    const uint64_t count[NUMBERS] = {0, NETS};
    const uint64_t inputs[NUMBERS] = {0, INPUTS};
    const uint64_t sorted[NUMBERS] = {0, UNORDERED};
    uint8_t *const stack = make_stack();
    int wrong = 0;

    make_block();
    make_unordered();
    make_text();
    wrong += check_call("search", call_search, stack);
    wrong += check_call("simulate", call_simulate, stack);
    wrong += check_call("envelope", call_envelope, stack);
    wrong += check_call("read", call_read, stack);
    wrong += check_numbers("read", answer, counts);
    wrong += check_call("cone order", call_cone_order, stack);
    wrong += check_numbers("cone order", answer, inputs);
    wrong += check_call("bound order", call_bound_order, stack);
    wrong += check_numbers("bound order", answer, inputs);
    wrong += check_call("bound order, inputs out of order", call_unordered, stack);
    wrong += check_numbers("bound order, inputs out of order", answer, sorted);
    wrong += check_call("bench", call_bench, stack);
    wrong += check_numbers("bench", answer, count);
    return wrong != 0;
}
