/* Bench through the C header: a text with every form, and a refusal of the buffers, the list and the text. */
#include "check.h"

enum { RECORDS = 5 };

static const char text[] = "# a text of two inputs\r\n"
                           "INPUT(a)\r\n"
                           "IN PUT( b ) # blanks are skipped\r\n"
                           "OUTPUT(y)\r\n"
                           "\r\n"
                           "n1 = NAND(b, a)\r\n"
                           "n2\t=\tBUFF(n1)\r\n"
                           "y = XOR(n2, a, n2)";

/* A row for each of AND, NAND, OR, NOR, XOR, XNOR, NOT and BUF: contact, delay, rise, fall and two peaks. */
static const uint8_t list[LIST] = {
    0, 1, 1, 1, 0,  0, 0,  0,
    1, 2, 3, 4, 44, 1, 55, 1,
    0, 1, 1, 1, 0,  0, 0,  0,
    0, 1, 1, 1, 0,  0, 0,  0,
    2, 3, 4, 5, 66, 2, 77, 2,
    0, 1, 1, 1, 0,  0, 0,  0,
    0, 1, 1, 1, 0,  0, 0,  0,
    3, 4, 5, 6, 88, 3, 99, 3,
};

/* Nets 0 and 1 are a and b, nets 2 to 4 are n1, n2 and y. */
static const uint8_t block[RECORDS * RECORD] = {
    1, 0, 0, 0, 0, 0, 0, 0, 0, 0, 0, 0, 0, 0, 0,  0, 0,  0, 15, 0,
    1, 0, 0, 0, 0, 0, 0, 0, 0, 0, 0, 0, 0, 0, 0,  0, 0,  0, 15, 0,
    3, 1, 2, 2, 1, 0, 0, 0, 0, 0, 0, 0, 3, 4, 44, 1, 55, 1, 0,  0,
    9, 3, 4, 1, 2, 0, 0, 0, 0, 0, 0, 0, 5, 6, 88, 3, 99, 3, 0,  0,
    6, 2, 3, 3, 3, 0, 0, 0, 3, 0, 0, 0, 4, 5, 66, 2, 77, 2, 0,  0,
};

/* What a call is given to read, and how long a record buffer. */
struct given {
    const char *text;
    size_t text_length;
    const uint8_t *list;
    size_t list_length, records_length;
};

static const struct given accepted = {text, sizeof text - 1, list, LIST, BLOCK};

/* What a call is lent to write, and the answer. */
struct lent {
    uint8_t records[BLOCK + 1];
    uint64_t answer[NUMBERS];
};

static struct lent lent, untouched;

/* Returns 1 if the buffer does not begin with so many records of the block, or is changed past them. */
static int check_records(const char *name, size_t records)
{
    const size_t length = RECORD * records;

    if (memcmp(lent.records, block, length) != 0 ||
        memcmp(lent.records + length, untouched.records + length, sizeof lent.records - length) != 0) {
        fprintf(stderr, "%s: the record buffer is not as expected\n", name);
        return 1;
    }
    return 0;
}

/* Calls with everything that a call may write filled before, and checks the answer and the records. A refused call
 * writes none. */
static int check(const char *name, struct given given, const uint64_t expected[NUMBERS])
{
    memset(&untouched, 0xEE, sizeof untouched);
    lent = untouched;
    zimgurav_bench((const uint8_t *)given.text, given.text_length, given.list, given.list_length, lent.records,
                   given.records_length, lent.answer);
    return check_numbers(name, lent.answer, expected) +
           check_records(name, expected[0] == 0 ? (size_t)expected[1] : 0);
}

/* Texts that are accepted, and such that are not. */
static int check_texts(void)
{
    const uint64_t five[NUMBERS] = {0, RECORDS};
    const uint64_t three[NUMBERS] = {0, 3};
    const uint64_t no_record[NUMBERS] = {ZIMGURAV_REFUSED_FIRST};
    const uint64_t line[NUMBERS] = {ZIMGURAV_REFUSED_LINE, 8};
    const uint64_t name[NUMBERS] = {ZIMGURAV_REFUSED_NAME, 7};
    struct given to_n1 = accepted, empty = accepted, no_bracket = accepted, unknown = accepted;
    char with_n3[sizeof text];

    to_n1.text_length = (size_t)(strstr(text, "n2") - text);
    empty.text_length = 0;
    no_bracket.text_length--;
    memcpy(with_n3, text, sizeof text);
    strstr(with_n3, "n1)")[1] = '3';
    unknown.text = with_n3;
    return check("whole text", accepted, five) + check("text up to n1", to_n1, three) +
           check("empty text", empty, no_record) + check("last bracket missing", no_bracket, line) +
           check("unknown name", unknown, name);
}

/* Record buffers and lists that are accepted, and such that are not. */
static int check_buffers(void)
{
    const uint64_t five[NUMBERS] = {0, RECORDS};
    const uint64_t records[NUMBERS] = {ZIMGURAV_REFUSED_BUFFER, 1};
    const uint64_t length[NUMBERS] = {ZIMGURAV_REFUSED_BUFFER, 2};
    const uint64_t row[NUMBERS] = {ZIMGURAV_REFUSED_RANGE, 3};
    struct given long_records = accepted, short_records = accepted, short_list = accepted, bad_row = accepted;
    uint8_t without_delay[LIST];

    long_records.records_length++;
    short_records.records_length--;
    short_list.list_length--;
    memcpy(without_delay, list, LIST);
    without_delay[3 * ZIMGURAV_LIST_ROW_BYTES + 1] = 0;
    bad_row.list = without_delay;
    return check("long record buffer", long_records, five) + check("short record buffer", short_records, records) +
           check("short list", short_list, length) + check("row without delay", bad_row, row);
}

int main(void)
{
    return check_texts() + check_buffers() != 0;
}
