/* Tries the builder's calls: the table of a list of commands, and the list of a table. Names the cases that fail; the exit status tells. */
#include "stepmachine.h"
#include <stdio.h>
#include <string.h>

#define ENTRY STEPMACHINE_ENTRY_BYTES
#define STATE STEPMACHINE_STATE_BYTES

/* The bytes of the longest table, and the most commands of a table. */
#define TABLE STEPMACHINE_TABLE_BYTES
#define LIST STEPMACHINE_TABLE_ENTRIES

/* A list of commands, with 0 for the bytes that a command lacks, and its table. */
struct pair {
    size_t count, bytes;
    uint8_t list[22][ENTRY], table[48];
};

/* Document 01's printed table; the shortest table; every command. */
static const struct pair pairs[] = {
    {6, 10, {{0x02, 0}, {0x05, 1, 1}, {0x01}, {0x00}, {0x01}, {0x00}}, {0x02, 0x02, 0x00, 0x05, 0x01, 0x01, 0x01, 0x00, 0x01, 0x00}},
    {1, 2, {{0x00}}, {0x01, 0x00}},
    {22, 48,
     {{0x02, 0}, {0x03, 1}, {0x04, 7}, {0x01}, {0x05, 1, 0x80}, {0x06, 1}, {0x07, 0xFF, 1}, {0x08, 7, 2}, {0x09, 6}, {0x0A, 5}, {0x0B, 4},
      {0x0C, 0x78, 0x56, 0x34, 0x12}, {0x0D, 15}, {0x0E, 14}, {0x0F, 0}, {0x10, 3}, {0x0D, 1}, {0x0F, 2}, {0x0E, 3}, {0x11, 1}, {0x00}, {0x00}},
     {0x02, 0x02, 0x00, 0x03, 0x01, 0x04, 0x07, 0x01, 0x05, 0x01, 0x80, 0x06, 0x01, 0x07, 0xFF, 0x01, 0x08, 0x07, 0x02, 0x09, 0x06, 0x0A,
      0x05, 0x0B, 0x04, 0x0C, 0x78, 0x56, 0x34, 0x12, 0x0D, 0x0F, 0x0E, 0x0E, 0x0F, 0x00, 0x10, 0x03, 0x0D, 0x01, 0x0F, 0x02, 0x0E, 0x03,
      0x11, 0x01, 0x00, 0x00}}};

/* How many operand bytes a command has. */
static const uint8_t operands[] = {0, 0, 1, 1, 1, 2, 1, 2, 2, 1, 1, 1, 4, 1, 1, 1, 1, 1};

/* What the calls write, and what has to stand there after them. */
static uint8_t table[TABLE + 2], table_due[TABLE + 2];
static uint8_t list[LIST + 2][ENTRY], list_due[LIST + 2][ENTRY];
static uint8_t state[STATE];
static unsigned failures;

/* Names a case that does not hold. */
static void check(int holds, const char *name, size_t which)
{
    if (holds)
        return;
    printf("fails: %s (%u)\n", name, (unsigned)which);
    failures++;
}

/* EACH CALL, AND EVERY BYTE AFTER IT */

/* A list makes these bytes, in a buffer of so many. */
static void builds(const uint8_t *entries, size_t count, const uint8_t *bytes, size_t size, size_t room)
{
    size_t length = 77;
    memset(table, 0xA5, sizeof table);
    memset(table_due, 0xA5, sizeof table_due);
    memcpy(table_due, bytes, size);
    check(stepmachine_build(entries, count, table, room, &length) == 0, "a list is built", room);
    check(length == size, "the table's length", size);
    check(memcmp(table, table_due, sizeof table) == 0, "the table, and no byte past it", size);
}

/* A list is refused, with a buffer of so many bytes. */
static void unbuilt(const uint8_t *entries, size_t count, size_t room, unsigned number, const char *name)
{
    size_t length = 77;
    memset(table, 0xA5, sizeof table);
    memset(table_due, 0xA5, sizeof table_due);
    check(stepmachine_build(entries, count, table, room, &length) == number, name, number);
    check(length == 77 && memcmp(table, table_due, sizeof table) == 0, "a refused build leaves every byte and the length", number);
}

/* A table has these commands, in so many entries. */
static void lists(const uint8_t *bytes, size_t size, const uint8_t *entries, size_t count, size_t room)
{
    size_t found = 77;
    memset(list, 0x5A, sizeof list);
    memset(list_due, 0x5A, sizeof list_due);
    memcpy(list_due, entries, count * ENTRY);
    check(stepmachine_commands(bytes, size, list[0], room, &found) == 0, "a table is listed", room);
    check(found == count, "how many commands", count);
    check(memcmp(list, list_due, sizeof list) == 0, "the commands, and no entry past them", count);
}

/* A table's commands are refused, with so many entries. */
static void unlisted(const uint8_t *bytes, size_t size, size_t room, unsigned number, const char *name)
{
    size_t found = 77;
    memset(list, 0x5A, sizeof list);
    memset(list_due, 0x5A, sizeof list_due);
    check(stepmachine_commands(bytes, size, list[0], room, &found) == number, name, number);
    check(found == 77 && memcmp(list, list_due, sizeof list) == 0, "a refused listing leaves every entry and the count", number);
}

/* A list and a table make each other, in every room that is enough and in none that is not. */
static void both(const uint8_t *entries, size_t count, const uint8_t *bytes, size_t size)
{
    size_t room;
    for (room = 0; room < size; room++)
        unbuilt(entries, count, room, 18, "a buffer shorter than the table");
    for (; room <= size + 1; room++)
        builds(entries, count, bytes, size, room);
    for (room = 0; room < count; room++)
        unlisted(bytes, size, room, 18, "fewer entries than commands");
    for (; room <= count + 1; room++)
        lists(bytes, size, entries, count, room);
}

/* LISTS AND THEIR TABLES */

/* Bytes that a command lacks are not looked at. */
static void fillers(const struct pair *one, uint8_t byte)
{
    uint8_t filled[22][ENTRY];
    size_t k, j;
    memcpy(filled, one->list, sizeof filled);
    for (k = 0; k < one->count; k++)
        for (j = operands[filled[k][0]] + 1u; j < ENTRY; j++)
            filled[k][j] = byte;
    builds(filled[0], one->count, one->table, one->bytes, TABLE);
}

/* What one call wrote serves the other. */
static void round_trips(const struct pair *one)
{
    size_t length = 0, found = 0;
    stepmachine_commands(one->table, one->bytes, list[0], LIST, &found);
    builds(list[0], found, one->table, one->bytes, TABLE);
    stepmachine_build(one->list[0], one->count, table, TABLE, &length);
    lists(table, length, one->list[0], one->count, LIST);
}

/* The bytes of a list: its number of ENDs, which a byte holds, and one command after the other. */
static size_t joined(const uint8_t *entries, size_t count, uint8_t *bytes)
{
    size_t k, width, size = 1;
    bytes[0] = 0;
    for (k = 0; k < count; k++, entries += ENTRY) {
        width = entries[0] < sizeof operands ? operands[entries[0]] + 1u : 1;
        bytes[0] += entries[0] == 0x00;
        memcpy(bytes + size, entries, width);
        size += width;
    }
    return size;
}

/* Every list of three of these and an END is built or refused as the start takes its bytes, which are never cut (4). */
static void sweep(void)
{
    static const uint8_t some[][ENTRY] = {
        {0x00}, {0x01}, {0x02, 7}, {0x02, 8}, {0x05, 1, 0xFF}, {0x06, 2}, {0x07, 0xFF, 1}, {0x08, 7, 2}, {0x08, 0, 3}, {0x0B, 0},
        {0x0C, 0, 0x11, 0xFF, 1}, {0x0D, 15}, {0x0F, 16}, {0x10, 0}, {0x10, 1}, {0x10, 2}, {0x10, 9}, {0x11, 1}, {0x12}, {0xFF}};
    const size_t kinds = sizeof some / ENTRY;
    uint8_t entries[4][ENTRY] = {{0}}, bytes[20];
    size_t k, size;
    unsigned number;
    for (k = 0; k < kinds * kinds * kinds; k++) {
        memcpy(entries[0], some[k / kinds / kinds], ENTRY);
        memcpy(entries[1], some[k / kinds % kinds], ENTRY);
        memcpy(entries[2], some[k % kinds], ENTRY);
        size = joined(entries[0], 4, bytes);
        number = stepmachine_start(bytes, size, state, STATE);
        check(number != 4, "no list makes a cut table", k);
        if (number == 0)
            both(entries[0], 4, bytes, size);
        else
            unbuilt(entries[0], 4, TABLE, number, "a list's number is that of its bytes");
    }
}

/* LISTS AND TABLES THAT ARE REFUSED */

/* Lists: every number but 4. The table's number comes before 18. */
static void refused_lists(void)
{
    static const struct { uint8_t number, count, list[5][ENTRY]; } row[] = {
        {1, 0, {{0}}}, {2, 1, {{0x01}}}, {3, 2, {{0x12}, {0x00}}}, {3, 2, {{0xFF}, {0x00}}}, {5, 2, {{0x02, 8}, {0x00}}},
        {5, 2, {{0x08, 0, 3}, {0x00}}}, {5, 2, {{0x0D, 16}, {0x00}}}, {5, 2, {{0x10, 0}, {0x00}}}, {5, 2, {{0x10, 9}, {0x00}}},
        {6, 2, {{0x06, 0}, {0x00}}}, {6, 2, {{0x06, 1}, {0x00}}}, {6, 2, {{0x11, 0}, {0x00}}}, {6, 3, {{0x00}, {0x05, 1, 0}, {0x00}}},
        {7, 3, {{0x10, 1}, {0x01}, {0x00}}}, {7, 3, {{0x10, 2}, {0x0D, 0}, {0x00}}}, {7, 4, {{0x10, 1}, {0x10, 1}, {0x0D, 0}, {0x00}}},
        {8, 2, {{0x00}, {0x01}}}, {8, 2, {{0x00}, {0xFF}}}, {9, 5, {{0x07, 0x40, 1}, {0x00}, {0x05, 2, 0}, {0x00}, {0x00}}},
        {10, 5, {{0x07, 17, 1}, {0x00}, {0x02, 0}, {0x04, 0}, {0x00}}}, {11, 4, {{0x07, 17, 1}, {0x00}, {0x08, 0, 0}, {0x00}}},
        {12, 5, {{0x07, 255, 1}, {0x00}, {0x07, 255, 2}, {0x00}, {0x00}}}};
    size_t k;
    for (k = 0; k < sizeof row / sizeof row[0]; k++) {
        unbuilt(row[k].list[0], row[k].count, TABLE, row[k].number, "a refused list");
        unbuilt(row[k].list[0], row[k].count, 0, row[k].number, "the table's number comes before 18");
    }
}

/* Tables: every number, before 18 too. */
static void refused_tables(void)
{
    static const struct { uint8_t number, bytes, table[10]; } row[] = {
        {1, 0, {0}}, {1, 1, {0x01}}, {2, 2, {0x00, 0x00}}, {2, 2, {0x11, 0x00}}, {3, 2, {0x01, 0x12}}, {4, 2, {0x01, 0x11}}, {4, 2, {0x01, 0x01}},
        {4, 2, {0x02, 0x00}}, {5, 4, {0x01, 0x02, 0x08, 0x00}}, {6, 4, {0x01, 0x06, 0x00, 0x00}}, {7, 5, {0x01, 0x10, 0x01, 0x01, 0x00}},
        {8, 3, {0x01, 0x00, 0x00}}, {9, 10, {0x03, 0x07, 0x40, 0x01, 0x00, 0x05, 0x02, 0x00, 0x00, 0x00}},
        {10, 8, {0x02, 0x07, 0x11, 0x01, 0x00, 0x02, 0x00, 0x00}}, {11, 9, {0x02, 0x07, 0x11, 0x01, 0x00, 0x08, 0x00, 0x00, 0x00}},
        {12, 10, {0x03, 0x07, 0xFF, 0x01, 0x00, 0x07, 0xFF, 0x02, 0x00, 0x00}}};
    size_t k;
    for (k = 0; k < sizeof row / sizeof row[0]; k++) {
        unlisted(row[k].table, row[k].bytes, LIST, row[k].number, "a refused table");
        unlisted(row[k].table, row[k].bytes, 0, row[k].number, "the table's number comes before 18");
    }
}

/* LONG LISTS */

static uint8_t many[65537][ENTRY];

/* So many entries of one command byte, and an END for the last. */
static const uint8_t *repeated(uint8_t byte, size_t count)
{
    size_t k;
    memset(many, 0, sizeof many);
    for (k = 0; k + 1 < count; k++)
        many[k][0] = byte;
    return many[0];
}

/* Byte 0 is the number of ENDs, also where a byte does not hold it. */
static void ends(void)
{
    static const size_t above[] = {17, 255, 256, 257, 272, 300, 2047};
    static const uint8_t bytes[17] = {16};
    size_t k;
    both(repeated(0x00, 16), 16, bytes, 17);
    for (k = 0; k < sizeof above / sizeof above[0]; k++)
        unbuilt(repeated(0x00, above[k]), above[k], TABLE, 2, "more than sixteen ENDs");
    unbuilt(repeated(0x00, 2048), 2048, TABLE, 1, "more bytes than a table has, before the ENDs");
}

/* The longest table has 2,047 commands; a byte that is no command is one byte. */
static void longest(void)
{
    static uint8_t bytes[TABLE];
    memset(bytes, 0x01, TABLE - 1);
    both(repeated(0x01, 2047), 2047, bytes, TABLE);
    unbuilt(repeated(0x01, 2048), 2048, TABLE, 1, "2,049 bytes");
    unbuilt(repeated(0x01, 65537), 65537, TABLE, 1, "65,538 bytes");
    unbuilt(repeated(0xFF, 2047), 2047, TABLE, 3, "2,048 bytes that are no commands");
    unbuilt(repeated(0xFF, 2048), 2048, TABLE, 1, "2,049 bytes that are no commands");
    unbuilt(repeated(0x0C, 411), 411, TABLE, 1, "410 PUTs and an END have 2,052 bytes");
    repeated(0x0C, 410);
    builds(many[0], 410, bytes, joined(many[0], 410, bytes), TABLE);
}

/* Document 01's limit of work: 253 FETCH more are accepted, 254 give 12. */
static void work(void)
{
    static const uint8_t loops[][ENTRY] = {{0x07, 255, 1}, {0x00}, {0x07, 254, 2}, {0x00}, {0x00}};
    static uint8_t bytes[TABLE];
    repeated(0x0D, 254);
    memcpy(many[253], loops, sizeof loops);
    both(many[0], 258, bytes, joined(many[0], 258, bytes));
    repeated(0x0D, 255);
    memcpy(many[254], loops, sizeof loops);
    unbuilt(many[0], 259, TABLE, 12, "254 FETCH more");
}

/* TABLES THAT WERE BUILT */

/* Builds a list and starts its table. Gives the length. */
static size_t started(const uint8_t *entries, size_t count)
{
    size_t length = 0;
    check(stepmachine_build(entries, count, table, TABLE, &length) == 0, "a list is built", count);
    check(stepmachine_start(table, length, state, STATE) == 0, "a table that was built starts", length);
    return length;
}

/* The printed table's answers. */
static void printed(void)
{
    static const uint8_t order[] = {0, 0, 0, 0, 1, 0, 0, 1, 1, 0};
    static const uint8_t expected[] = {0, 0, 0, 16, 0, 0, 0, 0, 0, 15};
    size_t k, length = started(pairs[0].list[0], pairs[0].count);
    for (k = 0; k < sizeof order; k++)
        check(stepmachine_step(table, length, state, STATE, order[k]) == expected[k], "the answer of a line of the printed table", k + 1);
}

/* PUT's value, lowest byte first, and an ATOM that stores it in a cell and adds it again. */
static void value(void)
{
    static const uint8_t entries[][ENTRY] = {{0x0C, 0x01, 0x02, 0x03, 0x04}, {0x10, 2}, {0x0E, 3}, {0x0F, 3}, {0x00}};
    static const uint8_t twice[] = {0x02, 0x04, 0x06, 0x08};
    size_t k, length = started(entries[0], 5);
    for (k = 0; k < 3; k++)
        check(stepmachine_step(table, length, state, STATE, 0) == 0, "a step of PUT, ATOM and END", k + 1);
    check(memcmp(state + 16 + 4 * 3, twice, 4) == 0, "the cell has twice the value", 3);
    check(stepmachine_step(table, length, state, STATE, 0) == 15, "main has ended", 4);
}

int main(void)
{
    const struct pair *one;
    for (one = pairs; one < pairs + sizeof pairs / sizeof pairs[0]; one++) {
        both(one->list[0], one->count, one->table, one->bytes);
        fillers(one, 0x01);
        fillers(one, 0xFF);
        round_trips(one);
    }
    sweep();
    refused_lists();
    refused_tables();
    ends();
    longest();
    work();
    printed();
    value();
    printf("%u cases fail\n", failures);
    return failures != 0;
}
