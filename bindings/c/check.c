/* Tries the calls over lent bytes: what each answers, and which bytes it leaves. Names the cases that fail; the exit status tells. */
#include "stepmachine.h"
#include <stdio.h>
#include <string.h>

#define STATE STEPMACHINE_STATE_BYTES
#define SHEET STEPMACHINE_SHEET_BYTES

/* Document 01's printed table, with its order of activities and their answers. */
static const uint8_t table[] = {0x02, 0x02, 0x00, 0x05, 0x01, 0x01, 0x01, 0x00, 0x01, 0x00};
static const uint8_t order[] = {0, 0, 0, 0, 1, 0, 0, 1, 1, 0};
static const uint8_t expected[] = {0, 0, 0, 16, 0, 0, 0, 0, 0, 15};

/* A table that is turned down with 2. */
static const uint8_t refused[] = {0x00, 0x00};

/* A state, with two bytes past it that no call may write, and what was noted of them. */
static uint8_t state[STATE + 2], noted[STATE + 2];
static unsigned failures;

/* Names a case that does not hold. */
static void check(int holds, const char *name, size_t which)
{
    if (holds)
        return;
    printf("fails: %s (%u)\n", name, (unsigned)which);
    failures++;
}

static void note(void)
{
    memcpy(noted, state, sizeof noted);
}

static int kept(void)
{
    return memcmp(state, noted, sizeof noted) == 0;
}

/* A step of the printed table. */
static unsigned step(size_t activity)
{
    return stepmachine_step(table, sizeof table, state, STATE, activity);
}

/* The printed table's state after the first steps of the order, noted. */
static void take(size_t steps)
{
    size_t k;
    memset(state, 0xA5, sizeof state);
    check(stepmachine_start(table, sizeof table, state, STATE) == 0, "an accepted start answers 0", 0);
    for (k = 0; k < steps; k++)
        step(order[k]);
    check(state[STATE] == 0xA5 && state[STATE + 1] == 0xA5, "nothing is written past the state", steps);
    note();
}

/* BUFFERS THAT DO NOT SERVE */

/* Step, ready set, count and sheet answer the number. The state stays; the set and the count are 0, the sheet zeros. */
static void refuse(const uint8_t *job, size_t job_bytes, size_t bytes, unsigned number, const char *name, size_t which)
{
    static const uint8_t none[SHEET] = {0};
    uint8_t sheet[SHEET];
    uint64_t set = 77;
    uint8_t count = 77;
    memset(sheet, 0x5A, SHEET);
    check(stepmachine_step(job, job_bytes, state, bytes, 0) == number, name, which);
    check(stepmachine_ready(job, job_bytes, state, bytes, &set) == number, name, which);
    check(stepmachine_awaited(job, job_bytes, state, bytes, 0, &count) == number, name, which);
    check(stepmachine_registrations(job, job_bytes, state, bytes, sheet, SHEET) == number, name, which);
    check(kept() && set == 0 && count == 0 && memcmp(sheet, none, SHEET) == 0, "the state is left, the set and the count are 0, the sheet zeros",
          which);
}

/* The table's number comes before 13. */
static void unfit(size_t bytes, const char *name, size_t which)
{
    refuse(table, sizeof table, bytes, 13, name, which);
    refuse(refused, sizeof refused, bytes, 2, "the table's number comes before 13", which);
}

/* A state of another length. */
static void lengths(void)
{
    static const size_t other[] = {0, 1, STATE - 1, STATE + 1};
    uint8_t answers[sizeof order];
    size_t k;
    take(3);
    for (k = 0; k < 4; k++) {
        unfit(other[k], "a state of another length gives 13", other[k]);
        check(stepmachine_start(table, sizeof table, state, other[k]) == 255, "the start's gives 255", other[k]);
        check(stepmachine_start(refused, sizeof refused, state, other[k]) == 2, "after the table's number", other[k]);
        check(stepmachine_run(table, sizeof table, order, sizeof order, answers, sizeof answers, state, other[k]) == 255,
              "and so does the run's", other[k]);
        check(kept(), "every byte is left", other[k]);
    }
}

/* Bytes that encode no state, and those of a state that breaks a rule of number 13 (the first). */
static void bytes(void)
{
    static const struct { size_t at; uint8_t byte; } wrong[] = {
        {1, 65}, {0, 0}, {0, 2}, {6, 1}, {8, 1}, {15, 1}, {80 + 5, 3}, {80 + 6, 1}, {463, 1}, {464 + 4, 4}, {464 + 5, 1},
        {464 + 16 + 2, 1}, {464 + 16 + 5, 3}, {464 + 16 + 6, 1}, {464 + 80 + 5, 1}, {13775, 1}};
    size_t k;
    for (k = 0; k < sizeof wrong / sizeof wrong[0]; k++) {
        take(3);
        state[wrong[k].at] = wrong[k].byte;
        note();
        unfit(STATE, "bytes that encode no state give 13", wrong[k].at);
    }
}

/* THE CALLS */

/* Whether the state is that of zeros: the version, and every other byte 0. */
static int zeros(void)
{
    size_t k, other = 0;
    for (k = 1; k < STATE; k++)
        other += state[k] != 0;
    return state[0] == STEPMACHINE_STATE_VERSION && other == 0 && state[STATE] == 0xA5;
}

/* A refused start leaves the state of zeros, in which nobody can step. */
static void starts(void)
{
    static const struct { uint8_t number, bytes, table[10]; } row[] = {
        {1, 0, {0}}, {1, 1, {1}}, {2, 2, {0x00, 0x00}}, {2, 2, {0x11, 0x00}}, {3, 2, {0x01, 0x12}}, {4, 2, {0x01, 0x11}}, {4, 2, {0x01, 0x01}},
        {5, 4, {0x01, 0x02, 0x08, 0x00}}, {6, 4, {0x01, 0x06, 0x00, 0x00}}, {7, 5, {0x01, 0x10, 0x01, 0x01, 0x00}},
        {8, 3, {0x01, 0x00, 0x00}}, {9, 10, {0x03, 0x07, 0x40, 0x01, 0x00, 0x05, 0x02, 0x00, 0x00, 0x00}}};
    uint64_t set = 77;
    size_t k;
    for (k = 0; k < sizeof row / sizeof row[0]; k++) {
        memset(state, 0xA5, sizeof state);
        check(stepmachine_start(row[k].table, row[k].bytes, state, STATE) == row[k].number, "a refused start's number", row[k].number);
        check(zeros(), "a refused start leaves the state of zeros", row[k].number);
    }
    check(step(0) == 14, "nobody is spawned in the state of zeros", 0);
    check(stepmachine_ready(table, sizeof table, state, STATE, &set) == 0 && set == 0, "nobody is ready there", 0);
}

/* The ready set has a bit for each activity that can step, tried on a copy. */
static void ready(size_t point)
{
    static uint8_t copy[STATE];
    uint64_t set = 0;
    unsigned i, answer;
    check(stepmachine_ready(table, sizeof table, state, STATE, &set) == 0 && kept(), "a ready set", point);
    for (i = 0; i < 64; i++) {
        memcpy(copy, state, STATE);
        answer = stepmachine_step(table, sizeof table, copy, STATE, i);
        check((set >> i & 1) == (answer == 0 || answer > 100), "the ready set says who can step", i);
    }
}

/* The call answers 14 and 15 as the step does, and 0 in place of 16, where the count is not 0. */
static void awaited(size_t point)
{
    static uint8_t copy[STATE];
    size_t i;
    for (i = 0; i < 66; i++) {
        uint8_t count = 77;
        unsigned step, answer = stepmachine_awaited(table, sizeof table, state, STATE, i, &count);
        memcpy(copy, state, STATE);
        step = stepmachine_step(table, sizeof table, copy, STATE, i);
        check(answer == (step == 14 || step == 15 ? step : 0), "the number of one who waits or can step is 0", i);
        check((count != 0) == (step == 16) && kept(), "the count is 0 exactly where the step does not answer 16", point);
    }
}

/* Main waits at a meeting for three children, one of them behind on two clocks, and not for one without a clock; then for two and for one. */
static void counts(void)
{
    static const uint8_t job[] = {0x02, 0x02, 0x03, 0x02, 0x05, 0x05, 0x01, 0x08, 0x05, 0x01, 0x20, 0x05, 0x01, 0x28, 0x05, 0x01, 0x00, 0x01, 0x00, 0x01, 0x00};
    static const struct { uint8_t activity, count; } row[] = {{0, 3}, {2, 2}, {1, 1}, {3, 0}};
    uint8_t count = 77;
    size_t k;
    check(stepmachine_start(job, sizeof job, state, STATE) == 0, "the start of five", 0);
    for (k = 0; k < 6; k++)
        stepmachine_step(job, sizeof job, state, STATE, 0);
    for (k = 0; k < 4; k++) {
        check(stepmachine_step(job, sizeof job, state, STATE, row[k].activity) == 0, "arrives", k);
        check(stepmachine_awaited(job, sizeof job, state, STATE, 0, &count) == 0 && count == row[k].count, "as many are behind", k);
    }
    check(stepmachine_awaited(job, sizeof job, state, STATE, 5, &count) == 14 && count == 0, "nobody was spawned", 5);
}

/* The printed table, one step a call. */
static void steps(void)
{
    unsigned answer;
    size_t k;
    take(0);
    for (k = 0; k < sizeof order; k++) {
        ready(k);
        awaited(k);
        answer = step(order[k]);
        check(answer == expected[k], "the answer of a line of the printed table", k + 1);
        check(kept() == (answer != 0), "a refused step leaves every byte, a taken one does not", k + 1);
        check(state[STATE] == 0xA5, "nothing is written past the state", k + 1);
        note();
    }
    check(step(2) == 14 && step(63) == 14 && step(64) == 14 && step(256) == 14 && step(SIZE_MAX) == 14, "nobody was spawned", 14);
    check(kept(), "every byte is left", 14);
}

/* The example of docs/STATE-BYTES.md: main at the meeting, and every byte that is not 0. */
static void example(void)
{
    static const struct { size_t at; uint8_t byte; } row[] = {{0, 1}, {1, 2}, {2, 1}, {4, 3}, {468, 1}, {471, 1}, {485, 2}, {544, 5},
                                                              {679, 1}, {693, 1}, {754, 1}};
    size_t k;
    take(3);
    memset(noted, 0, STATE);
    for (k = 0; k < sizeof row / sizeof row[0]; k++)
        noted[row[k].at] = row[k].byte;
    check(kept(), "the example of docs/STATE-BYTES.md", 3);
}

/* A fault: 100 plus its number, the standing, the steps taken. */
static void fault(void)
{
    static const uint8_t job[] = {0x03, 0x02, 0x00, 0x06, 0x01, 0x00, 0x05, 0x02, 0x01, 0x00, 0x01, 0x00};
    unsigned k, answer = stepmachine_start(job, sizeof job, state, STATE);
    for (k = 0; k < 3; k++)
        answer = stepmachine_step(job, sizeof job, state, STATE, 0);
    check(answer == 103, "F3 answers 103", answer);
    check(state[464 + 4] == 3 && state[464 + 5] == 3, "the standing is faulted, with F3", state[464 + 5]);
    check(state[4] == 3, "a faulting step is taken", state[4]);
}

/* A finish passes a fault on: the child F1, then the owner F8; fault bytes 1 and 8, and 9 encodes no state. */
static void passed_on(void)
{
    static const uint8_t job[] = {0x03, 0x06, 0x01, 0x00, 0x05, 0x02, 0x00, 0x00, 0x03, 0x00, 0x00};
    static const uint8_t picks[] = {0, 0, 0, 1, 0, 0}, gives[] = {0, 0, 16, 101, 108, 15};
    unsigned k, answer = stepmachine_start(job, sizeof job, state, STATE);
    for (k = 0; k < sizeof picks; k++) {
        answer = stepmachine_step(job, sizeof job, state, STATE, picks[k]);
        check(answer == gives[k], "a fault inside a finish", k);
    }
    check(state[464 + 4] == 3 && state[464 + 5] == 8 && state[672 + 4] == 3 && state[672 + 5] == 1, "F8 and F1", state[464 + 5]);
    check(state[4] == 4, "four steps are taken", state[4]);
    state[464 + 5] = 9;
    answer = stepmachine_step(job, sizeof job, state, STATE, 0);
    check(answer == 13, "there is no F9", answer);
}

/* A CHOOSE in a REPEAT: skipped with hand 0, run with hand 5; the body's 8 bytes, of which a run left gives 13. */
static void chosen(void)
{
    static const uint8_t job[] = {0x03, 0x07, 0x02, 0x01, 0x00, 0x11, 0x02, 0x0C, 0x05, 0x00, 0x00, 0x00, 0x00, 0x00};
    static const uint8_t body[] = {0, 0, 2, 0, 0, 0, 0, 0};
    unsigned k, answer = stepmachine_start(job, sizeof job, state, STATE);
    for (k = 0; k < 9; k++) {
        if (k == 5) {
            check(state[464 + 7] == 3 && memcmp(state + 464 + 80 + 16, body, sizeof body) == 0, "a CHOOSE body", state[464 + 7]);
            state[464 + 80 + 16 + 3] = 1;
            check(stepmachine_step(job, sizeof job, state, STATE, 0) == 13, "a CHOOSE body has no runs", k);
            state[464 + 80 + 16 + 3] = 0;
        }
        answer = stepmachine_step(job, sizeof job, state, STATE, 0);
        check(answer == 0, "a step", k);
    }
    check(stepmachine_step(job, sizeof job, state, STATE, 0) == 15 && state[4] == 9, "nine of ten steps", state[4]);
}

/* The sheet where main waits at the meeting: main quiesced, its child live. */
static void sheet(void)
{
    static uint8_t found[SHEET + 1];
    size_t k, others = 0;
    take(3);
    found[SHEET] = 0x5A;
    check(stepmachine_registrations(table, sizeof table, state, STATE, found, SHEET) == 0 && kept(), "a sheet", 0);
    for (k = 0; k < SHEET; k++)
        others += k != 0 && k != 16 && found[k] != 0;
    check(found[0] == 2 && found[16] == 1 && others == 0, "main quiesced, its child live, nobody else", others);
    check(found[SHEET] == 0x5A, "nothing is written past the sheet", 0);
}

/* Another room for the sheet. */
static void sheet_rooms(void)
{
    static const size_t other[] = {0, SHEET - 1, SHEET + 1};
    static uint8_t found[SHEET + 1];
    size_t k;
    take(3);
    for (k = 0; k < 3; k++) {
        check(stepmachine_registrations(table, sizeof table, state, STATE, found, other[k]) == 255, "another room gives 255", other[k]);
        check(stepmachine_registrations(refused, sizeof refused, state, STATE, found, other[k]) == 2, "after the table's number", other[k]);
        check(kept() && found[0] == 0 && found[16] == 0, "every byte is left", other[k]);
    }
}

/* A run answers and leaves what its steps do, one a call. */
static void run(size_t steps)
{
    static uint8_t ran[STATE];
    uint8_t answers[sizeof order + 1];
    take(steps);
    memset(answers, 99, sizeof answers);
    memset(ran, 0xA5, STATE);
    check(stepmachine_run(table, sizeof table, order, steps, answers, sizeof answers, ran, STATE) == 0, "a run is done", steps);
    check(memcmp(answers, expected, steps) == 0 && answers[steps] == 99, "its answers, and nothing past them", steps);
    check(memcmp(ran, state, STATE) == 0, "the state of its steps", steps);
}

/* A run that is refused. */
static void refused_run(void)
{
    uint8_t answers[sizeof order] = {99};
    take(3);
    check(stepmachine_run(table, sizeof table, order, sizeof order, answers, sizeof order - 1, state, STATE) == 255,
          "too little room for the answers gives 255", 255);
    check(stepmachine_run(refused, sizeof refused, order, sizeof order, answers, 0, state, STATE) == 2, "after the table's number", 2);
    check(kept() && answers[0] == 99, "a refused run leaves every byte", 0);
}

int main(void)
{
    size_t k;
    lengths();
    bytes();
    starts();
    steps();
    example();
    fault();
    passed_on();
    chosen();
    counts();
    sheet();
    sheet_rooms();
    for (k = 0; k <= sizeof order; k++)
        run(k);
    refused_run();
    printf("%u cases fail\n", failures);
    return failures != 0;
}
