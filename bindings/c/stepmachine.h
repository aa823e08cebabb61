/* The step machine's calls over lent bytes. The state's layout is in docs/STATE-BYTES.md.
   Link crates/host/out/libhost.a, which `rt lib` in crates/host writes, for x86-64.

   Each call answers the documents' number: 0, 101 to 108 for fault F1 to F8, or 1 to 18. The table's number 1 to 12 comes first; a state handed
   in that has another length, or bytes that encode no state, give 13. Then a buffer for what the call writes that has another length than
   it needs gives 255, and every lent byte stays as it was.

   A refused start writes the state of zeros, a refused ready set is 0, a refused count is 0, a refused sheet is zeros, each where the
   buffer has the right length. Every other refused call leaves every lent byte as it was.

   A list of commands is entries of 5 bytes, one after the other: the command byte, its operand bytes as they stand in a table
   (PUT's value lowest byte first), then bytes that the command lacks. The k commands of an ATOM are entries of their own after it. `count` is entries, not bytes: of an array
   `uint8_t list[n][STEPMACHINE_ENTRY_BYTES]` hand over `list[0]` and n.

   Every pointer is valid for its length and not null. A buffer that a call writes overlaps no other buffer of the call. */
#ifndef STEPMACHINE_H
#define STEPMACHINE_H

#include <stddef.h>
#include <stdint.h>

#define STEPMACHINE_STATE_VERSION 1
#define STEPMACHINE_STATE_BYTES 13776
#define STEPMACHINE_SHEET_BYTES 1024
#define STEPMACHINE_ENTRY_BYTES 5
/* Room for every table, and for the commands of every table. */
#define STEPMACHINE_TABLE_BYTES 2048
#define STEPMACHINE_TABLE_ENTRIES 2047

#ifdef __cplusplus
extern "C" {
#endif

/* The start state of a table. Another length of the state gives 255. */
uint8_t stepmachine_start(const uint8_t *table, size_t table_bytes, uint8_t *state, size_t state_bytes);

/* A step of an activity that the host picks. */
uint8_t stepmachine_step(const uint8_t *table, size_t table_bytes, uint8_t *state, size_t state_bytes, size_t activity);

/* Who can step: bit i for activity i; 0 where the call is refused. */
uint8_t stepmachine_ready(const uint8_t *table, size_t table_bytes, const uint8_t *state, size_t state_bytes, uint64_t *set);

/* How many activities an activity waits for: where the answer is 0, 0 for one that can step, else as many as a step answered with 16 waits
   for. Answers 0 or 1 to 15; the count is 0 where the call is refused. */
uint8_t stepmachine_awaited(const uint8_t *table, size_t table_bytes, const uint8_t *state, size_t state_bytes, size_t activity,
                            uint8_t *count);

/* The standing sheet: 64 rows of 16 bytes, by activity and clock number; zeros where the call is refused. Another length of the sheet gives
   255. */
uint8_t stepmachine_registrations(const uint8_t *table, size_t table_bytes, const uint8_t *state, size_t state_bytes, uint8_t *sheet,
                                  size_t sheet_bytes);

/* A run from the start state, a step for each byte of the order: each step's answer, and the state after the last. Too little room for the
   answers, or another length of the state, gives 255. */
uint8_t stepmachine_run(const uint8_t *table, size_t table_bytes, const uint8_t *order, size_t order_bytes, uint8_t *answers,
                        size_t answers_bytes, uint8_t *state, size_t state_bytes);

/* The table of a list of commands, and its length: the table_bytes of later calls. Bytes that a command lacks are not looked at. A list is
   refused as its table would be; then a buffer shorter than the table gives 18. */
uint8_t stepmachine_build(const uint8_t *entries, size_t count, uint8_t *table, size_t table_bytes, size_t *length);

/* The commands of a table, with 0 in the bytes that a command lacks, and how many. Fewer entries than commands give 18. */
uint8_t stepmachine_commands(const uint8_t *table, size_t table_bytes, uint8_t *entries, size_t count, size_t *found);

#ifdef __cplusplus
}
#endif

#endif
