/* Zarukohen for C: read, translate, run and mend tables, print them as C text and read that, try their orders, and tell what their steps cost. The calls are proved: on a stack that is large enough (below)
 * none traps or runs without end, whatever the bytes, and each determines every number of its answer and every byte of the lent buffers.
 * docs/CONTRACTS.md says in words what each promises.
 *
 * A buffer is a pointer and its length. Pointers must be valid for their lengths; a buffer of length 0 needs a non-null pointer. Lent
 * buffers must not overlap each other or the inputs. The numbers of an answer go into `answer`, each where the array has a place for it.
 *
 * A number of refusal other than 0 comes with zeros, and with no other buffer changed. */
#ifndef ZARU_H
#define ZARU_H

#include <stddef.h>
#include <stdint.h>

#ifdef __cplusplus
extern "C" {
#endif

/* Ends of a run. */
enum { ZARU_FINISHED = 0, ZARU_USED_UP = 1, ZARU_BLOCKED = 2, ZARU_AT_BUDGET = 3 };

/* Why a run blocked; 0 if it did not. Of several faults the first to be judged is told: operands from left to right, each with its
 * kind, then the range of the result; a write's value, its index expression, its pointer, then the index against the size; a call's
 * arguments in order. In an atomic block it is that of the first instruction inside that blocks. */
enum {
    ZARU_REASON_NONE = 0,
    ZARU_REASON_OUTSIDE_RANGE = 1,   /* a number outside -2,147,483,648 to 2,147,483,647 */
    ZARU_REASON_WRONG_KIND = 2,      /* a value of the wrong kind; a select's cell that is no number */
    ZARU_REASON_INDEX_OUTSIDE = 3,   /* an index that is negative or not below the size; a select's entry outside its location */
    ZARU_REASON_FINISHED_THREAD = 4  /* the entry names a finished thread; a select's cell that is 0 */
};

/* How many numbers the answers have. */
enum { ZARU_READ_NUMBERS = 6, ZARU_TRANSLATE_NUMBERS = 2, ZARU_TEXT_NUMBERS = 2, ZARU_RUN_NUMBERS = 6, ZARU_BENCH_NUMBERS = 22, ZARU_PRICES_NUMBERS = 3, ZARU_MEND_NUMBERS = 3 };

/* The places of the bench's counts in its answer, and the most allotments that it tries. */
enum { ZARU_BENCH_FIRST_COUNT = 3, ZARU_BENCH_COUNTS = 19, ZARU_MOST_ALLOTMENTS = 1000000 };

/* The modes of the translator. In the first each local of each procedure has a location of its own in the copy. In the second a procedure's
 * locals begin behind the last of its callers' locals, or at the first place without callers, and procedures that are placed together share
 * locations: no fixed placement that keeps apart what is on one call path takes fewer. Runs have the same steps, reads, writes
 * and ends; of a blocked run that is said of all but its last round. */
enum { ZARU_OWN_LOCALS = 0, ZARU_SHARED_LOCALS = 1 };

/* The kinds of tables for the mender; the bytes of a change in its list, and those of the longest list. */
enum { ZARU_CONCURRENT = 0, ZARU_SEQUENTIAL = 1, ZARU_CHANGE = 6, ZARU_LONGEST_LIST = 96 };

/* The most steps that a translated program's copy may need, and the longest copy. */
#define ZARU_BUDGET UINT64_C(140000000)
#define ZARU_LONGEST_COPY 65536

/* The bytes that are enough for the cells of every concurrent table, of every copy, and of every sequential table. */
#define ZARU_CONCURRENT_CELLS 10240
#define ZARU_COPY_CELLS 53925
#define ZARU_SEQUENTIAL_CELLS 81920

/* The longest C text of a sequential table. */
#define ZARU_LONGEST_TEXT 3373119

/* The bytes of stack that each call needs, measured and not proved: lib/stored.c makes each call on a thread that has exactly so many, on
 * every stored case, the deepest programs among them, and at least 8 KB are left. On a smaller stack the process ends by a fault in the
 * guard page: frames are touched page by page. The main thread has enough as a rule; another gets it by pthread_attr_setstacksize. */
#define ZARU_STACK_READ (32 * 1024)
#define ZARU_STACK_TRANSLATE (72 * 1024)
#define ZARU_STACK_RUN_CONCURRENT (240 * 1024)
#define ZARU_STACK_RUN_PLAIN (304 * 1024)
#define ZARU_STACK_RUN_SEQUENTIAL (552 * 1024)
#define ZARU_STACK_BENCH (236 * 1024)
#define ZARU_STACK_PRICES (60 * 1024)
#define ZARU_STACK_MEND (32 * 1024)
#define ZARU_STACK_C_TEXT (48 * 1024)
#define ZARU_STACK_FROM_C_TEXT (128 * 1024)

/* answer: number, procedures, locations, threads, labels (sequential: 0), cells. */
void zaru_read_concurrent(const uint8_t *table, size_t table_length, uint64_t *answer, size_t answer_length);
void zaru_read_sequential(const uint8_t *table, size_t table_length, uint64_t *answer, size_t answer_length);

/* answer: number, length of the sequential table that was written to `out`. Refused by 1 to 8 as the reader, then by 9: that table would
 * pass 65,536 bytes, then by 10: `out` is too short for it. Both go by the length in the mode wanted.
 * mode: ZARU_OWN_LOCALS, or ZARU_SHARED_LOCALS (as every other number). */
void zaru_translate(const uint8_t *table, size_t table_length, uint64_t mode, uint8_t *out, size_t out_length, uint64_t *answer,
                    size_t answer_length);

/* A sequential table as C11 text (docs/C-TEXT.md), and back: text and table are one to one.
 * answer: number, length of what was written to `out`. Printing refuses by 1 to 8 as the reader, then by 10: `out` is too short. Reading refuses
 * every text that is not the one of an accepted table by 1, then by 10. A refusal writes nothing. */
void zaru_c_text(const uint8_t *table, size_t table_length, uint8_t *out, size_t out_length, uint64_t *answer, size_t answer_length);
void zaru_from_c_text(const uint8_t *text, size_t text_length, uint8_t *out, size_t out_length, uint64_t *answer,
                      size_t answer_length);

/* The bytes of a cell and of an event. An event is thread (1 byte), 0 read or 1 write (1), location (2), index (2), value (5: as a cell),
 * label of the step (2), numbers low byte first; the sequential run has the number of the procedure it is in as the label. */
#define ZARU_CELL 5
#define ZARU_EVENT 13

/* answer: number, end, steps, unused entries, events (those not written included), reason. Events that fit whole are written. The plain run is the
 * concurrent one as the report has it, by the code that remains: it gives the same numbers, cells and events, but 0 as their label. */
void zaru_run_concurrent(const uint8_t *table, size_t table_length, const uint8_t *schedule, size_t schedule_length,
                         uint8_t *cells, size_t cells_length, uint8_t *events, size_t events_length, uint64_t *answer,
                         size_t answer_length);
void zaru_run_plain(const uint8_t *table, size_t table_length, const uint8_t *schedule, size_t schedule_length, uint8_t *cells,
                    size_t cells_length, uint8_t *events, size_t events_length, uint64_t *answer, size_t answer_length);
void zaru_run_sequential(const uint8_t *table, size_t table_length, const uint8_t *schedule, size_t schedule_length,
                         uint64_t budget, size_t h, uint8_t *cells, size_t cells_length, uint8_t *events,
                         size_t events_length, uint64_t *answer, size_t answer_length);

/* The round-robin bench: tries the orders of `rounds` rounds (k), in each round the threads in rising order, each given from 0 to `most`
 * steps (s), up to the first that blocks. An order is an allotment: k times T counts, round by round; steps of a finished thread are left
 * out. Allotment i is i written to base s + 1, the first count varying slowest, and there are (s + 1) to the power of k times T.
 * answer: number, found (1 or 0), the allotment's number, its counts (19 places, the rest 0); without a find all zeros. Cells are those of
 * the last run: of the one that blocked, before the blocked step, or of the last allotment. The schedule that the counts are, count c of
 * thread t being c times t, makes zaru_run_concurrent block, and tells why.
 * Refused by 13: k below 1, s not 1 to 64, or more than 1,000,000 allotments; it is judged after 8 and before 12. */
void zaru_bench(const uint8_t *table, size_t table_length, uint64_t rounds, uint64_t most, uint8_t *cells,
                size_t cells_length, uint64_t *answer, size_t answer_length);

/* What the step at a label of a concurrent table costs its copy, by the paper's price list. Labels count from 1, as the reader counts them.
 * answer: number, the least and the most. They differ only where an if stands in an atomic block, and lie over the ways through it; the price of
 * each step that a run takes at that label lies between them. 0 and 0 for a label that there is not. */
void zaru_prices(const uint8_t *table, size_t table_length, uint64_t label, uint64_t *answer, size_t answer_length);
/* The mender for lost trailers: if `table` is accepted as a table of the kind wanted, there is nothing to mend. Else its last sixteen bytes
 * become the trailer of the one choice of P, M and T that makes an acceptable table of that length; bytes before them are never changed.
 * Each changed byte is listed in `list` by rising place: its place (4 bytes, low byte first), its old and its new value; at most 16.
 * answer: number, mended (1 or 0), changed bytes. With number 0 and mended 0 there was nothing to mend.
 * Refused by 1: under 16 bytes; 2: too long for its kind; 14: no choice is acceptable; 15: more than one is; 10: the list is too short.
 * kind: ZARU_CONCURRENT, or ZARU_SEQUENTIAL (as every other number). */
void zaru_mend(uint8_t *table, size_t table_length, uint64_t kind, uint8_t *list, size_t list_length, uint64_t *answer,
               size_t answer_length);

#ifdef __cplusplus
}
#endif

#endif
