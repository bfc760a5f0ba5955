/* The C calls on programs A and B of the paper, on one whose procedures may share cells, on one that blocks in few orders, and on one whose
 * atomic block has two prices: what they answer, and which bytes they leave alone. */
#include "zaru.h"
#include <stdio.h>
#include <string.h>

/* A: one thread whose body is empty. */
static const uint8_t A[] = {0x00, 0, 0, 0, 0, 0, 0, 0, 0, 0x43, 0x50, 1, 0, 0, 0, 1, 0, 8, 0, 0, 0, 25, 0, 0, 0};

/* B: p := location 0; v := p[0]; p[0] := v + 1, in two threads. */
static const uint8_t B[] = {0x20, 0, 0x02, 0, 0, 0x22, 1, 0, 0x01, 0, 0, 0, 0, 0x21, 0, 0x01, 0, 0, 0, 0, 0x10, 0x05, 1, 0x01, 1, 0, 0, 0,
                            0x00, 0, 2, 0, 0, 0, 0, 1, 0, 0, 0, 0, 0, 0x43, 0x50, 1, 0, 1, 0, 2, 0, 12, 0, 0, 0, 57, 0, 0, 0};

static const uint8_t LOST[] = {0, 0, 1, 1, 0, 1, 0, 1};

/* Thread 0 is finished after four entries; the fifth chooses it again. */
static const uint8_t AGAIN[] = {0, 0, 0, 0, 0, 1};

/* D: examples/rare_block.zaru. It blocks only where a share is lost. */
static const uint8_t D[] = {
    0x20, 0, 0x02, 0, 0, 0x22, 1, 0, 0x01, 0, 0, 0, 0, 0x21, 0, 0x01, 0, 0, 0, 0, 0x10, 0x05, 1, 0x01, 1, 0, 0, 0, 0x20, 2, 0x02, 1, 0,
    0x26, 0x22, 1, 2, 0x01, 0, 0, 0, 0, 0x21, 2, 0x01, 0, 0, 0, 0, 0x10, 0x05, 1, 0x01, 1, 0, 0, 0, 0x00,
    0x24, 0x14, 0x05, 1, 0x01, 1, 0, 0, 0, 0x22, 1, 0, 0x01, 0, 0, 0, 0, 0x22, 1, 0, 0x11, 0x01, 2, 0, 0, 0, 0x05, 1, 0x00, 0x00,
    0x00, 0, 3, 0, 0, 0, 0, 1, 0, 1, 0, 0, 0, 0, 0, 0x43, 0x50, 1, 0, 2, 0, 2, 0, 14, 0, 0, 0, 119, 0, 0, 0};

/* E: x := 1; atomic if x < 1 then x := x end end. */
static const uint8_t E[] = {0x20, 0, 0x01, 1, 0, 0, 0, 0x26, 0x24, 0x13, 0x05, 0, 0x01, 1, 0, 0, 0, 0x20, 0, 0x05, 0, 0x00, 0x00, 0x00, 0x00,
                            0, 1, 0, 0, 0, 0, 0, 0, 0x43, 0x50, 1, 0, 0, 0, 1, 0, 8, 0, 0, 0, 49, 0, 0, 0};

/* C: x0 := 5; call 1(x0); call 2(). 1: x1 := x0 + 1. 2: x0 := true. */
static const uint8_t C[] = {0x20, 0, 0x01, 5, 0, 0, 0, 0x25, 1, 0, 1, 0x05, 0, 0x25, 2, 0, 0, 0x00,
                            0x20, 1, 0x10, 0x05, 0, 0x01, 1, 0, 0, 0, 0x00, 0x20, 0, 0x04, 0x00,
                            0, 1, 0, 0, 0, 0, 1, 2, 18, 0, 0, 0, 0, 1, 29, 0, 0, 0, 0, 0,
                            0x43, 0x50, 3, 0, 0, 0, 1, 0, 20, 0, 0, 0, 69, 0, 0, 0};

static int failures = 0;

static void expect(const char *what, uint64_t got, uint64_t wanted)
{
    if (got != wanted) {
        printf("%s: %llu, not %llu\n", what, (unsigned long long)got, (unsigned long long)wanted);
        failures += 1;
    }
}

/* All bytes from `from` on still have the value they were given. */
static void untouched(const char *what, const uint8_t *bytes, size_t from, size_t length)
{
    for (size_t i = from; i < length; i += 1)
        if (bytes[i] != 0xEE) {
            printf("%s: byte %zu was written\n", what, i);
            failures += 1;
            return;
        }
}

static void reads(void)
{
    uint64_t answer[ZARU_READ_NUMBERS];
    zaru_read_concurrent(B, sizeof B, answer, ZARU_READ_NUMBERS);
    const uint64_t wanted[ZARU_READ_NUMBERS] = {0, 1, 1, 2, 4, 1};
    for (int i = 0; i < ZARU_READ_NUMBERS; i += 1)
        expect("read of B", answer[i], wanted[i]);
    zaru_read_sequential(B, sizeof B, answer, ZARU_READ_NUMBERS);
    expect("B is not sequential", answer[0], 1);
    expect("zeros of a refusal", answer[1] + answer[2] + answer[3] + answer[4] + answer[5], 0);
    /* an array that is too short gets the numbers that fit */
    uint64_t few[2] = {99, 99};
    zaru_read_concurrent(B, sizeof B, few, 1);
    expect("first number", few[0], 0);
    expect("no second number", few[1], 99);
}

static uint8_t copy[ZARU_LONGEST_COPY];

static size_t translations(void)
{
    uint64_t answer[ZARU_TRANSLATE_NUMBERS];
    memset(copy, 0xEE, sizeof copy);
    zaru_translate(B, sizeof B, ZARU_OWN_LOCALS, copy, 418, answer, ZARU_TRANSLATE_NUMBERS);
    expect("418 bytes are too few", answer[0], 10);
    untouched("refused translation", copy, 0, sizeof copy);
    zaru_translate(A, sizeof A, ZARU_OWN_LOCALS, copy, sizeof copy, answer, ZARU_TRANSLATE_NUMBERS);
    expect("length of A's copy", answer[1], 173);
    untouched("after A's copy", copy, 173, sizeof copy);
    zaru_translate(B, sizeof B, ZARU_OWN_LOCALS, copy, sizeof copy, answer, ZARU_TRANSLATE_NUMBERS);
    expect("translation of B", answer[0], 0);
    expect("length of B's copy", answer[1], 419);
    return (size_t)answer[1];
}

static void runs(size_t length)
{
    uint64_t answer[ZARU_RUN_NUMBERS];
    uint8_t cells[ZARU_SEQUENTIAL_CELLS], events[4 * ZARU_EVENT + 12];
    memset(cells, 0xEE, sizeof cells);
    memset(events, 0xEE, sizeof events);
    zaru_run_concurrent(B, sizeof B, LOST, sizeof LOST, cells, 5, events, sizeof events, answer, ZARU_RUN_NUMBERS);
    expect("run of B", answer[0], 0);
    expect("finished", answer[1], ZARU_FINISHED);
    expect("steps of B", answer[2], 8);
    expect("unused entries", answer[3], 0);
    expect("shared events", answer[4], 4);
    expect("no reason", answer[5], ZARU_REASON_NONE);
    expect("a number", cells[0], 1);
    expect("the cell's end value: one share is lost", cells[1], 1);
    untouched("behind B's cell", cells, 5, sizeof cells);
    untouched("behind the events", events, 4 * ZARU_EVENT, sizeof events);
    expect("the read's label", events[11] + 256u * events[12], 2);
    expect("the last write's label", events[4 * ZARU_EVENT - 2] + 256u * events[4 * ZARU_EVENT - 1], 3);
    uint8_t other[sizeof events];
    memset(other, 0xEE, sizeof other);
    zaru_run_sequential(copy, length, LOST, sizeof LOST, ZARU_BUDGET, 1, cells, sizeof cells, other, sizeof other, answer,
                        ZARU_RUN_NUMBERS);
    expect("run of B's copy", answer[0], 0);
    expect("the copy's end", answer[1], ZARU_FINISHED);
    expect("the copy's steps", answer[2], 198);
    expect("the copy's shared events", answer[4], 4);
    expect("the copy's cell", cells[1], 1);
    expect("equal events, with their labels", (uint64_t)memcmp(events, other, sizeof events), 0);
    zaru_run_concurrent(B, sizeof B, AGAIN, sizeof AGAIN, cells, 5, events, sizeof events, answer, ZARU_RUN_NUMBERS);
    expect("blocked", answer[1], ZARU_BLOCKED);
    expect("steps before it", answer[2], 4);
    expect("a finished thread", answer[5], ZARU_REASON_FINISHED_THREAD);
    zaru_run_sequential(copy, length, AGAIN, sizeof AGAIN, ZARU_BUDGET, 1, cells, sizeof cells, other, sizeof other, answer,
                        ZARU_RUN_NUMBERS);
    expect("the copy is blocked", answer[1], ZARU_BLOCKED);
    expect("the copy's reason", answer[5], ZARU_REASON_FINISHED_THREAD);
    /* whole events only */
    memset(events, 0xEE, sizeof events);
    zaru_run_concurrent(B, sizeof B, LOST, sizeof LOST, cells, 5, events, 2 * ZARU_EVENT - 1, answer, ZARU_RUN_NUMBERS);
    expect("all events are counted", answer[4], 4);
    untouched("behind the one that fits", events, ZARU_EVENT, sizeof events);
    uint8_t late[] = {0, 2};
    zaru_run_concurrent(B, sizeof B, late, 2, cells, 5, events, sizeof events, answer, ZARU_RUN_NUMBERS);
    expect("an entry that names no thread", answer[0], 11);
    expect("a refusal has no reason", answer[5], ZARU_REASON_NONE);
    zaru_run_concurrent(B, sizeof B, LOST, sizeof LOST, cells, 4, events, sizeof events, answer, ZARU_RUN_NUMBERS);
    expect("four bytes for a cell", answer[0], 12);
}

/* C in both modes: 565 bytes and 563, 205 steps each. The last two procedures share a location in the second. */
static void modes(void)
{
    const uint8_t order[8] = {0};
    const uint64_t lengths[] = {565, 563, 563, 563}, locations[] = {9, 8, 8, 8}, numbers[] = {ZARU_OWN_LOCALS, ZARU_SHARED_LOCALS, 2, 255};
    uint8_t cells[45], other[2];
    for (int i = 0; i < 4; i += 1) {
        uint64_t answer[ZARU_RUN_NUMBERS];
        memset(copy, 0xEE, sizeof copy);
        zaru_translate(C, sizeof C, numbers[i], copy, lengths[i] - 1, answer, ZARU_TRANSLATE_NUMBERS);
        expect("too few by the mode's length", answer[0], 10);
        untouched("refused translation in a mode", copy, 0, sizeof copy);
        zaru_translate(C, sizeof C, numbers[i], copy, lengths[i], answer, ZARU_TRANSLATE_NUMBERS);
        expect("exactly enough by the mode's length", answer[0], 0);
        expect("length of C's copy", answer[1], lengths[i]);
        untouched("after C's copy", copy, lengths[i], sizeof copy);
        zaru_read_sequential(copy, lengths[i], answer, ZARU_READ_NUMBERS);
        expect("C's copy is read", answer[0], 0);
        expect("its locations", answer[2], locations[i]);
        zaru_run_sequential(copy, lengths[i], order, sizeof order, ZARU_BUDGET, 0, cells, sizeof cells, other, 0, answer,
                            ZARU_RUN_NUMBERS);
        expect("C's copy is finished", answer[1], ZARU_FINISHED);
        expect("its steps in each mode", answer[2], 205);
        expect("its entries are used", answer[3], 0);
    }
}

/* The order that a find is: each thread, in rising order, as often as its counts say. */
static size_t order_of(const uint64_t *answer, uint8_t threads, uint8_t *order)
{
    size_t length = 0;
    for (int i = 0; i < ZARU_BENCH_COUNTS; i += 1)
        for (uint64_t step = 0; step < answer[ZARU_BENCH_FIRST_COUNT + i]; step += 1)
            order[length++] = (uint8_t)(i % threads);
    return length;
}

/* The plain run of B is its run, with 0 as each event's label. */
static void plain_run(void)
{
    uint64_t answer[ZARU_RUN_NUMBERS], plain[ZARU_RUN_NUMBERS];
    uint8_t cells[5], plain_cells[5], events[4 * ZARU_EVENT], plain_events[4 * ZARU_EVENT];
    zaru_run_concurrent(B, sizeof B, LOST, sizeof LOST, cells, 5, events, sizeof events, answer, ZARU_RUN_NUMBERS);
    zaru_run_plain(B, sizeof B, LOST, sizeof LOST, plain_cells, 5, plain_events, sizeof plain_events, plain, ZARU_RUN_NUMBERS);
    expect("the same numbers", (uint64_t)memcmp(plain, answer, sizeof answer), 0);
    expect("the same cells", (uint64_t)memcmp(plain_cells, cells, sizeof cells), 0);
    for (int i = 0; i < 4; i += 1) {
        expect("an event with a label", events[i * ZARU_EVENT + 11] != 0, 1);
        events[i * ZARU_EVENT + 11] = 0;
    }
    expect("the same events but for labels", (uint64_t)memcmp(plain_events, events, sizeof events), 0);
}

static void benches(void)
{
    uint64_t answer[ZARU_BENCH_NUMBERS];
    uint8_t cells[12], other[12], order[192];
    memset(cells, 0xEE, sizeof cells);
    memset(other, 0xEE, sizeof other);
    zaru_bench(B, sizeof B, 0, 4, cells, 4, answer, ZARU_BENCH_NUMBERS);
    expect("no round", answer[0], 13);
    zaru_bench(B, sizeof B, UINT64_MAX, UINT64_MAX, cells, sizeof cells, answer, ZARU_BENCH_NUMBERS);
    expect("too many rounds", answer[0], 13);
    zaru_bench(B, sizeof B, 1, 1, cells, 4, answer, ZARU_BENCH_NUMBERS);
    expect("four bytes for the bench's cell", answer[0], 12);
    untouched("refused bench", cells, 0, sizeof cells);
    zaru_bench(B, sizeof B, 2, 2, cells, sizeof cells, answer, ZARU_BENCH_NUMBERS);
    for (int i = 0; i < ZARU_BENCH_NUMBERS; i += 1)
        expect("none of B's orders blocks", answer[i], 0);
    expect("the last order loses a share", cells[1], 1);
    untouched("behind the bench's cell", cells, 5, sizeof cells);
    zaru_bench(D, sizeof D, 2, 6, cells, sizeof cells, answer, ZARU_BENCH_NUMBERS);
    const uint64_t wanted[ZARU_BENCH_NUMBERS] = {0, 1, 139, 0, 2, 5, 6};
    for (int i = 0; i < ZARU_BENCH_NUMBERS; i += 1)
        expect("bench of D", answer[i], wanted[i]);
    size_t length = order_of(answer, 2, order);
    uint64_t run[ZARU_RUN_NUMBERS];
    zaru_run_concurrent(D, sizeof D, order, length, other, sizeof other, other, 0, run, ZARU_RUN_NUMBERS);
    expect("the order found blocks", run[1], ZARU_BLOCKED);
    expect("at its last entry", run[3], 1);
    expect("by an index outside", run[5], ZARU_REASON_INDEX_OUTSIDE);
    expect("equal cells", (uint64_t)memcmp(cells, other, sizeof cells), 0);
    uint64_t few[4] = {99, 99, 99, 99};
    zaru_bench(D, sizeof D, 2, 6, cells, sizeof cells, few, 3);
    expect("the allotment's number", few[2], 139);
    expect("no count", few[3], 99);
}

static void expect_prices(const char *what, const uint8_t *table, size_t length, uint64_t label, uint64_t least, uint64_t most)
{
    uint64_t answer[ZARU_PRICES_NUMBERS];
    zaru_prices(table, length, label, answer, ZARU_PRICES_NUMBERS);
    expect(what, answer[0], 0);
    expect(what, answer[1], least);
    expect(what, answer[2], most);
}

static void prices(void)
{
    const uint64_t wanted[] = {0, 4, 7, 7, 4, 0};
    for (uint64_t label = 0; label < 6; label += 1)
        expect_prices("prices of B", B, sizeof B, label, wanted[label], wanted[label]);
    expect_prices("a label that no table has", B, sizeof B, UINT64_MAX, 0, 0);
    expect_prices("the end label of A", A, sizeof A, 1, 4, 4);
    expect_prices("an atomic block", D, sizeof D, 5, 12, 12);
    expect_prices("an atomic block with an if", E, sizeof E, 2, 5, 9);
    uint64_t few[3] = {99, 99, 99};
    zaru_prices(B, sizeof B - 1, 1, few, 2);
    expect("prices of no table", few[0], 1);
    expect("a refusal has no price", few[1], 0);
    expect("no third number", few[2], 99);
}

/* B with its trailer lost comes back as it was, and each change is listed; two numbers that may be sizes or mains give 15. */
static void mends(void)
{
    uint64_t answer[ZARU_MEND_NUMBERS];
    uint8_t table[sizeof B], list[ZARU_LONGEST_LIST + 4];
    memcpy(table, B, sizeof B);
    memset(list, 0xEE, sizeof list);
    zaru_mend(table, sizeof table, ZARU_CONCURRENT, list, 0, answer, ZARU_MEND_NUMBERS);
    expect("nothing to mend", answer[0] + answer[1] + answer[2], 0);
    zaru_mend(table, sizeof table, ZARU_SEQUENTIAL, list, sizeof list, answer, ZARU_MEND_NUMBERS);
    expect("B is no sequential table", answer[0], 14);
    expect("a refusal changes no byte", (uint64_t)memcmp(table, B, sizeof B), 0);
    memset(table + sizeof B - 16, 0xAA, 16);
    zaru_mend(table, sizeof table, ZARU_CONCURRENT, list, ZARU_LONGEST_LIST - 1, answer, ZARU_MEND_NUMBERS);
    expect("95 bytes are too few", answer[0], 10);
    expect("the trailer stays lost", table[sizeof B - 1], 0xAA);
    untouched("refused list", list, 0, sizeof list);
    zaru_mend(table, sizeof table, ZARU_CONCURRENT, list, sizeof list, answer, ZARU_MEND_NUMBERS);
    expect("mended", answer[1], 1);
    expect("changed bytes", answer[2], 16);
    expect("B is as it was", (uint64_t)memcmp(table, B, sizeof B), 0);
    for (unsigned i = 0; i < 16; i += 1) {
        const uint8_t *change = list + i * ZARU_CHANGE;
        expect("a change's place", change[0] + 256u * change[1] + 65536u * change[2] + 16777216u * change[3], sizeof B - 16 + i);
        expect("its old value", change[4], 0xAA);
        expect("its new value", change[5], B[sizeof B - 16 + i]);
    }
    untouched("behind the list", list, ZARU_LONGEST_LIST, sizeof list);
    uint8_t several[34] = {0};
    several[10] = several[14] = several[16] = 1;
    zaru_mend(several, sizeof several, ZARU_CONCURRENT, list, sizeof list, answer, ZARU_MEND_NUMBERS);
    expect("more than one choice", answer[0], 15);
    zaru_mend(several, 15, ZARU_CONCURRENT, list, sizeof list, answer, ZARU_MEND_NUMBERS);
    expect("under 16 bytes", answer[0], 1);
}

static uint8_t text[ZARU_LONGEST_TEXT];

/* A's copy as C text and back; a text with a byte more, or with another one, is refused. */
static void texts(void)
{
    uint64_t answer[ZARU_TEXT_NUMBERS];
    uint8_t back[200];
    zaru_translate(A, sizeof A, ZARU_OWN_LOCALS, copy, sizeof copy, answer, ZARU_TRANSLATE_NUMBERS);
    size_t length = (size_t)answer[1];
    memset(text, 0xEE, sizeof text);
    zaru_c_text(copy, length, text, 6238, answer, ZARU_TEXT_NUMBERS);
    expect("6,238 bytes are too few", answer[0], 10);
    untouched("refused text", text, 0, sizeof text);
    zaru_c_text(copy, length, text, sizeof text, answer, ZARU_TEXT_NUMBERS);
    expect("length of the text of A's copy", answer[1], 6239);
    untouched("after the text", text, 6239, sizeof text);
    memset(back, 0xEE, sizeof back);
    zaru_from_c_text(text, 6239, back, sizeof back, answer, ZARU_TEXT_NUMBERS);
    expect("the text is read", answer[0], 0);
    expect("as a table of that length", answer[1], length);
    expect("and of those bytes", (uint64_t)memcmp(back, copy, length), 0);
    untouched("after the table", back, length, sizeof back);
    zaru_from_c_text(text, 6240, back, sizeof back, answer, ZARU_TEXT_NUMBERS);
    expect("a byte too many", answer[0], 1);
    text[100] ^= 1;
    zaru_from_c_text(text, 6239, back, 0, answer, ZARU_TEXT_NUMBERS);
    expect("another byte, judged before the buffer", answer[0], 1);
    zaru_c_text(A, sizeof A, text, sizeof text, answer, ZARU_TEXT_NUMBERS);
    expect("A is no sequential table", answer[0], 1);
}

int main(void)
{
    reads();
    runs(translations());
    modes();
    plain_run();
    benches();
    prices();
    mends();
    texts();
    if (failures == 0)
        printf("the C library answers as the paper says\n");
    return failures != 0;
}
