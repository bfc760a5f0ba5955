/* stored STDIN STDOUT: the C calls on every stored case (second/README.md), each on a thread that has exactly the stack that zaru.h
 * asks for. The answers must be those of the second implementation; what was used of each stack is printed. */
#define _GNU_SOURCE
#include "zaru.h"
#include <pthread.h>
#include <signal.h>
#include <stdio.h>
#include <stdlib.h>
#include <string.h>
#include <sys/mman.h>
#include <unistd.h>

/* MARGIN: what must be left of each stack, for signal handlers and for what a thread of another program keeps there. */
enum { MEND = 11, HEADER = 36, LONGEST_LINE = 300, GUARD = 1 << 20, PAINT = 0xA5, MARGIN = 8192 };

/* The calls by their number in a case, each with the numbers of its answer and its stack: GUARD bytes that nobody may touch, then the bytes
 * that a thread gets. The run program's line, 6, is no call for C. */
static struct call {
    const char *name;
    int numbers;
    size_t size;
    uint8_t *stack;
    unsigned cases;
} calls[] = {
    {"", 0, 0, NULL, 0},
    {"zaru_read_concurrent", ZARU_READ_NUMBERS, ZARU_STACK_READ, NULL, 0},
    {"zaru_read_sequential", ZARU_READ_NUMBERS, ZARU_STACK_READ, NULL, 0},
    {"zaru_translate", ZARU_TRANSLATE_NUMBERS, ZARU_STACK_TRANSLATE, NULL, 0},
    {"zaru_run_concurrent", ZARU_RUN_NUMBERS, ZARU_STACK_RUN_CONCURRENT, NULL, 0},
    {"zaru_run_sequential", ZARU_RUN_NUMBERS, ZARU_STACK_RUN_SEQUENTIAL, NULL, 0},
    {"", 0, 0, NULL, 0},
    {"zaru_bench", ZARU_BENCH_NUMBERS, ZARU_STACK_BENCH, NULL, 0},
    {"zaru_prices", ZARU_PRICES_NUMBERS, ZARU_STACK_PRICES, NULL, 0},
    {"zaru_c_text", ZARU_TEXT_NUMBERS, ZARU_STACK_C_TEXT, NULL, 0},
    {"zaru_from_c_text", ZARU_TEXT_NUMBERS, ZARU_STACK_FROM_C_TEXT, NULL, 0},
    [MEND] = {"zaru_mend", ZARU_MEND_NUMBERS, ZARU_STACK_MEND, NULL, 0},
    {"zaru_run_plain", ZARU_RUN_NUMBERS, ZARU_STACK_RUN_PLAIN, NULL, 0},
};
enum { CALLS = sizeof calls / sizeof *calls };

static int is_call(unsigned op)
{
    return op < CALLS && calls[op].numbers > 0;
}

/* Which buffers a call writes. The mender writes its list of changes where others write events, and its table. */
static int writes_out(unsigned op)
{
    return op == 3 || op == 9 || op == 10;
}

static int writes_cells(unsigned op)
{
    return op == 4 || op == 5 || op == 7 || op == 12;
}

static int writes_events(unsigned op)
{
    return op == 4 || op == 5 || op == MEND || op == 12;
}

/* One case: what is asked for, the lent buffers, and the answer's numbers. */
static struct {
    unsigned op, shown;
    const uint8_t *table, *schedule;
    size_t table_length, schedule_length, h, cells_length, events_length, out_length;
    uint64_t budget;
    uint8_t cells[86016], events[4096 * ZARU_EVENT], out[ZARU_LONGEST_TEXT + 97], copy[66000];
    uint64_t answer[ZARU_BENCH_NUMBERS];
} job;

__attribute__((noreturn)) static void fail(const char *what, const char *about)
{
    printf("C library: %s %s\n", what, about);
    exit(1);
}

static uint64_t number(const uint8_t *bytes, size_t length)
{
    uint64_t n = 0;
    while (length > 0)
        n = n * 256 + bytes[--length];
    return n;
}

/* Byte i of a lent buffer is (7i + 13) mod 256. */
static void lend(uint8_t *buffer, size_t length, size_t room)
{
    if (length > room)
        fail("a case lends more", "than there is room for");
    for (size_t i = 0; i < length; i += 1)
        buffer[i] = (uint8_t)(7 * i + 13);
}

/* FNV-1a with 64 bits. */
static uint64_t hash(const uint8_t *bytes, size_t length)
{
    uint64_t h = UINT64_C(0xCBF29CE484222325);
    for (size_t i = 0; i < length; i += 1)
        h = (h ^ bytes[i]) * UINT64_C(0x100000001B3);
    return h;
}

static void *work(void *unused)
{
    switch (job.op) {
    case 1:
        zaru_read_concurrent(job.table, job.table_length, job.answer, ZARU_READ_NUMBERS);
        break;
    case 2:
        zaru_read_sequential(job.table, job.table_length, job.answer, ZARU_READ_NUMBERS);
        break;
    case 3:
        zaru_translate(job.table, job.table_length, job.h, job.out, job.out_length, job.answer, ZARU_TRANSLATE_NUMBERS);
        break;
    case 4:
        zaru_run_concurrent(job.table, job.table_length, job.schedule, job.schedule_length, job.cells, job.cells_length,
                            job.events, job.events_length, job.answer, ZARU_RUN_NUMBERS);
        break;
    case 5:
        zaru_run_sequential(job.table, job.table_length, job.schedule, job.schedule_length, job.budget, job.h, job.cells,
                            job.cells_length, job.events, job.events_length, job.answer, ZARU_RUN_NUMBERS);
        break;
    case 12:
        zaru_run_plain(job.table, job.table_length, job.schedule, job.schedule_length, job.cells, job.cells_length, job.events,
                       job.events_length, job.answer, ZARU_RUN_NUMBERS);
        break;
    case 7:
        zaru_bench(job.table, job.table_length, job.budget, job.h, job.cells, job.cells_length, job.answer, ZARU_BENCH_NUMBERS);
        break;
    case 8:
        zaru_prices(job.table, job.table_length, job.budget, job.answer, ZARU_PRICES_NUMBERS);
        break;
    case 9:
        zaru_c_text(job.table, job.table_length, job.out, job.out_length, job.answer, ZARU_TEXT_NUMBERS);
        break;
    case 10:
        zaru_from_c_text(job.table, job.table_length, job.out, job.out_length, job.answer, ZARU_TEXT_NUMBERS);
        break;
    case MEND:
        zaru_mend(job.copy, job.table_length, job.h, job.events, job.events_length, job.answer, ZARU_MEND_NUMBERS);
        break;
    }
    return unused;
}

/* A thread has left its stack. This runs on the other one. */
static void left_stack(int signal)
{
    static const char message[] = ": the stack that zaru.h asks for is too small\n";
    (void)signal;
    ssize_t written = write(1, calls[job.op].name, strlen(calls[job.op].name));
    written += write(1, message, sizeof message - 1);
    _exit(written > 0 ? 1 : 2);
}

static void *guarded_work(void *unused)
{
    static uint8_t other[1 << 16];
    stack_t other_stack = {.ss_sp = other, .ss_size = sizeof other, .ss_flags = 0};
    sigaltstack(&other_stack, NULL);
    return work(unused);
}

static void make_stack(struct call *call)
{
    uint8_t *bytes = mmap(NULL, GUARD + call->size, PROT_NONE, MAP_PRIVATE | MAP_ANONYMOUS, -1, 0);
    if (bytes == MAP_FAILED || mprotect(bytes + GUARD, call->size, PROT_READ | PROT_WRITE) != 0)
        fail("no memory for the stack of", call->name);
    call->stack = bytes + GUARD;
    memset(call->stack, PAINT, call->size);
}

/* Makes the call on its stack. */
static void make_call(struct call *call)
{
    pthread_attr_t attributes;
    pthread_t thread;
    pthread_attr_init(&attributes);
    if (pthread_attr_setstack(&attributes, call->stack, call->size) != 0 || pthread_create(&thread, &attributes, guarded_work, NULL) != 0)
        fail("no thread with the stack of", call->name);
    pthread_join(thread, NULL);
    pthread_attr_destroy(&attributes);
    call->cases += 1;
}

static size_t used(const struct call *call)
{
    size_t i = 0;
    while (i < call->size && call->stack[i] == PAINT)
        i += 1;
    return call->size - i;
}

/* The line that the second implementation has for this answer, without its newline. */
static void write_line(char *line)
{
    line += sprintf(line, "%u", job.op);
    for (int i = 0; i < calls[job.op].numbers; i += 1)
        line += sprintf(line, " %llu", (unsigned long long)job.answer[i]);
    if (writes_out(job.op))
        line += sprintf(line, " %016llx", (unsigned long long)hash(job.out, job.out_length));
    if (job.op == MEND)
        line += sprintf(line, " %016llx", (unsigned long long)hash(job.copy, job.table_length));
    if (writes_cells(job.op))
        line += sprintf(line, " %016llx", (unsigned long long)hash(job.cells, job.cells_length));
    if (writes_events(job.op))
        sprintf(line, " %016llx", (unsigned long long)hash(job.events, job.events_length));
}

static uint8_t *whole_file(const char *name, size_t *length)
{
    FILE *file = fopen(name, "rb");
    if (file == NULL || fseek(file, 0, SEEK_END) != 0)
        fail("cannot read", name);
    *length = (size_t)ftell(file);
    rewind(file);
    uint8_t *bytes = malloc(*length + 1);
    if (bytes == NULL || fread(bytes, 1, *length, file) != *length)
        fail("cannot read", name);
    fclose(file);
    return bytes;
}

/* The case that begins here; answers where the next one does. */
static const uint8_t *take_case(const uint8_t *header)
{
    job.op = header[0];
    job.shown = header[1];
    job.table = header + HEADER;
    job.table_length = number(header + 4, 4);
    job.schedule = job.table + job.table_length;
    job.schedule_length = number(header + 8, 4);
    job.budget = number(header + 12, 8);
    job.h = number(header + 20, 4);
    job.cells_length = number(header + 24, 4);
    job.events_length = number(header + 28, 4);
    job.out_length = number(header + 32, 4);
    lend(job.cells, job.cells_length, sizeof job.cells);
    lend(job.events, job.events_length, sizeof job.events);
    lend(job.out, job.out_length, sizeof job.out);
    if (job.table_length > sizeof job.copy)
        fail("a case has a longer table", "than there is room for");
    memcpy(job.copy, job.table, job.table_length);
    return job.schedule + job.schedule_length;
}

/* How many bytes of lent buffers follow the line of this case. */
static size_t shown_length(void)
{
    size_t length = 0;
    if (job.shown == 0)
        return 0;
    if (writes_out(job.op))
        length += job.out_length;
    if (job.op == MEND)
        length += job.table_length;
    if (writes_cells(job.op))
        length += job.cells_length;
    if (writes_events(job.op))
        length += job.events_length;
    return length;
}

/* Makes the call of the case, and holds its answer against the stored line. */
static void check_case(const uint8_t *stored, size_t length)
{
    char line[LONGEST_LINE];
    make_call(&calls[job.op]);
    write_line(line);
    if (strlen(line) != length || memcmp(line, stored, length) != 0)
        fail("another answer than the stored one:", line);
}

static void check_stack(const struct call *call)
{
    printf("%-20s %5u cases, %6zu of %6zu bytes of stack used\n", call->name, call->cases, used(call), call->size);
    if (call->cases == 0)
        fail("no case of", call->name);
    if (used(call) + MARGIN > call->size)
        fail("too little is left of the stack that zaru.h asks for:", call->name);
}

int main(int count, char **words)
{
    if (count != 3)
        fail("usage: stored", "STDIN STDOUT");
    size_t batch_length, left;
    const uint8_t *at = whole_file(words[1], &batch_length), *line = whole_file(words[2], &left);
    struct sigaction action = {.sa_handler = left_stack, .sa_flags = SA_ONSTACK};
    sigaction(SIGSEGV, &action, NULL);
    for (unsigned op = 0; op < CALLS; op += 1)
        if (is_call(op))
            make_stack(&calls[op]);
    while (*at != 0) {
        at = take_case(at);
        const uint8_t *end = memchr(line, '\n', left);
        if (end == NULL)
            fail("a case without a line:", calls[job.op < CALLS ? job.op : 0].name);
        size_t length = (size_t)(end - line);
        if (is_call(job.op))
            check_case(line, length);
        line += length + 1 + shown_length();
        left -= length + 1 + shown_length();
    }
    for (unsigned op = 0; op < CALLS; op += 1)
        if (is_call(op))
            check_stack(&calls[op]);
    return 0;
}
