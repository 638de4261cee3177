/* The header against the library: each limit is good and one more is refused, each refusal's name has its number, a
   null pointer is good where the length is 0, and no entry takes more stack than is said, in a table here and in the
   header. */
#include <string.h>

#include "expect.h"
#include "merkazobi.h"

/* Tables as long as they may be, and one record longer. */
static uint16_t parts[MERKAZOBI_PART_NUMBERS * (MERKAZOBI_PARTITIONS + 1)];
static uint16_t tasks[MERKAZOBI_TASK_NUMBERS * (MERKAZOBI_TASKS + 1)];
static uint16_t runs[MERKAZOBI_RUN_NUMBERS * (MERKAZOBI_RUNS + 1)];
static uint16_t plan[MERKAZOBI_FRAME + 1];
/* What serves in edition 2: two ticks each, of which one is spent on switching. */
static uint16_t pair_parts[MERKAZOBI_PART_NUMBERS * MERKAZOBI_PARTITIONS];
static uint16_t pair_runs[MERKAZOBI_RUNS];
static uint16_t pairs[MERKAZOBI_FRAME];
static uint16_t list[MERKAZOBI_COUNT_NUMBERS];
static uint32_t curve[MERKAZOBI_CURVE_NUMBERS];
static uint32_t rows[MERKAZOBI_PAGE_NUMBERS];
/* Every tick up to the longest deadline is a point of the second, which asks for one tick more than there are. */
static const uint16_t crowded[] = {1, 1, 1, 1, 1, 1, MERKAZOBI_PERIOD, MERKAZOBI_PERIOD};
static uint16_t questions[MERKAZOBI_QUESTION_NUMBERS * MERKAZOBI_PARTITIONS];
static uint16_t answers[MERKAZOBI_PARTITIONS];
static uint8_t file[MERKAZOBI_FILE_BYTES];
static uint8_t text[MERKAZOBI_LISTING_BYTES];
static merkazobi_job jobs[MERKAZOBI_PLACES + 1];
static merkazobi_desk desk;

enum {
    PARTS = MERKAZOBI_PART_NUMBERS * MERKAZOBI_PARTITIONS,
    TASKS = MERKAZOBI_TASK_NUMBERS * MERKAZOBI_TASKS,
    RUNS = MERKAZOBI_RUN_NUMBERS * MERKAZOBI_RUNS,
    FRAME = MERKAZOBI_FRAME,
    LIST = MERKAZOBI_COUNT_NUMBERS,
    QUESTIONS = MERKAZOBI_QUESTION_NUMBERS * MERKAZOBI_PARTITIONS,
    PLACES = MERKAZOBI_PLACES,
};

/* Partitions by turns, a tick each, as ticks and as runs; of each a stretch across the frame's end is asked. */
static void fill(void)
{
    for (size_t i = 0; i <= MERKAZOBI_PARTITIONS; i++)
        memcpy(&parts[MERKAZOBI_PART_NUMBERS * i], (uint16_t[]){16, 1, 16}, 6);
    for (size_t i = 0; i <= MERKAZOBI_TASKS; i++)
        memcpy(&tasks[MERKAZOBI_TASK_NUMBERS * i], (uint16_t[]){1, 1, 16, MERKAZOBI_PERIOD}, 8);
    for (size_t i = 0; i <= FRAME; i++)
        plan[i] = (uint16_t)(1 + i % MERKAZOBI_PARTITIONS);
    for (size_t i = 0; i <= MERKAZOBI_RUNS; i++)
        memcpy(&runs[MERKAZOBI_RUN_NUMBERS * i], (uint16_t[]){plan[i % FRAME], 1}, 4);
    for (size_t i = 0; i < FRAME; i++)
        pairs[i] = (uint16_t)(1 + i / 2 % MERKAZOBI_PARTITIONS);
    for (size_t i = 0; i < FRAME / 2; i++)
        memcpy(&pair_runs[MERKAZOBI_RUN_NUMBERS * i], (uint16_t[]){pairs[2 * i], 2}, 4);
    for (size_t i = 0; i < MERKAZOBI_PARTITIONS; i++)
        memcpy(&pair_parts[MERKAZOBI_PART_NUMBERS * i], (uint16_t[]){32, 1, 32}, 6);
    for (size_t i = 0; i < MERKAZOBI_PARTITIONS; i++)
        memcpy(&questions[MERKAZOBI_QUESTION_NUMBERS * i], (uint16_t[]){(uint16_t)(1 + i), FRAME - 1, FRAME}, 6);
}

/* A table of one record. */
static size_t built(uint16_t cycle, uint16_t num, uint16_t den)
{
    static uint16_t out[FRAME];
    return merkazobi_build(1, (uint16_t[]){cycle, num, den}, 3, out, FRAME).number;
}

static size_t judged(uint16_t c, uint16_t d, uint16_t t)
{
    const uint16_t task[] = {1, c, d, t};
    const size_t number = merkazobi_verdict(1, 1, plan, FRAME, parts, PARTS, task, 4, 1).number;
    expect("the plain engine's number", merkazobi_plain(1, 1, plan, FRAME, parts, PARTS, task, 4, 1).number, number);
    return number;
}

static merkazobi_answer paged(size_t row_numbers)
{
    return merkazobi_page(1, 1, plan, FRAME, parts, PARTS, crowded, 8, 2, rows, row_numbers);
}

static size_t written(size_t frame, size_t part_numbers, size_t task_numbers, size_t run_numbers, size_t bytes)
{
    return merkazobi_write(1, frame, parts, part_numbers, tasks, task_numbers, runs, run_numbers, file, bytes).number;
}

/* The longest file that serves in edition 2. */
static size_t written_in_2(void)
{
    return merkazobi_write(2, FRAME, pair_parts, PARTS, tasks, TASKS, pair_runs, FRAME, file, sizeof file).first;
}

static size_t filled(size_t ticks, size_t part_numbers, size_t list_numbers)
{
    return merkazobi_counts_fill(plan, ticks, parts, part_numbers, list, list_numbers).number;
}

static size_t held(size_t partition, size_t start, size_t length)
{
    return merkazobi_counts_held(plan, FRAME, parts, PARTS, list, LIST, partition, start, length).number;
}

static merkazobi_answer held_many(size_t question_numbers, size_t answer_numbers)
{
    return merkazobi_counts_held_many(plan, FRAME, parts, PARTS, list, LIST, questions, question_numbers, answers,
                                      answer_numbers);
}

static size_t changed(size_t tick, size_t owner)
{
    return merkazobi_counts_change(plan, FRAME, parts, PARTS, list, LIST, tick, owner).number;
}

static size_t opened(uint32_t count, size_t places)
{
    memset(jobs, 0, sizeof jobs);
    for (uint32_t i = 0; i < count; i++)
        jobs[i] = (merkazobi_job){10 + i, 1, MERKAZOBI_TIME, 0};
    desk = (merkazobi_desk){0, count};
    return merkazobi_open(&desk, jobs, places).number;
}

static size_t asked(uint32_t t, uint32_t c, uint32_t d)
{
    return merkazobi_request(&desk, jobs, PLACES, t, c, d).number;
}

static void limits(void)
{
    expect("partitions and a frame", merkazobi_check(1, 1, plan, FRAME, parts, PARTS).number, MERKAZOBI_GOOD);
    expect("a partition more", merkazobi_check(1, 1, plan, FRAME, parts, PARTS + 3).number, MERKAZOBI_LIMITS);
    expect("a tick more", merkazobi_check(1, 1, plan, FRAME + 1, parts, PARTS).number, MERKAZOBI_LIMITS);
    expect("cycle", built(MERKAZOBI_CYCLE, 1, 1), MERKAZOBI_GOOD);
    expect("a longer cycle", built(MERKAZOBI_CYCLE + 1, 1, 1), MERKAZOBI_PARTITION);
    expect("share", built(4, 1, MERKAZOBI_SHARE), MERKAZOBI_GOOD);
    expect("a finer share", built(4, 1, MERKAZOBI_SHARE + 1), MERKAZOBI_PARTITION);
    expect("granule", merkazobi_check(1, MERKAZOBI_GRANULE_TICKS, plan, FRAME, parts, PARTS).number, MERKAZOBI_SERVICE);
    expect("a larger granule", merkazobi_check(1, MERKAZOBI_GRANULE_TICKS + 1, plan, FRAME, parts, PARTS).number,
           MERKAZOBI_GRANULE);
    expect("period", judged(1, 16, MERKAZOBI_PERIOD), MERKAZOBI_GOOD);
    expect("a longer period", judged(1, 16, MERKAZOBI_PERIOD + 1), MERKAZOBI_TASK);
    expect("the longest file", written(FRAME, PARTS, TASKS, RUNS, sizeof file), MERKAZOBI_GOOD);
    expect("a byte less", written(FRAME, PARTS, TASKS, RUNS, sizeof file - 1), MERKAZOBI_OUTPUT);
    expect("a task more", written(FRAME, PARTS, TASKS + 4, RUNS, sizeof file), MERKAZOBI_LIMITS);
    expect("a run more", written(FRAME, PARTS, TASKS, RUNS + 2, sizeof file), MERKAZOBI_LIMITS);
    expect("a file of that length", merkazobi_read(file, sizeof file).fourth, MERKAZOBI_RUNS);
    expect("its listing", merkazobi_list(file, sizeof file, text, sizeof text).number, MERKAZOBI_GOOD);
    expect("the longest deadline's curve",
           merkazobi_curve(1, plan, FRAME, 1, MERKAZOBI_PERIOD, curve, MERKAZOBI_CURVE_NUMBERS).first,
           MERKAZOBI_CURVE_NUMBERS);
    expect("a number less",
           merkazobi_curve(1, plan, FRAME, 1, MERKAZOBI_PERIOD, curve, MERKAZOBI_CURVE_NUMBERS - 1).number,
           MERKAZOBI_OUTPUT);
    expect("the longest page", paged(MERKAZOBI_PAGE_NUMBERS).second, MERKAZOBI_PERIOD);
    expect("its last point", rows[MERKAZOBI_PAGE_NUMBERS - MERKAZOBI_ROW_NUMBERS], MERKAZOBI_PERIOD);
    expect("a number less, page", paged(MERKAZOBI_PAGE_NUMBERS - 1).number, MERKAZOBI_OUTPUT);
    expect("places", opened(PLACES, PLACES), MERKAZOBI_GOOD);
    expect("a place more", opened(1, PLACES + 1), MERKAZOBI_TABLE);
    expect("a place less", opened(1, PLACES - 1), MERKAZOBI_TABLE);
    expect("a job more", opened(PLACES + 1, PLACES), MERKAZOBI_TABLE);
    opened(1, PLACES);
    expect("time", asked(0, 1, MERKAZOBI_TIME), MERKAZOBI_GOOD);
    expect("a later deadline", asked(0, 1, MERKAZOBI_TIME + 1), MERKAZOBI_NUMBER);
}

/* Two editions, and neither one less nor one more. */
static void editions(void)
{
    expect("edition 1", merkazobi_check(1, 1, pairs, FRAME, pair_parts, PARTS).number, MERKAZOBI_GOOD);
    expect("edition 2", merkazobi_check(2, 1, pairs, FRAME, pair_parts, PARTS).number, MERKAZOBI_GOOD);
    expect("edition 2, no service", merkazobi_check(2, 1, plan, FRAME, parts, PARTS).number, MERKAZOBI_SERVICE);
    for (size_t e = 0; e <= 3; e += 3) {
        expect("another edition, held", merkazobi_held(e, plan, FRAME, 1, 0, 1).number, MERKAZOBI_EDITION);
        expect("another edition, least", merkazobi_least(e, plan, FRAME, 1, 1).number, MERKAZOBI_EDITION);
        expect("another edition, check", merkazobi_check(e, 1, plan, FRAME, parts, PARTS).number, MERKAZOBI_EDITION);
    }
    expect("a file of edition 2", written_in_2(), 16 + 2 * (PARTS + TASKS + FRAME));
    expect("its edition", merkazobi_read(file, 16 + 2 * (PARTS + TASKS + FRAME)).fifth, 2);
}

static void count_limits(void)
{
    expect("the longest list", merkazobi_counts_fill(plan, FRAME, parts, PARTS, list, LIST).first, LIST);
    expect("a number less", filled(FRAME, PARTS, LIST - 1), MERKAZOBI_OUTPUT);
    expect("a partition more to count", filled(FRAME, PARTS + 3, LIST), MERKAZOBI_LIMITS);
    expect("a tick more to count", filled(FRAME + 1, PARTS, LIST), MERKAZOBI_LIMITS);
    expect("the longest stretch", held(MERKAZOBI_PARTITIONS, FRAME - 1, FRAME), MERKAZOBI_GOOD);
    expect("a longer stretch", held(MERKAZOBI_PARTITIONS, FRAME - 1, FRAME + 1), MERKAZOBI_STRETCH);
    expect("a later start", held(MERKAZOBI_PARTITIONS, FRAME, 0), MERKAZOBI_STRETCH);
    expect("a partition more asked for", held(MERKAZOBI_PARTITIONS + 1, 0, 0), MERKAZOBI_RUN);
    expect("questions", held_many(QUESTIONS, MERKAZOBI_PARTITIONS).first, MERKAZOBI_PARTITIONS);
    expect("the last answer", answers[MERKAZOBI_PARTITIONS - 1], FRAME / MERKAZOBI_PARTITIONS);
    expect("an answer less", held_many(QUESTIONS, MERKAZOBI_PARTITIONS - 1).number, MERKAZOBI_OUTPUT);
    expect("a question", held_many(MERKAZOBI_QUESTION_NUMBERS, 1).first, 1);
    expect("a number less than a question", held_many(MERKAZOBI_QUESTION_NUMBERS - 1, 1).number, MERKAZOBI_LIMITS);
    expect("the last tick", changed(FRAME - 1, MERKAZOBI_PARTITIONS), MERKAZOBI_GOOD);
    expect("a later tick", changed(FRAME, MERKAZOBI_PARTITIONS), MERKAZOBI_STRETCH);
    expect("an owner more", changed(FRAME - 1, MERKAZOBI_PARTITIONS + 1), MERKAZOBI_RUN);
    list[LIST - 1]++;
    expect("another last number", held(1, 0, 0), MERKAZOBI_COUNTS);
}

/* The numbers that nothing else here comes to. */
static void refusals(void)
{
    const uint16_t third[] = {4, 1, 4, 8, 3, 8, 8, 1, 2};
    uint16_t out[8];
    written(FRAME, PARTS, TASKS, RUNS, sizeof file);
    expect("a short file", merkazobi_read(file, 15).number, MERKAZOBI_FILE_SHORT);
    expect("another length", merkazobi_read(file, sizeof file - 1).number, MERKAZOBI_LENGTH);
    file[5]++;
    expect("another offset", merkazobi_read(file, sizeof file).number, MERKAZOBI_OFFSET);
    file[1] = 3;
    expect("another edition", merkazobi_read(file, sizeof file).number, MERKAZOBI_EDITION);
    expect("an owner not in the table", merkazobi_check(1, 1, plan, FRAME, parts, 3).number, MERKAZOBI_RUN);
    expect("P3", merkazobi_build(1, third, 9, out, 8).number, MERKAZOBI_TICKS);
    expect("P4", merkazobi_build(1, (uint16_t[]){4, 1, 1, 6, 1, 1}, 6, out, 8).number, MERKAZOBI_HARMONIC);
    const uint16_t p5[] = {1, 1, 0, 0, 0, 0, 1, 1};
    const merkazobi_answer short_at_1 = merkazobi_check(1, 1, p5, 8, (uint16_t[]){4, 1, 2}, 3);
    expect("P5", short_at_1.number, MERKAZOBI_SERVICE);
    expect("P5 start", short_at_1.second, 1);
    opened(PLACES, PLACES);
    expect("no place left", asked(0, 1, 100), MERKAZOBI_FULL);
    opened(1, PLACES);
    expect("no place", asked(0, 11, 5), MERKAZOBI_NO_PLACE);
    expect("no place, bound", merkazobi_request(&desk, jobs, PLACES, 0, 11, 5).third, MERKAZOBI_OWN_DEADLINE);
    expect("later", asked(4, 11, 5), MERKAZOBI_NO_PLACE);
    expect("before the clock", asked(3, 1, 5), MERKAZOBI_PAST);
    jobs[0] = (merkazobi_job){3, 4, 9, 2};
    expect("busy", asked(4, 1, 20), MERKAZOBI_BUSY);
}

static void nulls(void)
{
    expect("null plan", merkazobi_check(1, 1, NULL, 0, parts, PARTS).number, MERKAZOBI_LIMITS);
    expect("null table", merkazobi_build(1, NULL, 0, NULL, 0).number, MERKAZOBI_LIMITS);
    expect("null output", merkazobi_build(1, parts, 3, NULL, 0).number, MERKAZOBI_OUTPUT);
    expect("null tasks", merkazobi_verdict(1, 1, plan, FRAME, parts, PARTS, NULL, 0, 1).number, MERKAZOBI_TASK);
    expect("null tasks, plain", merkazobi_plain(1, 1, plan, FRAME, parts, PARTS, NULL, 0, 1).number, MERKAZOBI_TASK);
    expect("null tasks, page", merkazobi_page(1, 1, plan, FRAME, parts, PARTS, NULL, 0, 1, NULL, 0).number, MERKAZOBI_TASK);
    expect("null rows", merkazobi_page(1, 1, plan, FRAME, parts, PARTS, crowded, 8, 2, NULL, 0).number, MERKAZOBI_OUTPUT);
    expect("null file", merkazobi_read(NULL, 0).number, MERKAZOBI_FILE_SHORT);
    expect("null part", merkazobi_section(NULL, 0, 0).number, MERKAZOBI_FILE_SHORT);
    expect("null listing", merkazobi_list(NULL, 0, NULL, 0).number, MERKAZOBI_OUTPUT);
    expect("null runs", merkazobi_write(1, 1, parts, 3, NULL, 0, NULL, 0, NULL, 0).number, MERKAZOBI_LIMITS);
    expect("null jobs", merkazobi_open(&desk, NULL, 0).number, MERKAZOBI_TABLE);
    for (size_t e = 1; e <= 2; e++) {
        expect("idle ticks of no plan", merkazobi_held(e, NULL, 0, 0, 5, 7).first, 7);
        expect("ticks of no plan", merkazobi_least(e, NULL, 0, 1, 7).first, 0);
        expect("null curve", merkazobi_curve(e, NULL, 0, 0, 0, NULL, 0).number, MERKAZOBI_OUTPUT);
    }
}

static void count_nulls(void)
{
    filled(FRAME, PARTS, LIST);
    expect("null, fill", merkazobi_counts_fill(NULL, 0, NULL, 0, NULL, 0).number, MERKAZOBI_LIMITS);
    expect("null, held", merkazobi_counts_held(NULL, 0, NULL, 0, NULL, 0, 1, 0, 0).number, MERKAZOBI_LIMITS);
    expect("null, held of many", merkazobi_counts_held_many(NULL, 0, NULL, 0, NULL, 0, NULL, 0, NULL, 0).number,
           MERKAZOBI_LIMITS);
    expect("null, change", merkazobi_counts_change(NULL, 0, NULL, 0, NULL, 0, 0, 1).number, MERKAZOBI_LIMITS);
    expect("null table, fill", merkazobi_counts_fill(plan, FRAME, NULL, 0, list, LIST).number, MERKAZOBI_LIMITS);
    expect("null table, change", merkazobi_counts_change(plan, FRAME, NULL, 0, list, LIST, 0, 1).number,
           MERKAZOBI_LIMITS);
    expect("null list, fill", merkazobi_counts_fill(plan, FRAME, parts, PARTS, NULL, 0).number, MERKAZOBI_OUTPUT);
    expect("null list, held", merkazobi_counts_held(plan, FRAME, parts, PARTS, NULL, 0, 1, 0, 0).number,
           MERKAZOBI_OUTPUT);
    expect("null list, change", merkazobi_counts_change(plan, FRAME, parts, PARTS, NULL, 0, 0, 1).number,
           MERKAZOBI_OUTPUT);
    expect("null questions", merkazobi_counts_held_many(plan, FRAME, parts, PARTS, list, LIST, NULL, 0, NULL, 0).number,
           MERKAZOBI_GOOD);
    expect("null answers",
           merkazobi_counts_held_many(plan, FRAME, parts, PARTS, list, LIST, questions, QUESTIONS, NULL, 0).number,
           MERKAZOBI_OUTPUT);
}

/* What each entry takes at most, in bytes below the caller's stack pointer: the return address and arguments that no
   register holds are among them. Measured at the largest inputs, and rounded up to a multiple of 64. */
enum {
    WANTS_STACK = 64,
    HELD_STACK = 192,
    LEAST_STACK = 256,
    CURVE_STACK = 192,
    BUILD_STACK = 256,
    CHECK_STACK = 448,
    VERDICT_STACK = 33536,
    PLAIN_STACK = 33536,
    PAGE_STACK = 33664,
    COUNTS_FILL_STACK = 256,
    COUNTS_HELD_STACK = 768,
    COUNTS_HELD_MANY_STACK = 768,
    COUNTS_CHANGE_STACK = 768,
    READ_STACK = 18176,
    SECTION_STACK = 18176,
    WRITE_STACK = 512,
    LIST_STACK = 79936,
    OPEN_STACK = 384,
    REQUEST_STACK = 384,
};

/* The stack below is painted, and what a call has changed of it is what it took. */
enum { DEPTH = 1 << 18, PAINT = 0xA7 };

static __attribute__((noinline)) void paint(void)
{
    volatile uint8_t below[DEPTH];
    for (size_t i = 0; i < DEPTH; i++)
        below[i] = PAINT;
}

/* From the caller's stack pointer, which lies two words above this function's frame, to the lowest byte changed. */
static __attribute__((noinline)) size_t taken(void)
{
    volatile uint8_t below[DEPTH];
    const uint8_t *from = (const uint8_t *)__builtin_frame_address(0) + 2 * sizeof(void *);
    size_t left = 0;
    __asm__ volatile("" : : "r"(below) : "memory");
    while (left < DEPTH && below[left] == PAINT)
        left++;
    return (size_t)(from - (const uint8_t *)&below[left]);
}

static void within(const char *call, size_t found, size_t most, size_t header)
{
    if (found > most || most > header) {
        printf("%s: %zu bytes of stack, %zu in the table, %zu in the header\n", call, found, most, header);
        failures++;
    }
}

/* The first call may go through the loader, to find a function of the C library; the second is measured. */
#define STACK(most, header, call) ((void)(call), paint(), (void)(call), within(#call, taken(), most, header))

/* The change is to the next partition, so that both calls of it give the tick to another. */
static void count_stack(void)
{
    STACK(COUNTS_FILL_STACK, MERKAZOBI_STACK, merkazobi_counts_fill(plan, FRAME, parts, PARTS, list, LIST));
    STACK(COUNTS_HELD_STACK, MERKAZOBI_STACK,
          merkazobi_counts_held(plan, FRAME, parts, PARTS, list, LIST, MERKAZOBI_PARTITIONS, FRAME - 1, FRAME));
    STACK(COUNTS_HELD_MANY_STACK, MERKAZOBI_STACK,
          merkazobi_counts_held_many(plan, FRAME, parts, PARTS, list, LIST, questions, QUESTIONS, answers,
                                     MERKAZOBI_PARTITIONS));
    STACK(COUNTS_CHANGE_STACK, MERKAZOBI_STACK,
          merkazobi_counts_change(plan, FRAME, parts, PARTS, list, LIST, 0, 1U + plan[0] % MERKAZOBI_PARTITIONS));
}

/* The calls that take an edition, with a plan that serves its table in it. */
static void stack_in(size_t edition, const uint16_t *serving, const uint16_t *table)
{
    STACK(HELD_STACK, MERKAZOBI_STACK, merkazobi_held(edition, serving, FRAME, 1, 7, UINT32_MAX));
    STACK(LEAST_STACK, MERKAZOBI_STACK, merkazobi_least(edition, serving, FRAME, 1, UINT32_MAX));
    STACK(CURVE_STACK, MERKAZOBI_STACK,
          merkazobi_curve(edition, serving, FRAME, 1, MERKAZOBI_PERIOD, curve, MERKAZOBI_CURVE_NUMBERS));
    STACK(CHECK_STACK, MERKAZOBI_STACK, merkazobi_check(edition, 1, serving, FRAME, table, PARTS));
    STACK(VERDICT_STACK, MERKAZOBI_VERDICT_STACK,
          merkazobi_verdict(edition, 1, serving, FRAME, table, PARTS, tasks, TASKS, MERKAZOBI_TASKS));
    STACK(PLAIN_STACK, MERKAZOBI_VERDICT_STACK,
          merkazobi_plain(edition, 1, serving, FRAME, table, PARTS, tasks, TASKS, MERKAZOBI_TASKS));
    STACK(PAGE_STACK, MERKAZOBI_VERDICT_STACK,
          merkazobi_page(edition, 1, serving, FRAME, table, PARTS, crowded, 8, 2, rows, MERKAZOBI_PAGE_NUMBERS));
}

static void stack(void)
{
    STACK(WANTS_STACK, MERKAZOBI_STACK, merkazobi_wants(MERKAZOBI_GRANULE_TICKS, 4096, 999, 1000));
    STACK(BUILD_STACK, MERKAZOBI_STACK, merkazobi_build(1, parts, PARTS, plan, FRAME));
    stack_in(1, plan, parts);
    stack_in(2, pairs, pair_parts);
    STACK(WRITE_STACK, MERKAZOBI_STACK,
          merkazobi_write(1, FRAME, parts, PARTS, tasks, TASKS, runs, RUNS, file, sizeof file));
    STACK(READ_STACK, MERKAZOBI_READ_STACK, merkazobi_read(file, sizeof file));
    STACK(SECTION_STACK, MERKAZOBI_READ_STACK, merkazobi_section(file, sizeof file, 2));
    STACK(LIST_STACK, MERKAZOBI_LIST_STACK, merkazobi_list(file, sizeof file, text, sizeof text));
    const size_t bytes = written_in_2();
    STACK(LIST_STACK, MERKAZOBI_LIST_STACK, merkazobi_list(file, bytes, text, sizeof text));
    opened(PLACES - 2, PLACES);
    STACK(OPEN_STACK, MERKAZOBI_STACK, merkazobi_open(&desk, jobs, PLACES));
    STACK(REQUEST_STACK, MERKAZOBI_STACK, merkazobi_request(&desk, jobs, PLACES, 0, 5, 100));
}

int main(void)
{
    fill();
    limits();
    editions();
    count_limits();
    refusals();
    nulls();
    count_nulls();
    stack();
    count_stack();
    return failures != 0;
}
