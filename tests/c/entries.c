/* Each entry, but for those over running counts (counts.c), with all six numbers of its answers, and with all that is
   lent to it: after a call there stands what it is to write, and else what stood there before, in the inputs and behind
   the outputs too. Examples and refusal numbers are those of documents 01 and 02; the numbers are not taken from the
   header, which limits.c tries against the library. */
#include "expect.h"
#include "merkazobi.h"

enum { PARTS = 9, TASKS = 8, TICKS = 8, RUNS = 10, FILE_BYTES = 70, PLACES = MERKAZOBI_PLACES };

/* P1 with the tasks of V1 and V2, its file's contents and its listing. */
static const uint16_t parts[PARTS] = {4, 1, 4, 8, 3, 8, 8, 1, 100};
static const uint16_t tasks[TASKS] = {2, 2, 8, 16, 2, 2, 14, 32};
static const uint16_t plan[TICKS] = {1, 2, 2, 2, 1, 3, 0, 0};
static const uint16_t runs[RUNS] = {1, 1, 2, 3, 1, 1, 3, 1, 0, 2};
static const uint16_t contents[] = {1, TICKS, 16, PARTS / 3, 34, TASKS / 4, 50, RUNS / 2};
static const char listing[] = "frame 8\n"
                              "partition 1 wants 1 in 4 least 1\n"
                              "partition 2 wants 3 in 8 least 3\n"
                              "partition 3 wants 1 in 8 least 1\n"
                              "task 1 partition 2 pass 8 tick 7\n"
                              "task 2 partition 2 pass 14 tick 14\n";

/* Partition 2 wants 5 in 7 ticks, and from tick 3 on it has only 4: four values of which no two are equal. */
static const uint16_t short_parts[] = {10, 1, 10, 7, 5, 7};
static const uint16_t short_plan[] = {2, 2, 2, 2, 2, 2, 2, 1, 0, 0};

static const uint8_t w1[] = {0, 1, 0, 4, 0, 16, 0, 2, 0, 28, 0, 1, 0, 36, 0, 2, 0, 4, 0, 1, 0, 2,
                             0, 4, 0, 1, 0, 3,  0, 1, 0, 1,  0, 4, 0, 4,  0, 1, 0, 2, 0, 2, 0, 2};
static const char w1_listing[] = "frame 4\n"
                                 "partition 1 wants 2 in 4 least 2\n"
                                 "partition 2 wants 2 in 4 least 2\n"
                                 "task 1 partition 1 pass 4 tick 3\n";

/* All that is lent, with room behind. */
typedef struct {
    uint16_t parts[2 * PARTS], tasks[2 * TASKS], plan[2 * TICKS], runs[2 * RUNS];
    uint16_t ticks[2 * TICKS];
    uint32_t curve[3 * TICKS];
    uint32_t rows[4 * TICKS];
    uint8_t file[2 * FILE_BYTES];
    uint8_t out[2 * sizeof listing];
    merkazobi_desk desk[2];
    merkazobi_job jobs[PLACES + 1];
} memory;

#include "lent.h"

static uint8_t *put_numbers(uint8_t *file, const uint16_t *numbers, size_t count)
{
    for (size_t i = 0; i < count; i++) {
        *file++ = (uint8_t)(numbers[i] >> 8);
        *file++ = (uint8_t)numbers[i];
    }
    return file;
}

/* The tables and the file of P1. */
static void begin(void)
{
    memset(&lent, PATTERN, sizeof lent);
    memcpy(lent.parts, parts, sizeof parts);
    memcpy(lent.tasks, tasks, sizeof tasks);
    memcpy(lent.plan, plan, sizeof plan);
    memcpy(lent.runs, runs, sizeof runs);
    uint8_t *bodies = put_numbers(lent.file, contents, 8);
    bodies = put_numbers(put_numbers(bodies, parts, PARTS), tasks, TASKS);
    put_numbers(bodies, runs, RUNS);
    memcpy(&wanted, &lent, sizeof lent);
}

/* ---- Shares and plans. */

static void wants(void)
{
    static const struct {
        const char *what;
        size_t granule;
        uint16_t m, num, den;
        size_t ticks;
    } cases[] = {
        {"wants, P1", 1, 8, 3, 8, 3},
        {"wants, P1, rounded up", 1, 8, 1, 100, 1},
        {"wants, 24 fifths", 1, 8, 3, 5, 5},
        {"wants, the longest cycle", 1, 4096, 999, 1000, 4092},
        {"wants, den 0", 1, 8, 3, 0, 0},
        {"wants, P1 in granules of 2", 2, 8, 3, 8, 4},
        {"wants, a whole number of granules", 3, 8, 3, 8, 3},
        {"wants, 25 sixths by 4", 4, 10, 5, 12, 8},
        {"wants, a granule above the cycle", 16, 4, 1, 4, 16},
        {"wants, no granule", 0, 8, 3, 8, 0},
        {"wants, a granule past the limit", 65537, 8, 3, 8, 65537},
        {"wants, the widest granule", SIZE_MAX, 65535, 65535, 1, SIZE_MAX},
        {"wants, the most", 1, 65535, 65535, 1, (size_t)65535 * 65535},
        {"wants, the widest granule of nothing", SIZE_MAX, 8, 0, 8, 0},
    };
    for (size_t i = 0; i < sizeof cases / sizeof *cases; i++)
        expect(cases[i].what, merkazobi_wants(cases[i].granule, cases[i].m, cases[i].num, cases[i].den), cases[i].ticks);
}

static merkazobi_answer held(size_t edition, uint16_t p, uint32_t s, uint32_t n)
{
    return merkazobi_held(edition, lent.plan, TICKS, p, s, n);
}

static merkazobi_answer least(size_t edition, uint16_t p, uint32_t t)
{
    return merkazobi_least(edition, lent.plan, TICKS, p, t);
}

static void service(void)
{
    begin();
    ends("held", held(1, 2, 1, 4), told(0, 3));
    ends("held across the end", held(1, 2, 3, 8), told(0, 3));
    ends("held from past the end", held(1, 2, 11, 6), told(0, 1));
    ends("held idle", held(1, 0, 5, 11), told(0, 4));
    const uint32_t times[] = {0, 5, 8, 13, 14};
    const size_t s1[] = {0, 0, 3, 3, 4};
    for (size_t i = 0; i < 5; i++)
        ends("S1", least(1, 2, times[i]), told(0, s1[i]));
    /* As long as can be asked for: whole frames, and seven ticks. */
    const size_t whole = 3 * (size_t)(UINT32_MAX / TICKS);
    ends("held of the longest", held(1, 2, 4, UINT32_MAX), told(0, whole + 2));
    ends("least of the longest", least(1, 2, UINT32_MAX), told(0, whole + 2));
}

static merkazobi_answer curve_in(size_t edition, uint16_t p, uint32_t n, size_t list_numbers)
{
    return merkazobi_curve(edition, lent.plan, TICKS, p, n, lent.curve, list_numbers);
}

static merkazobi_answer curve(uint16_t p, uint32_t n, size_t list_numbers)
{
    return curve_in(1, p, n, list_numbers);
}

static void curves(void)
{
    static const uint32_t s1[] = {0, 0, 0, 0, 0, 0, 1, 2, 3, 3, 3, 3, 3, 3, 4};
    static const uint32_t idle[] = {0, 0, 0, 0, 0, 0, 0, 1, 2, 2};
    begin();
    ends("curve, a number less", curve(2, 14, 14), told(12, 0));
    ends("curve, no list", merkazobi_curve(1, lent.plan, TICKS, 2, 0, NULL, 0), told(12, 0));
    ends("curve of the longest", curve(2, UINT32_MAX, 3 * TICKS), told(12, 0));
    memcpy(wanted.curve, s1, sizeof s1);
    ends("curve, S1", curve(2, 14, 15), told(0, 15));
    memcpy(wanted.curve, idle, sizeof idle);
    ends("curve of idle ticks, into a longer list", curve(0, 9, 3 * TICKS), told(0, 10));
    memset(wanted.curve, 0, 4 * sizeof(uint32_t));
    ends("curve of a partition without a tick", curve(9, 3, 4), told(0, 4));
    for (uint32_t t = 0; t < 3; t++)
        wanted.curve[t] = t;
    ends("curve of no plan's idle ticks", merkazobi_curve(1, NULL, 0, 0, 2, lent.curve, 3), told(0, 3));
}

static merkazobi_answer build_by(size_t granule, size_t part_numbers, size_t ticks)
{
    return merkazobi_build(granule, lent.parts, part_numbers, lent.ticks, ticks);
}

static merkazobi_answer build(size_t part_numbers, size_t ticks)
{
    return build_by(1, part_numbers, ticks);
}

static void builds(void)
{
    static const uint16_t p2[] = {1, 2, 2, 2, 1, 3, 3, 3};
    begin();
    memcpy(wanted.ticks, plan, sizeof plan);
    ends("P1", build(PARTS, TICKS), told(0, 8));
    begin();
    memcpy(wanted.ticks, plan, sizeof plan);
    ends("P1 into a longer output", build(PARTS, TICKS + 1), told(0, 8));
    begin();
    SET(parts[7], 3), SET(parts[8], 8);
    memcpy(wanted.ticks, p2, sizeof p2);
    ends("P2", build(PARTS, TICKS), told(0, 8));
}

static void build_refusals(void)
{
    begin();
    ends("build, 3", build(PARTS - 1, TICKS), told(3, 0));
    ends("build, 12", build(PARTS, TICKS - 1), told(12, 0));
    SET(parts[8], 2);
    ends("P3", build(PARTS, TICKS), told(11, 0));
    SET(parts[3], 6);
    ends("P4", build(6, TICKS), told(10, 0));
    SET(parts[4], 0);
    ends("build, 6", build(PARTS, TICKS), told(6, 2));
}

static merkazobi_answer check_in(size_t edition, size_t granule, size_t ticks, size_t part_numbers)
{
    return merkazobi_check(edition, granule, lent.plan, ticks, lent.parts, part_numbers);
}

static merkazobi_answer check_by(size_t granule, size_t ticks, size_t part_numbers)
{
    return check_in(1, granule, ticks, part_numbers);
}

static merkazobi_answer check(size_t ticks, size_t part_numbers)
{
    return check_by(1, ticks, part_numbers);
}

static void checks(void)
{
    static const uint16_t p5[] = {1, 1, 0, 0, 0, 0, 1, 1};
    begin();
    ends("check", check(TICKS, PARTS), told(0, 0));
    ends("check, 3", check(0, PARTS), told(3, 0));
    SET(plan[5], 4);
    ends("check, 8", check(TICKS, PARTS), told(8, 6));
    SET(parts[6], TICKS + 1);
    ends("check, 6", check(TICKS, PARTS), told(6, 3));
    begin();
    PUT(plan, p5);
    SET(parts[2], 2);
    ends("P5", check(TICKS, 3), (merkazobi_answer){9, 1, 1, 1, 2, 0});
    begin();
    PUT(plan, short_plan);
    PUT(parts, short_parts);
    ends("check, 9", check(10, 6), (merkazobi_answer){9, 2, 3, 4, 5, 0});
}

/* Either engine. */
typedef merkazobi_answer engine(size_t, size_t, const uint16_t *, size_t, const uint16_t *, size_t, const uint16_t *,
                                size_t, size_t);

static merkazobi_answer judged(engine *judge, size_t task_numbers, size_t place)
{
    return judge(1, 1, lent.plan, TICKS, lent.parts, PARTS, lent.tasks, task_numbers, place);
}

/* v1 and v2: where the tasks of V1 and V2 pass. */
static void verdicts(const char *name, engine *judge, size_t v1, size_t v2)
{
    const int before = failures;
    begin();
    ends("V1", judged(judge, TASKS, 1), told(0, v1));
    ends("V2", judged(judge, TASKS, 2), told(0, v2));
    ends("a place behind the table", judged(judge, TASKS, 3), told(7, 0));
    ends("place 0", judged(judge, TASKS, 0), told(7, 0));
    SET(tasks[6], 13);
    ends("V2, fail", judged(judge, TASKS, 2), told(0, 0));
    ends("verdict, 3", judged(judge, TASKS - 1, 1), told(3, 0));
    SET(plan[6], 4);
    ends("verdict, 8", judged(judge, TASKS, 1), told(8, 7));
    SET(tasks[5], 14);
    ends("verdict, 7", judged(judge, TASKS, 1), told(7, 2));
    SET(parts[6], 0);
    ends("verdict, 6", judged(judge, TASKS, 1), told(6, 3));
    begin();
    PUT(plan, short_plan);
    PUT(parts, short_parts);
    ends("verdict, 9", judge(1, 1, lent.plan, 10, lent.parts, 6, lent.tasks, TASKS, 1),
         (merkazobi_answer){9, 2, 3, 4, 5, 0});
    if (failures > before)
        printf("so answered %s\n", name);
}

/* ---- The supplier's page. */

static merkazobi_answer page(size_t place, size_t row_numbers)
{
    return merkazobi_page(1, 1, lent.plan, TICKS, lent.parts, PARTS, lent.tasks, TASKS, place, lent.rows, row_numbers);
}

/* As an engine, with no list: what it refuses, it refuses as the verdict does, before it asks for room. */
static merkazobi_answer paged(size_t edition, size_t granule, const uint16_t *ticks, size_t frame, const uint16_t *table,
                              size_t part_numbers, const uint16_t *its_tasks, size_t task_numbers, size_t place)
{
    return merkazobi_page(edition, granule, ticks, frame, table, part_numbers, its_tasks, task_numbers, place, NULL, 0);
}

static void pages(void)
{
    static const uint32_t v2[] = {13, 4, 3, 4};
    static const uint32_t fours[] = {4, 4, 0, 4, 8, 5, 3, 0, 12, 6, 3, 4};
    static const uint32_t eights[] = {8, 4, 3, 0, 16, 7, 6, 0};
    begin();
    ends("V1 lists nothing", page(1, 4 * TICKS), told(0, 8));
    ends("V2 lists nothing", page(2, 0), told(0, 14));
    ends("the page of no task", page(3, 4 * TICKS), told(7, 0));
    SET(tasks[6], 13);
    ends("V2's fail, a number less", page(2, 3), told(12, 0));
    memcpy(wanted.rows, v2, sizeof v2);
    ends("V2's fail", page(2, 4), (merkazobi_answer){0, 0, 1, 13, 1, 0});
    /* Points 4, 8 and 12 of a higher task of period 4, and the middle one falls short by the least. */
    begin();
    PUT(tasks, ((const uint16_t[TASKS]){2, 1, 4, 4, 2, 3, 12, 32}));
    ends("three points, a number less", page(2, 11), told(12, 0));
    memcpy(wanted.rows, fours, sizeof fours);
    ends("three points, into a longer list", page(2, 4 * TICKS), (merkazobi_answer){0, 0, 3, 8, 2, 0});
    /* Points 8 and 16 fall short by one each. */
    begin();
    PUT(tasks, ((const uint16_t[TASKS]){2, 3, 8, 8, 2, 1, 16, 32}));
    memcpy(wanted.rows, eights, sizeof eights);
    ends("equal shortages", page(2, 8), (merkazobi_answer){0, 0, 2, 8, 1, 0});
    SET(plan[6], 4);
    ends("8 before 12", page(2, 0), told(8, 7));
}

/* ---- Granules. */

static const size_t no_granules[] = {0, 17, 65537, (size_t)1 << 32, ((size_t)1 << 32) + 1, SIZE_MAX};
enum { NO_GRANULES = sizeof no_granules / sizeof *no_granules };

/* P1's table in granules of 2: 2, 4 and 2 ticks, and 2 * 2 + 4 + 2 is 10. Without the third partition 8 of 8. */
static void granules(void)
{
    static const uint16_t in_twos[] = {1, 1, 2, 2, 1, 1, 2, 2};
    begin();
    ends("P1 in granules of 2", build_by(2, PARTS, TICKS), told(11, 0));
    memcpy(wanted.ticks, in_twos, sizeof in_twos);
    ends("two partitions in granules of 2", build_by(2, 6, TICKS), told(0, 8));
    ends("P1 checked in granules of 2", check_by(2, TICKS, PARTS), (merkazobi_answer){9, 1, 0, 1, 2, 0});
    ends("a granule above the cycle", check_by(5, TICKS, PARTS), (merkazobi_answer){9, 1, 0, 1, 5, 0});
    ends("a granule above the cycle, built", build_by(5, 3, TICKS), told(11, 0));
    SET(parts[1], 4);
    ends("a whole cycle in granules of 3", check_by(3, TICKS, PARTS), (merkazobi_answer){9, 1, 0, 1, 6, 0});
    ends("a whole cycle in granules of 3, built", build_by(3, 3, TICKS), told(11, 0));
    SET(parts[1], 1);
    PUT(plan, in_twos);
    ends("checked with the same granule", check_by(2, TICKS, 6), told(0, 0));
    ends("checked with 1", check_by(1, TICKS, 6), told(0, 0));
    ends("checked with another", check_by(3, TICKS, 6), (merkazobi_answer){9, 1, 0, 2, 3, 0});
}

/* "g outside 1 to 16 is 21, after 3, and changes no output byte": before 6, 7, 8, 9 and 12, in its whole width. */
static void granule_refusals(engine *judge)
{
    for (size_t i = 0; i < NO_GRANULES; i++) {
        const size_t g = no_granules[i];
        begin();
        SET(parts[4], 0), SET(plan[5], 9), SET(tasks[5], 0);
        ends("build, 21", build_by(g, PARTS, 0), told(21, 0));
        ends("build, 3 before 21", build_by(g, 0, TICKS), told(3, 0));
        ends("check, 21", check_by(g, TICKS, PARTS), told(21, 0));
        ends("check, 3 before 21", check_by(g, 0, PARTS), told(3, 0));
        ends("verdict, 21", judge(1, g, lent.plan, TICKS, lent.parts, PARTS, lent.tasks, TASKS, 0), told(21, 0));
        ends("verdict, 3 before 21", judge(1, g, lent.plan, TICKS, lent.parts, PARTS, lent.tasks, 1, 1), told(3, 0));
    }
}

/* The verdict of a plan that doesn't serve in granules of 2, and of one that does: any 4 ticks in a row hold 2 of
   partition 2, and no 3 do. */
static void granule_verdicts(engine *judge, size_t passes)
{
    begin();
    const merkazobi_answer nine = judge(1, 2, lent.plan, TICKS, lent.parts, PARTS, lent.tasks, TASKS, 1);
    ends("a verdict in granules of 2", nine, (merkazobi_answer){9, 1, 0, 1, 2, 0});
    PUT(plan, ((uint16_t[]){1, 1, 2, 2, 1, 1, 2, 2}));
    for (size_t g = 1; g <= 2; g++)
        ends("a pass", judge(1, g, lent.plan, TICKS, lent.parts, 6, lent.tasks, TASKS, 1), told(0, passes));
}

/* The largest sum: fifteen partitions of cycle 1 want 16 of every tick, 15 * 16 * 4,096 + 4,096 together, which is
   4,096 again in 16 bits. */
static void largest_sum(void)
{
    enum { RECORDS = MERKAZOBI_PARTITIONS, WIDTH = MERKAZOBI_PART_NUMBERS };
    uint16_t table[RECORDS * WIDTH], out[1] = {7};
    for (size_t i = 0; i < RECORDS; i++)
        memcpy(&table[WIDTH * i], (uint16_t[]){i + 1 < RECORDS ? 1 : MERKAZOBI_CYCLE, 1, 1}, WIDTH * sizeof *table);
    const merkazobi_answer most = merkazobi_build(MERKAZOBI_GRANULE_TICKS, table, RECORDS * WIDTH, out, 1);
    expect("the largest sum", most.number, 11);
    expect("no output", out[0], 7);
}

/* ---- The plan file. */

/* Another number, or another length, has the file refused. */
static const struct {
    size_t at;
    uint16_t number;
    size_t bytes;
    merkazobi_answer told;
} refused[] = {
    {0, 1, 15, {.number = 1}},
    {0, 3, FILE_BYTES, {.number = 2}},
    {1, 0, FILE_BYTES, {.number = 3}},
    {4, 36, FILE_BYTES, {.number = 4}},
    {0, 1, FILE_BYTES + 1, {.number = 5}},
    {15, 0, FILE_BYTES, {.number = 6, .first = 3}},
    {22, 0, FILE_BYTES, {.number = 7, .first = 2}},
    {31, 4, FILE_BYTES, {.number = 8, .first = 4}},
};
enum { REFUSED = sizeof refused / sizeof *refused };

static void begin_file(size_t at, uint16_t number)
{
    begin();
    put_numbers(&lent.file[2 * at], &number, 1);
    put_numbers(&wanted.file[2 * at], &number, 1);
}

static merkazobi_answer section(size_t which, size_t bytes)
{
    return merkazobi_section(lent.file, bytes, which);
}

static void reads(void)
{
    begin();
    ends("read", merkazobi_read(lent.file, FILE_BYTES), (merkazobi_answer){0, 8, 3, 2, 5, 1});
    PUT(file, w1);
    ends("W1", merkazobi_read(lent.file, sizeof w1), (merkazobi_answer){0, 4, 2, 1, 2, 1});
    ends("W1, partitions", section(0, sizeof w1), (merkazobi_answer){0, 16, 28, 0, 0, 0});
    ends("W1, tasks", section(1, sizeof w1), (merkazobi_answer){0, 28, 36, 0, 0, 0});
    ends("W1, runs", section(2, sizeof w1), (merkazobi_answer){0, 36, 44, 0, 0, 0});
    ends("W1, no such part", section(3, sizeof w1), told(0, 0));
    ends("W1, no such part either", section(SIZE_MAX, sizeof w1), told(0, 0));
    for (size_t i = 0; i < REFUSED; i++) {
        begin_file(refused[i].at, refused[i].number);
        ends("read, refused", merkazobi_read(lent.file, refused[i].bytes), refused[i].told);
        for (size_t which = 0; which < 4; which++)
            ends("section, refused", section(which, refused[i].bytes), refused[i].told);
    }
}

static merkazobi_answer write_in(size_t edition, size_t frame, size_t bytes)
{
    return merkazobi_write(edition, frame, lent.parts, PARTS, lent.tasks, TASKS, lent.runs, RUNS, lent.out, bytes);
}

static merkazobi_answer write_out(size_t frame, size_t bytes)
{
    return write_in(1, frame, bytes);
}

static void writes(void)
{
    static const uint16_t w1_parts[] = {4, 1, 2, 4, 1, 3}, w1_tasks[] = {1, 1, 4, 4}, w1_runs[] = {1, 2, 2, 2};
    begin();
    PUT(parts, w1_parts);
    PUT(tasks, w1_tasks);
    PUT(runs, w1_runs);
    memcpy(wanted.out, w1, sizeof w1);
    ends("W1 written", merkazobi_write(1, 4, lent.parts, 6, lent.tasks, 4, lent.runs, 4, lent.out, sizeof w1),
         told(0, 44));
    begin();
    memcpy(wanted.out, lent.file, FILE_BYTES);
    ends("written into a longer output", write_out(TICKS, FILE_BYTES + 1), told(0, FILE_BYTES));
}

static void write_refusals(void)
{
    begin();
    ends("write, 12", write_out(TICKS, FILE_BYTES - 1), told(12, 0));
    ends("write, 3", write_out(0, FILE_BYTES), told(3, 0));
    SET(runs[9], 3);
    ends("write, 8", write_out(TICKS, FILE_BYTES), told(8, 5));
    SET(tasks[4], 4);
    ends("write, 7", write_out(TICKS, FILE_BYTES), told(7, 2));
    SET(parts[6], TICKS + 1);
    ends("write, 6", write_out(TICKS, FILE_BYTES), told(6, 3));
}

static merkazobi_answer list(size_t file_bytes, size_t bytes)
{
    return merkazobi_list(lent.file, file_bytes, lent.out, bytes);
}

static void lists(const char *what, size_t file_bytes, const char *text)
{
    const size_t length = strlen(text);
    ends(what, list(file_bytes, length - 1), told(12, 0));
    memcpy(wanted.out, text, length);
    ends(what, list(file_bytes, length), told(0, length));
    ends(what, list(file_bytes, length + 1), told(0, length));
}

static void listings(void)
{
    begin();
    lists("the listing", FILE_BYTES, listing);
    begin();
    PUT(file, w1);
    lists("W1's listing", sizeof w1, w1_listing);
    char line[] = "refused 1\n";
    for (size_t i = 0; i < REFUSED; i++, line[8]++) {
        begin_file(refused[i].at, refused[i].number);
        lists("a refused file's listing", refused[i].bytes, line);
    }
    begin_file(31, 2);
    lists("the listing of a plan that doesn't serve", FILE_BYTES, "refused 9\n");
}

/* ---- Editions: "the first tick of a run is spent on switching when the tick before belongs to another partition or to
   idle, the frame's end joined to its start". */

static const size_t no_editions[] = {0, 3, 4, 65537, 65538, ((size_t)1 << 32) + 1, ((size_t)1 << 32) + 2, SIZE_MAX};
enum { NO_EDITIONS = sizeof no_editions / sizeof *no_editions };

/* P1 in edition 2: partition 2 is served in the ticks 2 and 3, no other one ever. */
static void edition_service(void)
{
    static const uint32_t two[] = {0, 0, 0, 0, 0, 0, 0, 1, 2, 2, 2, 2, 2, 2, 2, 3};
    static const uint32_t nobody[] = {0, 0, 0, 1, 2, 3, 4, 5, 6, 6};
    begin();
    ends("held in edition 2", held(2, 2, 1, 4), told(0, 2));
    ends("held in edition 2, from a switch tick on", held(2, 2, 1, 1), told(0, 0));
    ends("held in edition 2, across the end", held(2, 2, 3, 8), told(0, 2));
    ends("held in edition 2, of switch ticks alone", held(2, 1, 0, 800), told(0, 0));
    ends("held in edition 2, of idle and switch ticks", held(2, 0, 0, 8), told(0, 6));
    ends("least in edition 2", least(2, 2, 14), told(0, 2));
    ends("least in edition 2, a tick more", least(2, 2, 15), told(0, 3));
    ends("least in edition 2, of idle and switch ticks", least(2, 0, 8), told(0, 6));
    const size_t whole = 2 * (size_t)(UINT32_MAX / TICKS);
    ends("held of the longest in edition 2", held(2, 2, 4, UINT32_MAX), told(0, whole + 1));
    ends("least of the longest in edition 2", least(2, 2, UINT32_MAX), told(0, whole + 1));
    memcpy(wanted.curve, two, sizeof two);
    ends("curve in edition 2", curve_in(2, 2, 15, 16), told(0, 16));
    memcpy(wanted.curve, nobody, sizeof nobody);
    ends("curve in edition 2, of idle and switch ticks", curve_in(2, 0, 9, 3 * TICKS), told(0, 10));
}

/* The frame's end joined to its start, one run, and runs of one tick. */
static void edition_ends(void)
{
    static const uint16_t joined[TICKS] = {1, 1, 2, 2, 0, 0, 1, 1}, turns[TICKS] = {1, 2, 1, 2, 1, 2, 1, 2};
    static const uint16_t one_run[TICKS] = {7, 7, 7, 7, 7, 7, 7, 7};
    begin();
    PUT(plan, joined);
    ends("no switch at the frame's start", held(2, 1, 0, 1), told(0, 1));
    ends("a switch behind idle ticks", held(2, 1, 6, 1), told(0, 0));
    ends("a frame of both", held(2, 1, 0, TICKS), told(0, 3));
    PUT(plan, turns);
    ends("runs of one tick", held(2, 1, 0, TICKS), told(0, 0));
    ends("runs of one tick serve nobody", least(2, 0, TICKS), told(0, 8));
    ends("one tick", merkazobi_held(2, lent.plan, 1, 1, 0, 5), told(0, 5));
    PUT(plan, one_run);
    ends("one run", least(2, 7, 5), told(0, 5));
}

/* Good in edition 1; in edition 2 the ticks 2 to 6 serve partition 2, and of the seven from tick 3 on four do. */
static const uint16_t switch_parts[] = {8, 1, 8, 7, 5, 7};
static const uint16_t switch_plan[TICKS] = {1, 2, 2, 2, 2, 2, 2, 1};

static void edition_checks(void)
{
    begin();
    ends("P1 in edition 2", check_in(2, 1, TICKS, PARTS), (merkazobi_answer){9, 1, 0, 0, 1, 0});
    PUT(plan, switch_plan);
    PUT(parts, switch_parts);
    ends("good in edition 1", check_in(1, 1, TICKS, 6), told(0, 0));
    ends("9 in edition 2", check_in(2, 1, TICKS, 6), (merkazobi_answer){9, 2, 3, 4, 5, 0});
    SET(parts[4], 4);
    ends("good in edition 2", check_in(2, 1, TICKS, 6), told(0, 0));
    SET(parts[0], 7);
    ends("9 of partition 1", check_in(2, 1, TICKS, 6), (merkazobi_answer){9, 1, 1, 0, 1, 0});
}

/* Partition 2 of P1 alone: any 8 ticks hold two, and any 16 four, of which some 15 have three. passes: where the first
   task does in edition 1, which in edition 2 is at 8. */
static void edition_verdicts(engine *judge, size_t passes)
{
    static const uint16_t alone[TICKS] = {0, 1, 1, 1, 0, 0, 0, 0}, its_tasks[TASKS] = {1, 2, 8, 16, 1, 2, 14, 32};
    const size_t ticks[] = {passes, 8}, last[] = {14, 0};
    begin();
    PUT(plan, alone);
    PUT(tasks, its_tasks);
    SET(parts[0], 8);
    for (size_t e = 1; e <= 2; e++) {
        ends("an edition's pass", judge(e, 1, lent.plan, TICKS, lent.parts, 3, lent.tasks, TASKS, 1), told(0, ticks[e - 1]));
        ends("in edition 2 a fail", judge(e, 1, lent.plan, TICKS, lent.parts, 3, lent.tasks, TASKS, 2), told(0, last[e - 1]));
    }
    SET(tasks[6], 16);
    ends("an edition's later pass", judge(2, 1, lent.plan, TICKS, lent.parts, 3, lent.tasks, TASKS, 2), told(0, 16));
    PUT(plan, switch_plan);
    PUT(parts, switch_parts);
    ends("a verdict's 9 in edition 2", judge(2, 1, lent.plan, TICKS, lent.parts, 6, lent.tasks, TASKS, 1),
         (merkazobi_answer){9, 2, 3, 4, 5, 0});
}

/* "2 now means neither 1 nor 2, in a call too": before all else, in its whole width, and no output is changed. */
static void edition_refusals(engine *judge)
{
    for (size_t i = 0; i < NO_EDITIONS; i++) {
        const size_t e = no_editions[i];
        begin();
        ends("held, 2", held(e, 2, 1, 4), told(2, 0));
        ends("least, 2", least(e, 2, 8), told(2, 0));
        ends("curve, 2", curve_in(e, 2, 14, 15), told(2, 0));
        ends("curve, 2 before 12", curve_in(e, 2, 14, 14), told(2, 0));
        ends("check, 2", check_in(e, 1, TICKS, PARTS), told(2, 0));
        ends("check, 2 before 3", check_in(e, 17, 0, PARTS), told(2, 0));
        ends("check, 2 before 21", check_in(e, 17, TICKS, PARTS), told(2, 0));
        ends("verdict, 2", judge(e, 1, lent.plan, TICKS, lent.parts, PARTS, lent.tasks, TASKS, 1), told(2, 0));
        ends("verdict, 2 before 3", judge(e, 17, lent.plan, TICKS, lent.parts, PARTS, lent.tasks, 1, 0), told(2, 0));
        ends("verdict, 2 before 21", judge(e, 17, lent.plan, TICKS, lent.parts, PARTS, lent.tasks, TASKS, 0), told(2, 0));
        ends("write, 2", write_in(e, TICKS, FILE_BYTES), told(2, 0));
        ends("write, 2 before 3", write_in(e, 0, 0), told(2, 0));
        ends("write, 2 before 12", write_in(e, TICKS, 0), told(2, 0));
    }
}

/* "Files say edition 2; edition 1 files keep their rule for good, and we must read and write both." */
static void edition_files(void)
{
    begin_file(0, 2);
    ends("read in edition 2", merkazobi_read(lent.file, FILE_BYTES), (merkazobi_answer){0, 8, 3, 2, 5, 2});
    ends("a section in edition 2", section(1, FILE_BYTES), (merkazobi_answer){0, 34, 50, 0, 0, 0});
    memcpy(wanted.out, lent.file, FILE_BYTES);
    ends("written in edition 2", write_in(2, TICKS, FILE_BYTES), told(0, FILE_BYTES));
    for (uint16_t number = 0; number < 600; number += number == 0 ? 3 : 1) {
        begin_file(0, number);
        ends("a file of another edition", merkazobi_read(lent.file, FILE_BYTES), told(2, 0));
        ends("its sections", section(number % 4, FILE_BYTES), told(2, 0));
    }
}

/* W1 in edition 2 with shares of a quarter: any four ticks hold one of each partition, and any three need not. */
static void edition_listings(void)
{
    static const char w1_in_2[] = "frame 4\n"
                                  "partition 1 wants 1 in 4 least 1\n"
                                  "partition 2 wants 1 in 4 least 1\n"
                                  "task 1 partition 1 pass 4 tick 4\n";
    begin_file(0, 2);
    lists("P1's listing in edition 2", FILE_BYTES, "refused 9\n");
    begin();
    PUT(file, w1);
    SET(file[1], 2);
    lists("W1's listing in edition 2", sizeof w1, "refused 9\n");
    SET(file[21], 4), SET(file[27], 4);
    lists("W1's listing in edition 2, of smaller shares", sizeof w1, w1_in_2);
}

/* ---- The desk. */

static const merkazobi_job d1[] = {{10, 3, 20, 6}, {15, 5, 24, 4}, {30, 2, 40, 8}};

/* The clock, and so many jobs with zeros behind them. */
static void stand(memory *at, uint32_t clock, const merkazobi_job *jobs, uint32_t count)
{
    memset(at->jobs, 0, PLACES * sizeof *jobs);
    for (uint32_t i = 0; i < count; i++)
        at->jobs[i] = jobs[i];
    at->desk[0] = (merkazobi_desk){clock, count};
}

static void begin_desk(uint32_t clock, const merkazobi_job *jobs, uint32_t count)
{
    begin();
    stand(&lent, clock, jobs, count);
    stand(&wanted, clock, jobs, count);
}

static void opens(void)
{
    begin_desk(77, d1, 3);
    lent.jobs[0].x = lent.jobs[2].x = 0, lent.jobs[1].x = 7;
    stand(&wanted, 0, d1, 3);
    ends("D1", merkazobi_open(lent.desk, lent.jobs, PLACES), told(0, 0));
    begin_desk(77, d1, 3);
    SET(jobs[0].x, 0);
    SET(jobs[1].d, 19);
    ends("open, 13", merkazobi_open(lent.desk, lent.jobs, PLACES), told(13, 0));
}

static merkazobi_answer request(uint32_t t, uint32_t c, uint32_t d)
{
    return merkazobi_request(lent.desk, lent.jobs, PLACES, t, c, d);
}

static void requests(void)
{
    static const merkazobi_job d2[] = {{8, 6, 16, 2}, {14, 3, 20, 2}, {17, 5, 24, 2}, {30, 2, 40, 8}};
    static const merkazobi_job d3[] = {{8, 8, 40, 0}, {16, 3, 20, 0}, {19, 5, 24, 0}, {30, 2, 40, 8}};
    static const merkazobi_job d4[] = {{10, 3, 20, 6}, {15, 5, 24, 4}, {20, 9, 40, 9}, {30, 2, 40, 8}};
    begin_desk(0, d1, 3);
    stand(&wanted, 8, d2, 4);
    ends("D2", request(8, 6, 16), (merkazobi_answer){0, 0, 8, 0, 0, 0});
    begin_desk(0, d1, 3);
    stand(&wanted, 8, d3, 4);
    ends("D3", request(8, 8, 40), (merkazobi_answer){0, 0, 8, 0, 0, 0});
    begin_desk(0, d1, 3);
    stand(&wanted, 8, d4, 4);
    ends("D4", request(8, 9, 40), (merkazobi_answer){0, 2, 20, 0, 0, 0});
}

/* "place l is tried too, also when the table is empty or no job follows: it is taken when s + C <= d" */
static void requests_at_the_last_place(void)
{
    static const merkazobi_job d6[] = {{25, 4, 29, 0}, {30, 2, 40, 8}};
    static const merkazobi_job behind[] = {{30, 2, 40, 0}, {32, 9, 41, 0}};
    static const merkazobi_job alone[] = {{7, 5, 12, 0}};
    static const merkazobi_job behind_early[] = {{30, 2, 40, 4}, {32, 9, 45, 4}};
    static const merkazobi_job alone_early[] = {{7, 5, 20, 8}};
    begin_desk(0, d1, 3);
    stand(&wanted, 25, d6, 2);
    ends("D6", request(25, 4, 29), (merkazobi_answer){0, 0, 25, 0, 0, 0});
    begin_desk(0, &d1[2], 1);
    stand(&wanted, 30, behind, 2);
    ends("behind the last job", request(30, 9, 41), (merkazobi_answer){0, 1, 32, 0, 0, 0});
    begin_desk(0, NULL, 0);
    stand(&wanted, 7, alone, 1);
    ends("in an empty table", request(7, 5, 12), (merkazobi_answer){0, 0, 7, 0, 0, 0});
    begin_desk(0, &d1[2], 1);
    stand(&wanted, 30, behind_early, 2);
    ends("behind the last job, time to spare", request(30, 9, 45), (merkazobi_answer){0, 1, 32, 0, 0, 0});
    begin_desk(0, NULL, 0);
    stand(&wanted, 7, alone_early, 1);
    ends("in an empty table, time to spare", request(7, 5, 20), (merkazobi_answer){0, 0, 7, 0, 0, 0});
}

/* "13, 14, 15 .. change nothing at the desk." */
static void requests_that_change_nothing(void)
{
    begin_desk(9, d1, 3);
    ends("request, 14", request(9, 0, 40), told(14, 0));
    ends("request, 14 for the time", request(1000001, 1, 40), told(14, 0));
    ends("request, 15", request(8, 1, 40), told(15, 0));
    SET(jobs[1].x, 3);
    ends("request, 13", request(9, 1, 40), told(13, 0));
}

/* "16, 17, 18 set the clock to t and drop finished jobs". Of 64 that are left none was dropped. */
static void requests_that_drop(void)
{
    begin_desk(0, d1, 3);
    stand(&wanted, 12, d1, 3);
    ends("D5", request(12, 1, 40), told(16, 0));
    begin_desk(0, d1, 3);
    stand(&wanted, 16, &d1[1], 2);
    ends("busy with the second job", request(16, 1, 40), told(16, 0));
    begin_desk(0, d1, 3);
    stand(&wanted, 25, &d1[2], 1);
    ends("a tick longer than D6", request(25, 5, 29), (merkazobi_answer){18, 0, 4, 1, 0, 0});
    begin_desk(0, &d1[2], 1);
    stand(&wanted, 30, &d1[2], 1);
    ends("a tick too long behind the last job", request(30, 10, 41), (merkazobi_answer){18, 1, 9, 1, 0, 0});
    begin_desk(0, NULL, 0);
    stand(&wanted, 7, NULL, 0);
    ends("a tick too long for an empty table", request(7, 6, 12), (merkazobi_answer){18, 0, 5, 1, 0, 0});
    merkazobi_job full[PLACES];
    for (uint32_t i = 0; i < PLACES; i++)
        full[i] = (merkazobi_job){10 + i, 1, 1000000, 999926};
    begin_desk(0, full, PLACES);
    stand(&wanted, 5, full, PLACES);
    ends("request, 17", request(5, 1, 100), told(17, 0));
}

/* "the lowest place with the largest room, that room, and whether the request's own deadline or a listed job's binds it".
   At 8 place 0 of D1 has 8 ticks: 2 before job 0, which can be moved back by 6, for job 1 behind it has no more. */
static void explanations(void)
{
    static const struct {
        const char *what;
        uint32_t c, d;
        merkazobi_answer said;
    } cases[] = {
        {"no place, the request on equals", 9, 16, {18, 0, 8, 1, 0, 0}},
        {"no place, the job behind", 9, 17, {18, 0, 8, 2, 1, 0}},
        {"no place, the last job", 19, 50, {18, 2, 18, 2, 2, 0}},
        {"no place, the last job on equals", 19, 38, {18, 2, 18, 1, 0, 0}},
        {"no place, no room", 1, 8, {18, 0, 0, 1, 0, 0}},
        {"no place at all", 1, 7, {18, 0, 0, 0, 0, 0}},
    };
    for (size_t i = 0; i < sizeof cases / sizeof *cases; i++) {
        begin_desk(0, d1, 3);
        stand(&wanted, 8, d1, 3);
        ends(cases[i].what, request(8, cases[i].c, cases[i].d), cases[i].said);
    }
}

int main(void)
{
    wants();
    service();
    curves();
    builds();
    build_refusals();
    checks();
    verdicts("merkazobi_verdict", merkazobi_verdict, 8, 14);
    verdicts("merkazobi_plain", merkazobi_plain, 7, 14);
    pages();
    granules();
    granule_refusals(paged);
    granule_refusals(merkazobi_verdict);
    granule_refusals(merkazobi_plain);
    granule_verdicts(merkazobi_verdict, 8);
    granule_verdicts(merkazobi_plain, 4);
    largest_sum();
    reads();
    writes();
    write_refusals();
    listings();
    edition_service();
    edition_ends();
    edition_checks();
    edition_verdicts(merkazobi_verdict, 8);
    edition_verdicts(merkazobi_plain, 7);
    edition_refusals(paged);
    edition_refusals(merkazobi_verdict);
    edition_refusals(merkazobi_plain);
    edition_files();
    edition_listings();
    opens();
    requests();
    requests_at_the_last_place();
    requests_that_change_nothing();
    explanations();
    requests_that_drop();
    return failures != 0;
}
