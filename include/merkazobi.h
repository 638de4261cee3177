/* Merkazobi, the box planner: the C surface. Rules and refusal numbers are document 01's, as changed by document 02's
   requests; docs/FORMAT.md has the plan file, all limits and the refusals in words.

   The library is for x86-64 Linux. Installed by `make install`, it is libmerkazobi.a (pkg-config: merkazobi); in the
   repository `make` writes crates/api_c/out/libapi_c.a, which is the same archive.

   Every call ends with an answer, whatever numbers and bytes it is given. It allocates nothing, keeps nothing between
   calls and calls nothing back, so any thread may call at any time, with memory of its own.

   Pointers: what is lent must be there for the whole length said, aligned as its type asks. A null pointer is good
   where the length is 0. What is lent for writing must not overlap anything else of the same call.

   Cost: `merkazobi_read` and `merkazobi_section` take up to MERKAZOBI_READ_STACK bytes of stack, `merkazobi_verdict`,
   `merkazobi_plain` and `merkazobi_page` up to MERKAZOBI_VERDICT_STACK, `merkazobi_list` up to MERKAZOBI_LIST_STACK,
   every other call up to MERKAZOBI_STACK. At the limits a build, check, read or write takes under a millisecond; a
   call over running counts walks plan, list (65,552 numbers at most) and questions; merkazobi_held walks at most a
   frame, merkazobi_least two. merkazobi_curve walks, for each run of the partition, as far as n goes, but no further
   than a frame: a verdict makes one curve up to D, a listing one for each partition that has tasks. At the limits
   that is some thousandths of a second for a verdict and some hundredths at most for a listing. merkazobi_page makes
   the verdict's curve and walks, for each scheduling point of a task that fails, at most two frames more: some
   hundredths of a second where every tick of 4,096 is one. docs/TIMES.md has what was measured. A call of the desk
   goes through its 64 places a few times: about a microsecond, whatever is asked. */
#ifndef MERKAZOBI_H
#define MERKAZOBI_H

#include <stddef.h>
#include <stdint.h>

#ifdef __cplusplus
extern "C" {
#endif

/* Limits: "Partitions 1 to 16, tasks 0 to 128, frame 1 to 4,096 ticks, runs 1 to 4,096. Cycle 1 to 4,096. Share num/den
   with 1 <= num <= den <= 1,000. A task has 1 <= C <= D <= T <= 4,096". "Wherever a plan comes in, a partition whose
   cycle is longer than F is a bad record (6)." */
#define MERKAZOBI_PARTITIONS 16
#define MERKAZOBI_TASKS 128
#define MERKAZOBI_FRAME 4096
#define MERKAZOBI_RUNS 4096
#define MERKAZOBI_CYCLE 4096
#define MERKAZOBI_SHARE 1000
#define MERKAZOBI_PERIOD 4096

/* "g from 1 to 16": the granule of a call. Ticks are wanted in multiples of it; 1 asks for whole ticks and no more. */
#define MERKAZOBI_GRANULE_TICKS 16

/* The newest edition; every one from 1 on is known. */
#define MERKAZOBI_NEWEST_EDITION 2

/* The desk: "64 jobs; times and budgets up to 1,000,000". */
#define MERKAZOBI_PLACES 64
#define MERKAZOBI_TIME 1000000

/* Tables are numbers one behind the other, and a length always counts numbers, never records: a partition is 3 numbers
   (cycle, num, den), a task 4 (partition, C, D, T), a run 2 (owner, length). So two partitions of cycle 4, shares 1/4
   and 1/2, are lent as

       const uint16_t parts[] = {4, 1, 4, 4, 1, 2};
       merkazobi_build(1, parts, 6, out, MERKAZOBI_FRAME);

   A length that is no whole number of records is refused with 3. A plan is the owner of each tick, 0 for idle: its
   length is the frame. The length of a file or a text counts bytes, that of a job table places. */
#define MERKAZOBI_PART_NUMBERS 3
#define MERKAZOBI_TASK_NUMBERS 4
#define MERKAZOBI_RUN_NUMBERS 2
#define MERKAZOBI_QUESTION_NUMBERS 3

/* An output of so many bytes is long enough for any plan file, and for any listing: a line for the frame, each partition
   and each task, of at most 128 bytes each. */
#define MERKAZOBI_FILE_BYTES                                                                                         \
    (16 + 2 * (MERKAZOBI_PART_NUMBERS * MERKAZOBI_PARTITIONS + MERKAZOBI_TASK_NUMBERS * MERKAZOBI_TASKS +            \
               MERKAZOBI_RUN_NUMBERS * MERKAZOBI_RUNS))
#define MERKAZOBI_LISTING_BYTES (128 * (1 + MERKAZOBI_PARTITIONS + MERKAZOBI_TASKS))

/* A list of so many numbers is long enough for the running counts of any plan. */
#define MERKAZOBI_COUNT_NUMBERS (MERKAZOBI_PARTITIONS * (MERKAZOBI_FRAME + 1))

/* A list of so many numbers is long enough for the curve up to the longest deadline. */
#define MERKAZOBI_CURVE_NUMBERS (MERKAZOBI_PERIOD + 1)

/* A row of the supplier's page is 4 numbers, and a list of so many is long enough for any page. */
#define MERKAZOBI_ROW_NUMBERS 4
#define MERKAZOBI_PAGE_NUMBERS (MERKAZOBI_ROW_NUMBERS * MERKAZOBI_PERIOD)

#define MERKAZOBI_STACK 1024
#define MERKAZOBI_VERDICT_STACK 36864
#define MERKAZOBI_READ_STACK 20480
#define MERKAZOBI_LIST_STACK 81920

/* The refusal numbers. Where several rules are broken the lowest number is told, then the lowest place; place 0, which is
   of no record, comes after all others of its number, and 21 comes after 3 and before 6. In a call 2 comes first. */
enum {
    MERKAZOBI_GOOD = 0,
    MERKAZOBI_FILE_SHORT = 1, /* file under 16 bytes */
    MERKAZOBI_EDITION = 2,    /* the edition is neither 1 nor 2 */
    MERKAZOBI_LIMITS = 3,     /* a count or frame outside its limits */
    MERKAZOBI_OFFSET = 4,     /* an offset is wrong */
    MERKAZOBI_LENGTH = 5,     /* length differs from the contents */
    MERKAZOBI_PARTITION = 6,  /* bad partition; first: its place from 1 */
    MERKAZOBI_TASK = 7,       /* bad task; first: its place from 1, or 0 where the place asked for is not in the table */
    MERKAZOBI_RUN = 8,        /* bad run or tick; first: its place from 1 (a bad plan[k] is k + 1), or 0 where a partition asked for, or a new
                                 owner, is not in the table; then second: of many questions the place from 1 */
    MERKAZOBI_SERVICE = 9,    /* plan doesn't serve; partition, start, held, wanted */
    MERKAZOBI_HARMONIC = 10,  /* cycles not harmonic */
    MERKAZOBI_TICKS = 11,     /* want of ticks */
    MERKAZOBI_OUTPUT = 12,    /* output, or a list of running counts, of a curve or of rows, shorter than needed */
    MERKAZOBI_TABLE = 13,     /* job table, clock or count breaks the rules */
    MERKAZOBI_NUMBER = 14,    /* C zero, or C, d or t above 1,000,000 */
    MERKAZOBI_PAST = 15,      /* t before the clock */
    MERKAZOBI_BUSY = 16,      /* busy: ask again when the running job ends */
    MERKAZOBI_FULL = 17,      /* 64 jobs left after dropping */
    MERKAZOBI_NO_PLACE = 18,  /* no place keeps every deadline; the roomiest place, its room, what binds it, that job */
    /* 19 was a move beyond a job's x. No call ever answered it, and the number isn't used again. */
    MERKAZOBI_COUNTS = 20,    /* the running counts disagree with the plan */
    MERKAZOBI_GRANULE = 21,   /* the granule is not from 1 to 16 */
    MERKAZOBI_STRETCH = 26    /* a tick outside the plan, a start not below the frame, or a stretch longer than it;
                                 second: of many questions the place from 1 */
};

/* What a call answers. number is 0 where the call is not refused, else the refusal's number; first to fifth hold what is
   returned beside it, and 0 where there is nothing. */
typedef struct {
    size_t number;
    size_t first;
    size_t second;
    size_t third;
    size_t fourth;
    size_t fifth;
} merkazobi_answer;

/* ---- Shares and plans. Refusals 1 to 12 and 21 change no output; a success changes only what it needs.

   The edition says which of the ticks that a partition owns serve it. In edition 1 all do. In edition 2 "the first tick
   of a run is spent on switching when the tick before belongs to another partition or to idle, the frame's end joined to
   its start": such a switch tick is owned, but serves nobody. So plan[k], where it isn't 0, is a switch tick when
   plan[k - 1], or for k 0 the plan's last tick, is another; a plan of one run has none. No stretch is served more in
   edition 2 than in 1: a plan that is accepted there, and a task that passes, is and does so in edition 1. The builder's
   plans serve in edition 1 and need not in 2: check them there. An edition is taken in its whole width, and what is
   neither 1 nor 2 is refused with 2, before everything else.

   Boxes that switch only at multiples of g ticks of service in a cycle give g as the granule, all others 1. It sizes the
   share and no more: windows need not start on it. A plan is checked, and its tasks are judged, with the granule that it
   was built with; one that serves with any granule serves with 1 too. The plan file doesn't carry it: merkazobi_list
   judges with 1. A granule is taken as it is given, in its whole width: what is not from 1 to 16 is refused with 21. */

/* "the smallest multiple of g that is at least num*m/den": the ticks q that a share wants in a cycle of m. With granule 1
   it is num*m/den rounded up. Nothing is refused: any numbers are taken, and 0 is answered where the granule or den is
   0. It can be more than m, though of a good share by less than a granule: a whole cycle of 4 ticks in granules of 3 wants
   6. Then no plan serves. */
size_t merkazobi_wants(size_t granule, uint16_t m, uint16_t num, uint16_t den);

/* How many of the n ticks of the repeated plan from tick s on serve partition p; ticks is the plan's length. first: the
   count. For p 0 it counts the ticks that serve nobody: idle ones, and in edition 2 switch ticks. Of an empty plan every
   tick is idle. Refusal 2. */
merkazobi_answer merkazobi_held(size_t edition, const uint16_t *plan, size_t ticks, uint16_t p, uint32_t s, uint32_t n);

/* "the smallest number of a partition's ticks in any t consecutive ticks of the repeated plan", of those that serve it;
   p, ticks and the answer as above. */
merkazobi_answer merkazobi_least(size_t edition, const uint16_t *plan, size_t ticks, uint16_t p, uint32_t t);

/* The curve of least service: list[t] is what merkazobi_least tells of the same edition, plan, p and t, for every t from
   0 to n, worked out together. first: n + 1, how many numbers are written; a longer list keeps its tail. A list of
   MERKAZOBI_CURVE_NUMBERS is long enough for any deadline. Refusals 2, 12. */
merkazobi_answer merkazobi_curve(size_t edition, const uint16_t *plan, size_t ticks, uint16_t p, uint32_t n,
                                 uint32_t *list, size_t list_numbers);

/* The builder: "Take partitions by rising cycle, equal cycles by place. In each cycle, counted from tick 0, give the
   partition its q earliest idle ticks." first: the frame, the largest cycle. part_numbers is 3 for each partition;
   out_ticks is how many ticks out has, MERKAZOBI_FRAME is always enough. Refusals 3, 21, 6, 10, 11, 12, in this order;
   11 exactly where the sum of q*H/m is above the frame H, so too where any q is above its m. */
merkazobi_answer merkazobi_build(size_t granule, const uint16_t *parts, size_t part_numbers, uint16_t *out,
                                 size_t out_ticks);

/* The checker: whether "every stretch of m consecutive ticks of the repeated plan, from any start and across the frame's
   end too, holds at least q ticks of that partition", of those that serve it. ticks is the frame, part_numbers is 3 for
   each partition. Refusals 2, 3, 21, 6, 8, 9; an empty plan is 3. A q above its m is 9 at start 0 of that partition,
   unless a lower one falls short. */
merkazobi_answer merkazobi_check(size_t edition, size_t granule, const uint16_t *plan, size_t ticks,
                                 const uint16_t *parts, size_t part_numbers);

/* The verdict for the task at a place counted from 1: "Task i passes exactly when demand(t) <= least(t) for some t from 1
   to D." first: the smallest scheduling point that holds, or 0 where the task fails. ticks is the frame, part_numbers
   is 3 for each partition, task_numbers 4 for each task. Refusals 2, 3, 21, 6, 7, 8, 9; "a place outside the table is 7
   with place 0, after the other 7s". Where the plan is accepted and the task passes, every job of it ends within D in
   every legal run; jobs run in service ticks only. */
merkazobi_answer merkazobi_verdict(size_t edition, size_t granule, const uint16_t *plan, size_t ticks,
                                   const uint16_t *parts, size_t part_numbers, const uint16_t *tasks,
                                   size_t task_numbers, size_t place);

/* The same by the plain engine: "every tick t from 1 to D, no scheduling points". Lent, asked and refused as the verdict;
   it passes, fails and refuses exactly where that does. first: the smallest tick that holds, which is never above the
   scheduling point and may be below it, or 0 where the task fails. */
merkazobi_answer merkazobi_plain(size_t edition, size_t granule, const uint16_t *plan, size_t ticks,
                                 const uint16_t *parts, size_t part_numbers, const uint16_t *tasks,
                                 size_t task_numbers, size_t place);

/* The supplier's page, which says why a task fails: "for each scheduling point in rising order, its demand, its least
   service and a worst start (the lowest)", a tick of the frame from which as many ticks as the point holds hold no more
   than that least. rows gets four numbers for each point: the point, demand, least service, start. Lent, asked and
   refused as the verdict, with 12 behind 9: a failing task's points need more numbers than rows has; then nothing is
   written. A list of MERKAZOBI_PAGE_NUMBERS is always enough, and a longer one keeps its tail.
   A task that passes lists nothing, whatever rows is: first is the point, as the verdict tells it. Where it fails, first
   is 0, second how many rows are written, third "the point with the smallest shortage, lowest point on equals", and fourth
   that shortage, demand less least service, which is at least 1: a task of a budget smaller by so much, if any is left,
   passes there. */
merkazobi_answer merkazobi_page(size_t edition, size_t granule, const uint16_t *plan, size_t ticks,
                                const uint16_t *parts, size_t part_numbers, const uint16_t *tasks,
                                size_t task_numbers, size_t place, uint32_t *rows, size_t row_numbers);

/* ---- Running counts kept beside the plan: "for each partition the count of own ticks before each tick from 0 to F, in a
   list the caller lends", partition by partition. Partition p's count before tick k stands at (p - 1) * (F + 1) + k, so
   the list has partitions * (F + 1) numbers. All owned ticks count, as in edition 1. What stands behind them in a longer
   list is neither read nor written. A plan need not serve its table here (there is no 9), so half-done ones are counted
   too.

   Of each call ticks is the frame F and part_numbers is 3 for each partition. Refusals come in the order 3, 6, 8, 8 with
   first 0, 12, 20, 26. "None of them changes anything." A list that was filled and then changed only by
   merkazobi_counts_change is never refused with 20, as long as the plan is changed in no other way. 20 tells that it was,
   or that the list is another plan's: then fill it again, nothing else mends it. (Cycles and shares don't matter to it.)

   20 is judged at each call, for all of the list, so that one question, and one change, costs more than a fill, and more
   than merkazobi_held takes to walk a stretch. It is merkazobi_counts_held_many that makes questions cheap, from some
   dozens of them on. */

/* Fills the list from the plan, whatever it held. first: how many numbers it has. Refusals 3, 6, 8, 12. */
merkazobi_answer merkazobi_counts_fill(const uint16_t *plan, size_t ticks, const uint16_t *parts, size_t part_numbers,
                                       uint16_t *list, size_t list_numbers);

/* How many of the length ticks from tick start on are partition's, across the frame's end too. first: the count, which is
   that of merkazobi_held in edition 1 (which takes any start and length, and 0 for idle). start is 0 to F - 1, length 0 to
   F. Refusals 3, 6, 8 (first 0: no such partition; partition 0 is none), 12 (the list), 20, 26. */
merkazobi_answer merkazobi_counts_held(const uint16_t *plan, size_t ticks, const uint16_t *parts, size_t part_numbers,
                                       const uint16_t *list, size_t list_numbers, size_t partition, size_t start,
                                       size_t length);

/* The same of many stretches in one call, as many as you like: the list is held against the plan once, then each answer
   is two or three numbers of it. questions has 3 numbers for each question (partition, start, length), answers gets a
   number for each, in their order; a longer one keeps its tail. first: how many. Refusals 3, 6, 8, 12, 20, 26 in the
   same order; 3 also where question_numbers is no multiple of 3, 12 also where answers has fewer numbers than there are
   questions. 8 with first 0, and 26, have as second the lowest place, from 1, among the questions that break that rule.
   A refused call answers no question. No questions at all is good, but plan and list are judged then too. */
merkazobi_answer merkazobi_counts_held_many(const uint16_t *plan, size_t ticks, const uint16_t *parts,
                                            size_t part_numbers, const uint16_t *list, size_t list_numbers,
                                            const uint16_t *questions, size_t question_numbers, uint16_t *answers,
                                            size_t answer_numbers);

/* Gives tick (0 to F - 1) to owner, in plan and list: "changes that tick and only the later counts of the old and the new
   owner". Owner 0 makes it idle; where nothing is refused, the owner that it has already changes nothing. first to fourth
   are 0. Refusals 3, 6, 8 (first 0: no such owner), 12 (the list), 20, 26. */
merkazobi_answer merkazobi_counts_change(uint16_t *plan, size_t ticks, const uint16_t *parts, size_t part_numbers,
                                         uint16_t *list, size_t list_numbers, size_t tick, size_t owner);

/* ---- The plan file (docs/FORMAT.md). */

/* The reader of a plan file. first: the frame; second, third, fourth: how many partitions, tasks, runs (records, not
   numbers); fifth: the edition. Refusals 1 to 8. */
merkazobi_answer merkazobi_read(const uint8_t *file, size_t bytes);

/* "The reader hands back each body as a part of the file itself": which is 0 for partitions, 1 for tasks, 2 for runs.
   first and second: the byte where the part starts and the one behind its end; for any other which both are 0, an
   empty part. The numbers in the part have two bytes, high byte first. A file that is not accepted is answered as by
   merkazobi_read, whatever which is: refusals 1 to 8. */
merkazobi_answer merkazobi_section(const uint8_t *file, size_t bytes, size_t which);

/* The writer: "puts each body into its own stretch of the lent output". first: the file's length in bytes. part_numbers
   is 3 for each partition, task_numbers 4 for each task, run_numbers 2 for each run; MERKAZOBI_FILE_BYTES is always
   enough for out. Refusals 2, 3, 6, 7, 8, 12. */
merkazobi_answer merkazobi_write(size_t edition, size_t frame, const uint16_t *parts, size_t part_numbers,
                                 const uint16_t *tasks, size_t task_numbers, const uint16_t *runs, size_t run_numbers,
                                 uint8_t *out, size_t out_bytes);

/* The listing of a plan file's bytes, judged by the file's own edition, as text without a zero behind it; "Any refusal
   prints only one line, as `refused 9`, with its number." first: the text's length. Where out is too short: 12, and
   nothing is written; MERKAZOBI_LISTING_BYTES is always enough. */
merkazobi_answer merkazobi_list(const uint8_t *file, size_t bytes, uint8_t *out, size_t out_bytes);

/* ---- The desk, which takes in late jobs. The caller keeps the job table and the desk's record, and changes nothing in
   them between the calls; to change something, open the desk again: its promises count from the last opening. */

/* A job of the desk: start a, budget C, deadline d, flexibility x (how far it can be moved back, with those behind it,
   every deadline kept). */
typedef struct {
    uint32_t a;
    uint32_t c;
    uint32_t d;
    uint32_t x;
} merkazobi_job;

/* "The caller keeps the desk's clock and job count in one small record, lent to each call and changed there." */
typedef struct {
    uint32_t clock;
    uint32_t count;
} merkazobi_desk;

/* What binds the room that an 18 tells, its third value. */
enum {
    MERKAZOBI_NO_ROOM = 0,        /* there is no place at all */
    MERKAZOBI_OWN_DEADLINE = 1,   /* the request's own deadline */
    MERKAZOBI_LISTED_DEADLINE = 2 /* that of a listed job; fourth: which */
};

/* Opening the desk: "takes any x of a listed job and any clock, works x out and sets the clock to 0". Before it: count
   is the number of jobs, at most 64; the jobs stand first in the table by rising start, each with c at least 1, with
   a + c at most its d and at most the next job's a, and with d at most 1,000,000; all places past the count hold zeros.
   places is 64, the whole table's, whatever the count; any other is 13. Refusal 13, which changes nothing. */
merkazobi_answer merkazobi_open(merkazobi_desk *desk, merkazobi_job *jobs, size_t places);

/* A request at time t of budget c and deadline d, in ticks of the desk's own partition; places is 64. The job is put at
   the lowest place with room: before a listed job, which is moved back with those behind it as far as they are forced,
   none by more than its x, or behind the last one that starts by d, in front of all where none does, also into an empty
   table. first: the place from 0, after dropping; second: the start, t for place 0, else the end of the job before. Both
   hold until the next call, which may move the job back in turn, never past its deadline.

   Refusals 13 to 18, of which 13 is for what an opening refuses, for a clock above 1,000,000 and for an x that is not
   as worked out. "13, 14, 15 .. change nothing at the desk. 16, 17, 18 set the clock to t and drop finished jobs ..
   A job taken in sets the clock too." A request that 13 to 17 don't refuse is taken "exactly when some place in the
   order, started at t or later, with earlier jobs unmoved and later ones only delayed, keeps every deadline"; else it
   is 18.

   18 says what comes nearest. first is "the lowest place with the largest room", second that room: a request that differs
   only in its budget is taken there with so many ticks (where it is 1 or more), and with one more it is 18. third is what
   binds the room: MERKAZOBI_OWN_DEADLINE, a tick more would end past the request's own d (this is told on equals too);
   or MERKAZOBI_LISTED_DEADLINE, a tick more would push a listed job past its deadline, the first such job being fourth.
   Places and jobs count from 0 after dropping, so fourth is its place in the table right after that answer. third is
   MERKAZOBI_NO_ROOM, and the others 0, where there is no place at all: t is past d, and no job left starts by d.

   16: a job is running, a < t < a + c, and it is jobs[0] right after that answer. (A job whose start is t itself has
   not begun and may be moved: make a tick's requests before its job starts.) It is left to the caller to ask again when
   the running job ends. A request at that tick is not refused with 16; one that comes later may be, for the next job
   may be running by then:

       while ((r = merkazobi_request(&desk, jobs, MERKAZOBI_PLACES, t, c, d)).number == MERKAZOBI_BUSY)
           t = sleep_until(jobs[0].a + jobs[0].c);

   Where jobs[0].a + jobs[0].c + c is past d, asking again is in vain. Else it is worth it: in a simulation (README.md)
   asking once takes 0.44 to 0.73 of the late jobs, asking again 0.68 to 1.00. */
merkazobi_answer merkazobi_request(merkazobi_desk *desk, merkazobi_job *jobs, size_t places, uint32_t t, uint32_t c,
                                   uint32_t d);

#ifdef __cplusplus
}
#endif

#endif
