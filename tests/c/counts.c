/* The four entries over running counts, as entries.c has the others: all six numbers of each answer, and all that is
   lent, after the call. Refusal numbers are those of document 02, not taken from the header. */
#include "expect.h"
#include "merkazobi.h"

enum { PARTS = 9, TICKS = 8 };
enum { ROW = TICKS + 1, LIST = PARTS / 3 * ROW, STRETCHES = PARTS / 3 * TICKS * (TICKS + 1) };

/* P1, and its running counts. */
static const uint16_t parts[PARTS] = {4, 1, 4, 8, 3, 8, 8, 1, 100};
static const uint16_t plan[TICKS] = {1, 2, 2, 2, 1, 3, 0, 0};
static const uint16_t counts[LIST] = {0, 1, 1, 1, 1, 2, 2, 2, 2, 0, 0, 1, 2, 3, 3, 3, 3, 3, 0, 0, 0, 0, 0, 0, 1, 1, 1};

/* All that is lent, with room behind. */
typedef struct {
    uint16_t parts[2 * PARTS], plan[2 * TICKS];
    uint16_t list[2 * LIST], questions[2 * 3 * STRETCHES], answers[2 * STRETCHES];
} memory;

#include "lent.h"

static void begin(void)
{
    memset(&lent, PATTERN, sizeof lent);
    memcpy(lent.parts, parts, sizeof parts);
    memcpy(lent.plan, plan, sizeof plan);
    memcpy(&wanted, &lent, sizeof lent);
}

/* So many numbers of the plan, the partitions and the list are lent. */
typedef struct {
    size_t ticks, parts, list;
} lengths;
static const lengths whole = {TICKS, PARTS, LIST};
static const lengths longer = {TICKS, PARTS, LIST + 1}, shorter = {TICKS, PARTS, LIST - 1};

/* Too many for partitions, ticks and lengths alike; cut to 16 or 32 bits, some of them would be good. */
static const size_t past[] = {TICKS + 1, 65536, 65537, (size_t)1 << 32, ((size_t)1 << 32) + 1, SIZE_MAX};
enum { PAST = sizeof past / sizeof *past };

static merkazobi_answer fill(lengths of)
{
    return merkazobi_counts_fill(lent.plan, of.ticks, lent.parts, of.parts, lent.list, of.list);
}

static merkazobi_answer held(lengths of, size_t partition, size_t start, size_t length)
{
    return merkazobi_counts_held(lent.plan, of.ticks, lent.parts, of.parts, lent.list, of.list, partition, start,
                                 length);
}

static merkazobi_answer held_many(lengths of, size_t question_numbers, size_t answer_numbers)
{
    return merkazobi_counts_held_many(lent.plan, of.ticks, lent.parts, of.parts, lent.list, of.list, lent.questions,
                                      question_numbers, lent.answers, answer_numbers);
}

static merkazobi_answer change(lengths of, size_t tick, size_t owner)
{
    return merkazobi_counts_change(lent.plan, of.ticks, lent.parts, of.parts, lent.list, of.list, tick, owner);
}

/* The list of P1 is filled. */
static void begin_counts(void)
{
    begin();
    PUT(list, counts);
}

static void fills(void)
{
    begin();
    memcpy(wanted.list, counts, sizeof counts);
    ends("filled", fill(whole), told(0, 27));
    begin();
    memcpy(wanted.list, counts, sizeof counts);
    ends("filled, a longer list", fill(longer), told(0, 27));
    begin();
    memset(lent.plan, 0, sizeof plan), memset(wanted.plan, 0, sizeof plan);
    memset(wanted.list, 0, sizeof counts);
    ends("filled from a plan that doesn't serve", fill(whole), told(0, 27));
}

/* Each fault is told before those that were there already. */
static void fill_refusals(void)
{
    begin();
    ends("fill, 12", fill(shorter), told(12, 0));
    SET(plan[5], 4);
    ends("fill, 8", fill(shorter), told(8, 6));
    SET(parts[6], TICKS + 1);
    ends("fill, 6", fill(shorter), told(6, 3));
    ends("fill, 3", fill((lengths){TICKS, PARTS - 1, LIST - 1}), told(3, 0));
    ends("fill, 3 for the frame", fill((lengths){0, PARTS, LIST - 1}), told(3, 0));
}

/* The three calls that are lent a filled list, each with a partition or owner and a start or tick. Of two questions
   these make the second, and its place is told where it is the question that is refused. */
static void refuse(lengths of, uint16_t named, uint16_t tick, merkazobi_answer told)
{
    const uint16_t questions[] = {1, 0, TICKS, named, tick, 1};
    PUT(questions, questions);
    ends("held, refused", held(of, named, tick, 1), told);
    ends("change, refused", change(of, tick, named), told);
    if (told.number == 26 || (told.number == 8 && told.first == 0))
        told.second = 2;
    ends("held of many, refused", held_many(of, 6, 2), told);
}

static void counts_refusals(void)
{
    begin_counts();
    refuse((lengths){TICKS, PARTS - 1, LIST}, 2, 0, told(3, 0));
    refuse((lengths){TICKS, 0, LIST}, 2, 0, told(3, 0));
    refuse((lengths){0, PARTS, LIST}, 2, 0, told(3, 0));
    refuse((lengths){TICKS, PARTS, 0}, 2, 0, told(12, 0));
    refuse(shorter, 2, 0, told(12, 0));
    refuse(whole, 4, 0, told(8, 0));
    refuse(whole, 65535, 0, told(8, 0));
    refuse(whole, 2, TICKS, told(26, 0));
    refuse(whole, 2, 65535, told(26, 0));
    SET(plan[5], 4);
    refuse(whole, 2, 0, told(8, 6));
    begin_counts();
    SET(parts[6], TICKS + 1);
    refuse(whole, 2, 0, told(6, 3));
}

/* Each fault is told before those that were there already. */
static void counts_refusals_in_order(void)
{
    begin_counts();
    refuse(whole, 2, TICKS, told(26, 0));
    SET(list[LIST - 1], 2);
    refuse(whole, 2, TICKS, told(20, 0));
    refuse(shorter, 2, TICKS, told(12, 0));
    refuse(shorter, 4, TICKS, told(8, 0));
    SET(plan[5], 4);
    refuse(shorter, 4, TICKS, told(8, 6));
    SET(parts[6], TICKS + 1);
    refuse(shorter, 4, TICKS, told(6, 3));
    refuse((lengths){TICKS, PARTS - 1, LIST - 1}, 4, TICKS, told(3, 0));
}

/* "a list that disagrees with the plan is 20": in any number, or in any tick. */
static void disagreements(void)
{
    for (size_t i = 0; i < LIST; i++) {
        begin_counts();
        SET(list[i], (uint16_t)(counts[i] + 1));
        refuse(longer, 2, 0, told(20, 0));
        SET(list[i], (uint16_t)(counts[i] - 1));
        refuse(longer, 2, 0, told(20, 0));
    }
    for (size_t i = 0; i < TICKS; i++) {
        begin_counts();
        SET(plan[i], (uint16_t)(plan[i] == 0 ? 3 : 0));
        refuse(whole, 2, 0, told(20, 0));
    }
}

static void stretches(void)
{
    begin_counts();
    ends("within the frame", held(whole, 2, 1, 4), told(0, 3));
    ends("across the frame's end", held(whole, 1, 7, 2), told(0, 1));
    ends("to the frame's end", held(whole, 3, 4, 4), told(0, 1));
    ends("of length 0", held(whole, 2, 7, 0), told(0, 0));
    ends("as long as the frame", held(whole, 2, 3, TICKS), told(0, 3));
    ends("from a longer list", held(longer, 2, 3, TICKS), told(0, 3));
    /* "Ask 2 goes on counting owned ticks." */
    ends("of which so many are service in edition 2", merkazobi_held(2, lent.plan, TICKS, 2, 3, TICKS), told(0, 2));
    for (uint16_t p = 1; p <= PARTS / 3; p++)
        for (uint32_t s = 0; s < TICKS; s++)
            for (uint32_t n = 0; n <= TICKS; n++)
                ends("as by walking", held(whole, p, s, n), merkazobi_held(1, lent.plan, TICKS, p, s, n));
}

static void stretch_refusals(void)
{
    begin_counts();
    ends("partition 0", held(whole, 0, 0, TICKS), told(8, 0));
    ends("a longer stretch", held(whole, 2, 0, TICKS + 1), told(26, 0));
    for (size_t i = 0; i < PAST; i++) {
        ends("no such partition", held(whole, past[i], 0, TICKS), told(8, 0));
        ends("no such start", held(whole, 2, past[i], 0), told(26, 0));
        ends("a stretch too long", held(whole, 2, 7, past[i]), told(26, 0));
    }
}

/* Every stretch of every partition in one call, against a walk of the plan. */
static void ask_all(void)
{
    size_t k = 0;
    for (uint16_t p = 1; p <= PARTS / 3; p++)
        for (uint16_t s = 0; s < TICKS; s++)
            for (uint16_t n = 0; n <= TICKS; n++, k++) {
                SET(questions[3 * k], p), SET(questions[3 * k + 1], s), SET(questions[3 * k + 2], n);
                wanted.answers[k] = (uint16_t)merkazobi_held(1, lent.plan, TICKS, p, s, n).first;
            }
    ends("every stretch", held_many(whole, 3 * STRETCHES, STRETCHES), told(0, STRETCHES));
}

static const uint16_t four[] = {2, 1, 4, 1, 7, 2, 3, 0, 0, 2, 3, 8};
static const uint16_t four_held[] = {3, 1, 0, 3};

static void questions(void)
{
    begin_counts();
    ends("no question", held_many(whole, 0, 0), told(0, 0));
    ends("no question, room for answers", held_many(whole, 0, 4), told(0, 0));
    PUT(questions, four);
    memcpy(wanted.answers, four_held, sizeof four_held);
    ends("four questions", held_many(whole, 12, 4), told(0, 4));
    begin_counts();
    PUT(questions, four);
    memcpy(wanted.answers, four_held, sizeof four_held);
    ends("four questions, longer list and output", held_many(longer, 12, 5), told(0, 4));
    begin_counts();
    ask_all();
}

/* "None of them changes anything": the good questions aren't answered either. The lowest bad one is told. */
static void question_refusals(void)
{
    begin_counts();
    PUT(questions, four);
    ends("ten numbers", held_many(whole, 10, 4), told(3, 0));
    ends("eleven numbers", held_many(whole, 11, 4), told(3, 0));
    ends("answers too short", held_many(whole, 12, 3), told(12, 0));
    ends("no room for answers", held_many(whole, 12, 0), told(12, 0));
    SET(questions[11], TICKS + 1);
    ends("the fourth too long", held_many(whole, 12, 4), (merkazobi_answer){26, 0, 4, 0, 0, 0});
    SET(questions[4], TICKS);
    ends("the second past the end", held_many(whole, 12, 4), (merkazobi_answer){26, 0, 2, 0, 0, 0});
    SET(questions[9], 0);
    ends("the fourth of partition 0", held_many(whole, 12, 4), (merkazobi_answer){8, 0, 4, 0, 0, 0});
    SET(questions[6], 4);
    ends("the third of partition 4", held_many(whole, 12, 4), (merkazobi_answer){8, 0, 3, 0, 0, 0});
}

/* As above, with what only many questions have: a 12 for the answers and a 3 for the questions. */
static void question_refusals_in_order(void)
{
    begin_counts();
    PUT(questions, four);
    SET(questions[1], TICKS);
    SET(list[0], 1);
    ends("20 before 26", held_many(whole, 12, 4), told(20, 0));
    ends("the answers' 12 before 20", held_many(whole, 12, 3), told(12, 0));
    SET(questions[9], 4);
    ends("8 with place 0 before 12", held_many(whole, 12, 3), (merkazobi_answer){8, 0, 4, 0, 0, 0});
    SET(parts[6], TICKS + 1);
    ends("6 before 8", held_many(whole, 12, 3), told(6, 3));
    ends("3 before 6", held_many(whole, 11, 3), told(3, 0));
    begin_counts();
    SET(list[0], 1);
    ends("no question, 20", held_many(whole, 0, 0), told(20, 0));
    ends("no question, 12", held_many(shorter, 0, 0), told(12, 0));
}

static void changes(void)
{
    static const uint16_t given[] = {1, 2, 2, 1, 1, 3, 0, 0};
    static const uint16_t given_counts[] = {0, 1, 1, 1, 2, 3, 3, 3, 3, 0, 0, 1, 2, 2,
                                            2, 2, 2, 2, 0, 0, 0, 0, 0, 0, 1, 1, 1};
    begin_counts();
    ends("the same owner", change(whole, 3, 2), told(0, 0));
    ends("idle already", change(whole, 7, 0), told(0, 0));
    memcpy(wanted.plan, given, sizeof given);
    memcpy(wanted.list, given_counts, sizeof given_counts);
    ends("another owner", change(whole, 3, 1), told(0, 0));
    ends("held after it", held(whole, 1, 3, 2), told(0, 2));
    memcpy(wanted.plan, plan, sizeof plan);
    memcpy(wanted.list, counts, sizeof counts);
    ends("the first owner again", change(longer, 3, 2), told(0, 0));
    ends("held after that", held(whole, 1, 3, 2), told(0, 1));
}

/* "changes that tick and only the later counts of the old and the new owner", each of them by one. */
static void give(size_t tick, uint16_t owner)
{
    const uint16_t old = wanted.plan[tick];
    wanted.plan[tick] = owner;
    for (size_t k = tick + 1; k < ROW; k++) {
        if (old != 0)
            wanted.list[(old - 1) * ROW + k]--;
        if (owner != 0)
            wanted.list[(owner - 1) * ROW + k]++;
    }
    ends("given", change(longer, tick, owner), told(0, 0));
}

/* Each tick goes from each owner to each, the list never filled again: what it holds is the plan's all along. */
static void changes_of_each_tick(void)
{
    begin_counts();
    for (size_t tick = 0; tick < TICKS; tick++)
        for (uint16_t owners = 0; owners < 16; owners++) {
            give(tick, owners / 4);
            give(tick, owners % 4);
            ask_all();
        }
}

static void change_refusals(void)
{
    begin_counts();
    ends("idle, past the end", change(whole, TICKS, 0), told(26, 0));
    ends("the same owner, a short list", change(shorter, 3, 2), told(12, 0));
    for (size_t i = 0; i < PAST; i++) {
        ends("no such owner", change(whole, 3, past[i]), told(8, 0));
        ends("no such tick", change(whole, past[i], 1), told(26, 0));
    }
}

/* The shortest frame, whose only tick becomes idle. */
static void one_tick(void)
{
    static const uint16_t one_part[] = {1, 1, 1}, one_count[] = {0, 1};
    const lengths one = {1, 3, 2};
    begin();
    PUT(parts, one_part);
    memcpy(wanted.list, one_count, sizeof one_count);
    ends("one tick filled", fill(one), told(0, 2));
    ends("one tick held", held(one, 1, 0, 1), told(0, 1));
    ends("no second tick", held(one, 1, 1, 0), told(26, 0));
    ends("no two ticks", held(one, 1, 0, 2), told(26, 0));
    wanted.plan[0] = wanted.list[1] = 0;
    ends("one tick idle", change(one, 0, 0), told(0, 0));
    ends("no tick held", held(one, 1, 0, 1), told(0, 0));
}

int main(void)
{
    fills();
    fill_refusals();
    counts_refusals();
    counts_refusals_in_order();
    disagreements();
    stretches();
    stretch_refusals();
    questions();
    question_refusals();
    question_refusals_in_order();
    changes();
    changes_of_each_tick();
    change_refusals();
    one_tick();
    return failures != 0;
}
