/* D1 to D6 of the documents on a static table, an empty table, and a request that asks again, through the C surface. */
#include <string.h>

#include "expect.h"
#include "merkazobi.h"

static merkazobi_job table[MERKAZOBI_PLACES];
static merkazobi_desk desk;

static void expect_job(const char *what, size_t place, uint32_t a, uint32_t c, uint32_t d, uint32_t x)
{
    const merkazobi_job wanted = {a, c, d, x};
    expect(what, (size_t)memcmp(&table[place], &wanted, sizeof wanted) != 0, 0);
}

static void open_d1(void)
{
    memset(table, 0, sizeof table);
    table[0] = (merkazobi_job){10, 3, 20, 0};
    table[1] = (merkazobi_job){15, 5, 24, 7};
    table[2] = (merkazobi_job){30, 2, 40, 0};
    desk = (merkazobi_desk){77, 3};
    expect("D1", merkazobi_open(&desk, table, MERKAZOBI_PLACES).number, 0);
}

static merkazobi_answer request(uint32_t t, uint32_t c, uint32_t d)
{
    return merkazobi_request(&desk, table, MERKAZOBI_PLACES, t, c, d);
}

static void d1(void)
{
    open_d1();
    expect("D1 clock", desk.clock, 0);
    expect("D1 count", desk.count, 3);
    expect_job("D1 first", 0, 10, 3, 20, 6);
    expect_job("D1 second", 1, 15, 5, 24, 4);
    expect_job("D1 third", 2, 30, 2, 40, 8);
}

static void d2(void)
{
    open_d1();
    const merkazobi_answer r = request(8, 6, 16);
    expect("D2", r.number, 0);
    expect("D2 place", r.first, 0);
    expect("D2 start", r.second, 8);
    expect("D2 count", desk.count, 4);
    expect("D2 clock", desk.clock, 8);
    expect_job("D2 new", 0, 8, 6, 16, 2);
    expect_job("D2 second", 1, 14, 3, 20, 2);
    expect_job("D2 third", 2, 17, 5, 24, 2);
    expect_job("D2 last", 3, 30, 2, 40, 8);
}

static void d3_and_d4(void)
{
    open_d1();
    merkazobi_answer r = request(8, 8, 40);
    expect("D3 start", r.second, 8);
    open_d1();
    r = request(8, 9, 40);
    expect("D4", r.number, 0);
    expect("D4 place", r.first, 2);
    expect("D4 start", r.second, 20);
    expect_job("D4 new", 2, 20, 9, 40, 9);
}

static void d5(void)
{
    open_d1();
    expect("D5", request(12, 1, 40).number, MERKAZOBI_BUSY);
    expect("D5 clock", desk.clock, 12);
    expect("D5 count", desk.count, 3);
    expect("other places", merkazobi_request(&desk, table, MERKAZOBI_PLACES - 1, 12, 1, 40).number, MERKAZOBI_TABLE);
}

static void d6(void)
{
    open_d1();
    const merkazobi_answer r = request(25, 4, 29);
    expect("D6", r.number, 0);
    expect("D6 place", r.first, 0);
    expect("D6 start", r.second, 25);
    expect("D6 count", desk.count, 2);
    expect_job("D6 new", 0, 25, 4, 29, 0);
    expect_job("D6 last", 1, 30, 2, 40, 8);
}

static void empty(void)
{
    memset(table, 0, sizeof table);
    desk = (merkazobi_desk){0, 0};
    expect("empty", merkazobi_open(&desk, table, MERKAZOBI_PLACES).number, 0);
    expect("empty, a tick too long", request(7, 6, 12).number, MERKAZOBI_NO_PLACE);
    expect("empty, just in time", request(7, 5, 12).number, 0);
    expect("empty, count", desk.count, 1);
    expect_job("empty, new", 0, 7, 5, 12, 0);
}

/* What 18 says: the first place has 8 ticks, which job 1 binds, and just so many are taken there. */
static void no_place(void)
{
    open_d1();
    merkazobi_answer r = request(8, 9, 17);
    expect("no place", r.number, MERKAZOBI_NO_PLACE);
    expect("no place, the roomiest", r.first, 0);
    expect("no place, its room", r.second, 8);
    expect("no place, what binds it", r.third, MERKAZOBI_LISTED_DEADLINE);
    expect("no place, that job", r.fourth, 1);
    expect("no place, its deadline", table[r.fourth].d, 24);
    r = request(8, (uint32_t)r.second, 17);
    expect("as long as the room", r.number, 0);
    expect("as long as the room, place", r.first, 0);
    expect_job("as long as the room, the job that bound it", 2, 19, 5, 24, 0);
    open_d1();
    expect("no room at all", request(8, 1, 7).third, MERKAZOBI_NO_ROOM);
    expect("its own deadline", request(8, 9, 16).third, MERKAZOBI_OWN_DEADLINE);
}

/* The ticks that went by while the box slept; it wakes `late` ticks after it should. */
static uint32_t late;

static uint32_t sleep_until(uint32_t tick)
{
    return tick + late;
}

/* A late job that doesn't give up while a job is running. How often it asks is counted. */
static size_t asks;

static merkazobi_answer ask(uint32_t t, uint32_t c, uint32_t d)
{
    merkazobi_answer r;
    asks = 1;
    while ((r = request(t, c, d)).number == MERKAZOBI_BUSY) {
        t = sleep_until(table[0].a + table[0].c);
        asks++;
    }
    return r;
}

static void asked_again(void)
{
    open_d1();
    merkazobi_answer r = ask(12, 2, 40); /* D5: busy until 13 */
    expect("again", r.number, 0);
    expect("again, start", r.second, 13);
    expect("again, asks", asks, 2);
    late = 3; /* busy until 13, and at 16 until 20, and at 23 free */
    open_d1();
    r = ask(12, 2, 40);
    expect("late again", r.number, 0);
    expect("late again, start", r.second, 23);
    expect("late again, asks", asks, 3);
}

int main(void)
{
    d1();
    d2();
    d3_and_d4();
    d5();
    d6();
    empty();
    no_place();
    asked_again();
    return failures != 0;
}
