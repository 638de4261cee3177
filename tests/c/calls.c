/* Answers calls of the library. */
#include "batch.h"

static merkazobi_answer only(size_t number)
{
    return (merkazobi_answer){.first = number};
}

/* Service in a plan; the edition is handed on in its whole width. */
static merkazobi_answer served(size_t entry, const size_t *given, const slice *of)
{
    const slice plan = of[0], list = of[1];
    const size_t edition = given[0];
    const uint16_t p = (uint16_t)given[1];
    const uint32_t three = (uint32_t)given[2], four = (uint32_t)given[3];
    switch (entry) {
    case HELD:
        return merkazobi_held(edition, plan.at, plan.lent, p, three, four);
    case LEAST:
        return merkazobi_least(edition, plan.at, plan.lent, p, three);
    default:
        return merkazobi_curve(edition, plan.at, plan.lent, p, three, list.at, list.lent);
    }
}

/* A plan, or the task at a place, by one of the two engines or with its page; all that is given is handed on in its
   whole width. */
static merkazobi_answer judged(size_t entry, const size_t *given, const slice *of)
{
    const slice plan = of[0], parts = of[1], tasks = of[2], rows = of[3];
    const size_t edition = given[0], granule = given[1], place = given[2];
    switch (entry) {
    case CHECK:
        return merkazobi_check(edition, granule, plan.at, plan.lent, parts.at, parts.lent);
    case VERDICT:
        return merkazobi_verdict(edition, granule, plan.at, plan.lent, parts.at, parts.lent, tasks.at, tasks.lent,
                                 place);
    case PAGE:
        return merkazobi_page(edition, granule, plan.at, plan.lent, parts.at, parts.lent, tasks.at, tasks.lent, place,
                              rows.at, rows.lent);
    default:
        return merkazobi_plain(edition, granule, plan.at, plan.lent, parts.at, parts.lent, tasks.at, tasks.lent, place);
    }
}

/* The running counts; what is given is handed on in its whole width. */
static merkazobi_answer counts(size_t entry, const size_t *given, const slice *of)
{
    const slice plan = of[0], parts = of[1], list = of[2];
    switch (entry) {
    case COUNTS_FILL:
        return merkazobi_counts_fill(plan.at, plan.lent, parts.at, parts.lent, list.at, list.lent);
    case COUNTS_HELD:
        return merkazobi_counts_held(plan.at, plan.lent, parts.at, parts.lent, list.at, list.lent, given[0], given[1],
                                     given[2]);
    case COUNTS_HELD_MANY:
        return merkazobi_counts_held_many(plan.at, plan.lent, parts.at, parts.lent, list.at, list.lent, of[3].at,
                                          of[3].lent, of[4].at, of[4].lent);
    default:
        return merkazobi_counts_change(plan.at, plan.lent, parts.at, parts.lent, list.at, list.lent, given[0],
                                       given[1]);
    }
}

static merkazobi_answer answer(size_t entry, const size_t *given, const slice *of)
{
    const size_t one = given[0], two = given[1], three = given[2], four = given[3];
    switch (entry) {
    case WANTS:
        return only(merkazobi_wants(one, (uint16_t)two, (uint16_t)three, (uint16_t)four));
    case HELD:
    case LEAST:
    case CURVE:
        return served(entry, given, of);
    case BUILD:
        return merkazobi_build(one, of[0].at, of[0].lent, of[1].at, of[1].lent);
    case CHECK:
    case VERDICT:
    case PLAIN:
    case PAGE:
        return judged(entry, given, of);
    case COUNTS_FILL:
    case COUNTS_HELD:
    case COUNTS_HELD_MANY:
    case COUNTS_CHANGE:
        return counts(entry, given, of);
    case READ:
        return merkazobi_read(of[0].at, of[0].lent);
    case SECTION:
        return merkazobi_section(of[0].at, of[0].lent, one);
    case WRITE:
        return merkazobi_write(one, two, of[0].at, of[0].lent, of[1].at, of[1].lent, of[2].at, of[2].lent, of[3].at,
                               of[3].lent);
    case LIST:
        return merkazobi_list(of[0].at, of[0].lent, of[1].at, of[1].lent);
    case OPEN:
        return merkazobi_open(of[0].at, of[1].at, of[1].lent);
    case REQUEST:
        return merkazobi_request(of[0].at, of[1].at, of[1].lent, (uint32_t)one, (uint32_t)two, (uint32_t)three);
    default:
        give_up("no entry of the library");
        return only(0);
    }
}

int main(void)
{
    return answer_batches();
}
