// A C++ caller: from the shares of P1 to a plan, its verdicts, its file and the listing of that.
#include <stdint.h>
#include <string.h>

#include "expect.h"
#include "merkazobi.h"

static const uint16_t parts[] = {4, 1, 4, 8, 3, 8, 8, 1, 100};
static const uint16_t tasks[] = {2, 2, 8, 16, 2, 2, 13, 32};
static const uint16_t runs[] = {1, 1, 2, 3, 1, 1, 3, 1, 0, 2};
static const char listing[] = "frame 8\n"
                              "partition 1 wants 1 in 4 least 1\n"
                              "partition 2 wants 3 in 8 least 3\n"
                              "partition 3 wants 1 in 8 least 1\n"
                              "task 1 partition 2 pass 8 tick 7\n"
                              "task 2 partition 2 fail\n";

int main()
{
    uint16_t plan[MERKAZOBI_FRAME];
    const size_t frame = merkazobi_build(1, parts, 9, plan, MERKAZOBI_FRAME).first;
    expect("P1", frame, 8);
    expect("accepted", merkazobi_check(1, 1, plan, frame, parts, 9).number, MERKAZOBI_GOOD);
    expect("V1", merkazobi_verdict(1, 1, plan, frame, parts, 9, tasks, 8, 1).first, 8);
    expect("V2", merkazobi_verdict(1, 1, plan, frame, parts, 9, tasks, 8, 2).first, 0);
    expect("V1, tick by tick", merkazobi_plain(1, 1, plan, frame, parts, 9, tasks, 8, 1).first, 7);
    expect("V2, tick by tick", merkazobi_plain(1, 1, plan, frame, parts, 9, tasks, 8, 2).first, 0);
    expect("with the switch tick", merkazobi_check(2, 1, plan, frame, parts, 9).number, MERKAZOBI_SERVICE);

    static uint8_t file[MERKAZOBI_FILE_BYTES];
    static uint8_t text[MERKAZOBI_LISTING_BYTES];
    const size_t bytes = merkazobi_write(1, frame, parts, 9, tasks, 8, runs, 10, file, sizeof file).first;
    const size_t length = merkazobi_list(file, bytes, text, sizeof text).first;
    expect("the edition", merkazobi_read(file, bytes).fifth, 1);
    expect("the listing's length", length, sizeof listing - 1);
    expect("the listing", memcmp(text, listing, length) == 0, 1);
    return failures != 0;
}
