/* Checks the night update, held in memory: asks the search, prints the run that breaks the rule, and puts that run to the judge. */
#include <inttypes.h>
#include <stdio.h>

#include "mullodai.h"

/* Atoms: 0 loaded, 1 reported, 2 heating. Rule: G (reported implies loaded). */
static const uint8_t night_update[] = {
    0x01, 0x02, 0x00, 0x03, 0x03,
    0x02, 0x09, 0x00, 0x00, 0x00, 0x01, 0x03, 0x00, 0x00, 0x02, 0x00, 0x00,
    0x03, 0x08, 0x00, 0x00, 0x01, 0x00, 0x02, 0x01, 0x01, 0x02, 0x02,
    0x04, 0x0C, 0x00, 0x01, 0x01, 0x00, 0x01, 0x00, 0x00, 0x05, 0x00, 0x01, 0x08, 0x02, 0x00,
};

/* Room enough for any case. */
static uint16_t workspace[MULLODAI_WORKSPACE_MOST];
static uint16_t track[MULLODAI_TRACK_MOST];
static uint32_t scratch[MULLODAI_TRACK_MOST];
static mullodai_state_record states[MULLODAI_STATES_MOST];

static void print_states(const char *word, uint64_t from, uint64_t to)
{
    printf("%s", word);
    for (uint64_t i = from; i < to; i++)
        printf(" %" PRIu16 "%s", track[i], states[track[i]].label & 2 ? " (reported)" : "");
    printf("\n");
}

int main(void)
{
    mullodai_answer read = mullodai_states(night_update, sizeof night_update, states, MULLODAI_STATES_MOST);
    if (read.number != 0) {
        printf("refused %" PRIu64 " at %" PRIu64 "\n", read.number, read.place);
        return 1;
    }
    printf("%" PRIu64 " states\n", read.place);

    mullodai_answer verdict = mullodai_search(night_update, sizeof night_update, workspace, MULLODAI_WORKSPACE_MOST, track,
                                              MULLODAI_TRACK_MOST);
    if (verdict.number == 0) {
        printf("holds\n");
        return 0;
    }
    if (verdict.number != 1) {
        printf("refused %" PRIu64 " at %" PRIu64 "\n", verdict.number, verdict.place);
        return 1;
    }
    printf("violated\n");
    print_states("stem", 0, verdict.stem);
    print_states("loop", verdict.stem, verdict.stem + verdict.loop);

    mullodai_answer judged = mullodai_judge(night_update, sizeof night_update, track, MULLODAI_TRACK_MOST, verdict.stem,
                                            verdict.loop, scratch, MULLODAI_TRACK_MOST);
    printf("the judge says %s\n", judged.number == 1 ? "violates" : "something else");
    return judged.number == 1 ? 0 : 1;
}
