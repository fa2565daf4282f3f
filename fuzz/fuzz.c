/* The four entries under load: on any bytes, every lent buffer stands between guard bytes, and no byte is written that the rules do
 * not allow. Built with libFuzzer where clang has it, and else with the plain random driver below. */
#include <stdio.h>
#include <stdlib.h>
#include <string.h>

#include "mullodai.h"

enum { GUARD = 64 };

static void need(int right, const char *what)
{
    if (!right) {
        fprintf(stderr, "fuzz: %s\n", what);
        abort();
    }
}

/* A lent buffer of `bytes` bytes between two guards, filled with a pattern, and a copy of it as it was lent. */
typedef struct {
    uint8_t *whole, *lent, *before;
    size_t bytes;
} room;

static room make_room(size_t bytes, uint32_t seed)
{
    room r;
    r.bytes = bytes;
    r.whole = malloc(bytes + 2 * GUARD);
    r.before = malloc(bytes + 2 * GUARD);
    need(r.whole && r.before, "no memory");
    for (size_t i = 0; i < bytes + 2 * GUARD; i++)
        r.whole[i] = (uint8_t)((seed + i * 2654435761u) >> 13);
    memcpy(r.before, r.whole, bytes + 2 * GUARD);
    r.lent = r.whole + GUARD;
    return r;
}

/* Nothing changed from byte `from` of the lent part on, nor in the guards. */
static void kept(const room *r, size_t from, const char *what)
{
    need(!memcmp(r->whole, r->before, GUARD), what);
    need(!memcmp(r->whole + GUARD + from, r->before + GUARD + from, r->bytes - from + GUARD), what);
}

static void zeros(const room *r, size_t bytes, const char *what)
{
    for (size_t i = 0; i < bytes; i++)
        need(r->lent[i] == 0, what);
}

static void drop_room(room *r)
{
    free(r->whole);
    free(r->before);
}

/* Numbers drawn from the tail of the input, so that a fuzzer steers them. */
static uint32_t draw(uint32_t *state, uint32_t below)
{
    *state = *state * 1664525u + 1013904223u;
    return (*state >> 8) % below;
}

static void try_states(const uint8_t *bytes, size_t length, uint32_t *state)
{
    size_t count = draw(state, 70);
    room list = make_room(count * sizeof(mullodai_state_record), *state);
    mullodai_answer a = mullodai_states(bytes, length, (mullodai_state_record *)(void *)list.lent, count);
    need(a.stem == 0 && a.loop == 0, "states: stem and loop");
    if (a.number == 0) {
        need(a.place <= count, "states: more records than lent");
        kept(&list, a.place * sizeof(mullodai_state_record), "states: a later record was written");
    } else {
        kept(&list, 0, "states: written after a refusal");
    }
    for (uint64_t s = 0; s < 66; s++) {
        mullodai_state_answer one = mullodai_state(bytes, length, s);
        if (one.number != 0)
            need(one.state.label == 0 && one.state.initial == 0, "state: a record with a refusal");
        else if (a.number == 0) {
            mullodai_state_record r = ((mullodai_state_record *)(void *)list.lent)[s];
            need(r.label == one.state.label && r.initial == one.state.initial, "states: another record than state's");
        }
    }
    drop_room(&list);
}

static void try_judge(const uint8_t *bytes, size_t length, const uint16_t *track, size_t entries, uint64_t k, uint64_t m, size_t room_for)
{
    room scratch = make_room(room_for * sizeof(uint32_t), (uint32_t)(k + m));
    uint16_t *lent = malloc(entries * sizeof(uint16_t) + 1);
    need(lent != NULL, "no memory");
    memcpy(lent, track, entries * sizeof(uint16_t));
    mullodai_answer a = mullodai_judge(bytes, length, track, entries, k, m, (uint32_t *)(void *)scratch.lent, room_for);
    need(!memcmp(lent, track, entries * sizeof(uint16_t)), "judge: the track was written");
    free(lent);
    need(a.stem == 0 && a.loop == 0, "judge: stem and loop");
    if (a.number <= 1) {
        need(a.place == 0 && k + m <= room_for, "judge: an answer without room");
        zeros(&scratch, (k + m) * sizeof(uint32_t), "judge: scratch not 0");
        kept(&scratch, (k + m) * sizeof(uint32_t), "judge: later scratch was written");
    } else {
        kept(&scratch, 0, "judge: written after a refusal");
    }
    drop_room(&scratch);
}

/* P of an admitted case: S * 2^T * (E+1), read off its bytes. */
static size_t places(const uint8_t *bytes, size_t length)
{
    size_t states = bytes[3], edges = 8 + 3 * states, temporal = 0, promises = 0;
    size_t nodes = edges + 3 + bytes[edges + 1] + 256u * bytes[edges + 2];
    for (size_t node = nodes + 3; node < length; node += 3) {
        temporal += bytes[node] >= 6;
        promises += bytes[node] >= 7;
    }
    return (states << temporal) * (promises + 1);
}

static void try_search(const uint8_t *bytes, size_t length, uint32_t *state)
{
    static const size_t spaces[] = { 30720, 72, 71, 600, 0 }, tracks[] = { 10240, 24, 23, 200, 0 };
    size_t space = spaces[draw(state, 5)], entries = tracks[draw(state, 5)];
    room work = make_room(space * 2, *state), track = make_room(entries * 2, *state + 1);
    uint16_t *run = (uint16_t *)(void *)track.lent;
    mullodai_answer a = mullodai_search(bytes, length, (uint16_t *)(void *)work.lent, space, run, entries);
    if (a.number == 40)
        need(space < a.place, "search: 40 with room enough");
    if (a.number == 41)
        need(entries < a.place, "search: 41 with room enough");
    if (a.number > 1) {
        need(a.stem == 0 && a.loop == 0, "search: stem and loop of a refusal");
        kept(&work, 0, "search: workspace written after a refusal");
        kept(&track, 0, "search: track written after a refusal");
    } else {
        size_t used = 6 * places(bytes, length) * 2;
        need(used <= work.bytes, "search: a verdict without room");
        zeros(&work, used, "search: workspace not 0");
        kept(&work, used, "search: later workspace was written");
        kept(&track, a.number == 1 ? (a.stem + a.loop) * 2 : 0, "search: later track was written");
        if (a.number == 1) {
            uint32_t scratch[20480];
            mullodai_answer judged = mullodai_judge(bytes, length, run, entries, a.stem, a.loop, scratch, 20480);
            need(judged.number == 1, "search: a run that the judge does not condemn");
            try_judge(bytes, length, run, entries, a.stem, a.loop, a.stem + a.loop - draw(state, 2));
        }
    }
    try_judge(bytes, length, run, entries, draw(state, 9), draw(state, 9), draw(state, 20));
    try_judge(bytes, length, run, entries, (uint64_t)0 - draw(state, 3), (uint64_t)0 - draw(state, 3), 8);
    drop_room(&work);
    drop_room(&track);
}

int LLVMFuzzerTestOneInput(const uint8_t *data, size_t size)
{
    uint32_t state = (uint32_t)size;
    for (size_t i = 0; i < size && i < 64; i++)
        state = state * 31 + data[size - 1 - i];
    uint8_t *bytes = malloc(size + 1); /* never null, and its end is the case's */
    need(bytes != NULL, "no memory");
    memcpy(bytes, data, size);
    try_states(bytes, size, &state);
    try_search(bytes, size, &state);
    need(!memcmp(bytes, data, size), "the case was written");
    free(bytes);
    return 0;
}

#ifdef PLAIN_DRIVER
/* Random changes of the case files named on the command line. */
int main(int argc, char **argv)
{
    uint32_t state = 1;
    long rounds = argc > 1 ? atol(argv[1]) : 0, files = argc - 2;
    for (long round = 0; round < rounds && files > 0; round++) {
        uint8_t bytes[2000];
        FILE *file = fopen(argv[2 + round % files], "rb");
        need(file != NULL, "no such case");
        size_t size = fread(bytes, 1, 1500, file);
        fclose(file);
        for (uint32_t changes = draw(&state, 5); changes > 0 && size > 0; changes--)
            bytes[draw(&state, (uint32_t)size)] = (uint8_t)(draw(&state, 3) ? draw(&state, 14) : draw(&state, 256));
        if (draw(&state, 8) == 0)
            size = draw(&state, (uint32_t)size + 1);
        LLVMFuzzerTestOneInput(bytes, size);
    }
    printf("%ld inputs, no byte written that the rules do not allow\n", rounds);
    return files > 0 ? 0 : 1;
}
#endif
