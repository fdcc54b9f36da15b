/*
 * Follows a bottle through its runs on the analyser: the readings move between the first and the second run and agree at the
 * third, which closes the docket as confirmed; a fourth run is refused. At the end it prints the number of the bottle whose analysis
 * the docket holds. Build and run it at the repository's root:
 *
 *   scripts/build && cc -Iinclude examples/bottle.c target/staticlib/libanalyser.a -o target/bottle && target/bottle
 */
#include <inttypes.h>
#include <stdio.h>
#include <stdlib.h>

#include "peltquarry.h"

/* What the analyser holds for a reading, in mg/L. */
struct analysed {
    float value;
    float limit;
};

/* One run of the bottle: the fields of its record, and the readings of nine elements. DOC is not measured. */
struct run {
    uint32_t ph;
    uint32_t conductivity;
    struct analysed readings[PELTQUARRY_DOC];
};

/* The number on the bottle's barcode. */
#define SAMPLE UINT64_C(820450017003942)

/* NH4-N, Ca, Mg, Na, K, SO4-S, NO3-N, Cl, TN. A value under its limit becomes a reading below that limit. */
static const struct run runs[] = {
    {500, 100, {{0.25f, 0.01f}, {0.40f, 0.02f}, {0.004f, 0.01f}, {1.00f, 0.02f}, {0.010f, 0.02f},
                {0.50f, 0.01f}, {0.25f, 0.01f}, {1.50f, 0.05f}, {0.50f, 0.05f}}},
    {502, 120, {{0.25f, 0.01f}, {0.50f, 0.02f}, {0.004f, 0.01f}, {1.00f, 0.02f}, {0.010f, 0.02f},
                {0.50f, 0.01f}, {0.25f, 0.01f}, {1.50f, 0.05f}, {0.50f, 0.05f}}},
    {501, 122, {{0.25f, 0.01f}, {0.52f, 0.02f}, {0.004f, 0.01f}, {1.02f, 0.02f}, {0.010f, 0.02f},
                {0.51f, 0.01f}, {0.25f, 0.01f}, {1.48f, 0.05f}, {0.50f, 0.05f}}},
    {501, 122, {{0.25f, 0.01f}, {0.52f, 0.02f}, {0.004f, 0.01f}, {1.02f, 0.02f}, {0.010f, 0.02f},
                {0.51f, 0.01f}, {0.25f, 0.01f}, {1.48f, 0.05f}, {0.50f, 0.05f}}},
};

static const char *const states[] = {"open", "consistent", "confirmed", "unsettled"};

/* A call that this program expects to do what it asks. */
static void done(uint32_t code, const char *call)
{
    if (code != PELTQUARRY_DONE) {
        fprintf(stderr, "%s refused %u\n", call, code);
        exit(1);
    }
}

static void make_record(const struct run *run, uint32_t words[PELTQUARRY_RECORD_WORDS])
{
    words[PELTQUARRY_RECORD_NUMBER_HIGH] = PELTQUARRY_HIGH_WORD(SAMPLE);
    words[PELTQUARRY_RECORD_NUMBER_LOW] = PELTQUARRY_LOW_WORD(SAMPLE);
    words[PELTQUARRY_RECORD_KIND] = PELTQUARRY_BULK_OPEN_FIELD;
    words[PELTQUARRY_RECORD_PH] = run->ph;
    words[PELTQUARRY_RECORD_CONDUCTIVITY] = run->conductivity;
    words[PELTQUARRY_RECORD_ALKALINITY] = 0;
    for (size_t place = PELTQUARRY_NH4_N; place < PELTQUARRY_DOC; place++) {
        const struct analysed *analysed = &run->readings[place];
        uint32_t *reading = words + PELTQUARRY_READING_MARK(place);
        done(peltquarry_reading(analysed->value, analysed->limit, reading, PELTQUARRY_READING_WORDS), "reading");
    }
    words[PELTQUARRY_READING_MARK(PELTQUARRY_DOC)] = PELTQUARRY_MARK_MISSING;
    words[PELTQUARRY_READING_BITS(PELTQUARRY_DOC)] = 0;
}

/* The number of the bottle whose analysis a docket holds. */
static uint64_t held_number(const uint32_t docket[PELTQUARRY_DOCKET_WORDS])
{
    const uint32_t *record = docket + PELTQUARRY_DOCKET_RECORD;
    return PELTQUARRY_NUMBER(record[PELTQUARRY_RECORD_NUMBER_HIGH], record[PELTQUARRY_RECORD_NUMBER_LOW]);
}

int main(void)
{
    uint32_t docket[PELTQUARRY_DOCKET_WORDS];
    done(peltquarry_fresh(docket, PELTQUARRY_DOCKET_WORDS), "fresh");
    for (size_t i = 0; i < sizeof runs / sizeof runs[0]; i++) {
        uint32_t words[PELTQUARRY_RECORD_WORDS];
        uint32_t verdicts[PELTQUARRY_VERDICT_WORDS];
        make_record(&runs[i], words);
        done(peltquarry_judge(words, PELTQUARRY_RECORD_WORDS, verdicts, PELTQUARRY_VERDICT_WORDS), "judge");
        uint32_t code = peltquarry_offer(docket, PELTQUARRY_DOCKET_WORDS, words, PELTQUARRY_RECORD_WORDS);
        printf("run %zu: verdicts %u %u %u %u, ", i + 1, verdicts[0], verdicts[1], verdicts[2], verdicts[3]);
        if (code == PELTQUARRY_DONE) {
            printf("taken");
        } else {
            printf("refused %u", code);
        }
        printf("; docket %s, count %u\n", states[docket[PELTQUARRY_DOCKET_STATE]], docket[PELTQUARRY_DOCKET_COUNT]);
    }
    printf("bottle %" PRIu64 "\n", held_number(docket));
    return 0;
}
