/*
 * Holds the numbers of include/peltquarry.h to the library: asks it on both sides of each limit and at each place, prints what
 * differs, and exits with 1 where anything does. Build and run it at the repository's root:
 *
 *   rt staticlib analyser && cc -Iinclude differential/header.c target/staticlib/libanalyser.a -o target/header && target/header
 */
#include <inttypes.h>
#include <stdio.h>
#include <string.h>

#include "peltquarry.h"

static int differences;

static void hold(const char *what, uint32_t header, uint32_t library)
{
    if (header != library) {
        printf("%s: %u by the header, %u by the library\n", what, header, library);
        differences++;
    }
}

/* A record with room for a word too many. */
struct record {
    uint32_t words[PELTQUARRY_RECORD_WORDS + 1];
};

static void measure(struct record *record, size_t place, float milligrams)
{
    record->words[PELTQUARRY_READING_MARK(place)] = PELTQUARRY_MARK_MEASURED;
    memcpy(&record->words[PELTQUARRY_READING_BITS(place)], &milligrams, sizeof milligrams);
}

static void leave_out(struct record *record, size_t place)
{
    record->words[PELTQUARRY_READING_MARK(place)] = PELTQUARRY_MARK_MISSING;
    record->words[PELTQUARRY_READING_BITS(place)] = 0;
}

static struct record sample(uint32_t ph, uint32_t conductivity, uint32_t alkalinity, const float milligrams[], size_t measured)
{
    struct record record;
    memset(&record, 0, sizeof record);
    record.words[PELTQUARRY_RECORD_NUMBER_LOW] = 7;
    record.words[PELTQUARRY_RECORD_KIND] = PELTQUARRY_BULK_OPEN_FIELD;
    record.words[PELTQUARRY_RECORD_PH] = ph;
    record.words[PELTQUARRY_RECORD_CONDUCTIVITY] = conductivity;
    record.words[PELTQUARRY_RECORD_ALKALINITY] = alkalinity;
    for (size_t place = 0; place < measured; place++) {
        measure(&record, place, milligrams[place]);
    }
    return record;
}

/* Document 01's printed sample, which every check finds within. */
static struct record printed(void)
{
    static const float milligrams[] = {0.25f, 0.5f, 0.0f, 1.0f, 0.0f, 0.5f, 0.25f, 1.5f, 0.5f};
    return sample(500, 150, 0, milligrams, PELTQUARRY_DOC);
}

static struct record with(struct record record, size_t word, uint32_t value)
{
    record.words[word] = value;
    return record;
}

static struct record numbered(struct record record, uint64_t number)
{
    record.words[PELTQUARRY_RECORD_NUMBER_HIGH] = PELTQUARRY_HIGH_WORD(number);
    record.words[PELTQUARRY_RECORD_NUMBER_LOW] = PELTQUARRY_LOW_WORD(number);
    return record;
}

static struct record without(struct record record, size_t place)
{
    leave_out(&record, place);
    return record;
}

static uint32_t judged(struct record record, size_t length)
{
    uint32_t verdicts[PELTQUARRY_VERDICT_WORDS];
    return peltquarry_judge(record.words, length, verdicts, PELTQUARRY_VERDICT_WORDS);
}

static void hold_verdicts(const char *what, struct record record, uint32_t balance, uint32_t conductivity, uint32_t ratio,
                          uint32_t nitrogen)
{
    const uint32_t due[PELTQUARRY_VERDICT_WORDS] = {balance, conductivity, ratio, nitrogen};
    uint32_t verdicts[PELTQUARRY_VERDICT_WORDS];
    hold(what, PELTQUARRY_DONE, peltquarry_judge(record.words, PELTQUARRY_RECORD_WORDS, verdicts, PELTQUARRY_VERDICT_WORDS));
    for (size_t check = 0; check < PELTQUARRY_VERDICT_WORDS; check++) {
        hold(what, due[check], verdicts[check]);
    }
}

static void lengths_of_a_record(void)
{
    uint32_t verdicts[PELTQUARRY_VERDICT_WORDS];
    const struct record record = printed();
    hold("a record", PELTQUARRY_DONE, judged(record, PELTQUARRY_RECORD_WORDS));
    hold("a record and a word", PELTQUARRY_REFUSED_RECORD_LENGTH, judged(record, PELTQUARRY_RECORD_WORDS + 1));
    hold("a record less a word", PELTQUARRY_REFUSED_RECORD_LENGTH, judged(record, PELTQUARRY_RECORD_WORDS - 1));
    hold("too few verdicts", PELTQUARRY_REFUSED_OUTPUT_LENGTH,
         peltquarry_judge(record.words, PELTQUARRY_RECORD_WORDS, verdicts, PELTQUARRY_VERDICT_WORDS - 1));
}

static void fields_of_a_record(void)
{
    const struct {
        const char *what;
        size_t word;
        uint32_t value;
        uint32_t code;
    } fields[] = {
        {"too great a high word", PELTQUARRY_RECORD_NUMBER_HIGH, UINT32_MAX, PELTQUARRY_REFUSED_SAMPLE_NUMBER},
        {"number 0", PELTQUARRY_RECORD_NUMBER_LOW, 0, PELTQUARRY_REFUSED_SAMPLE_NUMBER},
        {"the greatest low word", PELTQUARRY_RECORD_NUMBER_LOW, UINT32_MAX, PELTQUARRY_DONE},
        {"a kind before the first", PELTQUARRY_RECORD_KIND, PELTQUARRY_WET_ONLY - 1, PELTQUARRY_REFUSED_KIND},
        {"a kind after the last", PELTQUARRY_RECORD_KIND, PELTQUARRY_SOIL_WATER + 1, PELTQUARRY_REFUSED_KIND},
        {"pH 0", PELTQUARRY_RECORD_PH, 0, PELTQUARRY_REFUSED_PH},
        {"conductivity 0", PELTQUARRY_RECORD_CONDUCTIVITY, 0, PELTQUARRY_REFUSED_CONDUCTIVITY},
        {"too much alkalinity", PELTQUARRY_RECORD_ALKALINITY, UINT32_MAX, PELTQUARRY_REFUSED_ALKALINITY},
    };
    for (size_t i = 0; i < sizeof fields / sizeof fields[0]; i++) {
        const struct record record = with(printed(), fields[i].word, fields[i].value);
        hold(fields[i].what, fields[i].code, judged(record, PELTQUARRY_RECORD_WORDS));
    }
    for (size_t place = 0; place < PELTQUARRY_READINGS; place++) {
        const struct record mark = with(printed(), PELTQUARRY_READING_MARK(place), PELTQUARRY_MARK_BELOW + 1);
        hold("a mark that is none", PELTQUARRY_REFUSED_READING, judged(mark, PELTQUARRY_RECORD_WORDS));
        const struct record bits = with(without(printed(), place), PELTQUARRY_READING_BITS(place), 1);
        hold("missing with bits", PELTQUARRY_REFUSED_READING, judged(bits, PELTQUARRY_RECORD_WORDS));
    }
}

/* The number is judged whole: its ends, and two words of which one order is taken and the other refused. */
static void numbers(void)
{
    const struct {
        const char *what;
        uint64_t number;
        uint32_t code;
    } numbers[] = {
        {"number 1", 1, PELTQUARRY_DONE},
        {"a low word of 0", PELTQUARRY_NUMBER(1, 0), PELTQUARRY_DONE},
        {"a high word of 1,000,000", PELTQUARRY_NUMBER(1000000, 1), PELTQUARRY_REFUSED_SAMPLE_NUMBER},
        {"a low word of 1,000,000", PELTQUARRY_NUMBER(1, 1000000), PELTQUARRY_DONE},
        {"the greatest number", PELTQUARRY_MOST_NUMBER, PELTQUARRY_DONE},
        {"a greater number", PELTQUARRY_MOST_NUMBER + 1, PELTQUARRY_REFUSED_SAMPLE_NUMBER},
        {"the greatest words", UINT64_MAX, PELTQUARRY_REFUSED_SAMPLE_NUMBER},
    };
    for (size_t i = 0; i < sizeof numbers / sizeof numbers[0]; i++) {
        hold(numbers[i].what, numbers[i].code, judged(numbered(printed(), numbers[i].number), PELTQUARRY_RECORD_WORDS));
    }
}

/* What sets the kinds apart is where the balance and the ratio apply; those alike in it still have numbers of their own. */
static void kinds(void)
{
    enum { NONE = PELTQUARRY_NOT_APPLICABLE, IN = PELTQUARRY_WITHIN };
    const struct {
        uint32_t kind, balance, ratio;
    } kinds[] = {
        {PELTQUARRY_WET_ONLY, IN, IN},     {PELTQUARRY_BULK_OPEN_FIELD, IN, IN}, {PELTQUARRY_THROUGHFALL, NONE, IN},
        {PELTQUARRY_STEMFLOW, NONE, IN},   {PELTQUARRY_RUNOFF, IN, NONE},        {PELTQUARRY_SOIL_WATER, NONE, NONE},
    };
    struct record record = printed();
    measure(&record, PELTQUARRY_DOC, 1.0f);
    for (size_t i = 0; i < sizeof kinds / sizeof kinds[0]; i++) {
        hold("the kinds' order", kinds[i].kind, i + 1);
        record.words[PELTQUARRY_RECORD_KIND] = kinds[i].kind;
        hold_verdicts("a kind", record, kinds[i].balance, IN, kinds[i].ratio, IN);
    }
    record.words[PELTQUARRY_RECORD_KIND] = PELTQUARRY_RUNOFF;
    hold_verdicts("runoff without DOC", without(record, PELTQUARRY_DOC), NONE, IN, NONE, IN);
}

static void readings(void)
{
    const float value = 0.25f, limit = 0.5f;
    uint32_t words[PELTQUARRY_READING_WORDS];
    uint32_t bits[2];
    memcpy(&bits[0], &value, sizeof value);
    memcpy(&bits[1], &limit, sizeof limit);
    hold("a reading", PELTQUARRY_DONE, peltquarry_reading(limit, value, words, PELTQUARRY_READING_WORDS));
    hold("measured", PELTQUARRY_MARK_MEASURED, words[0]);
    hold("its value", bits[1], words[1]);
    hold("a reading", PELTQUARRY_DONE, peltquarry_reading(value, limit, words, PELTQUARRY_READING_WORDS));
    hold("below", PELTQUARRY_MARK_BELOW, words[0]);
    hold("its limit", bits[1], words[1]);
    hold("a reading without a limit", PELTQUARRY_REFUSED_READING,
         peltquarry_reading(value, 0.0f, words, PELTQUARRY_READING_WORDS));
    hold("a reading less a word", PELTQUARRY_REFUSED_OUTPUT_LENGTH,
         peltquarry_reading(value, limit, words, PELTQUARRY_READING_WORDS - 1));
}

/* The ions by document 01's factors: 10 mg/L of an ion have as many tenths of a µeq/L as its factor. */
static const struct {
    size_t place;
    float factor;
    int is_cation;
} ions[] = {
    {PELTQUARRY_NH4_N, 7139, 1}, {PELTQUARRY_CA, 4990, 1},    {PELTQUARRY_MG, 8229, 1},    {PELTQUARRY_NA, 4350, 1},
    {PELTQUARRY_K, 2558, 1},     {PELTQUARRY_SO4_S, 6237, 0}, {PELTQUARRY_NO3_N, 7139, 0}, {PELTQUARRY_CL, 2821, 0},
};
#define IONS (sizeof ions / sizeof ions[0])

/* An ion alone against the charge that another of its sign would have: of alkalinity for a cation, of sodium for an anion. */
static struct record one_ion(size_t ion, float factor)
{
    static const float none[IONS];
    struct record record = sample(1000, 1000, ions[ion].is_cation ? (uint32_t)factor : 0, none, IONS);
    measure(&record, ions[ion].place, 10.0f);
    if (!ions[ion].is_cation) {
        measure(&record, PELTQUARRY_NA, 10.0f * factor / 4350.0f);
    }
    return record;
}

/* The order of the ions: each balances the charge of its own factor and of no other. */
static void order_of_ions(void)
{
    for (size_t ion = 0; ion < IONS; ion++) {
        for (size_t other = 0; other < IONS; other++) {
            if (ions[ion].is_cation == ions[other].is_cation) {
                uint32_t verdicts[PELTQUARRY_VERDICT_WORDS];
                const struct record record = one_ion(ion, ions[other].factor);
                peltquarry_judge(record.words, PELTQUARRY_RECORD_WORDS, verdicts, PELTQUARRY_VERDICT_WORDS);
                hold("the order of ions", ion == other ? PELTQUARRY_WITHIN : PELTQUARRY_OUTSIDE, verdicts[0]);
            }
        }
    }
}

static void verdicts(void)
{
    enum {
        NONE = PELTQUARRY_NOT_APPLICABLE,
        IN = PELTQUARRY_WITHIN,
        OUT = PELTQUARRY_OUTSIDE,
        OPEN = PELTQUARRY_UNDECIDED,
        GONE = PELTQUARRY_MISSING
    };
    const struct record record = printed();
    hold_verdicts("the printed sample", record, IN, IN, IN, IN);
    hold_verdicts("its conductivity 12.5", with(record, PELTQUARRY_RECORD_CONDUCTIVITY, 125), IN, OUT, IN, IN);
    hold_verdicts("without sodium", without(record, PELTQUARRY_NA), GONE, GONE, GONE, IN);
    hold_verdicts("without nitrate", without(record, PELTQUARRY_NO3_N), GONE, GONE, IN, GONE);
    hold_verdicts("without total nitrogen", without(record, PELTQUARRY_TN), IN, IN, IN, NONE);
    struct record less = record;
    measure(&less, PELTQUARRY_TN, 0.25f);
    hold_verdicts("with less total nitrogen", less, IN, IN, IN, OUT);
    /* Found by search: the ends of the correction for ionic strength take calculated conductivity to both sides of a limit. */
    hold_verdicts("its conductivity 12.6", with(record, PELTQUARRY_RECORD_CONDUCTIVITY, 126), IN, OPEN, IN, IN);
    static const float milligrams[] = {0.274f, 0.25f, 0.202f, 0.566f, 4.378f, 0.15f, 0.267f, 2.669f};
    struct record undecided = sample(507, 194, 142, milligrams, IONS);
    undecided.words[PELTQUARRY_RECORD_KIND] = PELTQUARRY_SOIL_WATER;
    hold_verdicts("an undecided one", undecided, NONE, OPEN, NONE, NONE);
}

/* An offer, and where the docket stands after it. */
static void hold_offer(const char *what, uint32_t *docket, struct record record, uint32_t code, uint32_t state, uint32_t count)
{
    hold(what, code, peltquarry_offer(docket, PELTQUARRY_DOCKET_WORDS, record.words, PELTQUARRY_RECORD_WORDS));
    hold(what, state, docket[PELTQUARRY_DOCKET_STATE]);
    hold(what, count, docket[PELTQUARRY_DOCKET_COUNT]);
    for (size_t i = 0; i < PELTQUARRY_RECORD_WORDS && code == PELTQUARRY_DONE; i++) {
        hold("the record held", record.words[i], docket[PELTQUARRY_DOCKET_RECORD + i]);
    }
}

static void fresh(uint32_t *docket)
{
    hold("a fresh docket", PELTQUARRY_DONE, peltquarry_fresh(docket, PELTQUARRY_DOCKET_WORDS));
    hold("a fresh docket's state", PELTQUARRY_OPEN, docket[PELTQUARRY_DOCKET_STATE]);
    hold("a fresh docket's count", 0, docket[PELTQUARRY_DOCKET_COUNT]);
}

static void dockets(void)
{
    uint32_t docket[PELTQUARRY_DOCKET_WORDS];
    const size_t short_by_one = PELTQUARRY_DOCKET_WORDS - 1;
    const struct record good = printed();
    struct record doubtful = good;
    measure(&doubtful, PELTQUARRY_TN, 0.25f);
    fresh(docket);
    hold_offer("consistent", docket, good, PELTQUARRY_DONE, PELTQUARRY_CONSISTENT, 1);
    hold_offer("closed", docket, good, PELTQUARRY_REFUSED_DOCKET_CLOSED, PELTQUARRY_CONSISTENT, 1);
    fresh(docket);
    hold_offer("open", docket, doubtful, PELTQUARRY_DONE, PELTQUARRY_OPEN, 1);
    const struct record low = with(doubtful, PELTQUARRY_RECORD_NUMBER_LOW, 8);
    hold_offer("another low word", docket, low, PELTQUARRY_REFUSED_OTHER_SAMPLE, PELTQUARRY_OPEN, 1);
    const struct record high = with(doubtful, PELTQUARRY_RECORD_NUMBER_HIGH, 8);
    hold_offer("another high word", docket, high, PELTQUARRY_REFUSED_OTHER_SAMPLE, PELTQUARRY_OPEN, 1);
    const struct record kind = with(doubtful, PELTQUARRY_RECORD_KIND, PELTQUARRY_WET_ONLY);
    hold_offer("another kind", docket, kind, PELTQUARRY_REFUSED_OTHER_SAMPLE, PELTQUARRY_OPEN, 1);
    hold_offer("confirmed", docket, doubtful, PELTQUARRY_DONE, PELTQUARRY_CONFIRMED, 2);
    fresh(docket);
    hold_offer("the first of three", docket, doubtful, PELTQUARRY_DONE, PELTQUARRY_OPEN, 1);
    hold_offer("the second", docket, with(doubtful, PELTQUARRY_RECORD_PH, 520), PELTQUARRY_DONE, PELTQUARRY_OPEN, 2);
    hold_offer("the third", docket, with(doubtful, PELTQUARRY_RECORD_PH, 540), PELTQUARRY_DONE, PELTQUARRY_UNSETTLED, 3);
    hold("a fresh docket less a word", PELTQUARRY_REFUSED_OUTPUT_LENGTH, peltquarry_fresh(docket, short_by_one));
    hold("a docket less a word", PELTQUARRY_REFUSED_OUTPUT_LENGTH,
         peltquarry_offer(docket, short_by_one, good.words, PELTQUARRY_RECORD_WORDS));
}

/* The signals of a chart whose values are all alike. */
static uint32_t signalled(size_t setup, size_t later, uint32_t value, size_t room)
{
    uint32_t values[PELTQUARRY_MOST_SETUP + PELTQUARRY_MOST_LATER + 2];
    uint32_t signals[PELTQUARRY_MOST_LATER + 1];
    for (size_t i = 0; i < setup + later; i++) {
        values[i] = value;
    }
    return peltquarry_signals(values, setup, values + setup, later, signals, room);
}

static void charts(void)
{
    const size_t few = PELTQUARRY_LEAST_SETUP, many = PELTQUARRY_MOST_SETUP, most = PELTQUARRY_MOST_LATER;
    const uint32_t value = PELTQUARRY_MOST_VALUE;
    hold("the shortest chart", PELTQUARRY_DONE, signalled(few, 0, value, 0));
    hold("the longest chart", PELTQUARRY_DONE, signalled(many, most, value, most));
    hold("too few setup values", PELTQUARRY_REFUSED_COUNT, signalled(few - 1, 0, value, 0));
    hold("too many setup values", PELTQUARRY_REFUSED_COUNT, signalled(many + 1, 0, value, 0));
    hold("too many later values", PELTQUARRY_REFUSED_COUNT, signalled(few, most + 1, value, most + 1));
    hold("too great a value", PELTQUARRY_REFUSED_CHART, signalled(few, 0, value + 1, 0));
    hold("too few signals", PELTQUARRY_REFUSED_OUTPUT_LENGTH, signalled(few, most, value, most - 1));
}

/* A batch in the making, its answer, its bytes and its text, each with room for more than it may have. */
static uint32_t batch[PELTQUARRY_MOST_BATCH + PELTQUARRY_MOST_CHART_WORDS];
static size_t batch_length;
static uint32_t answer[PELTQUARRY_MOST_ANSWER + 1];
static uint8_t bytes[sizeof batch];
static char text[PELTQUARRY_MOST_TEXT + 1];

static void put(uint32_t word)
{
    batch[batch_length++] = word;
}

/* A chart without variance, and with a signal at its last later value, if it has one. */
static void put_chart(uint32_t element, uint32_t setup, uint32_t later)
{
    uint32_t *head = batch + batch_length;
    head[PELTQUARRY_CHART_ELEMENT] = element;
    head[PELTQUARRY_CHART_SETUP] = setup;
    head[PELTQUARRY_CHART_LATER] = later;
    batch_length += PELTQUARRY_CHART_HEAD;
    for (uint32_t i = 0; i < setup + later; i++) {
        put(1000);
    }
    if (later > 0) {
        batch[batch_length - 1] = 2000;
    }
}

static void put_record(struct record record)
{
    memcpy(batch + batch_length, record.words, PELTQUARRY_RECORD_WORDS * sizeof record.words[0]);
    batch_length += PELTQUARRY_RECORD_WORDS;
}

static uint32_t answered(size_t length, size_t room)
{
    return peltquarry_batch(batch, length, answer, room);
}

static void hold_row(const char *what, size_t row, uint64_t number, uint32_t verdict, uint32_t flag)
{
    const uint32_t *words = answer + 1 + row * PELTQUARRY_ROW_WORDS;
    hold(what, PELTQUARRY_HIGH_WORD(number), words[PELTQUARRY_ROW_NUMBER_HIGH]);
    hold(what, PELTQUARRY_LOW_WORD(number), words[PELTQUARRY_ROW_NUMBER_LOW]);
    for (size_t check = 0; check < PELTQUARRY_VERDICT_WORDS; check++) {
        hold(what, verdict, words[PELTQUARRY_ROW_VERDICTS + check]);
    }
    hold(what, flag, words[PELTQUARRY_ROW_FLAG]);
}

/* As many charts, values and samples as there may be, and the samples' numbers as great. */
static void put_the_greatest_batch(void)
{
    const struct record greatest = numbered(printed(), PELTQUARRY_MOST_NUMBER);
    batch_length = 0;
    put(PELTQUARRY_MOST_CHARTS);
    for (size_t place = 0; place < PELTQUARRY_MOST_CHARTS; place++) {
        put_chart(PELTQUARRY_ELEMENT(place), PELTQUARRY_MOST_SETUP, PELTQUARRY_MOST_LATER);
    }
    put(PELTQUARRY_MOST_SAMPLES);
    for (size_t i = 0; i < PELTQUARRY_MOST_SAMPLES; i++) {
        put_record(greatest);
    }
}

static void the_greatest_batch(void)
{
    const size_t length = PELTQUARRY_MOST_BATCH, room = PELTQUARRY_MOST_ANSWER;
    put_the_greatest_batch();
    hold("the greatest batch's words", length, batch_length);
    hold("the greatest batch", PELTQUARRY_DONE, answered(length, room));
    hold("its count", PELTQUARRY_MOST_SAMPLES, answer[0]);
    hold_row("its last row", PELTQUARRY_MOST_SAMPLES - 1, PELTQUARRY_MOST_NUMBER, PELTQUARRY_WITHIN, 1);
    hold("its answer less a word", PELTQUARRY_REFUSED_OUTPUT_LENGTH, answered(length, room - 1));
    hold("it less a word", PELTQUARRY_REFUSED_BATCH_LENGTH, answered(length - 1, room));
    hold("it and a word", PELTQUARRY_REFUSED_BATCH_LENGTH, answered(length + 1, room));
}

static void counts_and_elements(void)
{
    batch_length = 0;
    put(PELTQUARRY_MOST_CHARTS + 1);
    hold("too many charts", PELTQUARRY_REFUSED_COUNT, answered(batch_length, PELTQUARRY_MOST_ANSWER));
    batch_length = 0;
    put(0);
    put(PELTQUARRY_MOST_SAMPLES + 1);
    hold("too many samples", PELTQUARRY_REFUSED_COUNT, answered(batch_length, PELTQUARRY_MOST_ANSWER));
    for (size_t place = 0; place <= PELTQUARRY_READINGS; place++) {
        struct record record = printed();
        measure(&record, PELTQUARRY_DOC, 1.0f);
        batch_length = 0;
        put(1);
        put_chart(PELTQUARRY_ELEMENT(place), PELTQUARRY_LEAST_SETUP, 1);
        put(2);
        put_record(record);
        put_record(place < PELTQUARRY_READINGS ? without(record, place) : record);
        const int is_there = place < PELTQUARRY_READINGS;
        hold("an element", is_there ? PELTQUARRY_DONE : PELTQUARRY_REFUSED_CHART, answered(batch_length, PELTQUARRY_MOST_ANSWER));
        if (is_there) {
            hold_row("its sample", 0, 7, PELTQUARRY_WITHIN, 1);
            hold("its flag where it is missing", 0, answer[1 + PELTQUARRY_ROW_WORDS + PELTQUARRY_ROW_FLAG]);
        }
    }
}

/* Lists the first bytes of the batch: 0, or the number of a refusal, of the batch or of the room for its text. */
static uint32_t listed(size_t length, size_t room, size_t *size)
{
    unsigned refusal = 0;
    for (size_t i = 0; i < length; i++) {
        bytes[i] = (uint8_t)(batch[i / 4] >> (8 * (i % 4)));
    }
    const uint32_t code = peltquarry_list(bytes, length, (uint8_t *)text, room, size);
    if (code == PELTQUARRY_DONE) {
        text[*size] = '\0';
        sscanf(text, "refused %u", &refusal);
    }
    return code == PELTQUARRY_DONE ? refusal : code;
}

/* The number that begins the text's second line, or 0 where there is none. */
static uint64_t first_number(void)
{
    const char *rows = strchr(text, '\n');
    uint64_t number = 0;
    if (rows != NULL) {
        sscanf(rows, "%" SCNu64, &number);
    }
    return number;
}

static void listings(void)
{
    const size_t length = PELTQUARRY_MOST_BYTES, room = PELTQUARRY_MOST_TEXT;
    const uint32_t *row = answer + 1;
    size_t size = 0;
    put_the_greatest_batch();
    hold("the greatest batch again", PELTQUARRY_DONE, answered(PELTQUARRY_MOST_BATCH, PELTQUARRY_MOST_ANSWER));
    hold("the greatest listing", PELTQUARRY_DONE, listed(length, room, &size));
    hold("its text", room, size);
    hold("its first number", 1, first_number() == PELTQUARRY_NUMBER(row[PELTQUARRY_ROW_NUMBER_HIGH], row[PELTQUARRY_ROW_NUMBER_LOW]));
    hold("its text less a byte", PELTQUARRY_REFUSED_OUTPUT_LENGTH, listed(length, room - 1, &size));
    /* Too many charts are refused after too many bytes. */
    batch[0] = PELTQUARRY_MOST_CHARTS + 1;
    hold("the most bytes", PELTQUARRY_REFUSED_COUNT, listed(length, room, &size));
    hold("a word more", PELTQUARRY_REFUSED_BATCH_LENGTH, listed(length + 4, room, &size));
}

/* The batch before a tray change, which the one in the making is joined to; and the joined one. */
static uint32_t before[PELTQUARRY_MOST_BATCH];
static size_t before_length;
static uint32_t joined[PELTQUARRY_MOST_BATCH];

static void change_the_tray(void)
{
    memcpy(before, batch, batch_length * sizeof batch[0]);
    before_length = batch_length;
    batch_length = 0;
}

static uint32_t joined_in(size_t room, size_t *size)
{
    return peltquarry_join(before, before_length, batch, batch_length, joined, room, size);
}

/* One chart, and so many samples. */
static void put_batch(uint32_t setup, uint32_t later, uint32_t samples)
{
    batch_length = 0;
    put(1);
    put_chart(PELTQUARRY_ELEMENT(PELTQUARRY_NH4_N), setup, later);
    put(samples);
    for (uint32_t i = 0; i < samples; i++) {
        put_record(printed());
    }
}

static void joined_charts(void)
{
    const uint32_t few = PELTQUARRY_LEAST_SETUP, most = PELTQUARRY_MOST_LATER;
    const size_t room = PELTQUARRY_MOST_BATCH;
    const size_t length = 1 + PELTQUARRY_CHART_HEAD + few + most + 1 + 2 * PELTQUARRY_RECORD_WORDS;
    const uint32_t *later = joined + 1 + PELTQUARRY_CHART_HEAD + few;
    size_t size = 0;
    put_batch(few, most - 1, 1);
    change_the_tray();
    put_batch(few, 1, 1);
    batch[1 + PELTQUARRY_CHART_HEAD + few] = 3000;
    hold("two batches joined", PELTQUARRY_DONE, joined_in(room, &size));
    hold("their words", length, size);
    hold("their chart's later values", most, joined[1 + PELTQUARRY_CHART_LATER]);
    hold("the first batch's last of them", 2000, later[most - 2]);
    hold("the second batch's", 3000, later[most - 1]);
    hold("a word less than they have", PELTQUARRY_REFUSED_OUTPUT_LENGTH, joined_in(length - 1, &size));
    batch[1 + PELTQUARRY_CHART_HEAD]++;
    hold("another setup value", PELTQUARRY_REFUSED_SETUP_DIFFERS, joined_in(room, &size));
    put_batch(few + 1, 2, 1);
    hold("another count of setup values", PELTQUARRY_REFUSED_SETUP_DIFFERS, joined_in(room, &size));
    put_batch(few, 2, 1);
    hold("too many joined later values", PELTQUARRY_REFUSED_JOINED_COUNT, joined_in(room, &size));
    hold("the length after a refusal", length, size);
}

/* A chart found only in the second batch comes after the first's, wherever it stands there. */
static void order_of_joined_charts(void)
{
    const uint32_t few = PELTQUARRY_LEAST_SETUP;
    const uint32_t *chart = joined + 1;
    size_t size = 0;
    put_batch(few, 1, 0);
    change_the_tray();
    put(2);
    put_chart(PELTQUARRY_ELEMENT(PELTQUARRY_DOC), few, 0);
    put_chart(PELTQUARRY_ELEMENT(PELTQUARRY_NH4_N), few, 1);
    put(0);
    hold("charts in both and in one", PELTQUARRY_DONE, joined_in(PELTQUARRY_MOST_BATCH, &size));
    hold("their number", 2, joined[0]);
    hold("the chart in both", PELTQUARRY_ELEMENT(PELTQUARRY_NH4_N), chart[PELTQUARRY_CHART_ELEMENT]);
    hold("its later values", 2, chart[PELTQUARRY_CHART_LATER]);
    chart += PELTQUARRY_CHART_HEAD + few + 2;
    hold("the chart in the second alone", PELTQUARRY_ELEMENT(PELTQUARRY_DOC), chart[PELTQUARRY_CHART_ELEMENT]);
}

static void joined_samples(void)
{
    const size_t room = PELTQUARRY_MOST_BATCH;
    size_t size = 0;
    put_the_greatest_batch();
    change_the_tray();
    put(0);
    put(0);
    hold("the greatest batch and an empty one", PELTQUARRY_DONE, joined_in(room, &size));
    hold("their words", room, size);
    hold("a word less", PELTQUARRY_REFUSED_OUTPUT_LENGTH, joined_in(room - 1, &size));
    batch[1] = 1;
    put_record(printed());
    hold("too many joined samples", PELTQUARRY_REFUSED_JOINED_COUNT, joined_in(room, &size));
}

int main(void)
{
    lengths_of_a_record();
    fields_of_a_record();
    numbers();
    kinds();
    readings();
    order_of_ions();
    verdicts();
    dockets();
    charts();
    the_greatest_batch();
    counts_and_elements();
    listings();
    joined_charts();
    order_of_joined_charts();
    joined_samples();
    return differences == 0 ? 0 : 1;
}
