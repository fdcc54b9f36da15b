/*
 * Peltquarry, the water analysis judge, for programs in C.
 *
 * A record, a docket, a batch and an answer are words of 32 bits, lent as a pointer and a number of words. Where each word stands
 * and how many there are is named below; what they mean stands in document 01, 'A record', 'A reading' and 'A batch',
 * and in document 02 (i) to (iii), (v) and (vi): readings are floats in mg/L, and one below its limit stands for every amount from 0 to
 * the limit's in the checks, and for half the limit where two records are compared; the values of a chart are in tenths of a µg/L,
 * like the amounts that readings are rounded to; a sample's number has up to 15 digits, and two words; two batches of one day are
 * joined; calculated conductivity is corrected for ionic strength.
 *
 * Every call returns 0 where it did what was asked, else the number of a refusal:
 *
 *    1  the record is not PELTQUARRY_RECORD_WORDS words long
 *    2  the sample number, the whole one, is not from 1 to PELTQUARRY_MOST_NUMBER
 *    3  there is no such kind
 *    4  the pH is out of range
 *    5  the measured conductivity is out of range
 *    6  the alkalinity is out of range
 *    7  a reading's mark or value is out of range
 *    8  a batch ends early or has words left over
 *    9  a count is beyond its range
 *   10  a chart's element is out of range or repeated, or a value is out of range
 *   11  the docket is closed, or is one that no offers produce
 *   12  the whole number or the kind of the sample differs from that of the record held
 *   13  the lent output has fewer words than the answer
 *   14  two batches that are joined have a chart of one element with other setup values, another number or another order of them
 *   15  a chart of both would have over PELTQUARRY_MOST_LATER later values, or both together over PELTQUARRY_MOST_SAMPLES samples
 *
 * The tests are made in the order given with each call, and the first that fails is returned. After a refusal all lent words
 * are as they were. An answer stands in the first words of the lent output; the words beyond it are as they were.
 *
 * What a caller owes, since C does not: a pointer is not null (also where no word is lent), and points to as many words as are
 * said to be lent; the words of an output are lent to the one call alone, so an output (a *size too) never overlaps an input or
 * another output; inputs may be the same words. Nothing else is asked: any words, any lengths and any floats may be handed in. No
 * call keeps a pointer, allocates or holds a state of its own, so that calls on other words may run at the same time.
 */
#ifndef PELTQUARRY_H
#define PELTQUARRY_H

#include <stddef.h>
#include <stdint.h>

#ifdef __cplusplus
extern "C" {
#endif

/*
 * The words of a record: its fields, then its readings. The number has two words, which PELTQUARRY_NUMBER puts together; pH is in
 * hundredths, conductivity in tenths of a µS/cm, alkalinity in tenths of a µeq/L.
 */
#define PELTQUARRY_RECORD_NUMBER_HIGH 0
#define PELTQUARRY_RECORD_NUMBER_LOW 1
#define PELTQUARRY_RECORD_KIND 2
#define PELTQUARRY_RECORD_PH 3
#define PELTQUARRY_RECORD_CONDUCTIVITY 4
#define PELTQUARRY_RECORD_ALKALINITY 5
#define PELTQUARRY_FIRST_READING 6
#define PELTQUARRY_READINGS 10
#define PELTQUARRY_READING_WORDS 2
#define PELTQUARRY_READINGS_END (PELTQUARRY_FIRST_READING + PELTQUARRY_READINGS * PELTQUARRY_READING_WORDS)
#define PELTQUARRY_RECORD_WORDS PELTQUARRY_READINGS_END

/* Kinds of sample. */
#define PELTQUARRY_WET_ONLY 1
#define PELTQUARRY_BULK_OPEN_FIELD 2
#define PELTQUARRY_THROUGHFALL 3
#define PELTQUARRY_STEMFLOW 4
#define PELTQUARRY_RUNOFF 5
#define PELTQUARRY_SOIL_WATER 6

/*
 * The number that a high and a low word make, high * 2^32 + low, as a uint64_t; its high word and its low word; the greatest sample
 * number, and how many digits it has.
 */
#define PELTQUARRY_NUMBER(high, low) ((uint64_t)(high) << 32 | (uint32_t)(low))
#define PELTQUARRY_HIGH_WORD(number) ((uint32_t)((uint64_t)(number) >> 32))
#define PELTQUARRY_LOW_WORD(number) ((uint32_t)(number))
#define PELTQUARRY_MOST_NUMBER UINT64_C(999999999999999)
#define PELTQUARRY_NUMBER_DIGITS 15

/* The places of the readings; the words of a record that have the mark and the bits of each; and the marks. */
#define PELTQUARRY_NH4_N 0
#define PELTQUARRY_CA 1
#define PELTQUARRY_MG 2
#define PELTQUARRY_NA 3
#define PELTQUARRY_K 4
#define PELTQUARRY_SO4_S 5
#define PELTQUARRY_NO3_N 6
#define PELTQUARRY_CL 7
#define PELTQUARRY_TN 8
#define PELTQUARRY_DOC 9
#define PELTQUARRY_READING_MARK(place) (PELTQUARRY_FIRST_READING + (place) * PELTQUARRY_READING_WORDS)
#define PELTQUARRY_READING_BITS(place) (PELTQUARRY_READING_MARK(place) + 1)
#define PELTQUARRY_MARK_MISSING 0
#define PELTQUARRY_MARK_MEASURED 1
#define PELTQUARRY_MARK_BELOW 2

/* The words of a docket: where it stands, how many analyses it took, and from here on the words of the last it took. */
#define PELTQUARRY_DOCKET_STATE 0
#define PELTQUARRY_DOCKET_COUNT 1
#define PELTQUARRY_DOCKET_RECORD 2
#define PELTQUARRY_DOCKET_WORDS (PELTQUARRY_DOCKET_RECORD + PELTQUARRY_RECORD_WORDS)

/* How many verdicts there are: ion balance, conductivity, sodium/chloride ratio, nitrogen. */
#define PELTQUARRY_VERDICT_WORDS 4

/* A chart: how many setup values and later values it may have, and the greatest value, in tenths of a µg/L. */
#define PELTQUARRY_LEAST_SETUP 10
#define PELTQUARRY_MOST_SETUP 64
#define PELTQUARRY_MOST_LATER 64
#define PELTQUARRY_MOST_VALUE 2000000

/*
 * The words of a batch: the number of charts and the charts, then the number of samples and their records. A chart has its
 * element, which is that of a reading, its counts of setup and of later values, and these values.
 */
#define PELTQUARRY_ELEMENT(place) ((place) + 1)
#define PELTQUARRY_CHART_ELEMENT 0
#define PELTQUARRY_CHART_SETUP 1
#define PELTQUARRY_CHART_LATER 2
#define PELTQUARRY_CHART_HEAD 3
#define PELTQUARRY_MOST_CHARTS 10
#define PELTQUARRY_MOST_CHART_WORDS (PELTQUARRY_CHART_HEAD + PELTQUARRY_MOST_SETUP + PELTQUARRY_MOST_LATER)
#define PELTQUARRY_MOST_SAMPLES 400
#define PELTQUARRY_MOST_BATCH \
    (1 + PELTQUARRY_MOST_CHARTS * PELTQUARRY_MOST_CHART_WORDS + 1 + PELTQUARRY_MOST_SAMPLES * PELTQUARRY_RECORD_WORDS)

/*
 * The words of its answer: the number of samples, then a row for each with the sample's number, high and low, its verdicts, and 1 if
 * some chart whose element is not missing in the sample has a signal at its last later value, else 0.
 */
#define PELTQUARRY_ROW_NUMBER_HIGH 0
#define PELTQUARRY_ROW_NUMBER_LOW 1
#define PELTQUARRY_ROW_VERDICTS 2
#define PELTQUARRY_ROW_FLAG (PELTQUARRY_ROW_VERDICTS + PELTQUARRY_VERDICT_WORDS)
#define PELTQUARRY_ROW_WORDS (PELTQUARRY_ROW_FLAG + 1)
#define PELTQUARRY_MOST_ANSWER (1 + PELTQUARRY_MOST_SAMPLES * PELTQUARRY_ROW_WORDS)

/*
 * The most bytes of a listing's input, and of its text: a line of three digits, then a line for each row, which has the whole
 * number's digits, a space and a digit for each word after it, and a newline.
 */
#define PELTQUARRY_MOST_BYTES (4 * PELTQUARRY_MOST_BATCH)
#define PELTQUARRY_MOST_LINE (PELTQUARRY_NUMBER_DIGITS + 2 * (PELTQUARRY_ROW_WORDS - PELTQUARRY_ROW_VERDICTS) + 1)
#define PELTQUARRY_MOST_TEXT (3 + 1 + PELTQUARRY_MOST_SAMPLES * PELTQUARRY_MOST_LINE)

/*
 * Verdicts. 'Within' and 'outside' hold for every amount that readings below their limits stand for; any of the four checks may be
 * undecided, at any pH. Calculated conductivity is corrected for ionic strength.
 */
#define PELTQUARRY_NOT_APPLICABLE 0
#define PELTQUARRY_WITHIN 1
#define PELTQUARRY_OUTSIDE 2
#define PELTQUARRY_UNDECIDED 3
#define PELTQUARRY_MISSING 4

/* Where a docket stands. */
#define PELTQUARRY_OPEN 0
#define PELTQUARRY_CONSISTENT 1
#define PELTQUARRY_CONFIRMED 2
#define PELTQUARRY_UNSETTLED 3

/* Refusals. */
#define PELTQUARRY_DONE 0
#define PELTQUARRY_REFUSED_RECORD_LENGTH 1
#define PELTQUARRY_REFUSED_SAMPLE_NUMBER 2
#define PELTQUARRY_REFUSED_KIND 3
#define PELTQUARRY_REFUSED_PH 4
#define PELTQUARRY_REFUSED_CONDUCTIVITY 5
#define PELTQUARRY_REFUSED_ALKALINITY 6
#define PELTQUARRY_REFUSED_READING 7
#define PELTQUARRY_REFUSED_BATCH_LENGTH 8
#define PELTQUARRY_REFUSED_COUNT 9
#define PELTQUARRY_REFUSED_CHART 10
#define PELTQUARRY_REFUSED_DOCKET_CLOSED 11
#define PELTQUARRY_REFUSED_OTHER_SAMPLE 12
#define PELTQUARRY_REFUSED_OUTPUT_LENGTH 13
#define PELTQUARRY_REFUSED_SETUP_DIFFERS 14
#define PELTQUARRY_REFUSED_JOINED_COUNT 15

/*
 * Judges a record. Into verdicts: PELTQUARRY_VERDICT_WORDS words, the verdicts on ion balance, conductivity, sodium/chloride ratio
 * and nitrogen.
 * Refused 1 to 7 by the record, then 13.
 */
uint32_t peltquarry_judge(const uint32_t *words, size_t words_len, uint32_t *verdicts, size_t verdicts_len);

/*
 * Makes a reading from the analyser's value and its quantification limit, both in mg/L: below its limit where the value is
 * under it, else measured. Into words: PELTQUARRY_READING_WORDS words, its mark and the bits of its float, as a record has them.
 * Refused 7 where the value is not from 0 to 200 or the limit not from 2^-10 to 200 (minus zero, an infinity and a NaN are
 * neither), then 13. A missing reading needs no call: its words are 0.
 */
uint32_t peltquarry_reading(float value, float limit, uint32_t *words, size_t words_len);

/*
 * A fresh docket. Into docket: PELTQUARRY_DOCKET_WORDS words, open with a count of 0; those of its record are left open.
 * Refused 13.
 */
uint32_t peltquarry_fresh(uint32_t *docket, size_t docket_len);

/*
 * Offers a record to a docket, which is read from docket's first PELTQUARRY_DOCKET_WORDS words. Taken: those words become the
 * docket after the offer, its state, count and last record. Refused 1 to 7 by the record; then 13, since fewer words hold no
 * docket that could be tested further; then 11, also for a state that is none of the four; then 12.
 */
uint32_t peltquarry_offer(uint32_t *docket, size_t docket_len, const uint32_t *words, size_t words_len);

/*
 * Reads a control chart of PELTQUARRY_LEAST_SETUP to PELTQUARRY_MOST_SETUP setup values and 0 to PELTQUARRY_MOST_LATER later ones,
 * each from 0 to PELTQUARRY_MOST_VALUE. Into signals: a word for each later value, the sum of the numbers of the rules that it
 * meets (1, 2, 4 and 8).
 * Refused 9 by the counts, 10 by the values, then 13.
 */
uint32_t peltquarry_signals(const uint32_t *setup, size_t setup_len, const uint32_t *later, size_t later_len, uint32_t *signals,
                            size_t signals_len);

/*
 * Judges a batch. Into answer: the number of samples, then PELTQUARRY_ROW_WORDS words for each.
 * Refused by the first thing that is wrong in it, 2 to 10, then 13.
 */
uint32_t peltquarry_batch(const uint32_t *words, size_t words_len, uint32_t *answer, size_t answer_len);

/*
 * Joins two batches of one day, as those before and after a tray change. Into joined: the words of one batch, at most
 * PELTQUARRY_MOST_BATCH. Its charts are the first's and then those found only in the second; a chart of both has the first's later
 * values and then the second's. Its samples are the first's and then the second's, each as it was. How many words it has into *size,
 * which a refusal leaves as it was; so many of them are what peltquarry_batch takes.
 * Refused by the first thing that is wrong in the first batch, 2 to 10, then in the second; then chart by chart, those of the first
 * in their order, 14 before 15; then 15 by the samples, then 13.
 */
uint32_t peltquarry_join(const uint32_t *first, size_t first_len, const uint32_t *second, size_t second_len, uint32_t *joined,
                         size_t joined_len, size_t *size);

/*
 * The listing of a batch, given as the bytes of its words, least byte first. Into text: the text that the program peltquarry
 * prints, in ASCII with no zero at its end: the number of samples on the first line and a row a line, or `refused N`. Its length
 * into *size, which a refusal leaves as it was.
 * Refused 13 alone: a batch that is refused has a text too.
 */
uint32_t peltquarry_list(const uint8_t *bytes, size_t bytes_len, uint8_t *text, size_t text_len, size_t *size);

#ifdef __cplusplus
}
#endif

#endif
