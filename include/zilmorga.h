/* Risk sheets from decks: the C interface of the library zilmorga (libzilmorga.a, written by `rt lib` in crates/zilmorga).
 *
 * Every call returns 0, or the number of the first condition that stops it:
 *
 *   11  the deck is empty, longer than 6,723 bytes (a composite's: 8,019), or no whole number of lines of 81 bytes
 *   12  a line is not 80 bytes from 32 to 126 and a line feed
 *   21  a line of this kind cannot come here, or EN is missing, told as the line past the last
 *   22  an id is misspelled, unlike its record's, or not above the one before; or EN is not blank
 *   31  a field is neither blank nor a lone - nor a number
 *   32  a needed field is blank, - stands where a value is needed or for the year, or a later field is not blank
 *   33  a value is out of its range, or the site's year is neither 2005 nor 2009
 *   41  free: no call returns it, since quickly lost chemicals are worked too
 *   42  a report line is too large: a quotient's high end above 10,000, or a risk's above 1
 *   51  the report buffer is shorter than 95 bytes for each report line
 *   52  a list of units is longer than 96 numbers, or has one above 1E+16
 *   53  a pair call cannot be answered: see "Pairs" below
 *
 * docs/DECK.md tells how a deck is written, and what to do about 11 to 33.
 *
 * Memory. The caller owns all of it. A call reads its const arguments and writes its other pointers' targets during the call, keeps no
 * pointer, allocates nothing and frees nothing. No pointer may be null, not even with a length of 0; each must be aligned for its type
 * and good for the whole length given. What a call writes must not overlap anything else that is passed to the same call, so
 * zilmorga_sum(a, b, a) is wrong, and line and field must be two objects. zilmorga_report takes some 90 KB of
 * stack, zilmorga_composite_report some 81 KB, reading alone 38 KB, whatever the deck.
 *
 * Threads. There is no state: no global variable, no setting, no errno. Calls may run at the same time in any threads, as long as no
 * call writes what another reads or writes.
 *
 * Results. What each call returns and leaves in memory is proved, for every input, to equal a definition in crates/zilmorga/specs.
 * Nothing proves that this header declares the calls as they are, or what the C compiler makes of it; the gate compares the prototypes
 * with the functions' own parameters, and runs the C example.
 */
#ifndef ZILMORGA_H
#define ZILMORGA_H

#include <stddef.h>
#include <stdint.h>

#ifdef __cplusplus
extern "C" {
#endif

/* The longest deck, and a report buffer that is long enough for every deck: 388 lines of 95 bytes. */
#define ZILMORGA_LONGEST_DECK 6723
#define ZILMORGA_LONGEST_REPORT 36860

/* The same of a composite: 97 lines, those of one receptor. */
#define ZILMORGA_LONGEST_COMPOSITE_DECK 8019
#define ZILMORGA_LONGEST_COMPOSITE_REPORT 9215

/* Decks
 *
 * line and field are always written. On a refusal they say where: line counts from 1 (42: the report line, total lines
 * counted too; 11 and 51: 0), and field is 1 to 6, or 0 where no field is meant. */

/* The report of a deck of n bytes, into a buffer of room bytes. Each receptor has its length of exposure in slot 22, over which cancer's
 * soil is a mean. The site's slot 12 is 2005, 2009 or blank, which means 2005: by 2009 pathway 1 is worked from the concentration in air,
 * and RfDi is a reference concentration in mg/m3, CSFi a unit risk per ug/m3. On 0, *line is the report's length in bytes and *field is 0;
 * the bytes of the buffer past the report stay as they were. On a refusal the whole buffer does.
 * Refusals, the first that holds: 11; then line by line 12, 21, 22, and in each field 31, 32, 33; then 51, 42. */
uint32_t zilmorga_report(const uint8_t *deck, size_t n, uint8_t *report, size_t room, size_t *line, size_t *field);

/* The report of a composite's deck: its one to eight receptors are the life stages of one person, each with its years in slot 23, and the
 * report has that one person, under the first stage's id. The length of exposure is the exact sum of the years, so slot 22 is blank. The
 * site's year is as for zilmorga_report. Told and refused as zilmorga_report is. */
uint32_t zilmorga_composite_report(const uint8_t *deck, size_t n, uint8_t *report, size_t room, size_t *line, size_t *field);

/* Read an ordinary deck, or a composite's, and do no more. On 0, *line and *field are 0. Refusals: 11, 12, 21, 22, 31, 32, 33. */
uint32_t zilmorga_read(const uint8_t *deck, size_t n, size_t *line, size_t *field);
uint32_t zilmorga_composite_read(const uint8_t *deck, size_t n, size_t *line, size_t *field);

/* The sum of a list of n units, at most 96. Refusal: 52, and *sum stays as it was. */
uint32_t zilmorga_total(const uint64_t *list, size_t n, uint64_t *sum);

/* Pairs
 *
 * A working number is 0, held as significand 0 and exponent 0, or significand x 10^exponent, with a significand from 100,000,000 to
 * 999,999,999 and an exponent from -99,999 to 99,999. A pair is a low and a high working number, low at most high; it stands for
 * everything between. An int64_t[4] holds low significand, low exponent, high significand, high exponent; an int64_t[2] one working
 * number. So 1 is { 100000000, -8, 100000000, -8 }.
 *
 * Each call works once and rounds once, the low end down and the high end up. Its only refusal is 53, and what it would write stays as
 * it was: an argument that is no pair or no working number, or a result whose exponent would be out of reach; and what is said below. */

/* The pair of a printed number, digits x 10^power: the working numbers next to it, which are one where it is one, as every number of at
 * most nine digits is. 53: more than twelve digits; power not from -99,999 to 99,999. */
uint32_t zilmorga_entry(uint64_t digits, int32_t power, int64_t out[4]);

/* 1 - digits x 10^power, taken from the printed digits and rounded once. 53: more than twelve digits; power not from -99,999 to 99,999; a
 * value above 1. */
uint32_t zilmorga_one_minus_entry(uint64_t digits, int32_t power, int64_t out[4]);

/* a + b, a x b, and a / b: low by high, high by low. 53: b's low end is 0 in a quotient. */
uint32_t zilmorga_sum(const int64_t a[4], const int64_t b[4], int64_t out[4]);
uint32_t zilmorga_product(const int64_t a[4], const int64_t b[4], int64_t out[4]);
uint32_t zilmorga_quotient(const int64_t a[4], const int64_t b[4], int64_t out[4]);

/* 1 - f: the low end from f's high end, the high end from f's low end. 53: f's high end is above 1. */
uint32_t zilmorga_one_minus(const int64_t f[4], int64_t out[4]);

/* The series 1 + x/2 + x^2/6 + .., which is x^n / (n+1)! added up, for the soil of the highest year; and 1/2 + x/3 + x^2/8 + .., which is
 * (n+1) x^n / (n+2)! added up, for the mean soil. Each has 256 terms, with the last term's high end added to the high end once more. */
uint32_t zilmorga_series(const int64_t x[4], int64_t out[4]);
uint32_t zilmorga_mean_series(const int64_t x[4], int64_t out[4]);

/* Whether a working number is at most a bound: *at_most is 1 or 0. */
uint32_t zilmorga_compare(const int64_t end[2], const int64_t bound[2], uint32_t *at_most);

/* A pair in units of 10^unit: *low rounded down, *high up. 53: unit not from -99,999 to 99,999; a count of more than nineteen
 * figures. low and high must be two objects. */
uint32_t zilmorga_in_units(const int64_t p[4], int32_t unit, uint64_t *low, uint64_t *high);

#ifdef __cplusplus
}
#endif

#endif
