/* Reads a deck from standard input and writes its report to standard output, or the number, line and field of what stops it. With the
 * argument `composite` the deck is a composite's. Then works 2 / 3 and 1 - 0.99999999999 as pairs, on standard error.
 *
 * Ends with 0 where the report was written, 1 where the deck is refused, its three numbers being written, and 2 where standard input could
 * not be read, or not all could be written; of an input that cannot be read nothing is written to standard output. */
#include <stdio.h>
#include <string.h>
#include "zilmorga.h"

enum { REPORTED = 0, REFUSED = 1, FAILED = 2 };

static int failed(const char *what)
{
    fprintf(stderr, "report: %s\n", what);
    return FAILED;
}

/* Whether it could be said. */
static int say(const char *what, uint32_t refused, const int64_t p[4])
{
    if (refused == 0)
        return fprintf(stderr, "%s is from %lldE%lld to %lldE%lld\n", what, (long long)p[0], (long long)p[1], (long long)p[2], (long long)p[3]) >= 0;
    return fprintf(stderr, "%s is refused by %u\n", what, (unsigned)refused) >= 0;
}

/* The pairs. */
static int work_pairs(void)
{
    int64_t two[4], three[4], p[4];
    uint32_t refused = zilmorga_entry(2, 0, two);
    if (refused == 0)
        refused = zilmorga_entry(3, 0, three);
    if (refused == 0)
        refused = zilmorga_quotient(two, three, p);
    int said = say("2 / 3", refused, p);
    refused = zilmorga_one_minus_entry(99999999999, -11, p);
    return say("1 - 0.99999999999", refused, p) && said;
}

int main(int argc, char **argv)
{
    /* Arrays for either sort. Of a deck one byte more than the longest is read, so that a longer one is refused and not cut. */
    static uint8_t deck[ZILMORGA_LONGEST_COMPOSITE_DECK + 1];
    static uint8_t report[ZILMORGA_LONGEST_REPORT];
    int composite = argc > 1 && strcmp(argv[1], "composite") == 0;
    size_t most = (composite ? ZILMORGA_LONGEST_COMPOSITE_DECK : ZILMORGA_LONGEST_DECK) + 1;
    size_t room = composite ? ZILMORGA_LONGEST_COMPOSITE_REPORT : ZILMORGA_LONGEST_REPORT;
    size_t line, field;
    size_t n = fread(deck, 1, most, stdin);
    if (ferror(stdin))
        return failed("the deck could not be read");
    uint32_t number = composite ? zilmorga_composite_report(deck, n, report, room, &line, &field)
                                : zilmorga_report(deck, n, report, room, &line, &field);
    int written = number == 0 ? fwrite(report, 1, line, stdout) == line : printf("%6u%6zu%6zu\n", (unsigned)number, line, field) >= 0;
    /* What was written may stand in a buffer still: only once it is flushed can a full disk be told. */
    if (fflush(stdout) != 0 || ferror(stdout))
        written = 0;
    if (!written)
        return failed("the report could not be written");
    if (!work_pairs())
        return FAILED;
    return number == 0 ? REPORTED : REFUSED;
}
