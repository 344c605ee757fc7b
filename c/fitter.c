/* A fitter's first evening at a site of four decks, all of them empty. The run is opened without stocks, and a check of 0 cars goes over each of its
 * lines. Then it is opened anew, so that the desk's journal begins without these checks, and the first cars drive in and are recorded. Prints the
 * journal of each opening, the number of records behind the checks, the recording and its total; exits 1 if a call is refused. */
#include <inttypes.h>
#include <stdio.h>
#include <stdlib.h>

#include <cut/site.h>

/* Edition 3 has line checks and gates. */
enum { EDITION = 3, DECKS = 4, STREET = 1 };

static void accepted(uint8_t refusal, const char *what)
{
    if (refusal != CUT_ACCEPTED) {
        fprintf(stderr, "refused: %s: %s\n", what, cut_refusal_words(refusal));
        exit(1);
    }
}

static void print(const char *what, const uint8_t *bytes, size_t size)
{
    printf("%s", what);
    for (size_t i = 0; i < size; i++)
        printf(" %02X", bytes[i]);
    printf("\n");
}

/* No row of zeros is typed: no stocks mean stock 0 in every deck. */
static void open_empty(cut_run *run)
{
    uint8_t bytes[CUT_JOURNAL_BYTES];
    accepted(cut_open(run, EDITION, DECKS, NULL, 0), "the empty site opens");
    cut_written w = cut_write(run, bytes, sizeof bytes);
    accepted(w.refusal, "its journal is written");
    print("opened:  ", bytes, w.written);
}

/* Each line once; a check moves no car. */
static void check_lines(cut_run *run)
{
    for (uint8_t from = 1; from <= DECKS; from++)
        for (uint8_t to = 1; to <= DECKS; to++)
            if (from != to) {
                accepted(cut_send(run, from, to, 0), "a check is sent");
                accepted(cut_receive(run, from, to).refusal, "it arrives");
            }
    printf("checked:  %" PRIu16 " records\n", run->head.records);
}

static void record(cut_run *run)
{
    uint8_t bytes[CUT_RECORDING_BYTES];
    accepted(cut_enter(run, STREET, 3), "three cars drive in from the street");
    accepted(cut_start(run, STREET), "the deck at the street starts a recording");
    cut_written w = cut_record(run, bytes, sizeof bytes);
    accepted(w.refusal, "the recording is complete");
    print("recorded:", bytes, w.written);
    printf("total:    %" PRIu32 "\n", w.total);
}

int main(void)
{
    static cut_run run;
    open_empty(&run);
    check_lines(&run);
    open_empty(&run);
    record(&run);
    return 0;
}
