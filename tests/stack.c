/* The stack that each call of the headers uses, from a caller that is compiled with -O2: the call is made on a stack of its own, which was
 * painted before, and what is no longer paint was used. What a call is passed and what it answers stands in the caller's frame and is
 * counted. Prints a line a call: its name, the bytes used, and the bytes that the headers say are enough; exits 1 where these are fewer. The gate
 * compiles it twice, so that the calls on a run are measured inline and as the library has them.
 *
 * The frames of the library have fixed sizes, and the runs and the zone below lead every call to its innermost function. Each call was made
 * before it is measured: at the first one of a function the dynamic linker may look for it on the caller's stack. */
#define _XOPEN_SOURCE 700
#include <stdio.h>
#include <stdlib.h>
#include <string.h>
#include <ucontext.h>

#include <cut/site.h>
#include <cut/zone.h>

#define OWN __attribute__((noinline))

static uint8_t stack[1 << 17];
static ucontext_t home, away;
static cut_run first, run;
static cut_zone zone, heard;
static uint8_t bytes[CUT_JOURNAL_BYTES], out[CUT_RECORDING_BYTES];
static size_t size;
/* A journal without gates, of edition 1 and of edition 3. */
static uint8_t old[CUT_JOURNAL_BYTES], converted[CUT_JOURNAL_BYTES];
static size_t old_size;
static uint64_t refusals;

/* The answers are used, so that no call is left out. */
static void told(uint64_t refusal)
{
    refusals += refusal;
}

static OWN void nothing(void)
{
    told(0);
}

static OWN void call_zone_open(void)
{
    told(cut_zone_open(3, 8, 1, 100).refusal);
}

static OWN void call_zone_send(void)
{
    cut_step r = cut_zone_send(zone, 2, 1);
    zone = r.zone;
    told(r.refusal);
}

static OWN void call_zone_receive(void)
{
    cut_step r = cut_zone_receive(zone, 2, 1, 0);
    zone = r.zone;
    told(r.refusal);
}

static OWN void call_zone_request(void)
{
    cut_step r = cut_zone_request(zone, 1);
    zone = r.zone;
    told(r.refusal);
}

static OWN void call_zone_start(void)
{
    cut_step r = cut_zone_start(zone);
    zone = r.zone;
    told(r.refusal);
}

static OWN void call_zone_enter(void)
{
    cut_step r = cut_zone_enter(zone, 1);
    zone = r.zone;
    told(r.refusal);
}

static OWN void call_zone_leave(void)
{
    cut_step r = cut_zone_leave(zone, 1);
    zone = r.zone;
    told(r.refusal);
}

static OWN void call_zone_requests(void)
{
    told(cut_zone_requests(zone.deps) > 8);
}

static OWN void call_zone_next(void)
{
    told(cut_zone_next(zone.deps) > 8);
}

static OWN void call_open(void)
{
    told(cut_open(&run, first.head.edition, first.head.count, first.head.opening, first.head.count));
}

static OWN void call_send(void)
{
    told(cut_send(&run, 1, 2, 1));
}

static OWN void call_receive(void)
{
    told(cut_receive(&run, 1, 2).refusal);
}

static OWN void call_start(void)
{
    told(cut_start(&run, 1));
}

static OWN void call_enter(void)
{
    told(cut_enter(&run, 1, 1));
}

static OWN void call_leave(void)
{
    told(cut_leave(&run, 1, 1));
}

static OWN void call_record(void)
{
    told(cut_record(&run, out, sizeof out).refusal);
}

static OWN void call_page(void)
{
    told(cut_page(&run, out, sizeof out).refusal);
}

static OWN void call_write(void)
{
    told(cut_write(&run, out, sizeof out).refusal);
}

static OWN void call_journal_read(void)
{
    cut_reading r = cut_journal_read(bytes, size);
    run = r.run;
    told(r.refusal);
}

static OWN void call_journal_record(void)
{
    told(cut_journal_record(bytes, size, out, sizeof out).refusal);
}

static OWN void call_journal_page(void)
{
    told(cut_journal_page(bytes, size, out, sizeof out).refusal);
}

static OWN void call_journal_upgrade(void)
{
    told(cut_journal_upgrade(old, old_size, out, sizeof out).refusal);
}

static OWN void call_journal_downgrade(void)
{
    told(cut_journal_downgrade(converted, old_size, out, sizeof out).refusal);
}

static const struct {
    const char *name;
    void (*call)(void);
    size_t enough;
} calls[] = {
    {"cut_zone_open", call_zone_open, CUT_ZONE_STACK},
    {"cut_zone_send", call_zone_send, CUT_ZONE_STACK},
    {"cut_zone_receive", call_zone_receive, CUT_ZONE_STACK},
    {"cut_zone_request", call_zone_request, CUT_ZONE_STACK},
    {"cut_zone_start", call_zone_start, CUT_ZONE_STACK},
    {"cut_zone_enter", call_zone_enter, CUT_ZONE_STACK},
    {"cut_zone_leave", call_zone_leave, CUT_ZONE_STACK},
    {"cut_zone_requests", call_zone_requests, CUT_ZONE_STACK},
    {"cut_zone_next", call_zone_next, CUT_ZONE_STACK},
    {"cut_open", call_open, CUT_OPEN_STACK},
    {"cut_send", call_send, CUT_CALL_STACK},
    {"cut_receive", call_receive, CUT_CALL_STACK},
    {"cut_start", call_start, CUT_CALL_STACK},
    {"cut_enter", call_enter, CUT_CALL_STACK},
    {"cut_leave", call_leave, CUT_CALL_STACK},
    {"cut_record", call_record, CUT_RECORD_STACK},
    {"cut_page", call_page, CUT_PAGE_STACK},
    {"cut_write", call_write, CUT_WRITE_STACK},
    {"cut_journal_read", call_journal_read, CUT_JOURNAL_READ_STACK},
    {"cut_journal_record", call_journal_record, CUT_JOURNAL_RECORD_STACK},
    {"cut_journal_page", call_journal_page, CUT_JOURNAL_PAGE_STACK},
    {"cut_journal_upgrade", call_journal_upgrade, CUT_JOURNAL_CONVERT_STACK},
    {"cut_journal_downgrade", call_journal_downgrade, CUT_JOURNAL_CONVERT_STACK},
};

static void (*volatile called)(void);

static void body(void)
{
    called();
}

/* The bytes that are no longer paint after a call. */
static size_t painted(void (*call)(void), int paint)
{
    size_t k = 0;
    run = first;
    zone = heard;
    called = call;
    memset(stack, paint, sizeof stack);
    getcontext(&away);
    away.uc_stack.ss_sp = stack;
    away.uc_stack.ss_size = sizeof stack;
    away.uc_link = &home;
    makecontext(&away, body, 0);
    swapcontext(&home, &away);
    while (k < sizeof stack && stack[k] == paint)
        k++;
    return sizeof stack - k;
}

/* The most of two colours, since what a call writes may be one of them; behind a first call that does not count. */
static size_t used(void (*call)(void))
{
    painted(call, 0);
    size_t a = painted(call, 0xA5), b = painted(call, 0x5A);
    return a > b ? a : b;
}

/* Opens a run and lets its zones send round and receive. */
static void traffic(cut_run *of, uint8_t edition)
{
    const uint16_t stocks[] = {1000, 1000, 1000};
    told(cut_open(of, edition, 3, stocks, 3));
    for (int k = 0; k < 490; k++) {
        told(cut_send(of, (uint8_t)(k % 3 + 1), (uint8_t)((k + 1) % 3 + 1), 1));
        told(cut_receive(of, (uint8_t)(k % 3 + 1), (uint8_t)((k + 1) % 3 + 1)).refusal);
    }
}

/* A start and receipts of its requests. */
static void finish(cut_run *of)
{
    told(cut_start(of, 1));
    told(cut_receive(of, 1, 3).refusal);
    told(cut_receive(of, 3, 2).refusal);
}

/* A run with items on channels and gates, and records left for a start, receipts of requests and one call more; and such a journal without
 * gates. */
static void prepare(void)
{
    traffic(&run, 1);
    finish(&run);
    cut_written w = cut_write(&run, old, sizeof old);
    told(w.refusal);
    old_size = w.written;
    told(cut_journal_upgrade(old, old_size, converted, sizeof converted).refusal);
    traffic(&first, 3);
    told(cut_enter(&first, 2, 1));
    told(cut_leave(&first, 3, 1));
    told(cut_send(&first, 1, 2, 1));
    heard = cut_zone_receive(cut_zone_open(3, 8, 1, 100).zone, 2, 1, 0).zone;
}

int main(void)
{
    int few = 0;
    prepare();
    size_t none = used(nothing);
    for (size_t k = 0; k < sizeof calls / sizeof calls[0]; k++) {
        if (calls[k].call == call_record) {
            finish(&first);
            cut_written w = cut_write(&first, bytes, sizeof bytes);
            told(w.refusal);
            size = w.written;
        }
        size_t n = used(calls[k].call) - none;
        printf("%s %zu %zu\n", calls[k].name, n, calls[k].enough);
        few |= n > calls[k].enough;
    }
    if (few || refusals != 0) {
        fprintf(stderr, refusals != 0 ? "a call was refused\n" : "a call uses more stack than its header says\n");
        return 1;
    }
    return 0;
}
