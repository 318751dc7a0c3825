/*
 * A host in C: the import tasks of two carriers hand over bursts of words, each in a table of calls. One carrier's file swells; the other carrier's words
 * arrive all the same. `demo FILE` records the calls of this story too: the file is their trace.
 */
#include <inttypes.h>
#include <stdio.h>

#include "linguastel.h"

/* A host uses the kernel in five lines; the sixth looks at the last answer. Gives the received word, or 0 where a call was refused. */
static uint32_t five_lines(void)
{
    static LinguastelRecord record; /* of zeros: that is the empty record */
    bool sent = linguastel_is_ok(linguastel_idefine_task(&record, 1, 5))
        && linguastel_is_ok(linguastel_icre_dtq(&record, 1, LINGUASTEL_TA_TFIFO, 8))
        && linguastel_is_ok(linguastel_snd_dtq(&record, linguastel_as_task(1), 1, 42));
    LinguastelAnswer received = linguastel_iprcv_dtq(&record, 1);
    return sent && linguastel_is_ok(received) ? received.a : 0;
}

/* ---- The carriers ---- */

enum { A_IMPORT = 1, A_READER, B_IMPORT, B_READER, OPERATOR, LAST_TASK = OPERATOR };

enum { A_QUEUE = 1, B_QUEUE, LAST_QUEUE = B_QUEUE };

enum { PRIORITY = 5, CAPACITY = 8, STEPS = 12 };

/* Each line of carrier A's file but the first stands for so many of the line before it. A burst is as long as a table may be. */
enum { A_LINES = 10, A_COPIES = 10, A_BURST = LINGUASTEL_TABLE };

/* The tmout of the element that carrier A's queue has no room for: its wait ends in the tick after so many. */
enum { A_TMOUT = 2 };

/* Carrier B's file. Every fourth step has a burst; the reader takes a word in each step. */
static const uint32_t b_words[STEPS] = { 615, 640, 705, 730, 800, 830, 915, 1000, 1045, 1130, 1215, 1300 };
enum { B_BURST = 4 };

/* What is done to carrier A's queue or import task in a step. Its reader takes four elements, then no more. */
enum event { NOTHING, A_READS, A_IS_RELEASED, A_IS_DELETED };
enum { A_TAKES = 4 };

static const enum event plan[STEPS] = { [1] = A_READS, [6] = A_IS_RELEASED, [8] = A_IS_DELETED };

typedef struct {
    LinguastelRecord record;
    FILE *trace; /* null where calls aren't recorded */
    uint32_t element; /* of carrier A's file, to be sent next; it is its own number */
    bool a_waits;
    bool a_stopped;
    uint32_t a_received;
    uint32_t b_received[STEPS];
    size_t b_count;
} Host;

/* Counted, not built: the import task makes the elements of one table at a time. */
static uint64_t elements_of_a(void)
{
    uint64_t elements = 1;
    for (int line = 1; line < A_LINES; line++) {
        elements *= A_COPIES;
    }
    return elements;
}

/* ---- Calls: all of them pass here, so that each is recorded ---- */

static void keep(Host *host, const uint8_t *bytes, size_t size)
{
    if (host->trace != NULL) {
        fwrite(bytes, 1, size, host->trace);
    }
}

static LinguastelAnswer make(Host *host, LinguastelCall call)
{
    uint8_t bytes[LINGUASTEL_TRACE_SIZE];
    LinguastelAnswer answer = linguastel_call(&host->record, call);
    keep(host, bytes, linguastel_trace(bytes, call, answer));
    return answer;
}

static int32_t make_table(Host *host, const LinguastelCall *calls, LinguastelAnswer *answers, size_t count)
{
    uint8_t bytes[LINGUASTEL_TABLE * LINGUASTEL_TRACE_SIZE];
    int32_t code = linguastel_table(&host->record, calls, count, answers, count);
    keep(host, bytes, linguastel_trace_table(bytes, calls, count, answers, code));
    return code;
}

/* A trace starts at the empty record. Gives whether all tasks and queues are there now. */
static bool start(Host *host)
{
    bool ready = linguastel_empty(&host->record) == LINGUASTEL_E_OK;
    for (uint32_t task = 1; ready && task <= LAST_TASK; task++) {
        ready = linguastel_is_ok(make(host, (LinguastelCall){ .number = LINGUASTEL_DEFINE_TASK, .object = task, .value = PRIORITY }));
    }
    for (uint32_t queue = 1; ready && queue <= LAST_QUEUE; queue++) {
        LinguastelCall create = { .number = LINGUASTEL_CRE_DTQ, .object = queue, .attribute = LINGUASTEL_TA_TFIFO, .value = CAPACITY };
        ready = linguastel_is_ok(make(host, create));
    }
    host->element = 1;
    return ready;
}

/* ---- What is printed of an answer ---- */

static void say(const char *what, LinguastelAnswer answer)
{
    printf("      %s: ", what);
    if (linguastel_waits(answer)) {
        printf("waits, place %" PRIu32 "\n", answer.place);
    } else if (answer.a != 0) {
        printf("%s, %" PRIu32 "\n", linguastel_code_name(answer.code), answer.a);
    } else {
        printf("%s\n", linguastel_code_name(answer.code));
    }
}

static size_t cells_with(int32_t code, const LinguastelAnswer *answers, size_t count)
{
    size_t cells = 0;
    for (size_t i = 0; i < count; i++) {
        cells += answers[i].code == code;
    }
    return cells;
}

/* The table's code; where its calls were made, how many were accepted, and how many were refused like the first one that was. */
static void say_table(const char *who, int32_t code, const LinguastelAnswer *answers, size_t count, size_t accepted)
{
    printf("      %s, table of %zu psnd_dtq: %s", who, count, linguastel_code_name(code));
    if (code == LINGUASTEL_E_OK) {
        printf(", %zu accepted", accepted);
    }
    if (code == LINGUASTEL_E_OK && accepted < count) {
        int32_t refused = answers[accepted].code;
        printf(", %zu refused with %s", cells_with(refused, answers, count), linguastel_code_name(refused));
    }
    printf("\n");
}

/* ---- What is done in a step ---- */

/* A burst: a psnd_dtq for each word, all in one table. Gives how many were accepted: the first ones, since nobody receives meanwhile. */
static size_t hand_over(Host *host, const char *who, uint32_t task, uint32_t queue, const uint32_t *words, size_t count)
{
    LinguastelCall calls[LINGUASTEL_TABLE];
    LinguastelAnswer answers[LINGUASTEL_TABLE];
    for (size_t i = 0; i < count; i++) {
        calls[i] = (LinguastelCall){ .number = LINGUASTEL_PSND_DTQ, .caller = task, .object = queue, .value = words[i] };
    }
    int32_t code = make_table(host, calls, answers, count);
    size_t accepted = 0;
    while (code == LINGUASTEL_E_OK && accepted < count && linguastel_is_ok(answers[accepted])) {
        accepted++;
    }
    say_table(who, code, answers, count, accepted);
    return accepted;
}

static void b_imports(Host *host, size_t step)
{
    if (step % B_BURST == 0) {
        hand_over(host, "B's import task", B_IMPORT, B_QUEUE, &b_words[step], B_BURST);
    }
}

static void b_reads(Host *host)
{
    LinguastelAnswer answer = make(host, (LinguastelCall){ .number = LINGUASTEL_PRCV_DTQ, .caller = B_READER, .object = B_QUEUE });
    if (linguastel_is_ok(answer)) {
        host->b_received[host->b_count++] = answer.a;
    }
}

static void a_reads(Host *host)
{
    for (int taken = 0; taken < A_TAKES; taken++) {
        LinguastelAnswer answer = make(host, (LinguastelCall){ .number = LINGUASTEL_PRCV_DTQ, .caller = A_READER, .object = A_QUEUE });
        say("A's reader, prcv_dtq", answer);
        host->a_received += linguastel_is_ok(answer);
    }
}

static void happen(Host *host, enum event event)
{
    switch (event) {
    case NOTHING:
        break;
    case A_READS:
        a_reads(host);
        break;
    case A_IS_RELEASED:
        say("handler, rel_wai of A's import task", make(host, (LinguastelCall){ .number = LINGUASTEL_REL_WAI, .object = A_IMPORT }));
        break;
    case A_IS_DELETED:
        say("operator, del_dtq of A's queue", make(host, (LinguastelCall){ .number = LINGUASTEL_DEL_DTQ, .caller = OPERATOR, .object = A_QUEUE }));
        break;
    }
}

/* The import task is able again and learns how its wait ended. Gives whether it got room; else its element was withdrawn. */
static bool a_got_room(Host *host)
{
    LinguastelAnswer ended = make(host, (LinguastelCall){ .number = LINGUASTEL_FETCH, .caller = A_IMPORT, .object = A_IMPORT });
    say("A's import task, fetch", ended);
    host->element += linguastel_is_ok(ended);
    return linguastel_is_ok(ended);
}

static void a_hands_over(Host *host)
{
    uint32_t elements[A_BURST];
    for (uint32_t i = 0; i < A_BURST; i++) {
        elements[i] = host->element + i;
    }
    host->element += (uint32_t)hand_over(host, "A's import task", A_IMPORT, A_QUEUE, elements, A_BURST);
}

static bool a_can_call(Host *host)
{
    LinguastelAnswer look = make(host, (LinguastelCall){ .number = LINGUASTEL_LOOK, .object = A_IMPORT });
    return linguastel_is_ok(look) && linguastel_looked(look).tskwait == LINGUASTEL_NO_WAIT;
}

/* Hands over a burst where there may be room, then waits with the first element that was refused. */
static void a_imports(Host *host)
{
    if (host->a_stopped || !a_can_call(host)) {
        return;
    }
    if (!host->a_waits || a_got_room(host)) {
        a_hands_over(host);
    }
    LinguastelCall send = { .number = LINGUASTEL_TSND_DTQ, .caller = A_IMPORT, .object = A_QUEUE, .value = host->element, .tmout = A_TMOUT };
    LinguastelAnswer answer = make(host, send);
    char what[64];
    snprintf(what, sizeof what, "A's import task, tsnd_dtq of element %" PRIu32, host->element);
    say(what, answer);
    host->element += linguastel_is_ok(answer);
    host->a_waits = linguastel_waits(answer);
    host->a_stopped = !host->a_waits && !linguastel_is_ok(answer);
}

/* ---- The picture ---- */

/* A queue's stored words, a # for each, and whether a sender waits. */
static void draw_queue(LinguastelAnswer reference)
{
    if (!linguastel_is_ok(reference)) {
        printf("  %-23s", reference.code == LINGUASTEL_E_NOEXS ? "deleted" : linguastel_code_name(reference.code));
        return;
    }
    LinguastelRdtq queue = linguastel_rdtq(reference);
    char bar[CAPACITY + 1] = "";
    for (uint32_t place = 0; place < CAPACITY; place++) {
        bar[place] = place < queue.sdtqcnt ? '#' : '.';
    }
    printf("  %s %-14s", bar, queue.stskid != LINGUASTEL_TSK_NONE ? "a sender waits" : "");
}

static void draw(Host *host)
{
    printf("%4" PRIu32, host->record.counter);
    draw_queue(make(host, (LinguastelCall){ .number = LINGUASTEL_REF_DTQ, .object = A_QUEUE }));
    draw_queue(make(host, (LinguastelCall){ .number = LINGUASTEL_REF_DTQ, .object = B_QUEUE }));
    printf("  %2" PRIu32 ", %zu\n", host->a_received, host->b_count);
}

/* ---- The story ---- */

static void tick(Host *host)
{
    LinguastelAnswer ticked = make(host, (LinguastelCall){ .number = LINGUASTEL_TICK });
    if (!linguastel_is_ok(ticked) || ticked.a != 0) {
        say("tick, waits that it ended", ticked);
    }
}

static void play(Host *host)
{
    for (size_t step = 0; step < STEPS; step++) {
        b_imports(host, step);
        b_reads(host);
        happen(host, plan[step]);
        a_imports(host);
        draw(host);
        tick(host);
    }
}

static bool b_arrived_in_order(const Host *host)
{
    bool same = host->b_count == STEPS;
    for (size_t i = 0; i < host->b_count; i++) {
        same = same && host->b_received[i] == b_words[i];
    }
    return same;
}

static void tell(Host *host)
{
    printf("Carrier A's file has %d lines. Each but the first stands for %d of the line before it: ", A_LINES, A_COPIES);
    printf("%" PRIu64 " elements.\n", elements_of_a());
    printf("Carrier B's file has %d words. Each carrier has a data queue of %d words, an import task and a reader. # is a stored word.\n", STEPS, CAPACITY);
    printf("A burst is one table of calls: %d elements of A, or %d words of B. What a full queue refuses stays with the import task.\n", A_BURST, B_BURST);
    printf("A then sends the first of that with tmout %d: what nobody takes is given up in tick %d after the call.\n\n", A_TMOUT, A_TMOUT + 1);
    printf("tick  A's queue                B's queue                received: A, B\n");
    play(host);
}

/* Whether all is as it should be. */
static bool sum_up(const Host *host)
{
    bool in_order = b_arrived_in_order(host);
    bool sound = linguastel_sound(&host->record);
    printf("\nCarrier A: %" PRIu32 " of %" PRIu64 " elements accepted, %" PRIu32 " received.\n", host->element - 1, elements_of_a(), host->a_received);
    printf("Carrier B: %zu of %d words received, %s.\n", host->b_count, STEPS, in_order ? "in order" : "not in order");
    printf("The record is %s.\n", sound ? "sound" : "not sound");
    return in_order && sound;
}

/* Whether the trace was written, where there is to be one. */
static bool close_trace(Host *host)
{
    if (host->trace == NULL) {
        return true;
    }
    bool failed = ferror(host->trace) != 0;
    failed |= fclose(host->trace) != 0;
    if (failed) {
        fprintf(stderr, "the trace can't be written\n");
    }
    return !failed;
}

int main(int count, char **arguments)
{
    static Host host;
    if (!linguastel_library_fits() || !linguastel_table_library_fits()) {
        fprintf(stderr, "the library isn't that of the header, " LINGUASTEL_VERSION_TEXT "\n");
        return 1;
    }
    printf("In five lines: a task sent 42, a handler received %" PRIu32 ".\n\n", five_lines());

    host.trace = count > 1 ? fopen(arguments[1], "wb") : NULL;
    if (count > 1 && host.trace == NULL) {
        perror(arguments[1]);
        return 1;
    }
    bool right = start(&host);
    tell(&host);
    right &= sum_up(&host);
    return close_trace(&host) && right ? 0 : 1;
}
