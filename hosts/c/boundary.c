/*
 * Tests the boundary between a host in C and the library: the layout, bad pointers and numbers, records that aren't sound, what calls write and that
 * none of it is left over from the stack, what the header reads and says beside the library, tables of calls, hosts/runs through the header, the
 * recording of calls, and the replay of a recording in blocks. `boundary RUNS TRACES` reads the runs and the stored traces from these folders. The last
 * line is 'N checks, M failed'; the exit status is 1 where one failed.
 */
#define _DEFAULT_SOURCE /* for mmap and sigaction, which C11 alone doesn't have */
#include <inttypes.h>
#include <setjmp.h>
#include <signal.h>
#include <stdio.h>
#include <stdlib.h>
#include <string.h>
#include <sys/mman.h>
#include <unistd.h>

#include "linguastel_print.h"

#define LENGTH(array) (sizeof(array) / sizeof((array)[0]))

/* ---- Checks ---- */

static unsigned checks, failed;
static const char *group;

static void check(bool holds, const char *what)
{
    checks++;
    if (!holds) {
        failed++;
        printf("failed: %s: %s\n", group, what);
    }
}

static bool same_answer(LinguastelAnswer x, LinguastelAnswer y)
{
    return x.kind == y.kind && x.code == y.code && x.place == y.place && x.a == y.a && x.b == y.b && x.c == y.c;
}

/* Refused with this code: no place, no words. */
static void check_refused(LinguastelAnswer answer, int32_t code, const char *what)
{
    check(same_answer(answer, linguastel_refusal(code)), what);
}

/* What sets up a record is looked at too. */
static void must_be_ok(LinguastelAnswer answer)
{
    check(linguastel_is_ok(answer), "a call of the set-up is accepted");
}

static void must_wait(LinguastelAnswer answer)
{
    check(linguastel_waits(answer), "a call of the set-up waits");
}

static void must_be_e_ok(int32_t code)
{
    check(code == LINGUASTEL_E_OK, "the set-up");
}

/* Of a call that may be accepted, wait or be refused: its answer is whole. */
static void must_be_whole(LinguastelAnswer answer)
{
    bool waits = answer.kind == LINGUASTEL_WAITS && answer.code == LINGUASTEL_NO_CODE && answer.place < LINGUASTEL_TASKS;
    bool finished = answer.kind == LINGUASTEL_FINISHED && answer.code <= LINGUASTEL_E_OK && answer.place == 0;
    bool words = answer.a != 0 || answer.b != 0 || answer.c != 0;
    check((waits && !words) || finished, "an answer that waits has code 1, a finished one a code of the kernel");
    check(linguastel_waits(answer) == waits && (finished || !linguastel_is_ok(answer)), "a wait isn't E_OK");
}

/* Every byte of a record belongs to a field, so all of them count. */
static bool same_record(const LinguastelRecord *x, const LinguastelRecord *y)
{
    return memcmp(x, y, sizeof *x) == 0;
}

/* ---- Records ---- */

/* Marsaglia's generator, the same bytes in every run. */
static uint32_t noise(void)
{
    static uint32_t state = 2463534242;
    state ^= state << 13;
    state ^= state >> 17;
    state ^= state << 5;
    return state;
}

static uint8_t noise_byte(void)
{
    return (uint8_t)(noise() >> 24);
}

static uint32_t noise_below(uint32_t limit)
{
    return (noise() >> 8) % limit;
}

static void fill_with_noise(void *memory, size_t size)
{
    uint8_t *bytes = memory;
    for (size_t i = 0; i < size; i++) {
        bytes[i] = noise_byte();
    }
}

/* Task 1 waits at data queue 1 with an end tick, task 2 at mailbox 1 with none; task 3 is able; queue 2 is full and task 4 waits to send there. */
static void make_typical(LinguastelRecord *record)
{
    must_be_e_ok(linguastel_empty(record));
    for (uint32_t task = 1; task <= 4; task++) {
        must_be_ok(linguastel_idefine_task(record, task, 10 + task));
    }
    must_be_ok(linguastel_icre_dtq(record, 1, LINGUASTEL_TA_TFIFO, 2));
    must_be_ok(linguastel_icre_dtq(record, 2, LINGUASTEL_TA_TPRI, 3));
    must_be_ok(linguastel_icre_mbx(record, 1, LINGUASTEL_TA_TPRI, 0));
    must_be_ok(linguastel_icre_mbx(record, 2, LINGUASTEL_TA_MPRI, 9));
    for (uint32_t word = 40; word <= 43; word++) {
        must_be_ok(linguastel_ifsnd_dtq(record, 2, word));
    }
    must_be_ok(linguastel_isnd_mbx(record, 2, 64, 9));
    must_be_ok(linguastel_isnd_mbx(record, 2, 33, 8));
    must_be_ok(linguastel_tick(record));
    must_wait(linguastel_trcv_dtq(record, linguastel_as_task(1), 1, 7));
    must_wait(linguastel_rcv_mbx(record, linguastel_as_task(2), 1));
    must_wait(linguastel_snd_dtq(record, linguastel_as_task(4), 2, 44));
}

/* ---- Unused fields: document 01 asks nothing of them ---- */

static void spoil_tasks(LinguastelRecord *record)
{
    fill_with_noise(&record->tasks[0], sizeof record->tasks[0]);
    for (size_t t = 1; t <= LINGUASTEL_TASKS; t++) {
        LinguastelTask *task = &record->tasks[t];
        if (task->flags == 0) {
            task->word = noise();
            task->code = noise_byte();
            record->waiting.key[t] = noise_byte();
        }
        if (task->wait == LINGUASTEL_NO_WAIT) {
            task->object = noise_byte();
            task->timed = noise_byte();
            record->waiting.link[t] = noise_byte();
        }
        if (task->wait == LINGUASTEL_NO_WAIT || task->timed == 0) {
            task->end = noise();
        }
        if (task->wait != LINGUASTEL_SENDING) {
            task->sending = noise();
        }
    }
}

static void spoil_queues(LinguastelRecord *record)
{
    fill_with_noise(&record->queues[0], sizeof record->queues[0]);
    for (size_t q = 1; q <= LINGUASTEL_QUEUES; q++) {
        LinguastelQueue *queue = &record->queues[q];
        for (size_t i = queue->ring.count; i < LINGUASTEL_WORDS; i++) {
            queue->ring.words[(queue->ring.head + i) % LINGUASTEL_WORDS] = noise();
        }
        queue->ring.spare = noise_byte();
        queue->spare = (uint16_t)noise();
        if (queue->defined == 0) {
            queue->ring.head = noise_byte();
            queue->ring.capacity = noise_byte();
            queue->attribute = noise_byte();
        }
    }
}

static void spoil_mailboxes(LinguastelRecord *record)
{
    fill_with_noise(&record->mailboxes[0], sizeof record->mailboxes[0]);
    for (size_t b = 1; b <= LINGUASTEL_MAILBOXES; b++) {
        LinguastelMailbox *mailbox = &record->mailboxes[b];
        if (mailbox->defined == 0) {
            mailbox->attribute = noise_byte();
        }
        if (mailbox->defined == 0 || mailbox->attribute < LINGUASTEL_TA_MPRI) {
            mailbox->highest = noise_byte();
        }
    }
}

/* A message that is queued keeps its link, and its priority where the mailbox has attribute 2. */
static void spoil_messages(LinguastelRecord *record)
{
    bool queued[LINGUASTEL_MESSAGES + 1] = { false };
    bool ranked[LINGUASTEL_MESSAGES + 1] = { false };
    for (size_t b = 1; b <= LINGUASTEL_MAILBOXES; b++) {
        for (uint8_t g = record->messages.link[LINGUASTEL_HEADS_OF_MESSAGES + b]; g != 0; g = record->messages.link[g]) {
            queued[g] = true;
            ranked[g] = record->mailboxes[b].attribute >= LINGUASTEL_TA_MPRI;
        }
    }
    for (size_t g = 0; g <= LINGUASTEL_MESSAGES; g++) {
        if (!queued[g]) {
            record->messages.link[g] = noise_byte();
        }
        if (!ranked[g]) {
            record->messages.key[g] = noise_byte();
        }
    }
}

static void spoil_unused(LinguastelRecord *record)
{
    spoil_tasks(record);
    spoil_queues(record);
    spoil_messages(record);
    spoil_mailboxes(record);
    record->waiting.link[0] = noise_byte();
    record->waiting.key[0] = noise_byte();
    fill_with_noise(&record->waiting.key[LINGUASTEL_TASKS + 1], sizeof record->waiting.key - LINGUASTEL_TASKS - 1);
    record->spare = noise_byte();
}

/* ---- Memory that may only be read, or not past its edge ---- */

/* What is lent stands at the start or at the end of a page. The pages on either side may not even be read. */
typedef enum { AT_START, AT_END } Place;

static uint8_t *record_page, *calls_page, *cells_page;
static size_t page_size;

static uint8_t *new_page(void)
{
    page_size = (size_t)sysconf(_SC_PAGESIZE);
    void *pages = mmap(NULL, 3 * page_size, PROT_NONE, MAP_PRIVATE | MAP_ANONYMOUS, -1, 0);
    if (pages == MAP_FAILED) {
        perror("mmap");
        exit(EXIT_FAILURE);
    }
    return (uint8_t *)pages + page_size;
}

static void allow(uint8_t *page, int access)
{
    if (mprotect(page, page_size, access) != 0) {
        perror("mprotect");
        exit(EXIT_FAILURE);
    }
}

static void *lend(uint8_t *page, Place place, int access, const void *content, size_t size)
{
    void *lent = page + (place == AT_END ? page_size - size : 0);
    allow(page, PROT_READ | PROT_WRITE);
    memcpy(lent, content, size);
    allow(page, access);
    return lent;
}

static LinguastelRecord *read_only(const LinguastelRecord *content, Place place)
{
    return lend(record_page, place, PROT_READ, content, sizeof *content);
}

static sigjmp_buf back;

static void go_back(int number)
{
    (void)number;
    siglongjmp(back, 1);
}

/* Whether the act touches memory that it may not touch; it isn't finished then. */
static bool is_caught(void (*act)(void *), void *with)
{
    struct sigaction catch, before;
    memset(&catch, 0, sizeof catch);
    catch.sa_handler = go_back;
    sigaction(SIGSEGV, &catch, &before);
    volatile bool caught = true;
    if (sigsetjmp(back, 1) == 0) {
        act(with);
        caught = false;
    }
    sigaction(SIGSEGV, &before, NULL);
    return caught;
}

typedef struct {
    LinguastelRecord *record;
    LinguastelCall call;
    LinguastelAnswer answer;
} Single;

static void make_single(void *with)
{
    Single *single = with;
    single->answer = linguastel_call(single->record, single->call);
}

/* The call gives this answer and writes nothing into such a record. */
static void check_writes_nothing(const LinguastelRecord *record, LinguastelCall call, LinguastelAnswer expected, const char *what)
{
    for (Place place = AT_START; place <= AT_END; place++) {
        Single single = { .record = read_only(record, place), .call = call };
        check(!is_caught(make_single, &single), what);
        check(same_answer(single.answer, expected), what);
    }
}

static bool only_reads(uint32_t number)
{
    return number == LINGUASTEL_REF_DTQ || number == LINGUASTEL_REF_MBX || number == LINGUASTEL_LOOK || number == LINGUASTEL_FETCH;
}

/* ---- Tables of calls ---- */

/* Two calls more than a table may have, and two cells more than that. */
enum { MOST_CALLS = LINGUASTEL_TABLE + 2, MOST_CELLS = MOST_CALLS + 2 };

typedef struct {
    LinguastelCall calls[MOST_CALLS];
    LinguastelAnswer cells[MOST_CELLS];
    /* What is handed over of them. */
    size_t call_count;
    size_t cell_count;
} Table;

/* Every byte of calls and answers belongs to a field. */
static bool same_calls(const Table *x, const Table *y)
{
    return memcmp(x->calls, y->calls, sizeof x->calls) == 0;
}

static bool same_cells_from(size_t first, const Table *x, const Table *y)
{
    return memcmp(&x->cells[first], &y->cells[first], (MOST_CELLS - first) * sizeof x->cells[0]) == 0;
}

/* Noise in all cells, so that it shows which of them are written. */
static int32_t hand_over(LinguastelRecord *record, Table *table, Table *before)
{
    fill_with_noise(table->cells, sizeof table->cells);
    *before = *table;
    return linguastel_table(record, table->calls, table->call_count, table->cells, table->cell_count);
}

/* Nothing is done: record, calls and cells keep every byte. */
static void check_table_refused(const LinguastelRecord *content, Table *table, int32_t code, const char *what)
{
    LinguastelRecord record = *content;
    Table before;
    check(hand_over(&record, table, &before) == code, what);
    check(same_record(&record, content), what);
    check(same_calls(table, &before), what);
    check(same_cells_from(0, table, &before), what);
}

/* Number 0 is no tick in a table. */
static LinguastelAnswer make_singly(LinguastelRecord *record, LinguastelCall call)
{
    return call.number == LINGUASTEL_TICK ? linguastel_refusal(LINGUASTEL_E_PAR) : linguastel_call(record, call);
}

/* Answers are those of the calls made singly on the twin, which means the same as the record; the other cells keep every byte. */
static void check_table_answered(LinguastelRecord *record, LinguastelRecord *twin, Table *table, const char *what)
{
    Table before;
    check(hand_over(record, table, &before) == LINGUASTEL_E_OK, what);
    for (size_t i = 0; i < table->call_count; i++) {
        check(same_answer(table->cells[i], make_singly(twin, table->calls[i])), what);
    }
    check(same_calls(table, &before), what);
    check(same_cells_from(table->call_count, table, &before), what);
}

/* The record comes from the empty one: it is that of the calls made singly even byte for byte. */
static void check_table_made(LinguastelRecord *record, Table *table, const char *what)
{
    LinguastelRecord twin = *record;
    check_table_answered(record, &twin, table, what);
    check(same_record(record, &twin), what);
}

/* ---- Groups: layout and pointers ---- */

static void test_layout(void)
{
    check(linguastel_record_size() == sizeof(LinguastelRecord), "the library's size of the record");
    check(linguastel_record_size() == LINGUASTEL_RECORD_SIZE, "the named size");
    check(linguastel_record_align() == _Alignof(LinguastelRecord), "the library's alignment of the record");
    check(linguastel_record_align() == LINGUASTEL_RECORD_ALIGN, "the named alignment");
}

static bool all_are(const uint8_t *bytes, size_t size, uint8_t value)
{
    for (size_t i = 0; i < size; i++) {
        if (bytes[i] != value) {
            return false;
        }
    }
    return true;
}

static void test_neighbours(void)
{
    static struct {
        uint8_t before[256];
        LinguastelRecord record;
        uint8_t after[256];
    } memory;
    memset(&memory, 0xA5, sizeof memory);
    must_be_e_ok(linguastel_empty(&memory.record));
    check(linguastel_sound(&memory.record), "the empty record is sound");
    make_typical(&memory.record);
    for (uint32_t number = 0; number <= LINGUASTEL_LAST_CALL + 1; number++) {
        LinguastelCall call = { .number = number, .caller = 3, .object = 3, .value = 5, .attribute = 1, .tmout = 0 };
        must_be_whole(linguastel_call(&memory.record, call));
    }
    must_be_ok(linguastel_tick(&memory.record));
    check(linguastel_sound(&memory.record), "the record is sound after all calls");
    fill_with_noise(&memory.record, sizeof memory.record);
    check_refused(linguastel_tick(&memory.record), LINGUASTEL_E_SYS, "the tick on noise");
    check(all_are(memory.before, sizeof memory.before, 0xA5), "the bytes before the record");
    check(all_are(memory.after, sizeof memory.after, 0xA5), "the bytes after the record");
}

/* Pointers to a table: null, aligned, and by so many bytes misaligned. */
enum { NO_POINTER, ALIGNED, BY_1, BY_2, BY_3, POINTERS };

static void *pointer_to(void *memory, unsigned kind)
{
    return kind == NO_POINTER ? NULL : (uint8_t *)memory + (kind - ALIGNED);
}

static bool leads_to_table(unsigned kind, size_t count)
{
    return kind == ALIGNED || (kind == NO_POINTER && count == 0);
}

/* With these pointers and counts. E_SYS comes first, where the record's pointer leads to no sound record. The calls' answers are E_ID. */
static void check_table_pointer(LinguastelRecord *record, bool sound, unsigned of_calls, size_t call_count, unsigned of_cells, size_t cell_count)
{
    Table table = { .calls = { { .number = LINGUASTEL_LOOK }, { .number = LINGUASTEL_LOOK } } };
    fill_with_noise(table.cells, sizeof table.cells);
    Table before = table;
    bool fit = leads_to_table(of_calls, call_count) && leads_to_table(of_cells, cell_count) && call_count <= cell_count;
    int32_t expected = !sound ? LINGUASTEL_E_SYS : fit ? LINGUASTEL_E_OK : LINGUASTEL_E_PAR;
    int32_t code = linguastel_table(record, pointer_to(table.calls, of_calls), call_count, pointer_to(table.cells, of_cells), cell_count);
    check(code == expected, "the code of a table at these pointers");
    size_t made = expected == LINGUASTEL_E_OK ? call_count : 0;
    for (size_t i = 0; i < made; i++) {
        check_refused(table.cells[i], LINGUASTEL_E_ID, "the answer in a table at these pointers");
    }
    check(same_calls(&table, &before), "the calls of a table at these pointers");
    check(same_cells_from(made, &table, &before), "the cells past the calls of a table at these pointers");
}

static void check_table_pointers(LinguastelRecord *record, bool sound)
{
    for (unsigned i = 0; i < POINTERS * POINTERS; i++) {
        for (size_t counts = 0; counts < 9; counts++) {
            check_table_pointer(record, sound, i % POINTERS, counts % 3, i / POINTERS, counts / 3);
        }
    }
}

static void test_table_pointers(void)
{
    LinguastelRecord record, unsound;
    make_typical(&record);
    LinguastelRecord before = record;
    check_table_pointers(&record, true);
    check(same_record(&record, &before), "the record");
    fill_with_noise(&unsound, sizeof unsound);
    before = unsound;
    check_table_pointers(&unsound, false);
    check(same_record(&unsound, &before), "the record that isn't sound");
}

/* ---- Groups: every function that is given a record, with a pointer that leads to none ---- */

/* The code of an answer without place and words; a number that no code has where it isn't such an answer. */
enum { NO_REFUSAL = 2 };

static int64_t refused_with(LinguastelAnswer answer)
{
    return same_answer(answer, linguastel_refusal(answer.code)) ? answer.code : NO_REFUSAL;
}

#define BY_NUMBER(call_number) linguastel_call(pointer, (LinguastelCall){ .number = (call_number) })
#define BY_TASK linguastel_as_task(3)

/* Name, what is asked, and whether it is an answer or code (SYS), an answer refused in step 0 (PAR), or yes or no, a mask or a number (NONE). */
#define ASKED(ASK) \
    ASK(empty, linguastel_empty(pointer), SYS) \
    ASK(call_0, refused_with(BY_NUMBER(LINGUASTEL_TICK)), SYS) \
    ASK(call_23, refused_with(BY_NUMBER(LINGUASTEL_LAST_CALL)), SYS) \
    ASK(call_24, refused_with(BY_NUMBER(LINGUASTEL_LAST_CALL + 1)), PAR) \
    ASK(call_4294967295, refused_with(BY_NUMBER(UINT32_MAX)), PAR) \
    ASK(tick, refused_with(linguastel_tick(pointer)), SYS) \
    ASK(look_only, refused_with(linguastel_look_only(pointer, 3)), SYS) \
    ASK(make_call, refused_with(linguastel_make_call(pointer, BY_TASK, LINGUASTEL_LOOK, 3, 0, 0, 0)), SYS) \
    ASK(define_task, refused_with(linguastel_define_task(pointer, BY_TASK, 9, 5)), SYS) \
    ASK(cre_dtq, refused_with(linguastel_cre_dtq(pointer, BY_TASK, 9, 0, 5)), SYS) \
    ASK(del_dtq, refused_with(linguastel_del_dtq(pointer, BY_TASK, 1)), SYS) \
    ASK(snd_dtq, refused_with(linguastel_snd_dtq(pointer, BY_TASK, 1, 10)), SYS) \
    ASK(psnd_dtq, refused_with(linguastel_psnd_dtq(pointer, BY_TASK, 1, 10)), SYS) \
    ASK(tsnd_dtq, refused_with(linguastel_tsnd_dtq(pointer, BY_TASK, 1, 10, 5)), SYS) \
    ASK(fsnd_dtq, refused_with(linguastel_fsnd_dtq(pointer, BY_TASK, 1, 10)), SYS) \
    ASK(rcv_dtq, refused_with(linguastel_rcv_dtq(pointer, BY_TASK, 2)), SYS) \
    ASK(prcv_dtq, refused_with(linguastel_prcv_dtq(pointer, BY_TASK, 2)), SYS) \
    ASK(trcv_dtq, refused_with(linguastel_trcv_dtq(pointer, BY_TASK, 2, 5)), SYS) \
    ASK(ref_dtq, refused_with(linguastel_ref_dtq(pointer, BY_TASK, 1)), SYS) \
    ASK(cre_mbx, refused_with(linguastel_cre_mbx(pointer, BY_TASK, 9, 0, 0)), SYS) \
    ASK(del_mbx, refused_with(linguastel_del_mbx(pointer, BY_TASK, 1)), SYS) \
    ASK(snd_mbx, refused_with(linguastel_snd_mbx(pointer, BY_TASK, 1, 5, 1)), SYS) \
    ASK(rcv_mbx, refused_with(linguastel_rcv_mbx(pointer, BY_TASK, 2)), SYS) \
    ASK(prcv_mbx, refused_with(linguastel_prcv_mbx(pointer, BY_TASK, 2)), SYS) \
    ASK(trcv_mbx, refused_with(linguastel_trcv_mbx(pointer, BY_TASK, 2, 5)), SYS) \
    ASK(ref_mbx, refused_with(linguastel_ref_mbx(pointer, BY_TASK, 1)), SYS) \
    ASK(rel_wai, refused_with(linguastel_rel_wai(pointer, BY_TASK, 1)), SYS) \
    ASK(sus_tsk, refused_with(linguastel_sus_tsk(pointer, BY_TASK, 1)), SYS) \
    ASK(rsm_tsk, refused_with(linguastel_rsm_tsk(pointer, BY_TASK, 1)), SYS) \
    ASK(look, refused_with(linguastel_look(pointer, BY_TASK, 1)), SYS) \
    ASK(fetch, refused_with(linguastel_fetch(pointer, BY_TASK, 3)), SYS) \
    ASK(idefine_task, refused_with(linguastel_idefine_task(pointer, 9, 5)), SYS) \
    ASK(icre_dtq, refused_with(linguastel_icre_dtq(pointer, 9, 0, 5)), SYS) \
    ASK(ipsnd_dtq, refused_with(linguastel_ipsnd_dtq(pointer, 1, 10)), SYS) \
    ASK(ifsnd_dtq, refused_with(linguastel_ifsnd_dtq(pointer, 1, 10)), SYS) \
    ASK(iprcv_dtq, refused_with(linguastel_iprcv_dtq(pointer, 2)), SYS) \
    ASK(iref_dtq, refused_with(linguastel_iref_dtq(pointer, 1)), SYS) \
    ASK(icre_mbx, refused_with(linguastel_icre_mbx(pointer, 9, 0, 0)), SYS) \
    ASK(isnd_mbx, refused_with(linguastel_isnd_mbx(pointer, 1, 5, 1)), SYS) \
    ASK(iprcv_mbx, refused_with(linguastel_iprcv_mbx(pointer, 2)), SYS) \
    ASK(iref_mbx, refused_with(linguastel_iref_mbx(pointer, 1)), SYS) \
    ASK(irel_wai, refused_with(linguastel_irel_wai(pointer, 1)), SYS) \
    ASK(isus_tsk, refused_with(linguastel_isus_tsk(pointer, 1)), SYS) \
    ASK(irsm_tsk, refused_with(linguastel_irsm_tsk(pointer, 1)), SYS) \
    ASK(ilook, refused_with(linguastel_ilook(pointer, 1)), SYS) \
    ASK(ifetch, refused_with(linguastel_ifetch(pointer, 3)), SYS) \
    ASK(table, linguastel_table(pointer, NULL, 0, NULL, 0), SYS) \
    ASK(pointer_fits, linguastel_pointer_fits(pointer), NONE) \
    ASK(sound, linguastel_sound(pointer), NONE) \
    ASK(waiting, linguastel_waiting(pointer), NONE) \
    ASK(runnable, linguastel_runnable(pointer), NONE) \
    ASK(first_sender, linguastel_first_sender(pointer, 2), NONE) \
    ASK(first_receiver, linguastel_first_receiver(pointer, 1), NONE) \
    ASK(first_waiter, linguastel_first_waiter(pointer, 1), NONE) \
    ASK(next_task, linguastel_next_task(pointer, 5), NONE) \
    ASK(first_message, linguastel_first_message(pointer, 2), NONE) \
    ASK(next_message, linguastel_next_message(pointer, 33), NONE) \
    ASK(word_count, linguastel_word_count(pointer, 2), NONE) \
    ASK(word, linguastel_word(pointer, 2, 0), NONE)

typedef enum { SYS = LINGUASTEL_E_SYS, PAR = LINGUASTEL_E_PAR, NONE = 0 } Refusal;

#define ASK_FUNCTION(name, asked, refusal) \
    static int64_t ask_##name(LinguastelRecord *pointer) \
    { \
        return (asked); \
    }
ASKED(ASK_FUNCTION)
#undef ASK_FUNCTION

#define ASK_ROW(name, asked, refusal) { #name, ask_##name, refusal },
static const struct {
    const char *what;
    int64_t (*ask)(LinguastelRecord *pointer);
    Refusal refusal;
} asked_of_pointers[] = { ASKED(ASK_ROW) };
#undef ASK_ROW
#undef ASKED
#undef BY_NUMBER
#undef BY_TASK

/* What linguastel_print writes of a record. */
static void check_prints(const LinguastelRecord *record, const char *expected)
{
    char text[64] = "";
    FILE *file = tmpfile();
    check(file != NULL, "a file to print into");
    if (file == NULL) {
        return;
    }
    linguastel_print(file, record);
    rewind(file);
    size_t size = fread(text, 1, sizeof text - 1, file);
    check(size == strlen(expected) && strcmp(text, expected) == 0, "what is printed of a record");
    fclose(file);
}

static void check_no_record(LinguastelRecord *pointer)
{
    for (size_t i = 0; i < LENGTH(asked_of_pointers); i++) {
        check(asked_of_pointers[i].ask(pointer) == asked_of_pointers[i].refusal, asked_of_pointers[i].what);
    }
    check_table_pointers(pointer, false);
    linguastel_print(NULL, pointer);
}

/* Behind the right pointer most of what is asked has another answer, so that the rows above say something. */
static void check_asked_of_record(const LinguastelRecord *content)
{
    size_t alike = 0;
    for (size_t i = 0; i < LENGTH(asked_of_pointers); i++) {
        LinguastelRecord record = *content;
        alike += asked_of_pointers[i].ask(&record) == asked_of_pointers[i].refusal;
    }
    check(alike == 2, "numbers 24 and 4294967295 alone are answered alike with a record");
}

/* The typical record, with task 5 waiting to send before task 4 and task 6 behind it. */
static void make_pointed_at(LinguastelRecord *record)
{
    make_typical(record);
    must_be_ok(linguastel_idefine_task(record, 5, 1));
    must_be_ok(linguastel_idefine_task(record, 6, 16));
    must_wait(linguastel_snd_dtq(record, linguastel_as_task(5), 2, 45));
    must_wait(linguastel_snd_dtq(record, linguastel_as_task(6), 2, 46));
    must_be_ok(linguastel_isus_tsk(record, 6));
}

/* Behind a misaligned pointer stands a sound record, so that nothing but the pointer is wrong. */
static void test_pointers(void)
{
    static _Alignas(LinguastelRecord) uint8_t memory[LINGUASTEL_RECORD_SIZE + LINGUASTEL_RECORD_ALIGN];
    static uint8_t before[sizeof memory];
    LinguastelRecord record;
    make_pointed_at(&record);
    check_asked_of_record(&record);
    check_no_record(NULL);
    check(linguastel_sys_cause(NULL, 0) == LINGUASTEL_CAUSE_NULL, "the cause of null");
    check_prints(NULL, "null\n");
    for (size_t offset = 1; offset < LINGUASTEL_RECORD_ALIGN; offset++) {
        LinguastelRecord *pointer = (LinguastelRecord *)(void *)(memory + offset);
        memcpy(memory + offset, &record, sizeof record);
        memcpy(before, memory, sizeof memory);
        check_no_record(pointer);
        check(linguastel_sys_cause(pointer, 0) == LINGUASTEL_CAUSE_MISALIGNED, "the cause of a misaligned pointer");
        check_prints(pointer, "misaligned\n");
        check(memcmp(memory, before, sizeof memory) == 0, "no memory is touched");
    }
}

/* ---- Groups: numbers ---- */

/* No task, object or message has such a number. As a byte, 257 and 65537 would be 1. */
static const uint32_t too_large[] = { 65, 254, 255, 256, 257, 300, 65537, 4294967295 };

static void test_callers_and_objects(void)
{
    LinguastelRecord record, before;
    make_typical(&record);
    before = record;
    check_refused(linguastel_ref_dtq(&record, linguastel_as_task(33), 1), LINGUASTEL_E_SYS, "caller 33");
    for (size_t i = 0; i < LENGTH(too_large); i++) {
        check_refused(linguastel_ref_dtq(&record, linguastel_as_task(too_large[i]), 1), LINGUASTEL_E_SYS, "caller");
        check_refused(linguastel_ilook(&record, too_large[i]), LINGUASTEL_E_ID, "task");
        check_refused(linguastel_iref_dtq(&record, too_large[i]), LINGUASTEL_E_ID, "data queue");
        check_refused(linguastel_iref_mbx(&record, too_large[i]), LINGUASTEL_E_ID, "mailbox");
        check_refused(linguastel_isnd_mbx(&record, 2, too_large[i], 1), LINGUASTEL_E_PAR, "message");
        check_refused(linguastel_icre_dtq(&record, 3, LINGUASTEL_TA_TFIFO, too_large[i]), LINGUASTEL_E_PAR, "capacity");
        check_refused(linguastel_icre_dtq(&record, 3, too_large[i], 1), LINGUASTEL_E_PAR, "attribute");
        check_refused(linguastel_idefine_task(&record, 5, too_large[i]), LINGUASTEL_E_PAR, "priority");
    }
    check(same_record(&record, &before), "no byte changes");
}

static void test_unknown_numbers(void)
{
    static const uint32_t unknown[] = { 24, 255, 256, 257, 279, 4294967295 };
    LinguastelRecord sound, unsound;
    make_typical(&sound);
    fill_with_noise(&unsound, sizeof unsound);
    for (size_t i = 0; i < LENGTH(unknown); i++) {
        LinguastelCall call = { .number = unknown[i], .caller = 77, .locked = 1 };
        check_writes_nothing(&sound, call, linguastel_refusal(LINGUASTEL_E_PAR), "a sound record");
        check_writes_nothing(&unsound, call, linguastel_refusal(LINGUASTEL_E_PAR), "a record that isn't sound");
    }
}

static void test_locked_and_disabled(void)
{
    static const uint32_t yes[] = { 1, 2, 256, 65536, 2147483648, 4294967295 };
    LinguastelRecord record;
    make_typical(&record);
    for (size_t i = 0; i < LENGTH(yes); i++) {
        LinguastelCall locked = { .number = LINGUASTEL_REF_DTQ, .caller = 3, .locked = yes[i], .object = 1 };
        LinguastelCall disabled = { .number = LINGUASTEL_RCV_DTQ, .caller = 3, .disabled = yes[i], .object = 1 };
        check_refused(linguastel_call(&record, locked), LINGUASTEL_E_CTX, "locked");
        check_refused(linguastel_call(&record, disabled), LINGUASTEL_E_CTX, "disabled");
    }
}

/* ---- Groups: records that aren't sound ---- */

/* E_SYS comes first: also with an empty table, with one that is too long, and with too few cells. */
static void check_unsound_tables(const LinguastelRecord *record, const char *what)
{
    static const size_t counts[][2] = { { 0, 0 }, { 0, 1 }, { 1, 0 }, { 1, 1 }, { 64, 63 }, { 64, 64 }, { 65, 64 }, { 65, 65 }, { 66, 68 } };
    for (size_t i = 0; i < LENGTH(counts); i++) {
        Table table = { .calls = { { .number = LINGUASTEL_PSND_DTQ, .object = 1 } }, .call_count = counts[i][0], .cell_count = counts[i][1] };
        check_table_refused(record, &table, LINGUASTEL_E_SYS, what);
    }
}

/* Every call of a known number is refused and writes nothing; number 0 is the tick. A table is refused. */
static void check_unsound(const LinguastelRecord *record, const char *what)
{
    check(!linguastel_sound(record), what);
    for (uint32_t number = 0; number <= LINGUASTEL_LAST_CALL; number++) {
        LinguastelCall call = { .number = number, .object = 1, .value = 1 };
        check_writes_nothing(record, call, linguastel_refusal(LINGUASTEL_E_SYS), what);
    }
    check_unsound_tables(record, what);
}

static void test_random_bytes(void)
{
    LinguastelRecord record;
    for (int i = 0; i < 50; i++) {
        fill_with_noise(&record, sizeof record);
        check_unsound(&record, "random bytes");
    }
    memset(&record, 0xFF, sizeof record);
    check_unsound(&record, "all bits set");
}

typedef struct {
    size_t offset;
    uint8_t value;
    const char *what;
} Fault;

#define AT(place) offsetof(LinguastelRecord, place)

static const Fault faults[] = {
    { AT(tasks[3].flags), 4, "flags 4" },
    { AT(tasks[9].flags), 2, "an undefined task is suspended" },
    { AT(tasks[3].wait), 4, "wait 4" },
    { AT(tasks[3].wait), 255, "wait 255" },
    { AT(tasks[3].wait), 1, "a wait in no chain" },
    { AT(tasks[1].wait), 0, "no wait in a chain" },
    { AT(tasks[1].timed), 2, "timed 2 with a wait" },
    { AT(tasks[2].timed), 1, "an end tick that isn't ahead" },
    { AT(tasks[1].object), 17, "a wait at data queue 17" },
    { AT(tasks[3].code), 6, "stored code 6" },
    { AT(tasks[3].code), 5, "stored code 5" },
    { AT(queues[1].defined), 2, "data queue defined 2" },
    { AT(queues[7].defined), 2, "undefined data queue defined 2" },
    { AT(queues[2].defined), 0, "words in an undefined data queue" },
    { AT(queues[1].attribute), 2, "data queue attribute 2" },
    { AT(queues[1].ring.head), 16, "ring head 16" },
    { AT(queues[2].ring.count), 4, "more words than the capacity" },
    { AT(queues[1].ring.capacity), 17, "capacity 17" },
    { AT(mailboxes[1].defined), 77, "mailbox defined 77" },
    { AT(mailboxes[5].defined), 77, "undefined mailbox defined 77" },
    { AT(mailboxes[2].attribute), 4, "mailbox attribute 4" },
    { AT(mailboxes[2].highest), 8, "a message priority above the highest" },
    { AT(waiting.key[3]), 17, "task priority 17" },
    { AT(waiting.key[3]), 0, "task priority 0" },
    { AT(waiting.link[1]), 1, "a chain that comes round" },
    { AT(waiting.link[LINGUASTEL_HEADS_OF_SENDERS + 5]), 3, "an able task in a chain" },
    { AT(messages.link[LINGUASTEL_HEADS_OF_MESSAGES + 1]), 33, "a message in two mailboxes" },
};

static void test_faults(void)
{
    LinguastelRecord typical, record;
    make_typical(&typical);
    check(linguastel_sound(&typical), "the record without a fault");
    for (size_t i = 0; i < LENGTH(faults); i++) {
        record = typical;
        ((uint8_t *)&record)[faults[i].offset] = faults[i].value;
        check_unsound(&record, faults[i].what);
    }
}
#undef AT

/* A task's flags are 0, 1 or 3, in all of their 32 bits. */
static void test_damaged_flags(void)
{
    static const uint32_t damaged[] = { 2, 4, 5, 255, 256, 257, 0x00010001, 0x00030000, 0x01000001, 0x03000000, 0x80000001, 0xfffffffe, 0xffffffff };
    LinguastelRecord typical, record;
    make_typical(&typical);
    for (size_t t = 1; t <= LINGUASTEL_TASKS; t++) {
        for (size_t i = 0; i < LENGTH(damaged); i++) {
            record = typical;
            record.tasks[t].flags = damaged[i];
            check_unsound(&record, "damaged flags");
        }
    }
}

/* ---- Groups: what calls write ---- */

/* The typical record with a data queue of capacity 0, a suspended task, and tasks 5 to 7 whose waits ended. */
static void make_various(LinguastelRecord *record)
{
    make_typical(record);
    must_be_ok(linguastel_icre_dtq(record, 3, LINGUASTEL_TA_TFIFO, 0));
    must_be_ok(linguastel_icre_dtq(record, 4, LINGUASTEL_TA_TFIFO, 1));
    must_be_ok(linguastel_isus_tsk(record, 2));
    for (uint32_t task = 5; task <= 7; task++) {
        must_be_ok(linguastel_idefine_task(record, task, 1));
        must_wait(linguastel_trcv_dtq(record, linguastel_as_task(task), 4, task == 6 ? 1 : LINGUASTEL_TMO_FEVR));
    }
    must_be_ok(linguastel_irel_wai(record, 5));
    must_be_ok(linguastel_tick(record));
    must_be_ok(linguastel_tick(record));
    must_be_ok(linguastel_del_dtq(record, linguastel_as_task(3), 4));
}

typedef struct {
    LinguastelCall call;
    int32_t code;
    const char *what;
} Without;

static const Without refused[] = {
    { { .number = LINGUASTEL_LAST_CALL + 1 }, LINGUASTEL_E_PAR, "E_PAR: an unknown number" },
    { { .number = LINGUASTEL_REF_DTQ, .caller = 33, .object = 1 }, LINGUASTEL_E_SYS, "E_SYS: a caller that nobody is" },
    { { .number = LINGUASTEL_SND_DTQ, .caller = 1, .object = 1 }, LINGUASTEL_E_SYS, "E_SYS: a caller that waits" },
    { { .number = LINGUASTEL_PSND_DTQ, .caller = 3, .locked = 1, .object = 1 }, LINGUASTEL_E_CTX, "E_CTX: locked" },
    { { .number = LINGUASTEL_RCV_DTQ, .object = 1 }, LINGUASTEL_E_CTX, "E_CTX: a handler" },
    { { .number = LINGUASTEL_PSND_DTQ, .object = 17, .value = 5 }, LINGUASTEL_E_ID, "E_ID" },
    { { .number = LINGUASTEL_CRE_DTQ, .object = 5, .value = 17 }, LINGUASTEL_E_PAR, "E_PAR: a capacity" },
    { { .number = LINGUASTEL_TRCV_DTQ, .caller = 3, .object = 1, .tmout = -2 }, LINGUASTEL_E_PAR, "E_PAR: a tmout" },
    { { .number = LINGUASTEL_FSND_DTQ, .object = 4, .value = 5 }, LINGUASTEL_E_NOEXS, "E_NOEXS" },
    { { .number = LINGUASTEL_SND_MBX, .object = 2, .value = 1, .attribute = 10 }, LINGUASTEL_E_PAR, "E_PAR: above the highest message priority" },
    { { .number = LINGUASTEL_SND_MBX, .object = 2, .value = 33, .attribute = 1 }, LINGUASTEL_E_OBJ, "E_OBJ: a queued message" },
    { { .number = LINGUASTEL_DEFINE_TASK, .object = 3, .value = 5 }, LINGUASTEL_E_OBJ, "E_OBJ: a defined task" },
    { { .number = LINGUASTEL_FETCH, .object = 1 }, LINGUASTEL_E_OBJ, "E_OBJ: fetch of a waiting task" },
    { { .number = LINGUASTEL_SUS_TSK, .object = 2 }, LINGUASTEL_E_QOVR, "E_QOVR" },
    { { .number = LINGUASTEL_FSND_DTQ, .object = 3, .value = 5 }, LINGUASTEL_E_ILUSE, "E_ILUSE" },
    { { .number = LINGUASTEL_PSND_DTQ, .object = 2, .value = 5 }, LINGUASTEL_E_TMOUT, "E_TMOUT: a poll" },
    { { .number = LINGUASTEL_TRCV_MBX, .caller = 3, .object = 1 }, LINGUASTEL_E_TMOUT, "E_TMOUT: tmout 0" },
};

static const Without reading[] = {
    { { .number = LINGUASTEL_LOOK, .object = 1 }, LINGUASTEL_E_OK, "look" },
    { { .number = LINGUASTEL_REF_DTQ, .object = 2 }, LINGUASTEL_E_OK, "ref_dtq" },
    { { .number = LINGUASTEL_REF_MBX, .object = 2 }, LINGUASTEL_E_OK, "ref_mbx" },
    { { .number = LINGUASTEL_FETCH, .object = 3 }, LINGUASTEL_E_OK, "fetch" },
    { { .number = LINGUASTEL_FETCH, .object = 5 }, LINGUASTEL_E_RLWAI, "fetch of a released wait" },
    { { .number = LINGUASTEL_FETCH, .object = 6 }, LINGUASTEL_E_TMOUT, "fetch of a wait whose time was over" },
    { { .number = LINGUASTEL_FETCH, .object = 7 }, LINGUASTEL_E_DLT, "fetch of a wait at what was deleted" },
};

static void check_without_change(const LinguastelRecord *various, const Without *row)
{
    LinguastelRecord record = *various;
    LinguastelAnswer answer = linguastel_call(&record, row->call);
    check(answer.kind == LINGUASTEL_FINISHED && answer.code == row->code, row->what);
    check(same_record(&record, various), row->what);
    check_writes_nothing(various, row->call, answer, row->what);
}

static void test_writes_nothing(void)
{
    LinguastelRecord various;
    make_various(&various);
    for (size_t i = 0; i < LENGTH(refused); i++) {
        check_without_change(&various, &refused[i]);
    }
    for (size_t i = 0; i < LENGTH(reading); i++) {
        check_without_change(&various, &reading[i]);
    }
    Single tick = { .record = read_only(&various, AT_START), .call = { .number = LINGUASTEL_TICK } };
    check(is_caught(make_single, &tick), "a call that writes is caught");
}

/* Few tasks, objects and messages, so that they meet. */
static LinguastelCall random_call(void)
{
    LinguastelCall call = { .number = noise_below(LINGUASTEL_LAST_CALL + 1) };
    call.caller = noise_below(8);
    call.object = 1 + noise_below(4);
    call.value = noise_below(17);
    call.attribute = noise_below(4);
    call.tmout = (int32_t)noise_below(8) - 1;
    return call;
}

/* ---- Groups: bytes of the stack ---- */

/* Leaves this byte all over the stack below the caller, where the next call has its locals; a call, a table and a block use less than half of that. */
enum { PAINTED = 65536 };

static __attribute__((noinline)) void paint_stack(uint8_t byte)
{
    volatile uint8_t below[PAINTED];
    for (size_t i = 0; i < LENGTH(below); i++) {
        below[i] = byte;
    }
}

/* Neither byte stands in the records, calls and blocks of these tests. */
static const uint8_t paints[] = { 0xa5, 0x5a };

/* Whether that byte stands there: below the frame of a function that is called now. */
static __attribute__((noinline)) bool is_painted(uint8_t byte)
{
    const volatile uint8_t *frame = __builtin_frame_address(0);
    bool painted = true;
    for (size_t depth = 1024; depth <= PAINTED / 2; depth++) {
        painted = painted && *(frame - depth) == byte;
    }
    return painted;
}

static void test_paint(void)
{
    for (size_t i = 0; i < LENGTH(paints); i++) {
        paint_stack(paints[i]);
        check(is_painted(paints[i]), "the stack is painted where a call has its locals");
        check(!is_painted((uint8_t)~paints[i]), "and with no other byte");
    }
}

static bool has_paint(const void *memory, size_t size)
{
    const uint8_t *bytes = memory;
    return memchr(bytes, paints[0], size) != NULL || memchr(bytes, paints[1], size) != NULL;
}

/* On the record of make_various, a call of each number that is accepted or waits, and of some numbers more than one. */
static const LinguastelCall not_refused[] = {
    { .number = LINGUASTEL_TICK },
    { .number = LINGUASTEL_DEFINE_TASK, .object = 8, .value = 5 },
    { .number = LINGUASTEL_CRE_DTQ, .object = 5, .value = 4, .attribute = LINGUASTEL_TA_TPRI },
    { .number = LINGUASTEL_DEL_DTQ, .caller = 3, .object = 2 },
    { .number = LINGUASTEL_SND_DTQ, .caller = 3, .object = 1, .value = 77 },
    { .number = LINGUASTEL_SND_DTQ, .caller = 3, .object = 3, .value = 77 },
    { .number = LINGUASTEL_PSND_DTQ, .object = 1, .value = 77 },
    { .number = LINGUASTEL_TSND_DTQ, .caller = 3, .object = 3, .value = 77, .tmout = 4 },
    { .number = LINGUASTEL_FSND_DTQ, .object = 2, .value = 77 },
    { .number = LINGUASTEL_RCV_DTQ, .caller = 3, .object = 2 },
    { .number = LINGUASTEL_RCV_DTQ, .caller = 3, .object = 3 },
    { .number = LINGUASTEL_PRCV_DTQ, .object = 2 },
    { .number = LINGUASTEL_TRCV_DTQ, .caller = 3, .object = 3, .tmout = 4 },
    { .number = LINGUASTEL_REF_DTQ, .object = 2 },
    { .number = LINGUASTEL_CRE_MBX, .object = 3, .value = 4, .attribute = LINGUASTEL_TA_MPRI },
    { .number = LINGUASTEL_DEL_MBX, .caller = 3, .object = 1 },
    { .number = LINGUASTEL_SND_MBX, .object = 1, .value = 6 },
    { .number = LINGUASTEL_SND_MBX, .object = 2, .value = 6, .attribute = 1 },
    { .number = LINGUASTEL_RCV_MBX, .caller = 3, .object = 2 },
    { .number = LINGUASTEL_RCV_MBX, .caller = 3, .object = 1 },
    { .number = LINGUASTEL_PRCV_MBX, .object = 2 },
    { .number = LINGUASTEL_TRCV_MBX, .caller = 3, .object = 1, .tmout = 4 },
    { .number = LINGUASTEL_REF_MBX, .object = 2 },
    { .number = LINGUASTEL_REL_WAI, .object = 1 },
    { .number = LINGUASTEL_SUS_TSK, .object = 3 },
    { .number = LINGUASTEL_RSM_TSK, .object = 2 },
    { .number = LINGUASTEL_LOOK, .object = 1 },
    { .number = LINGUASTEL_FETCH, .object = 5 },
};

/* The call with either paint: the same answer and the same record, byte for byte, and no byte of paint in them. */
static LinguastelAnswer check_call_on_paint(const LinguastelRecord *content, LinguastelCall call, const char *what)
{
    LinguastelRecord record = *content, twin = *content;
    paint_stack(paints[0]);
    LinguastelAnswer answer = linguastel_call(&record, call);
    paint_stack(paints[1]);
    LinguastelAnswer again = linguastel_call(&twin, call);
    check(same_answer(answer, again), what);
    check(same_record(&record, &twin), what);
    check(!has_paint(&record, sizeof record) && !has_paint(&answer, sizeof answer), what);
    return answer;
}

static void test_calls_on_paint(void)
{
    LinguastelRecord various;
    bool seen[LINGUASTEL_LAST_CALL + 1] = { false };
    make_various(&various);
    check(!has_paint(&various, sizeof various), "the record before the calls");
    for (size_t i = 0; i < LENGTH(not_refused); i++) {
        LinguastelAnswer answer = check_call_on_paint(&various, not_refused[i], linguastel_call_name(not_refused[i].number));
        bool reports = not_refused[i].number == LINGUASTEL_FETCH;
        check(linguastel_is_ok(answer) || linguastel_waits(answer) || reports, linguastel_call_name(not_refused[i].number));
        seen[not_refused[i].number] = true;
    }
    check(memchr(seen, false, sizeof seen) == NULL, "a call of each number");
    for (size_t i = 0; i < LENGTH(refused); i++) {
        check_refused(check_call_on_paint(&various, refused[i].call, refused[i].what), refused[i].code, refused[i].what);
    }
    various.counter = various.tasks[1].end - 1;
    check(check_call_on_paint(&various, not_refused[0], "a tick that ends a wait").a == 1, "a tick that ends a wait");
    memset(&various, 0xff, sizeof various);
    check_refused(check_call_on_paint(&various, not_refused[0], "not sound"), LINGUASTEL_E_SYS, "a record that isn't sound");
}

/* All calls of the two lists in one table, the cells being painted too before it. */
static void test_table_on_paint(void)
{
    LinguastelRecord records[LENGTH(paints)];
    Table tables[LENGTH(paints)];
    for (size_t i = 0; i < LENGTH(paints); i++) {
        Table *table = &tables[i];
        table->call_count = LENGTH(not_refused) + LENGTH(refused);
        table->cell_count = table->call_count;
        memset(table->calls, 0, sizeof table->calls);
        memset(table->cells, paints[i], sizeof table->cells);
        memcpy(table->calls, not_refused, sizeof not_refused);
        for (size_t k = 0; k < LENGTH(refused); k++) {
            table->calls[LENGTH(not_refused) + k] = refused[k].call;
        }
        make_various(&records[i]);
        paint_stack(paints[i]);
        check(linguastel_table(&records[i], table->calls, table->call_count, table->cells, table->cell_count) == LINGUASTEL_E_OK, "the table");
    }
    check(same_record(&records[0], &records[1]), "the record after the table");
    check(!has_paint(&records[0], sizeof records[0]), "a byte of the record comes from the stack");
    size_t size = tables[0].call_count * sizeof tables[0].cells[0];
    check(memcmp(tables[0].cells, tables[1].cells, size) == 0, "the answers");
    check(!has_paint(tables[0].cells, size), "a byte of an answer comes from the stack or from the cell");
}

static void empty_on_paint(LinguastelRecord *record, uint8_t byte)
{
    memset(record, byte, sizeof *record);
    paint_stack(byte);
    must_be_e_ok(linguastel_empty(record));
}

/* The same calls on two records from memory of either paint. Their numbers are small, and the counter stays so: a byte of paint would show. */
static void test_records_on_paint(void)
{
    LinguastelRecord record = { .counter = UINT32_MAX }, twin;
    unsigned records = 0;
    for (unsigned i = 0; i < 5000; i++) {
        if (record.counter > 64) {
            empty_on_paint(&record, paints[0]);
            empty_on_paint(&twin, paints[1]);
            check(same_record(&record, &twin), "the empty record");
            records++;
        }
        LinguastelCall call = random_call();
        paint_stack(paints[0]);
        LinguastelAnswer answer = linguastel_call(&record, call);
        paint_stack(paints[1]);
        check(same_answer(linguastel_call(&twin, call), answer), "the answer");
        check(same_record(&record, &twin) && !has_paint(&record, sizeof record), "a byte comes from the stack");
    }
    check(records > 1, "several records");
}

/* The same calls on two records, with other bytes on the stack: what a call leaves in a record doesn't come from there. */
static void test_stack(void)
{
    unsigned accepted[LINGUASTEL_LAST_CALL + 1] = { 0 };
    LinguastelRecord record, twin;
    empty_on_paint(&record, paints[0]);
    empty_on_paint(&twin, paints[1]);
    check(same_record(&record, &twin), "the empty record");
    for (unsigned i = 0; i < 20000; i++) {
        if (i % 8 == 0) {
            spoil_unused(&record);
            twin = record;
        }
        LinguastelCall call = random_call();
        paint_stack(paints[0]);
        LinguastelAnswer answer = linguastel_call(&record, call);
        paint_stack(paints[1]);
        check(same_answer(linguastel_call(&twin, call), answer), "the answer");
        check(same_record(&record, &twin), "a byte comes from the stack");
        accepted[call.number] += linguastel_is_ok(answer);
    }
    for (size_t number = 0; number < LENGTH(accepted); number++) {
        check(accepted[number] > 0, "a call of each number is accepted");
    }
    check(linguastel_sound(&record), "the record is sound after all calls");
}

/* ---- Masks, causes and iterators against the answers of calls ---- */

/* Masks and causes against look, for all tasks; the links of tasks that don't wait may be noise. */
static void check_masks(LinguastelRecord *record)
{
    uint32_t waiting = 0, runnable = 0;
    for (uint32_t task = 1; task <= LINGUASTEL_TASKS; task++) {
        LinguastelAnswer look = linguastel_ilook(record, task);
        LinguastelLooked looked = linguastel_looked(look);
        uint32_t bit = (uint32_t)1 << (task - 1);
        bool able = linguastel_is_ok(look) && looked.tskwait == LINGUASTEL_NO_WAIT && !looked.suspended;
        waiting |= looked.tskwait != LINGUASTEL_NO_WAIT ? bit : 0;
        runnable |= able ? bit : 0;
        LinguastelAnswer by_task = linguastel_look(record, linguastel_as_task(task), 1);
        check((linguastel_sys_cause(record, task) == LINGUASTEL_CAUSE_NONE) == (by_task.code != LINGUASTEL_E_SYS), "E_SYS has a cause");
        check(able == (by_task.code != LINGUASTEL_E_SYS), "a task that can run can call");
        check(looked.tskwait != LINGUASTEL_NO_WAIT || linguastel_next_task(record, task) == 0, "behind a task that doesn't wait is nobody");
    }
    check(linguastel_waiting(record) == waiting, "the tasks that wait are those that look says");
    check(linguastel_runnable(record) == runnable, "the tasks that can run are those that look says");
}

/* Receives until nothing is left: the stored words come first, then those of the senders, which are woken one by one. */
static void check_words(const LinguastelRecord *record, uint32_t queue)
{
    LinguastelRecord drained = *record;
    uint32_t count = linguastel_word_count(record, queue);
    for (uint32_t place = 0; place < count; place++) {
        LinguastelAnswer answer = linguastel_iprcv_dtq(&drained, queue);
        check(linguastel_is_ok(answer) && answer.a == linguastel_word(record, queue, place), "a stored word is the next that is received");
    }
    check(linguastel_word(record, queue, count) == 0, "no word behind the last");
    drained = *record;
    uint32_t woken = 0;
    for (uint32_t task = linguastel_first_sender(record, queue); task != 0; task = linguastel_next_task(record, task)) {
        check(linguastel_iref_dtq(&drained, queue).a == task, "the senders in their order");
        check(linguastel_is_ok(linguastel_iprcv_dtq(&drained, queue)), "a receive");
        woken |= linguastel_task_bit(task);
        check(linguastel_waiting(&drained) == (linguastel_waiting(record) & ~woken), "a receive wakes the first sender");
    }
    check(linguastel_iref_dtq(&drained, queue).a == LINGUASTEL_TSK_NONE, "no sender behind the last");
}

/* Sends a word to each receiver. */
static void check_receivers(const LinguastelRecord *record, uint32_t queue)
{
    LinguastelRecord served = *record;
    uint32_t word = 1000;
    for (uint32_t task = linguastel_first_receiver(record, queue); task != 0; task = linguastel_next_task(record, task)) {
        check(linguastel_is_ok(linguastel_ipsnd_dtq(&served, queue, word)), "a send");
        LinguastelAnswer fetched = linguastel_ifetch(&served, task);
        check(linguastel_is_ok(fetched) && fetched.a == word++, "the receivers in their order");
    }
    check(linguastel_iref_dtq(&served, queue).b == LINGUASTEL_TSK_NONE, "no receiver behind the last");
}

/* A message that is queued nowhere, or 0. */
static uint32_t free_message(const LinguastelRecord *record)
{
    bool queued[LINGUASTEL_MESSAGES + 1] = { true };
    for (uint32_t mailbox = 1; mailbox <= LINGUASTEL_MAILBOXES; mailbox++) {
        for (uint32_t message = linguastel_first_message(record, mailbox); message != 0; message = linguastel_next_message(record, message)) {
            queued[message] = true;
        }
    }
    uint32_t message = LINGUASTEL_MESSAGES;
    while (queued[message] && message > 0) {
        message--;
    }
    return message;
}

/* Receives every message, and sends one to each waiter. */
static void check_mailbox(const LinguastelRecord *record, uint32_t mailbox)
{
    LinguastelRecord drained = *record, served = *record;
    for (uint32_t message = linguastel_first_message(record, mailbox); message != 0; message = linguastel_next_message(record, message)) {
        LinguastelAnswer answer = linguastel_iprcv_mbx(&drained, mailbox);
        check(linguastel_is_ok(answer) && answer.a == message, "a queued message is the next that is received");
    }
    check(linguastel_iref_mbx(&drained, mailbox).b == 0, "no message behind the last");
    uint32_t message = free_message(record);
    for (uint32_t task = linguastel_first_waiter(record, mailbox); task != 0 && message != 0; task = linguastel_next_task(record, task)) {
        check(linguastel_is_ok(linguastel_isnd_mbx(&served, mailbox, message, 1)), "a message is sent");
        LinguastelAnswer fetched = linguastel_ifetch(&served, task);
        check(linguastel_is_ok(fetched) && fetched.a == message, "the waiters in their order");
    }
    check(message == 0 || linguastel_iref_mbx(&served, mailbox).a == LINGUASTEL_TSK_NONE, "no waiter behind the last");
}

/* Every task that waits stands in one wait queue. Gives those of a wait queue from this task on. */
static uint32_t tasks_from(const LinguastelRecord *record, uint32_t first)
{
    uint32_t tasks = 0;
    for (uint32_t task = first; task != 0; task = linguastel_next_task(record, task)) {
        check((tasks & linguastel_task_bit(task)) == 0, "a task waits once");
        tasks |= linguastel_task_bit(task);
    }
    return tasks;
}

/* The first of each and the counts against ref_dtq and ref_mbx, the rest against what receives and sends give. The record keeps every byte. */
static void check_views(LinguastelRecord *record)
{
    LinguastelRecord before = *record;
    uint32_t waiting = 0;
    check_masks(record);
    for (uint32_t object = 1; object <= LINGUASTEL_QUEUES; object++) {
        LinguastelRdtq rdtq = linguastel_rdtq(linguastel_iref_dtq(record, object));
        LinguastelRmbx rmbx = linguastel_rmbx(linguastel_iref_mbx(record, object));
        check(linguastel_first_sender(record, object) == rdtq.stskid, "the first sender");
        check(linguastel_first_receiver(record, object) == rdtq.rtskid, "the first receiver");
        check(linguastel_word_count(record, object) == rdtq.sdtqcnt, "the number of words");
        check(linguastel_first_waiter(record, object) == rmbx.wtskid, "the first waiter");
        check(linguastel_first_message(record, object) == rmbx.pk_msg, "the first message");
        waiting |= tasks_from(record, rdtq.stskid) | tasks_from(record, rdtq.rtskid) | tasks_from(record, rmbx.wtskid);
        if (record->queues[object].defined != 0) {
            check_words(record, object);
            check_receivers(record, object);
        }
        if (record->mailboxes[object].defined != 0) {
            check_mailbox(record, object);
        }
    }
    check(waiting == linguastel_waiting(record), "every task that waits is in a wait queue");
    check(same_record(record, &before), "reading leaves every byte");
}

/* ---- Groups: the record as C sees it ---- */

static uint32_t stored_word(const LinguastelRing *ring, size_t place)
{
    return ring->words[(ring->head + place) % LINGUASTEL_WORDS];
}

static void check_task_view(LinguastelRecord *record, uint32_t number)
{
    LinguastelTask task = record->tasks[number];
    LinguastelAnswer look = linguastel_ilook(record, number);
    LinguastelAnswer fetch = linguastel_ifetch(record, number);
    check(look.a == task.wait, "look's a");
    check(look.b == task.object, "look's b");
    check(look.c == (uint32_t)(task.flags == (LINGUASTEL_DEFINED | LINGUASTEL_SUSPENDED)), "look's c");
    if (task.wait == LINGUASTEL_NO_WAIT) {
        check(fetch.code == -(int32_t)task.code && fetch.a == task.word, "fetch");
    } else {
        check(fetch.code == LINGUASTEL_E_OBJ, "fetch of a waiting task");
    }
}

static void check_object_view(LinguastelRecord *record, uint32_t number)
{
    LinguastelAnswer queue = linguastel_iref_dtq(record, number);
    LinguastelAnswer mailbox = linguastel_iref_mbx(record, number);
    check(queue.a == record->waiting.link[LINGUASTEL_HEADS_OF_SENDERS + number], "ref_dtq's a");
    check(queue.b == record->waiting.link[LINGUASTEL_HEADS_OF_RECEIVERS + number], "ref_dtq's b");
    check(queue.c == record->queues[number].ring.count, "ref_dtq's c");
    check(mailbox.a == record->waiting.link[LINGUASTEL_HEADS_OF_WAITERS + number], "ref_mbx's a");
    check(mailbox.b == record->messages.link[LINGUASTEL_HEADS_OF_MESSAGES + number], "ref_mbx's b");
}

static void test_view(void)
{
    LinguastelRecord record;
    make_typical(&record);
    must_be_ok(linguastel_isus_tsk(&record, 2));
    must_be_ok(linguastel_irel_wai(&record, 2));
    for (uint32_t number = 1; number <= 4; number++) {
        check_task_view(&record, number);
        check(record.waiting.key[number] == 10 + number, "a task's priority");
    }
    check_object_view(&record, 1);
    check_object_view(&record, 2);
    check(record.counter == 1, "the counter");
    check(record.tasks[1].timed == 1 && record.tasks[1].end == 9, "the end tick");
    check(record.tasks[2].code == 49, "the code of a released wait");
    check(record.tasks[4].sending == 44, "a sender's word");
    for (size_t place = 0; place < 3; place++) {
        check(stored_word(&record.queues[2].ring, place) == 41 + place, "a stored word");
    }
    check(record.messages.link[33] == 64 && record.messages.key[33] == 8 && record.messages.key[64] == 9, "queued messages");
    check(record.mailboxes[2].attribute == LINGUASTEL_TA_MPRI && record.mailboxes[2].highest == 9, "a mailbox");
    check(record.queues[2].attribute == LINGUASTEL_TA_TPRI && record.queues[2].ring.capacity == 3, "a data queue");
}

/* ---- Groups: time-outs ---- */

/* Task 1 waits from this counter with this tmout. */
static void make_waiting(LinguastelRecord *record, uint32_t counter, int32_t tmout)
{
    must_be_e_ok(linguastel_empty(record));
    record->counter = counter;
    must_be_ok(linguastel_idefine_task(record, 1, 5));
    must_be_ok(linguastel_icre_dtq(record, 1, LINGUASTEL_TA_TFIFO, 0));
    check(linguastel_trcv_dtq(record, linguastel_as_task(1), 1, tmout).code == LINGUASTEL_NO_CODE, "a wait with a tmout");
}

/* The next tick ends so many waits. */
static void check_tick(LinguastelRecord *record, uint32_t ended, const char *what)
{
    LinguastelAnswer expected = { .a = ended };
    check(same_answer(linguastel_tick(record), expected), what);
}

/* A wait with tmout n ends in tick n + 1; the counter comes to 0 meanwhile. */
static void test_time_outs(void)
{
    LinguastelRecord record;
    for (int32_t tmout = 1; tmout <= 3; tmout++) {
        make_waiting(&record, UINT32_MAX - 1, tmout);
        for (int32_t gone = 0; gone < tmout; gone++) {
            check_tick(&record, 0, "a tick before the last");
        }
        check_tick(&record, 1, "tick n + 1");
        check(linguastel_ifetch(&record, 1).code == LINGUASTEL_E_TMOUT, "the code of a time-out");
    }
    make_waiting(&record, 5, LINGUASTEL_LONGEST_TMOUT);
    check(linguastel_sound(&record), "the longest tmout");
    record.counter--;
    check(!linguastel_sound(&record), "an end tick farther than the longest tmout's");
    record.counter += (uint32_t)LINGUASTEL_LONGEST_TMOUT;
    check_tick(&record, 0, "the last tick but one of the longest tmout");
    check_tick(&record, 1, "the last tick of the longest tmout");
}

/* ---- Groups: tables of calls ---- */

/* Messages 1, 2, ... to a mailbox in order of arrival: the answers are a 0, a 1, and so on. */
static void make_sends(LinguastelRecord *record, Table *table)
{
    must_be_e_ok(linguastel_empty(record));
    must_be_ok(linguastel_icre_mbx(record, 3, LINGUASTEL_TA_TFIFO, 0));
    for (uint32_t i = 0; i < MOST_CALLS; i++) {
        table->calls[i] = (LinguastelCall){ .number = LINGUASTEL_SND_MBX, .object = 3, .value = i + 1 };
    }
    fill_with_noise(table->cells, sizeof table->cells);
}

static void check_sent(const LinguastelAnswer *cells, size_t count)
{
    for (uint32_t i = 0; i < count; i++) {
        check(same_answer(cells[i], (LinguastelAnswer){ .a = i }), "answer i in cell i");
    }
}

static void check_lengths(const LinguastelRecord *content, Table *table)
{
    LinguastelRecord record = *content;
    if (table->call_count <= LINGUASTEL_TABLE && table->call_count <= table->cell_count) {
        check_table_made(&record, table, "a table that is made");
        check_sent(table->cells, table->call_count);
        check(linguastel_iref_mbx(&record, 3).b == (table->call_count > 0), "the calls are made");
    } else {
        check_table_refused(&record, table, LINGUASTEL_E_PAR, "a table that is too long, or has too few cells");
        spoil_unused(&record);
        check_table_refused(&record, table, LINGUASTEL_E_PAR, "the same with noise in unused fields");
    }
}

static void test_table_lengths(void)
{
    static const size_t lengths[] = { 0, 1, 63, 64, 65, 66 };
    LinguastelRecord record;
    Table table;
    make_sends(&record, &table);
    for (size_t i = 0; i < LENGTH(lengths); i++) {
        table.call_count = lengths[i];
        for (table.cell_count = 0; table.cell_count <= MOST_CELLS; table.cell_count++) {
            check_lengths(&record, &table);
        }
    }
}

/* Record and tables, each at the edge of a page. */
typedef struct {
    LinguastelRecord *record;
    const LinguastelCall *calls;
    size_t call_count;
    LinguastelAnswer *cells;
    size_t cell_count;
    int32_t code;
} Lent;

/* The calls may only be read. */
static Lent lend_table(const LinguastelRecord *record, const Table *table, size_t call_count, size_t cell_count, Place place)
{
    return (Lent){
        .record = lend(record_page, place, PROT_READ | PROT_WRITE, record, sizeof *record),
        .calls = lend(calls_page, place, PROT_READ, table->calls, call_count * sizeof table->calls[0]),
        .call_count = call_count,
        .cells = lend(cells_page, place, PROT_READ | PROT_WRITE, table->cells, cell_count * sizeof table->cells[0]),
        .cell_count = cell_count,
    };
}

static void make_table(void *with)
{
    Lent *lent = with;
    lent->code = linguastel_table(lent->record, lent->calls, lent->call_count, lent->cells, lent->cell_count);
}

static void test_table_edges(void)
{
    LinguastelRecord record;
    Table table;
    make_sends(&record, &table);
    for (size_t length = 0; length <= MOST_CALLS; length++) {
        for (Place place = AT_START; place <= AT_END; place++) {
            Lent lent = lend_table(&record, &table, length, length, place);
            check(!is_caught(make_table, &lent), "no memory is touched but what is lent");
            check(lent.code == (length <= LINGUASTEL_TABLE ? LINGUASTEL_E_OK : LINGUASTEL_E_PAR), "the code at the edge of a page");
            check_sent(lent.cells, length <= LINGUASTEL_TABLE ? length : 0);
        }
    }
    Lent short_of_calls = lend_table(&record, &table, 7, 8, AT_END);
    short_of_calls.call_count++;
    check(is_caught(make_table, &short_of_calls), "a call that isn't lent is caught");
    Lent short_of_cells = lend_table(&record, &table, 8, 7, AT_END);
    short_of_cells.cell_count++;
    check(is_caught(make_table, &short_of_cells), "a cell that isn't lent is caught");
}

/* As a byte, 257 and 279 would be 1 and 23; in 16 bits, 65541 would be 5. */
static const uint32_t no_calls[] = { LINGUASTEL_TICK, LINGUASTEL_LAST_CALL + 1, 255, 256, 257, 279, 65541, 4294967295 };

/* Two calls that are accepted, and between them as many of this number as there is room for. The next tick would end a wait. */
static void check_number_in_table(uint32_t number)
{
    LinguastelRecord record;
    make_waiting(&record, UINT32_MAX - 1, 1);
    check_tick(&record, 0, "the tick before the table");
    Table table = { .call_count = LINGUASTEL_TABLE, .cell_count = LINGUASTEL_TABLE };
    for (size_t i = 0; i < LINGUASTEL_TABLE; i++) {
        table.calls[i] = (LinguastelCall){ .number = number, .caller = noise_below(2) * 77, .locked = noise_below(2), .object = 1, .value = 1 };
    }
    table.calls[0] = (LinguastelCall){ .number = LINGUASTEL_DEFINE_TASK, .object = 7, .value = 1 };
    table.calls[LINGUASTEL_TABLE - 1] = (LinguastelCall){ .number = LINGUASTEL_SUS_TSK, .object = 7 };
    check_table_made(&record, &table, "a table with numbers of no call");
    for (size_t i = 1; i < LINGUASTEL_TABLE - 1; i++) {
        check_refused(table.cells[i], LINGUASTEL_E_PAR, "the cell of a number of no call");
    }
    check(linguastel_ilook(&record, 7).c == 1, "the calls beside it are made");
    check(record.counter == UINT32_MAX, "the counter");
    check(linguastel_ilook(&record, 1).a == LINGUASTEL_RECEIVING, "no wait ends");
    check_tick(&record, 1, "the tick after the table");
}

static void test_table_numbers(void)
{
    for (size_t i = 0; i < LENGTH(no_calls); i++) {
        check_number_in_table(no_calls[i]);
    }
}

/* At each place of a table, among calls of which the last gives the word that the one before it sent. */
static void check_refused_in_table(const LinguastelRecord *various, const Without *row)
{
    static const LinguastelCall accepted[] = {
        { .number = LINGUASTEL_CRE_DTQ, .object = 9, .value = 1 },
        { .number = LINGUASTEL_PSND_DTQ, .object = 9, .value = 70 },
        { .number = LINGUASTEL_PRCV_DTQ, .object = 9 },
    };
    for (size_t place = 0; place <= LENGTH(accepted); place++) {
        LinguastelRecord record = *various;
        Table table = { .call_count = LENGTH(accepted) + 1, .cell_count = MOST_CELLS };
        for (size_t i = 0; i < table.call_count; i++) {
            table.calls[i] = i == place ? row->call : accepted[i > place ? i - 1 : i];
        }
        check_table_made(&record, &table, row->what);
        check_refused(table.cells[place], row->code, row->what);
        size_t last = place == LENGTH(accepted) ? place - 1 : LENGTH(accepted);
        check(same_answer(table.cells[last], (LinguastelAnswer){ .a = 70 }), row->what);
    }
}

static void test_table_with_refused_call(void)
{
    LinguastelRecord various;
    make_various(&various);
    for (size_t i = 0; i < LENGTH(refused); i++) {
        check_refused_in_table(&various, &refused[i]);
    }
}

/* A task that waits can't call: the calls behind its wait are refused, those of others are made. */
static void test_table_with_wait(void)
{
    LinguastelRecord record;
    make_various(&record);
    Table table = { .call_count = 3, .cell_count = 3 };
    table.calls[0] = (LinguastelCall){ .number = LINGUASTEL_TRCV_DTQ, .caller = 3, .object = 3, .tmout = 4 };
    table.calls[1] = (LinguastelCall){ .number = LINGUASTEL_REF_DTQ, .caller = 3, .object = 3 };
    table.calls[2] = (LinguastelCall){ .number = LINGUASTEL_REF_DTQ, .object = 3 };
    check_table_made(&record, &table, "a wait in a table");
    check(same_answer(table.cells[0], (LinguastelAnswer){ .kind = LINGUASTEL_WAITS, .code = LINGUASTEL_NO_CODE }), "the wait");
    check_refused(table.cells[1], LINGUASTEL_E_SYS, "a call by the task that waits");
    check(same_answer(table.cells[2], (LinguastelAnswer){ .b = 3 }), "a call by a handler");
}

/* All calls are refused, from this row on: the record keeps every byte. */
static void check_table_of_refusals(const LinguastelRecord *content, size_t first, size_t count)
{
    LinguastelRecord record = *content;
    Table before, table = { .call_count = count, .cell_count = count };
    for (size_t i = 0; i < count; i++) {
        table.calls[i] = refused[(first + i) % LENGTH(refused)].call;
    }
    check(hand_over(&record, &table, &before) == LINGUASTEL_E_OK, "a table of refused calls");
    for (size_t i = 0; i < count; i++) {
        check_refused(table.cells[i], refused[(first + i) % LENGTH(refused)].code, "the cell of a refused call");
    }
    check(same_record(&record, content), "the record of a table of refused calls");
    check(same_cells_from(count, &table, &before), "the cells past refused calls");
}

static void test_tables_of_refusals(void)
{
    LinguastelRecord various, spoiled;
    make_various(&various);
    for (size_t first = 0; first < LENGTH(refused); first++) {
        spoiled = various;
        spoil_unused(&spoiled);
        for (size_t count = 0; count <= LINGUASTEL_TABLE; count++) {
            check_table_of_refusals(&various, first, count);
            check_table_of_refusals(&spoiled, first, count);
        }
    }
}

/* At times a number of no call, or a context in which calls are refused. */
static void make_random_table(Table *table)
{
    table->call_count = noise_below(LINGUASTEL_TABLE + 1);
    table->cell_count = table->call_count + noise_below((uint32_t)(MOST_CELLS - table->call_count + 1));
    for (size_t i = 0; i < table->call_count; i++) {
        LinguastelCall call = random_call();
        call.number = noise_below(16) == 0 ? no_calls[noise_below(LENGTH(no_calls))] : call.number;
        call.locked = noise_below(16) == 0;
        call.disabled = noise_below(16) == 0;
        table->calls[i] = call;
    }
}

/* With other bytes on the stack each time. Some records grow from the empty one, the rest go on. */
static void test_random_tables(void)
{
    unsigned accepted[LINGUASTEL_LAST_CALL + 1] = { 0 }, waits = 0;
    LinguastelRecord record;
    Table table = { .call_count = 0 };
    for (unsigned i = 0; i < 3000; i++) {
        if (i < 1000 || i % 100 == 0) {
            must_be_e_ok(linguastel_empty(&record));
        }
        make_random_table(&table);
        paint_stack(paints[i % 2]);
        check_table_made(&record, &table, "a random table");
        must_be_ok(linguastel_tick(&record));
        for (size_t c = 0; c < table.call_count; c++) {
            waits += linguastel_waits(table.cells[c]);
            if (table.calls[c].number <= LINGUASTEL_LAST_CALL) {
                accepted[table.calls[c].number] += linguastel_is_ok(table.cells[c]);
            }
        }
    }
    for (size_t number = 1; number < LENGTH(accepted); number++) {
        check(accepted[number] > 0, "a call of each number is accepted");
    }
    check(waits > 0, "calls wait");
}

/* The record gets tables, its twin the same calls singly; they mean the same, with other noise in unused fields. */
static void test_tables_with_noise(void)
{
    LinguastelRecord record, twin;
    Table table = { .call_count = 0 };
    make_various(&record);
    twin = record;
    for (unsigned i = 0; i < 3000; i++) {
        spoil_unused(&record);
        spoil_unused(&twin);
        make_random_table(&table);
        check_table_answered(&record, &twin, &table, "a random table, with noise");
        check(same_answer(linguastel_tick(&record), linguastel_tick(&twin)), "the tick after the table");
    }
    check(linguastel_sound(&record), "the record is sound after all tables");
}

/* ---- Groups: the runs ---- */

static const char *const call_names[] = {
    "tick", "define_task", "cre_dtq", "del_dtq", "snd_dtq", "psnd_dtq", "tsnd_dtq", "fsnd_dtq", "rcv_dtq", "prcv_dtq", "trcv_dtq", "ref_dtq",
    "cre_mbx", "del_mbx", "snd_mbx", "rcv_mbx", "prcv_mbx", "trcv_mbx", "ref_mbx", "rel_wai", "sus_tsk", "rsm_tsk", "look", "fetch", "from", "leaves",
};

enum { FROM = LINGUASTEL_LAST_CALL + 1, LEAVES };

static LinguastelAnswer call_by_number(LinguastelRecord *record, LinguastelCall call)
{
    return linguastel_call(record, call);
}

static LinguastelAnswer call_by_name(LinguastelRecord *record, LinguastelCall call)
{
    LinguastelContext by = { .caller = call.caller, .locked = call.locked != 0, .disabled = call.disabled != 0 };
    switch (call.number) {
    case LINGUASTEL_DEFINE_TASK: return linguastel_define_task(record, by, call.object, call.value);
    case LINGUASTEL_CRE_DTQ: return linguastel_cre_dtq(record, by, call.object, call.attribute, call.value);
    case LINGUASTEL_DEL_DTQ: return linguastel_del_dtq(record, by, call.object);
    case LINGUASTEL_SND_DTQ: return linguastel_snd_dtq(record, by, call.object, call.value);
    case LINGUASTEL_PSND_DTQ: return linguastel_psnd_dtq(record, by, call.object, call.value);
    case LINGUASTEL_TSND_DTQ: return linguastel_tsnd_dtq(record, by, call.object, call.value, call.tmout);
    case LINGUASTEL_FSND_DTQ: return linguastel_fsnd_dtq(record, by, call.object, call.value);
    case LINGUASTEL_RCV_DTQ: return linguastel_rcv_dtq(record, by, call.object);
    case LINGUASTEL_PRCV_DTQ: return linguastel_prcv_dtq(record, by, call.object);
    case LINGUASTEL_TRCV_DTQ: return linguastel_trcv_dtq(record, by, call.object, call.tmout);
    case LINGUASTEL_REF_DTQ: return linguastel_ref_dtq(record, by, call.object);
    case LINGUASTEL_CRE_MBX: return linguastel_cre_mbx(record, by, call.object, call.attribute, call.value);
    case LINGUASTEL_DEL_MBX: return linguastel_del_mbx(record, by, call.object);
    case LINGUASTEL_SND_MBX: return linguastel_snd_mbx(record, by, call.object, call.value, call.attribute);
    case LINGUASTEL_RCV_MBX: return linguastel_rcv_mbx(record, by, call.object);
    case LINGUASTEL_PRCV_MBX: return linguastel_prcv_mbx(record, by, call.object);
    case LINGUASTEL_TRCV_MBX: return linguastel_trcv_mbx(record, by, call.object, call.tmout);
    case LINGUASTEL_REF_MBX: return linguastel_ref_mbx(record, by, call.object);
    case LINGUASTEL_REL_WAI: return linguastel_rel_wai(record, by, call.object);
    case LINGUASTEL_SUS_TSK: return linguastel_sus_tsk(record, by, call.object);
    case LINGUASTEL_RSM_TSK: return linguastel_rsm_tsk(record, by, call.object);
    case LINGUASTEL_LOOK: return linguastel_look(record, by, call.object);
    case LINGUASTEL_FETCH: return linguastel_fetch(record, by, call.object);
    default: return linguastel_tick(record);
    }
}

/* The i-form, where there is one and its context is the call's; else the call by name. */
static LinguastelAnswer call_by_i_form(LinguastelRecord *record, LinguastelCall call)
{
    if (call.caller != 0 || call.locked != 0 || call.disabled != 0) {
        return call_by_name(record, call);
    }
    switch (call.number) {
    case LINGUASTEL_DEFINE_TASK: return linguastel_idefine_task(record, call.object, call.value);
    case LINGUASTEL_CRE_DTQ: return linguastel_icre_dtq(record, call.object, call.attribute, call.value);
    case LINGUASTEL_PSND_DTQ: return linguastel_ipsnd_dtq(record, call.object, call.value);
    case LINGUASTEL_FSND_DTQ: return linguastel_ifsnd_dtq(record, call.object, call.value);
    case LINGUASTEL_PRCV_DTQ: return linguastel_iprcv_dtq(record, call.object);
    case LINGUASTEL_REF_DTQ: return linguastel_iref_dtq(record, call.object);
    case LINGUASTEL_CRE_MBX: return linguastel_icre_mbx(record, call.object, call.attribute, call.value);
    case LINGUASTEL_SND_MBX: return linguastel_isnd_mbx(record, call.object, call.value, call.attribute);
    case LINGUASTEL_PRCV_MBX: return linguastel_iprcv_mbx(record, call.object);
    case LINGUASTEL_REF_MBX: return linguastel_iref_mbx(record, call.object);
    case LINGUASTEL_REL_WAI: return linguastel_irel_wai(record, call.object);
    case LINGUASTEL_SUS_TSK: return linguastel_isus_tsk(record, call.object);
    case LINGUASTEL_RSM_TSK: return linguastel_irsm_tsk(record, call.object);
    case LINGUASTEL_LOOK: return linguastel_ilook(record, call.object);
    case LINGUASTEL_FETCH: return linguastel_ifetch(record, call.object);
    default: return call_by_name(record, call);
    }
}

typedef struct {
    unsigned run;
    LinguastelCall call;
    char answer[16];
    uint32_t a, b, c;
    char text[256];
} Line;

/* Whether the line's text is one of a run, and not a comment or empty. */
static bool read_line(Line *line)
{
    const char *text = line->text;
    char context[8], name[16];
    LinguastelCall call = { 0 };
    int fields = sscanf(text, "%u %" SCNu32 " %7s %15s %" SCNu32 " %" SCNu32 " %" SCNu32 " %" SCNd32 " %15s %" SCNu32 " %" SCNu32 " %" SCNu32,
        &line->run, &call.caller, context, name, &call.object, &call.value, &call.attribute, &call.tmout, line->answer, &line->a, &line->b, &line->c);
    if (fields != 12) {
        check(text[0] == '#' || text[0] == '\n', text);
        return false;
    }
    call.locked = strcmp(context, "L") == 0;
    call.disabled = strcmp(context, "D") == 0;
    while (call.number < LENGTH(call_names) && strcmp(name, call_names[call.number]) != 0) {
        call.number++;
    }
    check(call.number < LENGTH(call_names), "the name of a call");
    line->call = call;
    return true;
}

static bool answer_is(LinguastelAnswer answer, const Line *line)
{
    char place[16];
    snprintf(place, sizeof place, "W%" PRIu32, answer.place);
    const char *text = linguastel_waits(answer) ? place : linguastel_code_name(answer.code);
    return strcmp(text, line->answer) == 0 && answer.a == line->a && answer.b == line->b && answer.c == line->c;
}

typedef LinguastelAnswer Way(LinguastelRecord *record, LinguastelCall call);

static const char *folder;

static Line lines[512];
static size_t line_count;

/* The file has this many runs beside run 0. */
static void read_runs(const char *name, unsigned runs)
{
    char path[512];
    snprintf(path, sizeof path, "%s/%s", folder, name);
    line_count = 0;
    FILE *file = fopen(path, "r");
    check(file != NULL, path);
    if (file == NULL) {
        return;
    }
    while (line_count < LENGTH(lines) && fgets(lines[line_count].text, sizeof lines[line_count].text, file) != NULL) {
        line_count += read_line(&lines[line_count]);
    }
    check(feof(file) && line_count > 0 && lines[line_count - 1].run == runs, path);
    fclose(file);
}

/* Each call meets noise in all unused fields. Where it is refused or only reads, it writes nothing, not even there. */
static void play_call(LinguastelRecord *record, Way *way, const Line *line)
{
    spoil_unused(record);
    check(linguastel_sound(record), line->text);
    LinguastelRecord before = *record;
    LinguastelAnswer answer = way(record, line->call);
    must_be_whole(answer);
    check(answer_is(answer, line), line->text);
    check_views(record);
    if ((!linguastel_is_ok(answer) && !linguastel_waits(answer)) || only_reads(line->call.number)) {
        check(same_record(record, &before), line->text);
        check_writes_nothing(&before, line->call, answer, line->text);
    }
}

static void play_line(LinguastelRecord *record, Way *way, const Line *line)
{
    if (line->call.number == FROM) {
        record->counter = line->call.value;
    } else if (line->call.number == LEAVES) {
        check(record->counter == line->call.value, line->text);
    } else {
        play_call(record, way, line);
    }
}

static void play_runs(Way *way)
{
    LinguastelRecord start, record;
    must_be_e_ok(linguastel_empty(&start));
    for (size_t i = 0; i < line_count; i++) {
        if (i > 0 && lines[i].run != lines[i - 1].run) {
            record = start;
        }
        play_line(lines[i].run == 0 ? &start : &record, way, &lines[i]);
    }
}

/* How many lines from this one on can stand in a table: calls of one run. A tick can't, nor can lines about the counter. */
static size_t table_from(size_t first)
{
    size_t count = 0;
    while (count < LINGUASTEL_TABLE && first + count < line_count && lines[first + count].run == lines[first].run
        && lines[first + count].call.number != LINGUASTEL_TICK && lines[first + count].call.number <= LINGUASTEL_LAST_CALL) {
        count++;
    }
    return count;
}

/* Once with noise in unused fields, then on the record as it comes from the empty one. */
static void play_table(LinguastelRecord *record, size_t first, size_t count)
{
    Table table = { .call_count = count, .cell_count = count };
    for (size_t i = 0; i < count; i++) {
        table.calls[i] = lines[first + i].call;
    }
    LinguastelRecord spoiled = *record, twin = *record;
    spoil_unused(&spoiled);
    check_table_answered(&spoiled, &twin, &table, lines[first].text);
    check_table_made(record, &table, lines[first].text);
    for (size_t i = 0; i < count; i++) {
        check(answer_is(table.cells[i], &lines[first + i]), lines[first + i].text);
    }
}

/* The calls between two ticks are handed over as one table. */
static void play_runs_as_tables(void)
{
    LinguastelRecord start, record;
    must_be_e_ok(linguastel_empty(&start));
    for (size_t i = 0; i < line_count;) {
        if (i > 0 && lines[i].run != lines[i - 1].run) {
            record = start;
        }
        LinguastelRecord *played = lines[i].run == 0 ? &start : &record;
        size_t count = table_from(i);
        if (count > 0) {
            play_table(played, i, count);
        } else if (lines[i].call.number == LINGUASTEL_TICK) {
            check(answer_is(linguastel_tick(played), &lines[i]), lines[i].text);
        } else {
            play_line(played, call_by_number, &lines[i]);
        }
        i += count > 0 ? count : 1;
    }
}

static void play_all_ways(const char *name, unsigned runs)
{
    read_runs(name, runs);
    play_runs(call_by_number);
    play_runs(call_by_name);
    play_runs(call_by_i_form);
    play_runs_as_tables();
}

static void test_sixteen_runs(void)
{
    play_all_ways("sixteen_runs.txt", 16);
}

static void test_each_call(void)
{
    play_all_ways("each_call.txt", 5);
}

static void test_error_table(void)
{
    play_all_ways("error_table.txt", 11);
}

/* ---- Groups: what the header says beside the library ---- */

static void test_version(void)
{
    char text[32];
    snprintf(text, sizeof text, "%d.%d.%d", LINGUASTEL_VERSION / 10000, LINGUASTEL_VERSION / 100 % 100, LINGUASTEL_VERSION % 100);
    check(strcmp(text, LINGUASTEL_VERSION_TEXT) == 0, "the version's number and text");
    check(linguastel_version() == LINGUASTEL_VERSION, "the version of the library");
    check(linguastel_table_version() == LINGUASTEL_VERSION, "the version of the library for tables");
    check(linguastel_replay_version() == LINGUASTEL_VERSION, "the version of the library for replays");
    check(linguastel_library_fits(), "the library fits");
    check(linguastel_table_library_fits(), "the library for tables fits");
    check(linguastel_replay_library_fits(), "the library for replays fits");
}

/* Zeros are the empty record and a new replay. */
static void test_zeros(void)
{
    static LinguastelRecord record;
    static LinguastelReplay replay;
    LinguastelRecord emptied, *allocated = calloc(1, sizeof *allocated);
    LinguastelReplay new_one;
    fill_with_noise(&emptied, sizeof emptied);
    fill_with_noise(&new_one, sizeof new_one);
    must_be_e_ok(linguastel_empty(&emptied));
    must_be_e_ok(linguastel_replay_empty(&new_one));
    check(memcmp(&record, &emptied, sizeof record) == 0, "a static record");
    check(allocated != NULL && memcmp(allocated, &emptied, sizeof emptied) == 0, "a record from calloc");
    check(memcmp(&replay, &new_one, sizeof replay) == 0, "a static replay");
    check(linguastel_sound(&record) && linguastel_waiting(&record) == 0 && linguastel_runnable(&record) == 0, "nothing is defined");
    must_be_ok(linguastel_idefine_task(&record, 1, 5));
    must_be_ok(linguastel_icre_dtq(&record, 1, LINGUASTEL_TA_TFIFO, 1));
    must_be_ok(linguastel_snd_dtq(&record, linguastel_as_task(1), 1, 42));
    check(linguastel_iprcv_dtq(&record, 1).a == 42, "a static record is ready for use");
    check(linguastel_replay_end(&replay).code == LINGUASTEL_E_OK, "a static replay is ready for use");
    free(allocated);
}

/* Each of the six calls that may wait; an answer that waits isn't E_OK. */
static void test_waits(void)
{
    static const uint32_t numbers[] = { LINGUASTEL_SND_DTQ, LINGUASTEL_TSND_DTQ, LINGUASTEL_RCV_DTQ, LINGUASTEL_TRCV_DTQ, LINGUASTEL_RCV_MBX,
        LINGUASTEL_TRCV_MBX };
    for (size_t i = 0; i < LENGTH(numbers); i++) {
        LinguastelRecord record = { 0 }, twin;
        must_be_ok(linguastel_idefine_task(&record, 1, 5));
        must_be_ok(linguastel_icre_dtq(&record, 1, LINGUASTEL_TA_TFIFO, 0));
        must_be_ok(linguastel_icre_mbx(&record, 1, LINGUASTEL_TA_TFIFO, 0));
        twin = record;
        LinguastelCall call = { .number = numbers[i], .caller = 1, .object = 1, .tmout = LINGUASTEL_TMO_FEVR };
        LinguastelAnswer cell, answer = linguastel_call(&record, call);
        must_be_whole(answer);
        check(answer.code == 1 && linguastel_waits(answer) && !linguastel_is_ok(answer), "an answer that waits");
        must_be_e_ok(linguastel_table(&twin, &call, 1, &cell, 1));
        check(same_answer(answer, cell), "the same in a table");
        check(linguastel_waiting(&record) == 1 && linguastel_runnable(&record) == 0, "the task waits");
    }
    check(!linguastel_is_ok((LinguastelAnswer){ .kind = LINGUASTEL_WAITS }), "an answer that waits isn't E_OK, whatever its code");
    check(linguastel_is_ok(linguastel_refusal(LINGUASTEL_E_OK)) && !linguastel_waits(linguastel_refusal(LINGUASTEL_E_OK)), "an answer with E_OK");
    check(!linguastel_is_ok(linguastel_refusal(LINGUASTEL_E_PAR)) && !linguastel_waits(linguastel_refusal(LINGUASTEL_E_PAR)), "a refused call");
}

static const int32_t codes[] = { LINGUASTEL_E_OK, LINGUASTEL_E_SYS, LINGUASTEL_E_PAR, LINGUASTEL_E_ID, LINGUASTEL_E_CTX, LINGUASTEL_E_ILUSE,
    LINGUASTEL_E_OBJ, LINGUASTEL_E_NOEXS, LINGUASTEL_E_QOVR, LINGUASTEL_E_RLWAI, LINGUASTEL_E_TMOUT, LINGUASTEL_E_DLT };

static void test_names(void)
{
    static const char *const waits[] = { "no wait", "to send to a data queue", "to receive from a data queue", "to receive from a mailbox" };
    for (size_t i = 0; i < LENGTH(codes); i++) {
        check(strncmp(linguastel_code_name(codes[i]), "E_", 2) == 0, "a code's name");
        for (size_t k = 0; k < i; k++) {
            check(strcmp(linguastel_code_name(codes[i]), linguastel_code_name(codes[k])) != 0, "no two codes have one name");
            check(strcmp(linguastel_code_meaning(codes[i]), linguastel_code_meaning(codes[k])) != 0, "no two codes have one meaning");
        }
    }
    check(strcmp(linguastel_code_name(LINGUASTEL_E_PAR), "E_PAR") == 0, "E_PAR");
    check(strcmp(linguastel_code_meaning(LINGUASTEL_E_QOVR), "the task is suspended already") == 0, "the meaning of E_QOVR");
    check(strcmp(linguastel_code_name(LINGUASTEL_NO_CODE), "no code of the kernel") == 0, "the name of no code");
    check(strcmp(linguastel_code_meaning(LINGUASTEL_NO_CODE), "no code of the kernel") == 0, "the meaning of no code");
    for (uint32_t number = 0; number <= LINGUASTEL_LAST_CALL; number++) {
        check(strcmp(linguastel_call_name(number), call_names[number]) == 0, call_names[number]);
    }
    check(strcmp(linguastel_call_name(LINGUASTEL_LAST_CALL + 1), "no call") == 0, "the name of number 24");
    check(strcmp(linguastel_call_name(UINT32_MAX), "no call") == 0, "the name of the largest number");
    for (uint8_t wait = 0; wait < LENGTH(waits); wait++) {
        check(strcmp(linguastel_wait_name(wait), waits[wait]) == 0, waits[wait]);
    }
    check(strcmp(linguastel_wait_name(4), "no kind of wait") == 0, "the name of wait 4");
}

/* The first cause that applies; the pointers' causes are in the group of the pointers. */
static void test_causes(void)
{
    LinguastelRecord record, unsound;
    make_various(&record);
    memset(&unsound, 0xff, sizeof unsound);
    check(linguastel_sys_cause(&record, 0) == LINGUASTEL_CAUSE_NONE, "a handler");
    check(linguastel_sys_cause(&record, 3) == LINGUASTEL_CAUSE_NONE, "a task that can call");
    check(linguastel_sys_cause(&record, 1) == LINGUASTEL_CAUSE_CALLER_CANNOT_CALL, "a task that waits");
    check(linguastel_sys_cause(&record, 2) == LINGUASTEL_CAUSE_CALLER_CANNOT_CALL, "a task that waits and is suspended");
    must_be_ok(linguastel_isus_tsk(&record, 3));
    check(linguastel_sys_cause(&record, 3) == LINGUASTEL_CAUSE_CALLER_CANNOT_CALL, "a task that is suspended");
    check(linguastel_sys_cause(&record, 32) == LINGUASTEL_CAUSE_NO_CALLER, "a task that isn't defined");
    check(linguastel_sys_cause(&record, 33) == LINGUASTEL_CAUSE_NO_CALLER, "task 33");
    for (size_t i = 0; i < LENGTH(too_large); i++) {
        check(linguastel_sys_cause(&record, too_large[i]) == LINGUASTEL_CAUSE_NO_CALLER, "a task that nobody is");
        check(linguastel_sys_cause(&unsound, too_large[i]) == LINGUASTEL_CAUSE_NOT_SOUND, "a record that isn't sound comes first");
    }
    check(linguastel_sys_cause(&unsound, 0) == LINGUASTEL_CAUSE_NOT_SOUND, "a record that isn't sound");
    for (int cause = LINGUASTEL_CAUSE_NONE; cause <= LINGUASTEL_CAUSE_CALLER_CANNOT_CALL; cause++) {
        for (int other = LINGUASTEL_CAUSE_NONE; other < cause; other++) {
            bool differ = strcmp(linguastel_cause_name((LinguastelCause)cause), linguastel_cause_name((LinguastelCause)other)) != 0;
            check(differ, "no two causes have one name");
        }
    }
    LinguastelRecord *read = read_only(&record, AT_END);
    check(linguastel_sys_cause(read, 1) == LINGUASTEL_CAUSE_CALLER_CANNOT_CALL && linguastel_sound(read), "a cause is told without a write");
}

/* Numbers that nobody has, on whatever record: 0, and nothing beside the record is read. */
static void check_out_of_range(const LinguastelRecord *record)
{
    static const uint32_t none[] = { 0, 17, 33, 65, 81, 255, 256, 65537, UINT32_MAX };
    for (size_t i = 0; i < LENGTH(none); i++) {
        check(linguastel_first_sender(record, none[i]) == 0 && linguastel_first_receiver(record, none[i]) == 0, "no data queue has this number");
        check(linguastel_first_waiter(record, none[i]) == 0 && linguastel_first_message(record, none[i]) == 0, "no mailbox has this number");
        check(linguastel_word_count(record, none[i]) == 0 && linguastel_word(record, none[i], 0) == 0, "no data queue of this number has words");
        bool no_task = none[i] == 0 || none[i] > LINGUASTEL_TASKS, no_message = none[i] == 0 || none[i] > LINGUASTEL_MESSAGES;
        check(!no_task || (linguastel_next_task(record, none[i]) == 0 && linguastel_task_bit(none[i]) == 0), "no task has this number");
        check(!no_message || linguastel_next_message(record, none[i]) == 0, "no message has this number");
        check(linguastel_word(record, 2, LINGUASTEL_WORDS + none[i] % 4096) == 0, "no place has this number");
    }
}

/* Whatever the bytes are, what is given is a number that somebody has, or 0. */
static void check_in_range(const LinguastelRecord *record)
{
    for (uint32_t number = 0; number <= LINGUASTEL_MESSAGES; number++) {
        check(linguastel_first_sender(record, number) <= LINGUASTEL_TASKS, "a sender");
        check(linguastel_first_receiver(record, number) <= LINGUASTEL_TASKS, "a receiver");
        check(linguastel_first_waiter(record, number) <= LINGUASTEL_TASKS, "a waiter");
        check(linguastel_next_task(record, number) <= LINGUASTEL_TASKS, "a task");
        check(linguastel_first_message(record, number) <= LINGUASTEL_MESSAGES, "a message");
        check(linguastel_next_message(record, number) <= LINGUASTEL_MESSAGES, "the message behind it");
        check(linguastel_word_count(record, number) <= LINGUASTEL_WORDS, "a number of words");
        for (uint32_t place = 0; place <= LINGUASTEL_WORDS; place++) {
            uint32_t word = linguastel_word(record, number, place);
            check(place < linguastel_word_count(record, number) || word == 0, "a word behind the last");
        }
    }
}

static void test_iterators(void)
{
    LinguastelRecord record;
    for (int i = 0; i < 50; i++) {
        fill_with_noise(&record, sizeof record);
        const LinguastelRecord *read = read_only(&record, i % 2 == 0 ? AT_START : AT_END);
        check_out_of_range(read);
        check_in_range(read);
    }
    make_various(&record);
    check_out_of_range(&record);
    check_views(&record);
    for (unsigned i = 0; i < 2000; i++) {
        spoil_unused(&record);
        must_be_whole(linguastel_call(&record, random_call()));
        if (i % 4 == 0) {
            check_views(&record);
        }
    }
}

/* All tasks, each in one of four states. Of whatever record, no task waits and can run. The masks only read. */
static void test_masks(void)
{
    LinguastelRecord record = { 0 };
    must_be_ok(linguastel_icre_dtq(&record, 1, LINGUASTEL_TA_TFIFO, 0));
    for (uint32_t task = 1; task <= LINGUASTEL_TASKS; task++) {
        must_be_ok(linguastel_idefine_task(&record, task, 1 + task % LINGUASTEL_LOWEST_PRIORITY));
        if (task % 2 == 0) {
            must_wait(linguastel_rcv_dtq(&record, linguastel_as_task(task), 1));
        }
        if (task % 4 >= 2) {
            must_be_ok(linguastel_isus_tsk(&record, task));
        }
        check_masks(&record);
    }
    check(linguastel_waiting(&record) == 0xaaaaaaaa && linguastel_runnable(&record) == 0x11111111, "the masks of all tasks");
    check_views(&record);
    for (int i = 0; i < 50; i++) {
        fill_with_noise(&record, sizeof record);
        const LinguastelRecord *read = read_only(&record, i % 2 == 0 ? AT_START : AT_END);
        check((linguastel_waiting(read) & linguastel_runnable(read)) == 0, "no task waits and can run");
    }
}

/* The three lines of a scheduler: task 3 serves task 1, which can run then; its own wait ends its turn. */
static void test_scheduler(void)
{
    LinguastelRecord record;
    make_typical(&record);
    uint32_t before = linguastel_runnable(&record);
    LinguastelAnswer answer = linguastel_snd_dtq(&record, linguastel_as_task(3), 1, 10);
    uint32_t woken = linguastel_runnable(&record) & ~before;
    check(linguastel_is_ok(answer) && woken == linguastel_task_bit(1), "the receiver is woken");
    before = linguastel_runnable(&record);
    must_wait(linguastel_rcv_dtq(&record, linguastel_as_task(3), 1));
    check((before & ~linguastel_runnable(&record)) == linguastel_task_bit(3), "the caller can't run any more");
    must_be_ok(linguastel_isus_tsk(&record, 3));
    before = linguastel_waiting(&record);
    must_be_ok(linguastel_ipsnd_dtq(&record, 1, 11));
    check((before & ~linguastel_waiting(&record)) == linguastel_task_bit(3), "the wait of a suspended task ends");
    check((linguastel_runnable(&record) & linguastel_task_bit(3)) == 0, "it can't run before it is resumed");

    LinguastelCall calls[] = { { .number = LINGUASTEL_RCV_DTQ, .caller = 1, .object = 1 }, { .number = LINGUASTEL_PSND_DTQ, .object = 1, .value = 12 },
        { .number = LINGUASTEL_RCV_DTQ, .caller = 1, .object = 1 } };
    LinguastelAnswer cells[LENGTH(calls)];
    must_be_e_ok(linguastel_table(&record, calls, LENGTH(calls), cells, LENGTH(cells)));
    check(linguastel_waits(cells[0]) && linguastel_is_ok(cells[1]) && linguastel_waits(cells[2]), "in a table a task is woken and waits again");
    check((linguastel_waiting(&record) & linguastel_task_bit(1)) != 0, "the masks show the last wait alone");
}

/* What traces are given besides records. */
static void test_trace_pointers(void)
{
    uint8_t bytes[2 * LINGUASTEL_TRACE_SIZE], before[sizeof bytes];
    LinguastelCall calls[2] = { { .number = LINGUASTEL_LOOK } };
    LinguastelAnswer answers[2] = { { .code = LINGUASTEL_E_ID } };
    memset(bytes, 0xa5, sizeof bytes);
    memcpy(before, bytes, sizeof bytes);
    check(linguastel_trace(NULL, calls[0], answers[0]) == 0, "no bytes for a call");
    check(linguastel_trace_tick(NULL, answers[0]) == 0, "no bytes for a tick");
    check(linguastel_trace_table(NULL, calls, 1, answers, LINGUASTEL_E_OK) == 0, "no bytes for a table");
    for (unsigned kind = NO_POINTER; kind < POINTERS; kind++) {
        if (kind != ALIGNED) {
            check(linguastel_trace_table(bytes, pointer_to(calls, kind), 1, answers, LINGUASTEL_E_OK) == 0, "calls at such a pointer");
            check(linguastel_trace_table(bytes, calls, 1, pointer_to(answers, kind), LINGUASTEL_E_OK) == 0, "answers at such a pointer");
        }
    }
    check(memcmp(bytes, before, sizeof bytes) == 0, "nothing is written");
    check(linguastel_trace_table(bytes, calls, 1, answers, LINGUASTEL_E_OK) == LINGUASTEL_TRACE_SIZE, "a table at pointers that fit");
}

/* ---- Groups: recording calls ---- */

/* A call, its answer, and what belongs in the trace: all bytes, or none. */
typedef struct {
    LinguastelCall call;
    LinguastelAnswer answer;
    uint8_t bytes[LINGUASTEL_TRACE_SIZE];
    size_t size;
} Traced;

/* Whether the text has a call and its answer. */
static bool read_traced(const char *text, Traced *row)
{
    LinguastelCall *call = &row->call;
    LinguastelAnswer *answer = &row->answer;
    int fields = sscanf(text, "%" SCNu32 " %" SCNu32 " %" SCNu32 " %" SCNu32 " %" SCNu32 " %" SCNu32 " %" SCNd32 " %" SCNu32, &call->number,
        &call->caller, &call->locked, &call->disabled, &call->object, &call->value, &call->tmout, &call->attribute);
    fields += sscanf(text, "%*s %*s %*s %*s %*s %*s %*s %*s %" SCNu32 " %" SCNd32 " %" SCNu32 " %" SCNu32 " %" SCNu32 " %" SCNu32, &answer->kind,
        &answer->code, &answer->place, &answer->a, &answer->b, &answer->c);
    return fields == 14;
}

/* The line below it; a dash stands for a call that is left out. */
static void read_traced_bytes(const char *text, Traced *row)
{
    int length = 0;
    row->size = 0;
    while (row->size < sizeof row->bytes && sscanf(text, " %2" SCNx8 "%n", &row->bytes[row->size], &length) == 1) {
        text += length;
        row->size++;
    }
    check(row->size == sizeof row->bytes || (row->size == 0 && strcmp(text, "    -\n") == 0), "a line with the bytes of a call");
}

/* The bytes of a call that is left out are written too. They hold a number that no call has, so that no tick is made of them. */
static void check_left_out(const Traced *row, const uint8_t *written)
{
    uint8_t bytes[LINGUASTEL_TRACE_SIZE];
    Traced known = *row;
    known.call.number = LINGUASTEL_LAST_CALL;
    linguastel_trace(bytes, known.call, known.answer);
    uint32_t number = row->call.number;
    check(written[0] == (number == 0 || number > 255 ? 255 : number), "the number of a call that is left out");
    check(memcmp(written + 1, bytes + 1, sizeof bytes - 1) == 0, "the other bytes of a call that is left out");
}

/* All bytes are written, and none beside them. */
static void check_traced(const Traced *row)
{
    static const uint8_t marks[] = { 0x00, 0xff, 0xa5 };
    uint8_t memory[3 * LINGUASTEL_TRACE_SIZE], *bytes = memory + LINGUASTEL_TRACE_SIZE;
    for (size_t i = 0; i < LENGTH(marks); i++) {
        memset(memory, marks[i], sizeof memory);
        check(linguastel_trace(bytes, row->call, row->answer) == row->size, "how many bytes belong in the trace");
        check(all_are(memory, LINGUASTEL_TRACE_SIZE, marks[i]), "the memory before the bytes");
        check(all_are(bytes + LINGUASTEL_TRACE_SIZE, LINGUASTEL_TRACE_SIZE, marks[i]), "the memory after the bytes");
        if (row->size > 0) {
            check(memcmp(bytes, row->bytes, row->size) == 0, "the bytes of a call");
        } else {
            check_left_out(row, bytes);
        }
    }
}

static void test_trace_bytes(void)
{
    char path[512], text[256];
    Traced row;
    size_t rows = 0;
    snprintf(path, sizeof path, "%s/trace_bytes.txt", folder);
    FILE *file = fopen(path, "r");
    check(file != NULL, path);
    while (file != NULL && fgets(text, sizeof text, file) != NULL) {
        if (text[0] == '#' || text[0] == '\n') {
            continue;
        }
        check(read_traced(text, &row) && fgets(text, sizeof text, file) != NULL, path);
        read_traced_bytes(text, &row);
        check_traced(&row);
        rows++;
    }
    check(rows == 76, "the number of rows");
    if (file != NULL) {
        fclose(file);
    }
}

static void test_trace_tick(void)
{
    static const LinguastelAnswer answers[] = { { .a = 0 }, { .a = 32 }, { .code = LINGUASTEL_E_SYS } };
    uint8_t bytes[LINGUASTEL_TRACE_SIZE], of_call[LINGUASTEL_TRACE_SIZE];
    for (size_t i = 0; i < LENGTH(answers); i++) {
        check(linguastel_trace_tick(bytes, answers[i]) == sizeof bytes, "a tick is recorded");
        linguastel_trace(of_call, (LinguastelCall){ .number = LINGUASTEL_TICK }, answers[i]);
        check(memcmp(bytes, of_call, sizeof bytes) == 0, "the bytes of a tick");
    }
}

/* The calls of a table in a row, without those of no call; nothing of a table that is refused. */
static void test_trace_table(void)
{
    static const LinguastelCall calls[] = { { .number = 24 }, { .number = 1, .object = 1, .value = 5 }, { .number = 0 }, { .number = 22, .object = 1 } };
    LinguastelAnswer cells[LENGTH(calls)];
    LinguastelRecord record;
    uint8_t bytes[(LENGTH(calls) + 1) * LINGUASTEL_TRACE_SIZE], expected[2 * LINGUASTEL_TRACE_SIZE];
    must_be_e_ok(linguastel_empty(&record));
    int32_t code = linguastel_table(&record, calls, LENGTH(calls), cells, LENGTH(cells));
    memset(bytes, 0xa5, sizeof bytes);
    check(linguastel_trace_table(bytes, calls, LENGTH(calls), cells, code) == sizeof expected, "the calls of a table");
    linguastel_trace(expected, calls[1], cells[1]);
    linguastel_trace(expected + LINGUASTEL_TRACE_SIZE, calls[3], cells[3]);
    check(memcmp(bytes, expected, sizeof expected) == 0, "the bytes of a table's calls");
    check(all_are(bytes + LENGTH(calls) * LINGUASTEL_TRACE_SIZE, LINGUASTEL_TRACE_SIZE, 0xa5), "the memory after a table's bytes");

    memset(bytes, 0xa5, sizeof bytes);
    check(linguastel_trace_table(bytes, calls, LENGTH(calls), cells, LINGUASTEL_E_PAR) == 0, "a table that is too long");
    check(linguastel_trace_table(bytes, calls, LENGTH(calls), cells, LINGUASTEL_E_SYS) == 0, "a table for a record that isn't sound");
    check(linguastel_trace_table(bytes, calls, 0, cells, LINGUASTEL_E_OK) == 0, "a table without calls");
    check(linguastel_trace_table(NULL, NULL, 0, NULL, LINGUASTEL_E_OK) == 0, "a table without calls, at no address");
    check(all_are(bytes, sizeof bytes, 0xa5), "nothing is written of such a table");
}

static uint32_t word_at(const uint8_t *bytes, size_t place)
{
    return bytes[place] | (uint32_t)bytes[place + 1] << 8 | (uint32_t)bytes[place + 2] << 16 | (uint32_t)bytes[place + 3] << 24;
}

/* Item 3's table of bytes, read. */
static LinguastelCall call_in(const uint8_t *bytes)
{
    return (LinguastelCall){
        .number = bytes[0],
        .caller = bytes[1],
        .locked = bytes[2] & 1,
        .disabled = bytes[2] & 2,
        .object = bytes[3],
        .value = word_at(bytes, 4),
        .tmout = (int32_t)word_at(bytes, 8),
        .attribute = word_at(bytes, 12),
    };
}

static bool is_answer_in(const uint8_t *bytes, LinguastelAnswer answer)
{
    uint32_t code_or_place = answer.kind == LINGUASTEL_FINISHED ? (uint32_t)answer.code : answer.place;
    bool spare_are_zero = bytes[17] == 0 && bytes[18] == 0 && bytes[19] == 0 && bytes[31] == 0;
    return bytes[16] == answer.kind && word_at(bytes, 20) == code_or_place && word_at(bytes, 24) == answer.a && bytes[28] == answer.b
        && (uint32_t)(bytes[29] | bytes[30] << 8) == answer.c && spare_are_zero;
}

/* What calls were recorded, and what became of them. */
typedef struct {
    LinguastelRecord record;
    unsigned calls;
    unsigned accepted[LINGUASTEL_LAST_CALL + 1];
    unsigned waits;
} Replay;

static void replay(Replay *to, const uint8_t *bytes, size_t size)
{
    for (size_t at = 0; at < size; at += LINGUASTEL_TRACE_SIZE) {
        LinguastelCall call = call_in(bytes + at);
        check(call.number <= LINGUASTEL_LAST_CALL && bytes[at + 2] < 4, "a known call with known flags");
        LinguastelAnswer answer = linguastel_call(&to->record, call);
        check(is_answer_in(bytes + at, answer), "the replay answers what was recorded");
        to->calls++;
        to->waits += linguastel_waits(answer);
        to->accepted[call.number] += linguastel_is_ok(answer);
    }
}

/* At times numbers that are wider than their bytes in a trace, or that nobody has. */
static LinguastelCall random_wide_call(void)
{
    static const uint32_t yes[] = { 1, 2, 256, 65536, 2147483648, 4294967295 };
    LinguastelCall call = random_call();
    call.number = noise_below(64) == 0 ? no_calls[noise_below(LENGTH(no_calls))] : call.number;
    call.caller = noise_below(16) == 0 ? too_large[noise_below(LENGTH(too_large))] : call.caller;
    call.object = noise_below(16) == 0 ? too_large[noise_below(LENGTH(too_large))] : call.object;
    call.locked = noise_below(32) == 0 ? yes[noise_below(LENGTH(yes))] : 0;
    call.disabled = noise_below(32) == 0 ? yes[noise_below(LENGTH(yes))] : 0;
    call.value = noise_below(8) == 0 ? noise() : call.value;
    call.tmout = noise_below(16) == 0 ? (int32_t)noise() : call.tmout;
    return call;
}

/* Calls by themselves, from time to time a table, and at times one with too few cells: from the empty record, recorded and replayed. */
static void test_random_traces(void)
{
    static uint8_t bytes[MOST_CALLS * LINGUASTEL_TRACE_SIZE];
    static Replay twin;
    LinguastelRecord record;
    Table table = { .call_count = 0 }, before;
    must_be_e_ok(linguastel_empty(&record));
    must_be_e_ok(linguastel_empty(&twin.record));
    while (twin.calls < 20000) {
        LinguastelCall call = random_wide_call();
        LinguastelAnswer answer = linguastel_call(&record, call);
        replay(&twin, bytes, linguastel_trace(bytes, call, answer));
        if (noise_below(32) == 0) {
            make_random_table(&table);
            table.cell_count -= noise_below(4) == 0 ? table.cell_count / 2 : 0;
            int32_t code = hand_over(&record, &table, &before);
            replay(&twin, bytes, linguastel_trace_table(bytes, table.calls, table.call_count, table.cells, code));
        }
    }
    check(same_record(&record, &twin.record), "the record of the replay");
    for (size_t number = 0; number < LENGTH(twin.accepted); number++) {
        check(twin.accepted[number] > 0, "a call of each number is accepted");
    }
    check(twin.waits > 0, "calls wait");
}

/* ---- The replay of a recording in blocks ---- */

/* More than two records. */
enum { MOST_BYTES = 2 * LINGUASTEL_TRACE_SIZE + 6 };

/* Bytes 0 are those of a tick that ended no wait; bytes 255 are those of a record that isn't run. */
static uint8_t ticks[MOST_BYTES], not_run[MOST_BYTES];

static void make_blocks(void)
{
    memset(ticks, 0, sizeof ticks);
    memset(not_run, 0xff, sizeof not_run);
}

/* Every byte of a replay belongs to a field. */
static bool same_replay(const LinguastelReplay *x, const LinguastelReplay *y)
{
    return memcmp(x, y, sizeof *x) == 0;
}

static bool same_line(LinguastelLine x, LinguastelLine y)
{
    return memcmp(&x, &y, sizeof x) == 0;
}

/* Nothing is said of the part's other bytes. */
static bool same_numbers_and_part(const LinguastelReplay *x, const LinguastelReplay *y)
{
    bool same = x->records == y->records && x->differ == y->differ && x->first == y->first && x->length == y->length;
    return same && memcmp(x->part, y->part, x->length) == 0;
}

static LinguastelLine line_of(const LinguastelReplay *replay)
{
    return (LinguastelLine){ .records = replay->records, .differ = replay->differ, .first = replay->first, .tail = replay->length };
}

/* The end gives the replay's own numbers and leaves every byte. */
static void check_ends(const LinguastelReplay *replay, const char *what)
{
    LinguastelReplay lent = *replay;
    check(same_line(linguastel_replay_end(&lent), line_of(replay)), what);
    check(same_replay(&lent, replay), what);
}

/* Refused with this code: the replay, which may only be read here, keeps every byte. */
static void check_block_refused(const LinguastelReplay *content, const uint8_t *block, size_t size, int32_t code, const char *what)
{
    LinguastelReplay *lent = lend(record_page, AT_END, PROT_READ, content, sizeof *content);
    check(linguastel_replay_feed(lent, block, size) == code, what);
    check(same_replay(lent, content), what);
}

/* A replay of the typical record: the next tick ends no wait. */
static void make_replay(LinguastelReplay *replay)
{
    fill_with_noise(replay, sizeof *replay);
    must_be_e_ok(linguastel_replay_empty(replay));
    make_typical(&replay->kernel);
}

/* What the same bytes come to by single calls. Item 3's rules, with the answers of linguastel_call. */
static void play_singly(LinguastelReplay *twin, const uint8_t *bytes, size_t size)
{
    size_t at = 0;
    for (; size - at >= LINGUASTEL_TRACE_SIZE; at += LINGUASTEL_TRACE_SIZE) {
        const uint8_t *one = bytes + at;
        bool spare_are_zero = one[17] == 0 && one[18] == 0 && one[19] == 0 && one[31] == 0;
        bool runs = one[0] <= LINGUASTEL_LAST_CALL && one[2] <= 3 && one[16] <= LINGUASTEL_WAITS && spare_are_zero;
        bool same = runs && is_answer_in(one, linguastel_call(&twin->kernel, call_in(one)));
        twin->records++;
        twin->differ += !same;
        twin->first = !same && twin->first == 0 ? twin->records : twin->first;
    }
    twin->length = size - at;
    memcpy(twin->part, bytes + at, size - at);
}

/* Noise where nothing is said: in unused fields of the record, and behind the part. */
static void spoil_replay(LinguastelReplay *replay)
{
    spoil_unused(&replay->kernel);
    fill_with_noise(replay->part + replay->length, sizeof replay->part - replay->length);
}

/* How the bytes are cut. */
typedef size_t Cut(size_t left);

static size_t at_once(size_t left)
{
    return left;
}

static size_t byte_by_byte(size_t left)
{
    return left < 1 ? left : 1;
}

/* Often less than a record, at times nothing. */
static size_t few_bytes(size_t left)
{
    size_t size = noise_below(71);
    return size < left ? size : left;
}

static size_t many_bytes(size_t left)
{
    size_t size = noise_below(4001);
    return size < left ? size : left;
}

static Cut *const cuts[] = { at_once, byte_by_byte, few_bytes, many_bytes };

/* All bytes, with an empty block before each of the others at times. The end may be asked between blocks: it tells how many bytes there were. */
static void feed_all(LinguastelReplay *replay, const uint8_t *bytes, size_t size, Cut *cut, bool spoil, const char *what)
{
    for (size_t at = 0; at < size;) {
        size_t next = cut(size - at);
        if (spoil) {
            spoil_replay(replay);
        }
        if (noise_below(8) == 0) {
            LinguastelReplay before = *replay;
            check(linguastel_replay_feed(replay, bytes + at, 0) == LINGUASTEL_E_OK, what);
            check(same_numbers_and_part(replay, &before), what);
        }
        check(linguastel_replay_feed(replay, bytes + at, next) == LINGUASTEL_E_OK, what);
        at += next;
        if (noise_below(8) == 0) {
            check(replay->records == at / LINGUASTEL_TRACE_SIZE && replay->length == at % LINGUASTEL_TRACE_SIZE, what);
            check_ends(replay, what);
        }
    }
}

/* The bytes in each way, from the empty state. Without noise the record is that of single calls, byte for byte. Gives the line. */
static LinguastelLine check_all_cuts(const uint8_t *bytes, size_t size, const char *what)
{
    LinguastelReplay twin, replay;
    must_be_e_ok(linguastel_replay_empty(&twin));
    play_singly(&twin, bytes, size);
    for (size_t i = 0; i < 2 * LENGTH(cuts); i++) {
        bool spoil = i >= LENGTH(cuts);
        fill_with_noise(&replay, sizeof replay);
        paint_stack(paints[i % 2]);
        must_be_e_ok(linguastel_replay_empty(&replay));
        feed_all(&replay, bytes, size, cuts[i % LENGTH(cuts)], spoil, what);
        check(same_numbers_and_part(&replay, &twin), what);
        check(spoil ? linguastel_sound(&replay.kernel) : same_record(&replay.kernel, &twin.kernel), what);
        check_ends(&replay, what);
    }
    return line_of(&twin);
}

/* ---- Groups: replays ---- */

static void test_replay_layout(void)
{
    check(linguastel_replay_size() == sizeof(LinguastelReplay), "the library's size of a replay");
    check(linguastel_replay_size() == LINGUASTEL_REPLAY_SIZE, "the named size");
    check(linguastel_replay_align() == _Alignof(LinguastelReplay), "the library's alignment of a replay");
    check(linguastel_replay_align() == LINGUASTEL_REPLAY_ALIGN, "the named alignment");
}

static void test_new_replay(void)
{
    LinguastelRecord record;
    LinguastelReplay replay, twin;
    must_be_e_ok(linguastel_empty(&record));
    memset(&replay, 0x11, sizeof replay);
    memset(&twin, 0xee, sizeof twin);
    paint_stack(paints[0]);
    must_be_e_ok(linguastel_replay_empty(&replay));
    paint_stack(paints[1]);
    must_be_e_ok(linguastel_replay_empty(&twin));
    check(same_replay(&replay, &twin), "whatever its bytes were");
    check(same_record(&replay.kernel, &record), "the kernel's state is the empty one");
    check(same_line(linguastel_replay_end(&replay), (LinguastelLine){ 0 }), "the line: zeros with E_OK");
    check(linguastel_replay_feed(&replay, ticks, 0) == LINGUASTEL_E_OK, "a block of no bytes");
    check(same_line(linguastel_replay_end(&replay), (LinguastelLine){ 0 }), "the line after it");
}

static const char *traces;

/* What the file has; its size, or 0 where it can't be read. */
static size_t read_trace(const char *name, const char *kind, void *bytes, size_t room)
{
    char path[512];
    snprintf(path, sizeof path, "%s/%s.%s", traces, name, kind);
    FILE *file = fopen(path, "rb");
    check(file != NULL, path);
    size_t size = file != NULL ? fread(bytes, 1, room, file) : 0;
    check(file != NULL && feof(file) && !ferror(file), path);
    if (file != NULL) {
        fclose(file);
    }
    return size;
}

/* They have records that differ or aren't run, wide and signed fields, waits, and bytes after the last whole record. */
static const char *const stored[] = {
    "empty", "one-record", "three-records", "tail-alone", "tail-1", "tail-31", "bad", "each-byte-of-an-answer", "not-run-call-24", "not-run-call-255",
    "not-run-flags-in-call", "not-run-flags-in-tick", "not-run-kind-2", "not-run-spare-17", "not-run-spare-18", "not-run-spare-19", "not-run-spare-31",
    "other-kind", "run-10", "signed-fields", "unused-fields", "waits-with-words", "wide-fields", "wide-words", "calls-1", "recorded-5",
};

static void test_stored_traces(void)
{
    static uint8_t bytes[65536];
    for (size_t i = 0; i < LENGTH(stored); i++) {
        char expected[128] = "", text[128];
        size_t size = read_trace(stored[i], "bin", bytes, sizeof bytes);
        read_trace(stored[i], "line", expected, sizeof expected - 1);
        LinguastelLine line = check_all_cuts(bytes, size, stored[i]);
        snprintf(text, sizeof text, "records %" PRIu64 " differ %" PRIu64 " first %" PRIu64 " tail %" PRIu64 "\n", line.records, line.differ,
            line.first, line.tail);
        check(strcmp(text, expected) == 0, stored[i]);
    }
}

/* Calls drawn at random, recorded; in one record of eight a byte is another one afterwards. */
static void test_random_replays(void)
{
    static uint8_t bytes[300 * LINGUASTEL_TRACE_SIZE + 31];
    unsigned differ = 0, tails = 0;
    for (unsigned i = 0; i < 40; i++) {
        LinguastelRecord record;
        size_t size = 0, room = sizeof bytes - noise_below(32) - LINGUASTEL_TRACE_SIZE;
        must_be_e_ok(linguastel_empty(&record));
        while (size < room) {
            LinguastelCall call = random_wide_call();
            size_t added = linguastel_trace(bytes + size, call, linguastel_call(&record, call));
            if (added > 0 && noise_below(8) == 0) {
                bytes[size + noise_below(LINGUASTEL_TRACE_SIZE)] ^= (uint8_t)(1u << noise_below(8));
            }
            size += added;
        }
        LinguastelLine line = check_all_cuts(bytes, size - noise_below(32), "a random recording");
        differ += line.differ > 0;
        tails += line.tail > 0;
    }
    check(differ > 0 && tails > 0, "records differ, and bytes are left over");
}

static const size_t sizes[] = { 0, 1, 31, 32, 33, 63, 64, 65, MOST_BYTES };

/* E_SYS at every block and at the end, there with four zeros; every byte stays. */
static void check_replay_refused(const LinguastelReplay *replay, const char *what)
{
    for (size_t i = 0; i < LENGTH(sizes); i++) {
        check_block_refused(replay, ticks, sizes[i], LINGUASTEL_E_SYS, what);
        check_block_refused(replay, not_run, sizes[i], LINGUASTEL_E_SYS, what);
    }
    LinguastelReplay lent = *replay;
    check(same_line(linguastel_replay_end(&lent), (LinguastelLine){ .code = LINGUASTEL_E_SYS }), what);
    check(same_replay(&lent, replay), what);
}

typedef struct {
    uint64_t records, differ, first, length;
    const char *what;
} Numbers;

static void set_numbers(LinguastelReplay *replay, const Numbers *row)
{
    replay->records = row->records;
    replay->differ = row->differ;
    replay->first = row->first;
    replay->length = row->length;
    fill_with_noise(replay->part, sizeof replay->part);
}

/* In 32 bits, 4294967296 and 4294967297 would be 0 and 1. */
static const Numbers refused_numbers[] = {
    { 5, 2, 3, 32, "a part of 32 bytes" },
    { 0, 0, 0, 32, "a part of 32 bytes, before the first record" },
    { 5, 2, 3, 33, "a part of 33 bytes" },
    { 5, 2, 3, 64, "a part of 64 bytes" },
    { 5, 2, 3, 256, "a part of 256 bytes" },
    { 5, 2, 3, 4294967296, "a part of 4294967296 bytes" },
    { 5, 2, 3, UINT64_MAX, "a part of all bits" },
    { 5, 6, 3, 0, "differ just above records" },
    { 5, 4294967297, 3, 0, "differ far above records" },
    { 5, UINT64_MAX, 3, 0, "differ of all bits" },
    { UINT64_MAX - 1, UINT64_MAX, 3, 0, "differ above the largest records but one" },
    { 5, 2, 6, 0, "first just above records" },
    { 5, 2, 4294967297, 0, "first far above records" },
    { 5, 2, UINT64_MAX, 0, "first of all bits" },
    { UINT64_MAX - 1, 3, UINT64_MAX, 0, "first above the largest records but one" },
    { 0, 1, 1, 0, "differ and first above no records" },
    { 5, 1, 0, 0, "differ 1 and no first" },
    { 5, 5, 0, 0, "differ as large as records and no first" },
    { 4294967296, 4294967296, 0, 0, "differ 4294967296 and no first" },
    { 5, 0, 1, 0, "first 1 and none differs" },
    { 5, 0, 5, 0, "first as large as records and none differs" },
    { 4294967296, 0, 4294967296, 0, "first 4294967296 and none differs" },
    { UINT64_MAX, 2, 3, 32, "E_SYS by the part, before E_PAR" },
    { UINT64_MAX, 1, 0, 31, "E_SYS by differ alone, before E_PAR" },
    { UINT64_MAX, 0, 1, 31, "E_SYS by first alone, before E_PAR" },
};

/* Each rule by itself, with the nearest numbers that it refuses. */
static void test_replay_numbers_refused(void)
{
    LinguastelReplay replay;
    make_replay(&replay);
    for (size_t i = 0; i < LENGTH(refused_numbers); i++) {
        set_numbers(&replay, &refused_numbers[i]);
        check_replay_refused(&replay, refused_numbers[i].what);
        spoil_unused(&replay.kernel);
    }
}

/* All numbers are right, and just the kernel's state isn't; with the most records E_SYS comes before E_PAR. */
static void test_replay_of_unsound_records(void)
{
    LinguastelReplay typical, replay;
    make_replay(&typical);
    set_numbers(&typical, &(Numbers){ 5, 2, 3, 31, "" });
    for (size_t i = 0; i < LENGTH(faults); i++) {
        replay = typical;
        ((uint8_t *)&replay.kernel)[faults[i].offset] = faults[i].value;
        check_replay_refused(&replay, faults[i].what);
        replay.records = UINT64_MAX;
        check_replay_refused(&replay, faults[i].what);
    }
    for (int i = 0; i < 50; i++) {
        fill_with_noise(&replay.kernel, sizeof replay.kernel);
        check_replay_refused(&replay, "a kernel state of random bytes");
        fill_with_noise(&replay, sizeof replay);
        check_replay_refused(&replay, "a replay of random bytes");
    }
}

/* Nothing more is asked, though no recording leads to some of these. */
static const Numbers let_through[] = {
    { 0, 0, 0, 0, "no record" },
    { 0, 0, 0, 31, "no record, and a part of 31 bytes" },
    { 5, 0, 0, 31, "a part of 31 bytes" },
    { 5, 2, 5, 0, "two differ, and the last is the first of them" },
    { 5, 5, 1, 1, "all differ" },
    { 5, 5, 5, 1, "all differ, and the last is the first of them" },
    { 5, 1, 1, 30, "the first record differs" },
    { 5, 1, 5, 30, "the last record differs" },
    { 1, 1, 1, 31, "the only record differs" },
    { 4294967296, 1, 1, 31, "records that are 0 in 32 bits" },
    { 4294967296, 4294967296, 4294967296, 31, "numbers that are 0 in 32 bits" },
    { UINT64_MAX - 3, UINT64_MAX - 3, UINT64_MAX - 3, 31, "the largest numbers but three" },
};

/* The bytes behind the part are those of ticks, or of records that aren't run; so are those of the part. */
static void check_let_through(const LinguastelReplay *content, const Numbers *row, const uint8_t *bytes, size_t size)
{
    LinguastelReplay replay = *content, twin;
    memcpy(replay.part, bytes, row->length);
    twin = replay;
    check_ends(&replay, row->what);
    uint8_t whole[LINGUASTEL_TRACE_SIZE + MOST_BYTES];
    memcpy(whole, replay.part, row->length);
    memcpy(whole + row->length, bytes, size);
    play_singly(&twin, whole, row->length + size);
    check(linguastel_replay_feed(&replay, bytes, size) == LINGUASTEL_E_OK, row->what);
    check(same_numbers_and_part(&replay, &twin), row->what);
    check(same_record(&replay.kernel, &twin.kernel), row->what);
    check_ends(&replay, row->what);
}

static void test_replay_numbers_let_through(void)
{
    LinguastelReplay replay;
    make_replay(&replay);
    for (size_t i = 0; i < LENGTH(let_through); i++) {
        set_numbers(&replay, &let_through[i]);
        for (size_t k = 0; k < LENGTH(sizes); k++) {
            check_let_through(&replay, &let_through[i], ticks, sizes[k]);
            check_let_through(&replay, &let_through[i], not_run, sizes[k]);
        }
    }
}

/* With so many records to go, and every part, blocks of every length: E_PAR exactly where there is a record too many. */
static void check_room(LinguastelReplay *content, uint64_t room)
{
    for (size_t size = 0; size <= MOST_BYTES; size++) {
        uint64_t added = (content->length + size) / LINGUASTEL_TRACE_SIZE;
        if (added > room) {
            check_block_refused(content, not_run, size, LINGUASTEL_E_PAR, "a record too many");
            continue;
        }
        LinguastelReplay replay = *content;
        check(linguastel_replay_feed(&replay, not_run, size) == LINGUASTEL_E_OK, "up to the last record");
        check(replay.records == content->records + added && replay.differ == content->differ + added, "the numbers up to the last record");
        check(replay.first == content->first && replay.length == (content->length + size) % LINGUASTEL_TRACE_SIZE, "first and the part");
        check(same_record(&replay.kernel, &content->kernel), "the kernel's state after records that aren't run");
        check_ends(&replay, "the line up to the last record");
    }
}

static void test_most_records(void)
{
    LinguastelReplay replay;
    make_replay(&replay);
    for (uint64_t room = 0; room <= 3; room++) {
        for (uint64_t length = 0; length < LINGUASTEL_TRACE_SIZE; length++) {
            set_numbers(&replay, &(Numbers){ UINT64_MAX - room, UINT64_MAX - room, 1, length, "" });
            check_room(&replay, room);
        }
    }
    set_numbers(&replay, &(Numbers){ UINT64_MAX - 1, 0, 0, 0, "" });
    check(linguastel_replay_feed(&replay, not_run, LINGUASTEL_TRACE_SIZE) == LINGUASTEL_E_OK, "the last record");
    LinguastelLine line = { .records = UINT64_MAX, .differ = 1, .first = UINT64_MAX };
    check(same_line(linguastel_replay_end(&replay), line), "the line where the last record is the first that differs");
    check(linguastel_replay_feed(&replay, ticks, 31) == LINGUASTEL_E_OK, "bytes that complete nothing");
    check_block_refused(&replay, ticks, 1, LINGUASTEL_E_PAR, "one byte that completes a record");
    check_block_refused(&replay, ticks, MOST_BYTES, LINGUASTEL_E_PAR, "more bytes than that");
    check(linguastel_replay_feed(&replay, ticks, 0) == LINGUASTEL_E_OK, "a block of no bytes");
    line.tail = 31;
    check(same_line(linguastel_replay_end(&replay), line), "the line with the part");
}

/* A block with either paint on the stack: the replay comes out the same, byte for byte, and without a byte of paint. Its blocks hold calls with answers. */
static void test_blocks_on_paint(void)
{
    LinguastelReplay content, replays[LENGTH(paints)];
    uint8_t bytes[LENGTH(not_refused) * LINGUASTEL_TRACE_SIZE];
    size_t size = 0;
    must_be_e_ok(linguastel_replay_empty(&content));
    make_various(&content.kernel);
    for (size_t i = 0; i < LENGTH(not_refused); i++) {
        size += linguastel_trace(bytes + size, not_refused[i], linguastel_refusal(LINGUASTEL_E_OK));
    }
    check(size == sizeof bytes && !has_paint(bytes, size), "the block before it is fed");
    for (size_t length = 0; length <= size; length += 37) {
        for (size_t i = 0; i < LENGTH(paints); i++) {
            replays[i] = content;
            paint_stack(paints[i]);
            must_be_e_ok(linguastel_replay_feed(&replays[i], bytes, length));
            paint_stack(paints[i]);
            must_be_e_ok(linguastel_replay_end(&replays[i]).code);
        }
        check(same_replay(&replays[0], &replays[1]), "a byte comes from the stack");
        check(!has_paint(&replays[0], sizeof replays[0]), "a byte of paint");
    }
    for (size_t i = 0; i < LENGTH(paints); i++) {
        memset(&replays[i], paints[i], sizeof replays[i]);
        paint_stack(paints[i]);
        must_be_e_ok(linguastel_replay_empty(&replays[i]));
    }
    check(same_replay(&replays[0], &replays[1]) && !has_paint(&replays[0], sizeof replays[0]), "a new replay");
}

/* A replay and a block, each at the edge of a page. */
typedef struct {
    LinguastelReplay *replay;
    const uint8_t *block;
    size_t size;
    int32_t code;
    LinguastelLine line;
} LentReplay;

static void feed_lent(void *with)
{
    LentReplay *lent = with;
    lent->code = linguastel_replay_feed(lent->replay, lent->block, lent->size);
}

static void end_lent(void *with)
{
    LentReplay *lent = with;
    lent->line = linguastel_replay_end(lent->replay);
}

/* The block may only be read; for the end so may the replay. */
static LentReplay lend_replay(const LinguastelReplay *replay, const uint8_t *block, size_t size, Place place, int access)
{
    return (LentReplay){
        .replay = lend(record_page, place, access, replay, sizeof *replay),
        .block = lend(calls_page, place, PROT_READ, block, size),
        .size = size,
    };
}

static void test_replay_edges(void)
{
    LinguastelReplay replay;
    make_replay(&replay);
    set_numbers(&replay, &(Numbers){ 5, 2, 3, 7, "" });
    for (size_t size = 0; size <= MOST_BYTES; size++) {
        for (Place place = AT_START; place <= AT_END; place++) {
            LentReplay lent = lend_replay(&replay, not_run, size, place, PROT_READ | PROT_WRITE);
            check(!is_caught(feed_lent, &lent), "no memory is touched but what is lent");
            check(lent.code == LINGUASTEL_E_OK && lent.replay->records == 5 + (7 + size) / LINGUASTEL_TRACE_SIZE, "a block at the edge of a page");
        }
    }
    for (Place place = AT_START; place <= AT_END; place++) {
        LentReplay lent = lend_replay(&replay, not_run, 0, place, PROT_READ);
        check(!is_caught(end_lent, &lent), "the end only reads");
        check(same_line(lent.line, line_of(&replay)), "the line of a replay that may only be read");
    }
    LentReplay short_of_bytes = lend_replay(&replay, not_run, 40, AT_END, PROT_READ | PROT_WRITE);
    short_of_bytes.size++;
    check(is_caught(feed_lent, &short_of_bytes), "a byte that isn't lent is caught");
}

static void test_replay_neighbours(void)
{
    static struct {
        uint8_t before[256];
        LinguastelReplay replay;
        uint8_t after[256];
    } memory;
    memset(&memory, 0xA5, sizeof memory);
    must_be_e_ok(linguastel_replay_empty(&memory.replay));
    for (size_t i = 0; i < LENGTH(sizes); i++) {
        must_be_e_ok(linguastel_replay_feed(&memory.replay, ticks, sizes[i]));
        must_be_e_ok(linguastel_replay_feed(&memory.replay, not_run, sizes[i]));
        must_be_e_ok(linguastel_replay_end(&memory.replay).code);
    }
    memory.replay.length = 32;
    check(linguastel_replay_feed(&memory.replay, ticks, 1) == LINGUASTEL_E_SYS, "a part of 32 bytes");
    check(all_are(memory.before, sizeof memory.before, 0xA5), "the bytes before the replay");
    check(all_are(memory.after, sizeof memory.after, 0xA5), "the bytes after the replay");
}

/* With this pointer, which leads to no replay. */
static void check_no_replay(LinguastelReplay *pointer)
{
    check(linguastel_replay_empty(pointer) == LINGUASTEL_E_SYS, "empty");
    check(linguastel_replay_feed(pointer, ticks, 1) == LINGUASTEL_E_SYS, "a block");
    check(linguastel_replay_feed(pointer, ticks, 0) == LINGUASTEL_E_SYS, "a block of no bytes");
    check(linguastel_replay_feed(pointer, NULL, 0) == LINGUASTEL_E_SYS, "a block of no bytes, at no address");
    check(linguastel_replay_feed(pointer, NULL, 1) == LINGUASTEL_E_SYS, "a block at no address");
    check(same_line(linguastel_replay_end(pointer), (LinguastelLine){ .code = LINGUASTEL_E_SYS }), "the end");
}

/* Behind a misaligned pointer stands a replay that is let through, so that nothing but the pointer is wrong. */
static void test_replay_pointers(void)
{
    static _Alignas(LinguastelReplay) uint8_t memory[LINGUASTEL_REPLAY_SIZE + LINGUASTEL_REPLAY_ALIGN];
    static uint8_t before[sizeof memory];
    LinguastelReplay replay;
    make_replay(&replay);
    check_no_replay(NULL);
    for (size_t offset = 1; offset < LINGUASTEL_REPLAY_ALIGN; offset++) {
        memcpy(memory + offset, &replay, sizeof replay);
        memcpy(before, memory, sizeof memory);
        check_no_replay((LinguastelReplay *)(void *)(memory + offset));
        check(memcmp(memory, before, sizeof memory) == 0, "no memory is touched");
    }
}

/* A block may stand at any address; at none it has no bytes. */
static void test_block_pointers(void)
{
    LinguastelReplay replay, content;
    make_replay(&replay);
    set_numbers(&replay, &(Numbers){ 5, 2, 3, 7, "" });
    content = replay;
    check(linguastel_replay_feed(&replay, NULL, 1) == LINGUASTEL_E_PAR, "a block at no address");
    check(linguastel_replay_feed(&replay, NULL, SIZE_MAX) == LINGUASTEL_E_PAR, "a long block at no address");
    check(same_replay(&replay, &content), "the replay of a block at no address");
    check(linguastel_replay_feed(&replay, NULL, 0) == LINGUASTEL_E_OK, "a block of no bytes, at no address");
    check(same_numbers_and_part(&replay, &content), "the replay of a block of no bytes");
    for (size_t offset = 0; offset < 8; offset++) {
        replay = content;
        check(linguastel_replay_feed(&replay, not_run + offset, 25) == LINGUASTEL_E_OK, "a block at any address");
        LinguastelLine line = { .records = 6, .differ = 3, .first = 3 };
        check(same_line(linguastel_replay_end(&replay), line), "the line of a block at any address");
    }
    content.length = 32;
    replay = content;
    check(linguastel_replay_feed(&replay, NULL, 1) == LINGUASTEL_E_SYS, "E_SYS before E_PAR");
    check(linguastel_replay_feed(&replay, NULL, 0) == LINGUASTEL_E_SYS, "E_SYS with a block of no bytes, at no address");
    check(same_line(linguastel_replay_end(&replay), (LinguastelLine){ .code = LINGUASTEL_E_SYS }), "E_SYS at the end");
    check(same_replay(&replay, &content), "the replay that isn't let through");
    check(linguastel_replay_empty(&replay) == LINGUASTEL_E_OK && replay.records == 0 && replay.length == 0, "a new replay");
}

/* ---- All groups ---- */

static const struct {
    const char *name;
    void (*test)(void);
} groups[] = {
    { "size and alignment of the record", test_layout },
    { "versions, and whether the libraries fit", test_version },
    { "records and replays of zeros", test_zeros },
    { "bytes before and after the record", test_neighbours },
    { "null and misaligned pointers", test_pointers },
    { "callers and objects that nobody has", test_callers_and_objects },
    { "unknown call numbers", test_unknown_numbers },
    { "locked and disabled as numbers", test_locked_and_disabled },
    { "records of random bytes", test_random_bytes },
    { "records with one fault", test_faults },
    { "records with damaged flags", test_damaged_flags },
    { "calls that write nothing", test_writes_nothing },
    { "the painted stack", test_paint },
    { "calls on a painted stack", test_calls_on_paint },
    { "a table on a painted stack", test_table_on_paint },
    { "records from painted memory", test_records_on_paint },
    { "bytes of the stack, with noise in unused fields", test_stack },
    { "the record as C sees it", test_view },
    { "time-outs", test_time_outs },
    { "tables, long and short", test_table_lengths },
    { "tables at the edge of a page", test_table_edges },
    { "null and misaligned tables", test_table_pointers },
    { "tables with numbers of no call", test_table_numbers },
    { "tables with a refused call", test_table_with_refused_call },
    { "a table with a wait", test_table_with_wait },
    { "tables of refused calls", test_tables_of_refusals },
    { "random tables", test_random_tables },
    { "random tables, with noise in unused fields", test_tables_with_noise },
    { "the sixteen runs of document 01", test_sixteen_runs },
    { "each call, accepted", test_each_call },
    { "the error table", test_error_table },
    { "answers that wait", test_waits },
    { "names in words", test_names },
    { "the causes of E_SYS", test_causes },
    { "iterators", test_iterators },
    { "masks of all tasks", test_masks },
    { "masks around a call", test_scheduler },
    { "traces at null and misaligned pointers", test_trace_pointers },
    { "the bytes of recorded calls", test_trace_bytes },
    { "the bytes of a tick", test_trace_tick },
    { "the bytes of a table", test_trace_table },
    { "random calls, recorded and replayed", test_random_traces },
    { "size and alignment of a replay", test_replay_layout },
    { "a new replay", test_new_replay },
    { "stored traces, cut anywhere", test_stored_traces },
    { "random recordings, cut anywhere", test_random_replays },
    { "replays with numbers that are refused", test_replay_numbers_refused },
    { "replays with a record that isn't sound", test_replay_of_unsound_records },
    { "replays with numbers that are let through", test_replay_numbers_let_through },
    { "the most records of a replay", test_most_records },
    { "blocks on a painted stack", test_blocks_on_paint },
    { "replays and blocks at the edge of a page", test_replay_edges },
    { "bytes before and after a replay", test_replay_neighbours },
    { "null and misaligned replays", test_replay_pointers },
    { "blocks at no address and at odd ones", test_block_pointers },
};

int main(int count, char **arguments)
{
    folder = count > 1 ? arguments[1] : "hosts/runs";
    traces = count > 2 ? arguments[2] : "compare/corpus";
    make_blocks();
    record_page = new_page();
    calls_page = new_page();
    cells_page = new_page();
    for (size_t i = 0; i < LENGTH(groups); i++) {
        unsigned before = checks;
        group = groups[i].name;
        groups[i].test();
        printf("%s: %u checks\n", group, checks - before);
    }
    printf("%u checks, %u failed\n", checks, failed);
    return failed == 0 ? EXIT_SUCCESS : EXIT_FAILURE;
}
