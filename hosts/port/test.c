/*
 * Tests of the port: tasks that wait, are released, suspended, timed out and deleted under, one by one; then senders and receivers against each other while
 * a handler disturbs them. The last line is 'N passed, M failed'; the exit status is 1 where one failed. Where a thread waits for ever, the watchdog ends
 * the run with status 1.
 */
#define _POSIX_C_SOURCE 200809L
#include <pthread.h>
#include <sched.h>
#include <signal.h>
#include <stdatomic.h>
#include <stdio.h>
#include <string.h>
#include <time.h>
#include <unistd.h>

#include "itron.h"

enum { TASKS = 17, OPERATOR = 17, SENDERS = 8, RECEIVERS = 8, MOST_WORDS = 4500, LETTERS = 40, WATCHDOG_SECONDS = 120 };

/* What the scenarios use; the queues have capacity 0 where a scenario doesn't say more. */
enum { QUEUE_OF_SENDERS = 1, QUEUE_OF_RECEIVERS = 2, MAILBOX = 1, FREE_LETTERS = 16, NOBODYS = 9 };

typedef struct {
    T_MSG_PRI header;
    VP_INT sender;
    VP_INT number;
} Letter;

/* Message n is letters[n]. The first and the last are none: the kernel has more numbers, but these blocks aren't handed to the port. */
static Letter letters[LETTERS + 2];

#define LETTER(n) (&letters[n].header.msgque)

/* ---- Checks; the main thread alone makes them ---- */

static int passed;
static int failed;
static const char *volatile scenario = "";

static bool holds(bool condition, const char *what, int line)
{
    *(condition ? &passed : &failed) += 1;
    if (!condition) {
        printf("FAILED: %s, line %d: %s\n", scenario, line, what);
    }
    return condition;
}

static void gives(ER expected, ER code, const char *what, int line)
{
    if (!holds(code == expected, what, line)) {
        printf("    gives %s, not %s\n", linguastel_code_name(code), linguastel_code_name(expected));
    }
}

#define HOLDS(condition) holds((condition), #condition, __LINE__)
#define GIVES(code, call) gives((code), (call), #call, __LINE__)

static void bark(int number)
{
    (void)number;
    ssize_t written = write(STDOUT_FILENO, "FAILED: a thread waits for ever: ", 33);
    written += write(STDOUT_FILENO, scenario, strlen(scenario));
    written += write(STDOUT_FILENO, "\n", 1);
    _exit(written > 0 ? 1 : 2);
}

static void pause_ms(long ms)
{
    nanosleep(&(struct timespec){ .tv_sec = ms / 1000, .tv_nsec = ms % 1000 * 1000000 }, NULL);
}

/* ---- Tasks that are given work ---- */

typedef struct Job {
    ER (*work)(struct Job *job);
    ID task; /* whose job it is */
    ID object; /* this and the next two are what the work is given */
    int count;
    TMO tmout;
    VP_INT word; /* given or received */
    T_MSG *message; /* received */
    ER code; /* what the work came to */
    bool busy;
} Job;

typedef ER Work(Job *job);

static Job jobs[TASKS + 1];
static pthread_mutex_t desk = PTHREAD_MUTEX_INITIALIZER; /* for busy, and for what a job is given and comes to */
static pthread_cond_t changed = PTHREAD_COND_INITIALIZER;

static void serve(VP exinf)
{
    Job *job = exinf;
    for (;;) {
        pthread_mutex_lock(&desk);
        while (!job->busy) {
            pthread_cond_wait(&changed, &desk);
        }
        pthread_mutex_unlock(&desk);
        ER code = job->work(job);
        pthread_mutex_lock(&desk);
        job->code = code;
        job->busy = false;
        pthread_cond_broadcast(&changed);
        pthread_mutex_unlock(&desk);
    }
}

static void begin(ID task, Job job)
{
    job.task = task;
    job.busy = true;
    pthread_mutex_lock(&desk);
    jobs[task] = job;
    pthread_cond_broadcast(&changed);
    pthread_mutex_unlock(&desk);
}

static ER end(ID task)
{
    pthread_mutex_lock(&desk);
    while (jobs[task].busy) {
        pthread_cond_wait(&changed, &desk);
    }
    ER code = jobs[task].code;
    pthread_mutex_unlock(&desk);
    return code;
}

/* Whether the task is still at its work after a time in which it would have come back, had it been woken. */
static bool is_stopped(ID task)
{
    pause_ms(10);
    pthread_mutex_lock(&desk);
    bool busy = jobs[task].busy;
    pthread_mutex_unlock(&desk);
    return busy;
}

/* Comes back when the task is in this state; the watchdog watches over it. */
static void until(ID task, STAT state)
{
    T_RTST now = { 0 };
    while (iref_tst(task, &now) == E_OK && now.tskstat != state) {
        sched_yield();
    }
}

static bool is_in(ID task, STAT state, STAT wait)
{
    T_RTST now = { 0 };
    return iref_tst(task, &now) == E_OK && now.tskstat == state && now.tskwait == wait;
}

static ER as_operator(Work *work, ID object)
{
    begin(OPERATOR, (Job){ .work = work, .object = object });
    return end(OPERATOR);
}

/* ---- Works ---- */

static ER send(Job *job)
{
    return job->tmout == TMO_FEVR ? snd_dtq(job->object, job->word) : tsnd_dtq(job->object, job->word, job->tmout);
}

static ER receive(Job *job)
{
    return job->tmout == TMO_FEVR ? rcv_dtq(job->object, &job->word) : trcv_dtq(job->object, &job->word, job->tmout);
}

static ER receive_letter(Job *job)
{
    return job->tmout == TMO_FEVR ? rcv_mbx(job->object, &job->message) : trcv_mbx(job->object, &job->message, job->tmout);
}

static ER delete_queue(Job *job)
{
    return del_dtq(job->object);
}

static ER delete_mailbox(Job *job)
{
    return del_mbx(job->object);
}

static ER release(Job *job)
{
    return rel_wai(job->object);
}

static ER suspend(Job *job)
{
    return sus_tsk(job->object);
}

static ER resume(Job *job)
{
    return rsm_tsk(job->object);
}

/* ---- The three kinds of waits ---- */

static const struct {
    Work *work;
    ID object;
    STAT wait;
} kinds[] = {
    { send, QUEUE_OF_SENDERS, TTW_SDTQ },
    { receive, QUEUE_OF_RECEIVERS, TTW_RDTQ },
    { receive_letter, MAILBOX, TTW_MBX },
};

enum { KINDS = sizeof kinds / sizeof kinds[0] };

static void create_objects(void)
{
    GIVES(E_OK, cre_dtq(QUEUE_OF_SENDERS, &(T_CDTQ){ .dtqatr = TA_TFIFO, .dtqcnt = 0 }));
    GIVES(E_OK, cre_dtq(QUEUE_OF_RECEIVERS, &(T_CDTQ){ .dtqatr = TA_TFIFO, .dtqcnt = 0 }));
    GIVES(E_OK, cre_mbx(MAILBOX, &(T_CMBX){ .mbxatr = TA_TFIFO | TA_MFIFO }));
}

static void delete_objects(void)
{
    GIVES(E_OK, as_operator(delete_queue, QUEUE_OF_SENDERS));
    GIVES(E_OK, as_operator(delete_queue, QUEUE_OF_RECEIVERS));
    GIVES(E_OK, as_operator(delete_mailbox, MAILBOX));
}

/* Tasks 1 to count wait, of each kind in turn; a sender with its number as the word. */
static void start_waits(int count, TMO tmout)
{
    for (ID task = 1; task <= count; task++) {
        int kind = (task - 1) % KINDS;
        begin(task, (Job){ .work = kinds[kind].work, .object = kinds[kind].object, .tmout = tmout, .word = task });
        until(task, TTS_WAI);
        HOLDS(is_in(task, TTS_WAI, kinds[kind].wait));
    }
}

static void waits_end_with(int count, ER code)
{
    for (ID task = 1; task <= count; task++) {
        GIVES(code, end(task));
    }
}

/* Serves one wait of each kind, of tasks 1 to 3. */
static void serve_waits(void)
{
    VP_INT word = 0;
    GIVES(E_OK, iprcv_dtq(QUEUE_OF_SENDERS, &word));
    HOLDS(word == 1);
    GIVES(E_OK, ipsnd_dtq(QUEUE_OF_RECEIVERS, -7));
    GIVES(E_OK, isnd_mbx(MAILBOX, LETTER(LETTERS)));
}

static void waits_were_served(void)
{
    waits_end_with(KINDS, E_OK);
    HOLDS(jobs[2].word == -7);
    HOLDS(jobs[3].message == LETTER(LETTERS));
}

/* ---- Scenarios: one thing at a time ---- */

static void refusals_of_context(void)
{
    VP_INT word;
    T_MSG *message;
    GIVES(E_CTX, del_dtq(QUEUE_OF_SENDERS));
    GIVES(E_CTX, snd_dtq(QUEUE_OF_SENDERS, 1));
    GIVES(E_CTX, tsnd_dtq(QUEUE_OF_SENDERS, 1, TMO_POL));
    GIVES(E_CTX, rcv_dtq(QUEUE_OF_RECEIVERS, &word));
    GIVES(E_CTX, trcv_dtq(QUEUE_OF_RECEIVERS, &word, TMO_POL));
    GIVES(E_CTX, del_mbx(MAILBOX));
    GIVES(E_CTX, rcv_mbx(MAILBOX, &message));
    GIVES(E_CTX, trcv_mbx(MAILBOX, &message, TMO_POL));
}

static void refusals_of_numbers(void)
{
    VP_INT word;
    GIVES(E_ID, psnd_dtq(0, 1));
    GIVES(E_ID, psnd_dtq(-1, 1));
    GIVES(E_ID, psnd_dtq(17, 1));
    GIVES(E_ID, prcv_dtq(300, &word));
    GIVES(E_ID, sus_tsk(0));
    GIVES(E_ID, port_task(33, 1, serve, NULL));
    GIVES(E_PAR, port_task(32, 17, serve, NULL));
    GIVES(E_OBJ, port_task(1, 1, serve, NULL));
    GIVES(E_NOEXS, psnd_dtq(NOBODYS, 1));
    GIVES(E_NOEXS, isnd_mbx(NOBODYS, LETTER(1)));
    GIVES(E_NOEXS, irel_wai(32));
    GIVES(E_OBJ, irel_wai(1));
    GIVES(E_OBJ, irsm_tsk(1));
    GIVES(E_OBJ, cre_dtq(QUEUE_OF_SENDERS, &(T_CDTQ){ .dtqcnt = 0 }));
    GIVES(E_PAR, cre_dtq(NOBODYS, &(T_CDTQ){ .dtqcnt = 17 }));
    GIVES(E_PAR, cre_mbx(NOBODYS, &(T_CMBX){ .mbxatr = TA_MPRI, .maxmpri = -1 }));
    GIVES(E_ILUSE, ifsnd_dtq(QUEUE_OF_SENDERS, 1));
    GIVES(E_ILUSE, fsnd_dtq(QUEUE_OF_SENDERS, 1));
}

static void refusals_of_pointers(void)
{
    static T_MSG_PRI elsewhere;
    GIVES(E_PAR, cre_dtq(NOBODYS, NULL));
    GIVES(E_PAR, cre_mbx(NOBODYS, NULL));
    GIVES(E_PAR, prcv_dtq(QUEUE_OF_RECEIVERS, NULL));
    GIVES(E_PAR, prcv_mbx(MAILBOX, NULL));
    GIVES(E_PAR, ref_dtq(QUEUE_OF_RECEIVERS, NULL));
    GIVES(E_PAR, ref_mbx(MAILBOX, NULL));
    GIVES(E_PAR, ref_tst(1, NULL));
    GIVES(E_PAR, port_task(32, 1, NULL, NULL));
    GIVES(E_PAR, snd_mbx(MAILBOX, NULL));
    GIVES(E_PAR, snd_mbx(MAILBOX, &elsewhere.msgque));
    GIVES(E_PAR, snd_mbx(MAILBOX, (T_MSG *)(void *)&letters[1].sender));
    GIVES(E_PAR, snd_mbx(MAILBOX, LETTER(0)));
    GIVES(E_PAR, snd_mbx(MAILBOX, LETTER(LETTERS + 1)));
    GIVES(E_ID, snd_mbx(0, NULL));
    GIVES(E_PAR, port_messages(NULL, sizeof(Letter), 1));
    GIVES(E_PAR, port_messages(letters, sizeof(T_MSG), 1));
    GIVES(E_PAR, port_messages(letters, sizeof(Letter) + 1, 1));
    GIVES(E_PAR, port_messages((char *)letters + 1, sizeof(Letter), 1));
    GIVES(E_PAR, port_messages(letters, sizeof(Letter), LINGUASTEL_MESSAGES + 1));
    GIVES(E_OBJ, port_messages(letters + 1, sizeof(Letter), LETTERS));
}

static ER look_at_itself(Job *job)
{
    T_RTST state = { 0 };
    ER code = ref_tst(job->task, &state);
    job->word = (VP_INT)state.tskstat;
    return code;
}

static void polls(void)
{
    VP_INT word = 0;
    T_RDTQ queue;
    GIVES(E_OK, as_operator(look_at_itself, 0));
    HOLDS(jobs[OPERATOR].word == TTS_RUN);
    GIVES(E_TMOUT, psnd_dtq(QUEUE_OF_SENDERS, 1));
    GIVES(E_TMOUT, iprcv_dtq(QUEUE_OF_SENDERS, &word));
    GIVES(E_OK, cre_dtq(NOBODYS, &(T_CDTQ){ .dtqatr = TA_TPRI, .dtqcnt = 2 }));
    GIVES(E_OK, psnd_dtq(NOBODYS, 10));
    GIVES(E_OK, fsnd_dtq(NOBODYS, 11));
    GIVES(E_OK, ifsnd_dtq(NOBODYS, INT32_MIN));
    GIVES(E_TMOUT, ipsnd_dtq(NOBODYS, 12));
    GIVES(E_OK, ref_dtq(NOBODYS, &queue));
    HOLDS(queue.stskid == TSK_NONE && queue.rtskid == TSK_NONE && queue.sdtqcnt == 2);
    GIVES(E_OK, prcv_dtq(NOBODYS, &word));
    HOLDS(word == 11);
    GIVES(E_OK, iprcv_dtq(NOBODYS, &word));
    HOLDS(word == INT32_MIN);
    GIVES(E_TMOUT, prcv_dtq(NOBODYS, &word));
    HOLDS(word == INT32_MIN);
    GIVES(E_OK, as_operator(delete_queue, NOBODYS));
}

static void served(void)
{
    T_RDTQ queue;
    T_RMBX mailbox;
    start_waits(KINDS, TMO_FEVR);
    GIVES(E_OK, iref_dtq(QUEUE_OF_SENDERS, &queue));
    HOLDS(queue.stskid == 1 && queue.rtskid == TSK_NONE && queue.sdtqcnt == 0);
    GIVES(E_OK, iref_dtq(QUEUE_OF_RECEIVERS, &queue));
    HOLDS(queue.stskid == TSK_NONE && queue.rtskid == 2 && queue.sdtqcnt == 0);
    GIVES(E_OK, iref_mbx(MAILBOX, &mailbox));
    HOLDS(mailbox.wtskid == 3 && mailbox.pk_msg == NULL);
    serve_waits();
    waits_were_served();
}

static void released(void)
{
    VP_INT word;
    start_waits(2 * KINDS, TMO_FEVR);
    for (ID task = 1; task <= 2 * KINDS; task++) {
        GIVES(E_OK, task <= KINDS ? irel_wai(task) : as_operator(release, task));
        GIVES(E_RLWAI, end(task));
        GIVES(E_OBJ, irel_wai(task));
    }
    GIVES(E_TMOUT, iprcv_dtq(QUEUE_OF_SENDERS, &word));
}

static void deleted(void)
{
    T_RDTQ queue;
    T_RMBX mailbox;
    start_waits(3 * KINDS, TMO_FEVR);
    HOLDS(is_stopped(1) && is_stopped(2) && is_stopped(3));
    delete_objects();
    waits_end_with(3 * KINDS, E_DLT);
    GIVES(E_NOEXS, iref_dtq(QUEUE_OF_SENDERS, &queue));
    GIVES(E_NOEXS, iref_dtq(QUEUE_OF_RECEIVERS, &queue));
    GIVES(E_NOEXS, iref_mbx(MAILBOX, &mailbox));
    create_objects();
}

static void timed_out(void)
{
    start_waits(2 * KINDS, 2);
    GIVES(E_OK, isig_tim());
    GIVES(E_OK, isig_tim());
    for (ID task = 1; task <= 2 * KINDS; task++) {
        HOLDS(is_in(task, TTS_WAI, kinds[(task - 1) % KINDS].wait));
    }
    GIVES(E_OK, isig_tim());
    waits_end_with(2 * KINDS, E_TMOUT);
    start_waits(KINDS, LINGUASTEL_LONGEST_TMOUT);
    GIVES(E_OK, isig_tim());
    serve_waits();
    waits_were_served();
}

/* A thread that is no task works until it is over; it comes back with refused, or with null. */
static pthread_t handler;
static atomic_bool over;
static char refused;

static void begin_handler(void *(*work)(void *))
{
    over = false;
    HOLDS(pthread_create(&handler, NULL, work, NULL) == 0);
}

static void end_handler(void)
{
    void *ended = &refused;
    over = true;
    HOLDS(pthread_join(handler, &ended) == 0 && ended == NULL);
}

static void *tick_each_ms(void *unused)
{
    while (!over) {
        pause_ms(1);
        if (isig_tim() != E_OK) {
            return &refused;
        }
    }
    return unused;
}

static long now_ms(void)
{
    struct timespec now;
    clock_gettime(CLOCK_MONOTONIC, &now);
    return now.tv_sec * 1000 + now.tv_nsec / 1000000;
}

/* Task n waits n * 5 ms. Between its n * 5 + 1 ticks lie that many ms at least. */
static void timed_by_a_thread(void)
{
    begin_handler(tick_each_ms);
    long start = now_ms();
    for (ID task = 1; task <= KINDS; task++) {
        begin(task, (Job){ .work = kinds[task - 1].work, .object = kinds[task - 1].object, .tmout = 5 * task });
    }
    for (ID task = 1; task <= KINDS; task++) {
        GIVES(E_TMOUT, end(task));
        HOLDS(now_ms() - start >= 5 * task - 1); /* both times are cut to whole ms */
    }
    end_handler();
}

/* ---- Scenarios: suspension ---- */

/* Suspended waiters are served, released, timed out or deleted under, and come back when they are resumed. */
static void suspended_waiters(void (*end_waits)(void), ER code)
{
    start_waits(KINDS, 1);
    for (ID task = 1; task <= KINDS; task++) {
        GIVES(E_OK, isus_tsk(task));
        GIVES(E_QOVR, isus_tsk(task));
        HOLDS(is_in(task, TTS_WAS, kinds[task - 1].wait));
    }
    end_waits();
    for (ID task = 1; task <= KINDS; task++) {
        HOLDS(is_in(task, TTS_SUS, 0));
        HOLDS(is_stopped(task));
        GIVES(E_OK, task == 1 ? as_operator(resume, task) : irsm_tsk(task));
        GIVES(code, end(task));
    }
}

static void release_waits(void)
{
    for (ID task = 1; task <= KINDS; task++) {
        GIVES(E_OK, irel_wai(task));
    }
}

static void time_out_waits(void)
{
    GIVES(E_OK, isig_tim());
    GIVES(E_OK, isig_tim());
}

static void suspended_while_waiting(void)
{
    suspended_waiters(serve_waits, E_OK);
    waits_were_served();
    suspended_waiters(release_waits, E_RLWAI);
    suspended_waiters(time_out_waits, E_TMOUT);
    suspended_waiters(delete_objects, E_DLT);
    create_objects();
}

/* A waiter that is suspended and resumed before its wait ends goes on waiting. */
static void resumed_while_waiting(void)
{
    start_waits(KINDS, TMO_FEVR);
    for (ID task = 1; task <= KINDS; task++) {
        GIVES(E_OK, as_operator(suspend, task));
        GIVES(E_OK, as_operator(resume, task));
        HOLDS(is_stopped(task) && is_in(task, TTS_WAI, kinds[task - 1].wait));
    }
    serve_waits();
    waits_were_served();
}

static void suspends_itself(void)
{
    begin(1, (Job){ .work = suspend, .object = 1 });
    until(1, TTS_SUS);
    HOLDS(is_stopped(1));
    GIVES(E_OBJ, irel_wai(1));
    GIVES(E_OK, irsm_tsk(1));
    GIVES(E_OK, end(1));
}

static atomic_bool runs;
static atomic_bool may_call;

static ER run_then_send(Job *job)
{
    runs = true;
    while (!may_call) {
        sched_yield();
    }
    ER code = ipsnd_dtq(job->object, job->word);
    return code == E_OK ? psnd_dtq(job->object, job->word + 1) : code;
}

/*
 * The thread of a task that is suspended while it runs is stopped at its next call, which is made when the task is resumed. The i-form before it isn't the
 * task's: it is made as a handler's.
 */
static void suspended_while_running(void)
{
    VP_INT word = 0;
    runs = false;
    may_call = false;
    GIVES(E_OK, cre_dtq(NOBODYS, &(T_CDTQ){ .dtqcnt = 2 }));
    begin(1, (Job){ .work = run_then_send, .object = NOBODYS, .word = 5 });
    while (!runs) {
        sched_yield();
    }
    GIVES(E_OK, isus_tsk(1));
    may_call = true;
    while (iprcv_dtq(NOBODYS, &word) == E_TMOUT) {
        sched_yield();
    }
    HOLDS(word == 5);
    HOLDS(is_stopped(1));
    GIVES(E_TMOUT, iprcv_dtq(NOBODYS, &word));
    GIVES(E_OK, irsm_tsk(1));
    GIVES(E_OK, end(1));
    GIVES(E_OK, iprcv_dtq(NOBODYS, &word));
    HOLDS(word == 6);
    GIVES(E_OK, as_operator(delete_queue, NOBODYS));
}

/* ---- Scenarios: order ---- */

/* Tasks 1 to 4 have priorities 4 to 1. */
static void by_task_priority(void)
{
    VP_INT word = 0;
    GIVES(E_OK, cre_dtq(NOBODYS, &(T_CDTQ){ .dtqatr = TA_TPRI, .dtqcnt = 0 }));
    GIVES(E_OK, cre_mbx(NOBODYS, &(T_CMBX){ .mbxatr = TA_TPRI | TA_MFIFO }));
    for (ID task = 1; task <= 4; task++) {
        begin(task, (Job){ .work = send, .object = NOBODYS, .tmout = TMO_FEVR, .word = task });
        until(task, TTS_WAI);
    }
    for (ID task = 4; task >= 1; task--) {
        GIVES(E_OK, iprcv_dtq(NOBODYS, &word));
        GIVES(E_OK, end(task));
        HOLDS(word == task);
    }
    for (ID task = 1; task <= 4; task++) {
        begin(task, (Job){ .work = receive_letter, .object = NOBODYS, .tmout = TMO_FEVR });
        until(task, TTS_WAI);
    }
    for (ID task = 4; task >= 1; task--) {
        GIVES(E_OK, isnd_mbx(NOBODYS, LETTER(task)));
        GIVES(E_OK, end(task));
        HOLDS(jobs[task].message == LETTER(task));
    }
    GIVES(E_OK, as_operator(delete_queue, NOBODYS));
    GIVES(E_OK, as_operator(delete_mailbox, NOBODYS));
}

static ER post(int letter, PRI priority)
{
    letters[letter].header.msgpri = priority;
    return snd_mbx(NOBODYS, LETTER(letter));
}

static void by_message_priority(void)
{
    static const int order[] = { LETTERS, 1, 5, 7 };
    T_MSG *message = NULL;
    T_RMBX mailbox;
    GIVES(E_OK, cre_mbx(NOBODYS, &(T_CMBX){ .mbxatr = TA_TFIFO | TA_MPRI, .maxmpri = 4 }));
    GIVES(E_PAR, post(5, 0));
    GIVES(E_PAR, post(5, 5));
    GIVES(E_PAR, post(5, -1));
    GIVES(E_OK, post(5, 3));
    GIVES(E_OBJ, post(5, 3));
    GIVES(E_OK, post(1, 1));
    GIVES(E_OK, post(7, 3));
    GIVES(E_OK, post(LETTERS, 1));
    GIVES(E_OK, iprcv_mbx(NOBODYS, &message));
    HOLDS(message == LETTER(1));
    GIVES(E_OK, post(1, 2));
    for (int i = 0; i < 4; i++) {
        GIVES(E_OK, ref_mbx(NOBODYS, &mailbox));
        HOLDS(mailbox.wtskid == TSK_NONE && mailbox.pk_msg == LETTER(order[i]));
        GIVES(E_OK, prcv_mbx(NOBODYS, &message));
        HOLDS(message == mailbox.pk_msg);
    }
    GIVES(E_TMOUT, prcv_mbx(NOBODYS, &message));
    GIVES(E_OK, as_operator(delete_mailbox, NOBODYS));
}

static void deleted_with_messages(void)
{
    T_MSG *message = NULL;
    GIVES(E_OK, cre_mbx(NOBODYS, &(T_CMBX){ .mbxatr = TA_TFIFO | TA_MFIFO }));
    GIVES(E_OK, post(5, 0));
    GIVES(E_OBJ, isnd_mbx(MAILBOX, LETTER(5)));
    GIVES(E_OK, as_operator(delete_mailbox, NOBODYS));
    GIVES(E_OK, isnd_mbx(MAILBOX, LETTER(5)));
    GIVES(E_OK, iprcv_mbx(MAILBOX, &message));
    HOLDS(message == LETTER(5));
}

/* ---- Scenarios: senders and receivers against each other ---- */

/* Sender s's item number n was received so many times. */
static atomic_uchar seen[SENDERS + 1][MOST_WORDS];
static atomic_int out_of_order;

enum { WORD_BITS = 16 };

/* What a receiver got last of each sender. */
typedef struct {
    VP_INT last[SENDERS + 1];
} Order;

static void note(Order *order, VP_INT sender, VP_INT number)
{
    if (sender < 1 || sender > SENDERS || number < 0 || number >= MOST_WORDS) {
        out_of_order++; /* nobody sent this */
        return;
    }
    seen[sender][number]++;
    out_of_order += number < order->last[sender];
    order->last[sender] = number + 1;
}

static void forget(int count)
{
    for (ID sender = 1; sender <= SENDERS; sender++) {
        for (int n = 0; n < count; n++) {
            seen[sender][n] = 0;
        }
    }
    out_of_order = 0;
}

static bool received_once(int count)
{
    int once = 0;
    for (ID sender = 1; sender <= SENDERS; sender++) {
        for (int n = 0; n < count; n++) {
            once += seen[sender][n] == 1;
        }
    }
    return once == SENDERS * count;
}

/* Whether a wait was ended from outside, or a poll found nothing; what was to be sent or received is tried again then. */
static bool again(ER code)
{
    return code == E_RLWAI || code == E_TMOUT;
}

static ER send_words(Job *job)
{
    ER code = E_OK;
    for (int n = 0; n < job->count && code == E_OK; n++) {
        VP_INT word = job->task << WORD_BITS | n;
        code = n % 3 == 0 ? psnd_dtq(job->object, word) : n % 3 == 1 ? tsnd_dtq(job->object, word, 1) : snd_dtq(job->object, word);
        while (again(code)) {
            code = snd_dtq(job->object, word);
        }
    }
    return code;
}

/* Comes back when the queue is deleted. */
static ER receive_words(Job *job)
{
    Order order = { { 0 } };
    ER code = E_OK;
    for (int n = 0; code == E_OK || again(code); n++) {
        VP_INT word = 0;
        code = n % 3 == 0 ? prcv_dtq(job->object, &word) : n % 3 == 1 ? trcv_dtq(job->object, &word, 1) : rcv_dtq(job->object, &word);
        if (code == E_OK) {
            note(&order, word >> WORD_BITS, word & ((1 << WORD_BITS) - 1));
        }
    }
    return code;
}

static uint32_t noise(uint32_t *state)
{
    *state ^= *state << 13;
    *state ^= *state >> 17;
    *state ^= *state << 5;
    return *state >> 8;
}

/* A handler that ticks, ends waits, and suspends tasks and resumes them. */
static void *disturb(void *unused)
{
    uint32_t state = 2463534242;
    while (!over) {
        ID task = (ID)(noise(&state) % (SENDERS + RECEIVERS)) + 1;
        ER suspended = isus_tsk(task);
        irel_wai((ID)(noise(&state) % (SENDERS + RECEIVERS)) + 1);
        sched_yield();
        if (isig_tim() != E_OK || suspended != E_OK || irsm_tsk(task) != E_OK) {
            return &refused;
        }
        nanosleep(&(struct timespec){ .tv_nsec = 50000 }, NULL);
    }
    return unused;
}

/* The tasks from first on, count of them, do this work. */
static void begin_all(ID first, int count, Job job)
{
    for (ID task = first; task < first + count; task++) {
        begin(task, job);
    }
}

static void end_all(ID first, int count, ER code, ER or_code)
{
    for (ID task = first; task < first + count; task++) {
        ER ended = end(task);
        HOLDS(ended == code || ended == or_code);
    }
}

/*
 * Senders and receivers at work, with a handler beside them. When the senders are through and nothing is left in the object, it is deleted, which ends
 * the receivers: those that wait with E_DLT, those that come later with E_NOEXS.
 */
static void play(Job sending, int receivers, Job receiving, void *(*beside)(void *), bool (*is_empty)(ID object), Work *delete_object)
{
    forget(sending.count);
    begin_handler(beside);
    begin_all(SENDERS + 1, receivers, receiving);
    begin_all(1, SENDERS, sending);
    end_all(1, SENDERS, E_OK, E_OK);
    while (!is_empty(receiving.object)) {
        sched_yield();
    }
    GIVES(E_OK, as_operator(delete_object, receiving.object));
    end_all(SENDERS + 1, receivers, E_DLT, E_NOEXS);
    end_handler();
    HOLDS(received_once(sending.count));
}

static bool queue_is_empty(ID dtqid)
{
    T_RDTQ queue = { .sdtqcnt = 1 };
    return iref_dtq(dtqid, &queue) == E_OK && queue.sdtqcnt == 0;
}

static void words_pass(UINT capacity, ATR attribute, int receivers, int count, void *(*beside)(void *))
{
    GIVES(E_OK, cre_dtq(NOBODYS, &(T_CDTQ){ .dtqatr = attribute, .dtqcnt = capacity }));
    Job sending = { .work = send_words, .object = NOBODYS, .count = count };
    Job receiving = { .work = receive_words, .object = NOBODYS };
    play(sending, receivers, receiving, beside, queue_is_empty, delete_queue);
    HOLDS(out_of_order == 0);
}

/* 100,000 words, with nothing but ticks beside them: a wake-up that is lost isn't made good by a later rsm_tsk. */
static void words(void)
{
    words_pass(0, TA_TFIFO, RECEIVERS, 4000, tick_each_ms);
    words_pass(1, TA_TPRI, RECEIVERS, 4000, tick_each_ms);
    words_pass(16, TA_TFIFO, RECEIVERS, MOST_WORDS, tick_each_ms);
}

/* One receiver gets all of a sender's words, so that their order is seen as such. */
static void words_to_one(void)
{
    words_pass(0, TA_TPRI, 1, 300, tick_each_ms);
    words_pass(1, TA_TFIFO, 1, 300, disturb);
    words_pass(16, TA_TPRI, 1, 300, disturb);
}

static void words_disturbed(void)
{
    words_pass(0, TA_TFIFO, RECEIVERS, 1500, disturb);
    words_pass(1, TA_TPRI, RECEIVERS, 1500, disturb);
    words_pass(16, TA_TFIFO, RECEIVERS, 1500, disturb);
}

/* A sender takes a free letter, and the receiver gives it back: what get_mpf and rel_mpf would do. */
static ER send_letters(Job *job)
{
    ER code = E_OK;
    for (int n = 0; n < job->count && code == E_OK; n++) {
        VP_INT letter = 0;
        do {
            code = rcv_dtq(FREE_LETTERS, &letter);
        } while (again(code));
        if (code == E_OK) {
            letters[letter] = (Letter){ .header = { .msgpri = 1 + n % 4 }, .sender = job->task, .number = n };
            code = snd_mbx(job->object, LETTER(letter));
        }
    }
    return code;
}

static ER receive_letters(Job *job)
{
    Order order = { { 0 } };
    ER code = E_OK;
    for (int n = 0; code == E_OK || again(code); n++) {
        T_MSG *message = NULL;
        code = n % 3 == 0 ? prcv_mbx(job->object, &message) : n % 3 == 1 ? trcv_mbx(job->object, &message, 1) : rcv_mbx(job->object, &message);
        if (code == E_OK) {
            Letter *letter = (Letter *)(void *)message;
            note(&order, letter->sender, letter->number);
            code = psnd_dtq(FREE_LETTERS, (VP_INT)(letter - letters)) == E_OK ? E_OK : E_SYS; /* there is room for every letter */
        }
    }
    return code;
}

static bool mailbox_is_empty(ID mbxid)
{
    T_RMBX mailbox = { .pk_msg = LETTER(1) };
    return iref_mbx(mbxid, &mailbox) == E_OK && mailbox.pk_msg == NULL;
}

static void letters_pass(ATR attribute, int count, void *(*beside)(void *))
{
    GIVES(E_OK, cre_mbx(NOBODYS, &(T_CMBX){ .mbxatr = attribute, .maxmpri = 4 }));
    Job sending = { .work = send_letters, .object = NOBODYS, .count = count };
    Job receiving = { .work = receive_letters, .object = NOBODYS };
    play(sending, RECEIVERS, receiving, beside, mailbox_is_empty, delete_mailbox);
}

static void mail(void)
{
    GIVES(E_OK, cre_dtq(FREE_LETTERS, &(T_CDTQ){ .dtqcnt = LINGUASTEL_WORDS }));
    for (VP_INT letter = 1; letter <= LINGUASTEL_WORDS; letter++) {
        GIVES(E_OK, ipsnd_dtq(FREE_LETTERS, letter));
    }
    letters_pass(TA_TFIFO | TA_MFIFO, 500, tick_each_ms);
    HOLDS(out_of_order == 0);
    letters_pass(TA_TPRI | TA_MPRI, 500, tick_each_ms);
    letters_pass(TA_TPRI | TA_MFIFO, 500, disturb);
    HOLDS(out_of_order == 0);
    bool is_back[LINGUASTEL_WORDS + 1] = { false };
    for (int i = 0; i < LINGUASTEL_WORDS; i++) {
        VP_INT letter = 0;
        GIVES(E_OK, iprcv_dtq(FREE_LETTERS, &letter));
        HOLDS(letter >= 1 && letter <= LINGUASTEL_WORDS && !is_back[letter]);
        is_back[letter] = true;
    }
    GIVES(E_OK, as_operator(delete_queue, FREE_LETTERS));
}

/* ---- All of them ---- */

static void start(void)
{
    for (ID task = 1; task <= TASKS; task++) {
        jobs[task].task = task;
        GIVES(E_OK, port_task(task, task <= 4 ? 5 - task : 5, serve, &jobs[task]));
    }
    GIVES(E_PAR, snd_mbx(MAILBOX, LETTER(1)));
    GIVES(E_OK, port_messages(letters + 1, sizeof(Letter), LETTERS));
    create_objects();
}

/* After every scenario no task waits or is suspended, and nothing is left in a queue or mailbox. */
static void is_quiet(void)
{
    for (ID task = 1; task <= TASKS; task++) {
        HOLDS(is_in(task, TTS_RDY, 0));
    }
    HOLDS(queue_is_empty(QUEUE_OF_SENDERS) && queue_is_empty(QUEUE_OF_RECEIVERS) && mailbox_is_empty(MAILBOX));
    T_RDTQ queue;
    T_RMBX mailbox;
    GIVES(E_NOEXS, iref_dtq(NOBODYS, &queue));
    GIVES(E_NOEXS, iref_mbx(NOBODYS, &mailbox));
}

static const struct {
    const char *name;
    void (*play)(void);
} scenarios[] = {
    { "start-up", start },
    { "refusals of context", refusals_of_context },
    { "refusals of numbers", refusals_of_numbers },
    { "refusals of pointers", refusals_of_pointers },
    { "polls", polls },
    { "waits are served", served },
    { "waits are released", released },
    { "waits whose objects are deleted", deleted },
    { "waits time out", timed_out },
    { "waits time out, by a thread that ticks", timed_by_a_thread },
    { "tasks are suspended while they wait", suspended_while_waiting },
    { "tasks are suspended and resumed while they wait", resumed_while_waiting },
    { "a task suspends itself", suspends_itself },
    { "a task is suspended while it runs", suspended_while_running },
    { "waits by task priority", by_task_priority },
    { "messages by priority", by_message_priority },
    { "a mailbox is deleted with its messages", deleted_with_messages },
    { "words pass", words },
    { "words pass to one receiver", words_to_one },
    { "words pass while tasks are released and suspended", words_disturbed },
    { "letters pass", mail },
};

int main(void)
{
    setvbuf(stdout, NULL, _IOLBF, 0); /* what failed before the watchdog barks is printed */
    signal(SIGALRM, bark);
    alarm(WATCHDOG_SECONDS);
    for (size_t i = 0; i < sizeof scenarios / sizeof scenarios[0]; i++) {
        scenario = scenarios[i].name;
        scenarios[i].play();
        is_quiet();
    }
    printf("%d passed, %d failed\n", passed, failed);
    return failed == 0 ? 0 : 1;
}
