/*
 * The scheduler's part of the port, over POSIX threads: a task is a thread, and a call that waits blocks it. The kernel says which tasks can run,
 * linguastel_runnable; here threads are stopped and woken, and nothing else is decided. README.md says what to replace for another scheduler.
 */
#include <pthread.h>

#include "port.h"

static LinguastelRecord record; /* of zeros, which is the empty record */
static pthread_mutex_t lock = PTHREAD_MUTEX_INITIALIZER; /* the kernel's calls are made one after the other */
static pthread_cond_t runs[LINGUASTEL_TASKS + 1]; /* runs[n] is signalled when task n can run again; nobody but its thread waits for it */
static struct { void (*task)(VP exinf); VP exinf; } starts[LINGUASTEL_TASKS + 1];
static _Thread_local ID self = PORT_HANDLER;

ID port_self(void)
{
    return self;
}

/* Wakes exactly the tasks that can run now and could not before the call. The lock is held, so that no task comes to run unseen between two calls. */
static LinguastelAnswer make(LinguastelCall call)
{
    uint32_t before = linguastel_runnable(&record);
    LinguastelAnswer answer = linguastel_call(&record, call);
    uint32_t woken = linguastel_runnable(&record) & ~before;
    for (uint32_t task = 1; task <= LINGUASTEL_TASKS; task++) {
        if (woken & linguastel_task_bit(task)) {
            pthread_cond_signal(&runs[task]);
        }
    }
    return answer;
}

/* Stops a task that waits or is suspended. After each wake-up the kernel is asked again: calls made since the signal may have suspended the task. */
static void stop(ID caller)
{
    while (caller != PORT_HANDLER && !(linguastel_runnable(&record) & linguastel_task_bit((uint32_t)caller))) {
        pthread_cond_wait(&runs[caller], &lock);
    }
}

/*
 * A thread can't be stopped from outside. So a task that another one suspends while it runs goes on to its next call, and is stopped there before the kernel
 * sees the call, which would refuse it with E_SYS. After the call the task is stopped if it waits, or has suspended itself. The code and word that a wait
 * ended with stay in the record until the task's next wait; however late the thread comes to fetch them, they are this wait's.
 */
LinguastelAnswer port_service(ID caller, LinguastelCall call)
{
    call.caller = (uint32_t)caller;
    pthread_mutex_lock(&lock);
    stop(caller);
    LinguastelAnswer answer = make(call);
    stop(caller);
    if (linguastel_waits(answer)) {
        answer = linguastel_fetch(&record, linguastel_as_task(call.caller), call.caller);
    }
    pthread_mutex_unlock(&lock);
    return answer;
}

ER isig_tim(void)
{
    return port_service(PORT_HANDLER, (LinguastelCall){ .number = LINGUASTEL_TICK }).code;
}

static void make_conditions(void)
{
    for (int task = 1; task <= LINGUASTEL_TASKS; task++) {
        pthread_cond_init(&runs[task], NULL);
    }
}

static void *run(void *number)
{
    self = (ID)(intptr_t)number;
    starts[self].task(starts[self].exinf);
    return NULL;
}

ER port_task(ID tskid, PRI itskpri, void (*task)(VP exinf), VP exinf)
{
    static pthread_once_t once = PTHREAD_ONCE_INIT;
    pthread_t thread;
    if (task == NULL) {
        return E_PAR;
    }
    if (!linguastel_library_fits() || pthread_once(&once, make_conditions) != 0) {
        return E_SYS;
    }
    ER code = port_service(self, (LinguastelCall){ .number = LINGUASTEL_DEFINE_TASK, .object = (uint32_t)tskid, .value = (uint32_t)itskpri }).code;
    if (code != E_OK) {
        return code;
    }
    starts[tskid].task = task;
    starts[tskid].exinf = exinf;
    return pthread_create(&thread, NULL, run, (void *)(intptr_t)tskid) == 0 && pthread_detach(thread) == 0 ? E_OK : E_NOMEM;
}
