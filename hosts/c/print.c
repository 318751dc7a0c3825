/*
 * Prints three records in words: the empty one, one that these calls make, with every form of a line, and one that isn't sound; and before the last one
 * answers in words. The output is hosts/print.txt. The exit status is 1 where a call is refused that should be accepted.
 */
#include <stdio.h>
#include <string.h>

#include "linguastel_print.h"

/* From here the counter comes to 0 before the timed waits end. */
#define COUNTER 4294967294u

/* In the order of a call's fields, without locked and disabled: number, caller, object, value, attribute, tmout. */
static const struct {
    uint32_t number, caller, object, value, attribute;
    int32_t tmout;
} calls[] = {
    { LINGUASTEL_DEFINE_TASK, 0, 1, 5, 0, 0 },
    { LINGUASTEL_DEFINE_TASK, 0, 2, 3, 0, 0 },
    { LINGUASTEL_DEFINE_TASK, 0, 3, 5, 0, 0 },
    { LINGUASTEL_DEFINE_TASK, 0, 4, 3, 0, 0 },
    { LINGUASTEL_DEFINE_TASK, 0, 5, 9, 0, 0 },
    { LINGUASTEL_DEFINE_TASK, 0, 6, 1, 0, 0 },
    { LINGUASTEL_DEFINE_TASK, 0, 7, 2, 0, 0 },
    { LINGUASTEL_DEFINE_TASK, 0, 8, 16, 0, 0 },
    { LINGUASTEL_DEFINE_TASK, 0, 9, 9, 0, 0 },
    { LINGUASTEL_DEFINE_TASK, 0, 32, 16, 0, 0 },
    { LINGUASTEL_CRE_DTQ, 0, 1, 2, LINGUASTEL_TA_TFIFO, 0 },
    { LINGUASTEL_CRE_DTQ, 0, 2, 4, LINGUASTEL_TA_TPRI, 0 },
    { LINGUASTEL_CRE_DTQ, 0, 3, 0, LINGUASTEL_TA_TPRI, 0 },
    { LINGUASTEL_CRE_DTQ, 0, 16, 16, LINGUASTEL_TA_TFIFO, 0 },
    { LINGUASTEL_CRE_MBX, 0, 1, 0, LINGUASTEL_TA_TFIFO, 0 },
    { LINGUASTEL_CRE_MBX, 0, 2, 0, LINGUASTEL_TA_TPRI, 0 },
    { LINGUASTEL_CRE_MBX, 0, 3, 16, LINGUASTEL_TA_MPRI, 0 },
    { LINGUASTEL_CRE_MBX, 0, 16, 4, LINGUASTEL_TA_TPRI + LINGUASTEL_TA_MPRI, 0 },
    { LINGUASTEL_PSND_DTQ, 0, 1, 10, 0, 0 },
    { LINGUASTEL_PSND_DTQ, 0, 1, 11, 0, 0 },
    { LINGUASTEL_SND_DTQ, 3, 1, 12, 0, 0 },
    { LINGUASTEL_TSND_DTQ, 2, 1, 4294967295u, 0, 3 },
    { LINGUASTEL_RCV_DTQ, 5, 2, 0, 0, 0 },
    { LINGUASTEL_TRCV_DTQ, 4, 2, 0, 0, LINGUASTEL_LONGEST_TMOUT },
    { LINGUASTEL_TSND_DTQ, 8, 3, 7, 0, LINGUASTEL_TMO_FEVR },
    { LINGUASTEL_TSND_DTQ, 6, 3, 8, 0, 1 },
    { LINGUASTEL_PSND_DTQ, 0, 16, 0, 0, 0 },
    { LINGUASTEL_SND_MBX, 0, 1, 9, 0, 0 },
    { LINGUASTEL_SND_MBX, 0, 1, 5, 0, 0 },
    { LINGUASTEL_RCV_MBX, 32, 2, 0, 0, 0 },
    { LINGUASTEL_TRCV_MBX, 7, 2, 0, 0, 1 },
    { LINGUASTEL_SND_MBX, 0, 3, 64, 16, 0 },
    { LINGUASTEL_SND_MBX, 0, 3, 3, 1, 0 },
    { LINGUASTEL_SUS_TSK, 0, 7, 0, 0, 0 },
    { LINGUASTEL_SUS_TSK, 0, 9, 0, 0, 0 },
    { LINGUASTEL_SUS_TSK, 0, 32, 0, 0, 0 },
    { LINGUASTEL_TICK, 0, 0, 0, 0, 0 },
};

static void print_line(LinguastelAnswer answer)
{
    linguastel_print_answer(stdout, answer);
    puts("");
}

int main(void)
{
    static LinguastelRecord record;
    bool accepted = true;
    linguastel_print(stdout, &record);
    record.counter = COUNTER;
    for (size_t i = 0; i < sizeof calls / sizeof calls[0]; i++) {
        LinguastelContext context = linguastel_as_task(calls[i].caller);
        LinguastelAnswer answer
            = linguastel_make_call(&record, context, calls[i].number, calls[i].object, calls[i].value, calls[i].attribute, calls[i].tmout);
        accepted = accepted && (linguastel_is_ok(answer) || linguastel_waits(answer));
    }
    linguastel_print(stdout, &record);
    print_line(linguastel_iref_dtq(&record, 1));
    print_line(linguastel_iref_dtq(&record, 4));
    print_line(linguastel_rcv_dtq(&record, linguastel_as_task(1), 2));
    memset(&record, 0xff, sizeof record);
    linguastel_print(stdout, &record);
    return accepted ? 0 : 1;
}
