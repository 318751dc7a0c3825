/*
 * A first host in C: a task sends a word to a data queue and a handler takes it, a task waits for a word, and a call is refused. With the library
 * installed in PREFIX:
 *
 *     export PKG_CONFIG_PATH=PREFIX/lib/pkgconfig
 *     cc first.c $(pkg-config --cflags --libs linguastel) -o first
 */
#include <inttypes.h>
#include <stdio.h>

#include <linguastel.h>

static LinguastelRecord record; /* zeroed: the empty record */

/* Task 1, of priority 5, sends 42 to data queue 1, which has room for 8 words. The call that takes a word without a wait is a handler's. */
static int send_and_take(void)
{
    if (!linguastel_is_ok(linguastel_idefine_task(&record, 1, 5))) return 1;
    if (!linguastel_is_ok(linguastel_icre_dtq(&record, 1, LINGUASTEL_TA_TFIFO, 8))) return 1;
    if (!linguastel_is_ok(linguastel_snd_dtq(&record, linguastel_as_task(1), 1, 42))) return 1;
    LinguastelAnswer received = linguastel_iprcv_dtq(&record, 1);
    if (!linguastel_is_ok(received)) return 1;
    printf("received %" PRIu32 "\n", received.a);
    return 0;
}

/* The data queue is empty now, so task 1 waits until a handler sends a word. fetch gives what its wait ended with. */
static int wait_and_fetch(void)
{
    if (!linguastel_waits(linguastel_rcv_dtq(&record, linguastel_as_task(1), 1))) return 1;
    if (!linguastel_is_ok(linguastel_ipsnd_dtq(&record, 1, 43))) return 1;
    LinguastelAnswer fetched = linguastel_ifetch(&record, 1);
    if (!linguastel_is_ok(fetched)) return 1;
    printf("task 1 waited, and received %" PRIu32 "\n", fetched.a);
    return 0;
}

/* A refused call has a code, and changes nothing. */
static int be_refused(void)
{
    LinguastelAnswer refused = linguastel_iprcv_dtq(&record, 2);
    if (linguastel_is_ok(refused) || linguastel_waits(refused)) return 1;
    printf("data queue 2: %s\n", linguastel_code_name(refused.code));
    return 0;
}

int main(void)
{
    if (!linguastel_library_fits()) {
        fprintf(stderr, "this is not the library of linguastel.h, version %s\n", LINGUASTEL_VERSION_TEXT);
        return 1;
    }
    return send_and_take() || wait_and_fetch() || be_refused();
}
