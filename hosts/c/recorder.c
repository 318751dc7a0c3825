/*
 * Makes calls drawn at random, always the same ones, and records them: `recorder FILE` writes the trace. hosts/rust/src/bin/recorder.rs makes the same
 * calls and writes the same bytes.
 */
#include <stdio.h>
#include <stdlib.h>

#include "linguastel.h"

#define PICK(list) ((list)[below(sizeof(list) / sizeof((list)[0]))])

/* So many calls are recorded at least. Two more than a table may have are drawn for it at most; it is refused then. */
enum { ENOUGH = 20000, MOST_CALLS = LINGUASTEL_TABLE + 2 };

/* ---- Calls drawn at random ---- */

/* Marsaglia's generator. */
static uint32_t noise(void)
{
    static uint32_t state = 2463534242;
    state ^= state << 13;
    state ^= state >> 17;
    state ^= state << 5;
    return state;
}

static uint32_t below(uint32_t limit)
{
    return (noise() >> 8) % limit;
}

/* Few numbers, so that calls meet; at times limits, and numbers that are wider than their byte in a trace. */
static uint32_t few(void)
{
    static const uint32_t others[] = { 0, 16, 17, 32, 33, 254, 255, 256, 257, 4294967295 };
    return below(16) == 0 ? PICK(others) : 1 + below(6);
}

static uint32_t one_in_32(void)
{
    static const uint32_t yes[] = { 1, 2, 256, 4294967295 };
    return below(32) == 0 ? PICK(yes) : 0;
}

/* The order in which the fields are drawn is that of the twin in Rust. */
static LinguastelCall random_call(void)
{
    static const uint32_t unknown[] = { 24, 255, 279, 4294967295 };
    static const int32_t tmouts[] = { -2147483647 - 1, -2, -1, 0, 1, 1, 2, 2, 3, 3, 5, 2147483646, 2147483647 };
    static const uint32_t attributes[] = { 0, 0, 0, 1, 1, 2, 2, 3, 3, 4, 4294967295 };
    LinguastelCall call;
    call.number = below(32) == 0 ? PICK(unknown) : below(LINGUASTEL_LAST_CALL + 1);
    call.caller = below(3) == 0 ? 0 : few();
    call.locked = one_in_32();
    call.disabled = one_in_32();
    call.object = few();
    call.value = below(4) == 0 ? noise() : below(8);
    call.tmout = PICK(tmouts);
    call.attribute = PICK(attributes);
    return call;
}

/* ---- A host that records ---- */

typedef struct {
    LinguastelRecord record;
    FILE *trace;
    size_t size; /* of the trace */
    size_t made; /* calls; a refused table counts as none */
} Host;

static void make_call(Host *host, LinguastelCall call)
{
    uint8_t bytes[LINGUASTEL_TRACE_SIZE];
    LinguastelAnswer answer = linguastel_call(&host->record, call);
    host->size += fwrite(bytes, 1, linguastel_trace(bytes, call, answer), host->trace);
    host->made++;
}

static void make_tick(Host *host)
{
    uint8_t bytes[LINGUASTEL_TRACE_SIZE];
    LinguastelAnswer answer = linguastel_tick(&host->record);
    host->size += fwrite(bytes, 1, linguastel_trace_tick(bytes, answer), host->trace);
    host->made++;
}

static void make_table(Host *host)
{
    uint8_t bytes[MOST_CALLS * LINGUASTEL_TRACE_SIZE];
    LinguastelCall calls[MOST_CALLS] = { { 0 } };
    LinguastelAnswer answers[MOST_CALLS] = { { 0 } };
    size_t count = below(MOST_CALLS + 1);
    for (size_t i = 0; i < count; i++) {
        calls[i] = random_call();
    }
    int32_t code = linguastel_table(&host->record, calls, count, answers, count);
    host->size += fwrite(bytes, 1, linguastel_trace_table(bytes, calls, count, answers, code), host->trace);
    host->made += code == LINGUASTEL_E_OK ? count : 0;
}

int main(int count, char **arguments)
{
    static Host host; /* its record is of zeros: the empty one */
    host.trace = count == 2 ? fopen(arguments[1], "wb") : NULL;
    if (host.trace == NULL) {
        fprintf(stderr, "recorder FILE: the file can't be written\n");
        return EXIT_FAILURE;
    }
    while (host.size < ENOUGH * LINGUASTEL_TRACE_SIZE && !ferror(host.trace)) {
        uint32_t step = below(16);
        if (step == 0) {
            make_table(&host);
        } else if (step == 1) {
            make_tick(&host);
        } else {
            make_call(&host, random_call());
        }
    }
    printf("%zu of %zu calls recorded\n", host.size / LINGUASTEL_TRACE_SIZE, host.made);
    bool failed = ferror(host.trace) != 0;
    failed |= fclose(host.trace) != 0;
    return failed ? EXIT_FAILURE : EXIT_SUCCESS;
}
