/*
 * Linguastel for hosts in C (C99, C11, C17) and C++ (C++11 to C++20): the state record, the 23 calls, the tick, tables of calls, the recording of calls, and
 * the replay of a recording in blocks. Documents 01 and 02 say what each of them does; their words are used here. docs/calls has a page for each of them.
 *
 * The library is three archives, for x86-64 and the System V calling convention, which `hosts/library` proves and writes: liblinguastel.a,
 * liblinguastel_table.a and liblinguastel_replay.a, in target/staticlib. Link the second too where linguastel_table is used, the third too where a
 * function with linguastel_replay_ in its name is used. linguastel_library_fits, linguastel_table_library_fits and linguastel_replay_library_fits say whether an archive is this header's.
 *
 * The header needs no hosted library: stddef.h, stdint.h and in C stdbool.h. linguastel_print.h beside it prints a record, and needs stdio.h.
 *
 * The kernel's promise covers a record of any bytes, a call with any numbers and tables of any length, and also a replay of any bytes and a block of any
 * bytes and any length. The functions of this header test the pointers that they are given: null, and a pointer that isn't aligned, are answered and not
 * followed. Some things no function can test, so they are the host's part:
 *
 *   - The pointer leads to a whole record, LINGUASTEL_RECORD_SIZE bytes that may be read and written, or to a whole replay, LINGUASTEL_REPLAY_SIZE of them.
 *   - Tables are whole: call_count calls that may be read, answer_count answer cells that may be written. So are blocks: size bytes that may be read.
 *   - The two tables and the record don't overlap, nor do a block and the replay.
 *   - Calls on one record are made one after the other: a call has returned before the next one starts, in an interrupt handler too. In this list a table
 *     counts as one call, and so does a block on a replay.
 *   - During a call no other thread, handler or device reads or writes the record, the replay, the tables or the block, and no other pointer is used for
 *     them.
 *   - Each call gets the record as the call before it left it, and not an older copy. Each block gets the replay as the block before it left it.
 *   - The blocks of a replay are the bytes of one recording, all of them, in their order.
 *   - The context is true: who calls, and whether the CPU is locked or dispatching disabled.
 *   - Arguments fit their 32 bits. C cuts a wider number down before the kernel sees it; gcc and clang warn of that with -Wconversion.
 *
 * What it costs, on x86-64: 15,890 bytes of code and 1,008 of constants; a record of LINGUASTEL_RECORD_SIZE bytes, which the host lends; no heap, no static
 * data. Stack at most 8,224 bytes for a call or the tick, 9,968 for a table, 11,600 for a block of a replay. Instructions at most, of what a search found,
 * 9,257 for a call and 12,666 for a tick, and on top what memcpy takes for up to 15,104 bytes. A table adds 17,390 bytes of code, the replay 12,837. Each call
 * tests the whole record; a table tests it once for all of its calls. docs/FIGURES.md, Footprint, has each call.
 */
#ifndef LINGUASTEL_H
#define LINGUASTEL_H

#include <stddef.h>
#include <stdint.h>
#ifndef __cplusplus
#include <stdbool.h>
#endif

/* The compiler warns where an answer or a code isn't looked at. */
#if defined(__cplusplus) && __cplusplus >= 201703L
#define LINGUASTEL_MUST_USE [[nodiscard]]
#elif defined(__GNUC__)
#define LINGUASTEL_MUST_USE __attribute__((warn_unused_result))
#else
#define LINGUASTEL_MUST_USE
#endif

/* Casts that neither -Wcast-qual in C nor -Wold-style-cast in C++ warns of. The last lines of this header take the names away again. */
#ifdef __cplusplus
#define LINGUASTEL_AS(type, value) (type(value))
#define LINGUASTEL_WITHOUT_CONST(type, pointer) (const_cast<type *>(pointer))
#else
#define LINGUASTEL_AS(type, value) ((type)(value))
#define LINGUASTEL_WITHOUT_CONST(type, pointer) ((type *)(uintptr_t)(pointer))
#endif

#ifdef __cplusplus
extern "C" {
#endif

/* ---- Version ---- */

/* 10000 * major + 100 * minor + patch. Minor goes up where the layout of a record or the meaning of a function changes, patch where neither does. */
#define LINGUASTEL_VERSION 1500
#define LINGUASTEL_VERSION_TEXT "0.15.0"

/* ---- Sizes and names ---- */

/* Numbers of tasks and objects start at 1. */
enum {
    LINGUASTEL_TASKS = 32,
    LINGUASTEL_QUEUES = 16,
    LINGUASTEL_MAILBOXES = 16,
    LINGUASTEL_MESSAGES = 64,
    LINGUASTEL_WORDS = 16, /* the largest capacity of a data queue */
    LINGUASTEL_LOWEST_PRIORITY = 16, /* of tasks and messages; 1 goes first */
    LINGUASTEL_LONGEST_TMOUT = 2147483646, /* in ticks of 1 ms */
    LINGUASTEL_TABLE = 64, /* the most calls of a table */
    LINGUASTEL_CELL_ALIGN = 4, /* the alignment of calls and answers */
    LINGUASTEL_TRACE_SIZE = 32, /* the bytes of one call with its answer in a trace */
    LINGUASTEL_RECORD_SIZE = 2232,
    LINGUASTEL_RECORD_ALIGN = 4,
    LINGUASTEL_REPLAY_SIZE = 2296,
    LINGUASTEL_REPLAY_ALIGN = 8
};

/* Values of tmout, and the number of no task, by their names in the standard. */
enum {
    LINGUASTEL_TMO_FEVR = -1, /* waits without end */
    LINGUASTEL_TMO_POL = 0, /* doesn't wait */
    LINGUASTEL_TSK_NONE = 0 /* as the first waiting task: there is none */
};

enum {
    LINGUASTEL_NO_CODE = 1, /* no code: that of an answer that waits */
    LINGUASTEL_E_OK = 0,
    LINGUASTEL_E_SYS = -5,
    LINGUASTEL_E_PAR = -17,
    LINGUASTEL_E_ID = -18,
    LINGUASTEL_E_CTX = -25,
    LINGUASTEL_E_ILUSE = -28,
    LINGUASTEL_E_OBJ = -41,
    LINGUASTEL_E_NOEXS = -42,
    LINGUASTEL_E_QOVR = -43,
    LINGUASTEL_E_RLWAI = -49,
    LINGUASTEL_E_TMOUT = -50,
    LINGUASTEL_E_DLT = -51
};

/* Attributes, by their names in the standard. */
enum {
    LINGUASTEL_TA_TFIFO = 0, /* tasks wait in order of arrival */
    LINGUASTEL_TA_TPRI = 1, /* tasks wait by priority: the senders of a data queue, the waiters of a mailbox */
    LINGUASTEL_TA_MPRI = 2 /* a mailbox's messages by priority; may be added to 1 */
};

enum {
    LINGUASTEL_TICK = 0,
    LINGUASTEL_DEFINE_TASK,
    LINGUASTEL_CRE_DTQ,
    LINGUASTEL_DEL_DTQ,
    LINGUASTEL_SND_DTQ,
    LINGUASTEL_PSND_DTQ,
    LINGUASTEL_TSND_DTQ,
    LINGUASTEL_FSND_DTQ,
    LINGUASTEL_RCV_DTQ,
    LINGUASTEL_PRCV_DTQ,
    LINGUASTEL_TRCV_DTQ,
    LINGUASTEL_REF_DTQ,
    LINGUASTEL_CRE_MBX,
    LINGUASTEL_DEL_MBX,
    LINGUASTEL_SND_MBX,
    LINGUASTEL_RCV_MBX,
    LINGUASTEL_PRCV_MBX,
    LINGUASTEL_TRCV_MBX,
    LINGUASTEL_REF_MBX,
    LINGUASTEL_REL_WAI,
    LINGUASTEL_SUS_TSK,
    LINGUASTEL_RSM_TSK,
    LINGUASTEL_LOOK,
    LINGUASTEL_FETCH,
    LINGUASTEL_LAST_CALL = LINGUASTEL_FETCH
};

/* ---- The record ---- */

/* What a task waits for: the numbers that look gives as a. */
enum { LINGUASTEL_NO_WAIT = 0, LINGUASTEL_SENDING = 1, LINGUASTEL_RECEIVING = 2, LINGUASTEL_AT_MAILBOX = 3 };

/* A task's flags are a sum of these. */
enum { LINGUASTEL_DEFINED = 1, LINGUASTEL_SUSPENDED = 2 };

typedef struct LinguastelTask {
    uint32_t word; /* of the stored pair that fetch gives */
    uint32_t end; /* the tick that ends the wait, where it is timed */
    uint32_t sending; /* the word that a sender waits with */
    uint8_t wait;
    uint8_t object; /* the data queue or mailbox of the wait */
    uint8_t timed; /* 1 where a tick ends the wait, else 0 */
    uint8_t code; /* of the stored pair, without its minus sign */
    uint32_t flags;
} LinguastelTask;

/* The stored words start at words[head] and go on, from the last place to the first. */
typedef struct LinguastelRing {
    uint32_t words[LINGUASTEL_WORDS];
    uint8_t head;
    uint8_t count;
    uint8_t capacity;
    uint8_t spare;
} LinguastelRing;

typedef struct LinguastelQueue {
    LinguastelRing ring;
    uint8_t defined; /* 1 or 0 */
    uint8_t attribute;
    uint16_t spare;
} LinguastelQueue;

typedef struct LinguastelMailbox {
    uint8_t defined; /* 1 or 0 */
    uint8_t attribute;
    uint8_t highest; /* highest message priority, kept with LINGUASTEL_TA_MPRI alone */
} LinguastelMailbox;

/*
 * Chains of tasks or messages. link[n] is the number behind number n, 0 at the end; the cells behind those of all numbers hold the first number of each
 * chain. key[n] is number n's priority.
 */
typedef struct LinguastelChains {
    uint8_t link[81];
    uint8_t key[65];
} LinguastelChains;

/* Cell LINGUASTEL_HEADS_OF_SENDERS + q of waiting.link is the head of data queue q's senders, the next two likewise; the last is of messages.link. */
enum { LINGUASTEL_HEADS_OF_SENDERS = 32, LINGUASTEL_HEADS_OF_RECEIVERS = 48, LINGUASTEL_HEADS_OF_WAITERS = 64, LINGUASTEL_HEADS_OF_MESSAGES = 64 };

/*
 * Entry n of each array belongs to number n, entry 0 to nobody. A host may read the record between calls. What it writes there is taken as it is if the
 * record is then sound; else every call of a known number answers E_SYS.
 *
 * A record whose bytes are all 0 is the empty record: nothing is defined, the counter is 0 (the theorem `zeroed_empty`). So one in zeroed memory, as a
 * static one, one that is initialised with {0} (in C++ with {}), or one from calloc, is ready for use.
 *
 * Every byte belongs to a field, so that records can be copied and compared as bytes. A field named spare says nothing: whatever it holds, the record
 * means the same.
 */
typedef struct LinguastelRecord {
    uint32_t counter;
    LinguastelTask tasks[LINGUASTEL_TASKS + 1];
    LinguastelQueue queues[LINGUASTEL_QUEUES + 1];
    LinguastelChains waiting; /* the tasks that wait, with the priorities of all tasks */
    LinguastelChains messages; /* the messages that are queued, with the priorities kept for them */
    LinguastelMailbox mailboxes[LINGUASTEL_MAILBOXES + 1];
    uint8_t spare;
} LinguastelRecord;

/* ---- A call and its answer ---- */

typedef struct LinguastelCall {
    uint32_t number;
    uint32_t caller; /* 0 for a handler or start-up */
    uint32_t locked; /* 0 for no; every other number is yes */
    uint32_t disabled; /* likewise */
    uint32_t object; /* the task, data queue or mailbox */
    uint32_t value; /* word, message, capacity, task priority or highest message priority */
    int32_t tmout; /* n waits at least n ms and less than n + 1: the wait ends in tick n + 1; 0 doesn't wait */
    uint32_t attribute; /* attribute or message priority */
} LinguastelCall;

enum { LINGUASTEL_FINISHED = 0, LINGUASTEL_WAITS = 1 };

typedef struct LinguastelAnswer {
    uint32_t kind;
    int32_t code; /* of a finished answer; LINGUASTEL_NO_CODE of one that waits, so that it is no E_OK */
    uint32_t place; /* of one that waits, else 0 */
    uint32_t a;
    uint32_t b;
    uint32_t c;
} LinguastelAnswer;

typedef struct LinguastelContext {
    uint32_t caller;
    bool locked;
    bool disabled;
} LinguastelContext;

/* Two sets of tasks: bit n - 1 stands for task n. */
typedef struct LinguastelTaskSets {
    uint32_t waiting;
    uint32_t runnable; /* defined, not waiting, not suspended */
} LinguastelTaskSets;

/* ---- A replay and its line ---- */

/*
 * What the replay of a recording keeps between two blocks. A host may read it there. What it writes is taken as it is, if the kernel's state is then sound,
 * length is at most 31, differ and first are at most records, and both of these are 0 or none is; else feed and end answer E_SYS.
 *
 * A replay whose bytes are all 0 is a new one. Every byte belongs to a field, so that replays can be copied and compared as bytes.
 */
typedef struct LinguastelReplay {
    uint64_t records; /* the whole records so far */
    uint64_t differ; /* so many of them differ */
    uint64_t first; /* the first of these, counted from 1; 0 where there is none */
    uint64_t length; /* so many bytes follow the last whole record: 0 to 31 */
    LinguastelRecord kernel; /* the kernel's state after the whole records */
    uint8_t part[LINGUASTEL_TRACE_SIZE]; /* its first length bytes are those that follow; the others say nothing */
} LinguastelReplay;

/* The line of a recording: the numbers that the program replay prints, and the code. */
typedef struct LinguastelLine {
    uint64_t records;
    uint64_t differ;
    uint64_t first;
    uint64_t tail; /* the bytes after the last whole record */
    int32_t code;
    uint32_t spare; /* always 0 */
} LinguastelLine;

/* ---- The layout: the library was compiled for these places ---- */

/* What doesn't hold is an error of the compiler: in C99, which has no such test, the error is a negative length of the array of that name. */
#if defined(__cplusplus)
#define LINGUASTEL_SIZE(type, field) sizeof(type::field)
#define LINGUASTEL_ALIGN(type) alignof(type)
#define LINGUASTEL_HOLDS(name, condition, text) static_assert(condition, text)
#else
#define LINGUASTEL_SIZE(type, field) sizeof(((type *)0)->field)
#if defined(__STDC_VERSION__) && __STDC_VERSION__ >= 201112L
#define LINGUASTEL_ALIGN(type) _Alignof(type)
#define LINGUASTEL_HOLDS(name, condition, text) _Static_assert(condition, text)
#else
#define LINGUASTEL_ALIGN(type) offsetof(struct linguastel_aligned_##type, value)
#define LINGUASTEL_HOLDS(name, condition, text) typedef char linguastel_##name[(condition) ? 1 : -1]
#define LINGUASTEL_ALIGNED(type) struct linguastel_aligned_##type { char before; type value; }
LINGUASTEL_ALIGNED(LinguastelTask);
LINGUASTEL_ALIGNED(LinguastelRing);
LINGUASTEL_ALIGNED(LinguastelQueue);
LINGUASTEL_ALIGNED(LinguastelMailbox);
LINGUASTEL_ALIGNED(LinguastelChains);
LINGUASTEL_ALIGNED(LinguastelRecord);
LINGUASTEL_ALIGNED(LinguastelCall);
LINGUASTEL_ALIGNED(LinguastelAnswer);
LINGUASTEL_ALIGNED(LinguastelTaskSets);
LINGUASTEL_ALIGNED(LinguastelReplay);
LINGUASTEL_ALIGNED(LinguastelLine);
#undef LINGUASTEL_ALIGNED
#endif
#endif

/* Fields whose sizes add up to their struct's leave no byte between or behind them. */
#define LINGUASTEL_LAYOUT(type, size, align, sizes_of_fields) \
    LINGUASTEL_HOLDS(size_of_##type, sizeof(type) == (size), "size of " #type); \
    LINGUASTEL_HOLDS(alignment_of_##type, LINGUASTEL_ALIGN(type) == (align), "alignment of " #type); \
    LINGUASTEL_HOLDS(fields_of_##type, (sizes_of_fields) == (size), "a byte of " #type " belongs to no field")
#define LINGUASTEL_FIELD(type, field, offset, size) \
    LINGUASTEL_HOLDS(place_of_##type##_##field, offsetof(type, field) == (offset), "place of " #type "." #field); \
    LINGUASTEL_HOLDS(size_of_##type##_##field, LINGUASTEL_SIZE(type, field) == (size), "size of " #type "." #field)

LINGUASTEL_FIELD(LinguastelTask, word, 0, 4);
LINGUASTEL_FIELD(LinguastelTask, end, 4, 4);
LINGUASTEL_FIELD(LinguastelTask, sending, 8, 4);
LINGUASTEL_FIELD(LinguastelTask, wait, 12, 1);
LINGUASTEL_FIELD(LinguastelTask, object, 13, 1);
LINGUASTEL_FIELD(LinguastelTask, timed, 14, 1);
LINGUASTEL_FIELD(LinguastelTask, code, 15, 1);
LINGUASTEL_FIELD(LinguastelTask, flags, 16, 4);
LINGUASTEL_LAYOUT(LinguastelTask, 20, 4,
    LINGUASTEL_SIZE(LinguastelTask, word) + LINGUASTEL_SIZE(LinguastelTask, end) + LINGUASTEL_SIZE(LinguastelTask, sending)
        + LINGUASTEL_SIZE(LinguastelTask, wait) + LINGUASTEL_SIZE(LinguastelTask, object) + LINGUASTEL_SIZE(LinguastelTask, timed)
        + LINGUASTEL_SIZE(LinguastelTask, code) + LINGUASTEL_SIZE(LinguastelTask, flags));

LINGUASTEL_FIELD(LinguastelRing, words, 0, 64);
LINGUASTEL_FIELD(LinguastelRing, head, 64, 1);
LINGUASTEL_FIELD(LinguastelRing, count, 65, 1);
LINGUASTEL_FIELD(LinguastelRing, capacity, 66, 1);
LINGUASTEL_FIELD(LinguastelRing, spare, 67, 1);
LINGUASTEL_LAYOUT(LinguastelRing, 68, 4,
    LINGUASTEL_SIZE(LinguastelRing, words) + LINGUASTEL_SIZE(LinguastelRing, head) + LINGUASTEL_SIZE(LinguastelRing, count)
        + LINGUASTEL_SIZE(LinguastelRing, capacity) + LINGUASTEL_SIZE(LinguastelRing, spare));

LINGUASTEL_FIELD(LinguastelQueue, ring, 0, 68);
LINGUASTEL_FIELD(LinguastelQueue, defined, 68, 1);
LINGUASTEL_FIELD(LinguastelQueue, attribute, 69, 1);
LINGUASTEL_FIELD(LinguastelQueue, spare, 70, 2);
LINGUASTEL_LAYOUT(LinguastelQueue, 72, 4,
    LINGUASTEL_SIZE(LinguastelQueue, ring) + LINGUASTEL_SIZE(LinguastelQueue, defined) + LINGUASTEL_SIZE(LinguastelQueue, attribute)
        + LINGUASTEL_SIZE(LinguastelQueue, spare));

LINGUASTEL_FIELD(LinguastelMailbox, defined, 0, 1);
LINGUASTEL_FIELD(LinguastelMailbox, attribute, 1, 1);
LINGUASTEL_FIELD(LinguastelMailbox, highest, 2, 1);
LINGUASTEL_LAYOUT(LinguastelMailbox, 3, 1,
    LINGUASTEL_SIZE(LinguastelMailbox, defined) + LINGUASTEL_SIZE(LinguastelMailbox, attribute) + LINGUASTEL_SIZE(LinguastelMailbox, highest));

LINGUASTEL_FIELD(LinguastelChains, link, 0, 81);
LINGUASTEL_FIELD(LinguastelChains, key, 81, 65);
LINGUASTEL_LAYOUT(LinguastelChains, 146, 1, LINGUASTEL_SIZE(LinguastelChains, link) + LINGUASTEL_SIZE(LinguastelChains, key));

LINGUASTEL_FIELD(LinguastelRecord, counter, 0, 4);
LINGUASTEL_FIELD(LinguastelRecord, tasks, 4, 660);
LINGUASTEL_FIELD(LinguastelRecord, queues, 664, 1224);
LINGUASTEL_FIELD(LinguastelRecord, waiting, 1888, 146);
LINGUASTEL_FIELD(LinguastelRecord, messages, 2034, 146);
LINGUASTEL_FIELD(LinguastelRecord, mailboxes, 2180, 51);
LINGUASTEL_FIELD(LinguastelRecord, spare, 2231, 1);
LINGUASTEL_LAYOUT(LinguastelRecord, 2232, 4,
    LINGUASTEL_SIZE(LinguastelRecord, counter) + LINGUASTEL_SIZE(LinguastelRecord, tasks) + LINGUASTEL_SIZE(LinguastelRecord, queues)
        + LINGUASTEL_SIZE(LinguastelRecord, waiting) + LINGUASTEL_SIZE(LinguastelRecord, messages) + LINGUASTEL_SIZE(LinguastelRecord, mailboxes)
        + LINGUASTEL_SIZE(LinguastelRecord, spare));

LINGUASTEL_FIELD(LinguastelCall, number, 0, 4);
LINGUASTEL_FIELD(LinguastelCall, caller, 4, 4);
LINGUASTEL_FIELD(LinguastelCall, locked, 8, 4);
LINGUASTEL_FIELD(LinguastelCall, disabled, 12, 4);
LINGUASTEL_FIELD(LinguastelCall, object, 16, 4);
LINGUASTEL_FIELD(LinguastelCall, value, 20, 4);
LINGUASTEL_FIELD(LinguastelCall, tmout, 24, 4);
LINGUASTEL_FIELD(LinguastelCall, attribute, 28, 4);
LINGUASTEL_LAYOUT(LinguastelCall, 32, 4,
    LINGUASTEL_SIZE(LinguastelCall, number) + LINGUASTEL_SIZE(LinguastelCall, caller) + LINGUASTEL_SIZE(LinguastelCall, locked)
        + LINGUASTEL_SIZE(LinguastelCall, disabled) + LINGUASTEL_SIZE(LinguastelCall, object) + LINGUASTEL_SIZE(LinguastelCall, value)
        + LINGUASTEL_SIZE(LinguastelCall, tmout) + LINGUASTEL_SIZE(LinguastelCall, attribute));

LINGUASTEL_FIELD(LinguastelAnswer, kind, 0, 4);
LINGUASTEL_FIELD(LinguastelAnswer, code, 4, 4);
LINGUASTEL_FIELD(LinguastelAnswer, place, 8, 4);
LINGUASTEL_FIELD(LinguastelAnswer, a, 12, 4);
LINGUASTEL_FIELD(LinguastelAnswer, b, 16, 4);
LINGUASTEL_FIELD(LinguastelAnswer, c, 20, 4);
LINGUASTEL_LAYOUT(LinguastelAnswer, 24, 4,
    LINGUASTEL_SIZE(LinguastelAnswer, kind) + LINGUASTEL_SIZE(LinguastelAnswer, code) + LINGUASTEL_SIZE(LinguastelAnswer, place)
        + LINGUASTEL_SIZE(LinguastelAnswer, a) + LINGUASTEL_SIZE(LinguastelAnswer, b) + LINGUASTEL_SIZE(LinguastelAnswer, c));

LINGUASTEL_FIELD(LinguastelTaskSets, waiting, 0, 4);
LINGUASTEL_FIELD(LinguastelTaskSets, runnable, 4, 4);
LINGUASTEL_LAYOUT(LinguastelTaskSets, 8, 4, LINGUASTEL_SIZE(LinguastelTaskSets, waiting) + LINGUASTEL_SIZE(LinguastelTaskSets, runnable));

LINGUASTEL_FIELD(LinguastelReplay, records, 0, 8);
LINGUASTEL_FIELD(LinguastelReplay, differ, 8, 8);
LINGUASTEL_FIELD(LinguastelReplay, first, 16, 8);
LINGUASTEL_FIELD(LinguastelReplay, length, 24, 8);
LINGUASTEL_FIELD(LinguastelReplay, kernel, 32, 2232);
LINGUASTEL_FIELD(LinguastelReplay, part, 2264, 32);
LINGUASTEL_LAYOUT(LinguastelReplay, 2296, 8,
    LINGUASTEL_SIZE(LinguastelReplay, records) + LINGUASTEL_SIZE(LinguastelReplay, differ) + LINGUASTEL_SIZE(LinguastelReplay, first)
        + LINGUASTEL_SIZE(LinguastelReplay, length) + LINGUASTEL_SIZE(LinguastelReplay, kernel) + LINGUASTEL_SIZE(LinguastelReplay, part));

LINGUASTEL_FIELD(LinguastelLine, records, 0, 8);
LINGUASTEL_FIELD(LinguastelLine, differ, 8, 8);
LINGUASTEL_FIELD(LinguastelLine, first, 16, 8);
LINGUASTEL_FIELD(LinguastelLine, tail, 24, 8);
LINGUASTEL_FIELD(LinguastelLine, code, 32, 4);
LINGUASTEL_FIELD(LinguastelLine, spare, 36, 4);
LINGUASTEL_LAYOUT(LinguastelLine, 40, 8,
    LINGUASTEL_SIZE(LinguastelLine, records) + LINGUASTEL_SIZE(LinguastelLine, differ) + LINGUASTEL_SIZE(LinguastelLine, first)
        + LINGUASTEL_SIZE(LinguastelLine, tail) + LINGUASTEL_SIZE(LinguastelLine, code) + LINGUASTEL_SIZE(LinguastelLine, spare));

#undef LINGUASTEL_FIELD
#undef LINGUASTEL_LAYOUT
#undef LINGUASTEL_HOLDS
#undef LINGUASTEL_ALIGN
#undef LINGUASTEL_SIZE

/* ---- The library's functions ---- */

/*
 * Those that are unguarded are handed a pointer and follow it untested: it must be that of a record and of tables, or of a replay and of a block. They are
 * for who has tested the pointer already; the functions of the next section are these with the test.
 */

LINGUASTEL_MUST_USE uint32_t linguastel_version(void);
LINGUASTEL_MUST_USE size_t linguastel_record_size(void);
LINGUASTEL_MUST_USE size_t linguastel_record_align(void);

/* linguastel_empty without the test. */
void linguastel_unguarded_empty(LinguastelRecord *record);

/* linguastel_call without the test. */
LINGUASTEL_MUST_USE LinguastelAnswer linguastel_unguarded_call(LinguastelRecord *record, LinguastelCall call);

/* Which tasks wait, and which can run, whatever the record is; see linguastel_waiting. It only reads the record. */
LINGUASTEL_MUST_USE LinguastelTaskSets linguastel_unguarded_task_sets(const LinguastelRecord *record);

/*
 * linguastel_table without the test. A pointer is aligned and not null even where its count is 0. The function has an archive of its own, because a second
 * caller of the step in one archive would make both dearer.
 */
LINGUASTEL_MUST_USE int32_t linguastel_unguarded_table(
    LinguastelRecord *record, const LinguastelCall *calls, size_t call_count, LinguastelAnswer *answers, size_t answer_count);
LINGUASTEL_MUST_USE uint32_t linguastel_table_version(void);

/* The replay of a recording in blocks (document 02, item 5). These six functions have an archive of their own, for the same reason. */

LINGUASTEL_MUST_USE uint32_t linguastel_replay_version(void);
LINGUASTEL_MUST_USE size_t linguastel_replay_size(void);
LINGUASTEL_MUST_USE size_t linguastel_replay_align(void);

/* linguastel_replay_empty without the test. */
void linguastel_unguarded_replay_empty(LinguastelReplay *replay);

/* linguastel_replay_feed without the test. The pointer of the block isn't null even where size is 0. */
LINGUASTEL_MUST_USE int32_t linguastel_unguarded_replay_feed(LinguastelReplay *replay, const uint8_t *block, size_t size);

/* linguastel_replay_end without the test. */
LINGUASTEL_MUST_USE LinguastelLine linguastel_unguarded_replay_end(const LinguastelReplay *replay);

/* Whether the archive that is linked is this header's: version, and size and alignment of what it is lent. A host asks once, at start-up. */
LINGUASTEL_MUST_USE static inline bool linguastel_library_fits(void)
{
    return linguastel_version() == LINGUASTEL_VERSION && linguastel_record_size() == LINGUASTEL_RECORD_SIZE
        && linguastel_record_align() == LINGUASTEL_RECORD_ALIGN;
}

/* The same of liblinguastel_table.a; it has the version alone. */
LINGUASTEL_MUST_USE static inline bool linguastel_table_library_fits(void)
{
    return linguastel_table_version() == LINGUASTEL_VERSION;
}

/* The same of liblinguastel_replay.a. */
LINGUASTEL_MUST_USE static inline bool linguastel_replay_library_fits(void)
{
    return linguastel_replay_version() == LINGUASTEL_VERSION && linguastel_replay_size() == LINGUASTEL_REPLAY_SIZE
        && linguastel_replay_align() == LINGUASTEL_REPLAY_ALIGN;
}

/* ---- Calls, tables and replays, with a test of the pointers ---- */

/* C lets a compiler assume that a pointer is aligned; gcc and clang hand it over as it is, so that the test finds the fault. */
static inline bool linguastel_is_aligned(const void *pointer, size_t align)
{
    return LINGUASTEL_AS(uintptr_t, pointer) % align == 0;
}

/*
 * A pointer that is null or not aligned leads to no record. Document 01 has no row for it. It is answered like a state that isn't sound: E_SYS with
 * zero words, after step 0's E_PAR for a call number above 23; false where the answer is yes or no, and 0 where it is a number. No memory is touched.
 */
static inline bool linguastel_pointer_fits(const LinguastelRecord *record)
{
    return record && linguastel_is_aligned(record, LINGUASTEL_RECORD_ALIGN);
}

/* The answer to a call that is refused with this code: no place, no words. */
LINGUASTEL_MUST_USE static inline LinguastelAnswer linguastel_refusal(int32_t code)
{
    LinguastelAnswer answer;
    answer.kind = LINGUASTEL_FINISHED;
    answer.code = code;
    answer.place = 0;
    answer.a = 0;
    answer.b = 0;
    answer.c = 0;
    return answer;
}

/* Nothing locked, nothing disabled. */
static inline LinguastelContext linguastel_as_task(uint32_t task)
{
    LinguastelContext context;
    context.caller = task;
    context.locked = false;
    context.disabled = false;
    return context;
}

static inline LinguastelContext linguastel_as_handler(void)
{
    return linguastel_as_task(0);
}

/* A call's fields, for linguastel_call and for tables. Those that the call's row in the table of calls doesn't name are ignored; 0 will do. */
static inline LinguastelCall linguastel_fields(
    LinguastelContext context, uint32_t number, uint32_t object, uint32_t value, uint32_t attribute, int32_t tmout)
{
    LinguastelCall call;
    call.number = number;
    call.caller = context.caller;
    call.locked = context.locked;
    call.disabled = context.disabled;
    call.object = object;
    call.value = value;
    call.tmout = tmout;
    call.attribute = attribute;
    return call;
}

/* Makes the record empty, whatever its bytes were: nothing is defined, the counter is 0, every byte is 0. E_OK or E_SYS. */
LINGUASTEL_MUST_USE static inline int32_t linguastel_empty(LinguastelRecord *record)
{
    if (!linguastel_pointer_fits(record)) {
        return LINGUASTEL_E_SYS;
    }
    linguastel_unguarded_empty(record);
    return LINGUASTEL_E_OK;
}

/*
 * One call; number 0 is the tick. A refused call writes nothing into the record, and neither do look, ref_dtq, ref_mbx and fetch.
 * docs/calls/README.md#the-order-of-checks
 */
LINGUASTEL_MUST_USE static inline LinguastelAnswer linguastel_call(LinguastelRecord *record, LinguastelCall call)
{
    if (linguastel_pointer_fits(record)) {
        return linguastel_unguarded_call(record, call);
    }
    return linguastel_refusal(call.number > LINGUASTEL_LAST_CALL ? LINGUASTEL_E_PAR : LINGUASTEL_E_SYS);
}

/*
 * Counts one tick and ends the waits whose time is over; it has no context. docs/calls/tick.md#0-tick
 * It is no function of the library: one that called the step from a second place would make both dearer.
 */
LINGUASTEL_MUST_USE static inline LinguastelAnswer linguastel_tick(LinguastelRecord *record)
{
    return linguastel_call(record, linguastel_fields(linguastel_as_handler(), LINGUASTEL_TICK, 0, 0, 0, 0));
}

/* look by caller 0. It writes nothing, so the record may be const. */
LINGUASTEL_MUST_USE static inline LinguastelAnswer linguastel_look_only(const LinguastelRecord *record, uint32_t task)
{
    LinguastelCall look = linguastel_fields(linguastel_as_handler(), LINGUASTEL_LOOK, task, 0, 0, 0);
    return linguastel_call(LINGUASTEL_WITHOUT_CONST(LinguastelRecord, record), look);
}

/*
 * Whether the record is sound, whatever its bytes are. Nor is this a function of the library: look, by caller 0 of task 0, is refused with E_SYS exactly where
 * the record isn't sound, and writes nothing (the theorem `sound_by_call`).
 */
LINGUASTEL_MUST_USE static inline bool linguastel_sound(const LinguastelRecord *record)
{
    return linguastel_look_only(record, 0).code != LINGUASTEL_E_SYS;
}

/* Whether a pointer can be that of a table with this count; with count 0 it may be null. Calls and answers have the same alignment. */
static inline bool linguastel_table_pointer_fits(const void *table, size_t count)
{
    return (table || count == 0) && linguastel_is_aligned(table, LINGUASTEL_CELL_ALIGN);
}

/*
 * A table of calls in one go. E_OK: the calls were made first to last, and the answer to calls[i] is in answers[i]. Answers and record are those of the
 * calls made singly; a refused call doesn't stop the rest. Number 0 is no tick here: like an unknown number it gets E_PAR with zero words in its cell.
 * Answer cells past the last call keep their contents. A table without calls gives E_OK too. docs/calls/table.md#table
 *
 * E_SYS: the record isn't sound. Then E_PAR: more than LINGUASTEL_TABLE calls, or fewer answer cells than calls. Either way nothing is done: the record and
 * every answer cell keep every byte.
 *
 * A pointer that is null with a count above 0, or not aligned, leads to no table. Document 02 has no row for it. It is answered like a table of a wrong
 * length: E_PAR, after the record's test. No memory is written.
 *
 * Null with count 0 is a table of nothing. The library takes tables as slices, whose pointers are aligned and not null even where they hold nothing, so it
 * is handed the pointer of a local, which it neither reads nor writes.
 */
LINGUASTEL_MUST_USE static inline int32_t linguastel_table(
    LinguastelRecord *record, const LinguastelCall *calls, size_t call_count, LinguastelAnswer *answers, size_t answer_count)
{
    const LinguastelCall no_call = linguastel_fields(linguastel_as_handler(), LINGUASTEL_TICK, 0, 0, 0, 0);
    LinguastelAnswer no_answer = linguastel_refusal(LINGUASTEL_E_PAR);
    if (!linguastel_pointer_fits(record)) {
        return LINGUASTEL_E_SYS;
    }
    if (!linguastel_table_pointer_fits(calls, call_count) || !linguastel_table_pointer_fits(answers, answer_count)) {
        return linguastel_sound(record) ? LINGUASTEL_E_PAR : LINGUASTEL_E_SYS;
    }
    return linguastel_unguarded_table(record, calls ? calls : &no_call, call_count, answers ? answers : &no_answer, answer_count);
}

/*
 * As for a record: a pointer that is null or not aligned leads to no replay. It is answered like a replay whose kernel state isn't sound: E_SYS, at the end
 * with four zeros. No memory is touched.
 */
static inline bool linguastel_replay_pointer_fits(const LinguastelReplay *replay)
{
    return replay && linguastel_is_aligned(replay, LINGUASTEL_REPLAY_ALIGN);
}

/*
 * Makes this a new replay, whatever its bytes were: the kernel's state is the empty one, at counter 0, and nothing is counted. E_OK or E_SYS.
 * docs/calls/replay.md#replay
 */
LINGUASTEL_MUST_USE static inline int32_t linguastel_replay_empty(LinguastelReplay *replay)
{
    if (!linguastel_replay_pointer_fits(replay)) {
        return LINGUASTEL_E_SYS;
    }
    linguastel_unguarded_replay_empty(replay);
    return LINGUASTEL_E_OK;
}

/*
 * The line of the bytes so far, with E_OK; or with four zeros E_SYS, as for linguastel_replay_feed. It only reads the replay, so it may be asked between
 * blocks, and more blocks may follow. docs/calls/replay.md#replay
 */
LINGUASTEL_MUST_USE static inline LinguastelLine linguastel_replay_end(const LinguastelReplay *replay)
{
    if (linguastel_replay_pointer_fits(replay)) {
        return linguastel_unguarded_replay_end(replay);
    }
    LinguastelLine none;
    none.records = 0;
    none.differ = 0;
    none.first = 0;
    none.tail = 0;
    none.code = LINGUASTEL_E_SYS;
    none.spare = 0;
    return none;
}

/*
 * The next block of the recording, of any length, also of no bytes. E_OK: its bytes follow those before them, and the whole records are replayed. However
 * the recording is cut into blocks, numbers and kernel state come to those of the whole recording. docs/calls/replay.md#replay
 *
 * E_SYS: the kernel's state isn't sound, length is above 31, differ or first is above records, or only one of these two is 0. Then E_PAR: the block would
 * take records past 64 bits. Either way nothing is done, and nothing is written into the replay.
 *
 * A pointer that is null with a size above 0 leads to no block. As for tables it is answered E_PAR, after the replay's test; no memory is written. Null with
 * size 0 is a block of no bytes: the library is handed the pointer of a local, which it doesn't read. The bytes of a block may stand at any address.
 *
 * The function takes up to 12 KB of stack.
 */
LINGUASTEL_MUST_USE static inline int32_t linguastel_replay_feed(LinguastelReplay *replay, const uint8_t *block, size_t size)
{
    const uint8_t no_byte = 0;
    if (!linguastel_replay_pointer_fits(replay)) {
        return LINGUASTEL_E_SYS;
    }
    if (!block && size > 0) {
        return linguastel_unguarded_replay_end(replay).code == LINGUASTEL_E_OK ? LINGUASTEL_E_PAR : LINGUASTEL_E_SYS;
    }
    return linguastel_unguarded_replay_feed(replay, block ? block : &no_byte, size);
}

/* ---- What an answer says ---- */

/* Whether the call is done, or of fetch, whether the wait got what it waited for. A call that waits isn't done yet. */
LINGUASTEL_MUST_USE static inline bool linguastel_is_ok(LinguastelAnswer answer)
{
    return answer.kind == LINGUASTEL_FINISHED && answer.code == LINGUASTEL_E_OK;
}

/* Whether the caller waits now. */
LINGUASTEL_MUST_USE static inline bool linguastel_waits(LinguastelAnswer answer)
{
    return answer.kind == LINGUASTEL_WAITS;
}

/* ref_dtq's words by the standard's names. Where the call was refused they are 0. docs/calls/data-queues.md#11-ref_dtq */
typedef struct LinguastelRdtq {
    uint32_t stskid; /* the first task that waits to send, or LINGUASTEL_TSK_NONE */
    uint32_t rtskid; /* the first task that waits to receive, or LINGUASTEL_TSK_NONE */
    uint32_t sdtqcnt; /* the number of stored words */
} LinguastelRdtq;

static inline LinguastelRdtq linguastel_rdtq(LinguastelAnswer answer)
{
    LinguastelRdtq rdtq;
    rdtq.stskid = answer.a;
    rdtq.rtskid = answer.b;
    rdtq.sdtqcnt = answer.c;
    return rdtq;
}

/* ref_mbx's words by the standard's names. Where the call was refused they are 0. docs/calls/mailboxes.md#18-ref_mbx */
typedef struct LinguastelRmbx {
    uint32_t wtskid; /* the first task that waits, or LINGUASTEL_TSK_NONE */
    uint32_t pk_msg; /* the message at the head of the queue, or 0 */
} LinguastelRmbx;

static inline LinguastelRmbx linguastel_rmbx(LinguastelAnswer answer)
{
    LinguastelRmbx rmbx;
    rmbx.wtskid = answer.a;
    rmbx.pk_msg = answer.b;
    return rmbx;
}

/* look's words, the first two by the standard's names. Where the call was refused they are 0. docs/calls/tasks.md#22-look */
typedef struct LinguastelLooked {
    uint32_t tskwait; /* what the task waits for: LINGUASTEL_NO_WAIT and the names after it */
    uint32_t wobjid; /* the data queue or mailbox of the wait, or 0 */
    bool suspended;
} LinguastelLooked;

static inline LinguastelLooked linguastel_looked(LinguastelAnswer answer)
{
    LinguastelLooked looked;
    looked.tskwait = answer.a;
    looked.wobjid = answer.b;
    looked.suspended = answer.c != 0;
    return looked;
}

/* ---- Names in words ---- */

static inline const char *linguastel_code_name(int32_t code)
{
    switch (code) {
    case LINGUASTEL_E_OK: return "E_OK";
    case LINGUASTEL_E_SYS: return "E_SYS";
    case LINGUASTEL_E_PAR: return "E_PAR";
    case LINGUASTEL_E_ID: return "E_ID";
    case LINGUASTEL_E_CTX: return "E_CTX";
    case LINGUASTEL_E_ILUSE: return "E_ILUSE";
    case LINGUASTEL_E_OBJ: return "E_OBJ";
    case LINGUASTEL_E_NOEXS: return "E_NOEXS";
    case LINGUASTEL_E_QOVR: return "E_QOVR";
    case LINGUASTEL_E_RLWAI: return "E_RLWAI";
    case LINGUASTEL_E_TMOUT: return "E_TMOUT";
    case LINGUASTEL_E_DLT: return "E_DLT";
    default: return "no code of the kernel";
    }
}

/* The sentences are those of the table of codes. docs/calls/README.md#the-answer */
static inline const char *linguastel_code_meaning(int32_t code)
{
    switch (code) {
    case LINGUASTEL_E_OK: return "done; of a wait: it got what it waited for";
    case LINGUASTEL_E_SYS: return "the record isn't sound, or the caller can't call";
    case LINGUASTEL_E_PAR: return "a parameter is out of range";
    case LINGUASTEL_E_ID: return "the number of a task, data queue or mailbox is out of range";
    case LINGUASTEL_E_CTX: return "not allowed in this context";
    case LINGUASTEL_E_ILUSE: return "a forced send that has no word to replace";
    case LINGUASTEL_E_OBJ: return "the object, task or message isn't in the state that the call needs";
    case LINGUASTEL_E_NOEXS: return "the task, data queue or mailbox doesn't exist";
    case LINGUASTEL_E_QOVR: return "the task is suspended already";
    case LINGUASTEL_E_RLWAI: return "of a wait: ended by rel_wai";
    case LINGUASTEL_E_TMOUT: return "a poll that would have to wait; of a wait: its time is over";
    case LINGUASTEL_E_DLT: return "of a wait: the object was deleted";
    default: return "no code of the kernel";
    }
}

static inline const char *linguastel_call_name(uint32_t number)
{
    static const char *const names[LINGUASTEL_LAST_CALL + 1] = {
        "tick", "define_task", "cre_dtq", "del_dtq", "snd_dtq", "psnd_dtq", "tsnd_dtq", "fsnd_dtq", "rcv_dtq", "prcv_dtq", "trcv_dtq", "ref_dtq",
        "cre_mbx", "del_mbx", "snd_mbx", "rcv_mbx", "prcv_mbx", "trcv_mbx", "ref_mbx", "rel_wai", "sus_tsk", "rsm_tsk", "look", "fetch",
    };
    return number <= LINGUASTEL_LAST_CALL ? names[number] : "no call";
}

/* What a task waits for: look's tskwait, or the field wait. */
static inline const char *linguastel_wait_name(uint32_t wait)
{
    switch (wait) {
    case LINGUASTEL_NO_WAIT: return "no wait";
    case LINGUASTEL_SENDING: return "to send to a data queue";
    case LINGUASTEL_RECEIVING: return "to receive from a data queue";
    case LINGUASTEL_AT_MAILBOX: return "to receive from a mailbox";
    default: return "no kind of wait";
    }
}

/* ---- For schedulers: which tasks wait, and which can run ---- */

/* Bit task - 1; 0 where no task has this number. */
static inline uint32_t linguastel_task_bit(uint32_t task)
{
    const uint32_t first = 1;
    return task >= 1 && task <= LINGUASTEL_TASKS ? first << (task - 1) : 0;
}

/* Bit n - 1 is set where task n is defined, doesn't wait and isn't suspended: it can call. See linguastel_waiting. */
LINGUASTEL_MUST_USE static inline uint32_t linguastel_runnable(const LinguastelRecord *record)
{
    return linguastel_pointer_fits(record) ? linguastel_unguarded_task_sets(record).runnable : 0;
}

/*
 * Bit n - 1 is set where task n waits, suspended or not. This and linguastel_runnable give what linguastel_unguarded_task_sets gives; where the record is
 * sound, that is what look says of every task.
 *
 * A scheduler learns from three lines around a call, or a tick, which tasks can run now and couldn't before:
 *
 *     uint32_t before = linguastel_runnable(record);
 *     LinguastelAnswer answer = linguastel_snd_dtq(record, context, queue, word);
 *     uint32_t woken = linguastel_runnable(record) & ~before;
 *
 * Their waits have ended, and fetch tells how; or they were resumed or defined by the call. The tasks before & ~linguastel_runnable(record) can't run any
 * more: the caller, where it waits now, or a task that the call suspended. A suspended task whose wait has ended is in neither: it can run when it is
 * resumed, and it is in linguastel_waiting before the call and not after it.
 *
 * In a table of calls a task may be woken and wait again, by a later call of its own in the table, or wait and be woken. The two masks then don't show it:
 * they have the record before the table and after it. What happened between stands in the answer cells.
 */
LINGUASTEL_MUST_USE static inline uint32_t linguastel_waiting(const LinguastelRecord *record)
{
    return linguastel_pointer_fits(record) ? linguastel_unguarded_task_sets(record).waiting : 0;
}

/* ---- Why a call gave E_SYS ---- */

typedef enum LinguastelCause {
    LINGUASTEL_CAUSE_NONE = 0, /* this caller's calls aren't refused with E_SYS */
    LINGUASTEL_CAUSE_NULL,
    LINGUASTEL_CAUSE_MISALIGNED,
    LINGUASTEL_CAUSE_NOT_SOUND,
    LINGUASTEL_CAUSE_NO_CALLER, /* the caller is above 32, or not defined */
    LINGUASTEL_CAUSE_CALLER_CANNOT_CALL /* the caller waits or is suspended */
} LinguastelCause;

/*
 * Which of the causes of E_SYS a call by this caller has: the first that applies, in the order above. It is told by look, by caller 0 of the caller's number,
 * which changes nothing (docs/calls/tasks.md#22-look). Ask it before the next call or tick: what the call met may be over after that. Of a table, E_SYS in
 * a cell is about the record as the calls before it in the table left it.
 */
LINGUASTEL_MUST_USE static inline LinguastelCause linguastel_sys_cause(const LinguastelRecord *record, uint32_t caller)
{
    if (!record) {
        return LINGUASTEL_CAUSE_NULL;
    }
    if (!linguastel_pointer_fits(record)) {
        return LINGUASTEL_CAUSE_MISALIGNED;
    }
    LinguastelAnswer look = linguastel_look_only(record, caller);
    if (look.code == LINGUASTEL_E_SYS) {
        return LINGUASTEL_CAUSE_NOT_SOUND;
    }
    if (caller == 0) {
        return LINGUASTEL_CAUSE_NONE;
    }
    if (!linguastel_is_ok(look)) {
        return LINGUASTEL_CAUSE_NO_CALLER;
    }
    return look.a != LINGUASTEL_NO_WAIT || look.c != 0 ? LINGUASTEL_CAUSE_CALLER_CANNOT_CALL : LINGUASTEL_CAUSE_NONE;
}

static inline const char *linguastel_cause_name(LinguastelCause cause)
{
    switch (cause) {
    case LINGUASTEL_CAUSE_NONE: return "none";
    case LINGUASTEL_CAUSE_NULL: return "the pointer is null";
    case LINGUASTEL_CAUSE_MISALIGNED: return "the pointer is misaligned";
    case LINGUASTEL_CAUSE_NOT_SOUND: return "the record isn't sound";
    case LINGUASTEL_CAUSE_NO_CALLER: return "the caller is no defined task";
    case LINGUASTEL_CAUSE_CALLER_CANNOT_CALL: return "the caller waits or is suspended";
    }
    return "no cause of E_SYS";
}

/* ---- What stands in a data queue or mailbox ---- */

/*
 * These read the record's fields, first to last: a number, or 0 at the end. Numbers that no object, task or message has give 0. So this walks over the
 * senders that wait at a data queue, in their order:
 *
 *     for (task = linguastel_first_sender(record, queue); task != 0; task = linguastel_next_task(record, task)) { ... }
 *
 * They follow no link out of the record, whatever its bytes are; but in a record that isn't sound a chain may have no end. A host that doesn't know asks
 * linguastel_sound first.
 */

/* The number in a cell of a chain: one up to the largest, or 0. */
static inline uint32_t linguastel_linked(const LinguastelChains *chains, uint32_t cell, uint32_t largest)
{
    uint32_t number = chains->link[cell];
    return number <= largest ? number : 0;
}

/* Likewise in the cell of this object's head; heads is the cell before those of all objects. */
static inline uint32_t linguastel_head(const LinguastelChains *chains, uint32_t heads, uint32_t object, uint32_t largest)
{
    return object >= 1 && object <= LINGUASTEL_QUEUES ? linguastel_linked(chains, heads + object, largest) : 0;
}

/* The first task that waits to send to a data queue. */
static inline uint32_t linguastel_first_sender(const LinguastelRecord *record, uint32_t queue)
{
    return linguastel_pointer_fits(record) ? linguastel_head(&record->waiting, LINGUASTEL_HEADS_OF_SENDERS, queue, LINGUASTEL_TASKS) : 0;
}

/* The first task that waits to receive from a data queue. */
static inline uint32_t linguastel_first_receiver(const LinguastelRecord *record, uint32_t queue)
{
    return linguastel_pointer_fits(record) ? linguastel_head(&record->waiting, LINGUASTEL_HEADS_OF_RECEIVERS, queue, LINGUASTEL_TASKS) : 0;
}

/* The first task that waits at a mailbox. */
static inline uint32_t linguastel_first_waiter(const LinguastelRecord *record, uint32_t mailbox)
{
    return linguastel_pointer_fits(record) ? linguastel_head(&record->waiting, LINGUASTEL_HEADS_OF_WAITERS, mailbox, LINGUASTEL_TASKS) : 0;
}

/* The task that waits behind this one, at the same data queue or mailbox; 0 too where this one doesn't wait. */
static inline uint32_t linguastel_next_task(const LinguastelRecord *record, uint32_t task)
{
    if (!linguastel_pointer_fits(record) || task < 1 || task > LINGUASTEL_TASKS || record->tasks[task].wait == LINGUASTEL_NO_WAIT) {
        return 0;
    }
    return linguastel_linked(&record->waiting, task, LINGUASTEL_TASKS);
}

/* The first message that is queued in a mailbox. */
static inline uint32_t linguastel_first_message(const LinguastelRecord *record, uint32_t mailbox)
{
    return linguastel_pointer_fits(record) ? linguastel_head(&record->messages, LINGUASTEL_HEADS_OF_MESSAGES, mailbox, LINGUASTEL_MESSAGES) : 0;
}

/* The message behind this one, which is queued. Of one that isn't queued the record keeps no link: what is given then says nothing. */
static inline uint32_t linguastel_next_message(const LinguastelRecord *record, uint32_t message)
{
    if (!linguastel_pointer_fits(record) || message < 1 || message > LINGUASTEL_MESSAGES) {
        return 0;
    }
    return linguastel_linked(&record->messages, message, LINGUASTEL_MESSAGES);
}

static inline uint32_t linguastel_at_most(uint32_t limit, uint32_t number)
{
    return number < limit ? number : limit;
}

/* How many words a data queue stores. */
static inline uint32_t linguastel_word_count(const LinguastelRecord *record, uint32_t queue)
{
    if (!linguastel_pointer_fits(record) || queue < 1 || queue > LINGUASTEL_QUEUES) {
        return 0;
    }
    return linguastel_at_most(LINGUASTEL_WORDS, record->queues[queue].ring.count);
}

/* A stored word; place 0 is received first. Where there is no such place the word is 0, which can be a stored word too: the count tells. */
static inline uint32_t linguastel_word(const LinguastelRecord *record, uint32_t queue, uint32_t place)
{
    if (place >= linguastel_word_count(record, queue)) {
        return 0;
    }
    return record->queues[queue].ring.words[(record->queues[queue].ring.head + place) % LINGUASTEL_WORDS];
}

/* ---- Recording calls: traces, which the program replay and linguastel_replay_feed read (document 02, item 3) ---- */

/* A trace has LINGUASTEL_TRACE_SIZE bytes for each call with its answer, and nothing else. It starts at the empty record. */

/*
 * Writes the bytes of a call with its answer, and gives how many of them belong in the trace: all, or 0 where the call is left out. So this line records
 * a call, a tick, or a call of a table that was answered E_OK (docs/calls/recording.md#trace):
 *
 *     fwrite(bytes, 1, linguastel_trace(bytes, call, answer), file);
 *
 * Left out are the calls that step 0 refuses: a number above 23, and number 0 in a table. They change nothing, and the replay can't make them: it counts
 * the first as differing, and the second would be a tick. Where number 0 is answered E_PAR it was in a table, since no tick gives E_PAR. The bytes are
 * written even so, a table's number 0 as 255: if a host keeps them, the replay counts the call as differing and makes no tick of it.
 *
 * A number above the largest of its bytes is written as that. For caller and object nothing is lost: the kernel reads a number from 255 on as 255. Of
 * the kernel's answers, b is at most 64 (ref_mbx, a message) and c at most 16 (ref_dtq, the stored count). If another answer is handed in, the largest
 * number makes it differ in the replay; cut down to its low bits, it could have looked like the kernel's. For the same reason the words of an answer
 * that waits are written as they come; the kernel's are 0. The code of an answer that waits has no bytes: its place stands there.
 *
 * The bytes are the same on a host of either byte order. Where bytes is null, nothing is written, and 0 is given.
 */
static inline size_t linguastel_trace(uint8_t bytes[LINGUASTEL_TRACE_SIZE], LinguastelCall call, LinguastelAnswer answer)
{
    bool finished = answer.kind == LINGUASTEL_FINISHED;
    bool no_tick = call.number == LINGUASTEL_TICK && finished && answer.code == LINGUASTEL_E_PAR;
    uint32_t number = no_tick ? UINT8_MAX : linguastel_at_most(UINT8_MAX, call.number);
    uint32_t flags = (call.locked != 0 ? 1u : 0u) + (call.disabled != 0 ? 2u : 0u);
    const uint32_t words[LINGUASTEL_TRACE_SIZE / 4] = {
        number | linguastel_at_most(UINT8_MAX, call.caller) << 8 | flags << 16 | linguastel_at_most(UINT8_MAX, call.object) << 24,
        call.value,
        LINGUASTEL_AS(uint32_t, call.tmout),
        call.attribute,
        linguastel_at_most(UINT8_MAX, answer.kind),
        finished ? LINGUASTEL_AS(uint32_t, answer.code) : answer.place,
        answer.a,
        linguastel_at_most(UINT8_MAX, answer.b) | linguastel_at_most(UINT16_MAX, answer.c) << 8,
    };
    for (size_t i = 0; bytes && i < LINGUASTEL_TRACE_SIZE; i++) {
        bytes[i] = LINGUASTEL_AS(uint8_t, words[i / 4] >> 8 * (i % 4) & UINT8_MAX);
    }
    return !bytes || number > LINGUASTEL_LAST_CALL ? 0 : LINGUASTEL_TRACE_SIZE;
}

/* The same for a tick. docs/calls/recording.md#trace */
static inline size_t linguastel_trace_tick(uint8_t bytes[LINGUASTEL_TRACE_SIZE], LinguastelAnswer answer)
{
    return linguastel_trace(bytes, linguastel_fields(linguastel_as_handler(), LINGUASTEL_TICK, 0, 0, 0, 0), answer);
}

/*
 * The same for a table of calls with its code. Gives how many bytes belong in the trace: those of the calls in a row; 0 where the code isn't E_OK, because
 * none of the calls was made then, and 0 where a pointer is that of no table. There must be room for LINGUASTEL_TRACE_SIZE bytes a call; a host with less
 * records the calls one by one. docs/calls/recording.md#trace
 */
static inline size_t linguastel_trace_table(
    uint8_t *bytes, const LinguastelCall *calls, size_t call_count, const LinguastelAnswer *answers, int32_t code)
{
    bool fit = bytes && linguastel_table_pointer_fits(calls, call_count) && linguastel_table_pointer_fits(answers, call_count);
    size_t size = 0;
    for (size_t i = 0; fit && code == LINGUASTEL_E_OK && i < call_count; i++) {
        size += linguastel_trace(bytes + size, calls[i], answers[i]);
    }
    return size;
}

/* ---- The calls by name ---- */

/*
 * Numbers of tasks, data queues and mailboxes have 32 bits, so that 300 or -1 reaches the kernel as it is and is refused; a byte would have made 44 or
 * 255 of it.
 */
LINGUASTEL_MUST_USE static inline LinguastelAnswer linguastel_make_call(
    LinguastelRecord *record, LinguastelContext context, uint32_t number, uint32_t object, uint32_t value, uint32_t attribute, int32_t tmout)
{
    return linguastel_call(record, linguastel_fields(context, number, object, value, attribute, tmout));
}

/* Defines a task with its priority. docs/calls/tasks.md#1-define_task */
LINGUASTEL_MUST_USE static inline LinguastelAnswer linguastel_define_task(
    LinguastelRecord *record, LinguastelContext context, uint32_t task, uint32_t priority)
{
    return linguastel_make_call(record, context, LINGUASTEL_DEFINE_TASK, task, priority, 0, 0);
}

/* Creates a data queue. docs/calls/data-queues.md#2-cre_dtq */
LINGUASTEL_MUST_USE static inline LinguastelAnswer linguastel_cre_dtq(
    LinguastelRecord *record, LinguastelContext context, uint32_t queue, uint32_t attribute, uint32_t capacity)
{
    return linguastel_make_call(record, context, LINGUASTEL_CRE_DTQ, queue, capacity, attribute, 0);
}

/* Deletes a data queue; the waits there end with E_DLT. docs/calls/data-queues.md#3-del_dtq */
LINGUASTEL_MUST_USE static inline LinguastelAnswer linguastel_del_dtq(LinguastelRecord *record, LinguastelContext context, uint32_t queue)
{
    return linguastel_make_call(record, context, LINGUASTEL_DEL_DTQ, queue, 0, 0, 0);
}

/* Sends a word; waits as long as nobody takes it and there is no room. docs/calls/data-queues.md#4-snd_dtq */
LINGUASTEL_MUST_USE static inline LinguastelAnswer linguastel_snd_dtq(LinguastelRecord *record, LinguastelContext context, uint32_t queue, uint32_t word)
{
    return linguastel_make_call(record, context, LINGUASTEL_SND_DTQ, queue, word, 0, 0);
}

/* Sends a word if that is possible without waiting. docs/calls/data-queues.md#5-psnd_dtq */
LINGUASTEL_MUST_USE static inline LinguastelAnswer linguastel_psnd_dtq(LinguastelRecord *record, LinguastelContext context, uint32_t queue, uint32_t word)
{
    return linguastel_make_call(record, context, LINGUASTEL_PSND_DTQ, queue, word, 0, 0);
}

/* Sends a word; waits for at most tmout ticks. docs/calls/data-queues.md#6-tsnd_dtq */
LINGUASTEL_MUST_USE static inline LinguastelAnswer linguastel_tsnd_dtq(
    LinguastelRecord *record, LinguastelContext context, uint32_t queue, uint32_t word, int32_t tmout)
{
    return linguastel_make_call(record, context, LINGUASTEL_TSND_DTQ, queue, word, 0, tmout);
}

/* Sends a word without waiting; a full queue loses its oldest word for it. docs/calls/data-queues.md#7-fsnd_dtq */
LINGUASTEL_MUST_USE static inline LinguastelAnswer linguastel_fsnd_dtq(LinguastelRecord *record, LinguastelContext context, uint32_t queue, uint32_t word)
{
    return linguastel_make_call(record, context, LINGUASTEL_FSND_DTQ, queue, word, 0, 0);
}

/* Receives a word as a; waits as long as there is none. docs/calls/data-queues.md#8-rcv_dtq */
LINGUASTEL_MUST_USE static inline LinguastelAnswer linguastel_rcv_dtq(LinguastelRecord *record, LinguastelContext context, uint32_t queue)
{
    return linguastel_make_call(record, context, LINGUASTEL_RCV_DTQ, queue, 0, 0, 0);
}

/* Receives a word as a if there is one. docs/calls/data-queues.md#9-prcv_dtq */
LINGUASTEL_MUST_USE static inline LinguastelAnswer linguastel_prcv_dtq(LinguastelRecord *record, LinguastelContext context, uint32_t queue)
{
    return linguastel_make_call(record, context, LINGUASTEL_PRCV_DTQ, queue, 0, 0, 0);
}

/* Receives a word as a; waits for at most tmout ticks. docs/calls/data-queues.md#10-trcv_dtq */
LINGUASTEL_MUST_USE static inline LinguastelAnswer linguastel_trcv_dtq(LinguastelRecord *record, LinguastelContext context, uint32_t queue, int32_t tmout)
{
    return linguastel_make_call(record, context, LINGUASTEL_TRCV_DTQ, queue, 0, 0, tmout);
}

/* Tells who waits at a data queue and how many words it stores; linguastel_rdtq names its words. docs/calls/data-queues.md#11-ref_dtq */
LINGUASTEL_MUST_USE static inline LinguastelAnswer linguastel_ref_dtq(LinguastelRecord *record, LinguastelContext context, uint32_t queue)
{
    return linguastel_make_call(record, context, LINGUASTEL_REF_DTQ, queue, 0, 0, 0);
}

/* Creates a mailbox; highest counts with LINGUASTEL_TA_MPRI alone. docs/calls/mailboxes.md#12-cre_mbx */
LINGUASTEL_MUST_USE static inline LinguastelAnswer linguastel_cre_mbx(
    LinguastelRecord *record, LinguastelContext context, uint32_t mailbox, uint32_t attribute, uint32_t highest)
{
    return linguastel_make_call(record, context, LINGUASTEL_CRE_MBX, mailbox, highest, attribute, 0);
}

/* Deletes a mailbox; the waits there end with E_DLT. docs/calls/mailboxes.md#13-del_mbx */
LINGUASTEL_MUST_USE static inline LinguastelAnswer linguastel_del_mbx(LinguastelRecord *record, LinguastelContext context, uint32_t mailbox)
{
    return linguastel_make_call(record, context, LINGUASTEL_DEL_MBX, mailbox, 0, 0, 0);
}

/* Sends a message; priority counts with LINGUASTEL_TA_MPRI alone. docs/calls/mailboxes.md#14-snd_mbx */
LINGUASTEL_MUST_USE static inline LinguastelAnswer linguastel_snd_mbx(
    LinguastelRecord *record, LinguastelContext context, uint32_t mailbox, uint32_t message, uint32_t priority)
{
    return linguastel_make_call(record, context, LINGUASTEL_SND_MBX, mailbox, message, priority, 0);
}

/* Receives a message as a; waits as long as there is none. docs/calls/mailboxes.md#15-rcv_mbx */
LINGUASTEL_MUST_USE static inline LinguastelAnswer linguastel_rcv_mbx(LinguastelRecord *record, LinguastelContext context, uint32_t mailbox)
{
    return linguastel_make_call(record, context, LINGUASTEL_RCV_MBX, mailbox, 0, 0, 0);
}

/* Receives a message as a if there is one. docs/calls/mailboxes.md#16-prcv_mbx */
LINGUASTEL_MUST_USE static inline LinguastelAnswer linguastel_prcv_mbx(LinguastelRecord *record, LinguastelContext context, uint32_t mailbox)
{
    return linguastel_make_call(record, context, LINGUASTEL_PRCV_MBX, mailbox, 0, 0, 0);
}

/* Receives a message as a; waits for at most tmout ticks. docs/calls/mailboxes.md#17-trcv_mbx */
LINGUASTEL_MUST_USE static inline LinguastelAnswer linguastel_trcv_mbx(LinguastelRecord *record, LinguastelContext context, uint32_t mailbox, int32_t tmout)
{
    return linguastel_make_call(record, context, LINGUASTEL_TRCV_MBX, mailbox, 0, 0, tmout);
}

/* Tells who waits at a mailbox and which message is first there; linguastel_rmbx names its words. docs/calls/mailboxes.md#18-ref_mbx */
LINGUASTEL_MUST_USE static inline LinguastelAnswer linguastel_ref_mbx(LinguastelRecord *record, LinguastelContext context, uint32_t mailbox)
{
    return linguastel_make_call(record, context, LINGUASTEL_REF_MBX, mailbox, 0, 0, 0);
}

/* Ends a task's wait from outside, with E_RLWAI. docs/calls/tasks.md#19-rel_wai */
LINGUASTEL_MUST_USE static inline LinguastelAnswer linguastel_rel_wai(LinguastelRecord *record, LinguastelContext context, uint32_t task)
{
    return linguastel_make_call(record, context, LINGUASTEL_REL_WAI, task, 0, 0, 0);
}

/* Suspends a task. docs/calls/tasks.md#20-sus_tsk */
LINGUASTEL_MUST_USE static inline LinguastelAnswer linguastel_sus_tsk(LinguastelRecord *record, LinguastelContext context, uint32_t task)
{
    return linguastel_make_call(record, context, LINGUASTEL_SUS_TSK, task, 0, 0, 0);
}

/* Ends a task's suspension. docs/calls/tasks.md#21-rsm_tsk */
LINGUASTEL_MUST_USE static inline LinguastelAnswer linguastel_rsm_tsk(LinguastelRecord *record, LinguastelContext context, uint32_t task)
{
    return linguastel_make_call(record, context, LINGUASTEL_RSM_TSK, task, 0, 0, 0);
}

/* Tells what a task waits for and whether it is suspended; linguastel_looked names its words. docs/calls/tasks.md#22-look */
LINGUASTEL_MUST_USE static inline LinguastelAnswer linguastel_look(LinguastelRecord *record, LinguastelContext context, uint32_t task)
{
    return linguastel_make_call(record, context, LINGUASTEL_LOOK, task, 0, 0, 0);
}

/* Gives the code and, as a, the word that a task's last wait ended with. docs/calls/tasks.md#23-fetch */
LINGUASTEL_MUST_USE static inline LinguastelAnswer linguastel_fetch(LinguastelRecord *record, LinguastelContext context, uint32_t task)
{
    return linguastel_make_call(record, context, LINGUASTEL_FETCH, task, 0, 0, 0);
}

/* ---- The i-forms: the calls that a handler, or start-up, may make ---- */

/* define_task by a handler. docs/calls/tasks.md#1-define_task */
LINGUASTEL_MUST_USE static inline LinguastelAnswer linguastel_idefine_task(LinguastelRecord *record, uint32_t task, uint32_t priority)
{
    return linguastel_define_task(record, linguastel_as_handler(), task, priority);
}

/* cre_dtq by a handler. docs/calls/data-queues.md#2-cre_dtq */
LINGUASTEL_MUST_USE static inline LinguastelAnswer linguastel_icre_dtq(LinguastelRecord *record, uint32_t queue, uint32_t attribute, uint32_t capacity)
{
    return linguastel_cre_dtq(record, linguastel_as_handler(), queue, attribute, capacity);
}

/* psnd_dtq by a handler. docs/calls/data-queues.md#5-psnd_dtq */
LINGUASTEL_MUST_USE static inline LinguastelAnswer linguastel_ipsnd_dtq(LinguastelRecord *record, uint32_t queue, uint32_t word)
{
    return linguastel_psnd_dtq(record, linguastel_as_handler(), queue, word);
}

/* fsnd_dtq by a handler. docs/calls/data-queues.md#7-fsnd_dtq */
LINGUASTEL_MUST_USE static inline LinguastelAnswer linguastel_ifsnd_dtq(LinguastelRecord *record, uint32_t queue, uint32_t word)
{
    return linguastel_fsnd_dtq(record, linguastel_as_handler(), queue, word);
}

/* prcv_dtq by a handler. docs/calls/data-queues.md#9-prcv_dtq */
LINGUASTEL_MUST_USE static inline LinguastelAnswer linguastel_iprcv_dtq(LinguastelRecord *record, uint32_t queue)
{
    return linguastel_prcv_dtq(record, linguastel_as_handler(), queue);
}

/* ref_dtq by a handler. docs/calls/data-queues.md#11-ref_dtq */
LINGUASTEL_MUST_USE static inline LinguastelAnswer linguastel_iref_dtq(LinguastelRecord *record, uint32_t queue)
{
    return linguastel_ref_dtq(record, linguastel_as_handler(), queue);
}

/* cre_mbx by a handler. docs/calls/mailboxes.md#12-cre_mbx */
LINGUASTEL_MUST_USE static inline LinguastelAnswer linguastel_icre_mbx(LinguastelRecord *record, uint32_t mailbox, uint32_t attribute, uint32_t highest)
{
    return linguastel_cre_mbx(record, linguastel_as_handler(), mailbox, attribute, highest);
}

/* snd_mbx by a handler. docs/calls/mailboxes.md#14-snd_mbx */
LINGUASTEL_MUST_USE static inline LinguastelAnswer linguastel_isnd_mbx(LinguastelRecord *record, uint32_t mailbox, uint32_t message, uint32_t priority)
{
    return linguastel_snd_mbx(record, linguastel_as_handler(), mailbox, message, priority);
}

/* prcv_mbx by a handler. docs/calls/mailboxes.md#16-prcv_mbx */
LINGUASTEL_MUST_USE static inline LinguastelAnswer linguastel_iprcv_mbx(LinguastelRecord *record, uint32_t mailbox)
{
    return linguastel_prcv_mbx(record, linguastel_as_handler(), mailbox);
}

/* ref_mbx by a handler. docs/calls/mailboxes.md#18-ref_mbx */
LINGUASTEL_MUST_USE static inline LinguastelAnswer linguastel_iref_mbx(LinguastelRecord *record, uint32_t mailbox)
{
    return linguastel_ref_mbx(record, linguastel_as_handler(), mailbox);
}

/* rel_wai by a handler. docs/calls/tasks.md#19-rel_wai */
LINGUASTEL_MUST_USE static inline LinguastelAnswer linguastel_irel_wai(LinguastelRecord *record, uint32_t task)
{
    return linguastel_rel_wai(record, linguastel_as_handler(), task);
}

/* sus_tsk by a handler. docs/calls/tasks.md#20-sus_tsk */
LINGUASTEL_MUST_USE static inline LinguastelAnswer linguastel_isus_tsk(LinguastelRecord *record, uint32_t task)
{
    return linguastel_sus_tsk(record, linguastel_as_handler(), task);
}

/* rsm_tsk by a handler. docs/calls/tasks.md#21-rsm_tsk */
LINGUASTEL_MUST_USE static inline LinguastelAnswer linguastel_irsm_tsk(LinguastelRecord *record, uint32_t task)
{
    return linguastel_rsm_tsk(record, linguastel_as_handler(), task);
}

/* look by a handler. docs/calls/tasks.md#22-look */
LINGUASTEL_MUST_USE static inline LinguastelAnswer linguastel_ilook(LinguastelRecord *record, uint32_t task)
{
    return linguastel_look(record, linguastel_as_handler(), task);
}

/* fetch by a handler. docs/calls/tasks.md#23-fetch */
LINGUASTEL_MUST_USE static inline LinguastelAnswer linguastel_ifetch(LinguastelRecord *record, uint32_t task)
{
    return linguastel_fetch(record, linguastel_as_handler(), task);
}

#undef LINGUASTEL_AS
#undef LINGUASTEL_WITHOUT_CONST

#ifdef __cplusplus
}
#endif

#endif
