/*
 * Prints a record in words: the counter, then a line for each task, data queue and mailbox that is defined; and an answer in words. hosts/print.txt has
 * examples, which hosts/c/print.c prints. For hosts in C and C++ with stdio.h; the dialects are those of linguastel.h.
 */
#ifndef LINGUASTEL_PRINT_H
#define LINGUASTEL_PRINT_H

#include <inttypes.h>
#include <stdio.h>

#include "linguastel.h"

/* The ticks left are those up to the one that ends the wait; the counter may come to 0 meanwhile. */
static inline void linguastel_print_wait(FILE *file, const LinguastelTask *task, uint32_t counter)
{
    uint32_t object = task->object;
    uint32_t left = task->end - counter;
    switch (task->wait) {
    case LINGUASTEL_SENDING: fprintf(file, ", waits to send %" PRIu32 " to data queue %" PRIu32, task->sending, object); break;
    case LINGUASTEL_RECEIVING: fprintf(file, ", waits to receive from data queue %" PRIu32, object); break;
    case LINGUASTEL_AT_MAILBOX: fprintf(file, ", waits to receive from mailbox %" PRIu32, object); break;
    default: return;
    }
    if (task->timed != 0) {
        fprintf(file, ", %" PRIu32 " %s left", left, left == 1 ? "tick" : "ticks");
    }
}

static inline void linguastel_print_task(FILE *file, const LinguastelRecord *record, uint32_t number)
{
    const LinguastelTask *task = &record->tasks[number];
    uint32_t priority = record->waiting.key[number];
    if (task->flags == 0) {
        return;
    }
    fprintf(file, "task %" PRIu32 ": priority %" PRIu32, number, priority);
    linguastel_print_wait(file, task, record->counter);
    fputs(task->flags != LINGUASTEL_DEFINED ? ", suspended\n" : "\n", file);
}

/* A wait queue from its first task on; nothing of an empty one. */
static inline void linguastel_print_tasks(FILE *file, const LinguastelRecord *record, const char *what, uint32_t first)
{
    if (first != 0) {
        fprintf(file, ", %s:", what);
    }
    for (uint32_t task = first; task != 0; task = linguastel_next_task(record, task)) {
        fprintf(file, " %" PRIu32, task);
    }
}

/* In which order tasks wait. */
static inline const char *linguastel_wait_order(uint8_t attribute)
{
    return (attribute & LINGUASTEL_TA_TPRI) != 0 ? "by priority" : "by arrival";
}

static inline void linguastel_print_queue(FILE *file, const LinguastelRecord *record, uint32_t number)
{
    const LinguastelQueue *queue = &record->queues[number];
    uint32_t count = linguastel_word_count(record, number);
    uint32_t capacity = queue->ring.capacity;
    if (queue->defined == 0) {
        return;
    }
    fprintf(file, "data queue %" PRIu32 ": senders %s, %" PRIu32 " of %" PRIu32 " words", number, linguastel_wait_order(queue->attribute), count, capacity);
    for (uint32_t place = 0; place < count; place++) {
        fprintf(file, "%s %" PRIu32, place == 0 ? ":" : "", linguastel_word(record, number, place));
    }
    linguastel_print_tasks(file, record, "senders", linguastel_first_sender(record, number));
    linguastel_print_tasks(file, record, "receivers", linguastel_first_receiver(record, number));
    fputc('\n', file);
}

/* The messages that are queued, with their priorities where these are kept. */
static inline void linguastel_print_messages(FILE *file, const LinguastelRecord *record, uint32_t mailbox)
{
    uint32_t first = linguastel_first_message(record, mailbox);
    bool ranked = record->mailboxes[mailbox].attribute >= LINGUASTEL_TA_MPRI;
    if (first != 0) {
        fputs(", messages:", file);
    }
    for (uint32_t message = first; message != 0; message = linguastel_next_message(record, message)) {
        uint32_t priority = record->messages.key[message];
        fprintf(file, " %" PRIu32, message);
        if (ranked) {
            fprintf(file, " (priority %" PRIu32 ")", priority);
        }
    }
}

static inline void linguastel_print_mailbox(FILE *file, const LinguastelRecord *record, uint32_t number)
{
    const LinguastelMailbox *mailbox = &record->mailboxes[number];
    uint32_t highest = mailbox->highest;
    if (mailbox->defined == 0) {
        return;
    }
    fprintf(file, "mailbox %" PRIu32 ": waiters %s, messages ", number, linguastel_wait_order(mailbox->attribute));
    if (mailbox->attribute >= LINGUASTEL_TA_MPRI) {
        fprintf(file, "by priority 1 to %" PRIu32, highest);
    } else {
        fputs("by arrival", file);
    }
    linguastel_print_messages(file, record, number);
    linguastel_print_tasks(file, record, "waiters", linguastel_first_waiter(record, number));
    fputc('\n', file);
}

/* A record that isn't sound is one line that says so, and so are null and a pointer that isn't aligned. Without a file nothing is printed. */
static inline void linguastel_print(FILE *file, const LinguastelRecord *record)
{
    if (!file) {
        return;
    }
    if (!linguastel_sound(record)) {
        fputs(!record ? "null\n" : !linguastel_pointer_fits(record) ? "misaligned\n" : "not sound\n", file);
        return;
    }
    fprintf(file, "counter %" PRIu32 "\n", record->counter);
    for (uint32_t task = 1; task <= LINGUASTEL_TASKS; task++) {
        linguastel_print_task(file, record, task);
    }
    for (uint32_t queue = 1; queue <= LINGUASTEL_QUEUES; queue++) {
        linguastel_print_queue(file, record, queue);
    }
    for (uint32_t mailbox = 1; mailbox <= LINGUASTEL_MAILBOXES; mailbox++) {
        linguastel_print_mailbox(file, record, mailbox);
    }
}

/* Prints an answer, without a line's end: 'E_OK, a 10, c 1', where words that are 0 aren't written; 'E_PAR'; or 'waits, place 0'. */
static inline void linguastel_print_answer(FILE *file, LinguastelAnswer answer)
{
    const char names[] = "abc";
    const uint32_t words[] = { answer.a, answer.b, answer.c };
    if (linguastel_waits(answer)) {
        fprintf(file, "waits, place %" PRIu32, answer.place);
        return;
    }
    fputs(linguastel_code_name(answer.code), file);
    for (size_t i = 0; i < sizeof words / sizeof words[0]; i++) {
        if (words[i] != 0) {
            fprintf(file, ", %c %" PRIu32, names[i], words[i]);
        }
    }
}

#endif
