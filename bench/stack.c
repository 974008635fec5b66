/*
 * How deep the stack of each call goes: it is run on a stack that was painted before, and the bytes that changed are counted, less those of a thread
 * that calls nothing.
 */
#include "ntske.h"

#include <pthread.h>
#include <stdio.h>
#include <stdlib.h>
#include <string.h>

enum { STACK = 1 << 20, NAMES = 2000 };

static unsigned char stack[STACK] __attribute__((aligned(4096)));
static uint8_t message[65535], text[65535], buffer[65535], tray[1024], names[1024], out[NTSKE_LISTING];
static uint16_t table[2 * NAMES], numbers[2] = { NTSKE_NTPV4, NTSKE_AES_SIV_CMAC_256 };
static struct ntske_request request;
static struct ntske_reply reply;
static struct ntske_record_read record;
static struct ntske_choice choice;
static struct ntske_plan plan;
static struct ntske_connection line;
static struct ntske_finding finding;
static size_t message_len, reply_len, used, count;

static uint64_t nothing(void) { return NTSKE_OK; }
static uint64_t read_request(void) { return ntske_read_request(message, message_len, NTSKE_LIMIT, table, 2 * NAMES, &request); }
static uint64_t read_reply(void) { return ntske_read_reply(out, reply_len, NTSKE_LIMIT, numbers, 1, numbers + 1, 1, table, 2 * NAMES, &reply); }
static uint64_t walk_request(void) { return ntske_walk_request(message, message_len, NTSKE_LIMIT, &finding); }
static uint64_t decide_request(void) { return ntske_decide_request(&finding, message, message_len, table, 2 * NAMES, &request); }
static uint64_t feed_request(void) {
    return ntske_connection_new(NTSKE_LIMIT, &line) | ntske_feed_request(&line, message, message_len, buffer, sizeof buffer, table, 2 * NAMES, &request);
}
static uint64_t feed_reply(void) {
    return ntske_connection_new(NTSKE_LIMIT, &line) |
           ntske_feed_reply(&line, out, reply_len, numbers, 1, numbers + 1, 1, buffer, sizeof buffer, table, 2 * NAMES, &reply);
}
static uint64_t read_record(void) { return ntske_read_record(message, message_len, 12, &record); }
static uint64_t is_utf8(void) { return !ntske_is_utf8(text, sizeof text); }
static uint64_t list(void) { return ntske_list(message, message_len, NTSKE_LIMIT, NAMES, out, sizeof out, &count); }
static uint64_t choose(void) { return ntske_choose(message + 4, 2, message + 10, 2, numbers, 1, numbers + 1, 1, &choice); }
static uint64_t append(void) { return ntske_plan_append(&plan, text, 100, tray, sizeof tray); }
static uint64_t plan_length(void) { return ntske_plan_length(&plan, tray, sizeof tray, &count); }
static uint64_t write_reply(void) { return ntske_write_reply(&plan, tray, sizeof tray, NTSKE_NO_BYTES, 0, out, sizeof out, &reply_len); }
static uint64_t append_denied(void) { return ntske_append_denied(text, 100, names, sizeof names, &used); }
static uint64_t write_request(void) { return ntske_write_request(numbers, 1, numbers + 1, 1, names, sizeof names, used, out, sizeof out, &count); }
static uint64_t write_support_reply(void) { return ntske_write_support_reply(7, numbers, 2, numbers, 2, out, sizeof out, &count); }
static uint64_t write_record(void) {
    struct ntske_record item = { .kind = NTSKE_KIND_NEW_COOKIE, .body = { 0, 1000 } };
    return ntske_write_record(&item, text, sizeof text, out, sizeof out, &count);
}

static void *run(void *call) {
    if ((*(uint64_t (**)(void))call)() != NTSKE_OK) {
        puts("stack: a call is refused");
        exit(1);
    }
    return NULL;
}

/* The bytes of the painted stack that a thread with this call changes. */
static size_t deep(uint64_t (*call)(void)) {
    pthread_attr_t attributes;
    pthread_t thread;
    size_t untouched = 0;

    memset(stack, 0xA5, STACK);
    if (pthread_attr_init(&attributes) || pthread_attr_setstack(&attributes, stack, STACK) || pthread_create(&thread, &attributes, run, &call) || pthread_join(thread, NULL)) {
        puts("stack: no thread");
        exit(1);
    }
    while (untouched < STACK && stack[untouched] == 0xA5)
        untouched++;
    return STACK - untouched;
}

int main(void) {
    static const struct { const char *name; uint64_t (*call)(void); } calls[] = {
        { "choose", choose }, { "plan_append", append }, { "plan_length", plan_length }, { "write_reply", write_reply }, { "read_reply", read_reply },
        { "feed_reply", feed_reply }, { "read_request", read_request }, { "walk_request", walk_request }, { "decide_request", decide_request }, { "feed_request", feed_request },
        { "read_record", read_record }, { "is_utf8", is_utf8 }, { "list", list }, { "append_denied", append_denied }, { "write_request", write_request },
        { "write_support_reply", write_support_reply }, { "write_record", write_record },
    };
    static const uint8_t lists[] = { 0x80, 1, 0, 2, 0, 0, 0x80, 4, 0, 2, 0, 15 }, end[] = { 0x80, 0, 0, 0 };
    size_t i, base;

    memset(text, 'a', sizeof text);
    memcpy(message, lists, sizeof lists);
    message_len = sizeof lists;
    for (i = 0; i < NAMES; i++, message_len += 32) {
        static const uint8_t header[] = { 0, 13, 0, 28 };
        memcpy(message + message_len, header, sizeof header);
        memset(message + message_len + 4, 'a', 28);
    }
    memcpy(message + message_len, end, sizeof end);
    message_len += sizeof end;
    if (ntske_plan_new(numbers[0], numbers[1], &plan) != NTSKE_OK)
        return 1;
    deep(nothing); /* the first thread of a process may go deeper by itself */
    base = deep(nothing);
    for (i = 0; i < sizeof calls / sizeof *calls; i++)
        printf("stack %s %zu\n", calls[i].name, deep(calls[i].call) - base);
    return 0;
}
