/*
 * Client and server of a key exchange in C. Each side has one end of a pair of pipes, where a gateway has a TLS connection; the keys that TLS would
 * export (ntske_context and ntske_key_length say which), and what a server seals into its cookies, are left out. What it prints is in host.out.
 *
 *     ./archive && cc -std=c11 -Iinclude examples/host.c target/lib/libntske.a -o host && ./host [BYTES]
 *
 * A message is read as it comes: a side hands over what it takes off its pipe, at most so many BYTES at once, until there is an answer. Of a request that it
 * refuses the server logs which records it held. The client reads a reply with what it offered, so that one which names anything else is refused.
 */
#define _POSIX_C_SOURCE 200809L
#include "ntske.h"

#include <stdio.h>
#include <stdlib.h>
#include <string.h>
#include <unistd.h>

enum { SIZE = 4096, ENTRIES = 16 };

/* How many bytes are taken off a pipe at once. */
static size_t most = SIZE;

/* What a client offers. */
struct offer {
    const uint16_t *protocols;
    size_t protocols_len;
    const uint16_t *algorithms;
    size_t algorithms_len;
};

/* A reader's refusal in words, with its place and the number beside it. */
static void tell(const char *who, uint64_t answer)
{
    static const char *const sorts[] = {
        [NTSKE_BESIDE_PROTOCOL] = "protocol",
        [NTSKE_BESIDE_ALGORITHM] = "algorithm",
        [NTSKE_BESIDE_CODE] = "code",
    };
    printf("%s: refused %u at %lu: %s", who, ntske_refusal(answer), ntske_place(answer), ntske_words(answer));
    if (ntske_has_beside(answer))
        printf(", %s %u", sorts[ntske_beside_sort(answer)], ntske_beside(answer));
    printf("\n");
}

static void must(int holds)
{
    if (!holds)
        abort();
}

static void send_all(int to, const uint8_t *bytes, size_t len)
{
    must(write(to, bytes, len) == (ssize_t)len);
}

/* The next piece of what comes off a pipe; it has no byte where the other side has closed. */
static size_t take(int from, uint8_t piece[SIZE])
{
    ssize_t got = read(from, piece, most);
    must(got >= 0);
    return (size_t)got;
}

/* The reply to a key-exchange request that was read: its length in `out`. Where a choice is given, it is taken whatever the client offers. */
static size_t answer_request(const uint8_t *message, size_t len, const uint16_t *table, const struct ntske_key_exchange *request,
                             const struct ntske_choice *given, uint8_t out[SIZE])
{
    static const uint16_t own_protocols[] = {NTSKE_NTPV4}, own_algorithms[] = {NTSKE_AES_SIV_CMAC_256};
    static const char name[] = "time.example", first[] = "first cookie", second[] = "second cookie";
    const uint8_t *protocols = message + request->protocols.start, *algorithms = message + request->algorithms.start;
    struct ntske_choice chosen;
    struct ntske_plan plan;
    struct ntske_range entry;
    size_t protocol, written = 0;
    uint8_t tray[64];

    printf("server: protocols %zu, algorithms %zu, denied %zu", request->protocols.len / 2, request->algorithms.len / 2, request->denied);
    for (size_t i = 0; i < request->denied; i++) {
        must(ntske_entry(message, len, table, 2 * ENTRIES, i, &entry) == NTSKE_OK);
        printf(" %.*s", (int)entry.len, (const char *)message + entry.start);
    }
    printf("\n");

    uint64_t answer = NTSKE_OK;
    if (given != NULL)
        chosen = *given;
    else
        answer = ntske_choose(protocols, request->protocols.len, algorithms, request->algorithms.len, own_protocols, 1, own_algorithms, 1, &chosen);
    if (answer != NTSKE_OK)
        printf("server: refused %u: %s\n", ntske_refusal(answer), ntske_words(answer));
    switch (ntske_refusal(answer)) {
    case NTSKE_OK:
        break;
    case NTSKE_NO_OVERLAPPING_PROTOCOL:
        must(ntske_write_no_protocol(out, SIZE, &written) == NTSKE_OK);
        return written;
    case NTSKE_NO_OVERLAPPING_ALGORITHM:
        must(ntske_choose_protocol(protocols, request->protocols.len, own_protocols, 1, &protocol) == NTSKE_OK);
        must(ntske_write_no_algorithm((uint16_t)protocol, out, SIZE, &written) == NTSKE_OK);
        return written;
    default:
        must(ntske_write_error(ntske_error_code(answer), out, SIZE, &written) == NTSKE_OK);
        return written;
    }
    must(ntske_plan_new((uint16_t)chosen.protocol, (uint16_t)chosen.algorithm, &plan) == NTSKE_OK);
    must(ntske_plan_set_name_length(&plan, (uint16_t)strlen(name)) == NTSKE_OK);
    must(ntske_plan_set_port(&plan, 4123) == NTSKE_OK);
    must(ntske_plan_append(&plan, (const uint8_t *)first, strlen(first), tray, sizeof tray) == NTSKE_OK);
    must(ntske_plan_append(&plan, (const uint8_t *)second, strlen(second), tray, sizeof tray) == NTSKE_OK);
    must(ntske_write_reply(&plan, tray, sizeof tray, (const uint8_t *)name, strlen(name), out, SIZE, &written) == NTSKE_OK);
    printf("server: protocol %zu, algorithm %zu and two cookies in %zu bytes\n", chosen.protocol, chosen.algorithm, written);
    return written;
}

/* What a request that is refused held: a line for each kind of records, and one for why the walk over them stopped. */
static void log_request(const uint8_t *message, size_t len)
{
    static const char *const kinds[NTSKE_FOUND_KINDS] = {
        [NTSKE_FOUND_END_OF_MESSAGE] = "end",
        [NTSKE_FOUND_NEXT_PROTOCOL] = "next protocol",
        [NTSKE_FOUND_ERROR] = "error",
        [NTSKE_FOUND_WARNING] = "warning",
        [NTSKE_FOUND_AEAD_ALGORITHM] = "algorithm",
        [NTSKE_FOUND_NEW_COOKIE] = "cookie",
        [NTSKE_FOUND_SERVER] = "server",
        [NTSKE_FOUND_PORT] = "port",
        [NTSKE_FOUND_KEEP_ALIVE] = "keep-alive",
        [NTSKE_FOUND_SUPPORTED_NEXT_PROTOCOL_LIST] = "supported protocols",
        [NTSKE_FOUND_SUPPORTED_ALGORITHM_LIST] = "supported algorithms",
        [NTSKE_FOUND_UNKNOWN] = "unknown",
        [NTSKE_FOUND_FIXED_KEY_REQUEST] = "fixed key",
        [NTSKE_FOUND_NTP_SERVER_DENY] = "denied server",
        [NTSKE_FOUND_AUTHENTICATION] = "authentication",
    };
    struct ntske_finding finding;

    must(ntske_walk_request(message, len, SIZE, &finding) == NTSKE_OK);
    for (size_t i = 0; i < NTSKE_FOUND_KINDS; i++) {
        unsigned count = finding.found[i].count;
        if (count > 0)
            printf("log: %u %s record%s\n", count, kinds[i], count > 1 ? "s" : "");
    }
    if (finding.reason == NTSKE_OK)
        printf("log: ended at %u\n", finding.place);
    else
        printf("log: stopped at %u: %s (%u)\n", finding.place, ntske_words(finding.reason), finding.reason);
}

static void server(int from, int to, const struct ntske_choice *given)
{
    uint8_t piece[SIZE], message[SIZE], out[SIZE];
    uint16_t table[2 * ENTRIES];
    struct ntske_connection line;
    struct ntske_request request;
    size_t written = 0;
    uint64_t answer;

    must(ntske_connection_new(SIZE, &line) == NTSKE_OK);
    do {
        size_t len = take(from, piece);
        if (len > 0)
            answer = ntske_feed_request(&line, piece, len, message, SIZE, table, 2 * ENTRIES, &request);
        else
            answer = ntske_close_request(&line, message, SIZE, table, 2 * ENTRIES, &request);
    } while (answer == NTSKE_WAITING);

    if (answer != NTSKE_OK) {
        tell("server", answer);
        log_request(message, line.gathered);
        must(ntske_write_error(ntske_error_code(answer), out, SIZE, &written) == NTSKE_OK);
    } else if (request.sort != NTSKE_KEY_EXCHANGE) {
        printf("server: no key exchange\n");
        must(ntske_write_error(NTSKE_CODE_BAD_REQUEST, out, SIZE, &written) == NTSKE_OK);
    } else {
        written = answer_request(message, line.gathered, table, &request.key_exchange, given, out);
    }
    send_all(to, out, written);
}

static void client(int from, const struct offer *offer)
{
    uint8_t piece[SIZE], message[SIZE];
    uint16_t table[2 * ENTRIES];
    struct ntske_connection line;
    struct ntske_reply reply;
    struct ntske_range cookie;
    uint64_t answer;

    must(ntske_connection_new(SIZE, &line) == NTSKE_OK);
    do {
        size_t len = take(from, piece);
        if (len > 0)
            answer = ntske_feed_reply(&line, piece, len, offer->protocols, offer->protocols_len, offer->algorithms, offer->algorithms_len, message, SIZE, table,
                                      2 * ENTRIES, &reply);
        else
            answer = ntske_close_reply(&line, offer->protocols, offer->protocols_len, offer->algorithms, offer->algorithms_len, message, SIZE, table,
                                       2 * ENTRIES, &reply);
    } while (answer == NTSKE_WAITING);

    if (answer != NTSKE_OK) {
        tell("client", answer);
        return;
    }
    printf("client: protocol %zu, algorithm %zu", reply.protocol, reply.algorithm);
    if (reply.has_server)
        printf(", server %.*s", (int)reply.server.len, (const char *)message + reply.server.start);
    if (reply.has_port)
        printf(", port %zu", reply.port);
    printf("\n");
    for (size_t i = 0; i < reply.cookies; i++) {
        must(ntske_entry(message, line.gathered, table, 2 * ENTRIES, i, &cookie) == NTSKE_OK);
        printf("client: a cookie of %zu bytes: %.*s\n", cookie.len, (int)cookie.len, (const char *)message + cookie.start);
    }
}

/* The request by which a client offers this and denies the names in the used part of a tray: its length in `out`. */
static size_t ask(const struct offer *offer, const uint8_t *denied, size_t used, uint8_t *out, size_t out_len)
{
    size_t written = 0;
    must(ntske_write_request(offer->protocols, offer->protocols_len, offer->algorithms, offer->algorithms_len, denied, used, used, out, out_len,
                             &written) == NTSKE_OK);
    return written;
}

/* What a client does after it has sent its request. */
enum then { WAITS, CLOSES };

/* One exchange: what the client sends and offers by it, what the server makes of it, and what the client makes of the reply. */
static void exchange(const char *title, const uint8_t *request, size_t len, const struct offer *offer, enum then then, const struct ntske_choice *given)
{
    int up[2], down[2];
    must(pipe(up) == 0 && pipe(down) == 0);
    printf("== %s\n", title);
    printf("client: sends %zu bytes\n", len);
    send_all(up[1], request, len);
    if (then == CLOSES)
        close(up[1]);
    server(up[0], down[1], given);
    client(down[0], offer);
    if (then == WAITS)
        close(up[1]);
    close(up[0]);
    close(down[0]);
    close(down[1]);
}

int main(int argc, char **argv)
{
    static const uint16_t protocols[] = {NTSKE_NTPV4}, algorithms[] = {NTSKE_AES_SIV_CMAC_512, NTSKE_AES_SIV_CMAC_256};
    /* both algorithms, and each by itself */
    static const struct offer both = {protocols, 1, algorithms, 2}, longer = {protocols, 1, algorithms, 1}, shorter = {protocols, 1, algorithms + 1, 1};
    /* what a machine of a pool answers, whatever it is asked */
    static const struct ntske_choice pool = {.protocol = NTSKE_NTPV4, .algorithm = NTSKE_AES_SIV_CMAC_512};
    static const char name[] = "old.example";
    /* of one character, which has two bytes */
    static const char character[] = "\xC3\xA9";
    /* a list of algorithms with three bytes; its end record is there */
    static const uint8_t ill_formed[] = {0x80, 1, 0, 2, 0, 0, 0x80, 4, 0, 3, 0, 15, 0, 0x80, 0, 0, 0};
    struct ntske_record unknown = {.kind = 16385, .critical = 1};
    struct ntske_plan plan;
    uint8_t out[SIZE], denied[64];
    size_t used = 0, first = 0, written = 0;

    if (argc > 1)
        most = strtoul(argv[1], NULL, 10);
    must(most >= 1 && most <= SIZE && ntske_version() == NTSKE_VERSION);
    must(ntske_append_denied((const uint8_t *)name, strlen(name), denied, sizeof denied, &used) == NTSKE_OK);
    written = ask(&both, denied, used, out, SIZE);
    exchange("a key exchange", out, written, &both, WAITS, NULL);

    exchange("a request that is cut", out, 10, &both, CLOSES, NULL);

    used = 0;
    must(ntske_append_denied((const uint8_t *)character, strlen(character), denied, sizeof denied, &used) == NTSKE_OK);
    written = ask(&shorter, denied, used, out, SIZE);
    exchange("a name of one character in two bytes", out, written, &shorter, WAITS, NULL);

    exchange("a record that is ill-formed", ill_formed, sizeof ill_formed, &shorter, WAITS, NULL);

    written = ask(&longer, NTSKE_NO_BYTES, 0, out, SIZE);
    exchange("no algorithm in common", out, written, &longer, WAITS, NULL);

    written = ask(&shorter, NTSKE_NO_BYTES, 0, out, SIZE);
    exchange("an algorithm that was not offered", out, written, &shorter, WAITS, &pool);

    must(ntske_write_record(&unknown, NTSKE_NO_BYTES, 0, out, SIZE, &first) == NTSKE_OK);
    written = ask(&both, NTSKE_NO_BYTES, 0, out + first, SIZE - first);
    exchange("an unknown record with its critical bit set", out, first + written, &both, WAITS, NULL);

    /* what the writers refuse */
    must(ntske_plan_new(NTSKE_NTPV4, NTSKE_AES_SIV_CMAC_256, &plan) == NTSKE_OK);
    uint64_t answer = ntske_write_reply(&plan, NTSKE_NO_BYTES, 0, NTSKE_NO_BYTES, 0, out, SIZE, &written);
    printf("== a reply without a cookie\nserver: refused %u: %s\n", ntske_refusal(answer), ntske_words(answer));
    answer = ntske_write_request(protocols, 1, algorithms, 2, NTSKE_NO_BYTES, 0, 0, out, 17, &written);
    printf("== a request of 18 bytes into 17\nclient: refused %u: %s\n", ntske_refusal(answer), ntske_words(answer));
    return 0;
}
