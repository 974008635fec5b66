/*
 * Calls every function of include/ntske.h on good and bad input, and looks at what is returned and at every byte that was lent: what is answered, what is
 * written, and that all else is as it was; on every refusal all is as it was, but for buffer and connection of a read in pieces. Each writer is called with
 * an output that is too short, just long enough and longer; each message that is fed is cut at every place, and a reply's calls but the one that answers are
 * lent lists that do not count; of a finding each number is changed. All is run twice: with guard bytes around each buffer, and with each buffer at the end of
 * a page that no page follows. The expected bytes are worked out by hand from documents 01 and 02. The last line is 'N checks, M failed'; the status is 0 only for M = 0.
 */
#define _DEFAULT_SOURCE
#include "ntske.h"

#include <stdio.h>
#include <stdlib.h>
#include <string.h>
#include <sys/mman.h>
#include <unistd.h>

static unsigned long checks, failed;
enum { REFUSALS = 19 };
static unsigned seen[REFUSALS + 1]; /* by refusal, and of 17 where an algorithm was not offered behind them */

static void check(int holds, const char *what, const char *of, size_t more)
{
    checks++;
    if (!holds) {
        failed++;
        printf("FAILED %s: %s (%lu)\n", what, of, (unsigned long)more);
    }
}

/* ---- values ---- */

struct bytes { size_t n; const uint8_t *p; };
struct words { size_t n; const uint16_t *p; };
struct offered { struct words protocols, algorithms; };

#define WORDS(...) ((struct words){sizeof((uint16_t[]){__VA_ARGS__}) / sizeof(uint16_t), (uint16_t[]){__VA_ARGS__}})
#define NO_BYTES ((struct bytes){0, NULL})
#define NO_WORDS ((struct words){0, NULL})
#define OFFERED(protocols, algorithms) ((struct offered){protocols, algorithms})
#define PART(at, n) ((struct ntske_range){.start = (at), .len = (n)})
#define REPLY(...) ((struct ntske_reply){__VA_ARGS__})
#define ITEM(...) ((struct ntske_record){__VA_ARGS__})
#define LISTED(...) ((struct ntske_listed){__VA_ARGS__})
#define CHOICE(...) ((struct ntske_choice){__VA_ARGS__})
#define PLAN(...) ((struct ntske_plan){__VA_ARGS__})
#define CONNECTION(...) ((struct ntske_connection){__VA_ARGS__})
#define FINDING(...) ((struct ntske_finding){__VA_ARGS__})

/* Bits 0 to 15 of the word of 17: a protocol that was not offered, and an algorithm. */
enum { PROTOCOL_17 = 17 + 256, ALGORITHM_17 = 17 + 512 };

/* A reader's refusal: its number, or what it has in bits 0 to 15, the number beside it, and its place. */
static uint64_t with(unsigned number, unsigned beside, unsigned long place)
{
    return number + ((uint64_t)beside << 16) + ((uint64_t)place << 32);
}

static uint64_t at(unsigned number, unsigned long place)
{
    return with(number, 0, place);
}

/* What most clients here offer; and lists that are lent to a call that does not look at them. */
static const struct offered usually = {
    {2, (const uint16_t[]){NTSKE_NTPV4, NTSKE_DRAFT_NTPV5}},
    {2, (const uint16_t[]){NTSKE_AES_SIV_CMAC_512, NTSKE_AES_SIV_CMAC_256}},
};
static const struct offered whatever[] = {
    {{0, NULL}, {0, NULL}},
    {{1, (const uint16_t[]){65535}}, {2, (const uint16_t[]){256, 1}}},
    {{3, (const uint16_t[]){0, 0x8001, 1}}, {4, (const uint16_t[]){15, 16, 17, 65535}}},
};
enum { WHATEVER = sizeof whatever / sizeof *whatever };

/* What a request's reader answers. */
static struct ntske_request key_exchange(struct ntske_range protocols, struct ntske_range algorithms, size_t denied)
{
    struct ntske_request x;
    memset(&x, 0, sizeof x);
    x.sort = NTSKE_KEY_EXCHANGE;
    x.key_exchange.protocols = protocols;
    x.key_exchange.algorithms = algorithms;
    x.key_exchange.denied = denied;
    return x;
}

static struct ntske_request fixed_key(struct ntske_range authentication, struct ntske_range c2s, struct ntske_range s2c, size_t algorithm, size_t protocol)
{
    struct ntske_request x;
    memset(&x, 0, sizeof x);
    x.sort = NTSKE_FIXED_KEY;
    x.fixed_key.authentication = authentication;
    x.fixed_key.c2s = c2s;
    x.fixed_key.s2c = s2c;
    x.fixed_key.algorithm = algorithm;
    x.fixed_key.protocol = protocol;
    x.fixed_key.keep_alive = 1;
    return x;
}

static struct ntske_request support(struct ntske_range authentication, size_t wants_protocols, size_t wants_algorithms, size_t keep_alive)
{
    struct ntske_request x;
    memset(&x, 0, sizeof x);
    x.sort = NTSKE_SUPPORT;
    x.support.authentication = authentication;
    x.support.wants_protocols = wants_protocols;
    x.support.wants_algorithms = wants_algorithms;
    x.support.keep_alive = keep_alive;
    return x;
}

static uint8_t arena[1 << 22];
static size_t taken;

static uint8_t *take(size_t n)
{
    uint8_t *p = arena + taken;
    taken += n;
    if (taken > sizeof arena)
        abort();
    return p;
}

/* Bytes from hexadecimal text; blanks do not count. */
static struct bytes H(const char *text)
{
    uint8_t *p = take(strlen(text));
    size_t digits = 0;
    for (; *text; text++) {
        if (*text == ' ')
            continue;
        uint8_t digit = (uint8_t)(*text <= '9' ? *text - '0' : *text - 'A' + 10);
        p[digits / 2] = (uint8_t)(digits % 2 ? p[digits / 2] | digit : digit << 4);
        digits++;
    }
    return (struct bytes){digits / 2, p};
}

/* The bytes of a text. */
static struct bytes T(const char *text)
{
    return (struct bytes){strlen(text), (const uint8_t *)text};
}

static struct bytes join(struct bytes a, struct bytes b)
{
    uint8_t *p = take(a.n + b.n);
    if (a.n)
        memcpy(p, a.p, a.n);
    if (b.n)
        memcpy(p + a.n, b.p, b.n);
    return (struct bytes){a.n + b.n, p};
}

/* Some bytes n times over. */
static struct bytes times(size_t n, struct bytes a)
{
    uint8_t *p = take(n * a.n);
    for (size_t i = 0; i < n; i++)
        memcpy(p + i * a.n, a.p, a.n);
    return (struct bytes){n * a.n, p};
}

/* ---- lent memory ---- */

enum { GUARD = 64, MOST = 8, GUARD_BYTE = 0xC3 };

static struct lent {
    uint8_t *map;
    size_t mapped;
    uint8_t *at;
    size_t size, behind;
    uint8_t *want;
} lent[MOST];
static int lents;
static int at_the_end_of_a_page;

/* Lends a copy of some bytes, or where there are none to copy, bytes of a pattern. Never NULL, also for no bytes. */
static void *lend(const void *data, size_t size)
{
    size_t page = (size_t)sysconf(_SC_PAGESIZE);
    size_t open = (size + 2 * GUARD + page - 1) / page * page;
    struct lent *x = &lent[lents++];
    if (lents > MOST)
        abort();
    x->mapped = open + page;
    x->map = mmap(NULL, x->mapped, PROT_READ | PROT_WRITE, MAP_PRIVATE | MAP_ANONYMOUS, -1, 0);
    x->want = malloc(size + 1);
    if (x->map == MAP_FAILED || x->want == NULL || mprotect(x->map + open, page, PROT_NONE) != 0)
        abort();
    memset(x->map, GUARD_BYTE, open);
    x->at = at_the_end_of_a_page ? x->map + open - size : x->map + GUARD;
    x->behind = at_the_end_of_a_page ? 0 : GUARD;
    x->size = size;
    for (size_t i = 0; i < size; i++)
        x->at[i] = data ? ((const uint8_t *)data)[i] : (uint8_t)(0xA5 + i);
    memcpy(x->want, x->at, size);
    return x->at;
}

/* What lent memory is to hold after the call, from an offset on. */
static void becomes(const void *memory, size_t offset, const void *data, size_t size)
{
    for (int i = 0; i < lents; i++)
        if (lent[i].at == memory && offset + size <= lent[i].size) {
            if (size)
                memcpy(lent[i].want + offset, data, size);
            return;
        }
    abort();
}

/* After a call: what it returned, what each lent buffer holds, and the guards. All is then taken back. */
static void after(const char *what, uint64_t got, uint64_t want)
{
    check(got == want, what, "returned", (size_t)got);
    if (want != NTSKE_OK && ntske_refusal(want) < REFUSALS)
        seen[(want & 0xFFFF) == ALGORITHM_17 ? REFUSALS : ntske_refusal(want)]++;
    for (int i = 0; i < lents; i++) {
        struct lent *x = &lent[i];
        check(memcmp(x->at, x->want, x->size) == 0, what, "lent memory differs", (size_t)i);
        int whole = 1;
        for (size_t j = 1; j <= GUARD; j++)
            whole &= *(x->at - j) == GUARD_BYTE;
        for (size_t j = 0; j < x->behind; j++)
            whole &= x->at[x->size + j] == GUARD_BYTE;
        check(whole, what, "guards are touched", (size_t)i);
        free(x->want);
        munmap(x->map, x->mapped);
    }
    lents = 0;
}

/* ---- reading ---- */

/* What is decided from a finding over a message, with how many cells of a table; the answer is looked at where it is accepted. */
static void decide(const char *what, struct ntske_finding finding, struct bytes m, size_t cells, uint64_t want, struct ntske_request answer, struct words table)
{
    struct ntske_finding *f = lend(&finding, sizeof finding);
    uint8_t *lent_m = lend(m.p, m.n);
    uint16_t *t = lend(NULL, cells * sizeof(uint16_t));
    struct ntske_request *a = lend(NULL, sizeof *a);
    uint64_t got = ntske_decide_request(f, lent_m, m.n, t, cells, a);
    if (want == NTSKE_OK) {
        becomes(a, 0, &answer, sizeof answer);
        becomes(t, 0, table.p, table.n * sizeof(uint16_t));
    }
    after(what, got, want);
}

static void decide_refused(const char *what, struct ntske_finding finding, struct bytes m, size_t cells, uint64_t want)
{
    decide(what, finding, m, cells, want, support(PART(0, 0), 0, 0, 0), NO_WORDS);
}

/* The finding of a walk. */
static struct ntske_finding walked(const char *what, struct bytes m, uint16_t limit)
{
    struct ntske_finding finding;
    uint8_t *lent_m = lend(m.p, m.n);
    struct ntske_finding *f = lend(NULL, sizeof *f);
    uint64_t got = ntske_walk_request(lent_m, m.n, limit, f);
    memcpy(&finding, f, sizeof finding);
    becomes(f, 0, &finding, sizeof finding);
    after(what, got, NTSKE_OK);
    return finding;
}

/* A walk that finds this, and each number of it but the limit changed, which is no finding of the message then. */
static void walk(const char *what, struct bytes m, uint16_t limit, struct ntske_finding want)
{
    struct ntske_finding finding = walked(what, m, limit);
    check(memcmp(&finding, &want, sizeof want) == 0, what, "the finding", finding.place);
    for (size_t i = 1; i < sizeof want / sizeof(uint16_t); i++) {
        static const uint16_t by[] = {1, 65535, 32768};
        for (size_t j = 0; j < sizeof by / sizeof *by; j++) {
            uint16_t numbers[sizeof want / sizeof(uint16_t)];
            memcpy(numbers, &want, sizeof want);
            numbers[i] = (uint16_t)(numbers[i] + by[j]);
            memcpy(&finding, numbers, sizeof finding);
            decide_refused(what, finding, m, 4, at(9, 0));
        }
    }
}

/* What is read in a profile, and under which limit and with how many cells of a table; the answer is looked at where it is accepted. */
static void request_in(enum ntske_profiles profile, const char *what, struct bytes m, uint16_t limit, size_t cells, uint64_t want, struct ntske_request answer,
                       struct words table)
{
    uint8_t *lent_m = lend(m.p, m.n);
    uint16_t *t = lend(NULL, cells * sizeof(uint16_t));
    struct ntske_request *a = lend(NULL, sizeof *a);
    uint64_t got = profile == NTSKE_STRICT ? ntske_read_request_strict(lent_m, m.n, limit, t, cells, a) : ntske_read_request(lent_m, m.n, limit, t, cells, a);
    if (want == NTSKE_OK) {
        becomes(a, 0, &answer, sizeof answer);
        becomes(t, 0, table.p, table.n * sizeof(uint16_t));
    }
    after(what, got, want);
}

/* In the usual profile the walk and the decision from what it finds answer the same. */
static void request(const char *what, struct bytes m, uint16_t limit, size_t cells, uint64_t want, struct ntske_request answer, struct words table)
{
    request_in(NTSKE_USUAL, what, m, limit, cells, want, answer, table);
    decide(what, walked(what, m, limit), m, cells, want, answer, table);
}

static void request_refused(const char *what, struct bytes m, uint16_t limit, size_t cells, uint64_t want)
{
    request(what, m, limit, cells, want, support(PART(0, 0), 0, 0, 0), NO_WORDS);
}

/* The same of a reply, to a client that offered this. */
static void reply_in(enum ntske_profiles profile, const char *what, struct offered offered, struct bytes m, uint16_t limit, size_t cells, uint64_t want,
                     struct ntske_reply answer, struct words table)
{
    uint8_t *lent_m = lend(m.p, m.n);
    uint16_t *p = lend(offered.protocols.p, 2 * offered.protocols.n), *q = lend(offered.algorithms.p, 2 * offered.algorithms.n);
    uint16_t *t = lend(NULL, cells * sizeof(uint16_t));
    struct ntske_reply *a = lend(NULL, sizeof *a);
    uint64_t got = profile == NTSKE_STRICT
                       ? ntske_read_reply_strict(lent_m, m.n, limit, p, offered.protocols.n, q, offered.algorithms.n, t, cells, a)
                       : ntske_read_reply(lent_m, m.n, limit, p, offered.protocols.n, q, offered.algorithms.n, t, cells, a);
    if (want == NTSKE_OK) {
        becomes(a, 0, &answer, sizeof answer);
        becomes(t, 0, table.p, table.n * sizeof(uint16_t));
    }
    after(what, got, want);
}

static void reply_to(const char *what, struct offered offered, struct bytes m, uint16_t limit, size_t cells, uint64_t want, struct ntske_reply answer,
                     struct words table)
{
    reply_in(NTSKE_USUAL, what, offered, m, limit, cells, want, answer, table);
}

static void reply_to_refused(const char *what, struct offered offered, struct bytes m, size_t cells, uint64_t want)
{
    reply_to(what, offered, m, NTSKE_LIMIT, cells, want, REPLY(.cookies = 0), NO_WORDS);
}

static void reply(const char *what, struct bytes m, uint16_t limit, size_t cells, uint64_t want, struct ntske_reply answer, struct words table)
{
    reply_to(what, usually, m, limit, cells, want, answer, table);
}

static void reply_refused(const char *what, struct bytes m, uint16_t limit, size_t cells, uint64_t want)
{
    reply(what, m, limit, cells, want, REPLY(.cookies = 0), NO_WORDS);
}

static void record(const char *what, struct bytes m, size_t place, uint64_t want, struct ntske_record item, size_t next)
{
    struct ntske_record_read answer = {item, next};
    uint8_t *lent_m = lend(m.p, m.n);
    struct ntske_record_read *a = lend(NULL, sizeof *a);
    uint64_t got = ntske_read_record(lent_m, m.n, place, a);
    if (want == NTSKE_OK)
        becomes(a, 0, &answer, sizeof answer);
    after(what, got, want);
}

static void record_refused(const char *what, struct bytes m, size_t place, uint64_t want)
{
    record(what, m, place, want, ITEM(.kind = 0), 0);
}

/* The bit that document 01 names for a kind. */
static uint64_t bit_of(size_t kind)
{
    static const uint8_t bits[] = {1, 1, 1, 1, 1, 0, 1, 1, 0, 1, 1, 2, 1, 0, 0};
    return kind < sizeof bits ? bits[kind] : 2;
}

static void part(struct bytes m, size_t start, size_t len, struct ntske_range answer)
{
    uint8_t *lent_m = lend(m.p, m.n);
    struct ntske_range *a = lend(NULL, sizeof *a);
    uint64_t got = ntske_part(lent_m, m.n, start, len, a);
    becomes(a, 0, &answer, sizeof answer);
    after("a part", got, NTSKE_OK);
}

static void entry(struct bytes m, struct words table, size_t index, struct ntske_range answer)
{
    uint8_t *lent_m = lend(m.p, m.n);
    uint16_t *t = lend(table.p, table.n * sizeof(uint16_t));
    struct ntske_range *a = lend(NULL, sizeof *a);
    uint64_t got = ntske_entry(lent_m, m.n, t, table.n, index, a);
    becomes(a, 0, &answer, sizeof answer);
    after("an entry", got, NTSKE_OK);
}

static void number(int pair, struct bytes m, size_t start, size_t len, size_t index, struct ntske_listed answer)
{
    uint8_t *lent_m = lend(m.p, m.n);
    struct ntske_listed *a = lend(NULL, sizeof *a);
    uint64_t got = pair ? ntske_pair(lent_m, m.n, start, len, index, a) : ntske_number(lent_m, m.n, start, len, index, a);
    becomes(a, 0, &answer, sizeof answer);
    after(pair ? "a pair" : "a number", got, NTSKE_OK);
}

static void utf8(struct bytes x, uint64_t want)
{
    uint8_t *lent_x = lend(x.p, x.n);
    uint64_t got = ntske_is_utf8(lent_x, x.n);
    check(got == want, "UTF-8", "returned", (size_t)got);
    after("UTF-8", NTSKE_OK, NTSKE_OK);
}

/* ---- reading in pieces ---- */

enum { ROOM = 256 };
static const size_t NEVER = SIZE_MAX;

/* Under which limit a message is read, with how many bytes of a buffer and cells of a table. */
struct under { size_t limit, room, cells; };
#define UNDER(limit, room, cells) ((struct under){limit, room, cells})

/* How many bytes decide (NEVER where the close does), how many the buffer holds then, and where the record begins that decides (NEVER where none does). */
struct came { size_t needed, stored, decides; };

static struct came whole(size_t place, size_t end) { return (struct came){end, end, place}; }
static struct came limited(size_t limit) { return (struct came){limit, limit, NEVER}; }
static struct came full(size_t room) { return (struct came){room + 1, room, NEVER}; }
static struct came closed(size_t n) { return (struct came){NEVER, n, NEVER}; }

/* In the strict profile, behind the end record: the close decides, or a byte that follows. */
static struct came ended(size_t place, size_t end) { return (struct came){NEVER, end, place}; }
static struct came followed(size_t place, size_t end) { return (struct came){end + 1, end, place}; }

/* A message that is handed over, and what is to come of it. */
struct line {
    const char *what;
    struct bytes all;
    struct under under;
    struct came came;
    uint64_t want;
    int is_reply;
    struct offered offered; /* of a reply, lent to the call that answers */
    struct ntske_request request;
    struct ntske_reply reply;
    struct words table;
    enum ntske_profiles profile;
};

/* What a host keeps of it between two calls. */
struct kept {
    struct ntske_connection connection;
    uint8_t buffer[ROOM];
    size_t fed, calls;
    int answered;
};

/* The connection after so many bytes are gathered: the record that stands last begins behind those that are whole and do not decide. */
static struct ntske_connection gathered(const struct line *x, size_t n, uint64_t want)
{
    struct ntske_connection c = CONNECTION(.limit = x->under.limit, .gathered = n, .profile = x->profile);
    const uint8_t *p = x->all.p;
    size_t known = x->profile == NTSKE_STRICT ? 8 : 15;
    while (c.begins != x->came.decides && n - c.begins >= 4) {
        size_t kind = (p[c.begins] & 0x7FU) << 8 | p[c.begins + 1], end = c.begins + 4 + (p[c.begins + 2] << 8 | p[c.begins + 3]);
        if (end > n)
            break;
        c.met |= (size_t)1 << (kind < known ? kind : 11);
        c.begins = end;
    }
    if (want == NTSKE_OK)
        c.state = 1;
    else if (want != NTSKE_WAITING)
        c.state = 2, c.number = want & 0xFFFF, c.beside = ntske_beside(want), c.place = ntske_place(want);
    return c;
}

/* Calls with a piece, or where there is none, closes; of a reply, with what was offered. */
static uint64_t feed(const struct offered *of_reply, struct ntske_connection *c, const struct bytes *piece, uint8_t *b, size_t room, uint16_t *t, size_t cells,
                     void *a)
{
    const uint8_t *p = piece ? lend(piece->p, piece->n) : NULL;
    if (!of_reply)
        return piece ? ntske_feed_request(c, p, piece->n, b, room, t, cells, a) : ntske_close_request(c, b, room, t, cells, a);
    size_t protocols_len = of_reply->protocols.n, algorithms_len = of_reply->algorithms.n;
    const uint16_t *protocols = lend(of_reply->protocols.p, 2 * protocols_len), *algorithms = lend(of_reply->algorithms.p, 2 * algorithms_len);
    if (!piece)
        return ntske_close_reply(c, protocols, protocols_len, algorithms, algorithms_len, b, room, t, cells, a);
    return ntske_feed_reply(c, p, piece->n, protocols, protocols_len, algorithms, algorithms_len, b, room, t, cells, a);
}

/* One call: hands over a piece, or closes. A call after the answer changes nothing but the cells of one that is accepted. What was offered counts in the call
   that answers; before and after it other lists are lent. */
static void hand(const struct line *x, struct kept *k, const struct bytes *piece, size_t cells)
{
    struct ntske_connection *c = lend(&k->connection, sizeof k->connection);
    uint8_t *b = lend(k->buffer, x->under.room);
    uint16_t *t = lend(NULL, cells * sizeof(uint16_t));
    void *a = lend(NULL, x->is_reply ? sizeof x->reply : sizeof x->request);
    size_t fed = k->fed + (piece ? piece->n : 0);
    int first = !k->answered && (!piece || fed >= x->came.needed);
    const struct offered *offered = first ? &x->offered : &whatever[k->calls++ % WHATEVER];
    uint64_t got = feed(x->is_reply ? offered : NULL, c, piece, b, x->under.room, t, cells, a), want = first || k->answered ? x->want : NTSKE_WAITING;

    if (!k->answered) {
        size_t n = first ? x->came.stored : fed;
        k->connection = gathered(x, n, want);
        if (n)
            memcpy(k->buffer, x->all.p, n);
        k->fed = fed;
    }
    becomes(c, 0, &k->connection, sizeof k->connection);
    becomes(b, 0, k->buffer, x->under.room);
    if (want == NTSKE_OK)
        becomes(a, 0, x->is_reply ? (const void *)&x->reply : &x->request, x->is_reply ? sizeof x->reply : sizeof x->request);
    if (want == NTSKE_OK && first)
        becomes(t, 0, x->table.p, x->table.n * sizeof(uint16_t));
    k->answered |= first;
    after(x->what, got, want);
}

/* The message in pieces that end at `cut` and then every `step` bytes, with as many empty ones behind each; the close, if nothing is decided; and calls after the
   answer, whatever they are lent. */
static void in_pieces(const struct line *x, size_t cut, size_t step, int empty)
{
    struct kept k = {.connection = CONNECTION(.limit = x->under.limit, .profile = x->profile)};
    struct bytes none = NO_BYTES, more = H("FFFF00");
    for (size_t i = 0; i < ROOM; i++)
        k.buffer[i] = (uint8_t)(0x3C + i);
    for (size_t at = 0, end = cut; at < x->all.n; at = end, end = x->all.n - at < step ? x->all.n : at + step) {
        struct bytes piece = {end - at, x->all.p + at};
        hand(x, &k, &piece, x->under.cells);
        for (int i = 0; i < empty; i++)
            hand(x, &k, &none, x->under.cells);
    }
    if (!x->all.n)
        hand(x, &k, &none, x->under.cells);
    if (!k.answered)
        hand(x, &k, NULL, x->under.cells);
    hand(x, &k, &more, 0);
    hand(x, &k, &none, x->under.cells + 8);
    hand(x, &k, NULL, 1);
}

/* However the message is cut. */
static void fed(const struct line *x)
{
    for (size_t cut = 0; cut <= x->all.n; cut++)
        in_pieces(x, cut, x->all.n, 0);
    in_pieces(x, x->all.n ? 1 : 0, 1, 0);
    in_pieces(x, x->all.n ? 1 : 0, 1, 2);
    in_pieces(x, 0, 3, 1);
}

static void feeds(const char *what, struct bytes m, struct under under, struct came came, struct ntske_request answer, struct words table)
{
    fed(&(struct line){what, m, under, came, .request = answer, .table = table});
}

static void feeds_refused(const char *what, struct bytes m, struct under under, struct came came, uint64_t want)
{
    fed(&(struct line){what, m, under, came, want, .is_reply = 0});
}

static void feeds_reply_to(const char *what, struct offered offered, struct bytes m, struct under under, struct came came, struct ntske_reply answer,
                           struct words table)
{
    fed(&(struct line){what, m, under, came, .is_reply = 1, .offered = offered, .reply = answer, .table = table});
}

static void feeds_reply_to_refused(const char *what, struct offered offered, struct bytes m, struct under under, struct came came, uint64_t want)
{
    fed(&(struct line){what, m, under, came, want, .is_reply = 1, .offered = offered});
}

static void feeds_reply(const char *what, struct bytes m, struct under under, struct came came, struct ntske_reply answer, struct words table)
{
    feeds_reply_to(what, usually, m, under, came, answer, table);
}

static void feeds_reply_refused(const char *what, struct bytes m, struct under under, struct came came, uint64_t want)
{
    feeds_reply_to_refused(what, usually, m, under, came, want);
}

/* The same in the strict profile: an accepted request leaves the table as it is. */
static void feeds_strictly(const char *what, struct bytes m, struct under under, struct came came, uint64_t want, struct ntske_request answer)
{
    fed(&(struct line){what, m, under, came, want, .request = answer, .profile = NTSKE_STRICT});
}

static void feeds_reply_strictly(const char *what, struct bytes m, struct under under, struct came came, uint64_t want, struct ntske_reply answer, struct words table)
{
    fed(&(struct line){what, m, under, came, want, .is_reply = 1, .offered = usually, .reply = answer, .table = table, .profile = NTSKE_STRICT});
}

/* ---- choosing ---- */

static void choose(const char *what, struct bytes protocols, struct bytes algorithms, struct words own_protocols, struct words own_algorithms, uint64_t want,
                   struct ntske_choice answer)
{
    uint8_t *p = lend(protocols.p, protocols.n), *q = lend(algorithms.p, algorithms.n);
    uint16_t *own_p = lend(own_protocols.p, 2 * own_protocols.n), *own_q = lend(own_algorithms.p, 2 * own_algorithms.n);
    struct ntske_choice *a = lend(NULL, sizeof *a);
    uint64_t got = ntske_choose(p, protocols.n, q, algorithms.n, own_p, own_protocols.n, own_q, own_algorithms.n, a);
    if (want == NTSKE_OK)
        becomes(a, 0, &answer, sizeof answer);
    after(what, got, want);
}

static void choose_protocol(const char *what, struct bytes protocols, struct words own, uint64_t want, size_t answer)
{
    uint8_t *p = lend(protocols.p, protocols.n);
    uint16_t *own_p = lend(own.p, 2 * own.n);
    size_t *a = lend(NULL, sizeof *a);
    uint64_t got = ntske_choose_protocol(p, protocols.n, own_p, own.n, a);
    if (want == NTSKE_OK)
        becomes(a, 0, &answer, sizeof answer);
    after(what, got, want);
}

static void key_length(uint16_t algorithm, uint64_t want, size_t answer)
{
    size_t *a = lend(NULL, sizeof *a);
    uint64_t got = ntske_key_length(algorithm, a);
    if (want == NTSKE_OK)
        becomes(a, 0, &answer, sizeof answer);
    after("a key's length", got, want);
}

/* ---- the plan ---- */

static void plan_new(uint16_t protocol, uint16_t algorithm, struct ntske_plan plan)
{
    struct ntske_plan *p = lend(NULL, sizeof *p);
    uint64_t got = ntske_plan_new(protocol, algorithm, p);
    becomes(p, 0, &plan, sizeof plan);
    after("a plan is started", got, NTSKE_OK);
}

enum change { SET_PORT, CLEAR_PORT, SET_NAME, CLEAR_NAME, SET_KEEP_ALIVE, CLEAR_KEEP_ALIVE, CHANGES };

static uint64_t changed(enum change change, struct ntske_plan *p, uint16_t x)
{
    switch (change) {
    case SET_PORT: return ntske_plan_set_port(p, x);
    case CLEAR_PORT: return ntske_plan_clear_port(p);
    case SET_NAME: return ntske_plan_set_name_length(p, x);
    case CLEAR_NAME: return ntske_plan_clear_name_length(p);
    case SET_KEEP_ALIVE: return ntske_plan_set_keep_alive(p);
    default: return ntske_plan_clear_keep_alive(p);
    }
}

static void change(const char *what, enum change change, struct ntske_plan plan, uint16_t x, uint64_t want, struct ntske_plan then)
{
    struct ntske_plan *p = lend(&plan, sizeof plan);
    uint64_t got = changed(change, p, x);
    becomes(p, 0, &then, sizeof then);
    after(what, got, want);
}

/* Appends a cookie; `field` is what the tray has behind its used part afterwards. */
static void append(const char *what, struct ntske_plan plan, struct bytes cookie, struct bytes tray, uint64_t want, struct bytes field)
{
    struct ntske_plan *p = lend(&plan, sizeof plan);
    uint8_t *c = lend(cookie.p, cookie.n), *t = lend(tray.p, tray.n);
    uint64_t got = ntske_plan_append(p, c, cookie.n, t, tray.n);
    if (want == NTSKE_OK) {
        becomes(t, plan.used, field.p, field.n);
        plan.used += field.n;
        becomes(p, 0, &plan, sizeof plan);
    }
    after(what, got, want);
}

/* Appends a denied name, likewise. */
static void deny(const char *what, size_t used, struct bytes name, struct bytes tray, uint64_t want, struct bytes field)
{
    size_t *u = lend(&used, sizeof used);
    uint8_t *n = lend(name.p, name.n), *t = lend(tray.p, tray.n);
    uint64_t got = ntske_append_denied(n, name.n, t, tray.n, u);
    if (want == NTSKE_OK) {
        becomes(t, used, field.p, field.n);
        used += field.n;
        becomes(u, 0, &used, sizeof used);
    }
    after(what, got, want);
}

/* ---- writing ---- */

/* What a writer is called with; each uses what it has arguments for. */
struct given {
    struct ntske_plan plan;
    struct ntske_record item;
    struct bytes tray, name; /* of a record the source; of a listing the message */
    struct words first, second;
    size_t used;
    uint16_t number;
};

enum writer { WRITE_REPLY, NO_PROTOCOL, NO_ALGORITHM, ERROR, SUPPORT, REQUEST, RECORD, LIST };

/* Calls a writer, or where `out` is NULL its length. */
static uint64_t call(enum writer writer, const struct given *x, uint8_t *out, size_t out_len, size_t *count)
{
    const struct ntske_plan *p = NULL;
    const struct ntske_record *r = NULL;
    const uint8_t *t = NULL, *s = NULL;
    const uint16_t *a = NULL, *b = NULL;
    switch (writer) {
    case WRITE_REPLY:
        p = lend(&x->plan, sizeof x->plan), t = lend(x->tray.p, x->tray.n);
        if (!out)
            return ntske_plan_length(p, t, x->tray.n, count);
        s = lend(x->name.p, x->name.n);
        return ntske_write_reply(p, t, x->tray.n, s, x->name.n, out, out_len, count);
    case NO_PROTOCOL: return ntske_write_no_protocol(out, out_len, count);
    case NO_ALGORITHM: return ntske_write_no_algorithm(x->number, out, out_len, count);
    case ERROR: return ntske_write_error(x->number, out, out_len, count);
    case SUPPORT:
        a = lend(x->first.p, 2 * x->first.n), b = lend(x->second.p, 2 * x->second.n);
        if (!out)
            return ntske_support_reply_length((uint8_t)x->number, a, x->first.n, b, x->second.n, count);
        return ntske_write_support_reply((uint8_t)x->number, a, x->first.n, b, x->second.n, out, out_len, count);
    case REQUEST:
        a = lend(x->first.p, 2 * x->first.n), b = lend(x->second.p, 2 * x->second.n), t = lend(x->tray.p, x->tray.n);
        if (!out)
            return ntske_request_length(a, x->first.n, b, x->second.n, t, x->tray.n, x->used, count);
        return ntske_write_request(a, x->first.n, b, x->second.n, t, x->tray.n, x->used, out, out_len, count);
    case RECORD:
        r = lend(&x->item, sizeof x->item), s = lend(x->tray.p, x->tray.n);
        if (!out)
            return ntske_record_length(r, s, x->tray.n, count);
        return ntske_write_record(r, s, x->tray.n, out, out_len, count);
    default:
        t = lend(x->tray.p, x->tray.n);
        return ntske_list(t, x->tray.n, x->number, x->used, out, out_len, count);
    }
}

/* A writer that writes `bytes`, or refuses, with outputs of several lengths. */
static void writes(const char *what, enum writer writer, struct given x, uint64_t want, struct bytes bytes)
{
    size_t sizes[] = {bytes.n, bytes.n + 5, bytes.n ? bytes.n - 1 : 0, 0};
    for (size_t i = 0; i < sizeof sizes / sizeof *sizes; i++) {
        uint8_t *out = lend(NULL, sizes[i]);
        size_t *count = lend(NULL, sizeof *count);
        uint64_t told = want != NTSKE_OK ? want : sizes[i] < bytes.n ? at(10, 0) : NTSKE_OK;
        uint64_t got = call(writer, &x, out, sizes[i], count);
        if (told == NTSKE_OK) {
            becomes(out, 0, bytes.p, bytes.n);
            becomes(count, 0, &bytes.n, sizeof bytes.n);
        }
        after(what, got, told);
    }
}

/* The call for a length. */
static void measures(const char *what, enum writer writer, struct given x, uint64_t want, size_t length)
{
    size_t *count = lend(NULL, sizeof *count);
    uint64_t got = call(writer, &x, NULL, 0, count);
    if (want == NTSKE_OK)
        becomes(count, 0, &length, sizeof length);
    after(what, got, want);
}

static void both(const char *what, enum writer writer, struct given x, uint64_t want, struct bytes bytes)
{
    writes(what, writer, x, want, bytes);
    measures(what, writer, x, want, bytes.n);
}

static void item(const char *what, struct ntske_record item, struct bytes source, uint64_t want, struct bytes bytes)
{
    both(what, RECORD, (struct given){.item = item, .tray = source}, want, bytes);
}

static void list(const char *what, struct bytes m, uint16_t limit, size_t room, struct bytes text)
{
    writes(what, LIST, (struct given){.tray = m, .number = limit, .used = room}, NTSKE_OK, text);
}

/* ---- the cases ---- */

static void reading(void)
{
    struct bytes m = H("8001 0002 0000 8004 0002 000F 8000 0000");
    struct ntske_request read = key_exchange(PART(4, 2), PART(10, 2), 0);
    request("the request of document 01", m, NTSKE_LIMIT, 4, 0, read, NO_WORDS);
    request("the same without a table", m, NTSKE_LIMIT, 0, 0, read, NO_WORDS);
    request("limit 16", m, 16, 4, 0, read, NO_WORDS);
    request_refused("limit 15", m, 15, 4, at(1, 12));
    request_refused("limit 0", m, 0, 4, at(1, 0));
    request_refused("no byte", NO_BYTES, NTSKE_LIMIT, 4, at(1, 0));
    request_refused("no byte and limit 0", NO_BYTES, 0, 0, at(1, 0));
    request_refused("an end alone", H("8000 0000"), NTSKE_LIMIT, 4, at(4, 0));
    request("the first bit clear", H("0001 0002 0000 8004 0002 000F 8000 0000"), NTSKE_LIMIT, 4, 0, read, NO_WORDS);
    request("after an unknown record", join(H("000B 0000"), m), NTSKE_LIMIT, 4, 0, key_exchange(PART(8, 2), PART(14, 2), 0), NO_WORDS);
    request_refused("after an unknown critical record", join(H("800B 0000"), m), NTSKE_LIMIT, 4, at(3, 0));
    request("behind the end", join(m, H("FFFF")), NTSKE_LIMIT, 4, 0, read, NO_WORDS);
    request("empty lists", H("8001 0000 8004 0000 8000 0000"), NTSKE_LIMIT, 4, 0, key_exchange(PART(4, 0), PART(8, 0), 0), NO_WORDS);
    request_refused("a port of three bytes", H("8007 0003 007B"), NTSKE_LIMIT, 4, at(2, 0));
    request_refused("a port of one byte", H("8007 0001 00"), NTSKE_LIMIT, 4, at(1, 0));
    request_refused("an odd key record", H("800C 0001"), NTSKE_LIMIT, 4, at(2, 0));
    request_refused("a short name that is not UTF-8", H("8006 0002 C3"), NTSKE_LIMIT, 4, at(2, 0));
    request_refused("a short name", H("8006 0002 41"), NTSKE_LIMIT, 4, at(1, 0));
    request_refused("an odd list, which no byte mends", H("8001 0002 0000 8004 0003 000F 00 8000 0000"), NTSKE_LIMIT, 4, at(1, 6));
    request_refused("a second list", H("8001 0000 8001 0000 8000 0000"), NTSKE_LIMIT, 4, at(4, 4));
    request_refused("an error in a request", H("8002 0002 0000"), NTSKE_LIMIT, 4, at(4, 0));

    struct bytes denied = H("8001 0002 0000 8004 0002 000F 000D 0003 612E62 000D 0001 63 8000 0000");
    struct ntske_request two = key_exchange(PART(4, 2), PART(10, 2), 2);
    request("two names, room for two", denied, NTSKE_LIMIT, 4, 0, two, WORDS(16, 3, 23, 1));
    request("two names, five cells", denied, NTSKE_LIMIT, 5, 0, two, WORDS(16, 3, 23, 1));
    request("two names, room for three", denied, NTSKE_LIMIT, 6, 0, two, WORDS(16, 3, 23, 1));
    request_refused("two names, three cells", denied, NTSKE_LIMIT, 3, at(7, 24));
    request_refused("two names, no cell", denied, NTSKE_LIMIT, 0, at(7, 24));
    request_refused("the last place", join(times(16382, H("7FFF 0000")), H("8000 0000")), NTSKE_LIMIT, 0, at(4, 65528));

    struct bytes key = times(32, H("5A")), half = times(31, H("5A"));
    struct bytes lists15 = H("8001 0002 1234 8004 0002 000F"), lists16 = H("8001 0002 1234 8004 0002 0010"), lists17 = H("8001 0002 1234 8004 0002 0011");
    struct bytes last = H("8001 0002 1234 8004 0002 FFFF");
    struct bytes rest = H("000E 0002 4142 0008 0000 8000 0000");
    struct bytes keys32 = join(join(H("800C 0040"), join(key, key)), rest), keys31 = join(join(H("800C 003E"), join(half, half)), rest);
    struct bytes keys64 = join(join(H("800C 0080"), times(4, key)), rest);
    request("fixed keys of 32 bytes", join(lists15, keys32), NTSKE_LIMIT, 4, 0, fixed_key(PART(84, 2), PART(16, 32), PART(48, 32), 15, 0x1234), NO_WORDS);
    request("fixed keys of 64 bytes", join(lists17, keys64), NTSKE_LIMIT, 4, 0, fixed_key(PART(148, 2), PART(16, 64), PART(80, 64), 17, 0x1234), NO_WORDS);
    request_refused("fixed keys of another algorithm", join(lists16, keys32), NTSKE_LIMIT, 4, with(5, 16, 90));
    request_refused("fixed keys of the last algorithm", join(last, keys32), NTSKE_LIMIT, 4, with(5, 65535, 90));
    request_refused("fixed keys of the other length", join(lists17, keys32), NTSKE_LIMIT, 4, at(6, 90));
    request_refused("fixed keys of 31 bytes", join(lists15, keys31), NTSKE_LIMIT, 4, at(6, 88));
    request("a support request", H("8009 0000 800A 0000 000E 0001 41 0008 0000 8000 0000"), NTSKE_LIMIT, 4, 0, support(PART(12, 1), 1, 1, 1), NO_WORDS);
    request("for protocols alone", H("8009 0000 000E 0000 8000 0000"), NTSKE_LIMIT, 4, 0, support(PART(8, 0), 1, 0, 0), NO_WORDS);
    request("for algorithms alone", H("000E 0000 800A 0000 8000 0000"), NTSKE_LIMIT, 0, 0, support(PART(4, 0), 0, 1, 0), NO_WORDS);

    struct bytes r = H("8001 0002 0000 8004 0002 000F 0005 0004 DEADBEEF 8000 0000");
    reply("a reply with a cookie", r, NTSKE_LIMIT, 2, 0, REPLY(.algorithm = 15, .cookies = 1), WORDS(16, 4));
    reply("with more room", r, 24, 7, 0, REPLY(.algorithm = 15, .cookies = 1), WORDS(16, 4));
    reply_refused("limit 23", r, 23, 2, at(1, 20));
    reply_refused("limit 0", r, 0, 2, at(1, 0));
    reply_refused("no byte", NO_BYTES, NTSKE_LIMIT, 2, at(1, 0));
    reply_refused("one cell", r, NTSKE_LIMIT, 1, at(7, 20));
    reply_refused("no cell", r, NTSKE_LIMIT, 0, at(7, 20));
    reply("a reply with all", H("8001 0002 8001 8004 0002 0011 8006 0003 612E62 8007 0002 007B 0008 0000 0005 0001 AA 0005 0000 8000 0000"), NTSKE_LIMIT, 4, 0,
          REPLY(.protocol = 0x8001, .algorithm = 17, .has_server = 1, .server = {16, 3}, .has_port = 1, .port = 123, .keep_alive = 1, .cookies = 2),
          WORDS(33, 1, 38, 0));
    reply_refused("a port of three bytes", H("8007 0003 007B"), NTSKE_LIMIT, 2, at(2, 0));
    reply_refused("an unknown critical record", H("000B 0000 800B 0000"), NTSKE_LIMIT, 2, at(3, 4));
    reply_refused("a supported list", H("8009 0000"), NTSKE_LIMIT, 2, at(4, 0));
    reply_refused("no list", H("8000 0000"), NTSKE_LIMIT, 2, at(4, 0));
    reply_refused("two protocols", H("8001 0004 00000001"), NTSKE_LIMIT, 2, at(4, 0));
    reply_refused("an error", H("8002 0002 0001 8000 0000"), NTSKE_LIMIT, 2, with(11, 1, 0));
    reply_refused("an error with code 0", H("8002 0002 0000 8000 0000"), NTSKE_LIMIT, 2, with(11, 0, 0));
    reply_refused("an error with code 65535", H("0008 0000 8002 0002 FFFF"), NTSKE_LIMIT, 2, with(11, 65535, 4));
    reply_refused("a warning", H("8003 0002 0007 8000 0000"), NTSKE_LIMIT, 2, with(12, 7, 0));
    reply_refused("no protocol", H("8001 0000 8000 0000"), NTSKE_LIMIT, 2, at(13, 4));
    reply_refused("no algorithm", H("8001 0002 0000 8004 0000 8000 0000"), NTSKE_LIMIT, 2, at(14, 10));
    reply_refused("no cookie", m, NTSKE_LIMIT, 2, at(15, 12));

    record("protocols", m, 0, 0, ITEM(.kind = NTSKE_KIND_NEXT_PROTOCOL, .critical = 1, .body = {4, 2}), 6);
    record("algorithms", m, 6, 0, ITEM(.kind = NTSKE_KIND_AEAD_ALGORITHM, .critical = 1, .body = {10, 2}), 12);
    record("the end", m, 12, 0, ITEM(.kind = NTSKE_KIND_END_OF_MESSAGE, .critical = 1), 16);
    record_refused("behind the end", m, 16, at(1, 0));
    record_refused("past the message", m, 17, at(1, 0));
    record_refused("the last place", m, SIZE_MAX, at(1, 0));
    record_refused("no byte", NO_BYTES, 0, at(1, 0));
    record_refused("no byte, the last place", NO_BYTES, SIZE_MAX, at(1, 0));
    record("an error", H("8002 0002 0102"), 0, 0, ITEM(.kind = NTSKE_KIND_ERROR, .critical = 1, .number = 258), 6);
    record("a warning", H("0003 0002 FFFF"), 0, 0, ITEM(.kind = NTSKE_KIND_WARNING, .number = 65535), 6);
    record("a cookie", H("FF 0005 0002 AABB"), 1, 0, ITEM(.kind = NTSKE_KIND_NEW_COOKIE, .body = {5, 2}), 7);
    record("a server", H("8006 0001 41"), 0, 0, ITEM(.kind = NTSKE_KIND_SERVER, .critical = 1, .body = {4, 1}), 5);
    record("a port", H("8007 0002 007B"), 0, 0, ITEM(.kind = NTSKE_KIND_PORT, .critical = 1, .number = 123), 6);
    record("keep-alive with a body", H("0008 0002 FFFF"), 0, 0, ITEM(.kind = NTSKE_KIND_KEEP_ALIVE), 6);
    record("supported protocols", H("8009 0000"), 0, 0, ITEM(.kind = NTSKE_KIND_SUPPORTED_NEXT_PROTOCOL_LIST, .critical = 1, .body = {4, 0}), 4);
    record("supported algorithms", H("800A 0004 000F 0020"), 0, 0, ITEM(.kind = NTSKE_KIND_SUPPORTED_ALGORITHM_LIST, .critical = 1, .body = {4, 4}), 8);
    record("kind 11, bit set", H("800B 0000"), 0, 0, ITEM(.kind = 11, .critical = 1, .body = {4, 0}), 4);
    record("keys", H("800C 0004 01020304"), 0, 0, ITEM(.kind = NTSKE_KIND_FIXED_KEY_REQUEST, .critical = 1, .body = {4, 2}, .second = {6, 2}), 8);
    record("a denied name", H("000D 0002 C280"), 0, 0, ITEM(.kind = NTSKE_KIND_NTP_SERVER_DENY, .body = {4, 2}), 6);
    record("authentication", H("000E 0000"), 0, 0, ITEM(.kind = NTSKE_KIND_AUTHENTICATION, .body = {4, 0}), 4);
    record("the last kind, bit set", H("FFFF 0001 AA"), 0, 0, ITEM(.kind = 32767, .critical = 1, .body = {4, 1}), 5);
    record("the last kind, bit clear", H("7FFF 0001 AA"), 0, 0, ITEM(.kind = 32767, .body = {4, 1}), 5);
    record_refused("an odd list", H("FF 8001 0001 00"), 1, at(1, 0));
    record_refused("pairs of six bytes", H("800A 0006 000F 0020 0011"), 0, at(1, 0));
    record_refused("a port of three bytes", H("FF 8007 0003 007B"), 1, at(2, 0));

    struct bytes four = H("00010203");
    part(four, 0, 4, PART(0, 4));
    part(four, 1, 2, PART(1, 2));
    part(four, 4, 0, PART(4, 0));
    part(four, 5, 0, PART(0, 0));
    part(four, 0, 5, PART(0, 0));
    part(four, 3, 2, PART(0, 0));
    part(four, SIZE_MAX, 1, PART(0, 0));
    part(four, 1, SIZE_MAX, PART(0, 0));
    part(four, SIZE_MAX, SIZE_MAX, PART(0, 0));
    part(NO_BYTES, 0, 0, PART(0, 0));
    part(NO_BYTES, 0, 1, PART(0, 0));

    entry(four, WORDS(1, 2, 2, 2), 0, PART(1, 2));
    entry(four, WORDS(1, 2, 2, 2), 1, PART(2, 2));
    entry(four, WORDS(1, 2, 2, 2), 2, PART(0, 0));
    entry(four, WORDS(1, 2, 2, 2), SIZE_MAX, PART(0, 0));
    entry(four, WORDS(1, 2, 2, 2), SIZE_MAX / 2 + 1, PART(0, 0));
    entry(four, WORDS(1, 2, 3), 1, PART(3, 0));
    entry(four, WORDS(1, 2, 5), 1, PART(0, 0));
    entry(four, WORDS(3, 2), 0, PART(0, 0));
    entry(four, WORDS(4, 0), 0, PART(4, 0));
    entry(four, WORDS(65535, 65535), 0, PART(0, 0));
    entry(four, NO_WORDS, 0, PART(0, 0));
    entry(NO_BYTES, NO_WORDS, SIZE_MAX, PART(0, 0));

    struct ntske_listed none = LISTED(.there = 0);
    number(0, m, 4, 2, 0, LISTED(.there = 1, .number = 0));
    number(0, m, 10, 2, 0, LISTED(.there = 1, .number = 15));
    number(0, m, 0, 16, 7, LISTED(.there = 1, .number = 0));
    number(0, m, 0, 16, 6, LISTED(.there = 1, .number = 0x8000));
    number(0, m, 0, 16, 8, none);
    number(0, m, 0, 3, 1, none);
    number(0, m, 15, 2, 0, none);
    number(0, m, 0, 16, SIZE_MAX, none);
    number(0, m, 0, 16, SIZE_MAX / 2 + 1, none);
    number(0, m, SIZE_MAX, SIZE_MAX, 0, none);
    number(0, NO_BYTES, 0, 0, 0, none);
    struct bytes pairs = H("000F 0020 0011 0040 FFFF");
    number(1, pairs, 0, 8, 0, LISTED(.there = 1, .number = 15, .key_size = 32));
    number(1, pairs, 0, 8, 1, LISTED(.there = 1, .number = 17, .key_size = 64));
    number(1, pairs, 0, 8, 2, none);
    number(1, pairs, 0, 10, 2, none);
    number(1, pairs, 6, 4, 0, LISTED(.there = 1, .number = 64, .key_size = 65535));
    number(1, pairs, 7, 4, 0, none);
    number(1, pairs, 0, 8, SIZE_MAX, none);
    number(1, pairs, 0, 8, SIZE_MAX / 4 + 1, none);
    number(1, pairs, 1, SIZE_MAX, 0, none);

    static const char *well[] = {"", "41", "C280", "E0A080", "ED9FBF", "F48FBFBF", "F0908080", "EFBFBF", "41C28042"};
    static const char *ill[] = {"80", "C1BF", "E09FBF", "EDA080", "F4908080", "F5808080", "C2", "E0A0", "F48FBF", "C241", "FF"};
    for (size_t i = 0; i < sizeof well / sizeof *well; i++)
        utf8(H(well[i]), 1);
    for (size_t i = 0; i < sizeof ill / sizeof *ill; i++)
        utf8(H(ill[i]), 0);
    utf8(times(70000, H("61")), 1);
    utf8(join(times(70000, H("61")), H("C3")), 0);
}

/* A reply must answer what was asked. */
static void offering(void)
{
    static uint16_t many[70000];
    for (size_t i = 0; i < 70000; i++)
        many[i] = (uint16_t)(i < 69999 ? 1000 + i % 60000 : 15);
    struct words ntp = WORDS(0), siv = WORDS(15), longer = WORDS(17), all = {70000, many}, but_the_last = {69999, many};
    struct bytes r = H("8001 0002 0000 8004 0002 000F 0005 0004 DEADBEEF 8000 0000"), pool = H("8001 0002 0000 8004 0002 0011 0005 0004 DEADBEEF 8000 0000");
    struct ntske_reply one = REPLY(.algorithm = 15, .cookies = 1);
    struct words cookie = WORDS(16, 4);
    reply_to("just what was offered", OFFERED(ntp, siv), r, NTSKE_LIMIT, 2, 0, one, cookie);
    reply_to("the last of each list", OFFERED(WORDS(0x8001, 1, 0), WORDS(17, 16, 15)), r, NTSKE_LIMIT, 2, 0, one, cookie);
    reply_to("the first of each list", OFFERED(WORDS(0, 1, 0x8001), WORDS(15, 16, 17)), r, NTSKE_LIMIT, 2, 0, one, cookie);
    reply_to("a number twice", OFFERED(WORDS(0, 0), WORDS(15, 17, 15)), r, NTSKE_LIMIT, 2, 0, one, cookie);
    reply_to("the last of 70,000", OFFERED(ntp, all), r, NTSKE_LIMIT, 2, 0, one, cookie);
    reply_to("numbers of no meaning", OFFERED(WORDS(65535), WORDS(65534)), H("8001 0002 FFFF 8004 0002 FFFE 0005 0004 DEADBEEF 8000 0000"), NTSKE_LIMIT, 2, 0,
             REPLY(.protocol = 65535, .algorithm = 65534, .cookies = 1), cookie);
    reply_to_refused("a pool machine: 17 to one that offered 15", OFFERED(ntp, siv), pool, 2, with(ALGORITHM_17, 17, 20));
    reply_to_refused("another algorithm", OFFERED(ntp, longer), r, 2, with(ALGORITHM_17, 15, 20));
    reply_to_refused("another algorithm, twice", OFFERED(ntp, WORDS(17, 17)), r, 2, with(ALGORITHM_17, 15, 20));
    reply_to_refused("none of 69,999", OFFERED(ntp, but_the_last), r, 2, with(ALGORITHM_17, 15, 20));
    reply_to_refused("another protocol", OFFERED(WORDS(0x8001), siv), r, 2, with(PROTOCOL_17, 0, 20));
    reply_to_refused("another protocol, twice", OFFERED(WORDS(1, 1), siv), r, 2, with(PROTOCOL_17, 0, 20));
    reply_to_refused("the protocol before the algorithm", OFFERED(WORDS(0x8001), longer), r, 2, with(PROTOCOL_17, 0, 20));
    reply_to_refused("each in the other's list", OFFERED(siv, ntp), r, 2, with(PROTOCOL_17, 0, 20));
    reply_to_refused("an algorithm among the protocols", OFFERED(WORDS(0, 15), ntp), r, 2, with(ALGORITHM_17, 15, 20));
    reply_to_refused("nothing offered", OFFERED(NO_WORDS, NO_WORDS), r, 2, with(PROTOCOL_17, 0, 20));
    reply_to_refused("no protocol offered", OFFERED(NO_WORDS, siv), r, 2, with(PROTOCOL_17, 0, 20));
    reply_to_refused("no algorithm offered", OFFERED(ntp, NO_WORDS), r, 2, with(ALGORITHM_17, 15, 20));
    struct bytes bytes = H("8001 0002 1234 8004 0002 5678 0005 0000 8000 0000");
    reply_to_refused("a protocol that is alike", OFFERED(WORDS(0x3412, 0x1200, 0x34, 0x1235), WORDS(0x5678)), bytes, 2, with(PROTOCOL_17, 0x1234, 16));
    reply_to_refused("an algorithm that is alike", OFFERED(WORDS(0x1234), WORDS(0x7856, 0x5600, 0x78, 0x5679)), bytes, 2, with(ALGORITHM_17, 0x5678, 16));

    /* after 14 and before 15 and 7 */
    struct offered none = OFFERED(NO_WORDS, NO_WORDS), algorithm = OFFERED(ntp, NO_WORDS);
    reply_to_refused("no list of protocols", none, H("8004 0002 000F 8000 0000"), 2, at(4, 6));
    reply_to_refused("an empty list of protocols", none, H("8001 0000 8000 0000"), 2, at(13, 4));
    reply_to_refused("no list of algorithms", none, H("8001 0002 0000 8000 0000"), 2, at(4, 6));
    reply_to_refused("an empty list of algorithms", none, H("8001 0002 0000 8004 0000 8000 0000"), 2, at(14, 10));
    reply_to_refused("the protocol before no cookie", none, H("8001 0002 0000 8004 0002 000F 8000 0000"), 2, with(PROTOCOL_17, 0, 12));
    reply_to_refused("the algorithm before no cookie", algorithm, H("8001 0002 0000 8004 0002 000F 8000 0000"), 2, with(ALGORITHM_17, 15, 12));
    reply_to_refused("no cookie", OFFERED(ntp, siv), H("8001 0002 0000 8004 0002 000F 8000 0000"), 0, at(15, 12));
    reply_to_refused("the protocol before no cell", none, r, 0, with(PROTOCOL_17, 0, 20));
    reply_to_refused("the algorithm before no cell", algorithm, r, 1, with(ALGORITHM_17, 15, 20));
    reply_to_refused("no cell", OFFERED(ntp, siv), r, 1, at(7, 20));

    /* what stops the walk comes first */
    reply_to_refused("an error", none, H("8001 0002 0000 8004 0002 000F 8002 0002 0001"), 2, with(11, 1, 12));
    reply_to_refused("two algorithms", none, H("8001 0002 0000 8004 0004 000F 0011"), 2, at(4, 6));
    reply_to_refused("a byte short", none, (struct bytes){23, r.p}, 2, at(1, 20));
    reply_to_refused("no byte", none, NO_BYTES, 0, at(1, 0));

    /* in pieces */
    struct under usual = UNDER(NTSKE_LIMIT, 64, 8);
    feeds_reply_to("just what was offered", OFFERED(ntp, siv), join(r, H("FF")), usual, whole(20, 24), one, cookie);
    feeds_reply_to("a number twice", OFFERED(WORDS(0, 0), WORDS(15, 15)), r, usual, whole(20, 24), one, cookie);
    feeds_reply_to_refused("a pool machine", OFFERED(ntp, siv), join(pool, H("FFFF")), usual, whole(20, 24), with(ALGORITHM_17, 17, 20));
    feeds_reply_to_refused("another protocol", OFFERED(WORDS(0x8001), siv), r, usual, whole(20, 24), with(PROTOCOL_17, 0, 20));
    feeds_reply_to_refused("nothing offered", none, r, usual, whole(20, 24), with(PROTOCOL_17, 0, 20));
    feeds_reply_to_refused("no algorithm offered", algorithm, r, usual, whole(20, 24), with(ALGORITHM_17, 15, 20));
    feeds_reply_to_refused("before no cookie", none, H("8001 0002 0000 8004 0002 000F 8000 0000"), usual, whole(12, 16), with(PROTOCOL_17, 0, 12));
    feeds_reply_to_refused("before no cell", algorithm, r, UNDER(NTSKE_LIMIT, 64, 0), whole(20, 24), with(ALGORITHM_17, 15, 20));
    feeds_reply_to_refused("a byte short", none, (struct bytes){23, r.p}, usual, closed(23), at(1, 20));
    feeds_reply_to_refused("a buffer of 23", none, r, UNDER(NTSKE_LIMIT, 23, 8), full(23), at(16, 23));
    feeds_reply_to_refused("an empty list of algorithms", none, H("8001 0002 0000 8004 0000 8000 0000"), usual, whole(10, 14), at(14, 10));
}

static void deciding(void)
{
    struct bytes m = H("8001 0002 0000 8004 0002 000F 8000 0000");
    struct ntske_request read = key_exchange(PART(4, 2), PART(10, 2), 0);
    struct ntske_finding found = FINDING(.limit = NTSKE_LIMIT, .place = 12, .found = {
        [NTSKE_FOUND_END_OF_MESSAGE] = {1, 16, 0}, [NTSKE_FOUND_NEXT_PROTOCOL] = {1, 4, 2}, [NTSKE_FOUND_AEAD_ALGORITHM] = {1, 10, 2}});
    struct ntske_finding cut = found, none = FINDING(.limit = NTSKE_LIMIT, .reason = NTSKE_UNEXPECTED_EOF);
    cut.limit = 15, cut.reason = NTSKE_UNEXPECTED_EOF;
    memset(&cut.found[NTSKE_FOUND_END_OF_MESSAGE], 0, sizeof *cut.found);
    walk("the request of document 01", m, NTSKE_LIMIT, found);
    walk("the same behind the end", join(m, H("FFFF")), NTSKE_LIMIT, found);
    walk("limit 15: 1", m, 15, cut);
    walk("no byte: 1", NO_BYTES, NTSKE_LIMIT, none);
    none.limit = 0;
    walk("limit 0: 1", m, 0, none);
    walk("a port of three bytes: 2", H("0008 0000 0008 0002 FFFF 8007 0003 007B"), NTSKE_LIMIT,
         FINDING(.limit = NTSKE_LIMIT, .place = 10, .reason = NTSKE_INVALID_DATA, .found = {[NTSKE_FOUND_KEEP_ALIVE] = {2, 4, 0}}));
    walk("unknown ones, the last with its bit set: 3", H("7FFF 0001 AA 000B 0000 800F 0002 0102 8000 0000"), NTSKE_LIMIT,
         FINDING(.limit = NTSKE_LIMIT, .place = 9, .reason = NTSKE_UNRECOGNIZED_CRITICAL_RECORD, .found = {[NTSKE_FOUND_UNKNOWN] = {3, 4, 1}}));
    walk("a second list: 4", H("8001 0002 0000 8001 0000 8000 0000"), NTSKE_LIMIT,
         FINDING(.limit = NTSKE_LIMIT, .place = 6, .reason = NTSKE_INVALID, .found = {[NTSKE_FOUND_NEXT_PROTOCOL] = {2, 4, 2}}));
    walk("an error: 4", H("8002 0002 0001"), NTSKE_LIMIT, FINDING(.limit = NTSKE_LIMIT, .reason = NTSKE_INVALID, .found = {[NTSKE_FOUND_ERROR] = {1, 4, 2}}));
    walk("a warning: 4", H("8003 0002 0001"), NTSKE_LIMIT, FINDING(.limit = NTSKE_LIMIT, .reason = NTSKE_INVALID, .found = {[NTSKE_FOUND_WARNING] = {1, 4, 2}}));
    walk("a cookie: 4", H("0005 0000"), NTSKE_LIMIT, FINDING(.limit = NTSKE_LIMIT, .reason = NTSKE_INVALID, .found = {[NTSKE_FOUND_NEW_COOKIE] = {1, 4, 0}}));
    struct bytes many = join(times(16382, H("7FFF 0000")), H("8000 0000"));
    struct ntske_finding last = FINDING(.limit = NTSKE_LIMIT, .place = 65528, .found = {
        [NTSKE_FOUND_END_OF_MESSAGE] = {1, 65532, 0}, [NTSKE_FOUND_UNKNOWN] = {16382, 4, 0}});
    walk("the last place", many, NTSKE_LIMIT, last);
    decide_refused("an end behind unknown ones alone", last, many, 4, at(4, 65528));

    /* every kind that a request may hold, and a refusal that is decided behind the end */
    struct bytes all = join(H("8001 0000 8004 0000 8006 0001 61 8007 0002 007B 0008 0000 8009 0000 800A 0000 000B 0000 800C 0000"),
                            H("000D 0001 62 000D 0000 000E 0000 8000 0001 FF"));
    struct ntske_finding each = FINDING(.limit = NTSKE_LIMIT, .place = 52, .found = {
        [NTSKE_FOUND_END_OF_MESSAGE] = {1, 56, 1}, [NTSKE_FOUND_NEXT_PROTOCOL] = {1, 4, 0}, [NTSKE_FOUND_AEAD_ALGORITHM] = {1, 8, 0},
        [NTSKE_FOUND_SERVER] = {1, 12, 1}, [NTSKE_FOUND_PORT] = {1, 17, 2}, [NTSKE_FOUND_KEEP_ALIVE] = {1, 23, 0}, [NTSKE_FOUND_SUPPORTED_NEXT_PROTOCOL_LIST] = {1, 27, 0},
        [NTSKE_FOUND_SUPPORTED_ALGORITHM_LIST] = {1, 31, 0}, [NTSKE_FOUND_UNKNOWN] = {1, 35, 0}, [NTSKE_FOUND_FIXED_KEY_REQUEST] = {1, 39, 0},
        [NTSKE_FOUND_NTP_SERVER_DENY] = {2, 43, 1}, [NTSKE_FOUND_AUTHENTICATION] = {1, 52, 0}});
    walk("every kind", all, NTSKE_LIMIT, each);
    decide_refused("every kind", each, all, 4, at(4, 52));

    /* the finding's own limit counts: another one, under which the walk finds the same, is a finding, too */
    struct ntske_finding other = found;
    decide("decided", found, m, 4, 0, read, NO_WORDS);
    decide_refused("cut by the limit", cut, m, 4, at(1, 12));
    other.limit = 16;
    decide("limit 16", other, m, 4, 0, read, NO_WORDS);
    decide("limit 16, and bytes behind it", other, join(m, H("FFFF")), 0, 0, read, NO_WORDS);
    other.limit = 15;
    decide_refused("limit 15 of a whole request", other, m, 4, at(9, 0));
    other.limit = 0;
    decide_refused("limit 0 of a whole request", other, m, 4, at(9, 0));
    cut.limit = 16;
    decide_refused("limit 16 of a request that was cut", cut, m, 4, at(9, 0));

    /* a reason that no walk has */
    static const uint16_t reasons[] = {5, 6, 7, 9, 16, 255, 256, 65535};
    for (size_t i = 0; i < sizeof reasons / sizeof *reasons; i++) {
        other = found, other.reason = reasons[i];
        decide_refused("another reason", other, m, 4, at(9, 0));
    }

    /* another message, and 9 before all others */
    struct bytes denied = H("8001 0002 0000 8004 0002 000F 000D 0003 612E62 000D 0001 63 8000 0000");
    struct ntske_finding two = walked("two names", denied, NTSKE_LIMIT), three = two;
    check(two.found[NTSKE_FOUND_NTP_SERVER_DENY].count == 2 && two.found[NTSKE_FOUND_NTP_SERVER_DENY].start == 16, "two names", "found", two.place);
    three.found[NTSKE_FOUND_NTP_SERVER_DENY].count = 3;
    decide("two names", two, denied, 5, 0, key_exchange(PART(4, 2), PART(10, 2), 2), WORDS(16, 3, 23, 1));
    decide_refused("two names, three cells", two, denied, 3, at(7, 24));
    decide_refused("three names of two, three cells", three, denied, 3, at(9, 0));
    decide_refused("three names of two", three, denied, 6, at(9, 0));
    decide_refused("another message", found, denied, 4, at(9, 0));
    decide_refused("another message, without names", two, m, 4, at(9, 0));
    decide_refused("the message cut", found, (struct bytes){15, m.p}, 4, at(9, 0));
    decide_refused("no message", found, NO_BYTES, 0, at(9, 0));
    decide_refused("a message that is cut elsewhere", cut, NO_BYTES, 0, at(9, 0));
    decide_refused("nothing but zeros", FINDING(.limit = 0), m, 4, at(9, 0));
    struct ntske_finding full;
    memset(&full, 0xFF, sizeof full);
    decide_refused("the largest numbers", full, m, 4, at(9, 0));
}

static void feeding(void)
{
    struct bytes m = H("8001 0002 0000 8004 0002 000F 8000 0000"), more = join(m, H("FFFFFFFFFF")), less = {15, m.p};
    struct under usual = UNDER(NTSKE_LIMIT, 64, 8);
    struct ntske_request read = key_exchange(PART(4, 2), PART(10, 2), 0);
    feeds("the request of document 01", m, usual, whole(12, 16), read, NO_WORDS);
    feeds("bytes behind the end", more, usual, whole(12, 16), read, NO_WORDS);
    feeds("and a buffer for the message alone", more, UNDER(NTSKE_LIMIT, 16, 8), whole(12, 16), read, NO_WORDS);
    feeds_refused("a buffer of 15", m, UNDER(NTSKE_LIMIT, 15, 8), full(15), at(16, 15));
    feeds_refused("a buffer of 12", more, UNDER(NTSKE_LIMIT, 12, 8), full(12), at(16, 12));
    feeds_refused("a buffer of no bytes", m, UNDER(NTSKE_LIMIT, 0, 8), full(0), at(16, 0));
    feeds_refused("a buffer of no bytes, closed", NO_BYTES, UNDER(NTSKE_LIMIT, 0, 8), closed(0), at(1, 0));
    feeds("limit 16", m, UNDER(16, 16, 8), whole(12, 16), read, NO_WORDS);
    feeds_refused("limit 15", m, UNDER(15, 64, 8), limited(15), at(1, 12));
    feeds_refused("limit 15, buffer of 15", m, UNDER(15, 15, 8), limited(15), at(1, 12));
    feeds_refused("limit 15, buffer of 14", m, UNDER(15, 14, 8), full(14), at(16, 14));
    feeds_refused("limit 12, where a record begins", m, UNDER(12, 12, 8), limited(12), at(1, 12));
    feeds_refused("limit 0", NO_BYTES, UNDER(0, 64, 8), limited(0), at(1, 0));
    feeds_refused("limit 0, and bytes", m, UNDER(0, 0, 8), limited(0), at(1, 0));
    feeds_refused("a byte short", less, usual, closed(15), at(1, 12));
    feeds_refused("nothing", NO_BYTES, usual, closed(0), at(1, 0));
    feeds_refused("a character cut by the close", H("8006 0002 C3"), usual, closed(5), at(2, 0));
    feeds_refused("an unknown critical record", H("800B 0004 00000000 FF"), usual, whole(0, 8), at(3, 0));
    feeds_refused("a port of three bytes", H("8007 0003 007B00"), usual, whole(0, 7), at(2, 0));
    feeds_refused("the same under limit 6", H("8007 0003 007B00"), UNDER(6, 64, 8), limited(6), at(2, 0));
    feeds_refused("the same, closed", H("8007 0003 007B"), usual, closed(6), at(2, 0));
    feeds_refused("a second list", H("7FFF 0001 AA 8001 0000 8001 0000 8000 0000"), usual, whole(9, 13), at(4, 9));
    feeds_refused("an end alone", H("8000 0000"), usual, whole(0, 4), at(4, 0));
    feeds_refused("an end with a body", H("8000 0002 FFFF"), usual, whole(0, 6), at(4, 0));

    struct bytes character = H("8001 0002 0000 8004 0002 000F 000D 0002 C3A9 8000 0000");
    struct bytes names = H("8001 0002 0000 8004 0002 000F 000D 0003 612E62 000D 0001 63 8000 0000");
    feeds("a name of one character", character, usual, whole(18, 22), key_exchange(PART(4, 2), PART(10, 2), 1), WORDS(16, 2));
    feeds("two names", names, usual, whole(24, 28), key_exchange(PART(4, 2), PART(10, 2), 2), WORDS(16, 3, 23, 1));
    feeds_refused("two names, room for one", names, UNDER(NTSKE_LIMIT, 64, 2), whole(24, 28), at(7, 24));
    feeds_refused("two names, no cell", names, UNDER(NTSKE_LIMIT, 64, 0), whole(24, 28), at(7, 24));

    struct bytes keys = join(join(H("800C 0040"), times(64, H("5A"))), H("000E 0002 4142 0008 0000 8000 0000"));
    struct bytes right = join(H("8001 0002 1234 8004 0002 000F"), keys), other = join(H("8001 0002 1234 8004 0002 0010"), keys);
    struct bytes longer = join(H("8001 0002 1234 8004 0002 0011"), keys);
    struct under large = UNDER(NTSKE_LIMIT, ROOM, 8);
    feeds("fixed keys", right, large, whole(90, 94), fixed_key(PART(84, 2), PART(16, 32), PART(48, 32), 15, 0x1234), NO_WORDS);
    feeds_refused("fixed keys of another algorithm", other, large, whole(90, 94), with(5, 16, 90));
    feeds_refused("fixed keys of the other length", longer, large, whole(90, 94), at(6, 90));
    feeds("a support request", H("8009 0000 000E 0000 8000 0000"), UNDER(NTSKE_LIMIT, 64, 0), whole(8, 12), support(PART(8, 0), 1, 0, 0), NO_WORDS);

    struct bytes r = H("8001 0002 0000 8004 0002 000F 0005 0004 DEADBEEF 8000 0000");
    struct ntske_reply one = REPLY(.algorithm = 15, .cookies = 1);
    feeds_reply("a reply", join(r, H("FF")), usual, whole(20, 24), one, WORDS(16, 4));
    feeds_reply_refused("a reply, one cell", r, UNDER(NTSKE_LIMIT, 64, 1), whole(20, 24), at(7, 20));
    feeds_reply_refused("a reply, buffer of 23", r, UNDER(NTSKE_LIMIT, 23, 8), full(23), at(16, 23));
    feeds_reply_refused("a reply, limit 23", r, UNDER(23, 64, 8), limited(23), at(1, 20));
    feeds_reply_refused("a reply, a byte short", (struct bytes){23, r.p}, usual, closed(23), at(1, 20));
    feeds_reply_refused("an error", H("0008 0000 8002 0002 FFFF 8000 0000"), usual, whole(4, 10), with(11, 65535, 4));
    feeds_reply_refused("a warning", H("8003 0002 0007 8000 0000"), usual, whole(0, 6), with(12, 7, 0));
    feeds_reply_refused("two protocols", H("8001 0004 00000001"), usual, whole(0, 8), at(4, 0));
    feeds_reply_refused("no protocol", H("8001 0000 8000 0000"), usual, whole(4, 8), at(13, 4));
    feeds_reply_refused("no algorithm", H("8001 0002 0000 8004 0000 8000 0000"), usual, whole(10, 14), at(14, 10));
    feeds_reply_refused("no cookie", m, usual, whole(12, 16), at(15, 12));
}

/* The strict profile, whole and in pieces. */
static void strictly(void)
{
    struct bytes m = H("8001 0002 0000 8004 0002 000F 8000 0000"), name = H("8006 0003 612E62"), foreign = H("8006 0002 C3A9");
    struct ntske_request read = key_exchange(PART(4, 2), PART(10, 2), 0), none = support(PART(0, 0), 0, 0, 0);
    const struct { const char *what; struct bytes m; uint16_t limit; uint64_t want; size_t by; } requests[] = {
        {"the request of document 01", m, NTSKE_LIMIT, NTSKE_OK, 0},
        {"protocols without the bit", join(H("0001 0002 0000"), (struct bytes){10, m.p + 6}), NTSKE_LIMIT, at(18, 0), 0},
        {"algorithms without the bit", H("8001 0002 0000 0004 0002 000F 8000 0000"), NTSKE_LIMIT, NTSKE_OK, 0},
        {"a byte behind the end", join(m, H("00")), NTSKE_LIMIT, at(18, 16), 0},
        {"a byte behind the end and the limit", join(m, H("00")), 16, NTSKE_OK, 0},
        {"cut by the limit", m, 15, at(1, 12), 0},
        {"an end with a body", join((struct bytes){12, m.p}, H("8000 0001 00")), NTSKE_LIMIT, at(18, 12), 0},
        {"an end without the bit", join((struct bytes){12, m.p}, H("0000 0000")), NTSKE_LIMIT, at(18, 12), 0},
        {"a server", join(name, m), NTSKE_LIMIT, NTSKE_OK, 7},
        {"a server that is not ASCII", join(foreign, m), NTSKE_LIMIT, at(18, 0), 0},
        {"a server that is not UTF-8", join(H("8006 0001 C3"), m), NTSKE_LIMIT, at(2, 0), 0},
        {"a denied name, which is unknown", join(H("000D 0001 FF"), m), NTSKE_LIMIT, NTSKE_OK, 5},
        {"the same with the bit", join(H("800D 0001 FF"), m), NTSKE_LIMIT, at(3, 0), 0},
        {"keep-alive", join(H("0008 0000"), m), NTSKE_LIMIT, NTSKE_OK, 4},
        {"the same with the bit", join(H("8008 0000"), m), NTSKE_LIMIT, at(3, 0), 0},
        {"a port", join(H("8007 0002 007B"), m), NTSKE_LIMIT, NTSKE_OK, 6},
        {"a byte behind the end, and a list is missing", H("8001 0002 0000 8000 0000 00"), NTSKE_LIMIT, at(18, 10), 0},
        {"a list is missing", H("8001 0002 0000 8000 0000"), NTSKE_LIMIT, at(4, 6), 0},
        {"a support request", H("8009 0000 000E 0000 8000 0000"), NTSKE_LIMIT, at(3, 0), 0},
        {"an error without the bit", H("0002 0002 0001"), NTSKE_LIMIT, at(18, 0), 0},
        {"an error", H("8002 0002 0001"), NTSKE_LIMIT, at(4, 0), 0},
        {"an error of three bytes without the bit", H("0002 0003 000100"), NTSKE_LIMIT, at(2, 0), 0},
        {"a second list without the bit", H("8001 0000 0001 0000"), NTSKE_LIMIT, at(18, 4), 0},
    };
    for (size_t i = 0; i < sizeof requests / sizeof *requests; i++) {
        size_t by = requests[i].by;
        struct ntske_request moved = key_exchange(PART(4 + by, 2), PART(10 + by, 2), 0);
        request_in(NTSKE_STRICT, requests[i].what, requests[i].m, requests[i].limit, 4, requests[i].want, moved, NO_WORDS);
        request_in(NTSKE_STRICT, requests[i].what, requests[i].m, requests[i].limit, 0, requests[i].want, moved, NO_WORDS);
    }

    struct under usual = UNDER(NTSKE_LIMIT, 64, 8);
    feeds_strictly("the request of document 01", m, usual, ended(12, 16), NTSKE_OK, read);
    feeds_strictly("and a buffer for it alone", m, UNDER(NTSKE_LIMIT, 16, 0), ended(12, 16), NTSKE_OK, read);
    feeds_strictly("a byte behind the end", join(m, H("00")), usual, followed(12, 16), at(18, 16), none);
    feeds_strictly("bytes behind the end, and a buffer for the message alone", join(m, m), UNDER(NTSKE_LIMIT, 16, 8), followed(12, 16), at(18, 16), none);
    feeds_strictly("limit 16", join(m, m), UNDER(16, 16, 8), whole(12, 16), NTSKE_OK, read);
    feeds_strictly("limit 17", join(m, m), UNDER(17, 16, 8), followed(12, 16), at(18, 16), none);
    feeds_strictly("limit 15", m, UNDER(15, 64, 8), limited(15), at(1, 12), none);
    feeds_strictly("a buffer of 15", m, UNDER(NTSKE_LIMIT, 15, 8), full(15), at(16, 15), none);
    feeds_strictly("a byte short", (struct bytes){15, m.p}, usual, closed(15), at(1, 12), none);
    feeds_strictly("protocols without the bit", H("0001 0002 0000 FF"), usual, whole(0, 6), at(18, 0), none);
    feeds_strictly("an end with a body", H("8000 0001 00 FF"), usual, whole(0, 5), at(18, 0), none);
    feeds_strictly("an end without the bit", H("0000 0000 FF"), usual, whole(0, 4), at(18, 0), none);
    feeds_strictly("a server that is not ASCII", foreign, usual, whole(0, 6), at(18, 0), none);
    feeds_strictly("the same cut by the close", (struct bytes){5, foreign.p}, usual, closed(5), at(2, 0), none);
    feeds_strictly("a list is missing", H("8001 0002 0000 8000 0000"), usual, ended(6, 10), at(4, 6), none);
    feeds_strictly("and a byte follows", H("8001 0002 0000 8000 0000 00"), usual, followed(6, 10), at(18, 10), none);
    feeds_strictly("kinds that are unknown", join(H("000D 0001 FF 0008 0000 000E 0000"), m), usual, ended(25, 29), NTSKE_OK, key_exchange(PART(17, 2), PART(23, 2), 0));
    feeds_strictly("and one with the bit", H("000E 0000 800E 0000"), usual, whole(4, 8), at(3, 4), none);

    struct bytes r = H("8001 0002 0000 8004 0002 000F 0005 0004 DEADBEEF 8000 0000");
    struct ntske_reply one = REPLY(.algorithm = 15, .cookies = 1), no = REPLY(.cookies = 0);
    const struct { const char *what; struct bytes m; size_t cells; uint64_t want; struct ntske_reply answer; struct words table; } replies[] = {
        {"a reply", r, 2, NTSKE_OK, one, WORDS(16, 4)},
        {"a reply, one cell", r, 1, at(7, 20), no, NO_WORDS},
        {"a byte behind its end", join(r, H("FF")), 2, at(18, 24), no, NO_WORDS},
        {"keep-alive, which is unknown", join(H("0008 0000"), r), 2, NTSKE_OK, one, WORDS(20, 4)},
        {"a server", join(name, r), 2, NTSKE_OK, REPLY(.algorithm = 15, .has_server = 1, .server = {4, 3}, .cookies = 1), WORDS(23, 4)},
        {"a server that is not ASCII", join(foreign, r), 2, at(18, 0), no, NO_WORDS},
        {"an error", H("8002 0002 0001"), 2, with(11, 1, 0), no, NO_WORDS},
        {"an error without the bit", H("0002 0002 0001"), 2, at(18, 0), no, NO_WORDS},
        {"a warning", H("8003 0002 0007"), 2, with(12, 7, 0), no, NO_WORDS},
        {"a warning without the bit", H("0003 0002 0007"), 2, at(18, 0), no, NO_WORDS},
        {"authentication, which is unknown", join(H("000E 0000"), r), 2, NTSKE_OK, one, WORDS(20, 4)},
        {"no cookie, and a byte behind the end", join(m, H("00")), 2, at(18, 16), no, NO_WORDS},
        {"no cookie", m, 2, at(15, 12), no, NO_WORDS},
    };
    for (size_t i = 0; i < sizeof replies / sizeof *replies; i++)
        reply_in(NTSKE_STRICT, replies[i].what, usually, replies[i].m, NTSKE_LIMIT, replies[i].cells, replies[i].want, replies[i].answer, replies[i].table);
    reply_in(NTSKE_STRICT, "an algorithm that was not offered", OFFERED(WORDS(0), WORDS(17)), r, NTSKE_LIMIT, 2, with(ALGORITHM_17, 15, 20), no, NO_WORDS);

    feeds_reply_strictly("a reply", r, UNDER(NTSKE_LIMIT, 24, 2), ended(20, 24), NTSKE_OK, one, WORDS(16, 4));
    feeds_reply_strictly("a reply, one cell", r, UNDER(NTSKE_LIMIT, 64, 1), ended(20, 24), at(7, 20), no, NO_WORDS);
    feeds_reply_strictly("a byte behind its end", join(r, H("FF")), UNDER(NTSKE_LIMIT, 24, 2), followed(20, 24), at(18, 24), no, NO_WORDS);
    feeds_reply_strictly("a reply, limit 24", join(r, H("FF")), UNDER(24, 24, 2), whole(20, 24), NTSKE_OK, one, WORDS(16, 4));
    feeds_reply_strictly("an error", H("8002 0002 0001 FF"), usual, whole(0, 6), with(11, 1, 0), no, NO_WORDS);
    feeds_reply_strictly("an error without the bit", H("0002 0002 0001 FF"), usual, whole(0, 6), at(18, 0), no, NO_WORDS);
    feeds_reply_strictly("no cookie", m, usual, ended(12, 16), at(15, 12), no, NO_WORDS);
}

/* Cells that no call leaves, and a connection that counts too many bytes: 9, and nothing changes. */
static void no_connection(const char *what, struct ntske_connection connection, size_t room)
{
    struct bytes m = H("8001 0002 0000 8004 0002 000F 8000 0000"), none = NO_BYTES;
    const struct bytes *pieces[] = {&m, &none, NULL};
    for (int is_reply = 0; is_reply < 2; is_reply++)
        for (int i = 0; i < 3; i++) {
            struct ntske_connection *c = lend(&connection, sizeof connection);
            uint8_t *b = lend(NULL, room);
            uint16_t *t = lend(NULL, 8 * sizeof(uint16_t));
            void *a = lend(NULL, is_reply ? sizeof(struct ntske_reply) : sizeof(struct ntske_request));
            after(what, feed(is_reply ? &whatever[i] : NULL, c, pieces[i], b, room, t, 8, a), at(9, 0));
        }
}

static void connections(void)
{
    static const uint16_t limits[] = {0, 1, 4096, NTSKE_LIMIT};
    for (size_t i = 0; i < sizeof limits / sizeof *limits; i++)
        for (size_t profile = NTSKE_USUAL; profile <= NTSKE_STRICT; profile++) {
            struct ntske_connection *c = lend(NULL, sizeof *c), want = CONNECTION(.limit = limits[i], .profile = profile);
            uint64_t got = profile == NTSKE_STRICT ? ntske_connection_new_strict(limits[i], c) : ntske_connection_new(limits[i], c);
            becomes(c, 0, &want, sizeof want);
            after("a read is started", got, NTSKE_OK);
        }
    for (size_t state = 0; state < 3; state++) {
        no_connection("profile 2", CONNECTION(.limit = 64, .state = state, .number = state == 2, .profile = 2), 64);
        no_connection("profile SIZE_MAX", CONNECTION(.limit = 64, .state = state, .number = state == 2, .profile = SIZE_MAX), 64);
    }
    no_connection("limit 65,536", CONNECTION(.limit = 65536), 64);
    no_connection("limit SIZE_MAX", CONNECTION(.limit = SIZE_MAX), 64);
    no_connection("more than the buffer", CONNECTION(.limit = 64, .gathered = 16), 15);
    no_connection("more than a buffer of no bytes", CONNECTION(.limit = 64, .gathered = 1), 0);
    no_connection("more than the limit", CONNECTION(.limit = 15, .gathered = 16), 64);
    no_connection("SIZE_MAX gathered", CONNECTION(.limit = 64, .gathered = SIZE_MAX), 64);
    no_connection("more than the buffer, accepted", CONNECTION(.limit = 64, .gathered = 16, .state = 1), 15);
    no_connection("more than the limit, refused", CONNECTION(.limit = 15, .gathered = 16, .state = 2, .number = 1, .place = 12), 64);
    no_connection("kinds above 65,535", CONNECTION(.limit = 64, .met = 65536), 64);
    no_connection("state 3", CONNECTION(.limit = 64, .state = 3), 64);
    no_connection("state SIZE_MAX", CONNECTION(.limit = 64, .state = SIZE_MAX, .number = 1), 64);
    for (size_t state = 0; state < 2; state++) {
        no_connection("a number without a refusal", CONNECTION(.limit = 64, .state = state, .number = 1), 64);
        no_connection("a code without a refusal", CONNECTION(.limit = 64, .state = state, .beside = 1), 64);
        no_connection("a place without a refusal", CONNECTION(.limit = 64, .state = state, .place = 1), 64);
    }
    no_connection("refused with 0", CONNECTION(.limit = 64, .state = 2), 64);
    static const size_t numbers[] = {17, 19, 255, 256, 257, 261, 272, 274, 512, 513, 528, 530, 785, 65535, 65536 + 273, 65536 + 1, SIZE_MAX};
    for (size_t i = 0; i < sizeof numbers / sizeof *numbers; i++) {
        no_connection("refused with another number", CONNECTION(.limit = 64, .state = 2, .number = numbers[i]), 64);
        no_connection("and one beside it", CONNECTION(.limit = 64, .state = 2, .number = numbers[i], .beside = 15, .place = 20), 64);
    }
    no_connection("a code above 65,535", CONNECTION(.limit = 64, .state = 2, .number = 11, .beside = 65536), 64);
    no_connection("a protocol above 65,535", CONNECTION(.limit = 64, .state = 2, .number = PROTOCOL_17, .beside = 65536), 64);
    no_connection("an algorithm above 65,535", CONNECTION(.limit = 64, .state = 2, .number = ALGORITHM_17, .beside = 65536), 64);
    for (size_t n = 1; n < REFUSALS; n++)
        if (!ntske_has_beside(n))
            no_connection("a number beside one that has none", CONNECTION(.limit = 64, .state = 2, .number = n, .beside = 1), 64);
    for (size_t state = 0; state < 2; state++)
        no_connection("17 without a refusal", CONNECTION(.limit = 64, .state = state, .number = ALGORITHM_17, .beside = 15), 64);
    no_connection("more than the limit, refused with 17", CONNECTION(.limit = 15, .gathered = 16, .state = 2, .number = PROTOCOL_17, .place = 12), 64);
    no_connection("a place above 32 bits", CONNECTION(.limit = 64, .state = 2, .number = 1, .place = (size_t)1 << 32), 64);

    /* a refusal that was kept is told again, whatever it is */
    for (unsigned i = 1; i <= REFUSALS; i++) {
        unsigned n = i == NTSKE_NOT_OFFERED ? PROTOCOL_17 : i == REFUSALS ? ALGORITHM_17 : i;
        uint64_t want = ntske_has_beside(n) ? with(n, 65535, 4294967295) : at(n, 4294967295);
        struct ntske_connection kept = CONNECTION(.limit = 64, .state = 2, .number = n, .beside = ntske_beside(want), .place = ntske_place(want));
        struct bytes m = H("8001 0000");
        const struct bytes *pieces[] = {&m, NULL};
        for (int is_reply = 0; is_reply < 2; is_reply++)
            for (int j = 0; j < 2; j++) {
                struct ntske_connection *c = lend(&kept, sizeof kept);
                uint8_t *b = lend(NULL, 64);
                uint16_t *t = lend(NULL, 8 * sizeof(uint16_t));
                void *a = lend(NULL, sizeof(struct ntske_request));
                after("a refusal that was kept", feed(is_reply ? &whatever[(i + (unsigned)j) % WHATEVER] : NULL, c, pieces[j], b, 64, t, 8, a), want);
            }
    }

    /* an accepted one is what the reply reader says of the bytes gathered, whatever was offered */
    struct bytes r = H("8001 0002 0000 8004 0002 000F 0005 0004 DEADBEEF 8000 0000");
    for (unsigned i = 0; i < WHATEVER; i++) {
        struct ntske_connection kept = CONNECTION(.limit = 64, .gathered = 24, .begins = 20, .met = 1 << 1 | 1 << 4 | 1 << 5, .state = 1);
        struct ntske_reply one = REPLY(.algorithm = 15, .cookies = 1);
        struct ntske_connection *c = lend(&kept, sizeof kept);
        uint8_t *b = lend(r.p, r.n);
        uint16_t *t = lend(NULL, 2);
        struct ntske_reply *a = lend(NULL, sizeof *a);
        uint64_t got = feed(&whatever[i], c, &r, b, r.n, t, 1, a);
        becomes(a, 0, &one, sizeof one);
        after("an accepted one that was kept", got, NTSKE_OK);
    }

    /* a record that begins past what is gathered counts as one that begins there */
    struct ntske_connection hand_made = CONNECTION(.limit = 64, .begins = SIZE_MAX), then = CONNECTION(.limit = 64, .gathered = 4, .begins = 4, .met = 2);
    struct bytes m = H("8001 0000");
    struct ntske_connection *c = lend(&hand_made, sizeof hand_made);
    uint8_t *b = lend(NULL, 64);
    uint16_t *t = lend(NULL, 8 * sizeof(uint16_t));
    void *a = lend(NULL, sizeof(struct ntske_request));
    uint64_t got = feed(NULL, c, &m, b, 64, t, 8, a);
    becomes(c, 0, &then, sizeof then);
    becomes(b, 0, m.p, m.n);
    after("begun past what is gathered", got, NTSKE_WAITING);
}

static void listing(void)
{
    struct bytes m = H("8001 0002 0000 8004 0002 000F 8000 0000");
    list("the listing of document 01", m, NTSKE_LIMIT, 1024,
         T("place type bit size\n0 1 c 2\n6 4 c 2\n12 0 c 0\nrequest key-exchange protocols 1 algorithms 1 denied 0\n"));
    list("limit 15", m, 15, 1024, T("place type bit size\n0 1 c 2\n6 4 c 2\nrefused 1 at 12\n"));
    list("no byte", NO_BYTES, NTSKE_LIMIT, 0, T("place type bit size\nrefused 1 at 0\n"));
    list("a second list", H("8001 0000 8001 0000 8000 0000"), NTSKE_LIMIT, 0, T("place type bit size\n0 1 c 0\n4 1 c 0\nrefused 4 at 4\n"));
    struct bytes denied = H("8001 0002 0000 8004 0002 000F 000D 0003 612E62 000D 0001 63 8000 0000");
    const char *room_for_two = "place type bit size\n0 1 c 2\n6 4 c 2\n12 13 - 3\n19 13 - 1\n24 0 c 0\nrequest key-exchange protocols 1 algorithms 1 denied 2\n";
    const char *room_for_one = "place type bit size\n0 1 c 2\n6 4 c 2\n12 13 - 3\n19 13 - 1\n24 0 c 0\nrefused 7 at 24\n";
    list("room for two", denied, NTSKE_LIMIT, 2, T(room_for_two));
    list("room for one", denied, NTSKE_LIMIT, 1, T(room_for_one));
    list("room for SIZE_MAX", denied, NTSKE_LIMIT, SIZE_MAX, T(room_for_two));
    list("a support request", H("8009 0000 000E 0000 8000 0000"), NTSKE_LIMIT, 0, T("place type bit size\n0 9 c 0\n4 14 - 0\n8 0 c 0\nrequest support\n"));
    struct bytes keys = join(H("800C 0040"), times(64, H("5A"))), rest = H("000E 0000 8000 0000");
    list("fixed keys", join(H("8001 0002 0000 8004 0002 000F"), join(keys, rest)), NTSKE_LIMIT, 0,
         T("place type bit size\n0 1 c 2\n6 4 c 2\n12 12 c 64\n80 14 - 0\n84 0 c 0\nrequest fixed-key\n"));
    list("fixed keys of another algorithm", join(H("8001 0002 0000 8004 0002 0010"), join(keys, rest)), NTSKE_LIMIT, 0,
         T("place type bit size\n0 1 c 2\n6 4 c 2\n12 12 c 64\n80 14 - 0\n84 0 c 0\nrefused 5 at 84 code 16\n"));

    /* 16,383 records, whose lines are as long as such a line can be */
    char *text = (char *)take(NTSKE_LISTING);
    size_t n = (size_t)sprintf(text, "place type bit size\n");
    for (unsigned i = 0; i < 16383; i++)
        n += (size_t)sprintf(text + n, "%u 32767 - 0\n", 4 * i);
    sprintf(text + n, "refused 1 at 65532\n");
    list("as many records as can be read", times(16384, H("7FFF 0000")), NTSKE_LIMIT, 0, T(text));
    check(strlen(text) <= NTSKE_LISTING, "as many records as can be read", "length", strlen(text));
}

static void choosing(void)
{
    struct words ntp = WORDS(0), siv = WORDS(15, 17);
    struct ntske_choice none = CHOICE(.protocol = 0);
    choose("the client's order", H("8001 0000"), H("0011 000F"), ntp, siv, 0, CHOICE(.protocol = 0, .algorithm = 17));
    choose("what the server has", H("8001 0000"), H("0011 000F"), WORDS(0, 0x8001), WORDS(15), 0, CHOICE(.protocol = 0x8001, .algorithm = 15));
    choose("no protocol", H("8001"), H("0000"), ntp, siv, at(13, 0), none);
    choose("no protocol and no algorithm", NO_BYTES, NO_BYTES, ntp, siv, at(13, 0), none);
    choose("no algorithm", H("0000"), H("0000"), ntp, siv, at(14, 0), none);
    choose("a server without algorithms", H("0000"), H("000F"), ntp, NO_WORDS, at(14, 0), none);
    choose("a server without protocols", H("0000"), H("000F"), NO_WORDS, NO_WORDS, at(13, 0), none);
    choose("an odd list of protocols", H("0000 00"), H("000F"), ntp, siv, at(9, 0), none);
    choose("an odd list of algorithms", H("8001"), H("000F 00"), ntp, siv, at(9, 0), none);

    choose_protocol("the client's order", H("FFFF 8001 0000"), WORDS(0, 0x8001), 0, 0x8001);
    choose_protocol("what the server has", H("FFFF 8001 0000"), ntp, 0, 0);
    choose_protocol("no protocol", H("8001"), ntp, at(13, 0), 0);
    choose_protocol("an empty list", NO_BYTES, ntp, at(13, 0), 0);
    choose_protocol("a server without protocols", H("0000"), NO_WORDS, at(13, 0), 0);
    choose_protocol("an odd list", H("0000 00"), ntp, at(9, 0), 0);
    choose_protocol("one byte and a server without protocols", H("00"), NO_WORDS, at(9, 0), 0);

    key_length(NTSKE_AES_SIV_CMAC_256, 0, NTSKE_KEY_256);
    key_length(NTSKE_AES_SIV_CMAC_512, 0, NTSKE_KEY_512);
    key_length(16, with(5, 16, 0), 0);
    key_length(0, with(5, 0, 0), 0);
    key_length(65535, with(5, 65535, 0), 0);
}

static void planning(void)
{
    plan_new(0, 15, PLAN(.protocol = 0, .algorithm = 15));
    plan_new(65535, 65534, PLAN(.protocol = 65535, .algorithm = 65534));
    struct ntske_plan plain = PLAN(.algorithm = 15, .used = 9), x = plain;
    struct ntske_plan full = PLAN(65535, 65535, .has_port = 1, .port = 65535, .has_name = 1, .name_len = 65535, .keep_alive = 1, .used = SIZE_MAX), y = full;
    x.has_port = 1, x.port = 123;
    change("a port", SET_PORT, plain, 123, 0, x);
    y.port = 0;
    change("another port", SET_PORT, full, 0, 0, y);
    y = full, y.has_port = 0, y.port = 0;
    change("no port", CLEAR_PORT, full, 0, 0, y);
    change("no port where none was", CLEAR_PORT, plain, 0, 0, plain);
    x = plain, x.has_name = 1, x.name_len = 65535;
    change("a name", SET_NAME, plain, 65535, 0, x);
    y = full, y.has_name = 0, y.name_len = 0;
    change("no name", CLEAR_NAME, full, 0, 0, y);
    x = plain, x.keep_alive = 1;
    change("keep-alive", SET_KEEP_ALIVE, plain, 0, 0, x);
    y = full, y.keep_alive = 0;
    change("no keep-alive", CLEAR_KEEP_ALIVE, full, 0, 0, y);
    y = plain, y.port = 5, y.name_len = 6;
    change("numbers of what is not planned", SET_KEEP_ALIVE, y, 0, 0, x);

    /* each number out of its range, in every call on a plan */
    static const size_t most[7] = {65535, 65535, 1, 65535, 1, 65535, 1};
    struct bytes tray = times(32, H("00"));
    for (int i = 0; i < 7; i++)
        for (int j = 0; j < 2; j++) {
            size_t cells[8] = {0, 15, 0, 0, 0, 0, 0, 0};
            struct ntske_plan broken;
            cells[i] = j ? SIZE_MAX : most[i] + 1;
            memcpy(&broken, cells, sizeof broken);
            for (int c = 0; c < CHANGES; c++)
                change("out of range", (enum change)c, broken, 1, at(9, 0), broken);
            append("out of range", broken, H("AA"), tray, at(9, 0), NO_BYTES);
            struct given given = {.plan = broken, .tray = tray};
            both("out of range", WRITE_REPLY, given, at(9, 0), NO_BYTES);
        }

    struct bytes one = join(H("01 0004 DEADBEEF"), times(13, H("00"))), eight = join(times(8, H("01 0000")), times(8, H("77")));
    struct ntske_plan all = PLAN(.algorithm = 15, .has_port = 1, .port = 123, .has_name = 1, .name_len = 3, .keep_alive = 1, .used = 7);
    append("the first cookie", PLAN(.algorithm = 15), H("DEADBEEF"), tray, 0, H("01 0004 DEADBEEF"));
    append("the second", all, H("AA"), one, 0, H("01 0001 AA"));
    append("an empty one, just room", PLAN(.algorithm = 15, .used = 17), NO_BYTES, join(H("01 000E"), times(17, H("00"))), 0, H("01 0000"));
    append("another tag", PLAN(.algorithm = 15, .used = 3), H("AA"), H("02 0000 00000000"), at(9, 0), NO_BYTES);
    append("a field that is cut", PLAN(.algorithm = 15, .used = 6), H("AA"), one, at(9, 0), NO_BYTES);
    append("a header that is cut", PLAN(.algorithm = 15, .used = 2), H("AA"), one, at(9, 0), NO_BYTES);
    append("used past the tray", PLAN(.algorithm = 15, .used = 21), H("AA"), one, at(9, 0), NO_BYTES);
    append("used SIZE_MAX", PLAN(.algorithm = 15, .used = SIZE_MAX), H("AA"), one, at(9, 0), NO_BYTES);
    append("nine in the tray", PLAN(.algorithm = 15, .used = 27), H("AA"), times(12, H("01 0000")), at(9, 0), NO_BYTES);
    append("the ninth", PLAN(.algorithm = 15, .used = 24), H("AA"), eight, at(7, 0), NO_BYTES);
    append("the eighth", PLAN(.algorithm = 15, .used = 21), H("AA"), eight, 0, H("01 0001 AA"));
    append("no room", PLAN(.algorithm = 15, .used = 7), times(11, H("AA")), one, at(10, 0), NO_BYTES);
    append("a tray of no bytes", PLAN(.algorithm = 15), NO_BYTES, NO_BYTES, at(10, 0), NO_BYTES);
    struct bytes long_one = times(65535, H("AB")), too_long = times(65536, H("AB"));
    append("a cookie of 65,536 bytes", PLAN(.algorithm = 15, .used = 24), too_long, eight, at(8, 0), NO_BYTES);
    append("a broken tray first", PLAN(.algorithm = 15, .used = 2), too_long, eight, at(9, 0), NO_BYTES);
    append("a cookie of 65,535 bytes", PLAN(.algorithm = 15), long_one, times(65538, H("00")), 0, join(H("01 FFFF"), long_one));
}

static void denying(void)
{
    struct bytes tray = times(20, H("77")), one = join(H("02 0003 612E62"), times(8, H("77"))), nine = join(times(9, H("02 0000")), times(8, H("77")));
    deny("the first name", 0, H("612E62"), tray, 0, H("02 0003 612E62"));
    deny("the second", 6, H("C280"), one, 0, H("02 0002 C280"));
    deny("an empty name, just room", 6, NO_BYTES, H("02 0003 612E62 777777"), 0, H("02 0000"));
    deny("the tenth", 27, H("63"), nine, 0, H("02 0001 63"));
    deny("a cookie's tag", 3, H("63"), H("01 0000 77777777"), at(9, 0), NO_BYTES);
    deny("a field that is cut", 5, H("63"), one, at(9, 0), NO_BYTES);
    deny("a header that is cut", 2, H("63"), one, at(9, 0), NO_BYTES);
    deny("used past the tray", 15, H("63"), one, at(9, 0), NO_BYTES);
    deny("used SIZE_MAX", SIZE_MAX, H("63"), one, at(9, 0), NO_BYTES);
    deny("used 1 of no tray", 1, H("63"), NO_BYTES, at(9, 0), NO_BYTES);
    deny("a name that is not UTF-8", 6, H("C3"), one, at(9, 0), NO_BYTES);
    deny("a name that is not UTF-8, and no room", 6, times(40, H("FF")), one, at(9, 0), NO_BYTES);
    deny("no room", 6, H("616161616161"), one, at(10, 0), NO_BYTES);
    deny("a tray of no bytes", 0, NO_BYTES, NO_BYTES, at(10, 0), NO_BYTES);
    struct bytes long_one = times(65535, H("61")), too_long = times(65536, H("61"));
    deny("a name of 65,536 bytes", 6, too_long, one, at(8, 0), NO_BYTES);
    deny("a broken tray first", 5, too_long, one, at(9, 0), NO_BYTES);
    deny("a name of 65,536 bytes that is not UTF-8", 6, times(65536, H("FF")), one, at(9, 0), NO_BYTES);
    deny("a name of 65,535 bytes", 0, long_one, times(65538, H("00")), 0, join(H("02 FFFF"), long_one));
}

static void writing(void)
{
    static const uint16_t zeros[32768];
    struct bytes tray = H("01 0004 DEADBEEF 01 0000 7777"), name = H("612E62");
    struct ntske_plan all = PLAN(.algorithm = 17, .has_port = 1, .port = 123, .has_name = 1, .name_len = 3, .keep_alive = 1, .used = 10);
    both("a reply with all", WRITE_REPLY, (struct given){.plan = all, .tray = tray, .name = name}, 0,
         H("8001 0002 0000 8004 0002 0011 8006 0003 612E62 8007 0002 007B 0008 0000 0005 0004 DEADBEEF 0005 0000 8000 0000"));
    both("a reply with one cookie", WRITE_REPLY, (struct given){.plan = PLAN(.protocol = 1, .algorithm = 2, .used = 7), .tray = tray}, 0,
         H("8001 0002 0001 8004 0002 0002 0005 0004 DEADBEEF 8000 0000"));
    writes("no cookie", WRITE_REPLY, (struct given){.plan = PLAN(.algorithm = 15), .tray = tray}, at(15, 0), NO_BYTES);
    writes("no cookie and no tray", WRITE_REPLY, (struct given){.plan = PLAN(.algorithm = 15)}, at(15, 0), NO_BYTES);
    measures("no cookie", WRITE_REPLY, (struct given){.plan = PLAN(.algorithm = 15), .tray = tray}, 0, 16);
    struct ntske_plan named = PLAN(.algorithm = 15, .has_name = 1, .name_len = 4, .used = 7), two = named, empty = named;
    two.name_len = 2, empty.name_len = 0;
    writes("a name that is not planned", WRITE_REPLY, (struct given){.plan = PLAN(.algorithm = 15, .used = 7), .tray = tray, .name = name}, at(9, 0), NO_BYTES);
    writes("a name of another length", WRITE_REPLY, (struct given){.plan = named, .tray = tray, .name = name}, at(9, 0), NO_BYTES);
    writes("a name that is not UTF-8", WRITE_REPLY, (struct given){.plan = two, .tray = tray, .name = H("C3C3")}, at(9, 0), NO_BYTES);
    writes("an empty name is planned", WRITE_REPLY, (struct given){.plan = empty, .tray = tray}, 0,
           H("8001 0002 0000 8004 0002 000F 8006 0000 0005 0004 DEADBEEF 8000 0000"));
    struct given broken[] = {
        {.plan = PLAN(.algorithm = 15, .used = 8), .tray = tray},
        {.plan = PLAN(.algorithm = 15, .used = 13), .tray = tray},
        {.plan = PLAN(.algorithm = 15, .used = SIZE_MAX), .tray = tray},
        {.plan = PLAN(.algorithm = 15, .used = 3), .tray = H("02 0000")},
        {.plan = PLAN(.algorithm = 15, .used = 27), .tray = times(9, H("01 0000"))},
    };
    for (size_t i = 0; i < sizeof broken / sizeof *broken; i++)
        both("a broken tray", WRITE_REPLY, broken[i], at(9, 0), NO_BYTES);

    writes("no protocol", NO_PROTOCOL, (struct given){.number = 0}, 0, H("8001 0000 8000 0000"));
    writes("no algorithm", NO_ALGORITHM, (struct given){.number = 0x8001}, 0, H("8001 0002 8001 8004 0000 8000 0000"));
    writes("an error", ERROR, (struct given){.number = 0}, 0, H("8002 0002 0000 8000 0000"));
    writes("the last error", ERROR, (struct given){.number = 65535}, 0, H("8002 0002 FFFF 8000 0000"));

    struct words pairs = WORDS(15, 32, 17, 64), odd = WORDS(15, 32, 17), protocols = WORDS(0, 0x8001), many = {32768, zeros};
    both("nothing asked", SUPPORT, (struct given){.number = 0, .first = pairs, .second = protocols}, 0, H("8000 0000"));
    both("algorithms", SUPPORT, (struct given){.number = NTSKE_ALGORITHMS, .first = pairs, .second = many}, 0, H("800A 0008 000F 0020 0011 0040 8000 0000"));
    both("protocols", SUPPORT, (struct given){.number = NTSKE_PROTOCOLS, .first = many, .second = protocols}, 0, H("8009 0004 0000 8001 8000 0000"));
    both("keep-alive", SUPPORT, (struct given){.number = NTSKE_KEEP_ALIVE}, 0, H("0008 0000 8000 0000"));
    both("all", SUPPORT, (struct given){.number = 7, .first = pairs, .second = protocols}, 0, H("800A 0008 000F 0020 0011 0040 8009 0004 0000 8001 0008 0000 8000 0000"));
    both("all, of empty lists", SUPPORT, (struct given){.number = 7}, 0, H("800A 0000 8009 0000 0008 0000 8000 0000"));
    both("asked 8", SUPPORT, (struct given){.number = 8, .first = pairs, .second = protocols}, at(9, 0), NO_BYTES);
    both("asked 255", SUPPORT, (struct given){.number = 255, .first = many, .second = many}, at(9, 0), NO_BYTES);
    both("an odd number of cells", SUPPORT, (struct given){.number = 3, .first = odd, .second = many}, at(9, 0), NO_BYTES);
    both("an odd number of cells that is not asked for", SUPPORT, (struct given){.number = 4, .first = odd}, at(9, 0), NO_BYTES);
    both("too many pairs", SUPPORT, (struct given){.number = 1, .first = many, .second = protocols}, at(8, 0), NO_BYTES);
    both("too many protocols", SUPPORT, (struct given){.number = 2, .first = pairs, .second = many}, at(8, 0), NO_BYTES);

    struct words siv = WORDS(15), most = {32767, many.p};
    struct bytes names = H("02 0003 612E62 02 0000 00");
    struct bytes m = H("8001 0002 0000 8004 0002 000F 8000 0000"), listed = H("8001 0002 0000 8004 0002 000F 000D 0003 612E62 000D 0000 8000 0000");
    both("the request of document 01", REQUEST, (struct given){.first = WORDS(0), .second = siv}, 0, m);
    both("with names", REQUEST, (struct given){.first = WORDS(0), .second = siv, .tray = names, .used = 9}, 0, listed);
    both("with one of them", REQUEST, (struct given){.tray = names, .used = 6}, 0, H("8001 0000 8004 0000 000D 0003 612E62 8000 0000"));
    measures("the longest lists", REQUEST, (struct given){.first = most, .second = most}, 0, 2 * (4 + 65534) + 4);
    both("too long a list", REQUEST, (struct given){.first = many, .second = siv}, at(8, 0), NO_BYTES);
    both("too long a second list", REQUEST, (struct given){.first = siv, .second = many, .tray = names, .used = 9}, at(8, 0), NO_BYTES);
    both("a name that is not UTF-8", REQUEST, (struct given){.first = many, .tray = H("02 0001 FF"), .used = 4}, at(9, 0), NO_BYTES);
    both("a cookie's tag", REQUEST, (struct given){.first = many, .tray = H("01 0000"), .used = 3}, at(9, 0), NO_BYTES);
    both("a name that is cut", REQUEST, (struct given){.tray = names, .used = 5}, at(9, 0), NO_BYTES);
    both("used past the tray", REQUEST, (struct given){.tray = names, .used = 11}, at(9, 0), NO_BYTES);
    both("used SIZE_MAX", REQUEST, (struct given){.tray = names, .used = SIZE_MAX}, at(9, 0), NO_BYTES);
    both("used 1 of no tray", REQUEST, (struct given){.first = siv, .used = 1}, at(9, 0), NO_BYTES);

    struct bytes nothing = H("8001 0000 8004 0000 8000 0000");
    uint8_t *out = lend(NULL, 12);
    size_t *count = lend(NULL, sizeof *count), twelve = 12;
    uint64_t got = ntske_write_request(NTSKE_NO_NUMBERS, 0, NTSKE_NO_NUMBERS, 0, NTSKE_NO_BYTES, 0, 0, out, 12, count);
    becomes(out, 0, nothing.p, nothing.n);
    becomes(count, 0, &twelve, sizeof twelve);
    after("no numbers and no bytes", got, NTSKE_OK);
}

static void records(void)
{
    struct bytes four = H("01020304"), text = H("41C280FF");
    const size_t huge = SIZE_MAX;
    item("the end", ITEM(.kind = 0), NO_BYTES, 0, H("8000 0000"));
    item("the end, with what it has not", ITEM(.kind = 0, .critical = 1, .number = 65535, .body = {huge, huge}, .second = {huge, huge}), NO_BYTES, 0, H("8000 0000"));
    item("protocols", ITEM(.kind = 1, .body = {0, 4}), four, 0, H("8001 0004 01020304"));
    item("an error", ITEM(.kind = 2, .number = 258), NO_BYTES, 0, H("8002 0002 0102"));
    item("a warning", ITEM(.kind = 3, .number = 65535, .body = {9, 9}, .second = {9, 9}), four, 0, H("8003 0002 FFFF"));
    item("algorithms", ITEM(.kind = 4, .body = {1, 2}), four, 0, H("8004 0002 0203"));
    item("a cookie", ITEM(.kind = 5, .body = {1, 3}, .second = {huge, huge}), four, 0, H("0005 0003 020304"));
    item("an empty cookie", ITEM(.kind = 5, .body = {4, 0}), four, 0, H("0005 0000"));
    item("a server", ITEM(.kind = 6, .body = {0, 3}), text, 0, H("8006 0003 41C280"));
    item("a port", ITEM(.kind = 7, .number = 123), NO_BYTES, 0, H("8007 0002 007B"));
    item("keep-alive", ITEM(.kind = 8), NO_BYTES, 0, H("0008 0000"));
    item("supported protocols", ITEM(.kind = 9), NO_BYTES, 0, H("8009 0000"));
    item("supported algorithms", ITEM(.kind = 10, .body = {0, 4}), four, 0, H("800A 0004 01020304"));
    item("kind 11", ITEM(.kind = 11, .critical = 1, .body = {0, 1}), four, 0, H("800B 0001 01"));
    item("keys", ITEM(.kind = 12, .body = {0, 2}, .second = {2, 2}), four, 0, H("800C 0004 01020304"));
    item("keys from other places", ITEM(.kind = 12, .body = {2, 2}, .second = {1, 2}), four, 0, H("800C 0004 03040203"));
    item("a denied name", ITEM(.kind = 13, .body = {0, 1}), text, 0, H("000D 0001 41"));
    item("authentication", ITEM(.kind = 14, .body = {1, 2}), text, 0, H("000E 0002 C280"));
    item("the last kind", ITEM(.kind = 32767, .critical = 1, .body = {0, 4}), four, 0, H("FFFF 0004 01020304"));
    item("the last kind, bit clear", ITEM(.kind = 32767), NO_BYTES, 0, H("7FFF 0000"));
    item("kind 32,768", ITEM(.kind = 32768), four, at(9, 0), NO_BYTES);
    item("kind 65,536", ITEM(.kind = 65536), four, at(9, 0), NO_BYTES);
    item("kind SIZE_MAX", ITEM(.kind = huge), four, at(9, 0), NO_BYTES);
    item("kind 65,535", ITEM(.kind = 65535, .critical = 1), four, at(9, 0), NO_BYTES);
    item("a bit of 2", ITEM(.kind = 11, .critical = 2), four, at(9, 0), NO_BYTES);
    item("a bit of 2 where it does not count", ITEM(.kind = 0, .critical = 2), four, at(9, 0), NO_BYTES);
    item("a number of 65,536", ITEM(.kind = 7, .number = 65536), four, at(9, 0), NO_BYTES);
    item("a number of SIZE_MAX", ITEM(.kind = 0, .number = huge), four, at(9, 0), NO_BYTES);
    item("a part past the source", ITEM(.kind = 5, .body = {1, 4}), four, at(9, 0), NO_BYTES);
    item("an empty part past the source", ITEM(.kind = 5, .body = {5, 0}), four, at(9, 0), NO_BYTES);
    item("a part at SIZE_MAX", ITEM(.kind = 5, .body = {huge, 1}), four, at(9, 0), NO_BYTES);
    item("a part of SIZE_MAX", ITEM(.kind = 11, .body = {1, huge}), four, at(9, 0), NO_BYTES);
    item("a second key past the source", ITEM(.kind = 12, .body = {0, 2}, .second = {3, 2}), four, at(9, 0), NO_BYTES);
    item("keys of unequal length", ITEM(.kind = 12, .body = {0, 2}, .second = {2, 1}), four, at(9, 0), NO_BYTES);
    item("an odd list", ITEM(.kind = 1, .body = {0, 3}), four, at(9, 0), NO_BYTES);
    item("an odd list of algorithms", ITEM(.kind = 4, .body = {0, 1}), four, at(9, 0), NO_BYTES);
    item("an odd list of supported protocols", ITEM(.kind = 9, .body = {0, 1}), four, at(9, 0), NO_BYTES);
    item("pairs of two bytes", ITEM(.kind = 10, .body = {0, 2}), four, at(9, 0), NO_BYTES);
    item("a server that is not UTF-8", ITEM(.kind = 6, .body = {0, 4}), text, at(9, 0), NO_BYTES);
    item("a denied name that is not UTF-8", ITEM(.kind = 13, .body = {0, 2}), text, at(9, 0), NO_BYTES);
    item("authentication that is not UTF-8", ITEM(.kind = 14, .body = {3, 1}), text, at(9, 0), NO_BYTES);
    struct bytes longest = times(65536, H("61"));
    item("a cookie of 65,536 bytes", ITEM(.kind = 5, .body = {0, 65536}), longest, at(8, 0), NO_BYTES);
    item("a name of 65,536 bytes", ITEM(.kind = 6, .body = {0, 65536}), longest, at(8, 0), NO_BYTES);
    item("keys of 65,536 bytes", ITEM(.kind = 12, .body = {0, 32768}, .second = {32768, 32768}), longest, at(8, 0), NO_BYTES);
    item("a cookie of 65,535 bytes", ITEM(.kind = 5, .body = {1, 65535}), longest, 0, join(H("0005 FFFF"), (struct bytes){65535, longest.p}));
}

/* A record as it stands in a message. */
static struct bytes sent(size_t kind, size_t bit, struct bytes body)
{
    const uint8_t header[] = {(uint8_t)(bit << 7 | kind >> 8), (uint8_t)kind, (uint8_t)(body.n >> 8), (uint8_t)body.n};
    return join((struct bytes){sizeof header, header}, body);
}

/* Appends a line for each known record of a message whose sender forgot or added the bit, by the loop that the header shows; and what ended it. */
static uint64_t slips(struct bytes m, char *text)
{
    struct ntske_record_read read;
    size_t place = 0;
    do {
        uint64_t answer = ntske_read_record(m.p, m.n, place, &read);
        if (answer != NTSKE_OK)
            return answer;
        uint64_t named = ntske_bit_named((uint16_t)read.record.kind);
        if (named != NTSKE_BIT_GIVEN && named != read.record.critical)
            text += sprintf(text, "%zu: kind %zu %s\n", place, read.record.kind, named == NTSKE_BIT_SET ? "without its critical bit" : "with a critical bit");
        place = read.next;
    } while (read.record.kind != NTSKE_KIND_END_OF_MESSAGE);
    return NTSKE_OK;
}

/* The bit of every kind as it was received, the one that document 01 names, and when writing what was read gives the same bytes. */
static void bits(void)
{
    for (size_t kind = 0; kind < 65536; kind++)
        check(ntske_bit_named((uint16_t)kind) == bit_of(kind), "the bit that is named", "of the kind", kind);
    check(NTSKE_BIT_CLEAR == 0 && NTSKE_BIT_SET == 1 && NTSKE_BIT_GIVEN == 2, "the bit that is named", "by its name", 0);

    /* each known kind, those whose body is skipped with one and without; and unknown ones; with what is read behind FF */
    const struct { struct bytes body; struct ntske_record item; } cases[] = {
        {NO_BYTES, ITEM(.kind = 0)},
        {H("AA"), ITEM(.kind = 0)},
        {H("0000"), ITEM(.kind = 1, .body = {5, 2})},
        {H("0102"), ITEM(.kind = 2, .number = 258)},
        {H("FFFF"), ITEM(.kind = 3, .number = 65535)},
        {H("000F0011"), ITEM(.kind = 4, .body = {5, 4})},
        {H("AABB"), ITEM(.kind = 5, .body = {5, 2})},
        {H("41C280"), ITEM(.kind = 6, .body = {5, 3})},
        {H("007B"), ITEM(.kind = 7, .number = 123)},
        {NO_BYTES, ITEM(.kind = 8)},
        {H("80000000"), ITEM(.kind = 8)},
        {NO_BYTES, ITEM(.kind = 9, .body = {5, 0})},
        {H("000F0020"), ITEM(.kind = 10, .body = {5, 4})},
        {H("01"), ITEM(.kind = 11, .body = {5, 1})},
        {H("01020304"), ITEM(.kind = 12, .body = {5, 2}, .second = {7, 2})},
        {H("41"), ITEM(.kind = 13, .body = {5, 1})},
        {NO_BYTES, ITEM(.kind = 14, .body = {5, 0})},
        {NO_BYTES, ITEM(.kind = 15, .body = {5, 0})},
        {H("FF"), ITEM(.kind = 16384, .body = {5, 1})},
        {H("8000"), ITEM(.kind = 32767, .body = {5, 2})},
    };
    for (size_t i = 0; i < sizeof cases / sizeof *cases; i++)
        for (size_t bit = 0; bit < 2; bit++) {
            struct ntske_record x = cases[i].item;
            struct bytes body = cases[i].body, one = sent(x.kind, bit, body), m = join(H("FF"), join(one, H("FF")));
            x.critical = bit;
            record("the bit as received", m, 1, NTSKE_OK, x, 1 + one.n);

            uint64_t named = bit_of(x.kind);
            int skipped = x.kind == 0 || x.kind == 8;
            struct bytes written = sent(x.kind, named == NTSKE_BIT_GIVEN ? bit : named, skipped ? NO_BYTES : body);
            item("what was read is written", x, m, NTSKE_OK, written);
            int same = written.n == one.n && memcmp(written.p, one.p, one.n) == 0;
            check(same == ((named == NTSKE_BIT_GIVEN || named == bit) && (!skipped || !body.n)), "what was read is written", "as it was", x.kind);
        }

    static const struct { const char *message, *lines; uint64_t answer; } messages[] = {
        {"8001 0002 0000 8004 0002 000F 8000 0000", "", NTSKE_OK},
        {"0001 0000 8005 0000 000B 0000 800B 0000 FFFF 0000 8004 0000 800D 0000 0000 0000 0001 0000",
         "0: kind 1 without its critical bit\n4: kind 5 with a critical bit\n24: kind 13 with a critical bit\n28: kind 0 without its critical bit\n", NTSKE_OK},
        {"8008 0000 8007 0003 007B00", "0: kind 8 with a critical bit\n", NTSKE_INVALID_DATA},
        {"", "", NTSKE_UNEXPECTED_EOF},
    };
    for (size_t i = 0; i < sizeof messages / sizeof *messages; i++) {
        char text[256] = "";
        check(slips(H(messages[i].message), text) == messages[i].answer, "who forgot or added the bit", "the end", i);
        check(strcmp(text, messages[i].lines) == 0, "who forgot or added the bit", text, i);
    }
}

/* The header's own functions: a word taken apart and told, the code of an error, and the exporter's context. */
static void header(void)
{
    static const struct { uint64_t word; unsigned refusal, beside; unsigned long place; int sort; } words[] = {
        {0, 0, 0, 0, NTSKE_BESIDE_NONE},
        {9, 9, 0, 0, NTSKE_BESIDE_NONE},
        {0x0000000C00000001, 1, 0, 12, NTSKE_BESIDE_NONE},
        {0x0000005A00100005, 5, 16, 90, NTSKE_BESIDE_ALGORITHM},
        {0x000000000000000B, 11, 0, 0, NTSKE_BESIDE_CODE},
        {0x00000004FFFF000B, 11, 65535, 4, NTSKE_BESIDE_CODE},
        {0xFFFFFFFF0007000C, 12, 7, 4294967295, NTSKE_BESIDE_CODE},
        {0x0000001400000111, 17, 0, 20, NTSKE_BESIDE_PROTOCOL},
        {0xFFFFFFFFFFFF0111, 17, 65535, 4294967295, NTSKE_BESIDE_PROTOCOL},
        {0x00000014000F0211, 17, 15, 20, NTSKE_BESIDE_ALGORITHM},
        {0xFFFFFFFFFFFF0211, 17, 65535, 4294967295, NTSKE_BESIDE_ALGORITHM},
        {NTSKE_NOT_OFFERED, 17, 0, 0, NTSKE_BESIDE_NONE},
        {0x0000001400000311, 17, 0, 20, NTSKE_BESIDE_NONE},
        {0x0000001000000012, 18, 0, 16, NTSKE_BESIDE_NONE},
        {0xFFFFFFFFFFFFFFFF, 255, 65535, 4294967295, NTSKE_BESIDE_NONE},
    };
    for (size_t i = 0; i < sizeof words / sizeof *words; i++) {
        check(ntske_refusal(words[i].word) == words[i].refusal, "a word", "refusal", i);
        check(ntske_beside(words[i].word) == words[i].beside, "a word", "beside", i);
        check(ntske_place(words[i].word) == words[i].place, "a word", "place", i);
        check((int)ntske_beside_sort(words[i].word) == words[i].sort, "a word", "what is beside", i);
        check(ntske_has_beside(words[i].word) == (words[i].sort != NTSKE_BESIDE_NONE), "a word", "whether a number is beside", i);
    }

    static const char *const said[REFUSALS] = {
        "accepted",
        "bytes are missing",
        "a body is ill-formed",
        "an unknown record has its critical bit set",
        "the set of records is not allowed",
        "the algorithm is not 15 or 17",
        "a key half has the wrong length",
        "more names or cookies than the table or the plan holds",
        "a body to write is longer than 65,535 bytes",
        "the value is no record, plan, tray, connection or finding",
        "the output is too short",
        "the reply has an error record",
        "the reply has a warning record",
        "no protocol in common",
        "no algorithm in common",
        "no cookie",
        "the buffer has no room for a byte that the read needs",
        "the reply names what was not offered",
        "the strict profile does not allow the record, or the byte after the end",
    };
    static const uint16_t codes[REFUSALS] = {2, 1, 1, 0, 1, 1, 1, 2, 2, 2, 2, 2, 2, 2, 2, 2, 2, 2, 1};
    for (unsigned i = 0; i < REFUSALS; i++)
        for (unsigned j = 0; j < 2; j++) {
            uint64_t answer = j ? with(i, 65535, 4294967295) : i;
            check(strcmp(ntske_words(answer), said[i]) == 0, "in words", ntske_words(answer), i);
            check(ntske_error_code(answer) == codes[i], "a code", "for the refusal", i);
        }
    static const struct { unsigned number; const char *said; } told[] = {
        {PROTOCOL_17, "the reply's protocol was not offered"},
        {ALGORITHM_17, "the reply's algorithm was not offered"},
        {19, "a refusal that this header does not know"},
        {255, "a refusal that this header does not know"},
    };
    for (size_t i = 0; i < sizeof told / sizeof *told; i++)
        for (unsigned j = 0; j < 2; j++) {
            uint64_t answer = j ? with(told[i].number, 65535, 4294967295) : told[i].number;
            check(strcmp(ntske_words(answer), told[i].said) == 0, "in words", ntske_words(answer), told[i].number);
            check(ntske_error_code(answer) == NTSKE_CODE_INTERNAL_SERVER_ERROR, "a code", "for the refusal", told[i].number);
        }
    check(strcmp(ntske_words(at(65535, 1)), ntske_words(19)) == 0, "in words", ntske_words(at(65535, 1)), 65535);
    check(strcmp(ntske_words(NTSKE_WAITING), "the read waits for more bytes") == 0, "in words", ntske_words(NTSKE_WAITING), NTSKE_WAITING);

    /* RFC 8915, section 5.1: two bytes of the protocol, two of the algorithm, and 0 for the key from client to server or 1 for the other */
    static const struct { uint16_t protocol, algorithm; int s2c; const char *context; } contexts[] = {
        {NTSKE_NTPV4, NTSKE_AES_SIV_CMAC_256, 0, "0000 000F 00"},
        {NTSKE_NTPV4, NTSKE_AES_SIV_CMAC_256, 1, "0000 000F 01"},
        {NTSKE_NTPV4, NTSKE_AES_SIV_CMAC_512, 1, "0000 0011 01"},
        {NTSKE_DRAFT_NTPV5, 0x1234, 0, "8001 1234 00"},
        {0x1234, 0xFEDC, 256, "1234 FEDC 01"},
    };
    for (size_t i = 0; i < sizeof contexts / sizeof *contexts; i++) {
        uint8_t *c = lend(NULL, NTSKE_CONTEXT_LEN);
        struct bytes want = H(contexts[i].context);
        ntske_context(contexts[i].protocol, contexts[i].algorithm, contexts[i].s2c, c);
        becomes(c, 0, want.p, want.n);
        after("the exporter's context", NTSKE_OK, NTSKE_OK);
    }
    check(strcmp(NTSKE_ALPN, "ntske/1") == 0 && NTSKE_PORT == 4460, "TLS", "name and port", NTSKE_PORT);
    check(strcmp(NTSKE_EXPORTER_LABEL, "EXPORTER-network-time-security") == 0, "TLS", "the exporter's label", 0);
    check(ntske_version() == NTSKE_VERSION, "the version", "of header and archive", (size_t)ntske_version());
}

int main(void)
{
    setvbuf(stdout, NULL, _IOLBF, 0);
    for (at_the_end_of_a_page = 0; at_the_end_of_a_page < 2; at_the_end_of_a_page++) {
        taken = 0;
        reading();
        offering();
        deciding();
        feeding();
        strictly();
        connections();
        listing();
        choosing();
        planning();
        denying();
        writing();
        records();
        bits();
        header();
    }
    for (size_t i = 1; i <= REFUSALS; i++)
        check(seen[i] > 0, "every refusal is seen", "not this one", i);
    printf("%lu checks, %lu failed\n", checks, failed);
    return failed != 0;
}
