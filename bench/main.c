/* The plain C beside the proved program's `testing pace`, doing the same with the same files (bench/run). Compiled with plain_step and
 * plain_batch named charging_step and charging_batch, it measures the static library instead.
 *
 *     plain PROFILE EVENTS          the record list of the events, on standard output
 *     plain PROFILE EVENTS RECORDS  five lines: what the step, the batch, steps in its place, the writer and the reader did, and how long
 *                                   they took
 *     plain tick PROFILE EVENTS     one line: the same of the last event, on the node that the others made, again and again
 *
 * The batch is measured on a busy node, and so are the steps in its place: the node that all events of the file, once, make of a fresh
 * one. Each minute is 60 pairs at the node's clock for one of its active contexts, slot by slot and again from the first, free slots
 * left out; the node goes on from minute to minute. `batch` takes a minute in one call, `steps` a pair in one traffic event. Both count
 * pairs as their calls, and their sum is that of the written octets.
 *
 * The pairs are a list of 61 minutes, 7,320 numbers, used from its start on and again after its end. It is made before the clock is
 * looked at, of the numbers x that follow 1 by x * 25,173 + 13,849 modulo 65,536, the first being 39,022: at an even place x modulo
 * 60,000, an uplink, at an odd one 3 x, a downlink. So reports are as large as those of bench/generate.
 */
#include "libc.h"
#include "plain.h"

enum { HELD = 65536, MOST_RECORDS = 64, EVENTS = 90000, WRITES = 20000, READS = 100000 };
enum { PAIRS = 60, MINUTE = 2 * PAIRS, VOLUMES = 61 * MINUTE, BATCHES = 50000, STEPPED = 2000, LAST = 5000 };

static uint8_t held[HELD];
static struct charging_node node;
static uint32_t volumes[VOLUMES];
static struct plain_record records[MOST_RECORDS];
static uint8_t out[CHARGING_MOST_OUTPUT];

static _Noreturn void stop(int status, const char *why) {
    write(2, why, strlen(why));
    exit(status);
}

static size_t load(const char *path) {
    int fd = open(path, 0);
    if (fd < 0) {
        perror(path);
        exit(2);
    }
    size_t n = 0;
    for (long got; n < HELD && (got = read(fd, held + n, HELD - n)) > 0; n += (size_t)got) {}
    close(fd);
    return n;
}

/* The lines of a profile, in their order: sgsn, one to eight times limits, offset, node-id. */
static void fresh_node(const char *path, struct charging_node *n) {
    unsigned a, b, c, d;
    int offset, used = 0;
    char id[32] = "";
    const char *at = (const char *)held;
    held[load(path) % HELD] = 0;
    memset(n, 0, sizeof *n);
    struct charging_profile *p = &n->profile;
    if (sscanf(at, "sgsn %u.%u.%u.%u%n", &a, &b, &c, &d, &used) < 4) stop(2, "plain: no profile\n");
    for (at += used; p->sets < CHARGING_SETS; p->sets++, at += used) {
        struct charging_limits l = {0};
        if (sscanf(at, " limits %lu %u %hhu%n", &l.volume, &l.seconds, &l.changes, &used) < 3) break;
        p->limits[p->sets] = l;
        n->settings.sets[p->sets] = (struct charging_limit_set){1, l};
    }
    if (p->sets == 0 || sscanf(at, " offset %d node-id%*1[ ]%20[^\n]", &offset, id) < 1) stop(2, "plain: no profile\n");
    p->sgsn = a << 24 | b << 16 | c << 8 | d;
    p->zone = (uint16_t)(offset + 720);
    p->nodelen = strlen(id);
    memcpy(p->nodeid, id, p->nodelen);
}

static size_t event_length(const uint8_t *e) {
    static const uint8_t lengths[16] = {7, 37, 23, 20, 7, 16, 7, 15, 7, 7, 7, 7, 23, 7, 7, 7};
    return e[2] == 1 ? 37u + e[36] : lengths[e[2] & 15];
}

/* Events one after another, from a fresh node on again after the last. */
static size_t run(const struct charging_node *fresh, size_t n, size_t calls, int show) {
    size_t octets = 0;
    for (size_t at = 0; calls > 0; calls--) {
        if (at >= n) at = 0;
        if (at == 0) node = *fresh;
        size_t length = event_length(held + at);
        struct charging_answer a = plain_step(&node, held + at, length, out, sizeof out);
        if (a.answer) stop(1, "plain: an event was refused\n");
        if (show && write(1, out, a.written) < 0) stop(2, "plain: not written\n");
        octets += a.written;
        at += length;
    }
    return octets;
}

/* Events one after another, from a fresh node on, and the last one again and again, each time on a copy of the node that the others made. How
 * often, is counted. */
static size_t run_last(struct charging_node *made, size_t n, size_t *last) {
    size_t octets = 0, at = 0;
    for (size_t calls = LAST; calls > 0; calls--) {
        size_t length = event_length(held + at);
        node = *made;
        struct charging_answer a = plain_step(&node, held + at, length, out, sizeof out);
        if (a.answer) stop(1, "plain: an event was refused\n");
        octets += a.written;
        *last += at + length >= n;
        if (at + length < n) {
            *made = node;
            at += length;
        }
    }
    return octets;
}

static size_t events_in(size_t n) {
    size_t events = 0;
    for (size_t at = 0; at < n; events++) at += event_length(held + at);
    return events;
}

static void make_volumes(void) {
    uint32_t x = 1;
    for (size_t i = 0; i < VOLUMES; i++) {
        x = (x * 25173 + 13849) % 65536;
        volumes[i] = i % 2 == 0 ? x % 60000 : 3 * x;
    }
}

/* The names of the active contexts, in slot order. */
static size_t active_names(struct charging_name names[CHARGING_CONTEXTS]) {
    size_t n = 0;
    for (size_t i = 0; i < CHARGING_CONTEXTS; i++)
        if (node.contexts[i].active) names[n++] = node.contexts[i].name;
    if (n == 0) stop(1, "plain: no context is active\n");
    return n;
}

static size_t batch_minute(struct charging_name name, const uint32_t *minute) {
    struct charging_batched a = plain_batch(&node, name.id, name.ggsn, node.clock, minute, MINUTE, out, sizeof out);
    if (a.answer) stop(1, "plain: a batch was refused\n");
    return a.written;
}

static uint8_t *put_four(uint8_t *p, uint32_t v) {
    for (int i = 24; i >= 0; i -= 8) *p++ = (uint8_t)(v >> i);
    return p;
}

static size_t step_minute(struct charging_name name, const uint32_t *minute) {
    size_t octets = 0;
    for (size_t i = 0; i < MINUTE; i += 2) {
        uint8_t e[23] = {0xC3, 0x5E, 2};
        put_four(put_four(put_four(put_four(put_four(e + 3, node.clock), name.id), name.ggsn), minute[i]), minute[i + 1]);
        struct charging_answer a = plain_step(&node, e, sizeof e, out, sizeof out);
        if (a.answer) stop(1, "plain: a report was refused\n");
        octets += a.written;
    }
    return octets;
}

/* Minutes one after another, from a busy node on. */
static size_t run_minutes(const struct charging_node *busy, size_t minutes, size_t (*take)(struct charging_name, const uint32_t *)) {
    struct charging_name names[CHARGING_CONTEXTS];
    node = *busy;
    size_t n = active_names(names), octets = 0, who = 0, at = 0;
    for (; minutes > 0; minutes--, who++, at += MINUTE) {
        if (who >= n) who = 0;
        if (at >= VOLUMES) at = 0;
        octets += take(names[who], volumes + at);
    }
    return octets;
}

/* The length of the record that stands after the mark at a place. */
static size_t record_length(const uint8_t *p) {
    if (p[3] == 0x82) return 4u + p[4] * 256u + p[5];
    return p[3] == 0x81 ? 3u + p[4] : 2u + p[3];
}

/* The records of the list one after another, from the first on again after the last. */
static size_t read_records(size_t n) {
    static struct plain_record r;
    size_t sum = 0, at = 0;
    for (size_t calls = READS; calls > 0; calls--) {
        if (at >= n) at = 0;
        size_t length = record_length(held + at);
        if (plain_read(held + at + 2, length, &r)) stop(1, "plain: a record was refused\n");
        sum += r.count;
        at += 2 + length;
    }
    return sum;
}

static size_t keep(size_t n) {
    size_t kept = 0;
    for (size_t at = 0; at < n && kept < MOST_RECORDS; kept++) {
        size_t length = record_length(held + at);
        if (plain_read(held + at + 2, length, &records[kept])) stop(1, "plain: a record was refused\n");
        at += 2 + length;
    }
    return kept;
}

static size_t write_records(size_t kept) {
    size_t octets = 0, i = 0;
    for (size_t calls = WRITES; calls > 0; calls--, i++) {
        if (i >= kept) i = 0;
        struct charging_answer a = plain_write(&records[i], out, sizeof out);
        if (a.answer) stop(1, "plain: a record was not written\n");
        octets += a.written;
    }
    return octets;
}

static void say(const char *name, size_t calls, size_t sum, long from) { printf("%s %zu %zu %ld\n", name, calls, sum, clock() - from); }

static int tick(struct charging_node *fresh, size_t n) {
    long from = clock();
    size_t last = 0, octets = run_last(fresh, n, &last);
    say("tick", last, octets, from);
    return 0;
}

int main(int argc, char **argv) {
    if (argc != 3 && argc != 4) {
        stop(2, "usage: plain PROFILE EVENTS [RECORDS], or plain tick PROFILE EVENTS\n");
    }
    static struct charging_node fresh, busy;
    if (argc == 4 && strcmp(argv[1], "tick") == 0) {
        fresh_node(argv[2], &fresh);
        return tick(&fresh, load(argv[3]));
    }
    fresh_node(argv[1], &fresh);
    size_t n = load(argv[2]);
    if (argc == 3) {
        run(&fresh, n, events_in(n), 1);
        return 0;
    }
    long from = clock();
    say("step", EVENTS, run(&fresh, n, EVENTS, 0), from);
    run(&fresh, n, events_in(n), 0);
    busy = node;
    make_volumes();
    from = clock();
    say("batch", (size_t)BATCHES * PAIRS, run_minutes(&busy, BATCHES, batch_minute), from);
    from = clock();
    say("steps", (size_t)STEPPED * PAIRS, run_minutes(&busy, STEPPED, step_minute), from);
    n = load(argv[3]);
    size_t kept = keep(n);
    from = clock();
    say("write", WRITES, write_records(kept), from);
    from = clock();
    say("read", READS, read_records(n), from);
    return 0;
}
