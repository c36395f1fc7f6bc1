/* Calls charging_step and charging_batch on nodes that are handed over, and writes what they answer and leave.
 *
 * Standard input has cases, standard output gets a result for each; tests/model/src/bin/nodes/cases.rs says how both look.
 * There is no rule of charging here: a node's fields are put where the header says, and read back. */
#include "charging.h"

extern void *stdin, *stdout;
size_t fread(void *, size_t, size_t, void *);
size_t fwrite(const void *, size_t, size_t, void *);
int fflush(void *);
_Noreturn void exit(int);
void *memcpy(void *, const void *, size_t);
void *memset(void *, int, size_t);

enum {
    LIMITS = 13,
    PROFILE = 42 + CHARGING_SETS * LIMITS,
    SETTINGS = CHARGING_SETS * (2 + LIMITS),
    CONTEXT = 140 + LIMITS + CHARGING_CONTAINERS * 28,
    SUBSCRIBER = 34 + CHARGING_CHANGES * 9,
    FIELDS = PROFILE + SETTINGS + 12 + CHARGING_CONTEXTS * CONTEXT + CHARGING_SUBSCRIBERS * SUBSCRIBER,
    GUARD = 16,
    MOST = 65535
};

static struct charging_node node;
static uint8_t before[FIELDS], after[FIELDS], event[MOST], area[GUARD + MOST + GUARD], was[GUARD + MOST + GUARD];
static uint32_t name_and_time[3], volumes[MOST];

static void get(void *to, size_t n) {
    if (fread(to, 1, n, stdin) != n) exit(2);
}

static void put(const void *from, size_t n) {
    if (fwrite(from, 1, n, stdout) != n) exit(2);
}

/* ---- the fields of the node, in the header's order, from octets or to octets ---- */

static uint8_t *at;
static int filling;

static void field(void *f, size_t n) {
    if (filling) memcpy(f, at, n);
    else memcpy(at, f, n);
    at += n;
}
#define FIELD(f) field(&(f), sizeof(f))

static void qos(struct charging_qos *q) {
    FIELD(q->reliability);
    FIELD(q->delay);
    FIELD(q->precedence);
    FIELD(q->peak);
    FIELD(q->mean);
}

static void stamp(struct charging_stamp *s) {
    FIELD(s->seconds);
    FIELD(s->zone);
}

static void container(struct charging_container *c) {
    qos(&c->qos);
    FIELD(c->uplink);
    FIELD(c->downlink);
    FIELD(c->condition);
    stamp(&c->time);
}

static void limits(struct charging_limits *l) {
    FIELD(l->volume);
    FIELD(l->seconds);
    FIELD(l->changes);
}

static void open_record(struct charging_open_record *o) {
    qos(&o->qos);
    limits(&o->limits);
    FIELD(o->uplink);
    FIELD(o->downlink);
    stamp(&o->opening);
    FIELD(o->changes);
    for (int i = 0; i < CHARGING_CONTAINERS; i++) container(&o->containers[i]);
    FIELD(o->count);
}

static void context(struct charging_context *c) {
    FIELD(c->active);
    FIELD(c->flags);
    FIELD(c->set);
    FIELD(c->name.id);
    FIELD(c->name.ggsn);
    FIELD(c->imsi);
    FIELD(c->apn);
    FIELD(c->apnlen);
    FIELD(c->pdptype);
    FIELD(c->address);
    open_record(&c->current);
    FIELD(c->closed);
}

static void place(struct charging_place *p) {
    FIELD(p->lac);
    FIELD(p->rac);
}

static void subscriber(struct charging_subscriber *s) {
    FIELD(s->active);
    FIELD(s->imsi);
    place(&s->place);
    stamp(&s->opening);
    for (int i = 0; i < CHARGING_CHANGES; i++) {
        place(&s->changes[i].place);
        stamp(&s->changes[i].time);
    }
    FIELD(s->count);
    FIELD(s->closed);
}

static void fields(uint8_t *octets, int fill) {
    at = octets;
    filling = fill;
    FIELD(node.profile.sgsn);
    for (int i = 0; i < CHARGING_SETS; i++) limits(&node.profile.limits[i]);
    FIELD(node.profile.sets);
    FIELD(node.profile.zone);
    FIELD(node.profile.nodeid);
    FIELD(node.profile.nodelen);
    for (int i = 0; i < CHARGING_SETS; i++) {
        FIELD(node.settings.sets[i].edition);
        limits(&node.settings.sets[i].limits);
    }
    FIELD(node.clock);
    FIELD(node.accepted);
    for (int i = 0; i < CHARGING_CONTEXTS; i++) context(&node.contexts[i]);
    for (int i = 0; i < CHARGING_SUBSCRIBERS; i++) subscriber(&node.subscribers[i]);
    if (at != octets + FIELDS) exit(3);
}

/* ---- differences ---- */

static void get_difference(uint8_t *octets, size_t n) {
    for (size_t i = 0;;) {
        uint16_t run[2];
        get(run, sizeof run);
        if (run[1] == 0) return;
        i += run[0];
        if (i + run[1] > n) exit(2);
        get(octets + i, run[1]);
        i += run[1];
    }
}

static void put_difference(const uint8_t *one, const uint8_t *other, size_t n) {
    uint16_t run[2] = {0, 0};
    for (size_t i = 0; i < n;) {
        size_t from = i;
        while (i < n && one[i] == other[i]) i++;
        run[0] = (uint16_t)(i - from);
        from = i;
        while (i < n && one[i] != other[i]) i++;
        run[1] = (uint16_t)(i - from);
        if (run[1] == 0) break;
        put(run, sizeof run);
        put(other + from, run[1]);
    }
    run[0] = run[1] = 0;
    put(run, sizeof run);
}

/* What a call answers; an event applies no pair. */
static struct charging_batched call(int batch, size_t length, size_t room) {
    uint8_t *out = area + GUARD;
    if (batch) return charging_batch(&node, name_and_time[0], name_and_time[1], name_and_time[2], volumes, length, out, room);
    struct charging_answer a = charging_step(&node, event, length, out, room);
    return (struct charging_batched){a.answer, 0, a.written};
}

static void put_long(uint64_t n) { put(&n, sizeof n); }

int main(void) {
    uint8_t batch;
    while (fread(&batch, 1, 1, stdin) == 1) {
        uint16_t length, room;
        uint8_t fill;
        memset(before, 0, sizeof before);
        get_difference(before, sizeof before);
        if (batch) get(name_and_time, sizeof name_and_time);
        get(&length, sizeof length);
        if (batch) get(volumes, length * sizeof volumes[0]);
        else get(event, length);
        get(&room, sizeof room);
        get(&fill, sizeof fill);
        size_t whole = GUARD + (size_t)room + GUARD;
        for (size_t i = 0; i < whole; i++) was[i] = area[i] = (uint8_t)(fill + 7 * i);
        memset(&node, fill, sizeof node); /* its padding: anything */
        fields(before, 1);
        struct charging_batched a = call(batch, length, room);
        fields(after, 0);
        put(&a.answer, sizeof a.answer);
        if (batch) put_long(a.applied);
        put_long(a.written);
        put_difference(before, after, FIELDS);
        put_difference(was, area, whole);
    }
    return fflush(stdout) == 0 ? 0 : 2;
}
