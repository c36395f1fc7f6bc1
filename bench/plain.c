/* The rules of the charging node in plain C: the node changes where it lies, a record is put together in place, nothing is copied
 * that need not be. It is what a careful programmer would write without proofs, and it answers the same: bench/run compares every
 * octet before it measures. */
#include "plain.h"
#include "libc.h"

enum { DAY = 86400, MONTHS = 1200 };
static const uint32_t latest = 3155759999u;
static const uint64_t most_accepted = 1000000000000000u;
static const uint64_t volume_bound = (uint64_t)1 << 40;

/* ---- the calendar: the table of the months' first days, made once ---- */

static uint16_t first[MONTHS];

static void make_months(void) {
    static const uint8_t days[12] = {31, 28, 31, 30, 31, 30, 31, 31, 30, 31, 30, 31};
    unsigned day = 0;
    for (unsigned m = 0; m < MONTHS; m++) {
        first[m] = (uint16_t)day;
        day += days[m % 12] + (m % 12 == 1 && m / 12 % 4 == 0);
    }
}

static uint8_t bcd(unsigned n) { return (uint8_t)(n / 10 * 16 + n % 10); }

static int stamp_ok(struct charging_stamp t) { return t.seconds <= latest && t.zone <= 1560; }

static void stamp_octets(struct charging_stamp t, uint8_t *o) {
    if (first[1] == 0) make_months();
    unsigned day = t.seconds / DAY, second = t.seconds % DAY;
    unsigned month = (day < 28 ? 0 : day - 28) * 16 / 487; /* in mean months of 30.4375 days: this month or the one before */
    if (month + 1 < MONTHS && first[month + 1] <= day) month++;
    unsigned size = t.zone < 720 ? 720u - t.zone : t.zone - 720u;
    o[0] = bcd(month / 12);
    o[1] = bcd(month % 12 + 1);
    o[2] = bcd(day - first[month] + 1);
    o[3] = bcd(second / 3600);
    o[4] = bcd(second / 60 % 60);
    o[5] = bcd(second % 60);
    o[6] = t.zone < 720 ? 0x2D : 0x2B;
    o[7] = bcd(size / 60);
    o[8] = bcd(size % 60);
}

static int two_digits(uint8_t x, unsigned *n) {
    if (x / 16 > 9 || x % 16 > 9) return 0;
    *n = x / 16u * 10 + x % 16u;
    return 1;
}

static int stamp_of(const uint8_t *o, struct charging_stamp *t) {
    unsigned y, m, d, hh, mm, ss, zh, zm;
    if (first[1] == 0) make_months();
    if (!two_digits(o[0], &y) || !two_digits(o[1], &m) || !two_digits(o[2], &d) || !two_digits(o[3], &hh) || !two_digits(o[4], &mm)
        || !two_digits(o[5], &ss) || !two_digits(o[7], &zh) || !two_digits(o[8], &zm))
        return 0;
    if (m < 1 || m > 12 || d < 1 || hh > 23 || mm > 59 || ss > 59 || zm > 59) return 0;
    unsigned month = y * 12 + m - 1;
    unsigned next = month + 1 < MONTHS ? first[month + 1] : latest / DAY + 1;
    if (first[month] + d > next) return 0;
    unsigned size = zh * 60 + zm;
    if (o[6] == 0x2B) {
        if (size > 840) return 0;
        t->zone = (uint16_t)(720 + size);
    } else if (o[6] == 0x2D) {
        if (size == 0 || size > 720) return 0;
        t->zone = (uint16_t)(720 - size);
    } else
        return 0;
    t->seconds = (first[month] + d - 1) * (unsigned)DAY + hh * 3600 + mm * 60 + ss;
    return 1;
}

/* ---- values in range ---- */

static int qos_ok(const struct charging_qos *q) {
    return q->reliability <= 5 && q->delay <= 3 && q->precedence <= 3 && q->peak <= 9 && q->mean <= 18;
}

static int same_qos(const struct charging_qos *a, const struct charging_qos *b) { return memcmp(a, b, sizeof *a) == 0; }

/* How many octets of an IMSI a record has; 0 where it is none. */
static size_t imsi_size(const uint8_t *s) {
    unsigned digits = 0;
    while (digits < 16 && (digits % 2 ? s[digits / 2] >> 4 : s[digits / 2] & 15) < 10) digits++;
    if (digits < 6 || digits > 15) return 0;
    for (unsigned i = digits; i < 16; i++)
        if ((i % 2 ? s[i / 2] >> 4 : s[i / 2] & 15) != 15) return 0;
    return (digits + 1) / 2;
}

static uint8_t lower(uint8_t x) { return x >= 'A' && x <= 'Z' ? x + 32 : x; }

static int apn_char(uint8_t x) { return (x >= 'a' && x <= 'z') || (x >= '0' && x <= '9') || x == '.' || x == '-'; }

/* as a record and a node have it, and as an event may spell it */
static int apn_chars(const uint8_t *s, size_t n) {
    for (size_t i = 0; i < n; i++)
        if (!apn_char(s[i])) return 0;
    return 1;
}

static int apn_spelled(const uint8_t *s, size_t n) {
    for (size_t i = 0; i < n; i++)
        if (!apn_char(lower(s[i]))) return 0;
    return 1;
}

static int zeros(const uint8_t *s, size_t n) {
    for (size_t i = 0; i < n; i++)
        if (s[i] != 0) return 0;
    return 1;
}

static int apn_ok(const uint8_t *apn, size_t n) { return n >= 1 && n <= 63 && apn_chars(apn, n) && zeros(apn + n, 63 - n); }

static int node_ok(const uint8_t *id, size_t n) {
    if (n > 20) return 0;
    for (size_t i = 0; i < n; i++)
        if (id[i] < 0x20 || id[i] > 0x7E) return 0;
    return zeros(id + n, 20 - n);
}

static int container_ok(const struct charging_container *c) {
    return qos_ok(&c->qos) && c->uplink < volume_bound && c->downlink < volume_bound && c->condition <= 2 && stamp_ok(c->time);
}

static int blank(const struct charging_container *c) {
    return c->qos.reliability == 0 && c->qos.delay == 0 && c->qos.precedence == 0 && c->qos.peak == 0 && c->qos.mean == 0
        && c->uplink == 0 && c->downlink == 0 && c->condition == 0 && c->time.seconds == 0 && c->time.zone == 0;
}

/* The QoS after a container differs from its own exactly where a QoS change ended it. */
static int changes_right(const struct charging_container *c, const struct charging_qos *after) {
    return !same_qos(&c->qos, after) == (c->condition == 0);
}

/* ---- a record within the rules ---- */

static int is_release(uint8_t cause) { return cause == 0 || cause == 4 || cause == 18; }

static int containers_ok(const struct plain_record *r) {
    if (r->count < 1 || r->count > CHARGING_CONTAINERS) return 0;
    uint32_t from = r->opening.seconds;
    for (size_t i = 0; i < r->count; i++) {
        const struct charging_container *c = &r->containers[i];
        if (!container_ok(c) || c->time.zone != r->opening.zone || c->time.seconds < from) return 0;
        from = c->time.seconds;
        if (i + 1 == r->count) {
            if (c->condition != 2) return 0;
        } else if (c->condition == 2 || !changes_right(c, &r->containers[i + 1].qos))
            return 0;
    }
    for (size_t i = r->count; i < CHARGING_CONTAINERS; i++)
        if (!blank(&r->containers[i])) return 0;
    return 1;
}

static int within(const struct plain_record *r) {
    if (!imsi_size(r->imsi) || !apn_ok(r->apn, r->apnlen) || !stamp_ok(r->opening) || !containers_ok(r)) return 0;
    if (r->number > most_accepted) return 0;
    if (is_release(r->cause)) {
        if (r->number == 1) return 0;
    } else if (r->cause == 16 || r->cause == 17 || r->cause == 19 || r->cause == 20) {
        if (r->number == 0) return 0;
    } else
        return 0;
    return (!r->change || r->number <= 1) && node_ok(r->nodeid, r->nodelen);
}

/* ---- the writer: sizes first, then straight into the buffer ---- */

static size_t int_width(uint64_t v) {
    size_t n = 1;
    for (; v >= 128; v >>= 8) n++;
    return n;
}

static size_t len_width(size_t n) { return n < 128 ? 1 : n < 256 ? 2 : 3; }

static uint8_t *put_len(uint8_t *p, size_t n) {
    if (n >= 256) {
        *p++ = 0x82;
        *p++ = (uint8_t)(n >> 8);
    } else if (n >= 128)
        *p++ = 0x81;
    *p++ = (uint8_t)n;
    return p;
}

static uint8_t *put_int(uint8_t *p, uint8_t tag, uint64_t v) {
    size_t n = int_width(v);
    *p++ = tag;
    *p++ = (uint8_t)n;
    for (size_t i = n; i-- > 0; v >>= 8) p[i] = (uint8_t)v;
    return p + n;
}

static uint8_t *put_octet(uint8_t *p, uint8_t tag, uint8_t v) {
    *p++ = tag;
    *p++ = 1;
    *p++ = v;
    return p;
}

static uint8_t *put_octets(uint8_t *p, uint8_t tag, const uint8_t *s, size_t n) {
    *p++ = tag;
    *p++ = (uint8_t)n;
    memcpy(p, s, n);
    return p + n;
}

static uint8_t *put_address(uint8_t *p, uint8_t tag, uint32_t v) {
    *p++ = tag;
    *p++ = 6;
    *p++ = 0x80;
    *p++ = 4;
    for (int i = 24; i >= 0; i -= 8) *p++ = (uint8_t)(v >> i);
    return p;
}

static uint8_t *put_stamp(uint8_t *p, uint8_t tag, struct charging_stamp t) {
    *p++ = tag;
    *p++ = 9;
    stamp_octets(t, p);
    return p + 9;
}

/* Whether the container at a place of the list has its QoS: where it is new. */
static int has_qos(const struct charging_container *list, size_t i) { return i == 0 || list[i - 1].condition == 0; }

static size_t container_size(const struct charging_container *list, size_t i) {
    const struct charging_container *c = &list[i];
    return (has_qos(list, i) ? 17 : 0) + 2 + int_width(c->uplink) + 2 + int_width(c->downlink) + 3 + 11;
}

static uint8_t *put_container(uint8_t *p, const struct charging_container *list, size_t i) {
    const struct charging_container *c = &list[i];
    *p++ = 0x30;
    *p++ = (uint8_t)container_size(list, i);
    if (has_qos(list, i)) {
        *p++ = 0xA2;
        *p++ = 15;
        p = put_octet(p, 0x80, c->qos.reliability);
        p = put_octet(p, 0x81, c->qos.delay);
        p = put_octet(p, 0x82, c->qos.precedence);
        p = put_octet(p, 0x83, c->qos.peak);
        p = put_octet(p, 0x84, c->qos.mean);
    }
    p = put_int(p, 0x83, c->uplink);
    p = put_int(p, 0x84, c->downlink);
    p = put_octet(p, 0x85, c->condition);
    return put_stamp(p, 0x86, c->time);
}

static uint32_t duration(const struct plain_record *r) { return r->containers[r->count - 1].time.seconds - r->opening.seconds; }

static size_t list_size(const struct plain_record *r) {
    size_t n = 0;
    for (size_t i = 0; i < r->count; i++) n += 2 + container_size(r->containers, i);
    return n;
}

/* What stands under A0, of a record within the rules. */
static size_t body_size(const struct plain_record *r, size_t list) {
    size_t n = 3 + (r->network ? 3 : 0) + 2 + imsi_size(r->imsi) + 8 + 2 + int_width(r->charging) + 8 + 2 + r->apnlen + 4 + 10;
    n += 1 + len_width(list) + list + 11 + 2 + int_width(duration(r)) + (r->change ? 3 : 0) + 3;
    if (r->number) n += 2 + int_width(r->number);
    if (r->nodelen) n += 2 + r->nodelen;
    return n;
}

static size_t record_size(const struct plain_record *r) {
    size_t n = body_size(r, list_size(r));
    return 1 + len_width(n) + n;
}

static uint8_t *put_record(uint8_t *p, const struct plain_record *r) {
    size_t list = list_size(r);
    *p++ = 0xA0;
    p = put_len(p, body_size(r, list));
    p = put_octet(p, 0x80, 18);
    if (r->network) p = put_octet(p, 0x81, 0xFF);
    p = put_octets(p, 0x83, r->imsi, imsi_size(r->imsi));
    p = put_address(p, 0xA5, r->sgsn);
    p = put_int(p, 0x8A, r->charging);
    p = put_address(p, 0xAB, r->ggsn);
    p = put_octets(p, 0x8C, r->apn, r->apnlen);
    *p++ = 0x8D;
    *p++ = 2;
    *p++ = (uint8_t)(r->pdptype >> 8);
    *p++ = (uint8_t)r->pdptype;
    *p++ = 0xAE;
    *p++ = 8;
    p = put_address(p, 0xA0, r->address);
    *p++ = 0xAF;
    p = put_len(p, list);
    for (size_t i = 0; i < r->count; i++) p = put_container(p, r->containers, i);
    p = put_stamp(p, 0x90, r->opening);
    p = put_int(p, 0x91, duration(r));
    if (r->change) p = put_octet(p, 0x92, 0xFF);
    p = put_octet(p, 0x93, r->cause);
    if (r->number) p = put_int(p, 0x95, r->number);
    if (r->nodelen) p = put_octets(p, 0x96, r->nodeid, r->nodelen);
    return p;
}

struct charging_answer plain_write(const struct plain_record *r, uint8_t *out, size_t out_len) {
    if (!within(r)) return (struct charging_answer){24, 0};
    size_t n = record_size(r);
    if (n > out_len) return (struct charging_answer){11, 0};
    put_record(out, r);
    return (struct charging_answer){0, n};
}

/* ---- the reader: a cursor over the octets ---- */

struct cursor {
    const uint8_t *p, *end;
};

static int at_tag(const struct cursor *c, uint8_t tag) { return c->p < c->end && *c->p == tag; }

/* The contents of the value with the tag, and on to what follows it. */
static int part(struct cursor *c, uint8_t tag, struct cursor *in) {
    const uint8_t *p = c->p;
    if (c->end - p < 2 || *p != tag) return 0;
    size_t n = p[1];
    p += 2;
    if (n == 0x81) {
        if (p == c->end || *p < 128) return 0;
        n = *p++;
    } else if (n == 0x82) {
        if (c->end - p < 2 || *p == 0) return 0;
        n = p[0] * 256u + p[1];
        p += 2;
    } else if (n >= 128)
        return 0;
    if ((size_t)(c->end - p) < n) return 0;
    in->p = p;
    c->p = in->end = p + n;
    return 1;
}

static int get_octet(struct cursor *c, uint8_t tag, uint8_t *v) {
    struct cursor in;
    if (!part(c, tag, &in) || in.end - in.p != 1) return 0;
    *v = *in.p;
    return 1;
}

static int get_int(struct cursor *c, uint8_t tag, uint64_t *v) {
    struct cursor in;
    if (!part(c, tag, &in)) return 0;
    size_t n = (size_t)(in.end - in.p);
    if (n < 1 || in.p[0] >= 128 || (n > 1 && in.p[0] == 0 && in.p[1] < 128) || n > 9 || (n == 9 && in.p[0] != 0)) return 0;
    uint64_t x = 0;
    while (in.p < in.end) x = x << 8 | *in.p++;
    *v = x;
    return 1;
}

static int get_flag(struct cursor *c, uint8_t tag, uint8_t *on) {
    uint8_t v;
    *on = 0;
    if (!at_tag(c, tag)) return 1;
    if (!get_octet(c, tag, &v) || v != 0xFF) return 0;
    *on = 1;
    return 1;
}

static int get_octets(struct cursor *c, uint8_t tag, size_t least, size_t most, uint8_t *v, size_t *n) {
    struct cursor in;
    if (!part(c, tag, &in)) return 0;
    *n = (size_t)(in.end - in.p);
    if (*n < least || *n > most) return 0;
    memcpy(v, in.p, *n);
    return 1;
}

static int get_address(struct cursor *c, uint8_t tag, uint32_t *v) {
    struct cursor in;
    uint8_t x[4];
    size_t n;
    if (!part(c, tag, &in) || !get_octets(&in, 0x80, 4, 4, x, &n) || in.p != in.end) return 0;
    *v = (uint32_t)x[0] << 24 | (uint32_t)x[1] << 16 | (uint32_t)x[2] << 8 | x[3];
    return 1;
}

static int get_stamp(struct cursor *c, uint8_t tag, struct charging_stamp *t) {
    struct cursor in;
    return part(c, tag, &in) && in.end - in.p == 9 && stamp_of(in.p, t);
}

static int get_qos(struct cursor *c, struct charging_qos *v) {
    struct cursor q;
    return part(c, 0xA2, &q) && get_octet(&q, 0x80, &v->reliability) && get_octet(&q, 0x81, &v->delay) && get_octet(&q, 0x82, &v->precedence)
        && get_octet(&q, 0x83, &v->peak) && get_octet(&q, 0x84, &v->mean) && q.p == q.end;
}

/* The container at a place of the list. Where its QoS is not new, it is that of the container before, and does not stand there. */
static int get_container(struct cursor *c, struct charging_container *list, size_t i) {
    struct charging_container *v = &list[i];
    struct cursor in;
    if (!part(c, 0x30, &in)) return 0;
    if (!has_qos(list, i))
        v->qos = list[i - 1].qos;
    else if (!get_qos(&in, &v->qos))
        return 0;
    return get_int(&in, 0x83, &v->uplink) && get_int(&in, 0x84, &v->downlink) && get_octet(&in, 0x85, &v->condition)
        && get_stamp(&in, 0x86, &v->time) && in.p == in.end;
}

static int get_record(struct cursor *s, struct plain_record *r) {
    struct cursor c, in;
    uint8_t type;
    uint64_t id, lasts;
    size_t n;
    if (!part(s, 0xA0, &c) || s->p != s->end) return 0;
    if (!get_octet(&c, 0x80, &type) || type != 18 || !get_flag(&c, 0x81, &r->network)) return 0;
    memset(r->imsi, 0xFF, 8);
    if (!get_octets(&c, 0x83, 3, 8, r->imsi, &n) || imsi_size(r->imsi) != n || !get_address(&c, 0xA5, &r->sgsn)) return 0;
    if (!get_int(&c, 0x8A, &id) || id > 0xFFFFFFFFu || !get_address(&c, 0xAB, &r->ggsn)) return 0;
    r->charging = (uint32_t)id;
    if (!get_octets(&c, 0x8C, 1, 63, r->apn, &r->apnlen)) return 0;
    uint8_t type2[2];
    if (!get_octets(&c, 0x8D, 2, 2, type2, &n)) return 0;
    r->pdptype = (uint16_t)(type2[0] << 8 | type2[1]);
    if (!part(&c, 0xAE, &in) || !get_address(&in, 0xA0, &r->address) || in.p != in.end) return 0;
    if (!part(&c, 0xAF, &in)) return 0;
    while (in.p < in.end) {
        if (r->count == CHARGING_CONTAINERS || !get_container(&in, r->containers, r->count)) return 0;
        r->count++;
    }
    if (!get_stamp(&c, 0x90, &r->opening) || !get_int(&c, 0x91, &lasts) || !get_flag(&c, 0x92, &r->change)) return 0;
    if (!get_octet(&c, 0x93, &r->cause)) return 0;
    if (at_tag(&c, 0x95) && (!get_int(&c, 0x95, &r->number) || r->number == 0)) return 0;
    if (at_tag(&c, 0x96) && !get_octets(&c, 0x96, 1, 20, r->nodeid, &r->nodelen)) return 0;
    return c.p == c.end && within(r) && lasts == duration(r);
}

int plain_read(const uint8_t *s, size_t n, struct plain_record *r) {
    struct cursor c = {s, s + n};
    memset(r, 0, sizeof *r);
    if (get_record(&c, r)) return 0;
    memset(r, 0, sizeof *r);
    return 20;
}

/* ---- a sound node ---- */

static int limits_ok(const struct charging_limits *l) {
    return l->volume >= 1 && l->volume <= 1000000000000u && l->seconds >= 1 && l->seconds <= 604800 && l->changes >= 1 && l->changes <= 15;
}

static int no_limits(const struct charging_limits *l) { return l->volume == 0 && l->seconds == 0 && l->changes == 0; }

static int profile_ok(const struct charging_profile *p) {
    if (p->sets < 1 || p->sets > CHARGING_SETS || p->zone > 1560 || !node_ok(p->nodeid, p->nodelen)) return 0;
    for (size_t i = 0; i < CHARGING_SETS; i++)
        if (i < p->sets ? !limits_ok(&p->limits[i]) : !no_limits(&p->limits[i])) return 0;
    return 1;
}

/* Of the sets in force as many are used as the profile has. */
static int sets_ok(const struct charging_limit_set *s, size_t used) {
    for (size_t i = 0; i < CHARGING_SETS; i++)
        if (i < used ? s[i].edition < 1 || !limits_ok(&s[i].limits) : s[i].edition || !no_limits(&s[i].limits)) return 0;
    return 1;
}

static int has_set(const struct charging_node *n, uint8_t set) { return set >= 1 && set <= n->profile.sets; }

/* All octets that the open record has counted, or the limit where they reach it. */
static uint64_t counted(const struct charging_context *c, uint64_t limit) {
    uint64_t left = limit;
    for (size_t i = 0; i < c->current.count; i++) {
        const struct charging_container *x = &c->current.containers[i];
        if (x->uplink >= left) return limit;
        left -= x->uplink;
        if (x->downlink >= left) return limit;
        left -= x->downlink;
    }
    if (c->current.uplink >= left) return limit;
    left -= c->current.uplink;
    if (c->current.downlink >= left) return limit;
    return limit - (left - c->current.downlink);
}

static int active_ok(const struct charging_node *n, const struct charging_context *c) {
    const struct charging_profile *p = &n->profile;
    const struct charging_limits *l = &c->current.limits; /* those that the record opened with */
    if (!has_set(n, c->set) || !limits_ok(l)) return 0;
    if (c->flags > 3 || !imsi_size(c->imsi) || !apn_ok(c->apn, c->apnlen) || !qos_ok(&c->current.qos)) return 0;
    if (c->closed >= n->accepted || c->current.count != c->current.changes || c->current.changes >= l->changes || c->current.opening.zone != p->zone) return 0;
    uint32_t from = c->current.opening.seconds;
    for (size_t i = 0; i < c->current.count; i++) {
        const struct charging_container *x = &c->current.containers[i];
        const struct charging_qos *after = i + 1 < c->current.count ? &c->current.containers[i + 1].qos : &c->current.qos;
        if (!container_ok(x) || x->condition > 1 || x->time.zone != p->zone || x->time.seconds < from || !changes_right(x, after)) return 0;
        from = x->time.seconds;
    }
    if (from > n->clock) return 0;
    for (size_t i = c->current.count; i < CHARGING_CONTAINERS; i++)
        if (!blank(&c->current.containers[i])) return 0;
    return counted(c, l->volume) < l->volume;
}

static int free_ok(const struct charging_context *c) {
    if (c->active || c->flags || c->set || !no_limits(&c->current.limits) || c->name.id || c->name.ggsn || !zeros(c->imsi, 8) || !zeros(c->apn, 63) || c->apnlen || c->pdptype
        || c->address || c->current.qos.reliability || c->current.qos.delay || c->current.qos.precedence || c->current.qos.peak || c->current.qos.mean || c->current.uplink || c->current.downlink
        || c->current.opening.seconds || c->current.opening.zone || c->current.changes || c->current.count || c->closed)
        return 0;
    for (size_t i = 0; i < CHARGING_CONTAINERS; i++)
        if (!blank(&c->current.containers[i])) return 0;
    return 1;
}

static int sound(const struct charging_node *n) {
    if (!profile_ok(&n->profile) || !sets_ok(n->settings.sets, n->profile.sets) || n->clock > latest || n->accepted > most_accepted) return 0;
    for (int i = 0; i < CHARGING_CONTEXTS; i++) {
        const struct charging_context *c = &n->contexts[i];
        if (c->active != 1) {
            if (!free_ok(c)) return 0;
            continue;
        }
        if (!active_ok(n, c)) return 0;
        for (int j = i + 1; j < CHARGING_CONTEXTS; j++) {
            const struct charging_context *d = &n->contexts[j];
            if (d->active == 1 && d->name.id == c->name.id && d->name.ggsn == c->name.ggsn) return 0;
        }
    }
    return 1;
}

/* ---- events ---- */

static uint32_t four(const uint8_t *p) { return (uint32_t)p[0] << 24 | (uint32_t)p[1] << 16 | (uint32_t)p[2] << 8 | p[3]; }

/* The limits that a replacement of a set brings. */
static struct charging_limits new_limits(const uint8_t *e) {
    return (struct charging_limits){(uint64_t)four(e + 10) << 32 | four(e + 14), four(e + 18), e[22]};
}

/* The first of the refusals 1 to 5 that fits, or 0. The kinds of subscribers' events are unknown here. */
static int refusal(const uint8_t *e, size_t n) {
    static const uint8_t lengths[13] = {0, 37, 23, 20, 7, 16, 7, 15, 0, 0, 0, 0, 23};
    struct charging_qos q;
    struct charging_limits l;
    if (n < 7) return 1;
    if (e[0] != 0xC3 || e[1] != 0x5E) return 2;
    if (e[2] > 12 || lengths[e[2]] == 0) return 3;
    if (e[2] == 1 ? n < 37 || n != 37u + e[36] : n != lengths[e[2]]) return 4;
    switch (e[2]) {
    case 1:
        memcpy(&q, e + 30, 5);
        return e[15] <= 3 && imsi_size(e + 16) && qos_ok(&q) && e[36] >= 1 && e[36] <= 63 && apn_spelled(e + 37, e[36]) ? 0 : 5;
    case 3:
        memcpy(&q, e + 15, 5);
        return qos_ok(&q) ? 0 : 5;
    case 5:
        return is_release(e[15]) ? 0 : 5;
    case 12:
        l = new_limits(e);
        return limits_ok(&l) ? 0 : 5;
    default:
        return 0;
    }
}

/* The cause with which an event closes a context's record, or -1: by the limits that the record opened with. */
static int closing(const struct charging_context *c, uint32_t t, const uint8_t *e) {
    const struct charging_limits *l = &c->current.limits;
    switch (e[2]) {
    case 2: {
        uint64_t all = counted(c, l->volume) + four(e + 15) + four(e + 19);
        return all >= l->volume ? 16 : -1;
    }
    case 3:
        if (memcmp(&c->current.qos, e + 15, 5) == 0) return -1;
        return c->current.changes + 1 >= l->changes ? 19 : -1;
    case 4:
        return c->current.changes + 1 >= l->changes ? 19 : -1;
    case 5:
        return e[15];
    case 6:
        return t - c->current.opening.seconds >= l->seconds ? 17 : -1;
    default:
        return 20;
    }
}

static struct charging_container ended(const struct charging_profile *p, const struct charging_context *c, uint32_t t, uint8_t condition) {
    struct charging_container x = {c->current.qos, c->current.uplink, c->current.downlink, condition, {t, p->zone}};
    return x;
}

/* The record that closes. The report of a traffic event is in it; of any other event both volumes are 0. */
static void record_of(const struct charging_profile *p, const struct charging_context *c, uint32_t t, uint32_t up, uint32_t down, int cause,
                      struct plain_record *r) {
    memset(r, 0, sizeof *r);
    r->network = c->flags & 1;
    memcpy(r->imsi, c->imsi, 8);
    r->sgsn = p->sgsn;
    r->charging = c->name.id;
    r->ggsn = c->name.ggsn;
    memcpy(r->apn, c->apn, 63);
    r->apnlen = c->apnlen;
    r->pdptype = c->pdptype;
    r->address = c->address;
    memcpy(r->containers, c->current.containers, c->current.count * sizeof r->containers[0]);
    struct charging_container *x = &r->containers[c->current.count];
    *x = ended(p, c, t, 2);
    x->uplink += up;
    x->downlink += down;
    r->count = c->current.count + 1;
    r->opening = c->current.opening;
    r->change = (c->flags & 2) && c->closed == 0;
    r->cause = (uint8_t)cause;
    r->number = is_release(r->cause) && c->closed == 0 ? 0 : c->closed + 1;
    memcpy(r->nodeid, p->nodeid, 20);
    r->nodelen = p->nodelen;
}

/* A record after its mark. */
static uint8_t *put_marked(uint8_t *p, const struct plain_record *r) {
    *p++ = 0xC3;
    *p++ = 0x5A;
    return put_record(p, r);
}

/* The next record of a context opens, with the limits that are in force now. */
static void reopen(const struct charging_node *n, struct charging_context *c, uint32_t t) {
    c->current.uplink = c->current.downlink = 0;
    c->current.opening = (struct charging_stamp){t, n->profile.zone};
    c->current.limits = n->settings.sets[c->set - 1].limits;
    c->current.changes = 0;
    memset(c->current.containers, 0, sizeof c->current.containers);
    c->current.count = 0;
    c->closed++;
}

/* What stands of a context that wrote its record. */
static void next_record(const struct charging_node *n, struct charging_context *c, uint32_t t, const uint8_t *e) {
    if (e[2] == 5) {
        memset(c, 0, sizeof *c);
        return;
    }
    if (e[2] == 3) memcpy(&c->current.qos, e + 15, 5);
    reopen(n, c, t);
}

/* What an event that closes nothing does to a context. */
static void go_on(const struct charging_profile *p, struct charging_context *c, uint32_t t, const uint8_t *e) {
    if (e[2] == 2) {
        c->current.uplink += four(e + 15);
        c->current.downlink += four(e + 19);
    } else if (e[2] == 4 || (e[2] == 3 && memcmp(&c->current.qos, e + 15, 5) != 0)) {
        c->current.containers[c->current.count++] = ended(p, c, t, e[2] == 4);
        c->current.changes++;
        c->current.uplink = c->current.downlink = 0;
        if (e[2] == 3) memcpy(&c->current.qos, e + 15, 5);
    }
}

static struct charging_answer refused(uint8_t answer) { return (struct charging_answer){answer, 0}; }

/* The contexts from one slot up to another hear the event: first whether what they write fits, then each by turns. */
static struct charging_answer hear(struct charging_node *n, int from, int to, uint32_t t, const uint8_t *e, uint8_t *out, size_t out_len) {
    struct plain_record r;
    int causes[CHARGING_CONTEXTS];
    uint32_t up = e[2] == 2 ? four(e + 15) : 0, down = e[2] == 2 ? four(e + 19) : 0;
    size_t size = 0;
    for (int i = from; i < to; i++) {
        struct charging_context *c = &n->contexts[i];
        if (c->active != 1) continue;
        causes[i] = closing(c, t, e);
        if (causes[i] < 0) continue;
        record_of(&n->profile, c, t, up, down, causes[i], &r);
        size += 2 + record_size(&r);
    }
    if (size > out_len) return refused(11);
    uint8_t *p = out;
    for (int i = from; i < to; i++) {
        struct charging_context *c = &n->contexts[i];
        if (c->active != 1) continue;
        if (causes[i] < 0) {
            go_on(&n->profile, c, t, e);
            continue;
        }
        record_of(&n->profile, c, t, up, down, causes[i], &r);
        p = put_marked(p, &r);
        next_record(n, c, t, e);
    }
    n->clock = t;
    n->accepted++;
    return (struct charging_answer){0, (size_t)(p - out)};
}

static int find(const struct charging_node *n, uint32_t id, uint32_t ggsn) {
    for (int i = 0; i < CHARGING_CONTEXTS; i++)
        if (n->contexts[i].active == 1 && n->contexts[i].name.id == id && n->contexts[i].name.ggsn == ggsn) return i;
    return -1;
}

static struct charging_answer activate(struct charging_node *n, uint32_t t, const uint8_t *e) {
    if (!has_set(n, e[35])) return refused(18);
    if (find(n, four(e + 7), four(e + 11)) >= 0) return refused(9);
    int i = 0;
    while (i < CHARGING_CONTEXTS && n->contexts[i].active == 1) i++;
    if (i == CHARGING_CONTEXTS) return refused(10);
    struct charging_context *c = &n->contexts[i];
    c->active = 1;
    c->flags = e[15];
    c->set = e[35];
    c->name = (struct charging_name){four(e + 7), four(e + 11)};
    memcpy(c->imsi, e + 16, 8);
    c->apnlen = e[36];
    for (size_t k = 0; k < c->apnlen; k++) c->apn[k] = lower(e[37 + k]);
    c->pdptype = (uint16_t)(e[24] << 8 | e[25]);
    c->address = four(e + 26);
    memcpy(&c->current.qos, e + 30, 5);
    c->current.opening = (struct charging_stamp){t, n->profile.zone};
    c->current.limits = n->settings.sets[c->set - 1].limits;
    n->clock = t;
    n->accepted++;
    return refused(0);
}

/* A set of limits is replaced by its next edition. No open record hears of it. */
static struct charging_answer replace(struct charging_node *n, uint32_t t, const uint8_t *e) {
    if (!has_set(n, e[7])) return refused(18);
    struct charging_limit_set *s = &n->settings.sets[e[7] - 1];
    if (e[8] * 256u + e[9] != s->edition + 1u) return refused(19);
    s->edition++;
    s->limits = new_limits(e);
    n->clock = t;
    n->accepted++;
    return refused(0);
}

/* The first of the refusals 6 and 7 that fits, or 0. */
static uint8_t untimely(const struct charging_node *n, uint32_t t) {
    if (t > latest || t < n->clock) return 6;
    return n->accepted >= most_accepted ? 7 : 0;
}

struct charging_answer plain_step(struct charging_node *n, const uint8_t *e, size_t event_len, uint8_t *out, size_t out_len) {
    if (!sound(n)) return refused(13);
    int k = refusal(e, event_len);
    if (k) return refused((uint8_t)k);
    uint32_t t = four(e + 3);
    k = untimely(n, t);
    if (k) return refused((uint8_t)k);
    if (e[2] == 1) return activate(n, t, e);
    if (e[2] == 12) return replace(n, t, e);
    if (e[2] == 4 || e[2] == 6) return hear(n, 0, CHARGING_CONTEXTS, t, e, out, out_len);
    int i = find(n, four(e + 7), four(e + 11));
    if (i < 0) return refused(8);
    return hear(n, i, i + 1, t, e, out, out_len);
}

/* ---- a minute of reports ---- */

/* The reports of one context, where it lies. What its open record has left up to its own limit is worked out once, and kept. */
static struct charging_batched count_pairs(struct charging_node *n, struct charging_context *c, uint32_t t, const uint32_t *volumes, size_t pairs,
                                           uint8_t *out, size_t out_len) {
    struct plain_record r;
    uint64_t limit = c->current.limits.volume, left = limit - counted(c, limit);
    size_t written = 0;
    for (size_t i = 0; i < pairs; i++) {
        uint32_t up = volumes[2 * i], down = volumes[2 * i + 1];
        uint64_t both = (uint64_t)up + down;
        if (n->accepted >= most_accepted) return (struct charging_batched){7, i, written};
        if (both < left) {
            c->current.uplink += up;
            c->current.downlink += down;
            left -= both;
        } else {
            record_of(&n->profile, c, t, up, down, 16, &r);
            if (2 + record_size(&r) > out_len - written) return (struct charging_batched){11, i, written};
            written = (size_t)(put_marked(out + written, &r) - out);
            reopen(n, c, t);
            left = c->current.limits.volume;
        }
        n->clock = t;
        n->accepted++;
    }
    return (struct charging_batched){0, pairs, written};
}

struct charging_batched plain_batch(struct charging_node *n, uint32_t id, uint32_t ggsn, uint32_t t, const uint32_t *volumes, size_t volumes_len,
                                    uint8_t *out, size_t out_len) {
    if (!sound(n)) return (struct charging_batched){13, 0, 0};
    if (volumes_len % 2 != 0) return (struct charging_batched){14, 0, 0};
    if (volumes_len == 0) return (struct charging_batched){0, 0, 0};
    uint8_t k = untimely(n, t);
    if (k) return (struct charging_batched){k, 0, 0};
    int i = find(n, id, ggsn);
    if (i < 0) return (struct charging_batched){8, 0, 0};
    return count_pairs(n, &n->contexts[i], t, volumes, volumes_len / 2, out, out_len);
}
