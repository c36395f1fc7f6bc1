/* A host that charges three sessions and a phone that only attaches through the library: a node where it lies, events one by one and reports by
 * the minute, a set of limits replaced, the record list on standard output in hex, and what was refused. See tests/host/run for how it is
 * built. */
#include "charging.h"

int printf(const char *, ...);

static struct charging_node node;
static uint8_t out[CHARGING_MOST_OUTPUT];

static const char profile[] = "sgsn 10.0.0.1\nlimits 1000 60 2\noffset 0\nnode-id\n";

/* time 0: activate ID 1, GGSN 10.0.0.2, IMSI 001010123456789, type F1 21, address 10.0.0.3, QoS 1 3 2 4 0, set 1 of the limits,
 * APN "a" */
static const uint8_t activate[] = {
    0xC3, 0x5E, 1, 0, 0, 0, 0, 0, 0, 0, 1, 10, 0, 0, 2, 0, 0x00, 0x01, 0x01, 0x21, 0x43, 0x65, 0x87, 0xF9,
    0xF1, 0x21, 10, 0, 0, 3, 1, 3, 2, 4, 0, 1, 1, 'a',
};
/* time 5: 400 up, 599 down */
static const uint8_t traffic[] = {
    0xC3, 0x5E, 2, 0, 0, 0, 5, 0, 0, 0, 1, 10, 0, 0, 2, 0, 0, 0x01, 0x90, 0, 0, 0x02, 0x57,
};
/* time 6: release 0 */
static const uint8_t release[] = { 0xC3, 0x5E, 5, 0, 0, 0, 6, 0, 0, 0, 1, 10, 0, 0, 2, 0 };

/* time 7: activate the same again, with its APN spelled "A": its records have "a"; and reports, uplink and downlink by turns: the second pair
 * meets the volume limit, and so does the third */
static uint8_t activate_other[sizeof activate];
static const uint32_t reports[] = { 400, 599, 0, 1, 600, 400, 5 };
/* time 60: release 0 */
static const uint8_t release_again[] = { 0xC3, 0x5E, 5, 0, 0, 0, 60, 0, 0, 0, 1, 10, 0, 0, 2, 0 };

/* a phone, IMSI 001010123456789: time 61: attach at LAC 1A2B, RAC 07; 62: at RAC 08; 63: management; 64: detach 0 */
static const uint8_t attach[] = { 0xC3, 0x5E, 8, 0, 0, 0, 61, 0x00, 0x01, 0x01, 0x21, 0x43, 0x65, 0x87, 0xF9, 0x1A, 0x2B, 0x07 };
static const uint8_t move[] = { 0xC3, 0x5E, 9, 0, 0, 0, 62, 0x00, 0x01, 0x01, 0x21, 0x43, 0x65, 0x87, 0xF9, 0x1A, 0x2B, 0x08 };
static const uint8_t manage[] = { 0xC3, 0x5E, 10, 0, 0, 0, 63, 0x00, 0x01, 0x01, 0x21, 0x43, 0x65, 0x87, 0xF9 };
static const uint8_t detach[] = { 0xC3, 0x5E, 11, 0, 0, 0, 64, 0x00, 0x01, 0x01, 0x21, 0x43, 0x65, 0x87, 0xF9, 0 };

/* time 65: activate the same a third time, and report 999 octets. Set 1 is replaced by its edition 2: 500 octets, 30 s, 1 change; the record that is
 * open keeps its limit of 1,000 octets, which the first of the later reports meets, and the next record has that of 500, which the others meet */
static uint8_t replace[] = { 0xC3, 0x5E, 12, 0, 0, 0, 65, 1, 0, 2, 0, 0, 0, 0, 0, 0, 0x01, 0xF4, 0, 0, 0, 30, 1 };
static const uint32_t later_reports[] = { 0, 1, 200, 299, 0, 1 };
/* time 66: release 0 */
static const uint8_t release_last[] = { 0xC3, 0x5E, 5, 0, 0, 0, 66, 0, 0, 0, 1, 10, 0, 0, 2, 0 };

static void written(size_t n) {
    printf(", %zu octets", n);
    for (size_t i = 0; i < n; i++)
        printf(i % 32 == 0 ? "\n    %02X" : " %02X", out[i]);
    printf("\n");
}

static void step(const char *what, const uint8_t *event, size_t length, size_t room) {
    struct charging_answer a = charging_step(&node, event, length, out, room);
    printf("%s: answer %u", what, a.answer);
    written(a.written);
}

/* of charging ID 1, GGSN 10.0.0.2 */
static void batch(const char *what, uint32_t time, const uint32_t *volumes, size_t count, size_t room) {
    struct charging_batched b = charging_batch(&node, 1, 0x0A000002, time, volumes, count, out, room);
    printf("%s: answer %u, %zu pairs", what, b.answer, b.applied);
    written(b.written);
}

/* the first activation at another time, with another set of limits and another APN of one character */
static void activate_again(const char *what, uint8_t time, uint8_t set, uint8_t apn) {
    for (size_t i = 0; i < sizeof activate; i++)
        activate_other[i] = i == 6 ? time : i == 35 ? set : i == 37 ? apn : activate[i];
    step(what, activate_other, sizeof activate_other, sizeof out);
}

/* which edition of set 1 is in force, with which volume limit; and the limit of the first context's open record */
static void limits(void) {
    struct charging_limit_set *set = &node.settings.sets[0];
    printf("set 1: edition %u, %u octets; the open record: %u octets\n", set->edition, (unsigned)set->limits.volume,
           (unsigned)node.contexts[0].current.limits.volume);
}

int main(void) {
    struct charging_start s = charging_fresh(&node, (const uint8_t *)profile, 13);
    printf("a profile cut short: answer %u, line %u\n", s.answer, s.line);
    step("an event on the node that was not made", activate, sizeof activate, sizeof out);
    s = charging_fresh(&node, (const uint8_t *)profile, sizeof profile - 1);
    printf("a fresh node: answer %u, clock %u, accepted %u\n", s.answer, node.clock, (unsigned)node.accepted);
    step("activate", activate, sizeof activate, sizeof out);
    step("the same again", activate, sizeof activate, sizeof out);
    step("traffic", traffic, sizeof traffic, sizeof out);
    step("release, with a room of 112", release, sizeof release, 112);
    step("release", release, sizeof release, sizeof out);
    step("release again", release, sizeof release, sizeof out);
    printf("clock %u, accepted %u\n", node.clock, (unsigned)node.accepted);
    activate_again("activate again, at 7", 7, 1, 'A');
    batch("reports, a number too many", 59, reports, 7, sizeof out);
    batch("no reports", 59, reports, 0, sizeof out);
    printf("clock %u, accepted %u\n", node.clock, (unsigned)node.accepted);
    batch("reports, with a room of 116", 59, reports, 6, 116);
    batch("those that were left", 59, reports + 4, 2, sizeof out);
    step("release, at 60", release_again, sizeof release_again, sizeof out);
    printf("clock %u, accepted %u\n", node.clock, (unsigned)node.accepted);
    step("attach", attach, sizeof attach, sizeof out);
    step("the same again", attach, sizeof attach, sizeof out);
    step("another place", move, sizeof move, sizeof out);
    printf("place %04X %02X, changes %zu\n", node.subscribers[0].place.lac, node.subscribers[0].place.rac, node.subscribers[0].count);
    step("management", manage, sizeof manage, sizeof out);
    step("detach, with a room of 51", detach, sizeof detach, 51);
    step("detach", detach, sizeof detach, sizeof out);
    step("detach again", detach, sizeof detach, sizeof out);
    printf("clock %u, accepted %u\n", node.clock, (unsigned)node.accepted);
    activate_again("activate with a set that the node does not have", 65, 2, 'a');
    activate_again("activate, at 65", 65, 1, 'a');
    batch("reports, up to an octet below the limit", 65, reports, 2, sizeof out);
    limits();
    step("a set of limits replaced", replace, sizeof replace, sizeof out);
    limits();
    step("the same again", replace, sizeof replace, sizeof out);
    replace[7] = 2;
    step("a set that the node does not have", replace, sizeof replace, sizeof out);
    batch("the limit met, and then the new one", 65, later_reports, 6, sizeof out);
    limits();
    step("release, at 66", release_last, sizeof release_last, sizeof out);
    printf("clock %u, accepted %u\n", node.clock, (unsigned)node.accepted);
    return 0;
}
