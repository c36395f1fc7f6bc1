/* The charging node for a host in C: the static library libhost.a (bin/library), built for x86-64.
 *
 * The node is one value that the host holds: it may lie anywhere, and nothing of it is kept elsewhere. Its fields may be read; whatever
 * they hold, every call answers (13 for a node that breaks a rule). Padding is unspecified, so nodes are compared field by field.
 * A slice is a pointer and a length; no pointer is null, at length 0 either, and what is lent does not overlap. */
#ifndef CHARGING_H
#define CHARGING_H

#include <stddef.h>
#include <stdint.h>

#define CHARGING_CONTEXTS 16
#define CHARGING_CONTAINERS 15
#define CHARGING_SUBSCRIBERS 16
#define CHARGING_CHANGES 15
#define CHARGING_SETS 8
/* what an event writes at most: sixteen S-CDRs of 1,024 octets, each after its mark; one of a subscriber writes one M-CDR, of 388 at most */
#define CHARGING_MOST_OUTPUT (16 * (2 + 1024))

struct charging_name { uint32_t id, ggsn; };
struct charging_qos { uint8_t reliability, delay, precedence, peak, mean; };
/* local seconds since 2000-01-01 00:00:00, and minutes from universal time plus 720 */
struct charging_stamp { uint32_t seconds; uint16_t zone; };
struct charging_container {
    struct charging_qos qos;
    uint64_t uplink, downlink;
    uint8_t condition;
    struct charging_stamp time;
};
/* when a record closes by itself: octets counted, seconds open, changes of QoS and tariff */
struct charging_limits { uint64_t volume; uint32_t seconds; uint8_t changes; };
/* a set of limits as the node has it: zero where it is not used */
struct charging_limit_set { uint16_t edition; struct charging_limits limits; };
/* a record that is not closed yet */
struct charging_open_record {
    struct charging_stamp opening;
    struct charging_qos qos;
    struct charging_limits limits; /* those that it opened with: it keeps them until it closes */
    uint64_t uplink, downlink;
    uint8_t changes;
    struct charging_container containers[CHARGING_CONTAINERS];
    size_t count;
};
struct charging_context {
    uint8_t active, flags;
    uint8_t set; /* of limits, by its number: its next record takes the edition that is then in force */
    struct charging_name name;
    uint8_t imsi[8];
    uint8_t apn[63]; /* letters in lower case, however the event spelled them: a capital makes the node unsound */
    size_t apnlen;
    uint16_t pdptype;
    uint32_t address;
    struct charging_open_record current;
    uint64_t closed;
};
/* where a subscriber is: location area code and routing area code */
struct charging_place { uint16_t lac; uint8_t rac; };
struct charging_change { struct charging_place place; struct charging_stamp time; };
struct charging_subscriber {
    uint8_t active; /* 1, or 0 where the place is free */
    uint8_t imsi[8];
    struct charging_place place; /* at the opening of its open record */
    struct charging_stamp opening;
    struct charging_change changes[CHARGING_CHANGES];
    size_t count; /* how many of them are used: 14 at most in a sound node */
    uint64_t closed; /* records of this attachment that are closed */
};
/* what the node was set up with; the first of sets limits are used, and make edition 1 of the sets numbered from 1 */
struct charging_profile {
    uint32_t sgsn;
    struct charging_limits limits[CHARGING_SETS];
    size_t sets;
    uint16_t zone;
    uint8_t nodeid[20];
    size_t nodelen;
};
/* what events set: the limits that are in force. Of the sets so many are used as the profile says */
struct charging_settings { struct charging_limit_set sets[CHARGING_SETS]; };
struct charging_node {
    struct charging_profile profile;
    struct charging_settings settings;
    uint32_t clock;
    uint64_t accepted;
    struct charging_context contexts[CHARGING_CONTEXTS];
    struct charging_subscriber subscribers[CHARGING_SUBSCRIBERS];
};

_Static_assert(sizeof(struct charging_container) == 40, "a container has 40 octets");
_Static_assert(sizeof(struct charging_limit_set) == 24, "a set of limits has 24 octets");
_Static_assert(sizeof(struct charging_context) == 776, "a context has 776 octets");
_Static_assert(sizeof(struct charging_change) == 12, "a location change has 12 octets");
_Static_assert(sizeof(struct charging_subscriber) == 224, "a subscriber has 224 octets");
_Static_assert(sizeof(struct charging_profile) == 176, "a profile has 176 octets");
_Static_assert(sizeof(struct charging_node) == 16384, "a node has 16,384 octets");

/* 0, or 12: then line is the line of the text that does not read, or 0 where a value is out of range, and the node is all zero. */
struct charging_start { uint8_t answer, line; };
struct charging_start charging_fresh(struct charging_node *node, const uint8_t *text, size_t text_len);

/* 0 and how many octets were written from out's start, or the number of a refusal and 0: then the node and out are as they were. Events about
 * subscribers (kinds 8 to 11) have numbers of their own: 15 attached already, 16 not attached, 17 no free place. An activation, or a replacement
 * of a set of limits (kind 12), with a set that the node does not have is 18; a replacement whose edition is not the next one is 19. */
struct charging_answer { uint8_t answer; size_t written; };
struct charging_answer charging_step(struct charging_node *node, const uint8_t *event, size_t event_len, uint8_t *out, size_t out_len);

/* A list of reports for the context of a name, all at one time: uplink and downlink by turns. 0, or the number of the refusal that ended the
 * call; how many pairs were applied, and how many octets these wrote from out's start. What the pairs before a refusal did stays. 13 (a node
 * that breaks a rule) and 14 (a list of odd length) apply none; an empty list changes nothing, the clock included. */
struct charging_batched { uint8_t answer; size_t applied; size_t written; };
struct charging_batched charging_batch(struct charging_node *node, uint32_t id, uint32_t ggsn, uint32_t time, const uint32_t *volumes,
                                       size_t volumes_len, uint8_t *out, size_t out_len);

#endif
