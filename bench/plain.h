/* The rules of the charging node, written in C the plain way: what the proved code is measured against. */
#ifndef PLAIN_H
#define PLAIN_H

#include "charging.h"

struct plain_record {
    uint8_t network;
    uint8_t imsi[8];
    uint32_t sgsn, charging, ggsn;
    uint8_t apn[63];
    size_t apnlen;
    uint16_t pdptype;
    uint32_t address;
    struct charging_container containers[CHARGING_CONTAINERS];
    size_t count;
    struct charging_stamp opening;
    uint8_t change;
    uint8_t cause;
    uint64_t number; /* 0 where there is none */
    uint8_t nodeid[20];
    size_t nodelen;
};

/* An event: the answer; the node changes where it lies. */
struct charging_answer plain_step(struct charging_node *node, const uint8_t *event, size_t event_len, uint8_t *out, size_t out_len);
/* The reports of one context at one time, uplink and downlink by turns: the number that ended the call or 0, how many pairs were applied,
 * and what they wrote; a refusal keeps what was applied before it. The node changes where it lies. */
struct charging_batched plain_batch(struct charging_node *node, uint32_t id, uint32_t ggsn, uint32_t time, const uint32_t *volumes, size_t volumes_len,
                                    uint8_t *out, size_t out_len);
/* A record without its mark: 0, 24 or 11. */
struct charging_answer plain_write(const struct plain_record *r, uint8_t *out, size_t out_len);
/* 0 or 20; the record is all zero with 20. */
int plain_read(const uint8_t *s, size_t n, struct plain_record *r);

#endif
