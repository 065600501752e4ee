/* The rules of a run: what becomes of a frame, and how it is rewritten, for all programs that forward the captures of
 * run.c. `examine` makes all tests but that of the route, which the including file looks up. */
#pragma once
#include "captures.h"

#define PORTS 2

/* Route i leaves at port i % PORTS, for the address that ends in i. */

static inline void address_of_route(unsigned i, uint8_t *to)
{
	memcpy(to, (uint8_t[]){ 2, 0, 1, i >> 16, i >> 8, i }, 6);
}

static inline void address_of_port(unsigned port, uint8_t *from)
{
	memcpy(from, (uint8_t[]){ 2, 0, 0, 0, 0, 0x10 + port }, 6);
}

static inline uint32_t word(const uint8_t *at)
{
	return (uint32_t)at[0] << 8 | at[1];
}

/* The one's complement sum of a header, in the byte order of the machine: both uses below hold in any. */
static inline uint32_t sum_of(const uint8_t *at, unsigned length)
{
	uint64_t sum = 0;
	for (unsigned i = 0; i < length; i += 4) sum += field(at + i);
	sum = (sum & 0xffffffff) + (sum >> 32);
	sum = (sum & 0xffffffff) + (sum >> 32);
	sum = (sum & 0xffff) + (sum >> 16);
	return (sum & 0xffff) + (sum >> 16);
}

static inline void write_checksum(uint8_t *packet, unsigned header)
{
	packet[10] = packet[11] = 0;
	uint16_t sum = ~sum_of(packet, header);
	memcpy(packet + 10, &sum, 2);
}

enum { SENT, SHORT, NOT_IPV4, BAD_HEADER, BAD_LENGTH, BAD_CHECKSUM, EXPIRED, NO_ROUTE, VERDICTS };

static const char *const names[VERDICTS] = {
	"tagged", "short", "not-ipv4", "bad-header", "bad-length", "bad-checksum", "expired", "no-route",
};

/* A verdict; SENT says that the route has to be looked up. Then it gives where the packet begins, and its
 * destination. */
static inline unsigned examine(const uint8_t *frame, uint32_t captured, uint32_t wire, unsigned *at,
                               uint32_t *destination)
{
	if (captured < 14) return SHORT;
	*at = word(frame + 12) == 0x8100 ? 18 : 14;
	if (captured < *at) return SHORT;
	if (word(frame + *at - 2) != 0x0800) return NOT_IPV4;
	if (captured < *at + 20) return SHORT;
	const uint8_t *packet = frame + *at;
	unsigned header = (packet[0] & 15) * 4, total = word(packet + 2);
	if (packet[0] >> 4 != 4 || header < 20) return BAD_HEADER;
	if (captured < *at + header) return SHORT;
	if (total < header || total > wire - *at) return BAD_LENGTH;
	if (sum_of(packet, header) != 0xffff) return BAD_CHECKSUM;
	if (packet[8] < 2) return EXPIRED;
	*destination = word(packet + 16) << 16 | word(packet + 18);
	return SENT;
}

/* Rewrites a frame for this route. The time to live is the high byte of its 16 bits: one less there, and the checksum
 * is 0x100 more, with the carry at its low end (RFC 1624). */
static inline void rewrite(uint8_t *frame, unsigned at, uint32_t route)
{
	uint8_t *packet = frame + at;
	uint32_t sum = word(packet + 10) + 0x100;
	address_of_route(route, frame);
	address_of_port(route % PORTS, frame + 6);
	packet[8]--;
	sum += sum >= 0xffff;
	packet[10] = sum >> 8;
	packet[11] = sum;
}
