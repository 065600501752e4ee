/* The routes and addresses that the yardstick of lpm and the project's program share, by splitmix64 from fixed states.
 *   routes, from state 1: a and r are the next two numbers; c = r % 100, e = r / 100 % 8.
 *     depth: 24 where c < 55, 16 + e where c < 85, 8 + e where c < 95, else 25 + e.
 *     address: first byte 1 + (a >> 24) % 223, the others a's low 24 bits, masked by the depth; the hop is the route's
 *     index.
 *   hits, from state 2: a and b; an address of route a % count, with b's bits after the depth.
 *   anywhere, from state 3: the low 32 bits of the next number. */
#pragma once
#include "bench.h"

struct route { uint32_t address; uint8_t depth; uint32_t hop; };

static inline uint32_t mask_of(unsigned depth) { return depth ? ~0u << (32 - depth) : 0; }

static inline struct route *make_routes(unsigned count)
{
	struct route *routes = malloc(count * sizeof *routes);
	uint64_t state = 1;
	for (unsigned i = 0; i < count; i++) {
		uint64_t a = splitmix64(&state), r = splitmix64(&state);
		unsigned c = r % 100, e = r / 100 % 8;
		unsigned depth = c < 55 ? 24 : c < 85 ? 16 + e : c < 95 ? 8 + e : 25 + e;
		uint32_t address = (uint32_t)((1 + ((a >> 24) & 0xff) % 223) << 24) | (uint32_t)(a & 0xffffff);
		routes[i] = (struct route){ address & mask_of(depth), (uint8_t)depth, i };
	}
	return routes;
}

static inline uint32_t *make_hits(const struct route *routes, unsigned count, unsigned length)
{
	uint32_t *list = malloc(length * sizeof *list);
	uint64_t state = 2;
	for (unsigned i = 0; i < length; i++) {
		uint64_t a = splitmix64(&state), b = splitmix64(&state);
		const struct route *route = &routes[a % count];
		list[i] = route->address | ((uint32_t)b & ~mask_of(route->depth));
	}
	return list;
}

static inline uint32_t *make_anywhere(unsigned length)
{
	uint32_t *list = malloc(length * sizeof *list);
	uint64_t state = 3;
	for (unsigned i = 0; i < length; i++) list[i] = (uint32_t)splitmix64(&state);
	return list;
}
