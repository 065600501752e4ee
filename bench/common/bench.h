/* What the yardsticks share: a clock, a source of numbers, and one measurement. Each yardstick prints lines
 * `name value unit` on standard output, with the names of the project's program beside it. */
#pragma once
#ifndef _GNU_SOURCE
#define _GNU_SOURCE
#endif
#include <stdint.h>
#include <stdio.h>
#include <stdlib.h>
#include <string.h>
#include <time.h>

static inline uint64_t now_ns(void)
{
	struct timespec ts;
	clock_gettime(CLOCK_MONOTONIC, &ts);
	return (uint64_t)ts.tv_sec * 1000000000u + ts.tv_nsec;
}

/* splitmix64 (Steele, Lea, Flood 2014): the same seed gives the same list in C and in the project's programs. */
static inline uint64_t splitmix64(uint64_t *state)
{
	uint64_t z = (*state += 0x9e3779b97f4a7c15ull);
	z = (z ^ (z >> 30)) * 0xbf58476d1ce4e5b9ull;
	z = (z ^ (z >> 27)) * 0x94d049bb133111ebull;
	return z ^ (z >> 31);
}

/* Length of one measurement in milliseconds: BENCH_MS, else 100. */
static inline uint64_t bench_ns(void)
{
	const char *text = getenv("BENCH_MS");
	return (text ? (uint64_t)atoi(text) : 100) * 1000000u;
}

static inline void report(const char *name, double value, const char *unit)
{
	printf("%s %.4g %s\n", name, value, unit);
	fflush(stdout);
}

#define COMPILER_BARRIER() __asm__ volatile("" ::: "memory")
#define KEEP(x) __asm__ volatile("" : "+r"(x) :: "memory")

/* Runs CHUNK, which does UNITS units of work, once to warm up and then until bench_ns has passed.
 * DST gets the nanoseconds of a unit. */
#define TIMED(DST, UNITS, CHUNK) do { \
	uint64_t start_, end_, done_ = 0, limit_ = bench_ns(); \
	{ CHUNK } \
	start_ = now_ns(); \
	do { { CHUNK } done_ += (UNITS); end_ = now_ns(); } while (end_ - start_ < limit_); \
	(DST) = (double)(end_ - start_) / (double)done_; \
} while (0)
