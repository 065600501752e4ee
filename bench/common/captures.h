/* What the yardsticks of captures share: numbers of the file format (pcap 2.4, little-endian, microseconds), the lengths
 * of the frames, of which 1,000,000 make a capture of 439 MB, and the greatest memory of a program. */
#pragma once
#include "bench.h"
#include <sys/resource.h>
#include <sys/wait.h>
#include <unistd.h>

#define MAX_CAPTURED 262144

static inline void fail(const char *what)
{
	perror(what);
	exit(1);
}

static inline uint32_t field(const uint8_t *at)
{
	uint32_t value;
	memcpy(&value, at, 4);
	return value;
}

static inline void put(uint8_t *at, uint32_t value)
{
	memcpy(at, &value, 4);
}

static inline void file_header(uint8_t *header)
{
	memset(header, 0, 24);
	put(header, 0xa1b2c3d4);
	put(header + 4, 0x00040002);
	put(header + 16, MAX_CAPTURED);
	put(header + 20, 1);
}

/* Of a record with that number: one a microsecond. */
static inline void record_header(uint8_t *header, unsigned i, uint32_t captured, uint32_t wire)
{
	put(header, 1700000000 + i / 1000000);
	put(header + 4, i % 1000000);
	put(header + 8, captured);
	put(header + 12, wire);
}

/* How long a frame is: seven of twelve have 60 bytes, one has 1,514, the others any length between. */
static inline unsigned frame_length(uint64_t number)
{
	unsigned kind = number % 12;
	return kind < 7 ? 60 : kind < 11 ? 61 + (number >> 8) % 1453 : 1514;
}

/* Runs a program, and prints the most memory that it had, in KiB: from here and not from a larger program, whose memory
 * would count until the other one runs. */
static inline int peak(char **command)
{
	struct rusage used;
	int status;
	pid_t child = fork();
	if (child == 0) {
		if (!freopen("/dev/null", "w", stdout)) _exit(127);
		execv(command[0], command);
		_exit(127);
	}
	if (child < 0 || wait4(child, &status, 0, &used) < 0) fail("wait4");
	printf("%ld\n", used.ru_maxrss);
	return status != 0;
}
