/* A whole run in plain C: a capture in, a capture a port and the report out, by the rules of `pktkit run`, so that the
 * same bytes come out. Only little-endian captures of microseconds are taken.
 *
 *   run.yardstick settings OUT ROUTES        settings for pktkit: two ports, and the first routes of lists.h
 *   run.yardstick make OUT RECORDS ROUTES    a capture of frames to these routes, the same each time
 *   run.yardstick forward ROUTES IN PREFIX   forwards it, with a buffer of 64 KiB to read and one a port to write
 *   run.yardstick peak PROGRAM ..            runs a program, and prints the most memory that it had, in KiB
 */
#include "lists.h"
#include <fcntl.h>
#include <stdint.h>
#include <stdlib.h>

#define ROOM 2048
/* The sizes with which it was fastest: 1 MiB to read and 256 KiB to write took 1.07 times as long. */
#define READ_ROOM (1 << 16)
#define WRITE_ROOM (1 << 16)

/* The routes: an entry for each first 24 bits of an address, and groups of 256 below; 0 is no route, else the route's index and 1. */

#define GROUP 0x80000000u

struct table { uint32_t *first; uint32_t *groups; uint32_t used; };

static int shorter(const void *a, const void *b)
{
	const struct route *x = a, *y = b;
	if (x->depth != y->depth) return x->depth < y->depth ? -1 : 1;
	return x->hop < y->hop ? -1 : x->hop > y->hop;
}

static void add(struct table *table, const struct route *route)
{
	uint32_t *entry = &table->first[route->address >> 8], hop = route->hop + 1;
	if (route->depth <= 24) {
		for (uint32_t k = 0; k < 1u << (24 - route->depth); k++) entry[k] = hop;
		return;
	}
	if (!(*entry & GROUP)) {
		for (unsigned k = 0; k < 256; k++) table->groups[256 * table->used + k] = *entry;
		*entry = GROUP | table->used++;
	}
	uint32_t *group = &table->groups[256 * (*entry & ~GROUP) + (route->address & 255)];
	for (uint32_t k = 0; k < 1u << (32 - route->depth); k++) group[k] = hop;
}

/* The longest prefixes come last, and of equal ones the last route, so that each entry ends with the hop that counts. */
static struct table make_table(unsigned count)
{
	struct table table = { calloc(1 << 24, 4), calloc(count + 1, 1024), 0 };
	struct route *routes = make_routes(count);
	qsort(routes, count, sizeof *routes, shorter);
	for (unsigned i = 0; i < count; i++) add(&table, &routes[i]);
	free(routes);
	return table;
}

/* The route's index and 1, or 0. */
static inline uint32_t lookup(const struct table *table, uint32_t address)
{
	uint32_t entry = table->first[address >> 8];
	return entry & GROUP ? table->groups[256 * (entry & ~GROUP) + (address & 255)] : entry;
}

#include "forward.h"

static void settings(const char *path, unsigned count)
{
	FILE *out = fopen(path, "w");
	struct route *routes = make_routes(count);
	if (!out) fail(path);
	fprintf(out, "buffers = 512\nroom = %u\ncache = 64\nburst = 64\nring = 256\n", ROOM);
	for (unsigned port = 0; port < PORTS; port++)
		fprintf(out, "[[port]]\nmac = \"02:00:00:00:00:%02x\"\n", 0x10 + port);
	for (unsigned i = 0; i < count; i++) {
		uint32_t a = routes[i].address;
		fprintf(out, "[[route]]\nprefix = \"%u.%u.%u.%u/%u\"\n", a >> 24, a >> 16 & 255, a >> 8 & 255, a & 255, routes[i].depth);
		fprintf(out, "port = %u\nto = \"02:00:01:%02x:%02x:%02x\"\n", i % PORTS, i >> 16 & 255, i >> 8 & 255, i & 255);
	}
	if (fclose(out)) fail(path);
}

/* Frames */

/* Of a hundred kinds of frames these aren't plain; only frames of 60 bytes are cut short. One frame of fifty has options. */
enum { IS_SHORT, IS_ARP, HAS_BAD_HEADER, HAS_BAD_LENGTH, HAS_BAD_CHECKSUM, IS_EXPIRED, HAS_NO_ROUTE, HAS_TAG, KINDS = 100 };

static void make_frame(uint8_t *frame, unsigned i, unsigned length, unsigned kind, uint64_t number, uint32_t to)
{
	unsigned at = kind == HAS_TAG ? 18 : 14, header = i % 50 == 49 ? 24 : 20, total = length - at;
	uint32_t from = 0x0a000000 | (uint32_t)(number >> 16 & 0xffffff);
	uint8_t *packet = frame + at;
	for (unsigned k = 0; k < length; k++) frame[k] = i + k;
	memcpy(frame, (uint8_t[]){ 2, 0, 0, 0, 0, 1, 2, 0, 0, 0, 0, 2, 0x81, 0, i >> 8 & 15, i, 8, 0 }, 18);
	if (at == 14) memcpy(frame + 12, kind == IS_ARP ? "\x08\x06" : "\x08\x00", 2);
	if (kind == HAS_NO_ROUTE) to = 0xf0000000 | (to & 0xffffff);
	memcpy(packet, (uint8_t[]){ 0x40 | header / 4, 0, total >> 8, total, i >> 8, i, 0, 0, 2 + (number >> 24) % 254, 17, 0, 0,
		from >> 24, from >> 16, from >> 8, from, to >> 24, to >> 16, to >> 8, to, 1, 1, 1, 1 }, header);
	if (kind == HAS_BAD_HEADER) packet[0] = 0x44;
	if (kind == HAS_BAD_LENGTH) packet[2] = 0xff;
	if (kind == IS_EXPIRED) packet[8] = i & 1;
	write_checksum(packet, header);
	if (kind == HAS_BAD_CHECKSUM) packet[10] ^= 1;
}

static void make(const char *path, unsigned records, unsigned count)
{
	static uint8_t frame[2048];
	FILE *out = fopen(path, "wb");
	struct route *routes = make_routes(count);
	uint32_t *hits = make_hits(routes, count, records);
	uint64_t state = 4;
	uint8_t header[24];
	if (!out) fail(path);
	file_header(header);
	fwrite(header, 24, 1, out);
	for (unsigned i = 0; i < records; i++) {
		uint64_t number = splitmix64(&state);
		unsigned length = frame_length(number), kind = (number >> 40) % KINDS;
		make_frame(frame, i, length, kind, number, hits[i]);
		unsigned captured = kind == IS_SHORT && length == 60 ? 1 + i % 33 : length;
		record_header(header, i, captured, length);
		fwrite(header, 16, 1, out);
		fwrite(frame, captured, 1, out);
	}
	if (fclose(out)) fail(path);
}

/* The run */

struct input { int file; size_t have, at; int ended; uint8_t bytes[READ_ROOM + MAX_CAPTURED + 16]; };
struct port { int file; size_t length; uint64_t records; uint8_t bytes[WRITE_ROOM]; };

static struct input in;
static struct port ports[PORTS];

/* Whether so many bytes are left; they lie one after the other then. */
static int fill(size_t wanted)
{
	if (in.have - in.at >= wanted) return 1;
	memmove(in.bytes, in.bytes + in.at, in.have - in.at);
	in.have -= in.at;
	in.at = 0;
	while (in.have < wanted && !in.ended) {
		ssize_t got = read(in.file, in.bytes + in.have, sizeof in.bytes - in.have);
		if (got < 0) fail("read");
		in.ended = got == 0;
		in.have += got;
	}
	return in.have >= wanted;
}

static void flush(struct port *port)
{
	if (write(port->file, port->bytes, port->length) != (ssize_t)port->length) fail("write");
	port->length = 0;
}

static inline void append(struct port *port, const uint8_t *bytes, size_t length)
{
	if (port->length + length > WRITE_ROOM) flush(port);
	memcpy(port->bytes + port->length, bytes, length);
	port->length += length;
}

static void open_all(const char *from, const char *prefix)
{
	in.file = open(from, O_RDONLY);
	if (in.file < 0 || !fill(24) || field(in.bytes) != 0xa1b2c3d4) fail(from);
	in.at = 24;
	for (unsigned q = 0; q < PORTS; q++) {
		char path[512];
		uint8_t header[24];
		snprintf(path, sizeof path, "%s.%u.pcap", prefix, q);
		ports[q].file = open(path, O_WRONLY | O_CREAT | O_TRUNC, 0644);
		if (ports[q].file < 0) fail(path);
		file_header(header);
		append(&ports[q], header, 24);
	}
}

static void print_report(uint64_t records, uint64_t oversize, uint64_t tagged, const uint64_t *verdicts, int torn)
{
	printf("records %llu\noversize %llu\n", (unsigned long long)records, (unsigned long long)oversize);
	for (unsigned q = 0; q < PORTS; q++) printf("port %u %llu\n", q, (unsigned long long)ports[q].records);
	for (unsigned k = SHORT; k < VERDICTS; k++) printf("%s %llu\n", names[k], (unsigned long long)verdicts[k]);
	printf("%s %llu\ntorn %s\n", names[SENT], (unsigned long long)tagged, torn ? "yes" : "no");
}

static void forward(unsigned count, const char *from, const char *prefix)
{
	struct table table = make_table(count);
	uint64_t records = 0, oversize = 0, tagged = 0, verdicts[VERDICTS] = { 0 };
	open_all(from, prefix);
	while (fill(16)) {
		uint8_t *record = in.bytes + in.at;
		uint32_t captured = field(record + 8), wire = field(record + 12), to, hop = 0;
		unsigned at = 0;
		if (captured > MAX_CAPTURED) fail("captured");
		if (!fill(16 + captured)) break;
		record = in.bytes + in.at;
		in.at += 16 + captured;
		records++;
		if (captured > 64 * ROOM) {
			oversize++;
			continue;
		}
		if (wire < captured) put(record + 12, wire = captured);
		unsigned verdict = examine(record + 16, captured, wire, &at, &to);
		if (verdict == SENT && !(hop = lookup(&table, to))) verdict = NO_ROUTE;
		verdicts[verdict]++;
		if (verdict != SENT) continue;
		struct port *port = &ports[(hop - 1) % PORTS];
		rewrite(record + 16, at, hop - 1);
		tagged += at == 18;
		port->records++;
		append(port, record, 16 + captured);
	}
	for (unsigned q = 0; q < PORTS; q++) flush(&ports[q]);
	print_report(records, oversize, tagged, verdicts, in.have != in.at);
}

int main(int argc, char **argv)
{
	if (argc > 2 && !strcmp(argv[1], "peak")) return peak(argv + 2);
	if (argc == 4 && !strcmp(argv[1], "settings")) settings(argv[2], atoi(argv[3]));
	else if (argc == 5 && !strcmp(argv[1], "make")) make(argv[2], atoi(argv[3]), atoi(argv[4]));
	else if (argc == 5 && !strcmp(argv[1], "forward")) forward(atoi(argv[2]), argv[3], argv[4]);
	else return 2;
	return 0;
}
