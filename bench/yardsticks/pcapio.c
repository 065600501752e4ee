/* Captures: makes one, and copies one record by record in plain C or over libpcap.
 *
 *   pcapio.yardstick make OUT RECORDS   a little-endian capture of microseconds, the same each time
 *   pcapio.yardstick plain IN OUT       fread and fwrite, with buffers of 64 KiB
 *   pcapio.yardstick libpcap IN OUT     pcap_next_ex and pcap_dump
 *   pcapio.yardstick peak PROGRAM ..    runs a program, and prints the most memory that it had, in KiB
 */
#include "captures.h"
#include <pcap/pcap.h>

#define ROOM 65536

static uint8_t bytes[MAX_CAPTURED];

static FILE *opened(const char *path, const char *mode, char *room)
{
	FILE *file = fopen(path, mode);
	if (!file || setvbuf(file, room, _IOFBF, ROOM)) fail(path);
	return file;
}

static void make(const char *path, unsigned records)
{
	static char room[ROOM];
	FILE *out = opened(path, "wb", room);
	uint8_t header[24];
	uint64_t state = 4;
	file_header(header);
	fwrite(header, 24, 1, out);
	for (unsigned i = 0; i < records; i++) {
		unsigned length = frame_length(splitmix64(&state));
		for (unsigned k = 0; k < length; k++) bytes[k] = i + k;
		record_header(header, i, length, length);
		fwrite(header, 16, 1, out);
		fwrite(bytes, length, 1, out);
	}
	if (fclose(out)) fail(path);
}

static void plain(const char *from, const char *to)
{
	static char rooms[2][ROOM];
	FILE *in = opened(from, "rb", rooms[0]), *out = opened(to, "wb", rooms[1]);
	uint8_t header[24];
	if (fread(header, 24, 1, in) != 1 || field(header) != 0xa1b2c3d4) fail(from);
	file_header(header);
	fwrite(header, 24, 1, out);
	while (fread(header, 16, 1, in) == 1) {
		uint32_t captured = field(header + 8), wire = field(header + 12);
		if (captured > MAX_CAPTURED) fail("captured");
		if (captured && fread(bytes, captured, 1, in) != 1) break;
		put(header + 12, wire < captured ? captured : wire);
		if (fwrite(header, 16, 1, out) != 1) fail(to);
		if (captured && fwrite(bytes, captured, 1, out) != 1) fail(to);
	}
	if (fclose(out)) fail(to);
}

static void libpcap(const char *from, const char *to)
{
	char message[PCAP_ERRBUF_SIZE];
	struct pcap_pkthdr *header;
	const u_char *packet;
	pcap_t *in = pcap_open_offline(from, message);
	if (!in) fail(message);
	pcap_dumper_t *out = pcap_dump_open(in, to);
	if (!out) fail(to);
	while (pcap_next_ex(in, &header, &packet) == 1) pcap_dump((u_char *)out, header, packet);
	pcap_dump_close(out);
	pcap_close(in);
}

int main(int argc, char **argv)
{
	if (argc > 2 && !strcmp(argv[1], "peak")) return peak(argv + 2);
	if (argc != 4) return 2;
	if (!strcmp(argv[1], "make")) make(argv[2], atoi(argv[3]));
	else if (!strcmp(argv[1], "plain")) plain(argv[2], argv[3]);
	else libpcap(argv[2], argv[3]);
	return 0;
}
