/* The reader of the router's settings: the form of examples/router.toml, and the name of an interface for each port. It
 * is strict: another form, an unknown key, a value out of range and a missing key are faults, and it says the line. */
#ifndef ROUTER_SETTINGS_H
#define ROUTER_SETTINGS_H 1

#include <ctype.h>
#include <errno.h>
#include <hokhtura.h>
#include <net/if.h>
#include <stdint.h>
#include <stdio.h>
#include <stdlib.h>
#include <string.h>

enum { PORTS = 16, MAX_BURST = 64, MAX_ROUTES = 65536 };

enum { BUFFERS, HEADROOM, ROOM, CACHE, BURST, RING, BITS, GROUPS, NUMBERS };
static const struct { const char *key; uint32_t low, high, usual; } numeric[NUMBERS] = {
    {"buffers", 1, 65536, 0}, {"headroom", 0, 1024, 128}, {"room", 64, 65536, 2048}, {"cache", 0, 128, 32},
    {"burst", 1, MAX_BURST, 32}, {"ring", 1, 65536, 512}, {"bits", 16, 24, 24}, {"groups", 0, 65536, 256}};

enum section { TOP, PORT, ROUTE };
static const struct { const char *key; int needed; } keys[3][3] = {
    [PORT] = {{"interface", 1}, {"mac", 1}, {"address", 0}}, [ROUTE] = {{"prefix", 1}, {"to", 1}, {"port", 1}}};

struct route { uint32_t address, depth, line; hk_next_hop hop; };
struct settings {
    uint32_t number[NUMBERS], ports, routes, room_for_routes;
    hk_port port[PORTS];
    char interface[PORTS][IFNAMSIZ];
    struct route *route;
    enum section section; /* where the reader is: the section, its line, the keys that it had, and the line */
    uint32_t begun, seen, line;
};

static int is_mac(const char *text, uint8_t mac[6]) {
    if (strlen(text) != 17) return 0;
    for (int i = 0; i < 17; i++)
        if (i % 3 == 2 ? text[i] != ':' : !isxdigit((unsigned char)text[i])) return 0;
    for (int i = 0; i < 6; i++) mac[i] = (uint8_t)strtoul(text + 3 * i, NULL, 16);
    return 1;
}

static int is_prefix(const char *text, uint32_t *address, uint32_t *depth) {
    unsigned a, b, c, d, n;
    char back[64];
    if (sscanf(text, "%3u.%3u.%3u.%3u/%2u", &a, &b, &c, &d, &n) != 5) return 0;
    snprintf(back, sizeof back, "%u.%u.%u.%u/%u", a, b, c, d, n);
    *address = a << 24 | b << 16 | c << 8 | d;
    *depth = n;
    return !strcmp(text, back) && a < 256 && b < 256 && c < 256 && d < 256 && n >= 1 && n <= 32;
}

/* Each of these returns what is wrong, or NULL. */
static const char *end_section(struct settings *s) {
    for (int i = 0; s->section != TOP && i < 3; i++)
        if (keys[s->section][i].needed && !(s->seen >> i & 1)) return s->line = s->begun, "a key is missing";
    return NULL;
}

static const char *begin_section(struct settings *s, const char *name) {
    const char *wrong = end_section(s);
    if (wrong) return wrong;
    s->section = strcmp(name, "port") ? ROUTE : PORT;
    s->begun = s->line;
    s->seen = 0;
    if (s->section == PORT) return s->ports == PORTS ? "more than 16 ports" : (s->ports++, NULL);
    if (strcmp(name, "route")) return "neither [[port]] nor [[route]]";
    if (s->routes == MAX_ROUTES) return "more than 65,536 routes";
    if (s->routes == s->room_for_routes) {
        uint32_t n = s->routes ? 2 * s->routes : 64;
        struct route *more = realloc(s->route, n * sizeof *more);
        if (!more) return "out of memory";
        s->route = more;
        s->room_for_routes = n;
    }
    s->route[s->routes++] = (struct route){.line = s->line};
    return NULL;
}

static const char *set(struct settings *s, const char *key, const char *word, int is_number) {
    unsigned at = 0;
    uint32_t value = (uint32_t)strtoul(word, NULL, 10);
    if (is_number && word[0] == '0' && word[1]) return "a leading zero";
    if (s->section == TOP) {
        while (at < NUMBERS && strcmp(numeric[at].key, key)) at++;
        if (at == NUMBERS || !is_number) return "no such key, or a number in quotes";
        if (value < numeric[at].low || value > numeric[at].high) return "out of range";
        if (at == BITS && value != 16 && value != 24) return "bits is 16 or 24";
        s->number[at] = value;
    } else {
        hk_port *port = &s->port[s->ports - (s->section == PORT)];
        struct route *route = &s->route[s->section == ROUTE ? s->routes - 1 : 0];
        uint32_t depth = 0;
        while (at < 3 && strcmp(keys[s->section][at].key, key)) at++;
        int good = at < 3 && is_number == (s->section == ROUTE && at == 2);
        if (good && s->section == PORT) {
            if (at == 0) good = strlen(word) < IFNAMSIZ && strcpy(s->interface[s->ports - 1], word);
            else good = at == 1 ? is_mac(word, port->mac) : is_prefix(word, &port->address, &depth);
            if (at == 2) port->depth = (uint8_t)depth;
        } else if (good) {
            if (at == 2) route->hop.port = value;
            else good = at ? is_mac(word, route->hop.to) : is_prefix(word, &route->address, &route->depth);
        }
        if (!good) return "no such key, or a value in another form";
    }
    if (s->seen >> at & 1) return "the key is here twice";
    s->seen |= 1u << at;
    return NULL;
}

static int is_rest(const char *text) {
    char first[2];
    return sscanf(text, " %1s", first) < 1 || *first == '#';
}

static const char *read_line(struct settings *s, const char *line) {
    char key[16], word[64];
    int end = 0;
    if (is_rest(line)) return NULL;
    if (sscanf(line, " [[%15[a-z]]]%n", key, &end) == 1 && end && is_rest(line + end)) return begin_section(s, key);
    if (sscanf(line, " %15[a-z] = %7[0-9]%n", key, word, &end) == 2 && end && is_rest(line + end))
        return set(s, key, word, 1);
    if (sscanf(line, " %15[a-z] = \"%63[^\"\n]\"%n", key, word, &end) == 2 && end && is_rest(line + end))
        return set(s, key, word, 0);
    return "not a line of settings";
}

static const char *check(struct settings *s) {
    const char *wrong = end_section(s);
    if (wrong) return wrong;
    if (s->number[BUFFERS] < 64 + 3 * s->number[CACHE] / 2) return "buffers is missing, or too small";
    if (!s->ports) return "there is no port";
    for (uint32_t i = 0; i < s->routes; i++)
        if (s->route[i].hop.port >= s->ports) return s->line = s->route[i].line, "there is no such port";
    return NULL;
}

static void tell(const char *name, uint32_t line, const char *what) {
    if (line) fprintf(stderr, "router: %s:%u: %s\n", name, line, what);
    else fprintf(stderr, "router: %s: %s\n", name, what);
}

/* Reads a file. Returns whether all is right; if not, it says what is wrong, and where. */
static int read_settings(const char *name, struct settings *s) {
    char line[256];
    const char *wrong = NULL;
    FILE *file = fopen(name, "r");
    *s = (struct settings){.section = TOP};
    for (int i = 0; i < NUMBERS; i++) s->number[i] = numeric[i].usual;
    while (file && !wrong && fgets(line, sizeof line, file)) {
        s->line++;
        wrong = strchr(line, '\n') || feof(file) ? read_line(s, line) : "a line of more than 254 bytes";
    }
    if (!file || ferror(file)) wrong = strerror(errno);
    else if (!wrong) wrong = check(s);
    if (file) fclose(file);
    if (!wrong) return 1;
    tell(name, s->line, wrong);
    free(s->route);
    return 0;
}

#endif
