/* The text and the name of each code, from texts.tsv, of which tools/lib/c_refusals.py makes texts.inc. */
#include "tests.h"

#include <string.h>

static const struct row {
    int64_t code;
    const char *name, *text;
} rows[] = {
#include "texts.inc"
};

enum { ROWS = sizeof rows / sizeof *rows };

static const struct row unknown = {0, "no code of hokhtura", "no code of hokhtura"};

static void check(int64_t code, const struct row *row) {
    IS(strcmp(hk_strerror(code), row->text), 0);
    IS(strcmp(hk_code_name(code), row->name), 0);
    if (hk_failed) printf("texts: %lld is %s: %s\n", (long long)code, hk_code_name(code), hk_strerror(code));
}

int main(void) {
    const struct row *done = NULL;
    for (size_t i = 0; i < ROWS; i++) {
        if (rows[i].code == HK_OK) done = &rows[i];
    }
    IS(done != NULL, 1);
    if (!done) return hk_count_up("texts");
    for (int64_t code = -300; code <= 0; code++) {
        const struct row *row = &unknown;
        for (size_t i = 0; i < ROWS; i++) {
            if (rows[i].code == code) row = &rows[i];
        }
        check(code, row);
    }
    check(1, done), check(HK_MAX_WORDS, done), check(INT64_MAX, done);
    /* Codes whose lower half is that of HK_E_NOROOM, and of 0. */
    check(INT64_MIN, &unknown), check(-1 - ((int64_t)1 << 32), &unknown), check(-((int64_t)1 << 32), &unknown);
    return hk_count_up("texts");
}
