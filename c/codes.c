/* The version, and the names and texts of codes. */
#include "hokhtura.h"

#define CODES(X)                                                              \
    X(HK_OK, "done")                                                          \
    X(HK_E_NOROOM, "too little room, or too few words")                       \
    X(HK_E_AGAIN, "other threads came first, or hold the side: call again")   \
    X(HK_E_PENDING, "not finished: an earlier call of another thread, or a reader, isn't done") \
    X(HK_E_OPEN, "the hand has an open span, or an end of that side")         \
    X(HK_E_NOTOPEN, "no open span, or no end, of that side")                  \
    X(HK_E_RING, "no ring of this number")                                    \
    X(HK_E_COUNT, "a count of 0, above the limit, or not that of the span; no such port") \
    X(HK_E_MODE, "the side is not head/tail-sync")                            \
    X(HK_E_NULL, "a null pointer")                                            \
    X(HK_E_KIND, "a handle of another kind, or closed")                       \
    X(HK_E_SHARED, "other handles share it")                                  \
    X(HK_E_MEMORY, "out of memory")                                           \
    X(HK_E_PLAN, "invalid size, mode or depth: no such rings, pool, table, port or window") \
    X(HK_E_WORN, "the positions of the ring are used up")                     \
    X(HK_E_PARTS, "too many handles")                                         \
    X(HK_E_NOTYOURS, "a number that the handle doesn't have, has cached, or given twice") \
    X(HK_E_DEPTH, "a depth that is not 1 to 32")                              \
    X(HK_E_HOP, "no such next hop, or one of 2^24 or more")                   \
    X(HK_E_GROUPS, "more groups than the table may have")                     \
    X(HK_E_NOROUTE, "no such route")                                          \
    X(HK_E_LATE, "the number's turn has passed")                              \
    X(HK_E_EARLY, "the number is a whole window or more ahead")               \
    X(HK_E_DOUBLE, "a word with this number is already waiting")              \
    X(HK_E_NOTHING, "the word whose turn it is hasn't arrived")               \
    X(HK_E_BEGUN, "memory was asked for already, or an allocator is set")

uint32_t hk_version(void) {
    return HK_VERSION;
}

const char *hk_strerror(int64_t code) {
    switch (code > 0 ? 0 : code) {
#define TEXT(name, text) case name: return text;
        CODES(TEXT)
#undef TEXT
    }
    return "no code of hokhtura";
}

const char *hk_code_name(int64_t code) {
    switch (code > 0 ? 0 : code) {
#define NAME(name, text) case name: return #name;
        CODES(NAME)
#undef NAME
    }
    return "no code of hokhtura";
}
