/* Marks for ThreadSanitizer, which doesn't see the steps of the proved side that order threads. The marks stand for
 * them: one for each word or number that is passed, and one each for versions, releases and freed handles. What a
 * thread did before it put a word comes before what the thread does that takes it. So a program that uses what it gave
 * away is still found.
 *
 * Built without -fsanitize=thread, nothing of this is left. */
#ifndef HK_MARKS_H
#define HK_MARKS_H 1

#include "hokhtura.h"

#if defined(__SANITIZE_THREAD__)
#define HK_MARKS 1
#elif defined(__has_feature)
#if __has_feature(thread_sanitizer)
#define HK_MARKS 1
#endif
#endif

/* What is passed otherwise than by a word: a version of a forwarding table, one that a reader lets go, and the end of a
 * handle. They are of all tables and handles together, so a race may be missed here, and none is made up. */
enum hk_mark { HK_MARK_PUBLISH, HK_MARK_LET_GO, HK_MARK_END, HK_MARK_WORDS };

#ifdef HK_MARKS

#include <pthread.h>

void __tsan_acquire(void *at);
void __tsan_release(void *at);

/* Two words may have the same place here: then a race may be missed, and none is made up. */
enum { HK_PLACES = 1 << 14 };
static char hk_places[HK_PLACES + HK_MARK_WORDS];

static inline void *hk_place(uint64_t word) {
    return &hk_places[HK_MARK_WORDS + (word * 0x9e3779b97f4a7c15u >> 50)];
}

static inline void gives(enum hk_mark mark) {
    __tsan_release(&hk_places[mark]);
}

static inline void gets(enum hk_mark mark) {
    __tsan_acquire(&hk_places[mark]);
}

/* A split passes on a hand, and its memory, that another thread's split may have made. Here they are made one at a
 * time, so that their order is seen. */
static pthread_mutex_t hk_splits = PTHREAD_MUTEX_INITIALIZER;

static inline void begins_split(void) {
    (void)pthread_mutex_lock(&hk_splits);
}

static inline void ends_split(void) {
    (void)pthread_mutex_unlock(&hk_splits);
}

static inline void give_word(uint64_t word) {
    __tsan_release(hk_place(word));
}

static inline void get_word(uint64_t word) {
    __tsan_acquire(hk_place(word));
}

#else

static inline void begins_split(void) {}

static inline void ends_split(void) {}

static inline void gives(enum hk_mark mark) {
    (void)mark;
}

static inline void gets(enum hk_mark mark) {
    (void)mark;
}

static inline void give_word(uint64_t word) {
    (void)word;
}

static inline void get_word(uint64_t word) {
    (void)word;
}

#endif

/* Whether there is anything to mark: otherwise no array is read. */
static inline size_t marked(const void *array, int64_t n, int64_t most) {
#ifdef HK_MARKS
    return array && n > 0 && n <= most ? (size_t)n : 0;
#else
    (void)array, (void)n, (void)most;
    return 0;
#endif
}

/* Before a call that puts these words. */
static inline void give_words(const uint64_t *words, size_t n) {
    size_t count = marked(words, n > HK_MAX_WORDS_MULTI ? 0 : (int64_t)n, HK_MAX_WORDS_MULTI);
    for (size_t i = 0; i < count; i++) give_word(words[i]);
}

/* After a call that takes at most n words returned a code, which it returns. The words of a pending take are there, and
 * how many they are isn't known before it is finished: so all places count. */
static inline int64_t got_words(const uint64_t *words, size_t n, int64_t code) {
    size_t count = marked(words, code == HK_E_PENDING ? (int64_t)n : code, HK_MAX_WORDS_MULTI);
    for (size_t i = 0; i < count; i++) get_word(words[i]);
    return code;
}

static inline void give_numbers(const uint32_t *numbers, size_t n) {
    size_t count = marked(numbers, n > HK_MAX_NUMBERS ? 0 : (int64_t)n, HK_MAX_NUMBERS);
    for (size_t i = 0; i < count; i++) give_word(numbers[i]);
}

static inline int64_t got_numbers(const uint32_t *numbers, int64_t code) {
    size_t count = marked(numbers, code, HK_MAX_NUMBERS);
    for (size_t i = 0; i < count; i++) get_word(numbers[i]);
    return code;
}

/* After a call returned a code, which it returns: it saw what others gave by this mark, if it needn't wait for them. */
static inline int64_t saw(enum hk_mark mark, int64_t code) {
    if (code != HK_E_PENDING && code != HK_E_SHARED) gets(mark);
    return code;
}

#endif
