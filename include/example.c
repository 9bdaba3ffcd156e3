/* Files the printed case, then the same book without its end word; then shows the sets of a book, two of which have equal words; then counts
 * what the settings of a set's marks lead to.
 * gcc -Iinclude include/example.c target/staticlib/libleverage.a -o example */
#include <inttypes.h>
#include <stdio.h>

#include "leverage.h"

static uint64_t filed(const uint32_t *book, size_t len) {
    int64_t rows[LEVERAGE_ROWS] = {0};
    struct leverage_entry reg[16] = {{0, 0, 0, 0}};
    uint64_t a = leverage_file(book, len, rows, LEVERAGE_ROWS, reg, 16);
    printf("number %" PRIu32 " place %" PRIu32 " verdict %" PRIu32 " row 21 %" PRId64 "\n",
           leverage_number(a), leverage_place(a), leverage_verdict(a), rows[20]);
    return a;
}

/* Shows a set: how many words from which place of the book on, 0 from 0 on where it is refused. */
static int shown(const uint32_t *book, size_t len, size_t ordinal, uint32_t number, size_t place, size_t count) {
    struct leverage_stretch s = {book, 0};
    struct leverage_entry reg[16] = {{0, 0, 0, 0}};
    uint64_t a = leverage_show(book, len, ordinal, reg, 16, &s);
    printf("set %zu: number %" PRIu32 ", %zu words from %td on\n", ordinal, leverage_number(a), s.count, s.words - book);
    return leverage_number(a) == number && leverage_place(a) == 0 && leverage_verdict(a) == LEVERAGE_REFUSED
        && s.words == book + place && s.count == count;
}

/* Counts the settings of a set by verdict: all 0 where it is refused, whatever the counts held. */
static int counted(const uint32_t *book, size_t len, size_t ordinal, uint32_t number, uint32_t enough, uint32_t too_little, uint32_t no_exposure) {
    uint32_t counts[3] = {7, 8, 9};
    struct leverage_entry reg[16] = {{0, 0, 0, 0}};
    uint64_t a = leverage_settings(book, len, ordinal, reg, 16, counts);
    printf("set %zu: number %" PRIu32 ", settings %" PRIu32 " enough, %" PRIu32 " too little, %" PRIu32 " without exposure\n", ordinal,
           leverage_number(a), counts[LEVERAGE_ENOUGH], counts[LEVERAGE_TOO_LITTLE], counts[LEVERAGE_NO_EXPOSURE]);
    return leverage_number(a) == number && leverage_place(a) == 0 && leverage_verdict(a) == LEVERAGE_REFUSED
        && counts[LEVERAGE_ENOUGH] == enough && counts[LEVERAGE_TOO_LITTLE] == too_little && counts[LEVERAGE_NO_EXPOSURE] == no_exposure;
}

int main(void) {
    static const uint32_t book[] = {0x10000000, 0x00000032, 0x00008934, 0x20000000, 0x000003E8, 0x00000014, 0x0000000A, 0xF0000007};
    uint64_t whole = filed(book, 8);
    uint64_t cut = filed(book, 7);
    int filings = leverage_number(whole) == LEVERAGE_ACCEPTED && leverage_number(cut) == LEVERAGE_END;
    /* two empty financing sets, an asset, an empty derivative set, the end */
    static const uint32_t sets[] = {0x10000000, 50, 35124, 0x80000000, 0x80000000, 0x20000000, 1000, 20, 10, 0x40000000, 0, 0, 0, 0xF000000D};
    int shows = shown(sets, 14, 0, LEVERAGE_ACCEPTED, 3, 1) && shown(sets, 14, 1, LEVERAGE_ACCEPTED, 4, 1)
        && shown(sets, 14, 2, LEVERAGE_ACCEPTED, 9, 4) && shown(sets, 14, 3, LEVERAGE_NO_SET, 0, 0)
        && shown(sets, 14, SIZE_MAX, LEVERAGE_NO_SET, 0, 0) && shown(sets, 2, 0, LEVERAGE_HEAD, 0, 0);
    /* Tier 1 of 1; an empty financing set; a derivative set with margin received 5 and two currency trades of 1,000 at 365 days, values 30 and
     * -10; the end. Without netting the set has 30 and an add-on of 20, together 50; with it 20 and 20 * (2 * 30 + 3 * 20) / (5 * 30) = 16,
     * together 36; with margin 5 less, 31; an exempt leg is out. 3 per cent of these are 1.5, 1.08 and 0.93: of the 32 settings without an
     * exempt leg only the one with netting and all four margin marks is enough, and the other 32 leave no exposure. */
    static const uint32_t marks[] = {0x10000000, 1, 35124, 0x80000000, 0x40000000, 5, 0, 0, 0x50000009, 30, 1000, 365, 365,
                                     0x50000009, 0x0800000A, 1000, 365, 365, 0xF0000012};
    int counts = counted(marks, 19, 1, LEVERAGE_ACCEPTED, 1, 31, 32) && counted(marks, 19, 0, LEVERAGE_NO_SET, 0, 0, 0)
        && counted(marks, 19, 2, LEVERAGE_NO_SET, 0, 0, 0) && counted(marks, 19, SIZE_MAX, LEVERAGE_NO_SET, 0, 0, 0)
        && counted(marks, 2, 1, LEVERAGE_HEAD, 0, 0, 0);
    return filings && shows && counts ? 0 : 1;
}
