/*
 * The filing of a leverage book, its sets, and what the marks of a set lead to, for C. Link with libleverage.a
 * (`rt staticlib leverage`), x86-64.
 *
 * Example (include/example.c is the same, and prints more):
 *
 *     #include <stdio.h>
 *     #include "leverage.h"
 *
 *     int main(void) {
 *         uint32_t book[] = {0x10000000, 0x00000032, 0x00008934, 0x20000000, 0x000003E8, 0x00000014, 0x0000000A, 0xF0000007};
 *         int64_t rows[LEVERAGE_ROWS] = {0};
 *         struct leverage_entry reg[16] = {{0, 0, 0, 0}};
 *         uint64_t a = leverage_file(book, 8, rows, LEVERAGE_ROWS, reg, 16);
 *         if (leverage_number(a) != LEVERAGE_ACCEPTED)
 *             printf("refused %u at %u\n", leverage_number(a), leverage_place(a));
 *         else
 *             printf("verdict %u\n", leverage_verdict(a));
 *         return 0;
 *     }
 */
#ifndef LEVERAGE_H
#define LEVERAGE_H

#include <stddef.h>
#include <stdint.h>

#ifdef __cplusplus
extern "C" {
#endif

/* An entry of the register: a bought protection, and how much of it no cover has drawn yet. */
struct leverage_entry {
    uint32_t entity;
    uint32_t rank; /* larger is more junior */
    uint32_t days;
    uint32_t left;
};

/* The rows that a filing writes; row k of the template is rows[k - 1], in thousandths of the book's unit (row 22 in basis points). */
#define LEVERAGE_ROWS 22

/* The most words that a book may have, and the most entries that a book can use. */
#define LEVERAGE_WORDS 1048576
#define LEVERAGE_ENTRIES 4096

/* Why a book is refused. 1, 2, 3, 16 and 4 come first, in this order; then the first faulty record decides, its causes in the order of their
 * numbers. 15 comes after all of them. */
enum leverage_cause {
    LEVERAGE_ACCEPTED = 0,
    LEVERAGE_ROWS_SHORT = 1,      /* rows shorter than 22 */
    LEVERAGE_BOOK_LONG = 2,       /* book too long */
    LEVERAGE_HEAD = 3,            /* under three words, no good head word or Tier 1 word */
    LEVERAGE_REGISTER_SHORT = 4,  /* register shorter than the head's count b of protections */
    LEVERAGE_KIND = 5,            /* kind not allowed here */
    LEVERAGE_WORDS_SHORT = 6,     /* too few words, or an amount not of kind 0 */
    LEVERAGE_PAYLOAD = 7,         /* payload faulty in its own bits */
    LEVERAGE_AMOUNT = 8,          /* amount faulty by itself, zero cover */
    LEVERAGE_AMOUNTS = 9,         /* amounts against each other, their payload or their set's head */
    LEVERAGE_DAYS_FALL = 10,      /* settlement days fall */
    LEVERAGE_COVER_PLACE = 11,    /* cover's place not below b */
    LEVERAGE_COVER_UNFIT = 12,    /* entity, rank or days unfit */
    LEVERAGE_COVER_BEYOND = 13,   /* cover beyond either amount */
    LEVERAGE_END = 14,            /* no end word, wrong count, words after it */
    LEVERAGE_NO_SET = 15,         /* book accepted: no set of that ordinal (leverage_show), no derivative set of it (leverage_settings) */
    LEVERAGE_DATE = 16,           /* reporting date above 36,524 or no good amount */
    LEVERAGE_BASKET = 17          /* basket: n or m outside 1 to 32, n above m, a grade above 31 */
};

/* What an accepted book comes to. */
enum leverage_outcome {
    LEVERAGE_ENOUGH = 0,      /* Tier 1 is at least 3 per cent of the exposure */
    LEVERAGE_TOO_LITTLE = 1,
    LEVERAGE_NO_EXPOSURE = 2, /* row 21 is 0 */
    LEVERAGE_REFUSED = 3      /* no verdict */
};

/*
 * Files a book.
 *
 * Answers number, verdict and place in one number:
 *     bits 0 to 7     the number: 0 where the book is accepted, otherwise why it is refused
 *     bits 8 to 15    the verdict: 3 where the book is refused
 *     bits 16 to 47   the place: the index of the faulty record's first word (the length, where words run out); 0 for numbers 0 to 4
 *                     and 16
 * The bits above are 0.
 *
 * Accepted: the first 22 rows are written, and entry i below b holds protection i and what is left of it.
 * Refused before the records (1, 2, 3, 16 and 4): rows and register are as they were.
 * Refused in the records (5 to 14 and 17): the rows are as they were, and the first b entries are all zero.
 * Rows from 22 on and entries from b on are never written. What rows and register held before does not matter.
 *
 * The lengths are in elements and of any size. Each pointer is aligned, not null (for length 0 too), and leads to that many initialised
 * elements; no two of the three overlap, and nothing else uses them during the call. Nothing is kept after it. No memory is allocated.
 */
uint64_t leverage_file(const uint32_t *book, size_t book_len, int64_t *rows, size_t rows_len, struct leverage_entry *reg, size_t reg_len);

/* A stretch of the caller's own book: a pointer into it, and how many words from there on. */
struct leverage_stretch {
    const uint32_t *words;
    size_t count;
};

/*
 * Shows a set: the words of the book from the set's head to its last member, its covers and baskets included. Derivative sets (kind 4) and
 * financing sets (kind 8) are counted together from 0, in the order of the book; any ordinal may be asked for.
 *
 * Answers number and place as leverage_file does. There is no verdict: bits 8 to 15 are 3 always, also where the set is shown.
 *
 * Shown (number 0): the stretch is that very part of the book, which neither is copied nor moves; it is good as long as the book is.
 * Refused: number and place of the book's own refusal, or 15 at place 0 where the book is accepted and has no such set. The stretch is empty
 * and stands at the book's first word.
 * In every case the register is left as leverage_file leaves it for that book with 22 rows or more, at 15 as for an accepted book; no rows are
 * lent.
 *
 * Book and register are as for leverage_file. The stretch leads to a struct of its own, apart from both, that holds any good pointer and count
 * before the call: {book, 0} will do.
 *
 *     struct leverage_stretch s = {book, 0};
 *     uint64_t a = leverage_show(book, book_len, 2, reg, reg_len, &s);
 *     if (leverage_number(a) == LEVERAGE_ACCEPTED)
 *         ... s.words[0] is the head of the third set, s.words - book its place ...
 */
uint64_t leverage_show(const uint32_t *book, size_t book_len, size_t ordinal, struct leverage_entry *reg, size_t reg_len, struct leverage_stretch *stretch);

/*
 * Counts the settings of a derivative set: of the 64 ways in which its six marks (bits 0 to 5 of its head) can be set or not, how many lead
 * to each verdict, all else in the book as it stands. The marks that it is filed with are one of them. Sets are counted as for leverage_show,
 * financing sets too; any ordinal may be asked for.
 *
 * Answers number and place as leverage_file does. There is no verdict: bits 8 to 15 are 3 always, also where settings are counted.
 *
 * Counted (number 0): each count is at the number of its verdict, LEVERAGE_ENOUGH, LEVERAGE_TOO_LITTLE or LEVERAGE_NO_EXPOSURE, and they sum to
 * 64.
 * Refused: number and place of the book's own refusal, or 15 at place 0 where the book is accepted and the ordinal names no set or a financing
 * set. All three counts are 0.
 * In every case the register is left as leverage_file leaves it for that book, as it stands, with 22 rows or more, at 15 as for an accepted
 * book; no rows are lent.
 *
 * Book and register are as for leverage_file. The counts lead to three numbers of their own, apart from both; what they held before does not
 * matter, and all three are written.
 *
 *     uint32_t counts[3] = {0};
 *     uint64_t a = leverage_settings(book, book_len, 2, reg, reg_len, counts);
 *     if (leverage_number(a) == LEVERAGE_ACCEPTED)
 *         ... counts[LEVERAGE_TOO_LITTLE] settings of the third set's marks are too little ...
 */
uint64_t leverage_settings(const uint32_t *book, size_t book_len, size_t ordinal, struct leverage_entry *reg, size_t reg_len, uint32_t counts[3]);

/* The parts of an answer. */
static inline uint32_t leverage_number(uint64_t answer) { return (uint32_t)(answer & 0xFF); }
static inline uint32_t leverage_verdict(uint64_t answer) { return (uint32_t)((answer >> 8) & 0xFF); }
static inline uint32_t leverage_place(uint64_t answer) { return (uint32_t)(answer >> 16); }

#ifdef __cplusplus
}
#endif

#endif
