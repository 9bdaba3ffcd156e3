//! Each refusal with its place.

use super::*;

#[test]
fn refused_1_rows_too_short() {
    let answer = file(&[], &mut [0; ROWS - 1], &mut []);
    assert_eq!((answer.number, answer.place), (1, 0));
}

#[test]
fn refused_2_book_too_long() {
    refused(&vec![0x1000_0000; LONGEST_BOOK + 1], 2, 0);
    refused(&vec![0; LONGEST_BOOK], 3, 0);
}

#[test]
fn refused_3_no_head() {
    refused(&[], 3, 0);
    refused(&[word(1, 0)], 3, 0);
    // Read as 0 the missing date would be a good one.
    refused(&[word(1, 0), 0], 3, 0);
    for (head, tier1) in [
        (word(2, 0), 0),
        (word(1, 4_097), 0),
        (word(1, 0), MINUS),
        (word(1, 0), word(15, 1)),
    ] {
        refused(&[head, tier1, SAMPLE_DATE], 3, 0);
        // A faulty date as well, which comes after it.
        refused(&[head, tier1, LAST_DATE + 1], 3, 0);
    }
}

const FAULTY_DATES: [u32; 8] = [
    1 << 28,
    2 << 28 | SAMPLE_DATE,
    15 << 28 | 3,
    MINUS,
    MINUS | 1,
    MINUS | SAMPLE_DATE,
    LAST_DATE + 1,
    MINUS - 1,
];

#[test]
fn refused_16_date_faulty() {
    for date in FAULTY_DATES {
        refused(&Book::dated(0, 0, date).end(), 16, 0);
        // The protection is missing too, and the register stays all the same.
        refused(&Book::dated(1, 0, date).0, 16, 0);
    }
    for date in [0, LAST_DATE] {
        Book::dated(0, 0, date).rows();
    }
}

#[test]
fn refused_16_after_1_to_3_and_before_4() {
    for date in FAULTY_DATES {
        let mut book = Book::dated(3, 0, date).0;
        let mut rows = [7; ROWS];
        let mut register = [DIRT; 2];
        let short = file(&book, &mut rows[1..], &mut register);
        assert_eq!((short.number, short.place), (1, 0));
        let faulty = file(&book, &mut rows, &mut register);
        assert_eq!((faulty.number, faulty.place), (16, 0));
        assert_eq!((rows, register), ([7; ROWS], [DIRT; 2]));
        book.resize(LONGEST_BOOK + 1, 0);
        refused(&book, 2, 0);
    }
}

#[test]
fn refused_4_register_too_short() {
    let mut register = [DIRT; 2];
    let book = Book::new(3, 0).0;
    let answer = file(&book, &mut [0; ROWS], &mut register);
    assert_eq!((answer.number, answer.place), (4, 0));
    assert_eq!(register, [DIRT; 2]);
}

#[test]
fn refused_5_kind_not_allowed() {
    refused(&Book::new(1, 0).end(), 5, FIRST_RECORD);
    let with_asset = || Book::new(0, 0).add(2, 0, &[1, 0, 0]);
    for kind in [0, 1, 3, 5, 6, 7, 9, 11, 12, 13, 14] {
        refused(&with_asset().add(kind, 0, &[]).end(), 5, SECOND_RECORD);
    }
    let in_set = Book::new(0, 0).add(4, 0, &[0, 0, 0]);
    refused(&in_set.add(9, 0, &[0; 7]).end(), 5, SECOND_RECORD);
    let after_trade = Book::new(0, 0).add(4, 0, &[0, 0, 0]).trade(0, 0, 0, 0);
    refused(&after_trade.add(7, 0, &[1]).end(), 5, SECOND_RECORD + 5);
}

#[test]
fn refused_6_amount_missing() {
    refused(&Book::new(0, 0).add(2, 0, &[1, 0]).end(), 6, FIRST_RECORD);
    refused(&Book::new(0, 0).add(10, 0, &[]).0, 6, FIRST_RECORD);
    // The payload is faulty too, but a missing amount comes first.
    refused(&Book::new(0, 0).add(10, 1 << 20, &[]).0, 6, FIRST_RECORD);
}

#[test]
fn refused_7_payload_faulty() {
    let trades = [
        7 | 1 << 3,
        0,
        5 | 2 << 3,
        1 << 3 | 1 << 12,
        1 << 3 | 1 << 13,
    ];
    for payload in trades {
        let book = Book::new(0, 0).add(4, 0, &[0, 0, 0]);
        refused(&book.add(5, payload, &[0; 4]).end(), 7, SECOND_RECORD);
    }
    for (kind, payload, amounts) in [(2, 2, 3), (4, 64, 3), (8, 4, 0), (8, 8, 0), (10, 256, 1)] {
        let book = Book::new(0, 0).add(kind, payload, &[0; 3][..amounts]);
        refused(&book.end(), 7, FIRST_RECORD);
    }
    for payload in [11, 12 << 4] {
        refused(
            &Book::new(0, 0).add(10, payload, &[0]).end(),
            7,
            FIRST_RECORD,
        );
    }
    refused(
        &Book::new(1, 0).add(3, 1 << 20, &[0; 3]).end(),
        7,
        FIRST_RECORD,
    );
}

#[test]
fn refused_8_amount_faulty() {
    refused(
        &Book::new(0, 0).add(2, 0, &[-1, 0, 0]).end(),
        8,
        FIRST_RECORD,
    );
    let mut minus_zero = Book::new(0, 0).add(10, 0, &[0]);
    minus_zero.0[FIRST_RECORD + 1] = MINUS;
    refused(&minus_zero.end(), 8, FIRST_RECORD);
    refused(&covered(0, 65_536, &[]).end(), 8, CREDIT);
    refused(&covered(0, 0, &[0]).end(), 8, COVER);
}

#[test]
fn refused_9_amounts_disagree() {
    refused(
        &Book::new(0, 0).add(2, 0, &[5, 3, 3]).end(),
        9,
        FIRST_RECORD,
    );
    refused(
        &Book::new(0, 0).add(2, 1, &[5, 3, 3]).end(),
        9,
        FIRST_RECORD,
    );
    refused(
        &Book::new(1, 0).add(3, 0, &[5, 6, 0]).end(),
        9,
        FIRST_RECORD,
    );
    let in_set = || Book::new(0, 0).add(4, 0, &[0, 0, 0]);
    refused(&in_set().add(5, 8, &[0, 0, 9, 8]).end(), 9, SECOND_RECORD);
    refused(
        &in_set().add(5, 8 | RESETS, &[0, 0, 9, 10]).end(),
        9,
        SECOND_RECORD,
    );
    refused(
        &in_set().add(6, 0, &[0, 1, 2, 0, 0]).end(),
        9,
        SECOND_RECORD,
    );
    let financing = |marks| Book::new(0, 0).add(8, marks, &[]);
    let beyond = [5, 3, 3, 0, 0, 0, 0];
    refused(&financing(0).add(9, 0, &beyond).end(), 9, FIRST_RECORD + 1);
    let own_cash = [0, 0, 0, 1, 0, 0, 0];
    refused(
        &financing(2).add(9, 0, &own_cash).end(),
        9,
        FIRST_RECORD + 1,
    );
}

#[test]
fn refused_10_days_fall() {
    let book = Book::new(0, 0).add(8, 0, &[]);
    let book = book.add(9, 0, &[0, 0, 0, 0, 0, 0, 5]);
    let next_set = book.add(8, 0, &[]).add(9, 0, &[0, 0, 0, 0, 0, 0, 4]);
    let book = next_set.add(9, 0, &[0, 0, 0, 0, 0, 0, 3]);
    refused(&book.end(), 10, FIRST_RECORD + 18);
}

#[test]
fn refused_11_no_such_protection() {
    refused(&covered(0, 0, &[1]).add(7, 1, &[1]).end(), 11, COVER + 2);
}

#[test]
fn refused_12_protection_unfit() {
    refused(&covered(0, 401, &[1]).end(), 12, COVER);
    refused(&covered(3, 0, &[1]).end(), 12, COVER);
    let mut other_entity = covered(0, 0, &[1]);
    other_entity.0[CREDIT] = word(6, 6);
    refused(&other_entity.end(), 12, COVER);
}

#[test]
fn refused_13_cover_too_large() {
    refused(&covered(0, 0, &[15, 6]).end(), 13, COVER + 2);
    let second = covered(0, 0, &[20]).add(6, 5, &[0, 50, 0, 0, 0]);
    refused(&second.add(7, 0, &[11]).end(), 13, COVER + 8);
}

#[test]
fn refused_14_end_faulty() {
    for protections in [0, 1] {
        refused(&Book::new(protections, 0).0, 14, FIRST_RECORD);
    }
    for counted in [FIRST_RECORD - 1, FIRST_RECORD + 1] {
        let book = Book::new(0, 0).add(15, counted as u32, &[]);
        refused(&book.0, 14, FIRST_RECORD);
    }
    let followed = Book::new(0, 0).add(15, FIRST_RECORD as u32, &[0]);
    refused(&followed.0, 14, FIRST_RECORD);
    refused(&Book::new(0, 0).add(4, 0, &[0, 0, 0]).0, 14, SECOND_RECORD);
}
