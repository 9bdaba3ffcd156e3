use super::words;
use crate::model::{file, Entry, FIRST_RECORD, ROWS};

#[test]
fn printed_case() {
    let printed = include_str!("../../books/printed.txt");
    let expected = [
        0x1000_0000,
        0x0000_0032,
        35_124,
        0x2000_0000,
        0x0000_03E8,
        0x0000_0014,
        0x0000_000A,
        0xF000_0007,
    ];
    assert_eq!(words(printed).unwrap(), expected);
}

/// The words in the tables of the page on the format, a list for each table.
fn tables(page: &str) -> Vec<Vec<u32>> {
    let mut tables: Vec<Vec<u32>> = Vec::new();
    for line in page.lines() {
        let cells: Vec<&str> = line.split('|').map(str::trim).collect();
        let [_, place, word, ..] = cells[..] else {
            continue;
        };
        let Some(word) = word.strip_prefix("0x") else {
            continue;
        };
        if place == "0" {
            tables.push(Vec::new());
        }
        let table = tables.last_mut().unwrap();
        assert_eq!(place, table.len().to_string());
        table.push(u32::from_str_radix(word, 16).unwrap());
    }
    tables
}

#[test]
fn worked_books_are_those_of_the_page() {
    let page = tables(include_str!("../../../docs/FORMAT.md"));
    let printed = words(include_str!("../../books/printed.txt"));
    let worked = words(include_str!("../../books/worked.txt")).unwrap();
    let mut rows = [0; ROWS];
    file(&worked, &mut rows, &mut [Entry::default()]);
    let shown = [5, 10, 21, 22].map(|row| rows[row - 1]);
    assert_eq!(shown, [8_320, -9_766, 109_554, 1_095]);
    assert_eq!(page, [printed.unwrap(), worked]);
}

#[test]
fn sample_has_every_kind_and_is_accepted() {
    let book = words(include_str!("../../books/sample.txt")).unwrap();
    let mut register = [Entry::default(); 8];
    let answer = file(&book, &mut [0; ROWS], &mut register);
    assert_eq!((answer.number, answer.place), (0, 0));
    for kind in (0..=11).chain([15]) {
        assert!(book.iter().any(|word| word >> 28 == kind));
    }
}

#[test]
fn mistakes_are_named_with_their_line() {
    for (text, message) in [
        ("bond", "line 4: no record is called bond"),
        ("asset red", "line 4: asset has no mark red"),
        ("asset red=1", "line 4: asset has no field red"),
        ("trade class=8", "line 4: 8 is no class"),
        ("repo lent=1 lent=1", "line 4: lent is given twice"),
        ("trade grades=9", "line 4: trade has no field grades"),
        ("basket names=1", "line 4: basket has no field names"),
        ("basket nth=64", "line 4: 64 is no nth"),
        ("basket grades=9 grades=9", "line 4: grades is given twice"),
    ] {
        let text = format!("tier1 1\ndate 2096-03-01\n# x\n{text}");
        assert_eq!(words(&text), Err(message.to_string()));
    }
}

/// The words of one basket in a book that has nothing else.
fn basket_words(fields: &str) -> Result<Vec<u32>, String> {
    let mut book = words(&format!("tier1 1\ndate 2096-03-01\nbasket {fields}"))?;
    book.pop();
    Ok(book.split_off(FIRST_RECORD))
}

#[test]
fn baskets_count_their_grades() {
    let minus = 1 << 27;
    for (fields, expected) in [
        (
            "nth=2 value=-5 notional=1000 grades=9,10,12",
            vec![0xB000_00C2, minus | 5, 1_000, 9, 10, 12],
        ),
        ("grades=31", vec![0xB000_0041, 0, 0, 31]),
        // Faulty baskets can be written as well.
        ("nth=0 notional=7", vec![0xB000_0000, 0, 7]),
        ("nth=63 grades=32,-0", vec![0xB000_00BF, 0, 0, 32, minus]),
    ] {
        assert_eq!(basket_words(fields), Ok(expected));
    }
    let zeros = |count| format!("grades={}", vec!["0"; count].join(","));
    let most = basket_words(&zeros(63)).unwrap();
    assert_eq!((most[0], most.len()), (0xB000_0FC1, 66));
    let message = "line 3: 64 grades are too many to count";
    assert_eq!(basket_words(&zeros(64)), Err(message.to_string()));
}

#[test]
fn mistakes_in_grades_are_named() {
    for grades in ["", ",", "9,", ",9", "9,,10", "9;10", "9,x", "134217728"] {
        let message = format!("line 3: grades={grades} is no list like grades=9,10,12");
        assert_eq!(basket_words(&format!("grades={grades}")), Err(message));
    }
}

#[test]
fn mistakes_in_the_head_are_named() {
    let first = "the first record, and only that, is tier1";
    let second = "the second record, and only that, is date";
    for (text, message) in [
        ("", "no tier1".to_string()),
        ("# x\n\n", "no tier1".to_string()),
        ("tier1 1", "no date".to_string()),
        ("asset", format!("line 1: {first}")),
        ("date 2096-03-01\ntier1 1", format!("line 1: {first}")),
        ("tier1 1\ntier1 1", format!("line 2: {second}")),
        ("tier1 1\n\nasset", format!("line 3: {second}")),
        (
            "tier1 1\ndate 2096-03-01\ntier1 1",
            format!("line 3: {first}"),
        ),
        (
            "tier1 1\ndate 2096-03-01\nasset\ndate 2096-03-01",
            format!("line 4: {second}"),
        ),
        ("tier1 x", "line 1: x is no amount below 2^27".to_string()),
        ("tier1", "line 1: tier1 has one value".to_string()),
        ("tier1 1 2", "line 1: tier1 has one value".to_string()),
        ("tier1 1\ndate", "line 2: date has one value".to_string()),
    ] {
        assert_eq!(words(text), Err(message));
    }
}

fn date_word(date: &str) -> Result<u32, String> {
    let book = words(&format!("tier1 1\ndate {date} # x"))?;
    assert_eq!(book.len(), FIRST_RECORD + 1);
    Ok(book[2])
}

#[test]
fn dates_are_days_since_2000() {
    for (date, number) in [
        ("2000-01-01", 0),
        ("2000-02-29", 59),
        ("2096-03-01", 35_124),
        ("2099-12-31", 36_524),
    ] {
        assert_eq!(date_word(date), Ok(number));
    }
}

#[test]
fn mistakes_in_dates_are_named() {
    for date in [
        "2099-02-29",
        "2096-02-30",
        "2096-00-01",
        "2096-13-01",
        "2096-01-00",
    ] {
        assert_eq!(
            date_word(date),
            Err(format!("line 2: the calendar has no {date}"))
        );
    }
    for date in ["1999-12-31", "2100-01-01", "0000-01-01", "9999-12-31"] {
        let message = format!("line 2: {date} is not in 2000-01-01 to 2099-12-31");
        assert_eq!(date_word(date), Err(message));
    }
    for date in [
        "35124",
        "2096-3-1",
        "2096-03",
        "2096/03/01",
        "01-03-2096",
        "2096-03-01-01",
        "+096-03-01",
        "2096-+3-01",
        "-2096-03-01",
        "2096-03-0x",
        "2096-03-",
    ] {
        let message = format!("line 2: {date} is no date like 2096-03-01");
        assert_eq!(date_word(date), Err(message));
    }
}
