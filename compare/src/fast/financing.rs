//! Financing sets.

use super::sums::Sums;
use super::{amounts, check, of_kind, run_end, Outcome, SIGN};

pub fn financing_set(book: &[u32], head: usize, marks: u32, sums: &mut Sums) -> Outcome<usize> {
    check(marks & 0x0FFF_FFF8 == 0 && marks & 6 != 4, 7, head)?;
    if of_kind(book, head + 1, 9).is_none() {
        // A set without a trade adds nothing.
        return Ok(head + 1);
    }
    let agent = marks >> 1 & 1;
    let mut behind = &book[head + 1..];
    let mut day = 0;
    let (mut receivables, mut payables) = (0, 0);
    let (mut own_assets, mut cash_netted) = (0, 0);
    let (mut total_lent, mut total_received, mut by_trade) = (0, 0, 0);
    while let Some((&trade, rest)) = behind.split_first_chunk() {
        if !good_trade(trade, agent, day) {
            break;
        }
        let [word, gross, securities, receivable, payable, lent, received, days] = trade;
        // A new day closes the one before.
        let same_day = u64::from(days == day);
        cash_netted += (1 - same_day) * u64::min(receivables, payables);
        let counts = word & 1;
        receivables = same_day * receivables + u64::from(counts * receivable);
        payables = same_day * payables + u64::from(counts * payable);
        day = days;
        own_assets += u64::from(gross - securities);
        total_lent += u64::from(lent);
        total_received += u64::from(received);
        by_trade += u64::from(lent.saturating_sub(received));
        behind = rest;
    }
    let end = book.len() - behind.len();
    run_end(book, end, 9, |word| {
        trade_fault(book, end, word, agent, day)
    })?;

    let exposure = if marks & 1 != 0 {
        u64::saturating_sub(total_lent, total_received)
    } else {
        by_trade
    };
    sums.own_assets += own_assets;
    sums.cash_netted += cash_netted + u64::min(receivables, payables);
    // To multiply by this mark is slower where no set is an agent's, and hardly
    // faster where half of them are.
    if agent != 0 {
        sums.agent += exposure;
    } else {
        sums.principal += exposure;
    }
    if marks & 4 != 0 {
        sums.agent += total_lent;
    }
    Ok(end)
}

/// None of the causes that a financing trade can be faulty for, in few tests. An
/// agent has nothing of its own, so that 0 is the most that its amounts can be; two
/// that together are within a third need no test of their own.
#[inline(always)]
fn good_trade(trade: [u32; 8], agent: u32, day: u32) -> bool {
    let [word, gross, securities, receivable, payable, lent, received, days] = trade;
    let most = (SIGN - 1) * (1 - agent);
    word >> 1 == 9 << 27
        && (gross | payable) <= most
        && u64::from(securities) + u64::from(receivable) <= u64::from(gross)
        && (lent | received) < SIGN
        && (day..=0xFFFF).contains(&days)
}

/// Why a financing trade is not good.
#[cold]
fn trade_fault(book: &[u32], place: usize, word: u32, agent: u32, day: u32) -> Outcome<()> {
    let &[gross, securities, receivable, payable, lent, received, days] = amounts(book, place)?;
    let own = gross | securities | receivable | payable;
    check(word & 0x0FFF_FFFE == 0, 7, place)?;
    check((own | lent | received) < SIGN && days <= 0xFFFF, 8, place)?;
    check(
        securities + receivable <= gross && agent * own == 0,
        9,
        place,
    )?;
    check(days >= day, 10, place)
}
