//! The pass over a book: record after record, with the register at hand.

use std::ops::Range;

use super::basket::Basket;
use super::factors::Bands;
use super::head::Head;
use super::records::{
    Asset, Cover, DerivativeHead, FinancingHead, FinancingTrade, OffBalance, Protection, Record,
    Trade, WrittenCredit,
};
use super::refusal::{Cause, Refusal};
use super::template::Template;
use super::weighing::{DerivativeTally, FinancingTally};
use super::words::{kind, kinds, Payload};
use super::{Entry, FIRST_RECORD};

pub struct Audit<'a> {
    book: &'a [u32],
    /// Where the next record begins.
    next: usize,
    /// Where the record in hand begins: the place of any fault found in it.
    in_hand: usize,
    /// One entry per protection, as far as they have been read.
    register: &'a mut [Entry],
    bands: Bands,
    template: Template,
}

impl<'a> Audit<'a> {
    pub fn new(book: &'a [u32], head: &Head, register: &'a mut [Entry]) -> Self {
        Audit {
            book,
            next: FIRST_RECORD,
            in_hand: 0,
            register,
            bands: head.bands,
            template: Template::new(head.tier1),
        }
    }

    /// Gives word of the stretch of each set, from its head to its last member,
    /// once the audit has moved behind it.
    pub fn run(mut self, passed_set: &mut dyn FnMut(Range<usize>)) -> Result<Template, Refusal> {
        self.protections()?;
        self.items(passed_set)?;
        self.template.close();
        Ok(self.template)
    }

    /// The kind of the next word, none at the end of the book.
    fn next_kind(&self) -> Option<u32> {
        self.book.get(self.next).map(|&word| kind(word))
    }

    /// The same where a record is due: words running out are a missing end.
    fn due_kind(&mut self) -> Result<u32, Refusal> {
        self.in_hand = self.next;
        self.next_kind().ok_or(self.refuse(Cause::EndFaulty))
    }

    fn refuse(&self, cause: Cause) -> Refusal {
        Refusal {
            cause,
            place: self.in_hand,
        }
    }

    /// Judges the record in hand further than it could be by itself.
    fn require(&self, cause: Cause, condition: bool) -> Result<(), Refusal> {
        cause.unless(condition).map_err(|cause| self.refuse(cause))
    }

    /// Reads the record that begins here and moves behind it.
    fn record<const AMOUNTS: usize, R: Record<AMOUNTS>>(&mut self) -> Result<R, Refusal> {
        self.in_hand = self.next;
        let (first, rest) = self.book[self.in_hand..]
            .split_first()
            .ok_or(self.refuse(Cause::EndFaulty))?;
        let amounts = *rest
            .first_chunk::<AMOUNTS>()
            .ok_or(self.refuse(Cause::AmountMissing))?;
        self.pass(&amounts)?;
        R::read(Payload::of(*first), amounts).map_err(|cause| self.refuse(cause))
    }

    /// The same for a basket, whose word tells how many amounts follow.
    fn basket(&mut self) -> Result<Basket, Refusal> {
        self.in_hand = self.next;
        let payload = Payload::of(self.book[self.in_hand]);
        let amounts = self.book[self.in_hand + 1..]
            .get(..Basket::amounts(payload))
            .ok_or(self.refuse(Cause::AmountMissing))?;
        self.pass(amounts)?;
        Basket::read(payload, amounts).map_err(|cause| self.refuse(cause))
    }

    /// Moves behind the record in hand, whose amounts must be of kind 0.
    fn pass(&mut self, amounts: &[u32]) -> Result<(), Refusal> {
        let all_amounts = amounts.iter().all(|&word| kind(word) == kinds::AMOUNT);
        self.require(Cause::AmountMissing, all_amounts)?;
        self.next += 1 + amounts.len();
        Ok(())
    }

    fn protections(&mut self) -> Result<(), Refusal> {
        for index in 0..self.register.len() {
            let kind = self.due_kind()?;
            self.require(Cause::KindNotAllowed, kind == kinds::PROTECTION)?;
            let protection: Protection = self.record()?;
            self.register[index] = Entry {
                entity: protection.entity,
                rank: protection.rank,
                days: word_sized(protection.days),
                left: word_sized(protection.available),
            };
        }
        Ok(())
    }

    fn items(&mut self, passed_set: &mut dyn FnMut(Range<usize>)) -> Result<(), Refusal> {
        loop {
            match self.due_kind()? {
                kinds::ASSET => self.asset()?,
                kinds::DERIVATIVE_SET => passed_set(self.derivative_set()?),
                kinds::FINANCING_SET => passed_set(self.financing_set()?),
                kinds::OFF_BALANCE => self.off_balance()?,
                kinds::END => return self.end(),
                _ => return Err(self.refuse(Cause::KindNotAllowed)),
            }
        }
    }

    fn asset(&mut self) -> Result<(), Refusal> {
        let asset: Asset = self.record()?;
        self.template.asset(&asset);
        Ok(())
    }

    /// A set runs until a word that is none of its members; that word is
    /// judged as an item by the caller. Returns the stretch that was passed.
    fn derivative_set(&mut self) -> Result<Range<usize>, Refusal> {
        let begin = self.next;
        let head: DerivativeHead = self.record()?;
        let mut tally = DerivativeTally::default();
        loop {
            match self.next_kind() {
                Some(kinds::TRADE) => {
                    let trade: Trade = self.record()?;
                    tally.trade(&trade, &self.bands);
                }
                Some(kinds::BASKET) => {
                    let basket = self.basket()?;
                    tally.basket(&basket);
                }
                Some(kinds::WRITTEN_CREDIT) => {
                    let credit: WrittenCredit = self.record()?;
                    let covered = self.covers(&credit)?;
                    self.template.written(&credit);
                    tally.written(&credit, covered);
                }
                _ => break,
            }
        }
        self.template.derivatives(&head, &tally.weigh(&head));
        Ok(begin..self.next)
    }

    /// Reads the covers behind a written credit and returns their sum.
    fn covers(&mut self, credit: &WrittenCredit) -> Result<i64, Refusal> {
        let whole = credit.notional - credit.loss;
        let mut open = whole;
        while self.next_kind() == Some(kinds::COVER) {
            let cover: Cover = self.record()?;
            let Some(&entry) = self.register.get(cover.protection) else {
                return Err(self.refuse(Cause::NoSuchProtection));
            };
            let fit = entry.entity == credit.entity
                && entry.rank >= credit.rank
                && i64::from(entry.days) >= credit.days;
            self.require(Cause::ProtectionUnfit, fit)?;
            let left = i64::from(entry.left) - cover.amount;
            self.require(Cause::CoverTooLarge, left >= 0 && cover.amount <= open)?;

            self.register[cover.protection].left = word_sized(left);
            open -= cover.amount;
            self.template.cover(cover.amount);
        }
        Ok(whole - open)
    }

    fn financing_set(&mut self) -> Result<Range<usize>, Refusal> {
        let begin = self.next;
        let head: FinancingHead = self.record()?;
        let mut tally = FinancingTally::default();
        let mut days_before = 0;
        while self.next_kind() == Some(kinds::FINANCING_TRADE) {
            let trade: FinancingTrade = self.record()?;
            self.require(Cause::AmountsDisagree, trade.fits(&head))?;
            self.require(Cause::DaysFall, trade.days >= days_before)?;
            days_before = trade.days;
            tally.trade(&trade);
        }
        self.template.financing(&head, &tally.weigh(&head));
        Ok(begin..self.next)
    }

    fn off_balance(&mut self) -> Result<(), Refusal> {
        let item: OffBalance = self.record()?;
        self.template.off_balance(&item);
        Ok(())
    }

    /// The end word counts the words before it, and is the last.
    fn end(&mut self) -> Result<(), Refusal> {
        let counted = Payload::of(self.book[self.in_hand]).value() as usize;
        let last = self.in_hand + 1 == self.book.len();
        self.require(Cause::EndFaulty, last && counted == self.in_hand)
    }
}

/// Amounts and days that were read from a word fit into one again.
fn word_sized(number: i64) -> u32 {
    u32::try_from(number).expect("an amount read from a word, not negative")
}
