//! Sub-accounts: who pays, moves, and the parents on the disk, by the reference, the C port and the proved keeper.

use reference::drive::{Subject, REFERENCE};
use reference::event::{Answer, Request};
use reference::keeper::Keeper;
use reference::linked::c_port::{Lent, C_PORT};
use reference::mend::{self, Change};
use reference::tables::Sizes;

const SIZES: Sizes = Sizes { words: 1, records: 6, frames: 4, slots: 3, pages: 3, accounts: 4, chip: 2 };
/// Each account under the one before it; and a mill, account 1, with two studios.
const CHAIN: [u16; 4] = [0, 0, 1, 2];
const STUDIOS: [u16; 4] = [0, 0, 1, 1];

fn subjects() -> Vec<Subject> {
    vec![
        REFERENCE,
        C_PORT,
        #[cfg(keeper)]
        reference::linked::proved::PROVED,
    ]
}

/// A subject over its own tables.
struct Board {
    subject: Subject,
    keeper: Keeper,
}

impl Board {
    /// Formatted with these parents and restarted; the limits are those.
    fn new(subject: Subject, parents: &[u16], limits: [u32; 4]) -> Board {
        let mut board = Board { subject, keeper: Keeper::lent(SIZES) };
        assert_eq!((subject.format)(&mut board.keeper, parents), Answer::done(0), "{}", subject.name);
        assert_eq!((subject.restart)(&mut board.keeper), Answer::done(0), "{}", subject.name);
        limits.iter().enumerate().for_each(|(account, &pages)| board.limit(account as u32, pages));
        board
    }

    fn ask(&mut self, kind: u32, [first, second, third, fourth]: [u32; 4]) -> u32 {
        let before = self.keeper.clone();
        let answer = (self.subject.apply)(&mut self.keeper, Request { kind, first, second, third, fourth });
        assert!(
            answer.refusal == 0 || (self.keeper == before && answer.result == 0),
            "a refusal changed a table"
        );
        answer.refusal
    }

    fn limit(&mut self, account: u32, pages: u32) {
        assert_eq!(self.ask(0x0F, [account, pages, 0, 0]), 0);
    }

    fn shift(&mut self, giver: u32, taker: u32, pages: u32) -> u32 {
        let sum = |limits: &[u16]| limits.iter().map(|&limit| limit as u32).sum::<u32>();
        let before = sum(&self.keeper.disk.limits);
        let refusal = self.ask(0x11, [giver, taker, pages, 0]);
        assert_eq!(sum(&self.keeper.disk.limits), before, "{}: a move changed the sum", self.subject.name);
        refusal
    }

    /// An active design of an account.
    fn design(mut self, slot: u32, account: u32) -> Board {
        assert_eq!(self.ask(0x01, [slot, account, 7 + slot, 0]), 0);
        assert_eq!(self.ask(0x03, [slot, 0, 0, 0]), 0);
        self
    }

    /// A page is brought in and written, so that it is charged.
    fn weave(&mut self, slot: u32, page: u32) -> u32 {
        assert_eq!(self.ask(0x05, [slot, page, 0, 0]), 0);
        self.ask(0x07, [slot, page, 0, 9])
    }

    fn woven(mut self, slot: u32, pages: u32) -> Board {
        (0..pages).for_each(|page| assert_eq!(self.weave(slot, page), 0, "{}", self.subject.name));
        self
    }

    fn used(&self) -> &[u16] {
        &self.keeper.memory.used
    }

    fn limits(&self) -> &[u16] {
        &self.keeper.disk.limits
    }
}

#[test]
fn passed_up_to_the_first_with_a_limit() {
    for subject in subjects() {
        let board = Board::new(subject, &CHAIN, [2, 0, 0, 0]).design(0, 3).woven(0, 1);
        assert_eq!(board.used(), [1, 0, 0, 0]);
        let board = Board::new(subject, &CHAIN, [2, 0, 1, 0]).design(0, 3).woven(0, 1);
        assert_eq!(board.used(), [0, 0, 1, 0]);
        let board =
            Board::new(subject, &CHAIN, [4, 1, 0, 0]).design(0, 3).woven(0, 1).design(1, 0).woven(1, 1);
        assert_eq!(board.used(), [1, 1, 0, 0]);
        // the payer is full, whoever else has room
        let mut board = Board::new(subject, &CHAIN, [9, 1, 0, 0]).design(0, 3).woven(0, 1);
        assert_eq!(board.weave(0, 1), 18);
    }
}

/// Account 0 pays whatever its limit, so with limit 0 every charge gets 18.
#[test]
fn account_0_has_no_parent() {
    for subject in subjects() {
        for (limits, account) in [([0, 0, 0, 0], 3), ([0, 9, 9, 9], 0)] {
            assert_eq!(Board::new(subject, &CHAIN, limits).design(0, account).weave(0, 0), 18);
        }
        // its own entry is stored as 0, and never looked at
        let mut board = Board::new(subject, &[9, 0, 1, 2], [5; 4]).design(0, 0);
        assert_eq!(board.keeper.disk.parents, [0, 0, 1, 2]);
        board.keeper.disk.parents[0] = 3;
        assert_eq!(board.weave(0, 0), 0);
        assert_eq!((subject.restart)(&mut board.keeper), Answer::done(0));
    }
}

/// A limit or a move to or from 0 changes who pays, and the counts with it; a restart counts the same.
#[test]
fn counted_afresh() {
    for subject in subjects() {
        let mut board = Board::new(subject, &STUDIOS, [4, 3, 2, 0]).design(0, 2).woven(0, 1);
        assert_eq!((board.limits(), board.used()), (&[4, 3, 2, 0][..], &[0, 0, 1, 0][..]));
        assert_eq!(board.shift(2, 1, 2), 0);
        assert_eq!((board.limits(), board.used()), (&[4, 5, 0, 0][..], &[0, 1, 0, 0][..]));
        assert_eq!(board.shift(1, 2, 1), 0);
        assert_eq!((board.limits(), board.used()), (&[4, 4, 1, 0][..], &[0, 0, 1, 0][..]));
        board.limit(2, 0);
        assert_eq!(board.used(), [0, 1, 0, 0]);
        board.limit(1, 0);
        assert_eq!(board.used(), [1, 0, 0, 0]);
        board.limit(2, 1);
        assert_eq!(board.used(), [0, 0, 1, 0]);
        // stored and at rest, the page is counted for the same account by restart
        for (kind, first, second) in [(0x08, 0, 0), (0x0D, 0, 1), (0x0C, 0, 0), (0x0E, 0, 1), (0x04, 0, 0)] {
            assert_eq!(board.ask(kind, [first, second, 0, 0]), 0, "{kind:02X}");
        }
        assert_eq!(board.used(), [0, 0, 1, 0]);
        board.limit(2, 0);
        assert_eq!((subject.restart)(&mut board.keeper), Answer::done(0));
        assert_eq!(board.used(), [1, 0, 0, 0]);
    }
}

#[test]
fn what_25_refuses() {
    for subject in subjects() {
        let board = || Board::new(subject, &STUDIOS, [4, 3, 2, 0]).design(0, 2).woven(0, 1);
        // two studios, a grandparent, an account and itself, 0 and 0; nothing; more than the giver has
        for (giver, taker, pages) in [
            (2, 3, 1),
            (3, 2, 1),
            (0, 2, 1),
            (2, 0, 1),
            (1, 1, 1),
            (0, 0, 1),
            (1, 2, 0),
            (1, 2, 4),
            (3, 1, 1),
            (1, 2, u32::MAX),
        ] {
            assert_eq!(board().shift(giver, taker, pages), 25, "{giver} {taker} {pages}");
        }
        assert_eq!(board().shift(1, 2, 3), 0);
        // the taker would pass 65,535
        for (pages, refusal) in [(1, 0), (2, 25)] {
            let mut board = board();
            board.limit(2, 65_534);
            assert_eq!(board.shift(1, 2, pages), refusal);
        }
        // 3 comes first, and looks at no pages
        for (giver, taker, pages) in [(4, 1, 1), (1, 4, 0), (u32::MAX, 1, u32::MAX)] {
            assert_eq!(board().shift(giver, taker, pages), 3);
        }
    }
}

#[test]
fn what_26_refuses() {
    for subject in subjects() {
        // the giver keeps less than it has used
        let mut board = Board::new(subject, &STUDIOS, [4, 3, 2, 0]).design(0, 2).woven(0, 2);
        assert_eq!(board.shift(2, 1, 1), 26);
        // the taker has less than it has used, though the move makes it better
        let mut board = Board::new(subject, &STUDIOS, [4, 3, 3, 0]).design(0, 2).woven(0, 3);
        board.limit(2, 1);
        assert_eq!((board.shift(1, 2, 1), board.shift(1, 2, 2)), (26, 0));
        // a third account, which pays for the giver's design once the giver is empty
        let mut board =
            Board::new(subject, &CHAIN, [4, 1, 2, 0]).design(0, 1).woven(0, 1).design(1, 2).woven(1, 1);
        assert_eq!(board.shift(2, 3, 2), 26);
        board.limit(1, 2);
        assert_eq!(board.shift(2, 3, 2), 0);
        assert_eq!((board.limits(), board.used()), (&[4, 2, 0, 2][..], &[0, 2, 0, 0][..]));
        // an account over its limit that the move does not change is not asked about
        let mut board = Board::new(subject, &STUDIOS, [4, 3, 3, 0]).design(0, 2).woven(0, 2);
        board.limit(2, 1);
        assert_eq!(board.shift(0, 1, 1), 0);
    }
}

#[test]
fn format_asks_1_then_3() {
    for subject in subjects() {
        let mut keeper = Keeper::lent(SIZES);
        keeper.disk.limits.fill(9);
        let cases: [(&[u16], u32); 7] = [
            (&[0, 0, 1], 1),
            (&[0, 0, 1, 2, 3], 1),
            (&[0, 1, 0], 1),
            (&[0, 0, 2, 0], 3),
            (&[0, 2, 0, 0], 3),
            (&[0, 0, 0, u16::MAX], 3),
            (&[u16::MAX, 0, 1, 2], 0),
        ];
        for (parents, refusal) in cases {
            let before = keeper.clone();
            assert_eq!(
                (subject.format)(&mut keeper, parents),
                Answer::refused(refusal),
                "{}: {parents:?}",
                subject.name
            );
            assert!(refusal == 0 || keeper == before, "a refused format changed a table");
        }
        assert_eq!((keeper.disk.parents, keeper.disk.limits), (vec![0, 0, 1, 2], vec![0; 4]));
    }
}

/// Parents damaged alone: every call that asks 2 answers 2, before and after mending; and 1 for a table of another length.
#[test]
fn a_parent_that_is_not_lower() {
    for subject in subjects() {
        let sound = Board::new(subject, &CHAIN, [3; 4]).design(0, 1).woven(0, 1).keeper;
        for account in 1..4 {
            for parent in [account as u16, account as u16 + 1, u16::MAX] {
                let mut keeper = sound.clone();
                keeper.disk.parents[account] = parent;
                assert_eq!(refusals(&subject, &keeper), [2; 4], "{}", subject.name);
                let (limits, parents) = (keeper.disk.limits.clone(), keeper.disk.parents.clone());
                for mended in all_mended(&keeper) {
                    assert_eq!((&mended.disk.limits, &mended.disk.parents), (&limits, &parents));
                    assert_eq!(refusals(&subject, &mended), [2; 4], "{}", subject.name);
                }
            }
            // another lower one is sound, if it does not change who pays
            let mut keeper = sound.clone();
            keeper.disk.parents[account] = 0;
            assert_eq!(refusals(&subject, &keeper), [0; 4]);
        }
        for parents in [vec![0; 3], vec![0; 5]] {
            let mut keeper = sound.clone();
            keeper.disk.parents = parents;
            assert_eq!(refusals(&subject, &keeper), [1; 4]);
        }
    }
}

/// What restart, an event, a list and a page look answer.
fn refusals(subject: &Subject, keeper: &Keeper) -> [u32; 4] {
    let request = Request { kind: 0x07, third: 0, fourth: 5, ..Request::default() };
    let (mut answers, mut tables) = ([9; 2], keeper.clone());
    (subject.apply_all)(&mut tables, &request.numbers(), &mut answers);
    let restarted = (subject.restart)(&mut keeper.clone()).refusal;
    let applied = (subject.apply)(&mut keeper.clone(), request).refusal;
    [restarted, applied, answers[0], (subject.page_look)(keeper, 0, 0).refusal]
}

/// The tables as each keeper mends them.
fn all_mended(keeper: &Keeper) -> Vec<Keeper> {
    let places = mend::places(&keeper.sizes);
    let mut all = vec![keeper.clone(), keeper.clone()];
    let (one, other) = all.split_at_mut(1);
    let answers = [
        mend::mend(&keeper.sizes, &mut one[0].disk, &mut vec![Change::default(); places]),
        Lent::of(&mut other[0]).mend(&mut vec![Change::default(); places]),
    ];
    assert_eq!(answers, [Answer::done(0); 2]);
    #[cfg(keeper)]
    {
        let mut third = keeper.clone();
        let answer = reference::linked::proved::mend(&mut third, &mut vec![Change::default(); places]);
        assert_eq!(answer, Answer::done(0));
        all.push(third);
    }
    all
}
