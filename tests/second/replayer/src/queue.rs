//! Set-Queue: the rows Q1 to Q5 and T1 to T5 of document 01.

use crate::job::Action;
use crate::machine::{Answer, CELLS, Journal, NONE, Object, Place, Then};
use crate::watch::{Cell, Row, Watch, read, set};

/// Node 0 is the sentinel, to which no next ever leads, so a next of 0 is none.
pub struct Queue {
    head: u16,
    tail: u16,
    next: [u16; CELLS],
    /// The returns to Q1 or T1 so far.
    lost: u16,
}

impl Object for Queue {
    const NAME: &'static str = "queue";

    fn fresh() -> Queue {
        Queue { head: 0, tail: 0, next: [NONE; CELLS], lost: 0 }
    }

    fn begin(action: Action) -> Row {
        match action {
            Action::Put => Row::Q1,
            Action::Take => Row::T1,
        }
    }

    #[inline(always)]
    fn act(&mut self, place: &mut Place, step: u16, journal: &mut Journal, watch: &mut impl Watch) -> Then {
        let own = place.operation;
        let Place { h, t, n, .. } = *place;
        Then::Go(match place.row {
            Row::Q1 => {
                place.t = read(watch, Cell::Tail, self.tail);
                Row::Q2
            }
            Row::Q2 => {
                place.n = read(watch, Cell::Next(t), self.next[usize::from(t)]);
                if place.n == NONE { Row::Q3 } else { Row::Q5 }
            }
            Row::Q3 => {
                if set(watch, Cell::Next(t), &mut self.next[usize::from(t)], NONE, own) {
                    journal.change[usize::from(own)] = step;
                    Row::Q4
                } else {
                    self.back_to(Row::Q1)
                }
            }
            Row::Q4 => {
                set(watch, Cell::Tail, &mut self.tail, t, own);
                return Then::End(Answer::Done);
            }
            Row::Q5 => {
                set(watch, Cell::Tail, &mut self.tail, t, n);
                self.back_to(Row::Q1)
            }
            Row::T1 => {
                place.h = read(watch, Cell::Head, self.head);
                journal.start[usize::from(own)] = step;
                Row::T2
            }
            Row::T2 => {
                place.t = read(watch, Cell::Tail, self.tail);
                Row::T3
            }
            Row::T3 => {
                place.n = read(watch, Cell::Next(h), self.next[usize::from(h)]);
                match (h == t, place.n == NONE) {
                    (true, true) => return Then::End(Answer::Empty),
                    (true, false) => Row::T4,
                    (false, _) => Row::T5,
                }
            }
            Row::T4 => {
                set(watch, Cell::Tail, &mut self.tail, t, n);
                self.back_to(Row::T1)
            }
            Row::T5 => {
                let changed = set(watch, Cell::Head, &mut self.head, h, n);
                let taken = &mut journal.taken[usize::from(n)];
                if changed && *taken == 0 {
                    *taken = step;
                }
                journal.item[usize::from(own)] = n;
                return Then::End(Answer::Item(n));
            }
            _ => unreachable!("a row of another object"),
        })
    }

    fn lost(&self) -> Option<u16> {
        Some(self.lost)
    }

    /// The nodes linked behind Head, in link order.
    fn left(&self, mut item: impl FnMut(u16)) {
        let mut node = self.next[usize::from(self.head)];
        while node != NONE {
            item(node);
            node = self.next[usize::from(node)];
        }
    }
}

impl Queue {
    /// An operation goes back to its first row: a lost round.
    fn back_to(&mut self, first: Row) -> Row {
        self.lost += 1;
        first
    }
}
