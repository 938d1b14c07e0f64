//! Set-Stack-Logic: the rows P1 to P4 and R1 to R5 of document 01.

use crate::job::Action;
use crate::machine::{Answer, CELLS, Journal, NONE, Object, Place, Then};
use crate::watch::{Cell, Row, Watch, read, set};

/// A stack has no node 0, so a Top or next of 0 is none. A mark is 0 when clear and 1 when raised.
pub struct Stack {
    top: u16,
    next: [u16; CELLS],
    mark: [u16; CELLS],
}

impl Object for Stack {
    const NAME: &'static str = "stack";

    fn fresh() -> Stack {
        Stack { top: NONE, next: [NONE; CELLS], mark: [0; CELLS] }
    }

    fn begin(action: Action) -> Row {
        match action {
            Action::Put => Row::P1,
            Action::Take => Row::R1,
        }
    }

    #[inline(always)]
    fn act(&mut self, place: &mut Place, step: u16, journal: &mut Journal, watch: &mut impl Watch) -> Then {
        let own = place.operation;
        let t = place.t;
        let below = self.next[usize::from(t)];
        Then::Go(match place.row {
            Row::P1 => {
                place.t = read(watch, Cell::Top, self.top);
                if place.t == NONE { Row::P3 } else { Row::P2 }
            }
            Row::P2 => {
                let marked = read(watch, Cell::Mark(t), self.mark[usize::from(t)]);
                if marked == 0 { Row::P3 } else { Row::P4 }
            }
            Row::P3 => {
                if set(watch, Cell::Top, &mut self.top, t, own) {
                    self.next[usize::from(own)] = t;
                    journal.change[usize::from(own)] = step;
                    return Then::End(Answer::Done);
                }
                Row::P1
            }
            Row::P4 => {
                set(watch, Cell::Top, &mut self.top, t, below);
                Row::P1
            }
            Row::R1 => {
                place.t = read(watch, Cell::Top, self.top);
                journal.start[usize::from(own)] = step;
                if place.t == NONE {
                    return Then::End(Answer::Empty);
                }
                Row::R2
            }
            Row::R2 => {
                let marked = read(watch, Cell::Mark(t), self.mark[usize::from(t)]);
                if marked == 0 { Row::R3 } else { Row::R5 }
            }
            Row::R3 => {
                watch.access(Cell::Mark(t), self.mark[usize::from(t)], Some(1));
                self.mark[usize::from(t)] = 1;
                join(journal, own, t);
                Row::R4
            }
            Row::R4 => {
                set(watch, Cell::Top, &mut self.top, t, below);
                return Then::End(Answer::Item(t));
            }
            Row::R5 => {
                set(watch, Cell::Top, &mut self.top, t, below);
                Row::R1
            }
            _ => unreachable!("a row of another object"),
        })
    }

    /// The unmarked nodes from Top down through the nexts.
    fn left(&self, mut item: impl FnMut(u16)) {
        let mut node = self.top;
        while node != NONE {
            if self.mark[usize::from(node)] == 0 {
                item(node);
            }
            node = self.next[usize::from(node)];
        }
    }
}

/// A take joins the line of item t, which stands at the latest of its members' last R1 steps.
fn join(journal: &mut Journal, own: u16, t: u16) {
    let own = usize::from(own);
    journal.item[own] = t;
    let line = &mut journal.taken[usize::from(t)];
    *line = journal.start[own].max(*line);
}
