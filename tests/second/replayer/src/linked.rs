//! Set-Stack-Physic, the two-way linked stack: the rows V1 to V8 and W1 to W9 of document 02.

use crate::job::Action;
use crate::machine::{Answer, CELLS, Journal, NONE, Object, Place, Then};
use crate::watch::{CLEARED, Cell, Row, Watch, read, set};

/// Node 0, the bottom. It is nobody's upper, so an upper of 0 is none.
const SENTINEL: u16 = 0;

/// A node's cell is its upper, plus CLEARED once its flag is cleared; so 0 is none and live.
pub struct Linked {
    top: u16,
    cell: [u16; CELLS],
    lower: [u16; CELLS],
}

impl Object for Linked {
    const NAME: &'static str = "linked";

    fn fresh() -> Linked {
        Linked { top: SENTINEL, cell: [NONE; CELLS], lower: [NONE; CELLS] }
    }

    fn begin(action: Action) -> Row {
        match action {
            Action::Put => Row::V1,
            Action::Take => Row::W1,
        }
    }

    #[inline(always)]
    fn act(&mut self, place: &mut Place, step: u16, journal: &mut Journal, watch: &mut impl Watch) -> Then {
        let Place { operation: own, t, n: u, .. } = *place;
        let lower = self.lower[usize::from(t)];
        match place.row {
            Row::V1 => self.read_top(place, Row::V2, watch),
            Row::V2 => either(self.read_upper(place, watch) == NONE, Row::V3, Row::V6),
            Row::V3 => either(self.is_live(t, watch), Row::V4, Row::V7),
            Row::V4 => either(self.link(own, t, step, journal, watch), Row::V5, Row::V1),
            Row::V5 => self.set_top(t, own, Then::End(Answer::Done), watch),
            Row::V6 => self.set_top(t, u, Then::Go(Row::V1), watch),
            Row::V7 => self.unlink(t, lower, Row::V8, watch),
            Row::V8 => self.set_top(t, lower, Then::Go(Row::V1), watch),
            Row::W1 => self.read_top(place, Row::W2, watch),
            Row::W2 => {
                let none = self.read_upper(place, watch) == NONE;
                if none && t == SENTINEL {
                    journal.start[usize::from(own)] = step;
                    return Then::End(Answer::Empty);
                }
                either(none, Row::W3, Row::W8)
            }
            Row::W3 => either(self.is_live(t, watch), Row::W4, Row::W7),
            Row::W4 => either(self.clear(own, t, step, journal, watch), Row::W5, Row::W1),
            Row::W5 => self.unlink(t, lower, Row::W6, watch),
            Row::W6 => self.set_top(t, lower, Then::End(Answer::Item(t)), watch),
            Row::W7 => self.unlink(t, lower, Row::W9, watch),
            Row::W8 => self.set_top(t, u, Then::Go(Row::W1), watch),
            Row::W9 => self.set_top(t, lower, Then::Go(Row::W1), watch),
            _ => unreachable!("a row of another object"),
        }
    }

    /// The live nodes upward from the sentinel; they are listed top first.
    fn left(&self, item: impl FnMut(u16)) {
        let mut nodes = Vec::new();
        let mut node = self.upper(SENTINEL);
        while node != NONE {
            if self.cell[usize::from(node)] & CLEARED == 0 {
                nodes.push(node);
            }
            node = self.upper(node);
        }
        nodes.into_iter().rev().for_each(item);
    }
}

fn either(holds: bool, yes: Row, no: Row) -> Then {
    Then::Go(if holds { yes } else { no })
}

/// The accesses, each of one or more rows.
impl Linked {
    fn upper(&self, node: u16) -> u16 {
        self.cell[usize::from(node)] & !CLEARED
    }

    fn read_top(&self, place: &mut Place, then: Row, watch: &mut impl Watch) -> Then {
        place.t = read(watch, Cell::Top, self.top);
        Then::Go(then)
    }

    fn read_upper(&self, place: &mut Place, watch: &mut impl Watch) -> u16 {
        place.n = read(watch, Cell::Upper(place.t), self.upper(place.t));
        place.n
    }

    fn is_live(&self, t: u16, watch: &mut impl Watch) -> bool {
        read(watch, Cell::Flag(t), self.cell[usize::from(t)] & CLEARED) == 0
    }

    fn set_top(&mut self, t: u16, to: u16, then: Then, watch: &mut impl Watch) -> Then {
        set(watch, Cell::Top, &mut self.top, t, to);
        then
    }

    /// Links the own node above t if t's cell is none and live; gives whether it was.
    fn link(&mut self, own: u16, t: u16, step: u16, journal: &mut Journal, watch: &mut impl Watch) -> bool {
        let linked = set(watch, Cell::Whole(t), &mut self.cell[usize::from(t)], NONE, own);
        if linked {
            self.lower[usize::from(own)] = t;
            journal.change[usize::from(own)] = step;
        }
        linked
    }

    /// Makes the lower's upper none if its cell is t and live.
    fn unlink(&mut self, t: u16, lower: u16, then: Row, watch: &mut impl Watch) -> Then {
        set(watch, Cell::Whole(lower), &mut self.cell[usize::from(lower)], t, NONE);
        Then::Go(then)
    }

    /// Clears t's flag, cleared already or not, if t's upper is none; gives whether it was. The take joins the line of item t, which stands
    /// at the first step that cleared the flag.
    fn clear(&mut self, own: u16, t: u16, step: u16, journal: &mut Journal, watch: &mut impl Watch) -> bool {
        let held = self.cell[usize::from(t)];
        let none = self.upper(t) == NONE;
        watch.access(Cell::Whole(t), held, none.then_some(CLEARED));
        if none {
            self.cell[usize::from(t)] = CLEARED;
            journal.item[usize::from(own)] = t;
            if held != CLEARED {
                journal.taken[usize::from(t)] = step;
            }
        }
        none
    }
}
