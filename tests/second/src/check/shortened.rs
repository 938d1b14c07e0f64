//! The claim of request 7 on two reports, of an undamaged job and of the same with its schedule cut: "operations that ended in the kept
//! steps have the answers of the undamaged job, though a line may have fewer takers and a stack line an earlier step."

use super::parse::{Effect, Ending, Line, Operation, Report};

/// What cuts did, counted in operations and lines of so many reports.
#[derive(Clone, Copy, Default)]
pub struct Cuts {
    pub reports: usize,
    /// Operations that ended in the kept steps; that ended only behind them; that began only behind them; that were dropped in them.
    pub ended: usize,
    pub opened: usize,
    pub waiting: usize,
    pub dropped: usize,
    /// Lines that lost takers, and stack lines that stand earlier.
    pub fewer: usize,
    pub earlier: usize,
    /// Lines of the undamaged job at a kept step that are gone.
    pub gone: usize,
}

impl Cuts {
    pub fn add(&mut self, other: &Cuts) {
        self.reports += other.reports;
        self.ended += other.ended;
        self.opened += other.opened;
        self.waiting += other.waiting;
        self.dropped += other.dropped;
        self.fewer += other.fewer;
        self.earlier += other.earlier;
        self.gone += other.gone;
    }

    /// Whether all of it was met.
    pub fn all(&self) -> bool {
        let Cuts { reports, ended, opened, waiting, dropped, fewer, earlier, gone } = *self;
        [reports, ended, opened, waiting, dropped, fewer, earlier, gone].iter().all(|&count| count > 0)
    }
}

fn ensure(holds: bool, otherwise: impl FnOnce() -> String) -> Result<(), String> {
    if holds { Ok(()) } else { Err(otherwise()) }
}

/// Whether the report of a job with its first `steps` steps alone is as the claim has it, with what the cut did.
pub fn holds(whole: &Report, cut: &Report, steps: u16) -> Result<Cuts, String> {
    let mut cuts = Cuts { reports: 1, ..Cuts::default() };
    ensure(whole.object == cut.object, || format!("object {}", cut.object))?;
    ensure(whole.operations.len() == cut.operations.len(), || "the number of operation lines".to_string())?;
    for (before, after) in whole.operations.iter().zip(&cut.operations) {
        operation(before, after, steps, &mut cuts)?;
    }
    for line in &cut.lines {
        stays(whole, line, &mut cuts)?;
    }
    for line in &whole.lines {
        is_kept(whole, cut, line, steps)?;
    }
    let at_kept_steps = whole.lines.iter().filter(|line| line.at <= steps);
    cuts.gone = at_kept_steps.filter(|line| same(cut, &line.effect).is_none()).count();
    ensure(cut.lost <= whole.lost && cut.lost.is_some() == whole.lost.is_some(), || format!("lost {:?}", cut.lost))?;
    Ok(cuts)
}

/// One that ended in the kept steps is as it was; another has no last, and its first if that is kept.
fn operation(before: &Operation, after: &Operation, steps: u16, cuts: &mut Cuts) -> Result<(), String> {
    let kept = |step: Option<u16>| step.filter(|&step| step <= steps);
    let ending = match (kept(before.first), kept(before.last)) {
        (None, _) => after.ending == Ending::Waiting,
        (_, None) => after.ending == Ending::Open || after.ending == Ending::Dropped && before.ending == Ending::Dropped,
        _ => after.ending == before.ending,
    };
    let same = (before.number, before.process, before.put) == (after.number, after.process, after.put);
    let steps = after.first == kept(before.first) && after.last == kept(before.last);
    cuts.ended += usize::from(after.last.is_some());
    cuts.opened += usize::from(after.ending == Ending::Open && before.last.is_some());
    cuts.waiting += usize::from(after.first.is_none() && before.first.is_some());
    cuts.dropped += usize::from(after.ending == Ending::Dropped);
    ensure(ending && same && steps, || format!("{before:?} has become {after:?}"))
}

/// The line of a report for the same put, for the takes of the same item or for the same empty take.
fn same<'a>(report: &'a Report, effect: &Effect) -> Option<&'a Line> {
    report.lines.iter().find(|line| match (&line.effect, effect) {
        (Effect::Put(own), Effect::Put(other)) | (Effect::Empty(own), Effect::Empty(other)) => own == other,
        (Effect::Take(item, _), Effect::Take(other, _)) => item == other,
        _ => false,
    })
}

/// Every line that there is was there before: at the same step, or if it is a stack's takes no later, and with no other takers.
fn stays(whole: &Report, line: &Line, cuts: &mut Cuts) -> Result<(), String> {
    let Some(before) = same(whole, &line.effect) else {
        return Err(format!("a line that the undamaged job has not: at {} {:?}", line.at, line.effect));
    };
    let mut may_be_earlier = false;
    if let (Effect::Take(_, all), Effect::Take(_, takers)) = (&before.effect, &line.effect) {
        may_be_earlier = whole.object == "stack";
        cuts.fewer += usize::from(takers.len() < all.len());
        ensure(takers.iter().all(|taker| all.contains(taker)), || format!("other takers at {}: {takers:?}", line.at))?;
    }
    cuts.earlier += usize::from(line.at < before.at);
    let stands = line.at == before.at || may_be_earlier && line.at < before.at;
    ensure(stands, || format!("the line at {} stood at {}", line.at, before.at))
}

/// Of the lines that there were: a put at a kept step stays, an empty take if it ended in them, and a taker that did is still one. Takes of a
/// queue or a linked stack stay if they stand at a kept step, and a queue's takers are those that ended.
fn is_kept(whole: &Report, cut: &Report, line: &Line, steps: u16) -> Result<(), String> {
    let ended = |own: u16| whole.operations[usize::from(own) - 1].last.is_some_and(|last| last <= steps);
    let after = same(cut, &line.effect);
    let kept = match &line.effect {
        Effect::Put(_) => after.is_some() == (line.at <= steps),
        Effect::Empty(own) => after.is_some() == ended(*own),
        Effect::Take(_, all) => {
            let takers: &[u16] = match after.map(|after| &after.effect) {
                Some(Effect::Take(_, takers)) => takers,
                _ => &[],
            };
            let stays = whole.object == "stack" || after.is_some() == (line.at <= steps);
            let may_be_open = whole.object != "queue";
            stays && all.iter().all(|own| if takers.contains(own) { may_be_open || ended(*own) } else { !ended(*own) })
        }
    };
    ensure(kept, || format!("the line at {}, {:?}, has become {:?}", line.at, line.effect, after.map(|after| &after.effect)))
}
