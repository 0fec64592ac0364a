//! The chains of a round's outlines, from the library's calls.

use super::batching::Batch;
use super::calling::{Caller, Record};
use super::capacity::Capacity;
use super::gathering::{Asked, Cut, Without};
use super::laying::{is_laid, lay};
use super::rounds::{Lender, Ways};
use super::touching::touch_runs;
use super::Fault;
use std::ops::Range;

/// The making of a round's chains.
pub struct Making<'a, P> {
    pub pieces: &'a P,
    pub cut: Cut<'a>,
    pub ways: Ways<'a>,
}

impl<P: Lender> Making<'_, P> {
    /// Makes the chains of batches, whose sizes and coordinates go into the given slices.
    pub fn batches(
        &self,
        batches: &[Batch],
        sizes: &mut [u32],
        laid: &mut [f64],
    ) -> Result<(), Fault> {
        let (before, after) = batches.split_at(batches.len() / 2);
        match (before, after) {
            ([], []) => Ok(()),
            ([], &[batch, ..]) => self.batch(batch, sizes, laid),
            ([first, ..], [middle, ..]) => {
                let slots = first.slots().start..middle.slots().start;
                let (sizes, other_sizes) = sizes.split_at_mut(slots.len());
                let (laid, other_laid) = laid.split_at_mut(self.numbers(slots));
                self.ways.cores.both_or(
                    || self.batches(before, sizes, laid),
                    || self.batches(after, other_sizes, other_laid),
                )
            }
            // The second half is never the shorter one.
            (_, []) => Ok(()),
        }
    }

    fn batch(&self, batch: Batch, sizes: &mut [u32], laid: &mut [f64]) -> Result<(), Fault> {
        let slots = batch.slots();
        let mut caller = self.ways.callers.this(self.ways.cores);
        if batch.beyond {
            self.lay(&mut caller, slots.start, sizes, laid);
            return Ok(());
        }
        self.asked(&mut caller, Asked { batch, slots }, sizes, laid)
    }

    /// Makes the chains of a batch by one call, or by two of half of them each.
    fn asked(
        &self,
        caller: &mut Caller,
        asked: Asked,
        sizes: &mut [u32],
        laid: &mut [f64],
    ) -> Result<(), Fault> {
        if self.lend(caller, &asked) {
            return self.call(caller, asked.slots, sizes, laid);
        }
        let Asked { batch, slots } = asked;
        if slots.len() == 1 {
            self.lay(caller, slots.start, sizes, laid);
            return Ok(());
        }
        let middle = slots.start + slots.len() as u32 / 2;
        let (before, after) = (slots.start..middle, middle..slots.end);
        let (sizes, other_sizes) = sizes.split_at_mut(before.len());
        let (laid, other_laid) = laid.split_at_mut(self.numbers(before.clone()));
        self.asked(caller, Asked { batch, slots: before }, sizes, laid)?;
        self.asked(caller, Asked { batch, slots: after }, other_sizes, other_laid)
    }

    /// Lends the pieces of a batch, with their neighbours if that is asked for and one call holds
    /// these, and tells whether it holds them at all.
    fn lend(&self, caller: &mut Caller, asked: &Asked) -> bool {
        if self.ways.neighbours {
            let lines = self.ways.capacity.lines;
            match caller.gathered.with_neighbours(self.cut, asked, lines) {
                Ok(()) if self.put(caller) => return true,
                Ok(()) | Err(Without::Many) if asked.slots.len() > 1 => return false,
                Ok(()) | Err(Without::Many | Without::Crowded) => (),
            }
        }
        caller.gathered.alone(self.cut, asked);
        self.put(caller)
    }

    /// Lends what was gathered, and tells whether a call holds it.
    fn put(&self, caller: &mut Caller) -> bool {
        let Capacity { lines, points, .. } = self.ways.capacity;
        caller.lent.clear();
        caller.pieces.clear();
        let gathered = std::mem::take(&mut caller.gathered);
        touch_runs(gathered.own().map(|piece| self.pieces.numbers(piece)));
        gathered.each(|piece, whole| self.pieces.lend(caller, piece, whole));
        for &end in &gathered.blocked {
            self.pieces.block(caller, end);
        }
        caller.gathered = gathered;
        let most = points * self.pieces.stride();
        caller.lent.len() <= lines && caller.lent.coordinates.len() <= most
    }

    /// Makes the call for slots, and takes their chains out of what it answers.
    fn call(
        &self,
        caller: &mut Caller,
        slots: Range<u32>,
        sizes: &mut [u32],
        laid: &mut [f64],
    ) -> Result<(), Fault> {
        let chains = self.pieces.call(caller, self.ways.settings)?;
        caller.calls += 1;
        let mut found = 0;
        for record in caller.answer.records(chains) {
            let slot = self.slot(caller, &record).filter(|slot| slots.contains(slot));
            if let Some(slot) = slot {
                let at = self.numbers(slots.start..slot);
                let size = self.take(caller, &record, slot, &mut laid[at..])?;
                sizes[(slot - slots.start) as usize] = size;
                found += 1;
            }
        }
        (self.ways.tell)(self.lines(slots.clone()));
        match found == slots.len() {
            true => Ok(()),
            false => Err(self.differs(slots.start)),
        }
    }

    /// The slot of a chain of a call, which may be any where it is not one of the call's own.
    fn slot(&self, caller: &Caller, record: &Record) -> Option<u32> {
        let line = caller.lent.whose(*record.members.first()?)?;
        self.cut.batches.slot(self.pieces.piece_of(line))
    }

    /// Takes the chain of a slot out of an answer, if it is the one that was outlined, and gives how many
    /// coordinates were laid. Where they are not kept they have to be those that its pieces are laid to.
    fn take(
        &self,
        caller: &Caller,
        record: &Record,
        slot: u32,
        room: &mut [f64],
    ) -> Result<u32, Fault> {
        let steps = self.steps(slot);
        if steps.len() == 1 {
            // A stand-in is one line.
            let alone = record.members.len() == 1 && record.marks == [0];
            return if alone { Ok(0) } else { Err(self.differs(slot)) };
        }
        if !self.pieces.is_same(caller, record, steps) {
            return Err(self.differs(slot));
        }
        let stride = self.pieces.stride();
        let from = stride * record.points.start..stride * record.points.end;
        match (room.get_mut(..from.len()), caller.answer.merged.get(from)) {
            (Some(room), Some(merged)) if self.ways.keep => room.copy_from_slice(merged),
            (_, Some(merged)) if !self.ways.keep && is_laid(self.pieces, steps, merged) => (),
            _ => return Err(self.differs(slot)),
        }
        Ok(record.points.len() as u32)
    }

    /// Lays the chain of a slot without a call.
    fn lay(&self, caller: &mut Caller, slot: u32, sizes: &mut [u32], laid: &mut [f64]) {
        let steps = self.steps(slot);
        if steps.len() > 1 {
            if self.ways.keep {
                sizes[0] = (lay(self.pieces, steps, laid) / self.pieces.stride()) as u32;
            }
            caller.laid.push(self.cut.batches.outline(slot));
        }
        (self.ways.tell)(self.lines(slot..slot + 1));
    }

    fn steps(&self, slot: u32) -> &[u32] {
        self.cut.outlines.steps(self.cut.batches.outline(slot))
    }

    /// The numbers that slots have room for, where they are kept.
    fn numbers(&self, slots: Range<u32>) -> usize {
        match self.ways.keep {
            true => self.pieces.stride() * self.cut.batches.room(slots).len(),
            false => 0,
        }
    }

    /// The lines of slots.
    fn lines(&self, slots: Range<u32>) -> usize {
        let pieces = slots.flat_map(|slot| self.steps(slot)).map(|step| step >> 1);
        pieces.map(|piece| self.pieces.lines(piece)).sum()
    }

    fn differs(&self, slot: u32) -> Fault {
        let piece = self.steps(slot)[0] >> 1;
        Fault::Differs { line: self.pieces.line_of(piece) }
    }
}
