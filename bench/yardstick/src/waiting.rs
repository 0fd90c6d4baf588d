//! Asking, telling, and the call that waits.

use crate::answer::Answer;
use crate::machine::{FAILED, FROM, Machine, ROOT, STATE, TO, ids};

const SHUTDOWN_REQUEST: u32 = 1;
const RECONFIGURATION_COMPLETED: u32 = 2;
const APPROVED: u32 = 3;

#[derive(Clone, Copy, PartialEq)]
pub enum Kind {
    Disable,
    Create,
    Start,
    SetLoadable,
    Destroy,
}

/// A call that waits for `cell`, which has been asked or told.
#[derive(Clone, Copy)]
pub struct Waiting {
    kind: Kind,
    target: usize,
    asking: bool,
    cell: usize,
    /// Polls since the message, counted where the cell has a limit.
    polls: u16,
}

impl Machine {
    pub fn poll(&mut self) -> Answer {
        let Some(waiting) = &mut self.waiting else {
            return Answer::Idle;
        };
        let cell = &self.cells[waiting.cell];
        let reply = cell.words[FROM];
        if reply == 0 && !cell.is_final() {
            waiting.polls += (cell.record.limit != 0) as u16;
            if waiting.polls < cell.record.limit || cell.record.limit == 0 {
                return Answer::Wait(waiting.cell);
            }
            let late = waiting.cell;
            self.cut_off(late);
        }
        self.heard(reply)
    }

    /// A cell that has not replied in time: "the cell's state becomes 3, its CPUs stop".
    fn cut_off(&mut self, id: usize) {
        let cell = &mut self.cells[id];
        cell.words[STATE] = FAILED;
        self.stopped |= cell.record.cpus;
    }

    /// "a final state counts as consent; else for message 1 only from = 3 consents"; "for message 2 any value serves"
    fn heard(&mut self, reply: u32) -> Answer {
        let Some(Waiting { kind, target, asking, cell, .. }) = self.waiting.take() else {
            return Answer::Idle;
        };
        if asking && reply != APPROVED && !self.cells[cell].is_final() {
            return Answer::Code(-1);
        }
        match (asking, kind) {
            (true, Kind::Disable) => self.ask_from(kind, ROOT, cell + 1),
            (true, _) => self.allowed(kind, target),
            (false, _) => self.tell_from(kind, target, cell + 1),
        }
    }

    /// Asks the target, or of Disable every cell.
    pub fn ask(&mut self, kind: Kind, target: usize) -> Answer {
        if kind == Kind::Disable {
            return self.ask_from(kind, target, 1);
        }
        if self.is_messaged(target) {
            return self.message(kind, target, true, target);
        }
        self.allowed(kind, target)
    }

    /// Asks the first of the cells from `first` on.
    fn ask_from(&mut self, kind: Kind, target: usize, first: usize) -> Answer {
        match self.next_from(first) {
            Some(cell) => self.message(kind, target, true, cell),
            None => self.allowed(kind, target),
        }
    }

    /// With none left to ask the effect comes, unless Destroy finds a lock.
    fn allowed(&mut self, kind: Kind, target: usize) -> Answer {
        match kind {
            Kind::Disable => self.disable(),
            Kind::Start => self.start(target),
            Kind::SetLoadable => self.set_loadable(target),
            Kind::Destroy if self.is_locked(target) => return Answer::Code(-1),
            Kind::Destroy => {
                self.destroy(target);
                return self.tell(kind, target);
            }
            Kind::Create => {}
        }
        Answer::Code(0)
    }

    /// Tells all cells that Create or Destroy has had its effect.
    pub fn tell(&mut self, kind: Kind, target: usize) -> Answer {
        self.tell_from(kind, target, 1)
    }

    fn tell_from(&mut self, kind: Kind, target: usize, first: usize) -> Answer {
        match self.next_from(first) {
            Some(cell) => self.message(kind, target, false, cell),
            None if kind == Kind::Create => Answer::Code(target as i32),
            None => Answer::Code(0),
        }
    }

    /// "from becomes 0, then to becomes 1 (shutdown request) or 2 (reconfiguration completed)"
    fn message(&mut self, kind: Kind, target: usize, asking: bool, cell: usize) -> Answer {
        let words = &mut self.cells[cell].words;
        words[FROM] = 0;
        words[TO] = if asking { SHUTDOWN_REQUEST } else { RECONFIGURATION_COMPLETED };
        self.waiting = Some(Waiting { kind, target, asking, cell, polls: 0 });
        Answer::Wait(cell)
    }

    /// The first cell from `first` on that is messaged.
    fn next_from(&self, first: usize) -> Option<usize> {
        ids(self.live).find(|&id| id >= first && self.is_messaged(id))
    }

    /// "Only active, non-passive cells are messaged".
    fn is_messaged(&self, id: usize) -> bool {
        !self.cells[id].is_final() && !self.cells[id].record.passive
    }
}
