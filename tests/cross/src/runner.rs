//! Runs calls on both sides; the first difference is made small, stored and ends the run.

use crate::call::{Call, Connect};
use crate::failures;
use crate::smaller::smallest;
use crate::tally::Tally;
use crate::target::{Figures, Outcome, Target, LENGTH, SITUATIONS};
use baseline::Mode;
use std::fs::File;
use std::io;
use std::os::unix::fs::FileExt;
use std::path::{Path, PathBuf};

/// What ends a run.
#[derive(Debug)]
pub enum Ended {
    /// A difference: what is wrong, and where the small input is stored.
    Differs { words: String, path: PathBuf },
    /// A file could not be read or written.
    Failed(io::Error),
}

impl From<io::Error> for Ended {
    fn from(error: io::Error) -> Ended {
        Ended::Failed(error)
    }
}

pub type Checked<T = ()> = Result<T, Ended>;

pub struct Runner<'a> {
    expected: &'a mut dyn Target,
    tested: &'a mut dyn Target,
    folder: &'a Path,
    trace: Option<File>,
    pub tally: Tally,
}

impl<'a> Runner<'a> {
    /// The expected side, the tested side, and the folder in which failing inputs are stored.
    pub fn new(expected: &'a mut dyn Target, tested: &'a mut dyn Target, folder: &'a Path) -> Runner<'a> {
        Runner { expected, tested, folder, trace: None, tally: Tally::default() }
    }

    /// From now on, each input is written to this file before its call.
    pub fn trace(&mut self, path: &Path) -> io::Result<()> {
        self.trace = Some(File::create(path)?);
        Ok(())
    }

    fn note(&self, call: &Call) -> io::Result<()> {
        let Some(file) = &self.trace else {
            return Ok(());
        };
        file.set_len(0)?;
        file.write_all_at(call.text().as_bytes(), 0)
    }

    /// Makes the call on both sides, and gives the figures on which they agree.
    pub fn check(&mut self, call: &Call) -> Checked<Figures> {
        self.note(call)?;
        let expected = self.expected.answer(call);
        let figures = expected.figures;
        if expected != self.tested.answer(call) {
            return Err(self.ended(call)?);
        }
        self.tally.count(call, &figures);
        if let Some(paper) = in_paper_mode(call, &figures) {
            self.tally.count_settled(&figures, &self.expected.answer(&paper).figures);
        }
        Ok(figures)
    }

    /// Checks a call, and gives the plan if it connects a pair.
    pub fn plan(&mut self, call: &Call) -> Checked<Option<Vec<u8>>> {
        let figures = self.check(call)?;
        let lent = self.expected.answer(call).lent.filter(|_| figures[0] == 0);
        Ok(lent.map(|plan| plan.inside()[..figures[LENGTH] as usize].to_vec()))
    }

    /// Checks every stored call of the folder.
    pub fn replay(&mut self) -> Checked<usize> {
        let stored = failures::stored(self.folder)?;
        for (path, call) in &stored {
            self.note(call)?;
            let same = self.expected.answer(call) == self.tested.answer(call);
            if !same {
                return Err(Ended::Differs { words: self.words(call), path: path.clone() });
            }
        }
        Ok(stored.len())
    }

    /// What both sides make of a call.
    pub fn words(&mut self, call: &Call) -> String {
        let expected = described("expected", &self.expected.answer(call));
        let tested = described("tested", &self.tested.answer(call));
        format!("{expected}\n{tested}")
    }

    fn ended(&mut self, call: &Call) -> io::Result<Ended> {
        let small = smallest(call, &mut |call| self.expected.answer(call) != self.tested.answer(call));
        let words = self.words(&small);
        let path = failures::store(self.folder, &small, &words)?;
        Ok(Ended::Differs { words, path })
    }
}

/// A settled call of connecting that counted situations, in the paper's mode: in no other can the modes differ.
fn in_paper_mode(call: &Call, figures: &Figures) -> Option<Call> {
    match call {
        Call::Connect(call) if call.mode() == Mode::Settled && figures[SITUATIONS] > 0 => {
            Some(Call::Connect(Connect { mode: Some(0), ..call.clone() }))
        }
        _ => None,
    }
}

fn described(side: &str, outcome: &Outcome) -> String {
    let lent = outcome.lent.map_or(&[][..], |lent| lent.all());
    let bytes: String = lent.iter().map(|byte| format!(" {byte:02x}")).collect();
    format!("{side}: {:?}, all else as due: {}, what was lent, with guards:{bytes}", outcome.figures, outcome.as_due)
}
