//! What was ruled goes into the report, in the order of the input.

use super::arguments::Batch;
use super::keep::keep;
use super::pipeline::Pipeline;
use super::progress::{rate, Progress};
use super::report::*;
use super::resume::Old;
use super::rule::{kept, Done, Setup};
use crate::arguments::FailOn;
use crate::failure::{tell, Failure};
use crate::print::grouped;
use std::collections::BTreeMap;
use std::sync::atomic::{AtomicUsize, Ordering};
use std::sync::mpsc::RecvTimeoutError;
use std::sync::Arc;
use std::time::Duration;

/// How often the progress is drawn, and a signal looked for.
const TICK: Duration = Duration::from_millis(100);

/// How collecting ended.
pub enum Ended {
    /// The whole input was ruled on.
    Whole,
    /// A signal asked for it.
    Signal(usize),
}

/// Writes what was ruled, in order.
pub struct Collector {
    pub setup: Arc<Setup>,
    /// The report that is resumed, as long as its lines are held against the input; nothing is written before that is done.
    pub old: Option<Old>,
    pub output: Option<Output>,
    /// The cases that it has.
    pub resumed: u64,
    pub totals: Totals,
    pub progress: Progress,
}

impl Collector {
    /// Until all is written, or a signal asks for an end.
    pub fn collect(&mut self, pipeline: Pipeline, signal: &AtomicUsize) -> Result<Ended, Failure> {
        let mut waiting = BTreeMap::new();
        let mut next = 0;
        loop {
            let read = pipeline.read.load(Ordering::Relaxed);
            self.progress.show(&self.totals, self.resumed, read);
            let done = pipeline.done.recv_timeout(TICK);
            if let signal @ 1.. = signal.load(Ordering::Relaxed) {
                return Ok(Ended::Signal(signal));
            }
            match done {
                Ok(done) => {
                    let fault = "a case could not be ruled on; this is a fault of the tool";
                    let done = done.ok_or(Failure::Disagreement(fault.into()))?;
                    waiting.insert(done.index, done);
                }
                Err(RecvTimeoutError::Timeout) => {}
                Err(RecvTimeoutError::Disconnected) => break,
            }
            while let Some(done) = waiting.remove(&next) {
                next += 1;
                self.take(done)?;
                // One chunk less is under way.
                let _ = pipeline.under_way.recv();
            }
        }
        pipeline.join()?;
        self.finish()?;
        Ok(Ended::Whole)
    }

    fn take(&mut self, done: Done) -> Result<(), Failure> {
        match done.old {
            true => self.take_old(&done)?,
            false => self.take_new(&done)?,
        }
        done.failure.map_or(Ok(()), Err)
    }

    fn take_old(&mut self, done: &Done) -> Result<(), Failure> {
        for (place, head) in done.lines.split(|byte| *byte == b'\n').enumerate() {
            let Some(old) = self.old.as_mut().filter(|_| !head.is_empty()) else {
                continue;
            };
            let line = old.compare(head)?;
            self.totals.add(&line.ruling, line.refusal);
            for folder in kept(&self.setup.keep, &line.ruling) {
                keep_case(&self.setup, done, place, folder)?;
            }
        }
        Ok(())
    }

    fn take_new(&mut self, done: &Done) -> Result<(), Failure> {
        if done.lines.is_empty() {
            return Ok(());
        }
        if let Some(old) = self.old.take() {
            self.output = Some(old.go_on()?);
        }
        // An attack that the report has is kept: so it is kept first.
        for (place, folder) in &done.kept {
            keep_case(&self.setup, done, *place, *folder)?;
        }
        self.write(&done.lines)?;
        self.totals.add_all(&done.totals);
        Ok(())
    }

    fn write(&mut self, lines: &[u8]) -> Result<(), Failure> {
        match &mut self.output {
            Some(output) => output.write(lines),
            None => Ok(()),
        }
    }

    /// The last line, where it is not there yet.
    fn finish(&mut self) -> Result<(), Failure> {
        if let Some(old) = self.old.take() {
            self.output = old.end()?;
        }
        self.write(&end_line(&self.totals))
    }

    /// Says what came out.
    pub fn end(
        self,
        given: &Batch,
        jobs: usize,
        ended: Result<Ended, Failure>,
    ) -> Result<i32, Failure> {
        self.progress.end();
        let (totals, seconds) = (&self.totals, self.progress.seconds());
        if ended.is_ok() || totals.cases > 0 {
            let new = totals.cases.saturating_sub(self.resumed);
            let rate = grouped(rate(new, seconds));
            let words = words(totals);
            tell(&format!("{words}; {seconds:.1} s, {rate} a second"));
        }
        if let Ended::Signal(signal) = ended? {
            if let Some(report) = &given.report {
                let report = report.display();
                tell(&format!(
                    "interrupted: --resume goes on behind the cases that {report} has"
                ));
            }
            return Ok(128 + signal as i32);
        }
        if let Some(path) = &given.summary {
            let this_run = ThisRun {
                resumed: self.resumed,
                seconds,
                jobs,
            };
            Summary::new(&Header::new(given.shard), totals, Some(this_run)).write(path)?;
        }
        Ok(FailOn::code(
            &given.fail_on,
            totals.attack > 0,
            totals.refused > 0,
        ))
    }
}

/// Copies the files of a chunk's case to a folder.
fn keep_case(setup: &Setup, done: &Done, place: usize, folder: usize) -> Result<(), Failure> {
    let Some(chunk) = &done.chunk else {
        return Ok(());
    };
    let case = &chunk.cases[place];
    let input = &setup.inputs[case.input].name;
    keep(
        &setup.keep[folder].folder,
        input,
        chunk.name(case),
        &setup.files(chunk, case),
    )
}
