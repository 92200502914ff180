//! How far a batch is, on a terminal.

use super::input::Size;
use super::report::Totals;
use crate::print::grouped;
use indicatif::{ProgressBar, ProgressDrawTarget, ProgressStyle};
use std::io::IsTerminal;
use std::time::Instant;

pub struct Progress {
    bar: ProgressBar,
    size: Size,
    start: Instant,
}

impl Progress {
    /// Drawn on standard error where that is a terminal, and the report does not go to one.
    pub fn new(size: Size, report_to_stdout: bool) -> Self {
        let hidden = report_to_stdout && std::io::stdout().is_terminal();
        let target = match hidden {
            true => ProgressDrawTarget::hidden(),
            false => ProgressDrawTarget::stderr(),
        };
        let (length, template) = match size {
            Size::Bytes(all) | Size::Cases(all) => {
                (Some(all), "{bar:24} {percent:>3} %  {msg}, {eta} left")
            }
            Size::Unknown => (None, "{spinner} {msg}"),
        };
        let style = ProgressStyle::with_template(template).expect("the template is well formed");
        let bar = match length {
            Some(length) => ProgressBar::with_draw_target(Some(length), target),
            None => ProgressBar::with_draw_target(None, target),
        };
        bar.set_style(style);
        Progress {
            bar,
            size,
            start: Instant::now(),
        }
    }

    /// So far: what the report has, what of it was there before, and what was read of files.
    pub fn show(&self, totals: &Totals, old: u64, read: u64) {
        if self.bar.is_hidden() {
            return;
        }
        // As long as old lines are compared, none is new.
        let new = totals.cases.saturating_sub(old);
        self.bar.set_message(format!(
            "{} cases, {} a second, {} attacks, {} refused",
            grouped(totals.cases),
            grouped(rate(new, self.seconds())),
            grouped(totals.attack),
            grouped(totals.refused)
        ));
        match self.size {
            Size::Bytes(all) => self.bar.set_position(read.min(all)),
            Size::Cases(_) => self.bar.set_position(totals.cases),
            Size::Unknown => self.bar.tick(),
        }
    }

    pub fn seconds(&self) -> f64 {
        self.start.elapsed().as_secs_f64()
    }

    /// Takes the bar away.
    pub fn end(&self) {
        self.bar.finish_and_clear();
    }
}

pub fn rate(cases: u64, seconds: f64) -> u64 {
    (cases as f64 / seconds.max(1e-3)) as u64
}
