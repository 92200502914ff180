//! Many cases: `batch` and `merge`. One thread reads, others rule, and this one writes, in the order of the input: the report's bytes do not depend on
//! the number of threads, and so a report can be gone on with.

mod archive;
pub mod arguments;
mod chunk;
mod collect;
mod header;
mod input;
mod keep;
mod merge;
mod names;
mod pipeline;
mod progress;
mod report;
mod resume;
mod rule;
mod stream;

pub use merge::merge;

use crate::case::append_file;
use crate::failure::Failure;
use crate::model::limits;
use arguments::Batch;
use collect::Collector;
use pipeline::Pipeline;
use progress::Progress;
use report::{line, Header, Output, Totals};
use resume::Old;
use rule::Setup;
use signal_hook::consts::{SIGINT, SIGTERM};
use signal_hook::flag;
use std::path::PathBuf;
use std::sync::atomic::{AtomicBool, AtomicUsize};
use std::sync::Arc;
use std::thread;

pub fn batch(given: &Batch) -> Result<i32, Failure> {
    let setup = setup(given)?;
    let signal = signals()?;
    let header = Header::new(given.shard);
    let old = match (&given.report, given.resume) {
        (Some(path), true) => Old::open(path, &header)?,
        _ => None,
    };
    let resumed = old.as_ref().map_or(0, |old| old.cases);
    let output = match old {
        Some(_) => None,
        None => {
            let mut output = Output::create(given.report.as_deref())?;
            output.write(&line(&header))?;
            Some(output)
        }
    };
    let jobs = given.jobs.map_or_else(cores, usize::from);
    let size = input::size(&setup.inputs);
    let setup = Arc::new(setup);
    let pipeline = Pipeline::start(&setup, given.shard, resumed, jobs);
    let mut collector = Collector {
        setup,
        old,
        output,
        resumed,
        totals: Totals::default(),
        progress: Progress::new(size, given.report.is_none()),
    };
    let ended = collector.collect(pipeline, &signal);
    collector.end(given, jobs, ended)
}

fn setup(given: &Batch) -> Result<Setup, Failure> {
    let streams = given.inputs.iter().chain(&given.list);
    if streams.filter(|path| input::is_stream(path)).count() > 1 {
        return Err(Failure::Arguments("standard input is given twice".into()));
    }
    for keep in &given.keep {
        std::fs::create_dir_all(&keep.folder).map_err(|e| Failure::file(&keep.folder, e))?;
    }
    let protocol = given_file(&given.protocol, limits::PROTOCOL_BYTES)?;
    let property = given_file(&given.property, limits::PROPERTY_BYTES)?;
    let bare = protocol.is_some() && property.is_some();
    Ok(Setup {
        inputs: input::inputs(&given.inputs, given.list.as_deref(), bare)?,
        bare,
        protocol,
        property,
        keep: given.keep.clone(),
    })
}

/// A file for all cases that have none of its kind.
fn given_file(path: &Option<PathBuf>, limit: usize) -> Result<Option<Vec<u8>>, Failure> {
    let Some(path) = path else {
        return Ok(None);
    };
    let mut bytes = Vec::new();
    append_file(path, limit, &mut bytes).map_err(|e| Failure::file(path, e))?;
    Ok(Some(bytes))
}

fn cores() -> usize {
    thread::available_parallelism().map_or(1, usize::from)
}

/// The signal that asks for an end, or 0. A second one ends the program at once.
fn signals() -> Result<Arc<AtomicUsize>, Failure> {
    let asked = Arc::new(AtomicUsize::new(0));
    let again = Arc::new(AtomicBool::new(false));
    for signal in [SIGINT, SIGTERM] {
        let registered = flag::register_conditional_default(signal, Arc::clone(&again))
            .and_then(|_| flag::register(signal, Arc::clone(&again)))
            .and_then(|_| flag::register_usize(signal, Arc::clone(&asked), signal as usize));
        registered.map_err(|e| Failure::File(format!("signals: {e}")))?;
    }
    Ok(asked)
}
