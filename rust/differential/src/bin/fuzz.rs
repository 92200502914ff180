//! Random inputs through the archive and the reference until the time is over or they differ; then the smallest input near it.
//!
//!     fuzz MINUTES [--cores N] [--seed N]      as long as that
//!     fuzz --inputs N [--cores N] [--seed N]   so many inputs
//!     fuzz --hand                              the cases by hand alone
//!     fuzz --random ..                         random inputs alone
//!     fuzz --as-found ..                       the input as it was found, and not the smallest one
//!     fuzz --call check|draw|canonical ..      inputs of that call alone
//!
//! Else the corpus and the cases by hand come first. An input whose property may take much longer than a second is skipped and counted, so that a run
//! ends when its time is over. Exits with 1 where the implementations differ.

use differential::input::{Call, Input};
use differential::reduce::reduced;
use differential::Shares;
use reference::random::Random;
use std::io::Write;
use std::sync::atomic::{AtomicBool, AtomicUsize, Ordering::Relaxed};
use std::sync::Mutex;
use std::time::{Duration, Instant};

/// How long and with what.
struct Plan {
    time: Duration,
    inputs: usize,
    cores: usize,
    seed: u64,
    call: Option<Call>,
    by_hand: bool,
    random: bool,
    as_found: bool,
}

fn call(name: &str) -> Option<Call> {
    match name {
        "check" => Some(Call::Check),
        "draw" => Some(Call::Draw),
        "canonical" => Some(Call::Canonical),
        _ => None,
    }
}

fn plan() -> Option<Plan> {
    let mut plan = Plan {
        time: Duration::MAX,
        inputs: usize::MAX,
        cores: 2,
        seed: 1,
        call: None,
        by_hand: false,
        random: false,
        as_found: false,
    };
    let words: Vec<String> = std::env::args().skip(1).collect();
    let mut words = words.iter();
    let mut bounded = false;
    while let Some(word) = words.next() {
        let mut figure = || words.next()?.parse::<u64>().ok();
        match word.as_str() {
            "--inputs" => plan.inputs = figure()? as usize,
            "--cores" => plan.cores = figure()? as usize,
            "--seed" => plan.seed = figure()?,
            "--call" => plan.call = Some(call(words.next()?)?),
            "--hand" => (plan.by_hand, plan.inputs) = (true, 0),
            "--random" => plan.random = true,
            "--as-found" => plan.as_found = true,
            minutes => plan.time = Duration::from_secs_f64(60.0 * minutes.parse::<f64>().ok()?),
        }
        let bound = !word.starts_with("--") || word == "--inputs" || word == "--hand";
        bounded = bounded || bound;
    }
    bounded.then_some(plan)
}

/// What the cores share.
struct State {
    plan: Plan,
    begin: Instant,
    done: AtomicUsize,
    skipped: AtomicUsize,
    stop: AtomicBool,
    found: Mutex<Option<Input>>,
    shares: Mutex<Shares>,
}

impl State {
    fn over(&self) -> bool {
        let late = self.begin.elapsed() >= self.plan.time;
        late || self.stop.load(Relaxed) || self.done.load(Relaxed) >= self.plan.inputs
    }

    /// Counts the input, or keeps it where the two differ.
    fn run(&self, input: Input, shares: &mut Shares) {
        if input.takes_long() {
            self.skipped.fetch_add(1, Relaxed);
            return;
        }
        match input.agreed() {
            Ok(outcome) => shares.add(outcome),
            Err(_) => {
                self.stop.store(true, Relaxed);
                self.found.lock().expect("one input").get_or_insert(input);
            }
        }
        self.done.fetch_add(1, Relaxed);
    }

    fn core(&self, number: usize) {
        let mut shares = Shares::default();
        let mut random = Random::new(1_000 * self.plan.seed + number as u64);
        while !self.over() {
            let input = match self.plan.call {
                Some(call) => Input::random_of(call, &mut random),
                None => Input::random(&mut random),
            };
            self.run(input, &mut shares);
        }
        self.shares.lock().expect("shares").merge(shares);
    }

    fn progress(&self) {
        let mut last = 0;
        while !self.over() {
            std::thread::sleep(Duration::from_millis(200));
            let seconds = self.begin.elapsed().as_secs_f64();
            if seconds as usize > last {
                last = seconds as usize;
                let done = self.done.load(Relaxed);
                let each = done as f64 / seconds;
                eprint!("\r{last} s, {done} inputs, {each:.0} a second ");
                std::io::stderr().flush().expect("a line");
            }
        }
        eprintln!();
    }
}

fn main() {
    let Some(plan) = plan() else {
        eprintln!("fuzz MINUTES [--cores N] [--seed N] [--call check|draw|canonical], or --inputs N in place of the minutes");
        std::process::exit(2);
    };
    // A panic of the reference is a difference, and shown as one.
    std::panic::set_hook(Box::new(|_| {}));
    let cores = plan.cores;
    let state = State {
        plan,
        begin: Instant::now(),
        done: AtomicUsize::new(0),
        skipped: AtomicUsize::new(0),
        stop: AtomicBool::new(false),
        found: Mutex::new(None),
        shares: Mutex::new(Shares::default()),
    };
    let wanted = |input: &Input| state.plan.call.is_none_or(|call| call == input.call);
    let cases = match (state.plan.by_hand, state.plan.random) {
        (true, _) => Input::by_hand(),
        (_, true) => Vec::new(),
        _ => Input::cases(),
    };
    for input in cases.into_iter().filter(wanted) {
        let mut shares = state.shares.lock().expect("shares");
        state.run(input, &mut shares);
    }
    std::thread::scope(|scope| {
        for number in 0..cores {
            let state = &state;
            scope.spawn(move || state.core(number));
        }
        state.progress();
    });
    let seconds = state.begin.elapsed().as_secs_f64();
    let found = state.found.lock().expect("one input").take();
    let Some(input) = found else {
        state.shares.lock().expect("shares").print("no difference");
        let (done, skipped) = (state.done.load(Relaxed), state.skipped.load(Relaxed));
        println!(
            "{done} inputs in {seconds:.0} s, {:.0} a second; {skipped} skipped, as they may take long",
            done as f64 / seconds
        );
        return;
    };
    let input = if state.plan.as_found {
        input
    } else {
        reduced(input)
    };
    let difference = input.agreed().expect_err("a difference");
    println!(
        "archive: {}\nreference: {}",
        difference.archive, difference.reference
    );
    println!("{:?}\n{}", input.call, input.shown());
    std::process::exit(1);
}
