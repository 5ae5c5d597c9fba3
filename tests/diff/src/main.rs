//! Compares the proved library, over its C interface, with the plain implementation in `peer/`.
//!
//! The cases go through a fixed list: every call valid, and with each mutation of it. In every other
//! round of the list one to three further mutations are added. All bytes follow from the seed and the
//! case's number alone.

mod case;
mod fixtures;
mod guarded;
mod mutations;
mod rng;

use case::{Call, Case};
use fixtures::Fixtures;
use mutations::Mutation;
use rng::Rng;
use std::collections::BTreeSet;
use std::env;
use std::panic::{catch_unwind, AssertUnwindSafe};
use std::process::ExitCode;
use std::thread;

const USAGE: &str =
    "usage: tests/differential [--seed N] [--count N] [--threads N] [--trace] [--only CASE]
  --seed     what all bytes follow from (default 1)
  --count    how many cases (default 3000)
  --threads  how many at a time (default: the machine's processors)
  --trace    name every case before it is run, for one that ends the process
  --only     run one case, and print what is lent to it";

struct Options {
    seed: u64,
    count: u64,
    threads: u64,
    trace: bool,
    only: Option<u64>,
}

fn options() -> Option<Options> {
    let processors = thread::available_parallelism().map_or(1, usize::from);
    let mut options = Options {
        seed: 1,
        count: 3_000,
        threads: processors as u64,
        trace: false,
        only: None,
    };
    let mut words = env::args().skip(1);
    while let Some(word) = words.next() {
        if word == "--trace" {
            options.trace = true;
            continue;
        }
        let number = words.next()?.parse().ok()?;
        match &word[..] {
            "--seed" => options.seed = number,
            "--count" => options.count = number,
            "--threads" if number > 0 => options.threads = number,
            "--only" => options.only = Some(number),
            _ => return None,
        }
    }
    Some(options)
}

/// What every case is made from.
struct Plan {
    seed: u64,
    fixtures: Fixtures,
    /// Every call, valid (`None`) and with each mutation.
    variants: Vec<(Call, Option<Mutation>)>,
}

impl Plan {
    fn new(seed: u64) -> Self {
        let mut variants = Vec::new();
        for call in Call::ALL {
            variants.push((call, None));
            variants.extend(
                mutations::mutations(call)
                    .into_iter()
                    .map(|m| (call, Some(m))),
            );
        }
        Self {
            seed,
            fixtures: Fixtures::new(&mut Rng::new(seed, u64::MAX)),
            variants,
        }
    }

    /// Case i, and the generator that its guard bytes come from.
    fn case(&self, i: u64) -> (Case, Rng) {
        let mut rng = Rng::new(self.seed, i);
        let (round, variant) = (
            i / self.variants.len() as u64,
            i % self.variants.len() as u64,
        );
        let (call, mutation) = &self.variants[variant as usize];
        let mut case = mutations::valid(*call, &mut rng, &self.fixtures);
        if let Some(mutation) = mutation {
            mutation.apply(&mut case, &mut rng, &self.fixtures);
        }
        if round % 2 == 1 {
            let variants = self.variants.iter().filter(|(other, _)| other == call);
            let mutations: Vec<&Mutation> = variants
                .filter_map(|(_, mutation)| mutation.as_ref())
                .collect();
            for _ in 0..=rng.below(3) {
                rng.pick(&mutations)
                    .apply(&mut case, &mut rng, &self.fixtures);
            }
        }
        (case, rng)
    }

    /// Runs case i: its answer, or what failed.
    fn run(&self, i: u64) -> (Call, Result<u32, String>) {
        let (case, mut rng) = self.case(i);
        let result = catch_unwind(AssertUnwindSafe(|| case::run(&case, &mut rng)));
        let result = result.unwrap_or_else(|_| Err("a panic".into()));
        let fault = |fault| {
            let seed = self.seed;
            format!(
                "case {i}: {case}\n  {fault}\n  again: tests/differential --seed {seed} --only {i}"
            )
        };
        (case.call, result.map_err(fault))
    }
}

/// How often each number came, by call, and at how many places.
struct Table {
    counts: [[u64; 6]; 19],
    places: [BTreeSet<u32>; 19],
}

impl Table {
    fn new() -> Self {
        Self {
            counts: [[0; 6]; 19],
            places: Default::default(),
        }
    }

    fn add(&mut self, call: Call, answer: u32) {
        let number = (answer >> 16) as usize;
        self.counts[number][call as usize] += 1;
        self.places[number].insert(answer & 0xffff);
    }

    fn print(&self) {
        print!("number");
        for call in Call::ALL {
            print!("  {:>14}", call.name());
        }
        println!("  places");
        for number in 0..19 {
            print!("{number:>6}");
            for call in Call::ALL {
                match call.numbers().contains(&(number as u32)) {
                    true => print!("  {:>14}", self.counts[number][call as usize]),
                    false => print!("  {:>14}", "-"),
                }
            }
            println!("  {:>6}", self.places[number].len());
        }
    }

    /// What a call can answer and never did.
    fn missing(&self) -> Vec<(Call, u32)> {
        let mut missing = Vec::new();
        for call in Call::ALL {
            for &number in call.numbers() {
                if self.counts[number as usize][call as usize] == 0 {
                    missing.push((call, number));
                }
            }
        }
        missing
    }
}

/// Runs all cases, some threads side by side; the answers come in no order.
fn run_all(plan: &Plan, options: &Options) -> Vec<(Call, Result<u32, String>)> {
    thread::scope(|scope| {
        let threads: Vec<_> = (0..options.threads)
            .map(|first| {
                scope.spawn(move || {
                    let cases = (first..options.count).step_by(options.threads as usize);
                    let named = cases.inspect(|i| {
                        if options.trace {
                            eprintln!("case {i}");
                        }
                    });
                    named.map(|i| plan.run(i)).collect::<Vec<_>>()
                })
            })
            .collect();
        let results = threads.into_iter().map(|thread| thread.join());
        results
            .flat_map(|result| result.expect("a thread ends"))
            .collect()
    })
}

fn run_one(plan: &Plan, i: u64) -> ExitCode {
    let (case, _) = plan.case(i);
    println!("case {i}: {case}");
    for slice in &case.slices {
        match slice.name {
            "out" | "work" => println!("{}: {} bytes", slice.name, slice.bytes.len()),
            _ => println!("{}: {}", slice.name, hexadecimal(&slice.bytes)),
        }
    }
    match plan.run(i).1 {
        Ok(answer) => {
            println!("both answer {} {}", answer >> 16, answer & 0xffff);
            println!("1 passed, 0 failed");
            ExitCode::SUCCESS
        }
        Err(fault) => {
            println!("{fault}");
            println!("0 passed, 1 failed");
            ExitCode::FAILURE
        }
    }
}

fn hexadecimal(bytes: &[u8]) -> String {
    bytes.iter().map(|byte| format!("{byte:02x}")).collect()
}

fn main() -> ExitCode {
    let Some(options) = options() else {
        eprintln!("{USAGE}");
        return ExitCode::from(2);
    };
    let plan = Plan::new(options.seed);
    if let Some(i) = options.only {
        return run_one(&plan, i);
    }
    println!(
        "seed {}, {} cases of {} kinds",
        options.seed,
        options.count,
        plan.variants.len()
    );
    let mut table = Table::new();
    let (mut passed, mut failed) = (0, 0);
    for (call, result) in run_all(&plan, &options) {
        match result {
            Ok(answer) => {
                table.add(call, answer);
                passed += 1;
            }
            Err(fault) => {
                println!("{fault}");
                failed += 1;
            }
        }
    }
    table.print();
    for (call, number) in table.missing() {
        println!("banquet_{} never answered {number}", call.name());
        failed += 1;
    }
    println!("{passed} passed, {failed} failed");
    match failed {
        0 => ExitCode::SUCCESS,
        _ => ExitCode::FAILURE,
    }
}
