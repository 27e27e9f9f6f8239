//! Compares the proved library with the independent program.
#![forbid(unsafe_code)]

use std::env;
use std::io::{self, Write};
use std::process::exit;
use std::time::{Instant, SystemTime, UNIX_EPOCH};

use compare::calls::{self, tally::Call};
use compare::run::{run, Counts};
use compare::{level, say};
use independent::LEVEL;

const USAGE: &str = "\
Usage: compare [--seed N | --random-seed] [--packets N] [--calls N]

Gives generated packets to the proved reader and to an independent one, then
calls to the proved receivers, mark writer and sender and to independent ones,
and stops at the first difference.

  --seed N        generate from seed N (default 4103)
  --random-seed   take a seed from the clock and print it
  --packets N     give at least N packets to the readers (default 500000)
  --calls N       make at least N calls of each other kind (default 200000)
  --help          print this text

The exit status is 0 where nothing differs and all is met, 1 otherwise, 2 where
the arguments are wrong, and 141 where nobody reads the output any more.";

struct Options {
    seed: u64,
    packets: usize,
    calls: usize,
}

fn options() -> Result<Options, String> {
    let mut options = Options {
        seed: 4103,
        packets: 500_000,
        calls: 200_000,
    };
    let mut arguments = env::args().skip(1);
    while let Some(argument) = arguments.next() {
        match argument.as_str() {
            "--seed" => options.seed = number(&argument, arguments.next())?,
            "--packets" => options.packets = number(&argument, arguments.next())?,
            "--calls" => options.calls = number(&argument, arguments.next())?,
            "--random-seed" => options.seed = clock(),
            "--help" => {
                say!("{USAGE}");
                exit(0);
            }
            _ => return Err(format!("unknown argument: {argument}")),
        }
    }
    Ok(options)
}

fn number<N: std::str::FromStr>(name: &str, value: Option<String>) -> Result<N, String> {
    let value = value.ok_or_else(|| format!("{name} wants a number after it"))?;
    value
        .parse()
        .map_err(|_| format!("{name} wants a whole number, not {value}"))
}

fn clock() -> u64 {
    SystemTime::now()
        .duration_since(UNIX_EPOCH)
        .map_or(0, |time| time.as_nanos() as u64)
}

fn print(counts: &Counts) {
    for (name, count) in &counts.named {
        say!("{count:>9}  {name}");
    }
    for name in &counts.left_out {
        say!(" left out  {name}");
    }
    say!("\n  packets  kind: answers (0 is accepted, others are refusals)");
    for (name, numbers) in &counts.kinds {
        let total: usize = numbers.values().sum();
        let answers: Vec<String> = numbers.iter().map(|(k, n)| format!("{k}:{n}")).collect();
        say!("{total:>9}  {name}: {}", answers.join(" "));
    }
    say!("\n  packets  answer, over all kinds");
    for (number, count) in counts.numbers() {
        say!("{count:>9}  {number}");
    }
    say!("\n  packets  older blocks of those accepted");
    for (older, count) in &counts.older {
        say!("{count:>9}  {older}");
    }
    say!("\n    texts  kind: how many are UTF-8");
    for count in &counts.texts {
        say!("{:>9}  {}: {}", count.texts, count.name, count.good);
    }
}

/// Ends with status 1, also where nobody reads why.
fn fail(why: &str) -> ! {
    let _ = writeln!(io::stdout(), "{why}");
    exit(1);
}

/// Says where both programs differ, and ends.
fn differ(options: &Options, difference: String) -> ! {
    fail(&format!(
        "DIFFERENCE in {difference}\nAgain: compare --seed {} --packets {} --calls {}",
        options.seed, options.packets, options.calls
    ))
}

fn main() {
    let options = options().unwrap_or_else(|wrong| {
        eprintln!("compare: {wrong}\n\n{USAGE}");
        exit(2);
    });
    say!("seed {}, highest level {LEVEL}", options.seed);
    level::check().unwrap_or_else(|why| fail(&why));
    let start = Instant::now();
    let counts = run(options.seed, options.packets)
        .unwrap_or_else(|difference| differ(&options, difference));
    print(&counts);
    let tally = calls::run(options.seed, options.calls)
        .unwrap_or_else(|difference| differ(&options, difference));
    tally.print();
    let mut missing = counts.missing();
    missing.extend(tally.missing());
    if !missing.is_empty() {
        fail(&format!("MISSING: {}", missing.join("\nMISSING: ")));
    }
    let packets: usize = counts.numbers().values().sum();
    let calls: usize = Call::ALL.iter().map(|call| tally.calls(*call)).sum();
    say!(
        "\nno difference in {packets} packets and {calls} calls, {:.1} s",
        start.elapsed().as_secs_f64()
    );
}
