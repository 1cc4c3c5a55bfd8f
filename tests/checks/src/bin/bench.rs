//! The benchmark: the compiled library and the second scheduler on the same
//! streams, in turns, in one process.

use checks::{compare, Coverage};
use std::hint::black_box;
use std::process::Command;
use std::time::Instant;
use streams::{bench_case, Case};

const STREAMS: u64 = 8;
const ROUNDS: usize = 25;

struct Buffers {
    answers: Vec<u8>,
    values: Vec<u8>,
    #[cfg(feature = "journal")]
    journal: Vec<u8>,
}

/// The table, the requests and the buffers.
type Way = fn(&[u8], &[u8], &mut Buffers);

fn run(table: &[u8], requests: &[u8], buffers: &mut Buffers) {
    library::run(table, requests, &mut buffers.answers, &mut buffers.values);
}

#[cfg(feature = "steps")]
fn steps(table: &[u8], requests: &[u8], buffers: &mut Buffers) {
    let mut board = library::Board::open(table).expect("a right table");
    let records = requests.chunks_exact(8);
    for (request, answer) in records.zip(buffers.answers.chunks_exact_mut(12)) {
        answer.copy_from_slice(&board.step(request.try_into().expect("8 bytes")));
    }
}

fn second(table: &[u8], requests: &[u8], buffers: &mut Buffers) {
    scheduler::run(table, requests, &mut buffers.answers, &mut buffers.values);
}

#[cfg(feature = "journal")]
fn journaled(table: &[u8], requests: &[u8], buffers: &mut Buffers) {
    let Buffers {
        answers,
        values,
        journal,
    } = buffers;
    library::run_journal(table, requests, answers, values, journal);
}

#[cfg(feature = "journal")]
fn second_journaled(table: &[u8], requests: &[u8], buffers: &mut Buffers) {
    let Buffers {
        answers,
        values,
        journal,
    } = buffers;
    scheduler::run_journal(table, requests, answers, values, journal);
}

/// Seconds for one pass over the streams, cut to so many requests each.
fn pass(way: Way, cases: &[Case], requests: usize, repeats: usize) -> f64 {
    let mut buffers = Buffers {
        answers: vec![0; 12 * requests],
        values: vec![0; 256],
        #[cfg(feature = "journal")]
        journal: vec![0; 8 * requests],
    };
    let began = Instant::now();
    for _ in 0..repeats {
        for case in black_box(cases) {
            way(&case.table, &case.requests[..requests * 8], &mut buffers);
            black_box(&buffers);
        }
    }
    began.elapsed().as_secs_f64() / repeats as f64
}

/// Requests per second of each way: the median of rounds taken in turns.
fn rates(ways: &[Way], cases: &[Case], requests: usize) -> Vec<f64> {
    let repeats = (4_096 / requests).max(2);
    let mut times = vec![Vec::new(); ways.len()];
    for _ in 0..ROUNDS {
        for (way, times) in ways.iter().zip(&mut times) {
            times.push(pass(*way, cases, requests, repeats));
        }
    }
    let done = (cases.len() * requests) as f64;
    let median = |times: &mut Vec<f64>| {
        times.sort_by(f64::total_cmp);
        done / times[times.len() / 2]
    };
    times.iter_mut().map(median).collect()
}

/// Bytes of code in an archive: the text column of `size`, summed.
fn text_bytes(archive: &str) -> String {
    let sum = || {
        let output = Command::new("size").arg(archive).output().ok()?;
        let text = String::from_utf8(output.stdout).ok()?;
        let rows = text.lines().skip(1);
        Some(
            rows.filter_map(|row| row.split_whitespace().next()?.parse::<u64>().ok())
                .sum::<u64>(),
        )
    };
    sum().map_or("unknown".to_string(), |bytes| bytes.to_string())
}

fn main() {
    let cases: Vec<Case> = (1..=STREAMS).map(bench_case).collect();
    let ways: Vec<(&str, Way)> = vec![
        ("hub_run", run),
        #[cfg(feature = "steps")]
        ("hub_step", steps),
        ("scheduler", second),
        #[cfg(feature = "journal")]
        ("hub_run_journal", journaled),
        #[cfg(feature = "journal")]
        ("scheduler_journal", second_journaled),
    ];
    let functions: Vec<Way> = ways.iter().map(|way| way.1).collect();
    println!("{STREAMS} streams, 16 desks, 12 hot items, a third guarded, {ROUNDS} rounds");

    // Only streams on which both agree are timed.
    let mut coverage = Coverage::default();
    for case in &cases {
        coverage.count(&compare(case).unwrap_or_else(|why| panic!("{why}")));
        #[cfg(feature = "journal")]
        checks::compare_journaled(case, case.requests.len()).unwrap_or_else(|why| panic!("{why}"));
    }
    println!("answers of code 0 to 7: {:?}", coverage.codes);

    println!("nanoseconds for a request, opening and final values included:");
    let names: Vec<String> = ways.iter().map(|way| format!("{:>18}", way.0)).collect();
    println!("  requests {}", names.join(""));
    for requests in [64, 128, 256, 512, 1_024, 2_048, 4_096] {
        let rates = rates(&functions, &cases, requests);
        let row: Vec<String> = rates
            .iter()
            .map(|rate| format!("{:>18.1}", 1e9 / rate))
            .collect();
        println!("  {requests:>8} {}", row.join(""));
    }

    let rates = rates(&functions, &cases, 4_096);
    // Each way is measured by the scheduler that does the same.
    let plain = ways.iter().position(|way| way.0 == "scheduler");
    let plain = plain.expect("a baseline");
    println!("requests per second at 4,096 requests:");
    for (place, ((name, _), rate)) in ways.iter().zip(&rates).enumerate() {
        let baseline = rates[if place <= plain {
            plain
        } else {
            ways.len() - 1
        }];
        println!("  {name:>17} {rate:>12.0}  ratio {:.3}", rate / baseline);
    }
    println!(
        "bench requests_per_second={:.0} ratio={:.3} text_bytes={}",
        rates[0],
        rates[0] / rates[plain],
        text_bytes(library::ARCHIVE)
    );
    #[cfg(feature = "journal")]
    println!(
        "bench_journal requests_per_second={:.0} ratio={:.3} of_hub_run={:.3} text_bytes={}",
        rates[plain + 1],
        rates[plain + 1] / rates[plain + 2],
        rates[plain + 1] / rates[0],
        text_bytes(library::JOURNAL_ARCHIVE)
    );
}
