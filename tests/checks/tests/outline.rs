//! The compiled library on the outline's own cases, with the answers written
//! out there and not taken from the second scheduler.

use checks::library_run;
use streams::examples::{examples, Example, Line};
use streams::{outline_table, Case};

fn number(bytes: &[u8]) -> u32 {
    u32::from_le_bytes([bytes[0], bytes[1], bytes[2], bytes[3]])
}

fn line(answer: &[u8]) -> Line {
    let [code, desk, item, reason] = [answer[0], answer[1], answer[2], answer[3]].map(u32::from);
    let (first, second) = (number(&answer[4..]), number(&answer[8..]));
    [desk, code, item, reason, first, second]
}

fn case(example: &Example) -> Case {
    Case {
        generator: "example",
        seed: 0,
        table: outline_table(),
        requests: example.requests.concat(),
        answers_length: example.requests.len() * 12,
        values_length: 256,
        journal_length: 0,
    }
}

#[test]
fn the_outlines_cases() {
    for example in examples() {
        let outcome = library_run(&case(&example)).expect(example.name);
        assert_eq!(outcome.count, example.requests.len() as i64);
        let lines: Vec<Line> = outcome.answers.chunks(12).map(line).collect();
        let last = &lines[lines.len() - example.last.len()..];
        assert_eq!(last, example.last, "{}", example.name);
        let opening: Vec<u32> = outline_table()
            .chunks(16)
            .map(|row| number(&row[8..]))
            .collect();
        let values = outcome.values.chunks(4).map(number);
        let finals: Vec<(usize, u32)> = values
            .enumerate()
            .filter(|&(item, value)| value != opening[item])
            .collect();
        assert_eq!(finals, example.finals, "{}", example.name);
    }
}
