//! Requests and answers in words, for whoever reads a failure.

use streams::Case;

fn number(bytes: &[u8]) -> u32 {
    u32::from_le_bytes([bytes[0], bytes[1], bytes[2], bytes[3]])
}

pub fn request_in_words(record: &[u8]) -> String {
    let (desk, item, value) = (record[1], record[2], number(&record[4..8]));
    let words = match record[0] {
        1 => format!("desk {desk} begins"),
        2 => format!("desk {desk} reads item {item}"),
        3 => format!("desk {desk} writes {value} to item {item}"),
        4 => format!("desk {desk} ends"),
        5 => format!("desk {desk} abandons"),
        kind => format!("desk {desk} sends kind {kind}"),
    };
    format!("{words} {record:?}")
}

pub fn answer_in_words(record: &[u8]) -> String {
    let (item, reason) = (record[2], record[3]);
    let (first, second) = (number(&record[4..8]), number(&record[8..12]));
    let words = match (record[0], reason) {
        (0, _) => format!("refused {reason}"),
        (1, _) => format!("opened, age {first}, start {second}"),
        (2, _) => format!("value {first} of item {item}"),
        (3, _) => format!("stored item {item}"),
        (4, _) => format!("wait for desk {first}, which holds item {item}"),
        (5, _) => format!("committed as {first}"),
        (6, _) => "abandoned".to_string(),
        (7, 1) => format!("aborted, item {item} overwritten by {first}"),
        (7, 2) => format!("aborted, start {first} too old"),
        (7, 3) => format!("aborted, yields to desk {first}, which holds item {item}"),
        _ => "no answer of the outline".to_string(),
    };
    format!("{words} {record:?}")
}

/// A short stream, one request a line.
pub fn stream_in_words(requests: &[u8]) -> String {
    let lines = requests.chunks(8).map(|record| match record.len() {
        8 => format!("  {}\n", request_in_words(record)),
        _ => format!("  ragged {record:?}\n"),
    });
    lines.collect()
}

/// How to run this case alone.
pub fn rerun(case: &Case) -> String {
    format!(
        "generator {}, seed {}\nrun it alone: CHAFFDANCER_GENERATOR={} CHAFFDANCER_SEED={} \
         cargo test --release --offline -p checks",
        case.generator, case.seed, case.generator, case.seed
    )
}
