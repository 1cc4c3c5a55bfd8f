//! A run has the same outcome as its committed transactions one after the
//! other in the order of their numbers. Requests and answers alone are used.

use checks::{each, library_run, rebuild, rerun, Deed};
use streams::Case;

fn number(bytes: &[u8]) -> u32 {
    u32::from_le_bytes([bytes[0], bytes[1], bytes[2], bytes[3]])
}

/// How many transactions were replayed.
fn replay(case: &Case) -> Result<usize, String> {
    let outcome = library_run(case)?;
    if outcome.count < 0 {
        return Ok(0);
    }
    let mut values: Vec<u32> = case.table.chunks(16).map(|row| number(&row[8..])).collect();
    let committed = rebuild(&case.requests, &outcome.answers);
    for (place, transaction) in committed.iter().enumerate() {
        if transaction.number as usize != place + 1 {
            return Err(format!(
                "commit {} has number {}",
                place + 1,
                transaction.number
            ));
        }
        for &deed in &transaction.deeds {
            match deed {
                Deed::Put(item, value) => values[item] = value,
                Deed::Got(item, value) if values[item] != value => {
                    return Err(format!(
                        "transaction {} got {value} from item {item}, in order it gets {}",
                        transaction.number, values[item]
                    ));
                }
                Deed::Got(..) => {}
            }
        }
    }
    for (item, row) in case.table.chunks(16).enumerate() {
        let value = number(&outcome.values[item * 4..]);
        if value != values[item] {
            return Err(format!(
                "item {item} ends at {value}, in order at {}",
                values[item]
            ));
        }
        if value < number(row) || value > number(&row[4..]) {
            return Err(format!("item {item} ends at {value}, outside its range"));
        }
    }
    Ok(committed.len())
}

#[test]
fn replay_in_number_order() {
    let mut transactions = 0;
    each(2, |case| match replay(case) {
        Ok(more) => transactions += more,
        Err(why) => panic!("{}\n{why}", rerun(case)),
    });
    println!("{transactions} transactions replayed");
    assert!(checks::chosen().is_some() || transactions > 100_000);
}
