//! The committed transactions, rebuilt from requests and answers alone.

/// What a transaction was told it did.
#[derive(Clone, Copy, Debug)]
pub enum Deed {
    Got(usize, u32),
    Put(usize, u32),
}

pub struct Committed {
    pub number: u32,
    pub deeds: Vec<Deed>,
}

fn number(bytes: &[u8]) -> u32 {
    u32::from_le_bytes([bytes[0], bytes[1], bytes[2], bytes[3]])
}

/// In the order of their commits.
pub fn rebuild(requests: &[u8], answers: &[u8]) -> Vec<Committed> {
    let mut open: Vec<Vec<Deed>> = vec![Vec::new(); 16];
    let mut committed = Vec::new();
    for (request, answer) in requests.chunks_exact(8).zip(answers.chunks_exact(12)) {
        let desk = request[1] as usize;
        match answer[0] {
            1 | 6 | 7 => open[desk].clear(),
            2 => open[desk].push(Deed::Got(request[2] as usize, number(&answer[4..]))),
            3 => open[desk].push(Deed::Put(request[2] as usize, number(&request[4..]))),
            5 => committed.push(Committed {
                number: number(&answer[4..]),
                deeds: std::mem::take(&mut open[desk]),
            }),
            _ => {}
        }
    }
    committed
}
