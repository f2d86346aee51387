//! Blocks to measure on: accepted states with events, stamps and aggregates in
//! every chain, blocks, actions and timers, written straight into the lent words
//! by docs/LAYOUT.md.

/// All moments of a block lie from here on, in nanoseconds.
pub const START: u64 = 1_000_000_000_000;

/// What a block looks like.
#[derive(Clone, Copy, PartialEq)]
pub struct Plan {
    /// records
    pub records: usize,
    /// records left over for calls, beside those held in reserve
    pub spare: usize,
    /// record numbers are a random permutation; else they rise along the chains
    pub shuffled: bool,
    /// nearly every record in this one chain, else the same number in each
    pub one_chain: Option<usize>,
    /// an aggregate and a timer come before the first event; else after all
    pub due: bool,
    /// the chain whose head comes first of all events
    pub first: usize,
    /// the client's block ends before the first event, with packets that waited since before its end; else both blocks after all
    pub expires: bool,
}

/// A generator of numbers, the same in every run (splitmix64).
pub struct Random(pub u64);

impl Random {
    pub fn next(&mut self) -> u64 {
        self.0 = self.0.wrapping_add(0x9e37_79b9_7f4a_7c15);
        let mut z = self.0;
        z = (z ^ (z >> 30)).wrapping_mul(0xbf58_476d_1ce4_e5b9);
        z = (z ^ (z >> 27)).wrapping_mul(0x94d0_49bb_1331_11eb);
        z ^ (z >> 31)
    }

    pub fn below(&mut self, n: u64) -> u64 {
        self.next() % n
    }
}

/// The lent words, each record within one line of the cache.
pub struct Block {
    store: Vec<u64>,
    from: usize,
    length: usize,
}

impl Block {
    pub fn new(length: usize) -> Block {
        let store = vec![0; length + 8];
        let from = store.as_ptr().align_offset(64);
        Block {
            store,
            from,
            length,
        }
    }

    pub fn words(&self) -> &[u64] {
        &self.store[self.from..self.from + self.length]
    }

    pub fn words_mut(&mut self) -> &mut [u64] {
        &mut self.store[self.from..self.from + self.length]
    }
}

/// How many records of each chain are in use: chains 1 to 11.
fn counts(plan: &Plan, used: usize) -> [usize; 12] {
    let mut counts = [0; 12];
    for i in 0..used {
        let k = match plan.one_chain {
            Some(k) if i >= 22 => k,
            // first the aggregates, so that a small block has one
            _ if i % 11 == 0 => 11,
            _ => i % 11,
        };
        counts[k] += 1;
    }
    counts[0] = plan.records - used;
    counts
}

/// The tag of a record of chain k.
fn tag(k: usize, machines: u64, random: &mut Random) -> u64 {
    let padding = 256 * random.below(2);
    let replace = 1024 * random.below(2);
    match if k == 11 { 11 } else { k % 5 } {
        11 => 11 + 2048 * random.below(2),
        0 => k as u64,
        1 => k as u64 + 16,
        2 => k as u64 + padding + replace,
        3 => k as u64 + 512 + padding + replace,
        _ => {
            let kind = 2 + random.below(8);
            let machine = if [2, 6, 8, 9].contains(&kind) {
                random.below(machines)
            } else {
                0
            };
            k as u64 + 16 * kind + padding + 4096 * machine
        }
    }
}

/// Settings, sums, blocks, actions and timers; answers the records held in reserve.
fn header(plan: &Plan, w: &mut [u64]) -> (u64, u64) {
    let few = plan.records < 64;
    let machines = if few { 1 } else { 4 };
    let late = START + 1_000_000_000_000;
    w[0] = 20_000_000; // network delay
    w[1] = 1 + plan.records as u64 / 64; // rate
    w[3] = 1_000_000_000; // window
    w[4..8].copy_from_slice(&[1_000, 2_000, 3_000, 0]);
    w[8] = machines;
    w[9] = if few { 0 } else { machines };
    w[10] = 5_000;
    w[11] = 7_000;
    w[12] = if plan.expires { START + 6 } else { late + 1 };
    w[13] = if few { 0 } else { late + 8 };
    w[14] = 1;
    for side in 0..2 {
        for m in 0..w[8 + side] as usize {
            let slot = 16 * side + m;
            w[64 + slot] = late + 100 * slot as u64;
            w[96 + 3 * slot] = [1, 2, 9, 14][m];
            w[97 + 3 * slot] = late + 1_000 + 10 * slot as u64;
            w[98 + 3 * slot] = if m % 2 == 0 { 0 } else { 50_000 };
        }
    }
    if plan.due {
        w[64] = START + 2 + 1;
    }
    let blocks = 3 * (w[12] != 0) as u64 + 3 * (w[13] != 0) as u64;
    (blocks + 5 * (w[8] + w[9]), machines)
}

/// The numbers that the records of the chains get, in the order of the chains.
fn numbers(plan: &Plan, random: &mut Random) -> Vec<u64> {
    let mut numbers: Vec<u64> = (1..=plan.records as u64).collect();
    if plan.shuffled {
        for i in (1..numbers.len()).rev() {
            numbers.swap(i, random.below(i as u64 + 1) as usize);
        }
    }
    numbers
}

/// The block of a plan.
pub fn block(plan: &Plan) -> Block {
    let mut random = Random(plan.records as u64);
    let mut block = Block::new(256 + 4 * plan.records);
    let w = block.words_mut();
    let (reserved, machines) = header(plan, w);
    let used = plan.records - reserved as usize - plan.spare;
    let counts = counts(plan, used);
    // what the records hold is the same in order and shuffled
    let numbers = numbers(plan, &mut Random(1));
    let mut place = 0;
    for k in [1, 2, 3, 4, 5, 6, 7, 8, 9, 10, 11, 0] {
        let chain = &numbers[place..place + counts[k]];
        place += counts[k];
        w[24 + 2 * k] = chain.first().copied().unwrap_or(0);
        w[25 + 2 * k] = chain.len() as u64;
        let mut moment = START + 20 + random.below(50);
        if k == plan.first {
            moment = START + 10;
        }
        if k == 2 && plan.expires {
            moment = START + 1;
        }
        if k == 11 && !plan.due {
            moment += 1_000_000_000_000;
        } else if k == 11 {
            moment = START;
        }
        for (i, &r) in chain.iter().enumerate() {
            let at = 256 + 4 * (r as usize - 1);
            w[at] = chain.get(i + 1).copied().unwrap_or(0);
            if k == 0 {
                continue;
            }
            w[at + 1] = moment;
            let stamp = k % 5 == 0;
            w[at + 2] = if stamp { 0 } else { random.below(5_000) };
            w[at + 3] = tag(k, machines, &mut random);
            // stamps lie close together, within the window
            moment += 1 + random.below(if stamp { 1_000 } else { 1_000_000 });
            if k == 11 && plan.due && i == 0 {
                moment += 1_000_000_000_000;
            }
        }
    }
    block
}
