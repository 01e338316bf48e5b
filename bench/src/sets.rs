//! Full sets: 64 tasks, 16 cores and the longest frame, near capacity.

pub const TASKS: usize = 64;
pub const CORES: usize = 16;
pub const FRAME: u64 = 1_000_000;

#[derive(Clone, Copy)]
pub struct Task {
    pub budget: u64,
    pub mask: u16,
}

pub struct Set {
    pub tasks: Vec<Task>,
}

#[derive(Clone, Copy)]
pub enum Masks {
    Nested,
    Arbitrary,
}

/// A small random source (xorshift), so that every run has the same sets.
pub struct Random(pub u64);

impl Random {
    fn below(&mut self, limit: u64) -> u64 {
        self.0 ^= self.0 << 13;
        self.0 ^= self.0 >> 7;
        self.0 ^= self.0 << 17;
        (self.0 >> 8) % limit
    }
}

/// A set that asks 85 to 100 of each 100 units, dealt out core by core, so
/// that an allocation exists; one in four is then raised above all cores' time.
pub fn full(random: &mut Random, masks: Masks) -> Set {
    let mut tasks: Vec<Task> =
        (0..TASKS).map(|_| Task { budget: 0, mask: mask(random, masks) }).collect();
    let load = FRAME * (85 + random.below(16)) / 100;
    for core in 0..CORES {
        deal(random, &mut tasks, core, load);
    }
    if random.below(4) == 0 {
        while tasks.iter().map(|task| task.budget).sum::<u64>() <= CORES as u64 * FRAME {
            let task = &mut tasks[random.below(TASKS as u64) as usize];
            task.budget = (task.budget + random.below(FRAME / 4)).min(FRAME);
        }
    }
    Set { tasks }
}

/// Deals a core's load to tasks that may run on it.
fn deal(random: &mut Random, tasks: &mut [Task], core: usize, load: u64) {
    let mut left = load;
    let able: Vec<usize> = (0..TASKS).filter(|&task| tasks[task].mask >> core & 1 == 1).collect();
    while left > 0 && able.iter().any(|&task| tasks[task].budget < FRAME) {
        let task = &mut tasks[able[random.below(able.len() as u64) as usize]];
        let given = (random.below(FRAME / 8) + 1).min(left).min(FRAME - task.budget);
        task.budget += given;
        left -= given;
    }
}

/// Nested: an aligned block of 1, 2, 4, 8 or 16 cores, so that any two masks
/// are disjoint or one within the other.
fn mask(random: &mut Random, masks: Masks) -> u16 {
    match masks {
        Masks::Nested => {
            let size = 1 << random.below(5);
            let block = (1_u32 << size) - 1;
            let place = random.below(CORES as u64 / size) * size;
            (block << place) as u16
        }
        Masks::Arbitrary => (random.below(u64::from(u16::MAX)) + 1) as u16,
    }
}

/// The set's input line, without the line feed.
#[cfg_attr(not(line_call), allow(dead_code))]
pub fn line(set: &Set) -> Vec<u8> {
    let mut text = format!("{FRAME:08x}{CORES:02x}{:02x}", set.tasks.len());
    for task in &set.tasks {
        text += &format!("{:08x}{:04x}", task.budget, task.mask);
    }
    text.into_bytes()
}
