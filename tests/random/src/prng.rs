//! Seeded numbers: the same seed gives the same run.

/// Steps through all of 2^64 and mixes each step (splitmix).
#[derive(Clone, Debug)]
pub struct Prng {
    step: u64,
}

impl Prng {
    pub fn new(seed: u64) -> Prng {
        Prng { step: seed }
    }

    /// The numbers of one run among many under one seed.
    pub fn of_run(seed: u64, run: usize) -> Prng {
        let mut outer = Prng::new(seed ^ (run as u64).rotate_left(32));
        Prng::new(outer.draw())
    }

    pub fn draw(&mut self) -> u64 {
        self.step = self.step.wrapping_add(0x9e37_79b9_7f4a_7c15);
        let mut mixed = self.step;
        mixed = (mixed ^ (mixed >> 30)).wrapping_mul(0xbf58_476d_1ce4_e5b9);
        mixed = (mixed ^ (mixed >> 27)).wrapping_mul(0x94d0_49bb_1331_11eb);
        mixed ^ (mixed >> 31)
    }

    /// A number from 0 to `bound` - 1.
    pub fn below(&mut self, bound: usize) -> usize {
        (self.draw() % bound as u64) as usize
    }

    /// A number from `low` to `high`, both among them.
    pub fn between(&mut self, low: usize, high: usize) -> usize {
        low + self.below(high - low + 1)
    }

    /// The same for words.
    pub fn word(&mut self, low: u16, high: u16) -> u16 {
        self.between(usize::from(low), usize::from(high)) as u16
    }

    pub fn chance(&mut self, percent: usize) -> bool {
        self.below(100) < percent
    }

    pub fn pick<T: Clone>(&mut self, from: &[T]) -> T {
        from[self.below(from.len())].clone()
    }

    /// One of the choices, each as likely as its weight says.
    pub fn weigh<T: Clone>(&mut self, choices: &[(usize, T)]) -> T {
        let mut at = self.below(choices.iter().map(|(weight, _)| weight).sum());
        for (weight, choice) in choices {
            if at < *weight {
                return choice.clone();
            }
            at -= weight;
        }
        unreachable!("the weights were summed")
    }

    pub fn shuffle<T>(&mut self, list: &mut [T]) {
        for i in (1..list.len()).rev() {
            list.swap(i, self.below(i + 1));
        }
    }

    /// Up to `most` different members, at least one, in any order.
    pub fn some<T: Clone>(&mut self, from: &[T], most: usize) -> Vec<T> {
        let count = self.between(1, most.min(from.len()));
        self.sample(from, count)
    }

    /// `count` different members in any order, or all where there are less.
    pub fn sample<T: Clone>(&mut self, from: &[T], count: usize) -> Vec<T> {
        let mut all = from.to_vec();
        self.shuffle(&mut all);
        all.truncate(count);
        all
    }
}
