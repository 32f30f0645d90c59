//! Programs of flow words for the benchmark, with lists of masks that lead a group through them.

use crate::inputs::Random;
use bench::fast::planes::Group;
use bench::fast::program::Program;

/// How many slots a program has.
const SLOTS: u32 = 500;
/// How many lists of masks lead through a program. Fewer, and the processor would learn every jump by heart.
const LISTS: usize = 16;

/// A LOOP of 64 turns around a branch: those whose alu bit is set leave it, and all go on together to the close.
const LOOPING: [u32; 10] = [
    0x0000_0001,
    0x0005_0000,
    0x0200_F000,
    0x0003_0000,
    0x0000_0020,
    0,
    0x0101_0020,
    0,
    0x0000_0002,
    0x0001_0000,
];
/// Its integer word: 64 turns, aL from 0 on by 1.
const TURNS: u32 = 0x0001_0040;

/// A program, and lists of masks from a fresh group to its end: alu, then predicate, for each step.
pub struct Way {
    pub words: Vec<u32>,
    pub lists: Vec<Vec<u32>>,
    pub booleans: u32,
    pub integers: Vec<u32>,
}

impl Way {
    /// A way without loops for groups of this size, on which no step is refused.
    pub fn new(size: u32, seed: u64) -> Way {
        let mut random = Random::new(seed);
        let mut way = Way {
            words: [0x20, 0].repeat(SLOTS as usize),
            lists: Vec::new(),
            booleans: random.word(),
            integers: Vec::new(),
        };
        for position in 0..SLOTS {
            way.choose_slot(&mut random, position);
        }
        way.with_lists(size, &mut random)
    }

    /// A way through a loop of 64 turns.
    pub fn looping(size: u32, seed: u64) -> Way {
        let mut random = Random::new(seed);
        let way = Way {
            words: LOOPING.to_vec(),
            lists: Vec::new(),
            booleans: random.word(),
            integers: vec![TURNS],
        };
        way.with_lists(size, &mut random)
    }

    /// A way over branches one after the other, each with one side: what both modes go alike.
    pub fn branching(size: u32, seed: u64) -> Way {
        let mut random = Random::new(seed);
        let branch = |number: u32| {
            let end = 3 * number + 2;
            [0x0200_F000, end << 16, 0x0000_0020, 0, 0x0101_0020, 0]
        };
        let way = Way {
            words: (0..SLOTS / 3).flat_map(branch).collect(),
            lists: Vec::new(),
            booleans: random.word(),
            integers: Vec::new(),
        };
        way.with_lists(size, &mut random)
    }

    fn with_lists(mut self, size: u32, random: &mut Random) -> Way {
        self.lists = (0..LISTS).map(|_| self.new_list(size, random)).collect();
        self
    }

    /// A slot that may jump up to three slots on: ifs, elses and ends of ifs, mostly with a plain jump function.
    fn choose_slot(&mut self, random: &mut Random, position: u32) {
        const FUNCTIONS: [u32; 6] = [0xF0, 0x0F, 0xCC, 0x33, 0xAA, 0x55];
        let function = if random.once_in(4) {
            random.below(256)
        } else {
            FUNCTIONS[random.below(6) as usize]
        };
        let invert = u32::from(random.once_in(5)) << 4;
        let any = random.below(2) << 5;
        let (stay, jump) = (random.below(3) << 24, random.below(3) << 26);
        let pop_count = (1 + random.below(3)) << 16;
        let address = (position + 1 + random.below(3)).min(SLOTS);
        let place = 2 * position as usize;
        self.words[place] = invert | any | function << 8 | pop_count | stay | jump;
        self.words[place + 1] = random.below(32) | address << 16;
    }

    /// Masks drawn anew wherever a step with them would be refused.
    fn new_list(&self, size: u32, random: &mut Random) -> Vec<u32> {
        let program = Program::load(&self.words).expect("a program");
        let mut group = Group::begin(size).expect("a group");
        let mut list = Vec::new();
        let end = self.words.len() as u32 / 2;
        while group.position() < end {
            let (alu, predicate) = (random.word(), random.word());
            let stepped = group.step(&program, alu, predicate, self.booleans, &self.integers);
            if stepped.is_ok() {
                list.extend([alu, predicate]);
            }
        }
        list
    }
}
