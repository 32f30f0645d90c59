//! No call panics, whatever it is given: numbers from the ends of every bound of
//! document 01 and from anywhere, lists and memories of any length, states along
//! any way. What is answered is compared elsewhere (rust/compare); here it is only
//! asked that each call answers. `cargo test --profile checked -p egretfold` asks the
//! same with overflow checks.

use egretfold::headers::NAMES;
use egretfold::*;

/// Numbers that only look random: the same on every machine.
struct Random(u64);

impl Random {
    fn word(&mut self) -> u32 {
        self.0 = self
            .0
            .wrapping_mul(6_364_136_223_846_793_005)
            .wrapping_add(1);
        (self.0 >> 32) as u32
    }

    fn below(&mut self, bound: u32) -> u32 {
        self.word() % bound
    }

    fn edition(&mut self) -> Edition {
        match self.below(2) {
            0 => Edition::First,
            _ => Edition::Second,
        }
    }

    /// Near a bound of document 01 in one half of the cases, anywhere in the other.
    fn number(&mut self) -> u32 {
        const BOUNDS: [u32; 20] = [
            0,
            1,
            2,
            4,
            8,
            13,
            16,
            31,
            32,
            100,
            400,
            512,
            2048,
            4096,
            8188,
            65_535,
            65_536,
            100_000_000,
            1 << 31,
            u32::MAX,
        ];
        let near = BOUNDS[self.below(20) as usize].wrapping_add(self.below(5));
        match self.below(4) {
            0 => self.word(),
            1 => NAMES[self.below(21) as usize].0,
            _ => near.wrapping_sub(2),
        }
    }

    fn numbers(&mut self, most: u32) -> Vec<u32> {
        (0..self.below(most + 1)).map(|_| self.number()).collect()
    }

    fn bytes(&mut self, most: u32) -> Vec<u8> {
        // Kinds of records are frequent, so that replays come somewhere.
        let one = |random: &mut Random| match random.below(3) {
            0 => random.word() as u8,
            _ => random.below(3) as u8,
        };
        (0..self.below(most + 1)).map(|_| one(self)).collect()
    }

    fn layout(&mut self) -> Layout {
        Layout {
            base: self.number() & if self.below(2) == 0 { !0 } else { !2047 },
            pitch: self.number(),
            height: self.number(),
            size: if self.below(4) == 0 {
                self.number()
            } else {
                1 << self.below(5)
            },
            tiled: self.below(2) == 0,
        }
    }
}

#[test]
fn layouts_elements_and_commands() {
    let mut random = Random(1);
    let mut accepted = 0;
    for _ in 0..200_000 {
        let (shape, x, y) = (random.layout(), random.number(), random.number());
        accepted += u32::from(layout(&shape).is_ok());
        let _ = (translate(&shape, x, y), locate(&shape, random.number()));
        let (mut memory, first) = (random.bytes(64), random.number());
        let data = random.bytes(20);
        let _ = read(&shape, x, y, &memory, first).map(|element| element.bytes().len());
        let _ = write(&shape, x, y, &mut memory, first, &data);
        let (format, height) = (random.number(), random.number());
        let _ = superfine(shape.base, format, height, x, y, &memory, first).map(|four| four.len());
        let header = random.number();
        let fields = [(); 4].map(|()| random.number());
        let mut room = random.numbers(6);
        let _ = (
            parameters(header),
            write_command(&Command { header, fields }, &mut room),
        );
    }
    assert!(accepted > 1_000, "{accepted} layouts were accepted");
}

#[test]
fn sessions() {
    let mut random = Random(2);
    let mut refused = 0;
    for _ in 0..20_000 {
        let mut session = Session::new(random.edition());
        for _ in 0..random.below(8) {
            let words = random.numbers(40);
            refused += u32::from(session.feed(&words).refusal.is_some());
            refused += u32::from(session.word(random.number()).is_err());
            let _ = session.format(random.number(), random.number());
        }
        let _ = (
            session.status(),
            session.runs(),
            session.claims(),
            session.domain(),
        );
        let _ = (
            session.output_mask(),
            session.conditional_mask(),
            session.test(),
        );
    }
    assert!(refused > 1_000, "{refused} words were refused");
}

#[test]
fn replays_and_scores() {
    let mut random = Random(3);
    let mut scored = 0;
    for _ in 0..20_000 {
        let mut replay = Replay::new(random.edition());
        let mut day = random.number();
        for _ in 0..random.below(6) {
            if random.below(3) > 0 {
                replay.feed(&[&[2][..], &day.to_le_bytes()].concat());
                day = day.wrapping_add(1);
            } else {
                replay.feed(&random.bytes(30));
            }
            let _ = replay.byte(random.below(3) as u8);
        }
        let _ = (
            replay.status(),
            replay.before(),
            replay.part(random.number()),
        );
        let _ = replay.days().count();
        let lease = Lease::new(random.number(), random.number(), random.number());
        if let Ok(lease) = lease {
            let _ = (
                lease.first_day(),
                lease.last_day(),
                lease.days(),
                lease.owed(),
            );
            scored += u32::from(replay.score(&lease).is_ok());
        }
    }
    assert!(scored > 100, "{scored} months were scored");
}

#[test]
fn programs_and_groups() {
    let mut random = Random(4);
    let mut steps = 0;
    for _ in 0..20_000 {
        let words = match random.below(2) {
            0 => random.numbers(1_030),
            // Plain slots with some bits of a step's fields.
            _ => (0..2 + 2 * random.below(20))
                .map(|place| match place % 2 {
                    0 => {
                        0x20 | random.word() & 0x0000_FF00
                            | random.word() & random.word() & 0x0600_00FF
                    }
                    _ => random.word() & 0x000F_001F,
                })
                .collect(),
        };
        let mode = if random.below(2) == 0 {
            Mode::Full
        } else {
            Mode::Partial
        };
        let size = if random.below(4) == 0 {
            random.number()
        } else {
            1 + random.below(32)
        };
        let group = Group::begin_in(size, mode);
        if let (Ok(program), Ok(mut group)) = (Program::load(&words), group) {
            for _ in 0..8 {
                let (alu, predicate, booleans) = (random.word(), random.word(), random.word());
                let integers = random.numbers(4);
                let stepped = group.step(&program, alu, predicate, booleans, &integers);
                steps += u32::from(stepped.is_ok());
                let masks = random.numbers(9);
                let _ = group.run(&program, &masks, booleans, &integers);
                let floats = (0..random.below(130)).map(|_| f32::from_bits(random.word()));
                let floats: Vec<f32> = floats.collect();
                let _ = group.kill(&program, &floats, random.number());
                let _ = (
                    group.loops(),
                    group.returns(),
                    group.size(),
                    group.started(),
                );
                let _ = (
                    group.counter(random.below(32)),
                    group.mode(),
                    group.position(),
                );
            }
            let _ = (program.slots(), program.slot(random.below(512) as usize));
        }
        let mut register = || [(); 4].map(|()| f32::from_bits(random.word()));
        let (a, b, third) = (register(), register(), register());
        let _ = (maximum(&a, &b), choice(&a, &b, &third));
    }
    assert!(steps > 1_000, "{steps} steps were made");
}
