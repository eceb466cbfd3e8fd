//! Times the proved engine and the twin, in one process and on the same input, by turns.
//!
//! What a call takes is the difference of two runs, one with it and one without, each the best of several. So copying the image
//! into a device and out again, which both sides do alike, does not count.

use std::hint::black_box;
use std::time::{Duration, Instant};

use library::rows::{Setup, Timing, BATTERY, SIMULATED};
use library::{original, twins};
use twin::device::{Battery, Simulated};
use twin::instruction::{Instruction, EARMARK};

const FILL: u8 = 0;
const OPEN: u8 = 1;
const READ: u8 = 2;

/// How many runs there are of each.
const RUNS: usize = 9;

/// How many refused instructions are given.
const REFUSALS: u32 = 1_000_000;

type Side = fn(&Setup, &mut [u8], &Timing) -> u64;

const SIDES: [Side; 2] = [original::time, twins::time];

fn main() {
    println!("{:44} {:>10} {:>10} {:>6}", "", "proved", "twin", "ratio");
    for (name, device, row) in [("simulated", SIMULATED, Simulated::ROW), ("battery", BATTERY, Battery::ROW)] {
        for (entries, rounds) in [(1_000, 300), (10_000, 30), (32_767, 10)] {
            let setup = Setup { device, register: 1, cash: 1, calls: u32::MAX };
            Case { name, setup, row, entries, rounds }.time();
        }
    }
}

/// A device with just the blocks of a journal of so many entries.
struct Case {
    name: &'static str,
    setup: Setup,
    row: usize,
    entries: u32,
    rounds: u32,
}

impl Case {
    fn time(&self) {
        let mut image = self.image();
        println!("{}, {} entries, an image of {:.1} MB", self.name, self.entries, image.len() as f64 / 1e6);
        let blank = Timing { entries: 0, ..self.fill() };
        let times = f64::from(self.rounds) * f64::from(self.entries);
        self.show("instruct, accepted, ns", 1e9 / times, &mut image, &self.fill(), &blank);
        if self.entries == 1_000 {
            self.time_refused(&mut image);
        }
        self.make_journal(&mut image);
        let open = Timing { what: OPEN, ..self.fill() };
        let each = 1e3 / f64::from(self.rounds);
        let opened = self.show("open, ms", each, &mut image, &open, &Timing { rounds: 0, ..open });
        let read = Timing { what: READ, ..open };
        let read = self.show("read of its blocks, summed, ms", each, &mut image, &read, &Timing { rounds: 0, ..read });
        let sum = sum(&image, self.rounds) * each;
        println!("  {:42} {sum:10.3}", "sum of the bytes of their rows, ms");
        println!("  {:42} {:10.2} {:10.2}", "open against that read", opened[0] / read[0], opened[1] / read[1]);
        println!("  {:42} {:10.2} {:10.2}", "open against that sum", opened[0] / sum, opened[1] / sum);
        let nothing = Timing { rounds: 0, ..open };
        println!(
            "  {:42} {:10.3} {:10.3}",
            "not counted: the image copied, ms",
            self.copy(0, &nothing),
            self.copy(1, &nothing)
        );
    }

    fn image(&self) -> Vec<u8> {
        vec![0; self.blocks() as usize * self.row]
    }

    fn blocks(&self) -> u32 {
        1 + 2 * self.entries
    }

    fn fill(&self) -> Timing {
        Timing {
            what: FILL,
            rounds: self.rounds,
            pairs: self.entries,
            entries: self.entries,
            refusals: 0,
            blocks: self.blocks(),
            accepted: Instruction::issue(0, 0, 1),
            refused: Instruction::default(),
        }
    }

    /// Makes a full journal in the image. Each side fills it, and has to find every entry again.
    fn make_journal(&self, image: &mut [u8]) {
        let once = Timing { rounds: 1, ..self.fill() };
        for side in SIDES {
            assert_eq!(side(&self.setup, image, &once), u64::from(self.entries));
            assert_eq!(side(&self.setup, image, &Timing { what: OPEN, ..once }), u64::from(self.entries));
        }
    }

    fn time_refused(&self, image: &mut [u8]) {
        let refused = [
            ("instruct, refused with 32, ns", Instruction::default()),
            ("instruct, refused with 35, ns", Instruction::of_trade(EARMARK, 7)),
            ("instruct, refused with 24, ns", Instruction::issue(0, 0, u64::MAX)),
        ];
        for (name, x) in refused {
            let without = Timing { rounds: 1, refused: x, ..self.fill() };
            let with = Timing { refusals: REFUSALS, ..without };
            self.show(name, 1e9 / f64::from(REFUSALS), image, &with, &without);
        }
    }

    /// Prints, for both sides and in a unit, how much longer one of the two takes than the other.
    fn show(&self, name: &str, unit: f64, image: &mut [u8], with: &Timing, without: &Timing) -> [f64; 2] {
        let mut best = [[Duration::MAX; 2]; 2];
        for _ in 0..RUNS {
            for (side, best) in SIDES.iter().zip(&mut best) {
                for (timing, best) in [with, without].iter().zip(best) {
                    let start = Instant::now();
                    black_box(side(&self.setup, image, timing));
                    *best = start.elapsed().min(*best);
                }
            }
        }
        let [proved, twin] = best.map(|[with, without]| (with.as_secs_f64() - without.as_secs_f64()) * unit);
        println!("  {name:42} {proved:10.3} {twin:10.3} {:6.2}", proved / twin);
        [proved, twin]
    }

    fn copy(&self, side: usize, nothing: &Timing) -> f64 {
        let mut image = self.image();
        let mut best = Duration::MAX;
        for _ in 0..RUNS {
            let start = Instant::now();
            SIDES[side](&self.setup, &mut image, nothing);
            best = start.elapsed().min(best);
        }
        best.as_secs_f64() * 1e3
    }
}

/// The seconds that it takes to sum all bytes so many times.
fn sum(image: &[u8], rounds: u32) -> f64 {
    let mut best = Duration::MAX;
    for _ in 0..RUNS {
        let start = Instant::now();
        for _ in 0..rounds {
            black_box(black_box(image).iter().map(|byte| u64::from(*byte)).sum::<u64>());
        }
        best = start.elapsed().min(best);
    }
    best.as_secs_f64()
}
