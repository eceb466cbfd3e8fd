//! The twin, behind the same rows.

use twin::book::{Balances, Book, Lots};
use twin::device::{Battery, Device, PoweredDevice, Simulated};
use twin::engine::{Content, Engine, Slip};
use twin::fault::Fault;
use twin::instruction::Instruction;
use twin::journal;

use crate::rows::{action, Answer, Call, Setup, Timing, BATTERY, MISFIT, SIMULATED};

/// A device that is made from an image, and gives it back.
trait Imaged: PoweredDevice + 'static {
    fn of_image(image: Vec<u8>, calls: u32) -> Self;
    fn image(self) -> Vec<u8>;
}

impl Imaged for Simulated {
    fn of_image(image: Vec<u8>, calls: u32) -> Simulated {
        Simulated::new(image, calls)
    }

    fn image(self) -> Vec<u8> {
        self.into_image()
    }
}

impl Imaged for Battery {
    fn of_image(image: Vec<u8>, calls: u32) -> Battery {
        Battery::new(image, calls)
    }

    fn image(self) -> Vec<u8> {
        self.into_image()
    }
}

/// A twin that is given one call after another.
pub trait Gives {
    fn give(&mut self, call: &Call, data: &mut [u8]) -> Answer;
}

enum Work<'a> {
    Start(&'a mut Option<Box<dyn Gives>>),
    Calls { calls: &'a [Call], data: &'a mut [u8], answers: &'a mut [Answer] },
    Timing(&'a Timing),
}

/// Answers the calls, and changes image and data as they do.
pub fn run(setup: &Setup, image: &mut [u8], data: &mut [u8], calls: &[Call]) -> Vec<Answer> {
    let mut answers = vec![Answer::of_number(254); calls.len()];
    carry_out(setup, image, Work::Calls { calls, data, answers: &mut answers });
    answers
}

/// A device over an image, and two books, to be given calls.
pub fn start(setup: &Setup, image: &[u8]) -> Box<dyn Gives> {
    let mut twin = None;
    carry_out(setup, &mut image.to_vec(), Work::Start(&mut twin));
    twin.expect("it was made")
}

/// Does what is to be timed, and gives the count.
pub fn time(setup: &Setup, image: &mut [u8], timing: &Timing) -> u64 {
    carry_out(setup, image, Work::Timing(timing))
}

fn carry_out(setup: &Setup, image: &mut [u8], work: Work) -> u64 {
    match setup.device {
        SIMULATED => on_device::<Simulated>(setup, image, work),
        BATTERY => on_device::<Battery>(setup, image, work),
        _ => panic!("no such device"),
    }
}

fn on_device<D: Imaged>(setup: &Setup, image: &mut [u8], work: Work) -> u64 {
    match (setup.register, setup.cash) {
        (1, 1) => on_image::<D, _, _>(setup, image, Balances::new(), Balances::new(), work),
        (1, 2) => on_image::<D, _, _>(setup, image, Balances::new(), Lots::new(), work),
        (2, 1) => on_image::<D, _, _>(setup, image, Lots::new(), Balances::new(), work),
        (2, 2) => on_image::<D, _, _>(setup, image, Lots::new(), Lots::new(), work),
        _ => panic!("no such books"),
    }
}

fn on_image<D: Imaged, R: Book + 'static, C: Book + 'static>(
    setup: &Setup,
    image: &mut [u8],
    register: R,
    cash: C,
    work: Work,
) -> u64 {
    let device = D::of_image(image.to_vec(), setup.calls);
    let (device, told) = match work {
        Work::Start(twin) => {
            *twin = Some(Box::new(Some(Machine::new(device, register, cash))));
            return 0;
        }
        Work::Timing(timing) => time_parts((device, register, cash), timing),
        Work::Calls { calls, data, answers } => {
            let mut machine = Machine::new(device, register, cash);
            for (call, answer) in calls.iter().zip(answers) {
                (machine, *answer) = machine.give(call, data);
            }
            (machine.finish(), 0)
        }
    };
    image.copy_from_slice(&device.image());
    told
}

impl<D: PoweredDevice, R: Book, C: Book> Gives for Option<Machine<D, R, C>> {
    fn give(&mut self, call: &Call, data: &mut [u8]) -> Answer {
        let (machine, answer) = self.take().expect("it is put back").give(call, data);
        *self = Some(machine);
        answer
    }
}

enum Condition<D, R, C> {
    Running(Engine<D, R, C>),
    Shut(D, R, C),
}

struct Machine<D, R, C> {
    condition: Condition<D, R, C>,
    slip: Option<Slip>,
}

impl<D: PoweredDevice, R: Book, C: Book> Machine<D, R, C> {
    fn new(device: D, register: R, cash: C) -> Self {
        Machine { condition: Condition::Shut(device, register, cash), slip: None }
    }

    fn give(mut self, call: &Call, data: &mut [u8]) -> (Self, Answer) {
        let misfit = Answer::of_number(MISFIT);
        match (call.action, self.condition) {
            (action::OPEN, Condition::Shut(device, register, cash)) => {
                let engine = Engine::open(device, register, cash);
                let answer = answered(engine.opening());
                (Machine { condition: Condition::Running(engine), ..self }, answer)
            }
            (action::CLOSE, Condition::Running(engine)) => {
                let answer = self.slip.map_or(Answer::of_number(0), filed);
                let (device, register, cash, slip) = engine.close();
                (Machine { condition: Condition::Shut(device, register, cash), slip: Some(slip) }, answer)
            }
            (action::PRESENT, Condition::Running(engine)) if self.slip.is_some() => {
                let (slip, answer) = match engine.present(self.slip.expect("there is a slip")) {
                    Ok(verdict) => (None, Answer::of_number(verdict.number())),
                    Err((fault, slip)) => (Some(slip), Answer::of_fault(fault)),
                };
                (Machine { condition: Condition::Running(engine), slip }, answer)
            }
            (action::OPEN..=action::PRESENT, condition) => (Machine { condition, ..self }, misfit),
            (action::FILE, condition) => {
                let answer = self.slip.map_or(misfit, filed);
                (Machine { condition, slip: None }, answer)
            }
            (_, condition) => {
                self.condition = condition;
                let answer = match &mut self.condition {
                    Condition::Running(engine) => to_engine(engine, call, data),
                    Condition::Shut(device, register, cash) => to_parts(device, register, cash, call, data),
                };
                (self, answer.unwrap_or(misfit))
            }
        }
    }

    fn finish(self) -> D {
        match self.condition {
            Condition::Shut(device, _, _) => device,
            Condition::Running(engine) => engine.close().0,
        }
    }
}

fn filed(slip: Slip) -> Answer {
    match slip.file() {
        Content::Unknown => Answer::telling(0, 0),
        Content::Known { entries, in_hand: None } => Answer::telling(1, entries.into()),
        Content::Known { entries, in_hand: Some(x) } => {
            Answer { in_hand: 1, hand: x, ..Answer::telling(1, entries.into()) }
        }
    }
}

fn answered<F: Into<Fault>>(answer: Result<(), F>) -> Answer {
    told(answer.map(|()| 0))
}

fn told<F: Into<Fault>>(answer: Result<u64, F>) -> Answer {
    answer.map_or_else(|fault| Answer::of_fault(fault.into()), |value| Answer::telling(value, 0))
}

fn held<F: Into<Fault>>(answer: Result<(u64, u64), F>) -> Answer {
    answer.map_or_else(|fault| Answer::of_fault(fault.into()), |(free, blocked)| Answer::telling(free, blocked))
}

/// The bytes that a call uses, if all of them are there.
fn bytes_of<'a>(call: &Call, data: &'a mut [u8]) -> Option<&'a mut [u8]> {
    let from = call.from as usize;
    data.get_mut(from..from + call.length as usize)
}

/// Answers a call to an engine, if it is one.
fn to_engine<D: Device, R: Book, C: Book>(
    engine: &mut Engine<D, R, C>,
    call: &Call,
    data: &mut [u8],
) -> Option<Answer> {
    let x = call.fields;
    Some(match call.action {
        action::INSTRUCT => answered(engine.instruct(&x)),
        action::INSTRUCT_BYTES => match Instruction::from_bytes(bytes_of(call, data)?) {
            Ok(x) => answered(engine.instruct(&x)),
            Err(refusal) => Answer::of_fault(refusal.into()),
        },
        action::SECURITIES => held(engine.securities(x.account, x.item)),
        action::MONEY => held(engine.money(x.account, x.currency)),
        action::TRADE_STATE => told(engine.trade_state(x.trade).map(|state| state as u64)),
        action::ENTRIES => told(engine.entries().map(u64::from)),
        action::OPENING => answered(engine.opening()),
        action::FOUND => Answer::telling(engine.found().into(), 0),
        _ => return None,
    })
}

/// Answers a call to a device or a book, if it is one.
fn to_parts(
    device: &mut impl PoweredDevice,
    register: &mut impl Book,
    cash: &mut impl Book,
    call: &Call,
    data: &mut [u8],
) -> Option<Answer> {
    match call.action {
        action::FORMAT => Some(answered(journal::format(device, call.number, register, cash))),
        30..=39 => to_book(register, call.action - 30, call),
        40..=49 => to_book(cash, call.action - 40, call),
        _ => to_device(device, call, data),
    }
}

fn to_device(device: &mut impl PoweredDevice, call: &Call, data: &mut [u8]) -> Option<Answer> {
    let bytes = bytes_of(call, data)?;
    Some(match call.action {
        action::RESTART => {
            device.restart(call.number, bytes);
            Answer::of_number(0)
        }
        action::READ => answered(device.read(call.number, bytes)),
        action::WRITE => answered(device.write(call.number, bytes)),
        action::SYNC => answered(device.sync()),
        action::SIZE => Answer::telling(device.size().into(), 0),
        _ => return None,
    })
}

fn to_book(book: &mut impl Book, action: u8, call: &Call) -> Option<Answer> {
    let x = &call.fields;
    let (account, item, quantity) = (x.account, x.item, x.quantity);
    Some(match action {
        0 => answered(book.credit(account, item, quantity)),
        1 => answered(book.block(account, item, quantity)),
        2 => answered(book.release(account, item, quantity)),
        3 => answered(book.transfer(account, x.counterparty, item, quantity)),
        4 => held(book.free(account, item).and_then(|free| Ok((free, book.blocked(account, item)?)))),
        5 => told(book.total(item)),
        6 => answered(book.credit_ruling(account, item, quantity)),
        7 => {
            book.clear();
            Answer::of_number(0)
        }
        _ => return None,
    })
}

type Parts<D, R, C> = (D, R, C);

fn time_parts<D: PoweredDevice, R: Book, C: Book>(parts: Parts<D, R, C>, timing: &Timing) -> (D, u64) {
    match timing.what {
        0 => fill(parts, timing),
        1 => reopen(parts, timing.rounds),
        _ => {
            let mut device = parts.0;
            let sum = read(&mut device, timing);
            (device, sum)
        }
    }
}

fn shut<D: Device, R: Book, C: Book>(engine: Engine<D, R, C>) -> Parts<D, R, C> {
    let (device, register, cash, slip) = engine.close();
    slip.file();
    (device, register, cash)
}

fn fill<D: PoweredDevice, R: Book, C: Book>(mut parts: Parts<D, R, C>, timing: &Timing) -> (D, u64) {
    let mut accepted = 0;
    for _ in 0..timing.rounds {
        let (mut device, register, cash) = parts;
        device.restart(u32::MAX, &[]);
        let _ = journal::format(&mut device, timing.pairs, &register, &cash);
        let mut engine = Engine::open(device, register, cash);
        for (x, times) in [(timing.accepted, timing.entries), (timing.refused, timing.refusals)] {
            for _ in 0..times {
                accepted += u64::from(engine.instruct(&x).is_ok());
            }
        }
        parts = shut(engine);
    }
    (parts.0, accepted)
}

fn reopen<D: Device, R: Book, C: Book>(mut parts: Parts<D, R, C>, rounds: u32) -> (D, u64) {
    let mut found = 0;
    for _ in 0..rounds {
        let (device, register, cash) = parts;
        let engine = Engine::open(device, register, cash);
        found += u64::from(engine.found());
        parts = shut(engine);
    }
    (parts.0, found)
}

fn read(device: &mut impl Device, timing: &Timing) -> u64 {
    let mut block = [0; twin::device::BLOCK];
    let mut sum = 0u64;
    for _ in 0..timing.rounds {
        for number in 0..timing.blocks {
            if device.read(number, &mut block).is_ok() {
                for byte in &block {
                    sum = sum.wrapping_add(u64::from(*byte));
                }
            }
        }
    }
    sum
}
