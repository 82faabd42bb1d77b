//! Middle times of calls that take turns. What is measured is the processor's time, so that other load
//! of the machine isn't.

use std::hint::black_box;
use std::time::{Duration, Instant};

use wigneld_tests::cases::Inputs;
use wigneld_tests::limits::SCRIPT_BYTES;

use crate::calls::{in_words, measured_call, Call, Implementation, Lent, CALLS, IMPLEMENTATIONS};
use crate::shapes::SHAPES;
use crate::{lists, SIZES};

/// The repetitions of one figure together fill about this time.
const PATIENCE: Duration = Duration::from_millis(200);
const LEAST_REPETITIONS: usize = 5;
const MOST_REPETITIONS: usize = 2000;

/// Short calls are timed several at a time, so that the clock's own time doesn't count.
const LEAST_TIMED: Duration = Duration::from_micros(100);
const MOST_AT_A_TIME: u128 = 10_000;

/// How long this thread has had a processor.
fn processor_time() -> Duration {
    #[repr(C)]
    struct Timespec {
        seconds: i64,
        nanoseconds: i64,
    }
    extern "C" {
        fn clock_gettime(clock: i32, time: *mut Timespec) -> i32;
    }
    const THREAD: i32 = 3;
    let mut now = Timespec { seconds: 0, nanoseconds: 0 };
    // The pointer is to a timespec that lives for the call.
    let failed = unsafe { clock_gettime(THREAD, &mut now) };
    assert_eq!(failed, 0, "the clock of a thread's processor time");
    Duration::new(now.seconds as u64, now.nanoseconds as u32)
}

/// A copy of a step's term: what a step can't be faster than.
pub struct Copied {
    /// Microseconds.
    pub time: f64,
    pub records: usize,
    /// How many steps the measured call makes.
    pub steps: u64,
}

/// Microseconds of each implementation, and what all of them answered.
pub struct Measured {
    pub answer: String,
    pub times: Vec<f64>,
    pub copy: Option<Copied>,
}

/// Calls once with each implementation, asserts that all answer alike and leave the same bytes, and
/// gives the answer with the memory that it left.
pub fn answers(call: Call, inputs: &Inputs) -> (u64, Lent) {
    let mut told: Vec<(u64, Lent)> = IMPLEMENTATIONS
        .iter()
        .map(|&who| {
            let mut lent = Lent::new();
            (measured_call(who, call, inputs, &mut lent), lent)
        })
        .collect();
    for (answer, lent) in &told {
        assert_eq!(*answer, told[0].0, "both answer alike");
        assert!(*lent == told[0].1, "both leave the same bytes");
    }
    told.swap_remove(0)
}

/// All shapes at all sizes, untimed.
pub fn compare() {
    let mut alike = 0;
    for shape in &SHAPES {
        for size in SIZES {
            let inputs = (shape.inputs)(size);
            for call in CALLS.into_iter().filter(|call| call.shaped() == shape.call) {
                let (answer, lent) = answers(call, &inputs);
                in_words(call, answer, &lent);
                alike += 1;
            }
        }
    }
    alike += lists::compare();
    println!("{alike} calls answered alike by {} implementations", IMPLEMENTATIONS.len());
}

/// How many calls are timed at a time.
fn at_a_time(body: &mut dyn FnMut()) -> u128 {
    let start = processor_time();
    body();
    let one = (processor_time() - start).as_nanos().max(1);
    (LEAST_TIMED.as_nanos() / one).clamp(1, MOST_AT_A_TIME)
}

/// The middle time of each turn-taker in microseconds.
pub fn middle_times(mut turns: Vec<Box<dyn FnMut() + '_>>) -> Vec<f64> {
    let counts: Vec<u128> = turns.iter_mut().map(|body| at_a_time(body)).collect();
    let mut times: Vec<Vec<f64>> = vec![Vec::new(); turns.len()];
    let start = Instant::now();
    for turn in 0..MOST_REPETITIONS {
        if turn >= LEAST_REPETITIONS && start.elapsed() > PATIENCE {
            break;
        }
        for (at, body) in turns.iter_mut().enumerate() {
            let one = processor_time();
            for _ in 0..counts[at] {
                body();
            }
            let spent = (processor_time() - one).as_secs_f64();
            times[at].push(spent * 1e6 / counts[at] as f64);
        }
    }
    let middle = |mut own: Vec<f64>| {
        own.sort_by(f64::total_cmp);
        own[own.len() / 2]
    };
    times.into_iter().map(middle).collect()
}

/// A call of one implementation, made again and again in memory of its own.
fn turn(who: Implementation, call: Call, inputs: &Inputs) -> Box<dyn FnMut() + '_> {
    let mut own = Lent::new();
    Box::new(move || {
        black_box(measured_call(who, call, black_box(inputs), &mut own));
    })
}

/// Microseconds of one implementation.
pub fn alone(who: Implementation, call: Call, inputs: &Inputs) -> f64 {
    middle_times(vec![turn(who, call, inputs)])[0]
}

pub fn measure(call: Call, inputs: &Inputs) -> Measured {
    let (told, lent) = answers(call, inputs);
    let answer = in_words(call, told, &lent);
    // A step's new term; of a run, the term that it starts with.
    let (term, steps) = match call {
        Call::Step => (lent.stepped((told & 0xffff) as usize), 1),
        Call::Run => (&inputs.script[..], lent.steps()),
        _ => (&[][..], 0),
    };
    let mut copied = vec![0; term.len()];
    let mut turns: Vec<Box<dyn FnMut() + '_>> =
        IMPLEMENTATIONS.iter().map(|&who| turn(who, call, inputs)).collect();
    turns.push(Box::new(|| black_box(&mut copied[..]).copy_from_slice(black_box(term))));
    let mut times = middle_times(turns);
    let time = times.pop().expect("the copy's own");
    let records = term.len() / SCRIPT_BYTES;
    let copy = (steps > 0).then_some(Copied { time, records, steps });
    Measured { answer, times, copy }
}
