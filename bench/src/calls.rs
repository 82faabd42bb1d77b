//! The measured calls, of either implementation, and the memory lent to them.

use wigneld_tests::calls;
use wigneld_tests::cases::Inputs;
use wigneld_tests::limits::{
    ANSWER_BYTES, REPORT_BUDGET, REPORT_RUN_BYTES, REPORT_SHEET_BYTES, SCRIPT_BYTES, WORK_BYTES,
};

#[derive(Clone, Copy, PartialEq, Eq)]
pub enum Call {
    Check,
    Run,
    /// A run of budget 0: what a run costs before its first step, and after its last.
    Start,
    Step,
    Sheet,
}

pub const CALLS: [Call; 5] = [Call::Check, Call::Run, Call::Start, Call::Step, Call::Sheet];

impl Call {
    pub fn name(self) -> &'static str {
        match self {
            Call::Check => "check",
            Call::Run => "run",
            Call::Start => "start",
            Call::Step => "step",
            Call::Sheet => "sheet",
        }
    }

    /// The call whose shapes it is made with.
    pub fn shaped(self) -> Call {
        if self == Call::Start {
            Call::Run
        } else {
            self
        }
    }

    fn budget(self) -> u64 {
        if self == Call::Start {
            0
        } else {
            REPORT_BUDGET
        }
    }
}

#[derive(Clone, Copy, PartialEq, Eq)]
pub enum Implementation {
    Second,
    Engine,
}

/// Those that are built in, in the order of their columns.
pub const IMPLEMENTATIONS: &[Implementation] = &[
    Implementation::Second,
    #[cfg(feature = "engine")]
    Implementation::Engine,
];

/// The engine where it is built in.
pub const MAIN: Implementation = IMPLEMENTATIONS[IMPLEMENTATIONS.len() - 1];

impl Implementation {
    pub fn name(self) -> &'static str {
        match self {
            Implementation::Second => "second",
            Implementation::Engine => "engine",
        }
    }
}

/// The group a sheet is made for: it may read everything that the shapes hold.
const GROUP: u64 = 31;

/// All that a call is lent. Compared whole, so that both have to leave the same bytes.
#[derive(Clone, PartialEq, Eq)]
pub struct Lent {
    work: Vec<u8>,
    answer: Vec<u8>,
    first: Vec<u8>,
    scratch: Vec<u8>,
    steps: [u8; 8],
    sheet: Vec<u8>,
}

impl Lent {
    pub fn new() -> Lent {
        Lent {
            work: vec![0; WORK_BYTES],
            answer: vec![0; ANSWER_BYTES],
            first: vec![0; REPORT_RUN_BYTES],
            scratch: vec![0; REPORT_RUN_BYTES],
            steps: [0; 8],
            sheet: vec![0; REPORT_SHEET_BYTES],
        }
    }

    /// What a run wrote.
    pub fn steps(&self) -> u64 {
        u64::from_le_bytes(self.steps)
    }

    /// The new term of a step, which has this many records.
    pub fn stepped(&self, records: usize) -> &[u8] {
        &self.first[..records * SCRIPT_BYTES]
    }
}

/// One call. Not inlined and under its own name, so that an instruction count can be limited to it.
#[no_mangle]
#[inline(never)]
pub fn measured_call(who: Implementation, call: Call, inputs: &Inputs, lent: &mut Lent) -> u64 {
    match who {
        Implementation::Second => second(call, inputs, lent),
        #[cfg(feature = "engine")]
        Implementation::Engine => engine(call, inputs, lent),
        #[cfg(not(feature = "engine"))]
        Implementation::Engine => panic!("built without the engine"),
    }
}

/// The answer as one number, as the engine gives it; a shape that is refused is a mistake here.
fn second(call: Call, inputs: &Inputs, lent: &mut Lent) -> u64 {
    let Inputs { groups, types, script } = inputs;
    match call {
        Call::Check => calls::check(groups, types, script, &mut lent.work, &mut lent.answer)
            .expect("accepted")
            .into(),
        Call::Run | Call::Start => {
            let (first, scratch) = (&mut lent.first, &mut lent.scratch);
            let report = calls::run(groups, types, script, call.budget(), first, scratch)
                .expect("not refused");
            lent.steps = report.steps.to_le_bytes();
            ended(report.end as u64, report.records)
        }
        Call::Step => {
            let report = calls::step(groups, types, script, &mut lent.first).expect("not refused");
            ended(report.end as u64, report.records)
        }
        Call::Sheet => {
            calls::sheet(groups, types, script, GROUP, &mut lent.sheet).expect("a value").into()
        }
    }
}

fn ended(end: u64, records: u32) -> u64 {
    end << 16 | u64::from(records)
}

#[cfg(feature = "engine")]
fn engine(call: Call, inputs: &Inputs, lent: &mut Lent) -> u64 {
    use wigneld_tests::engine;
    let Inputs { groups, types, script } = inputs;
    match call {
        Call::Check => engine::check(groups, types, script, &mut lent.work, &mut lent.answer),
        Call::Run | Call::Start => {
            let (first, scratch) = (&mut lent.first, &mut lent.scratch);
            engine::run(groups, types, script, call.budget(), first, scratch, &mut lent.steps)
        }
        Call::Step => engine::step(groups, types, script, &mut lent.first),
        Call::Sheet => engine::sheet(groups, types, script, GROUP, &mut lent.sheet),
    }
}

/// What a call answered, in words. Refusals, ends that no shape is meant to have and a step that
/// didn't move would be timed by accident, and are mistakes here.
pub fn in_words(call: Call, answer: u64, lent: &Lent) -> String {
    assert!(answer < 1 << 32, "a shape was refused: question {}", answer >> 32);
    let (end, records) = (answer >> 16, answer & 0xffff);
    match call {
        Call::Check => format!("type of {records}"),
        Call::Sheet => format!("sheet of {records}"),
        Call::Run => {
            assert!(end <= 1 && lent.steps() > 0, "a run that reaches no value and isn't spent");
            let how = if end == 0 { "value" } else { "spent" };
            format!("{how}, {} steps", lent.steps())
        }
        Call::Start => {
            assert_eq!((end, lent.steps()), (1, 0), "a run of budget 0 that moves, or of a value");
            format!("not begun at {records}")
        }
        Call::Step => {
            assert_eq!(end, 1, "a step that doesn't move");
            format!("moved to {records}")
        }
    }
}
