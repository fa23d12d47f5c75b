//! A list of budgets against the one run with their total (01, "A run"; 02, E1).

use compare::case;
use protocol::{Control, Devices, Emulation, Machine, Outcome, Refusal, Report, Request, Run};

/// What a run or a list of runs leaves.
#[derive(Debug, PartialEq)]
struct Left {
    store: Vec<u32>,
    control: Control,
    devices: Devices,
    typing: Vec<u8>,
    /// The last outcome with the sums of all counts, or the refusal.
    result: Result<Report, Refusal>,
}

/// The store with all its cells.
fn store(run: &Run) -> Vec<u32> {
    let mut store = vec![0; run.store.size];
    for &(index, value) in &run.store.cells {
        store[index] = value;
    }
    store
}

/// Both reports as one.
fn sum(first: Report, second: Report) -> Report {
    Report {
        outcome: second.outcome,
        executed: first.executed + second.executed,
        entries: first.entries + second.entries,
        taken: first.taken + second.taken,
        typed: first.typed + second.typed,
    }
}

/// Makes the runs of a list: only the first has the lines, each later one gets
/// what the one before left, and the first that does not end spent is the last.
fn list(machine: &impl Machine, run: &Run, budgets: &[u32]) -> Left {
    let mut left = Left {
        store: store(run),
        control: run.control,
        devices: run.devices,
        typing: run.typing.clone(),
        result: Ok(Report {
            outcome: Outcome::Spent,
            executed: 0,
            entries: 0,
            taken: 0,
            typed: 0,
        }),
    };
    let mut lines = run.lines;
    for &budget in budgets {
        let Ok(before) = left.result else { break };
        if before.outcome != Outcome::Spent {
            break;
        }
        let report = machine.run(
            &mut left.store,
            &mut left.control,
            lines,
            budget,
            &mut left.devices,
            &run.characters[before.taken..],
            &mut left.typing[before.typed..],
        );
        left.result = report.map(|report| sum(before, report));
        lines = 0;
    }
    left
}

/// Some budgets for a case, whose total is at most 65,535.
fn budgets(number: u64) -> Vec<u32> {
    let part = |place: u64| (number * 7 + place * 5 + number / 11) as u32 % 6;
    let count = 1 + number % 7;
    (0..count).map(part).collect()
}

fn runs(seed: u64, count: u64) -> impl Iterator<Item = (u64, Run)> {
    (0..count).filter_map(move |number| match case(seed, number).request {
        Request::Run(run) if run.store.size <= 4096 => Some((number, run)),
        _ => None,
    })
}

/// What a list was about.
#[derive(Default)]
struct Counts {
    /// More than its first run was made.
    several: u32,
    /// A later run took characters after the first had.
    taking: u32,
    /// A later run typed after the first had.
    typing: u32,
    /// The first run was refused.
    refused: u32,
}

impl Counts {
    fn count(&mut self, first: &Left, all: &Left) {
        match (first.result, all.result) {
            (Ok(first), Ok(all)) => {
                self.several += u32::from(all.executed > first.executed);
                self.taking += u32::from(first.taken > 0 && all.taken > first.taken);
                self.typing += u32::from(first.typed > 0 && all.typed > first.typed);
            }
            (Err(first), Err(all)) if first == all => self.refused += 1,
            _ => panic!("only the first run can be refused"),
        }
    }
}

#[test]
fn a_list_of_budgets_leaves_what_the_one_run_leaves() {
    let mut counts = Counts::default();
    for (number, run) in runs(11, 270_000) {
        let budgets = budgets(number);
        let one = list(&Emulation, &run, &[budgets.iter().sum()]);
        let all = list(&Emulation, &run, &budgets);
        assert_eq!(all, one, "run {run} by {budgets:?}");
        counts.count(&list(&Emulation, &run, &budgets[..1]), &all);
    }
    assert!(counts.several > 10_000 && counts.refused > 1000);
    assert!(counts.taking > 500 && counts.typing > 100);
}
