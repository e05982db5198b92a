//! A board's trace against the tick machine's completions (document 02, request 2).

use crate::answer::{Answer, Completion, Refusal};
use crate::machine::{self, Miss};
use crate::plan::{self, Form};
use crate::table::TableNumbers;
use crate::tasks::TaskNumbers;
use crate::trace;

/// Checks 9 of the trace, the table and the group, then 10 and 11; never 6.
pub fn replay(table: &TableNumbers, tasks: &TaskNumbers, bytes: &[u8]) -> Result<Answer, Refusal> {
    let records = trace::read(bytes)?;
    let table = table.check()?;
    let group = tasks.check()?;
    let trace = trace::check(&group, &records)?;
    let run = machine::run_legal(&table, &group, trace.ticks, &trace.jobs);
    // The last tick's own work is done one instant after the last record's.
    let by_the_last_record = |instant: u64| instant < trace.ticks;
    let completions: Vec<Completion> = run
        .completions
        .into_iter()
        .filter(|completion| by_the_last_record(completion.instant))
        .collect();
    let miss = run.miss.filter(|miss| by_the_last_record(miss.instant));
    Ok(compared(&trace.completions, &completions, miss))
}

/// The same with the table and the group of a plan file of the old form, whose own 9 and early 1
/// and 4 come before everything of the trace. No verdict is asked, so there is no 6.
pub fn replay_on_plan(plan: &[u8], trace: &[u8]) -> Result<Answer, Refusal> {
    let (table, tasks) = plan::read(Form::Old, plan)?;
    replay(&table, &tasks, trace)
}

/// "A machine miss up to that instant, and no later than the lesser instant of any difference,
/// is named instead; with neither, the answer is `same`."
fn compared(trace: &[Completion], machine: &[Completion], miss: Option<Miss>) -> Answer {
    let difference = first_difference(trace, machine);
    let is_in_time = |miss: &Miss| match difference {
        Some(difference) => Some(miss.instant) <= lesser_instant(difference),
        None => true,
    };
    match (miss.filter(is_in_time), difference) {
        (Some(Miss { instant, job }), _) => Answer::ReplayMissed { instant, job },
        (None, Some((trace, machine))) => Answer::Differs { trace, machine },
        (None, None) => Answer::Same,
    }
}

type Difference = (Option<Completion>, Option<Completion>);

/// "The first completion that differs from the machine's in task or instant, with both": the
/// k-th of the one side against the k-th of the other, for k = 0, 1, 2 and on until both have
/// ended; "a side that has ended is named as none".
fn first_difference(trace: &[Completion], machine: &[Completion]) -> Option<Difference> {
    (0..trace.len().max(machine.len()))
        .map(|k| (trace.get(k).copied(), machine.get(k).copied()))
        .find(|(trace, machine)| trace != machine)
}

/// The lesser of the two instants, or the one there is: one side at least has not ended.
fn lesser_instant((trace, machine): Difference) -> Option<u64> {
    let sides = [trace, machine];
    sides.iter().flatten().map(|side| side.instant).min()
}

#[cfg(test)]
mod tests {
    use super::*;

    fn at(instant: u64) -> Completion {
        Completion { instant, task: 0 }
    }

    /// The miss rule, alone, at every instant around a difference of every kind.
    #[test]
    fn a_miss_beside_a_difference() {
        let sides = [None, Some(at(5)), Some(at(6)), Some(at(7))];
        for trace in sides {
            for machine in sides {
                let lesser = match (trace, machine) {
                    (Some(t), Some(m)) if t.instant < m.instant => t.instant,
                    (Some(t), None) => t.instant,
                    (_, Some(m)) => m.instant,
                    (None, None) => continue,
                };
                for instant in 3..=9 {
                    let miss = Miss { instant, job: 4 };
                    let t: Vec<Completion> = trace.into_iter().collect();
                    let m: Vec<Completion> = machine.into_iter().collect();
                    let answer = compared(&t, &m, Some(miss));
                    let missed = Answer::ReplayMissed { instant, job: 4 };
                    let differs = Answer::Differs { trace, machine };
                    let expected = if trace == machine || instant <= lesser {
                        missed
                    } else {
                        differs
                    };
                    assert_eq!(answer, expected);
                }
            }
        }
    }
}
