//! The plan file (document 01, "The plan file and its line"; document 02, requests 5 and 7).

use crate::answer::{Answer, Reason, Refusal};
use crate::lost::Switch;
use crate::numbers::Cursor;
use crate::table::{TableNumbers, MOST_WINDOWS};
use crate::tasks::{TaskNumbers, MOST_TASKS};
use crate::verdict::verdict;

/// A plan file's form; its number is how many settings stand before P.
#[derive(Clone, Copy, Debug, PartialEq, Eq)]
pub enum Form {
    /// Document 01's, in which nothing is set.
    Old = 0,
    /// Request 5's: "the new form, m first".
    WithShortest = 1,
    /// Request 7's: "a plan gives its rule and q after m".
    WithSwitch = 3,
}

impl Form {
    const ALL: [Form; 3] = [Form::Old, Form::WithShortest, Form::WithSwitch];

    pub fn settings(self) -> u64 {
        self as u64
    }

    /// The form with so many settings, if there is one.
    pub fn of_settings(settings: u64) -> Option<Form> {
        Form::ALL
            .into_iter()
            .find(|form| form.settings() == settings)
    }
}

/// The verdict of a plan file's bytes.
pub fn plan(form: Form, bytes: &[u8]) -> Result<Answer, Refusal> {
    let (table, tasks) = read(form, bytes)?;
    verdict(&table, &tasks)
}

/// The form's settings, then P, window count, windows, task count, tasks. Refusal 9, and the two
/// early answers: "as soon as it is read, a window count of 0 or over 64 answers 1, and a task
/// count over 32 answers 4; the rest is not read and no other check comes before." So a setting's
/// own range is judged with the table.
pub fn read(form: Form, bytes: &[u8]) -> Result<(TableNumbers, TaskNumbers), Refusal> {
    let mut cursor = Cursor::new(bytes);
    let settings = numbers(&mut cursor, form.settings())?;
    let frame = number(&mut cursor)?;
    let window_count = number(&mut cursor)?;
    let early = window_count == 0 || window_count > MOST_WINDOWS as u64;
    Reason::WindowList.check(early, 0)?;
    let windows = numbers(&mut cursor, 2 * window_count)?;
    let task_count = number(&mut cursor)?;
    Reason::TaskList.check(task_count > MOST_TASKS as u64, 0)?;
    let tasks = numbers(&mut cursor, 3 * task_count)?;
    Reason::PlanBytes.check(!cursor.at_end(), cursor.offset())?;
    let table = TableNumbers {
        shortest: settings.first().copied(),
        switch: settings.get(1..).and_then(Switch::after_m),
        ..TableNumbers::pairs(frame, windows)
    };
    Ok((table, TaskNumbers::Triples(tasks)))
}

fn number(cursor: &mut Cursor) -> Result<u64, Refusal> {
    cursor
        .number()
        .map_err(|offset| Reason::PlanBytes.at(offset))
}

fn numbers(cursor: &mut Cursor, count: u64) -> Result<Vec<u64>, Refusal> {
    (0..count).map(|_| number(cursor)).collect()
}
