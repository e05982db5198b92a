//! One query of a stream: its entry and arguments, its numbers and its line (docs/ASK.md).

use crate::answer::Answer;
use crate::edit::{self, Edit, Kind};
use crate::lost::Switch;
use crate::numbers::Cursor;
use crate::plan::{self, Form};
use crate::table::{self, TableNumbers};
use crate::tasks::{self, TaskNumbers};
use crate::{bound, machine, replay, summary, verdict};

/// Windows and tasks of codes 1 to 15 alone.
pub const MOST_OLD_NUMBERS: u64 = 200;
pub const MOST_JOB_NUMBERS: u64 = 12_400;
pub const MOST_ROOM: u64 = 12_400;
pub const MOST_PLAN_BYTES: u64 = 4_096;
pub const MOST_RECORDS: u64 = 40;
/// Windows and tasks under code 16 and of the codes that document 02 adds (ASK-02.md).
pub const MOST_NEW_NUMBERS: u64 = 400;
pub const MOST_TRACE_BYTES: u64 = 20_000;
/// A summary, or the memory lent for one.
pub const MOST_SUMMARY_NUMBERS: u64 = 9_000;
pub const MOST_LENGTHS: u64 = 1_000;

/// Code 16, "on a board": settings, then a query whose windows are in threes.
pub const BOARD: u64 = 16;
/// How many settings there may be: the owner asked for; the owner and m; or the owner, m, the rule
/// and q.
const SETTINGS: [u64; 3] = [1, 2, 4];
/// The codes that may stand under 16.
pub const ON_A_BOARD: [u64; 17] = [1, 2, 3, 4, 6, 7, 8, 9, 12, 13, 14, 15, 17, 20, 21, 22, 23];
/// "Codes 20 to 23 stand under 16 only."
pub const ONLY_ON_A_BOARD: [u64; 4] = [20, 21, 22, 23];

/// What every number of a lent buffer is at entry.
const AT_ENTRY: u64 = 7;

#[derive(Clone, Debug, PartialEq, Eq)]
pub enum Query {
    LeastSupply(TableNumbers, u64),
    CriticalPartition(TableNumbers, u64),
    Delay(TableNumbers),
    Outage(TableNumbers),
    Demand(TaskNumbers, u64),
    Margin(TableNumbers, TaskNumbers, u64),
    Verdict(TableNumbers, TaskNumbers),
    Bound(TableNumbers, TaskNumbers, u64),
    Run(RunNumbers),
    Plan(Form, Vec<u8>),
    /// The group in triples; the trace as bytes.
    Replay(TableNumbers, TaskNumbers, Vec<u8>),
    MakeSummary(TableNumbers, u64),
    SummaryAmount(TableNumbers, Vec<u64>, u64),
    Margins(MarginNumbers),
    Edit(EditNumbers),
}

#[derive(Clone, Debug, PartialEq, Eq)]
pub struct RunNumbers {
    pub table: TableNumbers,
    pub tasks: TaskNumbers,
    pub ticks: u64,
    pub jobs: Vec<u64>,
    pub room: u64,
}

/// The group in triples.
#[derive(Clone, Debug, PartialEq, Eq)]
pub struct MarginNumbers {
    pub table: TableNumbers,
    pub summary: Vec<u64>,
    pub tasks: TaskNumbers,
    pub lengths: Vec<u64>,
    pub room: u64,
}

#[derive(Clone, Debug, PartialEq, Eq)]
pub struct EditNumbers {
    /// Its windows are the windows memory, of which the first `count` threes are the list.
    pub memory: TableNumbers,
    pub count: u64,
    pub summary: Vec<u64>,
    pub edit: Edit,
}

impl EditNumbers {
    /// The table before the edit; none where the memory is shorter than the count says.
    pub fn old(&self) -> Option<TableNumbers> {
        let list = self.memory.windows.get(..3 * self.count as usize)?;
        Some(TableNumbers {
            windows: list.to_vec(),
            ..self.memory.clone()
        })
    }
}

impl Query {
    /// Reads one query, or gives the offset of the first number that is bad, missing, an unknown
    /// code or over its limit.
    pub fn read(cursor: &mut Cursor) -> Result<Query, usize> {
        let first = cursor.offset();
        match cursor.number()? {
            BOARD => {
                let settings = read_settings(cursor)?;
                let first = cursor.offset();
                match cursor.number()? {
                    code if ON_A_BOARD.contains(&code) => {
                        Query::read_arguments(cursor, code, &settings)
                    }
                    _ => Err(first),
                }
            }
            code @ (1..=15 | 17..=19) => Query::read_arguments(cursor, code, &[]),
            _ => Err(first),
        }
    }

    /// What follows a known code: with settings the windows are in threes, without in pairs.
    fn read_arguments(c: &mut Cursor, code: u64, settings: &[u64]) -> Result<Query, usize> {
        let records = (11..=15).contains(&code);
        let most_numbers = match settings {
            [] if code <= 15 => MOST_OLD_NUMBERS,
            _ => MOST_NEW_NUMBERS,
        };
        let table_in = |c: &mut Cursor, frame: u64| -> Result<TableNumbers, usize> {
            Ok(TableNumbers {
                frame,
                windows: read_list(c, most_numbers)?,
                owner: settings.first().copied(),
                shortest: settings.get(1).copied(),
                switch: settings.get(2..).and_then(Switch::after_m),
            })
        };
        let table = |c: &mut Cursor| {
            let frame = c.number()?;
            table_in(c, frame)
        };
        let tasks = |c: &mut Cursor| match records {
            true => read_records(c),
            false => read_list(c, most_numbers).map(TaskNumbers::Triples),
        };
        Ok(match if records { code - 6 } else { code } {
            1 => Query::LeastSupply(table(c)?, c.number()?),
            2 => Query::CriticalPartition(table(c)?, c.number_up_to(MOST_ROOM)?),
            3 => Query::Delay(table(c)?),
            4 => Query::Outage(table(c)?),
            5 => Query::Demand(tasks(c)?, c.number()?),
            6 => Query::Margin(table(c)?, tasks(c)?, c.number()?),
            7 => Query::Verdict(table(c)?, tasks(c)?),
            8 => Query::Bound(table(c)?, tasks(c)?, c.number()?),
            9 => Query::Run(RunNumbers {
                table: table(c)?,
                tasks: tasks(c)?,
                ticks: c.number()?,
                jobs: read_list(c, MOST_JOB_NUMBERS)?,
                room: c.number_up_to(MOST_ROOM)?,
            }),
            10 => Query::Plan(Form::Old, read_bytes(c, MOST_PLAN_BYTES)?),
            17 => Query::Replay(table(c)?, tasks(c)?, read_bytes(c, MOST_TRACE_BYTES)?),
            20 => Query::MakeSummary(table(c)?, c.number_up_to(MOST_ROOM)?),
            21 => {
                let (table, summary) = (table(c)?, read_list(c, MOST_SUMMARY_NUMBERS)?);
                Query::SummaryAmount(table, summary, c.number()?)
            }
            22 => Query::Margins(MarginNumbers {
                table: table(c)?,
                summary: read_list(c, MOST_SUMMARY_NUMBERS)?,
                tasks: tasks(c)?,
                lengths: read_list(c, MOST_LENGTHS)?,
                room: c.number_up_to(MOST_ROOM)?,
            }),
            23 => {
                let (frame, count) = (c.number()?, c.number()?);
                Query::Edit(EditNumbers {
                    memory: table_in(c, frame)?,
                    count,
                    summary: read_list(c, MOST_SUMMARY_NUMBERS)?,
                    edit: read_edit(c)?,
                })
            }
            18 => Query::Plan(Form::WithShortest, read_bytes(c, MOST_PLAN_BYTES)?),
            _ => Query::Plan(Form::WithSwitch, read_bytes(c, MOST_PLAN_BYTES)?),
        })
    }

    /// The table it is about, of an edit with the whole memory as windows; a demand and a plan have
    /// none lent.
    pub fn table(&self) -> Option<&TableNumbers> {
        match self {
            Query::LeastSupply(table, _)
            | Query::CriticalPartition(table, _)
            | Query::Delay(table)
            | Query::Outage(table)
            | Query::Margin(table, _, _)
            | Query::Verdict(table, _)
            | Query::Bound(table, _, _)
            | Query::Replay(table, _, _)
            | Query::MakeSummary(table, _)
            | Query::SummaryAmount(table, _, _) => Some(table),
            Query::Run(run) => Some(&run.table),
            Query::Margins(margins) => Some(&margins.table),
            Query::Edit(edit) => Some(&edit.memory),
            Query::Demand(..) | Query::Plan(..) => None,
        }
    }

    pub fn table_mut(&mut self) -> Option<&mut TableNumbers> {
        match self {
            Query::LeastSupply(table, _)
            | Query::CriticalPartition(table, _)
            | Query::Delay(table)
            | Query::Outage(table)
            | Query::Margin(table, _, _)
            | Query::Verdict(table, _)
            | Query::Bound(table, _, _)
            | Query::Replay(table, _, _)
            | Query::MakeSummary(table, _)
            | Query::SummaryAmount(table, _, _) => Some(table),
            Query::Run(run) => Some(&mut run.table),
            Query::Margins(margins) => Some(&mut margins.table),
            Query::Edit(edit) => Some(&mut edit.memory),
            Query::Demand(..) | Query::Plan(..) => None,
        }
    }

    /// The settings of code 16 that it stands under; none where the windows are in pairs.
    pub fn settings(&self) -> Vec<u64> {
        self.table().map(TableNumbers::settings).unwrap_or_default()
    }

    pub fn is_on_a_board(&self) -> bool {
        !self.settings().is_empty()
    }

    /// Its own code, which stands under 16 where the windows are in threes.
    pub fn code(&self) -> u64 {
        match self {
            Query::LeastSupply(..) => 1,
            Query::CriticalPartition(..) => 2,
            Query::Delay(..) => 3,
            Query::Outage(..) => 4,
            Query::Demand(tasks, _) => 5 + records_add(tasks),
            Query::Margin(_, tasks, _) => 6 + records_add(tasks),
            Query::Verdict(_, tasks) => 7 + records_add(tasks),
            Query::Bound(_, tasks, _) => 8 + records_add(tasks),
            Query::Run(run) => 9 + records_add(&run.tasks),
            Query::Plan(Form::Old, _) => 10,
            Query::Replay(..) => 17,
            Query::Plan(Form::WithShortest, _) => 18,
            Query::Plan(Form::WithSwitch, _) => 19,
            Query::MakeSummary(..) => 20,
            Query::SummaryAmount(..) => 21,
            Query::Margins(_) => 22,
            Query::Edit(_) => 23,
        }
    }

    /// Its numbers in the stream, the code first: what `read` reads.
    pub fn numbers(&self) -> Vec<u64> {
        let mut n = Vec::new();
        if self.is_on_a_board() {
            n.push(BOARD);
            push_list(&mut n, self.settings().into_iter());
        }
        n.push(self.code());
        match self {
            Query::Delay(table) | Query::Outage(table) => push_table(&mut n, table),
            Query::LeastSupply(table, last)
            | Query::CriticalPartition(table, last)
            | Query::MakeSummary(table, last) => {
                push_table(&mut n, table);
                n.push(*last);
            }
            Query::Demand(tasks, length) => {
                push_tasks(&mut n, tasks);
                n.push(*length);
            }
            Query::Margin(table, tasks, last) | Query::Bound(table, tasks, last) => {
                push_table(&mut n, table);
                push_tasks(&mut n, tasks);
                n.push(*last);
            }
            Query::Verdict(table, tasks) => {
                push_table(&mut n, table);
                push_tasks(&mut n, tasks);
            }
            Query::Run(run) => {
                push_table(&mut n, &run.table);
                push_tasks(&mut n, &run.tasks);
                n.push(run.ticks);
                push_list(&mut n, run.jobs.iter().copied());
                n.push(run.room);
            }
            Query::Plan(_, bytes) => push_bytes(&mut n, bytes),
            Query::Replay(table, tasks, trace) => {
                push_table(&mut n, table);
                push_tasks(&mut n, tasks);
                push_bytes(&mut n, trace);
            }
            Query::SummaryAmount(table, summary, length) => {
                push_table(&mut n, table);
                push_list(&mut n, summary.iter().copied());
                n.push(*length);
            }
            Query::Margins(margins) => {
                push_table(&mut n, &margins.table);
                push_list(&mut n, margins.summary.iter().copied());
                push_tasks(&mut n, &margins.tasks);
                push_list(&mut n, margins.lengths.iter().copied());
                n.push(margins.room);
            }
            Query::Edit(numbers) => {
                n.extend([numbers.memory.frame, numbers.count]);
                push_list(&mut n, numbers.memory.windows.iter().copied());
                push_list(&mut n, numbers.summary.iter().copied());
                let edit = numbers.edit;
                n.extend([edit.kind as u64, edit.index]);
                n.extend([edit.start, edit.end, edit.owner]);
            }
        }
        n
    }

    /// The line that answers it, without its newline.
    pub fn line(&self) -> String {
        let result = match self {
            Query::LeastSupply(table, length) => table::least_supply(table, *length),
            Query::CriticalPartition(table, room) => {
                let mut lent = lend(*room);
                let answer = table::critical_partition(table, &mut lent).into();
                return with_buffer(answer, &lent);
            }
            Query::Delay(table) => table::delay(table),
            Query::Outage(table) => table::outage(table),
            Query::Demand(tasks, length) => tasks::demand(tasks, *length),
            Query::Margin(table, tasks, length) => tasks::margin(table, tasks, *length),
            Query::Verdict(table, tasks) => verdict::verdict(table, tasks),
            Query::Bound(table, tasks, index) => bound::bound(table, tasks, *index),
            Query::Run(run) => {
                let mut lent = lend(run.room);
                let r = machine::run(&run.table, &run.tasks, run.ticks, &run.jobs, &mut lent);
                return with_buffer(r.into(), &lent);
            }
            Query::Plan(form, bytes) => plan::plan(*form, bytes),
            Query::Replay(table, tasks, trace) => replay::replay(table, tasks, trace),
            Query::MakeSummary(table, room) => {
                let mut lent = lend(*room);
                let answer = summary::make(table, &mut lent).into();
                return with_buffer(answer, &lent);
            }
            Query::SummaryAmount(table, summary, length) => {
                summary::least_supply(table, summary, *length)
            }
            Query::Margins(MarginNumbers {
                table,
                summary,
                tasks,
                lengths,
                room,
            }) => {
                let mut lent = vec![AT_ENTRY as i64; *room as usize];
                let r = summary::margins(table, summary, tasks, lengths, &mut lent);
                return with_buffer(r.into(), &lent);
            }
            Query::Edit(numbers) => {
                let mut after = numbers.clone();
                let (memory, summary) = (&mut after.memory, &mut after.summary);
                let r = edit::edit(memory, numbers.count, summary, &numbers.edit);
                return with_buffer(r.into(), &memory.windows) + &buffer(summary);
            }
        };
        Answer::from(result).to_string()
    }
}

fn read_list(cursor: &mut Cursor, limit: u64) -> Result<Vec<u64>, usize> {
    let count = cursor.number_up_to(limit)?;
    (0..count).map(|_| cursor.number()).collect()
}

/// As many settings as there may be. "Another count is a bad query at that number."
fn read_settings(cursor: &mut Cursor) -> Result<Vec<u64>, usize> {
    let first = cursor.offset();
    match cursor.number()? {
        count if SETTINGS.contains(&count) => (0..count).map(|_| cursor.number()).collect(),
        _ => Err(first),
    }
}

/// "Code 23's kind above 2 is a bad query at it; numbers that a kind does not use are read and
/// ignored."
fn read_edit(cursor: &mut Cursor) -> Result<Edit, usize> {
    let greatest_kind = Kind::ALL.len() as u64 - 1;
    Ok(Edit {
        kind: Kind::ALL[cursor.number_up_to(greatest_kind)? as usize],
        index: cursor.number()?,
        start: cursor.number()?,
        end: cursor.number()?,
        owner: cursor.number()?,
    })
}

fn read_records(cursor: &mut Cursor) -> Result<TaskNumbers, usize> {
    let count = cursor.number_up_to(MOST_RECORDS)?;
    let record = |_| Ok([cursor.number()?, cursor.number()?, cursor.number()?]);
    Ok(TaskNumbers::Records(
        (0..count).map(record).collect::<Result<_, usize>>()?,
    ))
}

fn read_bytes(cursor: &mut Cursor, limit: u64) -> Result<Vec<u8>, usize> {
    let count = cursor.number_up_to(limit)?;
    let byte = |_| Ok(cursor.number_up_to(255)? as u8);
    (0..count).map(byte).collect()
}

/// Codes 11 to 15 are 5 to 9 over task records.
fn records_add(tasks: &TaskNumbers) -> u64 {
    match tasks {
        TaskNumbers::Triples(_) => 0,
        TaskNumbers::Records(_) => 6,
    }
}

fn push_list(numbers: &mut Vec<u64>, list: impl ExactSizeIterator<Item = u64>) {
    numbers.push(list.len() as u64);
    numbers.extend(list);
}

fn push_bytes(numbers: &mut Vec<u64>, bytes: &[u8]) {
    push_list(numbers, bytes.iter().map(|&b| u64::from(b)));
}

fn push_table(numbers: &mut Vec<u64>, table: &TableNumbers) {
    numbers.push(table.frame);
    push_list(numbers, table.windows.iter().copied());
}

fn push_tasks(numbers: &mut Vec<u64>, tasks: &TaskNumbers) {
    match tasks {
        TaskNumbers::Triples(triples) => push_list(numbers, triples.iter().copied()),
        TaskNumbers::Records(records) => {
            numbers.push(records.len() as u64);
            numbers.extend(records.iter().flatten());
        }
    }
}

fn lend(room: u64) -> Vec<u64> {
    vec![AT_ENTRY; room as usize]
}

fn with_buffer<N: ToString>(answer: Answer, lent: &[N]) -> String {
    answer.to_string() + &buffer(lent)
}

fn buffer<N: ToString>(lent: &[N]) -> String {
    let mut line = " BUFFER".to_string();
    for number in lent {
        line.push(' ');
        line.push_str(&number.to_string());
    }
    line
}
