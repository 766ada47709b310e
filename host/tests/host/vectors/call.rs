//! The operations that directed cases name, with their inputs and buffers named as in include/spatecanter.h.

use super::text::{bytes, number, numbers, Words};
use crate::implementation::{Answer, Implementation, ReportWords, RunningTape};

/// A call of any implementation, with the names of the buffers that are lent to it.
pub struct Call {
    pub buffers: &'static [&'static str],
    pub run: Box<Run>,
}

type Run = dyn Fn(&Implementation, &mut dyn RunningTape, &mut [&mut [u8]]) -> Given;

impl Call {
    /// The call of an operation with these inputs, which it takes.
    pub fn read(operation: &str, inputs: &mut Words) -> Result<Call, String> {
        match operation {
            "read_tape" => {
                let (tape, machine) = (inputs.take("tape", bytes)?, inputs.take("machine", number)?);
                Call::of(&["galley"], move |them, lent| (them.read_tape)(&tape, machine, lent[0]))
            }
            "start" => {
                let machine = inputs.take("machine", number)?;
                Call::on_tape(&[], move |tape, _| tape.start(machine))
            }
            "feed" => {
                let piece = inputs.take("piece", bytes)?;
                Call::on_tape(&["out"], move |tape, lent| tape.feed(&piece, lent[0]))
            }
            "close" => Call::on_tape(&["out"], |tape, lent| tape.close(lent[0])),
            "extents" => Ok(Call { buffers: &[], run: Box::new(|_, tape, _| tape.extents().into()) }),
            "check_galley" => {
                let galley = inputs.take("galley", bytes)?;
                Call::of(&[], move |them, _| (them.check_galley)(&galley))
            }
            "read_back" => {
                let (galley, n) = (inputs.take("galley", bytes)?, inputs.take("n", number)?);
                Call::of(&[], move |them, _| (them.read_back)(&galley, n))
            }
            "item_at" => {
                let (galley, at) = (inputs.take("galley", bytes)?, inputs.take("at", number)?);
                Call::of(&[], move |them, _| (them.item_at)(&galley, at))
            }
            "write_dvi" => {
                let galley = inputs.take("galley", bytes)?;
                Call::of(&["dvi"], move |them, lent| (them.write_dvi)(&galley, lent[0]))
            }
            "read_dvi" => {
                let (dvi, widths) = (inputs.take("dvi", bytes)?, inputs.take("widths", numbers)?);
                Call::of(&["sheet"], move |them, lent| (them.read_dvi)(&dvi, &widths, lent[0]))
            }
            "dvi_to_galley" => {
                let (dvi, widths) = (inputs.take("dvi", bytes)?, inputs.take("widths", numbers)?);
                Call::of(&["galley"], move |them, lent| (them.dvi_to_galley)(&dvi, &widths, lent[0]))
            }
            "read_xgp" => {
                let (file, spacing) = (inputs.take("file", bytes)?, inputs.take("spacing", number)?);
                let widths = inputs.take("widths", numbers)?;
                Call::of(&["sheet"], move |them, lent| (them.read_xgp)(&file, spacing, &widths, lent[0]))
            }
            "reprint" => {
                let (galley, widths) = (inputs.take("galley", bytes)?, inputs.take("widths", numbers)?);
                Call::of(&["dvi", "sheet"], move |them, lent| {
                    let [dvi, sheet] = lent else { unreachable!() };
                    let [number, place, shown, file] = (them.reprint)(&galley, &widths, dvi, sheet);
                    ([number, place, shown], file)
                })
            }
            "write_dvi2" => {
                let galley = inputs.take("galley", bytes)?;
                Call::of(&["dvi"], move |them, lent| (them.write_dvi2)(&galley, lent[0]))
            }
            "read_dvi2" => {
                let dvi = inputs.take("dvi", bytes)?;
                Call::of(&["galley"], move |them, lent| (them.read_dvi2)(&dvi, lent[0]))
            }
            "punch_tape" => {
                let galley = inputs.take("galley", bytes)?;
                Call::of(&["tape"], move |them, lent| (them.punch_tape)(&galley, lent[0]))
            }
            "galley_to_new" => {
                let old_galley = inputs.take("old_galley", bytes)?;
                Call::of(&["new_galley"], move |them, lent| (them.to_new)(&old_galley, lent[0]))
            }
            "galley_to_old" => {
                let new_galley = inputs.take("new_galley", bytes)?;
                Call::of(&["old_galley"], move |them, lent| (them.to_old)(&new_galley, lent[0]))
            }
            "count_tape" => {
                let (tape, machine) = (inputs.take("tape", bytes)?, inputs.take("machine", number)?);
                let before = inputs.find("report", report)?.unwrap_or([0; 135]);
                Call::of(&[], move |them, _| {
                    let mut report = before;
                    let answer = (them.count_tape)(&tape, machine, &mut report);
                    (answer, report)
                })
            }
            other => Err(format!("there is no operation `{other}`")),
        }
    }

    fn of<T: Into<Given>>(
        buffers: &'static [&'static str],
        run: impl Fn(&Implementation, &mut [&mut [u8]]) -> T + 'static,
    ) -> Result<Call, String> {
        Ok(Call { buffers, run: Box::new(move |them, _, lent| run(them, lent).into()) })
    }

    fn on_tape(
        buffers: &'static [&'static str],
        run: impl Fn(&mut dyn RunningTape, &mut [&mut [u8]]) -> Answer + 'static,
    ) -> Result<Call, String> {
        Ok(Call { buffers, run: Box::new(move |_, tape, lent| run(tape, lent).into()) })
    }
}

/// What a call gives back beside what it writes: its answer, and a second length, a character, an item,
/// extents or a report too.
#[derive(PartialEq, Debug)]
pub struct Given {
    answer: Answer,
    dvi_length: Option<usize>,
    character: Option<[i32; 4]>,
    item: Option<[i32; 5]>,
    extents: Option<([i32; 2], Vec<i32>)>,
    report: Option<Box<ReportWords>>,
}

impl Given {
    /// What an operation should give; a length, a character or an item that is left out is zeros.
    pub fn read(operation: &str, answer: Answer, outputs: &mut Words) -> Result<Given, String> {
        match operation {
            "reprint" => {
                let dvi_length: Option<usize> = outputs.find("dvi_length", number)?;
                Ok((answer, dvi_length.unwrap_or_default()).into())
            }
            "read_back" => Ok((answer, outputs.find("character", character)?.unwrap_or_default()).into()),
            "item_at" => Ok((answer, outputs.find("item", item)?.unwrap_or_default()).into()),
            "extents" => {
                let reach = outputs.find("reach", reach)?.unwrap_or_default();
                Ok((reach, outputs.find("fonts", numbers)?.unwrap_or_default()).into())
            }
            "count_tape" => Ok((answer, outputs.take("report", report)?).into()),
            _ => Ok(answer.into()),
        }
    }
}

impl From<Answer> for Given {
    fn from(answer: Answer) -> Given {
        Given { answer, dvi_length: None, character: None, item: None, extents: None, report: None }
    }
}

impl From<(Answer, usize)> for Given {
    fn from((answer, dvi_length): (Answer, usize)) -> Given {
        Given { dvi_length: Some(dvi_length), ..answer.into() }
    }
}

impl From<(Answer, [i32; 4])> for Given {
    fn from((answer, character): (Answer, [i32; 4])) -> Given {
        Given { character: Some(character), ..answer.into() }
    }
}

impl From<(Answer, [i32; 5])> for Given {
    fn from((answer, item): (Answer, [i32; 5])) -> Given {
        Given { item: Some(item), ..answer.into() }
    }
}

impl From<([i32; 2], Vec<i32>)> for Given {
    fn from(extents: ([i32; 2], Vec<i32>)) -> Given {
        Given { extents: Some(extents), ..[0; 3].into() }
    }
}

impl From<(Answer, ReportWords)> for Given {
    fn from((answer, report): (Answer, ReportWords)) -> Given {
        Given { report: Some(Box::new(report)), ..answer.into() }
    }
}

/// The words of a report.
fn report(text: &str) -> Result<ReportWords, String> {
    numbers(text)?.try_into().map_err(|_| "135 numbers are wanted".into())
}

/// Two numbers: x, height.
fn reach(text: &str) -> Result<[i32; 2], String> {
    numbers(text)?.try_into().map_err(|_| "two numbers are wanted".into())
}

/// Four numbers: x, height, font number, character.
fn character(text: &str) -> Result<[i32; 4], String> {
    numbers(text)?.try_into().map_err(|_| "four numbers are wanted".into())
}

/// Five numbers: kind, x, height, font number, character.
fn item(text: &str) -> Result<[i32; 5], String> {
    numbers(text)?.try_into().map_err(|_| "five numbers are wanted".into())
}
