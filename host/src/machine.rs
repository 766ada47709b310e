//! The two machines that tapes were made for.

use std::error::Error;
use std::fmt;
use std::str::FromStr;

/// A machine, by how many fonts it has. A tape does not say which it was made for.
///
/// ```
/// use spatecanter::Machine;
///
/// let machine: Machine = "4".parse()?;
/// assert_eq!(machine, Machine::Four);
/// assert_eq!(machine.to_string(), "4");
/// assert!("5".parse::<Machine>().is_err());
/// # Ok::<(), spatecanter::NoMachine>(())
/// ```
#[derive(Clone, Copy, Debug, PartialEq, Eq, Hash)]
pub enum Machine {
    /// Fonts 1 to 4, by rail and mag alone.
    Four = 4,
    /// Fonts 1 to 8, by rail, mag and tilt.
    Eight = 8,
}

impl Machine {
    /// How many fonts it has: its number in the library.
    ///
    /// ```
    /// assert_eq!(spatecanter::Machine::Eight.fonts(), 8);
    /// ```
    pub fn fonts(self) -> u32 {
        self as u32
    }
}

impl From<Machine> for u32 {
    fn from(machine: Machine) -> u32 {
        machine.fonts()
    }
}

impl fmt::Display for Machine {
    fn fmt(&self, f: &mut fmt::Formatter) -> fmt::Result {
        self.fonts().fmt(f)
    }
}

impl FromStr for Machine {
    type Err = NoMachine;

    fn from_str(text: &str) -> Result<Machine, NoMachine> {
        match text {
            "4" => Ok(Machine::Four),
            "8" => Ok(Machine::Eight),
            _ => Err(NoMachine),
        }
    }
}

/// A text that names no machine.
///
/// ```
/// use spatecanter::{Machine, NoMachine};
///
/// assert_eq!("08".parse::<Machine>(), Err(NoMachine));
/// assert_eq!(NoMachine.to_string(), "no machine: it is 4 or 8, the number of fonts");
/// ```
#[derive(Clone, Copy, Debug, PartialEq, Eq)]
pub struct NoMachine;

impl fmt::Display for NoMachine {
    fn fmt(&self, f: &mut fmt::Formatter) -> fmt::Result {
        f.write_str("no machine: it is 4 or 8, the number of fonts")
    }
}

impl Error for NoMachine {}
