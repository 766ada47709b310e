//! Made inputs for samples, tests and benchmarks: the same seed gives the same bytes.

mod book;
mod chart;
mod codes;
mod punch;
mod random;
mod stations;
mod yearbook;

pub use book::{book, book_widths};
pub use chart::chart;
pub use codes::codes;
pub use random::Random;
pub use stations::{stations, stations_widths, STATIONS_SPACING};
pub use yearbook::{pages, yearbook, yearbook_figures, Figure};
