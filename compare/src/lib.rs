//! What the programs share: texts, bodies and sheets to ask about, models of document
//! 01, the checks of one text, of one table and of one reading, counts and times.

pub mod bodies;
#[cfg(feature = "c-parsers")]
mod c_parsers;
pub mod calls;
pub mod check;
pub mod counts;
pub mod derived;
pub mod drains;
pub mod lent;
pub mod model;
pub mod named;
pub mod random;
pub mod read_times;
pub mod reader;
pub mod readings;
pub mod recorded;
pub mod rules;
pub mod shaped;
pub mod sheets;
pub mod tally;
pub mod texts;
pub mod timing;
pub mod upload_times;
pub mod uploads;
