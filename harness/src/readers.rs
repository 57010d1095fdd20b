//! A reader call: what it is given, what it answers, and who is asked: the
//! library, the crate, and the port that the benchmark times.

pub mod answer;
pub mod call;
pub mod column;
pub mod compiled;
pub mod draw;
pub mod library;
pub mod port;
pub mod read;
pub mod refusal;
pub mod run;
pub mod run_end;
pub mod sets;
pub mod table;
pub mod values;
mod walk;
pub mod words;
