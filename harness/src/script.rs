//! The call script: the program that runs one, as a process, beside the crate.

mod answer;
mod assembled;
mod cases;
mod compare;
mod damage;
mod draw;
mod edges;
mod failures;
mod long;
pub mod oracle;
mod places;
pub mod program;
mod record;
pub mod records;
mod seen;
pub mod statements;

pub use answer::run as answer;
pub use assembled::run as assemble;
pub use compare::run as compare;
pub use oracle::line;
pub use record::run as record;
pub use records::has_record;
