//! The program: only what is linked with the Rattle library, so that all the
//! rest can be built before that library is.

use std::process::ExitCode;

fn main() -> ExitCode {
    harness::main()
}
