use std::env;
use std::process::ExitCode;

fn main() -> ExitCode {
    ExitCode::from(afa_model::command(env::args_os().skip(1)))
}
