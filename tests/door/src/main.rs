//! Serves requests for the library through the Rust door (rust/), as tests/driver.c serves them through the C functions: requests on
//! standard input, answers on standard output, until the input ends. tests/driver.c has the requests and their answers, byte for byte.
//!
//! What is answered has gone through the door's own types and back: every refusal through its variant, every session through `Session`,
//! the flag and the source through theirs.

mod requests;
mod wire;

use std::io;
use std::process::ExitCode;

fn serve() -> io::Result<()> {
    let mut input = wire::Input::new(io::stdin().lock());
    let mut output = wire::Output::new(io::stdout().lock());
    let mut lister = requests::Lister::new()?;
    while let Some(request) = input.request()? {
        match request {
            1 => requests::open(&mut input, &mut output)?,
            2 => requests::feed(&mut input, &mut output)?,
            3 => requests::run(&mut input, &mut output)?,
            4 => requests::read(&mut input, &mut output)?,
            5 => lister.list(&mut input, &mut output)?,
            6 => requests::import(&mut input, &mut output)?,
            7 => requests::hand(&mut input, &mut output)?,
            8 => requests::write(&mut input, &mut output)?,
            9 => requests::again(&mut input, &mut output)?,
            10 => requests::standard(&mut input, &mut output)?,
            11 => requests::rebind(&mut input, &mut output)?,
            12 => requests::retrace(&mut input, &mut output)?,
            13 => requests::mend(&mut input, &mut output)?,
            14 => requests::listing(&mut input, &mut output)?,
            _ => return Err(io::Error::new(io::ErrorKind::InvalidData, format!("request {request}"))),
        }
        output.flush()?;
    }
    Ok(())
}

fn main() -> ExitCode {
    match serve() {
        Ok(()) => ExitCode::SUCCESS,
        Err(error) => {
            eprintln!("door: {error}");
            ExitCode::FAILURE
        }
    }
}
