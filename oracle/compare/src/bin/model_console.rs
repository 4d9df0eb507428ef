//! The console's protocol over the model of the comparison itself. With it the comparison can be
//! tried out where no other console is at hand; it says nothing about any other console.
//!
//!     model_console [--break FAULT]

use std::io::{self, BufWriter, Read, Write};

use compare::faults::{Faulty, FAULTS};
use compare::reader;

fn main() -> io::Result<()> {
    let arguments: Vec<String> = std::env::args().skip(1).collect();
    let fault = match arguments.iter().map(String::as_str).collect::<Vec<_>>()[..] {
        [] => "",
        ["--break", fault] if FAULTS.iter().any(|known| known.0 == fault) => fault,
        _ => {
            eprintln!("model_console [--break FAULT], with FAULT one of");
            for (name, about) in FAULTS {
                eprintln!("  {name:<18}{about}");
            }
            std::process::exit(2);
        }
    };
    let mut input = Vec::new();
    io::stdin().lock().read_to_end(&mut input)?;
    let mut output = BufWriter::new(io::stdout().lock());
    let mut console = Faulty::new(fault);
    let read = reader::read(&console.misread(input));
    for call in &read.calls {
        output.write_all(&console.call(call).bytes())?;
    }
    if let Some(line) = read.malformed {
        writeln!(output, "malformed={}", console.malformed(line, &read.calls))?;
    }
    output.flush()
}
