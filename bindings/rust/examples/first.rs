//! A line goes off hook, and the marker finds it a register: the records, an audit, a drawing, and a refused row.

use crossbar5::{Engine, Error};

fn main() -> Result<(), Error> {
    let engine = Engine::default();
    let records = engine.replay("J,0,1,D,3041\nS,0,128,,\n")?;
    println!("{records}");
    println!("{}", engine.audit(&records)?);
    println!("{}", engine.draw_as_text(&records)?);
    match engine.replay("J,0,1,D\n") {
        Err(Error::TrafficRefused(line)) => println!("refused: {line}"),
        other => println!("not as expected: {other:?}"),
    }
    Ok(())
}
