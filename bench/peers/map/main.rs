//! The work of `scimlink map` by csv and serde: `map USERS` prints the user of each row as JSON, a line each.
use csv::{Reader, StringRecord};
use std::error::Error;
use std::io::{BufWriter, Write};

#[path = "../image.rs"]
mod image;
use image::{Row, User};

fn main() -> Result<(), Box<dyn Error>> {
    let path = std::env::args().nth(1).ok_or("map USERS")?;
    let mut reader = Reader::from_path(path)?;
    let header = reader.headers()?.clone();
    let mut out = BufWriter::new(std::io::stdout().lock());
    let mut record = StringRecord::new();
    let mut number = 0;
    while reader.read_record(&mut record)? {
        number += 1;
        match record.deserialize::<Row>(Some(&header)) {
            Ok(row) => {
                serde_json::to_writer(&mut out, &User::from(&row))?;
                out.write_all(b"\n")?;
            }
            Err(error) => eprintln!("users record {number}: {error}"),
        }
    }
    Ok(out.flush()?)
}
