//! Reads the heading of an exchange record: `rust/run marc RECORD LIST` prints `heading` and its three nodes, or `refused`, number and place.
//!
//! The file LIST has a line with the heading symbol and the number for absent dates, then one for each known string: its number, a space and
//! its bytes. RECORD has one record and nothing else.

use shuuxideg::{proved, Known, RECORD_NODES};
use std::{env, error::Error, fs, str};

/// The number before a line's first space, and the bytes behind that.
fn numbered(line: &[u8]) -> Result<(u16, &[u8]), Box<dyn Error>> {
    let space = line.iter().position(|&byte| byte == b' ').ok_or("a line of the list without a space")?;
    Ok((str::from_utf8(&line[..space])?.parse()?, &line[space + 1..]))
}

fn main() -> Result<(), Box<dyn Error>> {
    let files: Vec<String> = env::args().skip(1).collect();
    let [record, list] = <[String; 2]>::try_from(files).map_err(|_| "usage: rust/run marc RECORD LIST")?;
    let (record, list) = (fs::read(record)?, fs::read(list)?);

    let mut lines = list.strip_suffix(b"\n").unwrap_or(&list).split(|&byte| byte == b'\n');
    let (heading, absent) = numbered(lines.next().unwrap_or(b""))?;
    let absent = str::from_utf8(absent)?.parse()?;
    let (mut text, mut ends, mut numbers) = (Vec::new(), Vec::new(), Vec::new());
    for line in lines {
        let (number, string) = numbered(line)?;
        text.extend_from_slice(string);
        ends.push(u32::try_from(text.len())?);
        numbers.push(number);
    }

    let known = Known { text: &text, ends: &ends, numbers: &numbers };
    let mut nodes = [0; RECORD_NODES];
    match proved::marc_heading(&record, known, heading, absent, &mut nodes) {
        Ok(()) => println!("heading {} {} {}", nodes[0], nodes[1], nodes[2]),
        Err(refusal) => println!("refused {} {}", refusal.number, refusal.place),
    }
    Ok(())
}
