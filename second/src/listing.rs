//! The listing: a set-up and commands come in, one line for each goes out.

use crate::envelope::{self, LENGTH_BYTES, LONGEST_PROGRAM, LONGEST_SET_UP};
use crate::net::Net;
use crate::reply::Reply;
use std::fmt;
use std::io::{self, Read, Write};

const HEADER: &str = "no reply pass controller name new";
const LAUNCH: u8 = 1;
const STEP: u8 = 2;

/// Room for the longest envelope; the longest program is shorter.
type Room = [u8; LENGTH_BYTES + LONGEST_SET_UP];

/// Reads a set-up and commands until the input ends or may not go on, and writes the listing.
pub fn list(input: &mut impl Read, output: &mut impl Write) -> io::Result<()> {
    let mut net = Net::new();
    let mut room: Room = [0; LENGTH_BYTES + LONGEST_SET_UP];
    writeln!(output, "{}", HEADER)?;

    // A cut set-up has its line too, so it is handed over as far as it came.
    let arrival = read_envelope(input, &mut room, LONGEST_SET_UP)?;
    let reply = net.set_up(&room[..arrival.length]);
    write_line(output, 0, &reply)?;
    if !reply.is_done() {
        return Ok(());
    }

    let mut number = 1u64;
    while let Some(outcome) = run_command(&mut net, input, &mut room)? {
        write_line(output, number, &outcome.reply)?;
        if outcome.stops {
            break;
        }
        number += 1;
    }
    Ok(())
}

/// A command's reply, and whether the input can't be read on behind it.
struct Outcome {
    reply: Reply,
    stops: bool,
}

/// Nothing at the end of the input, at a cut command and at another command byte.
fn run_command(
    net: &mut Net,
    input: &mut impl Read,
    room: &mut Room,
) -> io::Result<Option<Outcome>> {
    match read_byte(input)? {
        Some(LAUNCH) => run_launch(net, input, room),
        Some(STEP) => run_step(net, input),
        _ => Ok(None),
    }
}

fn run_launch(
    net: &mut Net,
    input: &mut impl Read,
    room: &mut Room,
) -> io::Result<Option<Outcome>> {
    let controller = match read_byte(input)? {
        Some(controller) => controller,
        None => return Ok(None),
    };
    let arrival = read_envelope(input, room, LONGEST_PROGRAM)?;
    if arrival.ending == Ending::Cut {
        return Ok(None);
    }
    Ok(Some(Outcome {
        reply: net.launch(controller, &room[..arrival.length]),
        // A length out of range doesn't tell where the next command begins.
        stops: arrival.ending == Ending::BadLength,
    }))
}

fn run_step(net: &mut Net, input: &mut impl Read) -> io::Result<Option<Outcome>> {
    Ok(read_byte(input)?.map(|slot| Outcome {
        reply: net.step(usize::from(slot)),
        stops: false,
    }))
}

/// The bytes of an envelope that stand in the room.
struct Arrival {
    length: usize,
    ending: Ending,
}

#[derive(Clone, Copy, PartialEq, Eq)]
enum Ending {
    Whole,
    Cut,
    BadLength,
}

/// Reads no further than the length bytes allow.
fn read_envelope(input: &mut impl Read, room: &mut Room, longest: usize) -> io::Result<Arrival> {
    let head = read_up_to(input, &mut room[..LENGTH_BYTES])?;
    if head < LENGTH_BYTES {
        return Ok(Arrival {
            length: head,
            ending: Ending::Cut,
        });
    }
    let announced = match envelope::announced_length(room[0], room[1], longest) {
        Ok(announced) => announced,
        Err(_) => {
            return Ok(Arrival {
                length: head,
                ending: Ending::BadLength,
            })
        }
    };
    let inside = read_up_to(input, &mut room[LENGTH_BYTES..LENGTH_BYTES + announced])?;
    Ok(Arrival {
        length: LENGTH_BYTES + inside,
        ending: if inside < announced {
            Ending::Cut
        } else {
            Ending::Whole
        },
    })
}

fn read_byte(input: &mut impl Read) -> io::Result<Option<u8>> {
    let mut byte = [0];
    Ok(if read_up_to(input, &mut byte)? == 1 {
        Some(byte[0])
    } else {
        None
    })
}

/// Fills the buffer unless the input ends first, and says how far it came.
fn read_up_to(input: &mut impl Read, buffer: &mut [u8]) -> io::Result<usize> {
    let mut filled = 0;
    while filled < buffer.len() {
        match input.read(&mut buffer[filled..]) {
            Ok(0) => break,
            Ok(more) => filled += more,
            Err(error) if error.kind() == io::ErrorKind::Interrupted => {}
            Err(error) => return Err(error),
        }
    }
    Ok(filled)
}

fn write_line(output: &mut impl Write, number: u64, reply: &Reply) -> io::Result<()> {
    writeln!(
        output,
        "{} {} {} {} {} {}",
        number,
        reply.number,
        Field(reply.pass),
        Field(reply.controller),
        Field(reply.name),
        Field(reply.new_pass)
    )
}

/// A field of a line; `-` stands for none.
struct Field<T>(Option<T>);

impl<T: fmt::Display> fmt::Display for Field<T> {
    fn fmt(&self, out: &mut fmt::Formatter<'_>) -> fmt::Result {
        match &self.0 {
            Some(value) => value.fmt(out),
            None => out.write_str("-"),
        }
    }
}
