//! The listing, line by line, and where it stops.

mod common;

use common::*;
use second::listing::list;
use std::io::{self, Read};

const HEADER: &str = "no reply pass controller name new\n";

fn listing_of(input: &[u8]) -> String {
    let mut output = Vec::new();
    list(&mut &input[..], &mut output).unwrap();
    String::from_utf8(output).unwrap()
}

fn assert_lines(input: &[u8], lines: &[&str]) {
    let mut expected = HEADER.to_string();
    for line in lines {
        expected.push_str(line);
        expected.push('\n');
    }
    assert_eq!(listing_of(input), expected);
}

/// The document's worked net of two controllers.
fn worked_set_up() -> Vec<u8> {
    set_up_bytes(
        &[&[GOOD, GOOD], &[GOOD, GOOD]],
        &[policy(&[(17, 1)]), policy(&[(3, 1)])],
    )
}

fn launch_command(controller: u8, tree: &[u8]) -> Vec<u8> {
    let mut bytes = vec![1, controller];
    bytes.extend(envelope(tree));
    bytes
}

fn after_set_up(commands: &[&[u8]]) -> Vec<u8> {
    let mut input = worked_set_up();
    for command in commands {
        input.extend_from_slice(command);
    }
    input
}

const SET_UP_DONE: &str = "0 0 - - - -";

#[test]
fn the_worked_listing() {
    let input = after_set_up(&[&launch_command(16, &CASE_6), &[2, 0, 2, 0, 2, 0, 2, 0]]);
    let expected = "no reply pass controller name new\n\
                    0 0 - - - -\n\
                    1 0 - 16 - 0\n\
                    2 0 0 16 17 1\n\
                    3 0 1 17 3 -\n\
                    4 0 1 17 - -\n\
                    5 11 - - - -\n";
    assert_eq!(listing_of(&input), expected);
}

#[test]
fn a_set_up_always_has_its_line() {
    assert_lines(&[], &["0 1 - - - -"]);
    assert_lines(&[0], &["0 1 - - - -"]);
    let whole = worked_set_up();
    for length in 2..whole.len() {
        assert_lines(&whole[..length], &["0 1 - - - -"]);
    }
    assert_lines(&whole, &[SET_UP_DONE]);
    assert_lines(&[0, 1, 1, 2, 0], &["0 2 - - - -"]);
    assert_lines(&[0, 1], &["0 2 - - - -"]);
    assert_lines(&[3, 3], &["0 2 - - - -"]);
    assert_lines(&[3, 2], &["0 1 - - - -"]);
}

#[test]
fn the_listing_stops_behind_a_refused_set_up() {
    let mut version = worked_set_up();
    version[2] = 2;
    version.extend([2, 0, 2, 0]);
    assert_lines(&version, &["0 3 - - - -"]);
    assert_lines(&[0, 2, 1, 0, 2, 0], &["0 14 - - - -"]);
    let mut incoherent = set_up_bytes(&[&[GOOD, GOOD], &[GOOD, BAD]], &[[0; 32]; 2]);
    incoherent.extend([2, 0]);
    assert_lines(&incoherent, &["0 15 - - - -"]);
}

#[test]
fn a_cut_command_has_no_line() {
    let launch = launch_command(16, &[0]);
    for length in 0..launch.len() {
        assert_lines(&after_set_up(&[&launch[..length]]), &[SET_UP_DONE]);
    }
    assert_lines(&after_set_up(&[&launch]), &[SET_UP_DONE, "1 0 - 16 - 0"]);
    assert_lines(&after_set_up(&[&[2]]), &[SET_UP_DONE]);
}

#[test]
fn another_command_byte_stops_without_a_line() {
    for command in [0, 3, 255] {
        assert_lines(
            &after_set_up(&[&[2, 0, command, 2, 0, 2, 0]]),
            &[SET_UP_DONE, "1 11 - - - -"],
        );
    }
}

#[test]
fn a_launch_length_out_of_range_has_a_line_and_stops() {
    for length in [[0, 0], [0, 1], [1, 0x82], [255, 255]] {
        let input = after_set_up(&[&[1, 16], &length, &[2, 0, 2, 0]]);
        assert_lines(&input, &[SET_UP_DONE, "1 2 - - - -"]);
        let cut = after_set_up(&[&[1, 16], &length]);
        assert_lines(&cut, &[SET_UP_DONE, "1 2 - - - -"]);
    }
}

#[test]
fn other_refused_launches_go_on() {
    let input = after_set_up(&[
        &[1, 16, 0, 2, 2, 0],
        &launch_command(16, &[1]),
        &launch_command(16, &[5]),
        &launch_command(16, &[0, 0]),
        &launch_command(18, &[0]),
        &launch_command(16, &[4, 17, 0, 1, 3, 0]),
        &launch_command(16, &[1, 3, 0]),
        &launch_command(17, &[1, 3, 0]),
        &[2, 64, 2, 255, 2, 0],
    ]);
    assert_lines(
        &input,
        &[
            SET_UP_DONE,
            "1 3 - - - -",
            "2 4 - - - -",
            "3 5 - - - -",
            "4 6 - - - -",
            "5 16 - - - -",
            "6 8 - - - -",
            "7 7 - - - -",
            "8 0 - 17 - 0",
            "9 11 - - - -",
            "10 11 - - - -",
            "11 0 0 17 3 -",
        ],
    );
}

#[test]
fn the_longest_envelopes_are_read() {
    let rows = [[UNKNOWN; 16]; 16];
    let trust: Vec<&[u8]> = rows.iter().map(|row| &row[..]).collect();
    let mut input = set_up_bytes(&trust, &[[0; 32]; 16]);
    input.extend(launch_command(31, &tree_of_length(384)));
    input.extend([2, 0]);
    assert_lines(&input, &[SET_UP_DONE, "1 0 - 31 - 0", "2 0 0 31 - -"]);
}

/// Hands out one byte at a time and is interrupted before each.
struct Dripping<'a> {
    bytes: &'a [u8],
    interrupted: bool,
}

impl Read for Dripping<'_> {
    fn read(&mut self, buffer: &mut [u8]) -> io::Result<usize> {
        self.interrupted = !self.interrupted;
        if self.interrupted {
            return Err(io::Error::from(io::ErrorKind::Interrupted));
        }
        let length = buffer.len().min(1);
        self.bytes.read(&mut buffer[..length])
    }
}

#[test]
fn input_may_come_in_any_portions() {
    let input = after_set_up(&[&launch_command(16, &CASE_6), &[2, 0, 2, 0, 2, 0, 2]]);
    let mut dripping = Dripping {
        bytes: &input,
        interrupted: false,
    };
    let mut output = Vec::new();
    list(&mut dripping, &mut output).unwrap();
    assert_eq!(String::from_utf8(output).unwrap(), listing_of(&input));
}

#[test]
fn a_long_input_is_listed_to_its_end() {
    let mut input = worked_set_up();
    for _ in 0..100_000 {
        input.extend([2, 9]);
    }
    let listing = listing_of(&input);
    assert_eq!(listing.lines().count(), 100_002);
    assert!(listing.ends_with("\n100000 11 - - - -\n"));
}
