use super::message::COMMANDS;
use crate::{Command, Kind, Ledger, Refusal, Report, LEDGER_LINES};
use std::collections::HashMap;

const OK: u8 = Kind::Ok as u8;
const ERR: u8 = Kind::Err as u8;
const RX: u8 = Kind::Rx as u8;
const TX_DONE: u8 = Kind::TxDone as u8;

fn fits(command: Command, line: usize, closed: bool) -> Report {
    Report::Fits {
        command,
        line,
        closed,
    }
}

#[test]
fn a_host_knows_which_command_an_ok_belongs_to() {
    let mut ledger = Ledger::new();
    assert_eq!(ledger.open(Command::GetInfo), Ok((1, 0)));
    assert_eq!(ledger.open(Command::Tx), Ok((2, 1)));
    assert_eq!(ledger.open(Command::Ping), Ok((3, 2)));
    assert_eq!(ledger.answer(OK, 3), fits(Command::Ping, 2, true));
    assert_eq!(ledger.answer(OK, 1), fits(Command::GetInfo, 0, true));
    assert_eq!(ledger.answer(TX_DONE, 2), Report::Unexpected);
    assert_eq!(ledger.answer(OK, 2), fits(Command::Tx, 1, false));
    assert_eq!(ledger.answer(OK, 2), Report::Unexpected);
    assert_eq!(ledger.answer(ERR, 2), Report::Unexpected);
    assert_eq!(ledger.open(Command::SetConfig), Ok((4, 0)));
    assert_eq!(ledger.answer(TX_DONE, 2), fits(Command::Tx, 1, true));
    assert_eq!(ledger.answer(TX_DONE, 2), Report::Unexpected);
    assert_eq!(ledger.answer(ERR, 4), fits(Command::SetConfig, 0, true));
}

#[test]
fn each_command_is_reported() {
    let mut ledger = Ledger::default();
    for command in COMMANDS {
        let (tag, line) = ledger.open(command).unwrap();
        assert_eq!(ledger.answer(ERR, tag), fits(command, line, true));
    }
}

#[test]
fn sixteen_commands_are_open() {
    let mut ledger = Ledger::new();
    for line in 0..LEDGER_LINES {
        assert_eq!(ledger.open(Command::Tx), Ok((line as u16 + 1, line)));
    }
    for command in COMMANDS {
        assert_eq!(ledger.open(command), Err(Refusal::Ledger));
    }
    assert_eq!(ledger.answer(ERR, 6), fits(Command::Tx, 5, true));
    assert_eq!(ledger.open(Command::Ping), Ok((17, 5)));
    assert_eq!(ledger.open(Command::Ping), Err(Refusal::Ledger));
}

#[test]
fn what_answers_no_command_changes_nothing() {
    let mut ledger = Ledger::new();
    assert_eq!(ledger.open(Command::Tx), Ok((1, 0)));
    for tag in [0, 1, 2, 0xFFFF] {
        assert_eq!(ledger.answer(RX, tag), Report::Nobodys);
    }
    assert_eq!(ledger.answer(ERR, 0), Report::Nobodys);
    for kind in (0..=255).filter(|kind| ![OK, ERR, RX].contains(kind)) {
        assert_eq!(ledger.answer(kind, 1), Report::Unexpected);
        assert_eq!(ledger.answer(kind, 0), Report::Unexpected);
    }
    assert_eq!(ledger.answer(OK, 0), Report::Unexpected);
    assert_eq!(ledger.answer(OK, 2), Report::Unexpected);
    assert_eq!(ledger.answer(OK, 1), fits(Command::Tx, 0, false));
}

#[test]
fn a_new_connection_frees_all_lines_and_the_tags_go_on() {
    let mut ledger = Ledger::new();
    for tag in 1..=3 {
        assert_eq!(ledger.open(Command::Tx), Ok((tag, usize::from(tag) - 1)));
    }
    assert_eq!(ledger.answer(OK, 2), fits(Command::Tx, 1, false));
    let before = ledger.clone();
    ledger.connect();
    assert_eq!(ledger.answer(OK, 1), Report::Unexpected);
    assert_eq!(ledger.answer(TX_DONE, 2), Report::Unexpected);
    assert_eq!(ledger.open(Command::Ping), Ok((4, 0)));
    let mut ledger = before;
    assert_eq!(ledger.answer(TX_DONE, 2), fits(Command::Tx, 1, true));
}

#[test]
fn the_tags_come_round_past_those_that_are_open() {
    let mut ledger = Ledger::new();
    let held = [1, 2, 1000, 0xFFFE, 0xFFFF];
    for tag in 1..=0xFFFF {
        let (given, line) = ledger.open(Command::RxStart).unwrap();
        assert_eq!(given, tag);
        if !held.contains(&tag) {
            assert_eq!(ledger.answer(OK, tag), fits(Command::RxStart, line, true));
        }
    }
    for tag in (1..=0xFFFF).filter(|tag| !held.contains(tag)) {
        assert_eq!(ledger.open(Command::Ping), Ok((tag, 5)));
        assert_eq!(ledger.answer(OK, tag), fits(Command::Ping, 5, true));
    }
    assert_eq!(ledger.open(Command::Ping), Ok((3, 5)));
}

/// Calls with numbers that look random, beside a map of the open commands: each with its line, and
/// whether it is a TX that has its OK.
#[test]
fn calls_are_answered_as_a_map_says() {
    let mut ledger = Ledger::new();
    let mut open: HashMap<u16, (Command, usize, bool)> = HashMap::new();
    let (mut random, mut last, mut full) = (1_u32, 0, 0);
    for _ in 0..50_000 {
        random = random.wrapping_mul(1_664_525).wrapping_add(1_013_904_223);
        let number = random >> 16;
        let command = COMMANDS[number as usize % 6];
        if number % 16 < 7 {
            match ledger.open(command) {
                Ok((tag, line)) => {
                    assert!(open.values().all(|other| other.1 != line));
                    open.insert(tag, (command, line, false));
                    last += 1;
                    assert_eq!(tag, last);
                }
                refused => {
                    assert_eq!(refused, Err(Refusal::Ledger));
                    assert_eq!(open.len(), LEDGER_LINES);
                    full += 1;
                }
            }
            continue;
        }
        let kind = [OK, ERR, RX, TX_DONE][number as usize / 1024 % 4];
        let tag = last.saturating_sub((number / 16 % 40) as u16);
        let report = match open.get(&tag).copied() {
            _ if kind == RX || (kind == ERR && tag == 0) => Report::Nobodys,
            Some((Command::Tx, line, false)) if kind == OK => {
                open.insert(tag, (Command::Tx, line, true));
                fits(Command::Tx, line, false)
            }
            Some((command, line, accepted)) if accepted == (kind == TX_DONE) => {
                open.remove(&tag);
                fits(command, line, true)
            }
            _ => Report::Unexpected,
        };
        assert_eq!(ledger.answer(kind, tag), report);
    }
    assert!(last > 1000 && full > 100, "{last} opened, {full} refused");
}

#[test]
fn it_can_be_printed() {
    assert_eq!(format!("{:?}", Ledger::new()), "Ledger { .. }");
}
