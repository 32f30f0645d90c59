//! Document 01's worked cases C1 to C12 and its whole stream, asked through the
//! safe functions. Also a first look at how this crate is used.

use egretfold::headers::{SET_DOMAIN, SET_INST_FMT, SET_OUT_FMT, START_PROGRAM};
use egretfold::{layout, locate, parameters, read, superfine, translate, write, write_command};
use egretfold::{Answer, Refusal, Translated};
use egretfold::{Command, Edition, Fed, Format, Group, Layout, Program, Reply, Session, Window};

#[rustfmt::skip]
const STREAM: [u32; 15] = [
    SET_INST_FMT, 0x1000, 0x400_0010,
    SET_OUT_FMT, 0, 0x800, 0x201_0064, 0x12,
    SET_DOMAIN, 0, 0, 0x5F, 0x11,
    START_PROGRAM, 0,
];

fn shape(size: u32, base: u32, pitch: u32, height: u32, tiled: bool) -> Layout {
    Layout {
        base,
        pitch,
        height,
        size,
        tiled,
    }
}

/// What a translation answers.
fn at(address: u32, run: u32) -> Answer<Translated> {
    Ok(Translated { address, run })
}

#[test]
fn c1_and_c2_linear() {
    let c1 = shape(4, 2048, 100, 3, false);
    let (step, span) = (96, 1_152);
    assert_eq!(layout(&c1), Ok(Window { step, span }));
    assert_eq!(translate(&c1, 5, 2), at(2836, 91));
    assert_eq!(locate(&c1, 2837), Ok((5, 2, 1)));
    assert_eq!(locate(&c1, 2047), Err(Refusal::Unowned));
    assert_eq!(translate(&c1, 95, 0), at(2428, 1));
    assert_eq!(translate(&c1, 96, 0), Err(Refusal::PairOutside));
}

#[test]
fn c3_to_c8_tiled_and_refused() {
    let c3 = shape(4, 0, 100, 20, true);
    assert_eq!(translate(&c3, 37, 18), at(9828, 3));
    let c4 = shape(1, 0, 128, 64, true);
    assert_eq!(translate(&c4, 64, 0), at(3072, 8));
    assert_eq!(translate(&c4, 0, 32), at(4608, 8));
    let c6 = shape(16, 0, 16, 8, true);
    assert_eq!(translate(&c6, 15, 7), at(1648, 1));
    assert_eq!(layout(&shape(4, 0, 28, 1, true)), Err(Refusal::WindowRule));
    assert!(layout(&shape(4, 4_294_965_248, 8, 64, false)).is_ok());
    assert_eq!(
        layout(&shape(4, 4_294_965_248, 8, 65, false)),
        Err(Refusal::WindowRule)
    );
}

#[test]
fn elements_are_read_and_written_in_lent_memory() {
    let c1 = shape(4, 2048, 100, 3, false);
    let mut memory = [0; 8];
    assert_eq!(write(&c1, 5, 2, &mut memory, 2833, &[1, 2, 3, 4]), Ok(()));
    assert_eq!(memory, [0, 0, 0, 1, 2, 3, 4, 0]);
    let element = read(&c1, 5, 2, &memory, 2833).unwrap();
    assert_eq!(element.bytes(), [1, 2, 3, 4]);
    assert_eq!(element.len(), 4);
    assert_eq!(read(&c1, 5, 2, &[], 2836), Err(Refusal::WrongLength));
    assert_eq!(
        write(&c1, 5, 2, &mut memory, 2833, &[]),
        Err(Refusal::WrongLength)
    );
}

#[test]
fn a_superfine_read_takes_four_neighbours() {
    let memory: Vec<u8> = (0..64).collect();
    let four = superfine(2048, 0x202_0008, 2, 0, 0, &memory, 2048).unwrap();
    let expected = [4, 5, 6, 7, 32, 33, 34, 35, 36, 37, 38, 39, 0, 1, 2, 3];
    assert_eq!(four.bytes(), expected);
    assert_eq!(
        superfine(2048, 0x200_0008, 2, 0, 0, &memory, 2048),
        Err(Refusal::Malformed)
    );
}

#[test]
fn the_whole_stream_makes_one_run() {
    let mut session = Session::new(Edition::First);
    let (first, second) = STREAM.split_at(5);
    let refusal = None;
    let fed = |taken, commands| Fed {
        taken,
        commands,
        refusal,
    };
    assert_eq!(session.feed(first), fed(5, 1));
    assert_eq!(session.status().open, Some((SET_OUT_FMT, 1)));
    assert_eq!(session.feed(second), fed(10, 3));
    assert_eq!(session.status().taken, 15);
    assert_eq!(session.status().open, None);
    assert_eq!((session.runs(), session.claims()), (1, 1_728));
    assert_eq!(session.domain(), Some([0, 0, 0x5F, 0x11]));
    let instructions = Format {
        base: 0x1000,
        format: 0x400_0010,
        height: 1,
    };
    assert_eq!(session.format(SET_INST_FMT, 0), Ok(Some(instructions)));
    assert_eq!(session.format(SET_OUT_FMT, 1), Ok(None));
    assert_eq!(session.format(SET_OUT_FMT, 4), Err(Refusal::NumberTooHigh));
    assert_eq!(
        session.format(START_PROGRAM, 0),
        Err(Refusal::UnknownHeader)
    );
    assert_eq!(session.output_mask(), 65_535);
    assert_eq!((session.conditional_mask(), session.test()), (None, None));
}

#[test]
fn a_refused_word_stops_the_session() {
    let mut session = Session::new(Edition::First);
    assert_eq!(session.word(START_PROGRAM), Ok(Reply::Open));
    assert_eq!(session.word(0), Err(Refusal::StartUnset));
    assert!(session.status().stopped);
    assert_eq!(session.word(START_PROGRAM), Err(Refusal::Stopped));
    assert_eq!(session.feed(&STREAM).refusal, Some(Refusal::Stopped));
    assert_eq!(session.feed(&[]).refusal, None);
}

#[test]
fn a_command_is_written_to_the_words_it_came_from() {
    let mut session = Session::new(Edition::First);
    let mut last = Reply::Open;
    for word in &STREAM[..3] {
        last = session.word(*word).unwrap();
    }
    let fields = [0x1000, 0x400_0010, 0, 0];
    let header = SET_INST_FMT;
    let command = Command { header, fields };
    assert_eq!(last, Reply::Done(command));
    let mut room = [7; 4];
    assert_eq!(write_command(&command, &mut room), Ok(3));
    assert_eq!(room[..3], STREAM[..3]);
    assert_eq!(room[3], 7);
    assert_eq!(
        write_command(&command, &mut room[..2]),
        Err(Refusal::WrongLength)
    );
    assert_eq!(
        (parameters(SET_INST_FMT), parameters(0)),
        (Ok(2), Err(Refusal::UnknownHeader))
    );
}

#[test]
fn c9_to_c12_steps() {
    let program = Program::load(&[0x0200_0F00, 0, 0x10, 0, 0x0101_0020, 0, 0x20, 0]).unwrap();
    assert_eq!(program.slots(), 4);
    assert_eq!(program.slot(511), [0x20, 0]);
    let fresh = Group::begin(4).unwrap();
    let mut group = fresh;
    let c9 = group.step(&program, 0b0011, 0, 0, &[]).unwrap();
    assert_eq!((c9.jumped, group.active()), (false, 0b0011));
    let c11 = group.step(&program, 0, 0, 0, &[]).unwrap();
    assert_eq!((c11.jumped, group.active()), (false, 0b1100));
    group.step(&program, 0, 0, 0, &[]).unwrap();
    assert_eq!((group.active(), group.position()), (0b1111, 3));
    let mut c10 = fresh;
    assert!(c10.step(&program, 0, 0, 0, &[]).unwrap().jumped);
    assert_eq!((c10.active(), c10.size(), c10.mask()), (15, 4, 15));
    assert_eq!(Group::begin(33), Err(Refusal::FlowField));
    assert_eq!(Program::load(&[0]), Err(Refusal::PastEnd));
}

#[test]
fn a_run_reports_and_returns_come_oldest_first() {
    // Two calls, one inside the other, then the plain slot and the end.
    let program = Program::load(&[0xFF80, 2 << 16, 0x20, 0, 0xFF80, 4 << 16, 0x20, 0, 0x20, 0]);
    let program = program.unwrap();
    let mut group = Group::begin(3).unwrap();
    let report = group.run(&program, &[0, 0, 0, 0, 5], 0, &[]).unwrap();
    assert_eq!((report.steps, report.first, report.active), (2, 0, 3));
    assert_eq!(group.returns(), [1, 3]);
    assert_eq!((group.position(), group.counter(2)), (4, 0));
    assert_eq!(group.run(&program, &[0; 9], 0, &[]).unwrap().steps, 1);
    assert_eq!(group.run(&program, &[], 0, &[]), Err(Refusal::Ended));
}
