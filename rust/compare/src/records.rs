//! Bytes behind a header, and every call that walks over them.

use crate::case::Case;
use crate::pieces::HEADER_LENGTH;
use crate::sides::{Answer, Request};
use crate::tally::Tally;
use logbook::raw;

/// How many calls walk over a record, and its moves.
pub const WALKS: usize = 7;

/// A header, and these bytes behind it.
pub fn behind_header(bytes: &[u8]) -> Vec<u8> {
    let mut buf = vec![0; HEADER_LENGTH];
    assert_eq!(raw::start(&mut buf, &[7; 16], &[0; 60]).refusal, 0);
    buf.extend_from_slice(bytes);
    buf
}

/// Asks every call that walks over what stands at a place of a buffer, with room behind it for an
/// append; the step and the moves last.
pub fn ask_all(
    name: String,
    bytes: &[u8],
    place: usize,
    tally: &mut Tally,
) -> [(usize, usize); WALKS] {
    let used = bytes.len();
    let buf = [bytes, &[0xFF; 40]].concat();
    let mut reading = raw::fresh();
    while reading.position < place {
        let step = raw::step(&buf, used, reading);
        assert_eq!(step.item.refusal, 0, "{name}");
        reading = step.reading;
    }
    let requests = [
        Request::Append {
            uri: b"a:".to_vec(),
            data: b"x".to_vec(),
        },
        Request::Assign {
            number: 2,
            uri: Vec::new(),
        },
        Request::Erase { place },
        Request::Wipe { place, limit: 1 },
        Request::List { room: 320 },
        Request::Step {
            reading: Box::new(reading),
        },
    ];
    let mut answers = [(0, 0); WALKS];
    for (answer, request) in answers.iter_mut().zip(&requests) {
        let mut case = Case::new(name.clone(), buf.clone(), used);
        *answer = case.ask(used, request, tally).refusal();
    }
    answers[requests.len()] = move_over(Case::new(name, buf, used), reading, tally);
    answers
}

/// Takes what stands at the reading's position by moves, to the last one's answer.
fn move_over(mut case: Case, reading: raw::Reading, tally: &mut Tally) -> (usize, usize) {
    case.track.slow = raw::Slow {
        reading,
        ..raw::slow_fresh()
    };
    loop {
        let request = Request::Move {
            slow: Box::new(case.track.slow),
        };
        let answer = case.ask(case.track.used, &request, tally);
        let Answer::Moved { moved, .. } = &answer else {
            unreachable!("a move is answered by a move");
        };
        if !matches!(moved.item.kind, raw::SIZE_HELD | raw::TYPE_HELD) {
            return answer.refusal();
        }
    }
}
