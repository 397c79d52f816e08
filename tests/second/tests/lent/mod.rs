//! Buffers lent for a file, and what they are left with. What several test
//! files ask.

use second::words::Answer;

/// What may stand in a buffer before. No byte is the same in both, so that
/// one that was not written shows.
fn fillings(room: usize) -> [Vec<u8>; 2] {
    let filling: Vec<u8> = (0..room).map(|at| (at * 151 + at / 256) as u8).collect();
    let other = filling.iter().map(|byte| !byte).collect();
    [filling, other]
}

/// A buffer that the file fits into begins with it and is as before behind
/// it; a shorter one stays as it is.
pub fn fills(file: &[u8], call: impl Fn(&mut [u8]) -> Answer) {
    let length = file.len();
    for room in [length, length + 1, length + 2, 2 * length, 70_000] {
        for before in fillings(room) {
            let mut out = before.clone();
            assert_eq!(call(&mut out), (0, length as i64));
            assert_eq!(out[..length], *file);
            assert_eq!(out[length..], before[length..]);
        }
    }
    for room in [0, 1, 2, 10, 13, length / 2, length - 2, length - 1] {
        leaves(room, (16, 0), &call);
    }
}

/// The call is refused, and every byte stays.
pub fn leaves(room: usize, answer: Answer, call: impl Fn(&mut [u8]) -> Answer) {
    for before in fillings(room) {
        let mut out = before.clone();
        assert_eq!(call(&mut out), answer);
        assert_eq!(out, before);
    }
}
