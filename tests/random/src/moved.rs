//! What moving a file has to give, told by its bytes alone: a third opinion
//! beside those of both programs.

use crate::fault::Fault;
use crate::file::Reader;
use crate::replayed::{items, number, Told};
use second::form::Form;
use second::refusal::Refusal;

/// The file of the other form, or why there is none; of the room nothing is
/// asked.
pub fn moved(form: Form, file: &[u8]) -> Result<Vec<u8>, Refusal> {
    if Fault::of(file, form).is_some() {
        return Err(Refusal::File);
    }
    let (told, at) = Told::of_file(file);
    let read = told.outcome().marked();
    let mut moved = file[..at].to_vec();
    match form {
        Form::First => {
            let section = [read.len()].into_iter().chain(read);
            moved.extend(section.flat_map(|n| (n as u16).to_be_bytes()));
        }
        Form::Second => {
            let marks = items(&mut Reader { file, at }, |file| usize::from(number(file)));
            if marks != read {
                return Err(Refusal::OtherMarks);
            }
        }
    }
    Ok(moved)
}

#[cfg(test)]
mod tests {
    use super::*;
    use crate::grow::{any_size, grow, Style};
    use crate::prng::Prng;
    use second::day::Day;
    use second::words::move_file;

    /// The second program moves the same files to the same bytes; some go
    /// back, and some do not.
    #[test]
    fn a_move_gives_this() {
        let mut prng = Prng::new(1);
        let mut counts = [0, 0];
        for run in 0..200 {
            let style = Style::any(&mut prng);
            let n = any_size(&mut prng, run);
            let ledger = grow(&mut prng, style, n).ledger;
            for form in Form::ALL {
                let file = Day::of(&ledger, form).file();
                let mut out = vec![0; form.other().longest()];
                let (number, value) = move_file(form, &file, &mut out);
                out.truncate(value as usize);
                match moved(form, &file) {
                    Ok(meant) => assert_eq!((number, out), (0, meant)),
                    Err(refusal) => assert_eq!(number, refusal.number()),
                }
                let is_refused = number != 0;
                assert!(!is_refused || form == Form::Second);
                counts[usize::from(is_refused)] += 1;
                assert_eq!(moved(form.other(), &file), Err(Refusal::File));
            }
        }
        assert!(counts[0] > 250 && counts[1] > 20, "{counts:?}");
    }
}
