//! The laws hold after Run, and each can be broken.

mod ledgers;
use ledgers::*;
use second::codec::ledger_of;
use second::console;
use second::day::Day;
use second::form::Form;
use second::laws::*;
use second::layout::*;
use second::setting::Setting;
use second::words;

fn setting(k: u16, a: u16, beta1: u16, beta2: u16) -> Setting {
    Setting {
        k,
        a,
        beta1,
        beta2,
        edition: 0,
    }
}

/// Run as a history.
fn run_history() -> History {
    let mut history = History::default();
    history.opened(&setting(3, 2, 1, 2));
    history.booked(1, 7, &[0]);
    history.booked(2, 7, &[0]);
    history.booked(3, 9, &[1]);
    history.booked(4, 10, &[1, 2]);
    history.polled(2, &[1, 1, 255]);
    history.polled(3, &[1, 0, 0]);
    history.polled(4, &[1, 1, 1]);
    history.polled(1, &[1, 1, 0]);
    history
}

fn picture(ws: &[u16]) -> Picture {
    Picture::of_words(ws, |name| words::accepted(ws, name) == (0, 1))
}

fn broken_law(change: impl FnOnce(&mut Picture)) -> Option<Law> {
    let mut picture = picture(&run_polled(4));
    change(&mut picture);
    run_history().check(&picture).err().map(|breach| breach.law)
}

#[test]
fn run_keeps_every_law() {
    assert_eq!(broken_law(|_| ()), None);
    assert_eq!(run_history().summed_sizes(), 8);
}

#[test]
fn a_list_shows_the_same_picture() {
    let input = format!("{RUN_BOOKINGS}{RUN_POLLS}list\n");
    let text = String::from_utf8(console::run(input.as_bytes())).unwrap();
    assert_eq!(Picture::of_list(&text), Some(picture(&run_polled(4))));
}

#[test]
fn an_opening_starts_afresh() {
    let mut history = run_history();
    history.opened(&setting(1, 1, 1, 2));
    let ws = opened(1, 1, 1, 2);
    assert_eq!(history.check(&picture(&ws)), Ok(()));
}

#[test]
fn each_law_can_be_broken() {
    let broken = broken_law(|picture| picture.rows[3].slot = 8);
    assert_eq!(broken, Some(Law::Bookings));
    let broken = broken_law(|picture| picture.polls = 3);
    assert_eq!(broken, Some(Law::Polls));
    let broken = broken_law(|picture| picture.rows[4].is_polled = false);
    assert_eq!(broken, Some(Law::Polls));
    let broken = broken_law(|picture| picture.rows[0].confidence = 4);
    assert_eq!(broken, Some(Law::Confidence));
    let broken = broken_law(|picture| {
        picture.rows[1].is_accepted = true;
        picture.rows[2].is_accepted = true;
    });
    assert_eq!(broken, Some(Law::AcceptedOnce));
    let broken = broken_law(|picture| picture.rows[1].is_preferred = true);
    assert_eq!(broken, Some(Law::Preferred));
}

/// β1 is 1, booking 2 has two chits built on it, 4 has one.
#[test]
fn nobody_is_accepted_without_chits() {
    assert_eq!(
        broken_law(|picture| picture.rows[2].is_accepted = true),
        None
    );
    let broken = broken_law(|picture| picture.rows[4].is_accepted = true);
    assert_eq!(broken, Some(Law::AcceptedByChits));
}

/// In the later edition one chit is enough for β1 = 1, and none is not.
#[test]
fn who_is_accepted_in_the_later_edition() {
    let mut history = History::default();
    history.opened(&Setting {
        edition: 1,
        ..setting(1, 1, 1, 2)
    });
    history.booked(1, 7, &[0]);
    history.booked(2, 8, &[1]);
    history.polled(1, &[1]);
    let mut ws = opened_in(1, 1, 1, 1, 2);
    must_book(&mut ws, 1, 7, &[0]);
    must_book(&mut ws, 2, 8, &[1]);
    must_poll(&mut ws, 1, &[1]);
    let mut picture = picture(&ws);
    assert!(picture.rows[1].is_accepted);
    assert_eq!(history.check(&picture), Ok(()));
    picture.rows[2].is_accepted = true;
    let breach = history.check(&picture).unwrap_err();
    assert_eq!(breach.law, Law::AcceptedByChits);
}

/// One picture after the other, of P10 and of a rival that comes after it.
#[test]
fn who_is_accepted_stays_so() {
    let mut history = History::default();
    history.opened(&setting(1, 1, 1, 2));
    history.booked(1, 7, &[0]);
    history.booked(2, 8, &[1]);
    history.polled(1, &[1]);
    history.polled(2, &[1]);
    let mut ws = accepted_1();
    assert_eq!(history.check(&picture(&ws)), Ok(()));
    must_book(&mut ws, 3, 7, &[0]);
    history.booked(3, 7, &[0]);
    let kept = picture(&ws);
    assert_eq!(history.check(&kept), Ok(()));
    let mut lost = kept.clone();
    lost.rows[1].is_accepted = false;
    let breach = history.check(&lost).unwrap_err();
    assert_eq!(breach.law, Law::AcceptedStays);
    // After an opening, nobody has to be.
    history.opened(&setting(1, 1, 1, 2));
    history.booked(1, 7, &[0]);
    history.booked(2, 8, &[1]);
    history.booked(3, 7, &[0]);
    history.polled(1, &[1]);
    history.polled(2, &[1]);
    assert_eq!(history.check(&lost), Ok(()));
    assert_eq!(history.check(&kept), Ok(()));
}

/// A file that tells marks gives them to whom it likes, and they stay so too:
/// here 2, on which one chit is built, and not 1.
#[test]
fn who_is_marked_by_a_file_is_accepted() {
    let ledger = ledger_of(&accepted_1());
    let mut day = Day::of(&ledger, Form::Second);
    assert_eq!(day.marks, Some(vec![0, 1]));
    day.marks = Some(vec![0, 2]);
    let mut told = picture(&accepted_1());
    told.rows[1].is_accepted = false;
    told.rows[2].is_accepted = true;
    let mut history = History::default();
    history.handed_over(&day);
    assert_eq!(history.check(&told), Ok(()));
    let broken = |day: &Day, told: &Picture| {
        let mut history = History::default();
        history.handed_over(day);
        history.check(told).map_err(|breach| breach.law)
    };
    let mut lost = told.clone();
    lost.rows[2].is_accepted = false;
    assert_eq!(broken(&day, &lost), Err(Law::AcceptedStays));
    // The first form tells nobody, and 2 has not earned it.
    day.marks = None;
    assert_eq!(broken(&day, &told), Err(Law::AcceptedByChits));
    assert_eq!(broken(&day, &lost), Ok(()));
}

/// The laws that a true confidence implies, each by itself.
#[test]
fn total_and_preferred_by_themselves() {
    let mut ws = run_polled(4);
    assert_eq!(check_total(&picture(&ws).rows, 8), Ok(()));
    assert!(check_total(&picture(&ws).rows, 7).is_err());
    assert_eq!(check_preferred(&picture(&ws).rows), Ok(()));
    ws[record(1) + CONFIDENCE] = 3;
    assert!(check_preferred(&picture(&ws).rows).is_err());
}
