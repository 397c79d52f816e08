//! The second form of the day file, and the moves between the forms: every byte worked out by hand, who is accepted where a file
//! is read, every way in which a fourth section is bad, and refusals 16, 17 and 19 in their order.
use filzhammer::*;

mod listed;
mod refused;
use listed::*;
use refused::*;

/// One vote in a poll, with beta1 1 and beta2 2.
const ONE_VOTE: Setting = Setting {
    k: 1,
    a: 1,
    beta1: 1,
    beta2: 2,
    edition: 0,
};

/// The first three sections of the day below: 14 bytes, 12 for each of six bookings, 2 for each of as many parents, 4 for each of
/// as many polls.
const DAY: [u8; 122] = [
    0, 4, 0, 1, 0, 1, 0, 1, 0, 2, // four numbers: k, a, beta1, beta2
    0, 6, // six bookings
    0, 0, 0, 0, 0, 0, 0, 1, 0, 7, 0, 1, 0, 0, // name 1, slot 7, on 0
    0, 0, 0, 0, 0, 0, 0, 2, 0, 8, 0, 1, 0, 1, // name 2, slot 8, on 1
    0, 0, 0, 0, 0, 0, 0, 3, 0, 7, 0, 1, 0, 0, // name 3, slot 7, on 0
    0, 0, 0, 0, 0, 0, 0, 4, 0, 11, 0, 1, 0, 3, // name 4, slot 11, on 3
    0, 0, 0, 0, 0, 0, 0, 5, 0, 12, 0, 1, 0, 3, // name 5, slot 12, on 3
    0, 0, 0, 0, 0, 0, 0, 6, 0, 13, 0, 1, 0, 3, // name 6, slot 13, on 3
    0, 6, // six polls, and all won
    0, 1, 0, 1, 0, 2, 0, 1, 0, 3, 0, 1, 0, 4, 0, 1, 0, 5, 0, 1, 0, 6, 0, 1,
];

/// A day on which a rival comes late: 1 is accepted by the poll of 2, then 3 comes for its slot, and the polls of 3 to 6 speak
/// for it. So many of the six polls are taken.
fn late_rival(setting: Setting, polls: u64) -> [u16; WORDS] {
    let mut ws = opened(setting);
    book(&mut ws, 1, 7, &[0]).unwrap();
    book(&mut ws, 2, 8, &[1]).unwrap();
    for name in 1..=polls.min(2) {
        poll(&mut ws, name, &[YES]).unwrap();
    }
    for (name, slot, parent) in [(3, 7, 0), (4, 11, 3), (5, 12, 3), (6, 13, 3)] {
        book(&mut ws, name, slot, &[parent]).unwrap();
    }
    for name in 3..=polls {
        poll(&mut ws, name, &[YES]).unwrap();
    }
    ws
}

/// The genesis alone.
fn opened(setting: Setting) -> [u16; WORDS] {
    let mut ws = [0; WORDS];
    open(&mut ws, setting).unwrap();
    ws
}

/// Three sections, and a fourth with these numbers.
fn with_marks(first: &[u8], numbers: &[u16]) -> Vec<u8> {
    with_count(first, numbers.len() as u16, numbers)
}

/// The same with any count.
fn with_count(first: &[u8], count: u16, numbers: &[u16]) -> Vec<u8> {
    let mut file = first.to_vec();
    for number in [&[count], numbers].concat() {
        file.extend(number.to_be_bytes());
    }
    file
}

fn mark(number: usize) -> usize {
    8 + 13 * number + 12
}

/// The numbers that are marked.
fn marked(ws: &[u16]) -> Vec<u16> {
    (0..ws[0])
        .filter(|&number| ws[mark(number.into())] == 1)
        .collect()
}

/// The same words, but with these marks.
fn marked_so(mut ws: [u16; WORDS], numbers: &[u16]) -> [u16; WORDS] {
    for number in 0..BOOKINGS {
        ws[mark(number)] = numbers.contains(&(number as u16)).into();
    }
    ws
}

/// A call writes these bytes: into a buffer just as long, and into longer ones, whose other bytes stay, as do those around the
/// buffer; and a buffer one byte shorter is refused.
#[track_caller]
fn puts(file: &[u8], call: impl Fn(&mut [u8]) -> Result<usize, Refusal>) {
    for bytes in [file.len(), file.len() + 1, SECOND_FILE_MOST + 500] {
        let before = filled(8 + bytes + 8);
        let mut after = before.clone();
        assert_eq!(call(&mut after[8..8 + bytes]), Ok(file.len()));
        let expected = [&before[..8], file, &before[8 + file.len()..]].concat();
        assert_eq!(after, expected);
    }
    for bytes in [0, file.len() - 1] {
        room_refused(Refusal::ShortBuffer, bytes, &call);
    }
}

/// The ledger has these files in the two forms, and comes back from the second, whatever the words held before.
#[track_caller]
fn hands_over(ws: &[u16; WORDS], first: &[u8], marks: &[u16]) {
    let second = with_marks(first, marks);
    puts(first, |out| write(ws, Form::First, out));
    puts(first, |out| write_first(ws, out));
    puts(&second, |out| write(ws, Form::Second, out));
    makes(&second, ws);
}

/// Read in its second form, the file makes these words of any.
#[track_caller]
fn makes(second: &[u8], words: &[u16; WORDS]) {
    let mut damaged = listed(4);
    damaged[0] = 600;
    for mut ws in [[0; WORDS], [u16::MAX; WORDS], listed(4), damaged] {
        assert_eq!(read(&mut ws, Form::Second, second), Ok(()));
        assert_eq!(ws, *words);
    }
}

/// Moving from this form is refused so, with no room and with room for every file.
#[track_caller]
fn move_refused(refusal: Refusal, form: Form, file: &[u8]) {
    for bytes in [0, FILE_LEAST, file.len(), SECOND_FILE_MOST] {
        room_refused(refusal, bytes, |out| move_from(form, file, out));
    }
}

/// The file is bad in this form, for reading and for moving.
#[track_caller]
fn bad(form: Form, file: &[u8]) {
    for ws in [&mut [0; WORDS], &mut listed(4)] {
        refused(Refusal::BadFile, ws, |ws| read(ws, form, file));
    }
    move_refused(Refusal::BadFile, form, file);
}

/// The first form is moved to the second with these marks, and back; and each is bad in the other form.
#[track_caller]
fn there_and_back(first: &[u8], marks: &[u16]) {
    let second = with_marks(first, marks);
    puts(&second, |out| move_from(Form::First, first, out));
    puts(first, |out| move_from(Form::Second, &second, out));
    bad(Form::First, &second);
    bad(Form::Second, first);
}

// ---- the bytes

#[test]
fn the_day_of_a_late_rival() {
    let ws = late_rival(ONE_VOTE, 6);
    assert_eq!(marked(&ws), [0, 1]);
    hands_over(&ws, &DAY, &[0, 1]);
    let second = with_marks(&DAY, &[0, 1]);
    assert_eq!(second.len(), 128);
    assert_eq!(second[122..], [0, 2, 0, 0, 0, 1]);
}

/// By the later edition 1 is accepted by its own poll and 2 by its own.
#[test]
fn the_same_with_the_later_edition() {
    let setting = Setting {
        edition: Setting::LATER_EDITION,
        ..ONE_VOTE
    };
    let first = [&[0, 5], &DAY[2..10], &[0, 1], &DAY[10..]].concat();
    hands_over(&late_rival(setting, 6), &first, &[0, 1, 2]);
    // Reading the first form accepts 1 and then 2 by the poll of 2, since slot 7 is at counter 2, which is at least beta2.
    there_and_back(&first, &[0, 1, 2]);
}

#[test]
fn the_genesis_alone_has_the_shortest_file() {
    let first = [0, 4, 0, 3, 0, 2, 0, 1, 0, 2, 0, 0, 0, 0];
    assert_eq!(with_marks(&first, &[0]).len(), SECOND_FILE_LEAST);
    hands_over(&opened(SETTING), &first, &[0]);
    there_and_back(&first, &[0]);
    let later = [0, 5, 0, 3, 0, 2, 0, 1, 0, 2, 0, 1, 0, 0, 0, 0];
    hands_over(&opened(LATER), &later, &[0]);
    there_and_back(&later, &[0]);
}

/// One vote, the later edition, and number i on the numbers below it, the nearest first, as many as there are up to four; so a
/// poll speaks for all lower numbers. 1 to 255 have a slot each and are accepted by their own polls; then the others come.
#[test]
fn the_longest_file() {
    let setting = Setting {
        edition: Setting::LATER_EDITION,
        ..ONE_VOTE
    };
    let slot = |number: u64| ((number - 1) % 255 + 1) as u16;
    let mut ws = opened(setting);
    for numbers in [1..256, 256..512] {
        for number in numbers.clone() {
            let parents: Vec<u64> = (0..number).rev().take(4).collect();
            book(&mut ws, number, slot(number), &parents).unwrap();
        }
        for number in numbers {
            poll(&mut ws, number, &[YES]).unwrap();
        }
    }

    let mut first = vec![0, 5, 0, 1, 0, 1, 0, 1, 0, 2, 0, 1];
    let mut add = |number: u64| first.extend((number as u16).to_be_bytes());
    add(511);
    for number in 1..512 {
        for part in [0, 0, 0, number, slot(number).into(), number.min(4)] {
            add(part);
        }
        (1..=number.min(4)).for_each(|before| add(number - before));
    }
    add(511);
    for number in 1..512 {
        add(number);
        add(1);
    }
    let marks: Vec<u16> = (0..256).collect();
    assert_eq!(first.len(), FILE_MOST);
    assert_eq!(with_marks(&first, &marks).len(), SECOND_FILE_MOST);
    hands_over(&ws, &first, &marks);
    // Reading the first form accepts each of them by the poll of the next, where its slot is at counter 2.
    there_and_back(&first, &marks);

    // The last number is a booking's, and the next is not, and no record stands at it.
    makes(&with_marks(&first, &[0, 511]), &marked_so(ws, &[0, 511]));
    bad(Form::Second, &with_marks(&first, &[0, 512]));
}

/// What no poll led to is written, as long as the words break no rule.
#[test]
fn the_marks_are_those_of_the_words() {
    let first = written(Form::First, &listed(4));
    assert_eq!(first.len(), 88);
    hands_over(&listed(4), &first, &[0]);
    for marks in [&[0, 1][..], &[0, 2], &[0, 3], &[0, 1, 3, 4], &[0, 2, 3, 4]] {
        hands_over(&marked_so(listed(4), marks), &first, marks);
    }
    let both = &mut marked_so(listed(4), &[0, 1, 2]); // both are of slot 7
    form_refused(Refusal::DamagedRecord(2), both, Form::Second, 0);
}

fn written(form: Form, ws: &[u16]) -> Vec<u8> {
    let mut out = vec![0; SECOND_FILE_MOST];
    let length = write(ws, form, &mut out).unwrap();
    out.truncate(length);
    out
}

// ---- who is accepted after reading

#[test]
fn the_first_form_gives_the_acceptance_to_the_rival() {
    let ours = late_rival(ONE_VOTE, 6);
    let mut theirs = [0; WORDS];
    read(&mut theirs, Form::First, &DAY).unwrap();
    assert_eq!(theirs, marked_so(ours, &[0, 3]));
    let mut again = [0; WORDS];
    read_first(&mut again, &DAY).unwrap();
    assert_eq!(again, theirs);
}

/// A mark that was read keeps the rival from being accepted, as one that was earned does.
#[test]
fn the_day_goes_on_after_reading() {
    let ours = late_rival(ONE_VOTE, 5);
    let first = written(Form::First, &ours);
    assert_eq!(first.len(), DAY.len() - 4);
    let mut theirs = [0; WORDS];
    read(&mut theirs, Form::Second, &with_marks(&first, &[0, 1])).unwrap();
    assert_eq!(theirs, ours);
    poll(&mut theirs, 6, &[YES]).unwrap();
    assert_eq!(theirs, late_rival(ONE_VOTE, 6));
    assert_eq!(marked(&theirs), [0, 1]);

    // Without it 3 is accepted by the poll of 6: it is preferred and last in its slot, and the counter is 3.
    read(&mut theirs, Form::Second, &with_marks(&first, &[0])).unwrap();
    assert_eq!(marked(&theirs), [0]);
    poll(&mut theirs, 6, &[YES]).unwrap();
    assert_eq!(marked(&theirs), [0, 3]);
}

/// 2 to 6 were never accepted anywhere. A file may say so all the same, but not of both rivals.
#[test]
fn whether_votes_earned_a_mark_is_not_judged() {
    let ours = late_rival(ONE_VOTE, 6);
    for marks in [
        &[0][..],
        &[0, 2],
        &[0, 3],
        &[0, 6],
        &[0, 4, 6],
        &[0, 1, 2, 4, 5, 6],
        &[0, 2, 3, 4, 5, 6],
    ] {
        let words = marked_so(ours, marks);
        makes(&with_marks(&DAY, marks), &words);
        hands_over(&words, &DAY, marks);
    }
}

#[test]
fn a_mark_lasts_until_the_next_reading_or_opening() {
    let mut ws = [0; WORDS];
    read(&mut ws, Form::Second, &with_marks(&DAY, &[0, 6])).unwrap();
    marks_refused(Refusal::BadFile, &mut ws, &DAY);
    assert_eq!(accepted(&ws, 6), Ok(1));
    read(&mut ws, Form::Second, &with_marks(&DAY, &[0, 5])).unwrap();
    assert_eq!((accepted(&ws, 5), accepted(&ws, 6)), (Ok(1), Ok(0)));
    open(&mut ws, ONE_VOTE).unwrap();
    assert_eq!(marked(&ws), [0]);
}

// ---- moves

#[test]
fn moving_adds_the_marks_that_reading_gives() {
    there_and_back(&DAY, &[0, 3]);
    for setting in [SETTING, LATER] {
        for polls in 0..=4 {
            let first = written(Form::First, &listed_by(setting, polls));
            there_and_back(&first, &[0]);
        }
    }
    for polls in 0..=6 {
        let first = written(Form::First, &late_rival(ONE_VOTE, polls));
        let marks: &[u16] = if polls < 6 { &[0] } else { &[0, 3] };
        there_and_back(&first, marks);
    }
}

/// Only with the marks that reading the first form gives is a file moved back: not with one less, one more or another.
#[test]
fn r19_other_marks() {
    for marks in [&[0][..], &[0, 1], &[0, 2], &[0, 2, 3], &[0, 3, 6]] {
        move_refused(Refusal::OtherMarks, Form::Second, &with_marks(&DAY, marks));
    }
    let first = written(Form::First, &listed(4));
    for marks in [&[0, 1][..], &[0, 4]] {
        move_refused(
            Refusal::OtherMarks,
            Form::Second,
            &with_marks(&first, marks),
        );
    }
    // 1 is accepted where the file is written, and nobody where its first form is read: the rival has not won yet.
    let ours = late_rival(ONE_VOTE, 2);
    assert_eq!(marked(&ours), [0, 1]);
    move_refused(
        Refusal::OtherMarks,
        Form::Second,
        &written(Form::Second, &ours),
    );
}

/// A bad file is told before other marks, and those before a short buffer: `move_refused` lends buffers of every kind.
#[test]
fn r17_comes_before_r19_and_that_before_r16() {
    let other = with_marks(&DAY, &[0, 1]);
    move_refused(Refusal::BadFile, Form::Second, &other[..127]);
    move_refused(Refusal::OtherMarks, Form::Second, &other);
    let same = with_marks(&DAY, &[0, 3]);
    for bytes in 0..122 {
        room_refused(Refusal::ShortBuffer, bytes, |out| {
            move_from(Form::Second, &same, out)
        });
    }
    for bytes in 0..128 {
        room_refused(Refusal::ShortBuffer, bytes, |out| {
            move_from(Form::First, &DAY, out)
        });
    }
}

// ---- 17: fourth sections that are bad

#[test]
fn a_fourth_section_that_is_not_there() {
    bad(Form::Second, &DAY);
    bad(Form::Second, &[]);
    bad(Form::First, &[]);
    bad(Form::Second, &with_marks(&DAY, &[]));
    let file = with_marks(&DAY, &[0, 1]);
    for length in 0..file.len() {
        bad(Form::Second, &file[..length]);
    }
}

#[test]
fn a_count_that_is_not_theirs() {
    for count in [0, 1, 3, 256, 258, 65535] {
        bad(Form::Second, &with_count(&DAY, count, &[0, 1]));
    }
    bad(Form::Second, &with_count(&DAY, 0, &[0]));
    for behind in [&[0][..], &[0, 0], &[0, 1, 0, 0]] {
        let file = with_marks(&DAY, &[0, 1]);
        bad(Form::Second, &[&file[..], behind].concat());
    }
}

#[test]
fn numbers_that_do_not_rise_from_0() {
    for numbers in [
        &[1][..],
        &[1, 2],
        &[1, 0],
        &[0, 0],
        &[0, 1, 1],
        &[0, 2, 1],
        &[0, 4, 5, 5],
        &[256],
        &[65535],
    ] {
        bad(Form::Second, &with_marks(&DAY, numbers));
    }
}

#[test]
fn numbers_of_no_booking() {
    for number in [7, 8, 256, 257, 511, 512, 65535] {
        bad(Form::Second, &with_marks(&DAY, &[0, number]));
        bad(Form::Second, &with_marks(&DAY, &[0, 1, number]));
    }
}

#[test]
fn two_numbers_of_one_slot() {
    for numbers in [&[0, 1, 3][..], &[0, 1, 2, 3], &[0, 1, 2, 3, 4, 5, 6]] {
        bad(Form::Second, &with_marks(&DAY, numbers));
    }
}

/// The first three sections are judged as in the first form.
#[test]
fn the_first_three_sections() {
    for (at, byte) in [
        (1, 5),
        (3, 0),
        (11, 5),
        (19, 0),
        (33, 1),
        (21, 0),
        (25, 1),
        (99, 7),
    ] {
        let mut first = DAY;
        assert_ne!(first[at], byte);
        first[at] = byte;
        bad(Form::First, &first);
        bad(Form::Second, &with_marks(&first, &[0, 1]));
    }
}

/// The second number may be that of any booking but the genesis. No other byte of the section may be another.
#[test]
fn every_value_of_every_byte_of_the_fourth_section() {
    let file = with_marks(&DAY, &[0, 1]);
    for at in 122..128 {
        for byte in 0..=255 {
            let mut other = file.clone();
            other[at] = byte;
            let is_good = if at == 127 {
                (1..=6).contains(&byte)
            } else {
                byte == file[at]
            };
            let mut ws = [0; WORDS];
            let read = read(&mut ws, Form::Second, &other);
            assert_eq!(read.is_ok(), is_good, "byte {at} as {byte}");
            if is_good {
                assert_eq!(written(Form::Second, &ws), other);
            } else {
                bad(Form::Second, &other);
            }
        }
    }
}

// ---- 1, 2, 14 and 15 come first

#[test]
fn the_length_and_damage_come_first() {
    for ws in [&mut listed(4)[1..], &mut [0; WORDS + 1], &mut []] {
        marks_refused(Refusal::WrongLength, ws, &with_marks(&DAY, &[0, 1]));
        all_refused(Refusal::WrongLength, ws);
    }
    let mut ws = listed(4);
    ws[6664 + 4 * 7 + 3] = 3; // slot 7 has two bookings
    all_refused(Refusal::DamagedSlot(7), &mut ws);
    ws[mark(0)] = 0; // the genesis is marked
    all_refused(Refusal::DamagedRecord(0), &mut ws);
    ws[7] = 1; // the spare word of the header
    all_refused(Refusal::DamagedHeader, &mut ws);
}
