//! What a line of text may say, and what the program prints.

use second::command::{parse, Command};
use second::console::run;
use second::ledger::Reading;
use second::setting::Setting;

fn prints(input: &str, output: &str) {
    let printed = String::from_utf8(run(input.as_bytes())).unwrap();
    assert_eq!(printed, output, "for {input:?}");
}

fn is_bad(line: &[u8]) {
    let shown = String::from_utf8_lossy(line);
    assert_eq!(parse(line), None, "{shown:?} is taken");
}

fn is_said(line: &str, command: Command) {
    assert_eq!(parse(line.as_bytes()), Some(command));
}

/// An opening with these numbers, the edition last.
fn opens(line: &str, numbers: [u16; 5]) {
    let [k, a, beta1, beta2, edition] = numbers;
    is_said(
        line,
        Command::Open(Setting {
            k,
            a,
            beta1,
            beta2,
            edition,
        }),
    );
}

fn votes(line: &str, bytes: &[u8]) {
    let votes = bytes.to_vec();
    is_said(line, Command::Poll { name: 1, votes });
}

#[test]
fn an_input_without_lines_prints_nothing() {
    prints("", "");
}

#[test]
fn lines_end_at_line_feeds() {
    prints("\n", "bad line\n");
    prints("\n\n", "bad line\nbad line\n");
    prints("list", "refused 2\n");
    prints("list\n", "refused 2\n");
    prints("list\nx", "refused 2\nbad line\n");
}

#[test]
fn nothing_is_called_before_an_opening() {
    let calls = "book 0 0\npoll 0\nquery 0\naccepted 0\nlead 0\nconfidence 0\nsize 0\nlist\n";
    prints(calls, &"refused 2\n".repeat(8));
    prints("open 2 1 1 2\nlist\n", "refused 3\nrefused 2\n");
}

/// A fifth number is the edition: 0 and 1 are taken, every other up to 65535
/// is refused, and the ledger stays. Four numbers mean the later one.
#[test]
fn editions() {
    for edition in ["", " 0", " 1", " 01"] {
        prints(&format!("open 1 1 1 2{edition}\nsize 0\n"), "1\n");
    }
    for edition in [2, 3, 256, 257, 65535] {
        prints(
            &format!("open 1 1 1 2 1\nbook 1 7 0\nopen 1 1 1 2 {edition}\nsize 1\n"),
            "refused 3\n2\n",
        );
    }
    // P9 typed in either edition, and the edition left out.
    for (edition, printed) in [("", "1\n"), (" 0", "0\n"), (" 1", "1\n")] {
        let opening = format!("open 1 1 1 2{edition}\n");
        prints(
            &format!("{opening}book 1 7 0\nbook 2 8 1\npoll 1 1\naccepted 1\n"),
            printed,
        );
    }
    // An opening forgets the edition before it, told or not.
    let accepted = "book 1 7 0\npoll 1 1\naccepted 1\n";
    prints(&format!("open 1 1 1 2 0\nopen 1 1 1 2\n{accepted}"), "1\n");
    prints(&format!("open 1 1 1 2\nopen 1 1 1 2 0\n{accepted}"), "0\n");
    // A refused one does not.
    prints(
        &format!("open 1 1 1 2 0\nopen 2 1 1 2\n{accepted}"),
        "refused 3\n0\n",
    );
}

/// A refused opening leaves the ledger, a taken one starts afresh.
#[test]
fn reopening() {
    let booked = "open 1 1 1 2\nbook 1 7 0\n";
    prints(&format!("{booked}open 0 1 1 2\nsize 1\n"), "refused 3\n2\n");
    prints(&format!("{booked}open 1 1 1 2\nsize 1\n"), "refused 10\n");
}

#[test]
fn spaces_stand_alone_between() {
    is_said("size 1", Command::Read(Reading::Size, 1));
    for line in [
        "", " ", "size  1", " size 1", "size 1 ", "size", "size ", "list ",
    ] {
        is_bad(line.as_bytes());
    }
    for byte in [b'\t', b'\r', 0, 11, 12, 0xa0, 0xff] {
        is_bad(&[b"size 1".as_slice(), &[byte]].concat());
        is_bad(&[b"size".as_slice(), &[byte], b"1"].concat());
        is_bad(&[&[byte], b"size 1".as_slice()].concat());
    }
}

#[test]
fn words_are_small_letters() {
    for line in ["Size 1", "LIST", "sizes 1", "siz 1", "1 size", "lists"] {
        is_bad(line.as_bytes());
    }
}

#[test]
fn words_have_their_numbers() {
    opens("open 1 2 3 4", [1, 2, 3, 4, 1]);
    opens("open 0 0 0 0", [0, 0, 0, 0, 1]);
    opens("open 1 2 3 4 0", [1, 2, 3, 4, 0]);
    opens("open 1 2 3 4 5", [1, 2, 3, 4, 5]);
    is_said("list", Command::List);
    for line in [
        "open",
        "open 1 2 3",
        "open 1 2 3 4 5 6",
        "open 1 2 3 4 1 1",
        "open 1 2 3 4 5 6 7",
        "book",
        "book 1",
        "poll",
        "size",
        "size 1 2",
        "list 1",
    ] {
        is_bad(line.as_bytes());
    }
}

#[test]
fn numbers_are_one_to_twenty_digits() {
    let size = |name| Command::Read(Reading::Size, name);
    is_said("size 00000000000000000007", size(7));
    is_bad(b"size 000000000000000000007");
    is_said("size 18446744073709551615", size(u64::MAX));
    is_bad(b"size 18446744073709551616");
    is_bad(b"size 99999999999999999999");
    for line in [
        "size +1", "size -1", "size -0", "size 1a", "size 0x1", "size 1.0",
    ] {
        is_bad(line.as_bytes());
    }
}

#[test]
fn settings_and_slots_go_to_65535() {
    opens(
        "open 65535 0 00000000000000000001 65535",
        [65535, 0, 1, 65535, 1],
    );
    is_bad(b"open 1 1 1 65536");
    opens("open 1 1 1 1 65535", [1, 1, 1, 1, 65535]);
    opens("open 1 1 1 1 00000000000000000001", [1, 1, 1, 1, 1]);
    for edition in ["65536", "65537", "-1", "+1", "000000000000000000001", "x"] {
        is_bad(format!("open 1 1 1 1 {edition}").as_bytes());
    }
    is_bad(b"open 1 1 1 1 ");
    is_bad(b"open 1 1 1 1  1");
    is_bad(b"open 1 1 1 1 1 ");
    is_bad(b"book 1 65536 0");
    is_bad(b"book 1 -1 0");
    prints("open 1 1 1 1\nbook 1 65535 0\n", "refused 5\n");
}

#[test]
fn votes_go_from_minus_128_to_127() {
    votes("poll 1", &[]);
    votes("poll 1 0 1 -1 127 -128", &[0, 1, 255, 127, 128]);
    votes("poll 1 -0 -00000000000000000001", &[0, 255]);
    for line in [
        "poll 1 128",
        "poll 1 255",
        "poll 1 -129",
        "poll 1 -",
        "poll 1 --1",
        "poll 1 1-",
        "poll 1 +1",
        "poll 1 -000000000000000000001",
        "poll -1 1",
    ] {
        is_bad(line.as_bytes());
    }
}

#[test]
fn sixteen_parents_and_sixty_four_votes() {
    let line = |word: &str, more: usize| format!("{word}{}", " 1".repeat(more)).into_bytes();
    assert!(parse(&line("book 1 7", 16)).is_some());
    is_bad(&line("book 1 7", 17));
    assert!(parse(&line("poll 1", 64)).is_some());
    is_bad(&line("poll 1", 65));
}

/// Parents and votes may be missing; the call judges that.
#[test]
fn lists_may_be_empty() {
    prints("open 1 1 1 2\nbook 1 7\n", "refused 6\n");
    prints("open 1 1 1 2 0\nbook 1 7 0\npoll 1\n", "refused 12\n");
}

/// The line is judged whole before the call: a bad vote outranks all.
#[test]
fn a_bad_line_comes_before_refusals() {
    prints("poll 77 128\n", "bad line\n");
    prints("open 2 1 1 65536\n", "bad line\n");
    prints("open 2 1 1 2 65536\n", "bad line\n");
    prints("open 2 1 1 2 2 0\n", "bad line\n");
}

#[test]
fn readings_print_their_value() {
    let input = "open 1 1 1 2 0\nbook 1 7 0\nbook 2 7 0\npoll 2 1\n\
        query 1\naccepted 0\nlead 1\nlead 2\nconfidence 2\nsize 2\n";
    prints(input, "0\n1\n-1\n1\n1\n2\n");
}

#[test]
fn the_longest_input() {
    let lines = |length: usize| "\n".repeat(length);
    prints(&lines(65536), &"bad line\n".repeat(65536));
    prints(&lines(65537), "input too long\n");
    // The same length in one line that no line feed ends.
    prints(&"x".repeat(65536), "bad line\n");
    prints(&"x".repeat(65537), "input too long\n");
}
