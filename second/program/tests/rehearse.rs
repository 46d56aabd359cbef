//! What the rehearsal makes of texts: its examples, and each refusal in its place.
#![forbid(unsafe_code)]

use second::day::read_day;
use second::rehearse::rehearse;
use second::ticking;

/// Three tasks of 2 3 on two cores; the third moves.
const THREE: &str = "2\n2 3\n2 3\n2 3\n";
/// One task of 1 2 on one core.
const ONE: &str = "1\n1 2\n";

fn text(answer: Vec<u8>) -> String {
    String::from_utf8(answer).unwrap()
}

/// Compares an answer of both ways, given without its last newline.
fn rehearses(input: &str, right: &str) {
    let right = format!("{right}\n");
    let day = read_day(input.as_bytes()).map(|day| ticking::run(&day));
    assert_eq!(text(rehearse(input.as_bytes())), right, "{input:?}");
    assert_eq!(text(day.unwrap_or_else(|line| line)), right, "{input:?}");
}

/// Compares the one line of a refusal.
fn refuses(input: &str, right: &str) {
    let answer = text(rehearse(input.as_bytes()));
    assert_eq!(answer, format!("refused {right}\n"), "{input:?}");
}

#[test]
fn three_on_two_cores() {
    rehearses(
        &format!("{THREE}rehearse 4\n0 1 2\n0 2 2\n0 3 2\n"),
        "finish core 1 task 3 run 1 at 2 late -1\n\
         finish core 2 task 2 run 1 at 2 late -1\n\
         span core 1 task 3 run 1 from 0 to 2\n\
         span core 2 task 2 run 1 from 0 to 2\n\
         finish core 1 task 1 run 1 at 4 late 1\n\
         span core 1 task 1 run 1 from 2 to 4\n\
         stop 4",
    );
}

#[test]
fn nine_at_once() {
    let unfinished = |run: u64| {
        let deadline = 2 * run;
        format!("unfinished task 1 run {run} core 1 deadline {deadline} had 0 of 1")
    };
    let unfinished: Vec<String> = (3..=8).map(unfinished).collect();
    let right = "refused 10 arrival 9 task 1 at 0\n\
         finish core 1 task 1 run 1 at 1 late -1\n\
         span core 1 task 1 run 1 from 0 to 1\n\
         finish core 1 task 1 run 2 at 3 late -1\n\
         span core 1 task 1 run 2 from 2 to 3\n\
         stop 3";
    rehearses(
        &format!("{ONE}rehearse 3\n{}", "0 1 1\n".repeat(9)),
        &format!("{right}\n{}", unfinished.join("\n")),
    );
}

/// A stop inside a run, and one that begins where another of the same task ends.
#[test]
fn stops() {
    rehearses(&format!("{ONE}rehearse 0\n0 1 1\n"), "stop 0");
    rehearses(&format!("{ONE}rehearse 5\n"), "stop 5");
    rehearses(&format!("{ONE}rehearse 5\n5 1 1\n"), "stop 5");
    rehearses(
        "1\n2 2\nrehearse 3\n0 1 2\n0 1 2\n",
        "finish core 1 task 1 run 1 at 2 late 0\n\
         span core 1 task 1 run 1 from 0 to 2\n\
         span core 1 task 1 run 2 from 2 to 3\n\
         stop 3\n\
         unfinished task 1 run 2 core 1 deadline 4 had 1 of 2",
    );
}

/// At the limit the held one is refused by 12, though the finishes of the limit are made.
#[test]
fn at_the_clocks_limit() {
    let input = format!("{ONE}rehearse 1000000000000\n999999999999 1 1\n999999999999 1 1\n");
    let right = "refused 12 arrival 2 task 1 at 999999999999\n\
         finish core 1 task 1 run 1 at 1000000000000 late -1\n\
         span core 1 task 1 run 1 from 999999999999 to 1000000000000\n\
         stop 1000000000000\n";
    assert_eq!(text(rehearse(input.as_bytes())), right);
}

#[test]
fn unreadable_tables() {
    refuses("", "16 line 0");
    refuses("rehearse 1\n", "16 line 0");
    refuses(ONE, "16 line 3");
    refuses("1", "16 line 1");
    refuses("1\n1\nrehearse 1\n0 1 9\n", "16 line 2");
    let long = format!("1\n{}rehearse 1\n", "1 1\n".repeat(1_024));
    refuses(&long, "16 line 0");
    refuses(&long.replacen("1 1\n", "", 1), "2");
    refuses(&long.replace('h', "x"), "16 line 0");
}

/// A line that is not of the divider's form is one of the table.
#[test]
fn dividers() {
    let odd = [
        "rehearse\n",
        "rehearse \n",
        "rehearse 1",
        "rehearse 01\n",
        "rehearse 00\n",
        "rehearse  1\n",
        "rehearse 1 \n",
        "rehearse 1\r\n",
        "rehearse -1\n",
        "rehearse 1000000000000000\n",
        " rehearse 1\n",
        "Rehearse 1\n",
    ];
    for line in odd {
        refuses(&format!("{ONE}{line}"), "16 line 3");
        if line.ends_with('\n') {
            refuses(&format!("{ONE}{line}rehearse 1\n"), "16 line 3");
        }
    }
    refuses(&format!("{ONE}rehearse 1\nrehearse 1\n"), "25 arrival 1");
}

#[test]
fn refusals_in_their_order() {
    refuses("1\n3 2\nrehearse 999999999999999\n0 9 9\n", "4 task 1");
    refuses("17\n1 2\nrehearse 1\n", "1");
    refuses(&format!("{ONE}rehearse 1000000000001\n0 9 9\n"), "12");
    let day = |arrivals: &str| format!("{ONE}rehearse 1\n5 1 1\n{arrivals}");
    refuses(&day("4 2 2\n"), "25 arrival 2");
    refuses(&day("4 0 2\n"), "25 arrival 2");
    refuses(&day("4 1 2\n"), "26 arrival 2");
    refuses(&day("4 1 0\n"), "26 arrival 2");
    refuses(&day("4 1 1\n"), "27 arrival 2");
    refuses(&day("5 1 1\n4 1 1\n5 2 1\n"), "27 arrival 3");
    rehearses(&day("999999999999999 1 1\n"), "stop 1");
}

#[test]
fn unreadable_arrivals() {
    let odd = [
        "\n",
        "5\n",
        "5 1\n",
        "5 1 1",
        "5 1 1 \n",
        " 5 1 1\n",
        "5  1 1\n",
        "5 1 1 1\n",
        "5\t1 1\n",
        "5 1 1\r\n",
        "05 1 1\n",
        "5 01 1\n",
        "5 1 01\n",
        "+5 1 1\n",
        "5 1 x\n",
        "1000000000000000 1 1\n",
        "5 1000000000000000 1\n",
        "5 1 1000000000000000\n",
    ];
    for line in odd {
        refuses(&format!("{ONE}rehearse 9\n5 1 1\n{line}"), "25 arrival 2");
    }
}

/// The 4,097th is one too many, whether it can be read or not, unless one before it is faulty.
#[test]
fn too_many_arrivals() {
    let many = format!("{ONE}rehearse 0\n{}", "0 1 1\n".repeat(4_096));
    assert_eq!(text(rehearse(many.as_bytes())), "stop 0\n");
    for line in ["0 1 1\n", "x", "\n", "0 9 9\n"] {
        refuses(&format!("{many}{line}"), "25 arrival 4097");
    }
    let faulty = many.replace("0 1 1\n0 1 1\n0 1 1\n", "0 1 1\n0 1 2\n0 1 1\n");
    refuses(&format!("{faulty}x"), "26 arrival 2");
    refuses(
        &format!("{many}{}", "9".repeat(1_000_000)),
        "25 arrival 4097",
    );
}
