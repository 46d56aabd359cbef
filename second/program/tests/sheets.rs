//! What the programs `sheet` and `table` make of the office's sheets.
#![forbid(unsafe_code)]

use second::sheets::{sheet, table};

/// Both programs refuse an input alike.
fn refused(input: &str, answer: &str) {
    let answer = format!("refused {answer}\n");
    assert_eq!(sheet(input.as_bytes()), answer.as_bytes(), "{input:?}");
    assert_eq!(table(input.as_bytes()), answer.as_bytes(), "{input:?}");
}

/// A sheet that is taken on one core gives this table.
fn taken(sheet: &str, tasks: &str) {
    let text = table(format!("1\n{sheet}").as_bytes());
    let text = String::from_utf8(text).unwrap();
    assert_eq!(text, format!("1\n{tasks}"), "{sheet:?}");
}

/// The name of a number: a for 0, aa for 26, each number its own.
fn name(mut number: usize) -> String {
    let mut name = Vec::new();
    loop {
        name.push(b'a' + (number % 26) as u8);
        if number < 26 {
            return String::from_utf8(name).unwrap();
        }
        number = number / 26 - 1;
    }
}

/// So many jobs with names of their own.
fn jobs(number: usize) -> String {
    (0..number).map(|job| name(job) + ",1,1000\n").collect()
}

#[test]
fn answers() {
    let input = b"2\n1000\ncam,5000,6999\nb,1,3000\n";
    let right = "cores 2 common 6
task 1 cost 5 period 6 weight 5 fixed 1:5 late 0
task 2 cost 1 period 3 weight 2 fixed 2:2 late 0
tick 1000
name 1 cam
name 2 b
";
    assert_eq!(String::from_utf8(sheet(input)).unwrap(), right);
    assert_eq!(table(input), b"2\n5 6\n1 3\n");
}

#[test]
fn rounding() {
    taken("1000\na,5000,6000\n", "5 6\n");
    taken("1000\na,4999,6999\n", "5 6\n");
    taken("1000\na,4001,6001\n", "5 6\n");
    taken("1000\na,1,1000\n", "1 1\n");
    taken(
        "1000000\na,1000000000000,1000000999999\n",
        "1000000 1000000\n",
    );
    taken("1\na,1,1000000\n", "1 1000000\n");
    refused("1\n1000\na,5001,5999\n", "4 task 1");
    refused("1\n1000\na,1,999\n", "3 task 1");
    refused("1\n1000\na,0,1000\n", "3 task 1");
    refused("1\n1000\na,1,1000000999\nb,1,1000001000\n", "3 task 2");
}

#[test]
fn numbers_beyond_32_bits() {
    refused("1\n1\na,999999999999999,999999999999999\n", "3 task 1");
    refused("1\n1\na,999999999999999,5\n", "4 task 1");
    // One and 2^32 more, which 32 bits would cut to one.
    refused("1\n1\na,4294967297,5\n", "4 task 1");
    refused("1\n1\na,1,4294967297\n", "3 task 1");
    refused("1\n1\na,0,4294967296\n", "3 task 1");
    refused("1\n232830\na,999997361848321,232830\n", "4 task 1");
}

#[test]
fn cores() {
    for bad in ["", "\n", "x\n", "01\n", " 1\n", "1 \n", "1\r\n", "+1\n"] {
        refused(&format!("{bad}bad"), "16 line 1");
    }
    refused("4294967296\n1\na,1,1\n", "16 line 1");
    refused("", "16 line 1");
    refused("1", "16 line 1");
    refused("4294967295\n1\na,1,1\n", "1");
    refused("0\n1\na,1,1\n", "1");
    refused("0\n1\n", "1");
    refused("17\n1\na,1,1\na,1,1\n", "18");
    refused("0\n1\na,1\n", "17");
    refused("0\n0\n", "19");
}

#[test]
fn first_lines() {
    for bad in [
        "",
        "1",
        "1000",
        "\n",
        "0\n",
        "1000001\n",
        "01\n",
        "+1\n",
        "-1\n",
    ] {
        refused(&format!("1\n{bad}"), "19");
    }
    for bad in [
        " 1",
        "1 ",
        "1\r",
        "x",
        "1.0",
        "\u{feff}1",
        "\"1\"",
        "1,",
        "1000000000000000",
    ] {
        refused(&format!("1\n{bad}\na,1,1\na,1\n"), "19");
    }
    refused("1\na,1,1\n", "19");
    taken("1000000\na,1,1000000\n", "1 1\n");
    refused("1\n1\n", "2");
}

#[test]
fn later_lines() {
    let names = [
        "",
        "Cam",
        "caM",
        "cam1",
        "c m",
        " cam",
        "cam ",
        "\"cam\"",
        "abcdefghijklm",
        "\u{feff}a",
        "kä",
        "a\0",
        "a-b",
        "a_b",
        "`",
        "{",
        "@",
        "[",
    ];
    let numbers = [
        "",
        "01",
        "00",
        "-1",
        "+1",
        " 1",
        "1 ",
        "1\t",
        "1000000000000000",
        "0000000000000001",
        "1.0",
        "1e3",
        "\"1\"",
        "x",
        "1\0",
        "/",
        ":",
    ];
    let lines = [
        "", ",", ",,", "a", "a,1", "a,1,", "a,,1", "a,1,1,", "a,1,1,1", "a;1;1", "a 1 1",
        "a,1,1\r", "a,1;1", "a,1,1;",
    ];
    let names = names.map(|name| format!("{name},1,1"));
    let costs = numbers.map(|number| format!("a,{number},1"));
    let periods = numbers.map(|number| format!("a,1,{number}"));
    let lines = lines.map(str::to_string);
    for line in [&names[..], &costs, &periods, &lines].concat() {
        refused(&format!("1\n1\n{line}\n"), "17");
        refused(&format!("1\n1\nb,9,1\n{line}\nb,1,1\n"), "17");
    }
    taken("1\nabcdefghijkl,1,1\n", "1 1\n");
    refused("1\n1\na,1,1", "17");
    refused("1\n1\na,1,1\n\n", "17");
    refused("1\n1\r\na,1,1\r\n", "19");
}

#[test]
fn same_names() {
    refused("1\n1\na,1,1\na,1,1\n", "18");
    refused("1\n1\na,0,0\nb,1,1\nc,1,1\na,5,1\n", "18");
    taken(
        "1\nab,1,4\na,1,4\nb,1,4\nba,1,4\n",
        "1 4\n".repeat(4).as_str(),
    );
    taken(&format!("1\n{}", jobs(64)), &"1 1000\n".repeat(64));
    refused(&format!("1\n1\n{}", jobs(65)), "2");
    refused(&format!("1\n1\n{}{}", jobs(64), "lb,1,1\n"), "18");
    refused(&format!("1\n1\n{}{}", jobs(65), "x\n"), "17");
    refused(&format!("1\n1\n{}", "a,1,1\n".repeat(682)), "18");
}

/// A sheet of so many bytes: jobs with names of their own, the last as long as is left.
fn long(bytes: usize) -> String {
    let mut sheet = String::from("1\n");
    let mut job = 0;
    while bytes - sheet.len() > 32 {
        sheet += &format!("{},1,1\n", name(job));
        job += 1;
    }
    let more = bytes - sheet.len() - "zzz,1,\n".len();
    let (cost, period) = ("1".repeat(1 + more / 2), "1".repeat(more - more / 2));
    sheet += &format!("zzz,{cost},{period}\n");
    assert_eq!(sheet.len(), bytes);
    sheet
}

#[test]
fn lengths() {
    refused(&format!("1\n{}", long(4_095)), "2");
    refused(&format!("1\n{}", long(4_096)), "2");
    refused(&format!("1\n{}", long(4_097)), "17");
    refused(&format!("1\n0{}", long(4_096)), "19");
    refused(&format!("1\n{}", "1".repeat(4_097)), "19");
    refused(&format!("4294967295\n{}", long(4_096)), "1");
    refused(&format!("1\n{}a,1,1\n", long(4_096)), "17");
}
