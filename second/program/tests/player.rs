//! What the program and the player make of texts.
#![forbid(unsafe_code)]

use second::player::calls;
use second::program::program;
use second::text::read_text;

/// Compares an answer of the player, given without its last newline.
fn plays(input: &str, answer: &str) {
    let given = String::from_utf8(calls(input.as_bytes())).unwrap();
    assert_eq!(given, format!("{answer}\n"), "{input:?}");
}

#[test]
fn texts() {
    assert_eq!(read_text(b"2\n1 2\n"), Ok((2, vec![1, 2])));
    assert_eq!(read_text(b"2\n"), Ok((2, vec![])));
    assert_eq!(read_text(b"0\n0 4294967295\n"), Ok((0, vec![0, u32::MAX])));
    assert_eq!(read_text(b""), Err(0));
    assert_eq!(read_text(&[b'\n'; 4097]), Err(0));
    assert_eq!(read_text(&[b'\n'; 4096]), Err(1));
    for bad in ["2", "02\n", " 2\n", "2 \n", "2\r\n", "4294967296\n", "x\n"] {
        assert_eq!(read_text(bad.as_bytes()), Err(1), "{bad:?}");
    }
    for bad in ["\n", "1\n", "1  2\n", "1 2 3\n", "1 2", "1\t2\n", "1 02\n"] {
        let text = format!("2\n1 1\n{bad}");
        assert_eq!(read_text(text.as_bytes()), Err(3), "{bad:?}");
    }
    assert_eq!(program(b"2\n"), b"refused 2\n");
    assert_eq!(program(b"1\n1 1\n0 1\n"), b"refused 3 task 2\n");
    assert_eq!(program(b"1\n1 1"), b"refused 16 line 2\n");
}

#[test]
fn unreadable_inputs() {
    plays("", "refused 16 line 0");
    plays(&"1\n".repeat(32_769), "refused 16 line 0");
    plays("calls\n", "refused 16 line 0");
    plays("1\n1 1\n", "refused 16 line 3");
    plays("1\n1 1\ncalls", "refused 16 line 3");
    plays("1\n1\ncalls\nnone\n", "refused 16 line 2");
    plays("1\n1 1\ncalls\nrelease 1 0\ncalls\n", "refused 16 line 5");
    plays("1\n0 1\ncalls\nrelease 1\n", "refused 16 line 4");
    plays("1\n1 1\ncalls\nlook 1 0 \n", "refused 16 line 4");
    plays("1\n1 1\ncalls\nlook 1 0", "refused 16 line 4");
    plays(
        "1\n1 1\ncalls\nlook 1 1000000000000000\n",
        "refused 16 line 4",
    );
    plays("1\n0 1\ncalls\n", "refused 3 task 1");
    assert_eq!(calls(b"1\n1 1\ncalls\n"), b"");
}

#[test]
fn readable_inputs() {
    plays(
        "1\n1 2\ncalls\nlook 1 0\nrelease 1 5\nlook 1 5\nfinish 1 6\nlook 1 999999999999999\n",
        "idle\ncore 1 deadline 7\nfixed 1 deadline 7\nlate -1\nrefused 12",
    );
    plays(
        "2\n2 3\n2 3\n2 3\ncalls\nrelease 3 0\nlook 1 0\nrelease 3 3\nfinish 3 3\nlook 2 3\n",
        "core 1 deadline 3\nlower 3 deadline 3\ncore 2 deadline 6\nlate 0\nupper 3 deadline 6",
    );
}
