// Document 01's example script with its exact output, and lines that are malformed.
// Each test gives input bytes and the bytes that must come out.

use crate::script::run_script;

fn output_of(input: &[u8]) -> String {
    String::from_utf8(run_script(input)).unwrap()
}

#[test]
fn the_example() {
    let input =
        b"T 6\nI 1 30 11* 7\nI 2 20 1 8\nI 3 25 1*1 9\nI 4 25 111 9\nI 5 10 00 1\nI 6 40 01 2\nI 7 20 0 3\nL 0101\nD 2\nL 1000\n";
    let output = "N 6\nP 1\nW - 0\nP 1\nW - 1\nP 2\nW 1 2\nW - 1\nR 8 1\nP 1\nW - 3\nP 1\nW - 4\nR 10 4\nA 4 6 2\nP 1\nE 2\nM\n";
    assert_eq!(output_of(input), output);
    assert_eq!(output_of(&input[..input.len() - 1]), output);
}

#[test]
fn ends_of_input() {
    assert_eq!(output_of(b""), "");
    assert_eq!(output_of(b"\n"), "R 13 1\n");
    assert_eq!(output_of(b"T 1\n\n"), "N 1\nR 13 2\n");
    assert_eq!(output_of(b"T 1"), "N 1\n");
}

#[test]
fn tables() {
    assert_eq!(output_of(b"T 0\nT 1024\nT 1025\nT 4294967295\nT 4294967296\n"), "R 1 0\nN 1024\nR 1 0\nR 1 0\nR 13 5\n");
    assert_eq!(output_of(b"T 0000000001\nT 00000000001\n"), "N 1\nR 13 2\n");
    assert_eq!(output_of(b"T 1\nI 1 1 1 1\nT 0\nL 1\nT 1\nL 1\n"), "N 1\nP 1\nW - 0\nR 1 0\nA 0 1 1\nN 1\nM\n");
}

#[test]
fn before_a_table() {
    assert_eq!(output_of(b"I 0 1 1 1\nD 0\nL 1\nL 2\n"), "R 1 0\nR 1 0\nR 1 0\nR 13 4\n");
}

#[test]
fn malformed_lines() {
    let lines = [
        "t 1",
        "T",
        "T ",
        "T  1",
        " T 1",
        "T 1 ",
        "T 1 1",
        "T\t1",
        "T 1\r",
        "T -1",
        "T +1",
        "T 1x",
        "I 1 1 1",
        "I 1 1 1 1 1",
        "I 1 1 2 1",
        "I 1 1  1",
        "I 1 1 1 4294967296",
        "D",
        "D 1 1",
        "L",
        "L *",
        "L 1 1",
        "X 1",
        "\u{0}",
        "TT 1",
        "D 12345678901",
    ];
    for line in lines {
        assert_eq!(output_of(line.as_bytes()), "R 13 1\n", "{line:?}");
    }
    let long = |count: usize| output_of(format!("T 1\nL {}\nL 1\n", "0".repeat(count)).as_bytes());
    assert_eq!(long(128), "N 1\nM\nM\n");
    for count in [129, 254, 255, 70_000] {
        assert_eq!(long(count), "N 1\nR 13 2\nM\n");
    }
}

#[test]
fn unsound_rules() {
    assert_eq!(
        output_of(b"T 1\nI 0 1 1 1\nI 1 65536 1 1\nD 0\nI 1 65535 * 4294967295\nL 0\n"),
        "N 1\nR 5 0\nR 5 0\nR 5 0\nP 1\nW - 0\nA 0 1 4294967295\n"
    );
}

/// The script's edition is 13: a rule of 128 bits, all cared for, has its priority for its rank.
#[test]
fn a_rule_without_wildcards_has_no_rank_above_its_priority() {
    let exact = "0".repeat(128);
    let input = format!("T 3\nI 1 7 {exact} 1\nI 2 65535 * 2\nL 0\nI 3 65536 {exact} 3\nI 4 7 {exact} 4\n");
    assert_eq!(output_of(input.as_bytes()), "N 3\nP 1\nW - 0\nP 2\nW 0 1\nW - 0\nA 0 2 2\nR 5 0\nP 1\nW - 1\n");
}
