//! Lines that are of the form and lines that are not, and how a script is cut
//! into lines.

use crate::scripts::written::Case;

pub fn all() -> Vec<Case> {
    let mut cases = whole_scripts();
    cases.extend(BAD.iter().map(|(what, line)| beside_a_table(what, line)));
    cases.extend(GOOD.iter().map(|(what, line)| beside_a_table(what, line)));
    cases.extend(tables());
    cases
}

/// The line where no table stands, where one does, and the table after it.
fn beside_a_table(what: &str, line: &[u8]) -> Case {
    let parts: [&[u8]; 5] =
        [line, b"\nt 0 10 5 0 100 100\nn\nn\nn\np 5\np 10\n", line, b"\nn\n", line];
    Case::new(what, parts.concat())
}

const BAD: &[(&str, &[u8])] = &[
    ("an empty line", b""),
    ("a space alone", b" "),
    ("two spaces alone", b"  "),
    ("a tab alone", b"\t"),
    ("CR alone", b"\r"),
    ("NUL alone", b"\0"),
    ("byte 255 alone", b"\xff"),
    ("byte 128 alone", b"\x80"),
    ("DEL alone", b"\x7f"),
    ("a backslash", b"\\"),
    ("a number with no letter", b"10"),
    ("a hash and words", b"# a hand"),
    ("an unknown letter", b"q"),
    ("an unknown letter with a number", b"c 10"),
    ("the letter beside b", b"a 10"),
    ("the letter beside n", b"o"),
    ("a letter of two bytes", b"\xc3\xb1"),
    ("upper case N", b"N"),
    ("upper case F", b"F"),
    ("upper case X", b"X"),
    ("upper case B", b"B 10"),
    ("upper case P", b"P 10"),
    ("upper case W", b"W 0 0"),
    ("upper case T", b"T 0 10 5 0 50 50"),
    ("n twice on a line", b"nn"),
    ("n with a space at the end", b"n "),
    ("n with a space before it", b" n"),
    ("n with a number", b"n 0"),
    ("n with CR at the end", b"n\r"),
    ("n with NUL at the end", b"n\0"),
    ("n with byte 255 at the end", b"n\xff"),
    ("n with a tab at the end", b"n\t"),
    ("n with a vertical tab at the end", b"n\x0b"),
    ("n after a byte order mark", b"\xef\xbb\xbfn"),
    ("f with a space at the end", b"f "),
    ("f with a seat", b"f 1"),
    ("f and another letter", b"fold"),
    ("x with a space at the end", b"x "),
    ("x with a number", b"x 0"),
    ("x with CR at the end", b"x\r"),
    ("b with no number", b"b"),
    ("b with a space and no number", b"b "),
    ("b with two spaces and no number", b"b  "),
    ("b with two spaces before its number", b"b  10"),
    ("b with a space after its number", b"b 10 "),
    ("b with a space before it", b" b 10"),
    ("b with a tab before its number", b"b\t10"),
    ("b with no space before its number", b"b10"),
    ("b with two numbers", b"b 10 20"),
    ("b with CR after its number", b"b 10\r"),
    ("b with CR in place of the space", b"b\r10"),
    ("b 00", b"b 00"),
    ("b 01", b"b 01"),
    ("b 010", b"b 010"),
    ("b with six digits that lead with zeros", b"b 000010"),
    ("b 65536", b"b 65536"),
    ("b 65546, which is 10 in 16 bits", b"b 65546"),
    ("b 99999", b"b 99999"),
    ("b 100000", b"b 100000"),
    ("b 4294967306, which is 10 in 32 bits", b"b 4294967306"),
    ("b 18446744073709551626, which is 10 in 64 bits", b"b 18446744073709551626"),
    ("b 99999999999999999999", b"b 99999999999999999999"),
    ("b -1", b"b -1"),
    ("b -0", b"b -0"),
    ("b +1", b"b +1"),
    ("b 1.0", b"b 1.0"),
    ("b 1e1", b"b 1e1"),
    ("b 0x10", b"b 0x10"),
    ("b with a letter in its number", b"b 1o"),
    ("b with a letter for a number", b"b x"),
    ("b with a comma in its number", b"b 1,000"),
    ("b with the byte below 0", b"b 1/"),
    ("b with the byte above 9", b"b 1:"),
    ("b with NUL for a number", b"b \0"),
    ("b with NUL after its number", b"b 10\0"),
    ("b with byte 255 in its number", b"b 1\xff0"),
    ("b with a digit of another script", b"b \xd9\xa1"),
    ("b with a remark", b"b 10 # a call"),
    ("p with no number", b"p"),
    ("p with two numbers", b"p 5 10"),
    ("p 05", b"p 05"),
    ("p 65536", b"p 65536"),
    ("p -5", b"p -5"),
    ("w with no rank", b"w"),
    ("w with a space and no rank", b"w "),
    ("w with a rank too few", b"w 7"),
    ("w with a rank too many", b"w 7 7 7"),
    ("w with seventeen ranks", b"w 1 2 3 4 5 6 7 8 9 10 11 12 13 14 15 16 17"),
    ("w with twenty-one ranks", b"w 1 2 3 4 5 6 7 8 9 10 11 12 13 14 15 16 17 18 19 20 21"),
    ("w 0 65536", b"w 0 65536"),
    ("w with two spaces between its ranks", b"w 0  0"),
    ("w with a space at the end", b"w 0 0 "),
    ("w 00 0", b"w 00 0"),
    ("t alone", b"t"),
    ("t with a space", b"t "),
    ("t with one number", b"t 0"),
    ("t with two numbers", b"t 0 10"),
    ("t with three numbers", b"t 0 10 5"),
    ("t with three numbers and a space", b"t 0 10 5 "),
    ("t with a stack that leads with 0", b"t 0 10 5 0 100 0100"),
    ("t with a stack of 65536", b"t 0 10 5 0 100 65536"),
    ("t with a dealer of 65536", b"t 65536 10 5 0 100 100"),
    ("t with a space at the end", b"t 0 10 5 0 100 100 "),
    ("t with CR at the end", b"t 0 10 5 0 100 100\r"),
    ("t with two spaces before the stacks", b"t 0 10 5 0  100 100"),
    ("t with no space before its dealer", b"t0 10 5 0 100 100"),
    (
        "t with seventeen stacks, one of them 65536",
        b"t 0 0 5 0 1 1 1 1 1 1 1 1 1 1 1 1 1 1 1 1 65536",
    ),
];

const GOOD: &[(&str, &[u8])] = &[
    ("n", b"n"),
    ("f", b"f"),
    ("x", b"x"),
    ("b 10", b"b 10"),
    ("b 0", b"b 0"),
    ("b 65535", b"b 65535"),
    ("p 0", b"p 0"),
    ("p 65535", b"p 65535"),
    ("w 0 0", b"w 0 0"),
    ("w 65535 65535", b"w 65535 65535"),
    ("t with the largest numbers", b"t 1 65535 65535 65535 65535 65535"),
    ("t with zeros where it may have them", b"t 0 1 0 0 1 1"),
];

/// `t` with so many stacks of 9, its blind 1 or 0.
fn with_stacks(big_blind: u8, count: usize) -> String {
    format!("t 0 {big_blind} 0 0{}\n", " 9".repeat(count))
}

fn tables() -> Vec<Case> {
    let mut cases: Vec<Case> = [0, 1, 2, 3, 15, 16, 17, 18, 20, 21, 255, 256, 2000]
        .iter()
        .map(|&count| {
            let t = with_stacks(1, count);
            let script = format!("{t}n\nt 0 10 5 0 7 8 9\nn\n{t}p 65535\n");
            Case::new(format!("t with {count} stacks"), script)
        })
        .collect();
    let every_size = (0..=17).map(|count| with_stacks(1, count)).collect::<String>();
    cases.push(Case::new("t with 0 to 17 stacks, one after the other", every_size));
    let no_blind = (0..=17).map(|count| with_stacks(0, count)).collect::<String>();
    cases.push(Case::new("t with no big blind and 0 to 17 stacks: 3 comes first", no_blind));
    let ranks = |count: usize| format!("w{}\n", " 3".repeat(count));
    let settled = [15, 17, 18, 0, 16].map(ranks).concat();
    let what = "w with 15, 17, 18, no and 16 ranks at a table of 16";
    cases.push(Case::new(what, with_stacks(1, 16) + "p 9\n" + &settled));
    cases
}

fn whole_scripts() -> Vec<Case> {
    let hand = "t 0 10 5 0 100 100\nn\nn\nn\np 5\np 10\nb 9\nb 15\nb 20\nf\nw 0 0";
    let end = |text: &str| format!("{hand}{text}");
    vec![
        Case::new("the worked script of document 01", end("\n")),
        Case::new("the same with no LF at its end", end("")),
        Case::new("the same with an empty line after it", end("\n\n")),
        Case::new("the same with a space after the last LF", end("\n ")),
        Case::new("the same with CR before each LF", end("\n").replace('\n', "\r\n")),
        Case::new("the same with CR for LF: one line", end("\r").replace('\n', "\r")),
        Case::new("the same with an empty line between its lines", end("\n").replace('\n', "\n\n")),
        Case::new("the same with NUL for LF: one line", end("").replace('\n', "\0")),
        Case::new("the same twice: the second hand begins anew", format!("{hand}\n{hand}\n")),
        Case::new("nothing at all", ""),
        Case::new("one LF", "\n"),
        Case::new("three LF", "\n\n\n"),
        Case::new("one letter with no LF", "n"),
        Case::new("a table with no LF", "t 0 10 5 0 100 100"),
        Case::new("a bad table with no LF", "t 0 10 5 0 100 1x"),
        Case::new("every letter where no table stands", "n\nf\nb 0\np 0\nx\nw 0 0\nw\n"),
        Case::new("every byte as a line of its own", every_byte(b"", b"")),
        Case::new("every byte after n", every_byte(b"n", b"")),
        Case::new("every byte as the space of b", every_byte(b"b", b"0")),
        Case::new("every byte as the number of b", every_byte(b"b ", b"")),
        Case::new("every byte as the last digit of p", every_byte(b"p 1", b"")),
    ]
}

/// Each byte but LF between these two, at a table of two.
fn every_byte(before: &[u8], after: &[u8]) -> Vec<u8> {
    let mut script = b"t 0 10 5 0 65535 65535\n".to_vec();
    for byte in (0..=255).filter(|&byte| byte != b'\n') {
        script.extend([before, &[byte], after, b"\n"].concat());
    }
    script
}
