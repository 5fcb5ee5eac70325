//! Files at the edges of what is accepted, each with the line that it is
//! refused at.

use call_text::files::repeated;
use call_text::reader::read;
use call_text::{FILE, original, program};

/// Files that are refused, with the line's number.
#[rustfmt::skip]
const REFUSED: &[(&str, &[u8], usize)] = &[
    ("nothing", b"", 1),
    ("a newline alone", b"\n", 1),
    ("two newlines alone", b"\n\n", 1),
    ("a blank alone", b" ", 1),
    ("a blank line in front", b"\n(variant 1)\n(mac)\n", 1),
    ("a blank line between", b"(variant 1)\n(mac)\n\n(mac)\n", 3),
    ("a blank line behind", b"(variant 1)\n(mac)\n\n", 3),
    ("a blank line behind the variant", b"(variant 1)\n\n", 2),
    ("three blank lines behind", b"(variant 1)\n(mac)\n\n\n\n", 3),
    ("a line of a blank", b"(variant 1)\n \n(mac)\n", 2),
    ("a blank behind the last newline", b"(variant 1)\n(mac)\n ", 3),
    ("carriage returns", b"(variant 1)\r\n(mac)\r\n", 1),
    ("carriage returns alone", b"(variant 1)\r(mac)\r", 1),
    ("a byte 0 behind", b"(variant 1)\n(mac)\n\0", 3),
    ("a byte order mark", b"\xef\xbb\xbf(variant 1)\n(mac)\n", 1),
    ("a form over two lines", b"(variant 1)\n(data 0a\n32)\n", 2),
    ("no closing bracket at the end", b"(variant 1)\n(mac", 2),
    ("an opening bracket at the end", b"(variant 1)\n(mac)\n(", 3),
    ("a depth of five for the variant", b"(variant (a (b (c (d 1)))))\n", 1),
    ("no variant", b"(mac)\n", 1),
    ("the variant behind a call", b"(mac)\n(variant 1)\n", 1),
    ("the variant again later", b"(variant 1)\n(mac)\n(variant 2)\n", 3),
    ("variant 0", b"(variant 0)\n", 1),
    ("variant 5", b"(variant 5)\n", 1),
    ("variant 01", b"(variant 01)\n", 1),
    ("variant 10", b"(variant 10)\n", 1),
    ("variant 257", b"(variant 257)\n", 1),
    ("variant 2^32 + 1", b"(variant 4294967297)\n", 1),
    ("variant 2^64 + 1", b"(variant 18446744073709551617)\n", 1),
    ("variant +1", b"(variant +1)\n", 1),
    ("variant -", b"(variant -)\n", 1),
    ("a variant in a word", b"(variant one)\n", 1),
    ("no variant's number", b"(variant)\n", 1),
    ("two variants", b"(variant 1 2)\n", 1),
    ("a wrong variant and a wrong call", b"(variant 5)\n(mac\n", 1),
    ("the sheet's word", b"(sheet (variant 1))\n(mac)\n", 1),
    ("the variant in upper case", b"(VARIANT 1)\n", 1),
    ("two wrong lines", b"(variant 1)\n(mac)\n(ma)\n(mac)\n(ma)\n", 3),
    ("a wrong last line", b"(variant 1)\n(mac)\n(reset)\n(ma)", 4),
    ("a wrong line behind calls that are refused", b"(variant 1)\n(final 17)\n(aad 0a)\n(mac) \n", 4),
];

/// Lines that are refused as the second one.
#[rustfmt::skip]
const REFUSED_LINES: &[(&str, &[u8])] = &[
    // bytes that stand nowhere
    ("a tab", b"(aad\t0a)"),
    ("a tab in front", b"\t(mac)"),
    ("a carriage return", b"(mac)\r"),
    ("a form feed", b"(mac)\x0c"),
    ("a byte 0", b"(mac\0)"),
    ("a byte 0 in digits", b"(aad 0\0)"),
    ("a byte above 127", b"(mac\xc3\xa4)"),
    ("a byte 255", b"(aad \xff\xff)"),
    ("a hard blank", b"(aad\xa00a)"),
    ("a comment", b"(mac) ; tag"),
    // blanks
    ("two blanks", b"(data  0a 32)"),
    ("two blanks before a form", b"(init seal  (key -) (nonce -) (tag 16) (header -))"),
    ("no blank between forms", b"(init seal (key -)(nonce -) (tag 16) (header -))"),
    ("a blank before the bracket", b" (mac)"),
    ("a blank behind the bracket", b"(mac) "),
    ("a blank before the word", b"( mac)"),
    ("a blank behind the word", b"(mac )"),
    ("a blank behind an item", b"(aad 0a )"),
    // brackets
    ("no brackets", b"mac"),
    ("empty brackets", b"()"),
    ("no opening bracket", b"mac)"),
    ("no closing bracket", b"(mac"),
    ("no closing bracket of a form inside", b"(init seal (key -) (nonce -) (tag 16) (header -)"),
    ("a bracket too many in front", b"((mac)"),
    ("a bracket too many behind", b"(mac))"),
    ("brackets around", b"((mac))"),
    ("two forms on a line", b"(mac)(mac)"),
    ("two forms and a blank", b"(mac) (mac)"),
    ("bytes behind the bracket", b"(mac)x"),
    ("square brackets", b"[mac]"),
    // depth
    ("a depth of three", b"(init seal (key (key 00)) (nonce -) (tag 16) (header -))"),
    ("a depth of four", b"(mac (a (b (c d))))"),
    ("a depth of five", b"(mac (a (b (c (d e)))))"),
    ("a depth of five for bytes", b"(aad (a (b (c (d 00)))))"),
    ("a depth of five for a number", b"(final (a (b (c (d 16)))))"),
    ("a depth of five in a field", b"(init seal (key (a (b (c (d 00))))) (nonce -) (tag 16) (header -))"),
    ("a form for bytes", b"(aad (hex 0a))"),
    ("a form for a number", b"(final (length 16))"),
    // the variant
    ("the variant twice", b"(variant 1)"),
    // words
    ("an unknown word", b"(seal)"),
    ("a word too short", b"(ma)"),
    ("a word too long", b"(macs)"),
    ("a word with a digit", b"(mac1)"),
    ("a word with a hyphen", b"(mac-)"),
    ("the Rust's name", b"(process_bytes 0a 32)"),
    ("upper case", b"(MAC)"),
    ("a capital", b"(Mac)"),
    // items
    ("mac with an item", b"(mac -)"),
    ("reset with an item", b"(reset 0)"),
    ("aad without an item", b"(aad)"),
    ("aad with two items", b"(aad 0a 0b)"),
    ("data without an output", b"(data 0a0b)"),
    ("data without bytes", b"(data 32)"),
    ("data with a third item", b"(data 0a0b 32 1)"),
    ("data with its items swapped", b"(data 32 0a0b)"),
    ("final without an item", b"(final)"),
    ("final with bytes too", b"(final 0a 17)"),
    ("update without an item", b"(update)"),
    ("output with two items", b"(output 5 5)"),
    // bytes
    ("an upper-case digit", b"(aad 0A)"),
    ("upper-case digits", b"(aad AB)"),
    ("an odd number of digits", b"(aad 0a0)"),
    ("one digit", b"(aad 5)"),
    ("a number with an odd number of digits", b"(aad 123)"),
    ("a letter that is no digit", b"(aad 0g)"),
    ("a word for bytes", b"(aad none)"),
    ("no digits", b"(data  32)"),
    ("no digits at the end", b"(aad )"),
    ("two hyphens", b"(aad --)"),
    ("a hyphen before digits", b"(aad -0a)"),
    ("a hyphen behind digits", b"(aad 0a-)"),
    ("a hyphen between digits", b"(aad 0a-0b)"),
    ("a prefix", b"(aad 0x0a)"),
    ("quotes", b"(aad \"0a\")"),
    // numbers
    ("007", b"(final 007)"),
    ("00", b"(final 00)"),
    ("a hyphen for an output's length", b"(final -)"),
    ("a hyphen for a query's number", b"(update -)"),
    ("a sign", b"(update +5)"),
    ("a negative number", b"(update -5)"),
    ("hexadecimal for a number", b"(update 0a)"),
    ("a letter behind a number", b"(update 1a)"),
    ("a word for a number", b"(update five)"),
    ("a point", b"(update 5.0)"),
    ("2^64 for update", b"(update 18446744073709551616)"),
    ("2^64 for output", b"(output 18446744073709551616)"),
    ("2^64 for the tag", b"(init seal (key -) (nonce -) (tag 18446744073709551616) (header -))"),
    ("2^64 for an end", b"(final 18446744073709551616)"),
    ("2^64 + 16 for an end", b"(final 18446744073709551632)"),
    ("10^20", b"(update 100000000000000000000)"),
    ("2^64 - 1 and a digit", b"(update 184467440737095516150)"),
    ("2^128", b"(update 340282366920938463463374607431768211456)"),
    ("an output of 32769 for an end", b"(final 32769)"),
    ("an output of 32769 for data", b"(data - 32769)"),
    ("an output of 65536", b"(final 65536)"),
    ("an output of 2^32 + 16", b"(final 4294967312)"),
    ("an output of 2^64 - 1", b"(final 18446744073709551615)"),
    // init
    ("init alone", b"(init)"),
    ("init without a direction", b"(init (key -) (nonce -) (tag 16) (header -))"),
    ("init with sealed", b"(init sealed (key -) (nonce -) (tag 16) (header -))"),
    ("init with opens", b"(init opens (key -) (nonce -) (tag 16) (header -))"),
    ("init with a direction in brackets", b"(init (seal) (key -) (nonce -) (tag 16) (header -))"),
    ("init with two directions", b"(init seal open (key -) (nonce -) (tag 16) (header -))"),
    ("init with its direction behind", b"(init (key -) (nonce -) (tag 16) (header -) seal)"),
    ("the nonce before the key", b"(init seal (nonce -) (key -) (tag 16) (header -))"),
    ("the header before the tag", b"(init seal (key -) (nonce -) (header -) (tag 16))"),
    ("no key", b"(init seal (nonce -) (tag 16) (header -))"),
    ("no tag", b"(init seal (key -) (nonce -) (header -))"),
    ("no header", b"(init seal (key -) (nonce -) (tag 16))"),
    ("a field too many", b"(init seal (key -) (nonce -) (tag 16) (header -) (data -))"),
    ("a field twice", b"(init seal (key -) (key -) (nonce -) (tag 16) (header -))"),
    ("a field without its form", b"(init seal - (nonce -) (tag 16) (header -))"),
    ("a field without its item", b"(init seal (key) (nonce -) (tag 16) (header -))"),
    ("a field with two items", b"(init seal (key 00 00) (nonce -) (tag 16) (header -))"),
    ("an odd key", b"(init seal (key 000) (nonce -) (tag 16) (header -))"),
    ("an odd nonce", b"(init open (key -) (nonce 0) (tag 16) (header -))"),
    ("an odd header", b"(init open (key -) (nonce -) (tag 16) (header 00000))"),
    ("a tag of no bytes", b"(init seal (key -) (nonce -) (tag -) (header -))"),
    ("a tag of 016", b"(init seal (key -) (nonce -) (tag 016) (header -))"),
    ("a field in upper case", b"(init seal (KEY -) (nonce -) (tag 16) (header -))"),
];

/// Files that are accepted.
#[rustfmt::skip]
const ACCEPTED: &[(&str, &[u8])] = &[
    ("the variant alone", b"(variant 1)\n"),
    ("the variant without its newline", b"(variant 4)"),
    ("variant 2", b"(variant 2)\n(output 0)\n"),
    ("variant 3", b"(variant 3)\n(output 0)\n"),
    ("no last newline", b"(variant 1)\n(mac)"),
    ("the number 10 and the byte 10", b"(variant 1)\n(data 10 10)\n(aad 10)\n(final 10)\n"),
    ("digits that are a word", b"(variant 1)\n(aad abcdef)\n(aad deadbeef)\n"),
    ("digits that are a number", b"(variant 1)\n(aad 1234)\n(aad 00)\n"),
    ("no bytes", b"(variant 1)\n(aad -)\n(data - 0)\n"),
    ("0", b"(variant 1)\n(final 0)\n(update 0)\n(output 0)\n"),
    ("outputs of 32768", b"(variant 1)\n(data - 32768)\n(final 32768)\n"),
    ("2^64 - 1", b"(variant 1)\n(update 18446744073709551615)\n(output 18446744073709551615)\n"),
    ("2^64 - 17", b"(variant 1)\n(output 18446744073709551599)\n(output 18446744073709551600)\n"),
    ("a tag of 2^64 - 1", b"(variant 1)\n(init seal (key 00000000000000000000000000000000) (nonce 00000000000000000000000000000000) (tag 18446744073709551615) (header -))\n"),
    ("a start without bytes", b"(variant 1)\n(init open (key -) (nonce -) (tag 0) (header -))\n"),
    ("an opening with a header, and its end", b"(variant 1)\n(init open (key 00000000000000000000000000000000) (nonce 00000000000000000000000000000000) (tag 16) (header 00))\n(final 0)\n(mac)\n"),
];

/// The program and the reader give the file's line, or both accept it and the
/// program prints the original's sheet.
fn check(what: &str, file: &[u8], line: Option<usize>) {
    assert_eq!(read(file).err(), line, "{what}, by the reader");
    let printed = program::printed(file);
    if let Some(line) = line {
        assert_eq!(printed, format!("(no 12 {line})\n"), "{what}");
    }
    assert_eq!(printed, original::printed(file), "{what}");
}

#[test]
fn wrong_lines_are_refused_by_their_number() {
    for (what, file, line) in REFUSED {
        check(what, file, Some(*line));
    }
    for (what, line) in REFUSED_LINES {
        let file = [b"(variant 1)\n", *line, b"\n(mac)\n"].concat();
        check(what, &file, Some(2));
    }
}

#[test]
fn the_edges_of_what_is_right_are_accepted() {
    for (what, file) in ACCEPTED {
        check(what, file, None);
    }
}

/// A file of so many bytes, with `end` behind its last form.
fn file(bytes: usize, end: &str) -> String {
    repeated(bytes, "(variant 1)\n", "(mac)\n", end)
}

#[test]
fn a_file_has_at_most_65536_bytes() {
    let long = file(FILE + 1, "\n");
    let mut wrong = file(FILE + 1, "\n").into_bytes();
    wrong[3] = b'\n';
    let much_longer = long.repeat(100);
    check("65,535 bytes", file(FILE - 1, "").as_bytes(), None);
    check("65,536 bytes", file(FILE, "\n").as_bytes(), None);
    check("65,536, no last newline", file(FILE, "").as_bytes(), None);
    check("65,536 and a newline", long.as_bytes(), Some(0));
    check("65,537 bytes", file(FILE + 1, "").as_bytes(), Some(0));
    check("too long, and a wrong line", &wrong, Some(0));
    check("much longer", much_longer.as_bytes(), Some(0));
    check("newlines, too many", &[b'\n'; FILE + 1], Some(0));
    check("newlines", &[b'\n'; FILE], Some(1));
    check("bytes 0", &[0; FILE], Some(1));
}

#[test]
fn the_line_of_a_long_file_is_counted_right() {
    let calls = "(mac)\n".repeat(10_000);
    for (end, line) in [("(ma)", 10_002), ("(mac)\n\n", 10_003), ("(mac", 10_002)] {
        let file = format!("(variant 1)\n{calls}{end}");
        check(end, file.as_bytes(), Some(line));
    }
    for line in [1, 2, 255, 256, 257, 5_000, 10_001] {
        let mut lines: Vec<&str> = vec!["(mac)"; 10_001];
        lines[0] = "(variant 1)";
        lines[line - 1] = "(mac )";
        check("a wrong line", lines.join("\n").as_bytes(), Some(line));
    }
}
