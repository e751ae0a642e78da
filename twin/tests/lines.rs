//! Lines that are of the form, and lines that are not.

use twin::lines::{answer_line, read_call, write_call, BAD_LINE};

/// A call of each kind.
const CALLS: [&str; 5] = [
    "match card=0261000000000000 word= work=32768 fill=a5 budget=0",
    "match card= word=ff work=65536 fill=00 was= budget=4294967295",
    "compare left=00 right= work=0 pairs=65536 word=65536 fill=0f budget=7",
    "compare left=00 right= work=16 pairs=8 word=1 fill=0f was=00 had=0102 budget=7",
    "check left=00 right= proof= list= work=16 fill=0f was=00ff budget=7",
];

#[test]
fn a_call_is_written_as_it_is_read() {
    for call in CALLS {
        assert_eq!(write_call(&read_call(call.as_bytes()).expect(call)), call);
        assert_ne!(answer_line(call.as_bytes()), BAD_LINE);
    }
}

#[test]
fn what_follows_the_arrow_is_ignored() {
    for call in CALLS {
        let answer = answer_line(call.as_bytes());
        for rest in [" ->", " -> answer=no", " ->-> A", " -> \r"] {
            assert_eq!(answer_line(format!("{call}{rest}").as_bytes()), answer);
        }
    }
}

#[test]
fn bad_lines() {
    for line in [
        "",
        " ",
        " ->",
        "match",
        "matches card= word= work=16 fill=a5 budget=0",
        " match card= word= work=16 fill=a5 budget=0",
        "match  card= word= work=16 fill=a5 budget=0",
        "match card= word= work=16 fill=a5 budget=0 ",
        "match card= word= work=16 fill=a5 budget=0\r",
        "match card= word= work=16 fill=a5 budget=0->",
        "match word= card= work=16 fill=a5 budget=0",
        "match card= word= work=16 fill=a5",
        "match card= work=16 fill=a5 budget=0",
        "match card=0 word= work=16 fill=a5 budget=0",
        "match card=0A word= work=16 fill=a5 budget=0",
        "match card=0g word= work=16 fill=a5 budget=0",
        "match card= word= work= fill=a5 budget=0",
        "match card= word= work=016 fill=a5 budget=0",
        "match card= word= work=+16 fill=a5 budget=0",
        "match card= word= work=65537 fill=a5 budget=0",
        "match card= word= work=16 fill=a budget=0",
        "match card= word= work=16 fill=a5a5 budget=0",
        "match card= word= work=16 fill= budget=0",
        "match card= word= work=16 fill=a5 had= budget=0",
        "match card= word= work=16 fill=a5 was=0 budget=0",
        "match card= word= work=16 fill=a5 was= was= budget=0",
        "match card= word= work=16 fill=a5 budget=",
        "match card= word= work=16 fill=a5 budget=00",
        "match card= word= work=16 fill=a5 budget=-1",
        "match card= word= work=16 fill=a5 budget=4294967296",
        "match card= word= work=16 fill=a5 budget=18446744073709551616",
        "compare left= right= work=16 pairs=65537 word=0 fill=a5 budget=0",
        "compare left= right= work=16 pairs=8 word=65537 fill=a5 budget=0",
        "compare left= right= work=16 pairs=8 word= fill=a5 budget=0",
        "compare left= right= work=16 pairs=8 word=0 fill=a5 had= was= budget=0",
        "check left= right= proof= work=16 fill=a5 budget=0",
        "check left= right= proof= list= work=16 fill=a5 had= budget=0",
    ] {
        assert_eq!(answer_line(line.as_bytes()), BAD_LINE, "{line}");
    }
}
