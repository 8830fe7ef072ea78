//! What the lines of a text mean, in bytes.

use jivaszte_cli::text::compile;

/// The bytes of a text, in hex.
fn hex(text: &str, rate: Option<u32>) -> String {
    let compiled = compile(text, rate).unwrap_or_else(|faults| panic!("{faults:?}\n{text}"));
    let bytes: Vec<String> =
        compiled.score.encode().iter().map(|byte| format!("{byte:02X}")).collect();
    bytes.join(" ")
}

#[test]
fn settings() {
    for (text, bytes) in [
        ("tune A4", "01 00 63 00 A3 0B FA FE"),
        ("order 2\ntune A4", "02 00 62 00 A3 1B FA FE"),
        ("tune A3\njump A4", "01 0A C7 00 46 0F FA FE 86 63 00 A3 0B"),
        ("advance 7\ntune A4", "01 07 63 00 A3 0B FA FE"),
        ("loss 0.5\nadvance 0\ntune L 3 d 4096", "01 00 03 00 00 10 00 80"),
        ("rate 88200\ntune A5", "01 00 63 00 A3 0B FA FE"),
        ("order 9\nadvance 65\nloss 1 unit\ntune L 1 d 2", "09 41 01 00 02 00 01 00"),
    ] {
        assert_eq!(hex(text, None), bytes, "{text}");
    }
    assert_eq!(hex("rate 48000\ntune A4", Some(44_100)), hex("tune A4", None));
}

#[test]
fn events() {
    let header = hex("advance 24\ntune A4", None);
    for (line, bytes) in [
        ("pluck 200 seed absent", "30 C8 00 64 00"),
        ("pluck 200 for 50 seed absent", "30 C8 00 32 00"),
        ("pluck seed absent for 50 200", "30 C8 00 32 00"),
        ("pluck 200 seed 7 for 50", "70 C8 00 32 00 07 00"),
        ("pluck for 50 seed 7 200", "70 C8 00 32 00 07 00"),
        ("pluck seed 7 200 count absent", "50 C8 00 07 00"),
        ("pluck 200 seed 7", "70 C8 00 64 00 07 00"),
        ("pluck 200 count absent seed absent", "10 C8 00"),
        ("pluck 200 count absent seed 7", "50 C8 00 07 00"),
        ("wait 0.5s", "01 22 56"),
        ("wait .5s", "01 22 56"),
        ("wait 20 ms", "01 72 03"),
        ("wait 0.01s", "01 B9 01"),
        ("wait 0.00001s", "01 00 00"),
        ("wait 1 beat", "01 AB 6B"),
        ("wait 0.5beats", "01 D5 35"),
        ("wait 0 samples", "01 00 00"),
        ("wait 65535 samples", "01 FF FF"),
        ("wait 70000 samples, pluck 1 seed absent", "01 FF FF 31 71 11 01 00 64 00"),
        ("to A4", "06 63 00 A3 0B"),
        ("to 440Hz", "06 63 00 A3 0B"),
        ("to 440.000 hz", "06 63 00 A3 0B"),
        ("to L 99 d 2979", "06 63 00 A3 0B"),
        ("jump A4", "86 63 00 A3 0B"),
        ("jump L 99", "82 63 00"),
        ("to d 2979", "04 A3 0B"),
        ("loss 0.5", "08 00 80"),
        ("loss 1", "08 FF FF"),
        ("loss 0", "08 00 00"),
        ("loss 258 units", "08 02 01"),
        ("nothing", "00"),
        (
            "wait 10 samples, loss 0.5, jump A4, pluck 1 for 1 seed 2",
            "FF 0A 00 63 00 A3 0B 00 80 01 00 01 00 02 00",
        ),
        ("wait 1 sample,pluck 1 for 1 seed absent", "31 01 00 01 00 01 00"),
        ("slide A4 over 48 samples steps 2", "06 63 00 A3 0B 07 18 00 63 00 A3 0B 01 18 00"),
        ("slide A4 over 100 samples steps 1", "07 4C 00 63 00 A3 0B 01 18 00"),
        ("# all of it", ""),
        ("", ""),
    ] {
        let wanted = [&header, bytes].map(|part| part.trim()).join(" ");
        let text = format!("tempo 96\nadvance 24\ntune A4\n{line}  # {line}\r\n");
        assert_eq!(hex(&text, None), wanted.trim(), "{line}");
    }
}

/// A pluck without a seed gets one by its place among such plucks and its count, whatever else is there.
#[test]
fn seeds_go_by_the_text() {
    let seeds = |text: &str| -> Vec<u16> {
        let score = compile(text, None).unwrap().score;
        score.records.iter().filter_map(|record| record.pluck?.seed).collect()
    };
    let twice = seeds("tune A4\npluck 9\nwait 1s, pluck 200 seed 5\npluck 100 for 100\n");
    assert_eq!(
        twice,
        seeds("rate 8000\ntune C3\npluck 1\npluck 7 seed 5\nslide C4 over 1s\npluck 255\n")
    );
    assert!(twice[0] != twice[2] && twice[1] == 5);
    assert_eq!(twice, [SEEDS[0], 5, SEEDS[1]]);
}

/// The first two seeds of 100 draws, as docs/SCORES.md has them.
const SEEDS: [u16; 2] = [41_750, 27_094];

/// What is repeated is what would stand there as often; each pluck has a seed of its own.
#[test]
fn repeats_are_written_out() {
    let once = "pluck 100\nwait 1s\nslide E4 over 1s\nvibrato 20c 5Hz for 1s\nslide A4 over .5s\n";
    let repeated = format!("tune A4\nrepeat 3\n{once}end\n");
    assert_eq!(hex(&repeated, None), hex(&format!("tune A4\n{}", once.repeat(3)), None));
    let nested = "tune A4\nrepeat 2\nwait 1 sample\nrepeat 1\nnothing\nend\nend";
    assert!(hex(nested, None).ends_with(" FE 01 01 00 00 01 01 00 00"));
}

#[test]
fn wrong_repeats_are_told_once() {
    let told = |text: &str| -> Vec<(usize, String)> {
        let faults = compile(text, None).unwrap_err();
        faults.into_iter().map(|fault| (fault.spot.line, fault.message)).collect()
    };
    let one = |line, words: &str| vec![(line, String::from(words))];
    assert_eq!(told("tune A4\nrepeat 2\nto H4\nend"), one(3, "no note is called H4"));
    assert_eq!(told("tune A4\nend"), one(2, "no `repeat` stands before this `end`"));
    assert_eq!(told("tune A4\nrepeat 2"), one(2, "no `end` stands after this `repeat`"));
    let missing = "a line `tune A4` must stand before the first `repeat`";
    assert_eq!(told("repeat 2\nend\ntune A4"), one(1, missing));
    let deep = format!("tune A4\n{}{}", "repeat 65535\n".repeat(9), "end\n".repeat(9));
    let most = "with what is repeated, a text has at most 4,194,304 lines";
    assert_eq!(told(&deep)[0].1, most);
    // 24 samples of a change that still waits: the second time alone is wrong.
    assert_eq!(told("tune A4\nrepeat 2\nslide A4 over 24 samples\nto A3\nend").len(), 1);
}

/// A slide of two steps passes the pitch between its ends in the geometric mean.
#[test]
fn slides_go_by_equal_ratios() {
    let score = compile("order 2\ntune A3\nslide A5 over 1s steps 2", None).unwrap().score;
    let middle = score.records[0].change.unwrap();
    let a4 = compile("order 2\ntune A4", None).unwrap().score.header.tuning;
    let off = middle.delay.unwrap().abs_diff(a4.delay);
    assert!(middle.length == Some(a4.length) && off <= 1, "{middle:?}");
}
