//! The lists of calls at which crates/instances/specs/Live.antt has L9 of document 02, in numbers.

use oracle::console::answers;

/// The samples that the blocks of a console text put out.
fn samples(lines: &str) -> Vec<i32> {
    let printed = answers(lines.replace("; ", "\n").as_bytes());
    let blocks = printed.lines().filter_map(|line| line.strip_prefix("block 0 "));
    blocks.flat_map(|line| line.split(' ').map(|word| word.parse().expect("a sample"))).collect()
}

/// With the change announced and with it made instantly; and the list with a sample less between.
#[test]
fn instances() {
    let (before, after) = ("block 3 1000000 -2000000 500000; ", "block 4 0 0 0 0");
    let listed = |open: &str, between: &str, to: &str| {
        let early = format!("open {open}; {before}announce {to}; {between}{after}");
        let live = format!("open {open}; {before}{between}instant {to}; {after}");
        [samples(&early), samples(&live)]
    };
    let (open, between) = ("1 3 4500 60000 2", "loss 50000; pluck 100 3 7; block 1 0; commit; loss 65536; ");
    let given = [0, 0, 0, -46_997, 1_091_785, 262_431, -2_087_413, 531_659, -1_953_942];
    let whole = format!("{between}block 1 -5; ");
    assert_eq!(listed(open, &whole, "3 2 13000"), [given, given]);
    let less = [0, 0, 0, -46_997, -178_888, 1_246_466, -1_959_323, 505_981];
    assert_eq!(listed(open, between, "3 2 13000"), [&given[..8], &less[..]]);
    let (open, between) = ("2 3 8692 60000 0", "pluck 100 3 7; withdraw; commit; ");
    let given = [0, 0, 0, -17_890, 560_911, -1_805_975, 2_887_770];
    assert_eq!(listed(open, between, "1 1 4400"), [given, given]);
}
