//! Section "Checked figures": every row, the paper's value beside the one computed here.

use crate::allpass::{effective_length, Allpass};
use crate::noise::draw;
use crate::note::note;
use crate::player::play;
use crate::refusal::{number, Answer};
use crate::thiran::coefficients;
use crate::voice::Voice;

/// A row: what it is about, the paper's values and the computed ones.
#[derive(Debug)]
pub struct Figure {
    pub name: String,
    pub paper: String,
    pub computed: String,
}

/// "hex 01 00 03 00 00 10 00 80 30 01 00 01 00 01 0A 00": the player's example.
pub const EXAMPLE: [u8; 16] = [
    0x01, 0x00, 0x03, 0x00, 0x00, 0x10, 0x00, 0x80, 0x30, 0x01, 0x00, 0x01, 0x00, 0x01, 0x0A, 0x00,
];

/// Numbers in a row, separated by spaces.
fn row(values: &[i128]) -> String {
    values.iter().map(i128::to_string).collect::<Vec<_>>().join(" ")
}

/// A row of numbers.
fn figure(name: &str, paper: &[i128], computed: &[i128]) -> Figure {
    Figure { name: name.to_string(), paper: row(paper), computed: row(computed) }
}

/// What a row of coefficients is about.
fn name(order: u32, d: u32) -> String {
    format!("order {order}, d {d}: answer, A1, A2, A3")
}

/// The number of an answer, and the coefficients behind it.
fn answered(answer: &Answer, [a1, a2, a3]: [i128; 3]) -> [i128; 4] {
    [i128::from(number(answer)), a1, a2, a3]
}

/// "d 2,049: A1 21,831", order 1, the rows of order 2, and those of order 3 that L5 asks for, worked
/// out by hand from 002 equation (3).
fn coefficient_figures() -> Vec<Figure> {
    let order_1 = [(2_049, 21_831), (4_096, 0), (6_144, -13_107), (2_979, 10_347)];
    let order_2 = [(6_145, [26_199, -1_872]), (10_240, [-18_725, 3_121]), (8_192, [0, 0])];
    let order_3 =
        [(10_241, [28_071, -3_120, 284]), (12_288, [0, 0, 0]), (14_336, [-21_845, 5_958, -764])];
    let mut figures = Vec::new();
    for (d, a1) in order_1 {
        let (answer, values) = coefficients(1, d);
        let computed = answered(&answer, values);
        figures.push(figure(&name(1, d), &[0, a1, 0, 0], &computed));
    }
    for (d, [a1, a2]) in order_2 {
        let (answer, values) = coefficients(2, d);
        let computed = answered(&answer, values);
        figures.push(figure(&name(2, d), &[0, a1, a2, 0], &computed));
    }
    for (d, [a1, a2, a3]) in order_3 {
        let (answer, values) = coefficients(3, d);
        let computed = answered(&answer, values);
        figures.push(figure(&name(3, d), &[0, a1, a2, a3], &computed));
    }
    figures
}

/// "Order 1, d 6,144, inputs 1,000, 0, 0, 0": "the allpass row in document 01 becomes −199, 961, 192,
/// 38" (document 02, L7).
fn filter_figure() -> Figure {
    let mut filter = Allpass::at_rest(1, 6_144);
    let computed = [1_000, 0, 0, 0].map(|f| filter.filter(f));
    figure("order 1, d 6144, inputs 1000, 0, 0, 0", &[-199, 961, 192, 38], &computed)
}

/// "L 3, d 4,096, G 32,768, input 1,000 then zeros: 0, 0, 0, 0, 1000, 0, 0, 0, 250, 250." The
/// order is 1, which alone takes this d; Na is 0.
fn voice_figure() -> Figure {
    let (mut voice, _) = Voice::open(1, 3, 4_096, 32_768, 0);
    let mut output = [0; 10];
    let answer = voice.block(&[1_000, 0, 0, 0, 0, 0, 0, 0, 0, 0], &mut output);
    let paper = [0, 0, 0, 0, 0, 1_000, 0, 0, 0, 250, 250];
    let mut computed = vec![i128::from(number(&answer))];
    computed.extend(output.map(i128::from));
    figure("L 3, d 4096, G 32768, input 1000 then zeros: answer, y", &paper, &computed)
}

/// "Seed 0 draws −17,298, −14,512, 20,940."
fn noise_figure() -> Figure {
    let mut state = 0;
    let computed = [(); 3].map(|()| draw(&mut state));
    figure("seed 0 draws", &[-17_298, -14_512, 20_940], &computed)
}

/// "Rate 44,100, note 69: order 1 gives 99 and 2,979; order 2 gives 98 and 7,075."
fn note_figure(order: u32, paper: [i128; 2]) -> Figure {
    let (answer, [length, d]) = note(order, 44_100, 69);
    let computed = [i128::from(number(&answer)), length, d];
    let name = format!("rate 44100, note 69, order {order}: answer, L, d");
    figure(&name, &[0, paper[0], paper[1]], &computed)
}

/// "Order 2, d 9,159, threshold 1,000": 3, which becomes 4 by document 02, L4. "Order 1, d 6,144,
/// threshold 1,000,000: 0."
fn length_figure(order: u32, d: u32, threshold: u32, paper: i128) -> Figure {
    let (answer, length) = effective_length(order, d, threshold);
    let computed = [i128::from(number(&answer)), i128::from(length)];
    let name = format!("order {order}, d {d}, threshold {threshold}: answer, effective length");
    figure(&name, &[0, paper], &computed)
}

/// "d 2,048 is refused by 3 in order 1; 6,144 in order 2."
fn refusal_figure(order: u32, d: u32) -> Figure {
    let (answer, values) = coefficients(order, d);
    figure(&name(order, d), &[3, 0, 0, 0], &answered(&answer, values))
}

/// "it prints 0, 0, 0, 0, -17298, 0, 0, 0, -4324, -4324, then `end 0 2 10`."
fn player_figure() -> Figure {
    let (text, _) = play(&EXAMPLE);
    let name = "the player's example".to_string();
    let paper = "0 0 0 0 -17298 0 0 0 -4324 -4324 end 0 2 10".to_string();
    Figure { name, paper, computed: text.split_whitespace().collect::<Vec<_>>().join(" ") }
}

/// All rows of the section, starred or not, in the paper's order.
pub fn figures() -> Vec<Figure> {
    let mut figures = coefficient_figures();
    figures.push(filter_figure());
    figures.push(voice_figure());
    figures.push(noise_figure());
    figures.push(note_figure(1, [99, 2_979]));
    figures.push(note_figure(2, [98, 7_075]));
    figures.push(length_figure(2, 9_159, 1_000, 4));
    figures.push(length_figure(1, 6_144, 1_000_000, 0));
    figures.push(refusal_figure(1, 2_048));
    figures.push(refusal_figure(2, 6_144));
    figures.push(player_figure());
    figures
}
