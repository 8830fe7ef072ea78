//! The page: one file that fetches nothing, with the very takes that `play` writes.

use jivaszte_cli::page::{page, BESIDE, SLIDE};
use jivaszte_cli::take;
use jivaszte_cli::text::{compile_with, Instead};

/// The bytes that letters of base 64 stand for.
fn decoded(letters: &str) -> Vec<u8> {
    let value = |letter: u8| match letter {
        b'A'..=b'Z' => letter - b'A',
        b'a'..=b'z' => letter - b'a' + 26,
        b'0'..=b'9' => letter - b'0' + 52,
        b'+' => 62,
        _ => 63,
    };
    let letters = letters.trim_end_matches('=').as_bytes();
    let mut bytes = Vec::new();
    for four in letters.chunks(4) {
        let bits = four.iter().fold(0, |bits, &letter| bits << 6 | u32::from(value(letter)));
        let bits = bits << (6 * (4 - four.len()));
        bytes.extend(bits.to_be_bytes()[1..four.len()].iter());
    }
    bytes
}

#[test]
fn the_sounds_are_the_takes() {
    let page = page().unwrap();
    let sounds: Vec<&str> = page
        .split("src=\"data:audio/wav;base64,")
        .skip(1)
        .map(|rest| rest.split('"').next().unwrap())
        .collect();
    assert_eq!(sounds.len(), 2);
    for (sound, advance) in sounds.into_iter().zip(BESIDE) {
        let compiled = compile_with(SLIDE, Instead { rate: None, advance: Some(advance) }).unwrap();
        let bytes = compiled.score.encode();
        let samples = take::run(&bytes, take::room(take::length(&bytes)).unwrap()).unwrap();
        assert_eq!(decoded(sound), jivaszte::wav_file(compiled.rate, &samples).unwrap());
    }
}

#[test]
fn nothing_is_fetched_and_nothing_is_left_open() {
    let page = page().unwrap();
    for word in ["://", "<link", "<script ", "<iframe", "url(", "@import", "{{", "}}"] {
        assert!(!page.contains(word), "{word}");
    }
    assert_eq!(page.matches("src=").count(), 2);
    assert_eq!(page.matches("role=\"img\" aria-label=\"").count(), 2);
    assert!(page.contains("id=\"switch\"") && page.contains("scope=\"row\">24</th>"));
    assert_eq!((page.matches("<svg").count(), page.matches("</svg>").count()), (2, 2));
    for tag in [
        "figure", "table", "tr", "td", "th", "li", "ol", "code", "small", "p", "h2", "div",
        "script", "button", "caption",
    ] {
        let (open, close) =
            (page.matches(&format!("<{tag}>")).count(), page.matches(&format!("</{tag}>")).count());
        let classed = page.matches(&format!("<{tag} ")).count();
        assert_eq!(open + classed, close, "{tag}");
    }
    for words in ["25,165,824", "−132.5 dB", "crates/rule/specs/Click.antt", "Na 24"] {
        assert!(page.contains(words), "{words}");
    }
}
