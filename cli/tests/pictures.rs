//! Pictures as a reader meets them: well formed, every pluck and change marked, no words that run into
//! others or out of the picture, units on the axes, and bars that are as long as the distances.

use jivaszte_cli::plot::{draw, Take};
use jivaszte_cli::text::Instead;
use jivaszte_cli::tune::Tune;
use std::fs;
use std::path::{Path, PathBuf};

/// How wide a letter of DejaVu Sans is, in sizes: the font of the pictures, and a wide one.
fn letter(letter: char) -> f64 {
    match letter {
        'i' | 'l' | 'j' => 0.28,
        ' ' | ',' | '.' => 0.32,
        ':' | ';' | 'f' | 't' | '(' | ')' => 0.39,
        '#' | '+' | '−' => 0.84,
        'm' => 0.97,
        'A'..='Z' => 0.7,
        _ => 0.63,
    }
}

fn tunes() -> Vec<PathBuf> {
    let folders = ["../demos", "tests/tunes"]
        .map(|folder| Path::new(env!("CARGO_MANIFEST_DIR")).join(folder));
    let files = folders.iter().flat_map(|folder| fs::read_dir(folder).unwrap());
    let paths = files.map(|entry| entry.unwrap().path());
    paths.filter(|path| path.extension().is_some_and(|end| end == "txt")).collect()
}

/// The takes of a tune with an advance, if it can be played with it.
fn taken(path: &Path, advances: &[u8], click: bool) -> Option<Vec<Take>> {
    let take = |advance: &u8| {
        let tune = Tune::load(path, Instead { rate: None, advance: Some(*advance) }).ok()?;
        Take::of(&path.file_name()?.to_string_lossy(), &tune, click).ok()
    };
    advances.iter().map(take).collect()
}

/// The value of an attribute of an element.
fn attribute<'a>(element: &'a str, name: &str) -> Option<&'a str> {
    element.split(&format!(" {name}=\"")).nth(1)?.split('"').next()
}

fn number(element: &str, name: &str) -> f64 {
    attribute(element, name)
        .and_then(|value| value.parse().ok())
        .unwrap_or_else(|| panic!("{name}: {element}"))
}

/// Left, top, right and bottom of the words of an element, and the words.
fn words(element: &str) -> ([f64; 4], &str) {
    let words = element.split('>').nth(1).unwrap().strip_suffix("</text").unwrap();
    let size = number(element, "font-size");
    let width = size * words.chars().map(letter).sum::<f64>();
    if let Some(turned) = attribute(element, "transform") {
        let (place, _) = turned.strip_prefix("translate(").unwrap().split_once(')').unwrap();
        let (x, y) = place.split_once(' ').unwrap();
        let (x, y): (f64, f64) = (x.parse().unwrap(), y.parse().unwrap());
        return ([x - 0.8 * size, y - width / 2.0, x + 0.2 * size, y + width / 2.0], words);
    }
    let (x, y) = (number(element, "x"), number(element, "y"));
    let left = match attribute(element, "text-anchor") {
        Some("start") => x,
        Some("middle") => x - width / 2.0,
        _ => x - width,
    };
    ([left, y - 0.8 * size, left + width, y + 0.2 * size], words)
}

/// How many marks a class of paths has.
fn marks(picture: &str, class: &str) -> usize {
    let of_class = |line: &&str| attribute(line, "class") == Some(class);
    let paths = picture.lines().filter(|line| line.starts_with("<path")).filter(of_class);
    paths.map(|path| attribute(path, "d").unwrap().matches('M').count()).sum()
}

fn well_formed(picture: &str) {
    let lines: Vec<&str> = picture.lines().collect();
    let [first, inner @ .., last] = &lines[..] else { panic!("{picture}") };
    assert!(first.starts_with("<svg xmlns=\"http://www.w3.org/2000/svg\" ") && *last == "</svg>");
    assert!(
        attribute(first, "role") == Some("img")
            && !attribute(first, "aria-label").unwrap().is_empty()
    );
    for line in inner {
        let (closed, quotes) =
            (line.ends_with("/>") || line.ends_with("</text>"), line.matches('"').count());
        assert!(line.starts_with('<') && closed && quotes % 2 == 0, "{line}");
        assert!(!line.contains("NaN") && !line.contains("inf"), "{line}");
        assert_eq!(line.matches('<').count(), line.matches('>').count(), "{line}");
    }
}

fn legible(picture: &str, name: &str) {
    let (width, height) = (number(picture, "width"), number(picture, "height"));
    let found: Vec<_> =
        picture.lines().filter(|line| line.starts_with("<text")).map(words).collect();
    for (index, ([left, top, right, bottom], one)) in found.iter().enumerate() {
        let inside = *left >= 0.0 && *top >= 0.0 && *right <= width && *bottom <= height;
        assert!(inside, "{name}: {one} runs out of the picture");
        for ([l, t, r, b], other) in &found[index + 1..] {
            assert!(
                right <= l || r <= left || bottom <= t || b <= top,
                "{name}: {one} and {other}"
            );
        }
    }
}

#[test]
fn pictures_are_legible_and_have_every_mark() {
    let (mut drawn, mut dense) = (0, 0);
    for path in tunes() {
        let name = path.display().to_string();
        for advances in [&[24][..], &[0, 24, 64]] {
            let Some(takes) = taken(&path, advances, false) else { continue };
            let picture = draw(&takes).document();
            well_formed(&picture);
            legible(&picture, &name);
            let count = |of: fn(&Take) -> usize| takes.iter().map(of).sum::<usize>();
            assert_eq!(
                marks(&picture, "plucks"),
                count(|take| take.timeline.plucks.len()),
                "{name}"
            );
            let within = |take: &Take| {
                take.timeline.changes.iter().filter(|c| c.effect <= take.samples.len()).count()
            };
            assert_eq!(marks(&picture, "changes"), count(within), "{name}");
            assert_eq!(marks(&picture, "plucked"), marks(&picture, "plucks"), "{name}");
            assert_eq!(marks(&picture, "pitch"), takes.len(), "{name}");
            assert_eq!(picture.matches(">pitch in force<").count(), takes.len());
            assert!(picture.contains(">time in ") && picture.contains(">level, full scale is 1<"));
            (drawn, dense) = (drawn + 1, dense + usize::from(marks(&picture, "changes") > 500));
        }
    }
    assert!(drawn > 12 && dense > 1, "{drawn} {dense}");
}

/// The greatest distance and the figure are in the legend, and each sample has a bar.
#[test]
fn clicks_are_drawn() {
    let figure = Path::new(env!("CARGO_MANIFEST_DIR")).join("../demos/figure8.txt");
    let takes = taken(&figure, &[0, 24], true).unwrap();
    let picture = draw(&takes).document();
    well_formed(&picture);
    legible(&picture, "figure8.txt");
    assert_eq!(
        marks(&picture, "measured"),
        takes.iter().map(|take| take.samples.len()).sum::<usize>()
    );
    assert_eq!(marks(&picture, "rings"), 40);
    assert!(picture.contains("at most 25,165,824 units (9.5 dB)<"));
    assert_eq!(picture.matches(">Every distance that was measured here is 0.<").count(), 1);
    assert!(picture.contains("at most 2 units (−132.5 dB)<"));
    assert!(picture.contains(">distance, in units of the last bit<") && picture.contains(" dB<"));
    let off =
        |take: &Take| take.distances.as_ref().unwrap().iter().map(|d| d.measured).max().unwrap();
    assert!(off(&takes[0]) > 1_000_000 && off(&takes[1]) <= 2);
}

/// A pitch that is held, a step to another and a slide: notes on the axis, a step for each change, and the names
/// that have no room are counted.
#[test]
fn the_pitch_in_force_is_drawn() {
    let text = b"advance 0\ntune A3\npluck 99\nwait 1s, jump E4\nwait 1s\nslide A3 over 50ms steps 20\nwait 1s";
    let tune = Tune::of_text(Path::new("a.txt"), text.to_vec(), Instead::default()).unwrap();
    let take = Take::of("a.txt", &tune, false).unwrap();
    let picture = draw(&[take]).document();
    legible(&picture, "a.txt");
    for name in ["A3", "B3", "C4", "E4"] {
        assert!(picture.contains(&format!(">{name}</text>")), "{name}");
    }
    assert!(picture.contains(">19 more notes without room for a name<"));
    let curve = picture.lines().find(|line| attribute(line, "class") == Some("pitch")).unwrap();
    let data = attribute(curve, "d").unwrap();
    assert_eq!((data.matches('V').count(), data.matches('H').count()), (21, 22));
}

#[test]
fn a_take_of_one_sample_is_drawn() {
    let text = b"tune A3\nwait 1 sample\n".to_vec();
    let tune = Tune::of_text(Path::new("a<b>.txt"), text, Instead::default()).unwrap();
    let picture = draw(&[Take::of("a<b>.txt", &tune, true).unwrap()]).document();
    well_formed(&picture);
    assert!(picture.contains("a&lt;b&gt;.txt"));
}
