//! MIDI files on six strings. `tests/songs` has files that Debian's python3-mido and abc2midi made.

use jivaszte_cli::bytes::{records, HEADER_BYTES};
use jivaszte_cli::meter::Meter;
use jivaszte_cli::midi::{arrange, Arrangement};
use jivaszte_cli::piece::Piece;
use jivaszte_cli::score::{Record, Score};
use jivaszte_cli::text::Instead;
use std::path::{Path, PathBuf};

const SONGS: [&str; 4] = ["bends", "chord", "scale", "seven"];

fn path(song: &str) -> PathBuf {
    Path::new(env!("CARGO_MANIFEST_DIR")).join("tests/songs").join(format!("{song}.mid"))
}

fn bytes(song: &str) -> Vec<u8> {
    std::fs::read(path(song)).unwrap()
}

fn arranged(song: &str) -> Arrangement {
    arrange(&bytes(song), Instead::default()).unwrap()
}

/// The records of a score that do something, with their samples.
fn deeds(score: &Score) -> Vec<(u64, Record)> {
    let mut now = 0;
    let step = |record: &Record| {
        now += u64::from(record.wait.unwrap_or(0));
        (now, *record)
    };
    let steps: Vec<(u64, Record)> = score.records.iter().map(step).collect();
    steps
        .into_iter()
        .filter(|(_, record)| Record { wait: None, ..*record } != Record::default())
        .collect()
}

/// The samples at which a string is plucked.
fn plucks(score: &Score) -> Vec<u64> {
    deeds(score).iter().filter(|(_, record)| record.pluck.is_some()).map(|(at, _)| *at).collect()
}

#[test]
fn every_song_is_played_to_its_end() {
    for song in SONGS {
        let piece =
            Piece::load(&path(song), Instead::default()).unwrap_or_else(|_| panic!("{song}"));
        let mut meter = Meter::new(piece.rate);
        assert_eq!(piece.play(&mut meter, None), Ok(()), "{song}");
        assert_eq!(meter.samples, piece.length(), "{song}");
    }
}

/// Ticks of 480 a quarter at 120 quarters a minute, then at 240: a chord at 0, and all that follows it.
#[test]
fn a_chord_has_its_strings_and_its_moments() {
    let song = arranged("chord");
    assert_eq!((song.rate, song.scores.len()), (44_100, 4));
    for score in &song.scores {
        assert_eq!(plucks(score), [0]);
        let deeds = deeds(score);
        let bend = deeds.iter().find(|(_, record)| record.change.is_some()).unwrap();
        assert_eq!(bend.0, 11_025);
        assert!(!bend.1.change.unwrap().instant);
        // The keys are let go at tick 730, and the pedal at tick 1,220: 44,100 samples up to tick 960, then 5,972.
        let loss = deeds.iter().find(|(_, record)| record.loss.is_some()).unwrap();
        assert_eq!(loss.0, 44_100 + (260 * 11_025 + 240) / 480);
    }
    assert_eq!(
        song.remarks,
        [
            "channel 10 has drums: 1 note not played",
            "track 2, bar 1, beat 2: D#-1 is out of reach and not played"
        ]
    );
}

/// Two channels with one key at a time have a string each, and bends are no nearer than the advance.
#[test]
fn a_channel_has_its_own_string() {
    let song = arranged("bends");
    let quarter = 22_050;
    for score in &song.scores {
        assert_eq!(plucks(score), [0, quarter, 2 * quarter, 3 * quarter]);
    }
    let changes: Vec<(u64, bool)> = deeds(&song.scores[0])
        .iter()
        .filter_map(|(at, record)| Some((*at, record.change?.instant)))
        .collect();
    assert!(changes.iter().filter(|(_, instant)| !instant).count() >= 100, "{changes:?}");
    for pair in changes.windows(2) {
        let waits = if pair[0].1 { 0 } else { 24 };
        assert!(pair[1].0 >= pair[0].0 + waits, "{pair:?}");
    }
}

#[test]
fn the_seventh_note_takes_the_oldest_string() {
    let song = arranged("seven");
    assert_eq!(song.scores.len(), 6);
    let counts: Vec<usize> = song.scores.iter().map(|score| plucks(score).len()).collect();
    assert_eq!(counts, [2, 1, 1, 1, 1, 1]);
}

/// The scores are as long as each other, and the notes stand where they should.
#[test]
fn a_scale_that_abc2midi_made() {
    let song = arranged("scale");
    let length = |score: &Score| -> u64 {
        score.records.iter().map(|record| u64::from(record.wait.unwrap_or(0))).sum()
    };
    let lengths: Vec<u64> = song.scores.iter().map(length).collect();
    assert!(lengths.windows(2).all(|pair| pair[0] == pair[1]), "{lengths:?}");
    let mut starts: Vec<u64> = song.scores.iter().flat_map(plucks).collect();
    starts.sort_unstable();
    // Quarters at 96 a minute: four of them, then a chord, which abc2midi rolls by ten ticks a note.
    let quarter = 44_100.0 * 60.0 / 96.0;
    let wanted = [0.0, 1.0, 2.0, 3.0, 4.0, 4.0, 4.0].map(|beat| (beat * quarter) as i64);
    for (start, wanted) in starts.iter().zip(wanted) {
        assert!((*start as i64 - wanted).abs() < 1_300, "{starts:?}");
    }
    assert_eq!(starts.len(), wanted.len());
}

/// A file that is cut, or has a byte changed, is refused in words or played; nothing panics.
#[test]
fn damaged_files() {
    for song in SONGS {
        let bytes = bytes(song);
        for end in 0..bytes.len() {
            if let Err(damage) = arrange(&bytes[..end], Instead::default()) {
                assert!(damage.byte <= end && !damage.words.is_empty());
            }
        }
        for place in 0..bytes.len() {
            for value in [0, 1, 0x7F, 0x80, 0xF0, 0xF7, 0xFF, bytes[place] ^ 1] {
                let mut damaged = bytes.clone();
                damaged[place] = value;
                let _ = arrange(&damaged, Instead::default());
            }
        }
    }
}

/// Ticks that last for years are refused, and take no memory.
#[test]
fn a_song_has_an_end() {
    let track = [0xFF, 0xFF, 0xFF, 0x7F, 0x90, 60, 90, 0xFF, 0xFF, 0xFF, 0x7F, 0x80, 60, 0];
    let mut bytes = b"MThd\0\0\0\x06\0\0\0\x01\0\x01MTrk\0\0\0\x0E".to_vec();
    bytes.extend(track);
    let refused = arrange(&bytes, Instead::default()).err().unwrap();
    assert_eq!(refused.words, "the song is longer than a WAV file can be");
}

#[test]
fn what_is_refused_says_where() {
    let refused = |bytes: &[u8]| arrange(bytes, Instead::default()).err().unwrap();
    let chord = bytes("chord");
    assert_eq!(refused(b"MThd").words, "the file ends early");
    let mut format_2 = chord.clone();
    format_2[9] = 2;
    assert_eq!(
        (refused(&format_2).byte, refused(&format_2).words),
        (8, "the format is not 0 or 1")
    );
    let last = &chord[..chord.len() - 1];
    assert_eq!((refused(last).byte, refused(last).words), (last.len(), "the file ends early"));
}

/// A song of several strings is the clipped sum of its strings, each played by itself.
#[test]
fn a_song_is_the_sum_of_its_strings() {
    for song in SONGS {
        let song = arranged(song);
        let mut sum: Vec<i64> = Vec::new();
        for score in &song.scores {
            let bytes = score.encode();
            let length = jivaszte_cli::take::length(&bytes) as usize;
            let mut take = vec![0; length];
            jivaszte::run(&bytes, &mut take).unwrap();
            sum.resize(length, 0);
            sum.iter_mut().zip(&take).for_each(|(sum, sample)| *sum += i64::from(*sample));
            assert!(
                records(&bytes).all(|(_, record)| record.is_ok()) && bytes.len() > HEADER_BYTES
            );
        }
        let wanted: Vec<i32> =
            sum.iter().map(|sum| (*sum).clamp(-8_388_607, 8_388_607) as i32).collect();
        assert_eq!(played(&song), wanted);
    }
}

/// What the program's player puts out.
fn played(song: &Arrangement) -> Vec<i32> {
    struct Tape(Vec<i32>);
    impl jivaszte_cli::player::Studio for Tape {
        fn samples(&mut self, samples: &[i32]) -> jivaszte_cli::failure::Outcome {
            self.0.extend(samples);
            Ok(())
        }
    }
    let scores: Vec<Vec<u8>> = song.scores.iter().map(Score::encode).collect();
    let strings: Vec<(usize, &[u8])> = scores.iter().map(Vec::as_slice).enumerate().collect();
    let mut tape = Tape(Vec::new());
    assert!(jivaszte_cli::player::Player::play(&strings, &mut tape).is_ok());
    tape.0
}
