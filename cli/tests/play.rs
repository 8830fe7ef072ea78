//! `play` with its options: ringing, a recording that comes in; JSON; completion.

mod common;

use common::Folder;
use std::fs;
use std::path::Path;
use std::process::Command;

const PROGRAM: &str = env!("CARGO_BIN_EXE_jivaszte");

/// Runs the program in a folder; gives its status, standard output and standard error.
fn run(folder: &Path, words: &str) -> (Option<i32>, String, String) {
    let done = Command::new(PROGRAM).args(words.split(' ')).current_dir(folder).output().unwrap();
    let text = |bytes| String::from_utf8(bytes).unwrap();
    (done.status.code(), text(done.stdout), text(done.stderr))
}

/// The samples of a WAV file of 24 bits.
fn samples(path: &Path) -> Vec<i32> {
    let bytes = fs::read(path).unwrap();
    let sample = |b: &[u8]| i32::from_le_bytes([0, b[0], b[1], b[2]]) >> 8;
    bytes[44..].chunks_exact(3).map(sample).collect()
}

#[test]
fn a_string_rings_until_it_is_quiet() {
    let folder = Folder::new("ring");
    fs::write(folder.join("tune.txt"), "rate 8000\nloss 0.98\ntune A4\npluck 150\nwait 0.1s\n")
        .unwrap();
    let (_, _, cut) = run(&folder, "play tune.txt -o cut.wav");
    assert!(
        cut.contains("0.100 s") && cut.contains("the last is at −") && cut.contains("--ring"),
        "{cut}"
    );
    let (code, _, rung) = run(&folder, "play tune.txt -o rung.wav --ring 20");
    assert!(code == Some(0) && !rung.contains("click"), "{rung}");
    let (cut, rung) = (samples(&folder.join("cut.wav")), samples(&folder.join("rung.wav")));
    assert!(rung.starts_with(&cut) && rung.len() < 80_000 && (rung.len() - cut.len()) % 800 == 0);
    let (tail, before) = (&rung[rung.len() - 800..], &rung[rung.len() - 1_600..rung.len() - 800]);
    assert!(tail.iter().all(|y| y.abs() < 838) && before.iter().any(|y| y.abs() >= 838));
    run(&folder, "play tune.txt -o short.wav -R .25");
    assert_eq!(samples(&folder.join("short.wav")).len(), 800 + 2_000);
    let (code, _, said) = run(&folder, "play tune.txt -o none.wav --ring long");
    assert_eq!((code, said.as_str()), (Some(2), "--ring takes seconds, as 5 or 2.5, not `long`\n"));
}

/// A recording comes in sample by sample, zeros after its end; the rest of a longer one is told.
#[test]
fn a_recording_comes_into_the_string() {
    let folder = Folder::new("through");
    let input: Vec<i32> =
        (0..1_500_001).map(|n: i64| (n * n % 1_999 * 100) as i32 - 99_900).collect();
    let write = |name: &str, rate: u32, samples: &[i32]| {
        fs::write(folder.join(name), jivaszte::wav_file(rate, samples).unwrap()).unwrap();
    };
    write("in.wav", 8_000, &input[..3_001]);
    fs::write(folder.join("tune.txt"), "rate 8000\nloss 0.9\ntune L 40 d 4096\nwait 0.5s\n")
        .unwrap();
    let (code, _, said) = run(&folder, "play tune.txt --through in.wav -o take.wav");
    assert!(code == Some(0) && !said.contains("before the recording"), "{said}");
    let opening =
        jivaszte::Opening { order: 1, length: 40, delay: 4_096, loss: 58_982, advance: 24 };
    let played = |input: &[i32]| {
        let mut voice = jivaszte::Voice::open(opening).unwrap();
        let mut output = vec![0; input.len()];
        voice.block(input, &mut output).unwrap();
        output
    };
    let padded: Vec<i32> = input[..3_001].iter().copied().chain([0; 999]).collect();
    assert_eq!(samples(&folder.join("take.wav")), played(&padded));
    assert!(padded.iter().any(|x| *x != 0));

    // More than a million samples, under a header of the program's.
    let mut long = jivaszte::wav_file(8_000, &[]).unwrap();
    long.extend(input.iter().flat_map(|x| x.to_le_bytes()[..3].to_vec()));
    long.push(0);
    let data = 3 * input.len() as u32;
    long[4..8].copy_from_slice(&(37 + data).to_le_bytes());
    long[40..44].copy_from_slice(&data.to_le_bytes());
    fs::write(folder.join("long.wav"), &long).unwrap();
    let text = "rate 8000\nloss 0.9\ntune L 40 d 4096\nwait 1500000 samples\n";
    fs::write(folder.join("long.txt"), text).unwrap();
    let (code, _, said) = run(&folder, "play long.txt --through long.wav -o take.wav");
    assert!(
        code == Some(0) && said.contains("the tune ends 1 sample before the recording"),
        "{said}"
    );
    assert!(samples(&folder.join("take.wav")) == played(&input[..1_500_000]));
}

#[test]
fn another_form_is_told_with_its_conversion() {
    let folder = Folder::new("form");
    fs::write(folder.join("tune.txt"), "rate 8000\ntune A4\nwait 0.1s\n").unwrap();
    let good = jivaszte::wav_file(8_000, &[1, 2, 3]).unwrap();
    let with = |changes: &[(usize, u8)]| {
        let mut bytes = good.clone();
        changes.iter().for_each(|&(at, byte)| bytes[at] = byte);
        bytes
    };
    let refused = "the bytes are no WAV file of one channel and 24 bits in the form that is written (refusal 19)";
    for (bytes, words) in [
        (
            with(&[(22, 2), (34, 16)]),
            format!("{refused} (it has 2 channels, not 1, 16 bits a sample, not 24)"),
        ),
        (with(&[(20, 3)]), format!("{refused} (it has numbers with a point)")),
        (
            with(&[(20, 0xFE), (21, 0xFF)]),
            format!("{refused} (it has a format chunk of the extensible form)"),
        ),
        (with(&[(0, b'X')]), format!("{refused} (it is no WAV file)")),
        (good[..50].to_vec(), format!("{refused} (it has other chunks, or is cut short)")),
        (good[..9].to_vec(), format!("{refused} (it is no WAV file)")),
        (Vec::new(), format!("{refused} (it is no WAV file)")),
        (with(&[(12, b'x')]), format!("{refused} (it does not say its format)")),
        (
            jivaszte::wav_file(48_000, &[1]).unwrap(),
            "it has 48000 samples a second, and the tune 8000".into(),
        ),
    ] {
        fs::write(folder.join("in.wav"), bytes).unwrap();
        let (code, _, said) = run(&folder, "play tune.txt --through in.wav -o take.wav");
        let line = "to convert it: sox in.wav -c 1 -b 24 -r 8000 -t wavpcm IN24.wav\n";
        assert_eq!((code, said), (Some(1), format!("in.wav: {words}\n{line}")));
        assert!(!folder.join("take.wav").exists());
    }
}

#[test]
fn json_is_read_by_programs() {
    let folder = Folder::new("json");
    fs::write(folder.join("good.txt"), "rate 8000\ntune A4\npluck 90\nwait 0.1s\n").unwrap();
    fs::write(folder.join("bad.txt"), "tune \"4\n").unwrap();
    let good = r#"{"file": "good.txt", "accepted": true, "samples": 800, "rate": 8000, "clipped": 0, "messages": []}"#;
    assert_eq!(
        run(&folder, "check good.txt --json"),
        (Some(0), format!("{good}\n"), String::new())
    );
    let bad = r#"{"file": "bad.txt", "accepted": false, "messages": ["bad.txt:1:6: no note is called \"4"]}"#;
    assert_eq!(run(&folder, "check bad.txt -j"), (Some(1), format!("{bad}\n"), String::new()));
    let note = r#"{"length": 99, "delay": 2979, "asked_Hz": 440.000, "sounds_Hz": 439.999, "cents": -0.002}"#;
    assert_eq!(run(&folder, "note A4 --json").1, format!("{note}\n"));
    let advance = run(&folder, "advance -n 1 --json").1;
    assert!(
        advance.starts_with(r#"{"order": 1, "take": "#) && advance.ends_with("}]}\n"),
        "{advance}"
    );
}

/// Every option of every command is completed, and nothing else.
#[test]
fn bash_completes_what_there_is() {
    let script = Path::new(env!("CARGO_MANIFEST_DIR")).join("completion/jivaszte.bash");
    let completed = |words: &[&str]| -> Vec<String> {
        let line = format!(
            ". {}; COMP_WORDS=({}); COMP_CWORD={}; _jivaszte; printf '%s\\n' \"${{COMPREPLY[@]}}\"",
            script.display(),
            words.join(" "),
            words.len() - 1
        );
        let done = Command::new("bash").args(["-c", &line]).output().unwrap();
        assert_eq!(String::from_utf8(done.stderr).unwrap(), "", "{words:?}");
        String::from_utf8(done.stdout).unwrap().lines().map(String::from).collect()
    };
    assert_eq!(completed(&["jivaszte", "pl"]), ["play", "plot"]);
    assert_eq!(completed(&["jivaszte", "note", "A4", "-n", "''"]), ["1", "2", "3"]);
    for (name, letters, help, _) in jivaszte_cli::commands::COMMANDS {
        assert!(completed(&["jivaszte", name]).contains(&name.to_string()), "{name}");
        let mut options: Vec<String> = jivaszte_cli::options::OPTIONS
            .iter()
            .filter(|(letter, ..)| letters.contains(*letter))
            .map(|(_, long, _)| format!("--{long}"))
            .collect();
        assert!(
            options.iter().all(|option| help.contains(&format!("{option} "))),
            "{name}: {help}"
        );
        options.push("--help".into());
        options.sort();
        let mut found = completed(&["jivaszte", name, "--"]);
        found.sort();
        assert_eq!(found, options, "{name}");
    }
}
