//! The notes of a MIDI file on six strings: which string plays a note, and what each string does when.

use super::channel::{Channel, ALL_NOTES_OFF, ALL_SOUND_OFF};
use super::clock::Clock;
use super::file::{Action, Event, Song, What};
use std::collections::{BTreeMap, BTreeSet};

pub const STRINGS: usize = 6;
/// The channel of drums, which no string plays; it is called 10.
pub const DRUMS: u8 = 9;

/// What a string does.
#[derive(Clone, Copy, Debug, PartialEq)]
pub enum Act {
    /// Half tones of the note, cents beside it, and how hard it is struck, 1 to 127.
    Pluck {
        note: u8,
        cents: f64,
        velocity: u8,
    },
    Bend {
        note: u8,
        cents: f64,
    },
    Release,
}

/// What a string does at a sample, and the tick and track that it comes from.
#[derive(Clone, Copy, Debug, PartialEq)]
pub struct Step {
    pub sample: u64,
    pub tick: u64,
    pub track: usize,
    pub act: Act,
}

/// A note that a string sounds.
#[derive(Clone, Copy)]
struct Sound {
    channel: u8,
    note: u8,
    key_down: bool,
    /// The sample at which it was plucked.
    since: u64,
}

/// Six strings while a song goes by.
pub struct Strings {
    /// The string of each channel, where each has its own.
    own: Option<BTreeMap<u8, usize>>,
    channels: [Channel; 16],
    sounds: [Option<Sound>; STRINGS],
    pub steps: [Vec<Step>; STRINGS],
}

impl Strings {
    /// What the strings do in a song.
    pub fn play(song: &Song, clock: &Clock) -> Strings {
        let mut strings = Strings {
            own: own_strings(song),
            channels: Default::default(),
            sounds: [None; STRINGS],
            steps: Default::default(),
        };
        for event in &song.events {
            if let What::Channel(channel, action) = event.what {
                if channel != DRUMS {
                    strings.act(event, clock.sample(event.tick), channel, action);
                }
            }
        }
        strings
    }

    fn act(&mut self, event: &Event, sample: u64, channel: u8, action: Action) {
        let state = &mut self.channels[usize::from(channel)];
        match action {
            Action::On { note, velocity } => {
                let (cents, string) = (state.cents(), self.string(channel, note));
                let sound = Sound { channel, note, key_down: true, since: sample };
                self.sounds[string] = Some(sound);
                self.step(string, event, sample, Act::Pluck { note, cents, velocity });
            }
            Action::Off { note } => {
                let held = self.sounding(|sound| {
                    sound.channel == channel && sound.note == note && sound.key_down
                });
                self.keys_up(event, sample, &held);
            }
            Action::Bend(bend) => {
                state.bend(bend);
                let cents = state.cents();
                for string in self.sounding(|sound| sound.channel == channel) {
                    let note = self.sounds[string].map_or(0, |sound| sound.note);
                    self.step(string, event, sample, Act::Bend { note, cents });
                }
            }
            Action::Control { number: ALL_SOUND_OFF | ALL_NOTES_OFF, .. } => {
                let held = self.sounding(|sound| sound.channel == channel && sound.key_down);
                self.keys_up(event, sample, &held);
            }
            Action::Control { number, value } => {
                if state.control(number, value) {
                    let held = self.sounding(|sound| sound.channel == channel && !sound.key_down);
                    self.release(event, sample, &held);
                }
            }
        }
    }

    /// The string that plays a note: its channel's own, or the one that sounds this note, or a free one, or
    /// the one that was plucked first.
    fn string(&self, channel: u8, note: u8) -> usize {
        if let Some(own) = self.own.as_ref().and_then(|own| own.get(&channel)) {
            return *own;
        }
        let rank = |string: &usize| match self.sounds[*string] {
            Some(sound) if (sound.channel, sound.note) == (channel, note) => (0, sound.since),
            None => (1, 0),
            Some(sound) => (2, sound.since),
        };
        (0..STRINGS).min_by_key(rank).unwrap_or(0)
    }

    fn sounding(&self, wanted: impl Fn(&Sound) -> bool) -> Vec<usize> {
        (0..STRINGS).filter(|&string| self.sounds[string].as_ref().is_some_and(&wanted)).collect()
    }

    /// Keys are let go; where the pedal is up the strings are damped.
    fn keys_up(&mut self, event: &Event, sample: u64, strings: &[usize]) {
        for &string in strings {
            let Some(sound) = &mut self.sounds[string] else { continue };
            sound.key_down = false;
            if !self.channels[usize::from(sound.channel)].pedal {
                self.release(event, sample, &[string]);
            }
        }
    }

    fn release(&mut self, event: &Event, sample: u64, strings: &[usize]) {
        for &string in strings {
            self.sounds[string] = None;
            self.step(string, event, sample, Act::Release);
        }
    }

    fn step(&mut self, string: usize, event: &Event, sample: u64, act: Act) {
        self.steps[string].push(Step { sample, tick: event.tick, track: event.track, act });
    }
}

/// A string for each channel that has notes, where there are at most six of them and none has two keys down
/// at once.
fn own_strings(song: &Song) -> Option<BTreeMap<u8, usize>> {
    let (mut channels, mut down) = (BTreeMap::new(), BTreeSet::new());
    for event in &song.events {
        match event.what {
            What::Channel(DRUMS, _) => {}
            What::Channel(channel, Action::On { note, .. }) => {
                let next = channels.len();
                channels.entry(channel).or_insert(next);
                if down.iter().any(|&(other, _)| other == channel) {
                    return None;
                }
                down.insert((channel, note));
            }
            What::Channel(channel, Action::Off { note }) => {
                down.remove(&(channel, note));
            }
            _ => {}
        }
    }
    (channels.len() <= STRINGS).then_some(channels)
}
