//! Standard MIDI files of format 0 and 1: the events that a string can play, each with its tick and its track.

use super::reader::{Damage, Read, Reader};

/// What the ticks of a file count.
#[derive(Clone, Copy, Debug, PartialEq, Eq)]
pub enum Division {
    /// Parts of a quarter note.
    Quarter(u32),
    /// Parts of a second.
    Second(u32),
}

#[derive(Clone, Copy, Debug, PartialEq, Eq)]
pub enum Action {
    On {
        note: u8,
        velocity: u8,
    },
    Off {
        note: u8,
    },
    Control {
        number: u8,
        value: u8,
    },
    /// −8,192 to 8,191.
    Bend(i16),
}

#[derive(Clone, Copy, Debug, PartialEq, Eq)]
pub enum What {
    /// A channel, 0 to 15, and what is done on it.
    Channel(u8, Action),
    /// Microseconds of a quarter note.
    Tempo(u32),
    /// Beats of a bar, and the note that is one: 2 for a quarter, 3 for an eighth.
    Meter {
        beats: u8,
        unit: u8,
    },
    End,
}

/// An event; tracks count from 1.
#[derive(Clone, Copy, Debug, PartialEq, Eq)]
pub struct Event {
    pub tick: u64,
    pub track: usize,
    pub what: What,
}

/// The events of all tracks by their ticks; at one tick those of the first track come first.
#[derive(Clone, Debug, PartialEq, Eq)]
pub struct Song {
    pub division: Division,
    pub events: Vec<Event>,
}

/// A file has at most so many events.
const MOST_EVENTS: usize = 1_000_000;

const SYSTEM: u8 = 0xF0;
const META: u8 = 0xFF;

impl Song {
    pub fn read(bytes: &[u8]) -> Read<Song> {
        let mut file = Reader::new(bytes);
        if file.bytes(4)? != b"MThd" {
            return Err(Damage { byte: 0, words: "this is no MIDI file" });
        }
        let division = header(&mut file)?;
        let (mut events, mut track) = (Vec::new(), 0);
        while !file.is_empty() {
            let name = file.bytes(4)?;
            let size = file.number(4)?;
            let chunk = file.part(size as usize)?;
            if name == b"MTrk" {
                track += 1;
                read_track(chunk, track, &mut events)?;
            }
        }
        events.sort_by_key(|event: &Event| event.tick);
        Ok(Song { division, events })
    }
}

/// The header after its name: its size, the format, how many tracks there are, and what a tick is.
fn header(file: &mut Reader) -> Read<Division> {
    let size = file.number(4)?;
    let mut chunk = file.part(size as usize)?;
    let start = chunk;
    let format = chunk.number(2)?;
    chunk.number(2)?;
    let place = chunk;
    let division = chunk.number(2)?;
    if format > 1 {
        return Err(start.damage("the format is not 0 or 1"));
    }
    let (frames, ticks) = (256 - (division >> 8), division & 0xFF);
    match division {
        0 => Err(place.damage("a quarter note has no ticks")),
        ..0x8000 => Ok(Division::Quarter(division)),
        _ if ticks == 0 => Err(place.damage("a second has no ticks")),
        // 29 stands for 29.97 frames a second, which is within 0.1 % of 30.
        _ if frames == 29 => Ok(Division::Second(30 * ticks)),
        _ => Ok(Division::Second(frames * ticks)),
    }
}

fn read_track(mut chunk: Reader, track: usize, events: &mut Vec<Event>) -> Read<()> {
    let (mut tick, mut running) = (0, None);
    while !chunk.is_empty() {
        tick += u64::from(chunk.variable()?);
        let what = read_event(&mut chunk, &mut running)?;
        events.extend(what.map(|what| Event { tick, track, what }));
        if events.len() > MOST_EVENTS {
            return Err(chunk.damage("the file has more than 1,000,000 events"));
        }
        if what == Some(What::End) {
            break;
        }
    }
    Ok(())
}

/// One event, or none where no string plays it. A status that is left out is the one before it.
fn read_event(chunk: &mut Reader, running: &mut Option<u8>) -> Read<Option<What>> {
    let status = match chunk.peek() {
        Some(0x80..) => chunk.byte()?,
        _ => running.ok_or_else(|| chunk.damage("an event has no status"))?,
    };
    match status {
        META => meta(chunk),
        SYSTEM | 0xF7 => {
            let size = chunk.variable()?;
            chunk.bytes(size as usize)?;
            *running = None;
            Ok(None)
        }
        SYSTEM.. => Err(chunk.damage("a message of the system stands in a file")),
        _ => {
            *running = Some(status);
            channel(chunk, status)
        }
    }
}

fn channel(chunk: &mut Reader, status: u8) -> Read<Option<What>> {
    let first = chunk.data()?;
    let action = match status >> 4 {
        0x8 => {
            chunk.data()?;
            Some(Action::Off { note: first })
        }
        0x9 => match chunk.data()? {
            0 => Some(Action::Off { note: first }),
            velocity => Some(Action::On { note: first, velocity }),
        },
        0xB => Some(Action::Control { number: first, value: chunk.data()? }),
        0xE => Some(Action::Bend((i16::from(chunk.data()?) << 7 | i16::from(first)) - 8_192)),
        0xA => {
            chunk.data()?;
            None
        }
        // A program, or the pressure on a whole channel: one byte.
        _ => None,
    };
    Ok(action.map(|action| What::Channel(status & 0x0F, action)))
}

fn meta(chunk: &mut Reader) -> Read<Option<What>> {
    let kind = chunk.byte()?;
    let size = chunk.variable()?;
    let mut body = chunk.part(size as usize)?;
    Ok(match kind {
        0x2F => Some(What::End),
        0x51 => match body.number(3)? {
            0 => return Err(body.damage("a quarter note lasts no time")),
            tempo => Some(What::Tempo(tempo)),
        },
        0x58 => {
            let (beats, unit) = (body.byte()?, body.byte()?);
            (beats > 0 && unit < 8).then_some(What::Meter { beats, unit })
        }
        _ => None,
    })
}
