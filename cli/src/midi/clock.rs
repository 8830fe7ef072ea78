//! The time of a MIDI file: the sample of a tick by its tempos, and bar and beat by its meters.

use super::file::{Division, Song, What};

/// Microseconds of a quarter note where no tempo is set: 120 a minute.
const TEMPO: u32 = 500_000;
/// Beats of a bar and the note that is one where no meter is set: four quarters.
const METER: (u8, u8) = (4, 2);

/// From a tick on: the time that has gone by, in microseconds times ticks of a quarter, and the tempo.
struct Pace {
    tick: u64,
    gone: u128,
    tempo: u32,
}

/// From a tick on: the bars that have gone by, and the meter.
struct Bars {
    tick: u64,
    gone: u64,
    meter: (u8, u8),
}

pub struct Clock {
    division: Division,
    rate: u32,
    paces: Vec<Pace>,
    bars: Vec<Bars>,
}

impl Clock {
    pub fn new(song: &Song, rate: u32) -> Clock {
        let mut clock = Clock {
            division: song.division,
            rate,
            paces: vec![Pace { tick: 0, gone: 0, tempo: TEMPO }],
            bars: vec![Bars { tick: 0, gone: 0, meter: METER }],
        };
        for event in &song.events {
            match event.what {
                What::Tempo(tempo) => {
                    let gone = clock.gone(event.tick);
                    clock.paces.push(Pace { tick: event.tick, gone, tempo });
                }
                What::Meter { beats, unit } => {
                    let (bar, beat) = clock.bar(event.tick);
                    let gone = bar - 1 + u64::from(beat > 1);
                    clock.bars.push(Bars { tick: event.tick, gone, meter: (beats, unit) });
                }
                _ => {}
            }
        }
        clock
    }

    /// What has gone by at a tick, in microseconds times ticks of a quarter.
    fn gone(&self, tick: u64) -> u128 {
        let next = self.paces.partition_point(|pace| pace.tick <= tick);
        let pace = &self.paces[next - 1];
        pace.gone + u128::from(tick - pace.tick) * u128::from(pace.tempo)
    }

    /// The sample of a tick, the nearest, a half upward.
    pub fn sample(&self, tick: u64) -> u64 {
        let rate = u128::from(self.rate);
        let (over, under) = match self.division {
            Division::Quarter(ticks) => (self.gone(tick) * rate, 1_000_000 * u128::from(ticks)),
            Division::Second(ticks) => (u128::from(tick) * rate, u128::from(ticks)),
        };
        u64::try_from((2 * over + under) / (2 * under)).unwrap_or(u64::MAX)
    }

    /// The bar and the beat of a tick, both counted from 1.
    pub fn bar(&self, tick: u64) -> (u64, u64) {
        let next = self.bars.partition_point(|bars| bars.tick <= tick);
        let bars = &self.bars[next - 1];
        let (beats, unit) = (u64::from(bars.meter.0), bars.meter.1);
        let quarter = match self.division {
            Division::Quarter(ticks) => u64::from(ticks),
            Division::Second(ticks) => u64::from(ticks) * u64::from(TEMPO) / 1_000_000,
        };
        let beat = ((4 * quarter) >> unit).max(1);
        let since = (tick - bars.tick) / beat;
        (bars.gone + since / beats + 1, since % beats + 1)
    }
}

#[cfg(test)]
mod tests {
    use super::*;
    use crate::midi::file::Event;

    fn clock(division: Division, events: &[(u64, What)]) -> Clock {
        let event = |&(tick, what): &(u64, What)| Event { tick, track: 1, what };
        Clock::new(&Song { division, events: events.iter().map(event).collect() }, 48_000)
    }

    #[test]
    fn tempos_add_up() {
        let steady = clock(Division::Quarter(480), &[]);
        assert_eq!([0, 1, 480, 960].map(|tick| steady.sample(tick)), [0, 50, 24_000, 48_000]);
        let slower = [(480, What::Tempo(1_000_000)), (960, What::Tempo(250_000))];
        let changing = clock(Division::Quarter(480), &slower);
        assert_eq!([480, 960, 1_440].map(|tick| changing.sample(tick)), [24_000, 72_000, 84_000]);
        let film = clock(Division::Second(2_500), &slower);
        assert_eq!(film.sample(2_500), 48_000);
    }

    #[test]
    fn bars_and_beats() {
        let waltz = [
            (1_920, What::Meter { beats: 3, unit: 2 }),
            (3_360, What::Meter { beats: 6, unit: 3 }),
        ];
        let clock = clock(Division::Quarter(480), &waltz);
        let bars = [0, 480, 1_919, 1_920, 2_880, 3_360, 3_600, 4_800].map(|tick| clock.bar(tick));
        assert_eq!(bars, [(1, 1), (1, 2), (1, 4), (2, 1), (2, 3), (3, 1), (3, 2), (4, 1)]);
    }
}
