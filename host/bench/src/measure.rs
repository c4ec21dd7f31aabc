//! How the times are taken.

use crate::card::{Image, DATA_BYTES, P, SPARE_BYTES};
use crate::command::{by_proved, by_second, Command, Doer, Done};
use std::hint::black_box;
use std::time::{Duration, Instant};

/// All that stand in one row are timed in turn for this long, and so often at least.
const LONG_ENOUGH: Duration = Duration::from_millis(400);
const OFTEN_ENOUGH: usize = 10;
/// What takes less than a clock can tell is timed so many times over.
const AT_ONCE: u32 = 100;
/// The microseconds beside which a look at the clock is nothing.
const MOMENT: f64 = 20.0;

/// Least times in microseconds.
pub struct Times {
    pub proved: f64,
    pub second: f64,
    pub floor: f64,
}

/// The least times of commands on an image.
pub fn least(image: &Image, commands: &[Command]) -> Times {
    let done = do_both(image, commands);
    let mut times = Times { proved: f64::MAX, second: f64::MAX, floor: f64::MAX };
    let mut copy = image.clone();
    rounds(|| {
        times.proved = times.proved.min(time(by_proved, image, &mut copy, commands));
        times.second = times.second.min(time(by_second, image, &mut copy, commands));
        times.floor = times.floor.min(time_of_moving(done, &mut copy));
    });
    times
}

/// Something to be timed.
pub type Deed<'a> = &'a dyn Fn(&mut Image);

/// The least time of each deed on one image, which none of them changes.
pub fn in_turn<const N: usize>(image: &Image, deeds: [Deed; N]) -> [f64; N] {
    let mut copy = image.clone();
    let at_once = deeds.map(|deed| times_at_once(deed, &mut copy));
    let mut least = [f64::MAX; N];
    rounds(|| {
        for ((least, deed), times) in least.iter_mut().zip(deeds).zip(at_once) {
            *least = least.min(time_of(deed, times, &mut copy));
        }
    });
    assert!(copy == *image, "what is timed in turn changes nothing");
    least
}

fn rounds(mut round: impl FnMut()) {
    let started = Instant::now();
    let mut rounds = 0;
    while rounds < OFTEN_ENOUGH || started.elapsed() < LONG_ENOUGH {
        round();
        rounds += 1;
    }
}

/// How many times over a deed is timed, so that it takes a moment.
fn times_at_once(deed: Deed, image: &mut Image) -> u32 {
    let once = (0..OFTEN_ENOUGH).map(|_| time_of(deed, 1, image)).fold(f64::MAX, f64::min);
    (MOMENT / once).ceil().min(AT_ONCE.into()) as u32
}

/// The time of a deed that is done so many times over.
fn time_of(deed: Deed, times: u32, image: &mut Image) -> f64 {
    let started = Instant::now();
    for _ in 0..times {
        deed(black_box(&mut *image));
    }
    microseconds(started) / f64::from(times)
}

/// Does the commands with both, and sees to it that they do the same.
fn do_both(image: &Image, commands: &[Command]) -> Done {
    let (mut one, mut other) = (image.clone(), image.clone());
    let proved = commands.iter().map(|command| by_proved(command, &mut one));
    let proved = proved.fold(Done::default(), |sum, done| sum + done);
    let second = commands.iter().map(|command| by_second(command, &mut other));
    let second = second.fold(Done::default(), |sum, done| sum + done);
    assert!(one == other && proved == second, "the two differ: run compare");
    proved
}

/// The time of commands on a fresh copy of an image; making the copy is not timed.
fn time(doer: Doer, image: &Image, copy: &mut Image, commands: &[Command]) -> f64 {
    copy.data.copy_from_slice(&image.data);
    copy.spare.copy_from_slice(&image.spare);
    let started = Instant::now();
    for command in commands {
        black_box(doer(command, copy));
    }
    microseconds(started)
}

/// The time of moving the bytes that were moved, and of nothing else.
fn time_of_moving(done: Done, image: &mut Image) -> f64 {
    let blocks = image.data.len() / (P * DATA_BYTES);
    let times = if done.programs > P { 1 } else { AT_ONCE };
    let mut page = [7; DATA_BYTES];
    let spare = [7; SPARE_BYTES];
    let started = Instant::now();
    for _ in 0..times {
        for program in 0..done.programs {
            let at = program % (blocks * P);
            part(&mut image.data, at, DATA_BYTES).copy_from_slice(black_box(&page));
            part(&mut image.spare, at, SPARE_BYTES).copy_from_slice(black_box(&spare));
        }
        for erase in 0..done.erases {
            part(&mut image.data, erase % blocks, P * DATA_BYTES).fill(black_box(255));
            part(&mut image.spare, erase % blocks, P * SPARE_BYTES).fill(black_box(255));
        }
        for read in 0..done.pages_read {
            page.copy_from_slice(part(&mut image.data, read, DATA_BYTES));
            black_box(&page);
        }
        black_box(&mut *image);
    }
    microseconds(started) / f64::from(times)
}

/// The least time of looking at every byte.
pub fn look_at(bytes: &[u8]) -> f64 {
    let times = (0..1000).map(|_| {
        let started = Instant::now();
        black_box(look(black_box(bytes)));
        microseconds(started)
    });
    times.fold(f64::MAX, f64::min)
}

/// 255 if all bytes are, without stopping at the first that is not.
pub fn look(bytes: &[u8]) -> u8 {
    let all = |bytes: &[u8]| bytes.iter().fold(255, |all, byte| all & byte);
    let (parts, rest) = bytes.as_chunks::<DATA_BYTES>();
    parts.iter().fold(all(rest), |so_far, part| so_far & all(part))
}

fn microseconds(since: Instant) -> f64 {
    since.elapsed().as_secs_f64() * 1e6
}

fn part(image: &mut [u8], index: usize, bytes: usize) -> &mut [u8] {
    &mut image[index * bytes..(index + 1) * bytes]
}
