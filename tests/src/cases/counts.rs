//! Inputs for tallies; rectangles and screens also for pond readings.

use crate::compare::Comparison;
use crate::generate::{any_resolution, area_length, number_around, screen, size_of, RESOLUTIONS};
use crate::random::Random;
use crate::reference::{whole_screen, SCREEN_BYTES};
use kutimuq::ffi::Rectangle;

/// Starts and sizes at and around a limit, whose sums reach past the type's end.
fn edges(limit: usize) -> Vec<(usize, usize)> {
    let mut edges = Vec::new();
    let numbers = [0, 1, limit - 1, limit, limit + 1, usize::MAX - limit + 1, usize::MAX];
    for start in numbers {
        for size in numbers {
            edges.push((start, size));
        }
    }
    edges
}

/// Each edge across with a safe one down, each edge down with a safe one across.
pub fn edge_rectangles(resolution: u16) -> Vec<Rectangle> {
    let (width, height) = size_of(resolution);
    let mut areas = Vec::new();
    for (left, columns) in edges(width) {
        for (top, lines) in [(0, 1), (height - 1, 1), (height, 0), (0, 0), (height, 1)] {
            areas.push(Rectangle { left, top, columns, lines });
        }
    }
    for (top, lines) in edges(height) {
        for (left, columns) in [(0, 1), (width - 1, 1), (width, 0), (0, 0), (width, 1)] {
            areas.push(Rectangle { left, top, columns, lines });
        }
    }
    areas
}

/// A rectangle on the screen, mostly small.
fn rectangle_within(random: &mut Random, resolution: u16) -> Rectangle {
    let (width, height) = size_of(resolution);
    let left = random.below(width + 1);
    let top = random.below(height + 1);
    let (columns, lines) = if random.once_in(20) {
        (random.between(0, width - left), random.between(0, height - top))
    } else {
        (random.below(50).min(width - left), random.below(30).min(height - top))
    };
    Rectangle { left, top, columns, lines }
}

/// A rectangle with one number that may be far off.
pub fn any_rectangle(random: &mut Random, resolution: u16) -> Rectangle {
    let mut area = rectangle_within(random, resolution);
    if random.once_in(5) {
        let (width, height) = size_of(resolution);
        match random.below(4) {
            0 => area.left = number_around(random, width),
            1 => area.top = number_around(random, height),
            2 => area.columns = number_around(random, width),
            _ => area.lines = number_around(random, height),
        }
    }
    area
}

/// A few screens of each style, cut out of which the lent screens come.
pub fn screens(random: &mut Random) -> Vec<Vec<u8>> {
    let mut screens = Vec::new();
    for resolution in RESOLUTIONS {
        for _ in 0..8 {
            let mut bytes = screen(random, resolution);
            bytes.extend(random.bytes(200));
            screens.push(bytes);
        }
    }
    screens
}

pub fn lent_screen<'a>(random: &mut Random, screens: &'a [Vec<u8>]) -> &'a [u8] {
    let length = area_length(random, SCREEN_BYTES);
    &screens[random.below(screens.len())][..length]
}

pub fn tally(comparison: &mut Comparison, random: &mut Random) {
    let screens = screens(random);
    comparison.section("tally: edges");
    for resolution in [0, 1, 2, 3, 65_535] {
        for area in edge_rectangles(resolution) {
            comparison.tally(&screens[0][..SCREEN_BYTES], resolution, area);
        }
    }
    comparison.section("tally: whole screens");
    for screen in &screens {
        for resolution in RESOLUTIONS {
            comparison.tally(screen, resolution, whole_screen(resolution));
        }
    }
    comparison.section("tally: single pixels");
    for _ in 0..6_000 {
        let resolution = random.pick(&RESOLUTIONS);
        let (width, height) = size_of(resolution);
        let (left, top) = (random.below(width), random.below(height));
        let pixel = Rectangle { left, top, columns: 1, lines: 1 };
        comparison.tally(lent_screen(random, &screens), resolution, pixel);
    }
    comparison.section("tally: random");
    for _ in 0..10_000 {
        let resolution = any_resolution(random);
        let area = any_rectangle(random, resolution);
        comparison.tally(lent_screen(random, &screens), resolution, area);
    }
}
