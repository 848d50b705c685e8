// Random marks.
use crate::field::Field;
use crate::random::Random;
use crate::slow::{Match, Place, Stretch};

// Marks at, beside and between the ends of matches on either side, anywhere else, and again.
pub fn any(random: &mut Random, field: &Field, matches: &[Match], count: usize) -> Vec<Place> {
    let mut marks: Vec<Place> = Vec::new();
    for _ in 0..count {
        let mark = if !marks.is_empty() && random.between(0, 7) == 0 {
            random.one_of(&marks)
        } else if matches.is_empty() || random.between(0, 6) == 0 {
            anywhere(random, field)
        } else {
            let sides = random.one_of(matches).sides;
            let stretch = random.one_of(&sides);
            about(random, field, stretch)
        };
        marks.push(mark);
    }
    marks
}

fn anywhere(random: &mut Random, field: &Field) -> Place {
    let near = field.base + random.between(0, field.span);
    let far = random.any_u32();
    let position = random.one_of(&[near, far]);
    let track = field.any_track(random);
    Place { track, position }
}

// At an end of what a match has of a track, beside it, between both ends, or at an end and on any track.
fn about(random: &mut Random, field: &Field, stretch: Stretch) -> Place {
    let Place {
        mut track,
        position,
    } = random.one_of(&stretch.ends());
    let position = match random.between(0, 5) {
        0 => position.saturating_sub(1),
        1 => position.saturating_add(1),
        2 | 3 => random.between(stretch.left, stretch.right),
        4 => {
            track = field.any_track(random);
            position
        }
        _ => position,
    };
    Place { track, position }
}
