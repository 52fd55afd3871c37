//! Tags for tables: such that choices coincide and collide often, or just any.

use crate::addresses::Size;
use crate::random::Random;

/// How the tags of a table are drawn.
#[derive(Clone, Copy)]
pub enum Style {
    Any,
    /// Each choice the next bucket after the one before, or the next but one, so that paths are long.
    Neighbours,
    /// Steps that are 0 or lead back to the same bucket or subtable.
    Coinciding,
    /// Few buckets that all want.
    Crowded,
}

impl Style {
    /// A style that suits a family: the patterns are lost on FNV-1a.
    pub fn draw(random: &mut Random, family: u64) -> Style {
        match family {
            1 => random.pick(&[Style::Any, Style::Any, Style::Crowded]),
            _ => random.pick(&[Style::Any, Style::Neighbours, Style::Neighbours, Style::Coinciding, Style::Crowded]),
        }
    }

    pub fn tag(self, random: &mut Random, size: Size) -> u64 {
        let (subtables, buckets) = (size.subtables(), 1 << size.x);
        let (p, q) = match self {
            Style::Any => return if random.chance(20) { random.below(1 << 34) } else { random.word() },
            Style::Neighbours => {
                let step = match random.below(12) {
                    0 => 0,
                    1 | 2 => half(size, 0, 2),
                    3 => half(size, 1, 1),
                    4..=6 => half(size, 1, 0),
                    _ => half(size, 0, 1),
                };
                (half(size, random.below(subtables), random.below(buckets)), step)
            }
            Style::Coinciding => {
                let step = match random.below(6) {
                    0 | 1 => 0,
                    2 => half(size, 0, buckets),
                    3 => half(size, 0, buckets / 2),
                    4 => half(size, subtables / 2, 0),
                    _ => half(size, random.below(subtables), random.below(buckets)),
                };
                (half(size, random.below(subtables), random.below(buckets)), step)
            }
            Style::Crowded => {
                let (few, some) = (1 + subtables / 2, 1 + buckets / 2);
                let step = half(size, random.below(2), random.below(2));
                (half(size, random.below(few), random.below(some)), step)
            }
        };
        // bits between the bucket number and the subtable tell tags apart whose choices are the same
        let apart = random.below(64) << 14;
        (p + apart) << 32 | q
    }
}

/// Half a word that names this subtable and this bucket number.
fn half(size: Size, subtable: u64, bucket: u64) -> u64 {
    let top = if size.t == 0 { 0 } else { subtable << (32 - size.t) };
    top + bucket
}
