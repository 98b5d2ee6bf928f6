//! Message 2, run after run: t points r, then t multipliers ε.

use crate::numbers::{require, Number, POINT_REPEATED};
use crate::points_field::{points_from_bytes, Point};

/// The points and multipliers of a run.
#[derive(Clone, Debug, PartialEq, Eq)]
pub struct Challenge {
    /// The points r, one a position.
    pub points: Vec<Point>,
    /// The multipliers ε, one a position.
    pub multipliers: Vec<Point>,
}

impl Challenge {
    /// The challenge that a run's part of message 2 holds.
    pub fn from_bytes(bytes: &[u8]) -> Challenge {
        let mut points = points_from_bytes(bytes);
        let multipliers = points.split_off(points.len() / 2);
        Challenge { points, multipliers }
    }

    /// Refuses with 14 if two points are equal as four bytes. Multipliers may repeat and may equal points.
    pub fn check_points(&self) -> Result<(), Number> {
        let earlier = |place: usize| &self.points[..place];
        let distinct = self.points.iter().enumerate().all(|(place, point)| !earlier(place).contains(point));
        require(distinct, POINT_REPEATED)
    }
}
