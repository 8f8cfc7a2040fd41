//! The paths once more, from the sensed speed alone: a height is the area under the speed, a sum of
//! trapezoids. It holds the formulas of the paths, and the letters they are written in, against the
//! plain numbers.

use crate::exact::Ratio;
use crate::independent::Question;

fn sensed(q: &Question, speed: i64) -> Ratio {
    let upwards = i128::from(speed) - i128::from(q.vi);
    Ratio::whole(if q.sense == 1 { upwards } else { -upwards })
}

/// The area under a speed that changes evenly from `from` to `to` over a time.
fn trapezoid(from: Ratio, to: Ratio, time: Ratio) -> Ratio {
    ((from + to) * time).over(2)
}

/// The area after s, from a speed not above the target, gaining `rate` each second up to it.
fn gaining(speed: Ratio, target: Ratio, rate: i64, s: Ratio) -> Ratio {
    let rate = i128::from(rate);
    let reached = (target - speed).over(rate);
    if s <= reached {
        trapezoid(speed, speed + rate * s, s)
    } else {
        trapezoid(speed, target, reached) + target * (s - reached)
    }
}

/// The sensed height of the lower path at t.
pub fn lower_height(q: &Question, t: Ratio) -> Ratio {
    let e = i128::from(q.e);
    let d = Ratio::whole(i128::from(q.delay));
    let speed = sensed(q, q.v);
    let target = sensed(q, q.target);
    let before = t.min(d);
    let during = trapezoid(speed, speed - e * before, before);
    if t <= d {
        return during;
    }
    // Above the target the speed drops to it at once.
    let at_delay = (speed - e * d).min(target);
    during + gaining(at_delay, target, q.strength, t - d)
}

/// The instant from which the lower path has the target's speed.
pub fn target_reached(q: &Question) -> Ratio {
    let d = Ratio::whole(i128::from(q.delay));
    let target = sensed(q, q.target);
    let at_delay = sensed(q, q.v) - i128::from(q.e) * d;
    d + (target - at_delay.min(target)).over(i128::from(q.strength))
}

/// The sensed height of the upper path at t.
pub fn upper_height(q: &Question, t: Ratio) -> Ratio {
    let e = i128::from(q.e);
    let d = Ratio::whole(i128::from(q.delay));
    let speed = sensed(q, q.v);
    let before = t.min(d);
    let during = trapezoid(speed, speed + e * before, before);
    if t <= d {
        return during;
    }
    let at_delay = speed + e * d;
    let target = at_delay.max(sensed(q, q.upper_target));
    during + gaining(at_delay, target, q.upper_strength, t - d)
}

/// The instant from which the upper path has the target's speed. A speed above the target is kept.
pub fn upper_target_reached(q: &Question) -> Ratio {
    let d = Ratio::whole(i128::from(q.delay));
    let at_delay = sensed(q, q.v) + i128::from(q.e) * d;
    let target = at_delay.max(sensed(q, q.upper_target));
    d + (target - at_delay).over(i128::from(q.upper_strength))
}
