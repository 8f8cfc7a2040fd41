//! Figures 3 and 5 of the article, case by case and bound by bound as printed: a third opinion on
//! one-sided questions without a limit. Speeds are relative to the intruder's, as in the figures.

use crate::exact::Ratio;
use crate::independent::{NO_LIMIT, Question};

/// What the figures keep fixed: r_v, r_p, h_p, a_lo, w.
#[derive(Clone, Copy)]
struct Fixed {
    rv: Ratio,
    rp: Ratio,
    hp: Ratio,
    a_lo: Ratio,
    w: Ratio,
}

fn quotient(x: Ratio, y: Ratio) -> Ratio {
    Ratio::new(x.num * y.den, x.den * y.num)
}

fn half(x: Ratio) -> Ratio {
    x.over(2)
}

fn square(x: Ratio) -> Ratio {
    x * x
}

fn implies(x: bool, y: bool) -> bool {
    !x || y
}

const ZERO: Ratio = Ratio::ZERO;

/// Figure 3's explicit formulation, L_expl.
fn l_expl(fixed: Fixed, r: Ratio, h: Ratio, v: Ratio, v_lo: Ratio) -> bool {
    l_failing(fixed, r, h, v, v_lo).is_none()
}

/// The first case of L_expl whose bound does not hold.
fn l_failing(fixed: Fixed, r: Ratio, h: Ratio, v: Ratio, v_lo: Ratio) -> Option<u8> {
    let Fixed {
        rv,
        rp,
        hp,
        a_lo,
        w,
    } = fixed;
    // r_v min(0, wv) / a_lo and r_v max(0, w(v_lo − v)) / a_lo
    let falling = quotient(rv * ZERO.min(w * v), a_lo);
    let missing = ZERO.max(w * (v_lo - v));
    let gaining = quotient(rv * missing, a_lo);

    let case1 = -rp <= r && r < -rp - falling;
    let case2 = -rp - falling <= r && r <= rp - falling;
    let case3 = rp - falling < r && r <= rp + gaining;
    let case4 = rp + gaining < r;
    let case5 = -rp <= r && r < -rp + gaining;
    let case6 = -rp + gaining <= r;

    let bound1 =
        w * square(rv) * h < half(a_lo) * square(r + rp) + w * rv * v * (r + rp) - square(rv) * hp;
    let bound2 = w * h < -quotient(square(ZERO.min(w * v)), 2 * a_lo) - hp;
    let bound3 =
        w * square(rv) * h < half(a_lo) * square(r - rp) + w * rv * v * (r - rp) - square(rv) * hp;
    let bound4 = rv == ZERO
        || w * rv * h < w * v_lo * (r - rp) - quotient(rv * square(missing), 2 * a_lo) - rv * hp;
    let bound5 = bound1;
    let bound6 = (rv == ZERO && r > rp)
        || w * rv * h < w * v_lo * (r + rp) - quotient(rv * square(missing), 2 * a_lo) - rv * hp;

    let at_least_level = [
        (1, case1, bound1),
        (2, case2, bound2),
        (3, case3, bound3),
        (4, case4, bound4),
    ];
    let below_level = [(5, case5, bound5), (6, case6, bound6)];
    let joined = if w * v_lo >= ZERO {
        &at_least_level[..]
    } else {
        &below_level[..]
    };
    let failing = joined
        .iter()
        .find(|(_, case, bound)| !implies(*case, *bound));
    failing.map(|(number, ..)| *number)
}

/// Figure 5's explicit formulation, D_expl.
fn d_expl(
    fixed: Fixed,
    a_delay: Ratio,
    d: Ratio,
    r: Ratio,
    h: Ratio,
    v: Ratio,
    v_lo: Ratio,
) -> bool {
    let Fixed { rv, rp, hp, w, .. } = fixed;
    let d = ZERO.max(d);
    let rd = rv * d;
    let vd = v - w * a_delay * d;
    let hd = -half(w * a_delay) * square(d) + v * d;

    let case7 = -rp <= r && r <= rp;
    let bound7 = w * h < -hp;
    let case8 = rp < r && r <= rd + rp;
    let bound8 = w * square(rv) * h
        < -half(a_delay) * square(r - rp) + w * rv * v * (r - rp) - square(rv) * hp;
    let case9 = -rp <= r && r < rd - rp;
    let bound9 = w * square(rv) * h
        < -half(a_delay) * square(r + rp) + w * rv * v * (r + rp) - square(rv) * hp;

    implies(case7, bound7)
        && implies(case8, bound8)
        && implies(case9, bound9)
        && l_expl(fixed, r - rd, h - hd, vd, v_lo)
}

fn parts(q: &Question) -> (Fixed, [Ratio; 6]) {
    let n = |x: i64| Ratio::whole(i128::from(x));
    let fixed = Fixed {
        rv: n(q.c),
        rp: n(q.p),
        hp: n(q.k),
        a_lo: n(q.strength),
        w: n(if q.sense == 1 { 1 } else { -1 }),
    };
    let values = [
        n(q.e),
        n(q.delay),
        n(q.r),
        n(q.h),
        n(q.v - q.vi),
        n(q.target - q.vi),
    ];
    (fixed, values)
}

/// Whether Figure 5 calls an accepted question safe; none where the figure does not apply.
pub fn figure5_safe(q: &Question) -> Option<bool> {
    if q.sides != 1 || q.limit != NO_LIMIT {
        return None;
    }
    let (fixed, [e, d, r, h, v, v_lo]) = parts(q);
    Some(d_expl(fixed, e, d, r, h, v, v_lo))
}

/// Whether Figure 3 calls an accepted question safe; none where the figure does not apply.
pub fn figure3_safe(q: &Question) -> Option<bool> {
    figure3_failing(q).map(|failing| failing.is_none())
}

/// The first case of Figure 3 whose bound an accepted question misses; none where the figure does
/// not apply.
pub fn figure3_failing(q: &Question) -> Option<Option<u8>> {
    if q.sides != 1 || q.limit != NO_LIMIT || q.delay != 0 {
        return None;
    }
    let (fixed, [_, _, r, h, v, v_lo]) = parts(q);
    Some(l_failing(fixed, r, h, v, v_lo))
}
