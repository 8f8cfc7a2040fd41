//! The catalogue and the reaction table of document 01.

/// The target that the catalogue gives a code.
#[derive(Clone, Copy, Debug, PartialEq, Eq)]
pub enum Target {
    Speed(i64),
    /// v of the current encounter.
    Current,
}

/// One code of the catalogue with its row of the reaction table.
#[derive(Clone, Copy, Debug, PartialEq, Eq)]
pub struct Advice {
    pub code: u8,
    pub name: &'static str,
    /// 0 descend, 1 climb.
    pub sense: i64,
    pub target: Target,
    pub strength: i64,
    pub delay: i64,
}

const fn row(code: u8, name: &'static str, target: Target) -> Advice {
    let strengthened = code >= 13;
    Advice {
        code,
        name,
        sense: if code.is_multiple_of(2) { 1 } else { 0 },
        target,
        strength: if strengthened { 644 } else { 483 },
        delay: if strengthened { 3 } else { 5 },
    }
}

pub const CATALOGUE: [Advice; 16] = [
    row(1, "DNC2000", Target::Speed(2_000)),
    row(2, "DND2000", Target::Speed(-2_000)),
    row(3, "DNC1000", Target::Speed(1_000)),
    row(4, "DND1000", Target::Speed(-1_000)),
    row(5, "DNC500", Target::Speed(500)),
    row(6, "DND500", Target::Speed(-500)),
    row(7, "DNC", Target::Speed(0)),
    row(8, "DND", Target::Speed(0)),
    row(9, "MDES", Target::Current),
    row(10, "MCL", Target::Current),
    row(11, "DES1500", Target::Speed(-1_500)),
    row(12, "CL1500", Target::Speed(1_500)),
    row(13, "SDES1500", Target::Speed(-1_500)),
    row(14, "SCL1500", Target::Speed(1_500)),
    row(15, "SDES2500", Target::Speed(-2_500)),
    row(16, "SCL2500", Target::Speed(2_500)),
];

impl Advice {
    /// "Maintain" is told where the target is the current v. It is not told against the way that the
    /// ownship of speed v is going: document 02's 17. Level flight goes neither way.
    pub fn against(&self, v: i64) -> bool {
        let other_way = if self.sense == 1 { v < 0 } else { 0 < v };
        self.target == Target::Current && other_way
    }
}

/// The codes that are named but not judged.
pub const NAMED_ONLY: [(u8, &str); 2] = [(17, "COC"), (18, "MTLO")];

/// The advice of a code, or the refusal: 8 outside 1 to 18, 9 for 17 and 18.
pub fn look_up(code: u8) -> Result<Advice, u8> {
    if let Some(advice) = CATALOGUE.iter().find(|advice| advice.code == code) {
        Ok(*advice)
    } else if NAMED_ONLY.iter().any(|(named, _)| *named == code) {
        Err(9)
    } else {
        Err(8)
    }
}

/// What a code asks: its advice, and the target as a number; or the refusal, 8, 9 or 17.
pub type Coded = Result<(Advice, i64), u8>;

/// What a code, any number, asks an ownship of speed v.
pub fn asked(code: u64, v: i64) -> Coded {
    // A byte holds no greater code, and no table lists one.
    let advice = look_up(code.try_into().map_err(|_| 8)?)?;
    if advice.against(v) {
        return Err(17);
    }
    let target = match advice.target {
        Target::Speed(speed) => speed,
        Target::Current => v,
    };
    Ok((advice, target))
}
