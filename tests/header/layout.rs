//! Prints what layout.c prints, from the structs of the Rust crate. A field that is left out here is an
//! error of the compiler.

#[allow(dead_code)]
#[path = "../../bindings/rust/src/boundary.rs"]
mod boundary;

use boundary::{Case, Choice, Curve, Plan, Reading, Verdict, Written};
use std::mem::{offset_of, size_of, size_of_val};

/// The sign of a field, as layout.c prints it.
trait Sign {
    const SIGN: &'static str;
}

macro_rules! signs {
    ($($kind:ty: $sign:literal)*) => { $(impl Sign for $kind { const SIGN: &'static str = $sign; })* };
}

signs! {
    u8: ", unsigned" u16: ", unsigned" u32: ", unsigned" usize: ", unsigned" i32: ", signed" i64: ", signed"
    f64: ", float" Case: ""
}

impl<N: Sign, const COUNT: usize> Sign for [N; COUNT] {
    const SIGN: &'static str = N::SIGN;
}

/// The sign of the field that a reference leads to.
fn sign<N: Sign>(_: &N) -> &'static str {
    N::SIGN
}

/// Prints the size of a struct and the offset, size and sign of each of its fields.
macro_rules! layout {
    ($name:literal, $kind:ident, $value:expr, $($field:ident)*) => {
        let $kind { $($field),* } = $value;
        println!("{}: size {}", $name, size_of::<$kind>());
        $(
            let (offset, size) = (offset_of!($kind, $field), size_of_val(&$field));
            println!("{}.{}: offset {offset}, size {size}{}", $name, stringify!($field), sign(&$field));
        )*
    };
}

fn main() {
    println!("LAYOUT {}", boundary::LAYOUT);
    println!("STAGES {}", boundary::STAGES);
    println!("HOURS {}", boundary::HOURS);
    println!("SHORT_TIME {}", boundary::SHORT_TIME);
    println!("WORK {}", boundary::WORK);
    println!("WORK_MOST {}", boundary::WORK_MOST);
    println!("FILE_MOST {}", boundary::FILE_MOST);
    println!("PRICE_LEAST {}", boundary::PRICE_LEAST);
    println!("PRICE_MOST {}", boundary::PRICE_MOST);
    println!("YEAR_HOURS {}", boundary::YEAR_HOURS);
    println!("DAY_LEAST {}", boundary::DAY_LEAST);
    println!("DAY_MOST {}", boundary::DAY_MOST);
    println!("COSTS {}", boundary::COSTS);
    println!("FLAT {}", boundary::FLAT);
    println!("STRAIGHT {}", boundary::STRAIGHT);
    println!("CURVED {}", boundary::CURVED);
    println!("COEFFICIENT_MOST {}", boundary::COEFFICIENT_MOST);
    println!("FREE {}", boundary::FREE);
    println!("ON {}", boundary::ON);
    println!("OFF {}", boundary::OFF);
    let case = Case::default();
    layout!("case", Case, case, capacity minimum rampup rampdown minup mindown variable fixed startcost
        stopcost initial elapsed upstage downstage rise fall prices orders rises falls hours);
    layout!("curve", Curve, Curve { a: 0.0, b: 0.0, c: 0.0 }, a b c);
    layout!("reading", Reading, Reading { number: 0, c: case }, number c);
    layout!("written", Written, Written { number: 0, length: 0 }, number length);
    layout!("verdict", Verdict, Verdict { number: 0, hour: 0, rule: 0, profit: 0 }, number hour rule profit);
    layout!("plan", Plan, Plan { number: 0, profit: 0 }, number profit);
    layout!("choice", Choice, Choice { number: 0, which: 0, profit: 0 }, number which profit);
}
