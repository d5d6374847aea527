//! Prints the source's day as a table: the best list of cases/source.case, hour by hour.

use giqapsun::{best, check, read, Case, Refusal, Verdict};

/// The stored case.
const FILE: &[u8] = include_bytes!("../../../cases/source.case");

/// Parts of a dollar, which are thousandths for three decimals, as dollars.
fn decimal(parts: i64, decimals: u32) -> String {
    let (sign, unit) = (if parts < 0 { "-" } else { "" }, 10u64.pow(decimals));
    let (whole, rest) = (parts.unsigned_abs() / unit, parts.unsigned_abs() % unit);
    format!("{sign}{whole}.{rest:0width$}", width = decimals as usize)
}

/// Half-mills as dollars with four decimals.
fn dollars(half_mills: i64) -> String {
    decimal(5 * half_mills, 4)
}

/// What an hour earns in half-mills: energy sold less F, A if on-line, B for a start, C for a stop.
fn earned(case: &Case, hour: usize, before: u16, output: u16) -> i64 {
    let margin = i64::from(case.prices[hour - 1]) - i64::from(case.variable);
    let mut charges = 0;
    if output > 0 {
        charges += i64::from(case.fixed);
    }
    if before == 0 && output > 0 {
        charges += i64::from(case.startcost);
    }
    if before > 0 && output == 0 {
        charges += i64::from(case.stopcost);
    }
    margin * (i64::from(before) + i64::from(output)) - 2 * charges
}

fn main() -> Result<(), Refusal> {
    let case = read(FILE)?;
    let plan = best(&case)?;
    assert_eq!(check(&case, &plan.outputs)?, Verdict::Passes { profit: plan.profit });

    println!("hour  price ($/MWh)  output (MW)  energy (MWh)  earnings ($)");
    let (mut before, mut halves) = (case.initial, 0);
    for (hour, &output) in (1..).zip(&plan.outputs) {
        let price = decimal(i64::from(case.prices[hour - 1]), 3);
        let energy = u32::from(before) + u32::from(output);
        let earnings = dollars(earned(&case, hour, before, output));
        println!("{hour:4}  {price:>13}  {output:11}  {:10}.{}  {earnings:>12}", energy / 2, energy % 2 * 5);
        halves += energy;
        before = output;
    }
    println!("total{:>39}.{}  {:>12}", halves / 2, halves % 2 * 5, dollars(plan.profit));
    Ok(())
}
