//! The independent scheduler: the day scheduler for one thermal unit, written a second time from the papers
//! alone. "The scope" in the comments is the paper "The day scheduler for one thermal unit"; "the source" is
//! the Arroyo and Conejo paper, whose constraints carry numbers; request F-1 is the one for two suppliers'
//! lists side by side, F-2 the one for prices below zero, F-3 the one for the outage and must-run calendar,
//! F-5 the one for days that open and close inside a sequence, F-6 the one for a week ahead, F-7 the one for the
//! boiler maker's cost curve, F-8 the one for what a price forecast can do.

// What the papers say.
pub mod answers;
pub mod best;
pub mod by_curve;
pub mod c;
pub mod calendar;
pub mod case;
pub mod curve;
pub mod days;
pub mod dp;
pub mod exact;
pub mod file;
pub mod forecast;
pub mod known_calendars;
pub mod known_curves;
pub mod known_files;
pub mod known_forecasts;
pub mod known_pairs;
pub mod known_prices;
pub mod known_stages;
pub mod known_weeks;
pub mod opening;
pub mod pair;
pub mod profit;
pub mod refusals;
pub mod rules;

// Random inputs.
pub mod calendars;
pub mod curves;
pub mod damage;
pub mod forecasts;
pub mod lists;
pub mod pairs;
pub mod random;
pub mod stages;
pub mod units;
pub mod weeks;
pub mod wild;
