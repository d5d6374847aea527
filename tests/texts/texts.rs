//! Prints the refusals and the rules as the Rust crate holds them, as rows of texts/: `texts refusals`, `texts rules`.

#[allow(dead_code)]
#[path = "../../bindings/rust/src/refusal.rs"]
mod refusal;
#[allow(dead_code)]
#[path = "../../bindings/rust/src/rule.rs"]
mod rule;

fn main() {
    if std::env::args().nth(1).as_deref() == Some("refusals") {
        for refusal in refusal::Refusal::ALL {
            println!("{}\t{}", refusal.number(), refusal.text());
        }
    } else {
        for (number, text) in rule::RULES {
            println!("{number}\t{text}");
        }
    }
}
