//! A parcel sorter's station sends the sheet of its shift; the twin believes none that it has not checked.

use dramulenz::{check, write, Limits, Refusal, RuleSet};

const LIMITS: Limits = Limits { ucl: 28.0, cl: 25.0, lcl: 22.0 };
const SET: RuleSet = RuleSet::WESTERN_ELECTRIC;

/// Parcels a minute: a quiet start, then a flow that settles above the centre. No value lies beyond a
/// limit, so three sigma alone would stay silent.
const PARCELS: [f64; 12] = [25.0, 24.5, 25.5, 24.0, 25.5, 26.0, 25.5, 26.5, 25.5, 26.0, 26.0, 25.5];

fn main() -> Result<(), Refusal> {
    println!("The station counts its parcels: {PARCELS:?}.");
    println!("The limits are {} and {}, the centre is {}.", LIMITS.lcl, LIMITS.ucl, LIMITS.cl);
    println!();

    let mut room = [0; 64];
    let length = write(&PARCELS, LIMITS, SET, &mut room)?;
    let honest = &room[..length];
    println!("An honest station sends {honest:02x?}.");
    tell(honest);

    // Twelve points, set 305, no marked point.
    let silent = [0x0c, 0xb1, 0x02, 0x00];
    println!("Another removes its mark and sends {silent:02x?}.");
    tell(&silent);

    println!("A third sends the honest sheet without its last byte.");
    tell(&honest[..length - 1]);
    Ok(())
}

fn tell(sheet: &[u8]) {
    match check(&PARCELS, LIMITS, SET, sheet) {
        Ok(()) => println!("The twin accepts it."),
        Err(Refusal::Wrong { at, right, stated }) => {
            println!("The twin refuses it: the marks at position {at} are {right}, not {stated} as stated.")
        }
        Err(other) => println!("The twin refuses it: {other}."),
    }
    println!();
}
