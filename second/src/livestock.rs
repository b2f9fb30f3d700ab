//! The protocol's values by livestock, for LD (paper 02, (i)): Tables A.2, A.3
//! and A.5, row by row in the protocol's own figures.

use std::iter;

use Column::*;
use Solids::*;

/// What Table A.3 has for the solids of a livestock category.
#[derive(Clone, Copy)]
enum Solids {
    Everywhere(&'static str),
    /// It points to a column of Table A.5.
    ByState(Column),
}

#[derive(Clone, Copy)]
enum Column {
    DairyCow,
    Heifer,
    HeiferGrazing,
    CowsGrazing,
}

/// Table A.2: the livestock category, and its typical average mass in kg.
const MASSES: [(&str, &str); 10] = [
    ("Dairy cows (on feed)", "604"),
    ("Non-milking dairy cows (on feed)", "684"),
    ("Heifers (on feed)", "476"),
    ("Bulls (grazing)", "750"),
    ("Calves (grazing)", "118"),
    ("Heifers (grazing)", "420"),
    ("Cows (grazing)", "533"),
    ("Nursery swine", "12.5"),
    ("Grow/finish swine", "70"),
    ("Breeding swine", "198"),
];

/// Table A.3: the livestock category, its volatile solids in kg/day/1,000 kg
/// of mass, and its B0 in cubic metres of methane per kg of solids.
const SOLIDS_AND_B0: [(&str, Solids, &str); 10] = [
    ("Dairy cows", ByState(DairyCow), "0.24"),
    ("Non-milking dairy cows", Everywhere("5.56"), "0.24"),
    ("Heifers", ByState(Heifer), "0.17"),
    ("Bulls (grazing)", Everywhere("6.04"), "0.17"),
    ("Calves (grazing)", Everywhere("6.41"), "0.17"),
    ("Heifers (grazing)", ByState(HeiferGrazing), "0.17"),
    ("Cows (grazing)", ByState(CowsGrazing), "0.17"),
    ("Nursery swine", Everywhere("8.89"), "0.48"),
    ("Grow/finish swine", Everywhere("5.36"), "0.48"),
    ("Breeding swine", Everywhere("2.71"), "0.35"),
];

/// Table A.5: the state, and its volatile solids in kg/day/1,000 kg of mass for
/// a dairy cow, a heifer, a heifer grazing and cows grazing.
const STATES: [(&str, [&str; 4]); 50] = [
    ("Alabama", ["8.02", "7.42", "7.82", "7.02"]),
    ("Alaska", ["8.18", "7.42", "10.08", "9.02"]),
    ("Arizona", ["10.55", "7.42", "10.41", "9.02"]),
    ("Arkansas", ["7.11", "8.22", "7.87", "7.00"]),
    ("California", ["8.98", "7.42", "7.92", "6.85"]),
    ("Colorado", ["9.11", "7.42", "7.65", "6.46"]),
    ("Connecticut", ["8.22", "6.70", "7.66", "6.90"]),
    ("Delaware", ["7.60", "6.70", "7.89", "6.90"]),
    ("Florida", ["8.40", "7.42", "7.77", "7.02"]),
    ("Georgia", ["8.80", "7.42", "7.89", "7.02"]),
    ("Hawaii", ["7.52", "7.42", "10.30", "9.02"]),
    ("Idaho", ["10.34", "7.42", "10.80", "9.02"]),
    ("Illinois", ["8.08", "7.42", "8.11", "6.91"]),
    ("Indiana", ["8.49", "7.42", "8.01", "6.91"]),
    ("Iowa", ["8.43", "7.42", "8.20", "6.91"]),
    ("Kansas", ["8.35", "7.42", "7.68", "6.46"]),
    ("Kentucky", ["7.70", "7.42", "7.97", "7.02"]),
    ("Louisiana", ["6.88", "8.22", "7.75", "7.00"]),
    ("Maine", ["7.88", "6.70", "7.66", "6.90"]),
    ("Maryland", ["7.94", "6.70", "7.85", "6.90"]),
    ("Massachusetts", ["7.69", "6.70", "7.78", "6.90"]),
    ("Michigan", ["9.05", "7.42", "7.95", "6.91"]),
    ("Minnesota", ["8.13", "7.42", "8.05", "6.91"]),
    ("Mississippi", ["8.09", "7.42", "7.85", "7.02"]),
    ("Missouri", ["7.21", "7.42", "7.88", "6.91"]),
    ("Montana", ["8.05", "7.42", "7.21", "6.46"]),
    ("Nebraska", ["7.98", "7.42", "7.64", "6.46"]),
    ("Nevada", ["9.75", "7.42", "10.5", "9.02"]),
    ("New Hampshire", ["8.58", "6.70", "7.78", "6.90"]),
    ("New Jersey", ["7.64", "6.70", "7.92", "6.90"]),
    ("New Mexico", ["10.03", "7.42", "10.64", "9.02"]),
    ("New York", ["8.24", "6.70", "7.99", "6.90"]),
    ("North Carolina", ["9.07", "7.42", "7.85", "7.02"]),
    ("North Dakota", ["7.29", "7.42", "7.40", "6.46"]),
    ("Ohio", ["7.94", "7.42", "7.94", "6.91"]),
    ("Oklahoma", ["8.04", "8.22", "8.09", "7.00"]),
    ("Oregon", ["9.49", "7.42", "10.61", "9.02"]),
    ("Pennsylvania", ["8.27", "6.70", "8.03", "6.90"]),
    ("Rhode Island", ["7.56", "6.70", "7.66", "6.90"]),
    ("South Carolina", ["8.73", "7.42", "7.85", "7.02"]),
    ("South Dakota", ["8.24", "7.42", "7.50", "6.46"]),
    ("Tennessee", ["8.21", "7.42", "7.92", "7.02"]),
    ("Texas", ["9.19", "8.22", "8.20", "7.00"]),
    ("Utah", ["9.75", "7.42", "10.58", "9.02"]),
    ("Vermont", ["7.95", "6.70", "7.92", "6.90"]),
    ("Virginia", ["8.64", "7.42", "7.95", "7.02"]),
    ("Washington", ["10.54", "7.42", "10.87", "9.02"]),
    ("West Virginia", ["7.29", "6.70", "7.82", "6.90"]),
    ("Wisconsin", ["8.25", "7.42", "7.88", "6.91"]),
    ("Wyoming", ["8.13", "7.42", "7.34", "6.46"]),
];

/// A livestock category of the tables, in the units of LN.
#[derive(Clone, Copy)]
pub struct Livestock {
    /// Tenths of kg.
    pub mass: u16,
    /// Hundredths of cubic metres of methane per kg of solids.
    pub b0: u8,
    solids: Solids,
}

impl Livestock {
    /// By its row of Table A.2, whose rows Table A.3 has in the same order.
    pub fn of_row(livestock: u8) -> Option<Livestock> {
        let (_, mass) = row(&MASSES, livestock)?;
        let (_, solids, b0) = row(&SOLIDS_AND_B0, livestock)?;
        Some(Livestock {
            mass: tenths(mass),
            b0: hundredths(b0) as u8,
            solids: *solids,
        })
    }

    /// Hundredths of kg/day/1000 kg, for a row of Table A.5 where Table A.3
    /// points there, and for 0 alone where it does not.
    pub fn table_solids(&self, state: u8) -> Option<u16> {
        match self.solids {
            Everywhere(solids) => (state == 0).then(|| hundredths(solids)),
            ByState(column) => {
                let (_, columns) = row(&STATES, state)?;
                Some(hundredths(columns[column as usize]))
            }
        }
    }
}

fn row<T>(table: &[T], counted_from_1: u8) -> Option<&T> {
    table.get(usize::from(counted_from_1).checked_sub(1)?)
}

fn tenths(figure: &str) -> u16 {
    scaled(figure, 1)
}

fn hundredths(figure: &str) -> u16 {
    scaled(figure, 2)
}

/// A figure with so many of its decimal places, and no point.
fn scaled(figure: &str, places: usize) -> u16 {
    let (whole, decimals) = figure.split_once('.').unwrap_or((figure, ""));
    let decimals = decimals.bytes().chain(iter::repeat(b'0')).take(places);
    let digits = whole.bytes().chain(decimals);
    digits.fold(0, |number, digit| 10 * number + u16::from(digit - b'0'))
}

#[cfg(test)]
mod tests {
    use super::*;

    #[test]
    fn tables_a_2_and_a_3_have_the_same_rows() {
        for ((with_feed, _), (name, ..)) in MASSES.iter().zip(&SOLIDS_AND_B0) {
            assert_eq!(with_feed.trim_end_matches(" (on feed)"), *name);
        }
    }

    #[test]
    fn the_states_stand_in_the_order_of_their_names() {
        assert!(STATES.is_sorted_by_key(|(state, _)| state));
    }

    /// No figure has more decimals than LN's units keep.
    #[test]
    fn no_figure_is_cut() {
        let decimals = |figure: &str| figure.split_once('.').map_or(0, |(_, after)| after.len());
        for (livestock, mass) in MASSES {
            assert!(decimals(mass) <= 1, "{livestock}");
        }
        for (livestock, solids, b0) in SOLIDS_AND_B0 {
            assert!(decimals(b0) <= 2, "{livestock}");
            if let Everywhere(solids) = solids {
                assert!(decimals(solids) <= 2, "{livestock}");
            }
        }
        for (state, columns) in STATES {
            assert!(
                columns.iter().all(|solids| decimals(solids) <= 2),
                "{state}"
            );
        }
    }

    #[test]
    fn figures_with_fewer_decimals_are_filled_up() {
        assert_eq!(tenths("12.5"), 125);
        assert_eq!(tenths("604"), 6_040);
        assert_eq!(hundredths("10.5"), 1_050);
        assert_eq!(hundredths("0.17"), 17);
    }
}
