//! Words that may stand for the numbers of a field: the rows of the protocol's
//! Tables A.2 and A.5, which LD names (paper 02, (i)), from 1; no state is 0.

/// The names of numbers one after the other.
pub struct Names {
    first: u8,
    names: &'static [&'static str],
    /// What may stand in the field, where the names are too many to list.
    told: Option<&'static str>,
}

impl Names {
    /// Whatever the case of its letters.
    pub fn number(&self, word: &str) -> Option<i128> {
        let named = |name: &&str| name.eq_ignore_ascii_case(word);
        let index = self.names.iter().position(named)?;
        Some(i128::from(self.first) + index as i128)
    }

    pub fn name(&self, number: i128) -> Option<&'static str> {
        let index = usize::try_from(number - i128::from(self.first)).ok()?;
        self.names.get(index).copied()
    }

    /// What may stand in the field, for a reader whose word may not.
    pub fn allowed(&self) -> String {
        match self.told {
            Some(told) => told.to_string(),
            None => format!("{}, or a number 0 to 255", self.names.join(", ")),
        }
    }
}

pub const LIVESTOCK: Names = Names {
    first: 1,
    names: &[
        "dairy-cows",
        "non-milking-dairy-cows",
        "heifers",
        "bulls-grazing",
        "calves-grazing",
        "heifers-grazing",
        "cows-grazing",
        "nursery-swine",
        "grow-finish-swine",
        "breeding-swine",
    ],
    told: None,
};

pub const STATES: Names = Names {
    first: 0,
    names: &[
        "none",
        "alabama",
        "alaska",
        "arizona",
        "arkansas",
        "california",
        "colorado",
        "connecticut",
        "delaware",
        "florida",
        "georgia",
        "hawaii",
        "idaho",
        "illinois",
        "indiana",
        "iowa",
        "kansas",
        "kentucky",
        "louisiana",
        "maine",
        "maryland",
        "massachusetts",
        "michigan",
        "minnesota",
        "mississippi",
        "missouri",
        "montana",
        "nebraska",
        "nevada",
        "new-hampshire",
        "new-jersey",
        "new-mexico",
        "new-york",
        "north-carolina",
        "north-dakota",
        "ohio",
        "oklahoma",
        "oregon",
        "pennsylvania",
        "rhode-island",
        "south-carolina",
        "south-dakota",
        "tennessee",
        "texas",
        "utah",
        "vermont",
        "virginia",
        "washington",
        "west-virginia",
        "wisconsin",
        "wyoming",
    ],
    told: Some("a state's name in small letters with hyphens, a number 0 to 255, or none"),
};
