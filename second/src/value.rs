//! Values.
//!
//! "A value is a whole number from -2,147,483,648 to 2,147,483,647, a location, or a truth value."

/// A value. An `i32` holds exactly the whole numbers of the paper's range.
#[derive(Clone, Copy, PartialEq, Eq, Debug)]
pub enum Value {
    Whole(i32),
    Location(u16),
    Truth(bool),
}

impl Value {
    /// "value (5: 1 and number; 2, location, two zeros; 3 or 4 and four zeros)".
    /// As with the marks, 3 is false and 4 is true.
    pub fn five_bytes(self) -> [u8; 5] {
        match self {
            Value::Whole(number) => {
                let [a, b, c, d] = number.to_le_bytes();
                [1, a, b, c, d]
            }
            Value::Location(location) => {
                let [low, high] = location.to_le_bytes();
                [2, low, high, 0, 0]
            }
            Value::Truth(false) => [3, 0, 0, 0, 0],
            Value::Truth(true) => [4, 0, 0, 0, 0],
        }
    }
}

#[cfg(test)]
mod tests {
    use super::*;

    #[test]
    fn five_bytes_of_each_kind() {
        assert_eq!(Value::Whole(1).five_bytes(), [1, 1, 0, 0, 0]);
        assert_eq!(Value::Whole(-1).five_bytes(), [1, 255, 255, 255, 255]);
        assert_eq!(Value::Whole(i32::MIN).five_bytes(), [1, 0, 0, 0, 128]);
        assert_eq!(Value::Location(513).five_bytes(), [2, 1, 2, 0, 0]);
        assert_eq!(Value::Truth(false).five_bytes(), [3, 0, 0, 0, 0]);
        assert_eq!(Value::Truth(true).five_bytes(), [4, 0, 0, 0, 0]);
    }
}
