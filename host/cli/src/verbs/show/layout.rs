//! Where the columns of a table stand.

/// Columns of width one stand without blanks, in groups of so many.
const GROUP: usize = 10;

/// The characters that are shown, and how.
#[derive(Debug, Eq, PartialEq)]
pub struct Layout {
    /// The first character that is shown, counting from 0.
    pub first: usize,
    /// How wide the column of each is.
    pub widths: Vec<usize>,
    room: usize,
    dense: bool,
}

impl Layout {
    /// As many characters, from the first on, as have room; one at least. The widths are those of
    /// the first and all behind it.
    pub fn new(first: usize, widths: &[usize], room: Option<usize>) -> Self {
        let dense = Self {
            first,
            widths: widths.to_vec(),
            room: room.unwrap_or(usize::MAX),
            dense: true,
        };
        let fitting = dense.fitting();
        if widths[..fitting].iter().all(|width| *width == 1) {
            return dense.cut(fitting);
        }
        let apart = Self {
            dense: false,
            ..dense
        };
        let fitting = apart.fitting();
        apart.cut(fitting)
    }

    fn cut(mut self, count: usize) -> Self {
        self.widths.truncate(count);
        self
    }

    fn fitting(&self) -> usize {
        let mut taken = 0;
        let fits = |(place, width): &(usize, &usize)| {
            taken += self.blanks(*place) + *width;
            taken <= self.room
        };
        let fitting = self.widths.iter().enumerate().take_while(fits).count();
        fitting.max(1)
    }

    /// How many blanks stand before the column of this place among those that are shown.
    pub fn blanks(&self, place: usize) -> usize {
        let opens_group = (self.first + place).is_multiple_of(GROUP);
        usize::from(place > 0 && (!self.dense || opens_group))
    }

    /// The line with the numbers of characters, each over its column.
    pub fn ruler(&self) -> String {
        let mut ruler = String::new();
        let step = self.step();
        let mut column = 0;
        for (place, width) in self.widths.iter().enumerate() {
            column += self.blanks(place);
            let number = self.first + place + 1;
            let digits = number.to_string();
            let due = place == 0 || self.is_due(number, step);
            let free = ruler.is_empty() || ruler.len() < column;
            if due && free && column + digits.len() <= self.room {
                ruler.push_str(&" ".repeat(column - ruler.len()));
                ruler.push_str(&digits);
            }
            column += width;
        }
        ruler
    }

    /// Is the number one of those that are written, a step apart?
    fn is_due(&self, number: usize, step: usize) -> bool {
        match self.dense {
            true => (number - 1).is_multiple_of(step),
            false => number.is_multiple_of(step),
        }
    }

    /// Each number is written, or each fifth, or each tenth.
    fn step(&self) -> usize {
        let last = self.first + self.widths.len();
        let digits = last.to_string().len();
        let narrowest = self.widths.iter().min().copied().unwrap_or(1);
        match self.dense {
            true => GROUP,
            false if digits <= narrowest => 1,
            false if digits < 10 => 5,
            false => GROUP,
        }
    }
}

#[cfg(test)]
mod tests {
    use super::*;

    #[test]
    fn cells_of_one_column_stand_in_groups() {
        let layout = Layout::new(0, &[1; 25], None);
        assert_eq!(layout.ruler(), "1          11         21");
        let blanks: Vec<usize> = (0..25).filter(|place| layout.blanks(*place) > 0).collect();
        assert_eq!(blanks, [10, 20]);
        let later = Layout::new(7, &[1; 25], Some(20));
        assert_eq!(later.widths.len(), 18);
        assert_eq!(later.ruler(), "8   11         21");
    }

    #[test]
    fn wider_cells_stand_apart() {
        let layout = Layout::new(0, &[1, 4, 1], None);
        assert_eq!(layout.ruler(), "1 2    3");
        let cut = Layout::new(0, &[1, 4, 1, 3], Some(8));
        assert_eq!(cut.widths, [1, 4, 1]);
        let mut widths = vec![1; 12];
        widths[1] = 3;
        let layout = Layout::new(0, &widths, None);
        assert_eq!(layout.ruler(), "1         5         10");
    }

    #[test]
    fn one_character_is_shown_at_least() {
        assert_eq!(Layout::new(3, &[9, 9], Some(4)).widths, [9]);
        assert_eq!(Layout::new(3, &[1, 1], Some(0)).widths, [1]);
        assert_eq!(Layout::new(99, &[1, 1], Some(2)).ruler(), "");
    }
}
