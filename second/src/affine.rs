//! Points, affine rows, the maps of dependences and the constraints, over
//! exact integers.

/// A point of 0 to 4 coordinates; entries past the dimension are 0.
#[derive(Clone, Copy, Debug, PartialEq, Eq)]
pub struct Point {
    pub dimension: usize,
    pub at: [i128; 4],
}

/// Coefficients and a constant; coefficients past the dimension are 0.
#[derive(Clone, Copy, Debug, PartialEq, Eq)]
pub struct Row {
    pub coefficients: [i128; 4],
    pub constant: i128,
}

/// The map of a dependence: one row for each coordinate of the image.
#[derive(Clone, Debug, PartialEq, Eq)]
pub struct Map {
    pub columns: usize,
    pub rows: Vec<Row>,
}

/// A row that stands in a relation to 0: equal, or at least.
#[derive(Clone, Copy, Debug, PartialEq, Eq)]
pub struct Constraint {
    pub equality: bool,
    pub row: Row,
}

impl Point {
    /// A point from at most four coordinates.
    pub fn new(coordinates: &[i128]) -> Point {
        let mut at = [0; 4];
        for (place, c) in at.iter_mut().zip(coordinates) {
            *place = *c;
        }
        Point { dimension: coordinates.len().min(4), at }
    }

    /// The coordinates that the point has.
    pub fn coordinates(&self) -> &[i128] {
        &self.at[..self.dimension]
    }
}

impl Row {
    /// Coefficients times the point, plus the constant.
    pub fn value(&self, z: &Point) -> i128 {
        let terms = self.coefficients.iter().zip(&z.at);
        terms.fold(self.constant, |sum, (c, x)| sum + c * x)
    }

    /// The row that takes z to this row's value at the map's image of z.
    pub fn after(&self, map: &Map) -> Row {
        let mut out = Row { coefficients: [0; 4], constant: self.constant };
        for (factor, row) in self.coefficients.iter().zip(&map.rows) {
            out.constant += factor * row.constant;
            for (sum, c) in out.coefficients.iter_mut().zip(&row.coefficients) {
                *sum += factor * c;
            }
        }
        out
    }

    /// The sum of the coefficients' sizes times the reach, plus the
    /// constant's size: no value of the row is larger within that reach.
    pub fn extent(&self, reach: i128) -> i128 {
        let sizes: i128 = self.coefficients.iter().map(|c| c.abs()).sum();
        sizes * reach + self.constant.abs()
    }
}

impl Map {
    /// The map that leaves every point of the dimension in place.
    pub fn identity(dimension: usize) -> Map {
        let unit = |i: usize| {
            let mut row = Row { coefficients: [0; 4], constant: 0 };
            row.coefficients[i] = 1;
            row
        };
        Map { columns: dimension, rows: (0..dimension).map(unit).collect() }
    }

    /// The image of a point.
    pub fn image(&self, z: &Point) -> Point {
        let mut image = Point { dimension: self.rows.len(), at: [0; 4] };
        for (place, row) in image.at.iter_mut().zip(&self.rows) {
            *place = row.value(z);
        }
        image
    }

    /// This map after an outer one: first the outer map, then this.
    pub fn after(&self, outer: &Map) -> Map {
        let rows = self.rows.iter().map(|row| row.after(outer)).collect();
        Map { columns: outer.columns, rows }
    }
}

impl Constraint {
    /// Whether the constraint holds at a point.
    pub fn holds(&self, z: &Point) -> bool {
        let value = self.row.value(z);
        if self.equality {
            value == 0
        } else {
            value >= 0
        }
    }

    /// The constraint at the map's image.
    pub fn after(&self, map: &Map) -> Constraint {
        Constraint { equality: self.equality, row: self.row.after(map) }
    }
}
