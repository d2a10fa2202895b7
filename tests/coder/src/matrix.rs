//! Matrices over the field, their product, and Gaussian elimination.

use crate::field::FIELD;

#[derive(Clone, Debug, PartialEq, Eq)]
pub struct Matrix {
    rows: usize,
    columns: usize,
    cells: Vec<u8>,
}

impl Matrix {
    pub fn new(rows: usize, columns: usize, cell: impl Fn(usize, usize) -> u8) -> Matrix {
        let cells = (0..rows).flat_map(|i| (0..columns).map(move |j| (i, j))).map(|(i, j)| cell(i, j)).collect();
        Matrix { rows, columns, cells }
    }

    pub fn rows(&self) -> usize {
        self.rows
    }

    pub fn columns(&self) -> usize {
        self.columns
    }

    pub fn row(&self, i: usize) -> &[u8] {
        &self.cells[i * self.columns..(i + 1) * self.columns]
    }

    fn row_mut(&mut self, i: usize) -> &mut [u8] {
        &mut self.cells[i * self.columns..(i + 1) * self.columns]
    }

    pub fn at(&self, i: usize, j: usize) -> u8 {
        self.row(i)[j]
    }

    pub fn transposed(&self) -> Matrix {
        Matrix::new(self.columns, self.rows, |i, j| self.at(j, i))
    }

    /// This matrix times another.
    pub fn times(&self, other: &Matrix) -> Matrix {
        assert_eq!(self.columns, other.rows, "the matrices do not fit");
        let mut product = Matrix::new(self.rows, other.columns, |_, _| 0);
        // rows of 00 add nothing, of which a difference of files has many, and nor do factors 00, of which those of values that are kept have many
        let adding: Vec<usize> = (0..other.rows).filter(|&t| other.row(t).iter().any(|&cell| cell != 0)).collect();
        for i in 0..self.rows {
            for &t in adding.iter().filter(|&&t| self.at(i, t) != 0) {
                FIELD.add_multiple(product.row_mut(i), self.at(i, t), other.row(t));
            }
        }
        product
    }

    /// This matrix with another one to its right.
    fn beside(&self, other: &Matrix) -> Matrix {
        assert_eq!(self.rows, other.rows, "the matrices do not fit");
        let cells = (0..self.rows).flat_map(|i| self.row(i).iter().chain(other.row(i)).copied()).collect();
        Matrix { rows: self.rows, columns: self.columns + other.columns, cells }
    }

    fn swap_rows(&mut self, i: usize, j: usize) {
        if i != j {
            let (low, high) = (i.min(j), i.max(j));
            let (head, tail) = self.cells.split_at_mut(high * self.columns);
            head[low * self.columns..(low + 1) * self.columns].swap_with_slice(&mut tail[..self.columns]);
        }
    }

    /// Takes the unknown of a column out of the rows `targets`: adds to each, from place `from` on, the multiple of the column's own row that
    /// its cell in the column asks for.
    fn clear(&mut self, own: usize, column: usize, from: usize, targets: std::ops::Range<usize>) {
        let row = self.row(own)[from..].to_vec();
        for i in targets {
            let factor = self.at(i, column);
            if factor != 0 {
                FIELD.add_multiple(&mut self.row_mut(i)[from..], factor, &row);
            }
        }
    }

    /// Brings a row that has the unknown of a column up from row `own` on, makes its cell there 01 and takes the unknown out of the rows below.
    /// False where none has it.
    fn settle(&mut self, own: usize, column: usize) -> bool {
        let Some(pivot) = (own..self.rows).find(|&i| self.at(i, column) != 0) else {
            return false;
        };
        self.swap_rows(own, pivot);
        let inverse = FIELD.inverse(self.at(own, column));
        FIELD.scale(&mut self.row_mut(own)[column..], inverse);
        self.clear(own, column, column, own + 1..self.rows);
        true
    }

    /// For each column of `right` the one z with `self` × z = it, or none where there is none, all columns by one elimination. None at all where
    /// the equations are too few to settle every unknown.
    pub fn solve_each(&self, right: &Matrix) -> Option<Vec<Option<Vec<u8>>>> {
        let unknowns = self.columns;
        let mut system = self.beside(right);
        for column in 0..unknowns {
            if !system.settle(column, column) {
                return None;
            }
        }
        // the rows below are 00 on the left by now, and must be so on the right
        let solvable = |column: usize| (unknowns..system.rows).all(|i| system.at(i, column) == 0);
        let solvable: Vec<bool> = (unknowns..system.columns).map(solvable).collect();
        for column in (0..unknowns).rev() {
            system.clear(column, column, unknowns, 0..column);
        }
        let solution = |j: usize| (0..unknowns).map(|i| system.at(i, unknowns + j)).collect();
        Some(solvable.iter().enumerate().map(|(j, &solvable)| solvable.then(|| solution(j))).collect())
    }

    /// The Z with `self` × Z = `right`, where all of its columns have one solution.
    pub fn solve(&self, right: &Matrix) -> Option<Matrix> {
        let columns: Option<Vec<Vec<u8>>> = self.solve_each(right)?.into_iter().collect();
        columns.map(|columns| Matrix::new(self.columns, right.columns, |i, j| columns[j][i]))
    }

    /// The lists z with `self` × z = 00: as many as span them all, each with 01 at an unknown that the equations leave free and 00 at the other
    /// free ones. None where the rank is the number of unknowns.
    pub fn kernel(&self) -> Vec<Vec<u8>> {
        let mut system = self.clone();
        let mut settled = Vec::new();
        let mut free = Vec::new();
        for column in 0..self.columns {
            let own = settled.len();
            if system.settle(own, column) {
                system.clear(own, column, column, 0..own);
                settled.push(column);
            } else {
                free.push(column);
            }
        }
        let one = |&unknown: &usize| {
            let mut list = vec![0; self.columns];
            list[unknown] = 1;
            for (own, &column) in settled.iter().enumerate() {
                list[column] = system.at(own, unknown);
            }
            list
        };
        free.iter().map(one).collect()
    }
}
