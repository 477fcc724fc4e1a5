//! The matrices of an automaton's words, and the table of their products.

use super::Refusal;

pub type Matrix = [[u8; 6]; 6];

fn product(states: usize, a: &Matrix, b: &Matrix) -> Matrix {
    let mut c = [[0; 6]; 6];
    for p in 0..states {
        for q in 0..states {
            let mut best = 0;
            for r in 0..states {
                if a[p][r] != 0 && b[r][q] != 0 {
                    best = best.max(a[p][r]).max(b[r][q]);
                }
            }
            c[p][q] = best;
        }
    }
    c
}

/// The list of all matrices, each with what it was found from (64 for none), by which letter, and the number of its product with
/// each letter.
pub struct Matrices {
    states: usize,
    pub count: usize,
    pub list: [Matrix; 64],
    parent: [u8; 64],
    letter: [u8; 64],
    right: [[u8; 16]; 64],
    pub images: [u8; 16],
}

impl Matrices {
    /// 14 where there are more than 64.
    pub fn list(states: usize, letters: &[Matrix]) -> Result<Matrices, Refusal> {
        let mut all = Matrices {
            states,
            count: 0,
            list: [[[0; 6]; 6]; 64],
            parent: [64; 64],
            letter: [0; 64],
            right: [[0; 16]; 64],
            images: [0; 16],
        };
        for (a, matrix) in letters.iter().enumerate() {
            all.images[a] = all.add(*matrix, 64, a)? as u8;
        }
        let mut next = 0;
        while next < all.count {
            for (a, letter) in letters.iter().enumerate() {
                let matrix = product(states, &all.list[next], letter);
                all.right[next][a] = all.add(matrix, next, a)? as u8;
            }
            next += 1;
        }
        Ok(all)
    }

    fn find(&self, matrix: &Matrix) -> Option<usize> {
        let listed = &self.list[..self.count];
        listed.iter().position(|other| other == matrix)
    }

    fn add(&mut self, matrix: Matrix, parent: usize, letter: usize) -> Result<usize, Refusal> {
        if let Some(i) = self.find(&matrix) {
            return Ok(i);
        }
        if self.count == 64 {
            return Err((14, 1, 0));
        }
        self.list[self.count] = matrix;
        self.parent[self.count] = parent as u8;
        self.letter[self.count] = letter as u8;
        self.count += 1;
        Ok(self.count - 1)
    }

    /// The table, 64 bytes a row: each product worked out and looked up.
    pub fn multiply(&self, table: &mut [u8]) {
        for s in 0..self.count {
            for t in 0..self.count {
                let matrix = product(self.states, &self.list[s], &self.list[t]);
                let number = self.find(&matrix).expect("products are listed");
                table[s * 64 + t] = number as u8;
            }
        }
    }

    /// The table along the words: s·(p·a) = (s·p)·a, and p·a stands behind p in the list.
    pub fn look_up(&self, table: &mut [u8]) {
        for (s, row) in table.chunks_exact_mut(64).take(self.count).enumerate() {
            for t in 0..self.count {
                let before = match self.parent[t] {
                    64 => s,
                    parent => row[parent as usize] as usize,
                };
                row[t] = self.right[before][self.letter[t] as usize];
            }
        }
    }
}
