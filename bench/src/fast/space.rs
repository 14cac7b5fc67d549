// Spaces of states: the solutions of linear equations over the cells, as the lowest one and vectors that lead to the others.

/// The parity of the cells of a mask.
#[inline(always)]
pub fn odd(state: u64, mask: u64) -> u64 {
    u64::from((state & mask).count_ones() & 1)
}

/// The states `lowest` plus any sum of the first `free` vectors, modulo 2. The vectors rise by their highest cell; at that cell `lowest` and all other vectors hold 0.
#[derive(Clone)]
pub struct Space {
    pub lowest: u64,
    free: usize,
    vectors: [u64; 64],
}

/// All states of a register.
pub fn all(cells: usize) -> Space {
    Space {
        lowest: 0,
        free: cells,
        vectors: std::array::from_fn(|cell| 1 << cell),
    }
}

impl Space {
    pub fn free(&self) -> usize {
        self.free
    }

    pub fn vectors(&self) -> &[u64] {
        &self.vectors[..self.free]
    }

    /// The space of the first vectors alone.
    pub fn of_first(&self, free: usize) -> Space {
        Space {
            free,
            ..self.clone()
        }
    }

    /// The members of the next vector: it is added to each, and the vectors before it are theirs.
    pub fn block(&self, place: usize) -> Space {
        Space {
            lowest: self.lowest ^ self.vectors[place],
            free: place,
            vectors: self.vectors,
        }
    }

    /// Whether some vector is odd under the mask, so that members differ there.
    #[inline]
    pub fn splits(&self, mask: u64) -> bool {
        self.vectors().iter().any(|&vector| odd(vector, mask) == 1)
    }

    /// Takes the pivot of the mask out of the vectors: the first that is odd. Later ones move down by one place, with the pivot added where they are odd. Gives 0 where no vector is odd.
    pub fn take_out(&mut self, mask: u64) -> u64 {
        let vectors = &mut self.vectors[..self.free];
        let Some(place) = vectors.iter().position(|&vector| odd(vector, mask) == 1) else {
            return 0;
        };
        let vectors = &mut vectors[place..];
        let pivot = vectors[0];
        for next in 1..vectors.len() {
            let vector = vectors[next];
            vectors[next - 1] = vector ^ (pivot & odd(vector, mask).wrapping_neg());
        }
        self.free -= 1;
        pivot
    }

    /// Keeps the members whose parity under the mask is the wanted one. False where there are none.
    pub fn restrict(&mut self, mask: u64, wanted: u64) -> bool {
        let pivot = self.take_out(mask);
        if odd(self.lowest, mask) == wanted {
            return true;
        }
        self.lowest ^= pivot;
        pivot != 0
    }
}
