//! Stand-in: a dense array of f64, row by row, with what basis.rs uses of ndarray.
//! It only keeps numbers; the arithmetic of JK_direct and JK_inmem is basis.rs's own.

use std::marker::PhantomData;
use std::ops::{Index, IndexMut};

pub struct Ix2;
pub struct Ix3;
pub struct Ix4;
pub struct Axis(pub usize);

pub struct Array<A, D> {
    shape: Vec<usize>,
    entries: Vec<A>,
    dimension: PhantomData<D>,
}

/// A tuple of extents and the dimension that it stands for.
pub trait Shape {
    type Dim;
    fn extents(self) -> Vec<usize>;
}

impl Shape for (usize, usize) {
    type Dim = Ix2;
    fn extents(self) -> Vec<usize> {
        vec![self.0, self.1]
    }
}

impl Shape for (usize, usize, usize) {
    type Dim = Ix3;
    fn extents(self) -> Vec<usize> {
        vec![self.0, self.1, self.2]
    }
}

impl Shape for (usize, usize, usize, usize) {
    type Dim = Ix4;
    fn extents(self) -> Vec<usize> {
        vec![self.0, self.1, self.2, self.3]
    }
}

impl<D> Array<f64, D> {
    pub fn zeros<S: Shape<Dim = D>>(shape: S) -> Self {
        let shape = shape.extents();
        let entries = vec![0.0; shape.iter().product()];
        Array {
            shape,
            entries,
            dimension: PhantomData,
        }
    }

    pub fn shape(&self) -> &[usize] {
        &self.shape
    }

    pub fn fill(&mut self, entry: f64) {
        self.entries.iter_mut().for_each(|e| *e = entry);
    }

    /// The entries row by row (not in ndarray under this name).
    pub fn entries(&self) -> &[f64] {
        &self.entries
    }

    /// The entries row by row, to be filled (not in ndarray under this name).
    pub fn entries_mut(&mut self) -> &mut [f64] {
        &mut self.entries
    }

    fn place<const N: usize>(&self, index: [usize; N]) -> usize {
        assert_eq!(N, self.shape.len());
        let mut place = 0;
        for (i, extent) in index.iter().zip(&self.shape) {
            assert!(i < extent);
            place = place * extent + i;
        }
        place
    }
}

impl Array<f64, Ix3> {
    /// Only for the nuclear matrix of basis.rs, which is never asked for.
    pub fn sum_axis(&self, _axis: Axis) -> Array<f64, Ix2> {
        unreachable!("the stand-in does not sum")
    }
}

impl<D, const N: usize> Index<[usize; N]> for Array<f64, D> {
    type Output = f64;
    fn index(&self, index: [usize; N]) -> &f64 {
        &self.entries[self.place(index)]
    }
}

impl<D, const N: usize> IndexMut<[usize; N]> for Array<f64, D> {
    fn index_mut(&mut self, index: [usize; N]) -> &mut f64 {
        let place = self.place(index);
        &mut self.entries[place]
    }
}
