//! A lent buffer between two guard zones. Two are compared whole, zones included, so that a write beside the buffer
//! shows.

const ZONE: usize = 64;

#[derive(Clone, PartialEq)]
pub struct Guarded<T> {
    all: Vec<T>,
}

impl<T: Copy> Guarded<T> {
    pub fn new(inside: &[T], guard: T) -> Guarded<T> {
        let zone = [guard; ZONE];
        Guarded { all: [&zone, inside, &zone].concat() }
    }

    pub fn inside(&self) -> &[T] {
        &self.all[ZONE..self.all.len() - ZONE]
    }

    pub fn inside_mut(&mut self) -> &mut [T] {
        let end = self.all.len() - ZONE;
        &mut self.all[ZONE..end]
    }
}

/// Whether a write just before or just after a buffer shows, for the self-check.
pub fn writes_beside_show() -> bool {
    let untouched = Guarded::new(&[1u32, 2], 0);
    [ZONE - 1, ZONE + 2].iter().all(|&beside| {
        let mut touched = untouched.clone();
        touched.all[beside] = 1;
        touched != untouched
    })
}
