//! Joining many in a tree.

/// Things that are joined from left to right, neighbours first: each is joined with one that has as many in it as soon as
/// there are two, as a counter in binary carries. So each is copied once for each doubling, where a join of all so far with
/// the next would copy it once for each that follows. Joining is associative (proved), so the answer is the same.
pub struct Tree<T> {
    /// From left to right, with how many doublings each has in it, which falls.
    joined: Vec<(u32, T)>,
}

impl<T> Tree<T> {
    pub fn new() -> Self {
        Tree { joined: Vec::new() }
    }

    /// Adds the next one.
    pub fn add<E>(&mut self, next: T, join: impl Fn(T, T) -> Result<T, E>) -> Result<(), E> {
        let (mut doublings, mut right) = (0, next);
        while let Some((_, left)) = self.joined.pop_if(|(of_left, _)| *of_left == doublings) {
            right = join(left, right)?;
            doublings += 1;
        }
        self.joined.push((doublings, right));
        Ok(())
    }

    /// All of them joined; None without any.
    pub fn all<E>(mut self, join: impl Fn(T, T) -> Result<T, E>) -> Result<Option<T>, E> {
        let Some((_, mut right)) = self.joined.pop() else { return Ok(None) };
        while let Some((_, left)) = self.joined.pop() {
            right = join(left, right)?;
        }
        Ok(Some(right))
    }
}

#[cfg(test)]
mod tests {
    use super::*;
    use std::cell::Cell;

    /// The order stays, and each of n is copied at most once for each doubling up to n.
    #[test]
    fn in_their_order_and_with_few_copies() {
        for n in 1..=100u32 {
            let copied = Cell::new(0);
            let join = |left: Vec<u32>, right: Vec<u32>| {
                copied.set(copied.get() + left.len() + right.len());
                Ok::<_, ()>([left, right].concat())
            };
            let mut tree = Tree::new();
            (0..n).for_each(|i| tree.add(vec![i], join).unwrap());
            assert_eq!(tree.all(join).unwrap().unwrap(), (0..n).collect::<Vec<_>>());
            let doublings = n.next_power_of_two().ilog2();
            assert!(copied.get() <= (n * doublings) as usize, "{n}: {} copied", copied.get());
        }
    }

    #[test]
    fn a_join_that_fails_ends_it() {
        let mut tree = Tree::new();
        let join = |left: u32, right: u32| left.checked_sub(right).ok_or("below 0");
        assert_eq!(tree.add(1, join), Ok(()));
        assert_eq!(tree.add(2, join), Err("below 0"));
        let mut tree = Tree::new();
        (0..3).for_each(|next| tree.add([1, 0, 5][next], join).unwrap());
        assert_eq!(tree.all(join), Err("below 0"));
        assert_eq!(Tree::<u32>::new().all(join), Ok(None));
    }
}
