//! Variables by how often they were met in late conflicts: a heap, the most active at its top.

/// The greatest activity; all are scaled down before it is passed.
const MOST: f64 = 1e100;

/// By how much a conflict's variables count more than those of the conflict before.
const GROWTH: f64 = 1.0 / 0.95;

/// The variables that may be decided on, and the activity of all.
pub struct Order {
    activity: Vec<f64>,
    step: f64,
    heap: Vec<u32>,
    /// By variable: its place in the heap, if it is there.
    place: Vec<Option<u32>>,
}

impl Order {
    /// All variables from 0 on, with the same activity but for the early ones.
    pub fn new(variables: usize, early: &[usize]) -> Order {
        let count = u32::try_from(variables).expect("memory ends before 2^31 variables");
        let mut activity = vec![0.0; variables];
        early.iter().for_each(|&variable| activity[variable] = 1.0);
        let heap = (0..count).collect();
        let place = (0..count).map(Some).collect();
        let mut order = Order { activity, step: 1.0, heap, place };
        (0..variables / 2).rev().for_each(|place| order.down(place));
        order
    }

    /// The variable was met in a conflict.
    pub fn bump(&mut self, variable: usize) {
        self.activity[variable] += self.step;
        if self.activity[variable] > MOST {
            self.activity.iter_mut().for_each(|each| *each /= MOST);
            self.step /= MOST;
        }
        if let Some(place) = self.place[variable] {
            self.up(place as usize);
        }
    }

    /// A conflict is over: the next one counts more.
    pub fn grow(&mut self) {
        self.step *= GROWTH;
    }

    /// Takes the most active variable.
    pub fn pop(&mut self) -> Option<usize> {
        let last = self.heap.pop()?;
        let top = match self.heap.first_mut() {
            Some(first) => std::mem::replace(first, last),
            None => last,
        };
        self.place[top as usize] = None;
        if !self.heap.is_empty() {
            self.place[last as usize] = Some(0);
            self.down(0);
        }
        Some(top as usize)
    }

    /// Puts a variable back, where it is not in the heap.
    pub fn put(&mut self, variable: usize) {
        if self.place[variable].is_none() {
            self.heap.push(variable as u32);
            self.place[variable] = Some(self.heap.len() as u32 - 1);
            self.up(self.heap.len() - 1);
        }
    }

    fn is_above(&self, a: u32, b: u32) -> bool {
        self.activity[a as usize] > self.activity[b as usize]
    }

    fn set(&mut self, place: usize, variable: u32) {
        self.heap[place] = variable;
        self.place[variable as usize] = Some(place as u32);
    }

    fn up(&mut self, mut place: usize) {
        let variable = self.heap[place];
        while place > 0 {
            let parent = (place - 1) / 2;
            if !self.is_above(variable, self.heap[parent]) {
                break;
            }
            self.set(place, self.heap[parent]);
            place = parent;
        }
        self.set(place, variable);
    }

    fn down(&mut self, mut place: usize) {
        let variable = self.heap[place];
        loop {
            let mut child = 2 * place + 1;
            if child >= self.heap.len() {
                break;
            }
            let right = child + 1;
            if right < self.heap.len() && self.is_above(self.heap[right], self.heap[child]) {
                child = right;
            }
            if !self.is_above(self.heap[child], variable) {
                break;
            }
            self.set(place, self.heap[child]);
            place = child;
        }
        self.set(place, variable);
    }
}

#[cfg(test)]
mod tests {
    use super::*;

    #[test]
    fn the_most_active_comes_first() {
        let mut order = Order::new(9, &[4]);
        for variable in [7, 2, 7, 7, 2, 5, 5] {
            order.bump(variable);
            order.grow();
        }
        let first: Vec<_> = (0..4).map_while(|_| order.pop()).collect();
        assert_eq!(first, [7, 5, 2, 4]);
        order.put(2);
        order.put(2);
        order.bump(2);
        assert_eq!(order.pop(), Some(2));
        let rest: Vec<_> = std::iter::from_fn(|| order.pop()).collect();
        assert_eq!(rest.len(), 5);
    }

    #[test]
    fn activities_are_scaled_down_in_their_order() {
        let mut order = Order::new(3, &[]);
        order.bump(1);
        for _ in 0..10_000 {
            order.grow();
            order.bump(2);
        }
        assert!(order.activity.iter().all(|&each| each <= MOST) && order.step < MOST);
        assert_eq!([order.pop(), order.pop(), order.pop()], [Some(2), Some(1), Some(0)]);
    }
}
