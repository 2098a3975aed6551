//! Update sets.
use crate::resolver::Program;
use crate::values::Value;

#[derive(Default)]
pub struct UpdateSet {
    pub index: Vec<u32>,
    pub list: Vec<(u32, Value, Value)>,
    pub bad: bool,
}

impl UpdateSet {
    pub fn new(count: usize) -> UpdateSet {
        UpdateSet {
            index: vec![0; count],
            list: Vec::new(),
            bad: false,
        }
    }
    #[inline]
    pub fn add(&mut self, p: &Program, l: u32, low: Value, high: Value) {
        let i = self.index[l as usize];
        if i == 0 {
            self.list.push((l, low, high));
            self.index[l as usize] = self.list.len() as u32;
            self.bad |= low != high || p.stray[l as usize];
        } else {
            let e = &mut self.list[i as usize - 1];
            e.1 = e.1.min(low);
            e.2 = e.2.max(high);
            self.bad |= e.1 != e.2;
        }
    }
    pub fn clear(&mut self) {
        for (l, _, _) in &self.list {
            self.index[*l as usize] = 0;
        }
        self.list.clear();
        self.bad = false;
    }
}
