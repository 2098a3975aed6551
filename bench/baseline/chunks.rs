//! Elements and parts worked in chunks, on a thread for each.
use crate::evaluator::{Done, Evaluator};
use crate::updates::UpdateSet;

/// Fewer elements or parts than these are worked by the thread that comes to them.
const LEAST: u64 = 32;

impl<'a> Evaluator<'a> {
    /// Works the numbers below the count: in as many chunks as there are children, where there are any and the numbers are many
    /// enough. A child has no children, so what stands below is worked whole.
    pub fn in_chunks<W>(&mut self, count: u64, out: &mut UpdateSet, work: W) -> Done
    where
        W: Fn(&mut Evaluator<'a>, u64, u64, &mut UpdateSet) -> Done + Sync,
    {
        if self.children.is_empty() || count < LEAST {
            return work(self, 0, count, out);
        }
        let mut children = std::mem::take(&mut self.children);
        let ends = self.each_chunk(&mut children, count, &work);
        let mut end = Ok(());
        for ((child, set), chunk_end) in children.iter_mut().zip(ends) {
            self.instances = self.instances.saturating_add(child.instances);
            for (l, low, high) in &set.list {
                out.add(self.p, *l, *low, *high);
            }
            set.clear();
            if end.is_ok() {
                end = chunk_end;
            }
        }
        self.children = children;
        end
    }

    /// How the chunks end, in their order. The first one is worked by the thread that is here.
    fn each_chunk<W>(
        &self,
        children: &mut [(Evaluator<'a>, UpdateSet)],
        count: u64,
        work: &W,
    ) -> Vec<Done>
    where
        W: Fn(&mut Evaluator<'a>, u64, u64, &mut UpdateSet) -> Done + Sync,
    {
        let chunks = children.len() as u64;
        let chunk = |k: u64, (child, set): &mut (Evaluator<'a>, UpdateSet)| {
            child.stand_where(self);
            work(child, count * k / chunks, count * (k + 1) / chunks, set)
        };
        let chunk = &chunk;
        std::thread::scope(|scope| {
            let mut all = (0..).zip(children.iter_mut());
            let first = all.next().unwrap();
            let started: Vec<_> = all
                .map(|(k, child)| {
                    std::thread::Builder::new()
                        .stack_size(1 << 26)
                        .spawn_scoped(scope, move || chunk(k, child))
                        .unwrap()
                })
                .collect();
            let mut ends = vec![chunk(first.0, first.1)];
            ends.extend(started.into_iter().map(|thread| thread.join().unwrap()));
            ends
        })
    }

    /// Takes over the state, the bindings and the place of another.
    fn stand_where(&mut self, other: &Evaluator<'a>) {
        self.state.clone_from(&other.state);
        self.stack.clone_from(&other.stack);
        self.top = other.top;
        self.place.clone_from(&other.place);
        self.instances = 0;
        self.step = other.step;
    }
}
