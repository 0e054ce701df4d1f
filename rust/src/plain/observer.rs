//! Watches the plain machine and tells which integrators an engine has to move.

use super::TakenInstant;
use crate::engine::Engine;
use crate::limits::KIND_LIMIT;
use crate::plan::Plan;
use std::collections::BTreeSet;

/// For each source, what reads it directly. Reach then spreads upwards from the sources that an
/// instant sets, where document 01 looks downwards from each link; both describe one set.
#[derive(Clone, Debug)]
pub struct Observer {
    integrators: usize,
    reading_sources: Vec<Vec<usize>>,
    reading_integrators: Vec<Vec<usize>>,
}

impl Observer {
    /// The observer for a plan.
    pub fn of(plan: &Plan) -> Observer {
        let mut observer = Observer {
            integrators: plan.integrators.len(),
            reading_sources: vec![Vec::new(); plan.sources()],
            reading_integrators: vec![Vec::new(); plan.sources()],
        };
        for (number, node) in plan.nodes.iter().enumerate() {
            let source = plan.node_source(number);
            observer.reading_sources[node.a].push(source);
            // "B is 0 and names nothing" for kind 2.
            if node.kind != KIND_LIMIT {
                observer.reading_sources[node.b].push(source);
            }
        }
        for link in &plan.links {
            observer.reading_integrators[link.source].push(link.target);
        }
        observer
    }

    /// The integrators that step 5 moves: "those due or reached, the eager engine all".
    pub fn moved(&self, engine: Engine, taken: &TakenInstant) -> BTreeSet<usize> {
        match engine {
            Engine::Lazy => self.due_or_reached(taken),
            Engine::Eager => (0..self.integrators).collect(),
        }
    }

    fn due_or_reached(&self, taken: &TakenInstant) -> BTreeSet<usize> {
        let mut moved: BTreeSet<usize> = taken.due.iter().copied().collect();
        for source in self.touched_sources(taken) {
            moved.extend(&self.reading_integrators[source]);
        }
        moved
    }

    /// The sources set at an instant and every node above them, whether or not its value changes.
    fn touched_sources(&self, taken: &TakenInstant) -> BTreeSet<usize> {
        // Inputs are the sources after the integrators.
        let inputs = taken.commanded.iter().map(|input| self.integrators + input);
        let mut waiting: Vec<usize> = taken.due.iter().copied().chain(inputs).collect();
        let mut touched = BTreeSet::new();
        while let Some(source) = waiting.pop() {
            if touched.insert(source) {
                waiting.extend(&self.reading_sources[source]);
            }
        }
        touched
    }
}
