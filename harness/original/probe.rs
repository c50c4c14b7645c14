

// ---- Added behind the unchanged reasoner.rs by build.sh: reading only, plus the puts. ----

/// What lib.rs reads from a `Reasoner`, and how it puts terms before a load.
#[allow(dead_code)]
impl Reasoner {
    /// Puts a term, as `load_triples` would at its first appearance.
    pub fn probe_put(&mut self, t: Term) -> URI {
        self.index.put(t)
    }

    /// A held term.
    pub fn probe_get(&self, id: URI) -> Option<Term> {
        self.index.get(id).cloned()
    }

    /// The body of `load_triples` after its puts, for triples that `oxrdf::Triple` cannot
    /// carry (a literal as subject, a blank node or literal as predicate).
    pub fn probe_load_keyed(&mut self, mut trips: Vec<KeyedTriple>) {
        assert!(!self.is_materialized);
        trips.sort_unstable();
        self.input.sort_unstable();
        get_unique(&self.input, &mut trips);
        self.add_base_triples(trips);
    }

    /// The keyed `input`: after `reason`, the answer, sorted.
    pub fn probe_input(&self) -> &[KeyedTriple] {
        &self.input
    }

    /// All of the closure, triples with a zero id too, sorted.
    pub fn probe_closure(&self) -> Vec<KeyedTriple> {
        let mut all: Vec<KeyedTriple> = Vec::new();
        for batch in self.spo.stable.borrow().iter() {
            all.extend(batch.iter().cloned());
        }
        all.sort_unstable();
        all
    }
}
