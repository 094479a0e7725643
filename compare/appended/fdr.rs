/// Competition's private methods.
pub mod opened {
    use super::*;

    /// The better side.
    pub fn score<Ix: Default + Send>(competition: &Competition<Ix>) -> f32 {
        competition.score()
    }

    /// Whether the decoy side wins.
    pub fn is_decoy<Ix: Default + Send>(competition: &Competition<Ix>) -> bool {
        competition.is_decoy()
    }

    /// The q-value of each name, and the count.
    pub fn assign_q_value<K, Ix, B>(
        scores: HashMap<K, Competition<Ix>, B>,
        threshold: f32,
    ) -> (HashMap<Ix, f32, B>, usize)
    where
        K: Eq + std::hash::Hash + Send,
        Ix: Default + Send + Eq + std::hash::Hash,
        B: BuildHasher + Default + Send,
    {
        Competition::assign_q_value(scores, threshold)
    }
}
