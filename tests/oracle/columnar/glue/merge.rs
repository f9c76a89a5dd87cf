//! GLUE: the crate's merge.rs is not at hand. The name that it has to export is here the door to the statistics and the estimators, which
//! only a neighbour of `u64_based` can call.

use super::ColumnStats;
use super::u64_based::{CodecType, ColumnCodecEstimator, StatsCollector};

pub(crate) struct MergedColumnValues;

impl MergedColumnValues {
    pub(crate) fn stats(values: &[u64]) -> ColumnStats {
        let mut collector = StatsCollector::default();
        values.iter().for_each(|&value| collector.collect(value));
        collector.stats()
    }

    /// The crate's estimate, none where the codec does not apply.
    pub(crate) fn size(values: &[u64], codec: CodecType) -> Option<u64> {
        let mut estimator = codec.estimator();
        values.iter().for_each(|&value| estimator.collect(value));
        estimator.finalize();
        estimator.estimate(&Self::stats(values))
    }
}
