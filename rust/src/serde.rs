//! Builders and stores as data: a store is read by its builder, so that what is read is tested.

use crate::builder::ExpressionStoreBuilder;
use crate::nodes::Nodes;
use crate::store::ExpressionStore;
use serde::de::Error;
use serde::{Deserialize, Deserializer, Serialize, Serializer};

impl Serialize for ExpressionStoreBuilder {
    fn serialize<S: Serializer>(&self, serializer: S) -> Result<S::Ok, S::Error> {
        self.nodes.serialize(serializer)
    }
}

impl<'de> Deserialize<'de> for ExpressionStoreBuilder {
    fn deserialize<D: Deserializer<'de>>(
        deserializer: D,
    ) -> Result<ExpressionStoreBuilder, D::Error> {
        let mut nodes = Nodes::deserialize(deserializer)?;
        nodes.mend().map_err(D::Error::custom)?;
        Ok(ExpressionStoreBuilder { nodes })
    }
}

impl Serialize for ExpressionStore {
    fn serialize<S: Serializer>(&self, serializer: S) -> Result<S::Ok, S::Error> {
        self.nodes.serialize(serializer)
    }
}

/// The store that the builder of these nodes becomes, or the first fault of the builder.
impl<'de> Deserialize<'de> for ExpressionStore {
    fn deserialize<D: Deserializer<'de>>(deserializer: D) -> Result<ExpressionStore, D::Error> {
        let builder = ExpressionStoreBuilder::deserialize(deserializer)?;
        builder.finish().map_err(D::Error::custom)
    }
}

/// Maps as lists of pairs, since a key of JSON is a text.
pub(crate) mod pairs {
    use serde::{Deserialize, Deserializer, Serialize, Serializer};
    use std::collections::BTreeMap;

    pub(crate) fn serialize<K: Serialize, V: Serialize, S: Serializer>(
        map: &BTreeMap<K, V>,
        serializer: S,
    ) -> Result<S::Ok, S::Error> {
        serializer.collect_seq(map)
    }

    pub(crate) fn deserialize<'de, K, V, D>(deserializer: D) -> Result<BTreeMap<K, V>, D::Error>
    where
        K: Deserialize<'de> + Ord,
        V: Deserialize<'de>,
        D: Deserializer<'de>,
    {
        let pairs: Vec<(K, V)> = Vec::deserialize(deserializer)?;
        Ok(pairs.into_iter().collect())
    }
}
