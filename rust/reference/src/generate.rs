//! Random inputs from a fixed seed: built forward to be mostly good, then damaged.

/// Terms of a given size.
pub mod terms;

/// Protocols, good ones and broken ones.
pub mod protocols;

/// Key exchanges.
pub mod exchanges;

/// Runs, built forward, and their edges.
pub mod runs;

/// Runs with many equal facts.
pub mod crowded;

/// Properties.
pub mod properties;

/// Faults in nodes, edges and properties.
pub mod faults;

/// Numbers of a file written in too many groups, or in as many as there may be.
pub mod numbers;

/// Damage to a file's bytes.
pub mod damage;

/// Inputs of the call canonical form.
pub mod canonical;

/// Inputs of the calls check and draw.
pub mod graphs;

/// Inputs of a verdict on a property.
pub mod judging;
