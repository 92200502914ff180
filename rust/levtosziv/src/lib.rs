//! The proved calls, safe to use from Rust. What the C header asks of a caller, Rust's types ensure: the slices do not overlap, and
//! each pointer is good for its length.
//!
//! Document 01's printed case, a party that sends its secret in the clear:
//!
//! ```
//! use levtosziv::{Ruling, Work};
//!
//! let protocol = [0, 1, 1, 0, 1, 1, 1, 1, 0, 0, 0, 1, 4, 0, 0, 1, 2, 0, 0];
//! let property = [12, 2, 0, 3, 4, 0, 0, 1, 12, 1, 3, 3, 0, 0, 2, 0];
//! let steps = [4, 0, 2, 7, 31, 2, 7, 1, 2, 7, 2, 2, 7];
//!
//! let mut work = Work::new();
//! let mut graph = vec![0; levtosziv::GRAPH_BYTES];
//! let length = work.draw(&protocol, &steps, &mut graph)?;
//! match work.check(&protocol, &property, &graph[..length])? {
//!     Ruling::Attack(counts) => assert_eq!((counts.nodes, counts.edges), (4, 3)),
//!     Ruling::Run(_) => unreachable!("the secret is sent"),
//! }
//! # Ok::<(), levtosziv::Refusal>(())
//! ```
//!
//! A call needs stack beside its work area: checking was measured to need 573 KB at most, so a thread with 1 MB left has enough.

#![deny(missing_docs)]

mod refusal;

pub use refusal::{Cause, Refusal};

/// The bytes of a work area; a longer one does no harm.
pub const WORK_BYTES: usize = 65_536;
/// The most bytes of a protocol file.
pub const PROTOCOL_BYTES: usize = 4_096;
/// The most bytes of a property file.
pub const PROPERTY_BYTES: usize = 1_024;
/// The most bytes of a steps file.
pub const STEPS_BYTES: usize = 32_768;
/// The most bytes of a graph file; an output of so many is long enough for every graph.
pub const GRAPH_BYTES: usize = 61_440;
/// The most bytes of a term file; an output of so many is long enough for every canonical form. (Its 256 symbols never take more than 1,024.)
pub const TERM_BYTES: usize = 1_280;
/// The largest number that a file can hold, be it a name's or any other: `FF FF FF 7F`, four groups of seven bits.
pub const LARGEST_NUMBER: u32 = 268_435_455;

/// "nodes, nodes with an action, edges"
#[derive(Clone, Copy, Debug, PartialEq, Eq)]
pub struct Counts {
    /// The nodes of the graph.
    pub nodes: u32,
    /// Those of them whose rule has an action.
    pub with_action: u32,
    /// The edges of the graph.
    pub edges: u32,
}

/// What checking says of an accepted graph.
#[derive(Clone, Copy, Debug, PartialEq, Eq)]
pub enum Ruling {
    /// The property is false of the graph's trace.
    Attack(Counts),
    /// The property holds of it.
    Run(Counts),
}

extern "C" {
    fn levtosziv_check(
        protocol: *const u8,
        protocol_length: usize,
        property: *const u8,
        property_length: usize,
        graph: *const u8,
        graph_length: usize,
        work: *mut u8,
        work_length: usize,
    ) -> u64;

    fn levtosziv_draw(
        protocol: *const u8,
        protocol_length: usize,
        steps: *const u8,
        steps_length: usize,
        output: *mut u8,
        output_length: usize,
        work: *mut u8,
        work_length: usize,
    ) -> u64;

    fn levtosziv_canonical(
        protocol: *const u8,
        protocol_length: usize,
        term: *const u8,
        term_length: usize,
        output: *mut u8,
        output_length: usize,
        work: *mut u8,
        work_length: usize,
    ) -> u64;
}

/// The refusal that a C function packs into its answer.
fn refusal(answer: u64) -> Refusal {
    Refusal {
        number: (answer >> 32) as u32,
        item: answer as u32,
    }
}

/// The outcome of drawing or of canonical form.
fn written(answer: u64) -> Result<usize, Refusal> {
    match answer >> 56 {
        0 => Err(refusal(answer)),
        3 => Ok(answer as u32 as usize),
        other => unreachable!("no outcome has the number {other}"),
    }
}

/// The outcome of checking.
fn ruling(answer: u64) -> Result<Ruling, Refusal> {
    let counts = Counts {
        nodes: u32::from((answer >> 32) as u16),
        with_action: u32::from((answer >> 16) as u16),
        edges: u32::from(answer as u16),
    };
    match answer >> 56 {
        0 => Err(refusal(answer)),
        1 => Ok(Ruling::Attack(counts)),
        2 => Ok(Ruling::Run(counts)),
        other => unreachable!("no outcome has the number {other}"),
    }
}

/// Rules on the graph under the protocol, and judges the property over its trace.
///
/// ```
/// let mut work = vec![0; levtosziv::WORK_BYTES];
/// let refused = levtosziv::check(&[0, 0, 0], &[0], &[], &mut work).unwrap_err();
/// assert_eq!(refused.to_string(), "refused 3 3: a file is not laid out as one of its kind (the graph)");
/// ```
pub fn check(
    protocol: &[u8],
    property: &[u8],
    graph: &[u8],
    work: &mut [u8],
) -> Result<Ruling, Refusal> {
    // SAFETY: each pointer is that of a slice with the length beside it, and the borrows keep the slices apart.
    ruling(unsafe {
        levtosziv_check(
            protocol.as_ptr(),
            protocol.len(),
            property.as_ptr(),
            property.len(),
            graph.as_ptr(),
            graph.len(),
            work.as_mut_ptr(),
            work.len(),
        )
    })
}

/// Writes the graph of the steps, which are a run of the protocol, to the start of the output; gives its length.
///
/// ```
/// let mut work = vec![0; levtosziv::WORK_BYTES];
/// let mut output = [0xFF; 4];
/// assert_eq!(levtosziv::draw(&[0, 0, 0], &[0], &mut output, &mut work), Ok(2));
/// assert_eq!(output, [0, 0, 0xFF, 0xFF]); // no nodes, no edges
/// ```
///
/// The graph is the steps' bytes and the edges behind them. For each premise, nodes in order and premises in order, an edge comes from the
/// lowest node and then the lowest conclusion that is equal and, if linear, still unused. So the same steps give the same bytes, whatever
/// output and work area are lent:
///
/// ```
/// // Rule 31 makes a linear fact twice, rule 32 takes it twice.
/// let protocol = [0, 1, 0, 0, 2, 0, 0, 0, 2, 4, 4, 0, 2, 4, 4, 0, 0];
/// let steps = [3, 31, 31, 32];
/// let mut work = levtosziv::Work::new();
/// let (mut exact, mut longer) = ([0; 13], [0xFF; 100]);
/// work.draw(&protocol, &steps, &mut exact)?;
/// let length = work.draw(&protocol, &steps, &mut longer)?;
/// assert_eq!(longer[..length], exact);
/// assert_eq!(exact[4..], [2, 1, 1, 3, 1, 1, 2, 3, 2]); // 1.1 to 3.1, 1.2 to 3.2
/// # Ok::<(), levtosziv::Refusal>(())
/// ```
pub fn draw(
    protocol: &[u8],
    steps: &[u8],
    output: &mut [u8],
    work: &mut [u8],
) -> Result<usize, Refusal> {
    // SAFETY: each pointer is that of a slice with the length beside it, and the borrows keep the slices apart.
    written(unsafe {
        levtosziv_draw(
            protocol.as_ptr(),
            protocol.len(),
            steps.as_ptr(),
            steps.len(),
            output.as_mut_ptr(),
            output.len(),
            work.as_mut_ptr(),
            work.len(),
        )
    })
}

/// Writes the canonical form of the term file's term, read under the protocol, to the start of the output; gives its length.
///
/// ```
/// let mut work = vec![0; levtosziv::WORK_BYTES];
/// let mut output = [0; levtosziv::TERM_BYTES];
/// let inverse_of_one = [11, 3];
/// let length = levtosziv::canonical_form(&[0, 0, 0], &inverse_of_one, &mut output, &mut work)?;
/// assert_eq!(output[..length], [3]);
/// # Ok::<(), levtosziv::Refusal>(())
/// ```
///
/// The functions of tags 3 to 12, and those of public keys and signatures, 29 to 34, are there under every protocol; tags 13 to 28 are
/// those that it declares:
///
/// ```
/// let mut work = levtosziv::Work::new();
/// let mut output = [0; levtosziv::TERM_BYTES];
/// let verified = [33, 32, 2, 1, 2, 0, 2, 1, 31, 2, 0]; // verify(sign(m, k), m, pk(k))
/// let length = work.canonical_form(&[0, 0, 0], &verified, &mut output)?;
/// assert_eq!(output[..length], [34]); // true
/// # Ok::<(), levtosziv::Refusal>(())
/// ```
pub fn canonical_form(
    protocol: &[u8],
    term: &[u8],
    output: &mut [u8],
    work: &mut [u8],
) -> Result<usize, Refusal> {
    // SAFETY: each pointer is that of a slice with the length beside it, and the borrows keep the slices apart.
    written(unsafe {
        levtosziv_canonical(
            protocol.as_ptr(),
            protocol.len(),
            term.as_ptr(),
            term.len(),
            output.as_mut_ptr(),
            output.len(),
            work.as_mut_ptr(),
            work.len(),
        )
    })
}

/// A work area of its own, for any number of calls.
///
/// ```
/// let mut work = levtosziv::Work::new();
/// assert!(work.check(&[0, 0, 0], &[0], &[0, 0]).is_ok());
/// ```
#[derive(Clone, Debug)]
pub struct Work(Box<[u8]>);

impl Work {
    /// An area of [`WORK_BYTES`].
    pub fn new() -> Self {
        Work(vec![0; WORK_BYTES].into_boxed_slice())
    }

    /// As [`check`].
    pub fn check(
        &mut self,
        protocol: &[u8],
        property: &[u8],
        graph: &[u8],
    ) -> Result<Ruling, Refusal> {
        check(protocol, property, graph, &mut self.0)
    }

    /// As [`draw`].
    pub fn draw(
        &mut self,
        protocol: &[u8],
        steps: &[u8],
        output: &mut [u8],
    ) -> Result<usize, Refusal> {
        draw(protocol, steps, output, &mut self.0)
    }

    /// As [`canonical_form`].
    pub fn canonical_form(
        &mut self,
        protocol: &[u8],
        term: &[u8],
        output: &mut [u8],
    ) -> Result<usize, Refusal> {
        canonical_form(protocol, term, output, &mut self.0)
    }
}

impl Default for Work {
    fn default() -> Self {
        Work::new()
    }
}

#[cfg(test)]
mod tests {
    use super::*;

    /// The C header has the same figures.
    #[test]
    fn the_header_says_the_same() {
        let header = include_str!("../../../include/levtosziv.h");
        let figures = [
            ("WORK_BYTES", WORK_BYTES),
            ("PROTOCOL_BYTES", PROTOCOL_BYTES),
            ("PROPERTY_BYTES", PROPERTY_BYTES),
            ("STEPS_BYTES", STEPS_BYTES),
            ("GRAPH_BYTES", GRAPH_BYTES),
            ("TERM_BYTES", TERM_BYTES),
            ("LARGEST_NUMBER", LARGEST_NUMBER as usize),
        ];
        for (name, figure) in figures {
            let said = format!("    LEVTOSZIV_{name} = {figure}");
            let mut lines = header.lines().map(|line| line.trim_end_matches(','));
            assert!(lines.any(|line| line == said), "{said}");
        }
    }

    /// A public name, as a term file has it.
    fn name(number: u32) -> Vec<u8> {
        let mut bytes = vec![1];
        let mut rest = number;
        while rest > 0x7F {
            bytes.push(0x80 | rest as u8);
            rest >>= 7;
        }
        bytes.push(rest as u8);
        bytes
    }

    #[test]
    fn figures_are_the_calls_own() {
        let mut work = Work::new();
        let mut output = [0; TERM_BYTES];
        let mut form = |term: &[u8]| {
            let length = work.canonical_form(&[0, 0, 0], term, &mut output);
            length.map(|length| output[..length].to_vec())
        };
        let refused = |cause: Cause| {
            Err(Refusal {
                number: cause as u32,
                item: 4,
            })
        };
        assert_eq!(form(&name(LARGEST_NUMBER)), Ok(name(LARGEST_NUMBER)));
        assert_eq!(form(&name(LARGEST_NUMBER + 1)), refused(Cause::Layout));
        assert_eq!(form(&[0; TERM_BYTES]), refused(Cause::Layout));
        assert_eq!(form(&[0; TERM_BYTES + 1]), refused(Cause::FileTooLong));
    }
}
