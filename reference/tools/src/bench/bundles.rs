//! The bundles of the workloads in one file, for programs that time another build of the library.

use super::workloads::Workload;

/// How many workloads; then of each its name, how many bundles it has, and these. A name and a bundle
/// come after their length. Numbers are four bytes, the most significant first.
pub fn bundles_file(workloads: &[Workload]) -> Vec<u8> {
    let mut file = number(workloads.len());
    for workload in workloads {
        file.extend(sized(workload.name.as_bytes()));
        file.extend(number(workload.bundles.len()));
        for bundle in &workload.bundles {
            file.extend(sized(bundle));
        }
    }
    file
}

fn sized(bytes: &[u8]) -> Vec<u8> {
    let mut sized = number(bytes.len());
    sized.extend(bytes);
    sized
}

fn number(n: usize) -> Vec<u8> {
    u32::try_from(n)
        .expect("a length fits 32 bits")
        .to_be_bytes()
        .to_vec()
}
