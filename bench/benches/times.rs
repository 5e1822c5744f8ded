//! Times of one call, by criterion: a group for each call, a line for each library.

use const_hex_bench::{cases, SIZES};
use criterion::{criterion_group, criterion_main, BenchmarkId, Criterion, Throughput};
use std::time::Instant;

/// The calls that are measured.
const CALLS: [&str; 7] = [
    "encode_to_slice",
    "encode",
    "encode_hex",
    "decode_to_slice",
    "decode",
    "check",
    "decode, last character invalid",
];

fn times(criterion: &mut Criterion) {
    for call in CALLS {
        let mut group = criterion.benchmark_group(call);
        for size in SIZES {
            group.throughput(Throughput::Bytes(size as u64));
            for case in cases(size).into_iter().filter(|case| case.call == call) {
                group.bench_function(BenchmarkId::new(case.library, size), |bencher| {
                    bencher.iter_custom(|count| {
                        let mut repeat = case.prepared();
                        let start = Instant::now();
                        repeat(count as usize);
                        start.elapsed()
                    })
                });
            }
        }
        group.finish();
    }
}

criterion_group!(all, times);
criterion_main!(all);
