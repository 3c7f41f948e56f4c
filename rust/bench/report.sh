#!/usr/bin/env bash
# report.sh: the benchmark as markdown: the machine and its noise, times beside the twin's, and instructions counted by valgrind
# where it is there. Run by hand on a quiet machine; a few minutes.
set -eu
cd "$(dirname "$0")/.."
root=$(cd .. && pwd)
if [ "$(uname -m)" != x86_64 ] && [ -z "${GOLEUTHAN_LIBRARY:-}" ]; then
    sh bench/native.sh >&2
    export GOLEUTHAN_LIBRARY=$root/target/native
fi
export CARGO_TARGET_DIR=$root/target/cargo-bench
cargo build --release --offline --locked -p bench >&2
bench=$CARGO_TARGET_DIR/release/bench

echo "- Machine: $(uname -m), $(lscpu | sed -n 's/^Model name: *//p' | head -n 1), $(nproc) processors."
echo "- Compilers: $(rustc --version); library $(if [ "$(uname -m)" = x86_64 ]; then echo 'as shipped'; else echo 'compiled for this machine from the module that the shipped one is made of'; fi)."
echo "- Load of the machine before the run (1, 5 and 15 minutes): $(cut -d ' ' -f 1-3 /proc/loadavg)."
echo "- A time is the median of 301 repetitions of about half a millisecond or more, library and twin by turns; the ratio is the median of the turns' ratios; a spread is from the first to the third quartile."
echo
"$bench"
echo
echo "For scale, beside what a user might have taken instead, measured in the same way. These do less:"
echo "- The interval map is a BTreeMap of segments for each domain, in plain Rust, given the same rights. It allocates,"
echo "  checks nothing of what it finds, and a cut in the middle of a change leaves it broken."
echo "- \`mprotect\` gives one page a right, in the kernel's own structures, for one process: pages and not words, and"
echo "  nothing that outlives a power cut; but then the processor itself refuses the access."
echo
"$bench" others
echo
echo "- Load of the machine after the run: $(cut -d ' ' -f 1-3 /proc/loadavg)."

command -v valgrind >/dev/null || exit 0

# instructions CASE SUBJECT TIMES: how many instructions a whole run of the case takes.
instructions() {
    valgrind --tool=callgrind --callgrind-out-file=/dev/null "$bench" "$1" "$2" "$3" 2>&1 |
        sed -n 's/.*Collected : \([0-9]*\).*/\1/p'
}

# per_run CASE SUBJECT: instructions of one run; the making of the pool cancels out.
per_run() {
    local few many
    few=$(instructions "$1" "$2" 4)
    many=$(instructions "$1" "$2" 24)
    echo $(((many - few) / 20))
}

echo
echo "| Case | Instructions, library | Instructions, twin | Ratio |"
echo "|---|---|---|---|"
for case in $("$bench" cases); do
    library=$(per_run "$case" library)
    twin=$(per_run "$case" twin)
    echo "| $case | $library | $twin | $(awk "BEGIN { printf \"%.2f\", $library / $twin }") |"
done
