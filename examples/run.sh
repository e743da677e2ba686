#!/bin/bash
# run.sh [SHEET]: builds the library and the programs over it, in C and in Rust: listings of all tokens at once (list) and one at a time (next), and the job
# reader (job). Runs them on a sheet, and sees that they agree. Without SHEET it is sheet.yaml for the listings, job.yaml for the job.
set -euo pipefail
sheet=$(realpath -e "${1:-$(dirname "$0")/sheet.yaml}")
job=$(realpath -e "${1:-$(dirname "$0")/job.yaml}")
cd "$(dirname "$0")/.."
out=target/examples
mkdir -p $out
bench/native.sh $out
rustc --edition 2021 -O --crate-type rlib examples/tokenglade.rs -L $out -l static=tokenglade -o $out/libtokenglade.rlib
for name in list next job; do
    cc -O2 -Wall -Wextra -Iinclude examples/$name.c -L$out -ltokenglade -o $out/$name-c
    rustc --edition 2021 -O examples/$name.rs --extern tokenglade=$out/libtokenglade.rlib -L $out -o $out/$name-rust
done

# both NAME SHEET: whether the two programs of that name say the same, on standard error too; `status` is theirs. 0: accepted, or done; 1: refused, or not done;
# 4: done, and the list is empty. Anything else is no answer
both() {
    local c=0 rust=0
    $out/$1-c "$2" > $out/$1-c.said 2> $out/$1-c.why || c=$?
    $out/$1-rust "$2" > $out/$1-rust.said 2> $out/$1-rust.why || rust=$?
    cat $out/$1-c.why >&2
    if { [ "$c" -gt 1 ] && [ "$c" != 4 ]; } || [ "$c" != "$rust" ]; then
        echo "$1: status $c in C, $rust in Rust" >&2
        exit 1
    fi
    cmp $out/$1-c.said $out/$1-rust.said
    cmp $out/$1-c.why $out/$1-rust.why
    status=$c
}

# seeds and a closing record, which has their count
both job "$job"
cat $out/job-c.said
count=$(($(wc -l < $out/job-c.said) - 1))
case $status:$(tail -n 1 $out/job-c.said) in
    "0:done $count" | "4:done 0") job_says="done" ;;
    "1:not done "*" $count") job_says="not done" ;;
    *) echo "job: status $status, and its last line has not the count of its seeds, $count" >&2; exit 1 ;;
esac
echo "both job readers say the same: $job_says"

both list "$sheet"
listed=$status
cat $out/list-c.said
both next "$sheet"
if [ "$sheet" = "$job" ] && [ $status != 0 ] && [ "$job_says" = "done" ]; then
    echo "next refuses the sheet, and its job is done" >&2
    exit 1
fi
if [ $status = $listed ] && [ $status = 0 ]; then
    cmp $out/list-c.said $out/next-c.said
    echo "all listings say the same"
    exit
fi
if [ $status = 0 ]; then
    echo "list refuses the sheet, and next accepts it" >&2
    exit 1
fi
# next refuses: some tokens, then why
head -n -1 $out/next-c.said > $out/next.given
tail -n 1 $out/next-c.said > $out/next.refusal
if [ $listed = 1 ] && cmp -s $out/list-c.said $out/next.refusal; then
    echo "all listings refuse the sheet, and say the same of it"
elif grep -q '^refused (51)' $out/next.refusal; then
    [ $listed = 1 ] || cmp -n "$(stat -c %s $out/next.given)" $out/next.given $out/list-c.said
    echo "next stops before list does: $(cat $out/next.refusal)"
else
    echo "next says something else than list: $(cat $out/next.refusal)" >&2
    exit 1
fi
