#!/bin/bash
# run.sh [COUNT]: builds the drivers over the library; holds the numbers of the header and the wrapper against the code's, the library's answers
# against the vectors, and against docs/SUITE.md where the cases of the public suite are given by SUITE=FILE; reads some hundred random job sheets with the
# library and with the model; scans COUNT random and damaged texts (default 10,000,000), takes the tokens of a fifth as many one at a time, and reads as many
# as job sheets; runs the program on inputs and outputs that fail, and kills it; sees that the checks fail where they should.
set -euo pipefail
suite=${SUITE:+$(realpath -e "$SUITE")}
cd "$(dirname "$0")/.."
out=target/tests
mkdir -p $out
bench/native.sh $out
for driver in fuzz answers stream stream_answers job job_answers; do
    gcc -O2 -Wall -Wextra -Iinclude tests/$driver.c -L$out -ltokenglade -o $out/$driver
done
rustc --edition 2021 --crate-type rlib examples/tokenglade.rs -L $out -l static=tokenglade -o $out/libtokenglade.rlib
rustc --edition 2021 tests/job_wrapper.rs --extern tokenglade=$out/libtokenglade.rlib -L $out -o $out/job_wrapper
python3 tools/constants.py
python3 tools/vector_files.py tests/vectors/{all,crate,stream,jobs}.txt
cmp tests/vectors/all.txt crates/replay/stdout
sed 's/ => / job => /' tests/vectors/jobs.txt | cat tests/vectors/stream.txt - | cmp - crates/restream/stdout
$out/answers < tests/vectors/all.txt > $out/answered
cmp $out/answered tests/vectors/all.txt
$out/stream_answers < tests/vectors/stream.txt > $out/streamed
cmp $out/streamed tests/vectors/stream.txt
$out/job_answers < tests/vectors/jobs.txt > $out/jobs
cmp $out/jobs tests/vectors/jobs.txt
echo "the library gives the vectors' answers"
python3 tools/stream_model.py tests/vectors/stream.txt > $out/modelled
cmp $out/modelled tests/vectors/stream.txt
python3 tools/job_model.py tests/vectors/jobs.txt > $out/modelled
cmp $out/modelled tests/vectors/jobs.txt
sheets=600
python3 tools/job_sheets.py 2 $sheets > $out/sheets
python3 tools/job_model.py $out/sheets > $out/modelled
$out/job_answers < $out/sheets > $out/jobs
cmp $out/jobs $out/modelled
[ "$(wc -l < $out/jobs)" = $sheets ] || { echo "not $sheets random job sheets" >&2; exit 1; }
echo "$sheets random job sheets, $(grep -c '|done' $out/jobs) of them done: the library and the model say the same"
$out/job_wrapper
[ -z "$suite" ] || python3 tools/suite.py "$suite" $out/answers
count=${1:-10000000}
$out/fuzz 1 "$count" tests/vectors/all.txt
$out/stream 1 $((count / 5)) tests/vectors/{stream,all}.txt
$out/job 1 $((count / 5)) tests/vectors/jobs.txt
program/build.sh $out/tokenglade
python3 tests/program.py $out/tokenglade
tests/must_fail.sh
