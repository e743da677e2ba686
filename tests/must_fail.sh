#!/bin/bash
# must_fail.sh: sees that each check passes, and fails on each damage that is done to it. Wants the library that tests/run.sh builds, and works on a copy.
set -euo pipefail
unset SUITE BENCH_OUT CRATE
cd "$(dirname "$0")/.."
tree=$PWD
library=$tree/target/tests/libtokenglade.a
[ -e "$library" ] || { echo "$library: tests/run.sh builds it" >&2; exit 2; }
top=$(mktemp -d)
trap 'rm -rf "$top"' EXIT
copy=$top/copy
count=0

# The checks with what they read. The library is there, and this script is not run again.
fresh() {
    rm -rf "$copy"
    mkdir -p "$copy"/crates/{replay,restream,yaml_job/specs,{records,driver,stream,job,tokenglade}/src}
    cp -r "$tree"/{bench,docs,examples,include,tests,tools} "$copy/"
    for f in {replay,restream}/stdout {records,stream,job,tokenglade}/src/lib.rt driver/src/held.rt job/src/own.rt yaml_job/specs/Job.antt; do
        cp "$tree/crates/$f" "$copy/crates/$f"
    done
    printf '#!/bin/sh\nmkdir -p "$1" && cp "%s" "$1/"\n' "$library" > "$copy/bench/native.sh"
    # the program has its own checks below
    mkdir "$copy/program"
    for f in tests/must_fail.sh tests/program.py program/build.sh; do printf '#!/bin/sh\n' > "$copy/$f"; done
    chmod +x "$copy/program/build.sh"
    cd "$copy"
}

# passes COMMAND..: as it should be
passes() {
    bash -c "$*" > "$top/said" 2>&1 || { echo "fails: $*" >&2; tail -5 "$top/said" >&2; exit 1; }
}

# fails COMMAND..: with any damage that was done before. A check that falls over, as a signal or Python tell it, has not told what is wrong
fails() {
    local status=0
    bash -c "$*" > "$top/said" 2>&1 || status=$?
    if [ $status = 0 ] || [ $status -gt 125 ] || grep -q "^Traceback" "$top/said"; then
        echo "status $status: $*" >&2
        tail -5 "$top/said" >&2
        exit 1
    fi
    count=$((count + 1))
}

# said WORDS: by the last command that was run
said() {
    grep -qF "$*" "$top/said" || { echo "not said: $*" >&2; tail -5 "$top/said" >&2; exit 1; }
}

# damaged FILE SED COMMAND..: the command fails with the file so edited, and the edit does something
damaged() {
    local file=$1 edit=$2
    shift 2
    cp "$file" "$top/kept"
    sed -i "$edit" "$file"
    if cmp -s "$file" "$top/kept"; then
        echo "no damage to $file: $edit" >&2
        exit 1
    fi
    fails "$@"
    cp "$top/kept" "$file"
}

vectors=tests/vectors/all.txt
fresh

passes tests/run.sh 10
passes "cd /; SUITE= '$copy/tests/run.sh' 10"
fails tests/run.sh ten
fails SUITE=nowhere tests/run.sh 10
damaged $vectors '$d' tests/run.sh 10
damaged $vectors '1s/ => \(.\) [0-9]*/ => \1 99/' tests/run.sh 10
damaged $vectors '2,$d' tests/run.sh 10
damaged $vectors 'd' tests/run.sh 10
damaged tests/must_fail.sh 's/.*/exit 1/' tests/run.sh 10
damaged bench/native.sh 's/.*/exit 1/' tests/run.sh 10
# a library that accepts every text with no token, and whose jobs are done
cat > none.c <<'C'
#include "tokenglade.h"
void tokenglade_scan(const uint8_t *t, size_t n, uint32_t *w, size_t m, uint8_t *b, size_t k, uint32_t a[6]) {
    (void)t, (void)n, (void)w, (void)m, (void)b, (void)k;
    for (int i = 0; i < 6; i++)
        a[i] = 0;
}
void tokenglade_next(uint32_t *s, const uint8_t *t, size_t n, uint32_t *w, size_t m, uint8_t *b, size_t k, uint32_t *r, uint32_t *a) {
    (void)s, (void)t, (void)n, (void)w, (void)m, (void)b, (void)k;
    for (int i = 0; i < TOKENGLADE_RECORD_WORDS; i++)
        r[i] = 0;
    for (int i = 0; i < 5; i++)
        a[i] = 0;
}
void tokenglade_job(uint32_t *s, const uint8_t *t, size_t n, uint32_t *w, size_t m, uint8_t *b, size_t k, uint32_t *d, uint32_t *c) {
    (void)s, (void)t, (void)n, (void)w, (void)m, (void)b, (void)k;
    d[0] = d[1] = 0;
    for (int i = 0; i < 7; i++)
        c[i] = i == 0;
}
C
passes "gcc -Iinclude -c none.c -o none.o && ar rcs libnone.a none.o"
damaged bench/native.sh "s|cp .*|cp $copy/libnone.a \"\$1/libtokenglade.a\"|" tests/run.sh 10
passes "gcc -Iinclude tests/fuzz.c libnone.a -o fuzz-none"
fails ./fuzz-none 1 10 $vectors

stream=tests/vectors/stream.txt
passes "objcopy --redefine-sym tokenglade_next=real_next '$library' libreal.a"
faulty() {
    passes "gcc -Iinclude -DFAULT=$1 tests/stream.c tests/stream_faults.c libreal.a -o stream-faulty"
}
faulty 0
passes ./stream-faulty 1 10 $stream
for fault in $(seq 14); do
    faulty $fault
    fails ./stream-faulty 1 10 $stream
done
damaged $stream '$d' tests/run.sh 10
damaged $stream '3s/E$/R 47 0 1 0/' tests/run.sh 10
damaged tools/stream_model.py 's/> MOST_WAITING/>= MOST_WAITING/' tests/run.sh 10

jobs=tests/vectors/jobs.txt
passes "objcopy --redefine-sym tokenglade_job=real_job '$library' libreader.a"
# a library whose job reader has a fault
reading() {
    passes "cp libreader.a libreading.a && gcc -Iinclude -DFAULT=$1 -c tests/job_faults.c && ar rs libreading.a job_faults.o"
}
reads="gcc -O2 -Iinclude tests/job.c -L. -lreading -o job-faulty && ./job-faulty 1 10 $jobs"
reading 0
passes $reads
for fault in $(seq 30); do
    reading $fault
    fails $reads
done
said "closed before a seed"
# what it is held against can have faults too
against() {
    fails "gcc -O2 -Iinclude $1 tests/job.c $2 -o job-faulty && ./job-faulty 1 10 $jobs"
}
against -DFAULT=1 "tests/stream_faults.c libreal.a"
said "something else than by the one call's tokens"
against -DFAULT=7 "tests/stream_faults.c libreal.a"
said "more tokens than demand 3 allows"
against -DFAULT=10 "tests/stream_faults.c libreal.a"
said "no such refusal in room enough"
cat > refusing.c <<'C'
#include "tokenglade.h"
void tokenglade_scan(const uint8_t *t, size_t n, uint32_t *w, size_t m, uint8_t *b, size_t k, uint32_t a[6]) {
    (void)t, (void)n, (void)w, (void)m, (void)b, (void)k;
    for (int i = 0; i < 6; i++)
        a[i] = i == 0 ? 47 : i == 2;
}
C
passes "objcopy --redefine-sym tokenglade_scan=real_scan '$library' librefusing.a && gcc -Iinclude -c refusing.c && ar rs librefusing.a refusing.o"
against "" librefusing.a
said "done, and the text is refused"
damaged $jobs '$d' tests/run.sh 10
damaged $jobs '3s/done 1$/done 2/' tests/run.sh 10
damaged tools/job_model.py 's/> MOST_SEED/>= MOST_SEED/' tests/run.sh 10
reading 31
damaged bench/native.sh "s|cp .*|cp $copy/libreading.a \"\$1/libtokenglade.a\"|" tests/run.sh 10
said "target/tests/jobs target/tests/modelled differ"
damaged tools/stream_model.py 's/scanner.tokens\[-1\]\[2\]/scanner.mark()/' tests/run.sh 10
said "target/tests/modelled tests/vectors/stream.txt differ"
damaged tools/job_sheets.py 's/print(line(r))/pass/' tests/run.sh 10
said "not 600 random job sheets"
damaged tests/job_wrapper.rs 's/Ok(3)/Ok(4)/' tests/run.sh 10

fuzz=target/tests/fuzz answers=target/tests/answers
passes tests/run.sh 10
passes $fuzz 1 10 $vectors
fails $fuzz 1
fails $fuzz 1 10x $vectors
fails $fuzz one 10 $vectors
fails $fuzz 1 10 /dev/null
fails $fuzz 1 10 nowhere
fails "$fuzz 1 10 $vectors > /dev/full"
damaged $vectors '7s/^[^ ]*/C3A9/' $fuzz 1 10 $vectors
{ head -c 131074 /dev/zero | tr '\0' 6; echo; } > long
fails $fuzz 1 10 long
passes "echo c3a9 | $answers"
fails "echo C3A9 | $answers"
fails "echo c3a | $answers"
fails "echo c3a9 A | $answers"
fails "printf c3a9 | $answers"
fails "echo c3a9 | $answers > /dev/full"
streamed=target/tests/stream_answers
passes "echo c3a9 words=52800 bytes=2 | $streamed"
fails "echo c3a9 words=52800 | $streamed"
fails "echo c3a9 | $streamed"
fails "echo c3a9 words=52800 bytes=2 | $streamed > /dev/full"
fails target/tests/stream 1 10 nowhere
fails "target/tests/stream 1 10 $stream > /dev/full"
read_jobs=target/tests/job_answers
passes "echo c3a9 words=52800 bytes=2 | $read_jobs"
fails "echo c3a9 words=52800 | $read_jobs"
fails "echo c3a9 | $read_jobs"
fails "echo c3a9 words=52800 bytes=2 | $read_jobs > /dev/full"
fails target/tests/job 1 10 nowhere
fails "target/tests/job 1 10 $jobs > /dev/full"
fails python3 tools/job_sheets.py 1
fails python3 tools/job_sheets.py 1 ten

passes python3 tools/constants.py
fails python3 tools/constants.py 1
damaged include/tokenglade.h 's/STATE 18/STATE 19/' python3 tools/constants.py
damaged include/tokenglade.h 's/4400/4399/' tests/run.sh 10
damaged examples/tokenglade.rs 's/= 1809/= 1810/' python3 tools/constants.py
damaged crates/stream/src/lib.rt 's/4_400/4_401/' python3 tools/constants.py
damaged crates/records/src/lib.rt '/^pub const RECORD_WORDS/d' python3 tools/constants.py
damaged include/tokenglade.h 's/JOB_STATE 1820/JOB_STATE 1821/' python3 tools/constants.py
damaged include/tokenglade.h 's/closing\[7\])/closing[6])/' python3 tools/constants.py
damaged include/tokenglade_names.h 's/4,294,967,295/4,294,967,296/' python3 tools/constants.py
damaged examples/tokenglade.rs 's/= 1820/= 1819/' python3 tools/constants.py
damaged examples/tokenglade.rs 's/SEED_WORDS: usize = 2/SEED_WORDS: usize = 3/' python3 tools/constants.py
damaged crates/tokenglade/src/lib.rt 's/closing: &mut \[u32; 7\]/closing: \&mut [u32; 8]/' python3 tools/constants.py
damaged crates/job/src/own.rt 's/OWN_WORDS: usize = 11/OWN_WORDS: usize = 12/' python3 tools/constants.py
damaged crates/job/src/lib.rt 's/HELD_WORDS + OWN_WORDS/HELD_WORDS + MORE_WORDS/' python3 tools/constants.py
said "MORE_WORDS is not known"

# what the wrapper says of jobs, and what it lets nobody pass over
wrapper="rustc --edition 2021 --crate-type rlib examples/tokenglade.rs -L target/tests -l static=tokenglade -o libtokenglade.rlib"
uses() {
    echo "$wrapper && rustc --edition 2021 -D unused_must_use $1 --extern tokenglade=libtokenglade.rlib -L target/tests -o uses && ./uses"
}
passes "$(uses tests/job_wrapper.rs)"
damaged examples/tokenglade.rs 's/return Err(left);/self.by_ref().for_each(drop);/' "$(uses tests/job_wrapper.rs)"
damaged examples/tokenglade.rs 's/if let Some(Ok(_)) = self.next()/if self.closed.is_none()/' "$(uses tests/job_wrapper.rs)"
damaged examples/tokenglade.rs 's/closed.err().map(Err)/None/' "$(uses tests/job_wrapper.rs)"
damaged examples/tokenglade.rs 's/self.handed = running;/self.handed = 0;/' "$(uses tests/job_wrapper.rs)"
careless() {
    printf '#![allow(unused_mut, unused_variables)]\nfn main() {\n    let mut job = tokenglade::Job::new(b"", &mut [], &mut []);\n    %s\n}\n' "$1" > careless.rs
}
careless 'for seed in &mut job { seed.unwrap_err(); } job.finish().unwrap_err();'
passes "$(uses careless.rs)"
careless 'job.finish();'
fails "$(uses careless.rs)"
said 'unused `Result` that must be used'
careless 'tokenglade::Job::new(b"", &mut [], &mut []);'
fails "$(uses careless.rs)"
said 'a job is read as its seeds are taken'
careless 'for seed in &mut job { let value: u32 = seed.value; }'
fails "$(uses careless.rs)"
said 'no field `value`'

passes python3 tools/vector_files.py $vectors
fails python3 tools/vector_files.py nowhere
damaged $vectors '3s/ => .*//' python3 tools/vector_files.py $vectors
damaged tests/vectors/counts.txt 's/5/6/' python3 tools/vector_files.py $vectors

# what the definition gives is not computed here: that takes minutes
fails python3 tools/definition_check.py nowhere
fails python3 tools/definition_check.py /dev/null
fails python3 tools/definition_check.py README.md
fails python3 tools/definition_check.py --max -1 $vectors
damaged $vectors '$d' python3 tools/definition_check.py $vectors

differences="python3 tools/differences.py"
passes $differences
damaged $vectors '5s/[0-9]*$/7/' $differences
damaged tests/vectors/crate.txt 'd' $differences
damaged tests/vectors/crate.txt '$d' $differences
damaged tests/vectors/crate.txt '1s/;1 0 1 0/;1 1 1 1/' $differences
damaged docs/DIFFERENCES.md 'd' $differences
damaged docs/DIFFERENCES.md '/^| S1/d' $differences
damaged docs/DIFFERENCES.md '/^| S1/s/BlockEntry@2/BlockEntry@3/' $differences
damaged docs/DIFFERENCES.md '/^| P2/s/| [^|]*|$/| two scalars |/' $differences
damaged docs/DIFFERENCES.md '/^| C1/s/| [^|]*|$/|/' $differences
damaged docs/DIFFERENCES.md '/^| C1/s/43 at/44 at/' $differences
damaged docs/DIFFERENCES.md '/^| V1/s/^| V1/| V2/' $differences

printf 'A1 valid 61\nB2 valid 0961\nC3 error 5b\nD4 valid \n' > cases.txt
printf '| valid | 2 | 1 |\n| not valid | 0 | 1 |\n| B2 | `⇥a` | 45 at (0,1,0) | K1 |\n' > docs/SUITE.md
suite="python3 tools/suite.py cases.txt $answers"
passes $suite
damaged docs/SUITE.md '1s/2/3/' $suite
damaged docs/SUITE.md '$d' $suite
damaged docs/SUITE.md '$s/45/44/' $suite
damaged docs/SUITE.md '$a| E5 | `a` | 45 at (0,1,0) | K1 |' $suite
damaged cases.txt '2s/.*/B2 valid C3A9/' $suite
damaged cases.txt '2s/valid/good/' $suite
damaged cases.txt '$d' $suite
damaged cases.txt 'd' $suite
fails python3 tools/suite.py cases.txt /bin/true
fails python3 tools/suite.py cases.txt /bin/false

passes examples/run.sh
passes "cd examples && '$copy/examples/run.sh' sheet.yaml"
fails examples/run.sh nowhere
fails examples/run.sh examples
damaged examples/print.h 's/printf(" \\"");/printf("\\"");/' examples/run.sh
damaged examples/next.c 's/print_token(token,.*/if (token[0] != 16) &/' examples/run.sh
damaged examples/next.rs 's/Stream::new(.*)/&.skip(1)/' examples/run.sh
printf 'a: [b, @\n' > broken.yaml
passes examples/run.sh broken.yaml
damaged examples/next.c 's/print_refusal(answer);/;/' examples/run.sh broken.yaml
{ printf -- '- a: [b, c]\n- ['; printf 'a,%.0s' $(seq 3000); printf 'a]\n'; } > crowded.yaml
# libraries where the two calls differ
damaged bench/native.sh "s|cp .*|cp $copy/librefusing.a \"\$1/libtokenglade.a\"|" examples/run.sh
said "list refuses the sheet, and next accepts it"
passes "cp libreal.a libfewer.a && gcc -Iinclude -DFAULT=1 -c tests/stream_faults.c && ar rs libfewer.a stream_faults.o"
damaged bench/native.sh "s|cp .*|cp $copy/libfewer.a \"\$1/libtokenglade.a\"|" examples/run.sh crowded.yaml
damaged bench/native.sh "s|cp .*|cp $copy/libnone.a \"\$1/libtokenglade.a\"|" examples/run.sh
said "the tokens ended without StreamEnd"
# what a damaged state may bring: a scalar that is nowhere, then any number
cat > odd.c <<'C'
#include "tokenglade.h"
void tokenglade_next(uint32_t *s, const uint8_t *t, size_t n, uint32_t *w, size_t m, uint8_t *b, size_t k, uint32_t *r, uint32_t *a) {
    (void)t, (void)n, (void)w, (void)m, (void)b, (void)k;
    for (int i = 0; i < TOKENGLADE_RECORD_WORDS; i++)
        r[i] = s[0] ? 0 : i ? 4000000000 : 22;
    for (int i = 0; i < 5; i++)
        a[i] = s[0] ? 4000000000 : 0;
    s[0] = 1;
}
C
damaged examples/job.c 's/, seed\[0\]);/, seed[1]);/' examples/run.sh
damaged examples/job.rs 's/while let Some/if let Some/' examples/run.sh
said "job: status 0 in C, 1 in Rust"
damaged examples/job.rs 's/mark.col + 1/mark.col/' examples/run.sh broken.yaml
damaged examples/job.c 's/seeds before: %u/seeds: %u/' examples/run.sh broken.yaml
reading 4
damaged bench/native.sh "s|cp .*|cp $copy/libreading.a \"\$1/libtokenglade.a\"|" examples/run.sh
said "its last line has not the count of its seeds, 5"
# a job that is done, of a sheet that is refused
passes "cp libreader.a libdone.a && objcopy --keep-global-symbol tokenglade_job none.o done.o && ar rs libdone.a done.o"
damaged bench/native.sh "s|cp .*|cp $copy/libdone.a \"\$1/libtokenglade.a\"|" examples/run.sh broken.yaml
said "next refuses the sheet, and its job is done"
cat > odd_job.c <<'C'
#include "tokenglade.h"
void tokenglade_job(uint32_t *s, const uint8_t *t, size_t n, uint32_t *w, size_t m, uint8_t *b, size_t k, uint32_t *d, uint32_t *c) {
    (void)s, (void)t, (void)n, (void)w, (void)m, (void)b, (void)k;
    d[0] = d[1] = 4000000000;
    for (int i = 0; i < 7; i++)
        c[i] = 4000000000;
}
C
passes "gcc -Iinclude examples/job.c odd_job.c -o job-odd"
fails ./job-odd examples/job.yaml
said "not done (4000000000) at line 4000000000, column 4000000001: unknown"
passes "gcc -Iinclude examples/next.c odd.c -o next-odd"
fails ./next-odd examples/sheet.yaml
said "Scalar unknown (outside the bytes)"
said "refused (4000000000) at line 4000000000, column 4000000001: unknown"
passes examples/run.sh crowded.yaml
said "next stops before list does: refused (51)"
sed '2s/]/}/' crowded.yaml > both.yaml
passes examples/run.sh both.yaml
said "next stops before list does: refused (51)"
for list in target/examples/{list,next,job}-{c,rust}; do
    fails $list
    fails $list nowhere
    fails "$list examples/sheet.yaml > /dev/full"
    fails "$list nowhere 2> /dev/full"
    fails "$list examples/sheet.yaml > /dev/full 2> /dev/full"
    passes "cp examples/sheet.yaml \$'n\\xff.yaml' && $list \$'n\\xff.yaml'"
    fails "$list examples/sheet.yaml >&-"
    fails "$list examples/sheet.yaml 1< /dev/null"
    fails "head -c 1048577 /dev/zero | $list /dev/stdin"
    passes "head -c 3000000 /dev/zero | $list /dev/stdin | grep -q 'refused (1)\|^not done 1 1 1 0$'"
    case $list in */list-*) fails "yes 'a: b' | head -c 1000000 > large.yaml; ulimit -v 60000; $list large.yaml"; said "no memory" ;; esac
done

# The program's checks: what it is right in passes, and a program that is wrong in one thing does not
real=$tree/target/tests/tokenglade
[ -x "$real" ] || { echo "$real: tests/run.sh builds it" >&2; exit 2; }
cp "$tree/tests/program.py" tests/program.py
# lies PART.. WITH a script, in which $real is the program: its checks fail
lies() {
    printf '#!/bin/sh\nreal=%s\n%s\n' "$real" "$2" > liar
    chmod +x liar
    fails "python3 tests/program.py ./liar 20 $1"
}
passes "python3 tests/program.py $real 20 inputs usage outputs records kills progress tokens wording"
lies vectors '"$real" "$@" | head -n -1'
lies vectors '"$real" "$@"; exit 0'
lies vectors '"$real" "$@" 2> /dev/null'
lies inputs '"$real" "$@"; exit 0'
lies inputs '"$real" "$@"; s=$?; [ $s = 2 ] && echo done 3 > "$4"; exit $s'
lies usage '"$real" "$@"; exit 1'
lies usage 'case $4 in */./*|*/link) echo > "$4" ;; esac; exec "$real" "$@"'
lies outputs '"$real" "$@" > said; s=$?; cat said 2> /dev/null; exit $s'
lies outputs '"$real" "$@"; s=$?; [ $s = 3 ] && [ "$2" = --record ] && echo > "$3.left"; exit $s'
lies records '"$real" "$@"; s=$?; for f in "$@"; do case $f in */record) echo >> "$f" ;; esac; done; exit $s'
lies records 'exec "$real" job "$2" --allow-empty "$@"'
lies kills 'for f in "$@"; do case $f in */record) echo done 60000 > "$f" ;; esac; done; sleep 0.3; exec "$real" "$@"'
lies progress 'exec "$real" "$@" 2> /dev/null'
lies tokens '"$real" "$@" | grep -v Value'
lies wording '"$real" "$@" | sed s/DocumentEnd/DocumentStart/'
lies wording '"$real" "$@" 2> said; s=$?; sed "s/may not stand here/has no words/" said >&2; exit $s'
lies wording '"$real" "$@" 2> said; s=$?; sed "s/: .* \[2[23]\]/: the same [22]/" said >&2; exit $s'

# a benchmark whose programs only say that they ran
mkdir measured
printf '#!/bin/sh\n[ -e "$3" ] && echo 100 5 1 10\n' > measured/bench
chmod +x measured/bench
bench="BENCH_OUT=measured bench/run.py --rounds 1"
passes $bench
passes $bench --before measured
said "tokenglade-stream, time over before"
fails $bench --rounds 0
fails $bench --before nowhere
damaged measured/bench 's/echo.*/case $1 in tokenglade) echo 100 -1 1 10 ;; *) echo 100 5 1 10 ;; esac/' $bench
damaged measured/bench 's/echo.*/case $1 in lib*) echo 100 -1 1 10 ;; *) echo 100 5 1 10 ;; esac/' $bench
damaged measured/bench 's/echo.*/exit 2/' $bench
damaged measured/bench 's/echo.*/echo 100/' $bench
echo "$count damages, and each was noticed"
