#!/usr/bin/env bash
# navlog as a user meets it: both samples, pieces, standard input, datagrams and frames, help, and each mistake with its line and status.
set -u
cd "$(dirname "$0")/.."
./run >/dev/null || { echo "navlog does not build or run"; exit 1; }
navlog=crates/navlog/out/navlog
data=crates/navlog/data
out=$(mktemp) err=$(mktemp)
trap 'rm -f "$out" "$err"' EXIT
failed=0

wrong() {
    echo "tests/navlog.sh: $1"
    failed=1
}

# same NAME EXPECTED-FILE WORDS..: the program succeeds and writes just that.
same() {
    local name=$1 expected=$2
    shift 2
    "$navlog" "$@" >"$out" 2>"$err" || wrong "$name: status $?"
    cmp -s "$out" "$expected" || wrong "$name: other output"
    [ -s "$err" ] && wrong "$name: wrote to standard error"
}

# refused NAME TEXT WORDS..: nothing on standard output, that text on one line of standard error, status 1.
refused() {
    local name=$1 text=$2 status=0
    shift 2
    "$navlog" "$@" >"$out" 2>"$err" </dev/null || status=$?
    [ "$status" = 1 ] || wrong "$name: status $status"
    [ -s "$out" ] && wrong "$name: wrote to standard output"
    grep -qF -- "$text" "$err" || wrong "$name: says $(cat "$err")"
    [ "$(wc -l <"$err")" = 1 ] || wrong "$name: more than one line"
}

same "NCOM sample" crates/navlog/stdout ncom $data/sample.ncom
same "MCOM sample" tests/sample.mcom.out mcom $data/sample.mcom
same "standard input" crates/navlog/stdout ncom - <$data/sample.ncom
# the same bytes one at a time
python3 - $data/sample.ncom <<'P' | "$navlog" ncom - >"$out" 2>"$err" || wrong "small pieces: status $?"
import sys
for b in open(sys.argv[1], "rb").read():
    sys.stdout.buffer.write(bytes([b]))
    sys.stdout.buffer.flush()
P
cmp -s "$out" crates/navlog/stdout || wrong "small pieces: other output"
same "table" tests/sample.csv --csv ncom $data/sample.ncom
same "empty recording" tests/empty.out ncom /dev/null
same "datagrams" crates/navlog/stdout --datagrams ncom $data/datagrams.ncom
same "frames" crates/navlog/stdout ncom --frames $data/frames.ncom
same "frames inside datagrams" crates/navlog/stdout --frames --datagrams ncom $data/both.ncom
same "datagrams on standard input" crates/navlog/stdout --datagrams ncom - <$data/datagrams.ncom

# the last record is cut short: all before it is read and printed, then its place is told
status=0
"$navlog" --datagrams ncom $data/cut.ncom >"$out" 2>"$err" || status=$?
[ $status = 1 ] || wrong "a datagram cut short: status $status"
cmp -s "$out" tests/cut.out || wrong "a datagram cut short: other output"
[ "$(cat "$err")" = "navlog: '$data/cut.ncom': refusal 16: the record at byte 897 is cut short" ] || wrong "a datagram cut short: says $(cat "$err")"

"$navlog" --help >"$out" 2>"$err" || wrong "help: status $?"
grep -q '^navlog .* FAMILY FILE' "$out" || wrong "help: does not say how to call it"
refused "no words" "no family given"
refused "unknown family" "unknown family 'xcom': ncom or mcom" xcom $data/sample.ncom
refused "no file" "no recording given" ncom
refused "missing file" "cannot read '$data/none.ncom': " ncom $data/none.ncom
refused "a folder" "cannot read '$data': " ncom $data
refused "unknown option" "unknown option '--fast'" --fast ncom $data/sample.ncom
refused "a word too many" "no 'more'" ncom $data/sample.ncom more

[ $failed = 0 ] && echo "tests/navlog.sh: all as expected"
exit $failed
