#!/bin/sh
# Runs the program on the examples and on wrong input, and compares output, text and status with what docs/MACHINE-FILE.md
# says. `.ci/run` calls it after `rt ci`.
set -u
cd "$(dirname "$0")/.." || exit 70
work=$(mktemp -d) || exit 70
trap 'rm -rf "$work"' EXIT
failed=0

# matches NAME FOUND STATUS TEXT OUTPUT : a run that ended with the status FOUND and left $work/out and $work/err is so
matches() {
    printf '%s' "$5" >"$work/want"
    grep -v '^vdpa: builds an unproved program' "$work/err" >"$work/said"
    [ "$2" -eq "$3" ] || { echo "$1: status $2, not $3"; failed=1; }
    cmp -s "$work/out" "$work/want" || { echo "$1: another output"; failed=1; }
    [ "$(cat "$work/said")" = "$4" ] || { echo "$1: the text '$(cat "$work/said")', not '$4'"; failed=1; }
}

# expect NAME STATUS TEXT OUTPUT WORD.. : the words, with the file $work/in as input, end so
expect() {
    name=$1 status=$2 text=$3 output=$4
    shift 4
    ./vdpa "$@" <"$work/in" >"$work/out" 2>"$work/err"
    matches "$name" $? "$status" "$text" "$output"
}

one='queue 0 chains 1 bytes 10
chain 0 0 10
epoch 0 0 pass 0 1
drained 1
'
usage='vdpa: usage: vdpa play [--seed N] [--brief] | check'
cp examples/one-chain.toml "$work/in"
expect 'one chain' 0 '' "$one" play
expect 'a seed' 0 '' "$one" --seed 18446744073709551615 play
expect 'a seed in one word, brief' 0 '' 'queue 0 chains 1 bytes 10
epoch 0 0 pass 0 1
drained 1
' --brief play --seed=007
expect 'the canonical text' 0 '' 'layout = "split"
size = 4
features = []
window = 1
start = "pass"
iova_first = 4096
iova_last = 281474976710655
regions = [{ addr = 4096, size = 8192 }]
queues = [["r4096+10 w8192+64"]]
switches = []
' check
expect 'no word' 1 "$usage" '' 
expect 'another word' 1 "$usage" '' run
expect 'a word too many' 1 "$usage" '' play play
expect 'two commands' 1 "$usage" '' play check
expect 'a brief check' 1 "$usage" '' check --brief
expect 'a check by a seed' 1 "$usage" '' check --seed 1
expect 'brief twice' 1 "$usage" '' play --brief --brief
expect 'two seeds' 1 "$usage" '' play --seed 1 --seed=1
expect 'a seed without a number' 1 "$usage" '' play --seed
expect 'a seed of 2^64' 1 "$usage" '' play --seed 18446744073709551616
expect 'a seed of 21 digits' 1 "$usage" '' play --seed=000000000000000000001
expect 'options alone' 1 "$usage" '' --seed 1 --brief
cp examples/no-chains.toml "$work/in"
expect 'no chains' 0 '' 'queue 0 chains 0 bytes 0
epoch 0 0 pass 0 0
drained 0
' play
cp examples/tables.toml "$work/in"
expect 'sixteen pieces in a ring of two' 0 '' 'queue 0 chains 1 bytes 15
chain 0 0 15
epoch 0 0 pass 0 1
drained 1
' play
cp examples/live-switch.toml "$work/in"
expect 'two switches' 0 '' 'queue 0 chains 6 bytes 60
chain 0 0 10
chain 0 1 10
chain 0 2 10
chain 0 3 10
chain 0 4 10
chain 0 5 10
epoch 0 0 pass 0 2
epoch 0 1 shadow 2 4
epoch 0 2 pass 4 6
drained 6
' play
expect 'two switches by a seed' 0 '' 'queue 0 chains 6 bytes 60
epoch 0 0 pass 0 2
epoch 0 1 shadow 2 4
epoch 0 2 pass 4 6
drained 6
' play --brief --seed 7
cp examples/renewal.toml "$work/in"
expect 'a renewal in the mode shadow' 0 '' 'queue 0 chains 8 bytes 80
epoch 0 0 pass 0 2
epoch 0 1 shadow 2 4
epoch 0 2 shadow 4 6
epoch 0 3 pass 6 8
drained 8
' play --brief
cp examples/shadowed.toml "$work/in"
expect 'a shadow epoch from the start' 0 '' 'queue 0 chains 1 bytes 10
chain 0 0 10
epoch 0 0 shadow 0 1
drained 1
' play
cp examples/migration.toml "$work/in"
expect 'a shadow epoch in the middle' 0 '' 'queue 0 chains 1000 bytes 0
epoch 0 0 pass 0 200
epoch 0 1 shadow 200 600
epoch 0 2 pass 600 1000
queue 1 chains 300 bytes 4800
epoch 1 0 pass 0 200
epoch 1 1 shadow 200 300
epoch 1 2 pass 300 300
drained 1300
' play --brief
cp examples/eight-queues.toml "$work/in"
eight=''
for q in 0 1 2 3 4 5 6 7; do
    first=$((q < 3 ? q : 3))
    eight="${eight}queue $q chains $q bytes 0
epoch $q 0 pass 0 $first
epoch $q 1 shadow $first $q
"
done
expect 'eight queues' 0 '' "${eight}drained 28
" play --brief
cp examples/three-queues.toml "$work/in"
expect 'three queues' 0 '' 'queue 0 chains 3 bytes 20
chain 0 0 10
chain 0 1 10
chain 0 2 0
epoch 0 0 pass 0 3
queue 1 chains 0 bytes 0
epoch 1 0 pass 0 0
queue 2 chains 1 bytes 64
chain 2 0 64
epoch 2 0 pass 0 1
drained 4
' play
cp examples/size-of-three.toml "$work/in"
expect 'a size of three' 2 'vdpa: machine file breaks rule M6' '' play

# breaks RULE LINE WITH : the first example with that line so breaks that rule, and no other
breaks() {
    sed "s/^$2\$/$3/" examples/one-chain.toml >"$work/in"
    cmp -s examples/one-chain.toml "$work/in" && { echo "M$1: the example has no line $2"; failed=1; }
    expect "M$1: $3" 2 "vdpa: machine file breaks rule M$1" '' play
}
breaks 1 'size = 4' 'size = '
breaks 2 'size = 4' 'size = 4\ncolour = 1'
breaks 3 'size = 4' ''
breaks 4 'size = 4' 'size = "4"'
breaks 5 'layout = "split"' 'layout = "round"'
breaks 6 'size = 4' 'size = 2048'
breaks 7 'size = 4' 'size = 4\nfeatures = ["fast"]'
breaks 8 'size = 4' 'size = 4\nwindow = 0'
breaks 9 'regions = .*' 'regions = [{ addr = 4096, size = 8192 }, { addr = 4096, size = 8192 }]'
breaks 10 'queues = .*' 'queues = [["w8192+64 r4096+10"]]'
breaks 11 'queues = .*' 'queues = [["r4096+1 r4096+1 r4096+1 r4096+1 r4096+1"]]'
breaks 12 'queues = .*' 'queues = [["r12287+2"]]'
breaks 13 'queues = .*' 'queues = []'
breaks 13 'queues = .*' 'queues = [[], [], [], [], [], [], [], [], []]'
breaks 14 'size = 4' 'size = 4\nswitches = [{ after = 5, to = "pass" }, { after = 4, to = "pass" }]'
breaks 16 'size = 4' 'size = 4\niova_last = 8191'
{
    printf 'layout = "split"\nsize = 1024\nfeatures = ["indirect"]\nstart = "shadow"\n'
    printf 'regions = [{ addr = 4096, size = 8192 }]\nqueues = [[], [], [], [], [], [], [], []]\nswitches = ['
    for _ in 1 2 3 4 5 6 7 8 9 10 11 12 13 14 15 16; do printf '{ after = 0, to = "shadow" },'; done
    echo ']'
} >"$work/in"
expect 'M17: 144 rings with tables' 2 'vdpa: machine file breaks rule M17' '' play

: >"$work/in"
expect 'an empty file' 2 'vdpa: machine file breaks rule M3' '' play
printf '\377' >"$work/in"
expect 'no UTF-8' 2 'vdpa: machine file breaks rule M1' '' play
head -c 1048577 /dev/zero | tr '\0' ' ' >"$work/in"
expect 'a byte too many' 6 'vdpa: machine file is larger than 1048576 bytes' '' play
head -c 1048576 "$work/in" >"$work/least" && mv "$work/least" "$work/in"
expect 'as many bytes as may be' 2 'vdpa: machine file breaks rule M3' '' play

# an input in pieces, and inputs that can't be read
cp examples/one-chain.toml "$work/in"
{ head -c 30 "$work/in"; sleep 0.2; tail -c +31 "$work/in" | head -c 1; sleep 0.2; tail -c +32 "$work/in"; } |
    ./vdpa play >"$work/out" 2>"$work/err"
matches 'an input in pieces' $? 0 '' "$one"
./vdpa play </ >"$work/out" 2>"$work/err"
matches 'a directory as input' $? 3 'vdpa: read fault' ''
./vdpa check <&- >"$work/out" 2>"$work/err"
matches 'a closed input' $? 3 'vdpa: read fault' ''

# A file whose report and whose canonical text are longer than what the program holds back: a write fails in the middle.
# Of the short file only the flush at the end fails.
yes '"r4096+10", "w8192+64",' | head -n 4500 | tr -d '\n' >"$work/texts"
sed "s/^queues = .*\$/queues = [[$(cat "$work/texts")]]/" examples/one-chain.toml >"$work/long"
./vdpa play <"$work/long" >"$work/report" 2>/dev/null || { echo "a long report: status $?"; failed=1; }
[ "$(wc -c <"$work/report")" -gt 65536 ] || { echo "the long report is short"; failed=1; }

# refuses NAME RUN : where RUN has the program write, that is a write fault; what fails before the output is named
refuses() {
    : >"$work/out"
    for word in play check; do
        "$2" "$word" <"$work/in"
        matches "$1, $word" $? 4 'vdpa: write fault' ''
        "$2" "$word" <"$work/long"
        matches "$1, $word, a long output" $? 4 'vdpa: write fault' ''
    done
    "$2" play play <"$work/in"
    matches "$1, wrong words" $? 1 "$usage" ''
    "$2" play </
    matches "$1, a directory as input" $? 3 'vdpa: read fault' ''
    "$2" check <examples/size-of-three.toml
    matches "$1, a broken rule" $? 2 'vdpa: machine file breaks rule M6' ''
}
on_full_disk() { ./vdpa "$@" >/dev/full 2>"$work/err"; }
on_closed_output() { ./vdpa "$@" >&- 2>"$work/err"; }
# The pipe is opened for both ends first, so that to open it for writing needs no other reader; then its reader is closed.
on_closed_pipe() { ./vdpa "$@" 3<>"$work/pipe" >"$work/pipe" 3<&- 2>"$work/err"; }
mkfifo "$work/pipe" || exit 70
refuses 'a closed output' on_closed_output
refuses 'a closed pipe' on_closed_pipe
[ ! -w /dev/full ] || refuses 'a full disk' on_full_disk

# a file that may not grow past 4,096 bytes: it gets the front of the report
(trap '' XFSZ && ulimit -f 8 && ./vdpa play <"$work/long" >"$work/out" 2>"$work/err")
found=$?
head -c 4096 "$work/report" | cmp -s - "$work/out" || { echo "little room: $(wc -c <"$work/out") bytes, not the first 4096"; failed=1; }
: >"$work/out"
matches 'little room' "$found" 4 'vdpa: write fault' ''

# standard error as a closed pipe: no text, and the same status
./vdpa play play 3<>"$work/pipe" 2>"$work/pipe" 3<&- >"$work/out"
found=$?
: >"$work/err"
matches 'a text that nobody reads' "$found" 1 '' ''

# what a signal interrupts is made again; only the built program is interrupted, and not the one that `rt try` runs
if [ -x crates/vd_main/out/vd_main ]; then
    python3 tests/interrupted.py crates/vd_main/out/vd_main || failed=1
else
    echo "program: no built program, so none was interrupted"
fi

# each file of examples/ but the one that breaks a rule is played to its end
for file in examples/*.toml; do
    [ "$file" = examples/size-of-three.toml ] && continue
    ./vdpa play <"$file" >"$work/out" 2>/dev/null || { echo "$file: status $?"; failed=1; }
    chains=$(sed -n 's/^drained //p' "$work/out")
    [ "$(grep -c '^chain ' "$work/out")" = "$chains" ] || { echo "$file: another count of chains"; failed=1; }
done
[ "$failed" -eq 0 ] && echo "program: output, texts and statuses are as they should be"
exit "$failed"
