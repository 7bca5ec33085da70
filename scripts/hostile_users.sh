#!/bin/bash
# svsim under hostile users: outputs that end, words that are no text, files that are none, little memory, small stacks, and
# many runs at once. The statuses and the lines are those of docs/FORMAT.md.
#
#     scripts/hostile_users.sh [PROGRAM]
#
# PROGRAM is the built svsim; crates/svsim/out/svsim where none is given (`rt run -- walk data/walk.toml` in crates/svsim proves
# and builds it). Needs bash, coreutils and /dev/full. The last line is `N passed, M failed`.
set -u
unset CDPATH
top=$(cd "$(dirname "$0")/.." && pwd)
svsim=$(readlink -f "${1:-$top/crates/svsim/out/svsim}")
[ -x "$svsim" ] || { echo "hostile_users: $svsim is not there" >&2; exit 2; }
own=$(mktemp -d)
trap 'rm -rf "$own"' EXIT
trap 'exit 130' HUP INT TERM
cd "$own" || exit 2
passed=0
failed=0

# An output without the name of the file, which a picture has below its title.
unnamed() { grep -v "^<text class='subtitle'" "$1"; }

# Whether a run ended so: its status, its line on standard error without `svsim: ` (or none), and its output: that of a file,
# `none`, or `any`.
judge() {
    local name=$1 status=$2 want_status=$3 want_line=$4 want_out=$5 why=
    [ "$status" = "$want_status" ] || why="status $status for $want_status"
    if [ -n "$want_line" ]; then
        [ "$(cat err)" = "svsim: $want_line" ] || why="$why; standard error: $(head -c 200 err)"
    else
        [ ! -s err ] || why="$why; standard error: $(head -c 200 err)"
    fi
    case $want_out in
    none) [ ! -s out ] || why="$why; output: $(head -c 80 out)" ;;
    any) ;;
    *) cmp -s <(unnamed out) <(unnamed "$want_out") || why="$why; output: $(head -c 80 out)" ;;
    esac
    if [ -z "$why" ]; then
        passed=$((passed + 1))
    else
        failed=$((failed + 1))
        echo "FAILED $name: $why"
    fi
}

# What stands on standard output for an empty file, and for one that is faulty.
empty_out() { case $1 in walk | run | live) echo none ;; *) echo any ;; esac; }
faulty_out() { case $1 in check) echo any ;; *) echo none ;; esac; }

# Files: one for each command with its lines, and one whose lines are long. In that of stale no stale mapping is used.
all='walk run live stale show draw check'
cp "$top/examples/first.toml" walk.toml
cp "$top/examples/shootdown.toml" run.toml
cp "$top/examples/live-unmap-at-once.toml" live.toml
grep -v '# 7 hit' run.toml >stale.toml
cp run.toml show.toml
cp run.toml draw.toml
cp run.toml check.toml
for which in $all; do
    "$svsim" $which $which.toml >$which.lines 2>err || { echo "hostile_users: $which fails" >&2; exit 2; }
done
{ echo 'steps = ['; for ((i = 0; i < 65536; i++)); do echo '"0 load",'; done; echo ']'; } >long.toml
"$svsim" run long.toml >long.lines

# Outputs that fail
for which in $all; do
    "$svsim" $which $which.toml >/dev/full 2>err; status=$?; : >out
    judge "$which to a full device" $status 4 'output failed' any
    "$svsim" $which $which.toml >&- 2>err; status=$?
    judge "$which to a closed output" $status 4 'output failed' any
    "$svsim" $which $which.toml >&- 2>err <&-; status=$?
    judge "$which to a closed output, without an input" $status 4 'output failed' any
    "$svsim" $which $which.toml >out 2>err <&-; status=$?
    judge "$which without an input" $status 0 '' $which.lines
    "$svsim" $which $which.toml >out 2>&-; status=$?; : >err
    judge "$which without a standard error" $status 0 '' $which.lines
    "$svsim" $which none.toml >out 2>&-; status=$?; : >err
    judge "$which of no file, without a standard error" $status 2 '' none
    "$svsim" $which none.toml >out 2>/dev/full; status=$?; : >err
    judge "$which of no file, to a full standard error" $status 2 '' none
done
"$svsim" run long.toml 2>err | head -c 100 >out; status=${PIPESTATUS[0]}; head -c 100 long.lines >wanted
judge 'a pipe that ends' "$status" 4 'output failed' wanted
(trap '' PIPE; "$svsim" run long.toml 2>err | head -c 100 >out; exit "${PIPESTATUS[0]}"); status=$?
judge 'a pipe that ends, its signal ignored' $status 4 'output failed' wanted
printf 'watch 1 2 sv39\nu 1 1000\n' >quiet.trace
"$svsim" watch quiet.trace >/dev/full 2>err; status=$?; : >out
judge 'watch, to a full device' $status 4 'output failed' any
"$svsim" watch quiet.trace >&- 2>err; status=$?
judge 'watch, without an output' $status 4 'output failed' any
printf 'watch 1 2 sv39\nu 1 1000\nu 2 1000\n' >wrong.trace
: >out
{ sleep 0.2; "$svsim" watch "$top/examples/watch/left-out-hart.trace" 2>err; } | true; status=${PIPESTATUS[0]}
judge 'a trace with verdicts, to a pipe that nobody reads' "$status" 1 '' any
{ sleep 0.2; "$svsim" watch quiet.trace 2>err; } | true; status=${PIPESTATUS[0]}
judge 'a trace without a verdict, to a pipe that nobody reads' "$status" 0 '' any
{ sleep 0.2; "$svsim" watch wrong.trace 2>err; } | true; status=${PIPESTATUS[0]}
sed -i 's/^/svsim: /' err
judge 'a wrong line, to a pipe that nobody reads' "$status" 3 'wrong.trace:3:3: no hart 2: harts are 0 to 1' any
if command -v script >/dev/null; then
    mkfifo slow
    { printf 'watch 1 2 sv39\n'; sleep 2.5; printf 'u 1 1000\n'; } >slow &
    script -qec "'$svsim' watch slow" /dev/null </dev/null >out; status=$?; : >err
    printf '0 MB read\033[K\r\033[K1 record, no verdict\r\n' >wanted
    judge 'a trace that takes long, at a terminal' $status 0 '' wanted
    { printf 'watch 1 2 sv39\n'; sleep 2.5; printf 'u 1 1000\n'; } >slow &
    script -qec "'$svsim' watch slow | cat" /dev/null </dev/null >out; : >err
    printf '1 record, no verdict\r\n' >wanted
    judge 'a trace that takes long, to a pipe' 0 0 '' wanted
fi
(trap '' XFSZ; ulimit -f 1; "$svsim" run long.toml >out 2>err); status=$?
judge 'a file that may not grow' $status 4 'output failed' any

# A stale mapping that is used
"$svsim" stale run.toml >out 2>err; status=$?
judge 'a stale mapping that is used' $status 1 '' any
"$svsim" stale run.toml >/dev/full 2>err; status=$?; : >out
judge 'a stale mapping that is used, to a full device' $status 4 'output failed' any

# Words
usage='usage: svsim COMMAND FILE'
words() {
    local name=$1
    shift
    "$svsim" "$@" >out 2>err; status=$?
    judge "$name" $status 2 "$usage" none
}
words 'no words'
words 'a file that is no text' run $'\xff'
words 'a command that is no text' $'\xff' run.toml
words 'a text cut short' run $'run.toml\xc3'
words 'an empty command' '' run.toml
words 'many words' run $(seq 10000)
(exec -a '' "$svsim" run run.toml >out 2>err); status=$?
judge 'an empty name of the program' $status 0 '' run.lines
(exec -a $'\xff' "$svsim" >out 2>err); status=$?
judge 'a name of the program that is no text' $status 2 "$usage" none
long=$(head -c 100000 /dev/zero | tr '\0' n)
for name in '' none . .. / /proc/self/mem "$long" run.toml/ 'a  b' $'tab\there' $'\e[31m'; do
    for which in $all; do
        "$svsim" $which "$name" >out 2>err; status=$?
        judge "$which of a file that is none: ${name:0:20}" $status 2 "cannot read $name" none
    done
done

# Files
for which in $all; do
    "$svsim" $which /dev/null >out 2>err; status=$?
    judge "$which of nothing" $status 0 '' "$(empty_out $which)"
    "$svsim" $which /dev/zero >out 2>err; status=$?
    judge "$which of a device that never ends" $status 2 'file too large' none
    truncate -s 1T sparse; "$svsim" $which sparse >out 2>err; status=$?
    judge "$which of a sparse file" $status 2 'file too large' none
    truncate -s 0 sparse; truncate -s 1M sparse; "$svsim" $which sparse >out 2>err; status=$?
    judge "$which of zeros" $status 2 'not TOML' "$(faulty_out $which)"
    head -c 1000 /dev/urandom >noise; printf '\xff' >>noise; "$svsim" $which noise >out 2>err; status=$?
    judge "$which of noise" $status 2 'not TOML' none
    rm -f fifo; mkfifo fifo; (cat $which.toml >fifo) & "$svsim" $which fifo >out 2>err; status=$?; wait
    judge "$which of a FIFO" $status 0 '' $which.lines
    (: >fifo) & "$svsim" $which fifo >out 2>err; status=$?; wait
    judge "$which of an empty FIFO" $status 0 '' "$(empty_out $which)"
    (cat $which.toml; sleep 0.2; echo; echo '# more') >fifo & "$svsim" $which fifo >out 2>err; status=$?; wait
    judge "$which of a slow FIFO" $status 0 '' $which.lines
    (yes '#' | head -c 2000000 >fifo) 2>/dev/null & "$svsim" $which fifo >out 2>err; status=$?; wait
    judge "$which of a FIFO that is too long" $status 2 'file too large' none
    "$svsim" $which /dev/stdin <$which.toml >out 2>err; status=$?
    judge "$which of its input" $status 0 '' $which.lines
done
mkdir -p shut; cp run.toml shut/; chmod 0 shut/run.toml
if [ "$(id -u)" != 0 ]; then
    "$svsim" run shut/run.toml >out 2>err; status=$?
    judge 'a file that may not be read' $status 2 'cannot read shut/run.toml' none
fi
cp run.toml grows.toml
(for ((i = 0; i < 3000; i++)); do echo '# a line more'; done >>grows.toml) &
for ((i = 0; i < 50; i++)); do
    "$svsim" run grows.toml >out 2>err; status=$?
    judge 'a file that grows' $status 0 '' run.lines
done
wait

# Depths of TOML: what is too deep is no fault
for depth in 1 40 79 80 81 200 10000 500000; do
    { printf 'steps = '; head -c $depth /dev/zero | tr '\0' '['; head -c $depth /dev/zero | tr '\0' ']'; } >deep.toml
    "$svsim" run deep.toml >out 2>err; status=$?
    [ $depth != 80 ] || cp deep.toml deep80.toml
    if [ $depth = 1 ]; then
        judge 'one array' $status 0 '' none
    elif [ $depth -le 80 ]; then
        judge "$depth nested arrays" $status 3 'key steps: wrong' none
    else
        judge "$depth nested arrays" $status 2 'not TOML' none
    fi
done

# Little memory: the usual answer, or none. Where the loader itself has no memory, it is not the program that answers.
limited() {
    local name=$1 wanted=$2
    if [ "$status" = 0 ]; then
        judge "$name" 0 0 '' "$wanted"
    elif grep -q 'error while loading shared libraries\|Cannot allocate memory\|cannot allocate memory' err || [ "$status" = 126 ]; then
        unloaded=$((unloaded + 1))
    # (there the system, or its loader, ends the program by a signal before it is loaded: strace shows execve and no call of its own)
    elif [ "$status" = 139 ] && [ "$size" -lt 1600 ] && [ ! -s err ] && [ ! -s out ]; then
        unloaded=$((unloaded + 1))
    elif grep -q 'no thread' err; then
        judge "$name" "$status" 5 'no thread' none
    else
        judge "$name" "$status" 5 'no memory' none
    fi
}
unloaded=0
for which in $all; do
    for ((size = 1000; size <= 40000; size += 500)); do
        (ulimit -v $size; exec "$svsim" $which $which.toml >out 2>err); status=$?
        limited "$which with $size KiB of memory" $which.lines
    done
done
for ((size = 1000; size <= 40000; size += 1000)); do
    (ulimit -v $size; exec "$svsim" run long.toml >out 2>err); status=$?
    limited "a long run with $size KiB of memory" long.lines
done
echo "$unloaded runs were not loaded, for lack of memory"

# No thread: a user who may have one process. A limit of processes does not hold for root, who becomes another user.
alone() {
    ulimit -u 1
    [ "$(id -u)" != 0 ] || exec setpriv --reuid 61234 --regid 61234 --clear-groups "$@"
    exec "$@"
}
chmod 755 .
cp "$svsim" alone
for which in $all; do
    (alone ./alone $which $which.toml >out 2>err); status=$?
    if [ $which = live ]; then
        judge 'live without threads' $status 5 'no thread' none
    else
        judge "$which without threads" $status 0 '' $which.lines
    fi
done

# Small stacks: 80 nested keys, the most that a document may have, need more than all else
{ head -c 158 /dev/zero | tr '\0' 'a' | sed 's/aa/a./g'; echo 'a = 1'; } >dotted.toml
for size in 192 256 512 1024 8192; do
    for which in $all; do
        (ulimit -s $size; exec "$svsim" $which $which.toml >out 2>err); status=$?
        judge "$which with a stack of $size KiB" $status 0 '' $which.lines
        (ulimit -s $size; exec "$svsim" $which deep80.toml >out 2>err); status=$?
        judge "$which of 80 nested arrays with a stack of $size KiB" $status 3 'key steps: wrong' "$(faulty_out $which)"
        (ulimit -s $size; exec "$svsim" $which dotted.toml >out 2>err); status=$?
        judge "$which of 80 nested keys with a stack of $size KiB" $status 3 'key a: wrong' "$(faulty_out $which)"
    done
done

# 200 runs at once
for which in walk run live; do
    for ((i = 0; i < 200; i++)); do
        (timeout 100 "$svsim" $which $which.toml >out.$i 2>err.$i; echo $? >status.$i) &
    done
    wait
    for ((i = 0; i < 200; i++)); do
        cp out.$i out; cp err.$i err
        judge "$which, one of 200 at once" "$(cat status.$i)" 0 '' $which.lines
    done
done

# How many ways 8 harts that race come out: seven translate the page that hart 0 unmaps and maps anew, and serve. None finds the
# old frame once it has served.
translate='"translate u load 0x1000"'
{
    echo 'harts = 8'
    echo 'turns = 100000'
    echo 'setup = ["0 map 0 4K:0x1000 0x100 ruad", "0 map 0 4K:0x1000 0x100 ruad", "0 map 0 4K:0x1000 0x100 ruad"]'
    echo 'scripts = ['
    echo '["unmap 0 4K:0x1000 0,1,2,3,4,5,6,7", "post 0 1", "post 0 2", "post 0 3", "post 0 4", "post 0 5", "post 0 6", "post 0 7",'
    echo '"ackself 0", "wait 0", "map 0 4K:0x1000 0x101 ruad", "finish 0"],'
    for hart in 1 2 3 4 5 6 7; do
        printf '['
        for ((i = 0; i < 40; i++)); do printf '%s, "serve 0", ' "$translate"; done
        echo "$translate],"
    done
    echo ']'
} >races.toml
for ((i = 0; i < 1000; i++)); do
    "$svsim" live races.toml >out 2>err; status=$?
    awk '$3 == "taken" { served[$1] = 1 } $3 == "pa" && $4 == "0x100000" && served[$1] { exit 1 }' out || status='stale once it had served'
    judge 'harts that race' "$status" 0 '' any
    cksum <out >>races.sums
done
echo "harts that race: $(sort -u races.sums | wc -l) different outputs of 1000 runs"
echo "$passed passed, $failed failed"
[ "$failed" = 0 ]
