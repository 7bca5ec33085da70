#!/bin/sh
# The wrapper ./svsim, in a folder of its own and over a toolchain that only plays its part.
#
#     scripts/wrapper.sh
#
# What the proved program answers, and an unproved build, is not tried here. Needs coreutils, findutils, util-linux and awk. The last
# line is `N passed, M failed`.
set -u
unset CDPATH
top=$(cd "$(dirname "$0")/.." && pwd)
own=$(mktemp -d)
trap 'rm -rf "$own"' EXIT
trap 'exit 130' HUP INT TERM
passed=0
failed=0

# The part of the toolchain: its version, builds of a program that prints `proved`, and a build that answers each case by what stands
# in `lines`, `trouble` and `status`, keeps the file and the list that it was given, and counts how often it was called. The smaller program's status
# is that of `watch_status`, or of `status_of_CASE`.
mkdir -p "$own/bin" "$own/tree/crates/svsim" "$own/tree/crates/svsim_watch" "$own/tree/examples/watch" "$own/tree/scripts"
cat >"$own/bin/rt" <<'RT'
#!/bin/sh
play=${0%/bin/rt}
case $1 in
version) cat "$play/version" ;;
run) mkdir -p out && printf '#!/bin/sh\necho proved\n' >out/svsim && chmod +x out/svsim ;;
try)
    for word in "$@"; do
        case $word in list=*) cp "${word#list=}" "$play/list" ;; esac
        cases=$word
    done
    echo "${PWD##*/}" >>"$play/builds"
    sleep "$(cat "$play/seconds")"
    for args in "$cases"/*.args; do
        name=${args##*/}
        name=${name%.args}
        cp "$cases/$name" "$play/given"
        echo "== $name"
        cat "$play/lines"
        case $PWD in
        */svsim_watch)
            words="watch $(tr '\n' ' ' <"$args")"
            status=$(cat "$play/status_of_$name" "$play/watch_status" 2>/dev/null | head -n 1) ;;
        *) words=$(tr '\n' ' ' <"$args") && status=$(cat "$play/status") ;;
        esac
        echo "line of ${words% \{\} }"
        cat "$play/trouble" >&2
        echo "case=$name run=ended status=$status runners=1 proved=no" >&2
    done
    echo 'cases=1 ended=1 fault=0 differs=0 no-answer=0 proved=no' >&2 ;;
esac
RT
chmod +x "$own/bin/rt"
PATH=$own/bin:$PATH
cp "$top/svsim" "$own/tree/svsim"
cp "$top/scripts/unproved.sh" "$own/tree/scripts/unproved.sh"
echo 'svsim: scenario' >"$own/tree/crates.txt"
echo one >"$own/version"
: >"$own/lines"
: >"$own/trouble"
: >"$own/builds"
echo 0 >"$own/status"
echo 0 >"$own/watch_status"
echo 0 >"$own/seconds"
echo 'steps = []' >"$own/file.toml"
echo 'a walk' >"$own/tree/examples/first.toml"
echo 'a run' >"$own/tree/examples/frame-used-again.toml"
echo 'a trace' >"$own/tree/examples/watch/left-out-hart.trace"
svsim=$own/tree/svsim
kept=$own/tree/.svsim

judge() {
    if [ "$2" = "$3" ]; then
        passed=$((passed + 1))
    else
        failed=$((failed + 1))
        echo "FAILED $1: $3, not $2"
    fi
}

answer() { "$svsim" run "$own/file.toml" 2>"$own/err"; }
builds() { wc -l <"$own/builds" | tr -d ' '; }
forget() { rm -rf "$kept/answers"; }

# What needs no program is answered at once, and the toolchain is not called
says() {
    judge "$1: its status" "$2" "$("$svsim" $3 >"$own/out" 2>"$own/err" </dev/null; echo $?)"
    judge "$1: on standard error" "$4" "$(cat "$own/err")"
}
says 'no word' 2 '' 'svsim: usage: svsim COMMAND FILE'
says 'a word that is no command' 2 "rnu $own/file.toml" 'svsim: usage: svsim COMMAND FILE'
says 'one word' 2 run 'svsim: usage: svsim COMMAND FILE'
says 'three words' 2 "run $own/file.toml more" 'svsim: usage: svsim COMMAND FILE'
says 'an option' 2 "run --json $own/file.toml" 'svsim: usage: svsim COMMAND FILE'
says 'two dashes alone' 2 "run --" 'svsim: usage: svsim COMMAND FILE'
refuses() { says "$1" 2 "$1" 'svsim: usage: svsim COMMAND FILE'; }
for word in --all --quiet --json; do
    for command in run live walk stale show draw check; do refuses "$command $word file.toml"; done
    refuses "watch $word"
    refuses "$word file.trace"
    refuses "$word watch"
    refuses "$word watch file.trace more"
    refuses "watch $word $word file.trace"
    refuses "$word watch file.trace $word"
    refuses "watch $word=yes file.trace"
    refuses "watch ${word%?} file.trace"
    refuses "watch ${word#-} file.trace"
    refuses "watch file.trace -- $word"
    refuses "$word -- run file.toml"
    refuses "$word help watch"
    refuses "$word tour"
    refuses "watch $word --help"
done
for word in '--hart 1' '--page 1' '--kind use' '--max 1'; do
    for command in run live walk stale show draw check; do
        refuses "$command $word file.toml"
        refuses "$command ${word% *}=${word#* } file.toml"
    done
    refuses "watch $word"
    refuses "$word file.trace"
    refuses "watch file.trace ${word% *}"
    refuses "watch ${word% *} file.trace"
    refuses "watch ${word% *}= file.trace"
    refuses "watch ${word% *} - file.trace"
    refuses "$word watch file.trace more"
    refuses "watch ${word% *} --all file.trace"
    refuses "watch ${word% *} -- ${word#* } file.trace"
    refuses "watch $word $word file.trace"
    refuses "watch $word ${word% *}=${word#* } file.trace"
    refuses "watch ${word%? *} ${word#* } file.trace"
    refuses "watch ${word% *}=${word#* }=2 file.trace"
    refuses "watch file.trace -- $word"
    refuses "$word tour"
done
for word in 'hart 64' 'hart a' 'hart -1' 'hart 00000000000000001' 'hart 1e' 'page 0x1000' 'page g' 'page 10000000000000000' 'kind Claim' \
    'kind frees' 'kind kernel' 'kind kernel-kernel-use' 'kind claim,use' 'max a' 'max +1' 'max 1e' 'max 0x1' 'max 1.5' \
    'max 18446744073709551616' 'max 000018446744073709551616' 'max 100000000000000000000'; do
    refuses "watch --$word file.trace"
    refuses "watch --${word% *}=${word#* } file.trace"
done
for word in --all --quiet --json '--max 1' '--known l'; do
    refuses "explain $word file.trace 7"
    refuses "explain file.trace 7 $word"
done
for command in run live walk stale show draw check watch; do
    refuses "$command --svg file.toml"
    refuses "$command file.toml --svg"
done
refuses 'explain --svg file.trace'
refuses 'explain --svg --svg file.trace 7'
refuses 'explain --svg=yes file.trace 7'
refuses 'explain --sv file.trace 7'
refuses 'explain -svg file.trace 7'
refuses 'explain file.trace 7 -- --svg'
refuses 'explain --svg --json file.trace 7'
refuses '--svg file.trace 7'
refuses '--svg help explain'
refuses 'watch --max=-1 file.trace'
for command in run live walk stale show draw check; do
    refuses "$command --known l file.toml"
    refuses "$command --known=l file.toml"
done
refuses 'watch --known l'
refuses '--known l file.trace'
refuses 'watch file.trace --known'
refuses 'watch --known file.trace'
refuses 'watch --known --all file.trace'
refuses 'watch --known -- file.trace'
refuses 'watch --known a --known b file.trace'
refuses 'watch --known=a --known=a file.trace'
refuses 'watch --know l file.trace'
refuses 'watch file.trace -- --known l'
for word in '--hart 1' '--page 1' '--kind use'; do
    refuses "explain $word file.trace"
    refuses "explain file.trace 7 ${word% *}"
    refuses "explain ${word% *} file.trace 7"
    refuses "explain $word file.trace 7 $word"
done
for word in 0 000 -1 +1 1e 0x1 a 7: 1.5 18446744073709551616 000018446744073709551616 100000000000000000000; do
    refuses "explain file.trace $word"
    refuses "explain -- file.trace $word"
done
refuses 'explain 7'
refuses 'explain file.trace'
refuses 'explain 7 file.trace'
refuses 'explain file.trace 7 8'
refuses 'explain file.trace --line 7'
refuses 'explain file.trace -- --hart'
for command in run live walk stale show draw check watch; do refuses "$command file.trace 7"; done
refuses 'watch --all --quiet file.trace'
refuses '--quiet watch file.trace --all'
refuses 'watch --everything file.trace'
says 'no file' 2 "run $own/none" "svsim: cannot read $own/none"
says 'a folder' 2 "watch $own" "svsim: cannot read $own"
says 'a folder to explain' 2 "explain $own 7" "svsim: cannot read $own"
says 'no file to explain' 2 "explain $own/none 7" "svsim: cannot read $own/none"
says 'a dash for a scenario' 2 'run -' 'svsim: cannot read -'
says 'no list' 2 "watch --known $own/none $own/file.toml" "svsim: cannot read $own/none"
says 'a folder for a list' 2 "watch --known=$own -" "svsim: cannot read $own"
says 'a list without a name' 2 "watch --known= $own/file.toml" 'svsim: cannot read '
says 'a dash for a list' 2 'watch --known - -' 'svsim: cannot read -'
says 'neither list nor file' 2 "watch $own/none --known $own/no-list" "svsim: cannot read $own/no-list"
for word in help -h --help; do
    says "$word" 0 "$word" ''
    judge "$word names each command" 9 "$(grep -c -E '^  (run|live|walk|stale|show|draw|check|watch|explain) [A-Z ]+ [a-z]' "$own/out")"
done
for word in run live walk stale show draw check watch explain; do
    says "help $word" 0 "help $word" ''
    judge "help $word has an example that is there" 1 "$(
        for file in $(sed -n "s/^  svsim $word \([^ ]*\).*/\1/p" "$own/out"); do [ -e "$top/$file" ] && echo "$file"; done | wc -l)"
    cp "$own/out" "$own/help"
    says "$word --help" 0 "$word --help" ''
    judge "$word --help" "$(cat "$own/help")" "$(cat "$own/out")"
done
says 'help of watch' 0 'help watch' ''
judge 'help of watch has its options' '--all --quiet --json --max --known --hart --page --kind ' "$(sed -n 's/^  \(--[a-z]*\) .*/\1/p' "$own/out" | tr '\n' ' ')"
says 'help of explain' 0 'help explain' ''
judge 'help of explain has its options' '--svg --hart --page --kind ' "$(sed -n 's/^  \(--[a-z]*\) .*/\1/p' "$own/out" | tr '\n' ' ')"
says 'help of no command' 2 'help rnu' 'svsim: usage: svsim COMMAND FILE'
says 'the version' 0 --version ''
judge 'the version names the toolchain' one "$(tail -n 1 "$own/out")"
judge 'nothing was built so far' 0 "$(builds)"

# On a terminal a second line helps, and nowhere else
on_terminal() { script -qec "'$svsim' $1" /dev/null </dev/null 2>&1 | tr -d '\r' | tail -n 1; }
helps() { judge "$1 on a terminal" "svsim: $3" "$(on_terminal "$2")"; }
helps 'a slip of run' "rnu $own/file.toml" 'perhaps svsim run; svsim help lists the commands'
helps 'a slip of help' hlep 'perhaps svsim help; svsim help lists the commands'
helps 'a slip of two letters' "rnuu $own/file.toml" 'perhaps svsim run; svsim help lists the commands'
helps 'two letters exchanged, and one more' "ilvex $own/file.toml" 'svsim help lists the commands'
helps 'a letter of run' "r $own/file.toml" 'perhaps svsim run; svsim help lists the commands'
helps 'no command at all' "xyzzyq $own/file.toml" 'svsim help lists the commands'
helps 'a command without a file' run 'svsim help lists the commands'
helps 'watch without a file' watch 'svsim help watch tells what it takes'
helps 'explain without a line' "explain $own/file.toml" 'svsim help explain tells what it takes'
helps 'both options' "watch --all --quiet $own/file.toml" 'svsim help watch tells what it takes'
helps 'a slip behind an option' "--all wach $own/file.toml" 'perhaps svsim watch; svsim help lists the commands'
helps 'a slip behind an option with a value' "--hart 1 wach $own/file.toml" 'perhaps svsim watch; svsim help lists the commands'
helps 'a slip behind a list' "--json --max 2 --known l wach $own/file.toml" 'perhaps svsim watch; svsim help lists the commands'
helps 'no list' "watch --known $own/none $own/file.toml" 'no such file'
helps 'an option without its value' "watch $own/file.toml --hart" 'svsim help watch tells what it takes'
helps 'an option of watch for run' "run --all $own/file.toml" 'svsim help lists the commands'
helps 'an option alone' --quiet 'svsim help lists the commands'
helps 'no file' "run $own/none" 'no such file'
helps 'a folder' "run $own" 'it is a folder'
echo 3 | tee "$own/status" >"$own/watch_status"
echo 'root = "0x80000"' >"$own/walk.toml"
echo 'scripts = [[]]' >"$own/live.toml"
echo 'watch 1 2 sv39' >"$own/run.trace"
helps 'a fault' "run $own/file.toml" "svsim check $own/file.toml lists all faults"
helps 'a fault of draw' "draw $own/file.toml" "svsim check $own/file.toml lists all faults"
helps 'a fault of walk' "walk $own/walk.toml" "svsim check $own/walk.toml lists all faults"
helps 'a file of walk' "stale $own/walk.toml" 'a file for walk: use walk'
helps 'a file of live' "draw $own/live.toml" 'a file for live: use live'
suits() {
    printf '%s\n' "$2" >"$own/key.toml"
    helps "a file with $2" "draw $own/key.toml" "$([ "$1" = run ] && echo "svsim check $own/key.toml lists all faults" || echo "a file for $1: use $1")"
}
for key in setup scripts turns; do
    suits live "$key = 0"
    suits live "\"$key\" = 0"
done
for key in root frames words; do
    suits walk "$key = 0"
    suits walk " '$key'=0"
done
suits live '[setup]'
suits live '[[ "scripts" ]] # none'
suits live 'turns.most = 0'
suits walk '[words.more]'
suits run 'harts = 2 # turns = 0'
suits run 'turn = 0'
suits run '"turns = 0"'
suits run '["words", "frames"]'
helps 'a file of run' "walk $own/file.toml" 'a file for run: use run, stale, show or draw'
helps 'a trace' "run $own/run.trace" 'a trace: use watch'
helps 'a file that is no trace' "watch $own/file.toml" 'a file for run: use run, stale, show or draw'
judge 'a trace with a fault' 'line of watch' "$(on_terminal "watch $own/run.trace")"
judge 'a fault that check told' 'line of check' "$(on_terminal "check $own/file.toml")"
"$svsim" run "$own/file.toml" >/dev/null 2>"$own/err"
judge 'a fault where nobody looks' 0 "$(grep -c 'lists all' "$own/err")"
echo 0 | tee "$own/status" >"$own/watch_status"
judge 'no fault' 'line of stale' "$(forget; on_terminal "stale $own/file.toml")"
forget
: >"$own/builds"

# The file
answer >/dev/null
judge 'the file is handed over' "$(cksum <"$own/file.toml")" "$(cksum <"$own/given")"
judge 'the lines of the command alone' 'line of run' "$(answer)"
timeout 60 "$svsim" run /dev/zero >/dev/null 2>"$own/err"
judge 'a file without end' 'svsim: file too large' "$(cat "$own/err")"
head -c 1048576 /dev/zero >"$own/long"
"$svsim" run "$own/long" >/dev/null 2>&1
judge 'the longest file' 1048576 "$(wc -c <"$own/given" | tr -d ' ')"
head -c 1048577 /dev/zero >"$own/long"
"$svsim" run "$own/long" >/dev/null 2>"$own/err"
judge 'a file that is too long' 'svsim: file too large' "$(cat "$own/err")"
"$svsim" watch "$own/long" >/dev/null 2>&1
judge 'a longer trace' 1048577 "$(wc -c <"$own/given" | tr -d ' ')"
echo 'a trace' | "$svsim" watch - >/dev/null 2>&1
judge 'a trace from standard input' 'a trace' "$(cat "$own/given")"
cp "$own/file.toml" "$own/-file"
judge 'a name behind two dashes' 'line of run' "$(cd "$own" && "$svsim" run -- -file 2>/dev/null)"

# A fault whose text holds line feeds: nothing of it is lost, and no line of the toolchain is printed
forget
printf 'svsim: key a\ninterpreter: b\nrun=ended c\nraces: d\nchecked: e: wrong\n' >"$own/trouble"
echo 3 >"$own/status"
answer >/dev/null
judge 'the status of a fault' 3 $?
judge 'a fault of five lines' "$(cksum <"$own/trouble")" "$(sed 1d "$own/err" | cksum)"
forget
printf 'svsim: key a\ncase=run run=ended status=0 b\n' >"$own/trouble"
answer >/dev/null
judge 'a fault that looks like a line of the toolchain is not taken for one' 6 $?
: >"$own/trouble"
printf '== show\n' >"$own/lines"
forget
answer >/dev/null
judge 'a line that looks like the head of another command' 6 $?
: >"$own/lines"
echo 0 >"$own/status"
forget
answer >/dev/null
judge 'no fault' '' "$(sed 1d "$own/err")"

# What names the file names it as the caller did, though the build read a copy
forget
printf 'case:3:5: a fault\n<text class=\047subtitle\047>case: a run of 1 hart</text>\n' >"$own/lines"
cp "$own/file.toml" "$own/a <b> & c.toml"
judge 'the name in a line of check' "$own/a <b> & c.toml:3:5: a fault" "$("$svsim" check "$own/a <b> & c.toml" 2>/dev/null | head -n 1)"
judge 'the name in a picture' "<text class='subtitle'>a &lt;b&gt; &amp; c.toml: a run of 1 hart</text>" \
    "$("$svsim" draw "$own/a <b> & c.toml" 2>/dev/null | sed -n 2p)"
hidden=$(printf 'a\t\342\200\256b\302\205\303\251.toml')
cp "$own/file.toml" "$own/$hidden"
judge 'a name with letters that hide' "$own/$(printf 'a??b?\303\251.toml'):3:5: a fault" "$("$svsim" check "$own/$hidden" 2>/dev/null | head -n 1)"
judge 'such a name in a picture' "<text class='subtitle'>a ?b??.toml: a run of 1 hart</text>" "$("$svsim" draw "$own/$hidden" 2>/dev/null | sed -n 2p)"
long=$(printf 'x%.0s' $(seq 70))
cp "$own/file.toml" "$own/$long"
judge 'a long name in a picture' "<text class='subtitle'>$(printf 'x%.0s' $(seq 60))..: a run of 1 hart</text>" \
    "$("$svsim" draw "$own/$long" 2>/dev/null | sed -n 2p)"
judge 'another name of the same text' "$own/file.toml:3:5: a fault" "$("$svsim" check "$own/file.toml" 2>/dev/null | head -n 1)"
judge 'no other command' 'case:3:5: a fault' "$(answer | head -n 1)"
: >"$own/lines"
forget
answer >/dev/null

# What was answered is kept: for all commands that suit the file, by the sum of sources, toolchain and file
before=$(builds)
judge 'the same call again' 'line of run' "$(answer)"
judge 'nothing is said of a build' '' "$(cat "$own/err")"
for word in stale show draw check; do
    judge "$word of the same file" "line of $word" "$("$svsim" $word "$own/file.toml" 2>/dev/null)"
done
judge 'one build answered them' "$before" "$(builds)"
echo 'steps = [ ]' >"$own/file.toml"
answer >/dev/null
judge 'another file' $((before + 1)) "$(builds)"
echo two >"$own/version"
answer >/dev/null
judge 'another toolchain' $((before + 2)) "$(builds)"
echo one >"$own/version"
answer >/dev/null
judge 'the first toolchain again' $((before + 2)) "$(builds)"
"$svsim" live "$own/file.toml" >/dev/null 2>&1
"$svsim" live "$own/file.toml" >/dev/null 2>&1
judge 'each call of live' $((before + 4)) "$(builds)"
before=$(builds)
echo 'root = "0x80000"' >"$own/walk.toml"
"$svsim" check "$own/walk.toml" >/dev/null 2>&1
judge 'check builds walk on a file of walk' 'line of walk' "$("$svsim" walk "$own/walk.toml" 2>/dev/null)"
echo 'setup = []' >"$own/live.toml"
judge 'check of a file of live' 'line of check' "$("$svsim" check "$own/live.toml" 2>/dev/null)"
judge 'each was built once' $((before + 2)) "$(builds)"
before=$((before - 2))
echo 'a trace' | "$svsim" watch - >/dev/null 2>&1
echo 'a trace' | "$svsim" watch - >/dev/null 2>&1
judge 'each trace from standard input' $((before + 6)) "$(builds)"
for number in $(seq 104); do
    echo "steps = [] # $number" >"$own/many.toml"
    mkdir -p "$kept/answers/$number"
done
"$svsim" walk "$own/many.toml" >/dev/null 2>&1
judge 'the answers on the last hundred files are kept' 100 "$(ls "$kept/answers" | wc -l | tr -d ' ')"
echo 20 >"$own/seconds"
"$svsim" watch "$own/file.toml" 2>&1 >/dev/null | tail -n 1 >"$own/err"
judge 'a build of twenty seconds' 'svsim: 10 seconds so far' "$(cat "$own/err")"
echo 0 >"$own/seconds"

# A trace: by the smaller program, and where that gives no answer by the whole one
before=$(builds)
echo 'one more trace' >"$own/file.trace"
judge 'a trace' 'line of watch' "$("$svsim" watch "$own/file.trace" 2>/dev/null)"
judge 'by one build' $((before + 1)) "$(builds)"
judge 'of the smaller program' svsim_watch "$(tail -n 1 "$own/builds")"
judge 'the same trace again' 'line of watch' "$("$svsim" watch "$own/file.trace" 2>/dev/null)"
judge 'is built no more' $((before + 1)) "$(builds)"
echo 1 >"$own/watch_status"
echo 'a trace with a verdict' >"$own/file.trace"
judge 'the status of a verdict' 1 "$("$svsim" watch "$own/file.trace" >/dev/null 2>&1; echo $?)"
echo 3 >"$own/watch_status"
echo 'case:2:3: no hart 2' >"$own/trouble"
echo 'a trace with a wrong line' >"$own/file.trace"
judge 'a wrong line, with the name of the file' "$own/file.trace:2:3: no hart 2" "$("$svsim" watch "$own/file.trace" 2>&1 >/dev/null | tail -n 1)"
: >"$own/trouble"
echo 6 >"$own/watch_status"
echo 'a trace without an answer' >"$own/file.trace"
judge 'a trace that the smaller program can not hold' 'line of watch' "$("$svsim" watch "$own/file.trace" 2>/dev/null)"
judge 'is answered by the whole one' 'svsim_watch svsim' "$(tail -n 2 "$own/builds" | tr '\n' ' ' | sed 's/ $//')"
judge 'with its status' 0 "$("$svsim" watch "$own/file.trace" >/dev/null 2>&1; echo $?)"
echo 0 >"$own/watch_status"

# The options of watch: one build answers with each and without, wherever they stand before `--`
cp "$own/file.trace" "$own/-t"
cp "$own/file.trace" "$own/--all"
forget
before=$(builds)
watches() { judge "$1" "line of watch$2" "$(cd "$own" && "$svsim" $1 2>"$own/err")"; }
watches 'watch file.trace' ''
watches 'watch --all file.trace' ' --all'
judge 'nothing is said of a build of another option' '' "$(cat "$own/err")"
watches '--all watch file.trace' ' --all'
watches 'watch file.trace --all' ' --all'
watches 'watch --all -- file.trace' ' --all'
watches '--all -- watch -t' ' --all'
watches 'watch --quiet file.trace' ' --quiet'
watches '--quiet watch file.trace' ' --quiet'
watches 'watch file.trace --quiet' ' --quiet'
watches 'watch --quiet -- -t' ' --quiet'
watches 'watch -- --all' ''
watches 'watch --quiet -- --all' ' --quiet'
watches '-- watch --all' ''
judge 'one build answered them all' $((before + 1)) "$(builds)"
watches 'watch --hart 1 file.trace' ' --hart 1'
watches 'watch file.trace --hart=1' ' --hart 1'
watches '--hart 1 watch -- --all' ' --hart 1'
judge 'a build answers a test of the verdicts' $((before + 2)) "$(builds)"
watches 'watch --hart 2 file.trace' ' --hart 2'
watches 'watch --kind kernel-free --all --page 1000 file.trace' ' --all --kind kernel-free --page 1000'
watches 'watch --kind kernel-free --page=1000 --all -- file.trace' ' --all --kind kernel-free --page 1000'
watches 'watch --quiet --page fFfF file.trace' ' --quiet --page fFfF'
judge 'and another each other test' $((before + 5)) "$(builds)"
watches 'watch file.trace' ''
watches 'watch --all file.trace' ' --all'
judge 'the answers without one are kept beside' $((before + 5)) "$(builds)"
watches 'watch --json file.trace' ' --json'
watches '--json watch file.trace' ' --json'
watches 'watch --quiet file.trace --json' ' --quiet --json'
watches 'watch --max 3 file.trace' ' --max 3'
watches 'watch file.trace --max=003' ' --max 3'
watches 'watch --max 0 --all file.trace' ' --all --max 0'
watches "watch --max $(printf '%0300d' 0) --all file.trace" ' --all --max 0'
watches 'watch --max 18446744073709551615 file.trace' ' --max 18446744073709551615'
watches 'watch --hart 1 --max 3 file.trace --json' ' --max 3 --json --hart 1'
judge 'a build answers how it is told' $((before + 11)) "$(builds)"
before=$((before + 10))
echo 'a list' >"$own/l"
cp "$own/l" "$own/--all=1"
watches 'watch --known l file.trace' ' --known list'
judge 'a list is handed over' 'a list' "$(cat "$own/list")"
watches '--known=l watch file.trace' ' --known list'
watches 'watch --known=--all=1 file.trace' ' --known list'
judge 'a list of the same text is answered' $((before + 2)) "$(builds)"
echo 'another list' >"$own/l"
watches 'watch --known l file.trace' ' --known list'
judge 'another list is handed over' 'another list' "$(cat "$own/list")"
watches 'watch --quiet --known l file.trace --kind=use' ' --quiet --known list --kind use'
judge 'and is answered by a build' $((before + 4)) "$(builds)"
head -c 1048577 /dev/zero >"$own/l"
watches 'watch --known l file.trace' ' --known list'
judge 'a list that is too long is handed over' 1048577 "$(wc -c <"$own/list" | tr -d ' ')"
echo 6 >"$own/watch_status"
echo 'a list that the smaller program can not hold' >"$own/l"
watches 'watch --known l file.trace' ' --known list'
judge 'the whole program reads it' 'svsim_watch svsim' "$(tail -n 2 "$own/builds" | tr '\n' ' ' | sed 's/ $//')"
judge 'the list itself' 'a list that the smaller program can not hold' "$(cat "$own/list")"
echo 0 >"$own/watch_status"
before=$((before + 6))
echo 'a trace that is handed over' >"$own/file.trace"
for option in '' --all --quiet; do
    judge "a trace from standard input ${option:-without an option}" "line of watch${option:+ $option}" \
        "$("$svsim" watch $option - <"$own/file.trace" 2>/dev/null)"
done
judge 'it is handed over' 'a trace that is handed over' "$(cat "$own/given")"
judge 'is built each time' $((before + 4)) "$(builds)"
judge 'an option of watch is not of the other commands' 'line of run' "$(answer)"

# explain: each call is a build of the smaller program of its own, and its answer is kept
explains() { judge "$1" "line of watch $2" "$(cd "$own" && "$svsim" $1 2>/dev/null)"; }
echo 'a trace that is explained' >"$own/file.trace"
before=$(builds)
explains 'explain file.trace 7' '--explain 7'
explains "explain file.trace $(printf '%0300d' 7)" '--explain 7'
explains 'explain -- file.trace 7' '--explain 7'
explains 'explain file.trace 8' '--explain 8'
explains 'explain --hart 1 file.trace 7' '--explain 7 --hart 1'
explains 'explain file.trace --kind use 7 --hart=1' '--explain 7 --kind use --hart 1'
explains 'explain file.trace 7' '--explain 7'
judge 'four calls are builds' $((before + 4)) "$(builds)"
judge 'a story from standard input' 'line of watch --explain 7' "$("$svsim" explain - 7 <"$own/file.trace" 2>/dev/null)"
judge 'it is handed over' 'a trace that is explained' "$(cat "$own/given")"
echo 'case:7: no such verdict' >"$own/trouble"
echo 1 >"$own/watch_status"
echo 'a trace without a verdict there' >"$own/file.trace"
judge 'no such verdict, with the name of the file' "$own/file.trace:7: no such verdict" "$("$svsim" explain "$own/file.trace" 7 2>&1 >/dev/null | tail -n 1)"
judge 'its status' 1 "$("$svsim" explain "$own/file.trace" 7 >/dev/null 2>&1; echo $?)"
: >"$own/trouble"
echo 6 >"$own/watch_status"
echo 'a trace whose story the smaller program can not hold' >"$own/file.trace"
judge 'the whole program tells it' 'line of explain --hart 1 {} 7 ' "$("$svsim" explain "$own/file.trace" 7 --hart 1 2>/dev/null)"
judge 'behind the smaller one' 'svsim_watch svsim' "$(tail -n 2 "$own/builds" | tr '\n' ' ' | sed 's/ $//')"
echo 0 >"$own/watch_status"
echo 'a trace whose verdict is drawn' >"$own/file.trace"
before=$(builds)
draws() { judge "$1" "line of explain --svg $2" "$(cd "$own" && "$svsim" $1 2>/dev/null)"; }
draws 'explain --svg file.trace 7' '{} 7 '
draws 'explain file.trace 7 --svg' '{} 7 '
draws '--svg explain --hart 1 -- file.trace 7' '--hart 1 {} 7 '
explains 'explain file.trace 7' '--explain 7'
judge 'a picture is a build of its own' $((before + 3)) "$(builds)"
judge 'of the whole program alone' 'svsim svsim svsim_watch' "$(tail -n 3 "$own/builds" | tr '\n' ' ' | sed 's/ $//')"

# The status of each is kept too, and what the smaller program could not answer is left to the whole one
echo 1 >"$own/status_of_watchall"
echo 'a trace whose verdicts differ' >"$own/file.trace"
status_of() { "$svsim" watch ${1-} "$own/file.trace" >/dev/null 2>&1; echo $?; }
judge 'the statuses of the three' '0 1 0' "$(status_of) $(status_of --all) $(status_of --quiet)"
echo 6 >"$own/status_of_watchall"
echo 'a trace with too many verdicts' >"$own/file.trace"
before=$(builds)
judge 'a trace that the smaller program holds without an option' 0 "$(status_of)"
judge 'and with the other' 0 "$(status_of --quiet)"
judge 'by one build of it' $((before + 1)) "$(builds)"
watches 'watch --all file.trace' ' --all'
judge 'the third answer is that of the whole one' 'svsim_watch svsim' "$(tail -n 2 "$own/builds" | tr '\n' ' ' | sed 's/ $//')"
judge 'its status' 0 "$(status_of --all)"
watches 'watch --quiet file.trace' ' --quiet'
judge 'is kept with the others' $((before + 3)) "$(builds)"
rm "$own/status_of_watchall"
echo 3 >"$own/watch_status"
echo 'a trace with a wrong line, whose name is an option' >"$own/--all"
judge 'a wrong line of the file --all: nothing else is said' '' "$(cd "$own" && "$svsim" watch -- --all 2>&1 >/dev/null | sed 1d)"
echo 0 >"$own/watch_status"

# The name of the trace in the lines of its report
names() { judge "the name in a report: $1" "$3" "$(cd "$own" && "$svsim" watch $2 2>/dev/null | sed '$d')"; }
printf '%s\n' 'case:15: use hart 1' '  cause 1: user pages' '  case:15: x' 'x case:15: y' 'case:15:3: y' 'case:: y' 'case:15 y' \
    'casement:15: y' 'case:7: claim case:7: case:8: y' '26 records, 3 verdicts: case:1: y' >"$own/lines"
printf '%s\n' 'list:3: by design: 1 finding' 'x list:3: y' 'list:3:1: y' '{"type":"verdict","file":"case","line":15,"by":"\"file\":\"case\""}' \
    '{"type":"known","file":"list","line":3}' '{"type":"verdict","line":"case"}' '{"type":"total","file":"cases"}' >"$own/lines_with_list"
report() { sed "s|^case:15: use|$1:15: use|; s|^case:7: claim|$1:7: claim|" "$own/lines"; }
echo 'a trace with a report' >"$own/file.trace"
names 'as it was called' file.trace "$(report file.trace)"
names 'by another path' ./file.trace "$(report ./file.trace)"
names 'with an option' '--all file.trace' "$(report file.trace)"
names 'behind two dashes' '--quiet -- file.trace' "$(report file.trace)"
judge 'the name in a report: standard input' "$(report -)" "$("$svsim" watch - <"$own/file.trace" 2>/dev/null | sed '$d')"
cp "$own/file.trace" "$own/a \&1 \\n é"
judge 'the name in a report: letters of awk and sed' "$own/a \&1 \\n é:15: use hart 1" \
    "$("$svsim" watch "$own/a \&1 \\n é" 2>/dev/null | head -n 1)"
cp "$own/lines" "$own/lines_without"
cp "$own/lines_with_list" "$own/lines"
echo 'a list with a name' >"$own/a \"l\\"
cp "$own/file.trace" "$own/t.trace"
echo more >>"$own/t.trace"
sed 's|^list:3: by|a "l\\:3: by|; s|^\(.*"file":\)"case",|\1"t.trace",|; s|"file":"list",|"file":"a \\"l\\\\",|' "$own/lines" >"$own/lines_named"
judge 'the name of a list' "$(cat "$own/lines_named")" "$(cd "$own" && "$svsim" watch --known 'a "l\' t.trace 2>/dev/null | sed '$d')"
cp "$own/t.trace" "$own/t	\"é\\.trace"
judge 'a name in JSON' '{"type":"verdict","file":"t\t\"é\\.trace","line":15,"by":"\"file\":\"case\""}' \
    "$(cd "$own" && "$svsim" watch --known 'a "l\' 't	"é\.trace' 2>/dev/null | sed -n 4p)"
echo 'list:2: no owner' >"$own/trouble"
echo 'a wrong list' >"$own/l"
judge 'a wrong line of a list, with its name' "$own/l:2: no owner" "$("$svsim" watch --known "$own/l" "$own/t.trace" 2>&1 >/dev/null | tail -n 1)"
: >"$own/trouble"
cp "$own/lines_without" "$own/lines"
{ sleep 0.2; "$svsim" watch "$own/file.trace" 2>"$own/unread"; echo "$?" >"$own/unread_status"; } | true
judge 'a report that nobody reads: its status' "$(cat "$own/watch_status")" "$(cat "$own/unread_status")"
judge 'a report that nobody reads: nothing is said' '' "$(grep -v '^svsim: ' "$own/unread")"
judge 'no other command has it' "$(cat "$own/lines")" "$("$svsim" run "$own/file.trace" 2>/dev/null | sed '$d')"
judge 'the tour names its trace' 'examples/watch/left-out-hart.trace:15: use hart 1' \
    "$("$svsim" tour 2>/dev/null | grep ': use hart 1$' | tail -n 1)"
printf '%s\n' 'watch 1 2 sv39' '# case:15: use hart 1' '# case:7: # case:8: y' '# case:15 y' 'case:15: y' '# case:15:3: y' ' # case:1: y' >"$own/lines"
judge 'the name in a story' "$(sed 's|^# case:15: use|# file.trace:15: use|; s|^# case:7:|# file.trace:7:|' "$own/lines")" \
    "$(cd "$own" && "$svsim" explain file.trace 15 2>/dev/null | sed '$d')"
{ sleep 0.2; "$svsim" explain "$own/file.trace" 16 2>"$own/unread"; echo "$?" >"$own/unread_status"; } | true
judge 'a story that nobody reads: its status' "$(cat "$own/watch_status")" "$(cat "$own/unread_status")"
judge 'a story that nobody reads: nothing is said' '' "$(grep -v '^svsim: ' "$own/unread")"
: >"$own/lines"

# The tour
judge 'the tour shows three examples' 'line of walk line of run line of watch' \
    "$("$svsim" tour 2>/dev/null | grep '^line of' | tr '\n' ' ' | sed 's/ $//')"
judge 'and their calls' 3 "$("$svsim" tour 2>/dev/null | grep -c '^\$ ./svsim ')"

# A proof: of these sources and this toolchain alone, in a folder of one's own
unproved='line of run'
"$svsim" prove 2>/dev/null
judge 'the folder is one'"'"'s own' 700 "$(stat -c %a "$kept")"
judge 'after a proof' proved "$(answer)"
judge 'answers of unproved builds are gone' none "$([ -e "$kept/answers" ] && echo some || echo none)"
judge 'the tour after a proof' 3 "$("$svsim" tour 2>/dev/null | grep -c '^proved$')"
echo two >"$own/version"
judge 'another toolchain' "$unproved" "$(answer)"
echo one >"$own/version"
judge 'the first toolchain again' proved "$(answer)"
mkdir "$own/tree/crates/svsim/src"
echo 'fn main() {}' >"$own/tree/crates/svsim/src/main.rt"
judge 'another source' "$unproved" "$(answer)"
rm -r "$own/tree/crates/svsim/src"
chmod 770 "$kept"
judge 'a folder that others may write to' "$unproved" "$(answer)"
forget
before=$(builds)
answer >/dev/null
answer >/dev/null
judge 'nothing is kept in such a folder' $((before + 2)) "$(builds)"
"$svsim" prove 2>/dev/null
judge 'no proof into such a folder' 6 $?
chmod 700 "$kept"
mv "$kept" "$own/elsewhere"
ln -s "$own/elsewhere" "$kept"
judge 'a link' "$unproved" "$(answer)"
"$svsim" prove 2>/dev/null
judge 'no proof through a link' 6 $?
rm "$kept"
mv "$own/elsewhere" "$kept"
if [ "$(id -u)" = 0 ]; then
    chown 61234 "$kept"
    judge 'a folder of another user' "$unproved" "$(answer)"
    chown 0 "$kept"
fi
judge 'the folder again' proved "$(answer)"

# A release: a program beside it, and neither sources nor a toolchain that it calls
mkdir "$own/release" "$own/release/bin" "$own/release/libexec"
cp "$top/svsim" "$own/release/svsim"
ln -s ../svsim "$own/release/bin/svsim"
svsim=$own/release/bin/svsim
alone="svsim: neither its program nor its sources stand beside $own/release/svsim"
says 'the wrapper alone' 6 "run $own/file.toml" "$alone"
says 'its tour' 6 tour "$alone"
says 'its proof' 6 prove "$alone"
printf '#!/bin/sh\necho "released $*"\nexit 1\n' >"$own/release/libexec/svsim"
chmod +x "$own/release/libexec/svsim"
echo 'svsim of a release' >"$own/release/BUILD"
printf '#!/bin/sh\necho called >"%s"\n' "$own/called" >"$own/bin/rt"
judge 'a release answers' "released watch -" "$("$svsim" watch -)"
judge 'a release passes an option on' "released --all watch -" "$("$svsim" --all watch -)"
judge 'and one with a value' "released watch --hart 1 --kind=use -" "$("$svsim" watch --hart 1 --kind=use -)"
judge 'and two dashes' "released watch --quiet -- -" "$("$svsim" watch --quiet -- -)"
judge 'and a list that is not there' "released watch --json --max 03 --known $own/none -" "$("$svsim" watch --json --max 03 --known "$own/none" -)"
judge 'a release explains' "released explain --hart 1 - 7" "$("$svsim" explain --hart 1 - 7)"
says 'explain without a line, of a release' 2 'explain -' 'svsim: usage: svsim COMMAND FILE'
says 'both options, of a release' 2 'watch --all --quiet -' 'svsim: usage: svsim COMMAND FILE'
judge 'its status' 1 "$("$svsim" run "$own/file.toml" >/dev/null; echo $?)"
says 'a word that is no command, of a release' 2 "rnu $own/file.toml" 'svsim: usage: svsim COMMAND FILE'
says 'the version of a release' 0 --version ''
judge 'its text' 'svsim of a release' "$(cat "$own/out")"
says 'help of a release' 0 help ''
judge 'it has nothing to prove' 0 "$(grep -c prove "$own/out")"
says 'a proof of a release' 0 prove 'svsim: a release is proved already; svsim --version says from what'
judge 'the tour of a release' 3 "$("$svsim" tour 2>&1 | grep -c '^released ')"
judge 'and its calls' 3 "$("$svsim" tour 2>/dev/null | grep -c '^\$ svsim [a-z]* /')"
judge 'which are made as they are shown' "$("$svsim" tour 2>/dev/null | sed -n 's/^\$ svsim //p')" \
    "$("$svsim" tour 2>/dev/null | sed -n 's/^released //p')"
judge 'a release calls no toolchain' no "$([ -e "$own/called" ] && echo yes || echo no)"
echo "$passed passed, $failed failed"
[ "$failed" = 0 ]
