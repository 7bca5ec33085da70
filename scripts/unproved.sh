# What ./svsim does until its program is proved: it builds the program without a proof, has it answer every command that suits the file,
# and keeps the answers. svsim reads this file by `.`; it uses svsim's variables and functions.

# How many bytes a file may have; a trace may have any number.
most_bytes=1048576
# How many files have answers that are kept.
most_answers=100

# Waits for a process, and says every ten seconds how long it has taken.
wait_for() {
    tenths=0
    while kill -0 "$1" 2>/dev/null; do
        sleep 0.1
        tenths=$((tenths + 1))
        if [ $((tenths % 100)) -eq 0 ]; then echo "svsim: $((tenths / 10)) seconds so far" >&2; fi
    done
    wait "$1"
}

# Copies of a file no more than it takes to see that it is too large.
front_of() {
    head -c $((most_bytes + 1)) <"$1"
}

# Copies what a command reads: all of a trace.
copy_of() {
    if ! is_of_trace; then front_of "$1"; elif [ "$1" = - ]; then cat; else cat <"$1"; fi
}

# The folder that holds the answers on a file.
answers_on() {
    echo "$store/$({ printf '%s\n' "$now" && cat "$1"; } | sha256sum | cut -c1-64)"
}

# Takes apart what a build printed of its cases: of each that ended, what it wrote and its status. Status 6 is the smaller program's,
# and no answer. Nothing is taken where a text of the program looks like a line of the toolchain.
take_apart() {
    folder=$1 && shift
    lines=$(grep -c -x -E "== ($(echo "$@" | tr ' ' '|'))" "$own/out" || true)
    ends=$(grep -c -E "^case=($(echo "$@" | tr ' ' '|')) run=" "$own/err" || true)
    if [ "$lines" -gt $# ] || [ "$ends" -ne $# ]; then return; fi
    mkdir -p "$folder"
    for each in "$@"; do
        status=$(sed -n "s/^case=$each run=ended status=\([0-9]*\) .*/\1/p" "$own/err")
        if [ -z "$status" ] || [ "$status" = 6 ]; then continue; fi
        awk -v name="$each" '/^== / { on = ($0 == "== " name); next } on' "$own/out" >"$folder/$each.out"
        awk -v name="$each" '
            /^case=[0-9a-z]+ run=/ { if ($1 == "case=" name) { printf "%s", text; exit } text = ""; next }
            { text = text $0 "\n" }' "$own/err" >"$folder/$each.err"
        echo "$status" >"$folder/$each.status"
    done
}

# The words of a case, a line each: the command, behind a digit in the tour, and what else watch and explain take.
words_of() {
    case $1 in
    watch*with*) printf 'watch\n%s%s{}\n' "${option:+--$option$newline}" "$tests" ;;
    watchall | watchquiet) printf 'watch\n--%s\n{}\n' "${1#watch}" ;;
    explain*) printf 'explain\n%s%s{}\n%s\n' "${svg:+--svg$newline}" "$tests" "$line" ;;
    *) printf '%s\n{}\n' "${1#[0-9]}" ;;
    esac
}

# The same for the smaller program, whose words have no command.
small_words_of() {
    case $1 in
    explain*) printf -- '--explain\n%s\n%s{}\n' "$line" "$tests" ;;
    *) words_of "$1" | sed 1d ;;
    esac
}

# What a build answers on a file: all that suits it, or what was asked for alone, where it is of some verdicts.
cases_of() {
    if [ -n "$tests$line" ]; then echo "$asked"; else suiting "$command" "$1"; fi
}

# Builds the program without a proof, and has it answer these cases on a file: CASE FILE [CASE FILE ..]
build() {
    cases=$own/cases
    rm -rf "$cases" && mkdir "$cases"
    names=''
    while [ $# -gt 0 ]; do
        cp "$2" "$cases/$1"
        words_of "$1" >"$cases/$1.args"
        names="$names $1"
        shift 2
    done
    try svsim 'one to two minutes on 4 cores, 2 GB'
}

# The same of a trace, by the smaller program.
build_watch() {
    cases=$own/cases
    mkdir "$cases"
    names=$(cases_of "$1")
    for each in $names; do
        cp "$1" "$cases/$each"
        small_words_of "$each" >"$cases/$each.args"
    done
    try svsim_watch '20 to 40 seconds on 4 cores, 0.7 GB'
}

# Builds a crate's program without a proof, and runs it on the cases: CRATE and what that costs.
try() {
    echo "svsim: building without a proof: $2; svsim prove proves and builds the program once" >&2
    crate=$1
    set --
    if has_list; then set -- --data "list=$own/list"; fi
    (cd "$top/crates/$crate" && exec setsid rt try --steps 1 "$@" --cases "$cases") >"$own/out" 2>"$own/err" &
    child=$!
    wait_for $child || true
    child=''
}

# Keeps the answers of the last files alone.
forget_oldest() {
    if [ -d "$kept/answers" ]; then
        (cd "$kept/answers" && ls -t | tail -n +$((most_answers + 1)) | while read -r each; do rm -rf "$each"; done)
    fi
}

# A text as the inside of a string of JSON.
in_json() {
    printf %s "$1" | od -An -v -tu1 | tr -s ' ' '\n' | LC_ALL=C awk '
        $1 == "" { next }
        $1 == 34 || $1 == 92 { printf "\\%c", $1; next }
        $1 >= 32 { printf "%c", $1; next }
        { short = substr("btn-fr", $1 - 7, 1) }
        $1 < 8 || $1 > 13 || $1 == 11 { printf "\\u%04x", $1; next }
        { printf "\\%s", short }'
}

# The build read copies of the files under the names `case` and `list`. What it printed is given the names that the caller gave, as the
# program prints them: before the line's number in a report of watch and in the comments of explain as it is, in an object of JSON behind
# its type, at the head of a line of check with `?` for each control character and each that sets the direction
# (crates/checks/src/shown.rt), and in a picture its last component, of 60 characters at most, with `?` for what is not ASCII
# (crates/draw/src/heading.rt).
named() {
    case $1${svg-} in
    watch)
        NAME=$file LIST=$known JSON_NAME=$(in_json "$file") JSON_LIST=$(in_json "$known") awk '
            /^case:[0-9]+: / { print ENVIRON["NAME"] substr($0, 5); next }
            /^list:[0-9]+: / { print ENVIRON["LIST"] substr($0, 5); next }
            /^\{"type":"[a-z]+","file":"(case|list)",/ {
                at = index($0, ",") + 8
                name = substr($0, at + 1, 4) == "case" ? "JSON_NAME" : "JSON_LIST"
                print substr($0, 1, at) ENVIRON[name] substr($0, at + 5)
                next
            }
            { print }' ;;
    explain) NAME=$file awk '{ if ($0 ~ /^# case:[0-9]+: /) print "# " ENVIRON["NAME"] substr($0, 7); else print }' ;;
    check)
        NAME=$(printf %s "$file" | tr '\000-\037\177' '?' | LC_ALL=C sed 's/\xc2[\x80-\x9f]/?/g; s/\xd8\x9c/?/g
            s/\xe2\x80[\x8e\x8f\xaa-\xae]/?/g; s/\xe2\x81[\xa6-\xa9]/?/g') awk '
            { if (index($0, "case:") == 1) print ENVIRON["NAME"] substr($0, 5); else print }' ;;
    draw | explainsvg)
        NAME=$(printf %s "${file##*/}" | tr '\t' ' ' | tr '\000-\037\177' '?' | LC_ALL=C sed "s/[\xc0-\xff][\x80-\xbf]*/?/g
            s/^\(.\{60\}\)..*/\1../
            s/&/\&amp;/g; s/</\&lt;/g; s/>/\&gt;/g; s/\"/\&quot;/g; s/'/\&apos;/g") awk '
            { at = index($0, "<text class=\047subtitle\047") == 1 ? index($0, ">case") : 0
              if (at) print substr($0, 1, at) ENVIRON["NAME"] substr($0, at + 5); else print }' ;;
    *) cat ;;
    esac
}

# The same of the line on standard error, which begins with the file's name where it is of a line of a trace or of a list.
named_fault() {
    case $1 in
    watch | explain)
        NAME=$file LIST=$known awk '
            index($0, "case:") == 1 { print ENVIRON["NAME"] substr($0, 5); next }
            index($0, "list:") == 1 { print ENVIRON["LIST"] substr($0, 5); next }
            { print }' ;;
    *) cat ;;
    esac
}

# Prints the answer that was asked for, of those in a folder.
print_answer() {
    if is_of_trace; then
        # That nobody reads on is no fault of these.
        (trap '' PIPE && LC_ALL=C && export LC_ALL && named "$command" <"$1/$asked.out" 2>"$own/unread") || grep -q 'Broken pipe' "$own/unread" || {
            cat "$own/unread" >&2
            exit 4
        }
    else
        named "$command" <"$1/$asked.out"
    fi
    named_fault "$command" <"$1/$asked.err" >&2
    status=$(cat "$1/$asked.status")
    fault_hint "$command" "$file" "$status"
    exit "$status"
}

# A folder for this call, and the store of answers: what is kept, or this call's own.
begin() {
    own=$(mktemp -d)
    child=''
    trap 'rm -rf "$own"' EXIT
    trap '[ -z "$child" ] || kill -- "-$child" 2>/dev/null; exit 130' HUP INT TERM
    now=$(sources)
    if make_kept; then store=$kept/answers; else store=$own/answers; fi
}

# Copies a file under a name of this call's folder: FILE NAME HOW
copy() {
    if ! { "$3" "$1" >"$own/$2"; } 2>/dev/null; then refuse "cannot read $1" "is it there, and yours to read?"; fi
}

answer() {
    begin
    : >"$own/list"
    if has_list; then copy "$known" list front_of; fi
    copy "$file" given copy_of
    asked=$command$svg$option$line${tests:+with$({ printf '%s\n\n' "$tests" && sha256sum <"$own/list"; } | sha256sum | cut -c1-16)}
    if ! is_of_trace && [ "$(wc -c <"$own/given")" -gt $most_bytes ]; then
        refuse 'file too large' "a file has at most $most_bytes bytes"
    fi
    if [ "$command" = live ] || [ "$file" = - ]; then store=$own/answers; fi
    folder=$(answers_on "$own/given")
    if [ -f "$folder/$asked.status" ]; then print_answer "$folder"; fi
    whole=yes
    # The smaller program draws nothing.
    if is_of_trace && [ -z "$svg" ]; then
        build_watch "$own/given"
        take_apart "$folder" $names
        # Where the smaller program could not read, write or find memory, the whole one tells it.
        grep -q "^case=$asked run=ended status=6 " "$own/err" || whole=''
    fi
    if [ -n "$whole" ]; then
        set --
        for each in $(cases_of "$own/given"); do set -- "$@" "$each" "$own/given"; done
        build "$@"
        take_apart "$folder" $names
    fi
    forget_oldest
    if [ -f "$folder/$asked.status" ]; then print_answer "$folder"; fi
    cat "$own/err" >&2
    echo "svsim: the unproved run gave no answer; it may take 60 seconds and print 1 MiB, the proved program more" >&2
    exit 6
}
