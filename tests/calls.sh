#!/usr/bin/env bash
# Compares the calls of the system that each command makes on a small case with tests/calls.txt, and with each call how
# the command ends where it fails. It also goes through the calls and lets each one be interrupted, or move a part of
# its bytes: the command has to end as without that. And it kills the program as it begins each call: a file has all or
# nothing then, and can be saved to later. What stands before the C library for that is tests/calls.c.
#
#     tests/calls.sh [FILE]     # writes what it saw to FILE
[ ! -w /dev/shm ] || export TMPDIR=/dev/shm # where many syncs cost little
. "$(dirname "$0")/common.sh"
table=$PWD/tests/calls.txt

build_c calls || exit 0
mkdir "$work/case"
cd "$work/case"
seen=$work/table
cat >"$seen" <<'END'
The calls of the system that each command makes on a small case, as tests/calls.sh saw them. Below a command stands how
it ends: its status, what became of the file, what was printed, and the notes. Beside a call stands how the command ends
where the call fails with one of these errors, in short: by the notes alone where the status is 4, the file as before
and nothing printed, and of these by the cause alone where one is told before `outside fault`. A call that moves nothing
is `none`; one that moves half of the bytes, after which nothing more can be written, is `full`; one that opens nothing,
after which nothing more can be opened, is `shut`.
END
runs=0
odd=0

# The standard streams that are closed where a command runs, by the names that the table gives them.
closed=

# Runs the program where the call of this number goes as is told, or none. What it calls goes to `calls`.
run_with() (
    at=$1 fault=$2
    shift 2
    exec 9>"$work/calls"
    [[ $closed != *input* ]] || exec <&-
    [[ $closed != *output* ]] || exec >&-
    [[ $closed != *notes* ]] || exec 2>&-
    AT=$at FAULT=$fault LD_PRELOAD=$work/calls.so exec "$program" "$@"
)

# The calls that were made, with the port by its name.
calls() {
    sed "s/:$port\>/:PORT/" "$work/calls"
}

# The notes in one line, with the port by its name.
notes() {
    local lines text
    mapfile -t lines <"$work/notes"
    printf -v text '%s | ' "${lines[@]:-no notes}"
    text=${text/manuscript: $port:/manuscript: PORT:}
    text=${text% | }
    echo "${text% }"
}

# Whether both are not there, or are the same.
is_as() {
    if [ -e "$2" ]; then cmp -s "$1" "$2"; else [ ! -e "$1" ]; fi
}

# Whether a file sends the same as another.
sends_as() {
    [ -e "$2" ] && "$program" send "$2" <"$work/nothing" >"$work/sent" 2>/dev/null &&
        "$program" send "$1" <"$work/nothing" 2>/dev/null | cmp -s - "$work/sent"
}

# What became of the file.
file_state() {
    if is_as home "$work/before"; then
        echo 'as before'
    elif is_as home "$work/after"; then
        echo saved
    elif [ ! -e "$work/before" ]; then
        [ -s home ] && echo 'half made' || echo 'left empty'
    elif sends_as home "$work/before"; then
        echo 'as before'
    elif sends_as home "$work/after"; then
        echo saved
    else
        echo TORN
    fi
}

# What stands in the output.
output_state() {
    if cmp -s "$work/output" "$work/wanted"; then
        echo printed
    elif [ ! -s "$work/output" ]; then
        echo 'nothing printed'
    elif cmp -s -n "$(wc -c <"$work/output")" "$work/output" "$work/wanted"; then
        echo 'a prefix printed'
    else
        echo WRONG
    fi
}

# How a run ended: the status, the file, the output, the notes.
outcome() {
    local text=$1
    [ ! -e "$work/before" ] && [ ! -e "$work/after" ] || text+=", $(file_state)"
    [ ! -s "$work/wanted" ] || text+=", $(output_state)"
    echo "$text: $(notes)"
}

# The same in short: `no change` where it is as without a fault; of notes of a cause the cause alone; and no more than
# the notes where the status is 4, the file as before and nothing printed.
in_short() {
    local text=$1
    [[ $text != *': manuscript: '* ]] || text=${text/ | outside fault/}
    text=${text/: manuscript: /: }
    if [ "$1" = "$base" ]; then
        echo 'no change'
    elif [[ $text =~ ^4(, as before)?(, nothing printed)?:\ (.+)$ ]]; then
        echo "${BASH_REMATCH[3]}"
    else
        echo "status ${text/accepted*full 0/accepted ... full 0}"
    fi
}

# Puts the home file back.
restore() {
    rm -f home
    [ ! -e "$work/before" ] || cp "$work/before" home
}

# Runs the command of `words` on its home file and its input where the call of this number goes as is told. The answer
# is how it ended.
run_command() {
    runs=$((runs + 1))
    restore
    run_with "$1" "$2" "${words[@]}" <"$input" >"$work/output" 2>"$work/notes"
    ended_so=$(outcome $?)
}

# The same of a relay of two sessions, one after the other.
run_relay() {
    local peer waited answered=()
    runs=$((runs + 1))
    restore
    : >"$work/output"
    run_with "$1" "$2" "${words[@]}" <"$input" >"$work/output" 2>"$work/notes" &
    for ((waited = 0; waited < 1000; waited++)); do
        [ ! -s "$work/output" ] && kill -0 $! 2>/dev/null || break
        sleep 0.005
    done
    for peer in first second; do
        cp ann "$peer"
        "$program" sync "$peer" "$port" 0 <"$nothing" 2>/dev/null && answered+=("$peer")
    done
    wait $!
    ended_so="$(outcome $?); answered: ${answered[*]:-none}"
}

# Whether the command changes its home file.
is_saved() {
    ! is_as "$work/before" "$work/after"
}

# Runs the command again on the file as it is, with no fault, and says whether it ends as it does on the file before.
ends_well() {
    run_with 0 '' "${words[@]}" <"$input" >"$work/output" 2>"$work/notes"
    [ "$(outcome $?)" = "$base" ]
}

# The errors that a call is made to fail with.
faults_of() {
    case $1 in
    getentropy*) echo EIO ;;
    copy*) echo EBADF EMFILE ;;
    'open / '* | 'open null '*) echo EMFILE EACCES shut ;;
    open*new*) echo EACCES EROFS ENOSPC EMFILE ;;
    open*'and write'*) echo EACCES EROFS EMFILE ;;
    open*) echo EACCES EMFILE ;;
    stat*open) echo EIO ;;
    stat*) echo EACCES ENOENT EIO ;;
    flock*) echo EAGAIN ENOLCK ;;
    fsync*) echo EIO ENOSPC EINVAL EROFS ;;
    pread* | 'read '*) echo EIO ;;
    pwrite* | 'write '*) echo EIO ENOSPC none full ;;
    socket*) echo EMFILE ;;
    setsockopt*) echo ENOBUFS ;;
    clock*) echo ENOSYS ;;
    ioctl*) echo EIO ;;
    bind*) echo EADDRINUSE EACCES ;;
    listen*) echo EADDRINUSE ;;
    accept*)
        echo ENOMEM ENFILE EMFILE ENONET EPROTO ENOPROTOOPT EOPNOTSUPP ENETDOWN ENETUNREACH ENOBUFS EHOSTDOWN \
            EHOSTUNREACH EPERM ECONNABORTED EINVAL EBADF
        ;;
    connect*) echo ECONNREFUSED EACCES ENETUNREACH ;;
    getsockname*) echo ENOBUFS ;;
    poll*) echo ENOMEM ;;
    recv*) echo ECONNRESET EAGAIN ;;
    send*) echo EPIPE EAGAIN none ;;
    shutdown*) echo ENOTCONN ;;
    esac
}

# What else may become of a call, that changes nothing.
harmless_of() {
    case $1 in
    open* | stat* | flock* | fsync* | accept* | poll*) echo EINTR ;;
    pread* | pwrite* | 'read '* | 'write '* | recv* | send*) echo EINTR part ;;
    esac
}

# Counts what is not as it has to be, and shows the first of them.
note_odd() {
    odd=$((odd + 1))
    [ "$odd" -gt 9 ] || echo "    $title, $*"
}

# Tells how the call ends the command with each of its errors, those with the same end in one line. A file that is as
# before can be saved to later.
try_faults() {
    local fault how last= names=
    told=
    for fault in $(faults_of "$2"); do
        $run "$1" "$fault"
        how=$(in_short "$ended_so")
        ! is_saved || [[ $ended_so != *'as before'* ]] || ends_well || note_odd "$2, $fault: later not $base"
        if [ -n "$names" ] && { [ "$how" != "$last" ] || [ ${#names} -gt 40 ]; }; then
            told+="$names: $last"$'\n'
            names=
        fi
        names+=${names:+ }$fault
        last=$how
    done
    [ -z "$names" ] || told+="$names: $last"$'\n'
}

# Looks at what changes nothing: the command ends as without it, and an interrupted call is made once more.
try_harmless() {
    local fault
    for fault in $(harmless_of "$2"); do
        $run "$1" "$fault"
        [ "$ended_so" = "$base" ] || note_odd "$2, $fault: $ended_so"
        [ "$fault" = part ] || calls | grep -v '^clock\| = EINTR$' | cmp -s - <(grep -v '^clock' "$work/base_calls") ||
            note_odd "$2, $fault: other calls"
    done
}

# Kills the program as it begins the call. A file has all or nothing then, and the command ends well after that.
try_kill() {
    $run "$1" kill
    case $ended_so in
    *' saved'*) ;;
    *'as before'*) ends_well || note_odd "$2, killed: later not $base" ;;
    *'left empty'*) ends_well || note_odd "$2, killed: later not $base" ;;
    *) note_odd "$2, killed: $ended_so" ;;
    esac
}

# Runs a command: its title, its home file or a dash, its input, and its words. What it calls and how it ends are what
# later runs are compared with.
record() {
    local before=$2
    title=$1
    input=$3
    words=("${@:4}")
    run=run_command
    [ "${words[0]}" != relay ] || run=run_relay
    rm -f "$work/before" "$work/after"
    [ "$before" = - ] || cp "$before" "$work/before"
    : >"$work/wanted"
    $run 0 ''
    calls >"$work/base_calls"
    cp "$work/output" "$work/wanted"
    [ ! -e home ] || cp home "$work/after"
    $run 0 ''
    calls | cmp -s - "$work/base_calls" || note_odd 'other calls the second time'
    base=$ended_so
}

# Writes how a command that was recorded ends.
write_head() {
    printf '\n== %s\n%s\n\n' "$title" "$base" >>"$seen"
}

# Writes a call, and beside it what is told of it. The same ones one after another are written once.
write_calls() {
    [ "$same" != 0 ] || return
    [ "$same" = 1 ] || last_call+=", $same times"
    [ -n "$last_told" ] || echo "$last_call" >>"$seen"
    while IFS= read -r how; do
        printf '%-44s %s\n' "$last_call" "$how"
        last_call=
    done < <(printf '%s' "$last_told") >>"$seen"
}

# Notes a call, and what is told of it.
add_call() {
    if [ "$same" -gt 0 ] && [ "$1" = "$last_call" ] && [ "$2" = "$last_told" ]; then
        same=$((same + 1))
        return
    fi
    write_calls
    same=1
    last_call=$1
    last_told=$2
}

# Goes through the calls of a command.
try_command() {
    local number=0 call told same=0 last_call last_told
    record "$@"
    write_head
    while IFS= read -r call; do
        number=$((number + 1))
        try_faults $number "$call"
        add_call "$call" "$told"
        try_harmless $number "$call"
        ! is_saved || try_kill $number "$call"
    done <"$work/base_calls"
    write_calls
}

# Shows the calls of a command from that one on which goes as is told: that of this number among those with the word.
show_calls() {
    local fault=$1 word=$2 number=$3 at call same=0 last_call last_told
    shift 3
    record "$@"
    at=$(grep -n "^$word" "$work/base_calls" | sed -n "${number}s/:.*//p")
    $run "$at" "$fault"
    base=$ended_so
    write_head
    while IFS= read -r call; do add_call "$call" ''; done < <(calls | tail -n +"$at")
    write_calls
}

port=$((20000 + RANDOM % 12000))
nothing=$work/nothing
put nothing
printf 'add 1 T\nput 1 0 AB\n' >first
printf 'add 1 U\nput 1 0 CD\n' >second
printf 'put 1 1 x\ncut 1 0 1\n' >script
printf '# U\nCD\n# V\n\n' >base
printf '# U\nD\n# V\n\n' >draft
"$program" new ann 1 16 <"$nothing"
"$program" edit ann <first 2>/dev/null
"$program" new ben 2 16 <"$nothing"
"$program" edit ben <second 2>/dev/null
cp ben other
cp ben sections
cp ben remarked
"$program" comment remarked 1 0 1 x <"$nothing" 2>/dev/null
printf 'add 2 V\n' | "$program" edit sections 2>/dev/null
cp sections later
"$program" merge later ann <"$nothing" 2>/dev/null
"$program" send ben <"$nothing" >frames

try_command 'edit' - "$nothing" edit
try_command 'show < frames' - frames show
try_command 'new home 1 16' - "$nothing" new home 1 16
show_calls full pwrite 1 'new home 1 16, with half of the room' - "$nothing" new home 1 16
try_command 'edit home < script' ann script edit home
show_calls EIO fsync 2 'edit home < script, where the sync of the batch fails' ann script edit home
show_calls EIO fsync 3 'edit home < script, where the sync of the gate fails' ann script edit home
for closed in input output notes 'input, output and notes'; do
    try_command "edit home < script, where closed: $closed" ann script edit home
done
closed=input
try_command 'revise home base < draft, where closed: input' sections draft revise home base
closed=output
try_command 'print home, where closed: output' ann "$nothing" print home
closed=
try_command 'print home' ann "$nothing" print home
try_command 'take home < frames' ann frames take home
try_command 'send home' ann "$nothing" send home
try_command 'merge home other' ann "$nothing" merge home other
try_command 'move home 2 1' sections "$nothing" move home 2 1
try_command 'retitle home 1 X' sections "$nothing" retitle home 1 X
try_command 'version home one' ben "$nothing" version home one
try_command 'arrange home' sections "$nothing" arrange home
try_command 'list home' sections "$nothing" list home
try_command 'past home 4' later "$nothing" past home 4
try_command 'moments home' later "$nothing" moments home
try_command 'changes home 4' later "$nothing" changes home 4
try_command 'authors home' later "$nothing" authors home
try_command 'about' - "$nothing" about
try_command 'revise home base < draft' sections draft revise home base
try_command 'revise home base 4 < draft' later draft revise home base 4
try_command 'comment home 1 0 1 x' ben "$nothing" comment home 1 0 1 x
try_command 'remark home C x' ben "$nothing" remark home C x
try_command 'remarks home' remarked "$nothing" remarks home
try_command 'withdraw home 1' remarked "$nothing" withdraw home 1
try_command 'view home none' ben "$nothing" view home none
try_command 'bulk 7 4' - "$nothing" bulk 7 4
try_command 'relay PORT 2' - "$nothing" relay "$port" 2
show_calls EMFILE accept 2 'relay PORT 2, where no descriptor is left for a while' - "$nothing" relay "$port" 2

"$program" relay "$port" 1000 <"$nothing" >"$work/ready" 2>"$work/relay_notes" &
relay=$!
wait_for "$work/ready"
"$program" sync ben "$port" 0 <"$nothing" 2>"$work/notes"
cp ann again
"$program" sync again "$port" 0 <"$nothing" 2>"$work/notes"
try_command 'sync home PORT 0' ann "$nothing" sync home "$port" 0
kill "$relay"
port=$((port + 1))
show_calls self connect 1 'sync home PORT 0, where the system connects it to itself' ann "$nothing" sync home "$port" 0

[ $# = 0 ] || cp "$seen" "$OLDPWD/$1"
diff -u --label tests/calls.txt "$table" --label 'what was seen' "$seen"
check "the calls of the commands, and what comes of a call that fails, are those of the table: $runs runs" [ $? = 0 ]
check "an interrupted call, one that moves a part and a kill change nothing: $odd odd" [ $odd = 0 ]

ended
