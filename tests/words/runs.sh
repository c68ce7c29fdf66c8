# Runs of the program, and what it leaves.

# fail WHY: the row fails.
fail() {
    printf '%s\n' "$*"
    exit 1
}

# same WHAT WANTED GOT: two files have the same bytes.
same() (
    cmp -s "$2" "$3" && return
    printf '%s: %s\n  wanted:\n' "$1" "$(cmp "$2" "$3" 2>&1)"
    cat -v "$2" | cut -c 1-400 | tail -n 40 | sed 's/^/  | /'
    printf '\n  got:\n'
    cat -v "$3" | cut -c 1-400 | tail -n 40 | sed 's/^/  | /'
    fail ''
)

# server WORD..: runs the program with these words, and the row's standard input.
server() {
    began=$(date +%s)
    status=0
    timeout -k 5 "$SECONDS_EACH" "$PROGRAM" "$@" > got 2> complaint || status=$?
    ended=$(date +%s)
    ran=$*
}

# ended STATUS LINE..: how the last run ended, and the lines that it printed, each with its line feed.
ended() {
    [ "$status" = "$1" ] || fail "$ran: status $status, and not $1: $(cat -v got complaint)"
    shift
    : > wanted
    [ "$#" = 0 ] || printf '%s\n' "$@" > wanted
    same "$ran" wanted got
    complains_well
}

# complains_well: a fault that has a cause, and words that are no command, have lines on standard error, each with the program's name, and
# without the secret or a control character; nothing else has any, but that a link which broke may have been followed by another.
complains_well() {
    if grep -q -e ' fault$' -e ': usage$' -e ' is not supported$' got; then
        [ -s complaint ] || fail "$ran: it told no cause"
    elif [ "$status" = 1 ] && [ ! -s got ]; then
        # (a connection whose library isn't opened prints nothing)
        ! grep -v '^seaf-server: store: ' complaint || fail "$ran: these lines on standard error are of no store"
    else
        ! grep -v '^seaf-cli: [^ ]*:[0-9]*: [rs]e[cn][a-z]*ing: ' complaint || fail "$ran: it wrote to standard error: $(cat -v complaint)"
    fi
    ! grep -v '^seaf-[a-z]*: ' complaint || fail "$ran: these lines on standard error have no name"
    is_clean_complaint
}

# is_clean_complaint: standard error has neither the secret nor a control character.
is_clean_complaint() {
    ! grep -qF "$SECRET" complaint || fail "$ran: it told the secret on standard error"
    ! tr -d '\n' < complaint | grep -q '[[:cntrl:]]' || fail "$ran: $(cat -v complaint)"
}

# complained LINE..: what the last run wrote to standard error.
complained() {
    printf '%s\n' "$@" > wanted
    same "$ran: standard error" wanted complaint
}

# complained_like FORM: the last run wrote one line of this form, a basic regular expression, to standard error.
complained_like() {
    [ "$(wc -l < complaint)" = 1 ] && grep -qx "$1" complaint || fail "$ran: standard error, and not $1: $(cat -v complaint)"
}

# library: makes the library in the folder `folder`, of `me`, by a run of its own. The row finds its first commit in
# $opening, and that commit's moment in $opened_at: the line that was printed tells a commit of a moment of this run.
library() {
    mkdir -p folder
    server create folder "$LIB" docs me "$SECRET" < /dev/null
    for opened_at in $(seq "$began" "$ended"); do
        opening=$(make_commit "$opened_at" none none "$NIL" 'Created library')
        [ "$(cat got)" != "created $LIB $opening" ] || break
    done
    ended 0 "created $LIB $opening"
}

# token SECRET RIGHT: bob@x.org has a token of this right, by a run of its own.
token() {
    server token folder "$LIB" bob@x.org "$1" "$2" < /dev/null
    ended 0 'token added'
}

# connect [PLACE [LIB..]]: a connection with these libraries of this place, the library of `folder` if left out.
connect() {
    place=${1-folder}
    [ "$#" = 0 ] || shift
    asked_of=${*:-$LIB} piece=0 merge_of=$LIB merge_parent='' secret=$SECRET closes=no tagged='' shown=''
    for one_asked in $asked_of; do
        will_open "$one_asked" "$place/$one_asked/status"
    done
    : > asked
    rm -f wanted.*
    : > wanted.0
}

# will_open LIB STATUS: the opening number of the library after its next start is that of its state text and one more; 1 in memory.
will_open() {
    before=0
    [ ! -e "$2" ] || before=$(sed -n 's/.*"opening":\([0-9]*\).*/\1/p' "$2")
    printf '%s' "$((${before:-0} + 1))" > "openings/$1"
}

# given: what the connection is sent. A row may send it in another way.
given() {
    cat asked
}

# hang_up STATUS: runs the connection, which must give the replies in this order, nothing else, and that status.
hang_up() {
    given | {
        server inetd "$place" $asked_of
        printf '%s %s %s\n' "$status" "$began" "$ended" > how
    }
    read -r status began ended < how
    met "$1"
}

# tag FILE: each tag of the file whose count may be any has that of the tag at its place among those that were given.
tag() {
    grep -a '^ETag: "' got | sed 's/^[^-]*-\([0-9]*\).*/\1/' > counts || :
    grep -an '^ETag: "' "$1" | sed 's/:.*//' > lines || :
    paste -d ' ' lines counts | while read -r at given_count; do
        [ -z "$at" ] || printf '%ss/-[*]/-%s/\n' "$at" "${given_count:-none}"
    done > tags
    sed -f tags "$1" > with_tags
    mv with_tags "$1"
}

# spell: the file wanted has the replies, and the name of the merge, if there is one, is that of a moment of the run.
spell() {
    cat wanted.0 > wanted
    tag wanted
    if [ -n "$merge_parent" ]; then
        for merged_at in $(seq "$began" "$ended"); do
            merged=$(of "$merge_of"; make_commit "$merged_at" "$merge_parent" "$merge_second" "$merge_root" 'Auto merge by system' $merge_flag)
            { cat wanted.0; printf '%s' "$merged"; cat wanted.1; } > wanted
            tag wanted
            ! cmp -s wanted got || break
        done
    fi
}

# met STATUS: the connection gave the replies, nothing else, and ended with that status.
met() {
    connection=$((${connection-0} + 1))
    ran="connection $connection"
    spell
    same "$ran, which ended with status $status" wanted got
    [ "$status" = "$1" ] || fail "$ran: status $status, and not $1: $(cat -v complaint)"
    if grep -q '"reason":"store"' got; then
        [ -s complaint ] || fail "$ran: it told no cause"
    elif [ -s got ]; then
        [ ! -s complaint ] || fail "$ran: it wrote to standard error: $(cat -v complaint)"
    fi
    # (a connection without a reply may have a library that isn't opened)
    ! grep -v '^seaf-server: store: ' complaint || fail "$ran: these lines on standard error are of no store"
    is_clean_complaint
}

# begin [PLACE [LIB..]]: like connect, but the program runs from here on. What is asked goes out with the word `replied`.
begin() {
    connect "$@"
    rm -f input
    mkfifo input
    began=$(date +%s)
    "$PROGRAM" inetd "$place" $asked_of < input > got 2> complaint &
    process=$!
    exec 3> input
}

# replied: what was asked goes out, and all replies come while the client waits.
replied() {
    cat asked >&3
    : > asked
    tries=0
    until ended=$(date +%s) && spell && cmp -s wanted got; do
        tries=$((tries + 1))
        [ "$tries" -lt 1000 ] || same 'the replies so far' wanted got
        sleep 0.02
    done
}

# end STATUS: what was asked goes out, and its replies come. Then nothing more is sent or given, and the status is this one.
end() {
    replied
    exec 3>&-
    status=0
    wait "$process" || status=$?
    ended=$(date +%s)
    met "$1"
}

# counted: like replied, and `count` is how often the program read meanwhile, as Linux counts it, the request aside.
counted() {
    before=$(sed -n 's/^syscr: //p' "/proc/$process/io")
    replied
    count=$(($(sed -n 's/^syscr: //p' "/proc/$process/io") - before - 1))
}

# path_of KIND ID: where an object lies in the folder, for the kinds block, fs and commit.
path_of() (
    case $1 in
    block) of=blocks ;;
    fs) of=fs ;;
    commit) of=commits ;;
    esac
    printf 'folder/%s/%s/%.2s/%s\n' "$LIB" "$of" "$2" "${2#??}"
)

# age PATH: the file of an object, and the folder that it lies in, are older than the library's text, which so vouches for it.
age() {
    touch -t 202601010000 "$1" "${1%/*}"
}

# holds KIND ID..: exactly these objects of the kind lie in the folder, each with the bytes that the row kept under it.
holds() (
    kind=$1
    shift
    : > wanted
    for id in "$@"; do
        path_of "$kind" "$id" >> wanted
    done
    sort -o wanted wanted
    path=$(path_of "$kind" xx)
    find "${path%/xx/*}" -type f | sort > got
    same "the objects of kind $kind" wanted got
    for id in "$@"; do
        same "$kind $id" "kept/$kind/$id" "$(path_of "$kind" "$id")"
    done
)

# install HEAD PUSHED [TIME]: one entry of a state text's `kept`. The time is that of a run, NOW if left out.
install() (
    printf '{"at":%s,"head":"%s","pushed":"%s"}' "${3-NOW}" "$1" "$2"
)

# token_of SECRET USER RIGHT [LAST]: one entry of a state text's `tokens`.
token_of() (
    printf '{"last":%s,"right":"%s","secret":"%s","user":"%s"}' "${4-0}" "$3" "$1" "$2"
)

# state OPENING KEPT [TOKENS [COLLECTION [DAYS]]]: the text of a library's state, whose one token is that of `me` if left out.
state() (
    printf '{"collection":%s,"days":%s,"kept":[%s],"lib":"%s","name":"docs","opening":%s,"tokens":[%s],"version":1}' \
        "${4-0}" "${5--1}" "$2" "$LIB" "$1" "${3-$(token_of "$SECRET" me own)}"
)

# holds_state ..: the folder has this state, NOW being one moment of the last run.
holds_state() (
    state "$@" > text
    for moment in $(seq "$began" "$ended"); do
        sed "s/NOW/$moment/" text | tr -d '\n' > wanted
        ! cmp -s wanted "folder/$LIB/status" || return 0
    done
    same 'the state text' wanted "folder/$LIB/status"
)

# set_state ..: writes this state text into the folder.
set_state() (
    state "$@" > "folder/$LIB/status"
)
