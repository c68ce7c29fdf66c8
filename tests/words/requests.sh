# Requests of one connection, and what each is replied. A request's word stands before the word of its reply.

# as SECRET: the next requests show this secret, or none where it is `nobody`.
as() {
    secret=$1
}

# of LIBRARY: the next words speak of this library.
of() {
    LIB=$1
}

# closing: the next request asks to close.
closing() {
    closes=yes
}

# send FORMAT: bytes as they are, in the escapes of printf.
send() {
    printf "$1" >> asked
}

# ask METHOD PATH [TEXT]: a request. A path without a slash in front of it is one below the library's.
ask() {
    if [ "$#" = 3 ]; then
        printf '%s' "$3" > body
        ask_file "$1" "$2" body
    else
        ask_file "$1" "$2"
    fi
}

# ask_file METHOD PATH [FILE]: a request whose body is the file's bytes.
ask_file() (
    case $2 in
    /*) target=$2 ;;
    *) target=/repo/$LIB/$2 ;;
    esac
    {
        printf '%s %s HTTP/1.1\r\nHost: x\r\n' "$1" "$target"
        [ "$secret" = nobody ] || printf 'Seafile-Repo-Token: %s\r\n' "$secret"
        [ -z "$shown" ] || printf 'If-None-Match: %s\r\n' "$shown"
        [ "$#" = 2 ] || printf 'Content-Length: %s\r\n' "$(($(wc -c < "$3")))"
        [ "$closes" = no ] || printf 'Connection: close\r\n'
        printf '\r\n'
        [ "$#" = 2 ] || cat "$3"
    } >> asked
)

protocol_version() { ask GET /protocol-version; }
check_upload() { ask GET 'permission-check?op=upload'; }
check_download() { ask GET 'permission-check?op=download'; }
get_head() { ask GET commit/HEAD; }
update() { ask PUT "commit/HEAD?head=$1"; }
put_block() { ask PUT "block/$(block "$1")" "$1"; }
get_block() { ask GET "block/$(block "$1")"; }
put_commit() { ask_file PUT "commit/$1" "kept/commit/$1"; }
get_commit() { ask GET "commit/$1"; }
check_blocks() { ask POST check-blocks "$(array "$@")"; }
check_fs() { ask POST check-fs "$(array "$@")"; }
pack_fs() { ask POST pack-fs "$(array "$@")"; }

# fs_ids SERVER [CLIENT]
fs_ids() (
    ask GET "fs-id-list?server-head=$1${2:+&client-head=$2}"
)

# recv_fs ID..: a request with the rows of these files and directories.
recv_fs() (
    rows "$@" > body
    ask_file POST recv-fs body
)

# upload: puts each block that was kept and not uploaded to this library, and then, in one request, each such file and directory.
# All are stored.
upload() (
    for path in kept/block/*; do
        id=${path##*/}
        if [ -e "$path" ] && [ ! -e "sent/$LIB.$id" ]; then
            : > "sent/$LIB.$id"
            ask_file PUT "block/$id" "$path"
            stored
        fi
    done
    set --
    for path in kept/fs/*; do
        id=${path##*/}
        if [ -e "$path" ] && [ ! -e "sent/$LIB.$id" ]; then
            : > "sent/$LIB.$id"
            set -- "$@" "$id"
        fi
    done
    if [ "$#" -gt 0 ]; then
        recv_fs "$@"
        stored
    fi
)

# push ID PARENT ROOT: uploads what was kept, puts a commit of that name, and asks for an update to it.
push() (
    upload
    commit "$1" "$2" "$3"
    put_commit "$1"
    stored
    update "$1"
)

# status_line STATUS
status_line() (
    case $1 in
    200) echo '200 OK' ;;
    304) echo '304 Not Modified' ;;
    400) echo '400 Bad Request' ;;
    403) echo '403 Forbidden' ;;
    404) echo '404 Not Found' ;;
    409) echo '409 Conflict' ;;
    413) echo '413 Content Too Large' ;;
    431) echo '431 Request Header Fields Too Large' ;;
    442) echo '442 Too Large' ;;
    445) echo '445 Damaged' ;;
    446) echo '446 Incomplete' ;;
    449) echo '449 Spent' ;;
    500) echo '500 Internal Server Error' ;;
    501) echo '501 Not Implemented' ;;
    503) echo '503 Service Unavailable' ;;
    *) fail "no status $1" ;;
    esac
)

# shows TAG: the next request names this tag: `OPENING-COUNT`, or any text.
shows() {
    shown=$1
}

# reply STATUS TYPE FILE: a reply of these bytes, without a type where it has none. Where $tagged is a count, or `*` for any, it has
# the tag of the library's opening and that count.
reply() {
    reply_size=$(($(wc -c < "$3")))
    {
        printf 'HTTP/1.1 %s\r\n' "$(status_line "$1")"
        [ "$reply_size" = 0 ] || printf 'Content-Type: application/%s\r\n' "$2"
        [ "$1" = 304 ] || printf 'Content-Length: %s\r\n' "$reply_size"
        [ -z "$tagged" ] || printf 'ETag: "%s-%s"\r\n' "$(cat "openings/$LIB")" "$tagged"
        [ "$closes" = no ] || printf 'Connection: close\r\n'
        printf '\r\n'
        cat "$3"
    } >> "wanted.$piece"
    closes=no tagged='' shown=''
}

# told STATUS JSON
told() {
    printf '%s' "$2" > told
    reply "$1" json told
}

# The replies. `stored` has no body, `lists` has ids in this order, `gives` the bytes of a text, of a kept object, or rows.
stored() { told 200 ''; }
lists() { told 200 "$(array "$@")"; }
lists_ascending() { lists $(printf '%s\n' "$@" | sort); }
# updated ID [COUNT]: the head is this commit, after so many changes since the library was opened, or after any number.
updated() { tagged=${2-*}; told 200 "{\"head_commit_id\":\"$1\",\"is_corrupted\":0}"; }
head_is() { updated "$@"; }
# unchanged COUNT: the library is still as the tag tells that was shown.
unchanged() { tagged=$1; told 304 ''; }
gives_file() { reply 200 octet-stream "$1"; }
gives_commit() { gives_file "kept/commit/$1"; }

gives() {
    printf '%s' "$1" > told
    gives_file told
}

gives_rows() {
    rows "$@" > told
    gives_file told
}

no_object() { told 404 "{\"id\":\"$2\",\"kind\":\"$1\",\"reason\":\"no-object\"}"; }
incomplete() { told 446 "{\"id\":\"$2\",\"kind\":\"$1\",\"reason\":\"incomplete\"}"; }
denied() { told 403 '{"reason":"denied"}'; }
no_library() { told 404 '{"reason":"no-library"}'; }
no_call() { told 404 '{"reason":"no-call"}'; }

# merged PARENT SECOND ROOT [conflict]: the update is replied with a commit that the library made of these, at a moment of
# this connection. The row finds its name in $merged, once in a connection.
merged() {
    [ "$piece" = 0 ] || fail 'a connection has one merge'
    printf 'HTTP/1.1 200 OK\r\nContent-Type: application/json\r\nContent-Length: 78\r\nETag: "%s-*"\r\n\r\n{"head_commit_id":"' "$(cat "openings/$LIB")" >> wanted.0
    piece=1
    printf '","is_corrupted":0}' > wanted.1
    merge_of=$LIB merge_parent=$1 merge_second=$2 merge_root=$3 merge_flag=${4-}
}

# ends_with STATUS REASON: what was sent last is no request, so the connection ends with this reply.
ends_with() {
    closes=yes
    told "$1" "{\"reason\":\"$2\"}"
}

# goes_on: the interim reply.
goes_on() {
    printf 'HTTP/1.1 100 Continue\r\n\r\n' >> "wanted.$piece"
}

# How long history is kept, a collection, and their replies.

# limit DAYS
limit() { ask PUT "history-limit?days=$1"; }
collect() { ask POST collect; }

# collected NUMBER REMOVED
collected() { told 200 "{\"collection\":$1,\"removed\":$2}"; }

# bad_days DAYS
bad_days() { told 400 "{\"days\":$1,\"reason\":\"bad-days\"}"; }
