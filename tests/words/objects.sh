# Objects: each of these words keeps an object in a file under its name, and tells the name.

# The library of the rows, a second one, the secret of a library's first token, and forty zeros.
LIB=11111111-2222-4333-8444-555555555555
OTHER=11111111-2222-4333-8444-555555555556
SECRET=aaaaaaaaaaaaaaaaaaaaaaaaaaaaaaaaaaaaaaaa
NIL=0000000000000000000000000000000000000000

# Names of commits that a row pushes. A commit bears any name but forty zeros.
ONE=1111111111111111111111111111111111111111
TWO=2222222222222222222222222222222222222222
THREE=3333333333333333333333333333333333333333
FOUR=4444444444444444444444444444444444444444
COMMIT=cccccccccccccccccccccccccccccccccccccccc

# sha1 FILE: the SHA-1 of its bytes, as 40 digits.
sha1() (
    sum=$(sha1sum < "$1")
    printf '%s\n' "${sum%% *}"
)

# keep KIND: keeps the bytes of the file new as an object under their SHA-1.
keep() (
    id=$(sha1 new)
    mv new "kept/$1/$id"
    printf '%s\n' "$id"
)

# block TEXT: a block of these bytes.
block() (
    printf '%s' "$1" > new
    keep block
)

# file TEXT..: a file of these blocks, one a text. A file of none is forty zeros.
file() (
    ids='' size=0
    for text in "$@"; do
        ids="$ids,\"$(block "$text")\""
        size=$((size + ${#text}))
    done
    if [ "$#" = 0 ]; then
        id=$NIL
    else
        printf '{"block_ids":[%s],"size":%s,"type":1,"version":1}' "${ids#,}" "$size" > new
        id=$(keep fs)
    fi
    printf '%s' "$size" > "kept/size/$id"
    printf '%s\n' "$id"
)

# dir ENTRY..: a directory. NAME=ID is a file and NAME/=ID a directory of it. `by USER`, `at TIME` and `mode MODE` hold for
# the entries behind them; without them a file is by `me`, everything is of moment 0, and a file has mode 33188.
dir() (
    user=me moment=0 mode=33188
    : > entries
    while [ "$#" -gt 0 ]; do
        case $1 in
        by) user=$2; shift ;;
        at) moment=$2; shift ;;
        mode) mode=$2; shift ;;
        */=*)
            printf '%s\t{"id":"%s","mode":16384,"mtime":%s,"name":"%s"}\n' \
                "${1%/=*}" "${1##*=}" "$moment" "${1%/=*}" >> entries ;;
        *)
            printf '%s\t{"id":"%s","mode":%s,"modifier":"%s","mtime":%s,"name":"%s","size":%s}\n' \
                "${1%=*}" "${1##*=}" "$mode" "$user" "$moment" "${1%=*}" "$(cat "kept/size/${1##*=}")" >> entries ;;
        esac
        shift
    done
    # (in descending byte order of name)
    listed=$(sort -t "$tab" -k 1,1 -r entries | cut -f 2- | tr '\n' ',')
    printf '{"dirents":[%s],"type":3,"version":1}' "${listed%,}" > new
    keep fs
)

# commit ID PARENT ROOT [TIME]: a commit of that name, as a client writes it. PARENT is an id or none, and TIME is 1 if left out.
commit() (
    parent="\"$2\""
    [ "$2" != none ] || parent=null
    printf '{"commit_id":"%s","ctime":%s,"parent_id":%s,"repo_id":"%s","root_id":"%s"}' \
        "$1" "${4:-1}" "$parent" "$LIB" "$3" > "kept/commit/$1"
)

# make_commit TIME PARENT SECOND ROOT DESCRIPTION [conflict]: a commit as the library makes it by `me`, or by $made_by where a
# row sets it, under the SHA-1 of its text with forty zeros in the place of its name. PARENT and SECOND are ids or none.
make_commit() (
    first="\"$2\"" second="\"$3\"" flag=''
    [ "$2" != none ] || first=null
    [ "$3" != none ] || second=null
    [ -z "${6-}" ] || flag='"conflict":1,'
    rest=$(printf '%s"creator":"%s","creator_name":"%s","ctime":%s,"description":"%s","parent_id":%s,"repo_id":"%s","root_id":"%s","second_parent_id":%s,"version":1' \
        "$flag" "$NIL" "${made_by-me}" "$1" "$5" "$first" "$LIB" "$4" "$second")
    printf '{"commit_id":"%s",%s}' "$NIL" "$rest" > new
    id=$(sha1 new)
    printf '{"commit_id":"%s",%s}' "$id" "$rest" > "kept/commit/$id"
    printf '%s\n' "$id"
)

# array ID..: a JSON array of these texts.
array() (
    listed=''
    for id in "$@"; do
        listed="$listed,\"$id\""
    done
    printf '[%s]' "${listed#,}"
)

# row ID FILE: the row of these bytes under this name: 40 digits, the length as four bytes, highest first, and the bytes.
row() (
    size=$(($(wc -c < "$2")))
    printf '%s' "$1"
    for part in $((size >> 24)) $((size >> 16 & 255)) $((size >> 8 & 255)) $((size & 255)); do
        printf "\\$(printf '%03o' "$part")"
    done
    cat "$2"
)

# rows ID..: the rows of these files and directories.
rows() (
    for id in "$@"; do
        row "$id" "kept/fs/$id"
    done
)
