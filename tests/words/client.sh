# Runs of the client, whose program is CLIENT, and what it leaves.

# client WORD..: runs the client with these words, and no input. The lines that tell where a relative path leads stand in `advice`.
client() {
    status=0
    timeout -k 5 "$SECONDS_EACH" "$CLIENT" "$@" < /dev/null > got 2> said || status=$?
    grep -a ' goes by where seaf-cli runs: ' said > advice || :
    grep -av ' goes by where seaf-cli runs: ' said > complaint || :
    ran=$*
}

# client_ended STATUS LINE..: how the last run of the client ended, and the lines that it printed. None has the secret.
client_ended() {
    ended "$@"
    ! grep -qF "$SECRET" got || fail "$ran: it printed the secret"
}

# one_job: the client's folder `conf` has one job, of the library and the empty folder `work`, which was never synced.
one_job() {
    mkdir -m 700 conf
    mkdir work
    printf '{"jobs":[{"dir":"work","host":"127.0.0.1","lib":"%s","port":1,"secret":"%s","user":"me"}],"version":1}' \
        "$LIB" "$SECRET" > conf/seaf.json
    printf '{"base":null,"entries":[],"lib":"%s","version":1}' "$LIB" > "conf/index-$LIB.json"
}

# entries FOLDER: the names in a synced folder, without its marker.
entries() {
    ls -A "$1" | grep -vx '[.]seaf-cli[.]library' || :
}

# download CONF FOLDER [SECRET]: the client of this folder of its own downloads the library that the port serves into an empty folder.
download() {
    client download -c "$1" -l "$LIB" -s "http://127.0.0.1:$port" -w "$2" -u me -k "${3-$SECRET}"
}

# begins CONF FOLDER: a client begins its own folder, and makes the folder that it is to sync.
begins() {
    client init -c "$1"
    client_ended 0 ready
    mkdir "$2"
}

# synced LIB HEAD WRITTEN REMOVED CONFLICT: how the last run of the client ended, which synced one job.
synced() {
    client_ended 0 "$1 $2 written $3 removed $4 conflict $5"
}

# reads FILE LEAST: whether the client whose number is in $number has the file open, and read more bytes than these.
reads() {
    for opened in "/proc/$number/fd"/*; do
        [ "$opened" -ef "$1" ] || continue
        [ "$(sed -n 's/^rchar: //p' "/proc/$number/io")" -gt "$2" ] && return
    done
    return 1
}

# client_begins WORD..: a run of the client with these words begins. Its number is in $number, and what waits for it in $running.
client_begins() {
    rm -f number
    : > got
    : > complaint
    # (what it prints comes behind what is there, so that several may run beside each other)
    timeout -k 5 "$SECONDS_EACH" sh -c 'echo "$$" > number && exec "$@"' _ "$CLIENT" "$@" >> got 2>> complaint < /dev/null &
    running=$!
    until [ -s number ]; do
        sleep 0.01
    done
    number=$(cat number)
}

# client_stops: the client whose number is in $number is stopped.
client_stops() {
    kill -s STOP "$number"
    until grep -q '^State:.T' "/proc/$number/status"; do
        sleep 0.01
    done
}

# files_in FOLDER: how many files lie in it, at any depth.
files_in() {
    find "$1" -type f 2> /dev/null | wc -l
}

# client_stops_with FOLDER LEAST MOST WORD..: a run of the client with these words is stopped with more files in the folder than LEAST, and
# fewer than MOST.
client_stops_with() {
    fills=$1 least=$2 most=$3
    shift 3
    client_begins "$@"
    tries=0
    until [ "$(files_in "$fills")" -gt "$least" ]; do
        tries=$((tries + 1))
        [ "$tries" -lt 2000 ] || fail "there are no more files than $least in $fills"
        sleep 0.01
    done
    client_stops
    [ "$(files_in "$fills")" -lt "$most" ] || fail "$fills was full before the client stopped"
}

# client_stops_within FILE LEAST MOST CONF: the client syncs its jobs once, and is stopped with the file open, with more bytes read than
# LEAST and fewer than MOST.
client_stops_within() {
    client_begins start -c "$4" -n 1
    tries=0
    until reads "$1" "$2"; do
        tries=$((tries + 1))
        [ "$tries" -lt 2000 ] || fail 'the file was not seen open'
        sleep 0.01
    done
    client_stops
    reads "$1" "$2" || fail 'the file was read before the client stopped'
    [ "$(sed -n 's/^rchar: //p' "/proc/$number/io")" -lt "$3" ] || fail 'the file was read to its end'
}

# client_goes_on: the client that was stopped goes on and ends.
client_goes_on() {
    : > got
    : > complaint
    kill -s CONT "$number"
    ran='start' status=0
    wait "$running" || status=$?
}

# head: the commit at which the library of `folder` stands by its state text.
head_of_folder() {
    sed 's/.*"head":"\([0-9a-f]*\)".*/\1/' "folder/$LIB/status"
}
