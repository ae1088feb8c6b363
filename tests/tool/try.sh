# What the cases of the topics are written with. They run in a folder of their own; root is the repository's.
program=$root/rust/target/release/bunvespo
a=$root/stations/a.rights
a2=$root/stations/a2.rights
b=$root/stations/b.rights

fail() {
    echo "FAILED: $*"
    exit 1
}

# Runs the program on words and prints them, what it prints, and how it exits. The standard error has one line where it exits with 2, else
# none; and the standard output has none there.
try() {
    local status=0 lines
    echo "> bunvespo $(shown "$@")"
    "$program" "$@" >out 2>err || status=$?
    places <out
    places <err | sed 's/^/! /'
    lines=$(wc -l <err)
    [[ $status != 2 || ($lines == 1 && ! -s out) ]] || fail "2 comes with one sentence alone"
    [[ $status == 2 || ($status -le 1 && $lines == 0) ]] || fail "an answer comes with 0 or 1 and no sentence"
    echo "exits with $status"
}

# Takes a file that is no record, and words for it: check tells why, no other command that reads a record has an answer, and the file stays
# as it is. It writes the files commands and before.
no_record() {
    local file=$1 what=$2 status=0 words
    echo '12 0 1 0 0' >commands
    cp "$file" before
    "$program" check "$file" >out 2>err || status=$?
    [[ $status == 1 && ! -s err ]] || fail "check of $what exits with $status"
    echo "$what: $(tr '\n' ' ' <out)"
    for words in "show $file" "held $file 0 0 own" "who $file 0 own" "ask $file none 0 0 r0" "run $file $a" "run $file commands" "run --dry $file commands" \
        "diff $file $file" "diff $file $a" "diff $a $file" "convert $file 1 made" "convert $file 2 made"; do
        status=0
        timeout 10 "$program" $words >out 2>err || status=$?
        [[ $status == 2 && ! -s out && $(wc -l <err) == 1 ]] || fail "$words with $what exits with $status"
    done
    cmp "$file" before
    [[ ! -e made ]] || fail "a record is made of $what"
}

# A record as a file without a history, in place of one that may have one.
put() {
    cp "$1" "$2"
    rm -f "$2.history"
}

# The words, with quotes where a shell needs them.
shown() {
    local word
    for word in "$@"; do
        [[ $word =~ ^[A-Za-z0-9_.,/=-]+$ ]] && printf '%s ' "$word" || printf "'%s' " "$word"
    done | sed "s/ $//" | places
}

# Text without the places of this machine, and without times.
places() {
    sed -E "s|$root/||g; s/[0-9]{4}-[0-9]{2}-[0-9]{2} [0-9]{2}:[0-9]{2}:[0-9]{2} UTC/TIME/g; s/\"(time|since)\":[0-9]{9,}/\"\1\":TIME/g"
}

# A file of bytes, given as hexadecimal numbers.
bytes() {
    local file=$1 byte
    shift
    for byte in "$@"; do printf "\\x$byte"; done >"$file"
}

# Station A, or another file that is named, with the byte at a place changed.
changed() {
    local from=${4-$a}
    { head -c "$1" "$from"; printf "\\x$2"; tail -c "+$(($1 + 2))" "$from"; } >"$3"
}

# The bytes of a file in hexadecimal.
hex() {
    od -An -v -tx1 "$1" | tr -d '\n'
    echo
}
