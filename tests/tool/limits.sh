# The limits of a record: whole records above them, which no command takes, and the largest record of each version, which each takes.

# Writes the record of a version with so many logins and logs, in which U alone exists, with the length that belongs to them.
whole() {
    local width=$((2 * $2)) cells=$((2 * $2 * $3 * ($3 + $4)))
    bytes "$1" $(printf "%02x%08x%02x%02x%0$((2 * width))x" "$2" $((cells + 2)) "$3" "$4" 2 | sed 's/../& /g')
    head -c $((cells - width)) /dev/zero >>"$1"
}

# Tries words, and prints the first lines, how many there are, and the last ones.
ends() {
    try "$@" >told
    head -n 9 told
    echo "... of $(wc -l <told) lines"
    tail -n 9 told
}

# Prints how often a text stands in a file.
count() {
    echo "$1 stands there $(grep -oF "$1" "$2" | wc -l) times"
}

for sizes in '41 0' '41 120' '41 121' '64 0' '64 192' '255 255' '1 121' '40 121' '1 192' '40 192' '1 255'; do
    for version in 1 2; do
        whole file $version $sizes
        no_record file "a whole record of version $version and $(wc -c <file) bytes, sizes $sizes"
    done
    try show file
done
# The record is refused before its names are read.
echo 'login 40 = x' >file.names
whole file 1 41 0
try show file
try check file

for version in 1 2; do
    # The largest record of a version: a new one, and one in which each login made the next one and three logs, and U controls the last login.
    rm -f new full {new,full}.history full.names show.html leak.html
    try new new 40 120 --version "$version"
    whole file "$version" 40 120
    cmp file new
    try check new
    try show new
    cp new full
    {
        for s in {0..38}; do echo "login $s creates login $((s + 1))"; done
        for s in {0..39}; do for log in 0 1 2; do echo "10 $s 0 $((40 + 3 * s + log)) 0"; done; done
        echo 'login 38 grants control over login 39 to login 0'
    } >commands
    ends run full commands
    try check full
    ends diff new full
    try diff new full --json >told
    count '"held"' told
    try held full 39 159 own
    try held full 39 160 own
    try held full 40 159 own
    try who full 159 own
    try who full 39 control
    # The table has every column once, in lines that fit.
    ends show full
    [[ $(wc -L <told) -le 80 ]] || fail "a line is wider than 80"
    cmp <(grep '^ *[0-9 ]*$' told | tr -s ' ' '\n' | grep .) <(seq 0 159) || fail "the columns of the table"
    # The longest list of commands that leaks, of 42: with all but U trusted, login 38 comes to control login 39.
    others=$(seq -s, 1 39)
    ends ask full "$others" 38 39 control
    try ask full "$others" 38 39 control --json >told
    count '"allowed"' told
    try ask full all 38 39 control
    try ask full 39 39 159 own
    try ask full 40 39 159 own
    try ask full 63 39 159 own
    try ask full 64 39 159 own
    try ask full none 40 159 own
    try ask full none 39 160 own
    # Pages: the grid has every cell, and the leak a block for the start and each command.
    try show full --html show.html | tail -n 2
    count '<td' show.html
    try ask full "$others" 38 39 control --html leak.html | tail -n 2
    count '<div class="step">' leak.html
    # Names of the last login and the last log; the next numbers have none.
    printf 'login 39 = last\nlog 159 = far\n' >full.names
    try who full far own
    for line in 'login 40 = x' 'log 160 = x' 'log 39 = x'; do
        echo "$line" >wrong.names
        try who full 159 own --names wrong.names
    done
done
