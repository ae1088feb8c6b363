# Windows: the commands of runs are entered in a file, which tells how many of the last 256 were refused.
put "$a" station

# Runs commands with options: the first argument has the options, each other one a command.
enter() {
    local options=$1
    shift
    printf '%s\n' "$@" >commands
    echo "| $(tr '\n' '|' <commands)"
    try run station commands $options
}

# The record and the window are as they were, and no other window was made.
unchanged() {
    cmp -s station before || fail "the record is changed"
    cmp -s w before-w || fail "the window is changed"
    [[ ! -e fresh && -z $(ls -A | grep '\.new$') ]] || fail "a file is made or left over"
}

# A window is made by the first run that tries a command, and replaced by those after it.
try refused w
enter '--dry --window w' 'login 1 grants r0 over login 2 to login 0'
[[ ! -e w ]] || fail "a dry run makes a window"
enter '--window w' 'login 1 grants r0 over login 2 to login 0'
stat -c '%s bytes' w
try refused w
enter '--window w' 'login 0 destroys log 3' 'login 1 destroys login 0'
try refused w
enter '--window=w' 'login 1 grants r1 over login 2 to login 1' 'login 2 creates login 1'
enter '--window w' '12 2 1 0 0'
try refused w
enter '--window w' '4 63 0 0 0'
try refused w
try refused w --json
cp station before
cp w before-w
enter '--dry --window w' 'login 1 destroys login 2' 'login 2 creates login 1'
unchanged
# A window has no count for a login above 63; the commands before are entered.
enter '--window fresh' '4 64 0 0 0'
enter '--window w' '4 18446744073709551615 0 0 0'
unchanged
enter '--window w' 'login 1 deletes r1 over login 2 from login 1' '4 300 0 0 0'
cmp <(head -c 384 w) <(head -c 384 before-w) || fail "more than the number of entries is changed"
tail -c 1 w | od -An -tu1
# Names: of the file beside the window, of the file beside the one that a link leads to, or of a file given.
printf 'login 0 = technician\nlogin 2 = night nurse\nlogin 39 = last\nlog 3 = bed-3\nlog 159 = far\nright 0 = read\n' >w.names
ln -s w link
try refused w
try refused link
try refused --json link
mv w.names given.names
try refused w
try refused w --names given.names
try refused w --names nowhere
for line in 'login 40 = x' 'login 63 = x' 'log 0 = x' 'log 160 = x' 'login x = y'; do
    echo "$line" >wrong.names
    try refused w --names wrong.names
done
# The standard input.
try refused - <w
cat w | try refused - --json
try refused /dev/stdin --names given.names <w
: | try refused -
# Where nothing is tried, no window is made or changed: no command, none that can be read, no list, no record.
cp station before
cp w before-w
for window in w fresh; do
    enter "--window $window" '# nothing'
    enter "--window $window" 'login 1 destroys login 2' 'login 1 eats login 2'
    bytes commands 02 00 00 00 00
    try run station commands --window $window
    changed 30 03 broken
    echo '13 1 2 0 0' >commands
    try run broken commands --window $window
    try run nowhere commands --window $window
    try run station nowhere --window $window
done
unchanged
# Lists of bytes: one accepted and one refused, of login 1; the third is not tried.
bytes commands 01 00 00 00 12 05 0d 01 02 00 00 05 0d 01 02 00 00 05 0d 00 02 00 00
try run station commands --window listed
try refused listed

# What is no window: nothing is run.
put "$a" station
cp station before
cp w before-w
echo '13 1 2 0 0' >commands
for size in 0 1 384 386 1000000; do
    head -c $size /dev/zero >wrong
    cp wrong before-wrong
    try refused wrong
    try run station commands --window wrong
    try run --dry station commands --window wrong
    cmp wrong before-wrong
done
# A record of as many bytes as a window.
rm wrong
"$program" new wrong 7 20 >/dev/null
cp wrong before-wrong
try refused wrong
try run station commands --window wrong
cmp wrong before-wrong
mkdir folder
ln station same
ln -s station link-to-record
ln -s nothing link-to-nothing
for wrong in folder nowhere/window w/window w/ fresh/ fresh/. '' - link-to-nothing station ./station same link-to-record commands; do
    try run station commands --window "$wrong"
    try run --dry station commands --window "$wrong"
done
try refused folder
try refused ''
try refused link-to-nothing
try run station commands --window /dev/null
try run --dry station commands --window /dev/null
try run --dry station commands --window /dev/zero
try refused /dev/null
try refused /dev/zero
unchanged
# What can't be written is found before the record is replaced; and where that fails the window is left as it is.
mkdir .w.new .fresh.new
try run station commands --window w
try run station commands --window fresh
rmdir .w.new .fresh.new
unchanged
mkdir .station.new
try run station commands --window w
try run station commands --window fresh
rmdir .station.new
unchanged
# A folder that may not be written. Root may write everywhere, so that is taken from it where setpriv can.
powerless=(env)
if ((EUID == 0)); then powerless=(setpriv --bounding-set -dac_override,-dac_read_search); fi
if "${powerless[@]}" "$program" help >out 2>err; then
    cp w folder/w
    chmod 555 folder
    for window in folder/w folder/fresh; do
        status=0
        "${powerless[@]}" "$program" run station commands --window $window >out 2>err || status=$?
        [[ $status == 2 && ! -s out && $(cat err) == "bunvespo: $window can't be "*ermission*'; station is left as it is.' ]] ||
            fail "a folder that may not be written: exits with $status: $(cat err)"
    done
    chmod 755 folder
    cmp folder/w w
    rm folder/w
    unchanged
fi
# Words and options.
try refused
try refused w w
try refused w --dry
try refused w --html page.html
try refused w --window w
try show station --window w
try diff station station --window w
try new other 2 1 --window w
try run station commands --window
try run station commands --window --dry
try run station commands --window w --window w
try run station commands --json --window w
unchanged

# Permissions stay; a link stays a link, and its target is replaced; other folders, and names with spaces.
chmod 640 w
(cd folder && ln -s ../w link && "$program" run ../station ../commands --window link)
stat -c '%A %F' w folder/link
mkdir 'a folder'
try run station commands --window 'a folder/a window'
try refused 'a folder/a window'
try run station - --window w <commands
try refused w
cat before | try run --dry - commands --window w
# The last 256: accepted commands push refused ones out, one by one.
"$program" new large 40 120 >/dev/null
echo 'login 0 creates log 40' | "$program" run large - >/dev/null
refuse() {
    local login
    for login in "$@"; do echo "12 $login 3 0 0" | "$program" run large - --window late >/dev/null || true; done
    try refused late
}
accept() {
    { yes 'login 0 grants r0 over log 40 to login 0' || true; } | head -n "$1" >commands
    "$program" run large commands --window late | grep -v 'gains\|:$'
    try refused late
}
refuse 1 2 1
accept 252
accept 1
accept 1
refuse 5
accept 1
accept 253
accept 1
accept 1
# More commands than a list has.
refuse 1
accept 30001
# So many bytes of one value, given in octal.
times() { head -c "$1" /dev/zero | tr '\0' "\\$2"; }
# Counts of one to three digits.
{ times 7 001; times 120 003; times 64 004; times 7 005; times 58 000; } >entries
printf '\x00\x07\x00\x00\x00\x78\x00\x40\x00\x07' >counts
{ cat entries counts; times 119 000; } >written
try refused written
try refused written --json
# As many bytes, but no window: counts without their entries, entries without their counts, a count that does not fit, an entry of no
# login, and all bytes of one value. Nothing is run.
{ times 256 000; cat counts; times 119 000; } >wrong-counts
{ cat entries; times 129 000; } >wrong-entries
{ cat entries; printf '\x01\x07'; tail -c +3 counts; times 119 000; } >wrong-high
{ times 1 101; times 384 000; } >wrong-login
times 385 377 >wrong-ones
put "$a" station
cp station before
echo '13 1 2 0 0' >commands
for wrong in wrong-*; do
    cp $wrong before-wrong
    try refused $wrong
    try refused $wrong --json
    try run station commands --window $wrong
    try run --dry station commands --window $wrong
    cmp $wrong before-wrong
    cmp station before
done
# Runs at the same time, of one record and of others: each command is entered, also while the window is to be made. That is tried several times, since
# the runs seldom meet in the moment in which the window is made.
for round in {1..12}; do
    rm -f shared* many
    "$program" new shared 2 6 >/dev/null
    for log in {2..7}; do
        "$program" new "shared-$log" 2 6 >/dev/null
        echo "10 0 0 $log 0
10 1 0 $log 0" >"commands-$log"
    done
    for log in {2..7}; do
        "$program" run shared "commands-$log" --window many >/dev/null &
        "$program" run "shared-$log" "commands-$log" --window many >/dev/null &
    done
    wait
    "$program" check shared
    "$program" refused many
    tail -c 1 many | od -An -tu1
done
[[ -z $(ls -A | grep '\.new$') ]] || fail "a file is left over"
