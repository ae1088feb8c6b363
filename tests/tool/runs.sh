# Commands that are run: as words, as numbers, as a list; and what they leave.
run() {
    echo "| $(cat -v commands | tr '\n' '|')"
    try run "$@"
    hex station
}
put "$a" station
echo 'login 1 destroys login 2' >commands
run station commands --dry
run station commands
echo '1 creates 2
login 2 creates login 1' >commands
run station commands
printf '# a comment\n\n  13 0 1 0 0  \r\n' >commands
run station commands
: >commands
run station commands
echo 'login 0 grants r0 over login 0 to login 0' >commands
run station commands
put "$a" station
for command in '14 0 0 0 0' '0 255 0 0 0' '4 0 0 4 0' '4 300 0 0 0' '4 0 0 0 7' '10 0 1 3 0' '12 0 1 1 0' '3 0 0 1 1' '6 2 1 3 0' \
    'login 1 grants own over login 2 to login 0' 'login 0 transfers own over log 3 to login 1' 'login 0 creates login 1' \
    'login 2 creates log 3' 'login 0 destroys login 2' 'login 0 destroys log 3' 'login 0 transfers own over login 1 to login 2' \
    'login 0 transfers own over login 1 to login 1' 'login 0 grants r0 over log 3 to login 1' 'login 0 transfers r0 over log 3 to login 1' \
    'login 0 deletes r0 over log 3 from login 1' 'login 0 creates login 7' 'login 7 creates login 1' 'login 0 creates 9'; do
    echo "$command" >commands
    run station commands
done
cmp "$a" station
# A log changes hands: to another login, to its owner, to one that owns it already.
for command in 'login 2 transfers own over log 3 to login 1' 'login 2 transfers own over log 3 to login 1' 'login 1 transfers own over log 3 to login 1' \
    'login 1 grants own over log 3 to login 2' 'login 1 transfers own over log 3 to login 2'; do
    echo "$command" >commands
    run station commands
done
cmp "$a" station
# The owner of a log holds r0 over it and may not transfer it without the star; with the bit of r0 set and deleted again it still holds it.
for command in 'login 2 transfers r0 over log 3 to login 1' 'login 2 grants r0 over log 3 to login 2' 'login 2 deletes r0 over log 3 from login 2'; do
    echo "$command" >commands
    run station commands
done
cmp "$a" station
# A right whose bit is not set is not deleted: one that is not there at all, one that is held by own, one that is held by the star, one that is
# deleted already.
for command in 'login 2 deletes r0 over log 3 from login 1' 'login 2 deletes r0* over log 3 from login 2' 'login 2 grants r0* over log 3 to login 1' \
    'login 2 deletes r0 over log 3 from login 1'; do
    echo "$command" >commands
    run station commands
done
printf 'login 1 deletes r0* over log 3 from login 1\n%.0s' 1 2 >commands
run station commands
cmp "$a" station
echo 'login 1 grants control over login 2 to login 0
1 grants control over 2 to 0' >commands
run station commands
put "$b" station
for command in 'login 1 creates login 1' 'login 0 destroys log 2' 'login 0 destroys login 1' 'login 0 grants r0 over log 2 to login 0' \
    'login 0 transfers own over log 2 to login 0'; do
    echo "$command" >commands
    run station commands
done
# Commands that can't be read: nothing is run.
for command in 'login 0' 'login 0 eats login 1' '1 2 3' '13 0 1 0 0 0' 'login 0 creates login 1 now' 'login 0 grants control' \
    'login 0 deletes own over login 1 from login 0' 'login 0 transfers control over login 1 to login 0' 'login 0 grants r0 for login 1' \
    'login 0 deletes r0 over login 1 to login 1' 'nobody creates login 1' 'login 0 creates login 9' 'login 0 creates log 0' \
    'login 0 creates "login 1' '99999999999999999999 0 0 0 0' 'login creates login 1'; do
    echo "12 0 1 0 0
$command" >commands
    run station commands
done
cmp "$b" station
# Lists of bytes.
put "$a" station
bytes commands 01 00 00 00 0c 05 0d 01 02 00 00 05 04 01 01 03 00
run station commands
bytes commands 01 00 00 00 0c 05 04 01 01 03 01 05 0d 01 02 00 00
run station commands
bytes commands 01 00 00 00 00
run station commands
for list in '02 00 00 00 00' '01' '01 00 00 00 01 05' '01 00 00 00 06 04 0c 00 01 00 00' '00' 'ff fe'; do
    bytes commands $list
    try run station commands
done
# Lines of one huge word are told in a short sentence.
for word in 3 x; do
    head -c 100000 /dev/zero | tr '\0' "$word" >commands
    try run station commands
done
head -c 70000 /dev/zero | tr '\0' '\1' >commands
try run station commands
try run station nowhere
try run station .
try run nowhere commands
try run . commands
try run /dev/null commands
try run --dry /dev/null commands
# More commands than a list has: the file is replaced once.
"$program" new large 40 120 >/dev/null
yes 'login 0 creates log 40
login 0 destroys log 40' | head -n 30001 >many || true
"$program" run large many
# Permissions stay; a link stays a link, and its target is replaced; another folder.
put "$a" station
chmod 640 station
mkdir folder
ln -s ../station folder/link
echo '13 1 2 0 0' >commands
(cd folder && "$program" run link ../commands) | sed "s|$PWD/||"
stat -c '%A %F' station folder/link
hex station
[[ -z $(ls -A | grep '\.new$') ]] || fail "a file is left over"
# Runs at the same time: each sees what the others left.
"$program" new shared 2 12 >/dev/null
for log in {2..13}; do echo "10 0 0 $log 0" | "$program" run shared - >/dev/null & done
wait
"$program" check shared
