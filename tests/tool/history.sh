# The history of a record: what log, why, audit and adopt say of it, the past of a record, and what is refused.
names() {
    cat >"$1.names" <<'END'
login 0 = technician
login 1 = head-nurse
login 2 = night-nurse
log 3 = bed-3
right 0 = read
END
}
run() {
    printf '%s\n' "$@" >commands
    try run ward commands
}
# A record's byte, set by hand.
by_hand() {
    printf "\\x$2" | dd of="$1" bs=1 seek="$3" conv=notrunc 2>/dev/null
}
# The example of docs/HISTORY.md, beside the record with which it begins.
bytes example.history $(sed -n '/^An example/,/^## /p' "$root/docs/HISTORY.md" | grep '^    ' | cut -c5-63 | grep -ow '[0-9a-f][0-9a-f]')
"$program" new - 2 0 >example
try adopt example
hex example
"$program" log example
"$program" new ward 3 1
try log ward
names ward
run 'technician creates head-nurse' 'head-nurse creates night-nurse' 'night-nurse creates bed-3'
run 'head-nurse destroys night-nurse' 'technician destroys bed-3' 'head-nurse destroys bed-3'
run '# nothing is tried, so this is no change'
run 'technician eats bed-3'
run '12 300 0 0 0' '4 1 1 3 0'
run '14 0 0 0 0'
run 'head-nurse grants read over bed-3 to technician'
run 'head-nurse grants read over bed-3 to technician'
try log ward
try log ward --json
try log ward --names /dev/null
try audit ward
try audit ward --json
# A change of many commands, and of commands as a list.
for k in {0..30}; do echo "4 1 0 3 $((k % 7))"; done >commands
"$program" run ward commands >/dev/null
bytes commands 01 00 00 00 0c 05 08 01 00 03 01 05 08 01 00 03 01
try run ward commands
try log ward
# Since when a right is held: from the start, by a command, by what it is held.
try why ward technician technician control
try why ward head-nurse bed-3 own
try why ward head-nurse bed-3 'read*'
try why ward technician bed-3 read
try why ward technician bed-3 r2 --json
try why ward technician bed-3 r1
try why ward night-nurse bed-3 own
try why ward technician technician control --json
try why ward night-nurse bed-3 own --json
try why ward 3 3 own
try why ward 0 4 own
try why ward 0 3 r7
# Given, taken, and given again.
run 'head-nurse deletes read over bed-3 from technician'
try why ward technician bed-3 read
run 'head-nurse grants r5 over bed-3 to technician' 'head-nurse grants read over bed-3 to technician'
try why ward technician bed-3 read
# The past.
try diff ward@1 ward
try diff ward ward@3
try diff ward@2 ward@3 --json
try diff ward@10 ward
try diff ward@11 ward
try diff ward@12 ward
try diff ward@0 ward
try diff ward@ ward
try diff ward@x ward
try diff ward@99999999999999999999 ward
try diff nowhere@1 ward
try diff "$a" ward@1
cp "$a" ward@2
try diff ward@2 "$a"
rm ward@2
for at in 1 2 3 11; do
    try log ward --at $at past-$at
    try audit past-$at
    "$program" log ward --at $at - | cmp - past-$at
done
cmp past-11 ward
try diff past-3 ward@3
try log ward --at 12 made
try log ward --at 0 made
try log ward --at two made
try log ward --at 1 ward
try log ward --at 1
try log ward made
try log ward --at
try log ward --at 1 made --json
try why ward 0 0
try audit
try audit ward ward
try adopt ward --json
try show ward --at 1
[[ ! -e made ]] || fail "a file is made"
# Links, other folders, and what has no history.
mkdir folder
ln -s ../ward folder/link
(cd folder && try audit link && try log ../ward) | sed "s|$PWD/||"
(cd folder && rm out err)
try diff folder/link@2 folder/link | sed "s|$PWD/||"
cp "$a" bare
for words in 'log bare' 'audit bare' 'why bare 0 0 control' 'diff bare@1 bare' 'log bare --at 1 made' 'log -' 'audit -' 'why - 0 0 own' 'log nowhere' 'audit folder' \
    'adopt nowhere' 'adopt -'; do
    try $words
done
try adopt bare
try audit bare
try adopt bare
# A record that is changed from outside: by a right, by a right taken, by a login made.
cp ward kept
cp ward.history kept.history
# Login 0 gets r6* over bed-3, and loses r0 over it: its cell stands in the bytes 13 and 14.
by_hand ward d5 13
by_hand ward 40 14
try check ward
try audit ward
try audit ward --json
run 'head-nurse grants r1 over bed-3 to technician'
cp ward.history before
try run ward commands --dry
try why ward technician bed-3 'r6*'
try why ward technician bed-3 r5
cmp ward.history before || fail "the history is changed"
try adopt ward
try adopt ward
# Put back as it was before the adoption, it is not taken for a change that was cut off.
cp ward adopted
cp kept ward
run 'head-nurse grants r1 over bed-3 to technician'
try audit ward
cmp ward kept
cp adopted ward
try audit ward
try audit ward --json
try log ward --names /dev/null
try why ward technician bed-3 'r6*'
try why ward technician bed-3 'r6*' --json
try why ward technician bed-3 r5
run 'head-nurse grants r1 over bed-3 to technician'
try why ward technician bed-3 'r6*'
put_back() {
    cp kept ward
    cp "$1" ward.history
}
# Of another size and version, and not valid at all.
put_back kept.history
"$program" new - 2 3 --version 2 >ward
try audit ward --names /dev/null
try adopt ward --names /dev/null
try audit ward --names /dev/null
put_back kept.history
by_hand ward 00 8
try audit ward
try audit ward --json
try adopt ward
try why ward 0 0 control
# Damage: of the first bytes, of the start, in the middle, at the end; what stands before it is used, and the damaged file is kept.
for damage in 0 20 100 130 -1; do
    put_back kept.history
    at=$damage
    if ((at < 0)); then at=$(($(stat -c %s ward.history) + at)); fi
    byte=$(od -An -tu1 -j "$at" -N 1 ward.history)
    by_hand ward.history "$(printf %02x $((byte ^ 255)))" "$at"
    cp ward.history damaged
    echo "# byte $damage"
    try audit ward
    try audit ward --json
    try log ward | tail -n 3
    try why ward head-nurse bed-3 own
    try diff ward@2 ward@1
    try diff ward@5 ward
    run 'head-nurse grants r1 over bed-3 to technician'
    cmp ward.history damaged || fail "the damaged history is changed"
    try adopt ward
    try audit ward
    run 'head-nurse grants r1 over bed-3 to technician'
    try why ward head-nurse bed-3 own
done
for kept in ward.history.damaged*; do echo "$kept: $(stat -c %s "$kept") bytes"; done
# A history that is a link: what it leads to is written, and kept where it is damaged.
put_back kept.history
mkdir elsewhere
mv ward.history elsewhere/ward
ln -s elsewhere/ward ward.history
run 'head-nurse grants r1 over bed-3 to technician'
by_hand elsewhere/ward 00 0
cp elsewhere/ward damaged
try adopt ward
try audit ward
stat -c '%F' ward.history ward.history.damaged.6
cmp ward.history.damaged.6 damaged
ls -A elsewhere
rm ward.history
# Damage in the last entry alone, whose change came to nothing: the next run drops it.
put_back kept.history
run '14 0 0 0 0'
truncate -s -3 ward.history
try audit ward
try log ward | tail -n 1
run '# nothing'
try audit ward
# Bytes that are no history, and what is no file.
put_back kept.history
: >ward.history
try audit ward
try adopt ward
head -c 100 /dev/zero >ward.history
try log ward
rm ward.history
mkdir ward.history
try audit ward
run '14 0 0 0 0'
try adopt ward
rmdir ward.history
ln -s nothing ward.history
try audit ward
run '14 0 0 0 0'
rm ward.history
mkfifo ward.history
try audit ward
rm ward.history
# A history without its record: one that has changes is kept, and the start of a making that was cut off is not.
put_back kept.history
rm ward
try new ward 3 1
try convert "$a" 2 ward
try log past-1 --at 1 ward
cp past-1.history ward.history
try new ward 3 1
# Changes that were cut off are told by those who read, and finished or dropped by those who write.
for stop in 'history entry synced' 'history entry half'; do
    put_back kept.history
    echo 'head-nurse grants r1 over bed-3 to technician' >commands
    { BUNVESPO_TEST_STOP=$stop "$program" run ward commands; } 2>/dev/null || true
    try audit ward
    try audit ward --json
    try log ward | tail -n 3
    try log ward --json | tail -c 200
    try why ward technician bed-3 r1
    cp ward cut
    cp ward.history cut.history
    try adopt ward
    cp cut ward
    cp cut.history ward.history
    run '# nothing'
    cp cut ward
    cp cut.history ward.history
    run 'head-nurse grants r4 over bed-3 to technician'
    try audit ward
done
# A window is no history.
rm ward.history
try run ward commands --window ward.history
try run ward commands --window ./ward.history --dry
[[ ! -e ward.history ]] || fail "a file is made"
# The permissions of the history are those of the record.
chmod 640 ward
echo 'head-nurse deletes r4 over bed-3 from technician' | "$program" run ward - >/dev/null
stat -c '%A' ward ward.history
[[ -z $(ls -A | grep '\.new$') ]] || fail "a file is left over"
