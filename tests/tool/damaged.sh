# Records that are refused, by each number, in each command that reads one.
bytes 1 01 00 00 00 04 01
changed 0 00 2
changed 5 00 3
{ cat "$a"; printf '\x00'; } >4
changed 8 00 5
for refusal in 1 2 3 4 5; do
    try check $refusal
    try check --json $refusal
    try show $refusal
    try show $refusal --html page.html
    try held $refusal 0 0 own
    try who $refusal 0 own
    try ask $refusal none 1 3 r0
    try ask $refusal none 1 3 r0 --html page.html
    try ask $refusal 99 x 999 r9
    echo '12 0 1 0 0' >commands
    cp $refusal before
    try run $refusal commands
    try run --dry $refusal commands
    cmp $refusal before
    try diff $refusal "$a"
    try diff "$a" $refusal
    try convert $refusal 1 made
    try convert $refusal 2 made
done
[[ ! -e made ]] || fail "a record is made of a refused one"
[[ ! -e page.html ]] || fail "a page of a refused record"
# Each condition of the matrix.
changed 8 00 u-absent
try check u-absent
changed 16 01 u-owned
try check u-owned
changed 16 02 u-controlled
try check u-controlled
changed 12 01 two-owners
try check two-owners
changed 10 00 no-owner
try check no-owner
changed 28 00 absent-with-rights
try check absent-with-rights
{ head -c 30 "$a"; printf '\x00'; } >no-log
try check no-log
{ head -c 14 "$a"; printf '\x04'; head -c 30 no-log | tail -c 15; printf '\x00'; } >absent-log
try check absent-log
changed 30 03 control-of-log
try check control-of-log
bytes cycle 01 00 00 00 1a 03 01 00 02 00 00 00 00 00 00 00 00 00 02 00 01 00 00 00 00 00 01 00 02 00 01
try check cycle
bytes itself 01 00 00 00 0a 02 00 00 02 00 00 00 00 00 03
try check itself
bytes controllers 01 00 00 00 22 04 00 00 02 00 01 00 01 00 01 00 00 00 02 00 02 00 00 00 00 00 00 00 02 00 00 00 00 00 00 00 02 00 02
try check controllers
changed 4 1b length
try check length
changed 6 79 logs
try check logs
changed 5 29 logins
try check logins
{ printf '\x01\x00\x00\x32\x02\x28\x78'; head -c 12800 /dev/zero | tr '\0' '\377'; } >worst
try check worst
# Station A in version 2: each of the refusals 1 to 5, with the numbers of its version; and each version's length under the other's byte 0.
head -c 6 "$a2" >short
try check short
for version in 00 03 ff; do
    changed 0 $version version "$a2"
    try check version
done
changed 0 02 length
try check length
changed 0 01 length "$a2"
try check length
changed 5 29 logins "$a2"
try check logins
changed 4 33 length "$a2"
try check length
{ cat "$a2"; printf '\x00'; } >length
try check length
head -c 54 "$a2" >length
try check length
changed 10 00 matrix "$a2"
try check matrix
# Only own makes a log exist, and a bit above the lowest 16 is a right as any other.
changed 51 80 log "$a2"
try check log
changed 54 00 matrix log
try check matrix

# Writes the record of a file of version 1 in version 2, cell by cell, also where its matrix is not valid.
widened() {
    local cells
    cells=$(od -An -v -tx1 "$1" | tr -d '\n' | sed 's/^\( ..\)\{7\}//; s/ \(..\) \(..\)/ 00 00 \1 \2/g')
    bytes "$2" 02 $(printf '%08x' $((2 * ($(wc -c <"$1") - 7) + 2)) | sed 's/../& /g') $(head -c 7 "$1" | tail -c 2 | od -An -tx1) $cells
}
# What check tells of a file, without its name and version.
told_of() {
    { "$program" check "$1" || true; } | sed "s/^$1 is/It is/; s/version 2; //"
}
widened "$a" wide
cmp wide "$a2"
# The matrix has the same conditions in both versions, and the same reasons are told.
for file in 5 u-owned u-controlled two-owners no-owner absent-with-rights no-log absent-log cycle itself controllers worst; do
    cp $file narrow
    widened narrow wide
    diff <(told_of narrow) <(told_of wide) || fail "check of $file in version 2"
done
