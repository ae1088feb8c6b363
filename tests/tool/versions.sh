# Records of both versions: the rights that each has room for, and a record in another version.
for record in "$a" "$a2"; do
    try check "$record"
    try check "$record" --json
    for right in 'r6*' r7 'r7*' r14 'r14*' r15 15 16 31 32 99999999999999999999 rr; do try held "$record" 1 3 "$right"; done
    try held "$record" 2 3 'r6*'
    try held "$record" 2 3 'r14*'
    try who "$record" 3 r14
    try ask "$record" 0,2 1 3 'r14*'
    try ask "$record" 0,2 0 3 'r14*'
    for k in 6 7 14 15 255; do echo "5 2 1 3 $k" | try run --dry "$record" -; done
    for right in 'r6*' 'r7*' 'r14*' 'r15*'; do echo "login 2 grants $right over log 3 to login 1" | try run --dry "$record" -; done
done

# Every right, by words, by numbers and by a list; a transfer, and what is still held by the star.
cp "$a2" wide
for k in {0..14}; do echo "login 2 grants r$k* over log 3 to login 1"; done >commands
try run wide commands
for k in {7..14}; do echo "1 1 0 3 $k"; done >commands
try run wide commands
bytes commands 01 00 00 00 0c 05 04 02 02 03 0e 05 05 02 02 03 0e
try run wide commands
try show wide
try who wide 3 r14
try ask wide 0,1 0 3 'r14*'
echo 'login 0 deletes r14 over log 3 from login 0
login 1 deletes r7* over log 3 from login 1
login 2 deletes r14 over log 3 from login 2' >commands
cp wide before
try run wide commands
try diff before wide
try held wide 2 3 r14
try held wide 1 3 31
hex wide
# Commands on it are entered in a window as those on others.
printf '4 2 1 3 14\n4 1 2 3 14\n' | try run wide - --window window
try refused window --json

# Names for the rights that version 2 alone has.
cat >wide.names <<'END'
login 1 = head-nurse
log 3 = bed-3
right 0 = read
right 7 = weight
right 14 = export page
END
try show wide
try who wide bed-3 'export page*'
try ask wide 0,1,2 0 bed-3 weight
echo 'head-nurse transfers "export page*" over bed-3 to 0' | try run --dry wide -
for line in 'right 15 = x' 'right 14 = r7' 'right 14 = read'; do
    { echo 'right 0 = read'; echo "$line"; } >wrong.names
    try who wide 3 own --names wrong.names
done
try who "$a" 3 own --names wide.names
try diff "$a" wide
try diff wide "$a" --names wide.names --json

# Pages of both widths: rights in words, and in short cells where there are many columns.
try show wide --html wide.html | tail -n 2
grep -o '<span class="x [a-z]*">[^<]*</span>' wide.html | sort | uniq -c
try ask wide 0,2 0 bed-3 'weight*' --html leak.html | tail -n 2
grep -c 'gained">weight\*' leak.html
for version in 1 2; do
    "$program" new many 16 1 --version $version >/dev/null
    { for s in {1..15}; do echo "12 0 $s 0 0"; done; echo '10 0 0 16 0'; for k in 0 1 6; do echo "5 0 9 16 $k"; done; } | "$program" run many - >/dev/null
    [[ $version == 1 ]] || for k in 10 14; do echo "4 0 9 16 $k"; done | "$program" run many - >/dev/null
    "$program" show many --html - | grep -o 'In a cell [^.]*\.\|title="login 9 has [^<]*over log 16">[^<]*'
    rm many many.history
done

# In another version, and back: the same record. In the version that it has already: a copy.
try convert "$a" 2 two
cmp two "$a2"
try convert two 1 one
cmp one "$a"
try convert "$a" 1 copy
cmp copy "$a"
try convert "$a2" 2 copy2
cmp copy2 "$a2"
try diff "$a" two
try diff two "$a" --json
"$program" new large 40 120 >/dev/null
try convert large 2 large2
try convert large2 1 large1
stat -c '%s bytes' large large2 large1
cmp large large1
# Rights that version 1 has do not hinder it; each other one is told, of many the first.
echo '5 2 1 3 6' | "$program" run two - >/dev/null
try convert two 1 two1
try held two1 1 3 'r6*'
cp wide before
try convert wide 1 made
try convert wide 1 made --names /dev/null
try convert wide 1 -
try convert wide 2 wide2
cmp wide wide2
for k in {0..59}; do echo "10 0 0 $((40 + k)) 0"; echo "4 0 0 $((40 + k)) $((k % 15))"; done | "$program" run large2 - >/dev/null
try convert large2 1 made
# Nothing is written over, and FILE is never changed.
cp "$b" kept
ln -s nothing link-to-nothing
ln -s kept link
mkdir folder
for taken in kept wide ./wide folder/../wide link link-to-nothing folder . folder/ nowhere/made kept/made '' made/ made/.; do
    try convert wide 2 "$taken"
done
cmp "$b" kept
cmp wide before
[[ ! -e nothing && ! -e made ]] || fail "a file is made"
(cd folder && "$program" convert ../wide 2 made)
cmp folder/made wide
[[ -z $(ls -A . folder | grep '\.new$') ]] || fail "a file is left over"
# At the same time: one makes the file.
for n in {1..8}; do { "$program" convert "$a" 2 shared 2>&1 || true; } >told-$n & done
wait
cat told-* | places | sort | uniq -c
cmp shared "$a2"
# From and to pipes.
try convert - 2 piped <"$a"
cmp piped "$a2"
"$program" convert "$a" 2 - | cmp - "$a2"
"$program" convert - 1 - <"$a2" | cmp - "$a"
"$program" convert large 2 - | head -c 1 | od -An -tx1
status=0
"$program" convert "$a" 2 - >/dev/full 2>err || status=$?
echo "a full device: exits with $status: $(cat err)"
status=0
"$program" convert "$a" 2 - >&- 2>err || status=$?
echo "no standard output: exits with $status"
# Words and files that are no such thing.
for words in '' "$a" "$a 2" "$a 2 x y" "$a 0 x" "$a 3 x" "$a 01 x" "$a two x" "x 2 $a" 'nowhere 2 x' 'folder 2 x' "$a 2 x --json" "$a 2 x --version 2" "--names nowhere $a 2 x"; do
    try convert $words
done
changed 0 03 three
try convert three 2 x
try convert /dev/zero 2 x
try convert /dev/null 2 x
try new x 2 1 --version
try new x 2 1 --version 0
try new x 2 1 --version=3
try new x 2 1 --version -1
try new x 2 1 --version 2 --version 2
try show "$a" --version 2
try --version
[[ ! -e x ]] || fail "a file is made"
try new x 2 1 --version=2
hex x
try new x 2 1 --version 2
"$program" new - 3 1 --version 2 | try check -
