# Pipes, spaces, names that begin with -, links, other folders, pages, outputs that are closed or full.
try check - <"$a"
cat "$a" | try check -
try check /dev/stdin <"$a"
cat "$a" | try ask - 0,2 1 3 r0
cat "$a" | try diff - "$b"
cat "$a" | try diff "$b" /dev/stdin
try show <(cat "$a") | sed 's|/dev/fd/[0-9]*|/dev/fd/N|'
echo '12 0 1 0 0' | try run --dry "$b" -
echo '12 0 1 0 0' >commands
cat "$b" | try run --dry - commands
cat "$b" | try run - commands
"$program" new - 2 1 | try show -
cp "$a" 'a file'
cp "$a" -- -file
cp "$a" ./--
try check 'a file'
try check -- -file
try check ./-file
try check -- --
try check -file
mkdir 'a folder'
try new 'a folder/a station' 1 0
try check 'a folder'
try check nowhere
try check commands/nowhere
# The script of the root, through links, from other folders.
ln -s "$root/bunvespo" link
mkdir other
ln -s ../link other/second
(cd other && ./second check "$a" | places)
(cd / && "$root/bunvespo" who "$a" 3 own)
PATH=$PWD:$PATH
link who "$a" 3 own
# Pages.
try show "$a" --html page.html
try ask "$a" 0,2 1 3 r0 --html=leak.html
head -n 1 page.html leak.html
cp "$a" record
try show "$a" --html record
cmp "$a" record
cp page.html before.html
try show "$b" --html page.html
! cmp -s page.html before.html || fail "the page is not replaced"
try show "$a" --html nowhere/page.html
try show "$a" --html .
try show "$a" --html /dev/null
"$program" show "$a" --html - | head -n 1
"$program" show "$a" --html - | cmp - before.html
# A pipe that is closed early ends it quietly, with the answer's status.
"$program" new big 40 120 >/dev/null
for words in 'show big' 'ask big none 1 40 r0' 'help'; do
    status=0
    "$program" $words 2>err | true || true
    { "$program" $words 2>err || echo $? >status; } | head -c 1 >/dev/null
    [[ ! -s err ]] || fail "$words: a closed pipe is no trouble"
done
cat status
status=0
"$program" show "$a" >/dev/full 2>err || status=$?
echo "a full device: exits with $status: $(cat err)"
status=0
"$program" show "$a" >&- 2>err || status=$?
echo "no standard output: exits with $status"
# The width of the terminal.
COLUMNS=40 "$program" show "$a" | head -n 3 | places
"$program" show big | awk 'length > 80 { wide = 1 } END { exit wide }' || fail "a line is wider than 80"
