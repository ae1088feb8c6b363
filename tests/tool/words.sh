# Words and options, good and bad.
for help in '' help --help -h 'help ask' 'ask --help' '--help nonsense'; do
    "$program" $help >out 2>err || fail "help"
    cmp out "$root/rust/tool/src/help.txt"
    "$root/bunvespo" $help | cmp - out
    [[ ! -s err ]] || fail "help: the standard error"
done
try nonsense
try --nonsense
try ask
try ask "$a" 0 1 3
try ask "$a" 0 1 3 r0 more
try --
try -- ask "$a" 0,1,2 1 3 r0
try held -x "$a" 1 3
try held "$a" -1 3 r0
try held -- "$a" -1 3 r0
try check --json --json "$a"
try check --json=x "$a"
try check --html out.html "$a"
try check --dry "$a"
try show "$a" --html
try show "$a" --names
try show "$a" --html --names x
try show --json "$a"
try run --json "$a" none
try who --json "$a" 3 own
try new --names x file 3 1
try ''
try check ''
try ask "$a" 7 1 3 r0
try ask "$a" 0 1 4 r0
try ask "$a" 39 1 3 r0
try ask "$a" 40 1 3 r0
try ask "$a" 63 1 3 r0
try ask "$a" 64 1 3 r0
try ask "$a" 0,x 1 3 r0
try ask "$a" '' 1 3 r0
try ask "$a" 0, 1 3 r0
try ask "$a" 0 x 3 r0
try ask "$a" 0 1 256 r0
try ask "$a" 0 1 99999999999999999999 r0
try ask "$a" 0 1 'log 1' r0
try ask "$a" 0 1 'login 3' r0
try ask "$a" 0 'log 3' 3 r0
try ask "$a" 0 1 3 r7
try ask "$a" 0 1 3 'own*'
try ask "$a" 0 1 3 16
try ask "$a" 0 1 3 ''
try ask "$a" 0 1 3 $'\xff'
try ask "$a" 0 1 $'3\n' r0
try held "$a" 3 3 own
try held "$a" 1 4 own
try who "$a" 4 own
try new
try new station
try new station 0 1
try new station 41 1
try new station 1 121
try new station 64 192
try new station -- -1 1
try new station x 1
try new station 99999999999999999999 1
[[ ! -e station ]] || fail "a refused station is written"
try new station 2 1
try new station 2 1
hex station
try new largest 40 120
stat -c '%s bytes' largest
try new nowhere/station 2 1
ln -s nothing link
try new link 2 1
try diff - -
try run - -
