# Answers about stations A and B.
try show "$a"
try show "$b"
try check "$a"
try check "$b"
try check "$a" --json
try held "$a" 0 1 own
try held "$a" 'login 0' 'login 1' own
try held "$a" 1 3 r0
try held "$a" 1 3 2
try held "$b" 1 2 own
try held --json "$a" 2 3 own
try held --json "$a" 2 3 'r6*'
# An owner holds every basic right, and not control.
try held "$a" 2 3 r0
try held "$a" 2 3 'r6*'
try held "$a" 0 1 r3
try held "$a" 0 1 control
try held "$a" 1 1 r0
try who "$a" 3 own
try who "$a" 3 r0
try who "$b" 2 own
try ask "$a" 0,2 1 3 r0
try ask "$a" 0,2 0 3 r0
try ask "$a" all 2 3 'r0*'
try ask "$a" all 1 2 control
try ask "$a" 0,1,2 1 3 r0
try ask "$a" all 1 3 r0
try ask "$a" none 2 3 own
try ask "$a" 1,2 2 1 own
try ask "$a" 1,2 0 2 own
try ask "$a" 0 0 1 control
try ask "$a" 0 1 1 own
try ask "$a" none 1 0 own
try ask "$a" none 1 0 control
try ask "$a" none 1 3 control
try ask "$a" 0 0 0 control
try ask "$b" none 1 2 'r0*'
try ask "$b" 0 1 2 'r0*'
try ask "$b" none 0 2 'r0*'
try ask "$b" 1 1 1 r0
try ask "$a" 0,2 1 3 r0 --json
try ask "$a" all 1 3 r0 --json
try ask "$b" 1 1 2 own --json
try diff "$a" "$a"
try diff "$a" "$a" --json
try diff "$a" "$b"
try diff "$b" "$a"
try diff "$b" "$a" --json
