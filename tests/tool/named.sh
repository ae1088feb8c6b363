# A station with names, of files and of logins, logs and rights.
cp "$a" ward.rights
cat >ward.rights.names <<'END'
# The ward.
login 0 = technician
login 1 = head nurse
login 2 = -night
log 3   = bed-3

right 0 = read
right 6 = change dose
END
try show ward.rights
try check ward.rights
try held ward.rights 'head nurse' bed-3 read
try held ward.rights -- -night bed-3 own
try held --json -- ward.rights -night bed-3 'change dose*'
try who ward.rights bed-3 own
try ask ward.rights technician,2 'head nurse' bed-3 read
try ask --json -- ward.rights technician,-night 'head nurse' bed-3 'change dose*'
try run ward.rights - <<'END'
# in words
-night grants "change dose*" over bed-3 to "head nurse"
"head nurse" transfers "change dose" over bed-3 to technician
login 2 grants read over log 3 to 2
END
try who ward.rights bed-3 'change dose'
try show ward.rights
cp ward.rights second.rights
try run second.rights --names ward.rights.names - <<'END'
"head nurse" destroys -night
1 deletes 15 over 3 from 1
END
try diff ward.rights second.rights
try diff second.rights ward.rights
try diff ward.rights second.rights --json
cp ward.rights.names third.names
try show --names third.names "$a"
try show --names nowhere "$a"
try show --names . "$a"
ln -s ward.rights link.rights
try who link.rights bed-3 own
for line in 'login 1' 'login 9 = x' 'log 1 = x' 'right 7 = x' 'login 1 = 7' 'login 1 = a,b' 'log 3 = none' 'right 0 = own' 'login x = y'; do
    echo "$line" >wrong.names
    try who --names wrong.names "$a" 3 own
done
printf 'login 1 = x\n# again\nlog 3 = x\n' >wrong.names
try who --names wrong.names "$a" 3 own
printf 'login 1 = \xff\n' >wrong.names
try who --names wrong.names "$a" 3 own
head -c 1048577 /dev/zero >wrong.names
try who --names wrong.names "$a" 3 own
changed 30 03 ward.rights
try check ward.rights
try check ward.rights --json
# Names that are cut in the table are told apart by their numbers.
printf 'login %s = nurse of the night shift\nlogin 2 = nurse of the night shift too\nlog 3 = bed-3 by the window\n' 1 >long.names
try show --names long.names "$a"
