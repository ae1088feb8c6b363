# Files of every size from 0 to 20 bytes, and large ones: of station A, in both versions, and of zeros.
for size in {0..20} 30 54 12806 12807 12808 25606 25607 25608 32774 32775 32776 65535 65536 65537 1000000; do
    for filling in "$a" "$a2" /dev/zero; do
        { cat "$filling" /dev/zero 2>/dev/null || true; } | head -c "$size" >file
        no_record file "$size bytes of ${filling##*/}"
    done
done
for endless in /dev/zero /dev/urandom; do
    status=0
    timeout 10 "$program" check "$endless" >out 2>err || status=$?
    [[ $status == 1 ]] || fail "check of $endless exits with $status"
done
status=0
timeout 20 "$program" run "$a" /dev/zero >out 2>err || status=$?
echo "run on endless commands exits with $status: $(places <err)"
