# Writes a script that puts so many records into an indexed file, by transactions of 1,000 each, and then reads so many of them:
#     awk -v records=100000 -v reads=20000 -f examples/many_records.awk
# Each key comes once, and neither in the order of the keys nor against it. At most 100,000 records fit.
function key(n) {
    return (n * 61) % 100003
}
BEGIN {
    print "A: INIT"
    print "A: BOOT"
    print "A: CREATE LEDGER IDX 4 40 8000 0 6"
    print "A: SET_FILE LEDGER RU"
    for (n = 0; n < records; n++) {
        if (n % 1000 == 0)
            print "A: START_TRANS P" n
        printf "A: PUT P%d LEDGER \"%06d of the ledger\"\n", n - n % 1000, key(n)
        if (n % 1000 == 999 || n == records - 1)
            print "A: END_TRANS P" n - n % 1000
    }
    for (n = 0; n < reads; n++) {
        if (n % 1000 == 0)
            print "A: START_TRANS G" n
        printf "A: GET G%d LEDGER \"%06d\"\n", n - n % 1000, key((n * 7) % records)
        if (n % 1000 == 999 || n == reads - 1)
            print "A: END_TRANS G" n - n % 1000
    }
}
