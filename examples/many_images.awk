# Writes a script that saves an empty indexed file, puts so many records into it by transactions of 1,000 each, and recovers it:
#     awk -v records=10000 -v way=FORWARD -f examples/many_images.awk
# FORWARD makes all records anew, from the save and the after images. BACKWARD takes all of them back by the before images. At most 100,000 records fit an image of
# 65,536 blocks.
function key(n) {
    return (n * 61) % 100003
}
BEGIN {
    buckets = int(records / 30) + 20
    blocks = int(records / 6) + 10
    print "A: INIT"
    print "A: BOOT"
    print "A: CREATE LEDGER IDX 4 40 " buckets " 0 6"
    print "A: SET_FILE LEDGER RU"
    if (way == "FORWARD")
        print "A: SET_FILE LEDGER AI " blocks
    if (way == "BACKWARD")
        print "A: SET_FILE LEDGER BI " blocks
    print "A: BACKUP LEDGER"
    for (n = 0; n < records; n++) {
        if (n % 1000 == 0)
            print "A: START_TRANS P" n
        printf "A: PUT P%d LEDGER \"%06d of the ledger\"\n", n - n % 1000, key(n)
        if (n % 1000 == 999 || n == records - 1)
            print "A: END_TRANS P" n - n % 1000
    }
    if (way == "FORWARD")
        print "A: RECOVER LEDGER FORWARD"
    if (way == "BACKWARD")
        print "A: RECOVER LEDGER BACKWARD UNTIL \"17-NOV-1858 00:00:00.00\""
}
