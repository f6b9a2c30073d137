# Writes a script of so many lines that makes so many labels, one at least, and then uses them in an order of its own:
#     awk -v lines=1000000 -v labels=100000 -f examples/many_lines.awk
# Each label takes two lines, and the opening takes four; where there are fewer lines, fewer labels are made.
BEGIN {
    print "A: INIT"; print "A: BOOT"; print "A: CREATE F REL 1 100 10"; print "A: SET_FILE F RU"
    said = 4
    for (label = 0; label < labels && said + 2 <= lines; label++) {
        print "A: START_TRANS L" label
        print "A: END_TRANS L" label
        said += 2
    }
    for (i = 0; said < lines; said++) {
        print "A: PUT L" (i * 7919) % label " F 1 \"a\""
        i++
    }
}
