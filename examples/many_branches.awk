# Writes a script of so many transactions, one after another, each with a branch and a record at each of two nodes:
#     awk -v transactions=1000 -f examples/many_branches.awk > branches.dtm
#     ./dtm RUN A=here.img B=there.img < branches.dtm
# A transaction takes thirteen lines, six of them messages: it joins, is accepted, is asked to prepare, votes, is told the outcome, and says that it was.
# It takes two labels, of which a run makes 100,000: so there may be 50,000 transactions.
BEGIN {
    print "A: INIT"; print "B: INIT"; print "A: BOOT"; print "B: BOOT" # once a node is booted, no volume is made any more
    print "A: CREATE F REL 1 100 10"; print "A: SET_FILE F RU"; print "B: CREATE G REL 1 100 10"; print "B: SET_FILE G RU"
    put = "PUT"
    for (said = 0; said < transactions; said++) {
        message = 6 * said
        print "A: START_TRANS T" said
        print "A: ADD_BRANCH T" said " B U" said
        print "B: START_BRANCH U" said
        print "DELIVER " message + 1; print "DELIVER " message + 2
        print "A: " put " T" said " F 1 \"a\""
        print "B: " put " U" said " G 1 \"b\""
        print "B: END_BRANCH U" said
        print "A: END_TRANS T" said
        print "DELIVER " message + 3; print "DELIVER " message + 4; print "DELIVER " message + 5; print "DELIVER " message + 6
        put = "UPDATE"
    }
}
