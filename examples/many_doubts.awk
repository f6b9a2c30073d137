# Writes a script that leaves so many transactions in doubt at each of seven nodes, 64 at the most, and then settles them:
#     awk -v each=64 -f examples/many_doubts.awk > doubts.dtm
#     ./dtm RUN A=a.img B=b.img C=c.img D=d.img E=e.img F=f.img G=g.img H=h.img < doubts.dtm
# With settle=0 it ends before the SETTLE, so that the difference is what the settling takes. A transaction is committed at A, and its branch has voted and was not
# told: of its five messages four are delivered.
BEGIN {
    if (settle == "") settle = 1
    split("B C D E F G H", nodes, " ")
    print "A: INIT 512 1024"
    for (n = 1; n <= 7; n++) print nodes[n] ": INIT"
    print "A: BOOT"
    for (n = 1; n <= 7; n++) { print nodes[n] ": BOOT"; print nodes[n] ": CREATE F REL 1 100 64"; print nodes[n] ": SET_FILE F RU" }
    message = 0
    for (n = 1; n <= 7; n++)
        for (i = 1; i <= each; i++) {
            t = nodes[n] i
            print "A: START_TRANS T" t
            print "A: ADD_BRANCH T" t " " nodes[n] " U" t
            print nodes[n] ": START_BRANCH U" t
            print "DELIVER " message + 1; print "DELIVER " message + 2
            print nodes[n] ": PUT U" t " F " i " \"a\""
            print nodes[n] ": END_BRANCH U" t
            print "A: END_TRANS T" t
            print "DELIVER " message + 3; print "DELIVER " message + 4
            message += 5
        }
    if (settle) print "SETTLE"
}
