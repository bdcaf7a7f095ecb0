X3 0.1 1.1 0.2 1.2
I x 0
I made 0
I seen [0,0]
B 0.1 Read 0
E 0.1 done 0
V x 0
V made 0
V seen [0,0]
B 1.1 Read 1
E 1.1 done 0
V x 0
V made 0
V seen [0,0]
B 0.2 Write 0
E 0.2 done
V x 1
V made 1
V seen [0,0]
B 1.2 Write 1
E 1.2 done
V x 1
V made 2
V seen [0,0]
here NothingLost answers FALSE; where fewer calls are made it answers TRUE
run shows these calls with the schedule 0! 1! 0! 1!
