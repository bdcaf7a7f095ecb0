X3 0.1 1.1 2.1
I holder [-1,-1,-1]
B 0.1 Left 0
E 0.1 done TRUE
V holder [0,-1,-1]
B 1.1 Left 1
E 1.1 done TRUE
V holder [0,1,-1]
B 2.1 Left 2
E 2.1 done TRUE
V holder [0,1,2]
here SomebodyGoesOn answers FALSE; where fewer calls are made it answers TRUE
run shows these calls with the schedule 0! 1! 2!
