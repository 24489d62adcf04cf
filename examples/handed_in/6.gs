session Ann
run
Mine at: 1 put: 3; at: 2 put: nil
%
printit
(Journal at: 1) amount
%
printit
(Journal at: 1) text
%
