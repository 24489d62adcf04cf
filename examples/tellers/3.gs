session DataCurator
printit
"The sums are the same whatever the tellers' order was."
Till balance
%
printit
Posts occurrencesOf: #Ann
%
printit
Posts occurrencesOf: #Bob
%
commit
