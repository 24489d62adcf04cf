session DataCurator
printit
"The cascade sends cr and the second show: to the Transcript, too."
Transcript show: 'ab' , 'c'; cr; show: 3 printString. 7
%
run
1 to: 3 do: [:i | Transcript show: i printString , ' squared is ' , (i * i) printString; cr]
%
run
"What was shown before an error is shown."
Transcript show: 'so far'. 1 // 0
%
printit
"The end of a line and a backslash are written so that a reply stays in its line."
Transcript show: '\'. 'two
lines'
%
