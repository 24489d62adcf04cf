session Alice
printit
"Side by side with Bob, who posts to another account. What both add to the list is merged."
Posts add: #a. Checking post: 10
%
commit
printit
Posts add: #a. Checking post: 5
%
commit
session Bob
printit
Posts add: #b. Savings post: 20
%
commit
printit
Posts add: #b. Savings post: 1
%
commit
