session Bob
printit
"Another clerk goes on with an order of Ann's, and its log has both."
(Orders at: 1) amount: 350.
(Orders at: 1) log inject: '' into: [:all :each | all , each , ' ']
%
printit
(Orders at: 2) last
%
run
(Orders at: 2) add: 50
%
run
"Which object was that? Each suspect gets a name of Bob's, and is asked for by a lock."
UserGlobals at: #First put: (Orders at: 1); at: #Second put: (Orders at: 2)
%
lock read First
lock read Second
unlock First
unlock Second
run
UserGlobals removeKey: #First; removeKey: #Second
%
commit
