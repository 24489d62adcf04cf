session Bob
run
"Who may write an object may carry it off. Of the objects with reduced conflicts none can be."
Orders assignToSegment: System myUserProfile defaultSegment
%
run
Inbox assignToSegment: System myUserProfile defaultSegment
%
commit
