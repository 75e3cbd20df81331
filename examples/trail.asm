; Looks for food, carries it home, and marks the way: the marks count the steps from home, 0, 1, 2, 0, 1, 2 and so on.

block turn done                 ; turns to one side or the other
    Flip 2 next right
    Turn Left done
right:
    Turn Right done
end

block step done                 ; takes a step, and turns as long as the way is barred
try:
    Move done next
    use turn try
end

block mark zero one two none    ; goes by the mark of this cell
    Sense Here zero next Marker 0
    Sense Here one next Marker 1
    Sense Here two none Marker 2
end

block out_to_1 done             ; a step; a cell without a mark gets mark 1
    use step next
    use mark done done done next
    Mark 1 done
end

block out_to_2 done
    use step next
    use mark done done done next
    Mark 2 done
end

block out_to_0 done
    use step next
    use mark done done done next
    Mark 0 done
end

block back_to_0 done            ; turns until mark 0 is ahead, or at random not so long; then a step
look:
    Sense Ahead go next Marker 0
    Flip 12 go next
    Turn Right look
go:
    use step done
end

block back_to_1 done
look:
    Sense Ahead go next Marker 1
    Flip 12 go next
    Turn Right look
go:
    use step done
end

block back_to_2 done
look:
    Sense Ahead go next Marker 2
    Flip 12 go next
    Turn Right look
go:
    use step done
end

    Mark 0 search               ; the start, on the hill
search:
    Sense Here wander next Home ; what lies on the hill stays there
    PickUp carry wander
wander:
    Flip 6 next ahead
    use turn ahead
ahead:
    use mark from_0 from_1 from_2 astray
from_0:
    use out_to_1 search
from_1:
    use out_to_2 search
from_2:
    use out_to_0 search
astray:
    use step search

carry:
    Sense Here home next Home
    use mark to_2 to_0 to_1 lost
to_2:
    use back_to_2 carry
to_0:
    use back_to_0 carry
to_1:
    use back_to_1 carry
lost:
    Flip 4 next on
    use turn on
on:
    use step carry
home:
    Drop search
