; Fetches food along a corridor: one block, which is used three times.

block step done                 ; a step ahead; turns left as long as the way is barred
try:
    Move done next
    Turn Left try
end

search:                         ; the start
    PickUp carry next
    use step search
carry:
    Sense Here home next Home
    use step carry
home:
    Drop next
    use step search             ; away from the hill, so that the particle stays there
