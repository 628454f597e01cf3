; length - a length that runs below zero: pieces of 30 are cut off 100 until the
; length is below 0; r4 = what was missing for the last piece.
;
; arib lt compares both words as signed, two's complement. r1 runs over 100, 70,
; 40 and 10 to 4294967276, which is -20 and less than 0. Taken as it stands no word
; is less than 0, and the loop would not end. ro is 0 in the whole program.
;
; r3 stays 0 until the last comparison of the loop, which makes it 1; the same arib,
; behind the loop, makes it 0 again.
;
; Turns: 2 before the loop, 4 rounds of 6, l0 to l1, and 3: 2 + 24 + 3 + 3 = 32.

        start
        xori r1, 100          ; r1: the length
l0:     bnz  r2, from l2      ; landing; does nothing on the first arrival
        arib lt, r3, r1, ro   ; r3 = 1 if the length is below 0
l1:     bnz  r3, l3           ; leave the loop then
        subi r1, 30
        addi r2, 1            ; r2: the number of pieces
l2:     bra  l0               ; br = l0 - l2 = -5
l3:     bra  from l1          ; landing; br = 4 becomes 0
        arib lt, r3, r1, ro   ; r3 = 0 again
        ari  neg, r4, r1      ; r4 = 20
        finish
