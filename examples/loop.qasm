; loop - a loop with bez and bnz: r3 = 5 + 4 + 3 + 2 + 1 = 15.
;
; A jump xors its offset into br; pc then grows by br. Where the jump lands,
; the same offset must be xored into br again, so that br is 0 and the program
; goes on word by word. "bra l0" is the jump to l0; "bnz r2, from l2" is the
; landing of the jump that stands at l2. Both hold the same offset.
;
; l0 is reached in two ways: from above with r2 = 0, and from l2 with r2 not 0.
; r2 counts the rounds; it tells the two ways apart, forward (bnz r2) and when
; turning back. In the same way r1 = 0 tells whether l3 was reached from l1.
;
; Turns: 2 before the loop, 5 rounds of 6, and l0, l1, l3: 2 + 30 + 3 = 35.

        start
        xori r1, 5            ; r1: what is still to be added
l0:     bnz  r2, from l2      ; landing; does nothing on the first arrival
l1:     bez  r1, l3           ; leave the loop when r1 is 0
        add  r3, r1           ; r3: the sum
        subi r1, 1
        addi r2, 1            ; r2: the number of rounds
l2:     bra  l0               ; br = l0 - l2 = -5
l3:     bra  from l1          ; landing; br = 5 becomes 0
        finish
