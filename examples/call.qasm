; call - a subroutine called from two places with swbr; it returns to each of
; them and leaves r2, ro and br at 0.
;
; The caller puts the offset from its swbr to the entry into r2 and swaps it
; with br. The subroutine keeps it in ro, negates it, and at its end swaps it
; back into br: pc goes back to the same swbr, which takes the negated offset
; into r2. Then the caller undoes the computation of r2.
;
; The entry and the exit of the subroutine are the same word, P.ent. The last
; word of the body jumps to P.beg, just before P.ent.
;
; Two calls with r1 = 7: r3 = 7 * 2 + 7 * 2 = 28.
; Turns: start and xori 2; each call 8 words, its swbr twice: 9; each run of
; the subroutine swbr, neg, add, add, bra, bra, swbr: 7. 2 + 2 * 16 = 34.

        start
        xori r1, 7            ; the argument

        xori r2, P.ent        ; r2 = address of the entry
        sub  r2, pc           ; less the address of this word
        subi r2, 2            ; less 2: the offset from the swbr below
        swbr r2               ; first time: go to P.ent. second time: go on
        addi r2, 2            ; r2 = -(offset) + 2
        sub  r2, pc           ; r2 = -(address of the entry)
        neg  r2
        xori r2, P.ent        ; r2 = 0

        xori r2, P.ent        ; the same call from another place
        sub  r2, pc
        subi r2, 2
        swbr r2
        addi r2, 2
        sub  r2, pc
        neg  r2
        xori r2, P.ent
        finish

P.beg:  bra  from P.end       ; landing of the jump at P.end
P.ent:  swbr ro               ; entry: ro = offset, br = 0. exit: br = ro, ro = 0
        neg  ro
        add  r3, r1
        add  r3, r1
P.end:  bra  P.beg
