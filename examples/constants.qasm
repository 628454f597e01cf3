; constants - constants beside the code: r3 = 1000003 * r4 + 3000017 with every
; helper put back to 0.
;
; A word above 65,535 fits in no immediate. These two stand in the code, and fetr
; copies them into r2: it may read any address below M. ld and ldr, which exchange,
; would be refused by 15 there. No turn changes a code word, so a second fetr of
; the same word makes r2 0 again.
; The word a is jumped over, b stands behind finish, and so no turn comes to either.
; There are no data words: K and M are 16. The command check of bench gives 7 and
; address 2, since a is no instruction.
; 13 words are executed: 13 turns, then refusal 12.

        start
l0:     bra  l1               ; jump over a
a:      .word 1000003
l1:     bra  from l0          ; landing of the jump at l0

        xori r1, a            ; r1 = address of a
        fetr r2, r1           ; r2 = 1000003
        arib mul, r3, r2, r4  ; r3 = 1000003 * 5
        fetr r2, r1           ; r2 = 0
        xori r1, a            ; r1 = 0

        xori r1, b            ; r1 = address of b
        fetr r2, r1           ; r2 = 3000017
        add  r3, r2           ; r3 = 8000032
        fetr r2, r1           ; r2 = 0
        xori r1, b            ; r1 = 0
        finish
b:      .word 3000017

        .reg r4 5
