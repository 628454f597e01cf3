; unclean - the exercise clean without its second half: r3 = a * b + 8, and the
; helpers stay as they are.
;
; At the end r1, r2, r4 and r5 are not 0, the words a and b are 0 and the
; ancilla word anc holds 42. On one basis state nothing is lost, and turning
; back works as well as in clean. In a superposition of several a and b the
; helpers would stay entangled with the result.
;
; 9 words are executed: 9 turns, then refusal 12.

        start
        ld   r1, a            ; r1 = 6
        ld   r2, b            ; r2 = 7
        arib mul, r4, r1, r2  ; r4 = 42
        ld   r4, anc          ; anc = 42, r4 = 0
        xori r5, anc          ; r5 = address of anc
        fetr r4, r5           ; r4 = 0 xor 42
        addi r4, 8            ; r4 = 50

        xor  r3, r4           ; copy: r3 = 50
        finish

        .data
a:      .word 6
b:      .word 7
anc:    .word 0
