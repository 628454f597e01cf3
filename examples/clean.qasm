; clean - compute, copy the result, uncompute: r3 = a * b + 8 with every helper
; put back to 0.
;
; a = 6, b = 7. The product is kept in the ancilla word anc, the sum is formed
; in the ancilla register r4, r5 holds an address. After the result has been
; copied into r3 the same words are undone in reverse order. At the end a and b
; are back in memory, anc is 0, and of the registers only pc and r3 are not 0.
;
; Compare with the exercise unclean, which stops after the copy.
; 16 words are executed: 16 turns, then refusal 12.

        start
        ld   r1, a            ; r1 = 6
        ld   r2, b            ; r2 = 7
        arib mul, r4, r1, r2  ; r4 = 42
        ld   r4, anc          ; anc = 42, r4 = 0
        xori r5, anc          ; r5 = address of anc
        fetr r4, r5           ; r4 = 0 xor 42
        addi r4, 8            ; r4 = 50

        xor  r3, r4           ; copy: r3 = 50

        subi r4, 8            ; and now everything else back, last word first
        fetr r4, r5           ; r4 = 0
        xori r5, anc          ; r5 = 0
        ld   r4, anc          ; r4 = 42, anc = 0
        arib mul, r4, r1, r2  ; r4 = 0
        ld   r2, b
        ld   r1, a
        finish

        .data
a:      .word 6
b:      .word 7
anc:    .word 0
