; straight - a straight line: every word is executed once, from start to finish.
;
; Two data words a = 12 and b = 30 are swapped into r1 and r2, their sum and
; product are xored into r3 and r4 (which are 0), and r1 and r2 are swapped
; back into memory. ld exchanges register and memory word, so the same ld a
; second time undoes the first.
;
; br stays 0 in the whole program, so pc grows by 1 in every turn.
; 12 words are executed: 12 turns, then refusal 12.

        start
        ld   r1, a            ; r1 = 12, the word a becomes 0
        ld   r2, b            ; r2 = 30, the word b becomes 0
        arib add, r3, r1, r2  ; r3 = 0 xor (12 + 30) = 42
        arib mul, r4, r1, r2  ; r4 = 0 xor (12 * 30) = 360
        swap r3, r5           ; r5 = 42, r3 = 0
        ari  not, r3, r5      ; r3 = 0 xor (not 42) = 4294967253
        addi r3, 44           ; r3 = 4294967253 + 44 = 1, modulo 4294967296
        neg  r3               ; r3 = 4294967295, that is -1
        uni  x, r4            ; bit 0 of r4 is flipped: 361
        ld   r2, b            ; b = 30 again, r2 = 0
        ld   r1, a            ; a = 12 again, r1 = 0
        finish

        .data
a:      .word 12
b:      .word 30
