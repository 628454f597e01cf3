; first - the smallest exercise: the example image of the crank program.
;
; M = 4, K = 3, N = 0; all registers, qifv and qifw are 0; no preface.
; Two turns are made (start, xori), then finish is at pc: refusal 12.

        start
        xori r1, 5            ; r1 = 0 xor 5 = 5
        finish

        .data
        .word 0               ; one data word, not used
