; qif_nested10 - a qif inside the branch of coin 1 of another qif.
;
;   qif[r1] |0> -> X[r3]
;           |1> -> qif[r2] |0> -> X[r4]   |1> -> X[r5]; X[r6]   fiq
;   fiq
;
; Inner qif, words between qif and fiq:
;   coin 0: b0, one gate, b1, b3              4 words    w = 1 in node in0
;   coin 1: b0, b2, two gates, b3             5 words    w = 0 in node in1
; so the inner qif takes 1 + 5 + 1 = 7 turns with either coin r2.
; Outer qif, turns between qif and fiq:
;   coin 0: a0, one gate, a1, a3              4 turns    w = 6 in node out0
;   coin 1: a0, a2, the inner qif (7), a3    10 turns    w = 0 in node out1
; so with any coins the whole program makes 1 + 1 + 10 + 1 = 13 turns and ends
; at node after.
;
; The inner qif starts at node out1 and its fiq leads to node out1.after. That
; node, not out1, is the last child of root for coin 1: lc1 and fc1 differ.
; w is read by a qif from the first child, so the wait of an outer branch
; stands in out0 and out1.
;
; Here r1 = 1, r2 = 0: no wait at the outer qif, one at the inner. Result: r4 = 1.
; The exercises qif_nested0, qif_nested10 and qif_nested11 differ in the coins only;
; qif_nested11 has its table made by the assembler, which draws the same one.

        start
        qif  r1
a0:     bnz  r1, a2           ; coin 1 goes to a2
        uni  x, r3            ; the branch of coin 0
a1:     bra  a3
a2:     bra  from a0          ; the branch of coin 1
        qif  r2
b0:     bnz  r2, b2
        uni  x, r4
b1:     bra  b3
b2:     bra  from b0
        uni  x, r5
        uni  x, r6
b3:     bez  r2, from b1
        fiq  r2
a3:     bez  r1, from a1      ; coin 0 lands here
        fiq  r1
        finish

        .reg  r1 1            ; the outer coin
        .reg  r2 0            ; the inner coin
        .qifv root
        .node root       fc0=out0 fc1=out1 lc0=out0 lc1=out1.after nx=after
        .node out0       cf=root cl=root w=6
        .node out1       cf=root fc0=in0 fc1=in1 lc0=in0 lc1=in1 nx=out1.after w=0
        .node in0        cf=out1 cl=out1 w=1
        .node in1        cf=out1 cl=out1 w=0
        .node out1.after pr=out1 cl=root
        .node after      pr=root
