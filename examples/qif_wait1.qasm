; qif_wait1 - a qif with unequal branches, coin 1.
;
;   qif[r1] |0> -> X[r2]   |1> -> X[r2]; CNOT[r2, r3]; X[r4]   fiq
;
; Words between qif and fiq:
;   coin 0: b0, one gate, b1, b3              4 words
;   coin 1: b0, b2, three gates, b3           6 words
; so the branch of coin 0 waits 2 cycles: w = 2 in node zero, w = 0 in node one.
; With either coin the whole program makes 1 + 1 + 6 + 1 = 9 turns and ends at
; node after.
;
; Here the coin r1 is 1: the qif leads to node one with w = 0 and takes one turn;
; nothing waits. Result: r2 = r3 = r4 = 1.
; qif_wait0 and qif_wait1 differ in the coin only.

        start
        qif  r1
b0:     bnz  r1, b2           ; coin 1 goes to b2
        uni  x, r2            ; the branch of coin 0
b1:     bra  b3
b2:     bra  from b0          ; the branch of coin 1
        uni  x, r2
        unib cnot, r2, r3
        uni  x, r4
b3:     bez  r1, from b1      ; coin 0 lands here
        fiq  r1
        finish

        .reg  r1 1            ; the coin
        .qifv root
        .node root  fc0=zero fc1=one lc0=zero lc1=one nx=after
        .node zero  cf=root cl=root w=2
        .node one   cf=root cl=root w=0
        .node after pr=root
