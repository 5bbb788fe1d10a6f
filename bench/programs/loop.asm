; TinyRAM V=2.000 M=vn W=32 K=16
; A tight loop: 3 * 20,000,000 steps, and answers 0.
_next:  add r1, r1, 1
        cmpe r1, 20000000
        cnjmp _next
        sub r1, r1, 20000000
        answer r1
