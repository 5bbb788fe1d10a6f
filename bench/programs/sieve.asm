; TinyRAM V=2.000 M=vn W=32 K=16
; The sieve of Eratosthenes below 4,000,000, a byte a number from 16,777,216 on; answers the number of primes
; less 283,146.
        mov r7, 1
        mov r1, 2
_next:  add r3, r1, 16777216
        load.b r2, r3
        cmpe r2, 0
        cnjmp _on
        add r4, r4, 1
        cmpa r1, 2000
        cjmp _on
        mull r5, r1, r1
_cross: add r6, r5, 16777216
        store.b r6, r7
        add r5, r5, r1
        cmpae r5, 4000000
        cnjmp _cross
_on:    add r1, r1, 1
        cmpae r1, 4000000
        cnjmp _next
        sub r4, r4, 283146
        answer r4
