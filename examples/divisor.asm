; TinyRAM V=2.000 M=vn W=16 K=16
; Words of 16 bits. Answers the greatest common divisor of the two words of the primary tape, by Euclid's algorithm.

        read r1, 0
        read r2, 0
_next:  cmpe r2, 0
        cjmp _end
        umod r3, r1, r2
        mov r1, r2
        mov r2, r3
        jmp _next
_end:   answer r1
