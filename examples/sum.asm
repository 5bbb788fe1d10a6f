; TinyRAM V=2.000 M=vn W=32 K=16
; Answers 0 exactly where the first word of the primary tape is the sum of the words after it, modulo 2^32.

        read r1, 0        ; what is left of the sum
_next:  read r2, 0        ; the next word; the flag is 1 at the tape's end
        cjmp _end
        sub r1, r1, r2
        jmp _next
_end:   answer r1
